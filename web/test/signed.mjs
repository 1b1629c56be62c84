// Document 01's tolerance and signed distance: the products in the order of the axes, and then the plane's distance.

export const T = 2 ** -20;

export function signed(normal, distance, point) {
    let sum = 0;
    for (let axis = 0; axis < normal.length; axis++) sum += normal[axis] * point[axis];
    return sum - distance;
}
