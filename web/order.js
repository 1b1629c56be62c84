// Which piece hides which, for drawing alone: a plane of the table that parts two pieces tells.
import { dot } from "./plane.js";

const HAIR = 1e-5;

// how far a piece reaches below and above each hyperplane of the table
function reaches(shapes, piece) {
    const { table } = shapes;
    return shapes.once(`reach ${table.sizes.hyperplanes}`, piece, () =>
        Array.from({ length: table.sizes.hyperplanes }, (_, h) => {
            const { normal, distance } = table.hyperplane(h);
            const heights = shapes.corners(piece).map(p => dot(normal, p) - distance);
            return { normal, low: Math.min(...heights), high: Math.max(...heights) };
        }));
}

// whether a has to be drawn before b, seen from a direction
function isBehind(a, b, towards) {
    for (let h = a.length - 1; h >= 0; h--) {
        const way = a[h].low > -HAIR && b[h].high < HAIR ? 1 : b[h].low > -HAIR && a[h].high < HAIR ? -1 : 0;
        if (way !== 0) return way * dot(a[h].normal, towards) < -1e-9;
    }
    return false;
}

// the pieces from the farthest to the nearest
export function farToNear(shapes, pieces, towards) {
    const left = [...pieces].sort((a, b) => dot(shapes.middle(a), towards) - dot(shapes.middle(b), towards));
    const reach = new Map(left.map(e => [e, reaches(shapes, e)]));
    const behind = new Map(left.map(a => [a, new Set(left.filter(b => a !== b && isBehind(reach.get(b), reach.get(a), towards)))]));
    const order = [];
    while (left.length > 0) {
        const free = Math.max(0, left.findIndex(a => behind.get(a).size === 0));
        const [next] = left.splice(free, 1);
        order.push(next);
        for (const waits of behind.values()) waits.delete(next);
    }
    return order;
}
