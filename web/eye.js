// From space to paper: x to the right, y down, z towards the eye; one unit of paper is one pixel.
import { along } from "./plane.js";

const DEGREE = Math.PI / 180;
const FAR = 4; // the eye's place on the fourth axis, in radii

export class Eye {
    constructor({ dimension, radius, width, height, yaw = 30, pitch = 35, roll = 0, apart = 0, zoom = 1 }) {
        Object.assign(this, { dimension, radius, width, height });
        this.flat = dimension < 3;
        const share = this.flat ? 0.285 : dimension === 3 ? 0.27 : 0.22;
        this.scale = zoom * share * Math.min(width, height) / (radius * (1 + 0.75 * apart));
        const [a, b] = [yaw * DEGREE, pitch * DEGREE];
        const [ca, sa, cb, sb] = [Math.cos(a), Math.sin(a), Math.cos(b), Math.sin(b)];
        this.right = this.flat ? [1, 0, 0] : [-sa, ca, 0];
        this.up = this.flat ? [0, 1, 0] : [-sb * ca, -sb * sa, cb];
        this.towards = this.flat ? [0, 0, 1] : [cb * ca, cb * sa, sb];
        this.rolled = [Math.cos(roll * DEGREE), Math.sin(roll * DEGREE)];
    }

    // a point of the table in three dimensions: of four, what is far on the fourth axis is drawn small
    inSpace(p) {
        if (p.length < 4) return [p[0], p[1] ?? 0, p[2] ?? 0];
        const [c, s] = this.rolled;
        const z = c * p[2] - s * p[3], w = s * p[2] + c * p[3];
        const k = FAR * this.radius / Math.max(FAR * this.radius - w, 0.2 * this.radius);
        return [k * p[0], k * p[1], k * z];
    }

    paper(p, shift = null) {
        const [x, y, z] = this.inSpace(shift ? along(p, shift, 1) : p);
        const { right, up, scale } = this;
        return { x: scale * (right[0] * x + right[1] * y + right[2] * z), y: -scale * (up[0] * x + up[1] * y + up[2] * z) };
    }

    // how a step along a direction of the table looks on paper
    way(normal) {
        const [from, to] = [this.paper(normal.map(() => 0)), this.paper(normal.map(x => x * this.radius))];
        return { x: (to.x - from.x) / this.radius, y: (to.y - from.y) / this.radius };
    }
}
