// The shapes of a table as they are drawn, each asked of the engine once. Old entries keep number and content whatever is cut, so
// what is known of a table stays known of every table that goes on from it: `older` has the shapes of its first elements.
import { dot, along } from "./plane.js";

export function middle(points) {
    return points[0].map((_, axis) => points.reduce((sum, p) => sum + p[axis], 0) / points.length);
}

// the direction that a face in space looks to, away from a point
function outward(loop, inner) {
    const out = [0, 0, 0];
    loop.forEach((p, i) => {
        const q = loop[(i + 1) % loop.length];
        out[0] += (p[1] - q[1]) * (p[2] + q[2]);
        out[1] += (p[2] - q[2]) * (p[0] + q[0]);
        out[2] += (p[0] - q[0]) * (p[1] + q[1]);
    });
    const length = Math.sqrt(dot(out, out)) || 1;
    const sign = dot(out, along(middle(loop), inner, -1)) < 0 ? -1 : 1;
    return out.map(x => sign * x / length);
}

// three directions within a hyperplane of four dimensions; those of the axes where it is one of the cube's
function basisOf(normal) {
    const steepest = normal.reduce((best, x, i) => (Math.abs(x) > Math.abs(normal[best]) ? i : best), 0);
    const basis = [];
    for (let i = 0; i < 4; i++) {
        if (i === steepest) continue;
        let v = [0, 1, 2, 3].map(k => (k === i ? 1 : 0));
        for (const other of [normal, ...basis]) v = along(v, other, -dot(v, other));
        basis.push(v.map(x => x / Math.sqrt(dot(v, v))));
    }
    return basis;
}

export class Shapes {
    constructor(table, older = null) {
        this.table = table;
        this.older = older;
        this.upTo = older ? older.size : 0;
        this.size = table.sizes.elements;
        this.known = new Map(); // by kind, then by element
    }

    once(kind, e, work) {
        let home = this;
        while (e < home.upTo) home = home.older;
        let known = home.known.get(kind);
        if (!known) home.known.set(kind, known = new Map());
        if (!known.has(e)) known.set(e, work(home.table));
        return known.get(e);
    }

    vertices(e) {
        return this.once("vertices", e, table => table.list("vertexSet", e));
    }

    corners(e) {
        return this.once("corners", e, table => this.vertices(e).map(v => table.vertex(v)));
    }

    middle(e) {
        return this.once("middle", e, () => middle(this.corners(e)));
    }

    ends(edge) {
        return this.once("ends", edge, table => table.element(edge).boundary.map(c => table.element(c).vertex));
    }

    // the vertices of a face in the order of the engine's walk
    loop(face) {
        return this.once("loop", face, table => table.walk(face));
    }

    withRank(e, rank) {
        return this.once(`rank ${rank}`, e, table => table.list("withRank", e, rank));
    }

    subelements(e) {
        return this.once("below", e, table => new Set(table.list("subelements", e)));
    }

    // the three directions in which an element of rank 3 is drawn: space itself, or those of its hyperplane
    basis(body) {
        return this.once("basis", body, table => {
            const { hyperplane } = table.element(body);
            if (table.dimension === 3) return [[1, 0, 0], [0, 1, 0], [0, 0, 1]];
            return basisOf(hyperplane === null ? [0, 0, 0, 1] : table.hyperplane(hyperplane).normal);
        });
    }

    // an element of rank 3: its faces as loops of points in space with the direction away from it, and each edge's faces
    hull(body) {
        return this.once("hull", body, table => {
            const basis = this.basis(body);
            const place = p => basis.map(way => dot(way, p));
            const inner = place(this.middle(body));
            const edges = new Map();
            const faces = table.element(body).boundary.map(face => {
                for (const edge of table.element(face).boundary) edges.set(edge, [...(edges.get(edge) ?? []), face]);
                const loop = this.loop(face).map(v => place(table.vertex(v)));
                return { face, loop, out: loop.length > 2 ? outward(loop, inner) : [0, 0, 0] };
            });
            const ends = new Map([...edges.keys()].map(edge => [edge, this.ends(edge).map(v => place(table.vertex(v)))]));
            return { faces, edges, ends, inner };
        });
    }
}
