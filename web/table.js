// A table: room lent to the engine, what is asked of it, and its three lists as they lie there.
import { NONE } from "./engine.js";

export const ROOM = { dimensions: 4, vertices: 256, elements: 512, hyperplanes: 64, boundary: 32 };

const ELEMENT_WORDS = 4 + ROOM.boundary;
const PLANE_FLOATS = 1 + ROOM.dimensions;
const PARTS = [
    [Uint16Array, 4],
    [Float64Array, ROOM.vertices * ROOM.dimensions],
    [Float64Array, ROOM.hyperplanes * PLANE_FLOATS],
    [Uint16Array, ROOM.elements * ELEMENT_WORDS],
];
const OFFSETS = [];
export const TABLE_BYTES = PARTS.reduce((at, [type, length]) => {
    OFFSETS.push(at);
    return (at + type.BYTES_PER_ELEMENT * length + 15) & ~15;
}, 0);

export class Table {
    constructor(engine) {
        const at = engine.lend(TABLE_BYTES);
        this.engine = engine;
        this.bytes = new Uint8Array(engine.memory, at, TABLE_BYTES);
        this.lent = PARTS.flatMap(([, length], i) => [at + OFFSETS[i], BigInt(length)]);
        [this.counts, this.points, this.planes, this.words] =
            PARTS.map(([type, length], i) => new type(engine.memory, at + OFFSETS[i], length));
    }

    restore(bytes) {
        this.bytes.set(bytes);
    }

    // ---- asked of the engine

    isSound() {
        return this.engine.isSound(this.lent) === 0;
    }

    cube(dimension, radius) {
        return this.engine.cube(this.lent, dimension, radius);
    }

    cut(asked) {
        return this.engine.cut(this.lent, asked);
    }

    cutAll(asked) {
        return this.engine.cutAll(this.lent, asked);
    }

    touch(asked) {
        return this.engine.touch(this.lent, asked);
    }

    // one of the six questions, by its name, with its reply's number
    ask(question, ...words) {
        return this.engine[question](this.lent, ...words);
    }

    // for elements that are in use: the list alone, and nothing of what was refused
    list(question, ...words) {
        return this.ask(question, ...words).list ?? [];
    }

    // the vertices of a face in the order of its walk; none where the engine refuses one
    walk(face) {
        return this.list("edgesInOrder", face).filter((_, i) => i % 2 === 0);
    }

    // ---- the three lists, read

    get dimension() {
        return this.counts[0];
    }

    get sizes() {
        return { elements: this.counts[1], vertices: this.counts[2], hyperplanes: this.counts[3] };
    }

    has(e) {
        return e < this.counts[1];
    }

    vertex(v) {
        return [...this.points.subarray(v * ROOM.dimensions, v * ROOM.dimensions + this.dimension)];
    }

    hyperplane(h) {
        const at = h * PLANE_FLOATS;
        return { normal: [...this.planes.subarray(at, at + this.dimension)], distance: this.planes[at + ROOM.dimensions] };
    }

    rank(e) {
        return this.words[e * ELEMENT_WORDS];
    }

    isFull(e) {
        return this.has(e) && this.rank(e) === this.dimension;
    }

    // a vertex element names its vertex; a polytope has a boundary of element numbers, and a facet a hyperplane
    element(e) {
        const [rank, mark, plane, count, ...room] = this.words.subarray(e * ELEMENT_WORDS, (e + 1) * ELEMENT_WORDS);
        const numbers = room.slice(0, count);
        if (rank === 0) return { rank, vertex: numbers[0], boundary: [], hyperplane: null, primordial: false };
        return { rank, vertex: null, boundary: numbers, hyperplane: plane === NONE ? null : plane, primordial: mark === 1 };
    }

    // the element of each vertex, for vertex elements name vertices 0, 1, 2 .. in order
    cornerElements() {
        const corners = [];
        for (let e = 0; this.has(e); e++) if (this.rank(e) === 0) corners.push(e);
        return corners;
    }
}
