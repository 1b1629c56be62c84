// A table that was opened: its file holds no session, so how large it is drawn, which pieces lie on the bench, and whether vertices
// match are found out here.
import { Bench } from "./bench.js";
import { ask, checksum } from "./session.js";

const SIDES = ["inside", "outside"];
const MATCH = 2 ** -20;

// how far its vertices reach: of a table that came from a cube, the cube's radius
function reach(table) {
    const far = Array.from({ length: table.sizes.vertices }, (_, v) => table.vertex(v)).flat().map(Math.abs);
    return Math.max(0, ...far) || 1;
}

// what stands for the opening in a session: the file's name, and what tells it from others
export const openingOf = (name, file, table) =>
    ({ kind: "open", name, size: file.length, sum: checksum(file), dimension: table.dimension, radius: reach(table) });

// the pairs among the first vertices that match: every coordinate the same within 1/1,048,576
export function matching(table, count) {
    const points = Array.from({ length: count }, (_, v) => table.vertex(v));
    const isMatch = (p, q) => p.every((x, i) => Math.abs(x - q[i]) <= MATCH);
    return points.flatMap((p, a) => points.slice(a + 1).flatMap((q, k) => (isMatch(p, q) ? [[a, a + 1 + k]] : [])));
}

// the sides of an element that are entries already, for each plane of the table: the copy is asked, and nothing is added
function sidesOf(table, copy, root) {
    const { elements, vertices, hyperplanes } = table.sizes;
    const isSame = () => copy.sizes.elements === elements && copy.sizes.vertices === vertices;
    return Array.from({ length: hyperplanes }, (_, h) => {
        const plane = table.hyperplane(h);
        const [inside, outside] = SIDES.map(name => {
            const reply = ask(copy, { kind: "cut", kept: name, root, ...plane });
            const isThere = isSame() && reply.number === 0 && !reply.flush && reply[name] !== root;
            if (!isSame()) copy.restore(table.bytes);
            return isThere ? reply[name] : null;
        });
        return { record: { kind: "cut", root, ...plane }, reply: { number: 0, flush: false, inside, outside } };
    }).filter(({ reply }) => reply.inside !== null || reply.outside !== null);
}

// the cut that an element was cut by: one with both sides there, or else with one that was entered after it; of several the latest
function cutOf(sides) {
    const last = ({ reply: { inside, outside } }) => Math.max(inside, outside);
    const latest = some => some.sort((a, b) => last(b) - last(a))[0];
    const whole = sides.filter(({ reply }) => reply.inside !== null && reply.outside !== null);
    return latest(whole) ?? latest(sides.filter(one => last(one) > one.record.root));
}

// what lies on the bench, by answers alone: each piece that is no side of another, cut as far as the table has the sides
export function benchOf(table, copy) {
    copy.restore(table.bytes);
    const full = Array.from({ length: table.sizes.elements }, (_, e) => e).filter(e => table.isFull(e));
    const sides = new Map(full.map(e => [e, sidesOf(table, copy, e)]));
    const given = new Set([...sides.values()].flat().flatMap(({ reply }) => [reply.inside, reply.outside]));
    const benches = full.filter(e => !given.has(e)).map(first => {
        let bench = new Bench([first]);
        for (const done = new Set(), next = () => bench.pieces.find(e => !done.has(e)); next() !== undefined;) {
            const piece = next();
            const cut = cutOf(sides.get(piece));
            if (cut) bench = bench.after(cut.record, cut.reply, table);
            done.add(piece);
        }
        return bench;
    });
    const pieces = [...new Set(benches.flatMap(bench => bench.pieces))].sort((a, b) => a - b);
    return new Bench(pieces, new Map(benches.flatMap(bench => [...bench.sides])));
}
