// Words for what the engine gives: ranks, refusals, entries. [E8], [v3] and [h4] stand for tags.
import { plain } from "./session.js";

export const RANKS = ["corner", "edge", "face", "body", "4D body"];
export const MANY = ["corners", "edges", "faces", "bodies", "4D bodies"];
export const SHAPES = ["", "segment", "square", "cube", "4D cube"];
export const AXES = ["x", "y", "z", "w"];

// the numbered replies of documents 01 and 02
export const REFUSALS = {
    1: "the dimension is not 1 to 4",
    2: "the radius is not a number from 1 to 65,536",
    3: "the table is not sound, or its room has another size",
    4: "an element number is not in use",
    5: "the normal is not unit, or the distance is not a number or finite beyond 262,144",
    6: "an element of another rank or kind is asked for",
    7: "an edge would not have two ends, or the edges of a face do not go round once",
    8: "there is no room for another vertex",
    9: "there is no room for another element",
    10: "there is no room for another hyperplane",
    11: "a boundary would have more than 32 elements",
    12: "the room for the list or the file is too short",
    13: "the bytes are not laid out as a file",
    16: "the piece has a primordial facet",
    25: "a coordinate of a piece is no multiple of 1/1,024",
    26: "the list has more than its limit, or its parts do not belong together",
};

const sentence = (words) => `${words[0].toUpperCase()}${words.slice(1)}.`;

const SMALL = ["no", "one", "two", "three", "four", "five", "six", "seven", "eight", "nine", "ten", "eleven", "twelve"];

export const count = (n, one, many) => `${SMALL[n] ?? n} ${n === 1 ? one : many}`;

export function runs(letter, from, to) {
    if (to - from === 1) return `[${letter}${from}]`;
    return `[${letter}${from}] ${to - from === 2 ? "and" : "to"} [${letter}${to - 1}]`;
}

// for reading on the page; a sheet and a session have all digits
export function short(x, digits = 5) {
    if (!Number.isFinite(x) || digits >= 17) return plain(x);
    return Math.abs(x) >= 1e-4 || x === 0 ? plain(Number(x.toPrecision(digits))) : x.toExponential(digits - 2);
}

// vertices by their tags, the first few
export const cornerNames = some => `${some.slice(0, 4).map(v => `[v${v}]`).join(", ")}${some.length > 4 ? " and more" : ""}`;

export const point = p => `(${p.map(plain).join(", ")})`;

// why a record or a question was refused, with what is wrong in it
export function refusal(number, { root, normal, distance, dimension }, table) {
    const reason = sentence(REFUSALS[number] ?? "this number is in no table of ours");
    if (number === 1 && dimension !== undefined) return `${reason} It is ${dimension}.`;
    if (number === 4 && Number.isInteger(root))
        return `There is no element ${root}: ${table.sizes.elements === 0 ? "none is in use" : `in use are ${runs("E", 0, table.sizes.elements)}`}. ` +
            "Vertices and hyperplanes are other lists, with numbers of their own.";
    if (number === 5 && normal?.every(Number.isFinite) && (Math.abs(distance) <= 262144 || Math.abs(distance) === Infinity))
        return `The normal is not unit: its squares add up to ${short(normal.reduce((sum, x) => sum + x * x, 0))}, not to 1.`;
    return reason;
}

// an entry in a few words
export function describe(table, { list, n }) {
    if (list === "v") {
        const e = table.cornerElements()[n];
        return `[v${n}] is the vertex at ${point(table.vertex(n))}. Its element is [E${e}]${e === n ? "." : `; [E${n}] is something else.`}`;
    }
    if (list === "h") {
        const { normal, distance } = table.hyperplane(n);
        return `[h${n}] is the hyperplane with normal ${point(normal)} and distance ${plain(distance)}.`;
    }
    const { rank, vertex, boundary, hyperplane, primordial } = table.element(n);
    if (rank === 0) return `[E${n}] is the corner at [v${vertex}] ${point(table.vertex(vertex))}.`;
    const [a, b] = rank === 1 ? boundary.map(c => table.element(c).vertex) : [];
    const what = rank === 1 ? ` from [v${a}] to [v${b}]` : ` with ${count(table.list("vertexSet", n).length, "corner", "corners")}`;
    const where = hyperplane === null ? "" : ` in [h${hyperplane}]${primordial ? ", of the first cube" : ""}`;
    return `[E${n}] is ${rank === 1 ? "an" : "a"} ${RANKS[rank]}${what}${where}.`;
}
