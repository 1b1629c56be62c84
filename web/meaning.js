// What an answer means, place by place. A cut adds entries to a table; a piece that the plane misses is its old entry; a side
// that is removed is not a side that was not worked out, and the face of the cut is there either way.
import { MANY, RANKS, SHAPES, cornerNames, count, refusal, runs, short } from "./words.js";
import { ask } from "./session.js";

export const STATES = { new: "new entry", old: "old entry", removed: "removed", nothing: "nothing there", none: "none" };

const E = e => `[E${e}]`;

// the corners of the root that lie on the plane: the engine answers flush for them, asked one by one on a copy of the table
function touched(copy, record) {
    const corners = copy.cornerElements();
    return copy.list("vertexSet", record.root).filter(v => ask(copy, { ...record, root: corners[v] }).flush);
}

// that the plane misses it, or at which corners it touches it
function missing(copy, record, what) {
    const on = touched(copy, record);
    if (on.length === 0) return `The plane misses ${what}`;
    return `The plane touches ${what} only at ${cornerNames(on)}`;
}

// the root itself is the answer: its old entry
function itself({ record, copy }, isKept) {
    const root = E(record.root);
    const always = Math.abs(record.distance) === Infinity ? "at an infinite distance the root is given whole" : "a corner is given on its side";
    if (!isKept) return `${root} itself, though this side is not kept: ${always}.`;
    if (copy.rank(record.root) === 0) return `${root} itself, its old entry: ${always}.`;
    return `${root} itself. ${missing(copy, record, "it")}, so the answer is its old entry, no copy.`;
}

function side(name, answer) {
    const { record, reply, before } = answer;
    const e = reply[name];
    const isKept = record.kept === "both" || record.kept === name;
    if (e === null && !isKept) return { e, state: "removed", says: "Removed, because this side is not kept. No entry was added for it." };
    if (e === null) return { e, state: "nothing", says: `This side is kept, but nothing of ${E(record.root)} lies there.` };
    if (e === record.root) return { e, state: "old", says: itself(answer, isKept) };
    if (e < before.elements) return { e, state: "old", says: `${E(e)}, an entry that was there already.` };
    return { e, state: "new", says: `${E(e)}, a new entry.` };
}

function noFace({ record, reply, copy }) {
    const root = E(record.root);
    if (copy.rank(record.root) === 0) return "None: a corner has no face of the cut.";
    if (Math.abs(record.distance) === Infinity) return `None: at an infinite distance the plane misses ${root}.`;
    if (reply.inside !== null && reply.outside !== null) return "None: the two sides share fewer elements than make a face.";
    if (touched(copy, record).length > 0) return `None: the plane only touches ${root}, at fewer elements than make a face.`;
    return `None: the plane misses ${root}.`;
}

function face(answer) {
    const { record, reply, before, table } = answer;
    const e = reply.face;
    if (e === null) return { e, state: "none", says: noFace(answer) };
    const { rank, vertex } = table.element(e);
    const corners = count(table.list("vertexSet", e).length, "corner", "corners");
    const what = rank === 0 ? `the corner at [v${vertex}]` : `${rank === 1 ? "an" : "a"} ${RANKS[rank]} with ${corners}`;
    const isOld = e < before.elements;
    const removed = { both: "", neither: " It is there although both sides are removed." }[record.kept] ?? " It is there although a side is removed.";
    const says = `${E(e)}, ${what}${isOld ? ", an entry that was there already" : ""}: what of ${E(record.root)} lies in the plane.${removed}`;
    return { e, state: isOld ? "old" : "new", says };
}

// what was added between two sizes of the table, in a sentence
export function addedWords(before, after, why = ": all that this cut needs is in the table already") {
    const parts = [["E", "elements", "element"], ["v", "vertices", "vertex"], ["h", "hyperplanes", "hyperplane"]]
        .filter(([, list]) => after[list] > before[list])
        .map(([letter, list, one]) => `${count(after[list] - before[list], one, list)}, ${runs(letter, before[list], after[list])}`);
    if (parts.length === 0) return `Nothing was added${why}.`;
    const text = parts.length === 1 ? parts[0] : `${parts.slice(0, -1).join("; ")}; and ${parts.at(-1)}`;
    return `Added to the table: ${text}. No old entry was changed or taken away.`;
}

function cubeSays({ record, after, table }) {
    const name = SHAPES[record.dimension];
    const last = after.elements - 1;
    const counts = Array.from({ length: record.dimension }, (_, rank) => `${table.list("withRank", last, rank).length} ${MANY[rank]}`);
    return [`A new table with the ${name} of radius ${short(record.radius)}: ${counts.join(", ")}, and the ${name} itself, ${E(last)}.`];
}

// nothing of how it came about is in a file
function openSays({ record, after }) {
    const counts = [["elements", "element"], ["vertices", "vertex"], ["hyperplanes", "hyperplane"]].map(([list, one]) => count(after[list], one, list));
    return [`The table of ${record.name}: ${counts.slice(0, 2).join(", ")} and ${counts[2]}. Every entry has the number that it had when it was saved.`,
        "A file holds a table and no session: which cuts added its entries it does not say. A cut that was made before answers as it did, and adds nothing."];
}

// { places, says }: the three places, or none, and sentences. `copy` is a copy of the table, for what is asked beside the answer
export function meaning(answer) {
    const { record, reply, before, after, table } = answer;
    if (reply.number !== 0)
        return { places: [], says: [refusal(reply.number, record, table), "A refused record leaves the table as it was."] };
    if (record.kind === "cube") return { places: [], says: cubeSays(answer) };
    if (record.kind === "open") return { places: [], says: openSays(answer) };
    const says = [addedWords(before, after)];
    if (reply.flush) return { places: [], says: [`${E(record.root)} lies in the plane: it is flush, and neither side can be told.`, ...says] };
    return {
        places: [
            { name: "inside", ...side("inside", answer) },
            { name: "outside", ...side("outside", answer) },
            { name: "face of the cut", ...face(answer) },
        ],
        says,
    };
}

// the answer of a cut that is aimed at, in a sentence
export function briefly({ record, reply, before, after, copy }) {
    if (reply.number !== 0) return refusal(reply.number, record, copy);
    if (reply.flush) return `${E(record.root)} lies in the plane.`;
    const n = ["elements", "vertices", "hyperplanes"].map(list => after[list] - before[list]);
    const adds = n.some(x => x > 0)
        ? `Would add ${count(n[0], "element", "elements")}, ${count(n[1], "vertex", "vertices")}, ${count(n[2], "hyperplane", "hyperplanes")}.`
        : "Would add nothing.";
    const isMissed = reply.face === null && (reply.inside === record.root || reply.outside === record.root) && copy.rank(record.root) > 0;
    if (!isMissed || Math.abs(record.distance) === Infinity) return adds;
    return `${missing(copy, record, E(record.root))}, so the answer is its old entry. ${adds}`;
}
