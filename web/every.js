// One click that is many cuts: planes over every piece on the bench. What a plane is to cut is known once the plane before it is through,
// so each plane is a list of its own, and more than 64 pieces are several lists. A list is some cuts: the session has them as single ones.
import { MOST_CUTS } from "./engine.js";
import { addedWords } from "./meaning.js";
import { axis } from "./plane.js";
import { lineOf } from "./session.js";
import { count, refusal } from "./words.js";

// how many pieces a grid has along each axis; in four dimensions a table has room for no more
export const GRIDS = { 1: [[2], [3]], 2: [[2, 2], [3, 3]], 3: [[2, 2, 2], [3, 3, 3]], 4: [[2, 2, 1, 1]] };

export const gridName = along => along.join(" × ");

export const gridOf = (along, radius) => along.flatMap((many, i) =>
    Array.from({ length: many - 1 }, (_, k) => ({ normal: axis(along.length, i), distance: radius * (2 * k + 2 - many) / many })));

// the lists for a plane over these pieces
function listsOf(pieces, plane, kept) {
    const cuts = pieces.map(root => ({ kind: "cut", kept, root, ...plane }));
    return Array.from({ length: Math.ceil(cuts.length / MOST_CUTS) }, (_, i) => cuts.slice(i * MOST_CUTS, (i + 1) * MOST_CUTS));
}

// the click, as it is told in the end; the desk makes each list, and gives { number, at, answers } of it
export function everyPiece(desk, { name, planes, kept }) {
    const click = { name, planes: planes.length, aim: { ...desk.aim }, before: desk.live.sizes, cuts: 0, calls: 0, stopped: null };
    for (const [i, plane] of planes.entries())
        for (const list of listsOf(desk.bench.pieces, plane, kept)) {
            const { number, at, answers } = desk.makeAll(list, click);
            click.calls++;
            click.cuts += answers.length;
            if (number === 0) continue;
            click.stopped = { number, at, plane: i, list };
            return click;
        }
    return click;
}

// ---- what is said of it

function stoppedWords({ stopped: { number, at, plane, list }, planes, cuts }, table) {
    const where = `plane ${plane + 1} of ${planes}, ${count(list.length, "cut", "cuts")}`;
    const reason = `refused ${number}. ${refusal(number, list[at] ?? {}, table)}`;
    const stay = cuts === 0 ? "No cut was made before it" : cuts === 1 ? "The cut before it stays" : `The ${cuts} cuts before it stay`;
    return at === null
        ? [`The list of ${where}, is ${reason} None of its cuts was made. ${stay}.`]
        : [`Stopped at position ${at}, counted from 0, in the list of ${where}: ${lineOf(list[at])} is ${reason}`, `${stay}; those after it were not made.`];
}

export function clickWords(click, { live, bench }) {
    const { name, planes, cuts, calls, before, stopped } = click;
    const made = `${name}: ${count(planes, "plane", "planes")} over every piece, ${count(cuts, "cut", "cuts")} in ${count(calls, "call", "calls")}. Undo takes the whole click back.`;
    const why = cuts > 0 ? ": all that these cuts need is in the table already" : "";
    const lie = `${count(bench.pieces.length, "piece lies", "pieces lie")} on the bench. ${addedWords(before, live.sizes, why)}`;
    return [made, ...(stopped ? stoppedWords(click, live) : []), lie.charAt(0).toUpperCase() + lie.slice(1)];
}
