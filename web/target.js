// What is aimed at next: in a new table its first piece, after a cut a piece that it answered.
import { axis } from "./plane.js";

export const aimOf = ({ normal, distance, kept, root }, aiming) => ({ normal, distance, kept, root, aiming });

// a table that was opened may have no piece, and no element
const firstOf = ({ pieces }, { sizes: { elements } }) => pieces[0] ?? (elements > 0 ? elements - 1 : NaN);

export function aimAfter({ record, reply, bench }, table) {
    if (record.kind !== "cut" || record.normal.length !== table.dimension)
        return { normal: axis(table.dimension, 0), distance: 0, kept: "both", root: firstOf(bench, table), aiming: reply.number === 0 };
    const aim = aimOf(record, false);
    const isAnswered = reply.number === 0 && !reply.flush && table.isFull(record.root);
    return isAnswered ? { ...aim, root: reply.inside ?? reply.outside ?? record.root } : aim;
}
