// A step of a session: a record with its reply, its close calls and its line, and the table, the shapes and the bench after it; and the
// click that it was one of the cuts of, if it was.
import { benchOf } from "./opened.js";
import { closeCorners } from "./close.js";
import { removedSides } from "./preview.js";
import { Shapes } from "./shapes.js";

export const NOTHING = { elements: 0, vertices: 0, hyperplanes: 0 };

// where nothing was added the table is the same, for old entries never change, and is kept once
export function stepOf({ live, aside, step, bench }, { record, reply, line, before, click = null }) {
    const isNew = record.kind !== "cut" && reply.number === 0;
    const isSame = step !== null && !isNew && Object.keys(NOTHING).every(list => step.after[list] === live.sizes[list]);
    const older = isNew || !step ? null : step.shapes;
    aside.restore(live.bytes);
    return {
        record, reply, line, click, before: isNew ? NOTHING : before, after: live.sizes,
        bytes: isSame ? step.bytes : live.bytes.slice(),
        shapes: isSame ? step.shapes : new Shapes(live, older),
        bench: record.kind === "open" ? benchOf(live, aside) : bench.after(record, reply, live),
        close: closeCorners(aside, record, reply),
        removed: removedSides(aside, record, reply),
    };
}
