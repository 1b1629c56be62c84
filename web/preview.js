// The cut before it is made: asked of a copy of the table, so that the table that stands is as it was.
import { closeCorners } from "./close.js";
import { ask, printed } from "./session.js";
import { middle } from "./shapes.js";

// what is removed, for the drawing: the copy is asked with both sides kept, and the element that it gives is drawn crossed out
function outline(copy, e, name) {
    const at = v => copy.vertex(v);
    const corner = c => copy.element(c).vertex;
    const edges = copy.list("withRank", e, 1).map(edge => copy.element(edge).boundary.map(c => at(corner(c))));
    const loop = copy.rank(e) === 2 ? copy.walk(e).map(at) : [];
    return { name, edges, loop, middle: middle(copy.list("vertexSet", e).map(at)) };
}

export function removedSides(copy, record, reply) {
    if (record.kind !== "cut" || record.kept === "both" || reply.number !== 0 || reply.flush || !copy.isFull(record.root)) return [];
    const both = ask(copy, record, "both");
    if (both.number !== 0) return [];
    return ["inside", "outside"].filter(name => reply[name] === null && both[name] !== null).map(name => outline(copy, both[name], name));
}

export function previewOf(live, copy, record) {
    copy.restore(live.bytes);
    const reply = ask(copy, record);
    const after = copy.sizes;
    const line = printed(record, reply, after);
    const close = closeCorners(copy, record, reply);
    return { record, reply, close, line, before: live.sizes, after, table: copy, copy, removed: removedSides(copy, record, reply) };
}
