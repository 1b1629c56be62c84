// Close calls: corners within 1/65,536 of a plane that are not on it. That a cut comes with a warning is the engine's answer; and so is
// which corners it is for: each is asked by itself, on a copy of the table.
import { dot } from "./plane.js";
import { ask } from "./session.js";
import { cornerNames } from "./words.js";

export const ON = "1/1,048,576";
export const NEAR = "1/65,536";
export const ADVICE = "An edge may vanish there. Move the plane onto the corner, or well away.";

// the corners that the warning of a cut is for, by vertex numbers, each with how far it is from the plane; none where there is no warning
export function closeCorners(copy, record, reply) {
    if (!reply.warning) return [];
    const corners = copy.cornerElements();
    const isClose = v => ask(copy, { ...record, root: corners[v] }).warning;
    const far = v => Math.abs(dot(record.normal, copy.vertex(v)) - record.distance);
    return copy.list("vertexSet", record.root).filter(isClose).map(v => ({ v, far: far(v) }));
}

export const nearest = close => close.reduce((a, b) => (b.far < a.far ? b : a));

// where the close call is, in a sentence
export function closely(close) {
    const which = close.length === 1 ? "it" : "the nearest";
    return `Close call at ${cornerNames(close.map(({ v }) => v))}: the plane passes ${nearest(close).far.toFixed(7)} from ${which}.`;
}

// for those who listen
export const spoken = close => `close call at ${close.map(({ v }) => `vertex ${v}`).join(", ")}`;
