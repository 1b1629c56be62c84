// What is drawn of what stands and of what is aimed at: which pieces, how they look, the face of the cut, what is removed.
import { spoken } from "./close.js";
import { Shapes } from "./shapes.js";
import { Eye } from "./eye.js";

const MANY = 9; // of more pieces, hidden edges and the numbers of vertices would hide the drawing
const ROOMY = 260; // pixels; in less, the vertices of four dimensions have no numbers

// the pieces with the cut that is aimed at as if it were made
function aimed(desk) {
    const { record, reply, removed } = desk.preview;
    const bench = desk.bench.after(record, reply, desk.trial);
    const isFull = desk.live.isFull(record.root);
    const look = e => (!isFull ? "plainpiece" : e === reply.inside ? "inside" : e === reply.outside ? "outside" : "other");
    return {
        table: desk.trial, shapes: new Shapes(desk.trial, desk.step.shapes), face: reply.face, removed,
        pieces: bench.pieces.map(e => ({ e, look: look(e) })),
        outlines: isFull ? [] : [{ e: record.root, look: "chosen" }],
    };
}

// the pieces as they stand, with the face of the last cut; a missed piece is lit as its old entry
function standing(desk) {
    const { live, aim, step } = desk;
    const { pieces } = desk.bench;
    const { record, reply, removed } = step;
    const isMissed = e => record.kind === "cut" && e === record.root && (reply.inside === e || reply.outside === e);
    const look = e => `plainpiece${e === aim.root ? " rootpiece" : ""}${isMissed(e) ? " lit" : ""}`;
    const isFlush = aim.aiming ? desk.preview?.reply.flush : reply.flush && aim.root === record.root;
    return {
        table: live, shapes: step.shapes, face: reply.face ?? null, removed,
        pieces: pieces.map(e => ({ e, look: look(e) })),
        outlines: live.has(aim.root) && !pieces.includes(aim.root) ? [{ e: aim.root, look: isFlush ? "inplane" : "chosen" }] : [],
    };
}

export function isAnswered(desk) {
    return desk.aim.aiming && desk.preview?.reply.number === 0 && !desk.preview.reply.flush;
}

export function sceneOf(desk, width, height) {
    const { live, aim, look } = desk;
    const scene = isAnswered(desk) ? aimed(desk) : standing(desk);
    const eye = new Eye({ ...look, dimension: live.dimension, radius: desk.radius, width, height });
    return {
        ...scene, eye, apart: look.apart, numbers: look.numbers, pointed: desk.pointed, aiming: aim.aiming,
        isMany: scene.pieces.length > MANY || (live.dimension === 4 && height < ROOMY),
        shifts: new Map(scene.pieces.map(({ e }) => [e, scene.shapes.middle(e).map(x => x * look.apart)])),
        extra: scene.pieces.length === 0 && live.has(aim.root) ? [aim.root] : [],
        divider: { normal: aim.normal, distance: aim.distance },
        close: (aim.aiming ? desk.preview : desk.step)?.close ?? [],
    };
}

// for those who listen
export function sceneWords(desk, scene) {
    const { dimension } = desk.live;
    const pieces = scene.pieces.map(({ e, look }) => `E${e}${look === "inside" || look === "outside" ? ` ${look}` : ""}`);
    const gone = scene.removed.map(({ name }) => `${name} removed`);
    const face = scene.face === null ? "no face of the cut" : `face of the cut E${scene.face}`;
    const close = scene.close.length > 0 ? [spoken(scene.close)] : [];
    return `${dimension} ${dimension === 1 ? "dimension" : "dimensions"}. Pieces: ${pieces.join(", ") || "none"}. ${[face, ...gone, ...close].join(", ")}.`;
}
