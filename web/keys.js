// The keyboard: in the drawing all that a hand does; undo and redo, saving and opening everywhere.
import { spoken } from "./close.js";
import { $ } from "./dom.js";
import { anglesOf, axis, normalOf, rounded } from "./plane.js";
import { KEPT } from "./session.js";
import { spokenTouch } from "./touch.js";

function turned({ live, aim }, i, by) {
    if (live.dimension === 1) return { normal: [-aim.normal[0]] };
    if (live.dimension > 3 || i >= live.dimension - 1) return {};
    return { normal: normalOf(anglesOf(aim.normal).map((angle, k) => (k === i ? rounded(angle + by) : angle))) };
}

const moved = ({ aim }, by) => ({ distance: rounded((Number.isFinite(aim.distance) ? aim.distance : 0) + by) });

// the same axis once more turns the plane round
function onAxis({ live, aim }, i) {
    if (i >= live.dimension) return {};
    return { normal: axis(live.dimension, i, aim.normal[i] === 1 ? -1 : 1) };
}

// the next piece on the bench, or the one before
function nextPiece({ bench: { pieces }, aim }, by) {
    const at = pieces.indexOf(aim.root);
    return pieces.length === 0 ? {} : { root: pieces[(Math.max(at, by < 0 ? 0 : -1) + by + pieces.length) % pieces.length] };
}

const seen = ({ look }, yaw, pitch, roll = 0) =>
    ({ yaw: look.yaw + yaw, pitch: Math.max(-89, Math.min(89, look.pitch + pitch)), roll: look.roll + roll });

const pulled = ({ look }, by) => ({ apart: Math.max(0, Math.min(0.8, rounded(look.apart + by))) });

const AIMING = {
    ArrowLeft: (desk, fine) => turned(desk, 0, fine ? 1 : 15),
    ArrowRight: (desk, fine) => turned(desk, 0, fine ? -1 : -15),
    PageUp: (desk, fine) => turned(desk, 1, fine ? 1 : 15),
    PageDown: (desk, fine) => turned(desk, 1, fine ? -1 : -15),
    ArrowUp: (desk, fine) => moved(desk, desk.radius / (fine ? 200 : 20)),
    ArrowDown: (desk, fine) => moved(desk, -desk.radius / (fine ? 200 : 20)),
    1: desk => onAxis(desk, 0), 2: desk => onAxis(desk, 1), 3: desk => onAxis(desk, 2), 4: desk => onAxis(desk, 3),
    n: desk => nextPiece(desk, 1), p: desk => nextPiece(desk, -1),
    k: ({ aim }) => ({ kept: KEPT[(KEPT.indexOf(aim.kept) + 1) % KEPT.length] }),
};
const LOOKING = {
    a: desk => seen(desk, 8, 0), d: desk => seen(desk, -8, 0), w: desk => seen(desk, 0, 8), s: desk => seen(desk, 0, -8),
    q: desk => seen(desk, 0, 0, 8), e: desk => seen(desk, 0, 0, -8),
    "+": desk => pulled(desk, 0.1), "=": desk => pulled(desk, 0.1), "-": desk => pulled(desk, -0.1),
};

function inDrawing(event, desk) {
    if (event.ctrlKey || event.metaKey || event.altKey || !desk.stands) return;
    const key = event.key.length === 1 ? event.key.toLowerCase() : event.key;
    if (key === "Enter" && event.shiftKey) desk.cutEveryPiece();
    else if (key === "Enter") desk.cut();
    else if (AIMING[key]) desk.aimAt(AIMING[key](desk, event.shiftKey));
    else if (LOOKING[key]) desk.lookFrom(LOOKING[key](desk));
    else return;
    event.preventDefault();
}

const FILES = { s: "savetable", o: "opentable" };

function everywhere(event, desk) {
    const isWriting = event.target.matches("textarea, input:not([type=range]):not([type=radio]):not([type=checkbox])");
    const key = event.key.toLowerCase();
    if (!(event.ctrlKey || event.metaKey) || (isWriting && !FILES[key])) return;
    if (FILES[key]) $(FILES[key]).click();
    else if (key === "z" && !event.shiftKey) desk.by(-1);
    else if (key === "y" || key === "z") desk.by(1);
    else return;
    event.preventDefault();
}

// a plane that is moved by keys is said once it rests
const REST = 400;
let resting = 0;

function say({ aim, preview, touch }) {
    clearTimeout(resting);
    if (document.activeElement !== $("drawing") || !preview) return;
    const where = `normal ${aim.normal.map(rounded).join(", ")}, distance ${aim.distance}`;
    const close = preview.reply.warning ? `; ${spoken(preview.close)}` : "";
    resting = setTimeout(() => ($("said").textContent = `element ${aim.root}, ${where}, keep ${aim.kept}: would print ${preview.line}; ${spokenTouch(touch)}${close}`), REST);
}

export const keys = {
    wire(desk) {
        $("drawing").addEventListener("keydown", event => inDrawing(event, desk));
        document.addEventListener("keydown", event => everywhere(event, desk));
    },

    aimed: say,
};
