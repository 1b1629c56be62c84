// What a pointer does in the drawing: it moves the plane, turns it by its tip, turns the view, or picks a piece.
import { dot, rounded, settle, settleDistance, unit } from "./plane.js";
import { ARROW, footOf } from "./handle.js";
import { named } from "./dom.js";

const STILL = 4; // a press that moves less than this many pixels picks

function place(svg, event) {
    const p = new DOMPoint(event.clientX, event.clientY).matrixTransform(svg.getScreenCTM().inverse());
    return { x: p.x, y: p.y };
}

// the piece under a pointer, also where the plane lies over it
function pieceUnder({ clientX, clientY }) {
    const part = document.elementsFromPoint(clientX, clientY).map(part => part.closest("#drawing [data-pick]")).find(Boolean);
    return part ? Number(part.dataset.pick) : null;
}

function moved({ eye, plane }, dx, dy, isFree) {
    const way = eye.way(plane.normal);
    const long = way.x * way.x + way.y * way.y;
    const step = long > 0.05 * eye.scale * eye.scale ? (dx * way.x + dy * way.y) / long : -dy / eye.scale;
    const distance = (Number.isFinite(plane.distance) ? plane.distance : 0) + step;
    return { distance: isFree ? rounded(distance) : settleDistance(distance, eye.radius) };
}

function turned({ eye, plane, foot, isBack }, p, isFree) {
    let [x, y] = [(p.x - foot.x) / ARROW, -(p.y - foot.y) / ARROW];
    const long = Math.hypot(x, y);
    if (long < 0.1 && eye.flat) return null;
    if (eye.dimension === 1) return { normal: [x < 0 ? -1 : 1] };
    if (eye.dimension === 2) return { normal: isFree ? unit([x, y]) : settle(unit([x, y])) };
    if (long > 1) [x, y] = [x / long, y / long];
    const z = Math.sqrt(Math.max(0, 1 - x * x - y * y)) * (isBack ? -1 : 1);
    const normal = unit(plane.normal.map((_, i) => x * eye.right[i] + y * eye.up[i] + z * eye.towards[i]));
    return { normal: isFree ? normal : settle(normal) };
}

export function holdDrawing(svg, desk, sceneNow) {
    let held = null;

    svg.addEventListener("pointerdown", event => {
        const scene = sceneNow();
        if (event.button !== 0 || !scene) return;
        const { eye, divider: plane } = scene;
        const { yaw, pitch } = desk.look;
        held = {
            eye, plane, yaw, pitch, from: place(svg, event), hasMoved: false,
            part: event.target.dataset.hand ?? "view",
            pick: pieceUnder(event),
            foot: eye.paper(footOf(eye, plane)),
            isBack: !eye.flat && dot(plane.normal.slice(0, 3), eye.towards) < 0,
        };
        svg.setPointerCapture(event.pointerId);
        svg.focus({ preventScroll: true });
        event.preventDefault();
    });

    svg.addEventListener("pointermove", event => {
        if (!held) return desk.pointAt(named(event.target));
        const p = place(svg, event);
        const [dx, dy] = [p.x - held.from.x, p.y - held.from.y];
        held.hasMoved ||= Math.hypot(dx, dy) >= STILL;
        if (!held.hasMoved) return;
        if (held.part === "move") desk.aimAt(moved(held, dx, dy, event.shiftKey));
        else if (held.part === "turn") desk.aimAt(turned(held, p, event.shiftKey) ?? {});
        else if (!held.eye.flat) desk.lookFrom({ yaw: held.yaw - dx * 0.45, pitch: Math.max(-89, Math.min(89, held.pitch + dy * 0.45)) });
    });

    svg.addEventListener("pointerup", () => {
        const { hasMoved, pick } = held ?? {};
        held = null;
        if (hasMoved === false && pick !== null && desk.live.has(pick)) desk.aimAt({ root: pick });
    });
    svg.addEventListener("pointercancel", () => (held = null));
    svg.addEventListener("pointerleave", () => held ?? desk.pointAt(null));
}
