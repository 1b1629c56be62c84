// The numbers in the drawing: they keep clear of each other and of the plane's arrow.
import { circle, tag } from "./svg.js";

const TRIED = [[0, 0], [0, -30], [0, 30], [-46, 0], [46, 0], [0, -56], [0, 56]];
const AROUND = [[17, 0], [19, 1], [19, -1], [34, 0], [18, Math.PI], [24, 2], [24, -2]];

// beside a point, away from another, or turned from that by an angle
function away(p, from, k, turn = 0) {
    const angle = turn + (Math.hypot(p.x - from.x, p.y - from.y) < 1e-6 ? Math.PI / 2 : Math.atan2(p.y - from.y, p.x - from.x));
    return { x: p.x + k * Math.cos(angle), y: p.y + k * Math.sin(angle) };
}

class Places {
    constructor(busy) {
        this.busy = busy;
        this.taken = [];
    }

    isClear(p, far) {
        return !this.busy.some(q => Math.hypot(q.x - p.x, q.y - p.y) < far);
    }

    take(p, wide) {
        if (this.taken.some(q => Math.abs(q.x - p.x) < wide && Math.abs(q.y - p.y) < 17)) return false;
        this.taken.push(p);
        return true;
    }
}

function dots({ eye, table, shapes }, shown) {
    return shown.map(({ e, shift }) => shapes.vertices(e).map(v => {
        const p = eye.paper(table.vertex(v), shift);
        return circle(p, 3.2, 'class="dot"') + circle(p, 9, `class="reach" data-v="${v}"`);
    }).join("")).join("");
}

function pieceTags({ eye, shapes }, shown, places) {
    const raise = eye.dimension === 1 ? -24 : 0;
    return shown.map(({ e, shift }) => {
        const p = eye.paper(shapes.middle(e), shift);
        const at = TRIED.map(([x, y]) => ({ x: p.x + x, y: p.y + y + raise })).find(q => places.isClear(q, 27) && places.take(q, 40));
        return at ? tag("e", e, at, { look: "piecetag", pick: e }) : "";
    }).join("");
}

function vertexTags({ eye, table, shapes, apart }, shown, places, { isNamed, isClose }) {
    const home = eye.paper(Array(eye.dimension).fill(0));
    return shown.map(({ e, shift }) => {
        const inner = apart ? eye.paper(shapes.middle(e), shift) : home;
        return shapes.vertices(e).filter(isNamed).map(v => {
            const p = eye.paper(table.vertex(v), shift);
            const look = isClose(v) ? "closetag" : "";
            if (eye.dimension === 1) return places.take({ x: p.x, y: p.y + 22 }, 26) ? tag("v", v, { x: p.x, y: p.y + 22 }, { look }) : "";
            const at = AROUND.map(([k, turn]) => away(p, inner, k, turn)).find(q => places.isClear(q, 20) && places.take(q, 26));
            return at ? tag("v", v, at, { look }) : "";
        }).join("");
    }).join("");
}

function elementTags({ eye, table, shapes }, shown, places) {
    const home = eye.paper(Array(eye.dimension).fill(0));
    return shown.map(({ e, shift }) => [...shapes.subelements(e)].filter(sub => sub !== e).map(sub => {
        const p = eye.paper(shapes.middle(sub), shift);
        const at = table.rank(sub) === 0 ? away(p, home, 17) : p;
        return places.take(at, 30) ? tag("e", sub, at, { look: "small" }) : "";
    }).join("")).join("");
}

export function drawLabels(scene, busy) {
    const { pieces, numbers, extra, shifts, isMany, close } = scene;
    const shown = [...pieces.map(({ e }) => ({ e, shift: shifts.get(e) })), ...extra.map(e => ({ e, shift: null }))];
    const places = new Places(busy);
    const isClose = v => close.some(call => call.v === v);
    const withPieces = ["both", "pieces", "all"].includes(numbers);
    const withVertices = ["both", "vertices"].includes(numbers) && !isMany;
    return `<g class="dots">${dots(scene, shown)}</g>` +
        (withPieces ? pieceTags(scene, shown, places) : "") +
        vertexTags(scene, shown, places, { isClose, isNamed: v => withVertices || isClose(v) }) +
        (numbers === "all" ? elementTags(scene, shown, places) : "");
}
