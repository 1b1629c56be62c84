// The pieces as they are drawn: a segment, an area, a solid with its hidden edges, or in four dimensions its edges.
import { dot, along, unit } from "./plane.js";
import { farToNear } from "./order.js";
import { path, line, circle, text } from "./svg.js";

const HUES = [206, 28, 152, 322, 48, 262, 178, 0, 90, 232];

// an old entry keeps its number, and so its colour
export const hueOf = e => HUES[e % HUES.length];

const group = ({ e, look }, content) => `<g class="piece ${look}" style="--hue:${hueOf(e)}">${content}</g>`;

export function edgeLine(scene, edge, shift, rest) {
    const { eye, shapes, table } = scene;
    const [a, b] = shapes.ends(edge).map(v => eye.paper(table.vertex(v), shift));
    return line(a, b, rest);
}

export function loopPath(scene, face, shift) {
    return path(scene.shapes.loop(face).map(v => scene.eye.paper(scene.table.vertex(v), shift)));
}

function flatPiece(scene, piece) {
    const { e } = piece;
    const shift = scene.shifts.get(e);
    if (scene.table.dimension === 1) return group(piece, edgeLine(scene, e, shift, `class="bar" data-e="${e}" data-pick="${e}"`));
    const edges = scene.table.element(e).boundary;
    return group(piece, `<path class="front" d="${loopPath(scene, e, shift)}" data-e="${e}" data-pick="${e}"/>` +
        edges.map(edge => edgeLine(scene, edge, shift, `class="edge" data-e="${edge}" data-pick="${e}"`)).join(""));
}

// an element of rank 3 in its own space; `body` is the piece that it stands for. Of many, what is hidden is left out
export function solid({ shapes, eye, face: cutFace = null, isMany = false }, piece, shift = null) {
    const { e, body = e } = piece;
    const { faces, edges, ends } = shapes.hull(e);
    const light = unit(along(along(eye.towards, eye.up, 0.7), eye.right, -0.35));
    const front = new Set(faces.filter(({ out }) => dot(out, eye.towards) > 1e-9).map(({ face }) => face));
    const drawn = ({ face, loop, out }) => {
        const look = (front.has(face) ? "front" : "back") + (face === cutFace ? " ofcut" : "");
        const shade = (0.5 + 0.5 * dot(out, light)).toFixed(2);
        const d = path(loop.map(p => eye.paper(p, shift)));
        return `<path class="${look}" style="--light:${shade}" d="${d}" data-e="${face}" data-pick="${body}"/>`;
    };
    const isSeen = faces => faces.some(face => front.has(face));
    const drawnEdge = ([edge, faces]) => {
        const [a, b] = ends.get(edge).map(p => eye.paper(p, shift));
        return line(a, b, `class="edge${isSeen(faces) ? "" : " hidden"}" data-e="${edge}" data-pick="${body}"`);
    };
    const back = isMany ? [] : faces.filter(({ face }) => !front.has(face));
    const hidden = isMany ? [] : [...edges].filter(([, on]) => !isSeen(on));
    const [near, seen] = [faces.filter(({ face }) => front.has(face)), [...edges].filter(([, on]) => isSeen(on))];
    return group(piece, back.map(drawn).join("") + hidden.map(drawnEdge).join("") + near.map(drawn).join("") + seen.map(drawnEdge).join(""));
}

// in four dimensions a solid would hide all that it holds, so its edges are drawn
function wire(scene, piece) {
    const shift = scene.shifts.get(piece.e);
    return group(piece, scene.shapes.withRank(piece.e, 1).map(edge =>
        edgeLine(scene, edge, shift, `class="edge" data-e="${edge}" data-pick="${piece.e}"`) +
        edgeLine(scene, edge, shift, `class="wide" data-e="${edge}" data-pick="${piece.e}"`)).join(""));
}

// the plane is drawn behind the pieces that lie whole on its near side
function solids(scene, plane) {
    const { pieces, shapes, eye, shifts, divider } = scene;
    const by = new Map(pieces.map(piece => [piece.e, piece]));
    const order = farToNear(shapes, [...by.keys()], eye.towards);
    const way = Math.sign(dot(divider.normal, eye.towards)) || 1;
    const isNear = e => shapes.corners(e).every(p => way * (dot(divider.normal, p) - divider.distance) > -1e-5);
    const drawn = e => solid(scene, by.get(e), shifts.get(e));
    return order.filter(e => !isNear(e)).map(drawn).join("") + plane + order.filter(isNear).map(drawn).join("");
}

export function drawPieces(scene, plane) {
    if (scene.table.dimension === 3) return solids(scene, plane);
    const draw = scene.table.dimension === 4 ? wire : flatPiece;
    return scene.pieces.map(piece => draw(scene, piece)).join("") + plane;
}

// a removed side is crossed out: its edges broken, in two dimensions hatched; its words lie on all else
export function drawRemoved({ eye, removed }, busy) {
    const drawn = removed.map(({ edges, loop }) => {
        const area = loop.length ? `<path class="hatched" d="${path(loop.map(p => eye.paper(p)))}"/>` : "";
        return `<g class="gone">${area}${edges.map(([a, b]) => line(eye.paper(a), eye.paper(b))).join("")}</g>`;
    });
    const isClear = (x, y, others) => others.every(p => Math.abs(p.x - x) > 62 || Math.abs(p.y - y) > 20);
    const spots = [];
    for (const { name, middle } of removed) {
        const { x, y } = eye.paper(middle);
        const raise = (eye.dimension === 1 ? [-18] : [0, 34, -34, 60, -60]).find(k => isClear(x, y + k, [...busy, ...spots])) ?? 0;
        spots.push({ name, x, y: y + raise });
    }
    const words = spots.map(({ name, x, y }) => text(x, y + 4, `${name}: removed`)).join("");
    return { removedSides: drawn.join(""), removedWords: `<g class="gone">${words}</g>`, spots };
}

// ---- one element by itself: chosen, pointed at, or the face of the cut

function shiftOf({ shifts, shapes, apart }, e) {
    if (!apart) return null;
    for (const [piece, shift] of shifts) if (piece === e || shapes.subelements(piece).has(e)) return shift;
    return null;
}

export function drawElement(scene, e) {
    const { table, shapes, eye } = scene;
    const { rank, vertex } = table.element(e);
    const shift = shiftOf(scene, e);
    if (rank === 0) return circle(eye.paper(table.vertex(vertex), shift), 8, 'class="spot"');
    if (rank === 1) return edgeLine(scene, e, shift, 'class="line"');
    if (rank === 2) return `<path class="area" d="${loopPath(scene, e, shift)}"/>`;
    return shapes.withRank(e, 1).map(edge => edgeLine(scene, edge, shift, 'class="line"')).join("");
}
