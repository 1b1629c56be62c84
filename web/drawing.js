// The drawing: an SVG of the pieces, the plane with its arrow, and the numbers.
import { Eye } from "./eye.js";
import { drawPieces, drawRemoved, drawElement, edgeLine } from "./pieces.js";
import { drawPlane, drawArrow, planeIn } from "./handle.js";
import { drawLabels } from "./labels.js";
import { path, line, circle, text } from "./svg.js";

const HATCH = '<defs><pattern id="hatch" width="9" height="9" patternUnits="userSpaceOnUse" patternTransform="rotate(45)">' +
    '<line x1="0" y1="0" x2="0" y2="9"/></pattern></defs>';

const PICTURE = 290; // a sheet's picture is drawn about as large as it is shown, so that its numbers can be read

function flatAxes(eye) {
    const { radius, dimension } = eye;
    const at = (x, y) => eye.paper([x, y]);
    const far = 1.5 * radius;
    const parts = [-3, -2, -1, 0, 1, 2, 3].map(i => {
        const k = i * radius / 2;
        const look = i === 0 ? 'class="zero"' : "";
        const low = at(k, dimension === 1 ? -0.75 * radius : -far), left = at(-far, k);
        const numbers = i % 2 === 0 ? text(low.x, low.y + 14, k) + (dimension === 2 ? text(left.x - 12, left.y + 4, k) : "") : "";
        if (dimension === 1) return line(at(k, -0.5 * radius), at(k, 0.5 * radius), look) + numbers;
        return line(at(k, -far), at(k, far), look) + line(at(-far, k), at(far, k), look) + numbers;
    });
    const [x, y] = [at(far, 0), at(0, far)];
    const names = text(x.x + 10, x.y + 4, "x") + (dimension === 2 ? text(y.x, y.y - 6, "y") : "");
    return parts.join("") + names;
}

function spaceAxes(eye) {
    const home = { x: -eye.width / 2 + 42, y: eye.height / 2 - 42 };
    return ["x", "y", "z"].map((name, i) => {
        const [x, y] = [30 * eye.right[i], -30 * eye.up[i]];
        return line(home, { x: home.x + x, y: home.y + y }, 'class="axis"') + text(home.x + 1.35 * x, home.y + 1.35 * y + 4, name);
    }).join("") + (eye.dimension === 4 ? text(home.x + 110, home.y + 30, "w: small is far") : "");
}

function outlines(scene) {
    return scene.outlines.map(({ e, look }) => {
        const lines = scene.table.rank(e) < 2
            ? drawElement(scene, e)
            : scene.shapes.withRank(e, 1).map(edge => edgeLine(scene, edge, scene.shifts.get(e))).join("");
        return `<g class="outline ${look}">${lines}</g>`;
    }).join("");
}

// where the face of the cut is a face of solids that are drawn, they have its colour, and here are its edges
function cutFace(scene) {
    const { face, table, pieces, eye } = scene;
    if (face === null || !table.has(face)) return "";
    const isDrawn = eye.dimension === 3 && pieces.some(({ e }) => table.element(e).boundary.includes(face));
    return `<g class="cutface${isDrawn ? " edgesonly" : ""}${eye.dimension === 4 ? " thin" : ""}">${drawElement(scene, face)}</g>`;
}

// on paper: apart, in each piece that has it
function vertexPlaces({ shifts, shapes, apart, eye, table }, v) {
    const owners = apart ? [...shifts].filter(([e]) => shapes.vertices(e).includes(v)).map(([, shift]) => shift) : [];
    return (owners.length ? owners : [null]).map(shift => eye.paper(table.vertex(v), shift));
}

const pointedVertex = (scene, v) => vertexPlaces(scene, v).map(p => circle(p, 8, 'class="spot"')).join("");

// a close call has a shape of its own, the triangle of warnings, around its corner
function closeCalls(scene) {
    const sign = ({ x, y }) => `<path d="${path([[0, -17], [15, 9], [-15, 9]].map(([a, b]) => ({ x: x + a, y: y + b })))}"/>`;
    return `<g class="close">${scene.close.flatMap(({ v }) => vertexPlaces(scene, v)).map(sign).join("")}</g>`;
}

function pointedPlane({ eye, table }, h) {
    const corners = planeIn(table.hyperplane(h), 1.42 * eye.radius).map(p => eye.paper(p));
    if (corners.length < 2) return "";
    return eye.flat ? line(...corners, 'class="line"') : `<path class="area" d="${path(corners)}"/>`;
}

function pointedAt(scene) {
    const { pointed, table } = scene;
    if (!pointed) return "";
    const { list, n } = pointed;
    const { elements, vertices, hyperplanes } = table.sizes;
    if (n >= { e: elements, v: vertices, h: hyperplanes }[list]) return "";
    const drawn = { e: drawElement, v: pointedVertex, h: pointedPlane }[list](scene, n);
    return `<g class="pointed">${drawn}</g>`;
}

// all that lies between the axes and the arrow; `scene` has what is drawn, and an eye
export function drawAll(scene) {
    const { arrow, busy } = drawArrow(scene);
    const { removedSides, removedWords, spots } = drawRemoved(scene, busy);
    return HATCH + `<g class="axes">${scene.eye.flat ? flatAxes(scene.eye) : spaceAxes(scene.eye)}</g>` +
        removedSides + drawPieces(scene, drawPlane(scene)) + outlines(scene) + cutFace(scene) + closeCalls(scene) + pointedAt(scene) +
        removedWords + drawLabels(scene, [...busy, ...spots]) + arrow;
}

// one piece by itself, with the numbers of its vertices, for a sheet
export function picture(table, shapes, e, look, radius) {
    const eye = new Eye({ ...look, apart: 0, dimension: table.dimension, radius, width: PICTURE, height: PICTURE });
    const scene = { table, shapes, eye, pieces: [{ e, look: "plainpiece" }], shifts: new Map(), extra: [], apart: 0, face: null, close: [],
        numbers: "vertices", divider: { normal: Array(table.dimension).fill(0), distance: Infinity } };
    const spots = shapes.corners(e).map(p => eye.paper(p));
    const [xs, ys] = [spots.map(p => p.x), spots.map(p => p.y)];
    const [x, y] = [Math.min(...xs) - 34, Math.min(...ys) - 30];
    const box = [x, y, Math.max(...xs) + 34 - x, Math.max(...ys) + 30 - y].map(k => k.toFixed(1)).join(" ");
    return `<svg class="drawing small" viewBox="${box}" role="img" aria-label="Drawing of piece E${e}">` +
        drawPieces(scene, "") + drawLabels(scene, []) + "</svg>";
}
