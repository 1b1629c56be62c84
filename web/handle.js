// The plane in the drawing, and the arrow that holds it: its foot moves the plane, its tip turns it.
import { dot, along } from "./plane.js";
import { middle } from "./shapes.js";
import { n1, path, line, circle, text } from "./svg.js";

export const ARROW = 62; // how long the arrow is on paper

// the part of a plane in a box around the middle, as corners in order: a mark in one dimension, a line in two
export function planeIn({ normal, distance }, size) {
    if (![...normal, distance].every(Number.isFinite)) return [];
    if (normal.length === 1) return Math.abs(distance) > 1.3 * size ? [] : [-0.4, 0.4].map(k => [normal[0] * distance, k * size]);
    if (normal.length === 2) return clipLine(normal, distance, size);
    return normal.length === 3 ? clipPlane(normal, distance, size) : [];
}

function clipLine(normal, distance, size) {
    const [foot, way] = [normal.map(x => x * distance), [-normal[1], normal[0]]];
    let [from, to] = [-Infinity, Infinity];
    for (const axis of [0, 1]) {
        if (Math.abs(way[axis]) < 1e-12) {
            if (Math.abs(foot[axis]) > size) return [];
            continue;
        }
        const [near, far] = [-size, size].map(edge => (edge - foot[axis]) / way[axis]).sort((a, b) => a - b);
        [from, to] = [Math.max(from, near), Math.min(to, far)];
    }
    return from < to ? [from, to].map(k => along(foot, way, k)) : [];
}

function clipPlane(normal, distance, size) {
    const points = [];
    for (const axis of [0, 1, 2])
        for (const s of [-size, size])
            for (const t of [-size, size]) {
                const at = k => [...[s, t].slice(0, axis), k, ...[s, t].slice(axis)];
                const [a, b] = [-size, size].map(k => dot(normal, at(k)) - distance);
                if (a * b <= 0 && a !== b) points.push(at(size * (-1 + 2 * a / (a - b))));
            }
    if (points.length < 3) return [];
    const centre = middle(points);
    const u = along(points[0], centre, -1);
    const w = [normal[1] * u[2] - normal[2] * u[1], normal[2] * u[0] - normal[0] * u[2], normal[0] * u[1] - normal[1] * u[0]];
    const turn = p => Math.atan2(dot(along(p, centre, -1), w), dot(along(p, centre, -1), u));
    return points.sort((p, q) => turn(p) - turn(q));
}

export function drawPlane({ eye, divider, aiming }) {
    const corners = planeIn(divider, (eye.flat ? 1.42 : 1.3) * eye.radius).map(p => eye.paper(p));
    if (corners.length < 2) return "";
    const look = `plane${aiming ? "" : " still"}`;
    return eye.flat
        ? line(...corners, `class="${look} grip" data-hand="move"`) + line(...corners, `class="${look}"`)
        : `<path class="${look}" d="${path(corners)}" data-hand="move"/>`;
}

// where the arrow stands: beside the pieces on flat paper, else at the plane's point nearest to the middle
export function footOf(eye, plane) {
    const far = Math.max(-1.6 * eye.radius, Math.min(1.6 * eye.radius, plane.distance));
    const near = plane.normal.map(x => x * far);
    if (!eye.flat) return near;
    const ends = planeIn(plane, 1.2 * eye.radius);
    if (ends.length < 2) return near;
    const [a, b] = ends;
    return a[1] < b[1] - 1e-9 || (Math.abs(a[1] - b[1]) < 1e-9 && a[0] > b[0]) ? a : b;
}

// the arrow points to the outside
export function drawArrow({ eye, divider }) {
    const { normal, distance } = divider;
    if (![...normal, distance].every(Number.isFinite)) return { arrow: "", busy: [] };
    const foot = footOf(eye, divider);
    const on = k => eye.paper(along(foot, foot.map((_, i) => normal[i] ?? 0), k / eye.scale));
    const [f, t, o, i] = [0, ARROW, ARROW + 40, -36].map(on);
    const [dx, dy] = [t.x - f.x, t.y - f.y];
    const long = Math.hypot(dx, dy) || 1;
    const head = [[6, 0], [-12, 9], [-12, -9]].map(([k, w]) => ({ x: t.x + (k * dx - w * dy) / long, y: t.y + (k * dy + w * dx) / long }));
    const side = (p, name) => { // within the paper, and then above the arrow
        const x = Math.max(-eye.width / 2 + 30, Math.min(eye.width / 2 - 30, p.x));
        return text(x, x === p.x ? p.y + 4 : p.y - 12, name, `class="side ${name}"`);
    };
    const shaft = line(f, { x: t.x - 8 * dx / long, y: t.y - 8 * dy / long }, 'class="shaft"');
    const turns = eye.dimension < 4 ? circle(t, 17, 'class="catch" data-hand="turn"') : "";
    const grip = `<rect class="foot" x="${n1(f.x - 7)}" y="${n1(f.y - 7)}" width="14" height="14" rx="3" data-hand="move"/>`;
    const reach = circle(f, 16, 'class="catch" data-hand="move"');
    const arrow = `<g class="hand">${shaft}${eye.flat ? side(o, "outside") + side(i, "inside") : ""}` +
        `<path class="tip" d="${path(head)}"/>${turns}${reach}${grip}</g>`;
    const taken = eye.flat ? [-0.8, -0.5, 0, 0.4, 0.8, 1.2, 1.6, 2] : [0, 0.25, 0.5, 0.75, 1];
    return { arrow, busy: taken.map(k => ({ x: f.x + k * dx, y: f.y + k * dy })) };
}
