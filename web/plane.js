// The plane as a hand moves it: angles, unit normals without stray digits, and places where it settles.

const DEGREE = Math.PI / 180;

export const dot = (a, b) => a.reduce((sum, x, i) => sum + x * b[i], 0);
export const along = (p, v, k) => p.map((x, i) => x + k * v[i]);

// what is meant to be 0, 1/2 or 1 is exactly that
function tidy(x) {
    const nice = [0, 0.5, 1].find(nice => Math.abs(Math.abs(x) - nice) < 1e-12);
    return nice === undefined ? x : nice === 0 ? 0 : Math.sign(x) * nice;
}

export const axis = (dimension, i, sign = 1) => Array.from({ length: dimension }, (_, k) => (k === i ? sign : 0));

export function unit(v) {
    const length = Math.sqrt(dot(v, v));
    return length > 0 && Number.isFinite(length) ? v.map(x => tidy(x / length)) : axis(v.length, 0);
}

// one angle in two dimensions, from x towards y; in three, the heading and then the tilt up from it
export function anglesOf(normal) {
    const round = x => Number((x / DEGREE).toFixed(6)) + 0;
    if (normal.length === 2) return [round(Math.atan2(normal[1], normal[0]))];
    const flat = Math.hypot(normal[0], normal[1]);
    return [flat < 1e-12 ? 0 : round(Math.atan2(normal[1], normal[0])), round(Math.atan2(normal[2], flat))];
}

export function normalOf([heading, tilt]) {
    const [c, s] = [Math.cos(heading * DEGREE), Math.sin(heading * DEGREE)];
    if (tilt === undefined) return [tidy(c), tidy(s)];
    const [ct, st] = [Math.cos(tilt * DEGREE), Math.sin(tilt * DEGREE)];
    return [tidy(c * ct), tidy(s * ct), tidy(st)];
}

// directions that puzzles use: from one small whole point to another
const small = [-2, -1, 0, 1, 2];
const nice = small.flatMap(x => small.flatMap(y => small.map(z => [x, y, z])))
    .filter(v => v.some(x => x % 2 !== 0)).map(unit);

export function settle(normal) {
    if (normal.length === 2) return normalOf([Math.round(anglesOf(normal)[0] / 15) * 15]);
    const best = nice.reduce((a, b) => (dot(b, normal) > dot(a, normal) ? b : a));
    return dot(best, normal) > Math.cos(7 * DEGREE) ? best : normal;
}

// without the digits that adding steps leaves behind
export const rounded = x => Number(x.toPrecision(12)) + 0;

export function settleDistance(distance, radius) {
    const step = radius / 20;
    return rounded(Math.round(distance / step) * step);
}
