// Texts of SVG: lines, paths and the tags of the three numberings, each with a shape and a letter of its own.

export const n1 = x => Math.round(10 * x) / 10;
export const path = points => points.map((p, i) => `${i ? "L" : "M"}${n1(p.x)} ${n1(p.y)}`).join("") + "Z";
export const line = (a, b, rest = "") => `<line x1="${n1(a.x)}" y1="${n1(a.y)}" x2="${n1(b.x)}" y2="${n1(b.y)}" ${rest}/>`;
export const circle = (p, r, rest = "") => `<circle cx="${n1(p.x)}" cy="${n1(p.y)}" r="${r}" ${rest}/>`;
export const text = (x, y, words, rest = "") => `<text x="${n1(x)}" y="${n1(y)}" ${rest}>${words}</text>`;

// a square tag is an element's number, a round one a vertex's
export function tag(list, n, at, { look = "", pick = null } = {}) {
    const words = (list === "v" ? "v" : "E") + n;
    const wide = 8 + 7 * words.length;
    const box = `<rect x="${n1(at.x - wide / 2)}" y="${n1(at.y - 9)}" width="${wide}" height="18" rx="${list === "v" ? 9 : 2}"/>`;
    const picked = pick === null ? "" : ` data-pick="${pick}"`;
    return `<g class="label ${list} ${look}" data-${list}="${n}"${picked}>${box}${text(at.x, at.y + 4, words)}</g>`;
}
