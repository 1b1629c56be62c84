// The contrast of each text with what it stands on, worked out from the page's own colours as WCAG 2 does.
import { readFileSync } from "node:fs";

const TEXTS = {
    paper: ["ink", "soft", "E", "v", "h", "inside", "outside", "face", "bad"], ground: ["ink", "soft"], top: ["top-ink", "top-soft"],
    "top-control": ["top-ink"], parting: ["parting-ink"], new: ["new-ink", "ink", "soft"], "E-pale": ["E", "ink", "soft"], "v-pale": ["v"], "h-pale": ["h"],
    accent: ["accent-ink"], "bad-pale": ["bad", "ink"], "warn-pale": ["warn"], point: ["point-ink"], ink: ["paper"], quiet: ["soft", "ink"],
    inside: ["mark-ink"], outside: ["mark-ink"], face: ["mark-ink"],
};

const variables = block => Object.fromEntries([...block.matchAll(/--([\w-]+): (#[0-9a-f]{6})/g)].map(([, name, value]) => [name, value]));

function light(colour) {
    const [r, g, b] = [1, 3, 5].map(i => parseInt(colour.slice(i, i + 2), 16) / 255).map(x => (x <= 0.04045 ? x / 12.92 : ((x + 0.055) / 1.055) ** 2.4));
    return 0.2126 * r + 0.7152 * g + 0.0722 * b;
}

function contrast(a, b) {
    const [high, low] = [light(a), light(b)].sort((x, y) => y - x);
    return (high + 0.05) / (low + 0.05);
}

export function checkColours(checks, path) {
    const [bright, dark, print] = readFileSync(path, "utf8").split("@media").map(variables);
    const modes = { light: bright, dark: { ...bright, ...dark }, print: { ...bright, ...print } };
    checks.same("dark has every colour that light has", Object.keys(dark).sort(), Object.keys(bright).sort());
    for (const [mode, colours] of Object.entries(modes))
        for (const [ground, texts] of Object.entries(TEXTS))
            for (const text of texts)
                checks.holds(`${mode}: ${text} on ${ground} has ${contrast(colours[text], colours[ground]).toFixed(2)}`, contrast(colours[text], colours[ground]) >= 4.5);
}
