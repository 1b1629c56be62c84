// Small helpers of the page: its parts by name, and the tags of the three numberings in text.

export const $ = id => document.getElementById(id);

export const escaped = text => String(text).replace(/&/g, "&amp;").replace(/</g, "&lt;").replace(/"/g, "&quot;");

// a square tag is an element (E), a round one a vertex (v), a slanted one a hyperplane (h)
export const tag = (letter, n = "") => `<b class="tag ${letter}"${n === "" ? "" : ` data-${letter.toLowerCase()}="${n}"`}>${letter}${n}</b>`;

// text in which [E8], [v3] and [h4] stand for tags, as HTML
export const html = text => escaped(text).replace(/\[([Evh])(\d+)\]/g, (_, letter, n) => tag(letter, n));

// the entry that a part of the page names, if it names one
export function named(target) {
    const part = target.closest?.("[data-e],[data-v],[data-h]");
    if (!part) return null;
    const list = ["e", "v", "h"].find(letter => part.dataset[letter] !== undefined);
    return { list, n: Number(part.dataset[list]) };
}

export function download(name, type, content) {
    const href = URL.createObjectURL(new Blob([content], { type }));
    Object.assign(document.createElement("a"), { download: name, href }).click();
    setTimeout(() => URL.revokeObjectURL(href), 1000);
}

// a button that can do nothing now stays where the keyboard finds it
export const enable = (button, can) => button.setAttribute("aria-disabled", String(!can));
