// The table as its three lists, side by side. What the last record added stands below a line; an old entry that was answered is lit.
import { $, named, tag } from "./dom.js";
import { plain } from "./session.js";
import { ROOM } from "./table.js";
import { RANKS, short } from "./words.js";

const LISTS = ["elements", "vertices", "hyperplanes"];
const PLACES = { inside: "inside", outside: "outside", face: "face of the cut" };

// the numbers of each row, short, but never so short that two rows look alike: those get more digits, in the end all
function toldApart(rows) {
    const texts = new Map();
    for (const digits of [4, 7, 10, 17]) {
        const alike = new Map();
        for (const row of rows.filter(row => !texts.has(row))) {
            const text = row.map(x => short(x, digits)).join(", ");
            alike.set(text, [...(alike.get(text) ?? []), row]);
        }
        for (const [text, some] of alike) if (some.length === 1 || digits === 17) some.forEach(row => texts.set(row, text));
    }
    return rows.map(row => texts.get(row));
}

const exact = numbers => numbers.map(plain).join(", ");

// looks, the entry's name for those who listen, and what is shown
function entry(list, n, { looks, says, chosen = null }, content) {
    const selected = chosen === null ? "" : ` aria-selected="${chosen}"`;
    return `<li class="${looks}" data-${list}="${n}" tabindex="-1" role="option"${selected} aria-label="${says}">${content}</li>`;
}

function elementRow(desk, e, added) {
    const { live, aim, step } = desk;
    const { rank, vertex, boundary, hyperplane, primordial } = live.element(e);
    const places = Object.keys(PLACES).filter(place => step.reply[place] === e);
    const marks = places.map(place => `<i class="mark ${place}">${PLACES[place]}</i>`).join(" ");
    const isLit = places.length > 0 && !added;
    const old = isLit ? ' <i class="mark old">old entry</i>' : "";
    const what = rank === 0 ? tag("v", vertex) : boundary.map(b => tag("E", b)).join(" ");
    const mark = primordial ? ' <abbr title="primordial">prim.</abbr>' : "";
    const where = hyperplane === null ? "" : ` <span class="in">in ${tag("h", hyperplane)}${mark}</span>`;
    const says = [`element ${e}`, RANKS[rank], rank === 0 ? `vertex ${vertex}` : `boundary elements ${boundary.join(", ")}`,
        ...(hyperplane === null ? [] : [`in hyperplane ${hyperplane}${primordial ? ", primordial" : ""}`]),
        ...places.map(place => `${PLACES[place]} of the answer`), ...(added ? [added] : isLit ? ["an old entry"] : [])].join(", ");
    const looks = `${added ? "added" : ""}${isLit ? " lit" : ""}${aim.root === e ? " chosen" : ""}`;
    return entry("e", e, { looks, says, chosen: aim.root === e },
        `${tag("E", e)}<span class="rank">${RANKS[rank]}</span><span class="what">${what}${where} ${marks}${old}</span>`);
}

// each row with the words for what is new, or none; `from` is how many entries were there before, and by what the others came
function rows(size, { before, words }, row) {
    const parting = `<li class="parting" role="presentation">${words}: ${size - before}</li>`;
    return Array.from({ length: size }, (_, n) => (n === before && before > 0 ? parting : "") + row(n, n >= before && before > 0 ? words : "")).join("");
}

function vertexRows({ live }, from) {
    const points = Array.from({ length: live.sizes.vertices }, (_, v) => live.vertex(v));
    const [texts, corners] = [toldApart(points), live.cornerElements()];
    return rows(points.length, from, (v, added) => {
        const says = `vertex ${v}, at ${exact(points[v])}, is element ${corners[v]}${added ? `, ${added}` : ""}`;
        return entry("v", v, { looks: added ? "added" : "", says },
            `${tag("v", v)}<span class="numbers" title="${exact(points[v])}">${texts[v]}</span><span class="is">is ${tag("E", corners[v])}</span>`);
    });
}

function hyperplaneRows({ live }, from) {
    const planes = Array.from({ length: live.sizes.hyperplanes }, (_, h) => live.hyperplane(h)).map(({ normal, distance }) => [...normal, distance]);
    const texts = toldApart(planes);
    return rows(planes.length, from, (h, added) => {
        const [normal, distance] = [texts[h].split(", ").slice(0, -1).join(", "), texts[h].split(", ").at(-1)];
        const says = `hyperplane ${h}, normal ${exact(planes[h].slice(0, -1))}, distance ${plain(planes[h].at(-1))}`;
        return entry("h", h, { looks: added ? "added" : "", says: says + (added ? `, ${added}` : "") },
            `${tag("h", h)}<span class="numbers" title="${exact(planes[h])}">${normal} <span class="at">at</span> ${distance}</span>`);
    });
}

// a list begins where something is new, or lit
function settle() {
    for (const id of LISTS) {
        const first = $(id).querySelector(".parting, .lit");
        $(id).scrollTop = first ? Math.max(0, first.offsetTop - 0.4 * $(id).clientHeight) : 0;
    }
}

function step(row, way) {
    let next = row[way];
    while (next?.classList.contains("parting")) next = next[way];
    if (!next) return;
    row.tabIndex = -1;
    next.tabIndex = 0;
    next.focus();
}

function pressed(event, desk) {
    const row = event.target.closest("li");
    const way = { ArrowDown: "nextElementSibling", ArrowUp: "previousElementSibling" }[event.key];
    if (way) step(row, way);
    else if ((event.key === "Enter" || event.key === " ") && row.dataset.e !== undefined) desk.aimAt({ root: Number(row.dataset.e) });
    else return;
    event.preventDefault();
}

export const lists = {
    wire(desk) {
        const part = $("lists");
        part.addEventListener("focusin", event => desk.pointAt(named(event.target)));
        part.addEventListener("keydown", event => pressed(event, desk));
        $("elements").addEventListener("click", event => {
            const row = event.target.closest("li[data-e]");
            if (row) desk.aimAt({ root: Number(row.dataset.e) });
        });
        $("right").addEventListener("pointerover", event => desk.pointAt(named(event.target)));
        $("right").addEventListener("pointerleave", () => desk.pointAt(null));
    },

    changed(desk) {
        const { live, clicked, step: { record, reply, before, after } } = desk;
        const isCut = record.kind === "cut" && reply.number === 0;
        const sizes = clicked?.before ?? (isCut ? before : after);
        const from = list => ({ before: sizes[list], words: `added by this ${clicked ? "click" : "record"}` });
        $("elements").innerHTML = rows(live.sizes.elements, from("elements"), (e, added) => elementRow(desk, e, added));
        $("vertices").innerHTML = vertexRows(desk, from("vertices"));
        $("hyperplanes").innerHTML = hyperplaneRows(desk, from("hyperplanes"));
        for (const id of LISTS) {
            $(`${id}count`).textContent = `${live.sizes[id]} of ${ROOM[id]}`;
            $(id).querySelector("li:not(.parting)")?.setAttribute("tabindex", "0");
        }
        settle();
    },

    aimed({ aim }) {
        const [old, now] = [$("elements").querySelector(".chosen"), $("elements").querySelector(`li[data-e="${aim.root}"]`)];
        for (const row of [old, now]) {
            row?.classList.toggle("chosen", row === now);
            row?.setAttribute("aria-selected", String(row === now));
        }
    },

    pointed({ pointed }) {
        $("lists").querySelector(".pointedrow")?.classList.remove("pointedrow");
        if (pointed) $("lists").querySelector(`li[data-${pointed.list}="${pointed.n}"]`)?.classList.add("pointedrow");
    },
};
