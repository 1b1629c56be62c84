// The six questions of the engine, with their lists and refusals.
import { $, html } from "./dom.js";
import { refusal } from "./words.js";

const elements = list => list.map(e => `[E${e}]`).join(" ");
const vertices = list => list.map(v => `[v${v}]`).join(" ");
const pairs = list => Array.from({ length: list.length / 2 }, (_, i) => `[v${list[2 * i]}]–[v${list[2 * i + 1]}]`).join(", ");

// a name, what is asked for beside the element, and how the answer reads
const QUESTIONS = {
    subelements: { name: "sub-elements", reads: ({ list }) => elements(list) },
    withRank: { name: "sub-elements with a rank", wants: "rank", reads: ({ list }) => elements(list) },
    vertexSet: { name: "vertex set", reads: ({ list }) => vertices(list) },
    greatestCommon: { name: "greatest common sub-elements", wants: "more", reads: ({ list }) => elements(list) },
    edgesInOrder: { name: "edges in order", reads: ({ list }) => pairs(list) },
    hasPrimordialFacet: { name: "primordial facet", reads: ({ yes }) => (yes ? "yes" : "no") },
};

const numbers = text => text.split(/[\s,]+/).filter(word => word !== "").map(word => (/^\d+$/.test(word) ? Number(word) : NaN));

function show({ live, stands }) {
    const { wants, reads } = QUESTIONS[$("question").value];
    $("rankfield").hidden = wants !== "rank";
    if (!stands) return $("questionsays").replaceChildren();
    const roots = numbers($("questionroots").value);
    const words = wants === "more" ? [roots] : [roots[0] ?? NaN, ...(wants === "rank" ? [Number($("questionrank").value)] : [])];
    const reply = live.ask($("question").value, ...words);
    const size = reply.list ? `${reply.list.length} ${reply.list.length === 1 ? "number" : "numbers"}: ` : "";
    const root = roots.find(root => !live.has(root));
    const says = reply.number === 0 ? size + reads(reply) : `refused ${reply.number}. ${refusal(reply.number, { root }, live)}`;
    $("questionsays").innerHTML = html(says);
}

export const questions = {
    wire(desk) {
        $("question").innerHTML = Object.entries(QUESTIONS).map(([key, { name }]) => `<option value="${key}">${name}</option>`).join("");
        $("questions").onsubmit = event => event.preventDefault();
        $("questions").oninput = () => show(desk);
    },

    changed(desk) {
        if (desk.step.record.kind !== "cut" && desk.stands) $("questionroots").value = desk.live.sizes.elements - 1;
        show(desk);
    },
};
