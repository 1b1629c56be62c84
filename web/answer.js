// The answer of the record that we are at: cutlist's line with a name under each number, and what it means.
import { NEAR, ON, closely } from "./close.js";
import { $, escaped, html } from "./dom.js";
import { clickWords } from "./every.js";
import { STATES, meaning } from "./meaning.js";
import { lineOf } from "./session.js";

const PLACES = ["inside", "outside", "face of the cut"];
const COUNTS = ["elements", "vertices", "hyperplanes"];
const KINDS = ["inside", "outside", "face"];

function slot(n, kind, name, { e = null, more = 0 } = {}) {
    const named = e === null ? "" : ` data-e="${e}"`;
    return ` <span class="slot ${kind}"${named}><span class="n">${n}</span><small>${name}${more > 0 ? ` <em>+${more}</em>` : ""}</small></span>`;
}

function slots({ record, line, before, after }) {
    const [word, ...numbers] = line.split(" ");
    if (word === "refused") return slot(numbers[0], "reason", "reason");
    const places = word === "cut" ? numbers.slice(0, 3) : [];
    const counts = numbers.slice(places.length);
    const more = list => (record.kind === "cut" ? after[list] - before[list] : 0);
    return places.map((n, i) => (n === "-" ? slot(n, "none", PLACES[i]) : slot(n, KINDS[i], PLACES[i], { e: n }))).join("") +
        counts.map((n, i) => slot(n, `count ${COUNTS[i]}`, COUNTS[i], { more: more(COUNTS[i]) })).join("");
}

const place = ({ name, state, says }, i) =>
    `<div class="place ${KINDS[i]} ${state}"><h3><span class="name">${name}</span> <span class="state">${STATES[state]}</span></h3>` +
    `<p>${html(says)}</p></div>`;

// a close call stays with its answer, with what it is and what to do about it
const warning = ({ close }) => `<strong>${html(closely(close))}</strong> A corner within ${NEAR} of the plane and not on it is a close call: an edge may
    vanish there, for within ${ON} a corner counts as on the plane, and two corners as one. Undo the cut, and move the plane onto the corner, or well away.`;

export const answer = {
    changed(desk) {
        const { step, history, live, aside, clicked } = desk;
        if (!step) return;
        aside.restore(live.bytes);
        const { places, says } = meaning({ ...step, table: live, copy: aside });
        const [word] = step.line.split(" ");
        const skip = history.opened ? 1 : 0; // opening is no record
        $("stepname").textContent = step.record.kind === "open" ? "Opened" : `Record ${history.at + 1 - skip} of ${history.steps.length - skip}`;
        $("asked").textContent = lineOf(step.record);
        $("line").dataset.line = step.line;
        $("line").innerHTML = `<span class="word ${word}">${escaped(word)}</span>${slots(step)}`;
        $("places").innerHTML = places.map(place).join("");
        $("answerwarns").innerHTML = step.reply.warning ? warning(step) : "";
        $("says").innerHTML = says.map(text => `<p>${html(text)}</p>`).join("");
        $("clicksays").innerHTML = clicked ? clickWords(clicked, desk).map(text => `<p>${html(text)}</p>`).join("") : "";
        $("clicksays").classList.toggle("refused", Boolean(clicked?.stopped));
    },
};
