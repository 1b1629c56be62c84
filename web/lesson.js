// The lesson, read from docs/LESSON.md itself: each session as steps, with its text. What is added there shows up here.
import { $, enable, escaped } from "./dom.js";
import { bytesOf, lineOf, recordsOf } from "./session.js";

// every session: its title, the session, the lines that it prints, and the text around it; cuts that go on from a saved table have the
// session that left it
export function partsOf(markdown) {
    return markdown.split(/^## /m).slice(1).flatMap(part => {
        const title = part.split("\n")[0].trim();
        const all = [];
        let last = null;
        for (const [, kind, text] of part.matchAll(/^```(\w+)\n([^]*?)^```$/gm)) {
            if (kind === "session") all.push({ session: last = text, from: null });
            if (kind === "opened") all.push({ session: text, from: last });
            if (kind === "lines" || kind === "prints") all.at(-1).lines = text;
        }
        // which cuts come with a warning, lists, touches and area sheets stand in the text; what is run stands as steps
        const told = part.slice(part.indexOf("\n")).replace(TOLD, (_, lines) => lines.replace(/^/gm, "    "));
        const text = told.replace(/^```[^]*?^```$/gm, "").trim();
        const paragraphs = text.split(/\n\s*\n/).map(words => (isCode(words) ? words : words.replace(/\s+/g, " ")));
        return all.map((one, i) => ({ ...one, title: all.length === 1 ? title : `${title} (${i + 1} of ${all.length})`, paragraphs }));
    });
}

const TOLD = /^```(?:warned|listed|answers|dragged|touches|measured|sheet)\n([^]*?)\n```$/gm;
const isCode = text => text.startsWith("    ");
const marked = text => escaped(text).replace(/`([^`]+)`/g, "<code>$1</code>").replace(/\*([^*]+)\*/g, "<em>$1</em>");
const paragraph = text => (isCode(text) ? `<pre>${escaped(text.replace(/^ {4}/gm, ""))}</pre>` : `<p>${marked(text)}</p>`);

// the table that a session leaves, saved and opened
async function openSaved(desk, session) {
    desk.run(bytesOf(recordsOf(session)));
    const { number, file } = desk.save();
    return number === 0 && await desk.open("monday.table", file) === 0;
}

async function start(desk, i) {
    const { session, from } = desk.parts[i];
    const { history, lesson } = desk;
    if (from === null) desk.run(bytesOf(recordsOf(session)), i);
    else if (await openSaved(desk, from)) desk.run(bytesOf(recordsOf(session, desk.live.dimension)), i, desk.step);
    desk.earlier = history.step && { history, lesson }; // what the lesson ran on its way is none of those to go back to
    desk.go(0);
    $("lessonnext").focus({ preventScroll: true });
}

// what is done off the lesson's path stands there too; a click of many cuts as one step, its last
const isStep = ({ click }, i, steps) => !click || steps[i + 1]?.click !== click;

function row({ record, line, click }, i, at) {
    const state = i < at ? "done" : i === at ? "now" : "to come";
    const asked = click ? `${click.name}: ${click.cuts} cuts` : lineOf(record);
    return `<li class="${state === "to come" ? "later" : state}"${i === at ? ' aria-current="step"' : ""}><code>${escaped(asked)}</code>` +
        `<code class="gives">${i <= at ? escaped(line) : "?"}</code></li>`;
}

export const lesson = {
    wire(desk) {
        $("lessons").innerHTML = desk.parts.map(({ title }, i) => {
            const name = `Lesson ${i + 1}: ${escaped(title)}`;
            return `<button type="button" data-lesson="${i}" title="${name}" aria-label="${name}">${i + 1}</button>`;
        }).join("");
        $("lessons").onclick = event => {
            const button = event.target.closest("button");
            if (button) start(desk, Number(button.dataset.lesson));
        };
        $("lessonnext").onclick = () => desk.by(1);
        $("lessonback").onclick = () => desk.go(desk.history.next(-1));
        $("lessonleave").onclick = () => {
            desk.lesson = null;
            desk.tell("changed");
        };
    },

    changed(desk) {
        const { lesson: i, history, parts } = desk;
        $("lesson").hidden = i === null;
        $("lessons").querySelectorAll("button").forEach((button, k) => button.setAttribute("aria-pressed", String(k === i)));
        if (i === null) return;
        const { title, paragraphs } = parts[i];
        $("lessontitle").textContent = `${i + 1}. ${title}`;
        const steps = history.steps.map((step, k, all) => (isStep(step, k, all) ? { k, html: row(step, k, history.at) } : null)).filter(Boolean);
        $("lessonsteps").innerHTML = steps.map(({ html }) => html).join("");
        $("lessonat").textContent = `step ${steps.filter(({ k }) => k <= history.at).length} of ${steps.length}`;
        $("lessontext").innerHTML = paragraphs.map(paragraph).join("");
        enable($("lessonnext"), history.can(1));
        enable($("lessonback"), history.can(-1));
    },
};
