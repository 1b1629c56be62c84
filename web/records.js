// The session's records: each with its line, to go back to; as bytes for cutlist and as record's plain lines, out and in.
import { $, download, enable, escaped } from "./dom.js";
import { isFileOfTable } from "./file.js";
import { NoRecord, beginsAnew, bytesOf, lineOf, recordsOf } from "./session.js";

const linesOf = records => records.map(record => lineOf(record) + "\n").join("");

// plain lines begin with a word, a comment or space; bytes begin with a mark, C U or C T
const isLines = bytes => bytes.length === 0 || !(bytes[0] === 0x43 && (bytes[1] === 0x55 || bytes[1] === 0x54));

// unless they begin with a cube, they go on from the table that was opened
function run(desk, bytesNow) {
    try {
        const bytes = bytesNow();
        const says = desk.run(bytes, null, beginsAnew(bytes) ? null : desk.history.opened);
        $("runsays").textContent = says || `${desk.history.records().length} records.`;
        desk.tell("changed");
    } catch (error) {
        if (!(error instanceof NoRecord)) throw error;
        $("runsays").textContent = `${error.message}. The session is as it was.`;
    }
}

// what plain lines say; the first may be a cut of the table that was opened
const read = (desk, text) => bytesOf(recordsOf(text, desk.history.opened?.record.dimension));

export function openSession(desk, bytes) {
    run(desk, () => {
        if (isFileOfTable(bytes)) throw new NoRecord("this is a saved table and no session: open it with Open table, at the top");
        if (!isLines(bytes)) return bytes;
        const text = new TextDecoder().decode(bytes);
        return /^[\s\x21-\x7e]*$/.test(text) ? read(desk, text) : bytes;
    });
}

// cutlist has no record that opens a table, so its records are read only where that table stands
const goesOn = ({ name }) => `These records go on from the table of ${name}. Open that first, and then them; cutlist has no table for them.`;

// the cuts of one click stand beside a line, and the first of them has its name
const clickMark = ({ click }, i, steps) => (click && steps[i - 1]?.click !== click ? `<i class="mark click">${escaped(click.name)}: one click</i>` : "");

const row = (step, i, steps, at) => {
    const { record, reply, line, click } = step;
    return `<li class="${i === at ? "now" : i > at ? "later" : ""}${record.kind === "open" ? " opened" : ""}${click ? " ofclick" : ""}"><button type="button" data-step="${i}"${i === at ? ' aria-current="step"' : ""}>` +
        `<code>${escaped(lineOf(record))}</code>${clickMark(step, i, steps)}${reply.warning ? '<i class="mark close">close call</i>' : ""}<code class="gives">${escaped(line)}</code></button></li>`;
};

export const records = {
    wire(desk) {
        const now = () => desk.history.records();
        $("savebytes").onclick = () => download("desk.session", "application/octet-stream", bytesOf(now()));
        $("savelines").onclick = () => download("desk.txt", "text/plain", linesOf(now()));
        $("run").onclick = () => run(desk, () => read(desk, $("lines").value));
        $("earlier").onclick = () => desk.backToEarlier();
        $("open").onchange = async ({ target }) => {
            const [file] = target.files;
            if (file) openSession(desk, new Uint8Array(await file.arrayBuffer()));
            target.value = "";
        };
        $("undo").onclick = () => desk.by(-1);
        $("redo").onclick = () => desk.by(1);
        $("history").onclick = event => {
            const button = event.target.closest("button");
            if (!button) return;
            desk.go(Number(button.dataset.step));
            $("history").querySelector(".now button").focus({ preventScroll: true });
        };
    },

    changed({ history, earlier }) {
        $("history").innerHTML = history.steps.map((step, i, steps) => row(step, i, steps, history.at)).join("");
        $("lines").value = linesOf(history.records());
        $("goeson").textContent = history.opened ? goesOn(history.opened.record) : "";
        enable($("undo"), history.can(-1));
        enable($("redo"), history.can(1));
        enable($("earlier"), earlier !== null);
    },
};
