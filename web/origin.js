// Where the table of a sheet came from: its session or the file that it was opened from; and so, what is promised of its corners.
import { NEAR, closely } from "./close.js";
import { escaped, html, tag } from "./dom.js";
import { matching } from "./opened.js";
import { bytesOf, checksum, lineOf, plain } from "./session.js";
import { SHAPES } from "./words.js";

const MATCH = "Two corners match when every coordinate of theirs is the same within 1/1,048,576.";

const openedIn = ({ beginning }) => (beginning.record.kind === "open" ? beginning : null);
const named = ({ name }) => `<code>${escaped(name)}</code>`;

// what the pieces of a sheet are pieces of
export function tableOf({ live, history }) {
    const { record } = history.beginning;
    return record.kind === "open" ? `the table of ${named(record)}` : `the ${SHAPES[live.dimension]} of radius ${plain(record.radius)}`;
}

// a file may bring vertices that match, so those that it brought are compared; what was cut since adds none
export function promiseOf({ live, history }) {
    const opened = openedIn(history);
    if (!opened) return `<p class="promise"><strong>One crossing, one corner.</strong> The counts on this sheet rest on a proved promise: from a cube,
        by any cuts, no vertex matches an earlier one. It holds for a table that came from a cube by cuts, and this one did: its session
        stands below. So no corner is entered twice. ${MATCH}</p>`;
    const pairs = matching(live, opened.after.vertices);
    if (pairs.length === 0) return `<p class="promise"><strong>One crossing, one corner.</strong> The counts on this sheet rest on a proved promise: where no
        vertex matches an earlier one, none does after any cuts. This table was opened from a file, which may bring any vertices. The page
        compared those that it brought, and no two match. So no corner is entered twice. ${MATCH}</p>`;
    const some = pairs.slice(0, 8).map(([a, b]) => `${tag("v", a)} and ${tag("v", b)}`).join("; ");
    return `<p class="promise sliver"><strong>A corner is entered twice.</strong> This table was opened from a file that brings vertices that match:
        ${some}${pairs.length > 8 ? `; and ${pairs.length - 8} pairs more` : ""}. What is promised of a table from a cube does not hold for it. ${MATCH}</p>`;
}

// the warning of each cut that had one; of what was cut before a file was saved, nobody knows
export function warningsOf({ history }) {
    const warned = history.made.filter(({ reply }) => reply.warning);
    const before = openedIn(history) ? " What was cut before the file was saved is not told here, for a file holds no cuts." : "";
    if (warned.length === 0) return `<p class="noclose">No cut of this table was a close call: no plane passes within ${NEAR} of a corner of what it cuts without
        going through it.${before}</p>`;
    const rows = warned.map(({ record, close }) => `<li><code>${lineOf(record)}</code> ${html(closely(close))}</li>`);
    return `<div class="closecall"><p><strong>Look closely:</strong> ${warned.length === 1 ? "a cut" : `${warned.length} cuts`} of this table came with a warning:
        the plane passes within ${NEAR} of a corner, and not through it. An edge may have vanished there, or be too short to be made.${before}</p><ul>${rows.join("")}</ul></div>`;
}

// the records, which the bytes of the session hold, and the lines of those that made this table
function sessionOf(history) {
    const [all, used] = [history.records(), history.records(history.beginsAt)];
    return `<h3>The session that this sheet comes from</h3>
        <p class="digest">${all.length} records, checksum <code>${checksum(bytesOf(all))}</code> (CRC-32 of the session’s bytes).
        The table comes from the last ${used.length}:</p>
        <pre>${used.map(lineOf).join("\n")}</pre>`;
}

function fileOf({ record }, history) {
    const since = history.records();
    const records = since.length === 0 ? "Nothing was cut since." : `Since then ${since.length} ${since.length === 1 ? "record" : "records"},
        checksum <code>${checksum(bytesOf(since))}</code> (CRC-32 of the bytes):`;
    return `<h3>The file that this sheet comes from</h3>
        <p class="digest">${named(record)}, ${record.size} bytes, checksum <code>${record.sum}</code> (CRC-32 of the file). ${records}</p>
        ${since.length === 0 ? "" : `<pre>${since.map(lineOf).join("\n")}</pre>`}`;
}

export function originOf(desk) {
    const opened = openedIn(desk.history);
    const { number, file } = desk.save();
    const own = number === 0 ? `${file.length} bytes, checksum <code>${checksum(file)}</code>` : `refused ${number}`;
    return `${opened ? fileOf(opened, desk.history) : sessionOf(desk.history)}
        <p class="ownfile">This table, saved: ${own}. A table has one file, so a saved table can be held against this sheet.</p>`;
}
