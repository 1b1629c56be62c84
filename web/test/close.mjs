// Close calls: what the engine warns of, which corners the page names, and how it tells them, before a cut, after it and on the sheet.
import { readFileSync, writeFileSync } from "node:fs";
import { join } from "node:path";
import { closeCorners } from "../close.js";
import { load } from "../engine.js";
import { partsOf } from "../lesson.js";
import { ask, bytesOf, lineOf, recordsOf, turns } from "../session.js";
import { TABLE_BYTES, Table } from "../table.js";
import { T, signed } from "./signed.mjs";

const OFFSETS = [0, T, T + 2 ** -52, 8 * T, 16 * T, 16 * T + 2 ** -52, 1 / 64].flatMap(far => [far, -far]);
const NORMALS = { 1: [[1], [-1]], 2: [[1, 0], [0.8, -0.6]], 3: [[0, 0, 1], [0.6, 0, 0.8]], 4: [[0, 1, 0, 0], [0.5, -0.5, 0.5, 0.5]] };
const BEGUN = ["cube 1 1", "cube 2 1\ncut both 8 0.8 -0.6 0.2", "cube 3 1\ncut both 26 0.6 0.8 0 0.1", "cube 4 1\ncut both 80 1 0 0 0 0.25"];

const isClose = s => Math.abs(s) > T && Math.abs(s) <= 16 * T;

// planes at and around both limits, beside every corner: the engine warns, and the page names, by the signed distance
function checkNamed(checks, table, copy) {
    let [warned, unlike] = [0, 0];
    for (const session of BEGUN) {
        table.restore(new Uint8Array(TABLE_BYTES));
        const { reply: { inside } } = [...turns(table, bytesOf(recordsOf(session)))].at(-1);
        const root = inside ?? table.sizes.elements - 1;
        for (const v of table.list("vertexSet", root))
            for (const normal of NORMALS[table.dimension])
                for (const offset of OFFSETS) {
                    copy.restore(table.bytes);
                    const record = { kind: "cut", kept: "both", root, normal, distance: signed(normal, 0, table.vertex(v)) + offset };
                    const close = table.list("vertexSet", root).filter(w => isClose(signed(normal, record.distance, table.vertex(w))));
                    const reply = ask(copy, record);
                    if (reply.number !== 0) continue;
                    warned += Number(reply.warning);
                    if (reply.warning !== close.length > 0 || closeCorners(copy, record, reply).map(call => call.v).join() !== close.join()) unlike++;
                }
    }
    checks.same(`${warned} warnings, each for the corners that it is for`, [warned > 100, unlike], [true, 0]);
}

// the lesson's blocks `warned`: those records of the session before that come with a warning, and no others
function checkLesson(checks, table) {
    const paragraphs = partsOf(readFileSync("target/web/LESSON.md", "utf8")).flatMap(part => part.paragraphs);
    let [session, count] = ["", 0];
    for (const [, kind, text] of readFileSync("docs/LESSON.md", "utf8").matchAll(/^```(session|warned)\n([^]*?)^```$/gm)) {
        if (kind === "session") session = text;
        if (kind !== "warned") continue;
        table.restore(new Uint8Array(TABLE_BYTES));
        const warned = [...turns(table, bytesOf(recordsOf(session)))].filter(({ reply }) => reply.warning);
        checks.same("the lesson's warnings", warned.map(({ record }) => lineOf(record) + "\n").join(""), text);
        checks.holds("they stand in its text", paragraphs.includes(`    ${text.trim().split("\n").join("\n    ")}`));
        count++;
    }
    checks.holds("a lesson with a warning", count > 0);
}

export async function checkCalls(checks) {
    const engine = await load(readFileSync("target/web/desk.wasm"), 2 * TABLE_BYTES);
    const [table, copy] = [new Table(engine), new Table(engine)];
    table.cube(2, 1);
    const at = (distance, root = 8) => table.cut({ normal: [1, 0], distance, inside: true, outside: true, root }).warning;
    checks.same("T and 16 T, each with its next float, on both sides",
        [1 - T, 1 - T - 2 ** -53, 1 - 16 * T, 1 - 16 * T - 2 ** -53, 1 + T, 1 + T + 2 ** -52, 1 + 16 * T, 1 + 16 * T + 2 ** -52].map(distance => at(distance)),
        [false, true, true, false, false, true, true, false]);
    checks.same("none at an infinite distance", [at(Infinity), at(-Infinity)], [false, false]);
    checks.same("none with a refusal", table.cut({ normal: [1, 0], distance: 1 - 8 * T, inside: true, outside: true, root: 9999 }), { number: 4 });
    checks.same("only for corners below the root", [at(1 - 8 * T, 6), at(1 - 8 * T, 7)], [false, true]);
    table.cube(3, 1);
    checks.same("flush, with a warning", table.cut({ normal: [T, T, 1], distance: 1 - T, inside: true, outside: true, root: 17 }), { number: 0, warning: true, flush: true });
    checkNamed(checks, table, copy);
    checkLesson(checks, table);
}

const CALL = "Close call at v3: the plane passes 0.0000080 from it.";
const ADVICE = "An edge may vanish there. Move the plane onto the corner, or well away.";
const WARNED = "cube 2 1\ncut both 8 0.8 -0.6 0.199992";

async function aimAt(hands, normal, distance) {
    for (const [axis, value] of normal.entries()) await hands.type(`[data-axis="${axis}"]`, String(value));
    await hands.type("#distance", String(distance));
}

const shown = async hands => [await hands.text("#warns"), await hands.count(".close path"), await hands.run("document.querySelector('#onto').hidden")];
const NOTHING = ["", 0, true];

async function checkAimed(checks, hands) {
    await hands.start(2);
    await aimAt(hands, [0.8, -0.6], 0.15);
    checks.same("well away: nothing is said", [...await shown(hands), await hands.run("document.querySelector('#warns').offsetHeight")], [...NOTHING, 0]);
    await hands.type("#distance", "0.199992");
    checks.same("before it is made", await shown(hands), [`${CALL} ${ADVICE}`, 1, false]);
    checks.same("the table is as it was", [await hands.line(), await hands.count("#elements li[data-e]")], ["cube 9 4 4", 9]);
    const [sign, corner] = [await hands.middle(".close path"), await hands.middle('.reach[data-v="3"]')];
    checks.holds("its sign is around the corner", Math.hypot(sign.x - corner.x, sign.y - corner.y) < 6);
    checks.holds("what is said lies elsewhere", await hands.run("document.querySelector('#warns').getBoundingClientRect().bottom") < corner.y);
    await hands.type("#numbers", "none");
    checks.same("the corner has its number, whatever has none", await hands.texts(".label text"), ["v3"]);
    await hands.type("#numbers", "both");
    checks.same("for those who listen", await hands.run("document.querySelector('#warns').getAttribute('role')"), "status");
    await hands.type("#distance", "inf");
    checks.same("infinite", await shown(hands), NOTHING);
    await hands.type("#distance", "0.199992");
    await hands.type("#root", "77");
    checks.same("refused", await shown(hands), NOTHING);
    await hands.type("#root", "8");
    await hands.press("#onto");
    checks.same("onto the corner", [await hands.would(), await shown(hands), await hands.run("document.activeElement.id")], ["cut 13 14 12 15 5 5", NOTHING, "cut"]);
    await hands.type("#distance", "0.1999995");
    checks.same("within T it is on the plane, and its edge is lost", [await hands.would(), await shown(hands)], ["cut 13 14 12 15 5 5", NOTHING]);
}

async function checkMade(checks, hands) {
    await hands.start(2);
    await aimAt(hands, [0.8, -0.6], 0.199992);
    await hands.press("#cut");
    const answered = await hands.text("#answerwarns");
    checks.holds(`it stays with the answer: ${answered}`, answered.startsWith(`${CALL} A corner within 1/65,536 of the plane and not on it is a close call: an edge may vanish there, `));
    checks.holds("told when it changes", await hands.run("document.querySelector('#answerwarns').closest('[aria-live=polite]') !== null"));
    checks.same("in the drawing, and no longer over it", await shown(hands), ["", 1, true]);
    checks.holds("in its words", (await hands.text("#drawn")).endsWith("close call at vertex 3."));
    checks.same("cutlist's line is as it was", [await hands.line(), await hands.printed()], ["cut 16 17 15 18 6 5", "cube 9 4 4\ncut 16 17 15 18 6 5\n"]);
    checks.same("in the session", await hands.run("[...document.querySelectorAll('#history li')].map(row => row.querySelectorAll('.mark.close').length)"), [0, 1]);
    await hands.press("#undo");
    checks.same("undone, it is aimed at", [await hands.text("#answerwarns"), (await shown(hands))[0]], ["", `${CALL} ${ADVICE}`]);
    await hands.press("#redo");
    checks.same("done again", await hands.text("#answerwarns"), answered);
    await hands.press("#history button[data-step='0']");
    checks.same("another record has none", [await hands.text("#answerwarns"), await hands.count(".close path")], ["", 0]);

    await hands.start(3);
    await hands.type("#root", "17");
    await aimAt(hands, [T, T, 1], 1 - T);
    checks.same("a flush face with a warning", [await hands.would(), (await shown(hands))[0]],
        ["flush 27 8 7", `Close call at v7: the plane passes 0.0000029 from it. ${ADVICE}`]);
    checks.holds("said below it, where the corner is high", (await hands.middle("#warns")).y > (await hands.middle(".close path")).y);
    await hands.press("#cut");
    checks.holds("and its answer", (await hands.text("#answerwarns")).startsWith("Close call at v7: the plane passes 0.0000029 from it."));
}

// a plane that settles a hair from what was cut before, by a hand and by keys
async function checkDragged(checks, hands) {
    const { page } = hands;
    const both = "Close call at v4, v5: the plane passes 0.0000080 from the nearest.";
    await hands.runLines("cube 2 1\ncut both 8 1 0 0.500008");
    await hands.type("#distance", "0");
    const long = await hands.run("(xs => (Math.max(...xs) - Math.min(...xs)) / 3)([...document.querySelectorAll('.axes line')].map(line => Number(line.getAttribute('x1'))))");
    const { x, y } = await hands.middle(".hand .foot");
    const mouse = (type, far, buttons) => page.call("Input.dispatchMouseEvent", { type, x: x + far * long, y, button: "left", buttons, clickCount: 1 }).then(page.frame);
    const high = await hands.run("document.querySelector('#drawing').clientHeight");
    await mouse("mousePressed", 0, 1);
    await mouse("mouseMoved", 0.25, 1);
    checks.same("dragged, and well away", await shown(hands), NOTHING);
    await mouse("mouseMoved", 0.5, 1);
    checks.same("while it is dragged", [await hands.run("desk.aim.distance"), ...await shown(hands)], [0.5, `${both} ${ADVICE}`, 2, false]);
    checks.same("the drawing stays as it is", await hands.run("document.querySelector('#drawing').clientHeight"), high);
    await mouse("mouseMoved", 0.3, 1);
    checks.same("dragged on", await shown(hands), NOTHING);
    await mouse("mouseReleased", 0.3, 0);

    await hands.type("#distance", "0.45");
    await hands.run("document.querySelector('#drawing').focus()");
    await page.key("ArrowUp");
    await page.until("document.querySelector('#said').textContent.endsWith('; close call at vertex 4, vertex 5')", 3000).catch(() => {});
    checks.holds("said once it rests", (await hands.text("#said")).endsWith("; close call at vertex 4, vertex 5"));
}

async function checkSheet(checks, hands) {
    await hands.runLines(`${WARNED}\ncut both 17 1 0 0.5`);
    await hands.toSheet();
    checks.same("the sheet has the warning of each cut", await hands.texts(".sheet .closecall li"), [`cut both 8 0.8 -0.6 0.199992 ${CALL}`]);
    const file = join(hands.files, "close.table");
    await hands.toTop();
    writeFileSync(file, await hands.download("#savetable", "desk.table"));
    await hands.runLines("cube 2 1\ncut both 8 1 0 0");
    await hands.toSheet();
    checks.same("or that there is none", [await hands.count(".sheet .closecall"), (await hands.text(".noclose")).startsWith("No cut of this table was a close call")], [0, true]);
    await hands.toTop();
    await hands.openTable(file);
    await hands.toSheet();
    checks.holds("of a file, that it is not told", (await hands.text(".noclose")).endsWith("What was cut before the file was saved is not told here, for a file holds no cuts."));
    await hands.toTop();
    await hands.start(2);
}

export async function checkClose(checks, hands) {
    for (const part of [checkAimed, checkMade, checkDragged, checkSheet]) await part(checks, hands);
}
