// Planes over every piece in one click: lists of cuts against the same cuts made singly, and what the page does and says with them.
import { execFileSync } from "node:child_process";
import { existsSync, readFileSync } from "node:fs";
import { join } from "node:path";
import { load } from "../engine.js";
import { GRIDS, gridOf } from "../every.js";
import { planesOf } from "../grid.js";
import { KEPT, ask, askAll, turns } from "../session.js";
import { TABLE_BYTES, Table } from "../table.js";

// the same numbers in every run
function dice(seed) {
    let at = seed;
    return n => (at = (at * 1103515245 + 12345) % 2147483648, Math.floor(at / 65536) % n);
}

// cuts of every kind: some are refused, some flush, some of what the cuts before them gave
function anyCut(any, { dimension, sizes }) {
    const axis = any(dimension);
    const v = Array.from({ length: dimension }, (_, i) => (any(2) === 0 ? Number(i === axis) : any(5) - 2));
    const long = Math.hypot(...v) || 1;
    const distance = [0, 1, -1, 0.3, -0.45, Infinity, 1 - 2 ** -18][any(7)];
    const root = any(40) === 0 ? 600 : Math.max(0, sizes.elements + any(12) - 10);
    return { kind: "cut", kept: KEPT[any(40) === 0 ? 0 : 3 - any(3)], root, normal: v.map(x => x / (any(40) === 0 ? 1 : long)), distance };
}

// a list and the same cuts one by one: the number, the position, the answers, and every byte of the table
function checkSame(checks, table, single) {
    const [any, ends, unlike] = [dice(2024), {}, []];
    let [taken, warned] = [0, 0];
    for (let turn = 0; turn < 400; turn++) {
        table.cube(1 + turn % 4, 1);
        single.restore(table.bytes);
        const list = Array.from({ length: 1 + any(14) }, () => anyCut(any, table));
        const replies = [];
        while (replies.length < list.length && (replies.at(-1)?.number ?? 0) === 0) replies.push(ask(single, list[replies.length]));
        const number = replies.at(-1).number;
        const [answers, at] = number === 0 ? [replies, null] : [replies.slice(0, -1), replies.length - 1];
        const given = askAll(table, list);
        ends[number] = (ends[number] ?? 0) + 1;
        taken += answers.length;
        warned += answers.filter(({ warning }) => warning).length;
        if (JSON.stringify(given) !== JSON.stringify({ number, at, answers }) || Buffer.compare(table.bytes, single.bytes) !== 0) unlike.push({ list, given });
    }
    checks.same(`400 lists, ${taken} cuts taken, ${warned} with a warning`, unlike.slice(0, 1), []);
    checks.holds(`many of each kind: ${JSON.stringify(ends)}`, ends[0] > 50 && ends[4] > 50 && ends[5] > 3 && warned > 20 && taken > 1000);
}

export async function checkLists(checks) {
    const engine = await load(readFileSync("target/web/desk.wasm"), 2 * TABLE_BYTES);
    const [table, single] = [new Table(engine), new Table(engine)];
    const cut = (root, change = {}) => ({ normal: [1, 0], distance: 0, inside: true, outside: true, root, ...change });
    checks.same("no table: 3 before 26", table.cutAll(Array(65).fill(cut(8))), { number: 3, at: null, answers: [] });
    table.cube(2, 1);
    const square = table.bytes.slice();
    for (const many of [65, 66, 1000]) checks.same(`${many} cuts are more than a list has`, table.cutAll(Array(many).fill(cut(8))), { number: 26, at: null, answers: [] });
    checks.holds("and none was made", Buffer.compare(square, table.bytes) === 0);
    checks.same("no cuts are done", table.cutAll([]), { number: 0, at: null, answers: [] });
    const most = table.cutAll(Array(64).fill(cut(8)));
    checks.same("64 are a list", [most.number, most.answers.length, most.answers[63]], [0, 64, { number: 0, warning: false, flush: false, inside: 16, outside: 17, face: 15 }]);
    table.restore(square);
    const M1 = { number: 0, warning: false, flush: false, inside: 16, outside: 17, face: 15 };
    for (const root of [9999, 65535, 65544, 8.5, NaN, -65528])
        checks.same(`the second cut of ${root}`, table.cutAll([cut(8), cut(root), cut(16)]), { number: 4, at: 1, answers: [M1] });
    checks.same("what was taken before it stays", table.sizes, { elements: 18, vertices: 6, hyperplanes: 5 });
    checks.same("at the first", table.cutAll([cut(8, { distance: NaN })]), { number: 5, at: 0, answers: [] });
    table.restore(square);
    checks.same("the sides kept, each by its bit", table.cutAll([cut(8, { outside: false }), cut(8, { inside: false }), cut(8, { inside: false, outside: false })]).answers
        .map(({ inside, outside, face }) => [inside, outside, face]), [[14, null, 13], [null, 17, 13], [null, null, 13]]);
    checkSame(checks, table, single);

    checks.same("the planes of a grid", [gridOf([2], 1), gridOf([3, 3], 3), gridOf([2, 2, 1, 1], 1)], [[{ normal: [1], distance: 0 }],
        [[[1, 0], -1], [[1, 0], 1], [[0, 1], -1], [[0, 1], 1]].map(([normal, distance]) => ({ normal, distance })),
        [{ normal: [1, 0, 0, 0], distance: 0 }, { normal: [0, 1, 0, 0], distance: 0 }]]);
    checks.same("planes that are written", planesOf("1 0 1/3 # a third\n\n 0, 1, -inf", 2), [{ normal: [1, 0], distance: 1 / 3 }, { normal: [0, 1], distance: -Infinity }]);
    for (const [text, dimension] of [["1 0", 2], ["1 0 0 0", 2], ["1 x 0", 2], ["1 0 0", 3]]) {
        let says = "taken";
        try {
            planesOf(text, dimension);
        } catch (error) {
            says = error.constructor.name;
        }
        checks.same(`${text} is no plane of ${dimension} dimensions`, says, "NoRecord");
    }
}

// ---- in the browser

// the lists that the engine is asked for while something is done, by how many cuts each has
async function lists(hands, doing) {
    await hands.run(`(() => {
        const { calls } = desk.engine;
        globalThis.listed = [];
        globalThis.listen = () => (desk.engine.calls = calls);
        desk.engine.calls = { ...calls, desk_cut_all: (...words) => (listed.push(Number(words[13])), calls.desk_cut_all(...words)) };
    })()`);
    await doing();
    return hands.run("listen() && listed");
}

const words = hands => hands.texts("#clicksays p");

// each grid of each dimension: the lists, the pieces, the last line; undone, and done again
async function checkGrids(checks, hands) {
    const seen = [];
    for (const dimension of [1, 2, 3, 4])
        for (const [i, along] of GRIDS[dimension].entries()) {
            await hands.start(dimension);
            const first = await hands.printed();
            const name = along.join(" × ");
            checks.same(`${name} has its button`, await hands.text(`#grid${i + 2}`), name);
            const asked = await lists(hands, () => hands.press(`#grid${i + 2}`));
            const pieces = along.reduce((a, b) => a * b);
            checks.same(`${name}: a list for each plane`, [asked.length, await hands.run("desk.bench.pieces.length")], [along.reduce((sum, many) => sum + many - 1, 0), pieces]);
            seen.push([name, asked.reduce((a, b) => a + b), await hands.run("desk.live.sizes.elements")]);
            checks.same(`${name}: a record for each cut`, await hands.count("#history li.ofclick"), asked.reduce((a, b) => a + b));
            checks.holds(`${name}: the table of the lists is the table of the cuts`, await hands.run("desk.live.isSound() && desk.live.bytes.every((byte, i) => byte === desk.step.bytes[i])"));
            checks.holds(`${name}: told`, (await words(hands))[0].startsWith(`${name}: `));
            const printed = await hands.printed();
            await hands.press("#undo");
            checks.same(`${name}: undone by one press`, [await hands.line(), await words(hands), await hands.count("#history li.now[class~=ofclick]")], [first.trim(), [], 0]);
            await hands.press("#redo");
            checks.same(`${name}: done again`, [await hands.printed(), await hands.run("desk.bench.pieces.length")], [printed, pieces]);
        }
    checks.same("cuts and elements", seen, [["2", 1, 6], ["3", 3, 9], ["2 × 2", 3, 33], ["3 × 3", 12, 69], ["2 × 2 × 2", 7, 174], ["3 × 3 × 3", 39, 501], ["2 × 2 × 1 × 1", 3, 297]]);
    checks.same("four dimensions have room for one grid", await hands.run("document.querySelector('#grid3').hidden"), true);
}

// what the click says, how its records stand in the session, and that the session gives its lines again elsewhere
async function checkTold(checks, hands) {
    await hands.start(3);
    await hands.press("#grid3");
    checks.same("in words", await words(hands), ["3 × 3 × 3: six planes over every piece, 39 cuts in six calls. Undo takes the whole click back.",
        "27 pieces lie on the bench. Added to the table: 474 elements, E27 to E500; 56 vertices, v8 to v63; and six hyperplanes, h6 to h11. No old entry was changed or taken away."]);
    checks.holds("told when it changes", await hands.run("document.querySelector('#clicksays').closest('[aria-live=polite]') !== null"));
    checks.same("in the lists", await hands.texts("#lists .parting"), ["added by this click: 474", "added by this click: 56", "added by this click: 6"]);
    checks.same("one name in the session", await hands.texts("#history .mark.click"), ["3 × 3 × 3: one click"]);
    checks.same("the last record", [await hands.text("#stepname"), await hands.line()], ["Record 40 of 40", "cut 499 500 498 501 64 12"]);
    const printed = await hands.printed();
    const bytes = await hands.download("#savebytes", "desk.session");
    const engine = await load(readFileSync("target/web/desk.wasm"), TABLE_BYTES);
    checks.same("its bytes give its lines, one by one", [...turns(new Table(engine), bytes)].map(({ line }) => line + "\n").join(""), printed);
    if (existsSync("crates/cutlist/out/cutlist")) checks.same("and cutlist's", execFileSync("./cutlist", { input: bytes }).toString(), printed);

    // within the click: a record of it has its own table, and undo leads out of it
    await hands.press("#history button[data-step='7']");
    checks.same("a record within it", [await hands.line(), await words(hands), (await hands.texts("#lists .parting"))[0].split(":")[0]], [printed.split("\n")[7], [], "added by this record"]);
    checks.same("its table", await hands.run("desk.live.sizes.elements"), Number(printed.split("\n")[7].split(" ")[4]));
    await hands.press("#undo");
    checks.same("undone from within", await hands.line(), "cube 27 8 6");
    await hands.press("#redo");
    checks.same("to its end", await hands.text("#stepname"), "Record 40 of 40");
    await hands.press("#grid3");
    checks.same("once more: every piece is its old entry", [(await words(hands))[1], await hands.run("desk.bench.pieces.length")],
        ["27 pieces lie on the bench. Nothing was added: all that these cuts need is in the table already.", 27]);
    await hands.press("#undo");
    checks.same("one click is undone, and not both", await hands.text("#stepname"), "Record 40 of 202");

    // beside a lesson's steps it is one step
    await hands.press('[data-lesson="1"]');
    await hands.press("#grid3");
    checks.same("in a lesson", [await hands.texts("#lessonsteps li code"), await hands.text("#lessonat")], [["cube 2 1", "cube 9 4 4", "3 × 3: 12 cuts", "cut 67 68 66 69 16 8"], "step 2 of 2"]);
    await hands.press("#lessonback");
    checks.same("and back", [await hands.line(), await hands.text("#lessonat")], ["cube 9 4 4", "step 1 of 2"]);
    await hands.press("#lessonleave");

    // a session that was opened has the same records, and knows of no click
    await hands.open(join(hands.files, "desk.session"));
    checks.same("opened again", [await hands.printed(), await hands.count("#history li.ofclick")], [printed, 0]);
}

// a list that stops: where, at what, why, and what stays
async function checkStopped(checks, hands) {
    await hands.start(3);
    await hands.press("#grid2");
    const before = await hands.printed();
    const asked = await lists(hands, () => hands.press("#grid3"));
    const said = await words(hands);
    checks.same("stopped", [asked, said.slice(0, 3)], [[8, 12, 16, 24], ["3 × 3 × 3: six planes over every piece, 38 cuts in four calls. Undo takes the whole click back.",
        "Stopped at position 2, counted from 0, in the list of plane 4 of 6, 24 cuts: cut both 247 0 1 0 0.3333333333333333 is refused 9. There is no room for another element.",
        "The 38 cuts before it stay; those after it were not made."]]);
    checks.same("the refused cut is the last record", [await hands.line(), await hands.text("#asked"), (await hands.texts("#says p"))[0]],
        ["refused 9", "cut both 247 0 1 0 0.3333333333333333", "There is no room for another element."]);
    checks.same("the cuts before it stay", await hands.run("[desk.live.sizes.elements, desk.live.isSound(), desk.history.steps.length]"), [504, true, 47]);
    checks.holds("shown as a refusal", await hands.run("document.querySelector('#clicksays').classList.contains('refused')"));
    await hands.press("#undo");
    checks.same("undo takes all of it back", [(await hands.texts("#history li:not(.later) .gives")).join("\n") + "\n", await hands.run("desk.live.sizes.elements")], [before, 174]);

    // refused at the first cut of the first plane; and before any cut
    await hands.start(2);
    await hands.type("#planes", "1 1 0\n1 0 0");
    await hands.press("#cutplanes");
    checks.same("at the first", await words(hands), ["Planes of your own: two planes over every piece, no cuts in one call. Undo takes the whole click back.",
        "Stopped at position 0, counted from 0, in the list of plane 1 of 2, one cut: cut both 8 1 1 0 is refused 5. The normal is not unit: its squares add up to 2, not to 1.",
        "No cut was made before it; those after it were not made.", "One piece lies on the bench. Nothing was added."]);
    await hands.press("#undo");
    checks.same("taken back", await hands.line(), "cube 9 4 4");
    await hands.run(`(() => {
        const { calls } = desk.engine;
        desk.engine.calls = { ...calls, desk_cut_all: (...words) => calls.desk_cut_all(...words.with(13, words[13] + 1n)) };
        document.querySelector("#grid2").click();
        desk.engine.calls = calls;
    })()`);
    checks.same("parts that do not belong together", [(await words(hands))[1], await hands.printed(), await hands.run("desk.history.steps.length")],
        ["The list of plane 1 of 2, one cut, is refused 26. The list has more than its limit, or its parts do not belong together. None of its cuts was made. No cut was made before it.", "cube 9 4 4\nrefused 5\n", 2]);
}

// the plane that is aimed at, planes that are written, the sides kept, and more pieces than a list has
async function checkOwn(checks, hands) {
    const { page } = hands;
    await hands.start(2);
    await hands.press("#grid2");
    for (const [axis, value] of [["0", "0.6"], ["1", "0.8"]]) await hands.type(`[data-axis="${axis}"]`, value);
    await hands.type("#distance", "0.2");
    await hands.press('input[value="inside"]');
    checks.same("this plane over every piece", [await lists(hands, () => hands.press("#cutevery")), (await words(hands))[0]], [[4], "This plane: one plane over every piece, four cuts in one call. Undo takes the whole click back."]);
    checks.same("as Keep says", await hands.run("desk.step.click && desk.history.steps.filter(({ click }) => click === desk.step.click).map(({ record }) => record.kept)"), Array(4).fill("inside"));
    await hands.press("#undo");
    checks.same("what was aimed at is aimed at again", await hands.run("[desk.aim.normal, desk.aim.distance, desk.aim.kept, desk.aim.aiming]"), [[0.6, 0.8], 0.2, "inside", true]);
    await hands.run("document.querySelector('#drawing').focus()");
    await page.key("Enter", 8);
    checks.same("by keys", [(await words(hands))[0].slice(0, 21), await hands.count("#history li.ofclick")], ["This plane: one plane", 7]);
    await hands.press('input[value="both"]');

    // eight by nine pieces, and one plane more over all of them
    await hands.start(2);
    await hands.type("#planes", "");
    await hands.press("#cutplanes");
    checks.same("no plane", [await hands.text("#planessay"), await hands.printed()], ["There is no plane.", "cube 9 4 4\n"]);
    await hands.type("#planes", "1 0");
    await hands.press("#cutplanes");
    checks.same("what is no plane is told", [await hands.text("#planessay"), await hands.printed()], ["1 0: a plane here is 3 numbers, the normal and then the distance. The table is as it was.", "cube 9 4 4\n"]);
    await hands.type("#distance", "-3/4");
    await hands.type("#planes", "");
    await hands.press("#addplane");
    await hands.type("#distance", "-1/2");
    await hands.press("#addplane");
    checks.same("the plane above is added", await hands.run("document.querySelector('#planes').value"), "1 0 -0.75\n1 0 -0.5\n");
    const planes = [...[1, 2, 3, 4, 5, 6, 7].map(k => `1 0 ${k - 4}/4 # upright`), ...[1, 2, 3, 4, 5, 6, 7, 8].map(k => `0 1 ${2 * k - 9}/9`)].join("\n");
    await hands.type("#planes", planes);
    await hands.press("#cutplanes");
    checks.same("72 pieces", [await hands.run("desk.bench.pieces.length"), (await words(hands))[0], await hands.text("#planessay")],
        [72, "Planes of your own: 15 planes over every piece, 316 cuts in 15 calls. Undo takes the whole click back.", ""]);
    await hands.type("#planes", "1 0 inf");
    checks.same("more than 64 are two lists", [await lists(hands, () => hands.press("#cutplanes")), (await words(hands))[0]],
        [[64, 8], "Planes of your own: one plane over every piece, 72 cuts in two calls. Undo takes the whole click back."]);
    await hands.press("#undo");
    checks.same("undone as one", await hands.run("desk.bench.pieces.length"), 72);

    // a table that was opened has its pieces too; where none lies there, nothing is done
    const file = await hands.download("#savetable", "desk.table");
    await hands.openTable(join(hands.files, "desk.table"));
    await hands.press("#grid2");
    checks.same(`opened, ${file.length} bytes`, [(await words(hands))[0].slice(0, 36), await hands.count("#history li.ofclick") > 100], ["2 × 2: two planes over every piece, ", true]);
    await hands.runLines("cube 2 1\ncut neither 8 1 0 0");
    const none = await hands.printed();
    for (const id of ["#grid2", "#grid3", "#cutevery", "#cutplanes"]) {
        checks.same(`no piece: ${id} can do nothing`, await hands.run(`document.querySelector("${id}").getAttribute("aria-disabled")`), "true");
        await hands.press(id);
    }
    checks.same("nothing is done", await hands.printed(), none);
    await hands.start(2);
}

export async function checkEvery(checks, hands) {
    for (const part of [checkGrids, checkTold, checkStopped, checkOwn]) await part(checks, hands);
}
