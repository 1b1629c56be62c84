// Whether the plane touches the chosen element: the engine's answer against the sides of the whole vertex set, and what the page says
// of it while the plane is moved.
import { readFileSync } from "node:fs";
import { load } from "../engine.js";
import { bytesOf, recordsOf, turns } from "../session.js";
import { TABLE_BYTES, Table } from "../table.js";
import { T, signed } from "./signed.mjs";

const BEGUN = ["cube 1 1\ncut both 2 1 0", "cube 2 1\ncut both 8 0.8 -0.6 0.2", "cube 3 1\ncut both 26 0.6 0.8 0 0.1", "cube 4 1\ncut both 80 1 0 0 0 0.25"];
const NORMALS = { 1: [[1], [-1]], 2: [[1, 0], [0.8, -0.6]], 3: [[0, 0, 1], [0.6, 0, 0.8]], 4: [[0, 1, 0, 0], [0.5, -0.5, 0.5, 0.5]] };
const OFFSETS = [0, T, T + 2 ** -52, 0.25, 3].flatMap(far => [far, -far]);

// document 02's order 6, read from the sides of the vertex set: the answer, and how many corners are tested for it
function wanted(table, { normal, distance, root }) {
    const sides = table.list("vertexSet", root).map(v => signed(normal, distance, table.vertex(v))).map(s => (Math.abs(s) <= T ? "on" : s < 0 ? "inside" : "outside"));
    const met = some => ["inside", "outside"].filter(side => some.includes(side));
    const first = sides.findIndex((_, i) => met(sides.slice(0, i + 1)).length === 2);
    const all = met(sides);
    return { number: 0, sides: all.length === 2 ? "both" : all[0] ?? "on", tested: first < 0 ? sides.length : first + 1 };
}

// every element of four tables, and planes at and around the limit of each corner
function checkSides(checks, table) {
    const given = new Map();
    let [unlike, early] = [[], 0];
    for (const session of BEGUN) {
        table.restore(new Uint8Array(TABLE_BYTES));
        [...turns(table, bytesOf(recordsOf(session)))];
        for (let root = 0; table.has(root); root++)
            for (const v of table.list("vertexSet", root).slice(0, 3))
                for (const normal of NORMALS[table.dimension])
                    for (const offset of OFFSETS) {
                        const asked = { normal, distance: signed(normal, 0, table.vertex(v)) + offset, root };
                        const [reply, right] = [table.touch(asked), wanted(table, asked)];
                        given.set(reply.sides, (given.get(reply.sides) ?? 0) + 1);
                        early += Number(reply.tested < table.list("vertexSet", root).length);
                        if (JSON.stringify(reply) !== JSON.stringify(right)) unlike.push({ asked, reply, right });
                    }
    }
    checks.same(`${[...given.values()].reduce((a, b) => a + b)} times touched`, unlike.slice(0, 2), []);
    checks.same("each of the four answers often", ["on", "inside", "outside", "both"].map(sides => given.get(sides) > 300), [true, true, true, true]);
    checks.holds("often before the last corner", early > 300);
}

export async function checkSidesOf(checks) {
    const engine = await load(readFileSync("target/web/desk.wasm"), TABLE_BYTES);
    const table = new Table(engine);
    const touch = change => table.touch({ normal: [1, 0], distance: 0, root: 8, ...change });
    checks.same("no table: 3 before 4 and 5", touch({ root: 9, distance: NaN }), { number: 3 });
    table.cube(2, 1);
    checks.same("4 before 5", [touch({ root: 9, distance: NaN }), touch({ root: 65544 }), touch({ root: 8.5 }), touch({ root: NaN })], Array(4).fill({ number: 4 }));
    checks.same("no plane", [touch({ normal: [1, 1] }), touch({ distance: NaN }), touch({ distance: 300000 })], Array(3).fill({ number: 5 }));
    checks.same("infinite: none is tested", [touch({ distance: Infinity }), touch({ distance: -Infinity })],
        [{ number: 0, sides: "inside", tested: 0 }, { number: 0, sides: "outside", tested: 0 }]);
    checks.same("a corner", [-1, 0, -2].map(distance => touch({ root: 0, distance })), ["on", "inside", "outside"].map(sides => ({ number: 0, sides, tested: 1 })));
    const bytes = table.bytes.slice();
    touch({ normal: [0.8, 0.6] });
    checks.holds("nothing is added, the plane neither", Buffer.compare(bytes, table.bytes) === 0);
    checkSides(checks, table);
}

// what is shown: the badge, and the words
const shown = async hands => [await hands.text("#touch .sides"), (await hands.text("#touch")).slice((await hands.text("#touch .sides")).length).trim()];

async function checkSaid(checks, hands) {
    await hands.start(2);
    const at = async (root, distance) => {
        await hands.type("#root", String(root));
        await hands.type("#distance", String(distance));
        return shown(hands);
    };
    checks.same("through it", await at(8, 0), ["both sides", "E8 has corners inside and outside. 2 of 4 tested."]);
    checks.same("past it", await at(8, 1.5), ["all inside or on", "No corner of E8 is outside. 4 of 4 tested."]);
    checks.same("along its edge", await at(8, 1), ["all inside or on", "No corner of E8 is outside. 4 of 4 tested."]);
    checks.same("before it", await at(8, -1), ["all outside or on", "No corner of E8 is inside. 4 of 4 tested."]);
    checks.same("an edge in the plane", await at(7, 1), ["all on", "Every corner of E7 lies on the plane. 2 of 2 tested."]);
    checks.same("a corner, which is no piece", await at(3, 1), ["all inside or on", "E3 is a corner, and lies inside. 1 of 1 tested."]);
    checks.same("a corner on it", await at(3, -1), ["all on", "E3 is a corner, and lies on the plane. 1 of 1 tested."]);
    checks.same("infinite", await at(8, "inf"), ["all inside or on", "Infinite distance: E8 is inside. 0 of 4 tested."]);
    checks.same("refused", [await at(77, 0), await hands.would()], [["refused 4", "The reason stands with the cut."], "refused 4"]);
    checks.same("the table is as it was", [await hands.line(), await hands.count("#elements li[data-e]")], ["cube 9 4 4", 9]);
    await hands.type("#root", "8");
    await hands.start(2, "0.5");
    checks.same("no table", await hands.text("#touch"), "");
}

// one call a frame, of the table that stands; the one cut of a frame is that of the copy, and is refused here
async function checkAsked(checks, hands) {
    await hands.start(2);
    const [asked, live, trial, reply] = await hands.run(`(() => {
        const { calls } = desk.engine;
        const asked = [];
        const touch = (...words) => (asked.push(["touch", words[0]]), calls.desk_touch(...words));
        const cut = (...words) => (asked.push(["cut", words[0]]), 9n);
        desk.engine.calls = { ...calls, desk_touch: touch, desk_cut: cut };
        desk.aim.distance = 0.5;
        desk.tell("aimed");
        desk.engine.calls = calls;
        return [asked, desk.live.lent[0], desk.trial.lent[0], desk.touch];
    })()`);
    checks.same("asked once, of the table that stands, and without a cut", [asked, reply], [[["cut", trial], ["touch", live]], { number: 0, sides: "both", tested: 2 }]);
}

// by a hand, by keys, and for those who listen
async function checkMoved(checks, hands) {
    const { page } = hands;
    await page.size(1024, 768);
    await hands.start(2);
    const long = await hands.run("(xs => (Math.max(...xs) - Math.min(...xs)) / 3)([...document.querySelectorAll('.axes line')].map(line => Number(line.getAttribute('x1'))))");
    const { x, y } = await hands.middle(".hand .foot");
    const mouse = (type, far, buttons) => page.call("Input.dispatchMouseEvent", { type, x: x + far * long, y, button: "left", buttons, clickCount: 1 }).then(page.frame);
    const tall = () => hands.run("document.querySelector('#touch').getBoundingClientRect().height");
    const heights = [await tall()];
    await mouse("mousePressed", 0, 1);
    const said = [];
    for (const far of [0.5, 1, 1.25, -1, -0.5]) {
        await mouse("mouseMoved", far, 1);
        said.push((await shown(hands))[0]);
        heights.push(await tall());
    }
    await mouse("mouseReleased", -0.5, 0);
    checks.same("while it is dragged", said, ["both sides", "all inside or on", "all inside or on", "all outside or on", "both sides"]);
    for (const distance of ["inf", "-inf", "nan"]) {
        await hands.type("#distance", distance);
        heights.push(await tall());
    }
    checks.same("one line on a projector, whatever it says", [...new Set(heights)], [30]);
    await page.size(1280, 800);

    await hands.type("#distance", "0.95");
    await hands.run("document.querySelector('#drawing').focus()");
    await page.key("ArrowUp");
    await page.until("document.querySelector('#said').textContent.endsWith('; corners all inside or on')", 3000).catch(() => {});
    checks.holds(`said once it rests: ${await hands.text("#said")}`, (await hands.text("#said")).endsWith("would print cut 8 - 7 9 4 5; corners all inside or on"));
    await page.key("ArrowDown");
    await page.until("document.querySelector('#said').textContent.endsWith('; corners on both sides')", 3000).catch(() => {});
    checks.holds("and when it goes through", (await hands.text("#said")).endsWith("; corners on both sides"));
    checks.holds("in what the drawing says", await hands.run("document.querySelector('#drawing').getAttribute('aria-describedby').split(' ').includes('touch')"));

    // the chosen piece, and no other
    await hands.press("#cut");
    const [inside, outside] = await hands.run("[desk.step.reply.inside, desk.step.reply.outside]");
    await hands.type("#root", String(outside));
    checks.same("the other piece", await shown(hands), ["all outside or on", `No corner of E${outside} is inside. 4 of 4 tested.`]);
    await hands.type("#root", String(inside));
    checks.same("this one", await shown(hands), ["all inside or on", `No corner of E${inside} is outside. 4 of 4 tested.`]);
    for (const [dimension, words] of [[1, "E2 has corners inside and outside. 2 of 2 tested."], [3, "E26 has corners inside and outside. 2 of 8 tested."], [4, "E80 has corners inside and outside. 2 of 16 tested."]]) {
        await hands.start(dimension);
        checks.same(`${dimension} dimensions`, await shown(hands), ["both sides", words]);
    }
    await hands.start(2);
}

export async function checkTouch(checks, hands) {
    for (const part of [checkSaid, checkAsked, checkMoved]) await part(checks, hands);
}
