// Random actions, the same in every run: nothing goes wrong, what is shown is what the engine gave, and its bytes give it again.
import { readFileSync } from "node:fs";
import { load } from "../engine.js";
import { TABLE_BYTES, Table } from "../table.js";
import { turns } from "../session.js";

const ACTIONS = `(async count => {
    let seed = 12345;
    const any = n => (seed = (seed * 1103515245 + 12345) % 2147483648, Math.floor(seed / 65536) % n);
    const one = (...things) => things[any(things.length)];
    const press = id => document.querySelector(id).click();
    const shape = radius => Object.entries({ shape: String(1 + any(4)), radius }).forEach(([id, value]) => (document.querySelector("#" + id).value = value));
    const aim = () => {
        const [axis, isOnAxis] = [any(4), any(2) === 0];
        const v = Array.from({ length: desk.live.dimension }, (_, i) => (isOnAxis ? Number(i === axis) : any(5) - 2));
        const { pieces } = desk.bench;
        const root = pieces.length > 0 && any(2) > 0 ? one(...pieces) : any(desk.live.sizes.elements);
        desk.aimAt({ normal: v.map(x => x / (Math.hypot(...v) || 1)), distance: one(0, 1, -1, (any(21) - 10) / 10), kept: one("both", "both", "inside", "outside", "neither"), root });
    };
    const actions = [
        () => { shape("1"); press("#newsession"); },
        () => { shape(one("1", "2", "0.5", "65536", "x")); press("#addcube"); },
        () => press("#undo"), () => press("#redo"), () => { press("#undo"); press("#redo"); }, () => press("#earlier"),
        () => one(...document.querySelectorAll("#lessons button")).click(),
        () => desk.stands && desk.open("random.table", desk.save().file),
        async () => wrong.push(...[await desk.open("broken.table", desk.save().file?.slice(any(9)) ?? [])].filter(number => number !== 0 && number !== 13)),
        () => desk.lookFrom({ apart: any(8) / 10, yaw: any(360), pitch: any(170) - 85, roll: any(360), numbers: one("both", "all", "none", "vertices", "pieces") }),
        () => desk.aimAt({ root: one(any(30), NaN, 65544, 600) }),
        () => desk.aimAt({ distance: one(Infinity, -Infinity, NaN, 1e300) }),
        () => document.querySelector(one("#sheetpart", ".top")).scrollIntoView(),
        () => desk.pointAt({ list: one("e", "v", "h"), n: any(60) }),
        () => press(one("#grid2", "#grid3", "#cutevery")),
        ...Array(11).fill(() => { aim(); if (any(3) > 0) press("#cut"); }),
    ];
    const wrong = [], kinds = new Set();
    for (let i = 0; i < count; i++) {
        await one(...actions)();
        await new Promise(done => requestAnimationFrame(done));
        kinds.add(desk.step.line.split(" ")[0]);
        if (document.querySelector("#line").dataset.line !== desk.step.line) wrong.push(i + ": another line is shown");
        if (desk.stands && !desk.live.isSound()) wrong.push(i + ": the table is not sound");
    }
    return { wrong, kinds: [...kinds].sort() };
})`;

export async function checkRandom(checks, hands) {
    const { wrong, kinds } = await hands.run(`${ACTIONS}(200)`);
    checks.same("nothing wrong in 200 random actions", wrong, []);
    checks.same("of every kind", kinds, ["cube", "cut", "flush", "open", "refused"]);
    checks.holds("nothing to tell", await hands.run("document.querySelector('#noengine').hidden"));
    await hands.run("desk.go(Infinity)");
    const engine = await load(readFileSync("target/web/desk.wasm"), TABLE_BYTES);
    const [table, opened] = [new Table(engine), await hands.run("desk.history.opened && { line: desk.history.opened.line, bytes: [...desk.history.opened.bytes] }")];
    if (opened) table.restore(opened.bytes);
    const lines = [...(opened ? [opened] : []), ...turns(table, await hands.download("#savebytes", "desk.session"))].map(({ line }) => line + "\n").join("");
    checks.same("the session's bytes give its lines again", await hands.printed(), lines);
    await hands.toTop();
    await hands.start(2);
}
