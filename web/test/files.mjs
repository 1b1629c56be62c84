// What can be told of the page without a browser: node web/test/files.mjs, from the project's folder, after web/serve --build.
import { readFileSync, readdirSync, statSync } from "node:fs";
import { execFileSync } from "node:child_process";
import { load } from "../engine.js";
import { TABLE_BYTES, Table } from "../table.js";
import { bytesOf, lineOf, plain, recordsOf } from "../session.js";
import { REFUSALS } from "../words.js";
import { partsOf } from "../lesson.js";
import { checkAreasOf } from "./areas.mjs";
import { Checks } from "./check.mjs";
import { checkCalls } from "./close.mjs";
import { checkColours } from "./colours.mjs";
import { checkLists } from "./every.mjs";
import { checkSaved } from "./saved.mjs";
import { checkSidesOf } from "./touch.mjs";

const checks = new Checks();
const read = name => readFileSync(name, "utf8");

// sizes, and nothing from elsewhere
const sources = ["web", "web/test"].flatMap(folder => readdirSync(folder).filter(name => /\.(js|mjs|css|html)$/.test(name)).map(name => `${folder}/${name}`));
for (const name of sources) checks.holds(`${name} has at most 300 lines`, read(name).split("\n").length <= 301);
const built = readdirSync("target/web");
const bytes = built.reduce((sum, name) => sum + statSync(`target/web/${name}`).size, 0);
checks.holds(`the page is ${bytes} bytes, below 300,000`, bytes < 300000);
for (const name of built.filter(name => /\.(js|css|html)$/.test(name))) {
    checks.same(`${name} asks no other host`, read(`target/web/${name}`).match(/https?:|\/\/[a-z]+\./g), null);
    const named = [...read(`target/web/${name}`).matchAll(/(?:from |src=|href=|fetched\()"(?:\.\/)?([^"]*)"/g)].map(([, other]) => other);
    checks.same(`${name} names only files beside it`, named.filter(other => !built.includes(other) && other !== "data:,"), []);
}

// the lesson is docs/LESSON.md, every session of it
const text = read("docs/LESSON.md");
const blocks = kinds => [...text.matchAll(new RegExp("^```(?:" + kinds + ")\n([^]*?)^```$", "gm"))].map(found => found[1]);
const parts = partsOf(read("target/web/LESSON.md"));
checks.same("the built lesson is the lesson", read("target/web/LESSON.md"), text);
checks.same("its sessions", parts.map(({ session }) => session), blocks("session|opened"));
checks.same("its lines", parts.map(({ lines }) => lines), blocks("lines|prints"));
checks.same("those that go on from a saved table", parts.filter(({ from }) => from !== null).map(({ session }) => session), blocks("opened"));
checks.holds("five sessions or more, each with a text", parts.length >= 5 && parts.every(({ paragraphs }) => paragraphs.join("").length > 100));

// record's bytes and lines
for (const { title, session } of parts.filter(({ from }) => from === null)) {
    const recorded = execFileSync("./record", { input: session }).toString("hex");
    checks.same(`${title}: bytes`, Buffer.from(bytesOf(recordsOf(session))).toString("hex"), recorded);
    checks.same(`${title}: lines`, recordsOf(session).map(lineOf).join("\n") + "\n", session);
}
const floats = [0, -0, 0.1, -1 / 3, 5e-324, 1.7976931348623157e308, Infinity, -Infinity, 1e21, 1e-7];
const hard = `cube 4 1\n${[floats.slice(0, 5), floats.slice(5)].map(five => `cut both 8 ${five.map(plain).join(" ")}\n`).join("")}`;
checks.same("floats by their bits", Buffer.from(bytesOf(recordsOf(hard))).toString("hex"), execFileSync("./record", { input: hard }).toString("hex"));
for (const line of ["cube 258 1", "cut both 65544 1 0 0", "cut both -1 1 0 0", "cut all 8 1 0 0", "cube 2", "cube 2 1 1", "cut both 8 0x1 0 0", "cut both 8 1 0 0", "cube 2 1\ncut both 8 1 0", "cube 2 1\ncut both 8 1 0 0 0", "cube 5 1\ncut both 8 1 0 0"]) {
    let says = "taken";
    try {
        recordsOf(line);
    } catch (error) {
        says = error.constructor.name;
    }
    checks.same(`${line} is no record`, says, "NoRecord");
}

// typed numbers: what does not fit its place is refused by the engine, and is no other element
const engine = await load(readFileSync("target/web/desk.wasm"), 2 * TABLE_BYTES);
const table = new Table(engine);
const cut = change => table.cut({ normal: [1, 0], distance: 0, inside: true, outside: true, root: 8, ...change });
checks.same("no table: refused with 3 before 4", cut({ root: 65544 }), { number: 3 });
checks.same("dimension 258 is not 2", table.cube(258, 1), 1);
checks.same("a square", [table.cube(2, 1), table.sizes], [0, { elements: 9, vertices: 4, hyperplanes: 4 }]);
for (const root of [65544, 65535, -65528, 2 ** 32 + 8, 8.5, NaN]) checks.same(`root ${root} is not 8`, cut({ root }), { number: 4 });
for (const root of [65544, -1, 2 ** 32, 1.5, NaN])
    for (const question of ["subelements", "vertexSet", "edgesInOrder", "hasPrimordialFacet"])
        checks.same(`${question} of ${root}`, table.ask(question, root), { number: 4 });
checks.same("rank 258 is not 2", table.ask("withRank", 8, 258), { number: 0, list: [] });
checks.same("greatest common of 65544", table.ask("greatestCommon", [8, 65544]), { number: 4 });
checks.same("greatest common of none", table.ask("greatestCommon", []), { number: 6 });
checks.same("greatest common of many", table.ask("greatestCommon", Array(2000).fill(8)), { number: 0, list: [8] });
checks.same("the walk of M10", table.ask("edgesInOrder", 8), { number: 0, list: [0, 1, 1, 3, 3, 2, 2, 0] });
checks.same("M1", cut({}), { number: 0, warning: false, flush: false, inside: 16, outside: 17, face: 15 });
checks.holds("sound", table.isSound());

// a table's file
await checkSaved(checks, parts);

// close calls
await checkCalls(checks);

// the sides of a plane without a cut, and lists of cuts
await checkSidesOf(checks);
await checkLists(checks);

// areas and print files
await checkAreasOf(checks);

// a word for each refusal of document 01, and the colours
checks.same("refusals", Object.keys(REFUSALS).map(Number), [1, 2, 3, 4, 5, 6, 7, 8, 9, 10, 11, 12, 13, 16, 25, 26]);
checkColours(checks, "web/colours.css");

process.exit(checks.told("files"));
