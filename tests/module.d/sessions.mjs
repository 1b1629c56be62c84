// Every stored session through the module, by the page's own reader of sessions: node sessions.mjs desk.wasm FOLDER
import { readdirSync, readFileSync } from "node:fs";
import { load } from "../../web/engine.js";
import { turns } from "../../web/session.js";
import { Table, TABLE_BYTES } from "../../web/table.js";

const [wasm, folder] = process.argv.slice(2);
const table = new Table(await load(readFileSync(wasm), TABLE_BYTES));
const names = readdirSync(folder).filter(name => name.endsWith(".session"));
let lines = 0, unlike = 0;

for (const name of names) {
    const wanted = readFileSync(`${folder}/${name.replace(/session$/, "lines")}`, "utf8").split("\n").slice(0, -1);
    table.bytes.fill(0);
    const given = [...turns(table, readFileSync(`${folder}/${name}`))].map(turn => turn.line);
    const at = Array.from({ length: Math.max(wanted.length, given.length) }).findIndex((_, i) => wanted[i] !== given[i]);
    lines += wanted.length;
    if (at >= 0) {
        unlike++;
        console.log(`${name}, line ${at + 1}: ${given[at] ?? "nothing"}, and it has to be ${wanted[at] ?? "nothing"}`);
    }
}
console.log(`${names.length} stored sessions, ${lines} lines: ${unlike === 0 ? "alike" : `${unlike} sessions differ`}`);
process.exit(unlike === 0 && names.length >= 25 ? 0 : 1);
