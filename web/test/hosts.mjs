// What the page saves other hosts open, and the other way round: node web/test/hosts.mjs [PROGRAM], from the project's folder, after
// web/serve --build and bindings/native. PROGRAM is `session` of bindings/rust; without it only the module in bindings/python is asked.
import { execFileSync, spawnSync } from "node:child_process";
import { existsSync, mkdtempSync, readFileSync, rmSync, writeFileSync } from "node:fs";
import { tmpdir } from "node:os";
import { join } from "node:path";
import { load } from "../engine.js";
import { FILE_BYTES, FileRoom } from "../file.js";
import { partsOf } from "../lesson.js";
import { turns } from "../session.js";
import { TABLE_BYTES, Table } from "../table.js";
import { Checks } from "./check.mjs";
import { CHANGES, changed, sessions, sum } from "./saved.mjs";

const PYTHON = `
import sys
sys.path.insert(0, "bindings/python")
from spoonvelvet import Refused, Table
for line in sys.stdin:
    try:
        print(Table.open(bytes.fromhex(line)).save().hex())
    except Refused as refused:
        print("refused", refused.number)
`;

const checks = new Checks();
const engine = await load(readFileSync("target/web/desk.wasm"), TABLE_BYTES + FILE_BYTES);
const [table, room] = [new Table(engine), new FileRoom(engine)];

// a session's lines, and the file of the table that it leaves
function run(bytes) {
    table.restore(new Uint8Array(TABLE_BYTES));
    const lines = [...turns(table, bytes)].map(({ line }) => line + "\n").join("");
    return { lines, file: Buffer.from(room.save(table).file) };
}

// a file opened and saved again, or its refusal
async function again(file) {
    const number = await room.open(table, file);
    return number === 0 ? sum(room.save(table).file) : `refused ${number}`;
}

const ran = sessions(partsOf(readFileSync("docs/LESSON.md", "utf8"))).map(([name, bytes]) => ({ name, bytes, ...run(bytes) }));

// each with what comes of opening and saving it: the same file, or what the page says of a changed one
const files = ran.map(({ name, file }) => ({ name, file, wanted: sum(file) }));
for (const [change] of CHANGES) files.push({ name: change, file: changed(change), wanted: await again(changed(change)) });
const python = execFileSync("python3", ["-c", PYTHON], { input: files.map(({ file }) => file.toString("hex")).join("\n") }).toString().trim().split("\n");
for (const [i, { name, wanted }] of files.entries())
    checks.same(`${name}: in Python`, python[i]?.startsWith("refused") ? python[i] : sum(Buffer.from(python[i] ?? "", "hex")), wanted);

// the same session in Rust has the same lines and the same file, which the page opens; and it opens the page's
async function checkRust(program, folder) {
    const [session, page, saved] = ["session", "page", "saved"].map(name => join(folder, name));
    const call = words => spawnSync(program, words, { encoding: "utf8" });
    for (const { name, bytes, lines, file } of ran) {
        writeFileSync(session, bytes);
        checks.same(`${name}: lines in Rust`, call([session, saved]).stdout, lines);
        checks.same(`${name}: Rust's file, and opened here`, [sum(readFileSync(saved)), await again(readFileSync(saved))], [sum(file), sum(file)]);
    }
    for (const { name, file, wanted } of files) {
        rmSync(saved, { force: true });
        writeFileSync(page, file);
        const { stderr } = call([page, "/dev/null", saved]);
        checks.same(`${name}: opened in Rust`, existsSync(saved) ? sum(readFileSync(saved)) : /refused \d+/.exec(stderr)?.[0], wanted);
    }
}

const [program] = process.argv.slice(2);
if (program) {
    const folder = mkdtempSync(join(tmpdir(), "desk-hosts-"));
    await checkRust(program, folder).finally(() => rmSync(folder, { recursive: true }));
}
process.exit(checks.told(`hosts${program ? "" : ", without Rust"}`));
