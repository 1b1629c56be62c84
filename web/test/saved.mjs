// A table's file, without a browser: the bytes are those of docs/FILE.md, what was saved opens as it was, and each refusal has its number.
import { execFileSync } from "node:child_process";
import { createHash } from "node:crypto";
import { readFileSync, readdirSync } from "node:fs";
import { load } from "../engine.js";
import { FILE_BYTES, FileRoom } from "../file.js";
import { Bench } from "../bench.js";
import { benchOf } from "../opened.js";
import { bytesOf, recordsOf, turns } from "../session.js";
import { TABLE_BYTES, Table } from "../table.js";

const PAGE = readFileSync("docs/FILE.md", "utf8");
const block = kind => new RegExp("^```" + kind + "\n([^]*?)^```$", "m").exec(PAGE)[1];
const hex = bytes => Buffer.from(bytes).toString("hex");

// bytes in a few words, to be compared
export const sum = (...parts) => parts.reduce((hash, part) => hash.update(part), createHash("sha256")).digest("hex");
const savedIn = (room, table) => room.save(table).file ?? Buffer.alloc(0);
const slices = ({ counts, points, planes, words }) => sum(counts, points, planes, words);

// the file that the page shows, and its changes, each with the number that it has
const SHOWN = Buffer.from(block("file").split("\n").map(row => /^ *\d+  ((?:[0-9a-f]{2} ?)+)/.exec(row)?.[1] ?? "").join("").replaceAll(" ", ""), "hex");
export const CHANGES = [...PAGE.matchAll(/^\| `(.*)` \| (\d+) \|/gm)].map(([, change, number]) => [change, Number(number)]);

export function changed(change) {
    const only = /^only (\d+)$/.exec(change);
    if (only) return SHOWN.subarray(0, Number(only[1]));
    return change.split(", ").reduce((file, one) => {
        const [, at, data] = /^at (\d+): (.*)$/.exec(one);
        const bytes = Buffer.from(data.replaceAll(" ", ""), "hex");
        return Buffer.concat([file.subarray(0, at), bytes, file.subarray(Number(at) + bytes.length)]);
    }, SHOWN);
}

// what a table's three lists say, written by the layout
function written(table) {
    const { elements, vertices, hyperplanes } = table.sizes;
    const each = (count, record) => Buffer.concat(Array.from({ length: count }, (_, n) => record(n)));
    const numbers = (...words) => Buffer.from(Uint16Array.from(words).buffer);
    const floats = list => Buffer.from(Float64Array.from(list).buffer);
    const plane = ({ normal, distance }) => floats([...normal, distance]);
    const element = ({ rank, vertex, boundary, hyperplane, primordial }) => {
        const below = rank === 0 ? [vertex] : boundary;
        return Buffer.concat([Buffer.from([0x45, 0x4c, rank, primordial ? 1 : 0]), numbers(hyperplane ?? 0xffff, below.length, ...below)]);
    };
    return Buffer.concat([
        Buffer.from("HD"), numbers(table.dimension, elements, vertices, hyperplanes),
        each(vertices, v => Buffer.concat([Buffer.from("VX"), floats(table.vertex(v))])),
        each(hyperplanes, h => Buffer.concat([Buffer.from("HP"), plane(table.hyperplane(h))])),
        each(elements, e => element(table.element(e))),
    ]);
}

// every session that leaves a table: the lesson's and the stored ones
export function sessions(parts) {
    const stored = readdirSync("tests/sessions").filter(name => name.endsWith(".session") && !name.startsWith("bad-"));
    return [...parts.filter(({ from }) => from === null).map(({ title, session }) => [title, bytesOf(recordsOf(session))]),
        ...stored.map(name => [name, readFileSync(`tests/sessions/${name}`)])];
}

async function checkNumbers(checks, engine, table, room) {
    checks.same("no table, no file", room.save(table), { number: 3 });
    const line = [...turns(table, bytesOf(recordsOf("cube 1 1\ncut both 2 1 0")))].at(-1);
    checks.same("the line cut in two", [line.line, hex(savedIn(room, table))], ["cut 4 5 3 6 3 1", hex(SHOWN)]);
    checks.same("no room for its last byte", [SHOWN.length - 1, SHOWN.length].map(length => new FileRoom(engine, length).save(table).number), [12, 0]);
    checks.holds("changes of every kind", CHANGES.length >= 15 && new Set(CHANGES.map(([, number]) => number)).size === 3);
    for (const [change, number] of CHANGES) {
        const before = slices(table);
        checks.same(change, await room.open(table, changed(change)), number);
        if (number === 0) checks.same(`${change}: its one file`, hex(savedIn(room, table)), hex(changed(change)));
        else checks.same(`${change}: as it was`, slices(table), before);
    }
    const planes = Buffer.concat([Buffer.from("4844010000000000ff0f", "hex"), ...Array(0xfff).fill(Buffer.concat([Buffer.from("HP"), Buffer.alloc(16)]))]);
    const before = slices(table);
    checks.holds("longer than any table's", planes.length > FILE_BYTES);
    checks.same("a long file, laid out as one, and one that is not", [await room.open(table, planes), await room.open(table, planes.subarray(0, -1))], [3, 13]);
    checks.same("a long file leaves the table", slices(table), before);
    checks.holds("the longest file is as docs/FILE.md has it", PAGE.includes(`${FILE_BYTES.toLocaleString("en")} bytes`));
}

// the reader of docs/FILE.md, over files in hex, a line each, and what it has to say of a table
const READER = `${block("python")}
import json, sys
bits = lambda rows: [struct.pack(f"<{len(row)}d", *row).hex() for row in rows]
for line in sys.stdin:
    dimension, points, planes, elements = read(bytes.fromhex(line))
    print(json.dumps([dimension, bits(points), bits(planes), elements]))
`;

function lists(table) {
    const each = (count, entry) => Array.from({ length: count }, (_, n) => entry(n));
    const bits = floats => hex(Float64Array.from(floats).buffer);
    const row = ({ rank, vertex, boundary, hyperplane, primordial }) => [rank, Number(primordial), hyperplane ?? 0xffff, rank === 0 ? [vertex] : boundary];
    return [table.dimension, each(table.sizes.vertices, v => bits(table.vertex(v))),
        each(table.sizes.hyperplanes, h => table.hyperplane(h)).map(({ normal, distance }) => bits([...normal, distance])),
        each(table.sizes.elements, e => row(table.element(e)))];
}

// the pieces of an opened table are those that lay there when it was saved: halves, a part of one, a side removed, another cut of the
// same square, and a side that two cuts give
const BENCHES = ["cut both 8 1 0 0", "cut both 8 1 0 0\ncut both 16 0 1 0", "cut inside 8 1 0 0\ncut both 14 0 1 0", "cut both 8 1 0 0\ncut both 8 0 1 0",
    "cut both 8 1 0 0.5\ncut both 16 1 0 0", "cut both 16 0 1 0"];

function checkBenches(checks, table, copy) {
    for (const cuts of BENCHES) {
        table.restore(new Uint8Array(TABLE_BYTES));
        let bench = new Bench();
        for (const { record, reply } of turns(table, bytesOf(recordsOf(`cube 2 1\n${cuts}`)))) bench = bench.after(record, reply, table);
        const opened = benchOf(table, copy);
        checks.same(`pieces after ${cuts}`, opened.pieces, bench.pieces);
        checks.holds(`each apart from the others after ${cuts}`, opened.pieces.every(a => opened.pieces.every(b => a === b || opened.apart(a, b))));
    }
}

export async function checkSaved(checks, parts) {
    const engine = await load(readFileSync("target/web/desk.wasm"), 2 * TABLE_BYTES + 2 * FILE_BYTES);
    const [table, other, room] = [new Table(engine), new Table(engine), new FileRoom(engine)];
    await checkNumbers(checks, engine, table, room);
    checkBenches(checks, table, other);
    const files = [], wanted = [];
    for (const { title, session, from, lines } of parts.filter(({ from }) => from !== null)) {
        table.restore(new Uint8Array(TABLE_BYTES));
        checks.holds(`${title}: the evening before`, [...turns(table, bytesOf(recordsOf(from)))].length > 0);
        checks.same(`${title}: opened`, await room.open(other, savedIn(room, table)), 0);
        checks.same(`${title}: goes on`, [...turns(other, bytesOf(recordsOf(session, other.dimension)))].map(({ line }) => line + "\n").join(""), lines);
    }
    for (const [name, bytes] of sessions(parts)) {
        table.restore(new Uint8Array(TABLE_BYTES));
        const last = [...turns(table, bytes)].at(-1);
        const file = savedIn(room, table);
        checks.same(`${name}: saved`, sum(file), sum(written(table)));
        other.restore(new Uint8Array(TABLE_BYTES).fill(0x5a));
        checks.same(`${name}: opened`, [await room.open(other, file), slices(other)], [0, slices(table)]);
        if (last.record.kind === "cut") {
            const again = [...turns(other, bytesOf([last.record]))].at(-1);
            checks.same(`${name}: the same cut again`, [again.line, sum(savedIn(room, other))], [last.line, sum(file)]);
        }
        files.push(hex(file));
        wanted.push(sum(JSON.stringify(lists(table))));
    }
    const read = execFileSync("python3", ["-c", READER], { input: files.join("\n") }).toString().trim().split("\n");
    checks.same("docs/FILE.md's reader reads them", read.map(row => sum(JSON.stringify(JSON.parse(row)))), wanted);
}
