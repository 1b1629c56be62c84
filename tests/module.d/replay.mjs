// Calls that the archive answered, once more by the module: calls N SEED --bytes | node replay.mjs desk.wasm
// evidence/src/bytes.rs says what the bytes are. Compared are the reply and every byte of what was lent, with the guards beside it.
import { readFileSync, readSync } from "node:fs";

const GUARD = 0x5a, STACK_MARK = 0xa5;
const ENTRY_BYTES = [2, 8, 8, 2];
const ARGUMENT_BYTES = { w: 2, b: 1, d: 8, a: 8 }; // words, bytes, floats, answers or areas

// standard input, as many bytes at a time as are asked for
const input = { bytes: Buffer.alloc(1 << 20), start: 0, end: 0 };

function has(count) {
    while (input.end - input.start < count) {
        if (input.start + count > input.bytes.length) {
            input.bytes.copyWithin(0, input.start, input.end);
            input.end -= input.start;
            input.start = 0;
        }
        const read = readSync(0, input.bytes, input.end, input.bytes.length - input.end);
        if (read === 0) return false;
        input.end += read;
    }
    return true;
}

function take(count) {
    if (!has(count)) throw new Error("the bytes end within a call");
    input.start += count;
    return input.bytes.subarray(input.start - count, input.start);
}

const byte = () => take(1)[0];
const number = () => take(4).readUInt32LE();
const float = () => take(8).readDoubleLE();

// ---- what is lent: `held` is how it has to be, and lies in the module's memory from `start` on, with guards between the slices

const { exports } = new WebAssembly.Instance(new WebAssembly.Module(readFileSync(process.argv[2])), {});
const start = (exports.__heap_base.value + 15) & ~15;
exports.memory.grow(16);
const memory = Buffer.from(exports.memory.buffer);
const held = Buffer.alloc(memory.length - start, GUARD);
let tableEnd = 0, end = 0;
let slices = [];
memory.fill(STACK_MARK, 0, start); // also over what the module might keep there: it has no data of its own

// a place for so many bytes, behind a guard
function place(count) {
    const at = (end + 31) & ~15;
    held.fill(GUARD, end, at);
    end = at + count;
    held.fill(GUARD, end, end + 16);
    return at;
}

function lend(length, entryBytes) {
    const count = length * entryBytes;
    const at = place(count);
    take(count).copy(held, at);
    return { at, length, isFloats: entryBytes === 8 };
}

function takeTable() {
    if (byte() === 0) return;
    end = 0;
    slices = ENTRY_BYTES.map(size => lend(number(), size));
    tableEnd = end;
}

function takeArgument() {
    const kind = String.fromCharCode(byte());
    if (kind === "n") return number();
    if (kind === "f") return float();
    return lend(number(), ARGUMENT_BYTES[kind]);
}

// a slice is handed over as a pointer and a length
const handed = argument => (typeof argument === "number" ? [argument] : [start + argument.at, BigInt(argument.length)]);

// ---- alike: there is one NaN as data

function isSame() {
    if (memory.compare(held, 0, end + 16, start, start + end + 16) === 0) return true;
    for (const { at, length, isFloats } of slices)
        for (let i = at; isFloats && i < at + 8 * length; i += 8)
            if (Number.isNaN(held.readDoubleLE(i)) && Number.isNaN(memory.readDoubleLE(start + i))) held.copy(memory, start + i, i, i + 8);
    return memory.compare(held, 0, end + 16, start, start + end + 16) === 0;
}

function firstUnlike() {
    let at = 0;
    while (at < end + 16 && held[at] === memory[start + at]) at++;
    const slice = slices.findIndex(slice => at < slice.at + slice.length * (slice.isFloats ? 8 : 2));
    return `byte ${at} of what was lent, ${["counts", "points", "planes", "elements"][slice] ?? "cuts, roots, pieces, list, file, answers or areas"} or its guard`;
}

// ---- the calls

const counts = new Map();

function replay() {
    const name = take(byte()).toString();
    takeTable();
    end = tableEnd;
    const given = Array.from({ length: byte() }, takeArgument);
    held.copy(memory, start, 0, end + 16);
    const replied = exports[name](...[...slices, ...given].flatMap(handed));
    const reply = BigInt.asUintN(typeof replied === "bigint" ? 64 : 32, BigInt(replied));
    const wanted = take(8).readBigUInt64LE();
    if (byte() !== 0) for (const { at, isFloats } of slices) take(number() * (isFloats ? 8 : 2)).copy(held, at);
    const left = take(number());
    if (left.length > 0) left.copy(held, given.at(-1).at);
    counts.set(name, (counts.get(name) ?? 0) + 1);
    const unlike = reply !== wanted ? `reply ${reply}, and the archive's is ${wanted}` : isSame() ? null : firstUnlike();
    if (unlike === null) return true;
    const shown = given.map(argument => (typeof argument === "number" ? argument : `[${argument.length}]`)).join(" ");
    console.log(`call ${counts.get(name)} of ${name} differs: ${unlike}\nlent ${slices.map(slice => slice.length).join(" ")}, given ${shown}`);
    return false;
}

let isAlike = true;
while (isAlike && has(1)) isAlike = replay();
if (isAlike) {
    const stack = start - memory.subarray(0, start).findIndex(mark => mark !== STACK_MARK);
    console.log(`${[...counts].map(([name, count]) => `${count} ${name}`).join(", ")}: alike; ${stack} bytes of stack`);
}
const lentFrom = exports.__heap_base.value;
if (lentFrom !== 65536) console.log(`what a host lends begins at ${lentFrom}`);
process.exit(isAlike && lentFrom === 65536 && counts.size === 15 ? 0 : 1);
