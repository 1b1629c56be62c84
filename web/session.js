// Sessions: record's plain lines, the bytes that cutlist reads, and the lines that it prints. A table that was opened begins a session
// as a cube does; it is no record, and its line is the page's own.
import { fits } from "./engine.js";

export const KEPT = ["neither", "inside", "outside", "both"];

export class NoRecord extends Error {}

// ---- plain lines: `cube DIMENSION RADIUS`, `cut KEPT ROOT NORMAL .. DISTANCE`; what follows a # is left out

// a decimal number, inf or nan, as record takes it
export function float(text) {
    const word = text.trim().toLowerCase();
    const named = { inf: Infinity, infinity: Infinity, nan: NaN }[word.replace(/^[+-]/, "")];
    if (named !== undefined) return word.startsWith("-") ? -named : named;
    if (!/^[+-]?(\d+\.?\d*|\.\d+)(e[+-]?\d+)?$/.test(word)) throw new NoRecord(`${text} is no number`);
    return Number(word);
}

// the shortest decimal that reads back as the same number
export function plain(x) {
    if (Object.is(x, -0)) return "-0";
    if (Number.isNaN(x)) return "nan";
    return Number.isFinite(x) ? String(x) : x > 0 ? "inf" : "-inf";
}

function whole(text, bits) {
    if (!/^\d+$/.test(text) || !fits(Number(text), bits)) throw new NoRecord(`${text} is no number from 0 to ${2 ** bits - 1}`);
    return Number(text);
}

function recordOf(line) {
    const [kind, ...words] = line.trim().split(/\s+/);
    if (kind === "cube" && words.length === 2) return { kind, dimension: whole(words[0], 8), radius: float(words[1]) };
    if (kind === "cut" && words.length >= 4 && KEPT.includes(words[0])) {
        const floats = words.slice(2).map(float);
        return { kind, kept: words[0], root: whole(words[1], 16), normal: floats.slice(0, -1), distance: floats.at(-1) };
    }
    throw new NoRecord(`no record: ${line.trim()}`);
}

const stands = ({ dimension, radius }) => dimension >= 1 && dimension <= 4 && radius >= 1 && radius <= 65536;

// a cut's length follows the table that stands, at first one that was opened: with another the bytes of the next record would be read
// as its own
export function recordsOf(text, opened = 0) {
    let dimensions = opened;
    return text.split("\n").map(line => line.split("#")[0]).filter(line => line.trim() !== "").map(line => {
        const record = recordOf(line);
        if (record.kind === "cube" && stands(record)) dimensions = record.dimension;
        if (record.kind === "cut" && record.normal.length !== dimensions)
            throw new NoRecord(`no record: ${line.trim()}: ${dimensions ? `the table that stands has ${dimensions} dimensions` : "no table stands"}`);
        return record;
    });
}

export function lineOf(record) {
    if (record.kind === "open") return `open ${record.name}`;
    return record.kind === "cube"
        ? `cube ${record.dimension} ${plain(record.radius)}`
        : `cut ${record.kept} ${record.root} ${[...record.normal, record.distance].map(plain).join(" ")}`;
}

// ---- bytes

function recordBytes(record) {
    const floats = record.kind === "cube" ? [record.radius] : [...record.normal, record.distance];
    const front = record.kind === "cube"
        ? [0x43, 0x55, record.dimension]
        : [0x43, 0x54, KEPT.indexOf(record.kept), record.root & 0xff, record.root >> 8];
    const view = new DataView(new ArrayBuffer(front.length + 8 * floats.length));
    front.forEach((byte, i) => view.setUint8(i, byte));
    floats.forEach((x, i) => view.setFloat64(front.length + 8 * i, x, true));
    return [...new Uint8Array(view.buffer)];
}

export const bytesOf = records => new Uint8Array(records.flatMap(recordBytes));

// the record at an offset and its length, or null for bad; a cut's length follows the dimension of the table that stands
function recordAt(bytes, at, dimension) {
    const view = new DataView(bytes.buffer, bytes.byteOffset, bytes.byteLength);
    const left = bytes.length - at;
    const mark = left >= 2 ? view.getUint16(at) : 0;
    if (mark === 0x4355 && left >= 11)
        return { length: 11, record: { kind: "cube", dimension: bytes[at + 2], radius: view.getFloat64(at + 3, true) } };
    const length = 5 + 8 * (dimension + 1);
    if (mark !== 0x4354 || dimension === 0 || left < length || bytes[at + 2] > 3) return null;
    const floats = Array.from({ length: dimension + 1 }, (_, i) => view.getFloat64(at + 5 + 8 * i, true));
    const [kept, root] = [KEPT[bytes[at + 2]], view.getUint16(at + 3, true)];
    return { length, record: { kind: "cut", kept, root, normal: floats.slice(0, -1), distance: floats.at(-1) } };
}

// whether a session needs no table before it: its first record is a cube that is taken
export function beginsAnew(bytes) {
    const first = recordAt(bytes, 0, 0)?.record;
    return first?.kind === "cube" && stands(first);
}

// CRC-32, as zlib and gzip have it, so that a sheet can be held against its session's bytes elsewhere
export function checksum(bytes) {
    let sum = 0xffffffff;
    for (const byte of bytes) {
        sum ^= byte;
        for (let bit = 0; bit < 8; bit++) sum = sum & 1 ? sum >>> 1 ^ 0xedb88320 : sum >>> 1;
    }
    return (~sum >>> 0).toString(16).padStart(8, "0");
}

// ---- what is asked of the engine for a record, and the line that is printed

function cutOf(record, kept = record.kept) {
    const sides = KEPT.indexOf(kept);
    return { ...record, inside: (sides & 1) !== 0, outside: (sides & 2) !== 0 };
}

export function ask(table, record, kept = record.kept) {
    if (record.kind === "cube") return { number: table.cube(record.dimension, record.radius) };
    return table.cut(cutOf(record, kept));
}

// cuts as one list
export const askAll = (table, records) => table.cutAll(records.map(record => cutOf(record)));

export function printed(record, reply, { elements, vertices, hyperplanes }) {
    const counts = [elements, vertices, hyperplanes];
    if (reply.number !== 0) return `refused ${reply.number}`;
    if (record.kind !== "cut") return [record.kind, ...counts].join(" ");
    if (reply.flush) return ["flush", ...counts].join(" ");
    return ["cut", ...[reply.inside, reply.outside, reply.face].map(e => e ?? "-"), ...counts].join(" ");
}

// each record of a session's bytes in turn, with its reply and its line; `bad` ends it
export function* turns(table, bytes) {
    for (let at = 0; at < bytes.length;) {
        const found = recordAt(bytes, at, table.dimension);
        if (found === null) {
            yield { line: `bad ${at}`, bad: at };
            return;
        }
        const reply = ask(table, found.record);
        yield { record: found.record, reply, line: printed(found.record, reply, table.sizes) };
        at += found.length;
    }
}
