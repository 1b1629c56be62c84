// The proved engine, desk.wasm, behind typed numbers. Every reply is the engine's own; nothing here works out geometry.

export const NONE = 0xffff;
export const MOST_CUTS = 64; // in a list
export const MOST_PIECES = 16; // on an area sheet
const LIST_WORDS = 512;
const DIVIDER_FLOATS = 5;
const CALLS = ["desk_is_sound", "desk_cube", "desk_cut", "desk_cut_all", "desk_touch", "desk_subelements_of", "desk_subelements_with_rank",
    "desk_vertex_set", "desk_greatest_common_subelements", "desk_edges_in_order", "desk_has_primordial_facet", "desk_areas", "desk_stl", "desk_save",
    "desk_open"];
const BEFORE_ANY_CUT = [3, 26, 12];
const SIDES = ["on", "inside", "outside", "both"];

export const fits = (n, bits) => Number.isInteger(n) && n >= 0 && n < 2 ** bits;

// WebAssembly makes any number one of 32 bits: root 8.5 would be asked as 8, and -4294967288 too. What is no such number is asked
// as the greatest of them, which no table has, so that the refusal and its order are the engine's own.
const whole = n => (fits(n, 32) ? n : 2 ** 32 - 1);

// a divider's row: four components, +0 past the dimension, and the distance
const rowOf = ({ normal: [a = 0, b = 0, c = 0, d = 0], distance }) => [a, b, c, d, distance];

// the word of a cut that was answered: { number: 0, warning, flush: true }, or with the three places, null for none
function answerOf(word) {
    const [number, warning] = [0, (word & 0x200n) !== 0n];
    if (word & 0x100n) return { number, warning, flush: true };
    const place = shift => {
        const e = Number(word >> shift & 0xffffn);
        return e === NONE ? null : e;
    };
    return { number, warning, flush: false, inside: place(16n), outside: place(32n), face: place(48n) };
}

// room for a list of cuts, and for one cut more than a list may have, so that it is the engine that refuses it
const CUTS = MOST_CUTS + 1;
const CUTS_BYTES = CUTS * (8 * DIVIDER_FLOATS + 1 + 2 + 8) + 64;

// and for one piece more than a sheet may have, its numbers, their count and their sum
const PIECES = MOST_PIECES + 1;
const AREAS = PIECES + 2;
const SHEET_BYTES = 2 * PIECES + 8 * AREAS + 32;

// the word of a file: { number } when refused, else { number: 0, size }
function sizeOf(signed) {
    const word = BigInt.asUintN(64, signed);
    const number = Number(word & 0xffn);
    return number === 0 ? { number, size: Number(word >> 8n) } : { number };
}

// `room` is how many bytes will be lent: memory that grows later would take the views of what was lent before.
export async function load(bytes, room) {
    const { module, instance } = await WebAssembly.instantiate(bytes, {});
    const missing = CALLS.filter(name => typeof instance.exports[name] !== "function");
    if (missing.length > 0) throw new Error(`the module has no ${missing.join(", ")}`);
    return new Engine(module, instance, room);
}

class Engine {
    constructor(module, { exports }, room) {
        this.module = module;
        this.calls = Object.fromEntries(CALLS.map(name => [name, exports[name]]));
        this.free = (exports.__heap_base.value + 15) & ~15;
        const short = this.free + room + 4 * LIST_WORDS + 64 + CUTS_BYTES + SHEET_BYTES - exports.memory.buffer.byteLength;
        if (short > 0) exports.memory.grow(Math.ceil(short / 65536));
        this.memory = exports.memory.buffer;
        this.list = this.lend(2 * LIST_WORDS);
        this.roots = this.lend(2 * LIST_WORDS + 2);
        const view = (type, length) => new type(this.memory, this.lend(type.BYTES_PER_ELEMENT * length), length);
        this.cuts = { dividers: view(Float64Array, CUTS * DIVIDER_FLOATS), kept: view(Uint8Array, CUTS), roots: view(Uint16Array, CUTS),
            answers: view(BigUint64Array, CUTS) };
        this.sheet = { pieces: view(Uint16Array, PIECES), areas: view(BigInt64Array, AREAS) };
    }

    lend(bytes) {
        const at = this.free;
        this.free = (at + bytes + 15) & ~15;
        return at;
    }

    // the same engine with a memory of its own
    async another(room) {
        return new Engine(this.module, await WebAssembly.instantiate(this.module, {}), room);
    }

    // ---- each takes a table as it is lent: pointer and length, four times

    isSound(lent) {
        return this.calls.desk_is_sound(...lent);
    }

    cube(lent, dimension, radius) {
        return this.calls.desk_cube(...lent, whole(dimension), radius);
    }

    // { number } when refused, else the answer
    cut(lent, { inside, outside, root, ...divider }) {
        const sides = [inside ? 1 : 0, outside ? 1 : 0];
        const word = BigInt.asUintN(64, this.calls.desk_cut(...lent, ...rowOf(divider), ...sides, whole(root)));
        const number = Number(word & 0xffn);
        return number === 0 ? answerOf(word) : { number };
    }

    // a list of cuts in one call: { number, at, answers }, the answers of the cuts that were taken; `at` is the position of the cut that
    // was refused, or null where none was, or the list was refused before any cut
    cutAll(lent, asked) {
        const { dividers, kept, roots, answers } = this.cuts;
        const list = asked.slice(0, CUTS);
        list.forEach(({ inside, outside, root, ...divider }, i) => {
            dividers.set(rowOf(divider), i * DIVIDER_FLOATS);
            kept[i] = (inside ? 1 : 0) | (outside ? 2 : 0);
            roots[i] = fits(root, 16) ? root : NONE;
        });
        const slices = [[dividers, list.length * DIVIDER_FLOATS], [kept, list.length], [roots, list.length], [answers, CUTS]];
        const reply = this.calls.desk_cut_all(...lent, ...slices.flatMap(([slice, length]) => [slice.byteOffset, BigInt(length)])) >>> 0;
        const [number, taken] = [reply & 0xff, reply >>> 8];
        const at = number === 0 || BEFORE_ANY_CUT.includes(number) ? null : taken;
        return { number, at, answers: Array.from(answers.subarray(0, taken), answerOf) };
    }

    // on which sides of a plane the corners of an element are, without a cut: { number } when refused, else with how many were tested
    touch(lent, { root, ...divider }) {
        const reply = this.calls.desk_touch(...lent, ...rowOf(divider), whole(root)) >>> 0;
        const number = reply & 0xff;
        return number === 0 ? { number, sides: SIDES[reply >>> 8 & 3], tested: reply >>> 16 } : { number };
    }

    // of flat pieces twice the signed area of each and the sum of their sizes, in units of 1/1,048,576, as BigInts: { number } when
    // refused, else { number: 0, areas, sizes }
    areas(lent, asked) {
        const { pieces, areas } = this.sheet;
        const list = asked.slice(0, PIECES).map(e => (fits(e, 16) ? e : NONE));
        pieces.set(list);
        const number = this.calls.desk_areas(...lent, pieces.byteOffset, BigInt(list.length), areas.byteOffset, BigInt(AREAS)) & 0xff;
        return number === 0 ? { number, areas: [...areas.subarray(0, list.length)], sizes: areas[list.length + 1] } : { number };
    }

    // each so many bytes at the front of the room, or refused
    save(lent, at, length) {
        return sizeOf(this.calls.desk_save(...lent, at, BigInt(length)));
    }

    stl(lent, root, at, length) {
        return sizeOf(this.calls.desk_stl(...lent, whole(root), at, BigInt(length)));
    }

    open(lent, at, length) {
        return this.calls.desk_open(...lent, at, BigInt(length)) >>> 0;
    }

    // { number } when refused, else { number: 0, list }
    listed(call, lent, ...words) {
        const reply = this.calls[call](...lent, ...words, this.list, BigInt(LIST_WORDS)) >>> 0;
        const number = reply & 0xff;
        return number === 0 ? { number, list: [...new Uint16Array(this.memory, this.list, reply >>> 8)] } : { number };
    }

    subelements(lent, root) {
        return this.listed("desk_subelements_of", lent, whole(root));
    }

    withRank(lent, root, rank) {
        return this.listed("desk_subelements_with_rank", lent, whole(root), whole(rank));
    }

    vertexSet(lent, root) {
        return this.listed("desk_vertex_set", lent, whole(root));
    }

    // repeats say nothing new, and all numbers from 512 on are in use nowhere, so any list of roots has room
    greatestCommon(lent, roots) {
        const each = [...new Set(roots.map(root => (fits(root, 9) ? root : NONE)))];
        new Uint16Array(this.memory, this.roots, each.length).set(each);
        return this.listed("desk_greatest_common_subelements", lent, this.roots, BigInt(each.length));
    }

    // two vertex numbers an edge
    edgesInOrder(lent, root) {
        return this.listed("desk_edges_in_order", lent, whole(root));
    }

    // { number } when refused, else { number: 0, yes }
    hasPrimordialFacet(lent, root) {
        const reply = this.calls.desk_has_primordial_facet(...lent, whole(root));
        return reply & 0xff ? { number: reply & 0xff } : { number: 0, yes: (reply & 0x100) !== 0 };
    }
}
