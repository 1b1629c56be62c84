// The example session of document 01, from JavaScript: a square of radius 1, cut twice at x = 0; then a list of cuts, a touch, an area sheet, a file.

import { readFileSync } from "node:fs";

const module = new WebAssembly.Module(readFileSync("target/wasm/desk.wasm"));
const { exports: desk } = new WebAssembly.Instance(module);
desk.memory.grow(2); // 131,072 bytes: a table takes 47,624, and its file at most 48,266

// counts, points, planes, elements: how many entries, and how many bytes each has
let free = desk.__heap_base.value;
const table = [[4, 2], [1024, 8], [320, 8], [18432, 2]].flatMap(([length, bytes]) => {
    free += length * bytes;
    return [free - length * bytes, BigInt(length)];
});

// inside, outside and intersection of a cut's answer
const places = answer => [16n, 32n, 48n].map(shift => Number(BigInt.asUintN(64, answer) >> shift & 0xffffn));

desk.desk_cube(...table, 2, 1);
for (let i = 0; i < 2; i++) {
    console.log(...places(desk.desk_cut(...table, 1, 0, 0, 0, 0, 1, 1, 8)));
}

// y = 0 through both halves, 16 and 17: dividers, kept sides, roots and room for the answers, each a pointer and a length
const [dividers, answers, roots, kept] = [free, free + 80, free + 96, free + 100];
new Float64Array(desk.memory.buffer, dividers, 10).set([0, 1, 0, 0, 0, 0, 1, 0, 0, 0]);
new Uint16Array(desk.memory.buffer, roots, 2).set([16, 17]);
new Uint8Array(desk.memory.buffer, kept, 2).set([3, 3]);
const list = desk.desk_cut_all(...table, dividers, 10n, kept, 2n, roots, 2n, answers, 2n);
const pieces = [...new BigUint64Array(desk.memory.buffer, answers, list >> 8)].flatMap(places);
console.log(list & 255, ...pieces);

// where the corners of piece 16 lie to x = 0: 1 is inside or on, and all four were tested
const touch = desk.desk_touch(...table, 1, 0, 0, 0, 0, 16);
console.log(touch & 255, touch >> 8 & 3, touch >> 16);

// the areas of the square's halves, each twice and in units of 1/1,048,576; then how many there are, and the sum of their sizes
const [halves, areas] = [free, free + 8];
new Uint16Array(desk.memory.buffer, halves, 2).set([16, 17]);
const sheet = desk.desk_areas(...table, halves, 2n, areas, 4n);
console.log(sheet & 255, ...[...new BigInt64Array(desk.memory.buffer, areas, sheet >> 8)].map(Number));

const size = desk.desk_save(...table, free, 48266n) >> 8n;
const file = new Uint8Array(desk.memory.buffer, free, Number(size)).slice(); // to be put aside

new Uint8Array(desk.memory.buffer).set(file, free);
console.log(file.length, desk.desk_open(...table, free, size));
