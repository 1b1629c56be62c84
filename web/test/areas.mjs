// Areas of flat pieces and print files: the engine's replies through the page's own module, against sums worked out here; the sheet's table
// of areas; and the button that gives a piece to a printer.
import { readFileSync } from "node:fs";
import { areasOf, decimal } from "../areas.js";
import { load } from "../engine.js";
import { FILE_BYTES, FileRoom } from "../file.js";
import { bytesOf, recordsOf, turns } from "../session.js";
import { TABLE_BYTES, Table } from "../table.js";

const UNIT = 1024;
const OFF_GRID = "refused 25: a coordinate of a piece is no multiple of 1/1,024";
const BOX = ["1 0 0", "-1 0 0", "0 1 0", "0 -1 0", "0 0 1", "0 0 -1"]; // the six sides of a box, each 1/2 from the centre
const DODECAHEDRON = { faces: 12, triangles: 36 };

function made(table, session) {
    table.restore(new Uint8Array(TABLE_BYTES));
    return [...turns(table, bytesOf(recordsOf(session)))].at(-1);
}

// order 13 by the walk, in whole units
function twice(table, face) {
    const corners = table.walk(face).map(v => table.vertex(v).map(x => BigInt(x * UNIT)));
    return corners.reduce((sum, [x, y], i) => {
        const [nextX, nextY] = corners[(i + 1) % corners.length];
        return sum + x * nextY - nextX * y;
    }, 0n);
}

// order 11 by the walks: the bytes
function stl(table, body) {
    const triangles = table.element(body).boundary.flatMap(face => {
        const walk = table.walk(face);
        return walk.slice(1, -1).map((v, i) => [walk[0], v, walk[i + 2]]);
    });
    const file = Buffer.alloc(84 + 50 * triangles.length);
    file.writeUInt32LE(triangles.length, 80);
    triangles.forEach((corners, i) => corners.flatMap(v => table.vertex(v)).forEach((x, k) => file.writeFloatLE(x, 84 + 50 * i + 12 + 4 * k)));
    return file.toString("hex");
}

// carved by planes through their normals' ends, one of what the other leaves
function carved(table, radius, normals, distance) {
    table.cube(3, radius);
    return normals.reduce((root, normal) => table.cut({ normal, distance, inside: true, outside: false, root }).inside, 26);
}

function dodecahedron(table) {
    const golden = (1 + Math.sqrt(5)) / 2;
    const length = Math.hypot(1, golden);
    const normals = [0, 1, 2].flatMap(axis => [[1, 1], [1, -1], [-1, 1], [-1, -1]].map(([short, long]) =>
        [0, 1, 2].map(i => (i === axis ? short / length : i === (axis + 1) % 3 ? long * golden / length : 0))));
    return carved(table, 2, normals, 1);
}

function checkDecimals(checks) {
    checks.same("areas as decimals", [0n, 1n, 2n ** 20n, 2n ** 21n, 3932160n, 2n ** 55n, 2n ** 21n + 1n].map(decimal),
        ["0", "0.000000476837158203125", "0.5", "1", "1.875", "17179869184", "1.000000476837158203125"]);
}

export async function checkAreasOf(checks) {
    const engine = await load(readFileSync("target/web/desk.wasm"), TABLE_BYTES + FILE_BYTES);
    const table = new Table(engine);
    const areas = pieces => table.ask("areas", pieces);
    checks.same("no table: 3 before 26", areas(Array(17).fill(99)), { number: 3 });
    made(table, "cube 2 1\ncut both 8 1 0 0.5\ncut both 16 0 1 0.25\ncut both 8 1 0 0.1");
    const [off] = [table.cut({ normal: [1, 0], distance: 0.1, inside: true, outside: true, root: 8 }).inside];
    const shown = ({ number, areas, sizes }) => [number, areas?.map(String), sizes === undefined ? undefined : String(sizes)];
    checks.same("three pieces", shown(areas([17, 25, 26])), [0, ["2097152", "3932160", "-2359296"], "8388608"]);
    checks.same("by the walks", areas([17, 25, 26, 8]).areas.map(String), [17, 25, 26, 8].map(e => String(twice(table, e))));
    checks.same("none, and sixteen", [shown(areas([])), shown(areas(Array(16).fill(8)))[2]], [[0, [], "0"], String(16n * 8388608n)]);
    checks.same("26, 4, 6, 25", [Array(17).fill(8), [off, 7, 65544], [off, 7], [8, off]].map(pieces => areas(pieces).number), [26, 4, 6, 25]);
    const { each, given, sizes } = areasOf(table, [...Array(20).fill(17), off, 25]);
    checks.same("more than sixteen, and one off the grid", [each.length, given, String(sizes), each[20].number], [22, 21, String(20n * 2097152n + 3932160n), 25]);
    table.cube(2, 65536);
    checks.same("beyond 2^53", shown(areas([8])), [0, [String(2n ** 55n)], String(2n ** 55n)]);
    table.cube(3, 1);
    checks.same("two dimensions alone", [areas([]), areas([8])], [{ number: 6 }, { number: 6 }]);
    checkDecimals(checks);
    checkPrintFiles(checks, table, new FileRoom(engine));
}

function checkPrintFiles(checks, table, room) {
    const box = carved(table, 1, BOX.map(text => text.split(" ").map(Number)), 0.5);
    const print = root => room.stl(table, root);
    checks.same("a box", [print(box).number, print(box).file.length, Buffer.from(print(box).file).toString("hex")], [0, 84 + 50 * 12, stl(table, box)]);
    checks.same("4, 6, 16", [65536 + box, NaN, 25, 26].map(root => print(root).number), [4, 4, 6, 16]);
    checks.same("short room", new FileRoom(table.engine, 683).stl(table, box), { number: 12 });
    const body = dodecahedron(table);
    checks.same("a dodecahedron", [table.element(body).boundary.length, Buffer.from(print(body).file).toString("hex")], [DODECAHEDRON.faces, stl(table, body)]);
    checks.same("its triangles", Buffer.from(print(body).file).readUInt32LE(80), DODECAHEDRON.triangles);
    table.cube(2, 1);
    checks.same("three dimensions alone", print(8), { number: 6 });
}

const rows = hands => hands.run("[...document.querySelectorAll('.areas tr')].map(row => [...row.children].map(cell => cell.textContent.trim()))");

async function checkAreaTable(checks, hands) {
    await hands.runLines("cube 2 1\ncut both 8 1 0 0.5\ncut both 16 0 1 0.25");
    await hands.toSheet();
    const head = ["piece", "area", "twice, signed, in 1/1,048,576"];
    checks.same("areas on the sheet", await rows(hands), [head, ["E17", "1", "2097152"], ["E25", "1.875", "3932160"], ["E26", "1.125", "-2359296"], ["all", "4", "8388608"]]);
    await hands.press('#choice input[data-piece="25"]');
    checks.same("of the pieces on it", (await rows(hands)).slice(1), [["E17", "1", "2097152"], ["E26", "1.125", "-2359296"], ["all", "2.125", "4456448"]]);
    await hands.press('#choice input[data-piece="17"]');
    await hands.press('#choice input[data-piece="26"]');
    checks.same("no piece, no areas", await hands.count(".areas"), 0);
    for (const e of [17, 25, 26]) await hands.press(`#choice input[data-piece="${e}"]`);
    await hands.toTop();
    await hands.runLines("cube 2 1\ncut both 8 1 0 0.5\ncut both 16 0 1 0.1");
    await hands.toSheet();
    checks.same("off the grid", (await rows(hands)).slice(1), [["E17", "1", "2097152"], ["E25", OFF_GRID], ["E26", OFF_GRID], ["1 of 3", "1", "2097152"]]);
    await hands.toTop();
    await hands.start(3);
    await hands.toSheet();
    checks.same("flat pieces alone", await hands.count(".areas"), 0);
    await hands.toTop();
}

async function checkButton(checks, hands) {
    const says = async () => [await hands.press("#savestl"), await hands.text("#filesays")].at(-1);
    await hands.start(3);
    checks.same("a piece of the first cube", await says(), "No print file of element 26, refused 16. The piece has a primordial facet. Part of its surface is the first cube’s: carve that off, on every side.");
    checks.holds("told as refused", await hands.run("document.querySelector('#filesays').classList.contains('refused')"));
    await hands.type("#root", "25");
    checks.same("a face", await says(), "No print file of element 25, refused 6. An element of another rank or kind is asked for. A print file is of a body in three dimensions.");
    await hands.type("#root", "99");
    checks.same("no element", await says(), "No print file of element 99, refused 4. An element number is not in use.");
    await hands.start(2);
    checks.holds("a flat piece", (await says()).startsWith("No print file of element 8, refused 6."));
    const lines = BOX.map(normal => `cut inside ROOT ${normal} 0.5`);
    await hands.start(3);
    for (const line of lines) await hands.runLines(`${await hands.run("document.querySelector('#lines').value")}\n${line.replace("ROOT", await hands.run("desk.bench.pieces[0]"))}`);
    const root = await hands.run("desk.bench.pieces[0]");
    await hands.type("#root", String(root));
    const file = await hands.download("#savestl", `piece-${root}.stl`);
    checks.same("said", await hands.text("#filesays"), `piece-${root}.stl: 12 triangles, 684 bytes. Which side of a triangle is out it does not say; programs for printers find that out.`);
    checks.same("the engine's bytes", file.toString("hex"), await hands.run(`Array.from(desk.printFile(${root}).file, byte => byte.toString(16).padStart(2, "0")).join("")`));
    checks.same("nothing is added", await hands.run("desk.live.isSound()"), true);
    await hands.press("#undo");
    checks.same("what was said goes with its table", await hands.text("#filesays"), "");
    await hands.start(2);
}

export async function checkAreas(checks, hands) {
    await checkAreaTable(checks, hands);
    await checkButton(checks, hands);
}
