// A table saved in the evening and opened in the morning: by buttons, by keys and dropped; what is refused; and the sheet of an opened table.
import { readFileSync, writeFileSync } from "node:fs";
import { join } from "node:path";
import { checksum } from "../session.js";

const CONTROL = 2;
const AS_IT_WAS = "The table is as it was.";

// all that a refused file has to leave: the table, the records, what is aimed at
const STANDS = "JSON.stringify([desk.live.bytes.join(), desk.history.steps.map(({ line }) => line), desk.history.at, desk.aim, desk.earlier === null])";

// a plane figure that came from no cube: the triangles of these corners, with the sides that a square's planes give
function triangles(corners) {
    const words = (...numbers) => Buffer.from(Uint16Array.from(numbers).buffer);
    const floats = (...numbers) => Buffer.from(Float64Array.from(numbers).buffer);
    const [count, each] = [corners.length / 3, corners.map((_, v) => v)];
    const planes = [[0, -1], [0, 1], [-1, 0], [1, 0]].map(normal => Buffer.concat([Buffer.from("HP"), floats(...normal, 1)]));
    const element = (rank, plane, ...numbers) => Buffer.concat([Buffer.from([0x45, 0x4c, rank, 0]), words(plane, numbers.length, ...numbers)]);
    const edges = each.filter(v => v % 3 === 0).flatMap(v => [[v, v + 1], [v + 1, v + 2], [v, v + 2]]);
    return Buffer.concat([
        Buffer.from("HD"), words(2, 7 * count, corners.length, 4),
        ...corners.map(point => Buffer.concat([Buffer.from("VX"), floats(...point)])), ...planes,
        ...each.map(v => element(0, 0xffff, v)), ...edges.map(ends => element(1, 0, ...ends)),
        ...each.slice(0, count).map(i => element(2, 0xffff, ...[0, 1, 2].map(k => corners.length + 3 * i + k))),
    ]);
}

async function checkTomorrow(checks, hands) {
    const first = "cube 2 1\ncut both 8 1 0 0\ncut both 17 0.6 0.8 0.1\n";
    await hands.runLines(first);
    const [lines, pieces] = [(await hands.printed()).trim().split("\n"), await hands.run("desk.bench.pieces")];
    const file = await hands.download("#savetable", "desk.table");
    checks.same("said", await hands.text("#filesays"), `Saved as desk.table: ${file.length} bytes. Open table brings it back, tomorrow too.`);
    await hands.press("#undo");
    checks.holds("what stands is saved, not what was undone", (await hands.download("#savetable", "desk.table")).length < file.length);
    checks.same("what was said goes with its table", [await hands.press("#redo"), await hands.text("#filesays")].at(-1), "");

    const monday = join(hands.files, "monday.table");
    writeFileSync(monday, file);
    await hands.start(3);
    checks.same("opened without a word", await hands.openTable(monday), "");
    const counts = lines.at(-1).split(" ").slice(4).join(" ");
    checks.same("as a beginning", [await hands.line(), await hands.text("#stepname"), await hands.text("#asked"), await hands.printed()],
        [`open ${counts}`, "Opened", "open monday.table", `open ${counts}\n`]);
    checks.same("the pieces of yesterday", await hands.run("desk.bench.pieces"), pieces);
    checks.same("drawn at its size", await hands.run("desk.radius"), 1);
    checks.holds("what a file holds", (await hands.text("#says")).includes("A file holds a table and no session"));
    await hands.press("#undo");
    checks.same("there is nothing before it to undo", await hands.printed(), `open ${counts}\n`);
    await hands.press("#earlier");
    checks.same("the session before it is kept", await hands.printed(), "cube 27 8 6\n");
    await hands.press("#earlier");

    // the same cuts answer the same and add nothing, and the file is the same
    await hands.runLines(first.split("\n").slice(1).join("\n"));
    checks.same("the same cuts again", (await hands.printed()).trim().split("\n"), [`open ${counts}`, ...lines.slice(1).map(line => line.replace(/( \d+){3}$/, ` ${counts}`))]);
    checks.same("numbered from the first cut on", await hands.text("#stepname"), "Record 2 of 2");
    checks.holds("nothing was added", (await hands.text("#says")).startsWith("Nothing was added"));
    checks.same("its one file, under its name", (await hands.download("#savetable", "monday.table")).toString("hex"), file.toString("hex"));
    return { monday, file };
}

// the records since then, out and in: they go on from the table
async function checkRecords(checks, hands, { monday }) {
    await hands.openTable(monday);
    await hands.runLines("cut both 16 0 1 0");
    const [lines, bytes] = [await hands.printed(), await hands.download("#savebytes", "desk.session")];
    checks.same("a cut, and no more", [bytes.length, (await hands.download("#savelines", "desk.txt")).toString()], [29, "cut both 16 0 1 0\n"]);
    checks.same("said where they go on from", await hands.text("#goeson"), "These records go on from the table of monday.table. Open that first, and then them; cutlist has no table for them.");
    for (const name of ["desk.session", "desk.txt"]) {
        await hands.openTable(monday);
        checks.same(`${name} opened`, [await hands.open(join(hands.files, name)), await hands.printed()], ["1 records.", lines]);
    }
    await hands.type("#radius", "0.5");
    await hands.press("#addcube");
    await hands.press("#cut");
    const refused = await hands.printed();
    await hands.press("#run");
    checks.same("a refused cube is none", [refused.split("\n")[2], await hands.printed()], ["refused 2", refused]);
    await hands.press("#newsession");
    checks.same("a new session goes on from nothing", [await hands.printed(), await hands.run("desk.stands")], ["refused 2\n", false]);
    await hands.press("#earlier");
    await hands.type("#radius", "1");
    await hands.press("#addcube");
    checks.same("a cube begins anew", [await hands.text("#stepname"), await hands.line()], ["Record 4 of 4", "cube 27 8 6"]);
    await hands.download("#savetable", "desk.table");
    await hands.start(2);
    checks.same("no table was opened", [await hands.text("#goeson"), await hands.open(join(hands.files, "desk.txt"))],
        ["", "no record: cut both 16 0 1 0: no table stands. The session is as it was."]);
}

async function checkRefused(checks, hands, { monday, file }) {
    await hands.runLines("cube 2 1\ncut both 8 1 0 0");
    const before = await hands.run(STANDS);
    const wrong = { "short.table": file.subarray(0, -1), "longer.table": Buffer.concat([file, Buffer.from([0])]), "empty.table": Buffer.alloc(0),
        "long.table": Buffer.alloc(100_000), "desk.session": readFileSync("tests/sessions/refused-1.session") };
    for (const [name, bytes] of Object.entries(wrong)) {
        writeFileSync(join(hands.files, name), bytes);
        checks.same(name, await hands.openTable(join(hands.files, name)), `${name} is not opened, refused 13. The bytes are not laid out as a file. It is no saved table, or it was changed or cut short on its way. ${AS_IT_WAS}`);
        checks.same(`${name}: as it was`, await hands.run(STANDS) === before, true);
    }
    const unsound = Buffer.from(file);
    unsound.fill(0x7f, 17, 20); // a coordinate of the first vertex is out of range
    writeFileSync(join(hands.files, "changed.table"), unsound);
    checks.same("a table that is not sound", await hands.openTable(join(hands.files, "changed.table")),
        `changed.table is not opened, refused 3. The table is not sound, or its room has another size. It is laid out as a saved table, but the table in it does not fit this desk or is not sound. ${AS_IT_WAS}`);
    checks.same("and it is as it was", [await hands.run(STANDS) === before, await hands.run("document.querySelector('#filesays').className")], [true, "filesays refused"]);
    checks.same("a table is no session", await hands.open(monday), "this is a saved table and no session: open it with Open table, at the top. The session is as it was.");
    checks.same("still as it was", await hands.run(STANDS) === before, true);
    await hands.start(2, "0.5");
    await hands.press("#savetable");
    checks.same("no table to save", await hands.text("#filesays"), "Not saved, refused 3. The table is not sound, or its room has another size.");
}

const dropped = (name, bytes) => `(() => {
    const dataTransfer = new DataTransfer();
    dataTransfer.items.add(new File([Uint8Array.from(${JSON.stringify([...bytes])})], ${JSON.stringify(name)}));
    document.querySelector("#lines").dispatchEvent(new DragEvent("dragover", { dataTransfer, bubbles: true, cancelable: true }));
    const isShown = document.body.classList.contains("dropping");
    const isTaken = !document.querySelector("#lines").dispatchEvent(new DragEvent("drop", { dataTransfer, bubbles: true, cancelable: true }));
    return [isShown, isTaken, document.body.classList.contains("dropping")];
})()`;

async function checkOtherWays(checks, hands, { file }) {
    await hands.start(3);
    checks.same("dropped", await hands.run(dropped("no-ending", file)), [true, true, false]);
    await hands.page.until("desk.step.record.name === 'no-ending'", 3000).catch(() => {});
    checks.same("a table that is dropped", await hands.text("#asked"), "open no-ending");
    await hands.run(dropped("lines.txt", Buffer.from("cube 3 2")));
    await hands.page.until("desk.step.record.kind === 'cube'", 3000).catch(() => {});
    checks.same("a session that is dropped", await hands.printed(), "cube 27 8 6\n");
    await hands.run(dropped("broken.table", file.subarray(1)));
    await hands.page.until("document.querySelector('#filesays').textContent !== ''", 3000).catch(() => {});
    checks.holds("a broken one", (await hands.text("#filesays")).startsWith("broken.table is not opened, refused 13."));

    await hands.run("globalThis.pressed = []; for (const id of ['savetable', 'opentable']) document.querySelector('#' + id).addEventListener('click', event => { pressed.push(id); if (id === 'opentable') event.preventDefault(); })");
    await hands.run("document.querySelector('#lines').focus()");
    for (const key of ["s", "o"]) await hands.page.key(key, CONTROL);
    checks.same("by keys, in a text too", await hands.run("pressed"), ["savetable", "opentable"]);
}

// a sheet says where its table is from, and promises no more than is known
async function checkSheetOf(checks, hands, { monday, file }) {
    await hands.openTable(monday);
    await hands.toSheet();
    const own = `This table, saved: ${file.length} bytes, checksum ${checksum(file)}.`;
    checks.holds("which file", (await hands.text(".sheethead p")).includes("pieces of the table of monday.table."));
    checks.same("its checksum", await hands.text(".digest"), `monday.table, ${file.length} bytes, checksum ${checksum(file)} (CRC-32 of the file). Nothing was cut since.`);
    checks.holds("the table's own", (await hands.text(".ownfile")).startsWith(own));
    checks.holds("compared", (await hands.text(".promise")).includes("The page compared those that it brought, and no two match."));
    await hands.toTop();
    await hands.runLines("cut both 16 0 1 0");
    await hands.toSheet();
    checks.same("what was cut since", await hands.text("#sheet pre"), "cut both 16 0 1 0");
    checks.holds("another table", !(await hands.text(".ownfile")).startsWith(own));

    const twice = join(hands.files, "twice.table");
    writeFileSync(twice, triangles([[0, 0], [2, 0], [0, 2], [0, 0], [-2, 0], [0, -(2 ** -21)]]));
    await hands.toTop();
    checks.same("from no cube", [await hands.openTable(twice), await hands.line(), await hands.run("[desk.bench.pieces, desk.radius]")], ["", "open 14 6 4", [[12, 13], 2]]);
    await hands.toSheet();
    checks.holds("corners entered twice are told", (await hands.text(".promise")).startsWith("A corner is entered twice. This table was opened from a file that brings vertices that match: v0 and v3; v0 and v5; v3 and v5."));
    await hands.toTop();
    await hands.press("#cut");
    checks.same("it is cut all the same", await hands.line(), "cut - 12 8 14 6 5");

    const none = join(hands.files, "none.table");
    writeFileSync(none, Buffer.from("48440100000000000000", "hex"));
    checks.same("a table with no elements", [await hands.openTable(none), await hands.line(), await hands.run("document.querySelector('#cut').disabled")], ["", "open 0 0 0", true]);
    checks.same("has one file", (await hands.download("#savetable", "none.table")).length, 10);
    await hands.start(2);
}

export async function checkSaving(checks, hands) {
    const saved = await checkTomorrow(checks, hands);
    await checkRecords(checks, hands, saved);
    await checkRefused(checks, hands, saved);
    await checkOtherWays(checks, hands, saved);
    await checkSheetOf(checks, hands, saved);
}
