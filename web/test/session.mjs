// A session out and in, as bytes and as lines, and the sheet.
import { execFileSync } from "node:child_process";
import { existsSync, readFileSync, readdirSync } from "node:fs";
import { join } from "node:path";
import { blocks } from "./lesson.mjs";

export async function checkSessions(checks, hands) {
    const session = blocks("session")[3];
    await hands.runLines(session);
    const bytes = await hands.download("#savebytes", "desk.session");
    checks.same("bytes are record's", bytes.toString("hex"), execFileSync("./record", { input: session }).toString("hex"));
    checks.same("lines", (await hands.download("#savelines", "desk.txt")).toString(), session);
    await hands.press("#undo");
    checks.same("what was undone is not in it", (await hands.download("#savelines", "desk.txt")).toString(), session.split("\n").slice(0, 3).join("\n") + "\n");
    await hands.start(2);
    await hands.open(join(hands.files, "desk.session"));
    checks.same("bytes opened", await hands.printed(), blocks("lines")[3]);
    await hands.start(2);
    await hands.open(join(hands.files, "desk.txt"));
    checks.same("lines opened", await hands.printed(), blocks("lines")[3].split("\n").slice(0, 3).join("\n") + "\n");

    // every stored session prints the lines that are stored with it
    const stored = readdirSync("tests/sessions").filter(name => name.endsWith(".session"));
    checks.holds("25 stored sessions or more", stored.length >= 25);
    for (const name of stored) {
        await hands.start(2);
        const says = await hands.open(`${process.cwd()}/tests/sessions/${name}`);
        const bad = /^(bad \d+): /.exec(says)?.[1];
        const isOld = says.endsWith("The session is as it was.");
        const printed = (isOld ? "" : await hands.printed()) + (bad ? `${bad}\n` : "");
        checks.same(name, printed, readFileSync(`tests/sessions/${name}`.replace(/session$/, "lines"), "utf8"));
        const texts = await hands.texts("#vertices .numbers");
        checks.same(`${name}: no two vertices look the same`, new Set(texts).size, texts.length);
    }
    await hands.runLines("cube 2 1\n" + "cut both 8 1 0 0\n".repeat(300));
    checks.same("a table that is the same is kept once", await hands.run("[desk.history.steps.length, new Set(desk.history.steps.map(({ bytes }) => bytes)).size]"), [301, 2]);
    await hands.runLines("cube 2 1\ncut some 8 1 0 0");
    checks.same("no record", await hands.text("#runsays"), "no record: cut some 8 1 0 0. The session is as it was.");
    await hands.press("#history button[data-step='0']");
    checks.same("back to a record", await hands.text("#stepname"), `Record 1 of ${await hands.count("#history li")}`);
}

// what the page did by hand, cutlist repeats; it is there once it was proved and built
export async function checkCutlist(checks, hands) {
    if (!existsSync("crates/cutlist/out/cutlist")) return console.log("cutlist is not built, so what the page did was not held against it");
    await hands.start(3);
    for (const [root, kept, x, y, z, distance] of [[26, "both", "0.6", "0.8", "0", "0.3"], [52, "inside", "0", "0", "1", "-1/3"], [53, "neither", "0", "-0", "1", "0"],
        [8, "both", "0", "0", "1", "-1"], [600, "both", "1", "0", "0", "0"], [53, "outside", "1", "1", "0", "0"], [53, "both", "1", "0", "0", "inf"]]) {
        await hands.type("#root", String(root));
        await hands.press(`input[value="${kept}"]`);
        for (const [axis, value] of [x, y, z].entries()) await hands.type(`[data-axis="${axis}"]`, value);
        await hands.type("#distance", distance);
        await hands.press("#cut");
    }
    await hands.press("#addcube");
    const printed = await hands.printed();
    checks.same("every kind of line", [...new Set(printed.trim().split("\n").map(line => line.split(" ")[0]))], ["cube", "cut", "flush", "refused"]);
    checks.same("cutlist repeats what the page did", execFileSync("./cutlist", { input: await hands.download("#savebytes", "desk.session") }).toString(), printed);
}

export async function checkSheet(checks, hands) {
    await hands.runLines("cube 2 1\ncut both 8 1 -0 0");
    await hands.toSheet();
    const piece = await hands.text('.sheetpiece[data-piece="16"]');
    for (const part of ["Piece E16corners4edges4", "v0-1-1E0", "v2-11E3", "v40-1E9", "v501E12", "E16v0 v2 v5 v4 v0", "E15v4 v5h41, -00a cut", "It has a primordial facet"])
        checks.holds(`the sheet has ${part}: ${piece}`, piece.includes(part));
    const promise = await hands.text(".promise");
    checks.holds("the promise", promise.includes("One crossing, one corner.") && promise.includes("from a cube, by any cuts, no vertex matches an earlier one") &&
        promise.includes("It holds for a table that came from a cube by cuts, and this one did"));
    const bytes = execFileSync("./record", { input: "cube 2 1\ncut both 8 1 -0 0\n" });
    const sum = execFileSync("python3", ["-c", "import sys, zlib; print('%08x' % zlib.crc32(sys.stdin.buffer.read()))"], { input: bytes }).toString().trim();
    checks.holds("the digest", (await hands.text(".digest")).startsWith(`2 records, checksum ${sum} `));
    checks.same("no sliver", await hands.count(".sliver"), 0);
    checks.same("every table is laid out as one", await hands.run("[...document.querySelectorAll('.sheet table')].map(table => getComputedStyle(table).display)"), Array(7).fill("table"));

    // coordinates to the last bit, every walk closed, counts the engine's
    const third = "0.5773502691896258";
    await hands.toTop();
    await hands.runLines(`cube 3 1\ncut both 26 ${third} ${third} ${third} 0.3`);
    await hands.toSheet();
    checks.same("two pieces", await hands.texts(".sheetpiece h3"), ["Piece E64", "Piece E65"]);
    const counts = await hands.run("[...document.querySelectorAll('.sheetpiece')].map(piece => [...piece.querySelectorAll('.counts dd')].map(x => Number(x.textContent)))");
    checks.same("counts", counts, await hands.run("desk.bench.pieces.map(e => [0, 1, 2].map(rank => desk.live.list('withRank', e, rank).length))"));
    checks.same("a row for each", await hands.run("[...document.querySelectorAll('.sheetpiece')].map(piece => ['.corners', '.faces'].map(kind => piece.querySelectorAll(`${kind} tbody tr`).length))"), counts.map(([corners, , faces]) => [corners, faces]));
    checks.holds("to the last bit", await hands.run(`[...document.querySelectorAll(".corners tbody tr")].every(row => {
        const v = Number(row.querySelector(".tag.v").dataset.v);
        const cells = [...row.querySelectorAll(".exact")];
        return cells.length === 3 && cells.every((cell, i) => Object.is(Number(cell.textContent), desk.live.vertex(v)[i]));
    })`));
    checks.holds("every walk is closed", await hands.run(`[...document.querySelectorAll(".faces .walk")].every(walk => {
        const all = [...walk.querySelectorAll(".tag.v")].map(x => x.textContent);
        return all.length > 3 && all[0] === all.at(-1) && new Set(all).size === all.length - 1;
    })`));
    await hands.press('#choice input[data-piece="64"]');
    checks.same("a piece left out", await hands.texts(".sheetpiece h3"), ["Piece E65"]);
    await hands.press('#choice input[data-piece="64"]');

    // of the page nothing but the sheet is printed, and an old sheet never
    await hands.toTop();
    await hands.runLines("cube 2 1\ncut both 8 1 0 0\ncut both 16 1 0 0.5\ncut both 17 1 0 0.5");
    const pdf = await hands.page.pdf();
    checks.holds("printed", pdf.subarray(0, 5).toString() === "%PDF-");
    checks.same("the sheet that was printed", await hands.texts(".sheetpiece h3"), ["Piece E16", "Piece E25", "Piece E26"]);
    await hands.page.call("Emulation.setEmulatedMedia", { media: "print" });
    checks.same("nothing else", await hands.run("[...document.body.children].filter(part => part.offsetHeight > 0).map(part => part.className)"), ["sheetpart"]);
    checks.same("nor tools", await hands.run("[...document.querySelector('#sheetpart').children].filter(part => part.offsetHeight > 0).map(part => part.className)"), ["sheet"]);
    await hands.page.media();

    // corners that look alike are told
    await hands.open(`${process.cwd()}/tests/sessions/refused-7.session`);
    await hands.toSheet();
    checks.holds("a sliver", (await hands.texts(".sliver")).some(text => text.includes("these corners look alike in a few digits, and are two")));
    await hands.toTop();
}
