// The lesson as steps, line for line, and what a trainer shows with it.
import { readFileSync } from "node:fs";

const text = readFileSync("docs/LESSON.md", "utf8");
export const blocks = kind => [...text.matchAll(new RegExp("^```" + kind + "\n([^]*?)^```$", "gm"))].map(found => found[1]);

// each session as steps and their lines; where it goes on from a saved table, that table is its first
function lessons() {
    const [sessions, wanted] = ["session|opened", "lines|prints"].map(kinds => blocks(`(?:${kinds})`).map(text => text.trimEnd().split("\n")));
    const opened = blocks("opened").map(text => text.trimEnd().split("\n").join());
    return sessions.map((records, i) => {
        if (!opened.includes(records.join())) return [records, wanted[i]];
        return [["open monday.table", ...records], [`open ${wanted[i - 1].at(-1).split(" ").slice(-3).join(" ")}`, ...wanted[i]]];
    });
}

export async function checkLesson(checks, hands) {
    const all = lessons();
    checks.same("a button for each session", await hands.count("#lessons button"), all.length);
    for (const [i, [records, printed]] of all.entries()) {
        await hands.press(`[data-lesson="${i}"]`);
        await hands.page.until(`desk.lesson === ${i}`, 3000).catch(() => {});
        for (let k = 0; k < records.length; k++) {
            const name = `lesson ${i + 1}, step ${k + 1}`;
            checks.same(name, [await hands.text("#asked"), await hands.line()], [records[k], printed[k]]);
            checks.same(`${name}: what is to come is not told`, await hands.texts("#lessonsteps .gives"), printed.map((line, n) => (n <= k ? line : "?")));
            await hands.press("#lessonnext");
        }
        checks.same(`lesson ${i + 1}: no step more`, await hands.line(), printed.at(-1));
        checks.same(`lesson ${i + 1}: all of it`, await hands.printed(), printed.join("\n") + "\n");
        await hands.press("#lessonback");
        checks.same(`lesson ${i + 1}: a step back`, await hands.line(), printed.at(-2));
    }
    await hands.press("#lessonleave");
    checks.holds("closed", await hands.run("document.querySelector('#lesson').hidden"));
    await hands.start(3);
    await hands.press(`[data-lesson="${all.findIndex(([records]) => records[0].startsWith("open"))}"]`);
    await hands.page.until("desk.step.record.kind === 'open'", 3000).catch(() => {});
    checks.holds("what is to be typed keeps its lines", (await hands.texts("#lessontext pre")).some(text => text.split("\n").length === 4));
    await hands.press("#earlier");
    checks.same("the session before the lesson", await hands.printed(), "cube 27 8 6\n");
}

// the words that must never be wrong
export async function checkWords(checks, hands) {
    await hands.runLines("cube 2 1\ncut both 8 1 0 0\ncut both 16 1 0 0.5");
    checks.same("a missed piece", await hands.texts(".place .state"), ["old entry", "nothing there", "none"]);
    checks.same("is lit as its old entry", await hands.run("[...document.querySelectorAll('#elements li.lit')].map(row => row.dataset.e)"), ["16"]);
    checks.holds("in the drawing too", await hands.count(".piece.lit") === 1);
    checks.same("in words", await hands.text(".place.inside p"), "E16 itself. The plane misses it, so the answer is its old entry, no copy.");
    checks.same("only the plane is new", await hands.text("#says"), "Added to the table: one hyperplane, h5. No old entry was changed or taken away.");

    await hands.runLines("cube 2 1\ncut neither 8 1 0 0");
    checks.same("neither: M2", await hands.line(), "cut - - 11 12 6 5");
    checks.same("removed, and the face of the cut is there", await hands.texts(".place .state"), ["removed", "removed", "new entry"]);
    checks.same("in words", await hands.text(".place.face p"), "E11, an edge with two corners: what of E8 lies in the plane. It is there although both sides are removed.");
    checks.same("crossed out", [await hands.count(".gone .hatched"), await hands.texts(".gone text")], [2, ["inside: removed", "outside: removed"]]);
    checks.same("the face of the cut is drawn", await hands.count(".cutface .line"), 1);

    await hands.runLines("cube 2 1\ncut both 8 0.6 0.8 1.4");
    checks.same("M7: only touched", await hands.text(".place.face p"), "None: the plane only touches E8, at fewer elements than make a face.");
    checks.same("M7: where", await hands.text(".place.inside p"), "E8 itself. The plane touches it only at v3, so the answer is its old entry, no copy.");
    await hands.runLines("cube 2 1\ncut inside 8 1 0 1");
    checks.same("M3", [await hands.line(), await hands.texts(".place .state")], ["cut 8 - 7 9 4 5", ["old entry", "removed", "old entry"]]);
    await hands.runLines("cube 2 1\ncut outside 0 1 0 0");
    checks.same("M5", [await hands.line(), await hands.text(".place.inside p")], ["cut 0 - - 9 4 5", "E0 itself, though this side is not kept: a corner is given on its side."]);
    await hands.runLines("cube 2 1\ncut both 3 1 0 0");
    checks.same("a corner", await hands.text(".place.inside p"), "E3 itself, its old entry: a corner is given on its side.");
    await hands.runLines("cube 2 1\ncut neither 8 1 0 inf");
    checks.same("M4", [await hands.line(), await hands.text(".place.face p")], ["cut 8 - - 9 4 4", "None: at an infinite distance the plane misses E8."]);

    await hands.runLines("cube 2 1\ncut both 7 1 0 1");
    checks.same("M6: flush", [await hands.line(), await hands.texts("#says p"), await hands.count(".outline.inplane .line")],
        ["flush 9 4 5", ["E7 lies in the plane: it is flush, and neither side can be told.", "Added to the table: one hyperplane, h4. No old entry was changed or taken away."], 1]);

    // a vertex and the element of the same number are told apart
    await hands.start(2);
    await hands.page.point(await hands.middle('#vertices li[data-v="3"]'));
    checks.same("vertex 3", await hands.text("#pointed"), "v3 is the vertex at (1, 1). Its element is E4; E3 is something else.");
    checks.same("shown", await hands.count(".pointed .spot"), 1);
    await hands.page.point(await hands.middle('#elements li[data-e="3"] .rank'));
    checks.same("element 3", await hands.text("#pointed"), "E3 is the corner at v2 (-1, 1).");
    await hands.page.point(await hands.middle('#hyperplanes li[data-h="3"]'));
    checks.same("hyperplane 3", await hands.text("#pointed"), "h3 is the hyperplane with normal (1, 0) and distance 1.");
    const looks = await hands.run(`["E", "v", "h"].map(letter => { const look = getComputedStyle(document.querySelector(".lists li .tag." + letter)); return [look.borderRadius, look.transform, look.color].join(); })`);
    checks.same("three looks, each with its letter", [new Set(looks).size, await hands.texts(".lists h2 .tag")], [3, ["E", "v", "h"]]);
    checks.same("shapes, not colours alone", new Set(looks.map(look => look.replace(/,rgb.*/, ""))).size, 3);
}
