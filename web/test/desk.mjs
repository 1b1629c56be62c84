// What a designer does: cuts, drags, chooses, undoes; in one to four dimensions; refusals with their reasons; and by keys alone.

export async function checkCuts(checks, hands) {
    await hands.start(2);
    checks.same("a square", await hands.line(), "cube 9 4 4");
    checks.same("before it is made", await hands.would(), "cut 16 17 15 18 6 5");
    checks.same("the table is as it was", await hands.count("#elements li[data-e]"), 9);
    await hands.press("#cut");
    checks.same("a cut", await hands.line(), "cut 16 17 15 18 6 5");
    checks.same("what was added", await hands.run("['elements', 'vertices', 'hyperplanes'].map(id => document.querySelectorAll(`#${id} .added`).length)"), [9, 2, 1]);
    checks.same("pieces", await hands.run("desk.bench.pieces"), [16, 17]);
    await hands.press("#undo");
    checks.same("undone", [await hands.line(), await hands.count("#elements li[data-e]")], ["cube 9 4 4", 9]);
    await hands.press("#redo");
    checks.same("done again", [await hands.line(), await hands.count("#elements li[data-e]")], ["cut 16 17 15 18 6 5", 18]);
    for (const [kept, line] of [["inside", "cut 14 - 13 15 6 5"], ["outside", "cut - 14 13 15 6 5"], ["neither", "cut - - 11 12 6 5"]]) {
        await hands.start(2);
        await hands.press(`input[value="${kept}"]`);
        await hands.press("#cut");
        checks.same(`keep ${kept}`, await hands.line(), line);
    }
    checks.holds("sound", await hands.run("desk.live.isSound()"));

    // another cube in the session, and a session of its own
    await hands.press("#addcube");
    checks.same("another cube", await hands.printed(), "cube 9 4 4\ncut - - 11 12 6 5\ncube 9 4 4\n");
    await hands.press("#newsession");
    checks.same("a new session", await hands.printed(), "cube 9 4 4\n");
    await hands.press("#earlier");
    checks.same("the session before", await hands.printed(), "cube 9 4 4\ncut - - 11 12 6 5\ncube 9 4 4\n");

    // pieces that lie apart stay, what overlaps goes, by answers alone
    await hands.runLines("cube 2 1\ncut both 8 1 0 0\ncut both 16 0 1 0\ncut both 17 0 1 0");
    checks.same("four pieces", await hands.run("desk.bench.pieces.length"), 4);
    await hands.runLines("cube 2 1\ncut inside 8 1 0 0\ncut outside 8 1 0 0");
    checks.same("the inside is removed the second time", await hands.run("desk.bench.pieces"), [17]);
    await hands.runLines("cube 2 1\ncut both 8 1 0 0\ncut both 8 0 1 0");
    checks.same("the same square cut anew", await hands.run("desk.bench.pieces"), await hands.run("[desk.step.reply.inside, desk.step.reply.outside]"));
}

export async function checkHand(checks, hands) {
    const { page } = hands;
    await hands.start(2);
    await hands.press("#cut");
    // the grid goes from -1.5 to 1.5
    const long = await hands.run("(xs => (Math.max(...xs) - Math.min(...xs)) / 3)([...document.querySelectorAll('.axes line')].map(line => Number(line.getAttribute('x1'))))");
    const foot = await hands.middle(".hand .foot");
    await page.drag(foot, { x: foot.x + 0.487 * long, y: foot.y });
    checks.same("dragged, and settled", await hands.run("[desk.aim.normal, desk.aim.distance]"), [[1, 0], 0.5]);
    await page.click(await hands.middle('path[data-pick="16"]'));
    checks.same("a piece picked that is missed", [await hands.would(), await hands.run("desk.aim.root")], ["cut 16 - - 18 6 6", 16]);
    checks.same("said before it is made", await hands.text("#wouldsay"), "The plane misses E16, so the answer is its old entry. Would add no elements, no vertices, one hyperplane.");
    await page.click(await hands.middle('.label[data-pick="17"]'));
    checks.same("picked by its number", await hands.run("desk.aim.root"), 17);
    await page.click(await hands.middle('path[data-pick="16"]'));
    await page.click(await hands.middle('path[data-pick="17"]'));
    checks.same("picked where the plane lies over it", await hands.run("desk.aim.root"), 17);
    await hands.press("#cut");
    checks.same("the other", await hands.line(), "cut 25 26 24 27 8 6");
    await hands.start(2);
    const [tip, at] = [await hands.middle('.hand [data-hand="turn"]'), await hands.middle(".hand .foot")];
    await page.drag(tip, { x: at.x + 40, y: at.y - 40 });
    checks.same("turned", await hands.run("document.querySelector('[data-angle]').value"), "45");

    // a finger moves the plane as a mouse does
    await hands.start(2);
    await page.call("Emulation.setTouchEmulationEnabled", { enabled: true });
    const under = await hands.middle(".hand .foot");
    const touch = (type, x) => page.call("Input.dispatchTouchEvent", { type, touchPoints: type === "touchEnd" ? [] : [{ x, y: under.y }] });
    await touch("touchStart", under.x);
    for (let i = 1; i <= 5; i++) await touch("touchMove", under.x - i * 0.05 * long);
    await touch("touchEnd");
    await page.until("desk.aim.distance === -0.25", 3000).catch(() => {});
    checks.same("by a finger", await hands.run("desk.aim.distance"), -0.25);
    await page.call("Emulation.setTouchEmulationEnabled", { enabled: false });

    // space: the view turns, the plane turns, pieces move apart
    await hands.start(3);
    const ground = await hands.run("(() => { const { left, top } = document.querySelector('#drawing').getBoundingClientRect(); return { x: left + 30, y: top + 30 }; })()");
    await page.drag(ground, { x: ground.x + 50, y: ground.y + 20 });
    checks.holds("the view turned", await hands.run("Math.abs(desk.look.yaw - 30) > 5 && desk.look.pitch > 40"));
    await hands.press("#front");
    const top = await hands.middle('.hand [data-hand="turn"]');
    await page.drag(top, { x: top.x + 55, y: top.y - 40 });
    checks.holds("a unit normal, and another", await hands.run("Math.abs(desk.aim.normal.reduce((s, x) => s + x * x, 0) - 1) < 1e-12 && desk.aim.normal[0] !== 1"));
    const said = await hands.would();
    await hands.press("#cut");
    checks.same("what it said", await hands.line(), said);
    const places = () => hands.run("new Set([...document.querySelectorAll('.dot')].map(dot => `${dot.getAttribute('cx')} ${dot.getAttribute('cy')}`)).size");
    const [vertices, together] = [await hands.run("desk.live.sizes.vertices"), await places()];
    await hands.type("#apart", "0.6");
    checks.holds("apart, what two pieces share is drawn twice", together === vertices && await places() > vertices);
    checks.holds("hidden edges and seen ones", await hands.count(".edge.hidden") > 0 && await hands.count(".edge:not(.hidden)") > 0);
    await hands.type("#apart", "0");
}

export async function checkDimensions(checks, hands) {
    await hands.start(1);
    checks.same("a segment", [await hands.line(), await hands.would()], ["cube 3 2 0", "cut 4 5 3 6 3 1"]);
    checks.same("drawn", await hands.count(".piece .bar"), 2);
    await hands.start(4);
    checks.same("four dimensions", await hands.line(), "cube 81 16 8");
    const face = (await hands.would()).split(" ")[3];
    checks.same("each facet, and the face of the cut", await hands.texts("#facets li > span"), [`face of the cut E${face} in h8`,
        "E26 in h0", "E53 in h1", "E62 in h2", "E71 in h3", "E74 in h4", "E77 in h5", "E78 in h6", "E79 in h7"]);
    checks.same("the cut in six of them", await hands.count("#facets .cutface"), 6);
    await hands.press("#cut");
    checks.same("facets of the chosen piece", await hands.count("#facets li"), await hands.run("desk.live.element(desk.aim.root).boundary.length"));
    checks.holds("said what is shown", (await hands.text("#pointed")).includes("each facet in its own three dimensions"));
}

export async function checkRefusals(checks, hands) {
    await hands.start(2);
    const says = async () => [await hands.would(), await hands.text("#wouldsay")];
    await hands.type("#root", "9");
    checks.same("no such element", await says(), ["refused 4", "There is no element 9: in use are E0 to E8. Vertices and hyperplanes are other lists, with numbers of their own."]);
    await hands.press("#cut");
    checks.same("refused", [await hands.line(), await hands.texts("#says p")], ["refused 4", ["There is no element 9: in use are E0 to E8. Vertices and hyperplanes are other lists, with numbers of their own.", "A refused record leaves the table as it was."]]);
    checks.same("and all is as it was", await hands.count("#elements li[data-e]"), 9);
    await hands.type("#root", "65544");
    checks.same("65544 is not 8", [(await says())[0], await hands.run("document.querySelector('#cut').disabled")], ["refused 4", true]);
    await hands.type("#root", "8");
    await hands.type('[data-axis="1"]', "1");
    checks.same("not unit", await says(), ["refused 5", "The normal is not unit: its squares add up to 2, not to 1."]);
    await hands.press("#makeunit");
    checks.same("made unit", await hands.would(), "cut 10 11 9 12 4 5");
    await hands.type("#distance", "inf");
    checks.same("infinite", await hands.would(), "cut 8 - - 9 4 4");
    await hands.type("#distance", "1/4");
    checks.same("a fraction", await hands.run("desk.aim.distance"), 0.25);
    await hands.type("#distance", "nan");
    checks.same("no number is refused", await hands.would(), "refused 5");
    await hands.type("#distance", "0.25");
    await hands.run("document.querySelector('#distance').focus(); document.querySelector('#distance').value = 'x'; document.querySelector('#distance').dispatchEvent(new Event('input', { bubbles: true }))");
    checks.same("what is no number is told and not taken", await hands.run("[desk.aim.distance, document.querySelector('#distance').getAttribute('aria-invalid')]"), [0.25, "true"]);
    await hands.run("document.activeElement.blur()");
    await hands.start(2, "0.5");
    checks.same("radius", [await hands.line(), await hands.texts("#says p")], ["refused 2", ["The radius is not a number from 1 to 65,536.", "A refused record leaves the table as it was."]]);
    checks.same("no table, no sheet, no cut", await hands.run("[desk.stands, document.querySelector('#cut').disabled, document.querySelectorAll('.lists li').length]"), [false, true, 0]);
    await hands.start(2);

    // the six questions
    const asked = async (question, roots, rank) => {
        await hands.type("#question", question);
        await hands.type("#questionroots", roots);
        if (rank) await hands.type("#questionrank", rank);
        return hands.text("#questionsays");
    };
    checks.same("sub-elements", await asked("subelements", "2"), "3 numbers: E0 E1 E2");
    checks.same("with a rank", await asked("withRank", "8", "1"), "4 numbers: E2 E5 E6 E7");
    checks.same("vertex set", await asked("vertexSet", "5"), "2 numbers: v2 v3");
    checks.same("greatest common", await asked("greatestCommon", "2, 6"), "0 numbers:");
    checks.same("walk", await asked("edgesInOrder", "8"), "8 numbers: v0–v1, v1–v3, v3–v2, v2–v0");
    checks.same("primordial facet", await asked("hasPrimordialFacet", "8"), "yes");
    checks.same("which of several is not in use", (await asked("greatestCommon", "8, 77")).slice(0, 33), "refused 4. There is no element 77");
    checks.same("no number at all", await asked("vertexSet", "x"), "refused 4. An element number is not in use.");
    checks.same("a walk of an edge", await asked("edgesInOrder", "2"), "refused 6. An element of another rank or kind is asked for.");
}
