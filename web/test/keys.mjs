// The page by keyboard alone, and for those who listen.

const CONTROL = 2;

const focused = "(part => part.id || part.dataset.lesson || part.name || part.tagName)(document.activeElement)";

// Tab goes over everything that can be worked with, and shows where it is
async function checkTabs(checks, hands) {
    await hands.run("document.activeElement.blur(); scrollTo(0, 0)");
    const seen = new Set();
    for (let i = 0, ends = 0; i < 120 && ends < 2; i++) {
        await hands.page.key("Tab");
        const { name, isShown } = await hands.run(`(() => {
            const part = document.activeElement;
            const shows = part.name === "kept" ? part.nextElementSibling : part.type === "file" ? part.parentNode : part;
            const { outlineStyle, outlineWidth } = getComputedStyle(shows);
            return { name: ${focused}, isShown: outlineStyle !== "none" && parseFloat(outlineWidth) >= 2 };
        })()`);
        if (name === "BODY") {
            ends++;
            continue;
        }
        if (!seen.has(name)) checks.holds(`focus is seen on ${name}`, isShown);
        seen.add(name);
    }
    for (const name of ["shape", "radius", "newsession", "addcube", "undo", "redo", "savetable", "opentable", "numbers", "apart", "front", "drawing", "distance", "slide", "kept", "root", "cut",
        "grid2", "grid3", "cutevery", "planes", "addplane", "cutplanes",
        "history", "savebytes", "savelines", "open", "lines", "run", "question", "questionroots", "print"])
        checks.holds(`${name} is reached`, seen.has(name) || (name === "history" && seen.has("BUTTON")));
    const rows = await hands.run("['elements', 'vertices', 'hyperplanes'].map(id => document.querySelectorAll(`#${id} [tabindex=\"0\"]`).length)");
    checks.same("each list is one stop", rows, [1, 1, 1]);
}

export async function checkKeys(checks, hands) {
    const { page } = hands;
    await hands.start(2);
    await checkTabs(checks, hands);

    // in the drawing: turn, move, cut, undo, do again
    await hands.run("document.querySelector('#drawing').focus()");
    for (let i = 0; i < 3; i++) await page.key("ArrowLeft");
    await page.key("ArrowUp");
    checks.same("turned and moved", await hands.run("[document.querySelector('[data-angle]').value, desk.aim.distance]"), ["45", 0.05]);
    await page.until("document.querySelector('#said').textContent.includes('distance 0.05')", 3000).catch(() => {});
    checks.holds("said once it rests", (await hands.text("#said")).includes("distance 0.05, keep both: would print cut"));
    await page.key("Enter");
    checks.holds("cut", (await hands.line()).startsWith("cut "));
    const line = await hands.line();
    await page.key("z", CONTROL);
    checks.same("undone", await hands.line(), "cube 9 4 4");
    await page.key("y", CONTROL);
    checks.same("done again", await hands.line(), line);
    const pieces = await hands.run("desk.bench.pieces");
    await page.key("n");
    checks.same("the next piece", await hands.run("desk.aim.root"), pieces[1]);
    await page.key("p");
    checks.same("the one before", await hands.run("desk.aim.root"), pieces[0]);
    await page.key("2");
    await page.key("k");
    checks.same("an axis, and the sides kept", await hands.run("[desk.aim.normal, desk.aim.kept]"), [[0, 1], "neither"]);
    await page.key("+");
    checks.same("apart", await hands.run("desk.look.apart"), 0.1);
    await page.key("-");

    // a list: down to the second entry, and take it
    await hands.run("document.querySelector('#elements li').focus()");
    await page.key("ArrowDown");
    await page.key("Enter");
    checks.same("chosen", await hands.run("[desk.aim.root, document.querySelector('#elements [aria-selected=true]').dataset.e]"), [1, "1"]);

    // a lesson, from its button
    await hands.run("document.querySelector('[data-lesson=\"1\"]').focus()");
    await page.key("Enter");
    await page.key("Enter");
    checks.same("the lesson's second step", [await hands.run(focused), await hands.line()], ["lessonnext", "cut 16 17 15 18 6 5"]);
    await hands.press("#lessonleave");
}

export async function checkNames(checks, hands) {
    const { nodes } = await hands.page.call("Accessibility.getFullAXTree");
    const roles = ["button", "textbox", "slider", "combobox", "radio", "checkbox", "listbox", "option", "application", "spinbutton"];
    const shown = nodes.filter(({ ignored, role }) => !ignored && roles.includes(role?.value));
    const nameless = shown.filter(({ name }) => !name?.value?.trim());
    checks.same("everything that is worked with has a name", nameless.map(({ role, nodeId }) => `${role.value} ${nodeId}`), []);
    const drawing = shown.find(({ role }) => role.value === "application");
    checks.holds("the drawing says what is drawn", drawing.description?.value.startsWith("2 dimensions. Pieces: "));
    checks.same("the answer is told", await hands.run("document.querySelector('.answer').getAttribute('aria-live')"), "polite");
    const option = shown.find(({ role, name }) => role.value === "option" && name.value.startsWith("element 8,"));
    checks.same("an entry in words", option?.name.value.replace(/, (added|inside|an old).*/, ""), "element 8, face, boundary elements 2, 5, 6, 7");
}
