// Light and dark, a projector and a phone; and what a frame of a drag costs with a full table.

// every text that is shown, with the contrast to what it stands on; a control that can do nothing now is left out
const CONTRASTS = `(() => {
    const numbers = colour => colour.match(/[\\d.]+/g).map(Number);
    const light = ([r, g, b]) => [r, g, b].map(x => x / 255).map(x => (x <= 0.04045 ? x / 12.92 : ((x + 0.055) / 1.055) ** 2.4)).reduce((sum, x, i) => sum + x * [0.2126, 0.7152, 0.0722][i], 0);
    const ground = part => {
        for (; part; part = part.parentElement) {
            const colour = numbers(getComputedStyle(part).backgroundColor);
            if (colour.length === 3 || colour[3] > 0.99) return colour;
        }
        return [255, 255, 255];
    };
    const low = [];
    let count = 0;
    for (const part of document.querySelectorAll("body *")) {
        const hasText = [...part.childNodes].some(node => node.nodeType === 3 && node.data.trim() !== "");
        if (!hasText || part.closest("svg, script, [aria-disabled=true], :disabled") || part.getClientRects().length === 0) continue;
        const [a, b] = [light(numbers(getComputedStyle(part).color)), light(ground(part))].sort((x, y) => y - x);
        const contrast = (a + 0.05) / (b + 0.05);
        count++;
        if (contrast < 4.5) low.push(part.tagName + "." + part.className + " " + contrast.toFixed(2));
    }
    return { count, low: [...new Set(low)] };
})()`;

export async function checkLooks(checks, hands) {
    const { page } = hands;
    const grounds = [];
    for (const scheme of ["light", "dark"]) {
        await page.media(["prefers-color-scheme", scheme], ["prefers-reduced-motion", "reduce"]);
        await hands.press('[data-lesson="1"]');
        await hands.press("#lessonnext");
        await hands.press("#grid2");
        await hands.toSheet();
        const { count, low } = await hands.run(CONTRASTS);
        checks.same(`${scheme}: contrast of ${count} texts`, [count > 100, low], [true, []]);
        grounds.push(await hands.run("getComputedStyle(document.body).backgroundColor"));
        await hands.toTop();
    }
    checks.holds("light is not dark", grounds[0] !== grounds[1]);
    await page.media();
    await hands.press("#lessonleave");

    for (const [name, width, height] of [["projector", 1024, 768], ["phone", 390, 844]])
        for (const dimension of [1, 2, 3, 4]) {
            await page.size(width, height, name === "phone");
            await hands.start(dimension);
            await hands.press("#cut");
            checks.same(`${name}, ${dimension} dimensions: nothing is wider than the screen`, await hands.run("document.documentElement.scrollWidth - innerWidth"), 0);
            const over = await hands.run(`[...document.querySelectorAll(".top, .board, #aim, .answer, .lists > section, .session > div, .sheetpart")].map(part => part.getBoundingClientRect())
                .filter((a, i, all) => all.some((b, k) => k > i && a.left < b.right - 1 && b.left < a.right - 1 && a.top < b.bottom - 1 && b.top < a.bottom - 1)).length`);
            checks.same(`${name}, ${dimension} dimensions: no part lies over another`, over, 0);
            checks.holds(`${name}, ${dimension} dimensions: there is a drawing`, await hands.run("document.querySelector('#drawing').clientHeight >= 120"));
        }
    checks.same("a phone shows every lesson's button", await hands.run("[...document.querySelectorAll('#lessons button')].filter(part => part.getBoundingClientRect().right > innerWidth).length"), 0);
    await page.size(1024, 768);
    await hands.press('[data-lesson="1"]');
    const low = await hands.run("['#drawing', '#cut', '#line', '#elements'].map(id => document.querySelector(id).getBoundingClientRect()).filter(({ top, bottom, height }) => top < 0 || height < 20 || bottom > 770).length");
    checks.same("a projector shows the lesson, the drawing, the answer and the lists at once", low, 0);
    await hands.press("#lessonleave");
    await page.size(1280, 800);
}

// the cube in 27 pieces, 501 of 512 elements
export async function checkDrag(checks, hands) {
    await hands.start(3);
    await hands.run(`(() => {
        for (const axis of [0, 1, 2]) for (const distance of [-0.33, 0.33]) for (const root of [...desk.bench.pieces]) {
            Object.assign(desk.aim, { normal: [0, 1, 2].map(i => (i === axis ? 1 : 0)), distance, root, kept: "both" });
            desk.make(desk.asked());
        }
        desk.tell("changed");
    })()`);
    checks.same("a full table", await hands.run("[desk.bench.pieces.length, desk.live.sizes.elements]"), [27, 501]);
    checks.holds("a fine clock", await hands.run("crossOriginIsolated"));
    const cost = await hands.run("desk.measureDrag(90)");
    const ms = x => x.toFixed(2);
    console.log(`a frame of a drag, 27 pieces: ${cost.calls} engine calls, ${ms(cost.engine)} ms (the most ${ms(cost.engineMost)}), all of it ${ms(cost.whole)} ms`);
    checks.holds(`the engine takes ${ms(cost.engine)} ms of a frame, below 4`, cost.calls > 0 && cost.engine < 4);
    await hands.start(4);
    const four = await hands.run("desk.measureDrag(60)");
    console.log(`a frame of a drag, four dimensions: ${four.calls} engine calls, ${ms(four.engine)} ms, all of it ${ms(four.whole)} ms`);
    checks.holds("in four dimensions too", four.calls > 0 && four.engine < 4);
    await hands.start(2);
}
