// No answer is shown that the engine did not give: the page with a module, or a room, of another size, and with no module.
import { serve } from "./browser.mjs";
import { Hands } from "./hands.mjs";

// the words of elements that the module wants, 18432, as WebAssembly writes them: i64.const, then seven bits a byte
const WANTS = Buffer.from([0x42, 0x80, 0x90, 0x01]);

function otherSize(wasm) {
    const other = Buffer.from(wasm);
    let found = 0;
    for (let at = other.indexOf(WANTS); at >= 0; at = other.indexOf(WANTS, at + 1), found++) other[at + 1] = 0x81;
    if (found === 0) throw new Error("the module has no size to change");
    return other;
}

// the file of a table with no elements
const NO_ELEMENTS = Buffer.from("48440100000000000000", "hex");

const BROKEN = {
    "a module that wants another size": { "desk.wasm": otherSize },
    "a room of another size": { "table.js": text => text.toString().replace("elements: 512", "elements: 511") },
    "one plane less": { "table.js": text => text.toString().replace("hyperplanes: 64", "hyperplanes: 63") },
};

export async function checkBroken(checks, chromium) {
    for (const [name, changed] of Object.entries(BROKEN)) {
        const { server, url } = await serve("target/web", changed);
        const page = await chromium.page(url);
        const hands = new Hands(page, null);
        checks.same(name, [await hands.line(), await hands.texts("#says p")],
            ["refused 3", ["The table is not sound, or its room has another size.", "A refused record leaves the table as it was."]]);
        checks.same(`${name}: not saved, not opened`, await hands.run(`(async () => [desk.save(), await desk.open("none.table", Uint8Array.from([${[...NO_ELEMENTS]}]))])()`), [{ number: 3 }, 3]);
        await hands.press("#cut");
        await hands.press("#grid2");
        await hands.press('[data-lesson="0"]');
        await hands.press("#lessonnext");
        checks.same(`${name}: no answer`, [await hands.printed(), await hands.count(".lists li"), await hands.count("#drawing *"), await hands.would(), await hands.text("#touch")], ["refused 3\n", 0, 0, "", ""]);
        await hands.toSheet();
        checks.same(`${name}: no sheet`, await hands.text("#sheet"), "There is no table, so there is no sheet.");
        checks.same(`${name}: no error`, page.errors, []);
        server.close();
    }
    // a call that ends in a trap is told
    const { server, url } = await serve("target/web", { "engine.js": text => text.toString().replace("cut(lent, {", "cut(lent, { root }) { throw new WebAssembly.RuntimeError(`trap ${root}`); }\n    unused(lent, {") });
    const page = await chromium.page(url);
    const hands = new Hands(page, null);
    checks.holds("a trap is told", (await hands.text("#noengine")).includes("trap 8") && !await hands.run("document.querySelector('#noengine').hidden"));
    checks.same("and no answer of it is shown", await hands.would(), "");
    server.close();

    for (const [name, changed] of Object.entries({ "no module": { "desk.wasm": () => Buffer.alloc(0) }, "another module": { "desk.wasm": () => Buffer.from([0, 0x61, 0x73, 0x6d, 1, 0, 0, 0]) } })) {
        const { server, url } = await serve("target/web", changed);
        const page = await chromium.page(url);
        const hands = new Hands(page, null);
        checks.same(`${name}: it is told`, await hands.run("document.querySelector('#noengine').hidden"), false);
        checks.holds(name, (await hands.text("#noengine")).startsWith("The engine could not be loaded, so nothing can be answered"));
        checks.same(`${name}: no answer`, [await hands.text("#line"), await hands.count(".lists li"), await hands.count("#drawing *")], ["", 0, 0]);
        server.close();
    }
}
