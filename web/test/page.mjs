// The page in a real browser: node web/test/page.mjs CHROMIUM [PART ..], from the project's folder, after web/serve --build.
import { mkdtempSync, rmSync } from "node:fs";
import { tmpdir } from "node:os";
import { join } from "node:path";
import { checkAreas } from "./areas.mjs";
import { browser, serve } from "./browser.mjs";
import { checkBroken } from "./broken.mjs";
import { Checks } from "./check.mjs";
import { checkClose } from "./close.mjs";
import { checkEvery } from "./every.mjs";
import { checkCuts, checkDimensions, checkHand, checkRefusals } from "./desk.mjs";
import { Hands } from "./hands.mjs";
import { checkKeys, checkNames } from "./keys.mjs";
import { checkLesson, checkWords } from "./lesson.mjs";
import { checkDrag, checkLooks } from "./looks.mjs";
import { checkRandom } from "./random.mjs";
import { checkSaving } from "./saving.mjs";
import { checkCutlist, checkSessions, checkSheet } from "./session.mjs";
import { checkTouch } from "./touch.mjs";

const PARTS = [checkLesson, checkWords, checkCuts, checkHand, checkDimensions, checkRefusals, checkKeys, checkNames, checkSessions, checkCutlist,
    checkSheet, checkAreas, checkClose, checkSaving, checkTouch, checkEvery, checkLooks, checkDrag, checkRandom];

const [program, ...parts] = process.argv.slice(2);
const isAsked = part => parts.length === 0 || parts.includes(part.name);
const checks = new Checks();
const files = mkdtempSync(join(tmpdir(), "desk-files-"));
const { server, url } = await serve("target/web");
const chromium = await browser(program);
try {
    const page = await chromium.page(url);
    const hands = new Hands(page, files);
    checks.same("it begins with a square", [await hands.line(), await hands.run("document.querySelector('#noengine').hidden")], ["cube 9 4 4", true]);
    await hands.press("#earlier");
    checks.same("there is no session before it", await hands.printed(), "cube 9 4 4\n");
    for (const part of PARTS.filter(isAsked))
        await part(checks, hands).catch(error => checks.same(`${part.name} stopped`, error.message, ""));
    checks.same("nothing but the page's own files was asked for", page.requests.filter(asked => !asked.startsWith(url) && !/^(blob|data):/.test(asked)), []);
    checks.same("no errors", page.errors, []);
    if (isAsked(checkBroken)) await checkBroken(checks, chromium).catch(error => checks.same("checkBroken stopped", error.message, ""));
} finally {
    await chromium.close();
    server.close();
    rmSync(files, { recursive: true, force: true });
}
process.exit(checks.told("page"));
