// A headless Chromium over its debugging pipe, and a server for one folder: nothing but node is needed.
import { spawn } from "node:child_process";
import { createServer } from "node:http";
import { mkdtempSync, readFileSync, rmSync } from "node:fs";
import { tmpdir } from "node:os";
import { join, normalize, extname } from "node:path";

const TYPES = { ".html": "text/html", ".js": "text/javascript", ".css": "text/css", ".wasm": "application/wasm", ".md": "text/markdown" };
const KEYS = { Enter: 13, " ": 32, Tab: 9, ArrowLeft: 37, ArrowUp: 38, ArrowRight: 39, ArrowDown: 40, PageUp: 33, PageDown: 34 };

// the folder's files; `changed` has other contents for some names, as functions of what is there
export function serve(folder, changed = {}) {
    const server = createServer((request, response) => {
        const name = normalize(new URL(request.url, "http://x").pathname.replace(/\/$/, "/index.html")).slice(1);
        try {
            const content = readFileSync(join(folder, name));
            // apart from all other pages, a page has a clock of 5 microseconds
            response.writeHead(200, { "content-type": TYPES[extname(name)] ?? "application/octet-stream", "cache-control": "no-store",
                "cross-origin-opener-policy": "same-origin", "cross-origin-embedder-policy": "require-corp" });
            response.end(changed[name] ? changed[name](content) : content);
        } catch {
            response.writeHead(404);
            response.end();
        }
    });
    return new Promise(done => server.listen(0, "127.0.0.1", () => done({ server, url: `http://127.0.0.1:${server.address().port}/` })));
}

// calls over the pipe, and what is told over it
function talk(child) {
    const [, , , to, from] = child.stdio;
    const waiting = new Map();
    const listeners = [];
    let [id, rest] = [0, Buffer.alloc(0)];
    from.on("data", chunk => {
        rest = Buffer.concat([rest, chunk]);
        for (let end; (end = rest.indexOf(0)) >= 0; rest = rest.subarray(end + 1)) {
            const message = JSON.parse(rest.subarray(0, end).toString());
            if (!message.id) listeners.forEach(listener => listener(message));
            else {
                const { done, fail } = waiting.get(message.id);
                waiting.delete(message.id);
                if (message.error) fail(new Error(message.error.message));
                else done(message.result);
            }
        }
    });
    let hasEnded = false;
    const end = error => {
        hasEnded = true;
        for (const { fail } of waiting.values()) fail(error);
    };
    child.once("error", end);
    child.once("exit", () => end(new Error("the browser ended")));
    to.on("error", end);
    const send = (method, params = {}, sessionId) => new Promise((done, fail) => {
        if (hasEnded) return fail(new Error("the browser has ended"));
        waiting.set(++id, { done, fail });
        to.write(JSON.stringify({ id, method, params, sessionId }) + "\0");
    });
    return { send, listeners };
}

export async function browser(program) {
    const profile = mkdtempSync(join(tmpdir(), "desk-chromium-"));
    const child = spawn(program, ["--headless=new", "--remote-debugging-pipe", "--no-sandbox", "--disable-gpu", "--hide-scrollbars",
        "--disable-dev-shm-usage", "--no-first-run", "--disable-background-networking", "--disable-component-update",
        "--host-resolver-rules=MAP * ~NOTFOUND, EXCLUDE 127.0.0.1", `--user-data-dir=${profile}`, "about:blank"],
        { stdio: ["ignore", "ignore", "ignore", "pipe", "pipe"], env: { ...process.env, HOME: profile } });
    const { send, listeners } = talk(child);
    const close = async () => {
        const gone = new Promise(done => child.once("exit", done));
        await send("Browser.close").then(() => gone, () => {});
        rmSync(profile, { recursive: true, force: true, maxRetries: 5 });
    };
    return { close, page: url => openPage(send, listeners, url) };
}

async function openPage(send, listeners, url) {
    const { targetId } = await send("Target.createTarget", { url: "about:blank" });
    const { sessionId } = await send("Target.attachToTarget", { targetId, flatten: true });
    const call = (method, params) => send(method, params, sessionId);
    const errors = [], requests = [];
    listeners.push(({ method, params, sessionId: from }) => {
        if (from !== sessionId) return;
        if (method === "Runtime.exceptionThrown") errors.push(params.exceptionDetails.exception?.description ?? params.exceptionDetails.text);
        if (method === "Runtime.consoleAPICalled" && params.type === "error") errors.push(params.args.map(a => a.value ?? a.description).join(" "));
        if (method === "Network.requestWillBeSent") requests.push(params.request.url);
    });
    for (const part of ["Page", "Runtime", "Network"]) await call(`${part}.enable`);
    const run = async expression => {
        const { result, exceptionDetails } = await call("Runtime.evaluate", { expression, awaitPromise: true, returnByValue: true });
        if (exceptionDetails) throw new Error(exceptionDetails.exception?.description ?? exceptionDetails.text);
        return result.value;
    };
    const until = async (expression, ms = 10000) => {
        for (const end = Date.now() + ms; Date.now() < end; await new Promise(done => setTimeout(done, 30)))
            if (await run(expression).catch(() => false)) return;
        throw new Error(`not within ${ms} ms: ${expression}\n${errors.join("\n")}`);
    };
    const frame = () => run("new Promise(done => requestAnimationFrame(() => requestAnimationFrame(() => done())))");
    const size = (width, height, mobile = false) => call("Emulation.setDeviceMetricsOverride", { width, height, deviceScaleFactor: 1, mobile });
    const media = (...features) => call("Emulation.setEmulatedMedia", { media: "", features: features.map(([name, value]) => ({ name, value })) });
    const mouse = (type, x, y, buttons) => call("Input.dispatchMouseEvent", { type, x, y, button: "left", buttons, clickCount: 1 });
    const click = async ({ x, y }) => {
        await mouse("mousePressed", x, y, 1);
        await mouse("mouseReleased", x, y, 0);
        await frame();
    };
    const drag = async ({ x, y }, to, steps = 8) => {
        await mouse("mousePressed", x, y, 1);
        for (let i = 1; i <= steps; i++) await mouse("mouseMoved", x + (to.x - x) * i / steps, y + (to.y - y) * i / steps, 1);
        await mouse("mouseReleased", to.x, to.y, 0);
        await frame();
    };
    const point = ({ x, y }) => call("Input.dispatchMouseEvent", { type: "mouseMoved", x, y, button: "none", buttons: 0 }).then(frame);
    const key = async (key, modifiers = 0) => {
        const text = key === "Enter" ? "\r" : key.length === 1 && modifiers === 0 ? key : undefined;
        const code = KEYS[key] ?? key.toUpperCase().charCodeAt(0);
        await call("Input.dispatchKeyEvent", { type: text ? "keyDown" : "rawKeyDown", key, modifiers, text, windowsVirtualKeyCode: code });
        await call("Input.dispatchKeyEvent", { type: "keyUp", key, modifiers, windowsVirtualKeyCode: code });
        await frame();
    };
    const picture = async (clip, format = "png") => Buffer.from((await call("Page.captureScreenshot",
        { format, captureBeyondViewport: Boolean(clip), ...(clip ? { clip: { ...clip, scale: 1 } } : {}) })).data, "base64");
    const pdf = async () => Buffer.from((await call("Page.printToPDF", { preferCSSPageSize: true, printBackground: true })).data, "base64");
    await size(1280, 800);
    await call("Page.navigate", { url });
    await until("document.documentElement?.dataset.ready === 'yes'");
    return { call, run, until, frame, errors, requests, size, media, click, drag, point, key, picture, pdf };
}
