// What a test does with the page, by its parts' names, as a reader or a hand does.
import { existsSync, readFileSync, rmSync } from "node:fs";
import { join } from "node:path";

export class Hands {
    constructor(page, files) {
        Object.assign(this, { page, files, run: page.run });
    }

    text(selector) {
        return this.run(`document.querySelector(${JSON.stringify(selector)}).textContent.replace(/\\s+/g, " ").trim()`);
    }

    count(selector) {
        return this.run(`document.querySelectorAll(${JSON.stringify(selector)}).length`);
    }

    texts(selector) {
        return this.run(`[...document.querySelectorAll(${JSON.stringify(selector)})].map(part => part.textContent.trim())`);
    }

    line() {
        return this.run("document.querySelector('#line').dataset.line");
    }

    would() {
        return this.text("#wouldline");
    }

    // the lines of all records so far, as cutlist prints them
    async printed() {
        return (await this.texts("#history .gives")).join("\n") + "\n";
    }

    async press(selector) {
        await this.run(`document.querySelector(${JSON.stringify(selector)}).click()`);
        await this.page.frame();
    }

    async type(selector, value) {
        await this.run(`(() => {
            const input = document.querySelector(${JSON.stringify(selector)});
            input.focus();
            input.value = ${JSON.stringify(value)};
            for (const name of ["input", "change"]) input.dispatchEvent(new Event(name, { bubbles: true }));
            input.blur();
        })()`);
        await this.page.frame();
    }

    middle(selector) {
        return this.run(`(() => {
            const { x, y, width, height } = document.querySelector(${JSON.stringify(selector)}).getBoundingClientRect();
            return { x: x + width / 2, y: y + height / 2 };
        })()`);
    }

    async start(dimension, radius = "1") {
        await this.type("#shape", String(dimension));
        await this.type("#radius", radius);
        await this.press("#newsession");
    }

    async runLines(text) {
        await this.run(`document.querySelector("#lines").value = ${JSON.stringify(text)}`);
        await this.press("#run");
    }

    // what is said of a file that was chosen
    async choose(input, says, path) {
        const { root } = await this.page.call("DOM.getDocument");
        const { nodeId } = await this.page.call("DOM.querySelector", { nodeId: root.nodeId, selector: input });
        await this.run(`document.querySelector("${says}").textContent = "nothing yet"`);
        await this.page.call("DOM.setFileInputFiles", { nodeId, files: [path] });
        await this.page.until(`document.querySelector("${says}").textContent !== "nothing yet"`);
        return this.text(says);
    }

    open(path) {
        return this.choose("#open", "#runsays", path);
    }

    openTable(path) {
        return this.choose("#opentable", "#filesays", path);
    }

    async download(button, name) {
        const path = join(this.files, name);
        rmSync(path, { force: true });
        await this.page.call("Browser.setDownloadBehavior", { behavior: "allow", downloadPath: this.files });
        await this.press(button);
        for (let i = 0; i < 100 && !existsSync(path); i++) await new Promise(done => setTimeout(done, 30));
        return readFileSync(path);
    }

    // the sheet is worked out when it comes into sight
    async toSheet() {
        await this.run("document.querySelector('#sheetpart').scrollIntoView()");
        await this.page.until("document.querySelector('#sheet').children.length > 0");
    }

    toTop() {
        return this.run("scrollTo(0, 0)");
    }
}
