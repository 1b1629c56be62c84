// The page: the engine is loaded, the panels are wired, and the first session begins. A panel is an object of a module; what
// it has of wire, changed, aimed, looked and pointed is called. One more panel is one more row here.
import { $ } from "./dom.js";
import { loadDesk } from "./desk.js";
import { NoRecord } from "./session.js";
import { measureDrag } from "./measure.js";
import { partsOf, lesson } from "./lesson.js";
import { aim, number } from "./aim.js";
import { answer } from "./answer.js";
import { facets } from "./facets.js";
import { grid } from "./grid.js";
import { keys } from "./keys.js";
import { lists } from "./lists.js";
import { printing } from "./printing.js";
import { questions } from "./questions.js";
import { records } from "./records.js";
import { saving } from "./saving.js";
import { sheet } from "./sheet.js";
import { touch } from "./touch.js";
import { view } from "./view.js";

const PANELS = [facets, view, aim, touch, answer, lists, lesson, records, saving, printing, grid, questions, sheet, keys];

async function fetched(name) {
    const response = await fetch(name);
    if (!response.ok) throw new Error(`${name} is not there`);
    return response;
}

// what is no number is asked as one that is not, and refused by the engine
function radius() {
    try {
        return number($("radius").value);
    } catch (error) {
        if (!(error instanceof NoRecord)) throw error;
        return NaN;
    }
}

function wireStart(desk) {
    const dimension = () => Number($("shape").value);
    $("newsession").onclick = () => desk.newSession(dimension(), radius());
    $("addcube").onclick = () => desk.addCube(dimension(), radius());
    $("start").onsubmit = event => event.preventDefault();
}

async function begin() {
    const parts = partsOf(await (await fetched("LESSON.md")).text());
    const desk = await loadDesk(await (await fetched("desk.wasm")).arrayBuffer(), parts);
    desk.panels = PANELS;
    for (const panel of PANELS) panel.wire?.(desk);
    wireStart(desk);
    desk.newSession(2, 1);
    globalThis.desk = Object.assign(desk, { measureDrag: frames => measureDrag(desk, frames) }); // for tests and for the curious
}

function tell(words) {
    $("noengine").textContent = words;
    $("noengine").hidden = false;
}

// what goes wrong later is told too, for what stands on the page then may be of another table
for (const name of ["error", "unhandledrejection"])
    addEventListener(name, ({ message, reason }) => tell(`This went wrong, and what stands here may be old: ${message ?? reason?.message}`));
try {
    await begin();
    $("noengine").hidden = true;
} catch (error) {
    tell(`The engine could not be loaded, so nothing can be answered: ${error.message}`);
}
document.documentElement.dataset.ready = "yes";
