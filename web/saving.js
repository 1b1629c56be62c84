// A table saved as its file and opened from one: by buttons, by keys, or dropped onto the page.
import { $, download } from "./dom.js";
import { isFileOfTable } from "./file.js";
import { openSession } from "./records.js";
import { refusal } from "./words.js";

const NAME = "desk.table";
const ENDING = ".table";

// what a number says to somebody who opens a file
const WHY = {
    13: "It is no saved table, or it was changed or cut short on its way.",
    3: "It is laid out as a saved table, but the table in it does not fit this desk or is not sound.",
};

export function say(words, isRefused = false) {
    $("filesays").textContent = words;
    $("filesays").classList.toggle("refused", isRefused);
}

// under the name that it was opened from, if it was
function save(desk) {
    const { number, file } = desk.save();
    const name = desk.history.beginning?.record.name ?? NAME;
    if (number !== 0) return say(`Not saved, refused ${number}. ${refusal(number, {}, desk.live)}`, true);
    download(name, "application/octet-stream", file);
    say(`Saved as ${name}: ${file.length} bytes. Open table brings it back, tomorrow too.`);
}

async function openTable(desk, name, bytes) {
    const number = await desk.open(name, bytes);
    if (number === 0) return;
    say(`${name} is not opened, refused ${number}. ${refusal(number, {}, desk.live)} ${WHY[number] ?? ""} The table is as it was.`, true);
}

async function open(desk, file, isTable) {
    let bytes;
    try {
        bytes = new Uint8Array(await file.arrayBuffer());
    } catch (error) {
        return say(`${file.name} could not be read: ${error.message} The table is as it was.`, true);
    }
    if (isTable || file.name.endsWith(ENDING) || isFileOfTable(bytes)) await openTable(desk, file.name, bytes);
    else openSession(desk, bytes);
}

function wireDrop(desk) {
    const show = isOver => document.body.classList.toggle("dropping", isOver);
    for (const name of ["dragover", "drop"])
        addEventListener(name, event => {
            const files = event.dataTransfer?.types.includes("Files");
            if (!files) return;
            event.preventDefault();
            show(name === "dragover");
            const [file] = event.dataTransfer.files;
            if (name === "drop" && file) open(desk, file, false);
        });
    addEventListener("dragleave", event => event.relatedTarget ?? show(false));
}

export const saving = {
    wire(desk) {
        $("savetable").onclick = () => save(desk);
        $("opentable").onchange = async ({ target }) => {
            const [file] = target.files;
            if (file) await open(desk, file, true);
            target.value = "";
        };
        wireDrop(desk);
    },

    // what was said was of the table before
    changed() {
        say("");
    },
};
