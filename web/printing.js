// The chosen piece as a file for a printer, binary STL: the engine's bytes, to be downloaded.
import { $, download } from "./dom.js";
import { say } from "./saving.js";
import { refusal } from "./words.js";

const HEADER = 84;
const EACH = 50; // bytes a triangle

// what a number says to somebody who wants to print a piece
const WHY = {
    6: "A print file is of a body in three dimensions.",
    16: "Part of its surface is the first cube’s: carve that off, on every side.",
};

function print(desk) {
    const { root } = desk.aim;
    const { number, file } = desk.printFile(root);
    if (number !== 0) return say(`No print file of element ${root}, refused ${number}. ${refusal(number, {}, desk.live)} ${WHY[number] ?? ""}`.trim(), true);
    const name = `piece-${root}.stl`;
    download(name, "model/stl", file);
    say(`${name}: ${(file.length - HEADER) / EACH} triangles, ${file.length} bytes. Which side of a triangle is out it does not say; programs for printers find that out.`);
}

export const printing = {
    wire(desk) {
        $("savestl").onclick = () => print(desk);
    },
};
