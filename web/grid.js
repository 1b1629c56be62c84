// Planes over every piece in one click: a grid, the plane that is aimed at, or planes that are written down.
import { number } from "./aim.js";
import { $, enable } from "./dom.js";
import { GRIDS, gridName, gridOf } from "./every.js";
import { NoRecord, plain } from "./session.js";

// a plane a line: the normal and then the distance; what follows a # is left out
export function planesOf(text, dimension) {
    const lines = text.split("\n").map(line => line.split("#")[0].trim()).filter(line => line !== "");
    return lines.map(line => {
        const floats = line.split(/[\s,]+/).map(number);
        if (floats.length !== dimension + 1) throw new NoRecord(`${line}: a plane here is ${dimension + 1} numbers, the normal and then the distance`);
        return { normal: floats.slice(0, -1), distance: floats.at(-1) };
    });
}

const planeLine = ({ normal, distance }) => [...normal, distance].map(plain).join(" ");

// what is written, or words for what is no plane
function written(desk) {
    try {
        const planes = planesOf($("planes").value, desk.live.dimension);
        return planes.length > 0 ? { planes } : { says: "There is no plane." };
    } catch (error) {
        if (!(error instanceof NoRecord)) throw error;
        return { says: `${error.message}. The table is as it was.` };
    }
}

function cutWritten(desk) {
    const { planes, says = "" } = written(desk);
    $("planessay").textContent = says;
    if (planes) desk.cutEvery({ name: "Planes of your own", planes, kept: desk.aim.kept });
}

function showGrids({ live, bench, stands }) {
    const grids = GRIDS[live.dimension] ?? [];
    [$("grid2"), $("grid3")].forEach((button, i) => {
        button.hidden = stands && !grids[i];
        if (grids[i]) button.textContent = gridName(grids[i]);
    });
    for (const id of ["grid2", "grid3", "cutevery", "cutplanes"]) enable($(id), stands && bench.pieces.length > 0);
}

export const grid = {
    wire(desk) {
        [$("grid2"), $("grid3")].forEach((button, i) => (button.onclick = () => {
            const along = GRIDS[desk.live.dimension]?.[i];
            if (along) desk.cutEvery({ name: gridName(along), planes: gridOf(along, desk.radius), kept: "both" });
        }));
        $("cutevery").onclick = () => desk.cutEveryPiece();
        $("addplane").onclick = () => ($("planes").value = [$("planes").value.trimEnd(), planeLine(desk.aim)].filter(line => line !== "").join("\n") + "\n");
        $("cutplanes").onclick = () => cutWritten(desk);
    },

    changed: showGrids,
};
