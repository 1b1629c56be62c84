// The board: the drawing in its room on the page, its tools, and what is pointed at in words.
import { $, html } from "./dom.js";
import { drawAll } from "./drawing.js";
import { holdDrawing } from "./hand.js";
import { sceneOf, sceneWords } from "./scene.js";
import { describe } from "./words.js";

const HINT = "Point at something in the drawing or in the lists.";
const FOUR = "Above: the edges of all pieces, small where they lie far on w. Below: each facet in its own three dimensions.";

let scene = null;
let room = { width: 0, height: 0 }; // as it was told, for asking the page would lay it out once more in each frame

// what is said of close calls lies above what is drawn flat; in space below it, where they are all in the upper half
const isHigh = ({ close, eye, table }) => !eye.flat && close.length > 0 && close.every(({ v }) => eye.paper(table.vertex(v)).y < 0);

function draw(desk) {
    const svg = $("drawing");
    const { width, height } = room;
    if (!desk.stands || width === 0 || height === 0) {
        scene = null;
        svg.replaceChildren();
        $("drawn").textContent = desk.stands ? "" : "There is no table, so nothing is drawn.";
        return;
    }
    scene = sceneOf(desk, width, height);
    svg.setAttribute("viewBox", `${-width / 2} ${-height / 2} ${width} ${height}`);
    svg.innerHTML = drawAll(scene);
    $("over").classList.toggle("low", isHigh(scene));
}

function sayPointed(desk) {
    const table = scene?.table ?? desk.live;
    const { list, n } = desk.pointed ?? {};
    const size = { e: table.sizes.elements, v: table.sizes.vertices, h: table.sizes.hyperplanes }[list];
    const isSoon = list === "e" && n >= desk.live.sizes.elements;
    $("pointed").innerHTML = n < size
        ? html(describe(table, desk.pointed) + (isSoon ? " It would be added by this cut." : ""))
        : html(desk.live.dimension === 4 ? FOUR : HINT);
}

export const view = {
    wire(desk) {
        holdDrawing($("drawing"), desk, () => scene);
        new ResizeObserver(([{ contentRect }]) => {
            room = contentRect;
            this.changed(desk);
        }).observe($("drawing"));
        $("numbers").onchange = event => desk.lookFrom({ numbers: event.target.value });
        $("apart").oninput = event => desk.lookFrom({ apart: Number(event.target.value) });
        $("front").onclick = () => desk.resetView();
    },

    changed(desk) {
        draw(desk);
        sayPointed(desk);
        if (scene) $("drawn").textContent = sceneWords(desk, scene);
    },

    aimed: draw,

    looked(desk) {
        $("apart").value = desk.look.apart;
        draw(desk);
    },

    pointed(desk) {
        sayPointed(desk);
        draw(desk);
    },
};
