// The sheet for the mould shop: for each piece its counts, its corners exactly, and each face's walk and plane; of flat pieces the areas.
// Every number is the engine's; what is printed is this sheet and nothing else.
import { areaTable } from "./areas.js";
import { $, tag } from "./dom.js";
import { picture } from "./drawing.js";
import { originOf, promiseOf, tableOf, warningsOf } from "./origin.js";
import { plain } from "./session.js";
import { AXES, MANY } from "./words.js";

const NEAR = 1e-4; // of the radius: nearer than this, two corners look alike in a few digits

const head = names => `<thead><tr>${names.map(name => `<th scope="col">${name}</th>`).join("")}</tr></thead>`;
const tags = (letter, numbers) => numbers.map(n => tag(letter, n)).join(" ");
const PLANE = ["plane", "normal", "distance", "from"];

function cornerTable(table, vertices, elements) {
    const coordinates = v => table.vertex(v).map(x => `<td class="exact">${plain(x)}</td>`).join("");
    const rows = vertices.map(v => `<tr><td>${tag("v", v)}</td>${coordinates(v)}<td>${tag("E", elements[v])}</td></tr>`);
    return `<table class="corners"><caption>Corners, exactly</caption>${head(["vertex", ...AXES.slice(0, table.dimension), "element"])}
        <tbody>${rows.join("")}</tbody></table>`;
}

function planeCells(table, facet) {
    const { hyperplane, primordial } = table.element(facet);
    const { normal, distance } = table.hyperplane(hyperplane);
    return `<td>${tag("h", hyperplane)}</td><td class="exact">${normal.map(plain).join(", ")}</td>` +
        `<td class="exact">${plain(distance)}</td><td>${primordial ? "primordial" : "a cut"}</td>`;
}

// the engine's walk, from its first vertex round to it
function walkText(table, face) {
    const { number, list } = table.ask("edgesInOrder", face);
    if (number !== 0) return `refused ${number}`;
    const round = list.filter((_, i) => i % 2 === 0);
    return tags("v", [...round, round[0]]);
}

function faceTable(table, e, rank) {
    if (rank < 2) return "";
    const withPlanes = table.dimension === 3;
    const faces = rank === 2 ? [e] : table.list("withRank", e, 2);
    const plane = face => (withPlanes ? planeCells(table, face) : "");
    const rows = faces.map(face => `<tr><td>${tag("E", face)}</td><td class="walk">${walkText(table, face)}</td>${plane(face)}</tr>`);
    return `<table class="faces"><caption>${rank === 2 ? "The face" : "Faces"}, each corner by corner</caption>
        ${head(["face", "walk", ...(withPlanes ? PLANE : [])])}<tbody>${rows.join("")}</tbody></table>`;
}

// in two dimensions an edge has a plane, in four a body has; in three it is the face, and stands with its walk
function facetTable(table, e, rank) {
    if (rank !== 2 && rank !== 4) return "";
    const row = facet => `<tr><td>${tag("E", facet)}</td><td class="walk">${tags("v", table.list("vertexSet", facet))}</td>${planeCells(table, facet)}</tr>`;
    const rows = table.element(e).boundary.map(row);
    return `<table class="planes"><caption>${rank === 2 ? "Edges" : "Bodies"} and their planes</caption>
        ${head(["element", "corners", ...PLANE])}<tbody>${rows.join("")}</tbody></table>`;
}

// two corners that look alike in a few digits are told, for a sliver has to be seen before a sheet is signed
function slivers(table, vertices, radius) {
    const points = vertices.map(v => table.vertex(v));
    const isNear = (p, q) => p.every((x, i) => Math.abs(x - q[i]) < NEAR * radius);
    const pairs = points.flatMap((p, i) => points.slice(i + 1).flatMap((q, k) => (isNear(p, q) ? [[vertices[i], vertices[i + 1 + k]]] : [])));
    if (pairs.length === 0) return "";
    const some = pairs.slice(0, 8).map(([a, b]) => `${tag("v", a)} and ${tag("v", b)}`).join("; ");
    const more = pairs.length > 8 ? `; and ${pairs.length - 8} pairs more` : "";
    return `<p class="sliver"><strong>Look closely:</strong> these corners look alike in a few digits, and are two: ${some}${more}.
        The piece is a sliver there.</p>`;
}

function piece(table, shapes, e, corners, look, radius) {
    const rank = table.rank(e);
    const vertices = table.list("vertexSet", e);
    const counts = MANY.slice(0, rank).map((name, r) => `<div><dt>${name}</dt><dd>${table.list("withRank", e, r).length}</dd></div>`);
    const facet = table.ask("hasPrimordialFacet", e);
    return `<article class="sheetpiece" data-piece="${e}">
        <header><h3>Piece ${tag("E", e)}</h3><dl class="counts">${counts.join("")}</dl></header>
        <div class="front">${cornerTable(table, vertices, corners)}${picture(table, shapes, e, look, radius)}</div>
        ${slivers(table, vertices, radius)}${faceTable(table, e, rank)}${facetTable(table, e, rank)}
        <p class="check">${facet.yes ? "It has a primordial facet: part of its surface is the first cube’s." : "It has no primordial facet."}</p>
    </article>`;
}

function sheetOf(desk, pieces) {
    const { live, step, look, radius } = desk;
    return `<header class="sheethead"><div><h2>Sheet for the mould shop</h2>
        <p>${pieces.length} ${pieces.length === 1 ? "piece" : "pieces"} of ${tableOf(desk)}.
        Three numberings, never one for another: ${tag("v")} a vertex, ${tag("E")} an element, ${tag("h")} a hyperplane.</p></div>
        <dl class="sign"><div><dt>Date</dt><dd></dd></div><div><dt>Signed</dt><dd></dd></div></dl></header>
        ${promiseOf(desk)}${warningsOf(desk)}${areaTable(live, pieces)}${pieces.map(e => piece(live, step.shapes, e, live.cornerElements(), look, radius)).join("") || "<p>No piece is chosen.</p>"}
        <footer>${originOf(desk)}
        <p>Coordinates are the shortest decimals that read back as the same numbers, to the last bit.</p></footer>`;
}

// worked out only when it is in sight or printed; an old sheet is never there to be signed
const left = new Set();
let [isOld, isSeen] = [true, false];

function show(desk) {
    isOld = false;
    if (!desk.stands) {
        $("sheet").innerHTML = "<p>There is no table, so there is no sheet.</p>";
        return $("choice").replaceChildren();
    }
    const { pieces } = desk.bench;
    const choice = e => `<label><input type="checkbox" data-piece="${e}"${left.has(e) ? "" : " checked"}> ${tag("E", e)}</label>`;
    $("choice").innerHTML = pieces.map(choice).join(" ");
    $("sheet").innerHTML = sheetOf(desk, pieces.filter(e => !left.has(e)));
}

export const sheet = {
    wire(desk) {
        new IntersectionObserver(([{ isIntersecting }]) => {
            isSeen = isIntersecting;
            if (isSeen && isOld) show(desk);
        }, { rootMargin: "200px" }).observe($("sheetpart"));
        addEventListener("beforeprint", () => isOld && show(desk));
        $("print").onclick = () => print();
        $("choice").onchange = ({ target }) => {
            const e = Number(target.dataset.piece);
            if (target.checked) left.delete(e);
            else left.add(e);
            show(desk);
            $("choice").querySelector(`[data-piece="${e}"]`).focus();
        };
    },

    changed(desk) {
        isOld = true;
        if (desk.step?.record.kind !== "cut") left.clear();
        if (isSeen) show(desk);
        else for (const id of ["sheet", "choice"]) $(id).replaceChildren();
    },
};
