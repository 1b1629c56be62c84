// Four dimensions, facet by facet: each boundary element of the chosen piece drawn in its own three dimensions, with the cut in it.
import { $, tag } from "./dom.js";
import { Eye } from "./eye.js";
import { dot } from "./plane.js";
import { solid } from "./pieces.js";
import { ask } from "./session.js";
import { Shapes } from "./shapes.js";
import { isAnswered } from "./scene.js";
import { path } from "./svg.js";

const SIZE = 104;

// the parts of a facet that the cut leaves, each asked of the copy in which the cut is made
function parts(desk, facet) {
    const reply = ask(desk.trial, { ...desk.preview.record, root: facet });
    if (reply.number !== 0) return { drawn: [{ e: facet, look: "other" }], face: null };
    if (reply.flush) return { drawn: [{ e: facet, look: "flush" }], face: null };
    const sides = ["inside", "outside"].filter(name => reply[name] !== null).map(name => ({ e: reply[name], look: name }));
    return { drawn: [{ e: facet, look: "ghost" }, ...sides], face: reply.face };
}

// `name` stands before its number
function figure({ table, shapes, look, radius }, facet, { drawn, face, name = "" }) {
    const { hyperplane } = table.element(facet);
    const eye = new Eye({ ...look, apart: 0, dimension: 3, radius, width: SIZE, height: SIZE, zoom: 1.05 });
    const basis = shapes.basis(facet);
    const shift = basis.map(way => -dot(way, shapes.middle(facet)));
    const bodies = drawn.map(({ e, look }) => solid({ shapes, eye, face }, { e, look, body: facet }, shift)).join("");
    const loop = face !== null && table.rank(face) === 2 ? shapes.loop(face).map(v => basis.map(way => dot(way, table.vertex(v)))) : [];
    const cut = loop.length ? `<g class="cutface"><path class="area" d="${path(loop.map(p => eye.paper(p, shift)))}"/></g>` : "";
    const box = [-SIZE / 2, -SIZE / 2, SIZE, SIZE].join(" ");
    return `<li data-e="${facet}"><svg class="drawing" viewBox="${box}" aria-hidden="true">${bodies}${cut}</svg>` +
        `<span>${name}${tag("E", facet)} in ${tag("h", hyperplane)}</span></li>`;
}

function draw(desk) {
    const { live, trial, aim, step, look, radius } = desk;
    const isShown = live.dimension === 4 && live.isFull(aim.root);
    $("facets").hidden = !isShown;
    if (!isShown) return $("facets").replaceChildren();
    const isAimed = isAnswered(desk);
    const table = isAimed ? trial : live;
    const facets = table.element(aim.root).boundary;
    const found = facets.map(facet => (isAimed ? parts(desk, facet) : { drawn: [{ e: facet, look: "plainpiece" }], face: null }));
    const shown = { table, shapes: isAimed ? new Shapes(trial, step.shapes) : step.shapes, look, radius };
    const face = isAimed ? desk.preview.reply.face : null;
    const isBody = face !== null && table.rank(face) === 3 && !facets.includes(face);
    const first = isBody ? figure(shown, face, { drawn: [{ e: face, look: "flush" }], face: null, name: "face of the cut " }) : "";
    $("facets").innerHTML = first + facets.map((facet, i) => figure(shown, facet, found[i])).join("");
}

export const facets = { changed: draw, aimed: draw, looked: draw };
