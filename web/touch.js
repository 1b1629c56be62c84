// Whether the plane touches the chosen element: on which sides of it the corners are. The engine is asked without a cut, while the
// plane is moved; what it answers is read by the corners alone.
import { $, html } from "./dom.js";

const NAMES = { on: "all on", inside: "all inside or on", outside: "all outside or on", both: "both sides" };
const OTHER = { inside: "outside", outside: "inside" };

// for those who listen
export const spokenTouch = ({ number, sides }) => (number !== 0 ? `refused ${number}` : sides === "both" ? "corners on both sides" : `corners ${NAMES[sides]}`);

function what(table, { root, distance }, sides) {
    const E = `[E${root}]`;
    if (Math.abs(distance) === Infinity) return `Infinite distance: ${E} is ${sides}.`;
    if (table.rank(root) === 0) return `${E} is a corner, and lies ${sides === "on" ? "on the plane" : sides}.`;
    if (sides === "on") return `Every corner of ${E} lies on the plane.`;
    return sides === "both" ? `${E} has corners inside and outside.` : `No corner of ${E} is ${OTHER[sides]}.`;
}

// with how many corners were tested, for the test ends at the first with which both sides are met
const touchWords = (table, shapes, aim, { sides, tested }) => `${what(table, aim, sides)} ${tested} of ${shapes.vertices(aim.root).length} tested.`;

export const touch = {
    changed(desk) {
        this.aimed(desk);
    },

    aimed({ touch: reply, live, step, aim }) {
        if (!reply) return $("touch").replaceChildren();
        const [look, name] = reply.number === 0 ? [reply.sides, NAMES[reply.sides]] : ["none", `refused ${reply.number}`];
        const says = reply.number === 0 ? touchWords(live, step.shapes, aim, reply) : "The reason stands with the cut.";
        $("touch").innerHTML = `<b class="sides ${look}">${name}</b> ${html(says)}`;
    },
};
