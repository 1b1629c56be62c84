// The plane's fields: normal, angles, distance, the sides kept and the root, and what the cut would answer.
import { $, html, tag } from "./dom.js";
import { fits } from "./engine.js";
import { NoRecord, float, plain } from "./session.js";
import { ADVICE, closely, nearest } from "./close.js";
import { anglesOf, dot, normalOf, settleDistance, unit } from "./plane.js";
import { AXES } from "./words.js";
import { briefly } from "./meaning.js";

// a number may be written as a fraction
export function number(text) {
    const [above, below, ...rest] = text.replace("−", "-").split("/");
    if (rest.length > 0) throw new NoRecord(`${text} is no number`);
    return below === undefined ? float(above) : float(above) / float(below);
}

const ANGLES = { 2: ["turn"], 3: ["heading", "tilt"] };

function makeFields(dimension) {
    const field = (name, data, size) => `<label>${name} <input ${data} inputmode="decimal" size="${size}"></label>`;
    $("normal").innerHTML = AXES.slice(0, dimension).map((axis, i) => field(axis, `data-axis="${i}"`, 7)).join(" ");
    $("angles").innerHTML = (ANGLES[dimension] ?? []).map((name, i) => field(`${name} °`, `data-angle="${i}"`, 5)).join(" ");
    $("anglefield").hidden = !(dimension in ANGLES);
}

// what is being written stays
function setValue(input, text) {
    if (document.activeElement === input) return;
    input.value = text;
    input.removeAttribute("aria-invalid");
}

function showFields({ live, aim, radius }) {
    if ($("normal").children.length !== live.dimension) makeFields(live.dimension);
    $("normal").querySelectorAll("input").forEach((input, i) => setValue(input, plain(aim.normal[i])));
    const angles = live.dimension in ANGLES ? anglesOf(aim.normal) : [];
    $("angles").querySelectorAll("input").forEach((input, i) => setValue(input, String(Number(angles[i].toFixed(3)))));
    setValue($("distance"), plain(aim.distance));
    const far = 1.75 * radius;
    Object.assign($("slide"), { min: -far, max: far });
    $("slide").value = Number.isFinite(aim.distance) ? aim.distance : Math.sign(aim.distance) * far;
    document.querySelectorAll("input[name=kept]").forEach(input => (input.checked = input.value === aim.kept));
    setValue($("root"), Number.isNaN(aim.root) ? "" : String(aim.root));
}

function showPreview({ preview, aim }) {
    $("wouldline").textContent = preview?.line ?? "";
    $("cut").disabled = !preview || !fits(aim.root, 16);
    $("makeunit").hidden = !(preview?.reply.number === 5 && aim.normal.every(Number.isFinite));
    if (!preview) return $("wouldsay").replaceChildren();
    const more = fits(aim.root, 16) ? "" : " A record has two bytes for this number, so it cannot be made.";
    $("wouldsay").innerHTML = html(briefly(preview) + more);
}

// what is said already is not said again, for those who listen
let warned = "";

function showWarning({ preview, aim }) {
    const isClose = aim.aiming && preview?.reply.warning;
    const words = isClose ? `${closely(preview.close)} ${ADVICE}` : "";
    if (words !== warned) $("warns").innerHTML = html(warned = words);
    $("onto").hidden = !isClose;
    if (isClose) $("onto").innerHTML = `onto ${tag("v", nearest(preview.close).v)}`;
}

// what the fields say, as a change of what is aimed at
function read(target, desk) {
    const { aim, radius } = desk;
    const { axis, angle } = target.dataset;
    if (axis !== undefined) return { normal: aim.normal.map((x, i) => (i === Number(axis) ? number(target.value) : x)) };
    if (angle !== undefined) return { normal: normalOf([...$("angles").querySelectorAll("input")].map(input => number(input.value))) };
    if (target.id === "distance") return { distance: number(target.value) };
    if (target.id === "slide") return { distance: settleDistance(Number(target.value), radius) };
    if (target.name === "kept") return { kept: target.value };
    return { root: /^\d+$/.test(target.value.trim()) ? Number(target.value) : NaN };
}

export const aim = {
    wire(desk) {
        $("aim").onsubmit = event => {
            event.preventDefault();
            desk.cut();
        };
        $("aim").oninput = ({ target }) => {
            try {
                target.removeAttribute("aria-invalid");
                desk.aimAt(read(target, desk));
            } catch (error) {
                if (!(error instanceof NoRecord)) throw error;
                target.setAttribute("aria-invalid", "true");
            }
        };
        // a field that is left shows what is aimed at
        $("aim").addEventListener("focusout", () => setTimeout(() => showFields(desk)));
        $("makeunit").onclick = () => desk.aimAt({ normal: unit(desk.aim.normal) });
        $("onto").onclick = () => {
            $("cut").focus();
            desk.aimAt({ distance: dot(desk.aim.normal, desk.live.vertex(nearest(desk.preview.close).v)) });
        };
    },

    changed(desk) {
        this.aimed(desk);
    },

    aimed(desk) {
        if (desk.stands) showFields(desk);
        showPreview(desk);
        showWarning(desk);
    },
};
