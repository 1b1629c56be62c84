// The areas of flat pieces, for the sheet: the engine's whole numbers, and the same numbers as decimals, with every digit.
import { tag } from "./dom.js";
import { MOST_PIECES } from "./engine.js";
import { REFUSALS } from "./words.js";

const HALVINGS = 21; // of an area of 1: its unit is 1/2^20, and it is given twice

// a whole number of such parts has no more digits behind the point than halvings
export function decimal(parts) {
    const digits = String(parts * 5n ** BigInt(HALVINGS)).padStart(HALVINGS + 1, "0");
    const [before, behind] = [digits.slice(0, -HALVINGS), digits.slice(-HALVINGS).replace(/0+$/, "")];
    return behind === "" ? before : `${before}.${behind}`;
}

// each piece by itself, so that one that is refused takes no other with it; the sum is asked of all that are not, a list at a time
export function areasOf(table, pieces) {
    const each = pieces.map(e => ({ e, ...table.ask("areas", [e]) }));
    const given = each.filter(({ number }) => number === 0).map(({ e }) => e);
    let sizes = 0n;
    for (let i = 0; i < given.length; i += MOST_PIECES) sizes += table.ask("areas", given.slice(i, i + MOST_PIECES)).sizes;
    return { each, given: given.length, sizes };
}

function row({ e, number, areas: [area] = [] }) {
    if (number !== 0) return `<tr class="noarea"><td>${tag("E", e)}</td><td colspan="2">refused ${number}: ${REFUSALS[number]}</td></tr>`;
    return `<tr><td>${tag("E", e)}</td><td class="exact">${decimal(area < 0n ? -area : area)}</td><td class="exact">${area}</td></tr>`;
}

// in two dimensions, of the pieces on the sheet
export function areaTable(table, pieces) {
    if (table.dimension !== 2 || pieces.length === 0) return "";
    const { each, given, sizes } = areasOf(table, pieces);
    const name = given === pieces.length ? "all" : `${given} of ${pieces.length}`;
    return `<table class="areas"><caption>Areas, exactly</caption>
        <thead><tr><th scope="col">piece</th><th scope="col">area</th><th scope="col">twice, signed, in 1/1,048,576</th></tr></thead>
        <tbody>${each.map(row).join("")}</tbody>
        <tfoot><tr><th scope="row">${name}</th><td class="exact">${decimal(sizes)}</td><td class="exact">${sizes}</td></tr></tfoot></table>
        <p class="check">The sign is that of the walk: positive where it turns from x towards y. The last line adds sizes, without signs.</p>`;
}
