// The registers and flags after a cell's run, or where it is stopped, below the cell: where the panel isn't beside the text, or a
// browser can't share a board with the panel's window.
import {hexadecimal, make, numberOf} from "../panel/dom.js";
import {debug} from "./board.js";

const shown = make("p", {className: "registers", role: "group", "aria-label": "Registers and flags"});

const WORDS = new Set(["SP", "PC"]);

// The values that were shown last, and the number of the last look.
let before = {}, looks = 0;

const values = reference => debug("variables", {variablesReference: reference}).then(body => body.variables);

function entry(name, value) {
    const className = name in before && before[name] !== value ? "changed" : "";
    return make("span", {className}, `${name}\u00A0`, make("b", {}, value));
}

/** Shows them below a cell, with what has changed since they were shown last, and below no other. */
export async function showRegisters(cell) {
    const mine = ++looks, [registers, flags] = await Promise.all([values(1), values(2)]);
    if (mine !== looks) return;
    const named = registers.map(({name, value}) => [name, hexadecimal(numberOf(value), WORDS.has(name) ? 4 : 2)]);
    const all = [...named, ...flags.map(({name, value}) => [name, value])];
    shown.replaceChildren(...all.map(each => entry(...each)));
    cell.output.element.append(shown);
    before = Object.fromEntries(all);
}

/** Takes them away, as the board is gone. */
export function hideRegisters() {
    ++looks;
    before = {};
    shown.remove();
}
