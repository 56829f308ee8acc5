// The texts of a board whose program began before this page was there, where the browser has no other page of it, as a teacher's
// hasn't: those cells of the board's notebook, as it was saved last, that the kernel has too.
import {instructionAt, pathOf} from "../shared.js";
import {board, register} from "./board.js";
import {numberOf} from "./dom.js";
import {Refusal, line} from "./line.js";
import {inTurn} from "./queue.js";
import {transport} from "./transport.js";

// The most cells of a notebook that are considered, and the most that the kernel is asked for.
const MOST_CELLS = 200, MOST_ASKED = 50;

/** The texts, each [path, text, count], the newest first, and before them that of the program that runs; none if they can't be
 *  had. */
export async function savedTexts() {
    try {
        const found = await keptByKernel(await savedCells()), now = atPc(found);
        return now ? [now, ...found.filter(each => each !== now)] : found;
    } catch (fault) {
        if (fault instanceof Refusal) return [];
        throw fault;
    }
}

/** The text with the most instructions in a row that stand in memory around PC; of several the newest. */
function atPc(found) {
    const pc = register("PC"), at = board.code.findIndex(each => numberOf(each.address) === pc);
    if (at < 0) return null;
    const code = board.code.map(each => operationsOf(each.instruction)[0] || "");
    const lengths = found.map(([, text]) => longest(operationsOf(text), code, at)), most = Math.max(0, ...lengths);
    return most > 0 ? found[lengths.indexOf(most)] : null;
}

const operationsOf = text => text.split("\n").flatMap(each => {
    const found = instructionAt(each, 0);
    return found ? [found.text.toUpperCase()] : [];
});

/** The length of the longest row of words that is in both lists and has this place of the second one. */
function longest(words, code, at) {
    let most = 0;
    for (let from = 0; from < words.length; ++from) {
        let after = 0, before = 0;
        while (at + after < code.length && words[from + after] === code[at + after]) ++after;
        while (after > 0 && before < Math.min(from, at) && words[from - before - 1] === code[at - before - 1]) ++before;
        most = Math.max(most, after + before);
    }
    return most;
}

/** The code cells of the board's notebook, each {text, count}, those first that ran last. One that runs has no count. Empty cells
 *  are left out: the kernel has the empty text in any case. */
async function savedCells() {
    const cells = await transport.cells(line.kernel);
    const code = cells.slice(0, MOST_CELLS).filter(each => each.cell_type === "code" && String(each.source).trim());
    const found = code.map(({source, execution_count: count}) => ({text: String(source), count: count || 0}));
    return found.reverse().sort((one, other) => (other.count || Infinity) - (one.count || Infinity) || 0);
}

/** The texts among these cells that the kernel has, each [path, text, count]. */
async function keptByKernel(cells) {
    if (cells.length === 0) return [];
    const info = await inTurn("debugInfo"), found = new Map();
    if (info.hashMethod !== "Murmur2") return [];
    for (const {text, count} of cells.slice(0, MOST_ASKED)) {
        const path = pathOf(text, info);
        if (!found.has(path) && await isKept(path, text)) found.set(path, [path, text, count]);
    }
    return [...found.values()];
}

/** Whether the kernel has a text. It is asked by the path, so that it keeps none that it doesn't have. */
const isKept = (path, text) => inTurn("source", {source: {path}}).then(({content}) => content === text, fault => {
    if (fault.message === "NoSource") return false;
    throw fault;
});
