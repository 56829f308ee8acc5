// Breakpoints in the margins of the cells, and the line at which the board's program is stopped.
import {pathOf} from "../shared.js";
import {debug, isOpen} from "./board.js";
import {tell} from "./message.js";

/** The innermost frame of the program, if it is stopped. */
export const stop = {frame: null};

// What the debugger said last, and the number of the last look.
let info = null, looks = 0;

const linesOf = path => {
    const found = info && info.breakpoints.find(each => each.source === path);
    return found ? found.breakpoints.map(each => each.line) : [];
};

/** Asks the board for its breakpoints and for a stop, and shows them in these cells. */
export async function lookAt(cells) {
    const mine = ++looks, found = await debug("debugInfo"), isStopped = found.stoppedThreads.length > 0;
    const {stackFrames} = isStopped ? await debug("stackTrace", {threadId: 1, levels: 1}) : {stackFrames: []};
    if (mine !== looks) return;
    info = found;
    stop.frame = stackFrames[0] || null;
    showIn(cells);
}

/** Shows what is known of breakpoints, and of a stop, in these cells. */
export function showIn(cells) {
    const at = stoppedCell(cells);
    for (const cell of cells) {
        const current = cell === at ? stop.frame.line : 0, breaks = new Set(info ? linesOf(pathOf(cell.text, info)) : []);
        const {current: before, breaks: others} = cell.field.marks, isSame = [...breaks].join() === [...others].join();
        if (!isSame || current !== before) cell.field.mark({breaks, current});
        if (before !== current) cell.showStop(current);
    }
}

/** The cell in which the program is stopped: of those with its text the one that runs. */
function stoppedCell(cells) {
    if (!info || !stop.frame || !stop.frame.source) return null;
    const equal = cells.filter(cell => pathOf(cell.text, info) === stop.frame.source.path);
    return equal.find(cell => cell.isBusy) || equal[0] || null;
}

/** Forgets what the board before had. */
export function forgetStops(cells) {
    ++looks;
    info = stop.frame = null;
    showIn(cells);
}

let last = Promise.resolve();

/** Sets a breakpoint on a line of a cell, or removes it, and switches the debugger on. A text's breakpoints are read before they
 *  are set, so that those of other pages stay. */
export function toggle(cell, line, cells) {
    last = last.then(() => change(cell.text, line)).then(() => lookAt(cells)).catch(tellWhy);
}

async function change(text, line) {
    if (!isOpen()) throw new Error("the board isn't there");
    const {sourcePath} = await debug("dumpCell", {code: text});
    info = await debug("debugInfo");
    if (!info.isStarted) await debug("attach");
    const before = linesOf(sourcePath), lines = before.includes(line) ? before.filter(each => each !== line) : [...before, line];
    const breakpoints = lines.sort((one, other) => one - other).map(each => ({line: each}));
    await debug("setBreakpoints", {source: {path: sourcePath}, breakpoints});
}

/** Says why the board refused something. One that has gone on meanwhile is looked at again. */
export function tellWhy(fault) {
    if (fault.message !== "Lost" && fault.message !== "NotStopped") tell(`The board refused it: ${fault.message}`);
}
