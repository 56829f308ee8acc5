// Says of a run that doesn't end soon how to end it, or that it has left its program.
import {ASTRAY, isAstray} from "../errors.js";
import {debug} from "./board.js";
import {stop} from "./margin.js";

// Milliseconds after which that is said.
const LONG_RUN = 3000;

// The watched cells, each with its timer, and whether something was said of its run.
const watched = new Map();

export function watchRun(cell) {
    endWatch(cell);
    // without a board there is nothing to say, which the page says itself
    const timer = setTimeout(() => sayRuns(cell).catch(() => {}), LONG_RUN);
    watched.set(cell, {timer, hasSaid: false});
}

export function endWatch(cell) {
    const {timer, hasSaid} = watched.get(cell) || {};
    clearTimeout(timer);
    watched.delete(cell);
    if (hasSaid) cell.output.say("");
}

/** The address of the next instruction, as requests name it. */
async function place() {
    const {variables} = await debug("variables", {variablesReference: 1});
    return "0x" + variables.find(each => each.name === "PC").value.slice(-5, -1);
}

/** One that is stopped, or asks for a line, is left alone. */
async function sayRuns(cell) {
    const isLeft = () => stop.frame !== null || cell.output.form;
    if (document.hidden || isLeft()) return watchRun(cell);
    const before = await place(), {instructions} = await debug("disassemble", {memoryReference: before, instructionCount: 24});
    // one that waits for a button is where it was
    const hasLeft = await place() !== before && isAstray(instructions, cell.lastText);
    const mine = watched.get(cell);
    if (!mine || isLeft()) return;
    mine.hasSaid = true;
    cell.output.say(`${hasLeft ? ASTRAY : "It still runs."} The square ends the run.`);
}
