// The cell's text as debuggers know it, and its breakpoints. The board keeps those of a text that it has. Those of a text that was
// edited since wait here: they move with their lines, and are set when the cell is run.
import {board, keepText, known, view} from "./board.js";
import {attach, attempt, changeBreakpoints, toggleBreakpoint} from "./commands.js";
import {byId, readSetting, saveSetting, turns} from "./dom.js";
import {t} from "./language.js";
import {debug} from "./line.js";
import {lookSoon} from "./look.js";
import {isBeside} from "./server.js";
import {emit} from "./signals.js";

const cell = {text: "", lines: [""], path: null, version: -1};

// The path of the text from which the cell's was edited, with its breakpoints then, or null; and the breakpoints that wait, on
// their lines now.
const edited = {from: null, were: [], lines: []};

const NOT_EDITED = {from: null, were: [], lines: []};

/** The cell's {text, lines, path}. The path is null unless the board is known to have the text. */
export function theCell() {
    const text = byId("cell").value;
    if (text !== cell.text) noteEdit(text);
    if (cell.version !== known.version) noteTexts();
    return cell;
}

/** The path of the text that was read last, which may have been edited since. */
export const lastPath = () => cell.path;

function noteEdit(text) {
    const lines = text.split("\n"), were = marksOfCell();
    if (cell.path !== null) Object.assign(edited, {from: cell.path, were});
    edited.lines = moved(were, cell.lines, lines);
    Object.assign(cell, {text, lines, version: -1});
}

function noteTexts() {
    const [path = null] = [...known.texts].find(([, {text}]) => text === cell.text) || [];
    Object.assign(cell, {path, version: known.version});
    if (path !== null) Object.assign(edited, NOT_EDITED);
}

/** The lines to which an edit moves breakpoints. Those of lines that it removes are dropped. */
export function moved(marks, before, after) {
    if (marks.length === 0) return [];
    const most = Math.min(before.length, after.length);
    let head = 0, tail = 0;
    while (head < most && before[head] === after[head]) ++head;
    while (tail < most - head && before[before.length - 1 - tail] === after[after.length - 1 - tail]) ++tail;
    // a line that was changed, split, or joined with the next one keeps its own
    const isKept = before.length - tail - head < 3 && after.length - tail > head;
    return marks.filter(each => each <= head || each > before.length - tail || isKept && each === head + 1)
        .map(each => each > before.length - tail ? each + after.length - before.length : each);
}

/** The lines of the cell that have breakpoints, whether the board has them or they wait. */
export const marksOfCell = () => cell.path === null ? edited.lines : board.breakpoints.get(cell.path) || [];

// ---- what the cell shows

/** Whether the page has a cell that can be seen. */
export const showsCell = () => !isBeside && !byId("cell-section").classList.contains("folded");

/** The path of the text that is stopped, or was at the past stop that is shown; null if none is. */
export function stoppedPath() {
    const {frame} = view.past || board, source = (board.stopped || view.past !== null) && frame && frame.source;
    return source ? source.path : null;
}

/** Whether the cell's text was edited from a text. */
export const isEditedFrom = path => theCell().path === null && path !== null && path === edited.from;

// ---- setting them

const inTurn = turns();

/** Sets or takes a breakpoint of the cell. The board is given a text that it doesn't have. */
export const toggleMark = at => inTurn(() => {
    const {path} = theCell(), {lines} = edited;
    if (path !== null) return toggleBreakpoint(path, at);
    edited.lines = lines.includes(at) ? lines.filter(each => each !== at) : [...lines, at];
    emit("source");
    return edited.lines.length > 0 && attempt(t("Breakpoint on line {0}", [at]), give);
});

/** Sets the breakpoints that wait, before the cell is run. */
export const setWaiting = () => inTurn(() => theCell().path === null && edited.lines.length > 0 && attempt(t("Breakpoints"), give));

/** Gives the board the cell's text with its breakpoints. They are taken from the text from which they come, unless that still
 *  runs. */
async function give() {
    const {text} = theCell(), {from, were, lines} = edited;
    if (!board.attached) await attach();
    const {sourcePath: path} = await debug("dumpCell", {code: text});
    board.breakpoints.set(path, await changeBreakpoints(path, others => [...new Set([...others, ...lines])], {text}));
    if (known.texts.has(from) && board.running === false) {
        await changeBreakpoints(from, others => others.filter(each => !were.includes(each)));
    }
    if (!known.texts.has(path)) keepText(path, {text});
    lookSoon(0);
    emit("source");
}

// ---- over a reload

const storage = () => sessionStorage;

export const keepMarks = () => saveSetting("marks", edited, storage);

/** Takes what was kept of the cell's text. */
export function restoreMarks() {
    const {from, were, lines} = readSetting("marks", storage) || {};
    const isLines = each => Array.isArray(each) && each.every(Number.isInteger);
    theCell();
    if ((from === null || typeof from === "string") && isLines(were) && isLines(lines)) Object.assign(edited, {from, were, lines});
}
