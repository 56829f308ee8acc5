// The cell's lines, drawn behind its field where they are in view: coloured, with a margin for breakpoints, the place of an error,
// and the line at which the program is stopped. The field's own letters are transparent.
import {board, shownBoard, view} from "./board.js";
import {byId, make} from "./dom.js";
import {later} from "./language.js";
import {marksOfCell, stoppedPath, theCell, toggleMark} from "./marks.js";
import {on} from "./signals.js";
import {choose, chosenLine, coloured, marginOf, markMargin} from "./texts.js";

// The most characters of a line in a coloured text. Another text keeps its own letters.
const MOST_COLUMNS = 2000;

const WAITS = later("Breakpoint on line {0}, which is set when the cell is run");

// The drawn lines, each {line, margin, code, drawn}; the words on an error; the lines of the text that was drawn, and whether they
// are coloured; the stop that was brought into view; and the line whose margin Tab leads to, if it is in view.
const rows = new Map(), shown = {words: null, lines: null, isColoured: true, stop: "", tab: 1};

/** Draws the lines that are in view. */
export function drawCell() {
    const {lines, path} = theCell(), field = byId("cell"), height = lineHeight(field, lines.length), above = padding(field);
    if (shown.lines !== lines) noteLines(lines);
    const first = Math.max(1, Math.floor((field.scrollTop - above) / height) + 1);
    const last = Math.min(lines.length, Math.ceil((field.scrollTop + field.clientHeight) / height));
    place(first, last);
    const marks = new Set(marksOfCell()), current = currentLine(path), tab = rows.has(shown.tab) ? shown.tab : first;
    for (const [at, row] of rows) {
        markMargin(row.margin, at, marks.has(at), marks.has(at) && path === null ? WAITS : "");
        row.margin.tabIndex = at === tab ? 0 : -1;
        drawLine(row, at === current, board.stopped && isChosen(path, at));
        drawText(row, lines[at - 1], shown.words && shown.words.line === at ? shown.words : null);
    }
    const {style} = byId("coloured");
    style.setProperty("--height", `${height}px`);
    style.setProperty("--left", `${-field.scrollLeft}px`);
    style.transform = `translateY(${above + (first - 1) * height - field.scrollTop}px)`;
}

function noteLines(lines) {
    Object.assign(shown, {lines, isColoured: lines.every(each => each.length <= MOST_COLUMNS)});
    byId("cell").classList.toggle("over-colours", shown.isColoured);
    byId("editor").style.setProperty("--digits", Math.max(2, String(lines.length).length));
}

const padding = field => parseFloat(getComputedStyle(field).paddingTop);

/** The height of a line. In a zoomed page the field rounds it, which a long text shows. */
function lineHeight(field, count) {
    const wanted = parseFloat(getComputedStyle(field).lineHeight), all = field.scrollHeight - 2 * padding(field);
    return field.scrollHeight > field.clientHeight && Math.abs(all - count * wanted) > wanted ? all / count : wanted;
}

/** Makes rows for these lines, in their order, and removes the others. A focus on one of those goes to the nearest line. */
function place(first, last) {
    const focused = [...rows].find(([, {margin}]) => margin === document.activeElement);
    for (const [at, {line}] of [...rows]) {
        if (at >= first && at <= last) continue;
        line.remove();
        rows.delete(at);
    }
    let next = byId("coloured").firstElementChild;
    for (let at = first; at <= last; ++at) {
        if (!rows.has(at)) rows.set(at, rowOf(at));
        const {line} = rows.get(at);
        if (line === next) next = next.nextElementSibling;
        else byId("coloured").insertBefore(line, next);
    }
    if (!focused || rows.has(focused[0]) || rows.size === 0) return;
    rows.get(Math.max(first, Math.min(last, focused[0]))).margin.focus({preventScroll: true});
}

function rowOf(at) {
    const margin = marginOf(at, () => toggleMark(at)), code = make("code", {"aria-hidden": "true"});
    const line = make("div", {className: "line", "data-line": at}, margin, code);
    margin.addEventListener("focus", () => chooseInCell(at));
    return {line, margin, code, drawn: []};
}

function drawLine({line}, isCurrent, isLineChosen) {
    line.classList.toggle("current", isCurrent);
    line.classList.toggle("chosen", isLineChosen);
    if (isCurrent) line.setAttribute("aria-current", "true");
    else line.removeAttribute("aria-current");
}

function drawText(row, text, words) {
    const drawn = [text, words, shown.isColoured];
    if (drawn.every((each, part) => each === row.drawn[part])) return;
    row.code.replaceChildren(...partsOf(text, words));
    row.drawn = drawn;
}

/** What is drawn of a line. Of a text that keeps its own letters that is the place of an error alone. */
function partsOf(text, words) {
    const draw = shown.isColoured ? coloured : part => [part];
    if (!words) return shown.isColoured ? [make("span", {}, ...draw(text))] : [];
    const {from, to} = words, mark = make("mark", {}, text.slice(from - 1, to - 1) || " ");
    return [make("span", {className: "bad-line"}, ...draw(text.slice(0, from - 1)), mark, ...draw(text.slice(to - 1)))];
}

/** The line at which the program is stopped, or was at the past stop that is shown, if the cell's text is what ran; else 0. */
const currentLine = path => path !== null && path === stoppedPath() ? shownBoard().frame.line : 0;

/** Brings the current line into view when it is another one than before. */
function follow() {
    const current = currentLine(theCell().path), stop = JSON.stringify([current, board.stops, view.past && view.past.number]);
    if (current > 0 && stop !== shown.stop) showLine(current);
    shown.stop = stop;
    drawCell();
}

/** Marks an error's place, given in words, or none. */
export function markPlace(words) {
    shown.words = words;
    if (words) showLine(words.line);
    drawCell();
}

/** Scrolls the field to a line that isn't in view. */
function showLine(at) {
    const field = byId("cell"), height = lineHeight(field, theCell().lines.length), top = (at - 1) * height;
    if (top < field.scrollTop || top + 2 * height > field.scrollTop + field.clientHeight) field.scrollTop = top - 2 * height;
}

// ---- the caret, and the keys of the margin

/** The line of the caret. */
export function caretLine() {
    const {selectionStart: until} = byId("cell"), {text} = theCell();
    let line = 1;
    for (let at = text.indexOf("\n"); at >= 0 && at < until; at = text.indexOf("\n", at + 1)) ++line;
    return line;
}

function chooseInCell(at) {
    const {path} = theCell();
    if (path !== null && !isChosen(path, at)) choose(path, at);
    shown.tab = at;
    drawCell();
}

const isChosen = (path, at) => path !== null && chosenLine.path === path && chosenLine.line === at;

const STEPS = {ArrowUp: -1, ArrowDown: 1, PageUp: -10, PageDown: 10, Home: -Infinity, End: Infinity};

function onKey(event) {
    const step = STEPS[event.key], line = event.target.closest(".line");
    if (step === undefined || !line) return;
    event.preventDefault();
    const at = Math.max(1, Math.min(theCell().lines.length, Number(line.dataset.line) + step));
    showLine(at);
    drawCell();
    rows.get(at).margin.focus({preventScroll: true});
}

/** The wheel scrolls the field above its margin too. */
function onWheel(event) {
    const field = byId("cell"), before = field.scrollTop, unit = event.deltaMode === 1 ? lineHeight(field, 1) : 1;
    field.scrollTop += event.deltaY * unit;
    if (field.scrollTop !== before) event.preventDefault();
}

export function listenToLines() {
    const field = byId("cell"), margin = byId("behind");
    field.addEventListener("scroll", drawCell);
    for (const event of ["click", "keyup", "focus"]) field.addEventListener(event, () => board.stopped && chooseInCell(caretLine()));
    // from the caret's line to its margin
    field.addEventListener("keydown", event => event.key === "Tab" && event.shiftKey && chooseInCell(caretLine()));
    margin.addEventListener("keydown", onKey);
    margin.addEventListener("wheel", onWheel, {passive: false});
    new ResizeObserver(() => { shown.stop = ""; follow(); }).observe(field);
}

for (const signal of ["source", "texts", "looked", "forget", "state"]) on(signal, follow);
