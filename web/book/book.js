// A lesson's page: its cells over one board, what is kept of them, and the panel beside them.
import {ask, byId, make, readSetting, saveSetting} from "../panel/dom.js";
import {on} from "../panel/signals.js";
import {board, interrupt, isOpen, newBoard, openBoard} from "./board.js";
import {Cell} from "./cell.js";
import {listenToCards} from "./hover.js";
import {forgetLesson, keepRight, keepText, keptOf} from "./kept.js";
import {forgetStops, lookAt, showIn, stop, tellWhy, toggle} from "./margin.js";
import {tell} from "./message.js";
import {hideRegisters, showRegisters} from "./registers.js";
import {keepSite} from "./site.js";

const LESSON = document.documentElement.dataset.lesson;

// ---- the cells

const cells = [];

// The cell that ran last.
let last = null;

const textsOf = some => some.map(each => each.text);

const above = cell => cells.slice(0, cells.indexOf(cell));

const newAbove = cell => above(cell).filter(each => each.lastBoard !== board.number);

const page = {
    around: cell => ({above: textsOf(above(cell)), below: textsOf(cells.slice(cells.indexOf(cell) + 1))}),
    isAboveNew: cell => newAbove(cell).length > 0,
    runAbove(cell) {
        for (const each of [...newAbove(cell), cell]) each.run();
    },
    goOn(cell) {
        const next = cells[cells.indexOf(cell) + 1];
        if (next) next.focus();
    },
    keep(cell) {
        keepSoon(cell);
        showIn([cell]);
    },
    judged(cell, isRight) {
        const number = Number(cell.id.split("-")[1]);
        tellOnce(keepRight(LESSON, number, isRight));
        if (isRight) cell.output.praise(`Exercise ${number} is right.`);
        else cell.output.say(`Exercise ${number} is not right yet.`);
        showDone();
    },
    toggle: (cell, line) => toggle(cell, line, cells),
    begun(cell) { last = cell; },
    changed: () => showState(),
};

// ---- what the browser keeps

// Milliseconds after a change until it is kept.
const PAUSE = 300;

const changed = new Set(), told = new Set();
let timer = 0;

function keepSoon(cell) {
    changed.add(cell);
    clearTimeout(timer);
    timer = setTimeout(keepAll, PAUSE);
}

function keepAll() {
    clearTimeout(timer);
    for (const cell of changed) tellOnce(keepText(LESSON, cell.id, cell.isChanged() ? cell.text : null));
    changed.clear();
    showForget();
}

/** Says why something isn't kept, once for each reason. */
function tellOnce(why) {
    if (why && !told.has(why)) tell(`${why}: it is lost when this page is closed`);
    told.add(why);
}

function restoreTexts() {
    const {texts} = keptOf(LESSON);
    for (const cell of cells) cell.take(texts[cell.id]);
}

/** The heading above an element, or the element if there is none. */
function headingOf(element) {
    let at = element;
    while (at && !/^H[1-6]$/.test(at.tagName)) at = at.previousElementSibling;
    return at || element;
}

/** Marks the exercises that are right at their headings, and counts them. */
function showDone() {
    const {right} = keptOf(LESSON), exercises = document.querySelectorAll("[data-kind=exercise]");
    for (const each of exercises) {
        const number = Number(each.dataset.cell.split("-")[1]);
        headingOf(each).classList.toggle("right", right.includes(number));
    }
    byId("done").textContent = right.length > 0 ? `${right.length} of ${exercises.length} exercises are right.` : "";
    showForget();
}

function showForget() {
    const {texts, right} = keptOf(LESSON);
    byId("forget").hidden = right.length === 0 && Object.keys(texts).length === 0;
}

async function forget() {
    if (!await ask("This drops your texts of this lesson, and which of its exercises are right.", "Forget it")) return;
    changed.clear();
    if (!forgetLesson(LESSON)) tell("The browser refused to forget the lesson");
    for (const cell of cells) cell.take();
    showIn(cells);
    showDone();
}

// ---- the board

function showState() {
    const isRunning = cells.some(each => each.hasBegun), {frame} = stop;
    const stopped = frame && (frame.line ? `stopped at line ${frame.line}` : "stopped");
    const text = board.said || stopped || (isRunning ? "running" : "idle");
    if (byId("state").textContent !== text) byId("state").textContent = text;
    byId("end").disabled = !isRunning && !stopped;
    byId("state").className = board.said ? "lost" : stopped ? "stopped" : isRunning ? "running" : "";
}

async function look() {
    if (isOpen()) await lookAt(cells).catch(tellWhy);
    showState();
    if (isOpen() && last) await showRegisters(last).catch(tellWhy);
}

async function startAnew() {
    const isSure = await ask("A new board has empty memory and knows no labels and breakpoints. Your texts stay.", "New board");
    if (isSure) await newBoard();
}

// ---- the panel

const addressOfPanel = () => {
    const address = new URL("../index.html", location.href);
    address.search = new URLSearchParams({kernel: board.kernel, beside: 1});
    return address.href;
};

// Windows with room for the panel beside the text.
const wide = matchMedia("(min-width: 1000px)");

let isWanted = readSetting("lessons: panel") === true;

/** Shows the panel on the right of the text if it is wanted and there is room, else takes it away. */
function showPanel() {
    const panel = byId("panel"), frame = panel.firstChild, src = addressOfPanel();
    const isShown = isWanted && wide.matches && board.kernel !== "";
    byId("beside").setAttribute("aria-pressed", isWanted);
    document.body.classList.toggle("with-panel", isShown);
    panel.hidden = !isShown;
    if (!isShown) panel.replaceChildren();
    else if (!frame || frame.src !== src) panel.replaceChildren(make("iframe", {src, title: "Front panel"}));
}

function turnPanel() {
    isWanted = !isWanted;
    saveSetting("lessons: panel", isWanted);
    showPanel();
}

function followBoard() {
    byId("to-panel").href = addressOfPanel();
    byId("to-panel").target = `lab80-panel-${board.kernel}`;
    showPanel();
    if (board.said) forgetAll();
    else takeUp();
    showState();
}

function forgetAll() {
    last = null;
    hideRegisters();
    forgetStops(cells);
}

/** Runs the cells that have waited for the board. */
function takeUp() {
    for (const cell of cells) if (cell.isDue) cell.run();
    look();
}

// ---- the beginning

cells.push(...[...document.querySelectorAll(".cell")].map(section => new Cell(section, page)));
restoreTexts();
showDone();
byId("forget").onclick = forget;
byId("end").onclick = interrupt;
byId("new-board").onclick = startAnew;
byId("beside").onclick = turnPanel;
wide.onchange = showPanel;
for (const id of ["controls", "help"]) byId(id).hidden = false;
listenToCards();
on("board", followBoard);
on("stop", look);
addEventListener("pagehide", keepAll);
document.addEventListener("visibilitychange", () => document.hidden && keepAll());
// a page that comes back from the browser's memory has lost its board
addEventListener("pageshow", event => event.persisted && location.reload());
await keepSite();
openBoard();

// The page's parts, for the browser's console and for tests.
globalThis.lab80 = {board, cells};
