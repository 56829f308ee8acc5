// Snapshots of the board, from which a new board can be restored once the kernel was started anew. One is taken when a run has
// ended or stopped, or something was changed by hand, and nothing has happened for a while. That takes some 270 requests, so there
// is at most one a minute for a board.
import {LOOKS} from "../shared.js";
import {board, known} from "./board.js";
import {byId, numberOf, passed, readSetting, saveSetting} from "./dom.js";
import {VERSION, keepBoard, newestOf} from "./kept.js";
import {Refusal, SESSION, debug, isOpen, line} from "./line.js";
import {otherPanels} from "./live.js";
import {allSymbols, variables} from "./look.js";
import {newestTexts} from "./share.js";
import {emit, on} from "./signals.js";

export const MEMORY = 65536;

// Milliseconds: between two snapshots, between a change and a snapshot, for posts that are under way, and after a snapshot that was
// given up.
const PAUSE = 60000, QUIET = 2000, SETTLES = 500, AGAIN = 15000;
// The most bytes that the kernel shows in a reply, and the most requests at once, so that others are answered in between.
const BYTES_A_REQUEST = 256, AT_ONCE = 4;

// The session of the kernel; the number of changes that were seen, the time of the last one, and the number in the last snapshot;
// whether a snapshot is being taken, the time before which the next one isn't, and how many were taken.
export const taking = {
    session: "", changes: 0, changedAt: 0, kept: 0, isBusy: false, next: 0, count: 0, timer: 0, pause: PAUSE, quiet: QUIET,
};

export const boardName = () => `${line.kernel} ${taking.session}`;

// ---- what the board tells

const CHANGING = new Set(["execute_request", "debug_request", "interrupt_request"]);

on("message", message => {
    const parent = message.parent_header || {};
    if (message.header.msg_type === "debug_reply") noteSession(message.header.session);
    if (message.channel === "iopub" && CHANGING.has(parent.msg_type) && parent.username !== LOOKS) noteChange();
});

function noteChange() {
    ++taking.changes;
    taking.changedAt = Date.now();
    takeSoon();
}

/** The first reply of another kernel says that the board is another one. */
function noteSession(session) {
    if (session === taking.session) return;
    Object.assign(taking, {session, kept: taking.changes, next: 0});
    wasUsed = false;
    emit("named", session);
}

let wasUsed = false;

on("looked", () => {
    const isFirst = !wasUsed && board.symbols.length > 0;
    wasUsed = wasUsed || isFirst;
    takeSoon();
    if (isFirst && taking.changes === taking.kept) noteUsed();
});

/** A board with symbols may have been in use before this page was opened. */
async function noteUsed() {
    const {session} = taking, newest = await newestOf(line.kernel);
    if (!isOwn(newest) && session === taking.session) noteChange();
}

/** Whether a snapshot is of this board, and not of one before it. */
const isOwn = snapshot => snapshot !== null && snapshot.session === taking.session;

// ---- when

/** Whether nothing happens by itself: no program runs, or it is stopped, or waits for a button. */
const isAtRest = () =>
    isOpen() && !document.hidden && taking.session !== "" && (board.running === false || board.stopped || board.waits);

/** Takes a snapshot once nothing has changed for a while. The more panels look at the board, the less they begin together. */
export function takeSoon() {
    clearTimeout(taking.timer);
    if (taking.changes === taking.kept || taking.isBusy || !isAtRest()) return;
    const pause = taking.quiet * (1 + Math.random() * (otherPanels() + 0.5));
    taking.timer = setTimeout(takeInTurn, Math.max(pause, taking.next - Date.now()));
}

on("state", takeSoon);
document.addEventListener("visibilitychange", takeSoon);

/**
 * The time before which no other snapshot is to be taken: pages of one browser share it, and panels elsewhere are counted, so that
 * all together take one every two minutes or so. Each uses some 600 entries of the kernel's journal.
 */
function nextTime(newest) {
    const claim = readSetting("snapshot") || {}, pause = taking.pause * Math.max(1, otherPanels() * 2);
    const isOthers = claim.board === boardName() && claim.by !== SESSION;
    return Math.max(isOwn(newest) ? newest.at + pause : 0, isOthers ? Math.min(claim.at, Date.now()) + AGAIN : 0);
}

async function takeInTurn() {
    if (taking.isBusy || !isAtRest()) return;
    taking.isBusy = true;
    try {
        await takeUnlessKept(await newestOf(line.kernel));
    } catch (fault) {
        // a lost connection, or a board that has gone on: the next rest will do
        if (!(fault instanceof Refusal)) throw fault;
        taking.next = Date.now() + AGAIN;
    } finally {
        taking.isBusy = false;
    }
    takeSoon();
}

async function takeUnlessKept(newest) {
    const next = nextTime(newest);
    if (isOwn(newest) && newest.at > taking.changedAt) taking.kept = taking.changes;
    else if (next > Date.now()) taking.next = next;
    else taking.next = Date.now() + (await take() ? taking.pause : AGAIN);
}

// ---- what

/** Keeps a snapshot. Returns whether it is whole: nothing has changed between its first request and a while after the last one. */
async function take() {
    const {changes, session} = taking, isSame = () => changes === taking.changes && session === taking.session && isAtRest();
    saveSetting("snapshot", {board: boardName(), at: Date.now(), by: SESSION});
    const memory = await allMemory(isSame);
    if (memory === null) return false;
    const [info, registers, flags, devices, symbols] = await Promise.all([debug("debugInfo"), variables(1), variables(2),
        variables(3), allSymbols()]);
    await passed(SETTLES);
    if (!isSame()) return false;
    const name = boardName(), named = {version: VERSION, name, kernel: line.kernel, session, at: Date.now()};
    await keepBoard({...named, memory, registers, flags, devices, symbols, ...surroundings(info)});
    taking.kept = changes;
    ++taking.count;
    return true;
}

/** What belongs to a board besides its machine: breakpoints, each with its text; the texts that ran, the oldest first; and what
 *  the page has set. */
function surroundings(info) {
    const breakpoints = info.breakpoints.filter(({source}) => known.texts.has(source)).map(({source, breakpoints: lines}) =>
        ({path: source, text: known.texts.get(source).text, lines: lines.map(each => each.line)}));
    const texts = newestTexts().reverse().filter(([path]) => !known.texts.get(path).fault);
    const {value: aliases} = byId("aliases"), {value: cell} = byId("cell");
    const run = info.stoppedThreads.length > 0 ? "was stopped" : board.waits ? "waited for a button" : "";
    return {breakpoints, texts, isAttached: info.isStarted, run, aliases, cell};
}

const PAGES = Array.from({length: MEMORY / BYTES_A_REQUEST}, (_, page) => page);

/** Reads pages of 256 bytes into an array of all bytes. Returns it, or null once it is no longer wanted. */
export async function readPages(memory, pages, isWanted = () => true) {
    for (let at = 0; at < pages.length; at += AT_ONCE) {
        const starts = pages.slice(at, at + AT_ONCE).map(page => page * BYTES_A_REQUEST);
        const parts = await Promise.all(starts.map(start => variables(5, start, BYTES_A_REQUEST)));
        if (!isWanted()) return null;
        parts.forEach((part, number) => memory.set(part.map(({value}) => numberOf(value)), starts[number]));
    }
    return memory;
}

export const allMemory = isWanted => readPages(new Uint8Array(MEMORY), PAGES, isWanted);
