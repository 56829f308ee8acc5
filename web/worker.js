// The worker of a board, whose name is the board's. As a SharedWorker it lives as long as a window has the board; where browsers
// have none, or can't suspend a program, each window has a Worker, and a board one window.
import {later} from "../language.js";
import {Board} from "./board.js";
import {Receiver} from "./mail.js";
import {addressOf} from "./place.js";
import {MODULE, loadModule, runProgram} from "./program.js";
import {Session} from "./session.js";
import {dropOld, dropSession, loadSession, saveSession} from "./sessions.js";
import {opening} from "./wire.js";

const isShared = "SharedWorkerGlobalScope" in self && self instanceof SharedWorkerGlobalScope;

// Milliseconds: between two times that a session is kept, after which the progress of one that is played again is told, between
// two of these, and after which a window is told that another one has the board.
const KEEP_EVERY = 500, PROGRESS_AFTER = 1000, PROGRESS_EVERY = 200, ELSEWHERE_AFTER = 2000;

// The most characters that a window hasn't taken before the program waits for it, and the milliseconds in which it must take some
// then: one that is frozen, or gone without a word, loses its connection.
const MOST_BEHIND = 4 << 20, PATIENCE = 10000;

// The windows, by their ports, each with whether it is hidden, the characters that it hasn't taken, and when it took some last; and
// the ports of those that have seen the board end.
const windows = new Map(), left = new Set();
const pages = {runsHidden: false, mail: null};
let board = null, module = null, ending = "";

const newName = () => Array.from(crypto.getRandomValues(new Uint8Array(16)), each => each.toString(16).padStart(2, "0")).join("");

const tellAll = told => { for (const each of windows.keys()) each.postMessage(told); };

// ---- keeping the session

const TOO_LONG = later("It has become too long to be kept");
const REFUSED = later("The browser keeps nothing here, or its room is used up");
const keeping = {last: 0, isUnder: false, isRefused: false};

/** Keeps what the session has more than what is kept. A worker that sleeps has its window do that. */
function keep() {
    const {session} = board;
    if (board.isOver || keeping.isUnder || keeping.isRefused || !session.isChanged) return;
    keeping.last = performance.now();
    if (session.isFull) return refuseKeeping(TOO_LONG);
    const changes = session.changes();
    if (pages.mail) return tellAll({type: "save", changes});
    keeping.isUnder = true;
    saveSession(self.name, changes).catch(() => refuseKeeping(REFUSED)).finally(() => {
        keeping.isUnder = false;
        if (board.session.isUrgent) keep();
    });
}

/** Nothing is kept of a session that can't be kept whole. */
function refuseKeeping(why) {
    keeping.isRefused = true;
    tellAll({type: "unkept", why});
    if (!pages.mail) dropSession(self.name).catch(() => {});
}

// ---- the program

const host = {
    wake() {},
    keep,
    deliver(port, text) {
        const window = windows.get(port);
        if (!window) return;
        if (!isBehind(window)) window.at = performance.now();
        window.behind += text.length;
        port.postMessage({type: "message", text});
    },
    isBehind: () => [...windows.values()].some(isBehind),
    opened: port => port.postMessage({type: "opened"}),
    refuse(port, why) {
        windows.delete(port);
        port.postMessage({type: "refused", why});
    },
    ended: isRestart => isRestart ? restart() : end(later("It was shut down")),
    listen(patience) {
        for (let text = pages.mail.receive(patience); text !== null; text = pages.mail.receive()) take(self, JSON.parse(text));
        if (performance.now() - keeping.last > KEEP_EVERY) tick();
    },
    progress(done, all) {
        const now = performance.now();
        if (now - this.began < PROGRESS_AFTER || now - this.told < PROGRESS_EVERY) return;
        this.told = now;
        tellAll({type: "progress", part: done / all});
    },
};

/** Begins with a session that was kept, or with a new one. */
async function begin(kept) {
    const session = kept ? new Session(kept.name, kept.chunks) : new Session(newName());
    if (board) board.isOver = true;
    const mine = board = new Board(session, host);
    keeping.isRefused = false;
    Object.assign(host, {began: performance.now(), told: 0});
    for (const each of windows.keys()) board.join(each);
    noteHidden();
    try {
        module = module || await loadModule(addressOf(MODULE));
        const why = await runProgram(module, board, opening(), host);
        if (!mine.isOver) end(why);
    } catch (fault) {
        if (!mine.isOver) end(fault.why || later("Its program has failed ({0})", [fault.message]));
    }
}

/** A new board in the place of this one, whose session is dropped. */
async function beginAnew() {
    board.isOver = true;
    await dropSession(self.name).catch(() => {});
    for (const each of [...windows.keys(), ...left]) each.postMessage({type: "anew"});
    left.clear();
    ending = "";
    begin(null);
}

/** The end that a request for a restart wants. A program that sleeps can't begin anew here. */
function restart() {
    if (isShared) beginAnew();
    else tellAll({type: "restart"});
}

function end(why) {
    board.isOver = true;
    ending = why;
    tellAll({type: "ended", why});
    for (const each of windows.keys()) left.add(each);
    windows.clear();
}

// ---- windows

const isBehind = ({behind}) => behind > MOST_BEHIND;

/** Drops windows that take nothing. One that comes to itself again connects again. */
function dropLate() {
    const now = performance.now();
    for (const [port, window] of windows) {
        if (!isBehind(window) || now - window.at < PATIENCE) continue;
        windows.delete(port);
        board.leave(port);
        port.postMessage({type: "lost"});
        host.wake();
    }
}

function tick() {
    dropLate();
    keep();
}

function noteHidden() {
    board.isAsleep = !pages.runsHidden && windows.size > 0 && [...windows.values()].every(each => each.isHidden);
}

const tasks = {
    open(port, {isHidden, runsHidden}) {
        if (ending) return port.postMessage({type: "ended", why: ending});
        windows.set(port, {isHidden, behind: 0, at: 0});
        pages.runsHidden = runsHidden;
        if (board) board.join(port);
    },
    send(port, {text}) {
        const why = windows.has(port) ? board.send(port, JSON.parse(text)) : "";
        if (why) port.postMessage({type: "told", why});
    },
    close(port) {
        left.delete(port);
        if (windows.delete(port) && board) board.leave(port);
    },
    seen(port, {isHidden, runsHidden}) {
        if (windows.has(port)) windows.get(port).isHidden = isHidden;
        pages.runsHidden = runsHidden;
    },
    taken(port, {count}) {
        const window = windows.get(port);
        if (window) Object.assign(window, {behind: window.behind - count, at: performance.now()});
    },
    anew: () => board && beginAnew(),
    ask(port, {number, what}) {
        const answers = {session: () => board.session.isFull ? null : board.session.bytes(), texts: () => board.texts};
        port.postMessage({type: "answer", number, value: board ? answers[what]() : null});
    },
};

function take(port, data) {
    tasks[data.type](port, data);
    if (!board) return;
    noteHidden();
    host.wake();
}

// ---- the beginning

// The name of the lock that tells which boards run, and that no two workers give one board's session different items.
const LOCK = `lab80 ${addressOf("").pathname} ${self.name}`;

/** Does the work once no other worker has the board. Where there are no locks, or the browser refuses them, at once. */
async function own(work) {
    const timer = setTimeout(() => tellAll({type: "elsewhere"}), ELSEWHERE_AFTER);
    const begins = () => {
        clearTimeout(timer);
        tellAll({type: "here"});
        work();
        return new Promise(() => {});
    };
    if (navigator.locks) await navigator.locks.request(LOCK, begins).catch(begins);
    else begins();
}

async function load() {
    const kept = await loadSession(self.name).catch(() => null);
    // of one that isn't whole nothing may stay
    if (!kept) await dropSession(self.name).catch(() => {});
    begin(kept);
    dropOld().catch(() => {});
    setInterval(tick, KEEP_EVERY);
}

/** The first message to a Worker of one window. */
function beginAlone({data}) {
    pages.mail = data.mail ? new Receiver(data.mail) : null;
    self.onmessage = ({data: next}) => take(self, next);
    take(self, {...data, type: "open"});
    own(data.mail ? () => begin(data.kept) : load);
}

if (isShared) {
    self.onconnect = ({ports: [port]}) => { port.onmessage = ({data}) => take(port, data); };
    own(load);
} else {
    self.onmessage = beginAlone;
}
