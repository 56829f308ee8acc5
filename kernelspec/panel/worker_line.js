// The boards of the static site, each in a worker of this browser. transport.js says what each export is.
import {identifier} from "../shared.js";
import {canSuspend} from "../web/abilities.js";
import {Sender, makeMail} from "../web/mail.js";
import {isOneFile} from "../web/place.js";
import {dropSession, keptSessions, loadSession, saveSession} from "../web/sessions.js";
import {readSetting, saveSetting} from "./dom.js";
import {t} from "./language.js";
import {addressOn} from "./server.js";

export const startsAtOnce = true, hasJournal = false;

// A program that can be suspended is run by a SharedWorker, which hears from several windows. Else a window has a worker of its
// own, which sleeps while it waits for the window.
const NO_MEMORY = isOneFile ? t("This browser can't suspend programs, and so runs no board of a page that is one file")
    : t("This browser can run a board only if a service worker has isolated the page. Load the page anew");
const REFUSED = t("The browser keeps nothing here, or its room is used up");

const CONNECTING = 0, OPEN = 1, CLOSED = 3;

// After so many characters of messages the worker is told that they were taken; a program waits for a window that takes none.
const TAKEN = 65536;
const workers = addressOn("web/worker.js");

// What is told besides messages, each {kernel, type, ..}: `opened`, `ended`, `anew`, `progress`, `unkept`, `elsewhere`, `here`,
// `told`.
const listeners = [], early = [];
const tell = (kernel, told) => listeners.length === 0 ? early.push({kernel, ...told}) : notify({kernel, ...told});
const notify = told => { for (const each of listeners) each(told); };

/** Listens to what is told, and to what was told before anybody listened. */
export function listen(work) {
    listeners.push(work);
    early.splice(0).forEach(notify);
}

// Why boards have ended that this page has seen end.
const ends = new Map();

/** Whether boards run on while all their windows are hidden. */
export const runsHidden = () => readSetting("runs hidden") === true;

export function setRunsHidden(isOn) {
    saveSetting("runs hidden", isOn || null);
    for (const each of sockets) each.noteSeen();
}

// The sockets that are open, or about to be.
const sockets = new Set();

// Whether the browser has refused this page a SharedWorker, as it may where it keeps nothing.
let isRefused = false;

/** The worker of a board that windows share; null where there can't be one. That of a page which is one file has an address in
 *  this window alone. */
function sharedWorker(kernel) {
    if (!canSuspend || isRefused || isOneFile) return null;
    try {
        return new SharedWorker(workers, {name: kernel, type: "module"});
    } catch {
        return null;
    }
}

/** What a page has in the place of a WebSocket. */
class Socket {
    constructor(kernel) {
        Object.assign(this, {kernel, readyState: CONNECTING, answers: new Map(), asked: 0, taken: 0});
        sockets.add(this);
        this.connect().catch(fault => this.end(String(fault.message || fault)));
    }

    async connect() {
        ends.delete(this.kernel);
        const shared = sharedWorker(this.kernel);
        if (!shared) return this.begin();
        this.listenTo(shared, shared.port, () => {
            isRefused = true;
            this.begin().catch(fault => this.end(fault.message));
        });
        this.give({type: "open", ...seen()});
    }

    /** Begins with a worker of this window alone. */
    async begin() {
        if (!canSuspend && typeof SharedArrayBuffer === "undefined") throw new Error(NO_MEMORY);
        const mail = canSuspend ? null : makeMail(), kept = mail ? await loadSession(this.kernel).catch(() => null) : null;
        if (this.readyState === CLOSED) return;
        const worker = this.worker = new Worker(workers, {name: this.kernel, type: isOneFile ? "classic" : "module"});
        this.sender = null;
        this.listenTo(worker, worker, message => this.end(t("Its worker has failed ({0})", [message || t("it can't be loaded")])));
        this.give({mail, kept, ...seen()});
        this.sender = mail && new Sender(mail);
    }

    /** Hears from a worker, and calls a function if that fails. */
    listenTo(worker, port, fails) {
        this.port = port;
        port.onmessage = ({data}) => port === this.port && this.hear(data);
        worker.onerror = ({message}) => port === this.port && fails(message);
    }

    give(data) {
        if (this.sender) this.sender.send(JSON.stringify(data));
        else this.port.postMessage(data);
    }

    hear(told) {
        const {type} = told;
        if (type === "message") return this.take(told.text);
        if (type === "opened") return this.open();
        if (type === "answer") return this.settle(told);
        if (type === "save") return saveSession(this.kernel, told.changes).catch(() => this.drop(REFUSED));
        if (type === "unkept" && this.sender) return this.drop(told.why);
        if (type === "restart") return this.restart();
        if (type === "lost") return this.lose();
        if (type === "ended" || type === "refused") return this.end(told.why);
        return tell(this.kernel, told);
    }

    take(text) {
        if (this.onmessage) this.onmessage({data: text});
        this.taken += text.length;
        if (this.taken < TAKEN) return;
        this.give({type: "taken", count: this.taken});
        this.taken = 0;
    }

    open() {
        if (this.readyState !== CONNECTING) return;
        this.readyState = OPEN;
        tell(this.kernel, {type: "opened"});
        if (this.onopen) this.onopen({});
    }

    send(text) {
        this.give({type: "send", text});
    }

    /** Asks the worker for something that no other window sees. */
    ask(what) {
        const number = ++this.asked;
        this.give({type: "ask", number, what});
        return new Promise(done => this.answers.set(number, done));
    }

    settle({number, value}) {
        this.answers.get(number)(value);
        this.answers.delete(number);
    }

    noteSeen() {
        if (this.port) this.give({type: "seen", ...seen()});
    }

    /** Drops the session that a worker which sleeps can't keep whole. */
    async drop(why) {
        tell(this.kernel, {type: "unkept", why});
        await dropSession(this.kernel).catch(() => {});
    }

    /** Puts a new worker in the place of one whose board begins anew. */
    async restart() {
        this.worker.terminate();
        await dropSession(this.kernel).catch(() => {});
        await this.begin();
    }

    end(why) {
        ends.set(this.kernel, why);
        tell(this.kernel, {type: "ended", why});
        this.shut();
        if (this.onclose) this.onclose({});
    }

    lose() {
        this.shut();
        if (this.onclose) this.onclose({});
    }

    close() {
        if (this.readyState === CLOSED) return;
        if (this.port) this.give({type: "close"});
        this.shut();
        setTimeout(() => this.onclose && this.onclose({}));
    }

    shut() {
        this.readyState = CLOSED;
        sockets.delete(this);
        if (this.worker) this.worker.terminate();
    }
}

const seen = () => ({isHidden: document.hidden, runsHidden: runsHidden()});

export const open = (kernel, session, handlers) => Object.assign(new Socket(kernel), handlers);

document.addEventListener("visibilitychange", () => { for (const each of sockets) each.noteSeen(); });

// a page that comes back from the browser's cache connects again
addEventListener("pagehide", () => { for (const each of [...sockets]) each.close(); });

export const has = async kernel => ({hasEnded: ends.has(kernel), isShut: false, loss: "", way: null});

/** Drops the session of a board, and begins with a new one. The windows that have seen its end open it again. */
export async function beginAnew(kernel) {
    const shared = sharedWorker(kernel);
    if (shared) return shared.port.postMessage({type: "anew"});
    const waiting = [...sockets].filter(each => each.kernel === kernel);
    if (waiting.length === 0) await dropSession(kernel).catch(() => {});
    for (const each of waiting) await each.restart();
    tell(kernel, {type: "anew"});
}

/** The session of a board as a file; null if it isn't kept whole. */
export function sessionOf(kernel) {
    const socket = [...sockets].find(each => each.kernel === kernel && each.readyState === OPEN);
    return socket ? socket.ask("session") : Promise.resolve(null);
}

// ---- boards

const LOCKS = `lab80 ${addressOn("").pathname} `, NO_LOCKS = {held: []};

/** The boards that run here, and those whose sessions are kept. */
export async function boards() {
    const {held} = navigator.locks ? await navigator.locks.query().catch(() => NO_LOCKS) : NO_LOCKS;
    const locked = held.filter(({name}) => name.startsWith(LOCKS)).map(({name}) => name.slice(LOCKS.length));
    const running = [...new Set([...locked, ...[...sockets].map(({kernel}) => kernel)])];
    const kept = (await keptSessions().catch(() => [])).map(each => each.board).filter(id => !running.includes(id));
    const named = (ids, form) => ids.map(id => ({id, name: form(id.slice(0, 8))}));
    return [...named(running, id => t("board {0}", [id])), ...named(kept, id => t("board {0}, which is kept", [id]))];
}

/** A board begins when it is opened first. Its name has the form of a server's. */
export const start = async () => ({id: identifier().replace(/^(.{8})(.{4})(.{4})(.{4})/, "$1-$2-$3-$4-")});

/** The texts that ran on the board, also on other pages. */
export async function cells(kernel) {
    const socket = [...sockets].find(each => each.kernel === kernel && each.readyState === OPEN);
    const texts = socket && await socket.ask("texts") || [];
    return texts.reverse().map(source => ({cell_type: "code", source, execution_count: 0}));
}

export const lessons = async () => ({address: addressOn(document.documentElement.dataset.lessons || "")});

// ---- addresses with a program

// A whole address has a mebibyte at most, which is what Firefox takes.
export const MOST_SHARED = (1 << 20) - addressOn("").href.length - "#cell=".length;

const HERE = t("the address is that of this page's file. On another computer it opens where the file has the same place");

export function addressWith(letters) {
    const address = addressOn("");
    address.hash = `cell=${letters}`;
    return {address, isOwn: true, warning: isOneFile ? HERE : ""};
}
