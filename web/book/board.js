// The board on which a lesson's cells run: the connection to it, the cells that run or wait, and debug requests.
import {t} from "../language.js";
import {readSetting, saveSetting} from "../panel/dom.js";
import {emit} from "../panel/signals.js";
import {transport} from "../panel/transport.js";
import {LOOKS, PRESSES, Requests, identifier, messageOf} from "../shared.js";
import {tell} from "./message.js";

const SESSION = identifier(), LESSON = document.documentElement.dataset.lesson;

// Milliseconds after which a debug request counts as lost.
const PATIENCE = 12000;

// A socket's `readyState` once messages can be sent.
const OPEN = 1;

/** `said` is the state of the connection in words, and empty while it is open. `number` is that of the board: each new one has
 *  the next. */
export const board = {kernel: "", number: 0, socket: null, said: "starting"};

const requests = new Requests(SESSION);

// The cells that run or wait, by their requests: each a function that gets a message's type, content and header.
const cells = new Map();

// Why the board has ended, if that was told.
let ending = "";

export const isOpen = () => board.socket !== null && board.socket.readyState === OPEN;

// ---- the connection

const storage = () => sessionStorage, NAME = `board of ${LESSON}`;

/** Connects to this window's board of the lesson, if it is still there, or to a new one. */
export async function openBoard() {
    const kept = readSetting(NAME, storage), isThere = typeof kept === "string" && !(await transport.has(kept)).hasEnded;
    return isThere ? connect(kept) : newBoard();
}

/** Connects to a new board. Cells that run on the old one have no end there. */
export async function newBoard() {
    say("starting");
    const {id, refusal} = await transport.start();
    return id ? connect(id) : say(`no board: ${refusal}`);
}

function connect(kernel) {
    saveSetting(NAME, kernel, storage);
    Object.assign(board, {kernel, number: board.number + 1});
    const before = board.socket, isCurrent = () => socket === board.socket;
    ending = "";
    dropAll();
    say("connecting");
    const socket = board.socket = transport.open(board.kernel, SESSION, {
        onopen: () => isCurrent() && say(""),
        onclose: () => isCurrent() && lost(),
        onmessage: event => isCurrent() && hear(JSON.parse(event.data)),
    });
    if (before) before.close();
}

function say(text) {
    board.said = text;
    emit("board");
}

async function lost() {
    const {socket} = board;
    dropAll();
    say("connection lost");
    const {hasEnded, loss} = await transport.has(board.kernel);
    if (socket !== board.socket) return;
    say(hasEnded ? "the board has ended" : loss || "connection lost");
    const why = hasEnded ? `The board has ended${ending && `. ${ending}`}` : "The connection to the board is lost";
    tell(`${why}. The texts stay: New board begins with another one`);
}

/** Ends the cells that run or wait, and fails all requests, whose answers won't come. */
function dropAll() {
    requests.dropAll();
    for (const hearCell of [...cells.values()]) hearCell("lost", {}, {});
    cells.clear();
}

// ---- what a board in the browser tells besides messages

const tasks = {
    progress: ({part}) => say(`made again: ${Math.floor(100 * part)} %`),
    ended({why}) { ending = t(why); },
    anew: () => connect(board.kernel),
    elsewhere: () => say("another window has this board"),
    here: () => isOpen() || say("connecting"),
    told: ({why}) => tell(t(why)),
};

if (transport.listen) transport.listen(({kernel, type, ...told}) => kernel === board.kernel && tasks[type] && tasks[type](told));

// ---- messages

const send = message => board.socket.send(JSON.stringify(message));

/** Sends a cell. `hearCell` gets the type, the content and the header of each message for it, up to `idle`, or `lost` if the
 *  board is gone. Returns whether the board is there. */
export function execute(code, hearCell) {
    if (!isOpen()) return false;
    const how = {silent: false, store_history: true, user_expressions: {}, allow_stdin: true, stop_on_error: false};
    const message = messageOf(SESSION, "shell", "execute_request", {code, ...how});
    cells.set(message.header.msg_id, hearCell);
    send(message);
    return true;
}

/** Ends the program that runs. */
export const interrupt = () => isOpen() && send(messageOf(SESSION, "control", "interrupt_request", {}));

/** Types the line that a program has asked for. `parent` is the header of what asked. */
export const typeLine = (value, parent) => isOpen()
    && send(messageOf(SESSION, "stdin", "input_reply", {status: "ok", value}, {parent}));

/** Sends a debug command. Returns the body of its reply; fails with the refusal's name, or `Lost`. */
export async function debug(command, given = {}) {
    if (!isOpen()) throw new Error("Lost");
    return requests.ask(send, command, given, PATIENCE, id => requests.drop(id));
}

function hear(message) {
    const {header: {msg_type: type}, content} = message, parent = message.parent_header || {};
    requests.hear(message);
    const hearCell = cells.get(parent.msg_id);
    if (type === "status") hearStatus(content.execution_state, parent);
    else if (hearCell) hearCell(type, content, message.header);
    if (type === "debug_event") emit("stop");
}

function hearStatus(state, parent) {
    const hearCell = cells.get(parent.msg_id);
    if (hearCell) hearCell(state, {}, {});
    if (state === "idle") cells.delete(parent.msg_id);
    // breakpoints and stops that other pages of the board have changed, or a run of theirs
    const isOthers = parent.session !== SESSION && ![LOOKS, PRESSES].includes(parent.username);
    if (state === "idle" && (isOthers || parent.msg_type === "execute_request")) emit("stop");
}
