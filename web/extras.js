// What the page says of a board in the browser, and its buttons for the board's session.
import {tell} from "../panel/commands.js";
import {ask, byId, make, saveSetting} from "../panel/dom.js";
import {openers, saveFile} from "../panel/files.js";
import {t} from "../panel/language.js";
import {line, openLine, send} from "../panel/line.js";
import {addressOf} from "../panel/boards.js";
import {beginAnew, listen, runsHidden, sessionOf, setRunsHidden, start} from "../panel/worker_line.js";
import {saveSession} from "./sessions.js";
import {Reader, isStream} from "./wire.js";

// The most bytes of a session's file, and the name with which it is saved.
const MOST_BYTES = 64 << 20;
const fileName = () => `board-${line.kernel.slice(0, 8)}.lab80`;

// ---- what goes on for a while, or needs an answer

const bars = make("div", {id: "site"});
bars.setAttribute("role", "status");

/** Shows a sentence of a kind in the place of the last one of that kind, with a button for what can be done. */
function say(kind, sentence, label = "", work = () => {}) {
    const close = make("button", {type: "button", onclick: () => hide(kind)}, t("Close"));
    const button = make("button", {type: "button", onclick: () => { hide(kind); work(); }}, label);
    const bar = make("p", {"data-kind": kind}, make("span", {}, sentence), ...label ? [button] : [], close);
    hide(kind);
    bars.append(bar);
}

function hide(kind) {
    const bar = bars.querySelector(`[data-kind=${kind}]`);
    if (bar) bar.remove();
}

// ---- what workers tell

const ELSEWHERE = t("Another window of this browser has this board, and this browser can't share it. It comes here once that one is "
    + "closed");
const again = percent => t("The board is made again from its session: {0} %", [percent]);
const ended = why => t("The board has ended. {0}. What is written in the cell stays.", [t(why)]);
const notKept = why => t("The session isn't kept. {0}. Work goes on, but once the last window of this board is closed or loaded anew, "
    + "its memory, labels and breakpoints are gone.", [t(why)]);

const anew = () => beginAnew(line.kernel);
let hasSaidUnkept = false;

const tasks = {
    progress: ({part}) => say("board", again(Math.min(99, Math.floor(100 * part))), t("Start afresh"), anew),
    ended: ({why}) => say("board", ended(why), t("Start a new one"), anew),
    anew() {
        hide("board");
        if (line.state === "ended") openLine();
    },
    elsewhere: () => say("board", ELSEWHERE),
    here: () => hide("board"),
    opened: () => hide("board"),
    told: ({why}) => tell(t(why)),
    unkept({why}) {
        if (!hasSaidUnkept) say("kept", notKept(why));
        hasSaidUnkept = true;
    },
};

listen(({kernel, type, ...told}) => {
    if (kernel === line.kernel && tasks[type]) tasks[type](told);
});

// ---- the session

async function saveFileOfSession() {
    const bytes = await sessionOf(line.kernel);
    if (bytes) saveFile(fileName(), bytes);
    else tell(t("Save the session: it isn't kept whole"));
}

/** The items of a session's file; fails with an Error that says what is wrong with it. */
function checked(bytes) {
    if (bytes.length > MOST_BYTES) throw new Error(t("{0} bytes are too many; a session has {1} at most", [bytes.length, MOST_BYTES]));
    const reader = new Reader(), items = reader.read(bytes);
    if (!reader.isWhole) throw new Error(t("it is cut off after {0} items", [items.length]));
}

/** Opens a session's file as another board. */
async function openSession(name, bytes) {
    if (!isStream(bytes)) return false;
    try {
        checked(bytes);
        const {id} = await start();
        const kept = saveSession(id, {name: id, count: 1, changed: [[0, bytes]]});
        await kept.catch(() => { throw new Error(t("the browser keeps nothing here, so that it can't be opened")); });
        location.assign(addressOf(id));
    } catch (fault) {
        tell(`${name}: ${fault.message}`);
    }
    return true;
}

async function restart() {
    const question = t("Restart the board? Labels, memory and breakpoints are gone, and its session.");
    if (await ask(question, t("Restart"))) send("control", "shutdown_request", {restart: true});
}

// ---- the page

function addControls() {
    const pressed = (id, title, text) => make("button", {type: "button", id, title}, text);
    const save = pressed("save-session", t("Saves all that this board was given, as a file that makes it again"), t("Save the session"));
    const again = pressed("restart", t("A new board in the place of this one"), t("Restart"));
    const hidden = make("input", {type: "checkbox", id: "runs-hidden", checked: runsHidden()});
    const label = make("label", {title: t("Else a program rests while no window shows its board")}, hidden, t("Runs in hidden windows"));
    const boards = make("a", {href: "?kernel=", title: t("The boards of this browser")}, t("Boards"));
    save.onclick = saveFileOfSession;
    again.onclick = restart;
    hidden.onchange = () => setRunsHidden(hidden.checked);
    byId("rare").append(label, make("div", {className: "row"}, save, " ", again));
    byId("to-boards").href = "?kernel=";
    document.querySelector("header nav").append(" ", boards);
    byId("message").after(bars);
}

const NOTHING_KEPT = t("This browser keeps nothing for this page: drafts and settings are gone once it is closed");

/** Says once that the browser keeps nothing. */
function checkStorage() {
    if (!saveSetting("tried", 1)) tell(NOTHING_KEPT);
    saveSetting("tried", null);
}

// ---- versions

const NEW_VERSION = t("There is a new version of this page. Boards are made again from their sessions");

/** Offers a version that was loaded since. It is used by all windows at once, so that none has files of two. */
function offerVersion(registration) {
    const offer = worker => {
        if (!worker || worker.state !== "installed" || !navigator.serviceWorker.controller) return;
        say("version", NEW_VERSION, t("Use it"), () => worker.postMessage("use"));
    };
    offer(registration.waiting);
    registration.onupdatefound = () => {
        const worker = registration.installing;
        worker.onstatechange = () => offer(worker);
    };
}

function followVersions(registration) {
    const hadOne = navigator.serviceWorker.controller !== null;
    navigator.serviceWorker.oncontrollerchange = () => hadOne && location.reload();
    offerVersion(registration);
}

export function begin(registration) {
    addControls();
    openers.push(openSession);
    checkStorage();
    if (registration) followVersions(registration);
}
