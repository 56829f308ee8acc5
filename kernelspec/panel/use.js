// How long programs were seen running on the board. A page can't read the kernel's journal, which a board that is busy all the time
// fills in six hours or more, so it warns once by its own estimate. The pages of one browser count together.
import {board} from "./board.js";
import {tell} from "./commands.js";
import {readSetting, saveSetting} from "./dom.js";
import {t} from "./language.js";
import {isOpen} from "./line.js";
import {boardName, taking} from "./snapshot.js";
import {transport} from "./transport.js";

// Milliseconds: between two counts, the most that one adds, since browsers slow hidden pages down, and after how many the page
// warns.
const TICK = 10000, MOST = 90000, WARNS_AFTER = 5 * 3600 * 1000;
const MOST_BOARDS = 8;
let last = 0;

const SAVE = t("Save your work: programs have run on this board for five hours, so its journal may be nearly full, and then the "
    + "kernel starts anew. Once the run is ended or paused, this page keeps a snapshot of the board");

const isRunning = () => board.running === true && !board.stopped && !board.waits;
const isBusy = () => transport.hasJournal && isOpen() && taking.session !== "" && isRunning();

/** Counts the time since the last count if the board was busy then and is now. */
export function countUse(now = Date.now()) {
    const since = last;
    last = isBusy() ? now : 0;
    if (since === 0 || last === 0) return;
    const name = boardName(), {[name]: mine = {busy: 0, at: 0, isTold: false}, ...others} = readSetting("use") || {};
    const busy = mine.busy + Math.max(0, Math.min(MOST, now - Math.max(since, mine.at)));
    const isTold = mine.isTold || busy >= WARNS_AFTER;
    saveSetting("use", {...Object.fromEntries(Object.entries(others).slice(1 - MOST_BOARDS)), [name]: {busy, at: now, isTold}});
    if (isTold && !mine.isTold) tell(SAVE);
}

export const followUse = () => setInterval(() => countUse(), TICK);
