// Requests that wait for their turn. A server's second small message waits until the browser has acknowledged the first one, for
// some 40 ms. So where answers come quickly, as from the same machine, requests are sent one after the other, each when the one
// before is answered; and else all at once, since then the way would take longer than that.
import {Refusal, debug} from "./line.js";

// Milliseconds from a request to its answer, as they were lately, and up to how many of them an answer is quick.
export const trip = {takes: 0, quick: 5};
const NEWEST_COUNTS = 0.25;

let waiting = [], underWay = 0;

function sendSome() {
    while (waiting.length > 0 && (underWay === 0 || trip.takes > trip.quick)) send(waiting.shift());
}

async function send({command, given, done, fail}) {
    const since = performance.now(), isFirst = ++underWay === 1;
    await debug(command, given).then(done, fail);
    --underWay;
    if (isFirst) trip.takes += NEWEST_COUNTS * (performance.now() - since - trip.takes);
    sendSome();
}

const enter = (command, given, isLook) => new Promise((done, fail) => {
    waiting.push({command, given, isLook, done, fail});
    sendSome();
});

/** Sends a debug command in its turn. Returns the body of its reply, or fails with a Refusal, as `debug` does. */
export const inTurn = (command, given = {}) => enter(command, given, false);

/** The same for a look at the board. If a later look begins before its turn has come it is dropped: it fails with `Dropped`. */
export const looking = (command, given = {}) => enter(command, given, true);

/** Drops the looks that wait for their turn. */
export function dropLooks() {
    const dropped = waiting.filter(each => each.isLook);
    waiting = waiting.filter(each => !each.isLook);
    for (const {command, fail} of dropped) fail(new Refusal(command, "Dropped"));
}
