// A clock: it presses a button again and again while a program runs. It begins when the user starts it, and rests while the page
// is hidden.
import {board} from "./board.js";
import {make} from "./dom.js";
import {t} from "./language.js";
import {Refusal, isOpen} from "./line.js";
import {ask} from "./presses.js";

// After so many presses that the program hasn't taken the clock stops.
const MOST_LOST = 20;

const mayTick = () => isOpen() && !document.hidden && board.running === true && !board.stopped;

export function clock({vector, rate}) {
    const button = make("button", {type: "button", "aria-pressed": "false"}, t("Start")), count = make("output", {"aria-live": "off"});
    const said = make("p", {className: "note", role: "status"}), hand = make("span", {className: "hand", "aria-hidden": "true"});
    const state = {timer: 0, ticks: 0, lost: 0, isUnder: false};
    const stop = text => {
        clearInterval(state.timer);
        Object.assign(state, {timer: 0, lost: 0});
        button.setAttribute("aria-pressed", "false");
        button.textContent = t("Start");
        said.textContent = text;
    };
    const show = () => {
        count.textContent = state.ticks === 1 ? t("1 tick") : t("{0} ticks", [state.ticks]);
        hand.classList.toggle("tock", state.ticks % 2 === 1);
    };
    const tick = async () => {
        if (state.isUnder || !mayTick()) return;
        state.isUnder = true;
        try {
            await press(state, vector);
            if (state.timer && state.lost > MOST_LOST) stop(t("The program doesn\u2019t take RST {0}: the clock has stopped", [vector]));
            show();
        } finally {
            state.isUnder = false;
        }
    };
    button.onclick = () => {
        if (state.timer) return stop("");
        stop("");
        state.timer = setInterval(tick, 1000 / rate);
        button.setAttribute("aria-pressed", "true");
        button.textContent = t("Stop");
        tick();
    };
    show();
    return {element: make("div", {className: "clock"}, hand, button, count, said), close: () => stop("")};
}

/** Presses the button, and counts what the program takes. A press that isn't answered, as when the connection is lost, is none. */
async function press(state, vector) {
    try {
        const isTaken = await ask(vector, 1);
        state.lost = isTaken ? 0 : state.lost + 1;
        if (isTaken) ++state.ticks;
    } catch (fault) {
        if (!(fault instanceof Refusal)) throw fault;
    }
}
