// The timeline: a slider over the stops of the trace, and in the head a button while a past one is shown.
import {view} from "./board.js";
import {afterwards, byId, hexadecimal} from "./dom.js";
import {t} from "./language.js";
import {ago, goTo, goToNow, placeOfNow, placeShown, stops} from "./past.js";
import {on} from "./signals.js";

const WORDS = {
    now: t("now"),
    said: ({number, pc, instruction, changes}) => [t("stop {0}, {1}H {2}", [number, hexadecimal(pc, 4), instruction]).trim(),
        changes && t("changed: {0}", [changes.replaceAll("\u2192", t(" to "))])].filter(each => each).join(", "),
    back: when => t("As it was {0}. Back to now", [when]),
};

function show() {
    const field = byId("timeline"), isPast = view.past !== null, when = ago(), stop = stops()[placeShown()];
    byId("moments").hidden = stops().length === 0;
    field.max = placeOfNow();
    field.value = placeShown();
    field.disabled = placeOfNow() < 1;
    field.setAttribute("aria-valuetext", `${when || WORDS.now}${stop ? `: ${WORDS.said(stop)}` : ""}`);
    byId("moment").textContent = when || WORDS.now;
    byId("moment").title = stop ? WORDS.said(stop) : "";
    byId("to-now").hidden = !isPast;
    byId("to-now").textContent = WORDS.back(when);
}

export function listenToTimeline() {
    byId("timeline").oninput = event => goTo(Number(event.target.value));
    byId("to-now").onclick = goToNow;
    show();
}

const showSoon = afterwards(show);
for (const signal of ["past", "state"]) on(signal, showSoon);
