// Warnings on the steps of this page: each with the stop to which it belongs, below the trace, and at that stop below the flags.
import {board, known, view} from "./board.js";
import {afterwards, byId, make, numberOf} from "./dom.js";
import {explanationOf, valuesOf} from "./explained.js";
import {t} from "./language.js";
import {labelsAt} from "./names.js";
import {goTo, shownStops, stops} from "./past.js";
import {on} from "./signals.js";
import {Watcher} from "./warnings.js";

// The most that are listed, the newest ones.
const MOST_LISTED = 20;

const WORDS = {
    stop: number => t("Stop {0}", [number]),
    title: t("Shows the board as it was at this stop"),
};

const watcher = new Watcher();

// ---- what was seen

const bytesOf = ({instructionBytes}) => instructionBytes.split(" ").map(numberOf);

const sourceOf = ({frames: [frame]}) => frame && frame.source;

/** Whether the line of a stop has data for bytes, as far as its text is known. */
function isData(stop) {
    const {text = ""} = known.texts.get(sourceOf(stop).path) || {}, line = text.split("\n")[stop.frames[0].line - 1] || "";
    return /^(?:[^';]*:)?\s*D[BW]\b/i.test(line);
}

/** Where a step has led. */
function placeOf(stop) {
    const isLoaded = Boolean(sourceOf(stop));
    return {isLoaded, isData: isLoaded && isData(stop), hasLabel: labelsAt(stop.pc).length > 0, bytes: bytesOf(stop.line)};
}

/** Gives a stop its warnings: those on the step from the stop before, if there was one. */
function warn(stop, before) {
    stop.warnings = [];
    const found = before && stop.line ? explanationOf(before, stop) : null;
    if (!found) return watcher.lose();
    const {wrote, isInterrupt} = found, {line} = before;
    const step = {instruction: line.instruction.trim(), name: before.instruction, bytes: bytesOf(line), wrote, isInterrupt};
    const all = {...step, before: valuesOf(before), after: valuesOf(stop)};
    const from = {isLoaded: Boolean(sourceOf(before)), hasLabel: labelsAt(before.pc).length > 0};
    stop.warnings = watcher.judge(all, placeOf(stop), from);
}

// ---- what is shown

/** A warning, with a way to its stop. */
function itemOf(stop, text) {
    const go = make("button", {type: "button", className: "past", title: WORDS.title}, WORDS.stop(stop.number));
    go.onclick = () => goTo(stops().indexOf(stop));
    return make("li", {}, go, " ", text);
}

// What is drawn, so that it is drawn, and read aloud, only when it is another one.
const drawn = {here: "", all: ""};

function show() {
    const [, shown] = shownStops(), isShown = shown !== undefined && (board.running === true || view.past !== null);
    const here = isShown && shown.warnings || [], all = stops().flatMap(stop => (stop.warnings || []).map(text => [stop, text]));
    const listed = all.slice(-MOST_LISTED).reverse();
    const keys = {here: here.join(), all: listed.map(([stop, text]) => stop.number + text).join()};
    if (keys.here !== drawn.here) byId("warned").replaceChildren(...here.map(each => make("p", {}, each)));
    if (keys.all !== drawn.all) byId("warnings").replaceChildren(...listed.map(each => itemOf(...each)));
    byId("warnings").hidden = all.length === 0;
    Object.assign(drawn, keys);
}

export function listenToWarnings() {
    on("recorded", warn);
    on("cell", () => watcher.begin());
    on("forget", () => watcher.begin());
    const showSoon = afterwards(show);
    for (const signal of ["looked", "past", "state", "forget"]) on(signal, showSoon);
}
