// Explains the step that led to the shown stop: one line below the flags, and more when it is opened.
import {board, view} from "./board.js";
import {afterwards, byId, make, numberOf, readSetting, saveSetting} from "./dom.js";
import {t} from "./language.js";
import {shownStops} from "./past.js";
import {on} from "./signals.js";
import {explain} from "./why.js";

const SETTING = "why";

const WORDS = {
    first: t("Steps are explained here, each with its numbers"),
    unknown: t("Not explained: not one instruction alone led here from the stop before"),
};

/** The values of a stop by their names, as numbers, with the bytes that were looked at there. */
export function valuesOf({registers, flags, memory, stack, used = []}) {
    const bytes = new Map([...memory, ...stack, ...used].map(({name, value}) => [numberOf(name), numberOf(value)]));
    const named = flags.map(({name, value}) => [name, name === "INTE" ? Number(value !== "off") : Number(value)]);
    return Object.fromEntries([...registers.map(({name, value}) => [name, numberOf(value)]), ...named,
        ["memory", at => bytes.get(at & 65535)]]);
}

/** The explanation of what led from a stop to the next one, with its instruction as the trace has it; null if that wasn't one
 *  instruction or an interrupt. */
export function explanationOf(before, after) {
    if (!before || !before.line || before.registers.length === 0) return null;
    const {instruction, instructionBytes} = before.line, length = instructionBytes.split(" ").length;
    const found = explain(instruction, length, valuesOf(before), valuesOf(after));
    return found && found.instruction === instruction ? {...found, instruction: before.instruction} : found;
}

/** An explanation as sentences: its result, and what it did to each flag. */
export function sentences({instruction, result, notes, flags, kept}) {
    const ofFlags = flags.map(({name, value, why}) => `${t("{0} is {1}", [name, value])}: ${why}`);
    return [`${instruction}: ${result}`, ...notes, ...ofFlags, ...kept ? [kept] : []];
}

function draw(found) {
    const {instruction, result, notes, flags, kept} = found;
    byId("why-result").replaceChildren(make("b", {}, `${instruction}:`), ` ${result}`);
    byId("why-flags").replaceChildren(...notes.map(each => make("li", {}, each)),
        ...flags.map(({name, value, why}) => make("li", {}, make("b", {}, t("{0} is {1}", [name, value])), `: ${why}`)),
        ...kept ? [make("li", {}, kept)] : []);
}

function show() {
    const [before, stop] = shownStops(), found = before && stop ? explanationOf(before, stop) : null;
    byId("why").hidden = !stop || board.running !== true && view.past === null;
    byId("why").classList.toggle("nothing", !found);
    if (found) return draw(found);
    byId("why-result").replaceChildren(before ? WORDS.unknown : WORDS.first);
    byId("why-flags").replaceChildren();
}

export function listenToWhy() {
    byId("why").open = readSetting(SETTING) === true;
    byId("why").ontoggle = () => saveSetting(SETTING, byId("why").open);
    show();
}

const showSoon = afterwards(show);
for (const signal of ["looked", "past", "state", "forget"]) on(signal, showSoon);
