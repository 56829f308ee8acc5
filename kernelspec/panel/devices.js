// Devices beside the board: screens, digits, lights, keys, a clock and a bell. A program's notes choose them, or the user, and the
// browser keeps the user's choice for each program's notes.
import {bell} from "./bell.js";
import {addressOf, board, known} from "./board.js";
import {clock} from "./clock.js";
import {byId, make, readSetting, saveSetting} from "./dom.js";
import {beginFollowing, followed, lookAnew, seenBytes} from "./follow.js";
import {arrows, keypad} from "./keypad.js";
import {t} from "./language.js";
import {numberDigits, segmentDigits, trafficLights} from "./lights.js";
import {line} from "./line.js";
import {KINDS, MOST_DEVICES, checked, deviceOf, notesOf, wordsOf} from "./notes.js";
import {bitmapScreen, matrix, tallScreen, textScreen} from "./screens.js";
import {isBeside} from "./server.js";
import {on} from "./signals.js";

// Each makes what is shown of a device: {element}, with `draw` for the bytes that it shows, and `close` if its end has to be told.
const MAKERS = {
    text: textScreen, bitmap: bitmapScreen, tall: tallScreen, matrix, digits: numberDigits, segments: segmentDigits,
    lights: trafficLights, keypad, arrows, clock, bell,
};

const SETTING = "devices", SHOWN = "devices shown", MOST_NOTES = 16, MEMORY = 65536;

// The devices that are shown, each {device, made, said, key}, and the notes that chose them.
const shown = {list: [], note: ""};

// ---- what is kept

const isPair = each => Array.isArray(each) && typeof each[0] === "string" && Array.isArray(each[1]);

/** The devices that the user has chosen, by the programs' notes: pairs, the newest last. Anything else is passed over. */
function choices() {
    const found = readSetting(SETTING);
    return Array.isArray(found) ? found.filter(isPair) : [];
}

/** The devices for some notes: the user's choice, or else what they name. */
function devicesFor(note, named) {
    const [, chosen] = choices().find(each => each[0] === note) || [];
    return chosen ? chosen.map(checked).filter(each => each !== null).slice(0, MOST_DEVICES) : named;
}

/** Keeps what is shown as the user's choice for the program's notes. */
function keep() {
    const {note, list} = shown, others = choices().filter(each => each[0] !== note);
    saveSetting(SETTING, [...others, [note, list.map(each => each.device)]].slice(-MOST_NOTES));
    keepNote();
}

const storage = () => sessionStorage;

/** Keeps whose devices this window shows, for a reload. */
const keepNote = () => saveSetting(SHOWN, {kernel: line.kernel, note: shown.note}, storage);

function restore() {
    const {kernel, note} = readSetting(SHOWN, storage) || {};
    if (kernel !== line.kernel || typeof note !== "string") return;
    show(devicesFor(note, notesOf(`;lab80:${note}`).devices), note);
}

// ---- what is shown

const bytesOf = ({device}) => KINDS[device.kind].bytes(device.count);

/** The memory that a device shows; null if it shows none, or its address isn't known. */
function pieceOf(each) {
    if (!("place" in each.device) || each.device.place === "lamps") return null;
    const start = addressOf(each.device.place);
    return start === undefined ? null : {start, count: Math.min(bytesOf(each), MEMORY - start)};
}

/** What a device shows: bytes of memory, or the lamps; null if it isn't known. */
function valueOf(each) {
    if (each.device.place === "lamps") return [board.lamps];
    const piece = pieceOf(each);
    return piece && seenBytes(piece.start, piece.count);
}

function draw() {
    for (const each of shown.list.filter(({made}) => made.draw)) {
        const value = valueOf(each), key = value && value.join();
        if (value && key !== each.key) each.made.draw(value);
        each.key = key || each.key;
        const text = value || pieceOf(each) ? "" : t("{0} is no address yet", [each.device.place]);
        if (each.said.textContent !== text) each.said.textContent = text;
    }
}

function placeField(each) {
    const {device} = each, isByte = KINDS[device.kind].takes[0].first === "lamps";
    const what = isByte ? t("An address of base 16, a symbol, or lamps") : t("An address of base 16 or a symbol");
    const field = make("input", {type: "text", className: "place", value: device.place, title: what, spellcheck: false,
        autocomplete: "off", "aria-label": t("{0} at", [t(KINDS[device.kind].name)])});
    field.onchange = () => {
        const place = KINDS[device.kind].takes[0].of(field.value.trim());
        field.setAttribute("aria-invalid", place === undefined);
        if (place === undefined) return;
        Object.assign(device, {place});
        field.value = place;
        each.key = undefined;
        keep();
        renew();
    };
    return field;
}

// What the values are called from which the user chooses.
const SAYS = {
    count: value => value === 1 ? t("1 byte") : t("{0} bytes", [value]), way: value => value, vector: value => `RST ${value}`,
    rate: value => `${value}/s`,
};
const TITLES = {count: t("How many bytes"), way: t("What they do"), vector: t("The button"), rate: t("Ticks a second")};

function choiceField(each, {name, values}) {
    const {device} = each, options = values.map(value => make("option", {value: String(value)}, SAYS[name](value)));
    const field = make("select", {title: TITLES[name], "aria-label": `${t(KINDS[device.kind].name)}: ${TITLES[name]}`}, ...options);
    field.value = String(device[name]);
    field.onchange = () => change(each, {...device, [name]: values[field.selectedIndex]}, name);
    return field;
}

/** Shows a changed device in the place of one, with the focus where it was. */
function change(each, device, name) {
    const at = shown.list.indexOf(each), names = KINDS[device.kind].takes.map(take => take.name);
    show(shown.list.map(other => other === each ? device : other.device), shown.note);
    keep();
    shown.list[at].element.querySelectorAll("h3 :is(input, select)")[names.indexOf(name)].focus();
}

const fieldFor = (each, take) => take.values ? choiceField(each, take) : placeField(each);

function add(device) {
    const {takes} = KINDS[device.kind], [name, about] = [t(KINDS[device.kind].name), t(KINDS[device.kind].about)], said = make("p", {className: "note"}), each = {device, said, key: undefined};
    each.made = MAKERS[device.kind](device);
    const drop = make("button", {type: "button", className: "drop", "aria-label": t("Remove {0}", [name]), title: t("Removes it")}, "\u00D7");
    drop.onclick = () => remove(each);
    const head = make("h3", {}, make("span", {title: about}, name), ...takes.map(take => fieldFor(each, take)), drop);
    const looks = {className: `device of-${device.kind}`, role: "group", "aria-label": name};
    each.element = make("div", looks, head, each.made.element, said);
    shown.list.push(each);
    byId("devices").append(each.element);
}

function close(each) {
    if (each.made.close) each.made.close();
    each.element.remove();
}

function remove(each) {
    const at = shown.list.indexOf(each), next = shown.list[at + 1] || shown.list[at - 1];
    shown.list.splice(at, 1);
    close(each);
    keep();
    renew();
    (next ? next.element.querySelector(".drop") : byId("add-device")).focus();
}

/** Shows what has changed of the list. */
function renew() {
    byId("devices-section").hidden = shown.list.length === 0 && byId("devices-said").textContent === "";
    byId("add-device").lastElementChild.hidden = shown.note === "";
    draw();
    lookAnew(0);
}

/** Shows these devices, and keeps those that are shown already, a clock that ticks among them. */
function show(devices, note) {
    const kept = new Map(shown.list.map(each => [wordsOf(each.device), each])), before = shown.list;
    Object.assign(shown, {list: [], note});
    for (const device of devices) {
        const same = kept.get(wordsOf(device));
        if (same && !shown.list.includes(same)) shown.list.push(same);
        else add({...device});
    }
    for (const each of before) if (!shown.list.includes(each)) close(each);
    const elements = shown.list.map(each => each.element), {children} = byId("devices");
    // what is moved would lose the focus
    if (elements.some((each, at) => each !== children[at])) byId("devices").append(...elements);
    renew();
}

// ---- who chooses

/** Takes the notes of a text, if it has any: the devices that it names are shown, or what the user has chosen in their place. */
function takeNotes(text) {
    const {note, devices, faults} = notesOf(text);
    if (note === "") return false;
    byId("devices-said").textContent = faults.join(". ");
    show(devicesFor(note, devices), note);
    keepNote();
    return true;
}

/** Takes the notes of a cell that begins to run. Beside a notebook, where they stand below the first screen, devices that weren't
 *  shown before come into view; elsewhere the user has just run the page's own cell, which stays where it is. */
function takeCell({text}) {
    const {note} = shown;
    if (takeNotes(text) && isBeside && shown.note !== note) byId("devices-section").scrollIntoView({block: "nearest"});
}

// Whether the page has joined its board.
let hasJoined = false;

/** A page that is opened late takes the notes of the newest text that has some, but not before what it has shown before a reload. */
function takeLate() {
    if (!hasJoined || shown.note !== "" || shown.list.length > 0) return;
    [...known.texts.values()].reverse().some(({text}) => takeNotes(text));
}

function join() {
    hasJoined = true;
    if (shown.list.length === 0) restore();
    takeLate();
}

const AS_NAMED = "as named";

function choose() {
    const {value} = byId("add-device"), {note} = shown;
    byId("add-device").value = "";
    if (value === AS_NAMED) show(notesOf(`;lab80:${note}`).devices, note);
    else if (shown.list.length < MOST_DEVICES) add(deviceOf(value));
    keep();
    renew();
}

/** The words of all devices, as programs name them, with what each is. */
function listKinds() {
    byId("all-devices").append(...Object.entries(KINDS).flatMap(([kind, {about}]) =>
        [make("dt", {}, make("code", {}, wordsOf(deviceOf(kind)))), make("dd", {}, t(about))]));
}

export function listenToDevices() {
    const options = Object.entries(KINDS).map(([kind, {name}]) => make("option", {value: kind}, t(name)));
    listKinds();
    byId("add-device").append(...options, make("option", {value: AS_NAMED, hidden: true}, t("As the program says")));
    byId("add-device").onchange = choose;
    Object.assign(followed, {wanted: () => shown.list.map(pieceOf).filter(each => each !== null), draw});
    beginFollowing();
    on("joined", join);
    on("cell", takeCell);
    on("texts", takeLate);
    for (const signal of ["devices", "looked"]) on(signal, draw);
}
