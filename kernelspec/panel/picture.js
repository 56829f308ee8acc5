// Pictures of memory: all of it, a square for each page of 256 bytes with a dot for each byte; and a page, with addresses, bytes
// and labels. Their colours are those of the legend.
import {byId, character, hexadecimal, make} from "./dom.js";
import {t} from "./language.js";
import {labelsAt} from "./names.js";
import {CODE, DATA, EMPTY, OTHER, STACK, isChanged, told} from "./regions.js";

export const PAGE = 256, PAGES = 256;

// Squares in a row, dots in a row of a square, and their distance: a dot is between two squares.
const SQUARES = 16, DOTS = 16, STEP = DOTS + 1, SIDE = SQUARES * STEP + 1;

// What stands for a kind of byte in the legend and in the classes of bytes.
const NAMES = {[EMPTY]: "empty", [CODE]: "code", [DATA]: "data", [OTHER]: "other", [STACK]: "stack"};

// The kinds that are told of a page, those first that say most of it.
const SHOWN = [CODE, DATA, STACK, OTHER];

const WORDS = {
    page: (from, until) => t("{0} to {1}", [from, until]),
    square: (range, kinds) => kinds.length > 0 ? t("{0}: {1}", [range, kinds.join(t(", "))]) : t("{0}: empty", [range]),
    kinds: {[CODE]: t("code"), [DATA]: t("data"), [OTHER]: t("other bytes"), [STACK]: t("stack")},
    pc: "PC", sp: "SP", changed: t("changed"),
    byte: (at, value, more) => [t("{0}: {1}", [at, value]), ...more].join(t(", ")),
    was: value => t("was {0}", [value]),
    table: range => t("Bytes from {0}", [range]),
    label: (at, names) => `${at} ${names.join(t(", "))}`,
};

/** The addresses of a page, in words. */
export const rangeOf = page => WORDS.page(hexadecimal(page * PAGE, 4), hexadecimal(page * PAGE + PAGE - 1, 4));

// ---- all pages

/** A colour of the legend as red, green and blue. */
function colourOf(name) {
    const [red, green, blue] = getComputedStyle(byId("legend").querySelector(`.of-${name}`)).backgroundColor.match(/[\d.]+/g);
    return [Number(red), Number(green), Number(blue), 255];
}

const coloursOf = names => Object.fromEntries(names.map(name => [name, colourOf(name)]));

// How much a page's empty bytes have of the colour of what it holds, so that a few bytes are seen.
const TINT = 0.3;

const mixed = (one, other) => one.map((part, at) => Math.round(part + (other[at] - part) * TINT));

/** The colours of the pages' empty bytes. */
function groundsOf(regions, colours) {
    return Array.from({length: PAGES}, (_, page) => {
        const held = new Set(regions.kinds.subarray(page * PAGE, page * PAGE + PAGE)), kind = SHOWN.find(each => held.has(each));
        if (hasChanged(regions, page)) return mixed(colours.empty, colours.changed);
        return kind === undefined ? colours.empty : mixed(colours.empty, colours[NAMES[kind]]);
    });
}

function hasChanged(regions, page) {
    for (let at = page * PAGE; at < page * PAGE + PAGE; ++at) if (isChanged(regions, at)) return true;
    return false;
}

/** Draws all memory. */
export function drawAll(regions) {
    const canvas = byId("map"), context = canvas.getContext("2d"), picture = context.createImageData(SIDE, SIDE);
    const colours = coloursOf([...Object.values(NAMES), "changed", "pc", "edge"]), grounds = groundsOf(regions, colours);
    const put = (x, y, colour) => picture.data.set(colour, 4 * (y * SIDE + x));
    for (let at = 0; at < SIDE * SIDE; ++at) put(at % SIDE, Math.floor(at / SIDE), colours.edge);
    regions.kinds.forEach((kind, at) => {
        const isPc = at === regions.pc, name = isPc ? "pc" : isChanged(regions, at) ? "changed" : NAMES[kind];
        put(...placeOf(at), name === "empty" ? grounds[at >> 8] : colours[name]);
    });
    frame(regions.pc >> 8, colours.pc, put);
    Object.assign(canvas, {width: SIDE, height: SIDE});
    context.putImageData(picture, 0, 0);
    nameSquares(regions);
}

/** Where a byte's dot is. */
export function placeOf(at) {
    const page = at >> 8, byte = at & 255;
    return [1 + page % SQUARES * STEP + byte % DOTS, 1 + Math.floor(page / SQUARES) * STEP + Math.floor(byte / DOTS)];
}

/** Draws a line around a page. */
function frame(page, colour, put) {
    const [left, top] = [page % SQUARES * STEP, Math.floor(page / SQUARES) * STEP];
    const dots = at => [[at, 0], [at, STEP], [0, at], [STEP, at]];
    for (let at = 0; at <= STEP; ++at) for (const [x, y] of dots(at)) put(left + x, top + y, colour);
}

/** Makes the buttons over the squares, each of which does some work with its page, and the digits beside them. */
export function makeSquares(choose) {
    const digits = Array.from({length: SQUARES}, (_, at) => hexadecimal(at, 1));
    byId("map-rows").replaceChildren(...digits.map(each => make("span", {}, `${each}000`)));
    byId("map-columns").replaceChildren(...digits.map(each => make("span", {}, `${each}00`)));
    byId("map-pages").replaceChildren(...Array.from({length: PAGES}, (_, page) => {
        const members = {type: "button", ariaLabel: rangeOf(page), "data-page": page, tabIndex: page === 0 ? 0 : -1};
        return make("button", {...members, onclick: () => choose(page)});
    }));
}

function nameSquares(regions) {
    [...byId("map-pages").children].forEach((button, page) => {
        const text = WORDS.square(rangeOf(page), kindsIn(regions, page));
        if (button.title !== text) Object.assign(button, {title: text, ariaLabel: text});
    });
}

/** What there is in a page, in words. */
function kindsIn(regions, page) {
    const from = page * PAGE, kinds = new Set(regions.kinds.subarray(from, from + PAGE)), found = [];
    for (const kind of SHOWN) if (kinds.has(kind)) found.push(WORDS.kinds[kind]);
    if (regions.pc >> 8 === page) found.push(WORDS.pc);
    return hasChanged(regions, page) ? [...found, WORDS.changed] : found;
}

// ---- a page

/** The labels of an address, and the registers that lead there. */
const namesOf = ({pc, sp}, at) =>
    [...at === pc ? [WORDS.pc] : [], ...at === sp ? [WORDS.sp] : [], ...labelsAt(at).slice(0, 3)];

/** What is at an address, in words. */
export function describe(regions, at) {
    const {bytes, before, kinds} = regions, kind = WORDS.kinds[kinds[at]];
    const more = [...kind ? [kind] : [], ...namesOf(regions, at)];
    const byte = `${hexadecimal(bytes[at], 2)} ${character(bytes[at])}`;
    if (isChanged(regions, at)) more.push(WORDS.was(hexadecimal(before[at], 2)));
    return WORDS.byte(hexadecimal(at, 4), byte, more);
}

function byteCell(regions, at, cursor) {
    const {bytes, kinds, pc} = regions, classes = [`of-${NAMES[kinds[at]]}`];
    if (isChanged(regions, at)) classes.push("changed");
    if (at === pc) classes.push("at-pc");
    const said = {title: describe(regions, at), ariaLabel: describe(regions, at)};
    const members = {...said, className: classes.join(" "), role: "gridcell", tabIndex: at === cursor ? 0 : -1, "data-at": at};
    return make("td", members, hexadecimal(bytes[at], 2));
}

/** The names in a row of a page. */
function namesIn(regions, from) {
    const found = [];
    for (let at = from; at < from + DOTS; ++at) {
        const names = namesOf(regions, at);
        if (names.length > 0) found.push(WORDS.label(hexadecimal(at, 4), names));
    }
    return found;
}

function rowOf(regions, from, cursor) {
    const cells = Array.from({length: DOTS}, (_, at) => byteCell(regions, from + at, cursor));
    const names = namesIn(regions, from).map(each => make("span", {}, each));
    return make("tr", {role: "row"}, make("th", {scope: "row", role: "rowheader"}, hexadecimal(from, 4)), ...cells,
        make("td", {className: "names", role: "gridcell"}, ...names));
}

/** Draws a page, with the focus on a byte if it is on one already. */
export function drawPage(regions, page, cursor) {
    const holder = byId("map-bytes"), hasFocus = holder.contains(document.activeElement);
    const digits = Array.from({length: DOTS}, (_, at) => at);
    const head = make("tr", {role: "row"}, make("th", {}), ...digits.map(each => make("th", {scope: "col", role: "columnheader"},
        hexadecimal(each, 1))), make("th", {scope: "col", role: "columnheader"}));
    const rows = digits.map(each => rowOf(regions, page * PAGE + each * DOTS, cursor));
    holder.replaceChildren(make("table", {role: "grid", "aria-label": WORDS.table(rangeOf(page))}, head, ...rows));
    if (hasFocus) focusByte(cursor);
}

export function focusByte(at) {
    const holder = byId("map-bytes"), cell = holder.querySelector(`[data-at="${at}"]`);
    for (const each of holder.querySelectorAll('[tabindex="0"]')) each.tabIndex = -1;
    if (!cell) return;
    cell.tabIndex = 0;
    cell.focus({preventScroll: true});
}

/** What is in a page, in sentences. */
export const toldOf = (regions, page) => told(regions, page * PAGE, page * PAGE + PAGE);
