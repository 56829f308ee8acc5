// Small displays of some bytes: digits, segments and traffic lights.
import {hexadecimal, make} from "./dom.js";
import {t} from "./language.js";
import {DIGITS, digits, drawing} from "./segments.js";

function segmented(bitsOf, wordsOf) {
    const element = make("div", {className: "digits", role: "img"});
    const draw = bytes => {
        element.replaceChildren(digits(bitsOf(bytes)));
        element.setAttribute("aria-label", wordsOf(bytes));
    };
    return {element, draw};
}

/** A number in base 16, whose low byte comes first in memory. */
export function numberDigits() {
    const words = bytes => [...bytes].reverse().map(byte => hexadecimal(byte, 2)).join("");
    return segmented(bytes => [...words(bytes)].map(each => DIGITS[parseInt(each, 16)]), words);
}

const SEGMENT_NAMES = "abcdefg.";

/** Digits whose segments are given by bits. */
export function segmentDigits() {
    const named = byte => [...SEGMENT_NAMES].filter((_, bit) => byte >> bit & 1).join("") || t("none");
    return segmented(bytes => [...bytes], bytes => t("Segments that are lit: {0}", [[...bytes].map(named).join(", ")]));
}

// ---- traffic lights

// The lamps of a post from the top, each with its bit, its colour and its letter, and the posts.
const COLOURS = [["red", t("R")], ["yellow", t("Y")], ["green", t("G")]];
const COLOUR_NAMES = {red: t("red"), yellow: t("yellow"), green: t("green")};
const road = first => COLOURS.map(([colour, letter], at) => ({bit: first + at, colour, letter}));
const POSTS = [
    {name: t("First road"), lamps: road(0)}, {name: t("Second road"), lamps: road(3)},
    {name: t("Walkers"), lamps: [{bit: 6, colour: "red", letter: t("stop")}, {bit: 7, colour: "green", letter: t("walk")}]},
];
const BOTH_GREEN = 0x24, WALK = 0x80;

/** A lamp, with what it says beside its colour. */
function light({colour, letter}, at) {
    const y = 20 + 34 * at, word = drawing("text", {x: 20, y: y + 4, class: letter.length > 1 ? "word" : ""}, letter);
    return drawing("g", {class: `light ${colour}`}, drawing("circle", {cx: 20, cy: y, r: 14}), word);
}

function post({name, lamps}) {
    const lit = lamps.map(light);
    const box = drawing("rect", {x: 1, y: 1, width: 38, height: 6 + 34 * lamps.length, rx: 7, class: "post"});
    const picture = drawing("svg", {viewBox: "0 0 40 110", role: "img"}, box, ...lit);
    const says = make("figcaption", {}, name);
    const draw = byte => {
        const on = lamps.filter(({bit}) => byte >> bit & 1);
        lit.forEach((each, at) => each.classList.toggle("on", on.includes(lamps[at])));
        picture.setAttribute("aria-label", `${name}: ${on.map(({colour}) => COLOUR_NAMES[colour]).join(t(" and ")) || t("dark")}`);
    };
    return {element: make("figure", {}, picture, says), draw};
}

/** Three posts: two roads, whose bits are red, yellow and green, and walkers. */
export function trafficLights() {
    const posts = POSTS.map(post), said = make("p", {className: "note", role: "status"});
    const draw = ([byte]) => {
        for (const each of posts) each.draw(byte);
        const isCrash = (byte & BOTH_GREEN) === BOTH_GREEN || (byte & WALK) !== 0 && (byte & BOTH_GREEN) !== 0;
        const text = isCrash ? t("Two of them are green: a crash") : "";
        if (said.textContent !== text) said.textContent = text;
    };
    return {element: make("div", {className: "lights"}, ...posts.map(each => each.element), said), draw};
}
