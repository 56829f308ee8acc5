// Screens in memory: characters, and dots that are bits.
import {make} from "./dom.js";
import {t} from "./language.js";
import {drawing} from "./segments.js";

// ---- characters

const COLUMNS = 64;

const shownCharacter = byte => (byte & 0x7F) > 31 && (byte & 0x7F) < 127 ? String.fromCharCode(byte & 0x7F) : " ";

/** The parts of a row, each with whether it is reversed, as characters are whose bit 7 is set. */
function partsOf(row) {
    const parts = [];
    for (const byte of row) {
        const isReversed = byte > 127, last = parts[parts.length - 1];
        if (last && last.isReversed === isReversed) last.text += shownCharacter(byte);
        else parts.push({isReversed, text: shownCharacter(byte)});
    }
    return parts.map(({isReversed, text}) => isReversed ? make("span", {className: "reversed"}, text) : text);
}

/** A screen of characters. They are text, for those who hear it or copy it. Only rows that have changed are drawn. */
export function textScreen() {
    const lines = make("pre", {className: "text-screen"}), drawn = [];
    const draw = bytes => {
        for (let at = 0, from = 0; from < bytes.length; ++at, from += COLUMNS) {
            const row = bytes.slice(from, from + COLUMNS), key = row.join();
            if (!drawn[at]) lines.append(drawn[at] = make("span", {}));
            if (drawn[at].key !== key) drawn[at].replaceChildren(...partsOf(row), "\n");
            drawn[at].key = key;
        }
    };
    return {element: make("div", {className: "screen"}, lines), draw};
}

// ---- dots

// Where a bit of a byte lies.
const BITMAP = {width: 256, height: 192, at: (byte, bit) => [(byte & 31) * 8 + 7 - bit, byte >> 5]};
const TALL = {width: 224, height: 256, at: (byte, bit) => [byte >> 5, 255 - (byte & 31) * 8 - bit]};

const LIT = [190, 255, 200, 255], DARK = [10, 14, 12, 255];

const countOf = bytes => bytes.reduce((sum, byte) => {
    let count = 0;
    for (let left = byte; left; left &= left - 1) ++count;
    return sum + count;
}, 0);

function dotScreen({width, height, at}) {
    const canvas = make("canvas", {className: "dot-screen", width, height, role: "img"});
    const context = canvas.getContext("2d"), picture = context.createImageData(width, height);
    const draw = bytes => {
        bytes.forEach((byte, place) => {
            for (let bit = 0; bit < 8; ++bit) {
                const [x, y] = at(place, bit);
                picture.data.set(byte >> bit & 1 ? LIT : DARK, 4 * (y * width + x));
            }
        });
        context.putImageData(picture, 0, 0);
        canvas.setAttribute("aria-label", t("{0} of {1} dots are lit", [countOf(bytes), width * height]));
    };
    return {element: canvas, draw};
}

/** A screen of 256 by 192 dots: a byte is eight dots in a row, and bit 7 is the left one. */
export const bitmapScreen = () => dotScreen(BITMAP);

/** A screen of 224 by 256 dots, which stands on its side as those of the arcades did: a byte is eight dots in a column, and bit 0
 *  is the lowest one. */
export const tallScreen = () => dotScreen(TALL);

const SIDE = 8, hexadecimalOf = byte => byte.toString(16).toUpperCase().padStart(2, "0");

/** A matrix of 8 by 8 dots: a byte is a row, and bit 7 is its left dot. */
export function matrix() {
    const dots = Array.from({length: SIDE * SIDE}, (_, at) =>
        drawing("circle", {cx: at % SIDE * 10 + 5, cy: Math.floor(at / SIDE) * 10 + 5, r: 4, class: "dot"}));
    const element = drawing("svg", {viewBox: "0 0 80 80", class: "matrix", role: "img"}, ...dots);
    const draw = bytes => {
        dots.forEach((dot, at) => dot.classList.toggle("on", (bytes[at >> 3] >> 7 - at % SIDE & 1) === 1));
        element.setAttribute("aria-label", t("Rows from the top: {0}", [[...bytes].map(hexadecimalOf).join(" ")]));
    };
    return {element, draw};
}
