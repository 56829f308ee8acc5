// Drawings in SVG: digits of seven segments.
const SVG = "http://www.w3.org/2000/svg";

// The segments a to g of a digit, as lines, and the point; and which of them make the digits 0 to F, with a as bit 0.
const SEGMENTS = ["M7 5H27", "M29 7V27", "M29 33V53", "M7 55H27", "M5 33V53", "M5 7V27", "M7 30H27", "M36 55V55"];
export const DIGITS = [0x3F, 0x06, 0x5B, 0x4F, 0x66, 0x6D, 0x7D, 0x07, 0x7F, 0x6F, 0x77, 0x7C, 0x39, 0x5E, 0x79, 0x71];

export function drawing(tag, members, ...children) {
    const made = document.createElementNS(SVG, tag);
    for (const [name, value] of Object.entries(members)) made.setAttribute(name, value);
    made.append(...children);
    return made;
}

function digit(bits, at) {
    const segments = SEGMENTS.map((path, bit) => drawing("path", {d: path, class: bits >> bit & 1 ? "segment on" : "segment"}));
    return drawing("g", {transform: `translate(${at} 0)`}, ...segments);
}

const WIDTH = 42;

/** A row of digits, each given by the bits of its segments. */
export function digits(row) {
    const drawn = row.map((bits, at) => digit(bits, WIDTH * at));
    return drawing("svg", {viewBox: `0 0 ${WIDTH * row.length} 60`}, ...drawn);
}
