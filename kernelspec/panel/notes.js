// The devices that can be shown beside the board, and the notes by which a program names those that it uses: comments like
//
//     ; lab80: matrix DOTS, digits SCORE 2, arrows, bell

// How a sentence is said, with values in the place of {0}: in English, unless a page sets another function.
let t = (text, values = []) => text.replace(/\{(\w+)\}/g, (whole, name) => values[name] ?? whole);

/** Sets the function that translates sentences, with the same arguments. */
export const speakBy = translate => { t = translate; };

// What may follow a device's word, in order. `of` gives a word's value, or undefined if the word isn't one; where there are few,
// these are its `values`.
const LAMPS = "lamps", PLACE = /^(?:[A-Za-z?@][A-Za-z0-9?@]*|[0-9][0-9A-Fa-f]*H?)$/i, LONGEST_PLACE = 31;
const addressed = word => word.length <= LONGEST_PLACE && PLACE.test(word) ? word.toUpperCase() : undefined;
const address = first => ({name: "place", first, of: word => word.toLowerCase() === LAMPS ? undefined : addressed(word)});
const byte = {name: "place", first: LAMPS, of: word => word.toLowerCase() === LAMPS ? LAMPS : addressed(word)};
const choice = (name, values, first = values[0]) =>
    ({name, first, values, of: word => values.find(each => String(each) === word.toLowerCase())});
const number = (name, first, least, most) => choice(name, Array.from({length: most - least + 1}, (_, at) => least + at), first);

/** How arrows reach the program: as the buttons RST 1 to RST 5, as the characters W, S, A, D and a blank, or as the switches S0 to
 *  S4, each up as long as its key is down. The order is up, down, left, right, and the key in the middle. */
export const WAYS = ["buttons", "keys", "switches"];

/** The devices by their words. `bytes` is how many bytes of memory one shows, for a count that it is given. */
export const KINDS = {
    text: {name: "Text screen", about: "64 by 16 characters; bit 7 reverses one", takes: [address("8000H")], bytes: () => 1024},
    bitmap: {name: "Dot screen", about: "256 by 192 dots, a row 32 bytes", takes: [address("4000H")], bytes: () => 6144},
    tall: {name: "Tall screen", about: "224 by 256 dots, a column 32 bytes", takes: [address("2400H")], bytes: () => 7168},
    matrix: {name: "Dot matrix", about: "8 by 8 dots, a row one byte", takes: [address("8000H")], bytes: () => 8},
    digits: {name: "Digits", about: "a number of 1 to 4 bytes", takes: [byte, number("count", 1, 1, 4)], bytes: count => count},
    segments: {name: "Segments", about: "a digit a byte, bit 0 is segment a", takes: [byte, number("count", 1, 1, 8)],
        bytes: count => count},
    lights: {name: "Traffic lights", about: "red, yellow, green are bits 0 to 2 and 3 to 5; stop, walk 6 and 7", takes: [byte],
        bytes: () => 1},
    keypad: {name: "Keypad", about: "types 0 to 9 and A to F", takes: []},
    arrows: {name: "Arrows", about: "press RST 1 to RST 5, or type keys, or hold switches", takes: [choice("way", WAYS)]},
    clock: {name: "Clock", about: "presses a button, as RST 7 once a second",
        takes: [number("vector", 7, 0, 7), number("rate", 1, 1, 3)]},
    bell: {name: "Bell", about: "rings for the character 07", takes: []},
};

/** The most devices at once. */
export const MOST_DEVICES = 8;

/** A device with what its kind has first. */
export const deviceOf = kind => Object.fromEntries([["kind", kind], ...KINDS[kind].takes.map(({name, first}) => [name, first])]);

/** A device that was kept, with the values that its kind can have, or null. */
export function checked(device) {
    if (!device || typeof device !== "object" || !Object.hasOwn(KINDS, device.kind)) return null;
    const given = name => Object.hasOwn(device, name) ? String(device[name]) : "";
    const {takes} = KINDS[device.kind], values = takes.map(({name, of}) => [name, of(given(name))]);
    return values.some(([, value]) => value === undefined) ? null : Object.fromEntries([["kind", device.kind], ...values]);
}

/** A device as a note names it. */
export const wordsOf = device => [device.kind, ...KINDS[device.kind].takes.map(({name}) => device[name])].join(" ");

const quoted = word => `\u201C${word.length > 40 ? word.slice(0, 40) + "\u2026" : word}\u201D`;

/** The device of a part of a note, or a sentence that says what is wrong with it. */
function read(part) {
    const [word, ...rest] = part.split(/\s+/), kind = word.toLowerCase();
    if (!Object.hasOwn(KINDS, kind)) return t("{0} is no device; there are {1}", [quoted(word), Object.keys(KINDS).join(", ")]);
    const device = deviceOf(kind), takes = [...KINDS[kind].takes];
    for (const each of rest) {
        let value;
        while (value === undefined && takes.length > 0) {
            const {name, of} = takes.shift();
            value = of(each);
            if (value !== undefined) device[name] = value;
        }
        if (value === undefined) return refusalOf(each, kind);
    }
    return device;
}

const HINTS = {
    place: () => t("an address or a label"), count: () => t("a number of bytes"), way: () => WAYS.join(", "),
    vector: () => t("0 to 7, the button"), rate: () => t("1 to 3, how often a second"),
};

/** Says that a word can't follow a kind of device, and what can. */
function refusalOf(word, kind) {
    const hints = KINDS[kind].takes.map(({name}) => HINTS[name]());
    if (hints.length === 0) return t("{0} can\u2019t follow {1}", [quoted(word), kind]);
    return t("{0} can\u2019t follow {1}; what can is {2}", [quoted(word), kind, hints.join(t(", then "))]);
}

const NOTE = /^[ \t]*;[ \t]*lab80:([^\n\r]*)/gim;

// The most characters of a text's notes that are read.
const LONGEST_NOTE = 500;

/** The notes of a text: {note, devices, faults}. The note is empty if it has none. */
export function notesOf(text) {
    const note = [...text.matchAll(NOTE)].map(found => found[1].trim()).join(", ").slice(0, LONGEST_NOTE);
    const found = note.split(",").map(each => each.trim()).filter(each => each !== "").map(read);
    const devices = found.filter(each => typeof each === "object"), faults = found.filter(each => typeof each === "string");
    if (devices.length > MOST_DEVICES) faults.push(t("{0} devices are too many; {1} are shown", [devices.length, MOST_DEVICES]));
    return {note, devices: devices.slice(0, MOST_DEVICES), faults};
}
