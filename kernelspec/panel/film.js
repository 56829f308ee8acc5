// Films: the stops of the trace as one file, a page that plays them anywhere, without a board; and such files opened here.
import {identifier} from "../shared.js";
import {board, known, snapshot} from "./board.js";
import {tell} from "./commands.js";
import {printedText} from "./console.js";
import {byId, hexadecimal, numberOf} from "./dom.js";
import {explanationOf, sentences} from "./explained.js";
import {openers, saveFile} from "./files.js";
import {shownCode, t} from "./language.js";
import {frameName} from "./names.js";
import {changed, stateNow, stops} from "./past.js";
import {Player} from "./player.js";
import {fileNameOf, nameOf, takeProgram} from "./programs.js";
import {isBeside} from "./server.js";
import {on} from "./signals.js";

// The most bytes of a film's file; and of those that are made here the most bytes of all texts, the most characters that were
// printed, and the most routines of a call stack.
const MOST_BYTES = 1 << 22, MOST_OF_TEXTS = 1500000, MOST_PRINTED = 100000, MOST_FRAMES = 16;

const WORDS = {
    title: (name, count) => [name.replace(/[.:;,]+$/, "") || t("A run"), count === 1 ? t("one moment") : t("{0} moments", [count])].join(t(", ")),
    about: t("A run of an Intel 8080 that lab80 has recorded. The file has its player, which needs JavaScript and nothing else."),
    tooLong: count => count === 1 ? t("One program is left out, since it is too long for a film.")
        : t("{0} programs are left out, since they are too long for a film.", [count]),
    stopsLess: t("The first stops are left out, since the film would be too long."),
    printedLess: t("What was printed first is left out, since it is too long for a film."),
    many: size => t("{0} bytes are too many; a film has {1} at most", [size, MOST_BYTES.toLocaleString("en")]),
    version: version => t("this is a film of version {0}, and this page plays version {1}", [version, Player.VERSION]),
    noUtf8: t("the film is damaged: it is no text in UTF-8"),
    cut: t("the film is damaged, or was cut off"),
    refused: (name, why) => t("{0}: {1}. Nothing was opened", [name, why]),
    noProgram: t("Film: this moment has no program"),
};

// The player's texts in the page's language, for the films that are made and for those that are played here.
const inLanguage = texts => Object.fromEntries(Object.entries(texts).map(([name, text]) => [name, t(text)]));
const PLAYERS_TEXTS = {WORDS: inLanguage(Player.WORDS), LACKS: inLanguage(Player.LACKS)};
for (const [name, texts] of Object.entries(PLAYERS_TEXTS)) Object.assign(Player[name], texts);

// ---- making one

/** The paths of the stops' programs, with their texts; without those for which there is no room. */
function textsOf(all) {
    const paths = new Set(all.map(pathOf).filter(path => known.texts.has(path)));
    let left = MOST_OF_TEXTS;
    const isShort = path => (left -= sizeOf(known.texts.get(path).text)) >= 0, kept = [...paths].reverse().filter(isShort);
    return {paths: kept, leftOut: paths.size - kept.length};
}

const pathOf = ({frame}) => frame && frame.source ? frame.source.path : "";

const sizeOf = value => new Blob([written(value)]).size;

/** What a stop has to show of the memory: pieces of consecutive bytes, as digits. */
function piecesOf({memory, stack, used = []}) {
    const pieces = [], bytes = new Map([...memory, ...stack, ...used].map(({name, value}) => [numberOf(name), numberOf(value)]));
    for (const [at, value] of bytes) {
        const digits = hexadecimal(value, 2), last = pieces[pieces.length - 1];
        if (last && last[0] + last[1].length / 2 === at) last[1] += digits;
        else pieces.push([at, digits]);
    }
    return pieces.slice(0, Player.MOST.pieces);
}

/** A stop, or the board as it is, as a moment, with what has changed since the one before. */
function momentOf(stop, before, {paths, dropped}) {
    const {number = 0, frame, frames, lamps = 0, switches = 0, printed} = stop, text = paths.indexOf(pathOf(stop));
    const found = before ? explanationOf(before, stop) : null, valueIn = (of, name) => of.find(each => each.name === name).value;
    return {
        number, text, line: text < 0 ? 0 : frame.line, code: stop.instruction, step: found !== null,
        registers: Player.REGISTERS.map(name => numberOf(valueIn(stop.registers, name))),
        flags: Player.FLAGS.map(name => valueIn(stop.flags, name)), lamps, switches,
        printed: typeof printed === "number" && printed >= dropped ? printed - dropped : -1,
        changed: before ? changed(snapshot(before), stop) : [], memory: piecesOf(stop),
        why: [...found ? sentences(found) : [], ...stop.warnings || []], calls: frames.slice(0, MOST_FRAMES).map(frameName),
    };
}

/** The film of stops, and of the board after them if their run has ended. */
function filmOf(all) {
    const isEnded = !board.stopped && board.running === false, {text, dropped: before} = printedText();
    const end = isEnded ? [{...stateNow(), frame: null, frames: [], instruction: "", used: []}] : [];
    const moments = [...all, ...end], {paths, leftOut} = textsOf(moments), last = moments[moments.length - 1];
    const until = typeof last.printed === "number" ? last.printed - before : 0, from = Math.max(0, until - MOST_PRINTED);
    const given = {paths, dropped: before + from}, left = leftOut > 0 ? [WORDS.tooLong(leftOut)] : [];
    if (all.length < stops().length) left.push(WORDS.stopsLess);
    if (given.dropped > 0) left.push(WORDS.printedLess);
    return {
        version: Player.VERSION, title: WORDS.title(nameOf(programIn(moments)), moments.length), left,
        texts: paths.map(path => known.texts.get(path).text), output: text.slice(from, until),
        moments: moments.map((each, at) => momentOf(each, moments[at - 1], given)),
    };
}

/** The text of the first moment that has one. */
function programIn(moments) {
    const found = moments.map(pathOf).find(path => known.texts.has(path));
    return found ? known.texts.get(found).text : "";
}

/** A value as JSON that can stand between tags. */
const written = value => JSON.stringify(value).replaceAll("<", "\\u003c");

const escaped = text => text.replaceAll("&", "&amp;").replaceAll("<", "&lt;");

/** The lines that put the texts of the page's language in the place of the player's. */
const playersTexts = () => shownCode() === "en" ? ""
    : Object.entries(PLAYERS_TEXTS).map(([name, texts]) => `Object.assign(Player.${name}, ${written(texts)});\n`).join("");

/** The file of a film. Its policy lets the player run, and nothing else: no other script, no request. */
function fileOf(film) {
    const {moments, ...rest} = film, nonce = identifier();
    const policy = `default-src 'none'; script-src 'nonce-${nonce}'; img-src data:; base-uri 'none'; form-action 'none'`;
    const data = `${written(rest).slice(0, -1)},\n"moments":[\n${moments.map(written).join(",\n")}\n]}`;
    return `<!doctype html>
<html lang="${shownCode()}">
<head>
<meta charset="utf-8">
<meta name="generator" content="lab80 film ${film.version}">
<meta http-equiv="Content-Security-Policy" content="${policy}">
<meta name="viewport" content="width=device-width">
<meta name="color-scheme" content="light dark">
<meta name="referrer" content="no-referrer">
<link rel="icon" href="data:,">
<title>${escaped(Player.seen(film.title))}</title>
<script type="module" nonce="${nonce}">
// The player of lab80's films.
${Player}
${playersTexts()}Player.begin();
</script>
</head>
<body>
<noscript><p>${WORDS.about}</p></noscript>
<script type="application/json" id="film">
${data}
</script>
</body>
</html>
`;
}

/** Saves the trace as a film: all of it, or its newest stops if it would be too long. */
function save() {
    let all = stops(), text = fileOf(filmOf(all));
    while (new Blob([text]).size > MOST_BYTES && all.length > 1) {
        all = all.slice(Math.ceil(all.length / 2));
        text = fileOf(filmOf(all));
    }
    saveFile(fileNameOf(programIn(all), "film", ".html"), text);
    tell("");
}

// ---- opening one

const MARK = /^<!doctype html>[^]{0,200}?<meta name="generator" content="lab80 film ([^"<]{1,20})">/;
const DATA = /<script type="application\/json" id="film">([^<]*)<\/script>/;

/** The film in a file; fails with an Error that says in words why there is none. Nothing in the file is run. */
function filmIn(bytes, version) {
    if (bytes.length > MOST_BYTES) throw new Error(WORDS.many(bytes.length));
    if (version !== String(Player.VERSION)) throw new Error(WORDS.version(Player.seen(version)));
    const [, data] = DATA.exec(textOf(bytes)) || [];
    let film = null;
    try {
        film = JSON.parse(data || "");
    } catch {
        throw new Error(WORDS.cut);
    }
    const fault = Player.faultOf(film);
    if (fault) throw new Error(t("the film can't be played: {0}", [fault]));
    return film;
}

function textOf(bytes) {
    try {
        return new TextDecoder("utf-8", {fatal: true}).decode(bytes);
    } catch {
        throw new Error(WORDS.noUtf8);
    }
}

let player = null;

/** Plays a film that was opened, in a dialog; the board stays as it is. Returns whether the file is a film. */
function open(name, bytes) {
    const [, version] = MARK.exec(new TextDecoder().decode(bytes.subarray(0, 400))) || [];
    if (version === undefined) return false;
    try {
        const film = filmIn(bytes, version);
        close();
        byId("film-title").textContent = Player.seen(film.title);
        byId("film-program").hidden = isBeside;
        byId("film-dialog").showModal();
        player = new Player(byId("film"), film);
        player.playButton.focus();
        tell("");
    } catch (fault) {
        tell(WORDS.refused(name, fault.message));
    }
    return true;
}

function close() {
    if (player) player.pause();
    byId("film-dialog").close();
}

/** Puts the program of the shown moment into the cell, or says why it can't be had. */
function take() {
    const {film, at} = player, number = film.moments[at].text, text = film.texts[number] ?? film.texts[0];
    close();
    if (text === undefined) tell(WORDS.noProgram);
    else takeProgram(t("Film"), text);
}

export function listenToFilm() {
    openers.push(open);
    byId("film-save").onclick = save;
    byId("film-program").onclick = take;
    byId("film-close").onclick = close;
    byId("film-dialog").onclose = () => player && player.pause();
}

on("past", () => { byId("film-save").disabled = stops().length === 0; });
