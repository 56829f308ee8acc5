// Gives a snapshot to the board, by cells that no frontend shows and by requests: registers, symbols, texts, memory, devices and
// breakpoints. What it can't give back it says.
import {hasStart} from "../errors.js";
import {board, flagByte, keepText, known, register} from "./board.js";
import {keepCell} from "./cell.js";
import {attach, changeBreakpoints} from "./commands.js";
import {addressText, byId, numberOf} from "./dom.js";
import {cellOf} from "./hex.js";
import {t} from "./language.js";
import {Refusal, debug, isOpen, send} from "./line.js";
import {allSymbols, lookSoon, lookState, variables} from "./look.js";
import {on} from "./signals.js";
import {MEMORY, allMemory, readPages} from "./snapshot.js";

// Milliseconds for a cell, and the most bytes and names in one: a cell has 65,537 lines and a mebibyte at most.
const PATIENCE = 20000, BYTES_A_CELL = 16384, NAMES_A_CELL = 15000;

// ---- cells that no frontend shows

const waiting = new Map();

/** Runs a cell, and waits for its reply. It has no number and no output. Fails with a Refusal. */
function runSilently(code) {
    const content = {code, silent: true, store_history: false, allow_stdin: false, stop_on_error: false, user_expressions: {}};
    if (!isOpen()) return Promise.reject(new Refusal("execute", "Lost"));
    const request = send("shell", "execute_request", content);
    return new Promise((done, fail) => {
        const timer = setTimeout(() => settle(request, {status: "error", ename: "Lost"}), PATIENCE);
        waiting.set(request, {done, fail, timer});
    });
}

function settle(request, {status, ename, evalue}) {
    const {done, fail, timer} = waiting.get(request);
    waiting.delete(request);
    clearTimeout(timer);
    if (status === "ok") done();
    else fail(new Refusal("execute", evalue ? `${ename} ${evalue}` : ename));
}

on("message", ({header, parent_header: parent, content}) => {
    if (header.msg_type === "execute_reply" && waiting.has(parent.msg_id)) settle(parent.msg_id, content);
});

on("forget", () => { for (const request of [...waiting.keys()]) settle(request, {status: "error", ename: "Lost"}); });

const number = value => "0" + addressText(value);

// ---- parts of a board

/** A cell that puts values into lamps and registers and halts in front of the snapshot's PC. Its bytes don't stay: memory is
 *  restored after it. */
function registersCell({registers, flags, devices}) {
    const of = {registers, flags}, word = (high, low) => number(register(high, of) * 256 + register(low, of));
    const halt = register("PC", of) + MEMORY - 1 & MEMORY - 1, place = halt >= 0x100 && halt < 0x200 ? 0x200 : 0x100;
    const words = number(place + 0x80), status = number(register("A", of) * 256 + flagByte(of));
    const lines = [`ORG ${number(place)}`, `MVI A,${valueOf(devices, "lamps")}`, "OUT 2", `LXI SP,${words}`, "POP PSW",
        `LXI B,${word("B", "C")}`, `LXI D,${word("D", "E")}`, `LXI H,${word("H", "L")}`, `LXI SP,${number(register("SP", of))}`,
        `JMP ${number(halt)}`, `ORG ${words}`, `DW ${status}`, `ORG ${number(halt)}`, "HLT", `END ${number(place)}`];
    return lines.map(each => each + "\n").join("");
}

const valueOf = (values, name) => (values.find(each => each.name === name) || {value: "0"}).value;

async function defineSymbols(symbols) {
    for (let from = 0; from < symbols.length; from += NAMES_A_CELL) {
        const some = symbols.slice(from, from + NAMES_A_CELL);
        await runSilently(some.map(({name, value}) => `${name} EQU ${number(numberOf(value))}\n`).join("") + "END\n");
    }
}

const DEFINED = /^[ \t]*([A-Za-z?@][A-Za-z0-9?@]*)(?:[ \t]*:|[ \t]+(?:EQU|SET)\b)/gim;

/** Loads the texts, so that the addresses have their lines, and runs none. One that would add a name was never loaded, and is left
 *  out; the bytes of one that is refused come with the memory. */
async function loadTexts(texts, symbols) {
    const names = new Set(symbols.map(each => each.name));
    for (const [, text] of texts) {
        const code = withoutStart(text), defined = Array.from(text.matchAll(DEFINED), match => match[1].toUpperCase());
        if (hasStart(code) || defined.some(each => !names.has(each))) continue;
        await runSilently(code).catch(fault => { if (fault.message === "Lost") throw fault; });
    }
}

/** A text without the start of its END, so that it is loaded and not run. */
export function withoutStart(text) {
    const lines = text.split("\n");
    const at = lines.findIndex((line, count) => /\bEND\s+\S/i.test(line) && hasStart(lines.slice(0, count + 1).join("\n")));
    if (at >= 0) lines[at] = lines[at].replace(/\bEND\b.*/i, "END");
    return lines.join("\n");
}

/** Puts the bytes in memory that differ; the others keep the lines of their texts. Returns how many differ then, of which there
 *  should be none. */
async function putMemory(memory) {
    const now = await allMemory(), different = () => [...memory.keys()].filter(at => memory[at] !== now[at]), places = different();
    for (let from = 0; from < places.length; from += BYTES_A_CELL) {
        await runSilently(cellOf(new Map(places.slice(from, from + BYTES_A_CELL).map(at => [at, memory[at]]))));
    }
    await readPages(now, [...new Set(places.map(at => at >> 8))]);
    return different().length;
}

/** The symbols that the board doesn't have with these values. */
async function symbolsLeft(symbols) {
    const now = new Map((await allSymbols()).map(({name, value}) => [name, value]));
    return symbols.filter(({name, value}) => now.get(name) !== value);
}

async function setDevices({devices, aliases}) {
    await debug("boardSwitches", {value: numberOf(valueOf(devices, "switches"))});
    const latched = valueOf(devices, "latched");
    if (latched !== "none") await debug("boardPress", {vector: Number(latched)});
    if (aliases === "") return;
    await debug("boardAliases", {aliases: aliases === "true"});
    byId("aliases").value = aliases;
}

async function setBreakpoints({breakpoints, isAttached}) {
    if (isAttached) await attach();
    for (const {path, text, lines} of breakpoints) {
        if (!known.texts.has(path)) keepText(path, {text});
        await changeBreakpoints(path, () => lines);
    }
}

function keepTexts({texts, cell}) {
    for (const [path, text, count] of texts) if (!known.texts.has(path)) keepText(path, {text, count, fault: null});
    if (byId("cell").value.trim() !== "") return;
    byId("cell").value = cell;
    keepCell();
}

// ---- all of it

/** Gives a snapshot to the board, which must be idle. Returns what it couldn't give, as texts; fails with a Refusal. */
export async function restoreBoard(snapshot) {
    if (board.running === undefined) throw new Refusal("execute", t("it isn't known yet whether a cell runs; try again"));
    if (board.running || board.stopped) throw new Refusal("execute", t("a cell runs; end it first"));
    await debug("boardReset");
    await runSilently(registersCell(snapshot));
    await defineSymbols(snapshot.symbols);
    await loadTexts(snapshot.texts, snapshot.symbols);
    await defineSymbols(await symbolsLeft(snapshot.symbols));
    const bytes = await putMemory(snapshot.memory);
    await setDevices(snapshot);
    await setBreakpoints(snapshot);
    keepTexts(snapshot);
    lookState.symbolsAreStale = true;
    lookSoon(0);
    const left = [bytes > 0 ? t("{0} bytes of memory", [bytes]) : "", ...await differences(snapshot), ...lost(snapshot)];
    return left.filter(each => each !== "");
}

/** The symbols and registers that should be as in the snapshot, and aren't. */
async function differences({symbols, registers}) {
    const [left, values] = await Promise.all([symbolsLeft(symbols), variables(1)]);
    const others = registers.filter(({name, value}) => valueOf(values, name) !== value).map(each => each.name);
    return [left.length > 0 ? t("{0} of the symbols", [left.length]) : "", others.join(", ")];
}

// What a snapshot says of a run that its board had.
const RUNS = {
    "was stopped": t("the program that was stopped, with its call stack"),
    "waited for a button": t("the program that waited for a button, with its call stack"),
};

/** What no request can give to a board. */
function lost({run, flags, devices}) {
    const waits = Number(valueOf(devices, "waiting")), isOn = valueOf(flags, "INTE") !== "off";
    return [RUNS[run] || "", isOn ? t("that interrupts were on") : "",
        waits > 0 ? t("{0} typed characters that no program had read", [waits]) : "", t("the cells' numbers")];
}
