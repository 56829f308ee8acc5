// Where the texts of cells lie in memory: the address of each statement, as far as it can be told without an assembler. Addresses
// come from the kernel's symbols and from ORG, lengths from the cards and from the operands of DB, DW and DS. Where an expression
// is more than a sum, the next label tells again.
import {cards} from "../cards.js";
import {tokens, valueOf} from "../shared.js";

export const MEMORY = 65536;
export const CODE = 1, DATA = 2;

const LENGTHS = new Map(cards.map(({mnemonic, bytes}) => [mnemonic, bytes]));

// ---- opcodes

const WITH_A = "ADD ADC SUB SBB ANA XRA ORA CMP".split(" "), WITH_BYTE = "ADI ACI SUI SBI ANI XRI ORI CPI".split(" ");
const MOVES = "STAX LDAX STAX LDAX SHLD LHLD STA LDA".split(" "), TURNS = "RLC RRC RAL RAR DAA CMA STC CMC".split(" ");
const CONDITIONS = "NZ Z NC C PO PE P M".split(" "), PAIRS = "POP RET POP - POP PCHL POP SPHL".split(" ");
const REST = "JMP - OUT IN XTHL XCHG DI EI".split(" ");

// By an opcode's last three bits, the mnemonics of those from 00 on and of those from C0 on; `at` is its middle three bits.
const LOW = [at => at === 0 ? "NOP" : "-", at => at & 1 ? "DAD" : "LXI", at => MOVES[at], at => at & 1 ? "DCX" : "INX",
    () => "INR", () => "DCR", () => "MVI", at => TURNS[at]];
const HIGH = [at => "R" + CONDITIONS[at], at => PAIRS[at], at => "J" + CONDITIONS[at], at => REST[at], at => "C" + CONDITIONS[at],
    at => at & 1 ? at === 1 ? "CALL" : "-" : "PUSH", at => WITH_BYTE[at], () => "RST"];

/** The mnemonic of an opcode; `-` for one that Intel leaves undefined. */
export function mnemonicOf(opcode) {
    const at = opcode >> 3 & 7, last = opcode & 7;
    return [() => LOW[last](at), () => opcode === 0x76 ? "HLT" : "MOV", () => WITH_A[at], () => HIGH[last](at)][opcode >> 6]();
}

// ---- statements

/** The parts of a line: its label, the name that EQU or SET defines, its operation, and its operands, each a list of tokens. */
function partsOf(line) {
    const found = tokens(line).filter(({kind, text}) => kind !== "comment" && text.trim() !== ""), parts = {label: "", name: ""};
    const take = count => found.splice(0, count)[0].text.toUpperCase();
    if (found.length > 1 && found[1].text === ":") parts.label = take(2);
    if (found.length > 1 && /^(?:EQU|SET)$/i.test(found[1].text)) parts.name = take(1);
    return {...parts, operation: found.length > 0 ? take(1) : "", operands: operandsOf(found)};
}

function operandsOf(found) {
    const operands = found.length > 0 ? [[]] : [];
    for (const token of found) {
        if (token.text === ",") operands.push([]);
        else operands[operands.length - 1].push(token);
    }
    return operands;
}

/** The characters of a string as it is written. */
const charactersOf = text => text.slice(1, -1).replaceAll("''", "'");

const wordOf = text => [...text].reduce((sum, each) => sum * 256 + each.charCodeAt(0), 0);

/** The value of a sum of numbers, names and characters; undefined for any other expression. */
function sumOf(operand, valueOfName) {
    let sum = 0, sign = 1, isTermNext = true;
    for (const token of operand) {
        const isSign = token.text === "+" || token.text === "-";
        if (isSign === isTermNext && !isSign) return undefined;
        if (isSign) sign = (isTermNext ? sign : 1) * (token.text === "-" ? -1 : 1);
        else sum += sign * termOf(token, valueOfName);
        isTermNext = isSign;
    }
    return isTermNext || Number.isNaN(sum) ? undefined : sum & MEMORY - 1;
}

function termOf({text, kind}, valueOfName) {
    if (kind === "number") return valueOf(text) ?? NaN;
    if (kind === "string") return text.length < 6 ? wordOf(charactersOf(text)) : NaN;
    return (text === "$" || kind === "name" ? valueOfName(text.toUpperCase()) : undefined) ?? NaN;
}

// ---- a text

/** The places of a text's statements. `symbol` returns the kernel's value of a name, or undefined if that is another text's. */
class Reader {
    constructor(symbol) {
        Object.assign(this, {symbol, names: new Map(), place: 0, open: [], statements: [], stacks: [], isOver: false});
        this.value = operand => operand && sumOf(operand, name => this.nameValue(name));
    }

    nameValue(name) {
        return name === "$" ? this.place : this.names.has(name) ? this.names.get(name) : this.symbol(name);
    }

    read(line) {
        const {label, name, operation, operands} = partsOf(line), work = DIRECTIVES[operation];
        if (this.choose(operation, operands)) return;
        if (label) this.place = this.symbol(label) ?? this.place;
        if (name) this.names.set(name, this.value(operands[0]));
        else if (work) work(this, operands);
        else if (LENGTHS.has(operation)) this.instruction(operation, operands);
    }

    /** Takes IF, ELSE and ENDIF. Returns whether the line was one, or isn't assembled, or it isn't known whether it is. */
    choose(operation, operands) {
        const {open} = this, value = operation === "IF" ? this.value(operands[0]) : undefined;
        if (operation === "IF") open.push(value === undefined ? undefined : value !== 0);
        else if (operation === "ELSE" && open.length > 0) open.push(flipped(open.pop()));
        else if (operation === "ENDIF") open.pop();
        if (open.includes(undefined)) this.place = undefined;
        return ["IF", "ELSE", "ENDIF"].includes(operation) || open.some(each => each !== true);
    }

    /** Adds a statement of some bytes. What memory must have there is given by functions of its bytes, one for each offset. */
    add(kind, length, checks = []) {
        if (this.place !== undefined && length > 0) this.statements.push({at: this.place, length, kind, checks});
        this.skip(length);
    }

    skip(length) {
        this.place = this.place === undefined || length === undefined ? undefined : this.place + length & MEMORY - 1;
    }

    instruction(mnemonic, operands) {
        const [[first] = [], second] = operands;
        if (mnemonic === "LXI" && first && first.text.toUpperCase() === "SP") this.stacks.push(this.value(second));
        this.add(CODE, LENGTHS.get(mnemonic), [byte => mnemonicOf(byte) === mnemonic]);
    }
}

const flipped = isTaken => isTaken === undefined ? undefined : !isTaken;

const isString = operand => operand.length === 1 && operand[0].kind === "string";

/** The bytes of an operand of DB, undefined for those that aren't known. */
function bytesOf(reader, operand) {
    if (isString(operand)) return [...charactersOf(operand[0].text)].map(each => each.charCodeAt(0));
    const value = reader.value(operand);
    return [value === undefined ? undefined : value & 255];
}

const DIRECTIVES = {
    ORG: (reader, [place]) => { reader.place = reader.value(place); },
    DS: (reader, [count]) => reader.add(DATA, reader.value(count)),
    DW: (reader, words) => reader.add(DATA, 2 * words.length),
    DB: (reader, operands) => {
        const bytes = operands.flatMap(each => bytesOf(reader, each));
        reader.add(DATA, bytes.length, bytes.map(each => byte => each === undefined || byte === each));
    },
    END: reader => { reader.isOver = true; },
};

/** The statements of a text that take memory, each {at, length, kind, checks}, and the places at which it sets the stack. */
export function layoutOf(text, symbol) {
    const reader = new Reader(symbol);
    for (const line of text.split(/\r?\n/)) {
        reader.read(line);
        if (reader.isOver) break;
    }
    return {statements: reader.statements, stacks: reader.stacks.filter(each => each !== undefined)};
}

/** Whether memory still has a text, or most of it: a program may have changed its data, and some of its code. */
export function isLoaded({statements}, bytes) {
    let known = 0, same = 0;
    for (const {at, checks} of statements) {
        known += checks.length;
        same += checks.filter((isAsLoaded, offset) => isAsLoaded(bytes[at + offset & MEMORY - 1])).length;
    }
    return same * 2 >= known;
}
