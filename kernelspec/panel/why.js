// What an instruction did, in sentences with its numbers: its result, and why each flag is what it is. An instruction is worked out
// again from the values before it, and nothing is said unless that gives the values after it: then several instructions ran, or
// something was changed by hand. An ES module without dependencies.
//
// Values are numbers by the names of registers and flags; `INTE` is 0 if interrupts are off. `memory` in them returns the byte at
// an address, or undefined if nobody has looked at it.

// How a sentence is said, with values in the place of {0}: in English, unless a page sets another function.
let t = (text, values = []) => text.replace(/\{(\w+)\}/g, (whole, name) => values[name] ?? whole);

/** Sets the function that translates sentences, with the same arguments. */
export const speakBy = translate => { t = translate; };

const hex = (value, digits = 2) => value.toString(16).toUpperCase().padStart(digits, "0") + "H";
const word = value => hex(value, 4);
const digit = value => hex(value, 1);
const binary = value => value.toString(2).padStart(8, "0");
const ones = value => value.toString(2).replaceAll("0", "").length;

// ---- the sentences

const is = (isSo, yes, no) => isSo ? yes : no;
const carried = carry => is(carry, " + 1", "");
const borrowed = borrow => is(borrow, " - 1", "");
const like = (most, value) => hex(value, is(most > 255, 4, 2));

/** A sum, and what is left of it in a register that it doesn't fit in. */
const cut = (said, name, sum, most) => sum > most ? t("{0}, so {1} gets {2}", [said, name, like(most, sum & most)]) : said;
const withBorrow = (said, isSo, by) => isSo ? t("{0}, with a borrow of {1}", [said, hex(by)]) : said;

// What became of the values.
const RESULTS = {
    sum: (a, b, carry, sum) => cut(`${hex(a)} + ${hex(b)}${carried(carry)} = ${hex(sum)}`, "A", sum, 255),
    difference: (a, b, borrow, left) =>
        withBorrow(`${hex(is(left < 0, a + 256, a))} - ${hex(b)}${borrowed(borrow)} = ${hex(left & 255)}`, left < 0, 256),
    compared(a, b) {
        if (a === b) return t("A, {0}, equals {1}. A stays", [hex(a), hex(b)]);
        return a < b ? t("A, {0}, is below {1}. A stays", [hex(a), hex(b)]) : t("A, {0}, is above {1}. A stays", [hex(a), hex(b)]);
    },
    logic: (a, name, b, result) => `${hex(a)} ${name} ${hex(b)} = ${hex(result)}`,
    up: (name, value, most) =>
        cut(`${name}: ${like(most, value)} + 1 = ${like(most, value + 1)}`, name, value + 1, most),
    down: (name, value, most) =>
        withBorrow(`${name}: ${like(most, is(value === 0, most + 1, value))} - 1 = ${like(most, value - 1 & most)}`, value === 0, most + 1),
    pairs: (hl, name, value, sum) => cut(`HL + ${name}: ${word(hl)} + ${word(value)} = ${word(sum)}`, "HL", sum, 65535),
    adjusted: (a, more, sum) => more === 0 ? t("A, {0}, has two decimal digits already", [hex(a)])
        : cut(`${hex(a)} + ${hex(more)} = ${hex(sum)}`, "A", sum, 255),
    rotated: (a, isLeft, result) => isLeft ? t("{0} turns left to {1}", [hex(a), hex(result)])
        : t("{0} turns right to {1}", [hex(a), hex(result)]),
    inverted: (a, result) => t("{0} inverted is {1}", [hex(a), hex(result)]),
    carrySet: () => t("CY is set"),
    carryInverted: () => t("CY is inverted"),
    got: (name, value, from) => from ? t("{0} gets {1} from {2}", [name, value, from]) : t("{0} gets {1}", [name, value]),
    exchanged: (one, first, other, second) => t("{0} gets {1} and {2} {3}: they change places", [one, word(first), other, word(second)]),
    pushed: (name, value, sp) => t("{0}, which is {1}, goes to the stack at {2}", [word(value), name, word(sp)]),
    popped: (name, value, sp) => t("{0} gets {1} from the stack at {2}", [name, word(value), word(sp)]),
    jumps: to => t("goes to {0}", [word(to)]),
    calls: (to, back) => t("goes to {0}, with the return address {1} on the stack", [word(to), word(back)]),
    returns: to => t("goes back to {0}, the word on the stack", [word(to)]),
    taken: (flag, value, what) => t("{0} is {1}, so it {2}", [flag, value, what]),
    passed: (flag, value) => t("{0} is {1}, so the next instruction follows", [flag, value]),
    reads: (value, port) => port === 2 ? t("A gets {0} from port 2, the switches", [hex(value)])
        : t("A gets {0} from port {1}", [hex(value), port]),
    writes(value, port) {
        if (port === 1) return t("port 1, the console, gets {0} from A", [hex(value)]);
        if (port === 2) return t("port 2, the lamps, gets {0} from A", [hex(value)]);
        return t("port {1} gets {0} from A", [hex(value), port]);
    },
    enabled: () => t("interrupts are on after the next instruction"),
    disabled: () => t("interrupts are off"),
    nothing: () => t("nothing changes"),
    interrupted: (vector, back) => t("a button asked for RST {0}, which goes to {1}, with the return address {2} on the stack. "
        + "Interrupts are off", [vector, word(8 * vector), word(back)]),
};

// Why a flag is what it is.
const REASONS = {
    sign: value => t("bit 7 of {0} is {1}", [hex(value), value >> 7]),
    zero: value => value === 0 ? t("the result is 00H") : t("{0} isn't zero", [hex(value)]),
    parity(value) {
        const count = ones(value), given = [hex(value), binary(value), count];
        if (count === 1) return t("{0} is {1} in binary, with {2} one bit, an odd number", given);
        return count % 2 === 1 ? t("{0} is {1} in binary, with {2} one bits, an odd number", given)
            : t("{0} is {1} in binary, with {2} one bits, an even number", given);
    },
    above: (sum, most) => sum > most ? t("{0} is above {1}", [like(most, sum), hex(most)])
        : t("{0} isn't above {1}", [like(most, sum), hex(most)]),
    digitsAdded(a, b, carry) {
        const sum = (a & 15) + (b & 15) + carry, said = `${digit(a & 15)} + ${digit(b & 15)}${carried(carry)} = ${digit(sum)}`;
        return sum > 15 ? t("the low digits {0}: a carry to the high digit", [said])
            : t("the low digits {0}: no carry to the high digit", [said]);
    },
    below(a, b, borrow) {
        const given = [hex(a), `${hex(b)}${carried(borrow)}`, `${a} - ${b}${borrowed(borrow)} = ${a - b - borrow}`];
        return a < b + borrow ? t("{0} is below {1}: a borrow ({2})", given) : t("{0} isn't below {1}: no borrow ({2})", given);
    },
    digitsSubtracted(a, b, borrow) {
        const said = [`${digit(a & 15)} - ${digit(b & 15)}${borrowed(borrow)}`];
        return (a & 15) < (b & 15) + borrow ? t("the low digits {0} borrow from the high digit, which AC shows by 0", said)
            : t("the low digits {0} borrow nothing, which AC shows by 1", said);
    },
    equal: (a, b) => a === b ? t("both are {0}", [hex(a)]) : t("{0} and {1} differ", [hex(a), hex(b)]),
    cleared: name => t("{0} always clears it", [name]),
    thirdBits: (a, b) => t("bit 3 is {0} in {1} and {2} in {3}, and AC is their OR", [a >> 3 & 1, hex(a), b >> 3 & 1, hex(b)]),
    digitWas: (value, which) => (value & 15) === which ? t("the low digit was {0}", [digit(value & 15)])
        : t("the low digit was {0}, not {1}", [digit(value & 15), digit(which)]),
    lost: (bit, value) => t("bit {0} of {1} was {2}", [bit, hex(value), value >> bit & 1]),
    set: () => t("STC sets it"),
    inverted: was => t("it was {0}", [was]),
    ofByte: (bit, value) => t("bit {0} of the byte {1} from the stack is {2}", [bit, hex(value), value >> bit & 1]),
    decimalCarry(a, carry) {
        if (carry) return t("it was 1, and stays");
        return a > 0x99 ? t("{0} was above 99H", [hex(a)]) : t("{0} wasn't above 99H", [hex(a)]);
    },
};

// How a result came about.
const NOTES = {
    bits: (a, name, b, result) => t("in binary: {0}", [`${binary(a)} ${name} ${binary(b)} = ${binary(result)}`]),
    lowDigit(a, half) {
        if ((a & 15) > 9) return t("06H is added: the low digit, {0}, is above 9", [digit(a & 15)]);
        return half ? t("06H is added: AC was 1") : t("06H isn't added: the low digit, {0}, isn't above 9, and AC was 0", [digit(a & 15)]);
    },
    highDigit(a, carry) {
        if (a > 0x99) return t("60H is added: {0} is above 99H", [hex(a)]);
        return carry ? t("60H is added: CY was 1") : t("60H isn't added: {0} isn't above 99H, and CY was 0", [hex(a)]);
    },
    around: (a, result, bit, to) => t("in binary: {0} becomes {1}; bit {2}, a {3}, goes to CY and to bit {4}",
        [binary(a), binary(result), bit, a >> bit & 1, to]),
    through: (a, result, bit, to, carry) => t("in binary: {0} becomes {1}; CY, which was {2}, goes to bit {3}, and bit {4} to CY",
        [binary(a), binary(result), carry, to, bit]),
    inverted: (a, result) => t("in binary: {0} becomes {1}", [binary(a), binary(result)]),
};

// What comes in place of an instruction.
const interrupt = () => t("Interrupt");

// What an instruction leaves as it was.
const KEPT = {
    none: () => t("No flag changes."), carry: () => t("CY stays as it was."), others: () => t("S, Z, AC and P stay as they were."),
};

// ---- values

/** A number as the disassembly writes it, 05AH or 0FFFEH; a vector is a single digit. */
const number = text => parseInt(text, 16);

export const REGISTERS = ["A", "B", "C", "D", "E", "H", "L", "SP", "PC"];
export const FLAGS = ["S", "Z", "AC", "P", "CY"];
const FLAG_BITS = {S: 7, Z: 6, AC: 4, P: 2, CY: 0};

const HALVES = {B: ["B", "C"], D: ["D", "E"], H: ["H", "L"]};
const NAMES = {B: "BC", D: "DE", H: "HL", SP: "SP", PSW: "PSW"};

const flagByte = m => FLAGS.reduce((byte, name) => byte | m[name] << FLAG_BITS[name], 2);

function pair(m, name) {
    if (name === "SP") return m.SP;
    if (name === "PSW") return m.A * 256 + flagByte(m);
    const [high, low] = HALVES[name];
    return m[high] * 256 + m[low];
}

function setPair(m, name, value) {
    const [high, low] = [value >> 8 & 255, value & 255];
    if (name === "SP") m.SP = value & 65535;
    else if (name !== "PSW") [m[HALVES[name][0]], m[HALVES[name][1]]] = [high, low];
    else Object.assign(m, {A: high}, Object.fromEntries(FLAGS.map(flag => [flag, low >> FLAG_BITS[flag] & 1])));
}

/** The word at an address, or undefined if nobody has looked at both of its bytes. */
function wordAt(m, at) {
    const [low, high] = [m.memory(at), m.memory(at + 1 & 65535)];
    return low === undefined || high === undefined ? undefined : high * 256 + low;
}

/** A register's value, or that of the byte in memory at HL, undefined if it isn't known. */
const valueOf = (m, name) => name === "M" ? m.memory(pair(m, "H")) : m[name];

const byteAt = at => t("the byte at {0}", [word(at)]), wordOf = at => t("the word at {0}", [word(at)]);

/** The name of a place: M says where it is. */
const placeOf = (m, name) => name === "M" ? byteAt(pair(m, "H")) : name;

function put(m, name, value) {
    if (name === "M") store(m, pair(m, "H"), value);
    else m[name] = value;
}

const store = (m, at, value) => m.wrote.push([at & 65535, value]);

function push(m, value) {
    m.SP = m.SP - 2 & 65535;
    store(m, m.SP, value & 255);
    store(m, m.SP + 1, value >> 8);
}

const pop = m => { m.SP = m.SP + 2 & 65535; };

// ---- flags

const evenOnes = value => Number(ones(value) % 2 === 0);

/** Sets S, Z and P by a result. Returns their reasons. */
function setByResult(m, value) {
    Object.assign(m, {S: value >> 7, Z: Number(value === 0), P: evenOnes(value)});
    return {S: REASONS.sign(value), Z: REASONS.zero(value), P: REASONS.parity(value)};
}

// ---- instructions: each changes the values as the processor does, and returns what is to be said, or null if that can't be known

function add(m, operand, after, carry) {
    const b = operand ?? (after.A - m.A - carry & 255), a = m.A, sum = a + b + carry;
    Object.assign(m, {A: sum & 255, CY: Number(sum > 255), AC: Number((a & 15) + (b & 15) + carry > 15)});
    const why = {...setByResult(m, m.A), AC: REASONS.digitsAdded(a, b, carry), CY: REASONS.above(sum, 255)};
    return {result: RESULTS.sum(a, b, carry, sum), why};
}

function subtract(m, b, borrow) {
    const a = m.A, left = a - b - borrow, result = left & 255;
    Object.assign(m, {CY: Number(left < 0), AC: Number((a & 15) >= (b & 15) + borrow)});
    const why = {...setByResult(m, result), AC: REASONS.digitsSubtracted(a, b, borrow), CY: REASONS.below(a, b, borrow)};
    return {a, left, why};
}

function sub(m, operand, after, borrow) {
    const b = operand ?? (m.A - after.A - borrow & 255), {a, left, why} = subtract(m, b, borrow);
    m.A = left & 255;
    return {result: RESULTS.difference(a, b, borrow, left), why};
}

function compare(m, b) {
    if (b === undefined) return null;
    const {a, why} = subtract(m, b, 0);
    return {result: RESULTS.compared(a, b), why: {...why, Z: REASONS.equal(a, b)}};
}

const LOGIC = {ANA: ["AND", (a, b) => a & b], XRA: ["XOR", (a, b) => a ^ b], ORA: ["OR", (a, b) => a | b]};

function logic(m, operand, after, kind, mnemonic) {
    const b = operand ?? (kind === "XRA" ? m.A ^ after.A : undefined), a = m.A, [name, work] = LOGIC[kind];
    if (b === undefined) return null;
    const isAnd = kind === "ANA";
    Object.assign(m, {A: work(a, b), CY: 0, AC: isAnd ? (a | b) >> 3 & 1 : 0});
    const cleared = REASONS.cleared(mnemonic), half = isAnd ? REASONS.thirdBits(a, b) : cleared;
    const why = {...setByResult(m, m.A), AC: half, CY: cleared};
    return {result: RESULTS.logic(a, name, b, m.A), notes: [NOTES.bits(a, name, b, m.A)], why};
}

function count(m, name, by) {
    const value = valueOf(m, name), place = placeOf(m, name);
    if (value === undefined) return null;
    const isUp = by > 0, low = isUp ? 15 : 0, result = value + by & 255;
    put(m, name, result);
    const why = {...setByResult(m, result), AC: REASONS.digitWas(value, low)};
    m.AC = Number(isUp === ((value & 15) === low));
    return {result: (isUp ? RESULTS.up : RESULTS.down)(place, value, 255), why, kept: KEPT.carry()};
}

function countPair(m, name, by) {
    const value = pair(m, name);
    setPair(m, name, value + by & 65535);
    return {result: (by > 0 ? RESULTS.up : RESULTS.down)(NAMES[name], value, 65535)};
}

function addPair(m, name) {
    const hl = pair(m, "H"), value = pair(m, name), sum = hl + value;
    setPair(m, "H", sum & 65535);
    m.CY = sum >> 16;
    return {result: RESULTS.pairs(hl, NAMES[name], value, sum), why: {CY: REASONS.above(sum, 65535)}, kept: KEPT.others()};
}

function adjust(m) {
    const {A: a, AC: half, CY: carry} = m, low = (a & 15) > 9 || half ? 6 : 0, high = a > 0x99 || carry ? 0x60 : 0;
    const sum = a + low + high;
    Object.assign(m, {A: sum & 255, AC: Number((a & 15) + low > 15), CY: Number(carry === 1 || a > 0x99)});
    const why = {...setByResult(m, m.A), AC: REASONS.digitsAdded(a, low, 0), CY: REASONS.decimalCarry(a, carry)};
    return {result: RESULTS.adjusted(a, low + high, sum), notes: [NOTES.lowDigit(a, half), NOTES.highDigit(a, carry)], why};
}

/** Turns A by a bit: the bit that goes out to CY, and what comes in at the other end, that bit or the old CY. */
function rotate(m, isLeft, isAround) {
    const {A: a, CY: carry} = m, [bit, to] = isLeft ? [7, 0] : [0, 7], out = a >> bit & 1, comes = isAround ? out : carry;
    m.A = (isLeft ? a << 1 & 255 : a >> 1) | comes << to;
    m.CY = out;
    const note = isAround ? NOTES.around(a, m.A, bit, to) : NOTES.through(a, m.A, bit, to, carry);
    const why = {CY: REASONS.lost(bit, a)};
    return {result: RESULTS.rotated(a, isLeft, m.A), notes: [note], why, kept: KEPT.others()};
}

function invert(m) {
    const a = m.A;
    m.A = a ^ 255;
    return {result: RESULTS.inverted(a, m.A), notes: [NOTES.inverted(a, m.A)]};
}

function setCarry(m, value, result, reason) {
    m.CY = value;
    return {result, why: {CY: reason}, kept: KEPT.others()};
}

/** Loads a byte into a register, or into M, from somewhere. */
function load(m, name, value, from = "") {
    if (value === undefined) return null;
    const place = placeOf(m, name);
    put(m, name, value);
    return {result: RESULTS.got(place, hex(value), from)};
}

function storeAt(m, at, value, name) {
    store(m, at, value);
    return {result: RESULTS.got(byteAt(at), hex(value), name)};
}

function loadPair(m, name, value, from = "") {
    setPair(m, name, value);
    return {result: RESULTS.got(NAMES[name], word(value), from)};
}

function storePair(m, at) {
    const value = pair(m, "H");
    store(m, at, m.L);
    store(m, at + 1, m.H);
    return {result: RESULTS.got(wordOf(at), word(value), "HL")};
}

function exchange(m) {
    const [de, hl] = [pair(m, "D"), pair(m, "H")];
    setPair(m, "D", hl);
    setPair(m, "H", de);
    return {result: RESULTS.exchanged("DE", hl, "HL", de)};
}

function exchangeWithStack(m, after) {
    const hl = pair(m, "H"), {SP: sp} = m, top = wordAt(m, sp) ?? pair(after, "H");
    store(m, sp, hl & 255);
    store(m, sp + 1, hl >> 8);
    setPair(m, "H", top);
    return {result: RESULTS.exchanged("HL", top, wordOf(sp), hl)};
}

function pushPair(m, name) {
    const value = pair(m, name);
    push(m, value);
    return {result: RESULTS.pushed(NAMES[name], value, m.SP)};
}

function popPair(m, name, after) {
    const {SP: sp} = m, value = wordAt(m, sp) ?? pair(after, name), low = value & 255;
    setPair(m, name, value);
    pop(m);
    const why = name === "PSW" ? Object.fromEntries(FLAGS.map(flag => [flag, REASONS.ofByte(FLAG_BITS[flag], low)])) : {};
    return {result: RESULTS.popped(NAMES[name], value, sp), why};
}

const CONDITIONS = {NZ: ["Z", 0], Z: ["Z", 1], NC: ["CY", 0], C: ["CY", 1], PO: ["P", 0], PE: ["P", 1], P: ["S", 0], M: ["S", 1]};

/** Does some work if the condition in a mnemonic's end holds. */
function conditionally(m, condition, work) {
    const [flag, wanted] = CONDITIONS[condition];
    if (m[flag] !== wanted) return {result: RESULTS.passed(flag, m[flag])};
    return {result: RESULTS.taken(flag, wanted, work().result)};
}

function jump(m, to) {
    m.PC = to;
    return {result: RESULTS.jumps(to)};
}

function call(m, to) {
    const back = m.PC;
    push(m, back);
    m.PC = to;
    return {result: RESULTS.calls(to, back)};
}

function goBack(m, after) {
    m.PC = wordAt(m, m.SP) ?? after.PC;
    pop(m);
    return {result: RESULTS.returns(m.PC)};
}

const nothing = result => ({result});

// By mnemonic: what is done to the values with the operands. The values afterwards tell what memory has where nobody has looked.
const WORK = {
    MOV: (m, [to, from], after) => load(m, to, valueOf(m, from) ?? after[to], placeOf(m, from)),
    MVI: (m, [to, value]) => load(m, to, number(value)),
    LXI: (m, [name, value]) => loadPair(m, name, number(value)),
    LDA: (m, [at], after) => load(m, "A", m.memory(number(at)) ?? after.A, byteAt(number(at))),
    STA: (m, [at]) => storeAt(m, number(at), m.A, "A"),
    LHLD: (m, [at], after) => loadPair(m, "H", wordAt(m, number(at)) ?? pair(after, "H"), wordOf(number(at))),
    SHLD: (m, [at]) => storePair(m, number(at)),
    LDAX: (m, [name], after) => load(m, "A", m.memory(pair(m, name)) ?? after.A, byteAt(pair(m, name))),
    STAX: (m, [name]) => storeAt(m, pair(m, name), m.A, "A"),
    XCHG: m => exchange(m),
    INR: (m, [name]) => count(m, name, 1),
    DCR: (m, [name]) => count(m, name, -1),
    INX: (m, [name]) => countPair(m, name, 1),
    DCX: (m, [name]) => countPair(m, name, -1),
    DAD: (m, [name]) => addPair(m, name),
    DAA: m => adjust(m),
    RLC: m => rotate(m, true, true),
    RRC: m => rotate(m, false, true),
    RAL: m => rotate(m, true, false),
    RAR: m => rotate(m, false, false),
    CMA: m => invert(m),
    STC: m => setCarry(m, 1, RESULTS.carrySet(), REASONS.set()),
    CMC: m => setCarry(m, 1 - m.CY, RESULTS.carryInverted(), REASONS.inverted(m.CY)),
    JMP: (m, [to]) => jump(m, number(to)),
    CALL: (m, [to]) => call(m, number(to)),
    RET: (m, _, after) => goBack(m, after),
    RST: (m, [vector]) => call(m, 8 * number(vector)),
    PCHL: m => jump(m, pair(m, "H")),
    PUSH: (m, [name]) => pushPair(m, name),
    POP: (m, [name], after) => popPair(m, name, after),
    XTHL: (m, _, after) => exchangeWithStack(m, after),
    SPHL: m => loadPair(m, "SP", pair(m, "H"), "HL"),
    IN: (m, [port], after) => nothing(RESULTS.reads(m.A = after.A, number(port))),
    OUT: (m, [port]) => nothing(RESULTS.writes(m.A, number(port))),
    EI: () => nothing(RESULTS.enabled()),
    DI: () => nothing(RESULTS.disabled()),
    NOP: () => nothing(RESULTS.nothing()),
};

// Operations with A: by the mnemonics with a register and with a byte.
const WITH_A = {
    ADD: "ADI", ADC: "ACI", SUB: "SUI", SBB: "SBI", ANA: "ANI", XRA: "XRI", ORA: "ORI", CMP: "CPI",
};

function workWithA(m, kind, mnemonic, value, after) {
    if (kind === "CMP") return compare(m, value);
    if (LOGIC[kind]) return logic(m, value, after, kind, mnemonic);
    const carry = kind === "ADC" || kind === "SBB" ? m.CY : 0;
    return (kind.startsWith("A") ? add : sub)(m, value, after, carry);
}

for (const [kind, immediate] of Object.entries(WITH_A)) {
    WORK[kind] = (m, [name], after) => workWithA(m, kind, kind, valueOf(m, name), after);
    WORK[immediate] = (m, [value], after) => workWithA(m, kind, immediate, number(value), after);
}
for (const condition of Object.keys(CONDITIONS)) {
    WORK[`J${condition}`] = (m, [to]) => conditionally(m, condition, () => jump(m, number(to)));
    WORK[`C${condition}`] = (m, [to]) => conditionally(m, condition, () => call(m, number(to)));
    WORK[`R${condition}`] = (m, _, after) => conditionally(m, condition, () => goBack(m, after));
}

// ---- an explanation

/** Whether the values that an instruction makes are those that were seen. */
function isSeen(m, after) {
    const isStored = ([at, value]) => (after.memory(at) ?? value) === value;
    return [...REGISTERS, ...FLAGS].every(name => m[name] === after[name]) && m.wrote.every(isStored);
}

/** The explanation of an interrupt that came where the program would have gone on at an address; null if none came. */
function interruption(back, before, after) {
    const m = {...before, PC: back & 65535, wrote: []}, vector = after.PC >> 3;
    if (!before.INTE || after.INTE || after.PC % 8 !== 0 || vector > 7) return null;
    call(m, after.PC);
    if (!isSeen(m, after)) return null;
    const said = {instruction: interrupt(), result: RESULTS.interrupted(vector, back), notes: [], flags: [], kept: KEPT.none()};
    return {...said, wrote: m.wrote, isInterrupt: true};
}

/**
 * What an instruction of a number of bytes did, from the values before and after it: {instruction, result, notes, flags, kept,
 * wrote, isInterrupt}, with each flag that it sets as {name, value, why}, and what it has stored as pairs of address and byte. Null
 * if the values after it aren't those that it makes, or it can't be told.
 */
export function explain(instruction, length, before, after) {
    const [, mnemonic, operands] = /^(\w+)\s*(.*)$/.exec(instruction.trim()) || [], work = WORK[mnemonic];
    const m = {...before, PC: before.PC + length & 65535, wrote: []};
    const said = work ? work(m, operands.split(","), after) : null;
    // an interrupt comes in place of an instruction, or ends the wait of HLT
    if (!said || !isSeen(m, after)) {
        return interruption(before.PC, before, after) || (mnemonic === "HLT" ? interruption(before.PC + 1, before, after) : null);
    }
    const {result, notes = [], why = {}, kept} = said, flags = FLAGS.filter(name => name in why);
    const told = flags.map(name => ({name, value: m[name], why: why[name]}));
    const more = {kept: kept || (flags.length === 0 ? KEPT.none() : ""), wrote: m.wrote, isInterrupt: false};
    return {instruction: instruction.trim(), result, notes, flags: told, ...more};
}
