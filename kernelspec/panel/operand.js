// The bytes of memory that an instruction names: by M, by a pair, by an address, or those that it puts on the stack.
import {numberOf} from "./dom.js";

const MEMORY = 65536;

const valueIn = (registers, name) => numberOf((registers.find(each => each.name === name) || {value: "0"}).value);

/** A part of memory that may go around its end, as pieces {start, count} that don't. */
function pieces(at, count) {
    const start = at & MEMORY - 1, first = Math.min(count, MEMORY - start);
    return first === count ? [{start, count}] : [{start, count: first}, {start: 0, count: count - first}];
}

const FORMS = [
    [/^(?:MOV|MVI|INR|DCR|ADD|ADC|SUB|SBB|ANA|XRA|ORA|CMP) (?:M\b|[A-L],M$)/, pair => pieces(pair("H", "L"), 1)],
    [/^(?:LDAX|STAX) B/, pair => pieces(pair("B", "C"), 1)],
    [/^(?:LDAX|STAX) D/, pair => pieces(pair("D", "E"), 1)],
    [/^(?:LDA|STA) (\w+)H$/, (_, at) => pieces(numberOf(at), 1)],
    [/^(?:LHLD|SHLD) (\w+)H$/, (_, at) => pieces(numberOf(at), 2)],
    [/^(?:PUSH|CALL|RST|C(?:NZ|Z|NC|C|PO|PE|P|M)) /, (_, __, sp) => pieces(sp - 2, 2)],
];

/** The pieces of memory that an instruction, as it is disassembled, uses besides what is on the stack already. */
export function operandOf(instruction, registers) {
    const pair = (high, low) => valueIn(registers, high) * 256 + valueIn(registers, low);
    for (const [form, find] of FORMS) {
        const found = form.exec(instruction);
        if (found) return find(pair, found[1], valueIn(registers, "SP"));
    }
    return [];
}
