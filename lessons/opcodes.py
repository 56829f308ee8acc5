"""The reference card's tables: the instruction of each opcode, the characters of ASCII, and the sixteen hexadecimal digits."""
import html

REGISTERS = ("B", "C", "D", "E", "H", "L", "M", "A")
PAIRS = ("B", "D", "H", "SP")
CONDITIONS = ("NZ", "Z", "NC", "C", "PO", "PE", "P", "M")
ROTATES = ("RLC", "RRC", "RAL", "RAR", "DAA", "CMA", "STC", "CMC")
OPERATIONS = ("ADD", "ADC", "SUB", "SBB", "ANA", "XRA", "ORA", "CMP")
IMMEDIATE = ("ADI", "ACI", "SUI", "SBI", "ANI", "XRI", "ORI", "CPI")

# What has no pattern, by opcode.
ALONE = {
    0x00: "NOP", 0x22: "SHLD a", 0x2A: "LHLD a", 0x32: "STA a", 0x3A: "LDA a", 0x76: "HLT", 0xC3: "JMP a", 0xC9: "RET",
    0xCD: "CALL a", 0xD3: "OUT p", 0xDB: "IN p", 0xE3: "XTHL", 0xE9: "PCHL", 0xEB: "XCHG", 0xF3: "DI", 0xF9: "SPHL", 0xFB: "EI"}

# The characters that aren't printed: those below 20H, and the last one.
CONTROLS = ("NUL SOH STX ETX EOT ENQ ACK BEL BS HT LF VT FF CR SO SI DLE DC1 DC2 DC3 DC4 NAK SYN ETB CAN EM SUB ESC FS GS RS US"
            .split())


def low(opcode):
    """An instruction below 40H."""
    pair, register, kind = PAIRS[opcode >> 4], REGISTERS[opcode >> 3 & 7], opcode & 7
    if kind in (1, 3):
        return f"{('LXI', 'INX', 'DAD', 'DCX')[opcode >> 2 & 2 | opcode >> 1 & 1]} {pair}{',w' * (opcode & 15 == 1)}"
    if kind == 2:
        return f"{'LDAX' if opcode & 8 else 'STAX'} {pair}"
    if kind == 7:
        return ROTATES[opcode >> 3]
    return {4: f"INR {register}", 5: f"DCR {register}", 6: f"MVI {register},b"}.get(kind, "")


def high(opcode):
    """An instruction from C0H on."""
    row, pair = opcode >> 3 & 7, ("B", "D", "H", "PSW")[opcode >> 4 & 3]
    conditional = {0: "R", 2: "J", 4: "C"}.get(opcode & 7)
    if conditional:
        return f"{conditional}{CONDITIONS[row]}{' a' * (conditional != 'R')}"
    if opcode & 15 in (1, 5):
        return f"{'PUSH' if opcode & 4 else 'POP'} {pair}"
    return {6: f"{IMMEDIATE[row]} b", 7: f"RST {row}"}.get(opcode & 7, "")


def instruction(opcode):
    """The instruction of an opcode, with b, w, a and p for a byte, a word, an address and a port; empty for the undefined ones."""
    if opcode in ALONE:
        return ALONE[opcode]
    if opcode < 0x40:
        return low(opcode)
    if opcode < 0x80:
        return f"MOV {REGISTERS[opcode >> 3 & 7]},{REGISTERS[opcode & 7]}"
    return f"{OPERATIONS[opcode >> 3 & 7]} {REGISTERS[opcode & 7]}" if opcode < 0xC0 else high(opcode)


def character(code):
    """The name of a character of ASCII."""
    return CONTROLS[code] if code < 32 else "DEL" if code == 127 else "blank" if code == 32 else chr(code)


def matrix(kind, columns, rows, content):
    """A table with the left digit of a number above its columns and the right one beside its rows, or the other way round."""
    head = "".join(f'<th scope="col">{column}</th>' for column in columns)
    body = []
    for row in rows:
        cells = "".join(f"<td>{content(column, row)}</td>" for column in columns)
        body.append(f'<tr><th scope="row">{row}</th>{cells}</tr>')
    return "\n".join([f'<table class="{kind}">', f"<thead><tr><td></td>{head}</tr></thead>", "<tbody>", *body, "</tbody></table>"])


def opcodes():
    """The table of opcodes: the left digit beside the rows, the right one above the columns."""
    def cell(column, row):
        word, _, operands = instruction(int(row + column, 16)).partition(" ")
        return f"<b>{word}</b> {operands}".strip() if word else ""

    return matrix("opcodes", "0123456789ABCDEF", "0123456789ABCDEF", cell)


def characters():
    """The table of ASCII: the left digit above the columns, the right one beside the rows."""
    return matrix("ascii", "01234567", "0123456789ABCDEF", lambda column, row: html.escape(character(int(column + row, 16))))


def digits():
    """The sixteen digits in hexadecimal, binary and decimal, and the weight of each as a left digit."""
    rows = [f"<tr><td>{digit:X}</td><td>{digit:04b}</td><td>{digit}</td><td>{16 * digit}</td></tr>" for digit in range(16)]
    head = "".join(f'<th scope="col">{word}</th>' for word in ("hex", "binary", "decimal", "times 16"))
    return "\n".join(['<table class="digits">', f"<thead><tr>{head}</tr></thead>", "<tbody>", *rows, "</tbody>", "</table>"])
