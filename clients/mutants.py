"""Mutants of a cell's text: the cell with one thing changed, as a slip would change it."""
import re

CONDITIONS = ("NZ", "Z", "NC", "C", "PO", "PE", "P", "M")
REGISTERS = ("B", "C", "D", "E", "H", "L", "M", "A")

# Instructions of which any may stand in the place of another.
FAMILIES = (
    ("ADD", "ADC", "SUB", "SBB", "ANA", "XRA", "ORA", "CMP"), ("ADI", "ACI", "SUI", "SBI", "ANI", "XRI", "ORI", "CPI"),
    ("INR", "DCR"), ("INX", "DCX"), ("RLC", "RRC", "RAL", "RAR"), ("STC", "CMC", "CMA", "NOP", "DAA"), ("PUSH", "POP"),
    ("LDA", "STA"), ("LHLD", "SHLD"), ("LDAX", "STAX"), ("DI", "EI"), ("IN", "OUT"),
    *((*(word[0] + condition for condition in CONDITIONS), word) for word in ("JMP", "CALL", "RET")),
)

WITH_PAIRS = ("PUSH", "POP", "DAD", "INX", "DCX", "LXI", "LDAX", "STAX")
PAIRS_OF = {"PUSH": ("B", "D", "H", "PSW"), "POP": ("B", "D", "H", "PSW"), "LDAX": ("B", "D"), "STAX": ("B", "D")}
DIRECTIVES = ("ORG", "EQU", "SET", "END")

# A label, a word, and its operands; and one operand.
STATEMENT = re.compile(r"((?:[\w@?]+:)?\s*)([A-Z]+)(?:\s+([^;]*?))?\s*(?:;.*)?$")
OPERAND = re.compile(r"(?:'(?:[^']|'')*'|[^,'])+")


def others(family, one):
    return [it for it in family if it != one]


def operands_changed(word, operands):
    """The operands with one of them changed, for each change."""
    for at, each in enumerate(operands):
        each = each.strip()
        if word in WITH_PAIRS and at == 0:
            found = others(PAIRS_OF.get(word, ("B", "D", "H", "SP")), each)
        elif each in REGISTERS and word not in ("DB", "DW", "JMP", "CALL"):
            found = others(REGISTERS, each)
        elif word in FAMILIES[-3] + FAMILIES[-2]:
            found = []
        else:
            found = [f"({each})+1", f"({each})-1"]
        for other in found:
            yield ",".join([*operands[:at], other, *operands[at + 1:]])


def statement_changed(label, word, operands):
    """What may stand in place of a statement."""
    told = ",".join(operands)
    if word not in ("DB", "DW", "DS"):
        yield f"{label}NOP"
    for family in FAMILIES:
        if word in family:
            yield from (f"{label}{other} {told}".rstrip() for other in others(family, word))
    for other in operands_changed(word, operands):
        yield f"{label}{word} {other}"


def mutants(text):
    """What was changed in which line, and the text: for each instruction another one, none, other operands, and its exchange with
    that of the next line."""
    lines = text.splitlines()
    parts = [STATEMENT.match(line) for line in lines]
    for at, found in enumerate(parts):
        if found is None or found[2] in DIRECTIVES or f" {found[3]} ".startswith((" EQU ", " SET ")):
            continue
        label, word, operands = found[1] or "        ", found[2], OPERAND.findall(found[3] or "")
        for line in statement_changed(label, word, operands):
            yield f"line {at + 1}: {line.strip()}", "\n".join([*lines[:at], line, *lines[at + 1:]])
        below = parts[at + 1] if at + 1 < len(lines) else None
        if below and word not in ("DB", "DW", "DS") and below[2] not in DIRECTIVES + ("DB", "DW", "DS"):
            here, there = (f"{it[2]} {it[3] or ''}".rstrip() for it in (found, below))
            if here != there:
                swapped = [f"{label}{there}", f"{below[1] or '        '}{here}"]
                yield f"line {at + 1}: exchanged with the next", "\n".join([*lines[:at], *swapped, *lines[at + 2:]])
