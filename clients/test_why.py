"""What the front panel says of an instruction's result and flags, against the processor: `lab80 step` runs each operation with many
operands, and each sentence is worked out again from its own numbers."""
import itertools
import random
import re
import subprocess
import unittest

from browser import Browser
from jupyter_servers import free_port
from lab80_client import run
from modules import PATIENCE, TOP, run_with

FILE = TOP / "kernelspec/panel/why.js"
STEP = TOP / "crates/lab80_step/out/lab80_step"

# Operands that tell most: around the bounds of bytes, digits, signs and decimal digits.
EDGES = (0x00, 0x01, 0x09, 0x0A, 0x0F, 0x10, 0x11, 0x55, 0x7F, 0x80, 0x81, 0x90, 0x99, 0x9A, 0xA0, 0xAA, 0xF0, 0xFE, 0xFF)
WORDS = (0x0000, 0x0001, 0x00FF, 0x0100, 0x1234, 0x7FFF, 0x8000, 0xF000, 0xFFFE, 0xFFFF)

OPERATIONS = "ADD ADC SUB SBB ANA XRA ORA CMP".split()
IMMEDIATE = "ADI ACI SUI SBI ANI XRI ORI CPI".split()
REGISTERS = "BCDEHLMA"
PAIRS = ("B", "D", "H", "SP")
FLAGS = {"S": 7, "Z": 6, "AC": 4, "P": 2, "CY": 0}

# Where M is in these programs, and the steps of a case, with which a run of a thousand has many.
PLACE, STEPS, MOST = 0x8000, 10, 1_000

LINE = re.compile(r"PC=(\w+) A=(\w+) F=(\w+) B=(\w+) C=(\w+) D=(\w+) E=(\w+) H=(\w+) L=(\w+) SP=(\w+)")


def low_high(word):
    return bytes((word & 255, word >> 8))


class Case:
    """An instruction with the values before it. `m` is the byte at HL, or None where no case may name it."""

    def __init__(self, text, code, psw, m=None, **pairs):
        self.text, self.code, self.psw, self.m = text, bytes(code), psw, m
        self.pairs = {"B": 0x1122, "D": 0x3344, "H": PLACE if m is not None else 0x5566, "SP": 0x9000, **pairs}

    def program(self):
        """Sets everything, does it, and reads M: each in as many steps."""
        puts = b"\x21" + low_high(PLACE) + bytes((0x36, self.m or 0))
        sets = b"".join(bytes((opcode,)) + low_high(self.pairs[name]) for name, opcode in zip(PAIRS, (0x01, 0x11, 0x21, 0x31)))
        status = b"\x31\x00\x90\x21" + low_high(self.psw) + b"\xe5\xf1"
        return status + puts + sets + self.code


STEPS_BEFORE = 4 + 2 + 4


def states(printed):
    """The values after each step, by the names of registers and flags."""
    found = []
    for line in LINE.finditer(printed):
        pc, a, f, b, c, d, e, h, l, sp = (int(digits, 16) for digits in line.groups())
        flags = {name: f >> bit & 1 for name, bit in FLAGS.items()}
        found.append({"PC": pc, "A": a, "B": b, "C": c, "D": d, "E": e, "H": h, "L": l, "SP": sp, **flags, "INTE": 0})
    return found


def step(data):
    words = [STEP, "step"]
    printed = subprocess.run(words, input=data.hex().encode(), stdout=subprocess.PIPE, timeout=PATIENCE, check=False)
    return states(printed.stdout.decode())


def played(cases):
    """The cases with the values before and after each, from as few runs as possible."""
    many, found = MOST // (STEPS_BEFORE + 2), []
    for at in range(0, len(cases), many):
        some, data = cases[at:at + many], bytearray()
        for case in some:
            # MOV A,M tells the byte that an instruction has left there
            data += case.program() + b"\x7e"
        shown = step(bytes(data))
        for number, case in enumerate(some):
            last = number * (STEPS_BEFORE + 2) + STEPS_BEFORE - 1
            left = shown[last + 2]["A"]
            found.append((case, shown[last], shown[last + 1], left if case.m is not None else None))
    return found


def psws(a, carries=(0, 1), halves=(0,)):
    return [a << 8 | half << 4 | 2 | carry for carry, half in itertools.product(carries, halves)]


def cases_with_a():
    """Each operation with a register, with M and with a byte."""
    chance = random.Random()
    pairs = [*itertools.product(EDGES, EDGES), *((chance.randrange(256), chance.randrange(256)) for _ in range(60))]
    for number, name in enumerate(OPERATIONS):
        for a, b in pairs:
            for psw in psws(a):
                yield Case(f"{name} B", [0x80 | number << 3], psw, B=b << 8)
        for a, b in pairs[::9]:
            for psw in psws(a):
                yield Case(f"{name} M", [0x86 | number << 3], psw, m=b)
                yield Case(f"{IMMEDIATE[number]} 0{b:02X}H", [0xC6 | number << 3, b], psw)
        for a in EDGES:
            for psw in psws(a):
                yield Case(f"{name} A", [0x87 | number << 3], psw)


def cases_of_counts():
    for code, name in enumerate(REGISTERS):
        for value in range(256) if name in "BM" else EDGES:
            given = {"m": value} if name == "M" else {"psw": value << 8 | 3} if name == "A" else {
                {"B": "B", "C": "B", "D": "D", "E": "D", "H": "H", "L": "H"}[name]: value << 8 * (code % 2 == 0)}
            for carry in (0, 1):
                psw = given.get("psw", 0x5502 | carry)
                more = {key: each for key, each in given.items() if key != "psw"}
                yield Case(f"INR {name}", [0x04 | code << 3], psw, **more)
                yield Case(f"DCR {name}", [0x05 | code << 3], psw, **more)


def cases_of_a_alone():
    """DAA over all A, CY and AC; rotates, CMA, STC and CMC over all A and CY."""
    for a in range(256):
        for psw in psws(a, halves=(0, 1)):
            yield Case("DAA", [0x27], psw)
        for psw in psws(a):
            for name, code in (("RLC", 0x07), ("RRC", 0x0F), ("RAL", 0x17), ("RAR", 0x1F), ("CMA", 0x2F), ("STC", 0x37), ("CMC", 0x3F)):
                yield Case(name, [code], psw)


def cases_of_pairs():
    for one, other in itertools.product(WORDS, WORDS):
        for carry in (0, 1):
            for code, name in enumerate(PAIRS):
                given = {"H": one, name: other} if name != "H" else {"H": one}
                yield Case(f"DAD {name}", [0x09 | code << 4], 0x5502 | carry, **given)
    for word in WORDS:
        for psw in (0x5502, 0x5502 | 0xD5):
            for code, name in enumerate(PAIRS):
                yield Case(f"INX {name}", [0x03 | code << 4], psw, **{name: word})
                yield Case(f"DCX {name}", [0x0B | code << 4], psw, **{name: word})


def number(text):
    """A number of a sentence: hexadecimal with an H, or decimal."""
    return int(text[:-1], 16) if text.endswith("H") else int(text)


def total(text):
    """A sum or a difference: `9AH + 70H + 1`."""
    first, *rest = re.split(r" ([+-]) ", text)
    return number(first) + sum((1 if sign == "+" else -1) * number(part) for sign, part in zip(rest[::2], rest[1::2]))


def even_ones(value):
    return bin(value).count("1") % 2 == 0


H, TERMS = r"([0-9A-F]+H)", r"([0-9A-FH]+(?: [+-] [0-9A-FH]+)+)"

# Sentences on a flag: what they say in words, and the flag's value if their numbers are right; None if they are wrong.
REASONS = (
    (rf"bit 7 of {H} is ([01])", lambda value, bit: int(bit) if number(value) >> 7 == int(bit) else None),
    (r"the result is 00H|both are ([0-9A-F]+H)", lambda _: 1),
    (rf"{H} isn't zero", lambda value: 0 if number(value) else None),
    (rf"{H} and {H} differ", lambda one, other: 0 if one != other else None),
    (rf"{H} is ([01]{{8}}) in binary, with (\d) one bits?, an (even|odd) number", lambda value, bits, ones, which:
        int(which == "even") if number(value) == int(bits, 2) and bits.count("1") == int(ones) and (int(ones) % 2 == 0) == (which == "even")
        else None),
    (rf"{H} (is|isn't) above {H}", lambda sum_, is_so, most: int(is_so == "is") if (number(sum_) > number(most)) == (is_so == "is") else None),
    (rf"the low digits {TERMS} = {H}: (a|no) carry to the high digit", lambda terms, sum_, which:
        int(which == "a") if total(terms) == number(sum_) and (number(sum_) > 15) == (which == "a") else None),
    (rf"{H} (is|isn't) below {H}(?: \+ 1)?: (a|no) borrow \((-?\d+) - (\d+)( - 1)? = (-?\d+)\)", lambda a, is_so, b, which, x, y, one, left:
        int(which == "a") if (number(a), number(b)) == (int(x), int(y)) and int(x) - int(y) - bool(one) == int(left)
        and (is_so == "is") == (which == "a") == (int(left) < 0) else None),
    (rf"the low digits {TERMS} borrow (from the high digit, which AC shows by 0|nothing, which AC shows by 1)", lambda terms, which:
        int(which[-1]) if (total(terms) >= 0) == (which[-1] == "1") else None),
    (r"(?:AN[AI]|XR[AI]|OR[AI]) always clears it", lambda: 0),
    (rf"bit 3 is ([01]) in {H} and ([01]) in {H}, and AC is their OR", lambda one, a, other, b:
        int(one) | int(other) if (number(a) >> 3 & 1, number(b) >> 3 & 1) == (int(one), int(other)) else None),
    (rf"the low digit was {H}(?:, not {H})?", lambda digit, no: ("low", number(digit))),
    (rf"bit ([07]) of {H} was ([01])", lambda bit, value, was: int(was) if number(value) >> int(bit) & 1 == int(was) else None),
    (r"STC sets it", lambda: 1),
    (r"it was ([01])", lambda was: 1 - int(was)),
    (r"it was 1, and stays", lambda: 1),
    (rf"{H} (was|wasn't) above 99H", lambda value, which: int(which == "was") if (number(value) > 0x99) == (which == "was") else None),
)


class Against(unittest.TestCase):
    """The sentences for what the processor does."""

    @classmethod
    def setUpClass(cls):
        run(["asm"])
        subprocess.run([TOP / "lab80", "step"], input=b"00", stdout=subprocess.PIPE, check=True, timeout=PATIENCE)
        cls.browser = cls.enterClassContext(Browser(free_port()))

    def explained(self, found):
        """The explanations for cases that were played."""
        given = [[case.text, len(case.code), before, after, case.m, left] for case, before, after, left in found]
        explained = []
        for at in range(0, len(given), 4_000):
            explained += run_with(self.browser, FILE, ["explain"], """
                const at = (values, byte) => ({...values, memory: at => at === 0x8000 && byte !== null ? byte : undefined});
                return cases.map(([text, length, before, after, m, left]) =>
                    explain(text, length, at(before, m), at(after, left)));""", cases=given[at:at + 4_000])
        return explained

    def holds(self, cases):
        """Plays cases, and compares each explanation with what the processor did. Returns the explanations."""
        cases = list(cases)
        found = played(cases)
        self.assertEqual(len(found), len(cases))
        explained = self.explained(found)
        for (case, before, after, left), it in zip(found, explained):
            told = f"{case.text}: {before} to {after}: {it}"
            self.assertIsNotNone(it, told)
            changed = {name for name in FLAGS if before[name] != after[name]}
            self.assertLessEqual(changed, {flag["name"] for flag in it["flags"]}, told)
            for flag in it["flags"]:
                self.assertEqual(flag["value"], after[flag["name"]], told)
                self.assertEqual(self.value_by(flag["why"], flag["name"], case), flag["value"], told)
            self.is_result(case, it["result"], before, after, left, told)
        return explained

    def value_by(self, why, name, case):
        """The value of a flag, as a sentence has it."""
        for form, value in REASONS:
            if match := re.fullmatch(form, why):
                said = value(*match.groups())
                if isinstance(said, tuple):
                    self.assertEqual(name, "AC")
                    said = int(said[1] == 15) if case.text.startswith("INR") else int(said[1] != 0)
                return said
        self.fail(f"no form for {why!r}")
        return None

    def is_result(self, case, result, before, after, left, told):
        """Compares the numbers in a result with the processor's."""
        if match := re.fullmatch(rf"A, {H}, (equals|is below|is above) {H}\. A stays", result):
            a, how, b = number(match[1]), match[2], number(match[3])
            self.assertEqual((a, after["A"]), (before["A"], before["A"]), told)
            self.assertEqual(how, "equals" if a == b else "is below" if a < b else "is above", told)
            self.assertEqual((after["Z"], after["CY"]), (int(a == b), int(a < b)), told)
            return
        if match := re.fullmatch(rf"(?:.*: )?{TERMS} = {H}(?:, so (\S+|the byte at \w+) gets {H}|, with a borrow(?: of {H})?)?", result):
            terms, sum_, place, gets, borrow = match.groups()
            self.assertEqual(total(terms), number(sum_), told)
            value = number(gets) if gets else number(sum_)
            self.assertEqual(value, self.target(case, after, left), told)
            if borrow:
                self.assertIn(after["CY"] if "DC" not in case.text else 1, (1,), told)
            del place
        elif match := re.fullmatch(rf"{H} (AND|OR|XOR) {H} = {H}", result):
            a, b, c = number(match[1]), number(match[3]), number(match[4])
            self.assertEqual((a, c), (before["A"], after["A"]), told)
            self.assertEqual(c, {"AND": a & b, "OR": a | b, "XOR": a ^ b}[match[2]], told)
        elif match := re.fullmatch(rf"{H} (?:turns (?:left|right) to|inverted is) {H}", result):
            self.assertEqual((number(match[1]), number(match[2])), (before["A"], after["A"]), told)
        else:
            self.assertRegex(result, r"^(CY is set|CY is inverted|A, [0-9A-F]+H, has two decimal digits already)$", told)

    @staticmethod
    def target(case, after, left):
        """The value that an instruction has changed."""
        word, _, operand = case.text.partition(" ")
        if word in ("INR", "DCR"):
            return left if operand == "M" else after[operand]
        if word in ("DAD", "INX", "DCX"):
            name = "H" if word == "DAD" else operand
            pair = {"B": "BC", "D": "DE", "H": "HL"}.get(name)
            return after[pair[0]] << 8 | after[pair[1]] if pair else after["SP"]
        return after["A"]

    def test_operations_with_a(self):
        explained = self.holds(cases_with_a())
        self.assertGreater(len(explained), 8_000)

    def test_counts_leave_the_carry(self):
        for it in self.holds(cases_of_counts()):
            self.assertEqual((len(it["flags"]), it["kept"]), (4, "CY stays as it was."))

    def test_decimal_adjustment_and_rotates(self):
        cases = list(cases_of_a_alone())
        for case, it in zip(cases, self.holds(cases)):
            if case.text == "DAA":
                a, half, carry = case.psw >> 8, case.psw >> 4 & 1, case.psw & 1
                low, high = a & 15 > 9 or half, a > 0x99 or carry
                self.assertEqual([note.split()[1] for note in it["notes"]], ["is" if it else "isn't" for it in (low, high)])
            if case.text in ("RLC", "RRC", "RAL", "RAR"):
                self.assertEqual(len(it["notes"]), 1)

    def test_pairs(self):
        for it in self.holds(cases_of_pairs()):
            is_sum = it["instruction"].startswith("DAD")
            self.assertEqual([flag["name"] for flag in it["flags"]], ["CY"] if is_sum else [])
            self.assertEqual(it["kept"], "S, Z, AC and P stay as they were." if is_sum else "No flag changes.")

    def test_nothing_is_said_of_what_an_instruction_does_not_do(self):
        """Where any one value isn't the one that it makes."""
        found = played([Case("ADD B", [0x80], 0x9A02, B=0x7000), Case("DAA", [0x27], 0x9A02), Case("INX H", [0x23], 2, H=0xFFFF),
                        Case("INR M", [0x34], 2, m=0x0F), Case("CMP B", [0xB8], 0x0502, B=0x0600)])
        wrong = []
        for case, before, after, left in found:
            for name in after:
                if name != "INTE":
                    wrong.append((case, before, {**after, name: after[name] ^ 1}, left))
        wrong += [(case, before, after, left ^ 1) for case, before, after, left in found if case.m is not None]
        self.assertEqual(self.explained(wrong), [None] * len(wrong))
        self.assertNotIn(None, self.explained(found))

    def test_bytes_that_nobody_looked_at(self):
        """Of a sum with M the operand follows from the result; of a comparison it doesn't."""
        cases = [Case(text, [code], 0x9A03, m=0x70) for text, code in
                 (("ADD M", 0x86), ("SBB M", 0x9E), ("XRA M", 0xAE), ("ANA M", 0xA6), ("ORA M", 0xB6), ("CMP M", 0xBE), ("INR M", 0x34))]
        found = played(cases)
        for case in cases:
            case.m = None
        explained = self.explained([(case, before, after, None) for case, before, after, _ in found])
        self.assertEqual([it and it["result"] for it in explained],
                         ["9AH + 70H = 10AH, so A gets 0AH", "9AH - 70H - 1 = 29H", "9AH XOR 70H = EAH", None, None, None, None])


# Each other instruction once or more: its bytes at 0100, and what is said of it. BC is 1122, DE 3344, HL 8000, where 5A is, SP 9000,
# where 34 12 is; A is 9A; of the flags S and CY are set.
OTHERS = (
    ("MOV A,B", "78", "A gets 11H from B"),
    ("MOV M,A", "77", "the byte at 8000H gets 9AH from A"),
    ("MOV C,M", "4E", "C gets 5AH from the byte at 8000H"),
    ("MOV H,M", "66", "H gets 5AH from the byte at 8000H"),
    ("MVI D,0FFH", "16FF", "D gets FFH"),
    ("MVI M,007H", "3607", "the byte at 8000H gets 07H"),
    ("LXI H,01234H", "213412", "HL gets 1234H"),
    ("LDA 08000H", "3A0080", "A gets 5AH from the byte at 8000H"),
    ("STA 00200H", "320002", "the byte at 0200H gets 9AH from A"),
    ("LHLD 09000H", "2A0090", "HL gets 1234H from the word at 9000H"),
    ("SHLD 00200H", "220002", "the word at 0200H gets 8000H from HL"),
    ("LDAX B", "0A", "A gets 00H from the byte at 1122H"),
    ("STAX D", "12", "the byte at 3344H gets 9AH from A"),
    ("XCHG", "EB", "DE gets 8000H and HL 3344H: they change places"),
    ("PUSH PSW", "F5", "9A83H, which is PSW, goes to the stack at 8FFEH"),
    ("POP B", "C1", "BC gets 1234H from the stack at 9000H"),
    ("POP PSW", "F1", "PSW gets 1234H from the stack at 9000H"),
    ("XTHL", "E3", "HL gets 1234H and the word at 9000H 8000H: they change places"),
    ("SPHL", "F9", "SP gets 8000H from HL"),
    ("PCHL", "E9", "goes to 8000H"),
    ("JMP 01234H", "C33412", "goes to 1234H"),
    ("JC 01234H", "DA3412", "CY is 1, so it goes to 1234H"),
    ("JP 01234H", "F23412", "S is 1, so the next instruction follows"),
    ("CALL 01234H", "CD3412", "goes to 1234H, with the return address 0103H on the stack"),
    ("CZ 01234H", "CC3412", "Z is 0, so the next instruction follows"),
    ("CM 01234H", "FC3412", "S is 1, so it goes to 1234H, with the return address 0103H on the stack"),
    ("RET", "C9", "goes back to 1234H, the word on the stack"),
    ("RNC", "D0", "CY is 1, so the next instruction follows"),
    ("RPO", "E0", "P is 0, so it goes back to 1234H, the word on the stack"),
    ("RST 5", "EF", "goes to 0028H, with the return address 0101H on the stack"),
    ("IN 002H", "DB02", "A gets 00H from port 2, the switches"),
    ("OUT 001H", "D301", "port 1, the console, gets 9AH from A"),
    ("EI", "FB", "interrupts are on after the next instruction"),
    ("DI", "F3", "interrupts are off"),
    ("NOP", "00", "nothing changes"),
)


class Others(unittest.TestCase):
    def test_all_other_instructions(self):
        """As `lab80 step` runs them, with the memory that a page would have looked at, and without."""
        begin = "215A00" "220080" "213412" "220090" "31FE9F" "21839A" "E5" "F1" "012211" "114433" "210080" "310090" "C30001"
        begin = bytes.fromhex(begin)
        cases = []
        for text, code, _ in OTHERS:
            data = begin.ljust(0x100, b"\0") + bytes.fromhex(code)
            before, after = step(data)[12:14]
            cases.append([text, len(code) // 2, before, after])
        with Browser(free_port()) as browser:
            for known in (True, False):
                explained = run_with(browser, FILE, ["explain"], """
                    const bytes = {0x8000: 0x5A, 0x8001: 0, 0x9000: 0x34, 0x9001: 0x12}, memory = at => known ? bytes[at] : undefined;
                    return cases.map(([text, length, before, after]) =>
                        explain(text, length, {...before, memory}, {...after, memory: () => undefined}));""", cases=cases, known=known)
                for (text, _, wanted), it in zip(OTHERS, explained):
                    with self.subTest(text=text, known=known):
                        self.assertIsNotNone(it)
                        if text != "POP PSW" or known:
                            self.assertEqual(it["result"], wanted)
                        self.assertEqual(len(it["flags"]), 5 if text == "POP PSW" else 0)

    def test_an_interrupt_and_other_lines(self):
        with Browser(free_port()) as browser:
            found = run_with(browser, FILE, ["explain"], """
                const memory = () => undefined, zero = Object.fromEntries('ABCDEHL'.split('').map(name => [name, 0]));
                const flags = {S: 0, Z: 0, AC: 0, P: 0, CY: 0}, before = {...zero, ...flags, SP: 0x1000, PC: 0x105, INTE: 1, memory};
                const after = {...before, SP: 0xFFE, PC: 0x10, INTE: 0};
                return [explain('HLT', 1, before, after), explain('NOP', 1, before, after), explain('NOP', 1, before, {...after, PC: 0x11}),
                    explain('NOP', 1, {...before, INTE: 0}, after), explain('DB 008H', 1, before, after) && 1, explain('', 1, before, before),
                    explain('<b>', 1, before, before)];""")
        self.assertEqual(found[0]["result"], "a button asked for RST 2, which goes to 0010H, with the return address 0105H on the stack. "
                                             "Interrupts are off")
        self.assertEqual(found[0]["instruction"], "Interrupt")
        self.assertEqual((found[1], found[2:]), (found[0], [None, None, 1, None, None]))


if __name__ == "__main__":
    unittest.main()
