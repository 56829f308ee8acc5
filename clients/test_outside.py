"""`lessons/mark` judges exercises from outside: wrong answers of many kinds, right ones in other styles, and routines that don't
come back."""
import re
import sys
import unittest
from pathlib import Path

LESSONS = Path(__file__).resolve().parent.parent / "lessons"
sys.path.insert(0, str(LESSONS))

import boards  # noqa: E402
import judging  # noqa: E402
import notebooks  # noqa: E402

# Seconds for a call that comes back, however busy the machine is, and for one that doesn't.
LATE, SOON = 60, 1


def cell(*parts):
    """A cell: parts with an address, a label or none, and statements between strokes."""
    text = ""
    for address, label, statements in parts:
        lines = [it if re.match(r"\w+: ", it) else f"        {it}" for it in statements.split(" / ")]
        text += "\n".join([f"        ORG {address}", *[f"{label}:"] * bool(label), *lines, ""])
    return text


def first(label, statements):
    return cell(("2000H", label, statements))


def second(label, statements):
    return cell(("2100H", label, statements))


def third(label, statements):
    return cell(("2200H", label, statements))


SIGNS = "MOV A,D / XRI 80H / MOV D,A / MOV A,H / XRI 80H / MOV H,A / "
TEN = "MOV C,A / MOV A,B / ADD A / MOV B,A / ADD A / ADD A / ADD B / ADD C / MOV B,A / INX H / JMP NEXT / ENDED: MOV A,B / RET"
LEAP = "LXI H,TABLE / MOV A,L / ADD B / MOV L,A / MOV A,M / RET / ORG 2040H\n"

# The parts of a right project.
RING = ("2000H", "RING", "PUSH B / MVI A,80H / INR B / MOVE: RLC / DCR B / JNZ MOVE / MOV B,A / RLC / MOV C,A / MOV A,B / RRC / "
        "ORA B / ORA C / POP B / RET")
TURN = ("2100H", "TURN", "PUSH H / CALL RING / LXI H,LAMPS / XRA M / MOV M,A / OUT 2 / LXI H,MOVES / INR M / POP H / RET")
BUTTON = ("2200H", "BUTTON", "CALL TURN / POP B / POP PSW / EI / RET")
PLACES = [(str(8 * n), "", f"PUSH PSW / PUSH B / MVI B,{n} / JMP BUTTON") for n in range(8)]


def without(part, statement):
    """A part without a statement."""
    address, label, statements = part
    return address, label, statements.replace(f"{statement} / ", "")


# Wrong answers that a table of a few cases accepts, or that a judge in the routine's own memory can't tell from right ones: the
# exercise, the cell, and a pattern of what is found.
WRONG = {
    "compared with signs": (
        "03-jumps", 1, first("LARGER", "MOV A,B / CMP C / JP FOUND / MOV A,C / FOUND: RET"),
        r"B=(..) C=(..) gives A=(\1, not \2|\2, not \1)"),
    "four bytes always": (
        "04-memory", 3, third("FILL", "MOV M,A / INX H / MOV M,A / INX H / MOV M,A / INX H / MOV M,A / "
                                "RET"), r"gives ....=.., not .."),
    "the first and the last byte": (
        "04-memory", 3, third("FILL", "MOV M,A / MOV E,B / MVI D,0 / DCX D / DAD D / MOV M,A / RET"), r"gives ....=.., not .."),
    "the low byte of an address": (
        "04-memory", 1, first("LENGTH", "MVI B,0 / STEP: MOV A,M / ORA A / JZ ENDED / INR B / INR L / JMP STEP / "
                                "ENDED: MOV A,B / RET"),
        "gives A=|found no end"),
    "the last rotate with a carry": ("05-bits", 1, first("HALVES", "RRC / RRC / RRC / RAR / RET"), "A=.. gives A="),
    "at most for less": (
        "07-words", 3, third("BELOW", SIGNS + "MOV A,E / SUB L / MOV A,D / SBB H / CMC / "
                                "RET"), r"HL=(....) DE=\1 gives CY=1, not 0"),
    "one number left out": (
        "08-console", 1, first("SMALL", "CPI 'A' / RC / CPI 'Z' / RNC / ORI 20H / RET"), "A=5A gives A=5A, not 7A"),
    "small letters too": (
        "08-console", 2, second("VALUE", "CPI 'a' / JC BIG / SUI 20H / BIG: SUI '0' / CPI 10 / RC / SUI 7 / CPI 10 / "
                                "JC NONE / CPI 16 / "
                                "RC / NONE: MVI A,0FFH / RET"), "A=(6[1-6]|5[1-9A]) gives A=0[0-9A-F], not FF"),
    "9 is no digit": (
        "08-console", 3, third("NUMBER", "MVI B,0 / NEXT: MOV A,M / SUI '0' / CPI 9 / JNC ENDED / " + TEN),
        r"HL=.... \([^)]*\) gives A="),
    "signs that are no digits": (
        "08-console", 3, third("NUMBER", "MVI B,0 / NEXT: MOV A,M / CPI '0' / JC ENDED / CPI 'A' / JNC ENDED / SUI '0' / " + TEN),
        r"HL=.... \([^)]*\) gives A="),
    "numbers for expressions": (
        "09-expressions", 1, first("LEAP", LEAP + "Y       SET 1970\nTABLE: DB 0,0,1,0"), "with Y SET 197[1-3]: B=0. gives A="),
    "another name": (
        "09-expressions", 1, first("LEAP", LEAP + "YEAR    SET 1970\nTABLE: DB 0,0,1,0"), "its cell has no line `Y SET 1970`"),
    "half of the table": (
        "09-expressions", 2, second("ALONE", "LXI H,MASKS / MVI D,0 / MOV E,B / DAD D / MOV A,M / RET / "
                                "MASKS: DB 1,2,4,4,16,16,16,128"),
        "B=0[356] gives A="),
    "a number for a name": (
        "09-expressions", 3, cell(("2200H", "", "NOP\nRATE    EQU 2000\nMILLIS  EQU 250\nPERIOD: LXI D,500 / MVI A,1 / RET")),
        "with RATE EQU [12]000 and MILLIS EQU [12]00: gives DE=01F4, not"),
    "the wrong flag": (
        "10-debugging", 2, second("CLIP", "PUSH B / MVI B,9 / CMP B / JPO BELOW / MOV A,B / BELOW: POP B / "
                                "RET"), "A=.. gives A="),
    "another register": ("10-debugging", 2, second("CLIP", "CPI 10 / RC / MVI A,9 / MVI H,0 / RET"), "gives HL=00.., not"),
    "prints nothing": ("11-interrupts", 1, cell(("20H", "", "RET")), r"prints '', not '\?'"),
    "prints twice": (
        "11-interrupts", 1, cell(("20H", "", "PUSH PSW / MVI A,'?' / OUT 1 / OUT 1 / POP PSW / "
                                "RET")), r"prints '\?\?', not '\?'"),
    "loses a flag": (
        "11-interrupts", 1, cell(("20H", "", "JMP SAY"), ("2300H", "SAY", "STA KEPT / MVI A,'?' / OUT 1 / LDA KEPT / ORA A / "
                                "RET / "
                                                           "KEPT: DB 0")), r"gives (S|Z|AC|P|CY)=., not ."),
    "counts a byte": (
        "11-interrupts", 2, cell(("10H", "", "JMP ONEMORE"), ("2100H", "ONEMORE", "PUSH PSW / PUSH H / LXI H,PRESSES / "
                                "INR M / POP H / "
                                                               "POP PSW / RET / "
                                "PRESSES: DW 0")), "PRESSES=..FF gives PRESSES=..00, not"),
    "a word past the end of memory": (
        "11-interrupts", 2, cell(("10H", "", "RET\nPRESSES EQU 0FFFFH")), "PRESSES=.... gives PRESSES=.., not ...."),
    "no OUT 2": ("12-project", 2, cell(RING, without(TURN, "OUT 2")), "gives lamps="),
    "no EI": ("12-project", 3, cell(RING, TURN, without(BUTTON, "EI"), *PLACES), "gives interrupts=off, not on"),
    "a wrong place": (
        "12-project", 3, cell(RING, TURN, BUTTON, *PLACES[:5], ("40", *PLACES[6][1:]), *PLACES[6:]), "at 28H: .* gives"),
    "by MOV": (
        "06-calls", 1, first("CHANGE", "MOV A,B / MOV B,D / MOV D,A / MOV A,C / MOV C,E / MOV E,A / RET"),
        "uses MOV, and should do without"),
    "by bytes that are MOV": (
        "06-calls", 1, first("CHANGE", "DB 78H,42H,57H,79H,4BH,5FH / RET"), "uses MOV, and should do without"),
}

# Right answers in another style than the teacher's.
RIGHT = {
    "a return with a condition": ("03-jumps", 1, first("LARGER", "MOV A,C / CMP B / RNC / MOV A,B / RET")),
    "two calls of itself": (
        "06-calls", 3, third("FIB", "MOV A,C / CPI 3 / JNC DEEP / LXI H,1 / RET / DEEP: PUSH B / DCR C / CALL FIB / POP B / "
                                "PUSH H / "
                             "DCR C / DCR C / CALL FIB / POP D / DAD D / RET")),
    "a carry that is added": (
        "05-bits", 2, second("ONES", "MVI A,0 / MVI D,8 / LOOP: MOV E,A / MOV A,B / RAR / MOV B,A / MOV A,E / ACI 0 / DCR D / "
                                "JNZ LOOP / "
                             "RET")),
    "a loop with the stack": (
        "04-memory", 1, first("LENGTH", "MVI A,0FFH / DCX H / STEP: INX H / INR A / PUSH PSW / MOV A,M / ORA A / JZ ENDED / "
                                "POP PSW / "
                              "JMP STEP / ENDED: POP PSW / RET")),
    "DAD": ("01-registers", 1, first("DOUBLE", "MOV L,C / MVI H,0 / DAD H / MOV A,L / RET")),
    "pairs": ("01-registers", 2, second("TURN", "PUSH B / PUSH D / POP B / POP D / RET")),
    "limits by turns": (
        "08-console", 2, second("VALUE", "CPI '0' / JC NONE / CPI '9'+1 / JNC HIGHER / SUI '0' / RET / HIGHER: CPI 'A' / "
                                "JC NONE / "
                                "CPI 'G' / JNC NONE / SUI 'A'-10 / RET / NONE: MVI A,0FFH / RET")),
    "a limit that is one off, where 0FFH comes out too": (
        "08-console", 2, second("VALUE", "CPI '/' / JC NONE / CPI ':' / JNC HIGHER / SUI '0' / RET / HIGHER: CPI 'A' / JC NONE / "
                                "CPI 'G' / JNC NONE / SUI 'A'-10 / RET / NONE: MVI A,0FFH / RET")),
    "by XTHL": ("06-calls", 1, first("CHANGE", "PUSH B / XTHL / PUSH D / POP B / XTHL / POP D / RET")),
    "by PCHL": ("01-registers", 1, first("DOUBLE", "POP H / MOV A,C / ADD A / PCHL")),
    "ten sums": (
        "06-calls", 2, second("TENFOLD", "PUSH H / PUSH D / MOV E,B / MVI D,0 / LXI H,0" + 10 * " / DAD D" + " / MOV A,L / "
                                "POP D / POP H / "
                              "RET")),
    "a calculation for a table": (
        "09-expressions", 2, second("ALONE", "MVI A,80H / INR B / AGAIN: RLC / DCR B / JNZ AGAIN / RET")),
    "255 calls of itself": (
        "03-jumps", 3, third("DIVIDE", "MOV A,B / CMP C / MVI A,0 / RC / MOV A,B / SUB C / MOV B,A / CALL DIVIDE / INR A / RET")),
    "far away": ("01-registers", 1, cell(("4000H", "DOUBLE", "MOV A,C / JMP 7000H"), ("7000H", "", "ADD C / RET"))),
    "interrupts on": ("01-registers", 1, first("DOUBLE", "EI / MOV A,C / ADD C / RET")),
    "a whole project": ("12-project", 3, cell(RING, TURN, BUTTON, *PLACES)),
}

# Routines that don't come back as they should, or don't only do what they should, all for the first exercise: and what is said.
STRANGE = {
    "endless": ("JMP DOUBLE", "C=.. found no end in 1 s: it was at 2000"),
    "calls itself without end": ("CALL DOUBLE", "C=.. "),
    "loud": ("OUT 1 / JMP DOUBLE", "C=.. printed more than a mebibyte"),
    "asks": ("OUT 3 / WAIT: IN 0 / ANI 1 / JZ WAIT / RET", "C=.. asks for a line, and nobody types one"),
    "asks and goes on": ("OUT 3 / MOV A,C / ADD C / RET", "$"),
    "waits": ("EI / HLT / RET", "C=.. waits for a button at 2001"),
    "ends the program": ("MOV A,C / ADD C / HLT", "C=.. ended by HLT at 2002, and not by a return"),
    "no instruction": ("DB 8", "C=.. UndefinedOpcode: 08 at 2000"),
    "no return": ("MOV A,C / ADD C", "C=.. ended by HLT at ...., and not by a return"),
    "leaves a word on the stack": ("POP H / PUSH H / PUSH H / MOV A,C / ADD C / RET", "C=.. gives SP=...., not ...."),
    "takes two": ("POP H / POP D / MOV A,C / ADD C / PCHL", "C=.. gives SP=...., not ...."),
    "overwrites itself": ("MOV A,C / ADD C / LXI H,DOUBLE / MVI M,0C9H / RET",
                          "C=.. gives A=.., not .., but only when it was called before: it changes what it needs"),
    "counts its calls": ("LDA CALLS / INR A / STA CALLS / CPI 3 / MOV A,C / JZ LAST / ADD C / LAST: RET / CALLS: DB 0",
                         "C=.. gives A=.., not .., but only when it was called before"),
    "writes zeros everywhere": ("LXI SP,0 / LXI H,0 / ZEROS: PUSH H / JMP ZEROS", "C=.. "),
    "jumps into the judge": ("POP H / DCX H / DCX H / PCHL", "C=.. "),
    "prints the word of the judge": ("MVI A,0AH / OUT 1 / LXI H,@RIGHT / SAY: MOV A,M / OUT 1 / INX H / ORA A / JNZ SAY / HLT",
                                     "C=.. ended by HLT at ...., and not by a return"),
    "has the judge print": ("LXI H,@RIGHT / CALL @TEXT / RET", "C=.. gives A=00, not .."),
    "prints too": ("MVI A,'x' / OUT 1 / MOV A,C / ADD C / RET", "prints 'x' too"),
}


class Outside(unittest.TestCase):
    @classmethod
    def setUpClass(cls):
        cls.lessons = notebooks.lessons(LESSONS / "teacher")
        cls.judges = {seconds: judging.Judge(1, seconds) for seconds in (LATE, SOON)}
        cls.judges[SOON].known = cls.judges[LATE].known
        cls.boards = {}

    def board(self, name):
        """A lesson's board, after power-on."""
        if name not in self.boards:
            self.boards[name] = self.enterClassContext(boards.Board())
        self.boards[name].debug(("boardReset", {}))
        return self.boards[name]

    def judged(self, name, number, text, seconds=LATE):
        """What is found and said of a cell, on a board with the lesson's cells before it."""
        lesson, board = self.lessons[name], self.board(name)
        for before in lesson.before(number):
            board.run(before, LATE)
        return self.judges[seconds].judged(board, lesson, number, text, judging.Clock(LATE, seconds))

    def test_wrong_answers(self):
        for what, (name, number, text, finding) in WRONG.items():
            with self.subTest(answer=what):
                self.assertRegex(self.judged(name, number, text)[0], finding)

    def test_right_answers_in_other_styles(self):
        for what, (name, number, text) in RIGHT.items():
            with self.subTest(answer=what):
                self.assertEqual(self.judged(name, number, text), ("", ""))

    def test_routines_that_do_strange_things(self):
        for what, (statements, said) in STRANGE.items():
            with self.subTest(routine=what):
                finding, note = self.judged("01-registers", 1, first("DOUBLE", statements), SOON)
                self.assertRegex(finding or note, "^" + said)
                self.assertLess(len(finding), 200)
