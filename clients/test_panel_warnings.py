"""What the front panel warns of: each kind by a program that does it, with its stop; and that no example and no answer of a lesson is
warned of, as far as a plain model of the board runs them."""
import base64
import json
import re
import sys
import unittest
from pathlib import Path

import plain_board
from browser import Browser
from jupyter_servers import free_port
from modules import TOP, assemble
from panel_page import SAVES
from panel_tests import Pages

LESSONS = TOP / "lessons"
sys.path.insert(0, str(LESSONS))

import boards  # noqa: E402

# Each program by its name, with the steps In from its first stop to the warning, and the warning.
UNBALANCED = """\
        ORG 100H
START:  LXI SP,1000H
        LXI B,1234H
        CALL WORK
        HLT
WORK:   PUSH B
        MVI B,0
        RET
        END START
"""
LEFT = ("The stack isn't balanced: at RET at 010DH SP is 0FFCH, but it was 0FFEH when the routine at 010AH began, by CALL WORK at 0106H. "
        "So the return leads to 1234H")
ASTRAY = ("The run leaves its program: after RET at 010DH it is at 1234H, where no cell has loaded anything and memory is 00H, which is NOP. "
          "Is a HLT, a JMP or a RET missing?")

EMPTIED = """\
        ORG 100H
START:  LXI SP,1000H
        CALL WORK
        HLT
WORK:   POP H
        RET
        END START
"""

EXCHANGED = """\
        ORG 100H
START:  LXI SP,1000H
        LXI B,1234H
        LXI D,5678H
        CALL WORK
        HLT
WORK:   PUSH B
        PUSH D
        MVI B,0
        POP B
        POP D
        RET
        END START
"""

OVERWRITES = """\
        ORG 100H
START:  MVI A,5
        STA START+1
        LXI H,LATER+1
        MVI M,7
LATER:  MVI B,1
        HLT
        END START
"""

AGAIN = """\
        ORG 100H
START:  MVI A,5
BACK:   INR A
        LXI H,START+1
        MOV M,A
        JMP BACK
        END START
"""

ENDLESS = """\
        ORG 100H
START:  MVI A,5
        END START
"""

# What these do is meant: a jump by the stack, a routine that leaves two calls, registers that are exchanged by the stack, a stack
# that is set anew, text behind a call, a routine that is copied and called, and an operand that is stored.
MEANT = """\
        ORG 100H
START:  LXI SP,1000H
        LXI H,NEXT
        PUSH H
        RET
NEXT:   CALL OUTER
        LXI B,1
        LXI D,2
        CALL SWAP
        CALL SAY
        DB 'hi',0
        CALL TWICE
        LXI H,WORK
        LXI D,2000H
        MVI B,3
COPY:   MOV A,M
        STAX D
        INX H
        INX D
        DCR B
        JNZ COPY
        CALL 2000H
        STA PATCH+1
PATCH:  MVI B,0
        LXI SP,0F00H
        CALL SAVED
        HLT
OUTER:  CALL INNER
        HLT
INNER:  POP H
        RET
SWAP:   PUSH B
        PUSH D
        POP B
        POP D
        RET
SAY:    XTHL
        MOV A,M
        INX H
        XTHL
        ORA A
        JNZ SAY
        RET
TWICE:  LXI H,AFTER
        PUSH H
        MVI A,1
        RET
AFTER:  RET
WORK:   MVI A,9
        RET
SAVED:  PUSH B
        PUSH PSW
        MVI B,3
        POP PSW
        POP B
        RET
        END START
"""

WARNED = "return [...document.querySelectorAll('#warned p')].map(each => each.textContent)"
LISTED = "return [...document.querySelectorAll('#warnings li')].map(each => each.textContent)"


class Warned(Pages):
    def stepped(self, text, count):
        """A page with a program, after so many steps In."""
        page = self.open()
        page.is_in("idle")
        page.run("setCell(arguments[0])", text)
        page.click("#run-stopped")
        page.waits(lambda: page.state() == "stopped: breakpoint" and page.line())
        page.waits(lambda: page.breakpoints() == [])
        page.choose("#granularity", "instruction")
        for done in range(count):
            page.command("stepIn")
            page.waits(lambda done=done: len(page.texts("#trace tbody tr")) == done + 2 and page.state() == "stopped: step")
        return page

    def test_a_stack_that_isnt_balanced(self):
        page = self.stepped(UNBALANCED, 5)
        self.assertEqual((page.run(WARNED), page.run(LISTED)), ([], []))
        page.command("stepIn")
        page.waits(lambda: page.run(WARNED) == [LEFT])
        self.assertEqual(page.run(LISTED), [f"Stop 7 {LEFT}"])
        marked = "return [...document.querySelectorAll('#trace .warning')].map(each => [each.closest('tr').dataset.stop, each.title])"
        self.assertEqual(page.run(marked), [["7", LEFT]])
        page.picture("panel-warned", 1140, 890)
        # on its way through the zeros nothing is said again, and the list leads back
        page.command("stepIn")
        page.waits(lambda: len(page.texts("#trace tbody tr")) == 8 and page.run(WARNED) == [])
        page.click("#warnings button")
        page.waits(lambda: page.text("#moment") == "1 stop ago")
        self.assertEqual((page.run(WARNED), page.registers()["PC"]), ([LEFT], "1234"))
        page.click("#past-now")
        page.run(SAVES)
        page.click("#film-save")
        [[_, film]] = page.waits(lambda: page.run("return window.saved"))
        self.assertIn(LEFT, film)
        # they stay over a reload, and are gone with the trace
        page.reload()
        page.waits(lambda: len(page.run(LISTED)) == 1)
        page.click("#trace-clear")
        page.waits(lambda: page.run(LISTED) == [])

    def test_a_stack_that_is_empty(self):
        page = self.stepped(EMPTIED, 4)
        page.waits(lambda: page.run(WARNED) == [
            "The stack is empty: at RET at 0108H SP is 1000H, where LXI SP,01000H at 0100H has set it. So the return leads to 0000H"])

    def test_registers_that_come_back_exchanged(self):
        page = self.stepped(EXCHANGED, 10)
        page.waits(lambda: page.run(WARNED) == [
            "Registers come back exchanged: at RET at 0113H BC has what was in DE and DE has what was in BC, since PUSH D at 010EH and "
            "PUSH B at 010DH, and POP B at 0111H and POP D at 0112H"])

    def test_code_that_is_overwritten(self):
        page = self.stepped(OVERWRITES, 3)
        self.assertEqual(page.run(WARNED), [])
        page.command("stepIn")
        page.waits(lambda: page.run(WARNED) == [
            "The program runs code that it has overwritten: the byte at 010BH, of the instruction at 010AH, comes from MVI M,007H at 0108H"])

    def test_code_that_has_run_is_overwritten(self):
        page = self.stepped(AGAIN, 3)
        self.assertEqual(page.run(WARNED), [])
        page.command("stepIn")
        page.waits(lambda: page.run(WARNED) == [
            "The program overwrites its code: MOV M,A at 0106H puts 06H in place of 05H at 0101H, which is in MVI A,005H at 0100H, "
            "that has run already"])

    def test_a_run_into_zeros(self):
        page = self.stepped(ENDLESS, 1)
        page.waits(lambda: page.run(WARNED) == [
            "The run leaves its program: after MVI A,005H at 0100H it is at 0102H, where no cell has loaded anything and memory is 00H, "
            "which is NOP. Is a HLT, a JMP or a RET missing?"])

    def test_steps_that_werent_seen_arent_judged(self):
        """What Over, Continue and another page did may have changed everything."""
        page = self.stepped(UNBALANCED, 3)
        page.command("next")
        page.waits(lambda: len(page.texts("#trace tbody tr")) == 5)
        page.command("stepIn")
        page.waits(lambda: len(page.texts("#trace tbody tr")) == 6)
        page.command("stepIn")
        page.waits(lambda: len(page.run(WARNED)) == 1)
        self.assertEqual(page.run(WARNED), [ASTRAY])

    def test_what_is_meant_isnt_warned_of(self):
        page = self.stepped(MEANT, 76)
        self.assertEqual((page.run(LISTED), page.run("return board.stopped")), ([], True))


# ---- all examples and answers, on a plain model

# The mnemonics of the opcodes whose names tell the stack's fate, as the kernel disassembles them.
CONDITIONS = ("NZ", "Z", "NC", "C", "PO", "PE", "P", "M")
PAIRS = ("B", "D", "H", "PSW")


def instruction(board, pc):
    """An instruction as the kernel disassembles it, as far as the warnings read it, and its length."""
    memory = board.memory
    opcode, word = memory[pc], memory[pc + 1 & 65535] | memory[pc + 2 & 65535] << 8
    at, low = opcode >> 3 & 7, opcode & 7
    if opcode >> 6 == 3:
        names = {0xC9: "RET", 0xE3: "XTHL", 0xF9: "SPHL", 0xE9: "PCHL", 0xEB: "XCHG", 0xF3: "DI", 0xFB: "EI"}
        if opcode in names:
            return names[opcode], 1
        if opcode in (0xC3, 0xCD):
            return f"{'JMP' if opcode == 0xC3 else 'CALL'} 0{word:04X}H", 3
        if low == 0:
            return "R" + CONDITIONS[at], 1
        if low in (2, 4):
            return f"{'JC'[low // 2 - 1]}{CONDITIONS[at]} 0{word:04X}H", 3
        if low in (1, 5):
            return f"{'POP' if low == 1 else 'PUSH'} {PAIRS[at >> 1]}", 1
        if low == 7:
            return f"RST {at}", 1
        return f"{'OUT' if opcode == 0xD3 else 'IN' if opcode == 0xDB else 'CPI'} 0{word & 255:02X}H", 2
    if opcode == 0x31:
        return f"LXI SP,0{word:04X}H", 3
    if opcode == 0x33 or opcode == 0x3B:
        return f"{'INX' if opcode == 0x33 else 'DCX'} SP", 1
    if opcode < 0x40 and low == 1:
        return ("LXI B,01234H", 3) if not at & 1 else ("DAD B", 1)
    if opcode < 0x40 and low == 6:
        return "MVI B,012H", 2
    return ("STA 01234H", 3) if opcode in (0x22, 0x2A, 0x32, 0x3A) else ("MOV A,B", 1)


def values(board):
    named = {name: board.r[plain_board.NAMES.index(name)] for name in "ABCDEHL"}
    return {**named, "SP": board.sp, "PC": board.pc, "S": board.s, "Z": board.z, "AC": board.ac, "P": board.p, "CY": board.cy}


class Memory(bytearray):
    """Memory that notes what is stored in it, pairs of address and byte."""

    wrote = ()

    def __setitem__(self, at, value):
        super().__setitem__(at, value)
        if isinstance(at, int):
            self.wrote.append([at, value])


class Program:
    """A program on the model, with the addresses that cells have loaded and the labels."""

    def __init__(self, memory, loaded, labels, start):
        self.board, self.loaded, self.labels = plain_board.Board(), loaded, labels
        self.board.memory, self.board.pc = memory, start

    def steps(self, most):
        """The steps of a run, which ends where it halts for good. Each button that has a routine is pressed in turn, and what reads a
        line gets one."""
        board, presses = self.board, 0
        buttons = [number for number in range(1, 8) if 8 * number in self.loaded]
        board.type(b"12\n7\nEnde\n")
        for count in range(most):
            if board.is_at_undefined():
                return
            if buttons and board.latched is None and board.interrupts == plain_board.ON and count % 50 == 49:
                board.press(buttons[presses % len(buttons)])
                presses += 1
            pc, before, board.memory.wrote = board.pc, values(board), []
            name, length = instruction(board, pc)
            code, accepts = board.memory[pc:pc + length], board.accepts()
            board.step()
            if board.is_halted and not (buttons and board.interrupts == plain_board.ON and presses < 40):
                return
            to = board.pc
            there = {"isLoaded": to in self.loaded, "isData": False, "hasLabel": to in self.labels,
                     "bytes": list(board.memory[to:to + instruction(board, to)[1]])}
            step = {"instruction": name, "name": name, "bytes": list(code), "before": before, "after": values(board), "wrote": board.memory.wrote,
                    "isInterrupt": accepts}
            yield [step, there, {"isLoaded": pc in self.loaded, "hasLabel": pc in self.labels}]


JUDGES = """
    const [address, runs, done] = arguments;
    import(address).then(({Watcher}) => done(runs.map(steps => {
        const watcher = new Watcher();
        return steps.flatMap(each => watcher.judge(...each));
    }))).catch(fault => done(`${fault.stack}`));"""

MODULE = TOP / "kernelspec/panel/warnings.js"


class Examples(unittest.TestCase):
    """Programs that do what their authors mean."""

    seconds = 900

    @classmethod
    def setUpClass(cls):
        cls.browser = cls.enterClassContext(Browser(free_port()))

    def judged(self, steps):
        letters = base64.b64encode(MODULE.read_bytes()).decode()
        self.browser.open("about:blank")
        told = self.browser.run_later(JUDGES, "data:text/javascript;base64," + letters, [list(steps)])
        self.assertIsInstance(told, list, told)
        return told[0]

    def test_the_examples(self):
        texts = {each["name"]: "\n".join(each["lines"]) + "\n"
                 for each in json.loads((TOP / "kernelspec/examples.json").read_text(encoding="utf-8"))}
        texts |= {path.name: path.read_text(encoding="ascii") for path in (TOP / "examples").glob("*.asm")}
        self.assertGreater(len(texts), 15)
        for name, text in sorted(texts.items()):
            with self.subTest(name):
                program = loaded_by(text, {})
                self.assertEqual(self.judged(program.steps(1500)), [])


def loaded_by(text, names):
    """The program of a text that needs no other one."""
    printed = assemble(text)
    memory, loaded = Memory(65536), set()
    put(printed, memory, loaded)
    labels = {names.get(name) for name in re.findall(r"(?m)^([\w@?]+):", text)}
    return Program(memory, loaded, labels, int(re.search(r"(?m)^start ([0-9A-F]{4})$", printed)[1], 16))


def put(printed, memory, loaded):
    for at, data in re.findall(r"(?m)^([0-9A-F]{4}):((?: [0-9A-F]{2})+)$", printed):
        data = bytes.fromhex(data)
        memory[slice(int(at, 16), int(at, 16) + len(data))] = data
        loaded.update(range(int(at, 16), int(at, 16) + len(data)))


class Answers(Examples):
    """The cells of the teacher's notebooks, one after the other, as they are run."""

    test_the_examples = None

    # the lesson on debugging has a program in which a POP is missing on one way
    WANTED = {"10-debugging": [
        ("        ORG 100H", "The stack isn't balanced: at RC at 0113H SP is 0FFCH, but it was 0FFEH when the routine at 010FH began, "
                             "by CALL 0010FH at 0108H. So the return leads to 0400H")]}

    def cells(self, name):
        book = json.loads((LESSONS / "teacher" / f"{name}.ipynb").read_text(encoding="utf-8"))
        return ["".join(cell["source"]) for cell in book["cells"] if cell["cell_type"] == "code"]

    def test_the_answers(self):
        for path in sorted((LESSONS / "teacher").glob("*.ipynb")):
            with self.subTest(path.stem), boards.Board() as board:
                found = [(text.splitlines()[0], each) for text, each in self.lesson(board, self.cells(path.stem))]
                self.assertEqual(found, self.WANTED.get(path.stem, []))

    def lesson(self, board, cells):
        """The warnings on a lesson's cells, each with its cell. What they define is known by the board, which runs none."""
        memory, loaded = Memory(65536), set()
        for text in cells:
            start = re.search(r"(?mi)^\s*END\s+(\w+)", text)
            bare = re.sub(r"(?mi)^(\s*END)\b.*", r"\1", text)
            before = symbols(board)
            _, error, _ = board.run(bare, 60)
            if error:
                continue
            known = "".join(f"{name} EQU {value}\n" for name, value in before.items() if not defines(text, name))
            put(assemble(known + bare), memory, loaded)
            if not start:
                continue
            names = symbols(board)
            at = names.get(start[1].upper(), None)
            if at is None:
                at = int(start[1].rstrip("Hh"), 16)
            program = Program(memory, loaded, set(names.values()), at)
            for each in self.judged(program.steps(1200)):
                yield text, each


def defines(text, name):
    return re.search(rf"(?mi)^[ \t]*{re.escape(name)}[ \t]*(:|[ \t](EQU|SET)\b)", text) is not None


def symbols(board):
    found = {}
    while True:
        [body] = board.debug(("variables", {"variablesReference": 4, "start": len(found), "count": 256}))
        if not body["variables"]:
            return found
        found |= {each["name"]: boards.plain(each["value"]) for each in body["variables"]}


if __name__ == "__main__":
    unittest.main()
