"""Judges an exercise from outside: a debugger calls its routine with inputs drawn at random, sets and reads registers and memory,
and compares what the routine gives with what the teacher's answer gives for the same inputs."""
import contextlib
import random
import re
import threading
import time

from boards import Board, Ended, Unfit
from inputs import APART, FLAGS, PAIRS, REGISTERS, number

# The judge's own part of memory: a program of some bytes, a page for it, fifteen for the stack, and then those of addresses that
# are given. Beside it lies a page of zeros on either side.
PROGRAM = bytes.fromhex("76 F3 F1 C9 F3 76")
STACK, DATA, PAGE = 0xFF0, 0x1000, 256

# Where the program begins, where a call comes back to, and where the addresses of labels are.
GO, BACK, LABELS = 1, 4, 6

# The pages among which it is.
FIRST_PAGE, LAST_PAGE = 0x28, 0xD8

# The most instructions of a call whose instructions are looked at.
MOST_STEPS = 200

# The most characters of what a routine printed that are told.
MOST_TOLD = 40

# The most seconds that a teacher's answer may take for all inputs.
SECONDS_OF_AN_ANSWER = 600

# Is set where nothing more is to be marked.
STOP = threading.Event()


class Clock:
    """The time that a notebook has, in seconds, and the most that one call of it may take."""

    def __init__(self, seconds, of_a_call):
        self.seconds, self.of_a_call = seconds, of_a_call
        self.end = time.monotonic() + seconds

    def left(self):
        return self.end - time.monotonic()

    def call(self):
        """The seconds that the next call may take."""
        self.check()
        return min(self.of_a_call, max(0.01, self.left()))

    def check(self):
        if STOP.is_set():
            raise Unfit("wasn't marked to its end")
        if self.left() <= 0:
            raise Unfit(f"took more than {self.seconds:g} s")

    @contextlib.contextmanager
    def stopped(self):
        """What is done here takes none of it."""
        began = time.monotonic()
        yield
        self.end += time.monotonic() - began


def program(base, labels):
    """The cell that calls a routine. Its stack has the flags and A, the routine's address, and that of the second DI. What runs
    into it from below ends."""
    lines = [f"ORG 0{base:X}H", "HLT", "DI", "POP PSW", "RET", "DI", "HLT", *(f"DW {name}" for name in labels)]
    return "\n".join(f"        {line}" for line in [*lines, f"END 0{base + GO:X}H"])


def words(value):
    return value.to_bytes(2, "little")


def quoted(printed):
    """What was printed, in quotes, with signs in place of what can't be seen."""
    text = repr(printed)
    return text if len(text) <= MOST_TOLD else text[:MOST_TOLD] + ".."


class Calls:
    """Calls of a routine on a board on which its cell is loaded."""

    def __init__(self, board, inputs, base):
        self.board, self.inputs, self.base, self.is_whole = board, inputs, base, True

    def load(self, seconds):
        """Loads the program that calls. A label that isn't defined ends it."""
        names = self.inputs.labels()
        try:
            self.board.load(program(self.base, names), (3, 6), seconds)
        except Ended as why:
            found = re.match(r"AssemblyError: (\d+):\d+ Undefined", str(why))
            raise Ended(f"no cell defines {names[int(found[1]) - 8]}" if found else str(why)) from None
        found = self.board.memory((self.base + LABELS, 2 * len(names)))
        self.labels = {name: int.from_bytes(found[2 * at:2 * at + 2], "little") for at, name in enumerate(names)}

    def address(self, routine):
        return self.labels[routine] if routine in self.labels else number(routine)

    def give(self, case):
        """Puts an input where the routine finds it."""
        case.at(self.base + DATA)
        top = self.base + STACK
        memory = {**case.memory, **{self.labels[name]: it for name, it in case.labels.items()}}
        memory[top - 6] = bytes([case.flags, case.registers["A"]]) + words(self.address(case.routine)) + words(self.base + BACK)
        if not self.is_whole:
            memory[self.base] = PROGRAM
        registers = {name: value for name, value in case.registers.items() if name != "A"}
        self.board.set({**registers, "SP": top - 6, "PC": self.base + GO}, memory)

    def call(self, case, seconds):
        """Calls the routine. Returns what it gives, as pairs of a name and a value as it is shown, and what it printed."""
        self.give(case)
        printed = self.board.go_on(seconds)
        seen = self.board.shown("registers", "flags", "devices")
        self.is_whole = self.board.memory((self.base, len(PROGRAM))) == PROGRAM
        if seen["PC"] != self.base + BACK:
            raise Ended(f"comes back to {seen['PC']:04X}, and not to its call")
        given = [("SP", f"{seen['SP']:04X}")]
        for name in self.inputs.asked:
            given += self.asked(name, seen, case, printed)
        return given, printed

    def asked(self, name, seen, case, printed):
        if name in REGISTERS:
            return [(name, f"{seen[name]:02X}")]
        if name in PAIRS:
            return [(name, f"{seen[name[0]]:02X}{seen[name[1]]:02X}")]
        if name in FLAGS:
            return [(name, str(seen[name]))]
        if name == "bytes":
            found = self.board.memory(*((start, len(content)) for start, content in case.memory.items()))
            places = [start + at for start, content in case.memory.items() for at in range(len(content))]
            return [(f"{place:04X}", f"{byte:02X}") for place, byte in zip(places, found)]
        if name in case.labels:
            found = self.board.memory((self.labels[name], len(case.labels[name])))
            return [(name, found[::-1].hex().upper())]
        return [(name, {"console": quoted(printed), "lamps": f"{seen['lamps']:02X}", "interrupts": seen["INTE"]}[name])]

    def instructions(self, case):
        """The instructions that a call executes, up to some."""
        self.give(case)
        for _ in range(3):
            self.board.step()
        found = []
        while self.board.shown("registers")["PC"] != self.base + BACK and len(found) < MOST_STEPS:
            found.append(self.board.step())
        return found


def free_place(board, inputs, seed):
    """An address from which on as much memory as is needed holds nothing but zeros."""
    pages = DATA // PAGE + APART // PAGE * sum(each.is_address() for each in inputs.given)
    candidates = list(range(FIRST_PAGE, LAST_PAGE - pages))
    random.Random(f"{seed} place").shuffle(candidates)
    for page in candidates:
        if not any(board.memory((PAGE * (page - 1), PAGE * (pages + 2)))):
            return PAGE * page
    raise Unfit("left no memory free for the judge")


def put(text, variant):
    """A cell's text with other numbers in its lines with EQU and SET."""
    for (name, word, value), other in variant.items():
        text, count = re.subn(rf"(?mi)^({re.escape(name)}\s+{word}\s+){re.escape(value)}\b", rf"\g<1>{other}", text, count=1)
        if not count:
            raise Ended(f"its cell has no line `{name} {word} {value}`")
    return text


def told(variant):
    return "with " + " and ".join(f"{name} {word} {other}" for (name, word, _), other in variant.items())


class Sheet:
    """The inputs of an exercise, in groups, each for one variant of the cell's text."""

    def __init__(self, inputs, seed):
        cases, variants = inputs.cases(random.Random(f"{seed} inputs")), list(inputs.variants())
        size = -(-len(cases) // len(variants))
        self.groups = [(variant, cases[at * size:(at + 1) * size]) for at, variant in enumerate(variants)]


class Trial:
    """A cell on trial: it is loaded and called with the inputs of a sheet."""

    def __init__(self, board, inputs, base, text, clock):
        self.board, self.inputs, self.base, self.text, self.clock = board, inputs, base, text, clock

    def load(self, variant):
        """Loads the cell's variant, and the program that calls it."""
        _, error, ended = self.board.run(put(self.text, variant), self.clock.call())
        if error or ended:
            raise Ended(error or ended)
        calls = Calls(self.board, self.inputs, self.base)
        calls.load(self.clock.call())
        return calls

    def results(self, sheet):
        """For each input of the sheet the variant, the case, and what came: pairs and what was printed, or an `Ended`, which is
        the last."""
        for variant, cases in sheet.groups:
            try:
                calls = self.load(variant)
            except Ended as why:
                self.clock.check()
                yield variant, None, why
                return
            try:
                for case in cases:
                    yield variant, case, calls.call(case, self.clock.call())
            except Ended as why:
                self.clock.check()
                yield variant, case, why
                return
            finally:
                self.board.leave()

    def once(self, variant, case):
        """What came of one call of the cell, loaded anew."""
        try:
            return self.load(variant).call(case, self.clock.call())[0]
        except Ended:
            return None
        finally:
            self.board.leave()

    def instructions(self, case):
        try:
            return self.load({}).instructions(case)
        finally:
            self.board.leave()


class Judge:
    """Judges cells by inputs of a seed. What the teacher's answers give is found out once, whoever is judged."""

    def __init__(self, seed, seconds):
        self.seed, self.seconds = seed, seconds
        self.known, self.lock = {}, threading.Lock()

    def seed_of(self, lesson, number):
        return f"{self.seed} {lesson.name} {number}"

    def wanted(self, lesson, number, base):
        """What the teacher's answer gives for each input, and what it prints."""
        with self.lock:
            key = lesson.name, number, base
            if key not in self.known:
                self.known[key] = self.answers(lesson, number, base)
            return self.known[key]

    def answers(self, lesson, number, base):
        inputs = lesson.inputs[number]
        with Board() as board:
            for text in lesson.before(number):
                board.run(text, self.seconds)
            trial = Trial(board, inputs, base, lesson.answers[number], Clock(SECONDS_OF_AN_ANSWER, self.seconds))
            found = [came for *_, came in trial.results(Sheet(inputs, self.seed_of(lesson, number)))]
        if isinstance(found[-1], Ended):
            raise Unfit(f"wasn't judged: the teacher's answer to exercise {number} {found[-1]}")
        return found

    def judged(self, board, lesson, number, text, clock):
        """What is wrong with a cell, in words, or nothing; and what else is to be said of it."""
        inputs, seed = lesson.inputs[number], self.seed_of(lesson, number)
        base = free_place(board, inputs, seed)
        with clock.stopped():
            wanted = self.wanted(lesson, number, base)
        trial = Trial(board, inputs, base, text, clock)
        note, sheet = "", Sheet(inputs, seed)
        with contextlib.closing(trial.results(sheet)) as results:
            for at, (variant, case, came) in enumerate(results):
                if isinstance(came, Ended) or came[0] != wanted[at][0]:
                    break
                if "console" not in inputs.asked and came[1] != wanted[at][1]:
                    note = f"prints {quoted(came[1])} too"
            else:
                at = None
        found = self.forbidden(trial, sheet) if at is None else self.finding(trial, variant, case, came, wanted[at][0], at)
        if inputs.changes:
            board.run(text, clock.call())
        return found, "" if found else note

    def finding(self, trial, variant, case, came, wanted, at):
        """What is wrong, in words, for the first input for which something is."""
        if case is None:
            return str(came)
        begin = [f"{told(variant)}:"] * bool(variant) + [f"at {case.routine}:"] * (len(trial.inputs.routines) > 1)
        begin = " ".join(it for it in (*begin, case.words()) if it)
        if isinstance(came, Ended):
            why = str(came)
        else:
            (name, given), (_, other) = next(pair for pair in zip(came[0], wanted) if pair[0] != pair[1])
            why = f"prints {given}, not {other}" if name == "console" else f"gives {name}={given}, not {other}"
        if at and trial.once(variant, case) == wanted:
            why += ", but only when it was called before: it changes what it needs"
        return f"{begin} {why}".strip()

    def forbidden(self, trial, sheet):
        """The instruction that the routine executes though it shouldn't, in words."""
        if not trial.inputs.only:
            return ""
        for word in trial.instructions(sheet.groups[0][1][0]):
            if word not in trial.inputs.only:
                return f"uses {word}, and should do without"
        return ""
