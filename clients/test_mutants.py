"""`lessons/mark` on mutants of the lessons' answers: it refuses each that differs from its answer. Whether one differs is what a
plain model of the board says, for inputs of this test's own and by the judges of the notebooks, which mark doesn't use.

A run takes some mutants of each answer, other ones each day; LAB80_MUTANTS=all takes all, and prints how many there are."""
import os
import random
import re
import sys
import time
import unittest
from concurrent.futures import ProcessPoolExecutor
from pathlib import Path

import plain_board
from mutants import mutants

LESSONS = Path(__file__).resolve().parent.parent / "lessons"
sys.path.insert(0, str(LESSONS))

import boards  # noqa: E402
import judging  # noqa: E402
import notebooks  # noqa: E402
from inputs import COUNT  # noqa: E402

# How many mutants of each answer a run takes, and the days since 1970, by which they and all inputs are drawn.
SOME, SEED = 6, int(time.time()) // 86_400
ALL = os.environ.get("LAB80_MUTANTS") == "all"

# Seconds for a call of a mutant, which may have no end, and for one of an answer, however busy the machine is.
SOON, LATE = 1, 60

# Lessons at once, each on boards of its own. A kernel keeps a thousand texts, so a new one comes before.
AT_ONCE, MOST_TEXTS = 3, 400

# How many inputs the model is asked about, and the most steps of a call: no answer needs a tenth of it.
INPUTS, STEPS = 300, 20_000

# Where the model's calls come back to, and where they find bytes.
BACK, BYTES = 0xFFF0, 0x30F8

EDGES = (0, 1, 9, 10, 0x7F, 0x80, 0xFE, 0xFF)


def byte(chance):
    return chance.choice(EDGES) if chance.random() < 0.4 else chance.randrange(256)


def digits(chance):
    return (str(chance.randrange(256)) + chance.choice("/:;@ ,x\0") + str(chance.randrange(100))).encode()


def text(chance):
    return bytes(chance.randrange(1, 256) for _ in range(chance.randrange(30))) + b"\0"


def ring(chance):
    return {"B": chance.randrange(8)}


# What the exercises whose registers may not hold anything are given; `bytes` lie at HL.
GIVEN = {
    **{("00-numbers", number): lambda chance: {"B": chance.randrange(1, 5)} for number in (1, 2, 3)},
    ("02-flags", 3): lambda chance: {name: int(str(chance.randrange(100)), 16) for name in "BC"},
    ("03-jumps", 3): lambda chance: {"C": chance.choice((1, 2, 3, 10, chance.randrange(1, 256)))},
    ("04-memory", 1): lambda chance: {"bytes": text(chance)},
    ("04-memory", 2): lambda chance: {"B": chance.randrange(1, 30), "bytes": bytes(byte(chance) for _ in range(30))},
    ("04-memory", 3): lambda chance: {"B": chance.randrange(1, 30), "bytes": bytes(40)},
    ("06-calls", 3): lambda chance: {"C": chance.randrange(1, 25)},
    ("08-console", 3): lambda chance: {"bytes": digits(chance)},
    ("09-expressions", 1): lambda chance: {"B": chance.randrange(4)},
    ("09-expressions", 2): ring,
    ("11-interrupts", 2): lambda chance: {"B": chance.randrange(1, 256)},
    ("12-project", 1): ring,
    ("12-project", 2): ring,
    ("12-project", 3): lambda chance: {"H": chance.randrange(8), "L": chance.randrange(8)},
    ("13-game", 1): lambda chance: {"bytes": bytes(byte(chance) for _ in range(7))},
    ("13-game", 2): lambda chance: {"B": chance.randrange(2)},
    ("13-game", 3): lambda chance: {"A": chance.choice((0, 1 << chance.randrange(8))), "D": int(str(chance.randrange(100)), 16)},
}

# The exercises that are called themselves and not as their judges in the notebooks do, and what is asked then.
CALLED = {("04-memory", 3): ("FILL", "bytes"), ("13-game", 1): ("FALL", "bytes")}

FLAGS = {"c": "cy", "z": "z", "s": "s"}


def drawn(lesson, number):
    """Inputs for the model: registers, and bytes at HL."""
    chance = random.Random(f"{SEED} {lesson} {number}")
    for _ in range(INPUTS):
        given = {name: byte(chance) for name in plain_board.NAMES if name != "M"} | {"flags": chance.randrange(256)}
        if chance.random() < 0.3:
            near = {one: (given[other] + chance.randrange(-1, 2)) % 256 for one, other in ("CB", "EL")}
            given |= near | {"D": given["H"]}
        given |= GIVEN.get((lesson, number), lambda _: {})(chance)
        yield given | ({"H": BYTES >> 8, "L": BYTES & 255} if "bytes" in given else {})


def model_at(image, entry, given):
    """A board on which a call is about to begin."""
    board = plain_board.Board()
    board.memory[:] = image
    board.put_pair(6, given["A"] << 8 | given["flags"], is_stack=True)
    for name in "BCDEHL":
        board.r[plain_board.NAMES.index(name)] = given[name]
    for at, each in enumerate(given.get("bytes", b"")):
        board.memory[BYTES + at] = each
    board.pc, board.sp = entry, 0x1000
    board.push(BACK)
    return board


def model_gives(image, entry, given, asked):
    """What a call gives on the model, by the judges' letters, or nothing if it doesn't come back."""
    board = model_at(image, entry, given)
    for _ in range(STEPS):
        if board.pc == BACK:
            break
        if board.is_at_undefined():
            return None
        board.step()
        if board.is_halted:
            return None
    else:
        return None
    if asked == "bytes":
        return bytes(board.memory[BYTES - 8:BYTES + 50])
    return [asked_of(board, letter) for letter in asked]


def asked_of(board, letter):
    if letter in FLAGS:
        return getattr(board, FLAGS[letter])
    if letter in "bdh":
        return board.pair("bdh".index(letter) * 2)
    return board.value(letter)


class Exercise:
    """An exercise, and what the model says of cells for it."""

    def __init__(self, lesson, number):
        self.lesson, self.number = lesson, number
        self.judge = next(text for tags, text in lesson.cells if f"judge-{number}" in tags)
        self.routine = re.search(r"(?m)^CASES: +DW (\w+)", self.judge)[1]
        self.asked = re.search(r"DB '\w*>(\w+)',0", self.judge)[1]
        self.routine, self.asked = CALLED.get((lesson.name, number), (self.routine, self.asked))
        self.known = None

    def load(self, board, text):
        """Loads a cell for it on a board that has nothing else, after the cells that come before."""
        board.debug(("boardReset", {}))
        for before in self.lesson.before(self.number):
            board.run(before, LATE)
        return board.run(text, SOON)

    def gives(self, board, text):
        """What a cell gives on the model for all inputs. Its bytes are those that the kernel's assembler makes."""
        self.load(board, text)
        board.run(self.judge.replace("END START", "END"), LATE)
        image, names = board.memory((0, 65536)), symbols(board)
        entry = names[self.routine]
        return [model_gives(image, entry, given, self.asked) for given in drawn(self.lesson.name, self.number)]

    def differs(self, board, text):
        """Whether the cell gives something else than the answer on the model."""
        self.known = self.known or self.gives(board, self.lesson.answers[self.number])
        return self.gives(board, text) != self.known


def symbols(board):
    """The values of the board's labels."""
    found = {}
    while True:
        [body] = board.debug(("variables", {"variablesReference": 4, "start": len(found), "count": 256}))
        if not body["variables"]:
            return found
        found |= {each["name"]: boards.plain(each["value"]) for each in body["variables"]}


def chosen(lesson, exercise):
    """The mutants to take of an answer."""
    found = list(mutants(lesson.answers[exercise.number]))
    return found if ALL else random.Random(f"{SEED} {lesson.name} {exercise.number}").sample(found, min(SOME, len(found)))


def tried(name):
    """What is wrong with the marks of a lesson's mutants, and for each exercise how many there are, pass, and are refused."""
    lesson = notebooks.lessons(LESSONS / "teacher")[name]
    judge, patient, wrong, counts = judging.Judge(SEED, SOON), judging.Judge(SEED, LATE), [], {}
    patient.known = judge.known
    for number in sorted(lesson.stubs):
        exercise = Exercise(lesson, number)
        found = [("the answer", lesson.answers[number]), *chosen(lesson, exercise)]
        refused = 0
        for at in range(0, len(found), MOST_TEXTS):
            with boards.Board() as board:
                for what, text in found[at:at + MOST_TEXTS]:
                    exercise.load(board, "")
                    its_judge = patient if what == "the answer" else judge
                    finding, _ = its_judge.judged(board, lesson, number, text, judging.Clock(LATE, its_judge.seconds))
                    refused += bool(finding)
                    if what == "the answer" and finding:
                        wrong.append(f"exercise {number}: the answer isn't right: {finding}")
                    elif not finding and exercise.differs(board, text):
                        wrong.append(f"exercise {number}: right with {what}")
        counts[number] = len(found) - 1, len(found) - 1 - refused, refused
    return wrong, counts


class Mutants(unittest.TestCase):
    """A test for each lesson."""

    seconds = 3_600 if ALL else 300

    @classmethod
    def setUpClass(cls):
        cls.pool = cls.enterClassContext(ProcessPoolExecutor(AT_ONCE))
        names = sorted(path.stem for path in (LESSONS / "teacher").glob("*.ipynb"))
        # the last one has by far the most instructions
        cls.found = {name: cls.pool.submit(tried, name) for name in reversed(names)}


def lesson_test(name):
    def test(self):
        wrong, counts = self.found[name].result()
        if ALL:
            for number, (count, equal, refused) in counts.items():
                print(f"{name} {number}: {count} mutants, {equal} equal on {COUNT} inputs, {refused} refused", flush=True)
        self.assertEqual(wrong, [], f"seed {SEED}")

    return test


for each in sorted(path.stem for path in (LESSONS / "teacher").glob("*.ipynb")):
    setattr(Mutants, "test_" + each.replace("-", "_"), lesson_test(each))
