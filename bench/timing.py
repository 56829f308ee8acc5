"""Times programs from the outside, for the scripts in this folder, and compares the results with goals."""
import os
import subprocess
import tempfile
import time
from contextlib import contextmanager
from pathlib import Path

TOP = Path(__file__).resolve().parent.parent
PROGRAM = TOP / "bench/out/bench"
ROUNDS = 5


def build():
    subprocess.run([TOP / "bench/build"], check=True)


class Goals:
    """The results, each as a ratio to its goal: 1 is the goal, more is better."""

    def __init__(self):
        self.parts = []

    def at_least(self, figure, goal):
        self.parts.append(figure / goal)

    def at_most(self, figure, goal):
        self.parts.append(goal / max(figure, 1e-9))

    def print_ratio(self):
        """Prints the lowest ratio, as a script's last line."""
        print(f"ratio {min(self.parts):.2f}")


def seconds(*words):
    """The seconds of the fastest of a few runs with these arguments."""
    taken = []
    for _ in range(ROUNDS):
        began = time.perf_counter()
        subprocess.run([PROGRAM, *map(str, words)], check=True, stdout=subprocess.DEVNULL)
        taken.append(time.perf_counter() - began)
    return min(taken)


def unit_seconds(word, size, count, without=None):
    """The seconds of each of this many units of a work, without those of a run that only prepares them: by default a run
    of no units."""
    whole = seconds(word, size, count) - seconds(*(without or (word, size, 0)))
    return max(whole, 1e-9) / count


def first_and_last(word, units, count, part):
    """The seconds of a unit of a work in the first and in the last few rounds on one kernel, for a number of rounds of a
    number of units, each in the fastest of a few runs."""
    first, last = [], []
    for _ in range(ROUNDS):
        words = [PROGRAM, "rounds", word, str(units), str(count)]
        with subprocess.Popen(words, stdout=subprocess.PIPE) as process:
            ends = [time.perf_counter()] + [time.perf_counter() for _ in process.stdout]
        first.append(ends[part] - ends[0])
        last.append(ends[-1] - ends[-1 - part])
    return min(first) / (part * units), min(last) / (part * units)


def rate(word, size, count, without=None):
    """Units of a work a second."""
    return 1 / unit_seconds(word, size, count, without)


# ---- comparing programs

@contextmanager
def compiled(source):
    """A C program of this folder, compiled by gcc -O2."""
    with tempfile.TemporaryDirectory() as folder:
        program = Path(folder) / "plain"
        subprocess.run(["gcc", "-O2", "-o", program, TOP / "bench" / source], check=True)
        yield program


def processor_seconds(words):
    """The processor seconds of one run, in the program itself."""
    with subprocess.Popen([*map(str, words)], stdout=subprocess.DEVNULL) as process:
        _, status, usage = os.wait4(process.pid, 0)
        process.returncode = os.waitstatus_to_exitcode(status)
    if process.returncode:
        raise SystemExit(f"{words}: ended with status {process.returncode}")
    return usage.ru_utime


def best_by_turns(commands, rounds):
    """The processor seconds of the best run of each command. The commands alternate, so that other work on the machine
    affects all of them."""
    best = [float("inf")] * len(commands)
    for _ in range(rounds):
        best = [min(least, processor_seconds(words)) for least, words in zip(best, commands)]
    return best


def require_same(*commands):
    """Exits if the outputs of the programs differ."""
    texts = {subprocess.run([*map(str, words)], stdout=subprocess.PIPE, check=True).stdout for words in commands}
    if len(texts) != 1:
        raise SystemExit(f"these differ: {commands}")
