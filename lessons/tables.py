"""What was marked, as tables: for reading, with commas, and as Moodle imports grades."""
import sys
from dataclasses import dataclass, field
from pathlib import Path

RIGHT, WRONG, NOT_DONE, UNKNOWN = "right", "wrong", "not done", "-"

# Stands in the table for the name of a lesson that isn't known.
NO_LESSON = "?"

# The longest remarks of a row.
MOST_OF_REMARKS = 300

# What begins a formula in a spreadsheet, in wide characters too.
FORMULA = "=+-@\uff1d\uff0b\uff0d\uff20"


@dataclass
class Marked:
    """A file that was marked: whose it is, its lesson's name, marks by number, what is wrong by number, and other remarks."""

    path: Path
    who: str = ""
    lesson: str = NO_LESSON
    marks: dict = field(default_factory=dict)
    findings: dict = field(default_factory=dict)
    remarks: list = field(default_factory=list)
    answers: dict = field(default_factory=dict)

    def right(self):
        return list(self.marks.values()).count(RIGHT)

    def all_remarks(self):
        told = [f"{number}: {finding}" for number, finding in sorted(self.findings.items())] + self.remarks
        text = "; ".join(told)
        return text if len(text) <= MOST_OF_REMARKS else text[:MOST_OF_REMARKS - 3] + " .."


def printable(text):
    """The text without control characters for terminals."""
    return "".join(sign if sign.isprintable() else "?" for sign in text)


def is_formula(cell):
    """Whether a spreadsheet may take a cell for a formula and compute it. A sign alone is none."""
    return len(cell.strip()) > 1 and cell.strip()[0] in FORMULA


def numbers(marked):
    """The numbers of exercises that the table has columns for: three at least."""
    return range(1, max([3, *(number for each in marked for number in each.marks)]) + 1)


def rows(marked):
    """The table's head and rows."""
    columns = numbers(marked)
    yield ["who", "lesson", *map(str, columns), "right", "remarks"]
    for each in marked:
        marks = [each.marks.get(number, UNKNOWN) for number in columns]
        cells = [each.who, each.lesson, *marks, str(each.right()), each.all_remarks()]
        yield [printable(cell) for cell in cells]


def separated(cell):
    """A cell of a table with commas. What a spreadsheet would take for a formula begins with an apostrophe; what has a sign that
    separates cells in one, whatever its language, is in quotes."""
    safe = "'" + cell if is_formula(cell) else cell
    return '"' + safe.replace('"', '""') + '"' if any(sign in safe for sign in ',;"|\t') else safe


def write_csv(table):
    for row in table:
        print(",".join(map(separated, row)), end="\r\n")


def print_csv(marked):
    """Prints the table with commas."""
    write_csv(rows(marked))


def print_moodle(marked):
    """Prints the table as Moodle imports grades: a row for each student, with the number of right exercises in a column for each
    lesson. Of several notebooks for a lesson the best one counts. What has no place in it is said on standard error."""
    best = {}
    for each in marked:
        student, remarks = printable(each.who), printable(each.all_remarks())
        if each.lesson == NO_LESSON:
            print(f"mark: {student}: a file isn't in the table: {remarks}", file=sys.stderr)
            continue
        if remarks:
            print(f"mark: {student}: {each.lesson}: {remarks}", file=sys.stderr)
        theirs = best.setdefault(student, {})
        if each.lesson in theirs:
            print(f"mark: {student}: {each.lesson}: has several notebooks, and the best one counts", file=sys.stderr)
        theirs[each.lesson] = max(theirs.get(each.lesson, 0), each.right())
    names = sorted({lesson for theirs in best.values() for lesson in theirs})
    write_csv([["username", *names]])
    write_csv([[student, *(str(theirs.get(name, "")) for name in names)] for student, theirs in best.items()])


def print_table(marked):
    """Prints the table for reading, and how many exercises of each student are right."""
    table = list(rows(marked))
    widths = [max(len(row[column]) for row in table) for column in range(len(table[0]))]
    for row in table:
        print("  ".join(cell.ljust(width) for cell, width in zip(row, widths)).rstrip())
    print()
    sums = {}
    for each in marked:
        right, most = sums.get(each.who, (0, 0))
        sums[each.who] = right + each.right(), most + len(each.marks)
    for name, (right, most) in sums.items():
        print(f"{printable(name)}: {right} of {most}")
