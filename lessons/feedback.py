"""Notebooks that go back to their students: with marks, with what is wrong, and with the teacher's comments."""
import csv
import json
import os
import secrets
import tempfile

from boards import Unfit
from notebooks import READING, cells_of, kind_of, read, tags_of
from tables import NOT_DONE, WRONG, is_formula, printable

# The tag of cells that are written here. Those of an earlier time are left out.
TAG = "feedback"

# The largest file of comments.
MOST_OF_COMMENTS = 4 << 20

# What is said of a wrong exercise, above what was found.
FOUND = "It was called with numbers drawn at random. For these it doesn't do what it should:"


class Comments:
    """The teacher's comments: a table with the columns who, lesson, exercise and text. Lesson and exercise may be missing."""

    def __init__(self, path):
        self.path, self.rows = path, list(self.read(path)) if path else []
        self.used = set()

    def read(self, path):
        try:
            with open(path, encoding="utf-8-sig", newline="") as file:
                text = file.read(MOST_OF_COMMENTS + 1)
        except (OSError, ValueError) as error:
            raise Unfit(f"{path} can't be read: {getattr(error, 'strerror', None) or 'it is no UTF-8'}") from None
        if len(text) > MOST_OF_COMMENTS:
            raise Unfit(f"{path} has more than {MOST_OF_COMMENTS >> 20} MiB")
        lines = text.splitlines(keepends=True)
        head = lines[0] if lines else ""
        table = csv.DictReader(lines, delimiter=";" if head.count(";") > head.count(",") else ",")
        if not {"who", "text"} <= set(table.fieldnames or ()):
            raise Unfit(f"{path} has no columns `who` and `text` in its first line")
        for row in table:
            who = row["who"] or ""
            who = who[1:] if who.startswith("'") and is_formula(who[1:]) else who
            yield table.line_num, who, row.get("lesson") or "", row.get("exercise") or "", row["text"] or ""

    def on(self, marked, exercise):
        """The comments on an exercise of a notebook, or on the whole of it."""
        for line, who, lesson, number, text in self.rows:
            if who == marked.who and lesson in ("", marked.lesson) and number == exercise:
                self.used.add(line)
                yield text

    def unused(self):
        """A sentence for each comment that no notebook has."""
        for line, who, _, _, _ in self.rows:
            if line not in self.used:
                yield f"{self.path}:{line}: the comment for {who} has no place in any notebook"


def check(target, folder):
    """Feedback that lies among what is marked would be marked the next time."""
    target, folder = target.resolve(), folder.resolve()
    if target == folder or folder in target.parents or target in folder.parents:
        raise Unfit(f"{target} and {folder} lie in one another, and what is in both would be marked the next time")


def cell(text, with_id):
    made = {"cell_type": "markdown", "metadata": {"tags": [TAG]}, "source": text}
    return {**made, "id": f"{TAG}-{secrets.token_hex(4)}"} if with_id else made


def in_code(text):
    """A text in a block, whatever signs it has."""
    return f"    {printable(text)}"


def on_exercise(marked, number, comments):
    """What is said of an exercise."""
    mark = marked.marks.get(number, NOT_DONE)
    said = [f"**Exercise {number}: {mark}.**" + (f" {FOUND}" if mark == WRONG and " " in marked.findings.get(number, "") else "")]
    said += [in_code(marked.findings[number])] if number in marked.findings else []
    return "\n\n".join([*said, *on_all(marked, str(number), comments)])


def on_all(marked, exercise, comments):
    return [f"*Comment:* {text}" for text in comments.on(marked, exercise)]


def with_marks(marked, comments):
    """A notebook with what is said of it."""
    with READING:
        whole = read(marked.path)
        cells, minor = [], whole.get("nbformat_minor")
        with_id = isinstance(minor, int) and minor >= 5
        right = f"**Marked: {marked.right()} of {len(marked.marks)} right.**"
        remarks = [in_code(text) for text in marked.remarks]
        cells.append(cell("\n\n".join([right, *remarks, *on_all(marked, "", comments)]), with_id))
        for each in cells_of(whole):
            tags = tags_of(each)
            numbers = [number for kind, number in map(kind_of, tags) if kind == "exercise" and number in marked.marks]
            if numbers and each.get("cell_type") == "code":
                cells.append(cell(on_exercise(marked, numbers[0], comments), with_id))
            if TAG not in tags:
                cells.append(each)
        whole["cells"] = cells
        try:
            return json.dumps(whole, ensure_ascii=False) + "\n"
        except RecursionError:
            raise Unfit("can't be given back, since it is nested too deeply") from None


def put(path, text):
    """Writes a file as a whole. A link in its place is replaced."""
    path.parent.mkdir(parents=True, exist_ok=True)
    file, name = tempfile.mkstemp(dir=path.parent)
    with open(file, "w", encoding="utf-8", errors="replace") as opened:
        opened.write(text)
    os.chmod(name, 0o644)
    os.replace(name, path)


def write(all_marked, folder, target, comments):
    """Writes the notebooks that were marked. Yields a sentence for each that isn't written, and for comments without a place."""
    for marked in all_marked:
        try:
            if marked.marks:
                put(target / marked.path.relative_to(folder), with_marks(marked, comments))
        except Unfit as why:
            yield f"{marked.who}: {why}"
        except OSError as error:
            yield f"{error.filename}: {error.strerror}"
    yield from comments.unused()
