"""Notebooks as marking reads them: students', which may hold anything, and the teacher's."""
import json
import re
import threading

from boards import Unfit
from inputs import Inputs, Unreadable

# The largest notebook that is read, in bytes, and the most values in it. These lessons have less than a tenth of that.
MOST_OF_A_NOTEBOOK, MOST_VALUES = 16 << 20, 1_000_000

# The most exercises that a lesson has.
MOST_EXERCISES = 99

# One notebook at a time is in memory as a whole.
READING = threading.Lock()


def tags_of(cell):
    metadata = cell.get("metadata")
    tags = metadata.get("tags") if isinstance(metadata, dict) else None
    return {tag for tag in tags if isinstance(tag, str)} if isinstance(tags, list) else set()


def text_of(cell):
    source = cell.get("source")
    if isinstance(source, list) and all(isinstance(line, str) for line in source):
        source = "".join(source)
    if not isinstance(source, str):
        raise Unfit("isn't a notebook: a cell has no text")
    return source


def lab80_of(part):
    """The metadata of a notebook or of a cell under lab80's name."""
    metadata = part.get("metadata")
    told = metadata.get("lab80") if isinstance(metadata, dict) else None
    return told if isinstance(told, dict) else {}


def kind_of(tag):
    """A tag's kind and number: `judge` and 1 for `judge-1`."""
    kind, _, number = tag.partition("-")
    is_number = re.fullmatch(r"[1-9][0-9]?", number)
    return kind, int(number) if is_number else 0


def read(path):
    """The JSON value of a file."""
    try:
        with open(path, "rb") as file:
            content = file.read(MOST_OF_A_NOTEBOOK + 1)
        if len(content) > MOST_OF_A_NOTEBOOK:
            raise Unfit(f"has more than {MOST_OF_A_NOTEBOOK >> 20} MiB: clear its outputs and hand it in again")
        if sum(map(content.count, (b",", b"[", b"{"))) > MOST_VALUES:
            raise Unfit("has more than a million values: clear its outputs and hand it in again")
        return json.loads(content)
    except OSError as error:
        raise Unfit(f"can't be read: {error.strerror}") from None
    except json.JSONDecodeError as error:
        raise Unfit(f"isn't a notebook: no JSON at line {error.lineno}") from None
    except (ValueError, RecursionError):
        raise Unfit("isn't a notebook: no JSON") from None


def cells_of(whole):
    """The cells of a notebook's JSON."""
    cells = whole.get("cells") if isinstance(whole, dict) else None
    if not isinstance(cells, list) or not all(isinstance(cell, dict) for cell in cells):
        raise Unfit("isn't a notebook: it has no cells")
    return cells


class Notebook:
    """A notebook's code cells, as pairs of tags and text, what lab80 knows of each, and the name of its lesson."""

    def __init__(self, path):
        with READING:
            whole = read(path)
            cells = [cell for cell in cells_of(whole) if cell.get("cell_type") == "code"]
            self.cells = [(tags_of(cell), text_of(cell)) for cell in cells]
            self.told = [lab80_of(cell) for cell in cells]
            self.lesson = lab80_of(whole).get("lesson", path.stem)


class Lesson:
    """A teacher's notebook: its cells, and of each exercise the stub, the answer, and what it is called with and asked."""

    def __init__(self, path):
        notebook = Notebook(path)
        self.name, self.cells = notebook.lesson, notebook.cells
        self.tools = [text for tags, text in notebook.cells if "tools" in tags]
        self.kept = {text for tags, text in notebook.cells if "somebody" in tags}
        self.stubs, self.answers, self.inputs = {}, {}, {}
        for (tags, text), told in zip(notebook.cells, notebook.told):
            for kind, number in map(kind_of, tags):
                if kind == "exercise" and number:
                    self.stubs[number], self.answers[number] = told.get("stub", ""), text
                elif kind == "judge" and "inputs" in told:
                    self.inputs[number] = self.read_inputs(number, told["inputs"])

    def read_inputs(self, number, text):
        try:
            return Inputs(text)
        except Unreadable as why:
            raise Unfit(f"the inputs of exercise {number} of {self.name} can't be read: {why}") from None

    def before(self, number):
        """The texts of the cells that come before an exercise, without judges."""
        found = []
        for tags, text in self.cells:
            if f"exercise-{number}" in tags:
                break
            if not any(kind == "judge" for kind, _ in map(kind_of, tags)):
                found.append(text)
        return found


def lessons(folder):
    """The lessons by their names."""
    found = [Lesson(path) for path in sorted(folder.glob("*.ipynb"))]
    return {lesson.name: lesson for lesson in found}
