"""Lessons of a teacher's own, made and marked with what the teacher's archive has; and the lessons as one page for printing."""
import base64
import csv
import json
import os
import re
import shutil
import subprocess
import sys
import tempfile
import unittest
from html.parser import HTMLParser
from importlib.machinery import SourceFileLoader
from pathlib import Path

import nbformat

LESSONS = Path(__file__).resolve().parent.parent / "lessons"
make = SourceFileLoader("make", str(LESSONS / "make")).load_module()

# The most seconds that a script may take.
PATIENCE = 300

EXERCISE = """
### Exercise {number}

```asm exercise-{number}
        ORG 2000H
NEXT:
        RET
```

```answer
        ORG 2000H
NEXT:   MOV A,B
        ADI {number}
        RET
```

```asm judge-{number}
        ORG 100H
START:  LXI SP,1000H
        LXI H,CASES
        CALL JUDGE
        HLT
CASES:  DW NEXT
        DB 'B>A',0,1
        DW 1,{number}+1
        END START
```

```inputs
call NEXT
B 0..255
gives A
```
"""

# What is wrong with a source, by a change of the example, and what is said.
SLIPS = {
    ("```answer\n        ORG 2000H", "```asm\n        ORG 2000H"): "exercise 1 has no answer",
    ("```inputs", "```teacher"): "exercise 1 has no judge with inputs",
    ("B 0..255", "X 0..255"): "the inputs of exercise 1 can't be read: `X` begins no line of inputs",
    ("B 0..255", "B 0..25G"): "the inputs of exercise 1 can't be read: `25G` is no number",
    ("B 0..255", "B C..255"): "the inputs of exercise 1 can't be read: `C` isn't given above",
    ("B 0..255", "B"): "the inputs of exercise 1 can't be read: `B` has no range",
    ("gives A", "gives X"): "the inputs of exercise 1 can't be read: `X` can't be asked",
    ("gives A", ""): "the inputs of exercise 1 can't be read: a line `call` and a line `gives` are needed",
    ("gives A", "gives A\nchange X"): "the inputs of exercise 1 can't be read: `change X` changes no line with EQU or SET",
    ("gives A", "gives A\nalso X=5"): "the inputs of exercise 1 can't be read: `X=5` gives nothing that stands above a number",
    ("B 0..255", "B bytes(5)"): "the inputs of exercise 1 can't be read: `B` holds no address",
    ("B 0..255", "BC 0..9\nHL bytes(BC)"): "the inputs of exercise 1 can't be read: `HL` has bytes of more than 255",
    ("B 0..255", "B decimal(0..100)"): "the inputs of exercise 1 can't be read: `B` has decimal of more than 99",
    ("call ODD", "call 2X"): "the inputs of exercise 1 can't be read: `2X` is no number",
    ("B 0..255", "B " + "1..2 " * 30):
        "the inputs of exercise 1 can't be read: there are more ends of ranges, and lines `also`, than the 40 inputs",
}


def call(folder, *words):
    """Runs a script. Returns its output, its errors and its status."""
    words = [sys.executable, "-B", *words]
    done = subprocess.run(words, cwd=folder, capture_output=True, text=True, timeout=PATIENCE, check=False)
    return done.stdout, done.stderr, done.returncode


class Own(unittest.TestCase):
    def setUp(self):
        """The files of the teacher's archive, away from all others of lab80."""
        self.folder = Path(self.enterContext(tempfile.TemporaryDirectory())) / "lab80-teacher"
        self.folder.mkdir()
        for path in [LESSONS / "mark", LESSONS / "make", *LESSONS.glob("*.py")]:
            shutil.copy(path, self.folder)
        for name in ("source", "teacher"):
            shutil.copytree(LESSONS / name, self.folder / name)
        self.example = (LESSONS / "source" / "example.md").read_text(encoding="utf-8")

    def make(self, text, name="parity", *words):
        """Makes the notebooks of a source. Returns what was said."""
        (self.folder / f"{name}.md").write_text(text, encoding="utf-8")
        return call(self.folder, "make", *words, f"{name}.md")[1]

    def mark(self, **answers):
        """Marks a copy of the student's notebook with these answers, by student. Returns the rows of the table."""
        for who, (name, texts) in answers.items():
            book = json.loads((self.folder / f"{name}.ipynb").read_text(encoding="utf-8"))
            for cell in book["cells"]:
                cell["source"] = texts.get(cell["id"], cell["source"])
            path = self.folder / "class" / f"{who}.ipynb"
            path.parent.mkdir(exist_ok=True)
            path.write_text(json.dumps(book), encoding="utf-8")
        printed, said, status = call(self.folder, "mark", "--csv", "--seconds", "60", "class")
        self.assertEqual(status, 0, said)
        return list(csv.DictReader(printed.splitlines()))

    def test_the_example_is_made_and_marked(self):
        self.assertEqual(self.make(self.example, "parity", "--outputs"), "")
        self.assertIn("```output\nB=00 gives A=00\n", (self.folder / "parity.md").read_text(encoding="utf-8"))
        for path in (self.folder / "parity.ipynb", self.folder / "teacher" / "parity.ipynb"):
            nbformat.validate(nbformat.read(path, 4))
        text = (self.folder / "parity.ipynb").read_text(encoding="utf-8")
        for word in ("RPE", "For the teacher", "B 0..255"):
            self.assertNotIn(word, text)
        right = "ORG 2000H\nODD: MOV A,B\nMVI C,0\nMORE: ADD A\nJNC NONE\nINR C\nNONE: JNZ MORE\nMOV A,C\nANI 1\nRET"
        wrong = "ORG 2000H\nODD: MOV A,B\nANI 1\nRET"
        rows = self.mark(anna=("parity", {"exercise-1": right}), ben=("parity", {"exercise-1": wrong}), cora=("parity", {}))
        self.assertEqual([(row["who"], row["lesson"], row["1"], row["2"]) for row in rows], [
            ("anna", "parity", "right", "-"), ("ben", "parity", "wrong", "-"), ("cora", "parity", "not done", "-")])
        self.assertRegex(rows[1]["remarks"], r"^1: B=.. gives A=0(0, not 01|1, not 00)$")

    def test_more_exercises_than_three(self):
        text = "# Five\n\n{judge}\n" + "".join(EXERCISE.format(number=number) for number in range(1, 6))
        self.assertEqual(self.make(text, "five"), "")
        answers = {f"exercise-{number}": f"ORG 2000H\nNEXT: MOV A,B\nADI {number}\nRET" for number in (1, 2, 4, 5)}
        [row] = self.mark(anna=("five", answers | {"exercise-5": "ORG 2000H\nNEXT: MVI A,5\nRET"}))
        self.assertEqual([row[name] for name in ("1", "2", "3", "4", "5", "right")],
                         ["right", "right", "not done", "right", "wrong", "3"])

    def test_slips_are_told(self):
        for (old, new), said in SLIPS.items():
            with self.subTest(said=said):
                self.assertEqual(self.make(self.example.replace(old, new)), f"make: parity.md: {said}\n")
        self.assertFalse((self.folder / "teacher" / "parity.ipynb").exists())

    def test_names_that_are_taken(self):
        before = (self.folder / "teacher" / "05-bits.ipynb").read_bytes()
        said = self.make(self.example, "05-bits")
        self.assertEqual(said, "make: 05-bits.md: lab80's own sources have one of the name 05-bits\n")
        self.assertEqual((self.folder / "teacher" / "05-bits.ipynb").read_bytes(), before)

    def test_a_source_that_is_missing(self):
        self.assertEqual(call(self.folder, "make", "none.md"), ("", "make: none.md: No such file or directory\n", 1))

    def test_all_can_be_made_from_the_archive(self):
        self.assertEqual(call(self.folder, "make"), ("", "", 0))
        for path in LESSONS.glob("*.ipynb"):
            self.assertEqual((self.folder / path.name).read_bytes(), path.read_bytes(), path)


class Words(HTMLParser):
    """The texts of a page, what it names in addresses, and its tags that are open."""

    def __init__(self, page):
        super().__init__()
        self.text, self.named, self.open = "", [], []
        self.feed(page)

    def handle_starttag(self, tag, attrs):
        self.named += [value for name, value in attrs if name in ("href", "src", "id")]
        if tag not in ("meta", "img"):
            self.open.append(tag)

    def handle_endtag(self, tag):
        if self.open.pop() != tag:
            raise ValueError(f"{tag} ends where it doesn't stand")

    def handle_data(self, data):
        self.text += data


class Book(unittest.TestCase):
    @classmethod
    def setUpClass(cls):
        cls.folder = Path(cls.enterClassContext(tempfile.TemporaryDirectory()))
        cls.said = call(cls.folder, str(LESSONS / "make"), "--book", "book.html")
        cls.page = (cls.folder / "book.html").read_text(encoding="utf-8")
        cls.words = Words(cls.page)

    def test_it_is_whole(self):
        self.assertEqual((self.said, self.words.open), (("", "", 0), []))
        names = [name for name in self.words.named if not name.startswith(("#", "data:"))]
        self.assertEqual(len(names), len(set(names)))
        self.assertEqual({name[1:] for name in self.words.named if name[0] == "#"} - set(names), set())
        self.assertEqual(re.findall(r"<script|<link|@import|url\(", self.page), [])
        pictures = [base64.b64decode(name.partition(",")[2]) for name in self.words.named if name.startswith("data:image/")]
        drawings = [make.drawings.svg(name).encode() for name in make.drawings.DRAWINGS]
        taken = [path.read_bytes() for path in (LESSONS / "source").glob("lesson-*.png")]
        self.assertEqual(sorted(pictures), sorted([*drawings, *taken]))

    def test_it_has_all_cells_but_tools_and_judges(self):
        for name in make.lessons():
            for cell in make.cells(make.source(name)):
                if cell.is_code():
                    is_there = cell.kind() not in ("tools", "judge")
                    self.assertEqual(cell.text in self.words.text, is_there, (name, cell.text))
                    printed = cell.printed in self.words.text and cell.error in self.words.text
                    self.assertTrue(printed or not is_there, (name, cell.text))

    def test_answers_stand_at_the_end(self):
        lessons, _, answers = self.words.text.rpartition("Answers\n")
        for name in make.lessons():
            for cell in make.cells(make.source(name)):
                if cell.answer:
                    self.assertIn(cell.answer, answers)
                    self.assertNotIn(cell.answer, lessons)

    def test_hints_stand_at_the_end(self):
        lessons, _, hints = self.words.text.rpartition("Hints\n")
        for name in make.lessons():
            for line in re.findall(r"</summary>\n\n(.*)", make.source(name)):
                said = line.removeprefix("1. ").partition("`")[0]
                self.assertTrue(len(said) < 20 or said in hints and said not in lessons, said)

    def test_it_has_the_glossary(self):
        for each in make.glossary().words:
            self.assertIn(f"{each.word}\n", self.words.text)

    def test_what_all_lessons_say_is_said_once(self):
        self.assertEqual(self.words.text.count("In each of the three exercises you complete a cell."), 1)

    def test_it_has_colours(self):
        for kind, text in (("label", "START:"), ("word", "MVI"), ("number", "0FFH"), ("comment", "; A := ten times B.")):
            self.assertTrue(f'<span class="{kind}">{text}</span>' in self.page, text)

    def test_it_prints(self):
        words = ["chromium", "--headless", "--no-sandbox", "--disable-gpu", "--no-pdf-header-footer", "--print-to-pdf=book.pdf"]
        own = os.environ | {"HOME": str(self.folder)}
        subprocess.run([*words, "book.html"], cwd=self.folder, check=True, capture_output=True, timeout=PATIENCE, env=own)
        content = (self.folder / "book.pdf").read_bytes()
        self.assertIn(len(re.findall(rb"/Type /Page\b", content)), range(70, 130))
