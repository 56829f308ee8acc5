"""What helps to learn in the lessons: the field's words and the glossary, drawings, hints, aims and summaries, the questions of
lesson 0, the delay loop, and the reference card's tables."""
import base64
import json
import os
import re
import shutil
import struct
import subprocess
import tempfile
import unittest
import xml.etree.ElementTree as ElementTree
from importlib.machinery import SourceFileLoader
from pathlib import Path

from jupyter_client.manager import start_new_kernel

from browser import wait_until
from lab80_client import run
from modules import TOP
from panel_page import keep_picture
from panel_tests import NotebookPages

LESSONS = TOP / "lessons"
make = SourceFileLoader("make", str(LESSONS / "make")).load_module()

drawings, opcodes = make.drawings, make.opcodes

# Seconds for a cell or a program, however busy the machine is.
PATIENCE = 120

# Phrases that stopped readers of the lessons, since they say it otherwise than the field does.
REFUSED = re.compile(r"takes the breakpoint|(?:is|are) asked\b|stands? behind|comes to zero|loses its way|turn(?:s|ed)? over"
                     r"|without a rest|the rest\.|line's end|in base (?:16|2)\b|base 16 and|takes? away|taken away|how often")


def texts(name):
    """A lesson's texts, without those for the teacher."""
    return [cell.text for cell in make.cells(make.source(name)) if not cell.is_code() and not cell.teachers]


def all_texts():
    return {name: "\n\n".join(texts(name)) for name in make.lessons()}


class Words(unittest.TestCase):
    """The words of the glossary."""

    def test_there_are_sixty_in_order(self):
        words = [each.word for each in make.glossary().words]
        self.assertEqual(len(words), 60)
        self.assertEqual(words, sorted(words, key=str.lower))

    def test_each_is_bold_once_where_the_glossary_says(self):
        bold = [(word, name) for name, text in all_texts().items() for word in re.findall(r"\*\*(.+?)\*\*", text)]
        self.assertEqual(sorted(bold), sorted((each.word, each.lesson) for each in make.glossary().words))

    def test_meanings_are_one_or_two_sentences(self):
        for each in make.glossary().words:
            with self.subTest(word=each.word):
                self.assertRegex(each.meaning, r"^[A-Z].*\.$")
                self.assertLessEqual(len(re.findall(r"[.:](?: |$)", each.meaning)), 3)
                self.assertLess(len(each.meaning), 170)

    def test_the_notebook_links_to_the_lessons(self):
        book = json.loads((LESSONS / "glossary.ipynb").read_text(encoding="utf-8"))
        text = "".join(book["cells"][0]["source"])
        found = re.findall(r"\| \*\*(.+?)\*\* \| .* \| \[(\d+)\]\((.+)\.ipynb\) \|", text)
        words = [(each.word, each.lesson) for each in make.glossary().words]
        self.assertEqual([(word, lesson) for word, _, lesson in found], words)
        for _, number, lesson in found:
            self.assertTrue((LESSONS / f"{lesson}.ipynb").is_file())
            self.assertEqual(int(number), int(lesson[:2]))

    def test_sentences_that_stopped_readers(self):
        """In texts and in the comments of cells."""
        for name in (*make.lessons(), "judge", "example"):
            for cell in make.cells(make.source(name)):
                for text in (cell.text, cell.answer or ""):
                    self.assertIsNone(REFUSED.search(text), name)


class Parts(unittest.TestCase):
    """What each lesson has."""

    def test_aims_and_a_summary(self):
        for name, text in all_texts().items():
            with self.subTest(lesson=name):
                headings = re.findall(r"(?m)^## (.*)", text)
                self.assertEqual(headings.index("Aims"), 0)
                self.assertEqual(headings[-1], "Summary")
                for part, fewest in (("Aims", 3), ("Summary", 3)):
                    items = re.search(rf"(?ms)^## {part}\n\n(.*?)(?=^## |\Z)", text)[1]
                    self.assertGreaterEqual(len(re.findall(r"(?m)^- .*[;.]$", items)), fewest)

    def test_each_exercise_has_a_hint_and_a_plan(self):
        for name, text in all_texts().items():
            found = re.split(r"(?m)^### Exercise (\d)\n", text)[1:]
            self.assertEqual(found[::2], ["1", "2", "3"])
            for number, told in zip(found[::2], found[1::2]):
                with self.subTest(lesson=name, exercise=number):
                    self.assertEqual(re.findall(r"<summary>(.*?)</summary>", told), ["A hint", "A plan"])
                    hint, plan = re.findall(r"</summary>\n\n(.*?)\n\n</details>", told, re.S)
                    self.assertNotIn("\n", hint)
                    self.assertRegex(plan, r"^(\d\. .*(\n|$))+$")

    def test_hints_do_not_give_the_answer(self):
        """None has two of the answer's instructions with their operands."""
        for name in make.lessons():
            cells = make.cells(make.source(name))
            for before, cell in zip(cells, cells[1:]):
                if cell.is_code() and cell.kind() == "exercise":
                    hints = " ".join(re.findall(r"</summary>(.*?)</details>", before.text, re.S))
                    lines = [re.sub(r"^\w+:|;.*", "", line).strip() for line in cell.answer.splitlines()]
                    told = {line for line in lines if " " in line and not line.startswith(("ORG", "DB")) and line in hints}
                    self.assertLessEqual(len(told), 1, (name, cell.tags, told))


def read_png(content):
    """The parts of a PNG."""
    at, parts = 8, {}
    while at < len(content):
        length, kind = struct.unpack(">I4s", content[at:at + 8])
        parts[kind] = content[at + 8:at + 8 + length]
        at += length + 12
    return parts


class Drawings(unittest.TestCase):
    def test_notebooks_have_the_drawings_as_they_are_now(self):
        """Their pictures were made of this text; `lessons/make --drawings` makes them anew."""
        for name in drawings.DRAWINGS:
            content = (LESSONS / "source" / f"{name}.png").read_bytes()
            parts = read_png(content)
            self.assertEqual(parts[b"tEXt"], b"Source\0" + drawings.sum_of(name).encode(), name)
            self.assertEqual(struct.unpack(">I", parts[b"IHDR"][:4])[0], drawings.WIDTH * drawings.SCALE, name)
            self.assertLess(len(content), 16_000, name)

    def test_each_is_in_one_lesson_with_a_text(self):
        found = [(name, told) for text in all_texts().values() for told, name, kind in make.PICTURE.findall(text) if kind == "svg"]
        self.assertEqual(sorted(name for name, _ in found), sorted(drawings.DRAWINGS))
        for name, told in found:
            self.assertGreater(len(told), 80, name)
            self.assertRegex(told, r"\.$")

    def test_notebooks_embed_them(self):
        for name in make.lessons():
            book = json.loads((LESSONS / f"{name}.ipynb").read_text(encoding="utf-8"))
            for cell in book["cells"]:
                for file, data in cell.get("attachments", {}).items():
                    content = base64.b64decode(data["image/png"])
                    self.assertEqual(content, (LESSONS / "source" / file).read_bytes())

    def test_they_are_whole_and_within_their_edges(self):
        for name in drawings.DRAWINGS:
            tree = ElementTree.fromstring(drawings.svg(name))
            width, height = int(tree.get("width")), int(tree.get("height"))
            space = "{http://www.w3.org/2000/svg}"
            self.assertTrue(tree.find(f"{space}title").text, name)
            self.assertEqual(tree.findall(f".//{space}script"), [])
            for each in tree.iter(f"{space}rect"):
                x, y, wide, high = (float(each.get(part, 0)) for part in ("x", "y", "width", "height"))
                self.assertTrue(0 <= x <= x + wide <= width and 0 <= y <= y + high <= height, (name, each.attrib))
            for each in tree.iter(f"{space}text"):
                self.assertTrue(self.is_within(each, width, height), (name, each.text))

    def is_within(self, text, width, height):
        """Whether words fit, whose letters are at most so wide on the average."""
        kinds = text.get("class").split()
        size = 14 if "small" in kinds else 20 if "large" in kinds else 16
        long, x = (0.61 if "code" in kinds else 0.56) * size * len(text.text), float(text.get("x"))
        left = x if "left" in kinds else x - long if "right" in kinds else x - long / 2
        return left >= 0 and left + long <= width and 0 < float(text.get("y")) < height

    def test_colours_stand_out(self):
        """Words against the page and the boxes, in light and dark: 4.5 to 1, which WCAG wants."""
        light, dark = drawings.STYLE.split("@media")
        for style in (light, dark):
            colours = dict(re.findall(r"\.(\w+) \{ fill: (#\w{6})", style))
            for words in ("ink", "faint", "strong", "warm"):
                for behind in ("page", "box", "mark", "soft", "hot") if words == "ink" else ("page", "box"):
                    self.assertGreaterEqual(contrast(colours[words], colours[behind]), 4.5, (words, behind))

    def test_flags_are_the_boards(self):
        """The masks below the flags' byte are those that the card names."""
        card = (LESSONS / "source" / "card.html").read_text(encoding="utf-8")
        masks = dict(re.findall(r"<tr><td>(S|Z|AC|P|CY)</td><td>(\w+)</td>", card))
        tree = ElementTree.fromstring(drawings.svg("flags"))
        words = [each.text for each in tree.iter("{http://www.w3.org/2000/svg}text")]
        found = [word for word in words if re.fullmatch(r"\d\dH", word)]
        self.assertEqual(found, [masks[name] for name in ("S", "Z", "AC", "P", "CY")])


def contrast(one, other):
    light, dark = sorted((luminance(one), luminance(other)), reverse=True)
    return (light + 0.05) / (dark + 0.05)


def luminance(colour):
    parts = [int(colour[at:at + 2], 16) / 255 for at in (1, 3, 5)]
    red, green, blue = (part / 12.92 if part <= 0.04045 else ((part + 0.055) / 1.055) ** 2.4 for part in parts)
    return 0.2126 * red + 0.7152 * green + 0.0722 * blue


# The questions of lesson 0, and what is right for each: a pattern, and a function of the number.
QUESTIONS = {
    r"([0-9A-F]{2}) in binary\?": lambda word: f"{int(word, 16):08b}",
    r"([01]{8}) in hexadecimal\?": lambda word: f"{int(word, 2):02X}",
    r"([0-9A-F]{2}) in decimal, unsigned\?": lambda word: str(int(word, 16)),
    r"(\d{1,3}) in hexadecimal\?": lambda word: f"{int(word):02X}",
    r"(-\d{1,3}) in hexadecimal\?": lambda word: f"{int(word) % 256:02X}",
    r"([0-9A-F]{2}) in decimal, signed\?": lambda word: str(int(word, 16) - 256 * (int(word, 16) > 127)),
}


def answer_to(question):
    """The right answer, and which kind of question it is."""
    for kind, (pattern, answer) in enumerate(QUESTIONS.items()):
        found = re.fullmatch(pattern, question)
        if found:
            return answer(found[1]), kind
    raise ValueError(question)


class Questions(unittest.TestCase):
    """The ten questions of lesson 0, on the kernel, answered by a student."""

    @classmethod
    def setUpClass(cls):
        cls.manager, cls.client = start_new_kernel(kernel_name="lab80", startup_timeout=PATIENCE)
        cls.addClassCleanup(cls.client.stop_channels)
        cls.addClassCleanup(cls.manager.shutdown_kernel, now=True)
        cells = [cell for cell in make.cells(make.source("00-numbers")) if cell.is_code()]
        for cell in cells:
            if "somebody" in cell.tags:
                break
            cls.client.execute_interactive(cell.text, timeout=PATIENCE, output_hook=lambda _: None)
        cls.cell = cells[cells.index(cell) + 1].text

    def ask(self, reply):
        """Runs the questions. `reply` gives the line for each; returns what was printed."""
        self.client.execute_interactive("SOMEBODY EQU 1", timeout=PATIENCE, output_hook=lambda _: None)
        printed, asked = [], []

        def hear(message):
            if message["msg_type"] == "stream":
                printed.append(message["content"]["text"])
            self.assertNotEqual(message["msg_type"], "error", message["content"])

        def give(_):
            """What is printed before a line is asked for may come after the question for it, on another channel."""
            asked.append("begin.\n" if not asked else "?\n")
            while "".join(printed).count(asked[-1]) < max(1, len(asked) - 1):
                hear(self.client.get_iopub_msg(timeout=PATIENCE))
            self.client.input(reply("".join(printed).splitlines()))

        self.client.execute_interactive(self.cell, allow_stdin=True, stdin_hook=give, output_hook=hear, timeout=PATIENCE)
        return "".join(printed)

    def test_right_answers_in_any_spelling(self):
        kinds, begun = [], []

        def reply(lines):
            if not begun:
                begun.append(lines)
                return ""
            answer, kind = answer_to(lines[-1])
            kinds.append(kind)
            spellings = (answer, answer.lower(), f" {answer} ", f"0{answer}" if answer[0] != "-" else answer,
                         answer + "BHDHHD"[kind], answer)
            return spellings[len(kinds) % len(spellings)]

        printed = self.ask(reply)
        self.assertEqual(begun, [["Press Enter to begin."]])
        self.assertEqual(printed.count("right\n"), 10, printed)
        self.assertTrue(printed.endswith("10 of 10 are right.\n"))
        self.assertEqual((len(kinds), set(kinds)), (10, set(range(6))))
        self.assertGreater(len({line for line in printed.splitlines() if line.endswith("?")}), 5)

    def test_wrong_answers_and_nonsense(self):
        """Each is answered by the right one."""
        wrong = iter(["", "", "-", "G", "1 2", "--1", "300", "65536", "x" * 300, "0x10", "'; HLT"])
        printed = self.ask(lambda lines: next(wrong))
        lines = printed.splitlines()
        self.assertEqual(lines[-1], "0 of 10 are right.")
        for question, verdict in zip(lines[1:-1:2], lines[2:-1:2]):
            self.assertEqual(verdict, f"no, {answer_to(question)[0]}")

    def test_without_anybody_nothing_is_asked(self):
        self.client.execute_interactive("SOMEBODY EQU 0", timeout=PATIENCE, output_hook=lambda _: None)
        printed = []
        self.client.execute_interactive(self.cell, allow_stdin=False, timeout=PATIENCE, output_hook=lambda message: printed.append(
            message["content"].get("text", "")))
        for line in "".join(printed).splitlines():
            question, _, answer = line.rpartition(": ")
            self.assertEqual(answer_to(f"{question}?")[0], answer)


class Time(unittest.TestCase):
    """What lesson 11 says of time, by the states of the card."""

    def test_the_sums(self):
        text, states = all_texts()["11-interrupts"], {card["mnemonic"]: card["states"] for card in make.cards()}
        once, first, second = (int(re.match(r"\d+", states[word])[0]) for word in ("MVI", "DCR", "JNZ"))
        self.assertIn(f"{once + 200 * (first + second):,} states", text)
        turn = [int(re.match(r"\d+", states[word])[0]) for word in ("DCX", "MOV", "ORA", "JNZ")]
        self.assertIn(f"{' + '.join(map(str, turn))} = {sum(turn)} states", text)
        self.assertIn("2000/24", self.cell("DELAY:"))
        for word, states_of_it in zip(("DCX D", "MOV A,D", "ORA E", "JNZ TICK"), turn):
            self.assertRegex(self.cell("DELAY:"), rf"{word} +; {states_of_it}\b")

    def cell(self, word):
        return next(cell.text for cell in make.cells(make.source("11-interrupts")) if cell.is_code() and word in cell.text)

    def test_the_longest_time_fits_into_a_word(self):
        self.assertIn("789 at most", self.cell("DELAY:"))
        self.assertTrue(2000 // 24 * 789 < 65_536 <= 2000 // 24 * 790)


class Tables(unittest.TestCase):
    """The reference card's tables."""

    def test_opcodes_are_the_disassemblers(self):
        code = bytes(part for opcode in range(256) for part in (opcode, 0x34, 0x12)[:self.length(opcode)])
        listing = run(["dis", "0000"], code.hex().encode()).stdout.decode().splitlines()[1:]
        self.assertEqual(len(listing), 256)
        for opcode, line in enumerate(listing):
            told = opcodes.instruction(opcode)
            with self.subTest(opcode=f"{opcode:02X}"):
                plain = re.sub(r"\b0?(1234|34)H\b", lambda found: {"1234": "w", "34": "b"}[found[1]], line.strip())
                wanted = re.sub(r"\ba$", "w", re.sub(r"\bp$", "b", told)) if told else f"DB 0{opcode:02X}H"
                self.assertIn(re.sub(r"\W+", " ", wanted), re.sub(r"\W+", " ", plain))

    def length(self, opcode):
        told = opcodes.instruction(opcode)
        return 3 if re.search(r"[ ,][wa]$", told) else 2 if re.search(r"[ ,][bp]$", told) else 1

    def test_twelve_are_empty(self):
        self.assertEqual([opcode for opcode in range(256) if not opcodes.instruction(opcode)],
                         [*range(0x08, 0x40, 8), 0xCB, 0xD9, 0xDD, 0xED, 0xFD])

    def test_the_characters(self):
        for code in range(33, 127):
            self.assertEqual(opcodes.character(code), chr(code))
        self.assertEqual([opcodes.character(code) for code in (0, 7, 10, 13, 27, 32, 127)],
                         ["NUL", "BEL", "LF", "CR", "ESC", "blank", "DEL"])

    def test_it_prints_on_four_pages(self):
        """On both sizes of paper, with all letters of 7 points at least."""
        sizes = re.findall(r"font(?:-size)?: ([\d.]+)pt", make.card())
        self.assertGreaterEqual(min(map(float, sizes)), 7)
        with tempfile.TemporaryDirectory() as folder:
            for size in ("A4", "Letter"):
                page, target = Path(folder, f"{size}.html"), Path(folder, f"{size}.pdf")
                page.write_text(make.on_paper(make.card(), size), encoding="utf-8")
                words = ["chromium", "--headless", "--no-sandbox", "--disable-gpu", "--no-pdf-header-footer"]
                subprocess.run([*words, f"--print-to-pdf={target}", page.as_uri()], check=True, capture_output=True,
                               timeout=PATIENCE, env=os.environ | {"HOME": folder})
                self.assertEqual(len(re.findall(rb"/Type /Page\b", target.read_bytes())), 4, size)


# The hints that are shown, whether each is open, and the parts in them; and the widths of the pictures.
HINTS = """
    const all = [...document.querySelectorAll(".rendered_html details")];
    return all.map(each => [each.firstElementChild.textContent, each.open, each.querySelectorAll("p, ol").length]);"""
PICTURES = """
    const all = [...document.querySelectorAll(".rendered_html img")];
    return all.every(each => each.complete) && all.map(each => [each.naturalWidth, each.alt.length > 80]);"""


class InNotebook(NotebookPages):
    """What the classic Notebook shows of hints, drawings and the glossary."""

    def test_hints_and_drawings(self):
        self.notebook("05-bits")
        wait_until(lambda: self.browser.run(PICTURES))
        self.assertEqual(self.browser.run(PICTURES), [[drawings.WIDTH * drawings.SCALE, True]])
        self.assertEqual(self.browser.run(HINTS), [["A hint", False, 1], ["A plan", False, 1]] * 3)
        self.browser.run("document.querySelector('.rendered_html summary').scrollIntoView({block: 'center'})")
        self.browser.click(".rendered_html summary")
        wait_until(lambda: self.browser.run(HINTS)[0][1])
        shown = "return getComputedStyle(document.querySelector('.rendered_html summary')).display"
        self.assertEqual(self.browser.run(shown), "list-item")
        keep_picture(self.browser, "notebook-hint")

    def test_the_glossary_leads_to_lessons(self):
        folder = Path(self.folder, "lessons")
        folder.mkdir(exist_ok=True)
        shutil.copy(LESSONS / "glossary.ipynb", folder)
        self.browser.open(f"{self.server.address}/notebooks/lessons/glossary.ipynb")
        links = "return [...document.querySelectorAll('.rendered_html td a')].map(each => each.href)"
        wait_until(lambda: len(self.browser.run(links)) == 60)
        for each, address in zip(make.glossary().words, self.browser.run(links)):
            self.assertTrue(address.endswith(f"/{each.lesson}.ipynb"), address)


if __name__ == "__main__":
    unittest.main()
