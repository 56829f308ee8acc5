"""A new student on JupyterHub 5 of Debian 13, whose pages are JupyterLab's, in Chromium: from the login to exercises, the front
panel and JupyterLab's debugger.

With LAB80_HUB5=1 these are run, and with LAB80_HUB5=all the tests of `test_hub` and `test_hub_restart` on this hub too: thirty
students at once, restarts."""
import json
import os
import tempfile
import unittest

import hub
import test_hub
import test_hub_restart
import trixie
from browser import ENTER, SHIFT, Browser, wait_until
from lab_page import CONTROL, FRONT, MARGIN, MARKED, LabPage
from panel_page import Page, keep_picture
from ports import free_port
from test_hub import LOG_IN, where

# Anna gets a password of begin's.
LIST = "*teacher word of the teacher\nanna\nben word of ben\n"
# What the tests ask a page is on its application.
MORE = 'c.Spawner.args.append("--LabApp.expose_app_in_browser=True")\n'

LESSONS = sorted(name for name in os.listdir(os.path.join(hub.TOP, "lessons")) if name.endswith(".ipynb"))

# The line that a student replaces, and what stands there in lesson 1 when its first exercise is done.
TO_DO = "; your instructions stand here"
DOUBLED = "        ORG 2000H\n; A := twice C.\nDOUBLE:\n        MOV     A,C\n        ADD     C\n        RET"

IS_OPEN = "return window.jupyterapp !== undefined && location.pathname.startsWith(arguments[0])"
LISTED = "return [...document.querySelectorAll('.jp-DirListing-item .jp-DirListing-itemText')].map(each => each.textContent)"

# A cell of the notebook in front, by its identifier.
CELL = """
    const notebook = jupyterapp.shell.currentWidget.content;
    const index = notebook.widgets.findIndex(each => each.model.id === arguments[0]), cell = notebook.widgets[index];"""
CHOOSE = CELL + "notebook.activeCellIndex = index; notebook.scrollToItem(index).then(() => arguments[1]())"
CHOSEN = "return jupyterapp.shell.currentWidget.content.activeCell.model.id"
SELECT = CELL + """
    const view = cell.editor.editor, from = view.state.doc.toString().indexOf(arguments[1]);
    view.focus();
    view.dispatch({selection: {anchor: from, head: from + arguments[1].length}});"""
TEXT = CELL + "return cell.model.sharedModel.getSource()"
OUTPUT = CELL + "return [...cell.node.querySelectorAll('.jp-OutputArea-output')].map(each => each.innerText).join('').trim()"
COUNT = CELL + "return cell.model.executionCount"
IS_DIRTY = "return jupyterapp.shell.currentWidget.context.model.dirty"

ACTIVE = FRONT + ".jp-Cell.jp-mod-active "


def answers(name):
    """The teacher's copy of a lesson: the cells' texts, and what they print, by the cells' identifiers."""
    with open(os.path.join(hub.TOP, f"lessons/teacher/{name}.ipynb"), encoding="utf-8") as file:
        cells = [each for each in json.load(file)["cells"] if each["cell_type"] == "code"]
    outputs = {each["id"]: "".join("".join(it.get("text", it.get("traceback"))) for it in each["outputs"]) for each in cells}
    return {each["id"]: "".join(each["source"]) for each in cells}, outputs


class Student(LabPage):
    """A student's window of JupyterLab. Cells are named by their identifiers."""

    def __init__(self, browser, served):
        super().__init__(browser, None)
        self.hub, self.front = served, ""

    def logs_in(self, path, name, word):
        """Opens an address of the hub, logs in where the hub asks, and waits for JupyterLab."""
        self.browser.open(self.hub.base + path)
        wait_until(lambda: where(self.browser) == "/hub/login")
        self.browser.run(LOG_IN, name, word)
        wait_until(lambda: self.browser.run(IS_OPEN, f"/user/{name}/lab"), 240)
        self.front = self.browser.window()

    def open_lesson(self, name):
        """Opens a lesson by the list of files, once it is there and nothing covers it any more."""
        wait_until(lambda: self.browser.click(f".jp-DirListing-item[title*='{name}.ipynb']") is None)
        self.open_beside(name)

    def output(self, cell):
        return self.browser.run(OUTPUT, cell)

    def text(self, cell):
        return self.browser.run(TEXT, cell)

    def prints(self, cell, text):
        def printed():
            return self.output(cell)
        self.shows(printed, text.strip())

    def choose(self, cell):
        """Goes to a cell, and clicks into it."""
        self.browser.run_later(CHOOSE, cell)
        wait_until(lambda: self.browser.click(ACTIVE + ".cm-content") is None)

    def run_chosen(self, cell):
        """Runs a cell, and waits for its end."""
        before = self.browser.run(COUNT, cell)
        self.choose(cell)
        self.browser.type(ENTER, CONTROL)
        wait_until(lambda: self.browser.run(COUNT, cell) not in (before, None))

    def walk(self, last):
        """Runs the cells from the first to this one by Shift and Enter, as a student who reads them one after the other."""
        first = self.browser.run("return jupyterapp.shell.currentWidget.content.widgets[0].model.id")
        self.browser.run_later(CHOOSE, first)
        self.browser.click(ACTIVE + ".jp-Cell-inputWrapper")
        chosen = first
        while chosen != last:
            self.browser.type(ENTER, SHIFT)
            chosen = wait_until(lambda: (now := self.browser.run(CHOSEN)) != chosen and now)
        self.browser.type(ENTER, SHIFT)
        wait_until(lambda: self.browser.run(COUNT, last))

    def replace(self, cell, old, *typed):
        """Selects a text in a cell, and types over it."""
        self.choose(cell)
        self.browser.run(SELECT, cell, old)
        self.browser.type([key for text in typed for key in text])

    def paste(self, cell, text):
        """Pastes a text in the place of all that a cell has."""
        self.choose(cell)
        self.browser.run(SELECT, cell, self.text(cell))
        self.browser.devtools("Input.insertText", text=text)
        wait_until(lambda: self.text(cell) == text)

    def toggle(self, line, _=0):
        """Clicks in the margin of the chosen cell, and waits until the sign has changed."""
        before = self.marked()
        self.browser.click_at(*self.browser.run(MARGIN, ACTIVE.strip(), 0, line))
        wait_until(lambda: self.marked() != before)

    def marked(self):
        return self.browser.run(MARKED, ACTIVE.strip())

    def open_panel(self):
        """Presses the notebook's button for the panel. Returns the page, which later commands don't go to by themselves."""
        before = self.browser.windows()
        self.browser.click(FRONT + ".lab80-panel button")
        [opened] = wait_until(lambda: [each for each in self.browser.windows() if each not in before])
        self.browser.use(opened)
        page = Page(self.browser)
        page.is_in("idle")
        self.browser.use(self.front)
        return page

    def saves(self):
        self.browser.type("s", CONTROL)
        wait_until(lambda: not self.browser.run(IS_DIRTY))


class NewStudent(unittest.TestCase):
    """All tests are of one hub, which serves again after each."""

    seconds = 900

    @classmethod
    def setUpClass(cls):
        trixie.before_a_release()
        trixie.Hub5.needed()
        cls.hub = cls.enterClassContext(trixie.Hub5(cls.enterClassContext(tempfile.TemporaryDirectory()), LIST, MORE))

    def setUp(self):
        self.browser = self.enterContext(Browser(free_port(), 1300, 1000))
        self.student = Student(self.browser, self.hub)

    def word(self, name):
        """The password that begin has printed for somebody."""
        return next(line.split()[1] for line in self.hub.told().splitlines() if line.split()[:1] == [name])

    def test_lessons_1_and_6(self):
        """With a browser that has never been there."""
        student = self.student
        student.logs_in("/", "anna", self.word("anna"))
        student.shows(self.listed, LESSONS)
        self.lesson_1()
        self.lesson_6()

    def listed(self):
        return self.browser.run(LISTED)

    def lesson_1(self):
        student = self.student
        student.open_lesson("01-registers")
        student.walk("judge-1")
        texts, outputs = answers("01-registers")
        for cell, output in outputs.items():
            if not cell.startswith("judge-"):
                student.prints(cell, output)
        student.prints("judge-1", "C=07 gives A=55, not 0E")
        student.replace("exercise-1", TO_DO, "MOV\ue004A,C", ENTER, "ADD\ue004C")
        self.assertEqual(student.text("exercise-1"), DOUBLED)
        student.run_chosen("exercise-1")
        student.run_chosen("judge-1")
        student.prints("judge-1", outputs["judge-1"])
        self.panel_and_debugger(next(cell for cell, text in texts.items() if "MVI B,12H" in text))

    def panel_and_debugger(self, cell):
        """What lesson 1 says of breakpoints, in JupyterLab's debugger, with the panel beside."""
        student, panel = self.student, self.student.open_panel()
        student.debug()
        student.replace(cell, "12H", "56H")
        student.settles()
        student.toggle(2)
        self.browser.type(ENTER, CONTROL)
        student.shows(student.frames, [("main", 2)])
        panel.stops("breakpoint", 2)
        self.browser.use(student.front)
        student.command("next")
        student.shows(student.frames, [("main", 3)])
        student.shows(student.scopes, ["Registers", "Flags", "Devices", "Symbols", "Memory"])
        wait_until(lambda: {"B": "056H", "D": "056H"}.items() <= student.variables().items())
        panel.waits(lambda: panel.registers()["D"] == "56")
        self.browser.use(student.front)
        student.command("continue")
        wait_until(lambda: self.browser.run(COUNT, cell))
        panel.is_in("idle")
        panel.waits(lambda: panel.registers()["B"] == "34")
        self.browser.use(student.front)
        student.saves()

    def lesson_6(self):
        student = self.student
        student.open_lesson("06-calls")
        student.walk("judge-3")
        texts, outputs = answers("06-calls")
        for cell, output in outputs.items():
            if not cell.startswith("judge-"):
                student.prints(cell, output)
        for number in "123":
            self.assertNotIn("right", student.output(f"judge-{number}").split())
            student.paste(f"exercise-{number}", texts[f"exercise-{number}"])
            student.run_chosen(f"exercise-{number}")
            student.run_chosen(f"judge-{number}")
            student.prints(f"judge-{number}", outputs[f"judge-{number}"])
        self.in_a_routine(next(cell for cell, text in texts.items() if "WHERE:" in text))
        student.saves()

    def in_a_routine(self, cell):
        student = self.student
        student.debug()
        student.choose(cell)
        student.settles()
        student.toggle(3)
        self.browser.type(ENTER, CONTROL)
        student.shows(student.frames, [("main", 3)])
        student.command("stepIn")
        student.shows(student.frames, [("WHERE", 7), ("main", 3)])
        keep_picture(self.browser, "hub-lesson")
        student.command("continue")
        student.prints(cell, "0106\n0106")


class BeforeARelease(trixie.Hub5):
    """A hub for tests that take minutes and aren't run each time."""

    @staticmethod
    def needed():
        if os.environ.get("LAB80_HUB5") != "all":
            raise unittest.SkipTest("before a release: LAB80_HUB5=all")
        trixie.Hub5.needed()


class Thirty(test_hub.Class):
    """A class of thirty on this hub."""

    hub_class = BeforeARelease


class Restarts(test_hub_restart.Hub):
    """This hub, or its proxy, ends amid a run."""

    hub_class = BeforeARelease
    test_a_notebook_below_a_hub_that_ends = None    # it is of Notebook's page


if __name__ == "__main__":
    unittest.main()
