"""Shared by the tests of the lessons' pages: a lesson in a browser, as a student does it."""
import unittest
from importlib.machinery import SourceFileLoader
from pathlib import Path

from browser import Browser, wait_until
from ports import free_port
from static_site import Host, site

LESSONS = Path(__file__).resolve().parent.parent / "lessons"
make = SourceFileLoader("make", str(LESSONS / "make")).load_module()

# What pages do before their own scripts: they note what goes wrong, and what the policy refuses.
NOTES = """
    window.wrong = [];
    addEventListener("error", event => wrong.push(event.message));
    addEventListener("unhandledrejection", event => wrong.push(String(event.reason && event.reason.stack || event.reason)));
    addEventListener("securitypolicyviolation", event => wrong.push(`${event.violatedDirective} ${event.blockedURI}`));"""

# Functions of a page for tests: the cell with a name, what is below it, and a run of it up to its end, by its own button.
HELP = """
    const named = name => document.querySelector(`[data-cell="${name}"]`);
    const pause = () => new Promise(done => setTimeout(done, 10));
    const below = cell => ({printed: cell.querySelector(".printed").textContent, error: cell.querySelector(".error").textContent,
        note: cell.querySelector(".note").textContent});
    const run = async cell => {
        cell.querySelector(".run").click();
        while (cell.classList.contains("busy")) await pause();
        return below(cell);
    };
    const write = (cell, text) => {
        cell.querySelector("textarea").value = text;
        cell.querySelector("textarea").dispatchEvent(new Event("input"));
    };
    (async () => {%s})().then(arguments[arguments.length - 1]);"""

# Runs all cells in order, as a student does, each exercise first as it is and then with its answer, and its judge both times.
# Returns for each run the cell's name, whether it had its answer, what is below it, and the mark at the exercise. A run without
# an end is ended after so many milliseconds, or a multiple of them.
DO = """
    const [answers, patience] = arguments, found = [];
    const ends = async (cell, milliseconds) => {
        const end = () => cell.classList.contains("busy") && cell.querySelector(".run").click();
        const timer = setInterval(end, milliseconds), shown = await run(cell);
        clearInterval(timer);
        return shown;
    };
    for (const cell of document.querySelectorAll(".cell")) {
        const {kind, cell: name} = cell.dataset, number = name.slice(-1);
        const mark = () => kind === "judge" && document.getElementById(`exercise-${number}`).className;
        if (kind === "exercise") await run(cell);
        else if (kind !== "judge") found.push([name, true, await run(cell), mark()]);
        else {
            found.push([name, false, await ends(cell, patience), mark()]);
            write(named(`exercise-${number}`), answers[number]);
            await run(named(`exercise-${number}`));
            found.push([name, true, await run(cell), mark()]);
        }
    }
    return found;"""

# Milliseconds for a routine that may have no end. Where they are too few it isn't right, as it should be.
SOON = 1000


class Pages(unittest.TestCase):
    """Tests with one site and one browser."""

    browser_class = Browser

    @classmethod
    def setUpClass(cls):
        cls.site = cls.enterClassContext(Host(site().name))
        cls.browser = cls.enterClassContext(cls.browser_class(free_port(), 1366, 900))
        cls.browser.open(f"{cls.site.address}/logo-32x32.png")
        cls.prepare()

    @classmethod
    def prepare(cls):
        cls.browser.devtools("Page.enable")
        cls.note(NOTES)

    @classmethod
    def note(cls, script):
        """Runs a script in each page before its own. Returns the name by which that is ended."""
        return cls.browser.devtools("Page.addScriptToEvaluateOnNewDocument", source=script)["identifier"]

    def setUp(self):
        self.browser.open(f"{self.site.address}/logo-32x32.png")
        self.browser.run("localStorage.clear(); sessionStorage.clear()")
        self.window = self.browser.window()

    def open(self, name):
        """Opens a lesson, and waits until its board is there."""
        self.browser.open(f"{self.site.address}/book/{name}.html")
        self.waits_for("idle")

    def waits_for(self, state):
        self.shows("#state", state)

    def shows(self, selector, text):
        try:
            wait_until(lambda: self.text(selector) == text)
        except TimeoutError:
            raise TimeoutError(f"it shows {self.text(selector)!r}, and not {text!r}") from None

    def text(self, selector):
        return self.browser.run("return document.querySelector(arguments[0]).textContent", selector)

    def in_page(self, script, *given):
        return self.browser.run_later(HELP % script, *given)

    def run_cell(self, name, text=None):
        """Runs a cell up to its end, with this text if one is given. Returns what is below it."""
        return self.in_page("""
            if (arguments[1] !== null) write(named(arguments[0]), arguments[1]);
            return run(named(arguments[0]));""", name, text)

    def begin_cell(self, name, text):
        """Writes a cell, and begins to run it."""
        self.in_page("write(named(arguments[0]), arguments[1]); named(arguments[0]).querySelector('.run').click()", name, text)

    def answers(self, name):
        """A lesson's own answers, by the numbers of their exercises."""
        cells = [cell for cell in make.cells(make.source(name)) if cell.is_code() and cell.kind() == "exercise"]
        return {cell.tags[0].rpartition("-")[2]: cell.answer for cell in cells}

    def is_done(self, name):
        """Does a lesson: each cell shows what its source says, and each exercise is right with its answer alone."""
        cells = dict(zip([its_id for _, its_id in self.ids(name)], [cell for cell, _ in self.ids(name)]))
        for its_id, has_answer, shown, mark in self.in_page(DO, self.answers(name), SOON):
            cell, where = cells[its_id], (name, its_id, has_answer, shown)
            if has_answer:
                printed = cell.printed[:-1] if cell.printed.endswith("\\") else cell.printed + "\n" * bool(cell.printed)
                self.assertEqual(shown["printed"], printed, where)
                self.assertTrue(shown["error"].startswith(cell.error) and bool(shown["error"]) == bool(cell.error), where)
            if cell.kind() == "judge":
                self.assertEqual(mark, "right" if has_answer else "", where)
                words = f"Exercise {its_id[-1]} is {'right' if has_answer else 'not right yet'}."
                self.assertEqual(shown["note"], "" if shown["error"] else words, where)

    def ids(self, name):
        return [(cell, its_id) for cell, its_id in make.with_ids(make.cells(make.source(name))) if cell.is_code()]

    def nothing_went_wrong(self):
        self.assertEqual(self.browser.run("return window.wrong"), [])
