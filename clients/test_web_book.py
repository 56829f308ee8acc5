"""The lessons as pages of the web site: what `lessons/make --web` writes, and the pages in Chromium and Firefox, over boards that
run in the browser."""
import itertools
import re
import tempfile
import unittest
from html.parser import HTMLParser
from pathlib import Path

import nbformat
from nbconvert.filters.markdown import markdown2html

import firefox
from book_pages import LESSONS, Pages, make
from browser import ENTER, ESCAPE, SHIFT, TAB, Browser, wait_until

STUDENTS = sorted(LESSONS.glob("[0-9]*.ipynb"))


class Text(HTMLParser):
    """The words of a page, or of its element with an id, without those of some other elements; and its tags."""

    EMPTY = {"meta", "link", "img", "br"}

    def __init__(self, page, within=None, without=()):
        super().__init__()
        self.within, self.without, self.open, self.tags, self.parts = within, set(without), [], [], []
        self.feed(page)
        self.words = "".join(self.parts).split()

    def handle_starttag(self, tag, attributes):
        self.tags.append((tag, dict(attributes)))
        if tag not in self.EMPTY:
            self.open.append((tag, dict(attributes).get("id")))
        self.parts.append(" " if tag in ("p", "td", "th", "li", "pre", "h1", "h2", "h3") else "")

    def handle_endtag(self, tag):
        if tag != self.open.pop()[0]:
            raise ValueError(f"</{tag}> at {self.getpos()}")

    def handle_data(self, data):
        names = {tag for tag, _ in self.open}
        if (self.within is None or self.within in {its_id for _, its_id in self.open}) and not names & self.without:
            self.parts.append(data)


def without_summaries(text):
    return re.sub("<summary>.*?</summary>", "", text)


def words_of(text):
    """The words of a Markdown text as nbconvert understands it, without its sign for a heading's address."""
    return Text(markdown2html(text.replace("(attachment:", "(")).replace("&#182;", "")).words


class Making(unittest.TestCase):
    """The files, without a browser."""

    @classmethod
    def setUpClass(cls):
        cls.folder = Path(cls.enterClassContext(tempfile.TemporaryDirectory()))
        make.main(["--web", str(cls.folder)])
        names = sorted(path.name for path in cls.folder.glob("*.html"))
        # films are whole pages of their own, as the front panel saves them
        cls.films = [name for name in names if name.endswith("-film.html")]
        cls.pages = {name: (cls.folder / name).read_text(encoding="utf-8") for name in names if name not in cls.films}

    def test_the_films_of_the_lessons(self):
        self.assertEqual(self.films, sorted(path.name for path in LESSONS.glob("*-film.html")))
        for name in self.films:
            self.assertEqual((self.folder / name).read_bytes(), (LESSONS / name).read_bytes())

    def test_a_page_for_each_lesson(self):
        names = [f"{path.stem}.html" for path in STUDENTS]
        self.assertEqual(sorted(self.pages), sorted([*names, "index.html", "glossary.html"]))
        links = [given["href"] for tag, given in Text(self.pages["index.html"]).tags if given.get("class") == "title"]
        self.assertEqual(links, names)

    def test_a_lesson_has_its_notebooks_words(self):
        """The words of the text as nbconvert makes them of the notebook, and the cells' texts."""
        for path in STUDENTS:
            wanted = []
            for cell in nbformat.read(path, 4).cells:
                wanted += words_of(without_summaries(cell.source)) if cell.cell_type == "markdown" else cell.source.split()
            found = Text(self.pages[f"{path.stem}.html"], "lesson", ("summary", "noscript", "footer")).words
            self.assertEqual(found, wanted, path)

    def test_cells_are_the_notebooks(self):
        for path in STUDENTS:
            given = [tags for tag, tags in Text(self.pages[f"{path.stem}.html"]).tags if tags.get("class") == "cell"]
            cells = [cell for cell in nbformat.read(path, 4).cells if cell.cell_type == "code"]
            self.assertEqual([each["data-cell"] for each in given], [cell.id for cell in cells], path)

    def test_pages_are_whole(self):
        """Each element is closed, each id is there once, each link and picture of the course leads somewhere."""
        for name, page in self.pages.items():
            tags = Text(page).tags
            ids = [given["id"] for _, given in tags if "id" in given]
            self.assertEqual(len(ids), len(set(ids)), name)
            for _, given in tags:
                file, _, place = (given.get("href") or given.get("src") or "").partition("#")
                if file and not file.startswith("../"):
                    self.assertTrue((self.folder / file).is_file(), (name, file))
                    self.assertIn(f'id="{place}"' if place else "", self.pages.get(file, ""), (name, file, place))

    def test_nothing_is_inline(self):
        """The policy allows neither scripts nor styles in the page, and there are none."""
        for name, page in self.pages.items():
            tags = Text(page).tags
            policy = next(given["content"] for _, given in tags if given.get("http-equiv") == "Content-Security-Policy")
            self.assertTrue(policy.startswith("default-src 'none'"), name)
            self.assertNotIn("unsafe", policy)
            for tag, given in tags:
                self.assertFalse([each for each in given if each == "style" or each.startswith("on")], (name, tag))
                self.assertTrue(tag != "style" and (tag != "script" or "src" in given), (name, tag))

    def test_no_answers_and_no_remarks(self):
        for name in make.lessons():
            page = Text(self.pages[f"{name}.html"]).words
            text = " ".join(page)
            for cell in make.cells(make.source(name)):
                if cell.answer:
                    self.assertNotIn(" ".join(cell.answer.split()), text, name)
            self.assertNotIn("For the teacher", text)

    def test_a_folder_that_cannot_be_written(self):
        place = self.folder / "index.html" / "book"
        with self.assertRaisesRegex(SystemExit, f"make: {re.escape(str(place))}: "):
            make.main(["--web", str(place)])


# What makes a browser keep nothing, or let a page not even ask for what it keeps.
FULL = "Storage.prototype.setItem = () => { throw new DOMException('full', 'QuotaExceededError'); };"
REFUSED = """for (const name of ["localStorage", "sessionStorage"]) {
    Object.defineProperty(window, name, {get() { throw new DOMException("refused", "SecurityError"); }});
}"""

# Presses the first cell's button as soon as there is one.
PRESSES = """
    new MutationObserver(() => {
        const button = document.querySelector(".run");
        if (button && !window.isPressed) button.click();
        window.isPressed = Boolean(button);
    }).observe(document, {childList: true, subtree: true});"""

# The registers and flags below a cell, and those that are marked.
VALUES = """
    const texts = selector => [...named(arguments[0]).querySelectorAll(`.registers ${selector}`)].map(each => each.textContent);
    return ["> span", ".changed"].map(each => texts(each).map(text => text.replace("\\u00A0", " ")));"""

# Has the page keep at once what was written, as when its window is hidden.
KEEPS = """
    Object.defineProperty(document, "hidden", {configurable: true, get: () => true});
    document.dispatchEvent(new Event("visibilitychange"));
    delete document.hidden;
    document.dispatchEvent(new Event("visibilitychange"));"""

# Prints what would be an element if it weren't a text.
PRINTS = """START:  LXI H,TEXT
NEXT:   MOV A,M
        ORA A
        JZ DONE
        OUT 1
        INX H
        JMP NEXT
DONE:   HLT
TEXT:   DB '<img src=x onerror=alert(1)>',0
        END START"""


class Lessons(Pages):
    def test_what_the_browser_keeps(self):
        """Texts and right exercises are there after a reload, and the contents count them; then all is forgotten."""
        self.open("01-registers")
        self.assertEqual(self.text("#done"), "")
        first = self.browser.run("return document.querySelector('.cell').dataset.cell")
        self.is_done("01-registers")
        self.run_cell(first, "        HLT\n        END 0")
        self.open("01-registers")
        self.assertEqual(self.text("#done"), "3 of 3 exercises are right.")
        texts = self.in_page("return [...document.querySelectorAll('textarea')].map(each => each.value)")
        self.assertEqual(texts[0], "        HLT\n        END 0")
        for answer in self.answers("01-registers").values():
            self.assertIn(answer, texts)
        self.browser.open(f"{self.site.address}/book/index.html")
        self.shows("[data-lesson='01-registers']", "3 of 3")
        self.shows("[data-lesson='02-flags']", "")
        self.shows("#done", f"3 of {3 * len(make.lessons())} exercises are right.")
        self.open("01-registers")
        self.forget()
        self.assertEqual(self.text("#done"), "")
        self.assertEqual(self.browser.run("return document.querySelectorAll('h3.right').length"), 0)
        given = self.in_page("return [...document.querySelectorAll('textarea')].map(each => each.value)")
        self.assertFalse(set(given) & set(self.answers("01-registers").values()))
        self.open("01-registers")
        self.assertEqual(self.in_page("return [...document.querySelectorAll('textarea')].map(each => each.value)"), given)
        self.nothing_went_wrong()

    def forget(self):
        self.browser.click("#forget")
        wait_until(lambda: self.browser.run("return document.getElementById('question').open"))
        self.browser.click("#question-yes")
        wait_until(lambda: self.browser.run("return document.getElementById('forget').hidden"))

    def test_all_lessons_are_forgotten_from_the_contents(self):
        for name in ("02-flags", "03-jumps"):
            self.open(name)
            self.run_cell("exercise-1", "; mine\n")
            self.browser.run(KEEPS)
        self.browser.open(f"{self.site.address}/book/index.html")
        self.shows("[data-lesson='03-jumps']", "begun")
        self.forget()
        self.shows("[data-lesson='03-jumps']", "")
        self.assertEqual(self.browser.run("return Object.keys(localStorage).filter(each => each.includes('lesson '))"), [])

    def test_a_browser_that_keeps_nothing(self):
        """The page says so once, and the lesson can be done."""
        for script in (FULL, REFUSED):
            noted = self.note(script)
            try:
                self.open("01-registers")
                self.is_done("01-registers")
                wait_until(lambda: "it is lost when this page is closed" in self.text("#message span"))
                self.browser.click("#message button")
                self.run_cell("exercise-1", "; another\n")
                self.browser.run(KEEPS)
                self.assertEqual(self.text("#message span"), "")
                self.nothing_went_wrong()
            finally:
                self.browser.devtools("Page.removeScriptToEvaluateOnNewDocument", identifier=noted)

    def test_no_more_is_kept_than_the_bound(self):
        self.open("01-registers")
        self.run_cell("exercise-1", "; kept\n")
        self.browser.run(KEEPS)
        self.run_cell("exercise-2", "; " + "long " * 30000)
        self.browser.run(KEEPS)
        self.assertIn("too long to be kept", self.text("#message span"))
        self.assertLess(self.browser.run("return JSON.stringify(localStorage).length"), 130000)
        self.open("01-registers")
        self.assertEqual(self.browser.run("return document.querySelector('[data-cell=exercise-1] textarea').value"), "; kept\n")

    def test_texts_are_shown_as_texts(self):
        text = "        DB '<img src=x onerror=alert(1)>'\n; <b>&amp;\n"
        self.open("01-registers")
        self.run_cell("exercise-1", text)
        self.open("01-registers")
        shown = self.browser.run("return document.querySelector('[data-cell=exercise-1] .lines').textContent")
        self.assertEqual(shown, text + "\n")
        self.run_cell("exercise-1", PRINTS)
        self.assertEqual(self.text("[data-cell=exercise-1] .printed"), "<img src=x onerror=alert(1)>")
        self.assertEqual(self.browser.run("return document.querySelectorAll('.cell img').length"), 0)

    def test_errors_in_words(self):
        """At their place, until the text is changed; a name that a cell above defines, and the way to run that one."""
        self.open("01-registers")
        wrong = self.in_page("return [...document.querySelectorAll('.cell')].find(each => each.textContent.includes('MVI B,256'))"
                             ".dataset.cell")
        found = self.run_cell(wrong)
        sentence = "A byte is 0 to 255 or -256 to -1. A pair holds more: LXI B,256"
        self.assertEqual(found["error"], f"AssemblyError: 1:15 ByteRange {sentence}")
        self.assertEqual(self.text(f"[data-cell='{wrong}'] mark"), "256")
        self.run_cell(wrong, "START:  MVI B,255\n        HLT\n        END START")
        self.assertEqual(self.browser.run("return document.querySelectorAll('mark').length"), 0)
        found = self.run_cell("judge-1")
        self.assertIn("The cell above that defines JUDGE hasn't run on this board.", found["error"])
        self.browser.click("[data-cell='judge-1'] .note button")
        wait_until(lambda: self.text("[data-cell='judge-1'] .note") == "Exercise 1 is not right yet.")

    def test_runs_that_do_not_end(self):
        self.open("01-registers")
        self.begin_cell("exercise-1", "START:  JMP START\n        END START")
        self.waits_for("running")
        wait_until(lambda: self.text("[data-cell='exercise-1'] .note") == "It still runs. The square ends the run.")
        self.browser.click("[data-cell='exercise-1'] .run")
        self.waits_for("idle")
        self.assertIn("Interrupted", self.text("[data-cell='exercise-1'] .error"))
        self.assertEqual(self.text("[data-cell='exercise-1'] .note"), "")
        prints = "START:  MVI A,41H\nAGAIN:  OUT 1\n        JMP AGAIN\n        END START"
        self.begin_cell("exercise-1", prints)
        wait_until(lambda: self.browser.run("return document.querySelectorAll('.printed.cut').length"))
        self.browser.click("#end")
        self.waits_for("idle")
        self.assertLessEqual(len(self.text("[data-cell='exercise-1'] .printed")), 200000)

    def test_a_board_that_was_left_holds_up_no_other(self):
        """A browser may keep a page that was left with its worker, and with what that was about to do with the sessions."""
        self.open("01-registers")
        self.begin_cell("exercise-1", "START:  JMP START\n        END START")
        self.waits_for("running")
        self.open("02-flags")
        wait_until(lambda: self.workers() == ["shared_worker"])
        self.assertEqual(self.browser.run("return document.title").partition(".")[0], "2")

    def workers(self):
        """The types of the workers that run boards."""
        targets = self.browser.devtools("Target.getTargets")["targetInfos"]
        return [each["type"] for each in targets if each["url"].endswith("/web/worker.js")]

    def test_a_line_that_is_asked_for(self):
        self.open("08-console")
        cells = self.in_page("return [...document.querySelectorAll('.cell')].map(each => [each.dataset.cell, each.dataset.kind])")
        for name, kind in cells[:cells.index(["somebody", "somebody"])]:
            self.run_cell(name)
        self.run_cell("somebody", "SOMEBODY EQU 1")
        after = cells.index(["somebody", "somebody"]) + 1
        self.run_cell(cells[after][0])
        self.in_page("named(arguments[0]).querySelector('.run').click()", cells[after + 1][0])
        wait_until(lambda: self.browser.run("return document.querySelectorAll('.asking input').length"))
        self.browser.type("Ada" + ENTER)
        wait_until(lambda: self.text(f"[data-cell='{cells[after + 1][0]}'] .printed").endswith("Hello, Ada!\n"))

    def test_keys(self):
        """Shift-Enter runs and goes on, also from a button; Tab goes to columns, and after Escape elsewhere; Enter indents."""
        self.open("01-registers")
        self.browser.run("document.querySelector('.cell textarea').focus()")
        self.browser.key(ENTER, SHIFT)
        where = "return [...document.querySelectorAll('.cell')].findIndex(each => each.contains(document.activeElement))"
        self.assertEqual(self.browser.run(where), 1)
        for _ in range(3):
            self.browser.key(ENTER, SHIFT)
        self.assertEqual(self.browser.run(where), 4)
        self.waits_for("idle")
        counts = "return [...document.querySelectorAll('.count')].map(each => each.textContent)"
        wait_until(lambda: self.browser.run(counts)[:5] == ["[1]", "[2]", "[3]", "[4]", ""])
        self.browser.run("document.querySelector('.cell textarea').focus(); document.activeElement.setSelectionRange(0, 99)")
        self.browser.type("X:" + TAB + "NOP" + ENTER + "HLT")
        self.assertEqual(self.browser.run("return document.activeElement.value"), "X:      NOP\n        HLT")
        self.browser.type(ESCAPE + TAB)
        self.assertEqual(self.browser.run("return document.activeElement.className"), "run")
        self.assertNotEqual(self.browser.run("return getComputedStyle(document.activeElement).outlineStyle"), "none")

    def test_breakpoints_and_the_panel_beside(self):
        """A click in the margin, a stop, and the panel in the page that goes on from there."""
        self.open("01-registers")
        self.browser.click("#beside")
        cell = self.in_page("return [...document.querySelectorAll('.cell')].find(each => each.textContent.includes('MOV D,B'))"
                            ".dataset.cell")
        self.browser.click(f"[data-cell='{cell}'] .line:nth-child(2) .margin")
        wait_until(lambda: self.broken(cell) == [2])
        self.in_page("named(arguments[0]).querySelector('.run').click()", cell)
        self.waits_for("stopped at line 2")
        self.assertEqual(self.text(f"[data-cell='{cell}'] .line.current").strip(), "MOV D,B")
        self.assertIn("Stopped at line 2", self.text(f"[data-cell='{cell}'] .note"))
        self.browser.ask("POST", "/frame", {"id": 0})
        try:
            wait_until(lambda: self.text("#state-name").startswith("stopped"))
            self.browser.click("[data-command=continue]")
        finally:
            self.browser.ask("POST", "/frame", {"id": None})
        self.waits_for("idle")
        self.assertEqual(self.text(f"[data-cell='{cell}'] .note"), "")
        self.browser.click(f"[data-cell='{cell}'] .line:nth-child(2) .margin")
        wait_until(lambda: self.broken(cell) == [])
        self.nothing_went_wrong()

    def broken(self, cell):
        return self.in_page("return [...named(arguments[0]).querySelectorAll('.broken')].map(each => +each.dataset.line)", cell)

    def test_registers_after_a_run(self):
        """They are below the cell that ran last, and say what has changed."""
        self.open("01-registers")
        first, second = self.in_page("return [...document.querySelectorAll('.cell')].map(each => each.dataset.cell)")[:2]
        self.run_cell(first)
        self.shows_values(first, ["A 00", "B 05", "C 00", "D 00", "E 00", "H 00", "L 00", "SP 0000", "PC 0003"], [])
        self.run_cell(second)
        values = ["A 00", "B FF", "C FF", "D 00", "E 00", "H 00", "L 00", "SP 0000", "PC 0005"]
        self.shows_values(second, values, ["B FF", "C FF", "PC 0005"])
        self.assertEqual(self.browser.run("return document.querySelectorAll('.registers').length"), 1)

    def shows_values(self, cell, values, changed):
        """Waits until these registers, and then the flags, are shown below a cell, with these marked as changed."""
        wait_until(lambda: self.in_page(VALUES, cell)[0][:9] == values)
        flags = ["S 0", "Z 0", "AC 0", "P 0", "CY 0", "INTE off"]
        self.assertEqual(self.in_page(VALUES, cell), [[*values, *flags], changed])

    def test_cards(self):
        self.open("01-registers")
        self.browser.run("document.querySelector('.cell').scrollIntoView({block: 'center'})")
        word = "const {x, y} = document.querySelector('[data-card=MVI]').getBoundingClientRect(); return [x, y].map(Math.round)"
        places = itertools.cycle((5, 9))

        def hovers():
            x, y = self.browser.run(word)
            self.browser.click_at(x + next(places), y + 5)
            return not self.browser.run("return document.getElementById('card').hidden")
        wait_until(hovers)
        self.assertIn("MVI r,byte", self.text("#card"))

    def test_a_cell_waits_for_the_board(self):
        noted = self.note(PRESSES)
        try:
            self.open("01-registers")
            wait_until(lambda: self.text(".count") == "[1]")
            self.assertEqual(self.text(".cell .note"), "")
        finally:
            self.browser.devtools("Page.removeScriptToEvaluateOnNewDocument", identifier=noted)

    def test_a_board_that_ends(self):
        """The page says why, at the cell that ran too, and goes on with a new board."""
        self.open("01-registers")
        self.begin_cell("exercise-1", "START:  JMP START\n        END START")
        self.waits_for("running")
        self.browser.run("lab80.board.socket.end('Its memory is used up')")
        self.waits_for("the board has ended")
        told = "The board has ended. Its memory is used up. The texts stay: New board begins with another one"
        self.shows("#message span", told)
        self.assertEqual(self.text("[data-cell='exercise-1'] .note"), "The board is gone, and the run with it.")
        self.begins_anew()
        self.assertEqual(self.run_cell("exercise-1", "        HLT\n        END 0")["error"], "")

    def begins_anew(self):
        self.browser.click("#new-board")
        wait_until(lambda: self.browser.run("return document.getElementById('question').open"))
        self.browser.click("#question-yes")
        wait_until(lambda: self.browser.run("return lab80.board.number") == 2)
        self.waits_for("idle")

    def test_a_new_board(self):
        """It knows no names, and the texts stay."""
        self.open("01-registers")
        self.run_cell("tools-judge")
        self.begins_anew()
        self.assertIn("Undefined", self.run_cell("judge-1")["error"])


# The buttons, links of the page's own and summaries that are smaller than a finger: those of the text are words in it.
SMALL = """
    const all = document.querySelectorAll("button, summary, nav a, a.button, .title, input");
    return [...all].filter(each => each.offsetParent).map(each => [each.textContent, each.getBoundingClientRect()])
        .filter(([, {width, height}]) => width < 44 || height < 44).map(([text]) => text);"""

# Elements that stand out of the window on the right.
OUTSIDE = """
    return [...document.querySelectorAll("main *")].filter(each => each.getBoundingClientRect().right > innerWidth + 1)
        .map(each => each.outerHTML.slice(0, 80));"""


# The middle of an element, which is brought into view; null if it isn't where it was when that was asked last.
PLACE = """
    const element = document.querySelector(arguments[0]);
    element.scrollIntoView({block: "center"});
    const {left, top, width, height} = element.getBoundingClientRect(), before = window.place;
    window.place = `${arguments[0]} ${left} ${top}`;
    return window.place === before ? [Math.round(left + width / 2), Math.round(top + height / 2)] : null;"""

# A text with lines that are wrapped, at blanks and within a word.
LONG = """START:  MVI B,5         ; a comment that is longer than the window of a phone is wide, and is wrapped at blanks

        DB 'AVERYLONGSTRINGWITHOUTANYBLANKINITWHICHISWRAPPEDELSEWHERE'
        END START"""
HEIGHTS = """
    const area = document.querySelector(".cell textarea"), lines = area.previousSibling;
    return [area.scrollHeight, lines.clientHeight];"""


class Phones(Pages):
    """A window of 390 points that is touched."""

    def setUp(self):
        super().setUp()
        self.browser.devtools("Emulation.setDeviceMetricsOverride", width=390, height=844, deviceScaleFactor=1, mobile=True)
        self.browser.devtools("Emulation.setTouchEmulationEnabled", enabled=True)

    def tap(self, selector):
        """Touches the middle of an element, once nothing moves it any more."""
        x, y = wait_until(lambda: self.browser.run(PLACE, selector))
        move = {"type": "pointerMove", "origin": "viewport", "x": x, "y": y, "duration": 0}
        finger = {"type": "pointer", "id": "finger", "parameters": {"pointerType": "touch"},
                  "actions": [move, {"type": "pointerDown", "button": 0}, {"type": "pointerUp", "button": 0}]}
        self.browser.ask("POST", "/actions", {"actions": [finger]})

    def is_narrow(self):
        """Nothing scrolls sideways or stands out, and what is touched is large enough."""
        self.assertEqual(self.browser.run("return document.documentElement.scrollWidth"), 390)
        self.assertEqual(self.browser.run(OUTSIDE), [])
        self.assertEqual(self.browser.run(SMALL), [])

    def test_all_pages_are_narrow(self):
        for name in (*make.lessons(), "index"):
            with self.subTest(name):
                self.browser.open(f"{self.site.address}/book/{name}.html")
                wait_until(lambda: self.browser.run("return Boolean(document.getElementById('contents') || window.lab80)"))
                self.is_narrow()

    def test_what_is_typed_lies_over_its_colours(self):
        """Both are wrapped at the same places."""
        self.open("01-registers")
        for text in (LONG, "", "\n", "\tHLT\t; tabs\n" * 3):
            self.in_page("write(document.querySelector('.cell'), arguments[0])", text)
            self.assertEqual(*self.browser.run(HEIGHTS), repr(text))

    def test_lesson_1_by_touch(self):
        self.open("01-registers")
        names = self.in_page("return [...document.querySelectorAll('.cell')].map(each => each.dataset.cell)")
        answers = self.answers("01-registers")
        for name in names:
            kind, _, number = name.partition("-")
            if kind == "exercise":
                self.tap(f"[data-cell='{name}'] textarea")
                self.browser.run("document.activeElement.select()")
                self.browser.devtools("Input.insertText", text=answers[number])
            self.tap(f"[data-cell='{name}'] .run")
            self.waits_for("idle")
            wait_until(lambda name=name: self.text(f"[data-cell='{name}'] .count"))
            self.is_narrow()
        wait_until(lambda: self.text("#done") == "3 of 3 exercises are right.")
        self.stops_by_touch(names[2])
        self.nothing_went_wrong()

    def stops_by_touch(self, cell):
        """A breakpoint on the line with the cursor, a stop there, and the run's end."""
        self.in_page("const area = named(arguments[0]).querySelector('textarea'); area.setSelectionRange(25, 25)", cell)
        self.tap(f"[data-cell='{cell}'] .for-fingers")
        wait_until(lambda: self.text(f"[data-cell='{cell}'] .broken").strip() == "MOV D,B")
        self.tap(f"[data-cell='{cell}'] .run")
        self.waits_for("stopped at line 2")
        self.is_narrow()
        self.tap(f"[data-cell='{cell}'] .run")
        self.waits_for("idle")


# Elements with words whose contrast with what is behind them is below 4.5 to 1, which WCAG wants. Colours are drawn to be read as
# numbers.
CONTRAST = """
    const context = new OffscreenCanvas(1, 1).getContext("2d", {willReadFrequently: true});
    const numbers = colours => {
        context.clearRect(0, 0, 1, 1);
        for (const each of colours) {
            context.fillStyle = each;
            context.fillRect(0, 0, 1, 1);
        }
        return [...context.getImageData(0, 0, 1, 1).data].slice(0, 3);
    };
    const linear = part => part <= 0.04045 ? part / 12.92 : ((part + 0.055) / 1.055) ** 2.4;
    const light = rgb => {
        const [red, green, blue] = rgb.map(each => linear(each / 255));
        return 0.2126 * red + 0.7152 * green + 0.0722 * blue;
    };
    const known = new Map();
    const lightOf = colours => {
        const name = colours.join();
        if (!known.has(name)) known.set(name, light(numbers(colours)));
        return known.get(name);
    };
    const behind = element => element ? [...behind(element.parentElement), getComputedStyle(element).backgroundColor] : ["white"];
    const seen = [...document.querySelectorAll("body *")].filter(each => each.checkVisibility() && each.tagName !== "TEXTAREA"
        && !each.disabled && [...each.childNodes].some(child => child.nodeType === 3 && child.data.trim()));
    return seen.map(each => {
        const back = behind(each), [one, other] = [lightOf(back), lightOf([...back, getComputedStyle(each).color])];
        const contrast = (Math.max(one, other) + 0.05) / (Math.min(one, other) + 0.05);
        return [contrast, `${each.className} ${each.textContent.slice(0, 20)}`];
    }).filter(([contrast]) => contrast < 4.5).map(each => each.join(" "));"""

# The text that is seen.
SHOWN = "return document.querySelector('main').innerText"


class Looks(Pages):
    def test_the_policy(self):
        """It stops scripts and styles that somebody might bring into the page, and requests to other hosts."""
        self.open("01-registers")
        self.browser.run("""
            const script = document.createElement("script");
            script.textContent = "window.ran = true";
            document.body.append(script, Object.assign(document.createElement("img"), {src: "http://127.0.0.1:9/x.png"}));
            document.body.insertAdjacentHTML("beforeend", "<p style='color: red' onclick='1'></p>");""")
        wait_until(lambda: len(self.browser.run("return window.wrong")) >= 3)
        self.assertEqual({each.split()[0] for each in self.browser.run("return window.wrong")},
                         {"script-src-elem", "img-src", "style-src-attr", "script-src-attr"})
        self.assertFalse(self.browser.run("return Boolean(window.ran)"))
        self.browser.run("setTimeout('window.ran = true')")
        wait_until(lambda: "script-src eval" in self.browser.run("return window.wrong"))

    def test_without_scripts(self):
        """The text and the cells can be read, and there are no buttons that do nothing."""
        self.browser.devtools("Emulation.setScriptExecutionDisabled", value=True)
        try:
            self.browser.open(f"{self.site.address}/book/02-flags.html")
            shown = self.browser.ask("GET", f"/element/{self.browser.find('main')}/text")
            for text in ("After most sums the 8080 keeps five facts", "A hint", "MVI A,", "All 46 lines", "; Z says whether B is C.",
                         "With JavaScript the cells"):
                self.assertIn(text, shown)
            buttons = self.browser.ask("POST", "/elements", {"using": "css selector", "value": "button"})
            self.assertEqual([each for each in buttons if self.is_displayed(each)], [])
        finally:
            self.browser.devtools("Emulation.setScriptExecutionDisabled", value=False)

    def is_displayed(self, reference):
        return self.browser.ask("GET", f"/element/{list(reference.values())[0]}/displayed")

    def test_print(self):
        """On paper the cells have their colours, and neither buttons nor the judge's routines."""
        self.open("05-bits")
        self.run_cell("judge-1")
        self.browser.devtools("Emulation.setEmulatedMedia", media="print")
        try:
            shown = self.browser.run("return [...document.querySelectorAll('button, textarea, header, [data-kind=tools]')]"
                                     ".filter(each => each.checkVisibility()).length")
            self.assertEqual(shown, 0)
            self.assertIn("HALVES", self.browser.run(SHOWN))
            colours = self.browser.run("return [...document.querySelectorAll('.line .comment, .line .directive')]"
                                       ".map(each => getComputedStyle(each).color)")
            self.assertEqual(len(set(colours)), 2)
        finally:
            self.browser.devtools("Emulation.setEmulatedMedia", media="")

    def test_names_and_announcements(self):
        """What can be used has a name, what programs print is announced, and the colours' text isn't read twice."""
        self.open("08-console")
        nameless = self.browser.run("""
            const used = document.querySelectorAll("button, a, textarea, iframe, summary, input, img");
            const hasName = each => each.textContent.trim() || each.getAttribute("aria-label") || each.alt || each.title;
            return [...used].filter(each => each.offsetParent && !hasName(each)).map(each => each.outerHTML);""")
        self.assertEqual(nameless, [])
        roles = self.in_page("return [...document.querySelectorAll('.cell')].map(each => [...each.querySelectorAll('[role]')]"
                             ".map(each => each.getAttribute('role')).join(' '))")
        self.assertEqual(set(roles), {"log status status"})
        twice = "return [...document.querySelectorAll('textarea')].filter(each => !each.previousSibling.ariaHidden).length"
        self.assertEqual(self.browser.run(twice), 0)

    def test_contrast(self):
        """Words of each kind, notes and links stand out from what is behind them, in light and dark."""
        for scheme in ("light", "dark"):
            self.browser.prefer(scheme)
            self.open("01-registers")
            self.run_cell("judge-1")
            low = self.in_page(CONTRAST)
            self.assertEqual(low, [], scheme)
        self.browser.prefer("light")

    def test_the_panel_is_beside_in_wide_windows_alone(self):
        self.open("01-registers")
        self.browser.click("#beside")
        wait_until(lambda: self.browser.run("return document.querySelectorAll('#panel iframe').length") == 1)
        kernel = self.browser.run("return lab80.board.kernel")
        self.assertIn(kernel, self.browser.run("return document.querySelector('iframe').src"))
        self.browser.size(900, 900)
        wait_until(lambda: self.browser.run("return document.querySelectorAll('#panel iframe').length") == 0)
        self.assertEqual(self.browser.run("return document.getElementById('to-panel').search"), f"?kernel={kernel}&beside=1")
        self.browser.size(1366, 900)
        wait_until(lambda: self.browser.run("return document.querySelectorAll('#panel iframe').length") == 1)


class Firefox(firefox.Firefox):
    """Scripts of these tests aren't functions of the page, which its policy would refuse."""

    run, run_later = Browser.run, Browser.run_later


class Offline(Pages):
    def test_without_the_host(self):
        """A lesson that was never opened can be done when the host is gone, if another page of the site was opened before."""
        self.browser.open(f"{self.site.address}/book/index.html")
        wait_until(lambda: self.browser.run("return Boolean(navigator.serviceWorker.controller)"
                                            " || (navigator.serviceWorker.ready.then(() => location.reload()), false)"))
        self.site.stop()
        try:
            self.open("03-jumps")
            self.is_done("03-jumps")
            self.nothing_went_wrong()
        finally:
            self.site.start()


class InFirefox(Pages):
    browser_class = Firefox

    @classmethod
    def setUpClass(cls):
        firefox.needed()
        super().setUpClass()

    @classmethod
    def prepare(cls):
        """Firefox runs no script before those of the page."""

    test_what_the_browser_keeps = Lessons.test_what_the_browser_keeps
    test_keys = Lessons.test_keys
    test_errors_in_words = Lessons.test_errors_in_words
    forget = Lessons.forget

    def nothing_went_wrong(self):
        """Nothing was noted."""


def lesson_test(name):
    def test(self):
        self.open(name)
        self.is_done(name)
        self.nothing_went_wrong()
    return test


for each in make.lessons():
    setattr(Lessons, f"test_the_exercises_of_{each.replace('-', '_')}", lesson_test(each))
