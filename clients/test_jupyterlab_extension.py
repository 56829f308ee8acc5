"""What JupyterLab shows of lab80's notebooks by the extension that is installed beside the kernel: colours, faults in words,
cards, completions, columns, and the button for the front panel."""
import contextlib
import json
import os
import re
import shutil
import tempfile
import time
import unittest
from pathlib import Path
from urllib.parse import parse_qs

import nbformat

import trixie
from browser import ELEMENT, ENTER, ESCAPE, SHIFT, TAB, Browser, wait_until
from jupyter_servers import free_port
from lab80_client import processes
from lab_page import FRONT, LabPage
from modules import TOP
from panel_page import PICTURES, Page, keep_picture

BACKSPACE = "\ue003"

KERNELS = Path(os.environ.get("JUPYTER_PATH", ""), "kernels")
EXTENSION = Path(os.environ.get("JUPYTER_PATH", ""), "labextensions/lab80")

# Words of each kind.
KINDS = """\
; a comment
START:  LXI H,TEXT
        ADD M
        CMP B
        JNZ START
        OUT 1
WIDTH   EQU NOT 64
TEXT:   DB 'TEXT',12X
"""

# The panel's name of the colour of each kind.
COLOURS = {"comment": "comment", "label": "label", "transfer": "keyword", "arithmetic": "keyword", "logical": "keyword",
           "branch": "keyword", "stack": "keyword", "directive": "directive", "register": "register", "number": "number",
           "string": "string", "fault": "bad"}

# A label without its colon.
FAULTY = "        ORG 100H\nSTART   MVI A,1\n        HLT\n        END START"

ONLY_LOADED = "loaded, not run: END names no start"

HAS_EDITORS = "return document.querySelectorAll(arguments[0] + '.jp-CodeCell .lab80-editor').length === arguments[1]"
SHOWN = "return [...document.querySelectorAll(arguments[0])].filter(each => each.offsetWidth > 0).map(each => each.textContent)"
COLOURS_SHOWN = """
    return Object.fromEntries(arguments[0].map(kind => {
        const word = document.querySelector('.jp-CodeCell .lab80-' + kind);
        return [kind, word && getComputedStyle(word).color];
    }));"""
CELL = "const cell = jupyterapp.shell.currentWidget.content.widgets[arguments[0]], view = cell.editor.editor;"
TEXT = CELL + "return view.state.doc.toString()"
CURSOR = CELL + """
    const {head} = view.state.selection.main, line = view.state.doc.lineAt(head);
    return [view.hasFocus, line.number, head - line.from + 1];"""
# What is beneath a line of a cell, at the height where the next line would begin.
BENEATH = CELL + """
    const {bottom} = view.coordsAtPos(view.state.doc.line(arguments[1]).to), {left} = view.contentDOM.getBoundingClientRect();
    return document.elementFromPoint(left + 2, bottom + 6).closest('.lab80-beneath') !== null;"""
EDIT = CELL + "view.dispatch({changes: {from: arguments[1], insert: arguments[2]}})"
SELECT = CELL + "view.focus(); view.dispatch({selection: {anchor: arguments[1], head: arguments[2]}})"
IS_OPEN = "return window.jupyterapp !== undefined && location.origin === arguments[0]"
OPEN = """
    const [path, done] = arguments;
    jupyterapp.commands.execute('docmanager:open', {path}).then(() => done(), done);"""
ALONE = """
    const {shell} = jupyterapp, {currentWidget} = shell;
    shell.collapseLeft();
    for (const each of [...shell.widgets('main')]) if (each !== currentWidget) each.dispose();"""
CLOSE = "for (const each of [...jupyterapp.shell.widgets('main')]) each.dispose();"
THEME = "jupyterapp.commands.execute('apputils:change-theme', {theme: arguments[0]})"
FILES = """
    return performance.getEntriesByType('resource').map(each => new URL(each.name))
        .filter(each => each.pathname.endsWith('/kernelspecs/lab80/errors.js')).map(each => each.search.slice(1));"""
IS_DARK = "return document.body.dataset.jpThemeLight === 'false'"

# The rule of JupyterHub since 4.1, for jupyter_server: what a script asks for needs the value of the cookie `_xsrf`.
RULE = """
from jupyter_server.auth.identity import PasswordIdentityProvider


class Strict(PasswordIdentityProvider):
    def get_user(self, handler):
        headers = handler.request.headers
        if headers.get("Sec-Fetch-Mode") in ("cors", "same-origin"):
            value = handler.get_argument("_xsrf", None) or headers.get("X-XSRFToken")
            if not value or value != handler.get_cookie("_xsrf"):
                return None
        return super().get_user(handler)


c.ServerApp.identity_provider_class = Strict
"""


def colours_of_the_panel():
    """The panel's colours in light and in dark, by their names."""
    light, dark = (TOP / "kernelspec/panel/panel.css").read_text().split("@media (prefers-color-scheme: dark)")[:2]
    return [dict(re.findall(r"--(\w+): (#[0-9a-f]{6});", text)) for text in (light, dark)]


def as_browsers_write_it(colour):
    return f"rgb({', '.join(str(int(colour[at:at + 2], 16)) for at in (1, 3, 5))})"


def setUpModule():
    """One browser for all tests, and one server for most of them, with two further names for the kernel: one that begins as its
    own, and one that doesn't."""
    global browser, plain
    trixie.needed()
    browser = unittest.enterModuleContext(Browser(free_port(), 1300, 850))
    made = trixie.JupyterLab()
    for name in ("lab80-two", "other"):
        shutil.copytree(KERNELS / "lab80", Path(made.held.name, "data/kernels", name))
    plain = unittest.enterModuleContext(made)


class Lab(unittest.TestCase):
    seconds = 300

    @classmethod
    def setUpClass(cls):
        cls.lab = plain

    def setUp(self):
        self.browser = browser
        self.page = LabPage(self.browser, self.lab)
        self.logged()

    def end(self):
        """Closes the notebook, and ends its kernel."""
        self.browser.run(CLOSE)
        self.lab.end_kernels()

    def show(self, name):
        """Opens a notebook, and nothing beside it. The page is loaded once, since that takes long."""
        if self.browser.run(IS_OPEN, self.lab.address):
            self.browser.run_later(OPEN, name + ".ipynb")
        else:
            self.browser.open(self.lab.notebook(name))
            wait_until(lambda: self.browser.run(IS_OPEN, self.lab.address), 200)
        self.addCleanup(self.end)
        self.page.is_ready()

    def open(self, name, *texts):
        """Opens a notebook with these cells, and waits until they are in the language."""
        self.page.write(name, *texts)
        self.show(name)
        wait_until(lambda: self.browser.run(HAS_EDITORS, FRONT, len(texts)), 80)

    def open_with(self, kernel, name, text):
        """Opens a notebook with one cell for another kernel."""
        notebook = nbformat.v4.new_notebook(cells=[nbformat.v4.new_code_cell(text)])
        notebook.metadata.kernelspec = {"name": kernel, "display_name": kernel}
        nbformat.write(notebook, os.path.join(self.lab.folder, name + ".ipynb"))
        self.show(name)
        self.assertEqual([each["name"] for each in self.lab.ask("GET", "/api/kernels")], [kernel])

    def files(self):
        """The queries with which the page has asked for a file of the kernel's."""
        return self.browser.run(FILES)

    def focus(self, number):
        self.browser.click(f"{FRONT}.jp-CodeCell:nth-of-type({number + 1}) .cm-content")

    def text(self, number=0):
        return self.browser.run(TEXT, number)

    def shown(self, selector):
        """The texts of elements that are seen."""
        return self.browser.run(SHOWN, selector)

    def told(self, number=0):
        """The marked words, sentences and notes in a cell."""
        cell = f"{FRONT}.jp-CodeCell:nth-of-type({number + 1}) "
        return ["".join(self.shown(cell + ".lab80-marked")), *self.shown(cell + ".lab80-why, " + cell + ".lab80-note")]

    def tells(self, *wanted, number=0):
        """Waits until a cell shows this word as marked, and these sentences."""
        def told():
            return self.told(number)
        self.page.shows(told, list(wanted))

    def logged(self):
        """What the console says of lab80 since it was asked last."""
        told = [each["message"] for each in self.browser.ask("POST", "/se/log", {"type": "browser"})]
        return [each for each in told if "lab80:" in each]

    def picture(self, name, height=560):
        """Keeps a picture of the notebook without the list of files and the launcher, if a folder is named."""
        if PICTURES:
            self.browser.run(ALONE)
            self.browser.size(1000, height)
            time.sleep(1)
            keep_picture(self.browser, name)
            self.browser.size(1300, 850)

    def move(self, selector):
        """Moves the mouse onto an element, as a hand does."""
        origin = {ELEMENT: self.browser.find(selector)}
        moves = [{"type": "pointerMove", "origin": origin, "x": x, "y": 0, "duration": 50} for x in (-2, 2)]
        self.browser.ask("POST", "/actions", {"actions": [{"type": "pointer", "id": "mouse", "actions": moves}]})


class Cells(Lab):
    def test_colours_are_those_of_the_panel(self):
        self.open("colours", KINDS)
        light, dark = colours_of_the_panel()
        for theme, colours in (("JupyterLab Light", light), ("JupyterLab Dark", dark)):
            self.browser.run(THEME, theme)
            wait_until(lambda: self.browser.run(IS_DARK) == (colours is dark))
            wanted = {kind: as_browsers_write_it(colours[name]) for kind, name in COLOURS.items()}
            self.page.shows(lambda: self.browser.run(COLOURS_SHOWN, list(COLOURS)), wanted)
        self.browser.run(THEME, "JupyterLab Light")
        wait_until(lambda: not self.browser.run(IS_DARK))
        # a file is asked for once, by its version alone
        self.assertEqual([sorted(parse_qs(query)) for query in self.files()], [["v"]])

    def test_a_fault_is_told_in_words(self):
        self.open("faulty", FAULTY, "        MVI A,300\n        END 0")
        self.page.run_cell(0)
        self.tells("START", "A label ends with a colon: START:")
        self.assertEqual(self.shown(".lab80-why code"), ["START:"])
        self.assertTrue(self.browser.run(BENEATH, 0, 2))
        self.page.run_cell(1)
        self.tells("300", "A byte is 0 to 255 or -256 to -1.", number=1)
        self.picture("jupyterlab-errors")
        self.browser.run(THEME, "JupyterLab Dark")
        wait_until(lambda: self.browser.run(IS_DARK))
        self.picture("jupyterlab-errors-dark")
        self.browser.run(THEME, "JupyterLab Light")
        # a click on the error goes to the place; while a theme is loaded nothing can be clicked
        wait_until(lambda: self.browser.click(FRONT + ".jp-CodeCell .jp-OutputArea-output") is None)
        self.page.shows(lambda: self.browser.run(CURSOR, 0), [True, 2, 1])
        # an edit takes the words away, in this cell alone
        self.browser.run(EDIT, 0, self.text().index(" MVI") - 2, ":")
        self.tells("")
        self.assertEqual(self.told(1)[0], "300")
        self.page.run_cell(0)
        self.page.shows(self.page.prompts, ["[3]:", "[2]:"])
        self.assertEqual(self.told(), [""])

    def test_a_cell_that_runs_again_is_marked_again(self):
        self.open("again", "        CALL MISSING\n        HLT\n        END 0", "        ORG 200H\nMISSING: RET")
        self.page.run_cell(0)
        self.tells("MISSING", "No cell has defined MISSING. Define it by a label, MISSING:, or by EQU.")
        self.page.run_cell(1)
        self.tells("", ONLY_LOADED, number=1)
        self.page.run_cell(0)
        self.tells("")
        self.page.shows(self.page.prompts, ["[3]:", "[2]:"])
        self.assertEqual(self.told(), [""])

    def test_texts_of_faults_are_texts(self):
        self.open("hostile", "MOV A,<img/src=x/onerror=hurt()>\n")
        self.page.run_cell(0)
        wait_until(lambda: "<IMG/SRC=X/ONERROR=HURT()>" in "".join(self.told()))
        self.assertEqual(self.browser.run("return document.querySelectorAll('.jp-CodeCell img').length"), 0)

    def test_a_cell_that_is_only_loaded_says_so(self):
        self.open("loaded", "FIRST:  MVI A,1\n        HLT", "X: HLT\n END X", "; a word")
        for number in range(3):
            self.page.run_cell(number)
        self.page.shows(self.page.prompts, ["[1]:", "[2]:", "[3]:"])
        self.tells("", ONLY_LOADED)
        self.assertEqual((self.told(1), self.told(2)), ([""], [""]))
        self.focus(0)
        self.browser.type(" ")
        self.tells("")


class Keys(Lab):
    def test_columns_by_keys(self):
        self.open("columns", "")
        self.focus(0)
        for keys in ("start:", TAB, "mvi", TAB, "a,1", ENTER, "inr", TAB, "a", TAB, "; one more", ENTER, BACKSPACE,
                     "width", TAB, "equ", TAB, "64", ENTER, TAB, "hlt"):
            self.browser.type(keys)
        lines = ["start:  mvi     a,1", "        inr     a       ; one more", "width   equ     64", "        hlt"]
        self.page.shows(self.text, "\n".join(lines))
        # selected lines move by eight, and back
        self.browser.run(SELECT, 0, 0, 30)
        self.browser.type(TAB)
        moved = ["        " + line for line in lines[:2]] + lines[2:]
        self.page.shows(self.text, "\n".join(moved))
        self.browser.type(TAB, SHIFT)
        self.page.shows(self.text, "\n".join(lines))

    def test_words_are_completed(self):
        self.open("words", "TABLE1: DB 1\nTABLE2: DB 2\nSTABLE: DB 3", "")
        self.focus(1)

        def offered():
            return self.shown(".jp-Completer-item .jp-Completer-match")
        self.browser.type("        LX" + TAB)
        self.page.shows(lambda: self.text(1), "        LXI")
        self.browser.type(TAB + "H,TAB" + TAB)
        self.page.shows(offered, ["TABLE1", "TABLE2"])
        self.browser.type(ENTER)
        self.page.shows(lambda: self.text(1), "        LXI     H,TABLE1")
        # an operation isn't one of the words of the cells
        self.browser.type(ENTER + "s" + TAB)
        wait_until(offered)
        self.assertEqual(offered(), "sbb sbi set shld sphl sta stax stc sub sui".split())
        self.browser.type(ESCAPE + BACKSPACE)
        # nothing in a comment or a string
        self.browser.type("; TAB" + TAB + ENTER + "DB 'TAB" + TAB)
        self.page.shows(lambda: self.text(1).split("\n")[1:], ["        ; TAB   ", "        DB 'TAB "])
        self.assertEqual(offered(), [])

    def test_a_card_is_shown(self):
        self.open("cards", "X:      DAD B\n        HLT")
        self.browser.run(SELECT, 0, 13, 13)
        self.browser.type(TAB, SHIFT)
        card = ["DAD pair", "", "Adds the pair B, D or H, or SP, to HL.", "", "Flags   CY: the sum is above FFFFH", "Bytes   1",
                "States  10"]
        self.page.shows(lambda: "".join(self.shown(".jp-Tooltip")).split("\n"), card)
        self.browser.type(ESCAPE)
        self.page.shows(lambda: self.shown(".jp-Tooltip"), [])
        # with the mouse
        self.move(FRONT + ".lab80-stack")
        self.page.shows(lambda: [each[:9] for each in self.shown(".lab80-card strong")], ["HLT"])
        self.picture("jupyterlab-card", 420)
        self.move(FRONT + ".lab80-label")
        self.page.shows(lambda: self.shown(".lab80-card"), [])

    def test_all_cards_are_in_the_sidebar(self):
        self.open("all", "")
        self.browser.run("jupyterapp.commands.execute('lab80:instructions')")
        wait_until(lambda: len(self.shown(".lab80-instructions .lab80-card")) == 78)
        self.picture("jupyterlab-instructions")
        self.browser.run("jupyterapp.commands.execute('lab80:instructions')")
        self.page.shows(lambda: self.shown(".lab80-instructions .lab80-card"), [])


class Boards(Lab):
    def button(self):
        return self.shown(FRONT + ".lab80-panel")

    def test_the_button_opens_the_notebook_s_board(self):
        for kernel in ("lab80", "lab80-two"):
            self.open_with(kernel, "board-" + kernel, "        HLT")
            self.page.shows(self.button, ["8080 panel"])
            first, before = self.browser.window(), self.browser.windows()
            self.browser.click(FRONT + ".lab80-panel button")
            opened = wait_until(lambda: [each for each in self.browser.windows() if each not in before])
            self.browser.use(opened[0])
            page = Page(self.browser)
            page.is_in("idle")
            [board] = self.lab.ask("GET", "/api/kernels")
            address = page.run("return location.pathname + location.search")
            self.assertTrue(address.startswith(f"/kernelspecs/{kernel}/panel.html?"), address)
            self.assertIn(board["id"], address)
            self.assertIn("beside=1", address)
            self.browser.close_window()
            self.browser.use(first)
            self.end()

    def test_other_kernels_notebooks_are_as_they_were(self):
        self.open_with("other", "other", "        MVI A,300\n")
        self.assertEqual(self.button(), [])
        self.assertFalse(self.browser.run("return jupyterapp.commands.isVisible('lab80:open-panel')"))
        self.page.run_cell(0)
        self.page.shows(self.page.prompts, ["[1]:"])
        self.assertEqual(self.told(), [""])
        self.end()
        self.open_with("python3", "python", "value = 1")
        self.assertEqual(self.button(), [])
        self.assertEqual(self.shown(FRONT + ".lab80-editor"), [])
        self.focus(0)
        self.browser.run(SELECT, 0, 0, 0)
        self.browser.type(TAB)
        self.page.shows(self.text, "    value = 1")

    def test_a_kernel_that_was_started_anew(self):
        self.open("anew", "        MVI A,300\n")
        for kernel in processes(os.path.join(self.lab.held.name, "home")):
            # what ends with another one is gone already
            with contextlib.suppress(ProcessLookupError):
                os.kill(kernel, 9)
        wait_until(lambda: any("the kernel was started anew" in each for each in self.logged()))
        # the page's own dialog
        wait_until(lambda: self.shown(".jp-Dialog .jp-mod-accept"))
        self.browser.click(".jp-Dialog .jp-mod-accept")
        self.page.run_cell(0)
        self.tells("300", "A byte is 0 to 255 or -256 to -1.")


class InGerman(Lab):
    """The page in another language, which the browser keeps for all pages of the server."""

    def setUp(self):
        super().setUp()
        # the tests after this one load the page anew
        self.addClassCleanup(self.browser.open, "about:blank")
        self.open("german", FAULTY)
        self.browser.run("localStorage.setItem('lab80 language', 'de')")
        self.addCleanup(self.browser.run, "localStorage.removeItem('lab80 language')")
        self.browser.open("about:blank")
        self.open("german", FAULTY, "NOP")

    def test_errors_the_button_and_the_commands(self):
        self.page.shows(lambda: self.shown(FRONT + ".lab80-panel"), ["8080-Panel"])
        self.page.run_cell(0)
        self.tells("START", "Eine Marke endet mit einem Doppelpunkt: START:")
        self.page.run_cell(1)
        self.tells("", "geladen, nicht gestartet: END nennt keinen Anfang", number=1)
        self.assertEqual(self.browser.run("return jupyterapp.commands.label('lab80:open-panel')"), "8080-Panel")


class BelowAHub(Lab):
    """With a server that refuses what a script asks for without the cookie's value, and with an extension that isn't of the
    kernel's version."""

    VERSION = "0.1-other"

    @classmethod
    def setUpClass(cls):
        class Strict(trixie.JupyterLab):
            def set_up(self, home):
                super().set_up(home)
                Path(home, ".jupyter/jupyter_server_config.py").write_text(RULE)
        folder = Path(cls.enterClassContext(tempfile.TemporaryDirectory()))
        shutil.copytree(EXTENSION, folder / "lab80")
        about = json.loads((folder / "lab80/package.json").read_text())
        about["jupyterlab"]["_build"]["load"] = f"static/remoteEntry.js?v={cls.VERSION}"
        (folder / "lab80/package.json").write_text(json.dumps(about))
        cls.lab = cls.enterClassContext(Strict(labextensions=folder))

    def test_files_are_asked_for_with_the_cookie_s_value(self):
        self.open("below", FAULTY)
        self.page.run_cell(0)
        self.tells("START", "A label ends with a colon: START:")
        self.assertEqual([sorted(parse_qs(query)) for query in self.files()], [["_xsrf", "v"]])
        # it works with files of another version, and says so once
        told = self.logged()
        self.assertEqual(len(told), 1, told)
        self.assertIn(f"this extension is of version {self.VERSION} and the kernel's files of ", told[0])

    def test_it_stands_aside_if_the_kernel_s_files_lack_something(self):
        path = Path(self.lab.held.name, "data/labextensions/lab80/static/files.js")
        text = path.read_text()
        self.addCleanup(path.write_text, text)
        path.write_text(text.replace(" textOf", " textOf later"))
        self.browser.open("about:blank")
        self.browser.devtools("Network.clearBrowserCache")
        self.page.write("later", FAULTY)
        self.show("later")
        wait_until(lambda: [each for each in self.logged() if "which lack later: install both from one source" in each])
        self.page.run_cell(0)
        self.page.shows(self.page.outputs, ["AssemblyError: 2:1 Mnemonic"])
        self.assertEqual(self.shown(".lab80-editor"), [])
        self.page.shows(lambda: self.shown(FRONT + ".lab80-panel"), ["8080 panel"])
