"""The languages of the pages: that each table has all texts of the sources, what pages show in each language, the choice, and
tables that can't be had. The lessons in other languages."""
import json
import re
import subprocess
import tempfile
import unittest
from importlib.machinery import SourceFileLoader
from pathlib import Path

import nbformat

import static_site
from browser import Browser, wait_until
from jupyter_servers import free_port
from modules import TOP
from panel_page import Page, keep_picture
from panel_tests import NotebookPages, Pages
from test_notebook import IS_READY
from test_panel import CALLS
from test_panel_beside import SMALL, TOO_WIDE

FOLDER = TOP / "kernelspec/languages"
make = SourceFileLoader("languages_make", str(FOLDER / "make")).load_module()
lessons = SourceFileLoader("lessons_make", str(TOP / "lessons/make")).load_module()

CODES = ("de", "es", "zh")

# All texts of the page that its user may see or hear, those of hidden parts too, but for code, output and what programs are called.
SEEN = """
    const passed = 'script, style, noscript, code, kbd, pre, textarea, #source .line code, #code, #examples, #drafts, #texts, #symbols';
    const found = [], walk = document.createTreeWalker(document.body, NodeFilter.SHOW_ELEMENT | NodeFilter.SHOW_TEXT);
    for (let node; (node = walk.nextNode());) {
        const element = node.nodeType === Node.TEXT_NODE ? node.parentElement : node;
        if (element.closest(passed)) continue;
        if (node.nodeType === Node.TEXT_NODE) found.push(node.data);
        else for (const name of ['title', 'aria-label', 'placeholder']) if (node.hasAttribute(name)) found.push(node.getAttribute(name));
    }
    return [...new Set(found.map(each => each.trim().replace(/\\s+/g, ' ')).filter(each => /[A-Za-z]{2}/.test(each)))];"""

LANGUAGE = "return [document.documentElement.lang, document.getElementById('language').value]"
TABLE_CHANGED = """
    const real = window.fetch;
    window.fetch = (address, ...more) => /\\/languages\\//.test(address) ? Promise.resolve(new Response(%s)) : real(address, ...more);"""

STEPS = "        ORG 100H\nSTART:  MVI A,9AH\n        MVI B,70H\n        ADD B\n        HLT\n        END START\n"
LEAVES = "        ORG 500H\nSTART:  MVI A,5\n        END START\n"
DEVICES = "; lab80: matrix 8000H, digits, lights, arrows, clock, bell, keypad, text 9000H\n"


def pattern(text):
    """What a text becomes with values in it."""
    return "".join(".+" if part.startswith("{") else re.escape(part) for part in re.split(r"(\{\w+\})", text))


def english(table):
    """The sentences of a table that are others in its language: of three words at least, so that no name is one."""
    found = [text for text, said in table.items() if said != text and len(re.findall(r"[A-Za-z']{2,}", text)) >= 3]
    return re.compile("|".join(map(pattern, found)), re.S)


class Tables(unittest.TestCase):
    def test_each_table_has_all_texts_and_no_others(self):
        found, tables = make.texts(), make.tables()
        self.assertGreater(len(found), 800)
        self.assertEqual(sorted(tables), sorted(CODES))
        for code, table in tables.items():
            self.assertEqual(make.slips(table, found), [], code)

    def test_slips_in_a_table_are_found(self):
        found = {"{0} bytes": ["a.js"], "`MVI` loads {0} at line {line}": ["b.js"], "Save": ["c.js"]}
        table = {"{0} bytes": "{0} Bytes", "`MVI` loads {0} at line {line}": "`MVI` l\u00e4dt {0}", "Gone": "Weg", "Save": ""}
        self.assertEqual([line.split(":")[0] for line in make.slips(table, found)], ["missing (c.js)", "stale", "placeholders"])

    def test_texts_of_all_kinds_are_found(self):
        found = make.texts()
        for text in ("Runs the cell (Shift+Enter)", "In a comment, as {0}. A word is followed by an address, a label or {1}, and then by a "
                     "number. What is left out is as in this list.", "Breakpoint on line {0}", "Adds 1 to a register or M. FFH becomes 00H.",
                     "`ORA A` clears CY.", "a pair, `B`, `D`, `H` or `PSW`", "A number has no underscore: `$1$2`", "Dot matrix",
                     "{0} a second", "place in the console", "No board runs in this browser. Start one here.", "Its file {0} isn't there",
                     "Loads and copies", "It still runs."):
            self.assertIn(text, found)

    def test_scripts_are_read(self):
        source = "const a = /`'\"/.test(b) ? t('x' + \"y\") : `${t(\"in {0}\", [`${t(\"deep\")}`])} t(\"no\")`; // t(\"comment\")\n c = d / e / later('z');"
        self.assertEqual(sorted(make.of_calls(make.tokens_of(source))), ["deep", "in {0}", "xy", "z"])

    def test_texts_are_written_where_they_are_translated(self):
        """A call with a value that isn't a text names something that is marked elsewhere."""
        held = {"text", "advice", "taken", "sentence", "known", "ELSEWHERE_DEFINED", "does", "flags", "states", "KINDS", "about", "name",
                "ASTRAY", "errors", "why", "way", "joined", "element"}
        for pattern_of_files in make.SOURCES:
            for path in TOP.glob(pattern_of_files):
                if path.suffix != ".js":
                    continue
                tokens = make.tokens_of(path.read_text(encoding="utf-8"))
                for at in make.after(tokens, "t", "("):
                    if tokens[at][0] != "text":
                        self.assertIn(tokens[at][1], held, path)


class InLanguages(Pages):
    """The front panel in each language."""

    def open_in(self, code, kernel=None, **more):
        self.browser.run("localStorage.setItem('lab80 language', arguments[0])", code)
        page = self.open(kernel)
        page.waits(lambda: page.run("return document.documentElement.lang") == code)
        return page

    def idle(self, page):
        page.waits(lambda: page.run("return board.running === false && line.state === 'open'"))

    def stopped(self, page, text=CALLS):
        """Runs a cell, stopped at the start, whatever the state is called."""
        self.idle(page)
        page.run("setCell(arguments[0])", text)
        page.click("#run-stopped")
        page.waits(lambda: page.run("return board.stopped") and page.line())
        page.waits(lambda: page.breakpoints() == [])

    def shows_no_english(self, page, code):
        forms, table = english(make.tables()[code]), make.tables()[code]
        self.assertEqual([text for text in page.run(SEEN) if forms.fullmatch(text) and text not in table.values()], [], code)

    def test_pages_show_no_english_text(self):
        for code in CODES:
            with self.subTest(code=code):
                page = self.open_in(code)
                self.shows_no_english(page, code)
                self.stopped(page, DEVICES + STEPS)
                for _ in range(3):
                    before = page.run("return board.stops")
                    page.command("stepIn")
                    page.waits(lambda: page.run("return board.stops") > before)
                page.waits(lambda: page.run("return document.querySelectorAll('#devices .device').length") == 8)
                page.waits(lambda: "ADD B" in page.text("#why-result"))
                page.run("setCell(arguments[0])", STEPS)
                page.waits(lambda: page.text("#changed"))
                page.click("#show-map")
                page.waits(lambda: page.text("#map-told"))
                self.shows_no_english(page, code)
                page.click("#map-pages button", 1)
                page.waits(lambda: page.texts("#map-bytes td"))
                self.shows_no_english(page, code)
                page.click("#map-close")
                page.click("#interrupt")
                self.idle(page)

    def test_words_that_are_longer_fit(self):
        for code in CODES:
            page = self.open_in(code)
            self.stopped(page)
            addresses = page.run("return location.href"), self.server.page("lab80", "panel.html", kernel=self.kernel, beside=1)
            for name, address in zip(("panel", "beside"), addresses):
                self.browser.open(address)
                page.waits(lambda: page.line() == 2)
                for width in (390, 683, 800, 1366):
                    self.browser.devtools("Emulation.setDeviceMetricsOverride", width=width, height=844, deviceScaleFactor=1, mobile=False)
                    self.assertLessEqual(page.run(TOO_WIDE), 1, (code, name, width))
                    self.assertEqual(page.run(SMALL) if width < 760 else [], [], (code, name, width))
                    for scheme in ("light", "dark"):
                        self.browser.prefer(scheme)
                        keep_picture(self.browser, f"language-{code}-{name}-{width}-{scheme}")
            self.browser.devtools("Emulation.clearDeviceMetricsOverride")
            page.click("#interrupt")
            self.idle(page)
            self.browser.open(self.server.page("lab80", "logo-32x32.png"))

    def test_german(self):
        """An error, a card, what a step did, a cell that has changed, a warning, the map, a refusal, a question, and a state."""
        page = self.open_in("de")
        self.idle(page)
        self.assertEqual(page.state(), "bereit")
        page.run_cell("START:  MVI B,256\n        HLT\n        END START\n")
        sentence = "Ein Byte ist 0 bis 255 oder -256 bis -1. Ein Paar fasst mehr: LXI B,256"
        page.waits(lambda: page.text("#fault-sentence") == sentence)
        self.assertEqual(page.text("#fault"), "Zeile 1, Spalte 15: ByteRange")
        self.assertEqual(page.text("#fault-sentence code"), "LXI B,256")
        self.stopped(page, STEPS)
        self.assertEqual(page.state(), "angehalten: Haltepunkt")
        page.run("const word = document.querySelector('#coloured [data-card=MVI]');"
                 "word.dispatchEvent(new MouseEvent('mouseover', {bubbles: true}))")
        self.assertEqual(page.text("#card p"), "Lädt das Byte in ein Register oder in M, das Byte im Speicher bei der Adresse in HL.")
        self.assertEqual(page.texts("#card p")[1:], ["Flags: keine", "2 Bytes; Taktzyklen nach Intel: 7; 10 mit M"])
        for _ in range(3):
            before = page.run("return board.stops")
            page.command("stepIn")
            page.waits(lambda: page.run("return board.stops") > before)
        page.waits(lambda: page.text("#why-result") == "ADD B: 9AH + 70H = 10AH, also erhält A den Wert 0AH")
        self.assertIn("CY ist 1: 10AH ist größer als FFH", page.texts("#why-flags li"))
        page.run("setCell(arguments[0])", LEAVES)
        page.waits(lambda: page.text("#changed") == "Der Text der Zelle wurde geändert, seit sie lief. Dies ist, was lief.")
        page.click("#interrupt")
        self.stopped(page, LEAVES)
        page.choose("#granularity", "instruction")
        page.command("stepIn")
        page.waits(lambda: page.texts("#warned p") == [
            "Der Lauf verlässt sein Programm: Auf MVI A,005H bei 0500H folgt die Adresse 0502H, wohin keine Zelle etwas geladen hat und "
            "wo der Speicher 00H ist, also NOP. Fehlt ein HLT, ein JMP oder ein RET?"])
        page.click("#show-map")
        page.waits(lambda: page.text("#map-told") == "Code steht bei 0100 bis 0105, 0500 bis 0501. PC ist 0502.")
        page.click("#map-close")
        page.click("#interrupt")
        self.idle(page)
        page.run("attempt('Pause', () => debug('pause', {threadId: 1}))")
        page.says("Pause: es läuft nichts (NotRunning)")
        page.click("#reset")
        page.waits(lambda: page.run("return document.getElementById('question').open"))
        self.assertTrue(page.text("#question-text").startswith("Das Board zurücksetzen? "))
        page.answer(False)

    def test_the_choice_is_kept(self):
        page = self.open()
        page.is_in("idle")
        self.assertEqual(page.run(LANGUAGE), ["en", "en"])
        self.assertEqual(page.texts("#language option"), ["English", "Deutsch", "Espa\u00f1ol", "\u4e2d\u6587"])
        page.run("setCell(arguments[0])", STEPS)
        for code, state in (("es", "inactivo"), ("zh", "\u7a7a\u95f2"), ("en", "idle")):
            page.choose("#language", code)
            page.waits(lambda: page.run(LANGUAGE) == [code, code])
            page.is_in(state)
            self.assertEqual(page.run("return document.getElementById('cell').value"), STEPS)
        page.choose("#language", "es")
        page.waits(lambda: page.run(LANGUAGE) == ["es", "es"])
        another = self.open_another()
        self.assertEqual(another.run(LANGUAGE), ["es", "es"])

    def test_the_browser_is_asked(self):
        agent = self.browser.run("return navigator.userAgent")
        self.addCleanup(self.browser.devtools, "Emulation.setUserAgentOverride", userAgent=agent, acceptLanguage="en")
        for wanted, code in (("fr-FR,fr", "en"), ("de-AT,de", "de"), ("fr,es-MX", "es"), ("zh-CN", "zh"), ("pt,en,de", "en")):
            self.browser.devtools("Emulation.setUserAgentOverride", userAgent=agent, acceptLanguage=wanted)
            page = self.open()
            page.waits(lambda: page.run(LANGUAGE) == [code, code])
            self.browser.open(self.server.page("lab80", "logo-32x32.png"))

    def test_tables_that_cannot_be_had(self):
        """The page is in English, works, and says so once."""
        for content in ("'{\"Run\": 1}'", "'{\"Run\": '", "'[]'", "'gone', {status: 404}", "'', {status: 500}"):
            given = self.browser.devtools("Page.addScriptToEvaluateOnNewDocument", source=TABLE_CHANGED % content)
            try:
                self.browser.run("localStorage.setItem('lab80 language', 'de')")
                page = self.open()
                page.is_in("idle")
                page.waits(lambda: page.message().startswith("This page is in English, since its texts in Deutsch can't be used ("))
                self.assertEqual(page.run(LANGUAGE), ["en", "en"])
                page.run_cell(STEPS)
                page.waits(lambda: page.registers().get("A") == "0A")
            finally:
                self.browser.devtools("Page.removeScriptToEvaluateOnNewDocument", identifier=given["identifier"])
                self.browser.open(self.server.page("lab80", "logo-32x32.png"))

    def test_a_text_that_a_table_lacks_stays_english(self):
        given = self.browser.devtools("Page.addScriptToEvaluateOnNewDocument", source=TABLE_CHANGED % "'{\"Save\": \"<b>Sichern</b>\"}'")
        self.addCleanup(self.browser.devtools, "Page.removeScriptToEvaluateOnNewDocument", identifier=given["identifier"])
        page = self.open_in("de")
        page.is_in("idle")
        self.assertEqual((page.text("#open-file"), page.text("#save-file")), ("Open", "<b>Sichern</b>"))
        self.assertEqual(page.message(), "")

    def test_films_have_the_language_of_their_page(self):
        page = self.open_in("de")
        self.stopped(page, STEPS)
        page.command("stepIn")
        page.waits(lambda: page.run("return board.stops") == 2)
        page.run("""
            window.saved = [];
            HTMLAnchorElement.prototype.click = function () { fetch(this.href).then(reply => reply.text()).then(text => saved.push(text)); };""")
        page.waits(lambda: page.run("return !document.getElementById('film-save').disabled"))
        page.click("#film-save")
        page.waits(lambda: page.run("return saved.length") == 1)
        with tempfile.TemporaryDirectory() as folder:
            path = Path(folder, "film.html")
            path.write_text(page.run("return saved[0]"), encoding="utf-8")
            self.browser.open(path.as_uri())
            shown = "return document.querySelector('main').shadowRoot.querySelector(arguments[0]).textContent"
            wait_until(lambda: self.browser.run(shown, ".play") == "Abspielen")
            self.assertEqual(self.browser.run("return document.documentElement.lang"), "de")
            self.assertRegex(self.browser.run(shown, ".told"), r"^Zeitpunkt 1 von 2, Stopp 1, Zeile 2, vor MVI A,09AH\.$")


class Notebook(NotebookPages):
    """The classic Notebook in German: its button, and an error in words."""

    def test_german(self):
        self.browser.run("localStorage.setItem('lab80 language', 'de')")
        self.notebook("german", ["START:  MVI B,256\n        HLT\n        END START\n", "X:      NOP\n        END\n"])
        button = "return document.querySelector('#lab80-panel button').textContent.trim()"
        self.assertEqual(self.browser.run(button), "8080-Panel")
        self.browser.run("Jupyter.notebook.execute_cells([0])")
        told = "const it = document.querySelector('.lab80-why'); return it ? it.textContent : ''"
        wait_until(lambda: self.browser.run(told) == "Ein Byte ist 0 bis 255 oder -256 bis -1. Ein Paar fasst mehr: LXI B,256")
        self.browser.run("Jupyter.notebook.execute_cells([1])")
        note = "const it = document.querySelector('.lab80-note'); return it ? it.textContent : ''"
        wait_until(lambda: self.browser.run(note) == "geladen, nicht gestartet: END nennt keinen Anfang")


class WebPages(unittest.TestCase):
    """The static site and its page as one file, in Spanish."""

    def setUp(self):
        self.browser = self.enterContext(Browser(free_port(), 1250, 1130))
        agent = self.browser.run("return navigator.userAgent")
        self.browser.devtools("Emulation.setUserAgentOverride", userAgent=agent, acceptLanguage="es-MX,es")

    def speaks(self, address):
        page = Page(self.browser, address)
        page.waits(lambda: page.run(LANGUAGE) == ["es", "es"])
        page.is_in("inactivo")
        self.assertEqual(page.text("#save-session"), "Guardar la sesi\u00f3n")
        page.run_cell("        MVI B,256\n")
        page.waits(lambda: page.text("#fault-sentence").startswith("Un byte va de 0 a 255"))
        self.assertEqual([text for text in page.run(SEEN) if english(make.tables()["es"]).fullmatch(text)
                          and text not in make.tables()["es"].values()], [])
        return page

    def test_the_site(self):
        with static_site.Site() as site:
            self.speaks(site.address + "/")
            kept = f"fetch('sw.js').then(reply => reply.text()).then(arguments[0])"
            files = json.loads(re.search(r"FILES = (\{.*?\});", self.browser.run_later(kept), re.S)[1])
            self.assertTrue({f"languages/{code}.json" for code in CODES} <= set(files))

    def test_the_page_as_one_file(self):
        with tempfile.TemporaryDirectory() as folder:
            page = self.speaks(static_site.OneFile(folder).address)
            page.choose("#language", "zh")
            page.waits(lambda: page.run(LANGUAGE) == ["zh", "zh"])

    def test_a_lesson_has_the_language_of_its_text(self):
        with static_site.Site() as site:
            self.browser.open(site.address + "/book/01-registers.html")
            wait_until(lambda: self.browser.run("return document.querySelectorAll('#lesson button').length") > 5)
            self.assertEqual(self.browser.run("return document.documentElement.lang"), "en")
            self.assertEqual(self.browser.run("return document.getElementById('forget').textContent"), "Forget this lesson")


# ---- lessons

class Lessons(unittest.TestCase):
    def test_two_lessons_are_in_each_language(self):
        self.assertEqual(lessons.languages(), sorted(CODES))
        for code in CODES:
            self.assertEqual(lessons.translations(code)[:2], ["00-numbers", "01-registers"])

    def test_their_cells_are_those_of_the_source(self):
        def told(text):
            return [(cell.tags, lessons.without_comments(cell.text), cell.printed, cell.error, cell.inputs, cell.answer is None)
                    for cell in lessons.cells(text) if cell.is_code()]

        for code in CODES:
            for name in lessons.translations(code):
                text = lessons.translated(name, code)
                self.assertEqual(told(text), told(lessons.source(name)), (code, name))
                pictures = [found[2:] for found in re.findall(r"(!\[[^]]*\]\()([\w-]+)", text)]
                self.assertEqual(len(pictures), len(re.findall(r"!\[[^]]*\]\(", lessons.source(name))), (code, name))
                self.assertEqual(text.count("<details>"), lessons.source(name).count("<details>"), (code, name))

    def test_slips_in_a_translation(self):
        source = "Text.\n\n```asm exercise-1\n        RET     ; so\n```\n\n```answer\n        NOP\n        RET\n```\n\n```asm\n        HLT\n```\n"
        made = lessons.with_cells("Wort.\n\n```asm exercise-1\n        RET     ; hier\n```\n\n{asm}\n", source)
        self.assertEqual(made, source.replace("Text", "Wort").replace("; so", "; hier"))
        for text, why in (("{asm}\n", "fewer cells"), ("{asm}\n\n{asm}\n\n{asm}\n", "more cells"),
                          ("```asm exercise-1\n        NOP\n```\n\n{asm}\n", "more than comments"),
                          ("```asm judge-1\n        RET\n```\n\n{asm}\n", "more than comments"),
                          ("```answer\n        NOP\n        RET\n```\n\n{asm}\n\n{asm}\n", "follows no exercise")):
            with self.assertRaises(lessons.Slip) as caught:
                lessons.with_cells(text, source)
            self.assertIn(why, str(caught.exception))

    def test_a_translated_notebook_is_marked(self):
        with tempfile.TemporaryDirectory() as folder:
            for code in CODES:
                book = nbformat.read(TOP / f"lessons/teacher/{code}/01-registers.ipynb", 4)
                nbformat.write(book, Path(folder, f"{code}.ipynb"))
                blank = nbformat.read(TOP / f"lessons/{code}/01-registers.ipynb", 4)
                nbformat.write(blank, Path(folder, f"{code}-blank.ipynb"))
            words = [TOP / "lessons/mark", "--csv", folder]
            marked = subprocess.run(words, stdout=subprocess.PIPE, stderr=subprocess.DEVNULL, text=True, check=True, timeout=600).stdout
            rows = {line.split(",")[0]: line.split(",")[2:5] for line in marked.splitlines()}
            for code in CODES:
                self.assertEqual(rows[code], ["right"] * 3)
                self.assertEqual(rows[f"{code}-blank"], ["not done"] * 3)


if __name__ == "__main__":
    unittest.main()
