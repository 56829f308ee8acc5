"""The front panel's map of memory: what is where, as a picture and in sentences; a page of it, by mouse and keys; what it costs to
follow a run; and where texts lie, against the assembler."""
import json
import re
import time
import unittest

from modules import TOP, assemble
from panel_tests import Pages
from test_looks import WATCHED
from test_panel_beside import CONTRAST, SMALL

UP, DOWN, LEFT, RIGHT = "\ue013", "\ue015", "\ue012", "\ue014"
ENTER, BACKSPACE, PAGE_UP, PAGE_DOWN, HOME, END = "\ue007", "\ue003", "\ue00e", "\ue00f", "\ue011", "\ue010"

# Code, data that it changes, room for a word, and two words on the stack where it calls.
PROGRAM = """\
        ORG 100H
START:  LXI SP,1000H
        LXI H,COUNT
        PUSH H
        CALL WORK
        POP H
        HLT
WORK:   INR M
        RET
COUNT:  DB 41H,'AB'
ROOM:   DS 2
        END START
"""

# An endless count in memory. With two instructions a round it would be looked at after so many that it is always the same.
COUNTS = """\
        ORG 100H
START:  LXI H,3000H
LOOP:   INR M
        NOP
        JMP LOOP
        END START
"""

# The name of the colour that a byte's dot has.
DOT = """
    const [at] = arguments, [column, row] = [at >> 8 & 15, at >> 12], [x, y] = [at & 15, at >> 4 & 15];
    const [red, green, blue] = document.getElementById('map').getContext('2d')
        .getImageData(1 + column * 17 + x, 1 + row * 17 + y, 1, 1).data;
    const names = [...document.querySelectorAll('#legend span')];
    return (names.find(each => getComputedStyle(each).backgroundColor === `rgb(${red}, ${green}, ${blue})`) || {}).className;"""

FOCUSED = "const {dataset} = document.activeElement; return dataset.page || dataset.at"
SAID = "return document.activeElement.getAttribute('aria-label')"
BYTE = "const cell = document.querySelector(`#map-bytes [data-at='${arguments[0]}']`); return [cell.textContent, cell.className]"
IS_OPEN = "return document.getElementById('map-dialog').open"

# What texts have loaded, by the page: the addresses of code, of data, and of room.
LAYOUT = """
    const done = arguments[arguments.length - 1], texts = arguments[0];
    Promise.all(['layout', 'board'].map(name => import(new URL(`panel/${name}.js`, location.href.replace(/[^/]*$/, '')).href + VERSION)))
        .then(([{layoutOf}, {symbolValue}]) => done(texts.map(text => layoutOf(text, symbolValue).statements
            .map(({at, length, kind, checks}) => [at, length, kind, checks.length]))));"""


class Mapped(Pages):
    def stopped(self, text, line):
        """A page with a program that is stopped on a line."""
        page = self.open()
        page.is_in("idle")
        page.run("setCell(arguments[0])", text)
        page.click("#run-stopped")
        page.waits(lambda: page.state().startswith("stopped") and page.line())
        page.waits(lambda: page.breakpoints() == [])
        if page.line() != line:
            page.to_line(line)
            page.stops("breakpoint", line)
            page.waits(lambda: page.breakpoints() == [])
        return page

    def map_of(self, page):
        page.click("#show-map")
        page.waits(lambda: page.text("#map-told") and page.text("#map-said") != "looks")


class Map(Mapped):
    def test_all_of_memory(self):
        page = self.stopped(PROGRAM, 8)
        self.map_of(page)
        told = ("Code is at 0100 to 010D. Data is at 010E to 0112. The stack is at 0FFC to 0FFF. PC is 010C, WORK.")
        self.assertEqual(page.text("#map-told"), told)
        dots = {0x100: "of-code", 0x10C: "of-pc", 0x10E: "of-data", 0x112: "of-data", 0x113: None, 0xFFC: "of-stack",
                0x1000: "of-empty", 0xFFFF: "of-empty"}
        self.assertEqual({at: page.run(DOT, at) for at in dots}, dots)
        # the squares say what they have, and one leads to the others by keys
        self.assertEqual((page.run(FOCUSED), page.run(SAID)), ("1", "0100 to 01FF: code, data, PC"))
        for key, square in ((RIGHT, "2"), (DOWN, "18"), (LEFT, "17"), (UP, "1"), (UP, "1"), (END, "255"), (RIGHT, "255"), (HOME, "0")):
            page.browser.key(key)
            self.assertEqual(page.run(FOCUSED), square, key)
        page.click("#map-pages button", 15)
        self.assertEqual(page.run(SAID), "0F00: 00 \u00b7")
        page.click("#map-close")
        # what the steps have changed
        page.command("stepIn")
        page.stops("step", 9)
        self.map_of(page)
        page.waits(lambda: page.text("#map-said") == "1 byte has changed")
        self.assertTrue(page.text("#map-told").endswith("1 byte has changed since the last picture: 010E."), page.text("#map-told"))
        self.assertEqual((page.run(DOT, 0x10E), page.run(DOT, 0x10D)), ("of-changed", "of-pc"))
        self.assertIn("changed", page.run("return document.querySelectorAll('#map-pages button')[1].title"))
        page.picture("panel-map", 1140, 890)
        self.assertEqual(page.run("return document.getElementById('map-dialog').getAttribute('aria-labelledby')"), "map-title")
        # the picture is the same in all colours, but for the colours
        for scheme in ("dark", "light"):
            page.browser.prefer(scheme)
            page.waits(lambda: (page.run(DOT, 0x100), page.run(DOT, 0x10E), page.run(DOT, 0xFFC)) == ("of-code", "of-changed", "of-stack"))

    def test_a_page_of_it(self):
        page = self.stopped(PROGRAM, 8)
        self.map_of(page)
        page.browser.key(ENTER)
        self.assertEqual((page.text("#map-title"), page.run(FOCUSED)), ("Memory from 0100 to 01FF", "256"))
        rows = page.texts("#map-bytes tr")
        self.assertEqual((rows[0], len(rows)), ("0123456789ABCDEF", 17))
        self.assertEqual(rows[1], "0100" "310010210E01E5CD0C01E17634C94141" "0100 START010C PC, WORK010E COUNT")
        self.assertEqual(page.run(BYTE, 0x10C), ["34", "of-code at-pc"])
        self.assertEqual(page.run(BYTE, 0x110), ["42", "of-data"])
        told = "Code is at 0100 to 010D. Data is at 010E to 0112. PC is 010C, WORK."
        self.assertEqual(page.text("#map-told"), told)
        # keys, over the page's ends too
        for key, at, said in ((RIGHT, 0x101, "0101: 00 \u00b7, code"), (DOWN, 0x111, "0111: 00 \u00b7, data, ROOM"), (UP, 0x101, None),
                              (UP, 0xF1, "00F1: 00 \u00b7"), (PAGE_DOWN, 0x1F1, None), (PAGE_UP, 0xF1, None), (DOWN, 0x101, None)):
            page.browser.key(key)
            self.assertEqual(page.run(FOCUSED), str(at), (key, at))
            if said:
                self.assertEqual((page.run(SAID), page.text("#map-at")), (said, said))
        page.browser.key(BACKSPACE)
        self.assertEqual((page.text("#map-title"), page.run(FOCUSED)), ("All memory", "1"))
        # a place by its name, and one that is none
        page.run("document.getElementById('map-place').value = 'sp'")
        page.click("#map-finding button")
        self.assertEqual(page.run(SAID), "0FFC: 0A \u00b7, stack, SP")
        page.run("document.getElementById('map-place').value = '<b>'")
        page.click("#map-finding button")
        page.says("Map: no such address or symbol")
        page.click("#map-bytes [data-at='4094']")
        self.assertEqual(page.run(SAID), "0FFE: 0E \u00b7, stack")
        for button, title in (("#map-page-after", "1000 to 10FF"), ("#map-page-before", "0F00 to 0FFF")):
            page.click(button)
            self.assertEqual(page.text("#map-title"), f"Memory from {title}")
        page.picture("panel-map-page", 1140, 890)
        page.run("document.querySelector(`#map-bytes [data-at='4094']`).focus()")
        page.browser.key(ENTER)
        page.waits(lambda: page.texts("#memory th")[0] == "0FFE")
        self.assertFalse(page.run(IS_OPEN))

    def test_a_page_is_looked_at_alone(self):
        page = self.stopped(PROGRAM, 8)
        self.map_of(page)
        page.click("#map-pages button", 1)
        page.click("#map-close")
        page.command("stepIn")
        page.stops("step", 9)
        self.map_of(page)
        page.waits(lambda: page.text("#map-said") == "1 byte has changed")
        page.click("#map-pages button", 1)
        self.assertEqual(page.run(BYTE, 0x10E), ["42", "of-data changed"])
        self.assertIn("0111: ", page.run("return document.querySelector(`#map-bytes [data-at='273']`).title"))
        page.run(WATCHED)
        page.run("told.commands = []")
        page.click("#map-again")
        page.waits(lambda: page.text("#map-said") == "0 bytes have changed")
        self.assertEqual(page.run("return told.commands"), ["variables 5"])
        self.assertEqual(page.run(BYTE, 0x10E), ["42", "of-data"])

    def test_it_follows_a_run(self):
        page = self.open()
        page.is_in("idle")
        page.run_cell(COUNTS)
        page.is_in("running")
        self.map_of(page)
        time.sleep(1.5)
        self.assertEqual(page.text("#map-said"), "")
        page.click("#map-follow")
        page.waits(lambda: page.run(DOT, 0x3000) == "of-changed", 60)
        page.run(WATCHED)
        for where, most in (("all", 8), ("a page", 1)):
            with self.subTest(where):
                page.run("told.commands = []")
                began = time.monotonic()
                time.sleep(4)
                looks = page.run("return told.commands").count("variables 5")
                took = time.monotonic() - began
                self.assertGreater(looks, most)
                self.assertLessEqual(looks, most * (took + 1) + took)
            page.click("#map-pages button", 0x30)
        values = set()
        page.waits(lambda: values.add(page.run(BYTE, 0x3000)[0]) or len(values) > 2)
        page.waits(lambda: page.run(BYTE, 0x3000)[1] == "of-other changed")
        page.click("#map-close")
        page.run("told.commands = []")
        time.sleep(2.5)
        self.assertLessEqual(page.run("return told.commands").count("variables 5"), 3)
        # the choice is kept; at rest nothing is asked once all was seen
        page.click("#interrupt")
        page.is_in("idle")
        page.reload()
        page.run(WATCHED)
        page.is_in("idle")
        self.map_of(page)
        self.assertTrue(page.run("return document.getElementById('map-follow').checked"))
        page.click("#map-pages button", 0x30)
        page.waits(lambda: self.asks_nothing(page))

    def asks_nothing(self, page):
        """Whether the map asks for no bytes for a while."""
        page.run("told.commands = []")
        time.sleep(2.5)
        return page.run("return told.commands").count("variables 5") == 0

    def test_a_stop_is_followed(self):
        page = self.stopped(PROGRAM, 8)
        self.map_of(page)
        page.click("#map-follow")
        page.click("#map-pages button", 1)
        self.assertEqual((page.run(BYTE, 0x10C), page.run(BYTE, 0x10E)), (["34", "of-code at-pc"], ["41", "of-data"]))
        page.run("command('stepIn')")
        page.waits(lambda: (page.run(BYTE, 0x10D), page.run(BYTE, 0x10E)) == (["C9", "of-code at-pc"], ["42", "of-data changed"]))
        page.click("#map-follow")

    def test_texts_that_came_one_after_the_other(self):
        """A newer text's bytes are its own; of an older one its other bytes stay, unless most of it is gone."""
        page = self.open()
        page.is_in("idle")
        for text in ("        ORG 200H\nOLD:    NOP\n        MVI A,5\n        RET\nTABLE:  DB 1,2,3,4\n        END\n",
                     "N       EQU 200H\n        ORG N+4\n        DB 9,9\n        END\n",
                     "        ORG 300H\nHERE:   DW 1,2\n        IF 0\n        NOP\n        ELSE\n        HLT\n        ENDIF\n        END\n"):
            page.run_cell(text)
            page.is_in("idle")
        page.waits(lambda: "HERE" in page.run("return board.symbols.map(each => each.name)"))
        self.map_of(page)
        self.assertEqual(page.text("#map-told"), "Code is at 0200 to 0203, 0304. Data is at 0204 to 0207, 0300 to 0303. PC is 0000.")
        page.click("#map-close")
        page.ask("boardReset")
        self.map_of(page)
        page.waits(lambda: page.text("#map-told").startswith("All bytes are 00."))

    def test_contrast_and_themes(self):
        page = self.stopped(PROGRAM, 8)
        self.map_of(page)
        page.click("#map-pages button", 1)
        self.addCleanup(self.browser.prefer, "light")
        for scheme in ("light", "dark"):
            self.browser.prefer(scheme)
            for at in (0x100, 0x10C, 0x10E, 0x120):
                self.assertGreaterEqual(page.run(CONTRAST, f"#map-bytes [data-at='{at}']"), 4.5, (scheme, at))
            for selector in ("#map-bytes th[scope=row]", "#map-bytes .names", "#legend li", "#map-told"):
                self.assertGreaterEqual(page.run(CONTRAST, selector), 4.5, (scheme, selector))
        self.assertEqual([each for each in page.run(SMALL) if each[0] in ("map-back", "map-again", "map-close", "map-page-before")], [])
        if self.browser_class.__name__ != "Browser":
            return
        self.browser.devtools("Emulation.setEmulatedMedia", features=[{"name": "forced-colors", "value": "active"}])
        self.addCleanup(self.browser.devtools, "Emulation.setEmulatedMedia", features=[])
        colours = page.run("""return [...document.querySelectorAll('#legend li:not([hidden]) span')]
            .map(each => getComputedStyle(each).backgroundColor)""")
        self.assertEqual(len(set(colours)), len(colours), colours)
        lines = {page.run("return getComputedStyle(document.querySelector(`#map-bytes [data-at='${arguments[0]}']`)).borderBottomStyle", at)
                 for at in (0x100, 0x10E)}
        self.assertEqual(lines, {"solid", "dotted"})
        page.click("#map-back")
        self.assertEqual((page.run(DOT, 0x100), page.run(DOT, 0x10E)), ("of-code", "of-data"))
        page.picture("panel-map-forced", 1140, 890)

    def test_narrow_windows(self):
        page = self.stopped(PROGRAM, 8)
        self.map_of(page)
        wide = """const dialog = document.getElementById('map-dialog'); return [dialog.getBoundingClientRect().right - innerWidth,
            dialog.scrollWidth - dialog.clientWidth]"""
        for width in (500, 683, 800, 1366):
            page.browser.size(width, 844)
            for square in (None, 1):
                if square is not None:
                    page.click("#map-pages button", square)
                right, more = page.run(wide)
                self.assertLessEqual(max(right, more), 0, (width, square))
            page.click("#map-back")


def bytes_in(printed):
    """The addresses of the bytes that the assembler prints."""
    found = set()
    for at, data in re.findall(r"(?m)^([0-9A-F]{4}):((?: [0-9A-F]{2})+)$", printed):
        found.update(int(at, 16) + offset for offset in range(len(data.split())))
    return found


class Layout(Mapped):
    def symbols(self, page):
        found = page.ask("variables", variablesReference=4, start=0, count=256)["variables"]
        return [each["name"] + each["value"] for each in found]

    def test_where_texts_lie(self):
        """The examples' texts, against the assembler: no byte of theirs is missed, and no other is said to be one."""
        page = self.open()
        page.is_in("idle")
        examples = json.loads((TOP / "kernelspec/examples.json").read_text(encoding="utf-8"))
        for each in examples:
            with self.subTest(each["name"]):
                text = re.sub(r"(?m)^( +END)\b.*", r"\1", "\n".join(each["lines"]) + "\n")
                page.run_cell(text)
                page.is_in("idle")
                page.waits(lambda: page.run("return board.symbols.map(each => each.name + each.value)") == self.symbols(page))
                version = page.run("return new URLSearchParams(location.search).get('v')")
                script = LAYOUT.replace("VERSION", f"'?v={version}'" if version else "''")
                [statements] = page.browser.run_later(script, [text])
                held = {1: set(), 2: set()}
                for at, length, kind, _ in statements:
                    held[kind].update(range(at, at + length))
                wanted, room = bytes_in(assemble(text)), sum(int(it) for it in re.findall(r"\bDS +(\d+)", text))
                self.assertEqual(wanted - held[1] - held[2], set())
                self.assertEqual((held[1] | held[2]) - wanted == set() or room > 0, True)
                self.assertEqual(len((held[1] | held[2]) - wanted), room)
                self.assertEqual(held[1] - wanted, set())


if __name__ == "__main__":
    unittest.main()
