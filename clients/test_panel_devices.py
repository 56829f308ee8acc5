"""The devices beside the front panel: which are shown, what they show of memory and lamps, keys, the clock and the bell; what their
looks cost; and the examples that use them."""
import json
import os
import time
import unittest

from browser import ARROW_DOWN, Browser, wait_until
from modules import TOP, run_with
from panel_tests import HERE, Pages
from ports import free_port
from test_looks import WATCHED
from test_panel import DEAF, ECHOES
from test_panel_beside import CONTRAST, SMALL, TOO_WIDE

SPEC = TOP / "kernelspec"
LEFT, UP, RIGHT = "\ue012", "\ue013", "\ue014"

NAMES = "return [...document.querySelectorAll('.device')].map(each => each.getAttribute('aria-label'))"
SEEN = "return document.querySelector(arguments[0]).checkVisibility()"

# What is said of a picture, for those who don't see it.
LABEL = "return document.querySelector(arguments[0])?.getAttribute('aria-label')"

# The colour of a dot of a screen.
DOT = """
    const context = document.querySelector(arguments[0]).getContext('2d');
    return [...context.getImageData(arguments[1], arguments[2], 1, 1).data].slice(0, 3);"""
LIT, DARK = [190, 255, 200], [10, 14, 12]

# Turns a row of dots in a ring, again and again.
TURNS = """\
; lab80: matrix 8000H, digits 8001H
        ORG 100H
START:  LXI H,8000H
        MVI M,1
AGAIN:  LXI D,0
PAUSE:  DCX D
        MOV A,D
        ORA E
        JNZ PAUSE
        MOV A,M
        RLC
        MOV M,A
        INX H
        INR M
        DCX H
        JMP AGAIN
        END START
"""

# Waits for buttons, of which each has its own dot: RST 1 the one on the right of the first row.
DOTS = """\
; lab80: matrix 8000H, arrows
        ORG 8
        MVI A,1
        JMP DOT
        ORG 10H
        MVI A,2
        JMP DOT
        ORG 18H
        MVI A,4
        JMP DOT
        ORG 20H
        MVI A,8
        JMP DOT
        ORG 28H
        MVI A,10H
        JMP DOT
        ORG 30H
        MVI A,20H
        JMP DOT
        ORG 38H
        MVI A,40H
DOT:    LXI H,8000H
        XRA M
        MOV M,A
        RET
        ORG 100H
START:  LXI SP,1000H
        XRA A
        STA 8000H
WAIT:   EI
        HLT
        JMP WAIT
        END START
"""

# Counts the presses of RST 7 on the lamps.
TICKS = """\
; lab80: clock 7 3
        ORG 38H
        INR B
        MOV A,B
        OUT 2
        RET
        ORG 100H
START:  LXI SP,1000H
        MVI B,0
WAIT:   EI
        HLT
        JMP WAIT
        END START
"""

RINGS = "; lab80: bell\n        ORG 100H\nSTART:  MVI A,7\n        OUT 1\n        OUT 1\n        HLT\n        END START\n"

# The row and the column of the character that is reversed.
PEN = """
    const rows = [...document.querySelectorAll('.text-screen > span')];
    const row = rows.findIndex(each => each.querySelector('.reversed'));
    return row < 0 ? null : [row, rows[row].firstChild.textContent.length];"""

# Counts the sounds that the page makes, and notes whether a bell was seen to ring.
SEES_RINGS = """
    window.tones = 0;
    OscillatorNode.prototype.start = () => { ++window.tones; };
    const look = () => { window.seen = window.seen || document.querySelector('.bell.rings') !== null; };
    const what = {subtree: true, childList: true, attributes: true, attributeFilter: ['class']};
    new MutationObserver(look).observe(document.getElementById('devices'), what);"""

# Notes, the devices that they name, in the notes' own words, and what is wrong with them.
NOTES = (
    ("; lab80: matrix 8000H", ["matrix 8000H"], []),
    ("\t;LAB80:Matrix dots , TEXT 0c000h,bell", ["matrix DOTS", "text 0C000H", "bell"], []),
    ("; lab80: text", ["text 8000H"], []),
    ("; lab80: digits\n; lab80: segments\n        HLT ; lab80: bell\n", ["digits lamps 1", "segments lamps 1"], []),
    ("; lab80: digits SCORE 2, digits 3, segments lamps 1, lights",
     ["digits SCORE 2", "digits 3 1", "segments lamps 1", "lights lamps"], []),
    ("; lab80: arrows, arrows keys, arrows SWITCHES, clock, clock 3, clock 2 3",
     ["arrows buttons", "arrows keys", "arrows switches", "clock 7 1", "clock 3 1", "clock 2 3"], []),
    ("; lab80", [], []),
    ("; lab80:", [], []),
    ("; lab80: ,, ,", [], []),
    ("DB '; lab80: bell'", [], []),
    ("; lab80: scren 4", [], ["\u201cscren\u201d is no device; there are text, bitmap, tall, matrix, digits, segments, lights, "
                              "keypad, arrows, clock, bell"]),
    ("; lab80: constructor, __proto__", [], None),
    ("; lab80: matrix lamps", [], ["\u201clamps\u201d can\u2019t follow matrix; what can is an address or a label"]),
    ("; lab80: digits 9A 5", [], ["\u201c5\u201d can\u2019t follow digits; what can is an address or a label, then a number of "
                                  "bytes"]),
    ("; lab80: clock 8", [], ["\u201c8\u201d can\u2019t follow clock; what can is 0 to 7, the button, then 1 to 3, how often a "
                              "second"]),
    ("; lab80: bell 1", [], ["\u201c1\u201d can\u2019t follow bell"]),
    ("; lab80: text <b>, matrix 8000H 8000H", [], None),
    ("; lab80: matrix " + "A" * 32, [], None),
    ("; lab80: " + "bell, " * 9, ["bell"] * 8, ["9 devices are too many; 8 are shown"]),
    ("; lab80: " + "bell, " * 10_000, ["bell"] * 8, None),
    ("; lab80: " + "x" * 100, [], None),
)


def cell(*rows, start=0x8000):
    """A cell that puts bytes into memory, and nothing else."""
    lines = [f"        ORG 0{start:X}H", *("        DB " + ",".join(map(str, row)) for row in rows)]
    return "\n".join([*lines, "        END\n"])


class Notes(unittest.TestCase):
    """The module that reads notes."""

    def test_what_notes_name(self):
        with Browser(free_port()) as browser:
            script = "return texts.map(text => notesOf(text)).map(it => [it.note, it.devices.map(wordsOf), it.faults])"
            texts = [text for text, _, _ in NOTES]
            found = run_with(browser, SPEC / "panel/notes.js", ["notesOf", "wordsOf"], script, texts=texts)
            for (text, devices, faults), (note, named, said) in zip(NOTES, found):
                with self.subTest(text[:60]):
                    self.assertEqual(named, devices)
                    if faults is None:
                        self.assertTrue(said)
                        self.assertLess(max(map(len, said)), 200)
                    else:
                        self.assertEqual(said, faults)
                    self.assertLessEqual(len(note), 500)
            # what is named is read again as it is
            again = [f"; lab80: {', '.join(named)}" for _, named, _ in found]
            twice = run_with(browser, SPEC / "panel/notes.js", ["notesOf", "wordsOf"], script, texts=again)
            self.assertEqual([named for _, named, _ in twice], [named for _, named, _ in found])

    def test_what_was_kept_is_checked(self):
        kept = [None, 3, "bell", [], {}, {"kind": "bell"}, {"kind": "toString"}, {"kind": "matrix"},
                {"kind": "matrix", "place": "<b>"}, {"kind": "matrix", "place": "8000H", "more": 1},
                {"kind": "digits", "place": "lamps", "count": 9},
                {"kind": "digits", "place": "lamps", "count": 2}, {"kind": "clock", "vector": 7, "rate": "3"}]
        with Browser(free_port()) as browser:
            found = run_with(browser, SPEC / "panel/notes.js", ["checked"], "return kept.map(each => checked(each))", kept=kept)
        wanted = {5: {"kind": "bell"}, 9: {"kind": "matrix", "place": "8000H"},
                  11: {"kind": "digits", "place": "lamps", "count": 2}, 12: {"kind": "clock", "vector": 7, "rate": 3}}
        self.assertEqual(found, [wanted.get(at) for at in range(len(kept))])


class DevicePages(Pages):
    """What the tests of devices share."""

    def ready(self):
        page = self.open()
        page.is_in("idle")
        return page

    def runs(self, text):
        """A page on which a program runs."""
        page = self.ready()
        page.run_cell(text)
        page.is_in("running")
        return page

    def waiting(self, text):
        """The same, once the program waits for a button."""
        page = self.runs(text)
        page.shows(page.state, "waits for a button")
        return page

    def resize(self, width, height):
        given = {"width": width, "height": height, "deviceScaleFactor": 1, "mobile": False}
        self.browser.devtools("Emulation.setDeviceMetricsOverride", **given)
        self.addCleanup(self.browser.devtools, "Emulation.clearDeviceMetricsOverride")

    def shows_label(self, page, selector, label):
        page.shows(lambda: page.run(LABEL, selector), label)

    def presses(self, page, vector):
        """Presses a button, which the program has to take."""
        wait_until(lambda: page.ask("boardPress", vector=vector) != "Latched")

    def first_row(self, page):
        """The first row of the matrix, as a number, or None as long as nothing is shown."""
        label = page.run(LABEL, ".matrix")
        return int(label.split()[4], 16) if label else None


class Devices(DevicePages):
    """Which are shown, and what they show."""

    def test_a_program_names_its_devices(self):
        page = self.ready()
        self.assertFalse(page.run(SEEN, "#devices-section"))
        page.run_cell("; lab80: text 8000H, arrows\n        HLT\n        END 0\n")
        page.waits(lambda: page.run(NAMES) == ["Text screen", "Arrows"])
        self.assertTrue(page.run(SEEN, "#devices-section"))
        # a cell without notes leaves them, and another program's replace them
        page.run_cell("        HLT\n        END 0\n")
        page.is_in("idle")
        self.assertEqual(page.run(NAMES), ["Text screen", "Arrows"])
        page.run_cell("; lab80: arrows, bell\n        HLT\n        END 0\n")
        page.waits(lambda: page.run(NAMES) == ["Arrows", "Bell"])
        # another page sees the cell too, and this one has them after a reload
        page.reload()
        page.waits(lambda: page.run(NAMES) == ["Arrows", "Bell"])
        other = self.open_another()
        other.waits(lambda: other.run(NAMES) == ["Arrows", "Bell"])

    def test_wrong_notes_are_explained(self):
        page = self.ready()
        page.run_cell("; lab80: scren <i>, bell\n        HLT\n        END 0\n")
        page.waits(lambda: page.run(NAMES) == ["Bell"])
        self.assertIn("\u201cscren\u201d is no device; there are text,", page.text("#devices-said"))
        self.assertEqual(page.run("return document.querySelectorAll('#devices-section i').length"), 0)
        page.run_cell("; lab80: bell\n        HLT\n        END 0\n")
        page.waits(lambda: page.text("#devices-said") == "")

    def test_what_the_user_chooses_is_kept_for_the_program(self):
        page = self.ready()
        first, second = ("; lab80: bell\n        HLT\n        END 0\n", "; lab80: lights\n        HLT\n        END 0\n")
        page.run_cell(first)
        page.waits(lambda: page.run(NAMES) == ["Bell"])
        page.choose("#add-device", "keypad")
        self.assertEqual(page.run(NAMES), ["Bell", "Keypad"])
        page.click(".of-bell .drop")
        self.assertEqual(page.run(NAMES), ["Keypad"])
        self.assertEqual(page.run("return document.activeElement.getAttribute('aria-label')"), "Remove Keypad")
        page.run_cell(second)
        page.waits(lambda: page.run(NAMES) == ["Traffic lights"])
        # a reload at once, before anything else is kept
        page.run("on('cell', () => { window.isOld = true; location.reload(); })")
        page.run_cell(first)
        page.waits(lambda: page.run("return !window.isOld") and page.run(NAMES) == ["Keypad"])
        page.reload()
        page.waits(lambda: page.run(NAMES) == ["Keypad"])
        page.choose("#add-device", "as named")
        self.assertEqual(page.run(NAMES), ["Bell"])
        page.click(".of-bell .drop")
        self.assertFalse(page.run(SEEN, "#devices-section"))
        self.assertEqual(page.run("return document.activeElement.id"), "add-device")
        # what the browser kept of another form is passed over
        for kept in ('"x"', "[1, [2, 3]]", '[["bell", [{"kind": "bell"}, {"kind": 9}]]]'):
            page.run("localStorage.setItem('lab80 devices', arguments[0])", kept)
            page.reload()
            page.is_in("idle")
        page.run_cell(first)
        page.waits(lambda: page.run(NAMES) == ["Bell"])

    def test_a_place_is_changed_by_hand(self):
        page = self.ready()
        page.run_cell(cell([0x81], [0] * 6, [0xFF]))
        page.is_in("idle")
        page.choose("#add-device", "matrix")
        self.shows_label(page, ".matrix", "Rows from the top: 81 00 00 00 00 00 00 FF")
        for place, shown in (("8007", "FF 00 00 00 00 00 00 00"), ("0FFFCH", None), ("8000h", "81 00 00 00 00 00 00 FF")):
            page.choose(".of-matrix .place", place)
            if shown:
                self.shows_label(page, ".matrix", f"Rows from the top: {shown}")
        page.choose(".of-matrix .place", "NOWHERE")
        page.shows(lambda: page.text(".of-matrix > .note"), "NOWHERE is no address yet")
        page.run_cell("        ORG 8001H\nNOWHERE: DB 3\n        END\n")
        page.shows(lambda: page.text(".of-matrix > .note"), "")
        self.shows_label(page, ".matrix", "Rows from the top: 03 00 00 00 00 00 FF 00")
        page.choose(".of-matrix .place", "1 + 1")
        self.assertEqual(page.run("return document.querySelector('.of-matrix .place').getAttribute('aria-invalid')"), "true")

    def test_what_a_device_does_is_changed_by_hand(self):
        page = self.ready()
        page.run_cell("; lab80: arrows, digits 100H, clock\n        ORG 100H\n        DB 34H,12H\n        END\n")
        self.shows_label(page, ".of-digits .digits", "34")
        page.choose(".of-digits select", "2")
        self.shows_label(page, ".of-digits .digits", "1234")
        self.assertEqual(page.run("return document.activeElement.title"), "How many bytes")
        page.choose(".of-clock select[title='Ticks a second']", "3")
        page.choose(".of-arrows select", "switches")
        self.assertTrue(page.text(".of-arrows .note").startswith("S0 to S4, held up"))
        self.assertEqual(page.run(NAMES), ["Arrows", "Digits", "Clock"])
        page.reload()
        chosen = "return [...document.querySelectorAll('.device select')].map(each => each.value)"
        page.waits(lambda: page.run(chosen) == ["switches", "2", "7", "3"])

    def test_a_screen_of_characters(self):
        page = self.ready()
        rows = [[32] * 64 for _ in range(16)]
        rows[0][:5], rows[15][59:] = b"FIRST", b"LAST!"
        rows[1][:6] = [0, 7, 127, 255, 0x80 | ord("R"), 0x80 | ord("S")]
        text = "; lab80: text SCREEN\nSCREEN  EQU 8000H\n" + cell(*rows)
        page.run_cell(text)
        page.waits(lambda: page.text(".text-screen").startswith("FIRST"))
        shown = page.text(".text-screen").split("\n")
        self.assertEqual([len(line) for line in shown], [64] * 16 + [0])
        self.assertEqual((shown[15][59:], shown[1].strip()), ("LAST!", "RS"))
        self.assertEqual(page.texts(".text-screen .reversed"), [" RS"])
        # all 64 characters are within it, at each width
        fits = "const it = document.querySelector('.text-screen'); return it.scrollWidth <= it.clientWidth"
        for width in (390, 683, 1250):
            self.resize(width, 800)
            self.assertTrue(page.run(fits), width)

    def test_screens_of_dots(self):
        page = self.ready()
        # the first and the last byte of each
        page.run_cell("; lab80: bitmap 4000H, tall 2400H\n        ORG 4000H\n        DB 81H\n        ORG 57FFH\n        DB 3\n"
                      "        ORG 2400H\n        DB 1,0,80H\n        ORG 3FFFH\n        DB 80H\n        END\n")
        self.shows_label(page, ".of-bitmap .dot-screen", "4 of 49152 dots are lit")
        for x, y, colour in ((0, 0, LIT), (1, 0, DARK), (7, 0, LIT), (254, 191, LIT), (255, 191, LIT), (253, 191, DARK)):
            self.assertEqual(page.run(DOT, ".of-bitmap .dot-screen", x, y), colour, (x, y))
        self.shows_label(page, ".of-tall .dot-screen", "3 of 57344 dots are lit")
        for x, y, colour in ((0, 255, LIT), (0, 254, DARK), (0, 232, LIT), (223, 0, LIT)):
            self.assertEqual(page.run(DOT, ".of-tall .dot-screen", x, y), colour, (x, y))

    def test_a_running_program_is_followed(self):
        page = self.runs(TURNS)
        page.waits(lambda: self.first_row(page) is not None)
        seen = set()
        page.waits(lambda: seen.add((self.first_row(page), page.run(LABEL, ".of-digits .digits"))) or len(seen) > 4)
        self.assertTrue(all(row.bit_count() == 1 for row, _ in seen), seen)
        # at the end it shows what is in memory
        page.click("#interrupt")
        page.is_in("idle")
        byte = page.ask("variables", variablesReference=5, start=0x8000, count=2)["variables"]
        wanted = [int(each["value"][:-1], 16) for each in byte]
        page.waits(lambda: (self.first_row(page), page.run(LABEL, ".of-digits .digits")) == (wanted[0], f"{wanted[1]:02X}"))

    def test_digits_and_segments(self):
        page = self.ready()
        labels = "return [...document.querySelectorAll('.device .digits')].map(each => each.getAttribute('aria-label'))"
        page.run_cell("; lab80: digits NUMBER 2, segments NUMBER 2, digits\n        ORG 100H\nSTART:  MVI A,5CH\n        OUT 2\n"
                      "        HLT\nNUMBER: DW 1234H\n        END START\n")
        page.waits(lambda: page.run(labels) == ["1234", "Segments that are lit: cef, be", "5C"])
        self.assertEqual(page.run("return document.querySelectorAll('.of-segments .on').length"), 5)

    def test_traffic_lights(self):
        page = self.ready()
        page.choose("#add-device", "lights")
        labels = "return [...document.querySelectorAll('.lights svg')].map(each => each.getAttribute('aria-label'))"
        for byte, wanted, said in (
                (0b01001100, ["First road: green", "Second road: red", "Walkers: red"], ""),
                (0b00100100, ["First road: green", "Second road: green", "Walkers: dark"], "Two of them are green: a crash"),
                (0b10011001, ["First road: red", "Second road: red and yellow", "Walkers: green"], "")):
            page.run_cell(f"        MVI A,{byte}\n        OUT 2\n        HLT\n        END 0\n")
            page.waits(lambda: page.run(labels) == wanted)
            self.assertEqual(page.text(".lights .note"), said)
        # the letters say the colours too
        self.assertEqual(page.texts(".light.on text"), ["R", "R", "Y", "walk"])

    def test_how_it_looks(self):
        """At all widths: nothing is beside the page, keys are large enough for a finger, small texts can be read."""
        page = self.ready()
        page.run_cell("; lab80: text 8000H, matrix 8000H, digits, lights, keypad, arrows, clock, bell\n" + cell(b"HELLO"))
        page.waits(lambda: page.text(".text-screen").startswith("HELLO"))
        self.addCleanup(self.browser.prefer, "light")
        for scheme in ("light", "dark"):
            self.browser.prefer(scheme)
            for width in (360, 390, 480, 683, 1366):
                self.resize(width, 844)
                self.assertLessEqual(page.run(TOO_WIDE), 1, width)
                if width < 760:
                    self.assertEqual(page.run(SMALL), [], width)
            for selector in (".device h3 span", ".of-arrows .note", ".clock output", ".bell-device p", ".text-screen",
                             ".lights figcaption"):
                self.assertGreaterEqual(page.run(CONTRAST, selector), 4.5, (scheme, selector))
            page.browser.devtools("Emulation.clearDeviceMetricsOverride")
            page.picture(f"panel-devices-{scheme}", 1366, 1000)
        unnamed = """
            return [...document.querySelectorAll('#devices-section :is(button, input, select)')]
                .filter(each => !each.textContent.trim() && !each.getAttribute('aria-label') && !each.closest('label')).length;"""
        self.assertEqual(page.run(unnamed), 0)

    def test_beside_a_notebook_what_a_lesson_speaks_of_stays_first(self):
        self.kernel = self.server.start_kernel("lab80")
        page = self.open(self.kernel)
        self.browser.open(self.server.page("lab80", "panel.html", kernel=self.kernel, beside=1))
        page.is_in("idle")
        page.choose("#add-device", "text")
        self.resize(683, 660)
        bottoms = [page.run("return document.querySelector(arguments[0]).getBoundingClientRect().bottom", selector)
                   for selector in ("#registers", "#flags", "#lamps")]
        self.assertLess(max(bottoms), 660)


class Keys(DevicePages):
    """The keypad, the arrows, the clock and the bell."""

    def hits(self, page, selector, number=0):
        """Presses a key with the mouse."""
        page.browser.ask("POST", f"/element/{self.found(page, selector, number)}/click")

    def found(self, page, selector, number):
        page.run("document.querySelectorAll(arguments[0])[arguments[1]].setAttribute('data-hit', '')", selector, number)
        found = page.browser.find("[data-hit]")
        page.run("document.querySelector('[data-hit]').removeAttribute('data-hit')")
        return found

    def test_the_keypad_types(self):
        page = self.runs(ECHOES)
        page.choose("#add-device", "keypad")
        self.hits(page, ".keypad button", 0)
        page.prints("1")
        page.browser.type("2aC")
        page.prints("12AC")
        # by a key of the keyboard, the button with the focus
        page.run("document.querySelectorAll('.keypad button')[13].focus()")
        page.browser.key(" ")
        page.prints("12AC0")
        # keys that are pressed quickly come in order, and none is lost
        page.browser.type("0123456789" * 2)
        page.prints("12AC0" + "0123456789" * 2)

    def test_arrows_press_buttons(self):
        page = self.waiting(DOTS)
        self.hits(page, ".arrows button", 2)
        page.waits(lambda: self.first_row(page) == 0b00100)
        page.browser.key(RIGHT)
        page.waits(lambda: self.first_row(page) == 0b01100)
        page.browser.key(UP)
        page.waits(lambda: self.first_row(page) == 0b01101)
        page.browser.key(" ")
        page.waits(lambda: self.first_row(page) == 0b11101)
        page.browser.key(ARROW_DOWN)
        page.waits(lambda: self.first_row(page) == 0b11111)
        self.assertEqual(page.run("return scrollY"), 0)
        # the key with the focus, by Enter: that on the left
        page.browser.key("\ue007")
        page.waits(lambda: self.first_row(page) == 0b11011)
        # and it says so if the program takes none
        page.click("#interrupt")
        page.is_in("idle")
        page.run_cell(DEAF)
        page.is_in("running")
        for _ in range(2):
            page.run("document.querySelector('.arrows button').click()")
        said = "The program hasn\u2019t taken the button that was pressed before"
        page.shows(lambda: page.text(".of-arrows [role=status]"), said)

    def test_arrows_type(self):
        page = self.runs("; lab80: arrows keys\n" + ECHOES)
        page.waits(lambda: page.run(NAMES) == ["Arrows"])
        page.run("document.querySelector('.arrows button').focus()")
        page.browser.type([UP, LEFT, ARROW_DOWN, RIGHT, " ", "w"])
        page.prints("WASD W")

    def test_arrows_hold_switches(self):
        page = self.runs("; lab80: arrows switches\n" + DEAF)
        page.waits(lambda: page.run(NAMES) == ["Arrows"])
        page.flip(7)
        sends = "document.querySelectorAll('.arrows button')[1].dispatchEvent(new PointerEvent('pointer{}', {{button: 0}}))"
        down, up = sends.format("down"), sends.format("up")
        page.run(down)
        page.waits(lambda: page.switches() == "10000010" == page.lamps())
        page.run(up)
        page.waits(lambda: page.switches() == "10000000" == page.lamps())
        # a key that is held while the focus goes elsewhere comes up
        page.run("document.querySelector('.arrows button').focus()")
        page.run("document.activeElement.dispatchEvent(new KeyboardEvent('keydown', {key: 'ArrowUp', bubbles: true}))")
        page.waits(lambda: page.switches() == "10000001")
        page.run("document.getElementById('cell').focus()")
        page.waits(lambda: page.switches() == "10000000")

    def test_a_clock_ticks_while_a_program_runs(self):
        page = self.waiting(TICKS)
        time.sleep(1)
        self.assertEqual((page.lamps(), page.text(".clock output")), ("00000000", "0 ticks"))
        page.click(".clock button")
        self.assertEqual(page.text(".clock button"), "Stop")
        page.waits(lambda: int(page.lamps(), 2) >= 3)
        self.assertEqual(page.state(), "waits for a button")
        page.click(".clock button")
        page.waits(lambda: page.text(".clock button") == "Start")
        page.waits(lambda: int(page.lamps(), 2) == int(page.text(".clock output").split()[0]))
        # it rests at the end of a run, and stops where a program takes none of its presses
        page.click(".clock button")
        page.click("#interrupt")
        page.is_in("idle")
        page.run_cell(DEAF)
        page.is_in("running")
        page.shows(lambda: page.text(".of-clock [role=status]"), "The program doesn\u2019t take RST 7: the clock has stopped")

    def test_a_clock_ends_with_its_device(self):
        page = self.waiting(TICKS)
        page.run(WATCHED)
        page.click(".clock button")
        page.waits(lambda: "boardPress" in page.run("return told.commands"))
        page.click(".of-clock .drop")
        time.sleep(0.5)
        page.run("told.commands = []")
        time.sleep(1.5)
        self.assertNotIn("boardPress", page.run("return told.commands"))

    def test_a_bell_is_heard_and_seen(self):
        page = self.ready()
        page.run(SEES_RINGS)
        page.run_cell(RINGS)
        page.shows(lambda: page.run("const it = document.querySelector('.bell-device p'); return it && it.textContent"),
                   "It has rung 2 times")
        self.assertTrue(page.run("return window.seen"))
        self.assertFalse(page.run("return document.querySelector('.bell').classList.contains('rings')"))
        # both at once are one sound
        self.assertEqual(page.run("return window.tones"), 1)
        page.click(".bell-device input")
        page.run_cell(RINGS.replace("MVI A,7", "MVI A,07H"))
        page.shows(lambda: page.text(".bell-device p"), "It has rung 4 times")
        self.assertEqual(page.run("return window.tones"), 1)
        page.reload()
        page.waits(lambda: page.run("return document.querySelector('.bell-device input').checked") is False)

    def test_who_wants_no_motion_has_none(self):
        page = self.ready()
        for device in ("bell", "clock"):
            page.choose("#add-device", device)
        page.run("document.querySelector('.bell').classList.add('rings'); document.querySelector('.hand').classList.add('tock')")
        style = "const it = getComputedStyle(document.querySelector(arguments[0])); return it[arguments[1]]"
        self.assertEqual(page.run(style, ".bell", "animationName"), "rings")
        self.browser.devtools("Emulation.setEmulatedMedia", features=[{"name": "prefers-reduced-motion", "value": "reduce"}])
        self.addCleanup(self.browser.devtools, "Emulation.setEmulatedMedia", features=[])
        moves = [page.run(style, ".bell", "animationName"), page.run(style, ".hand", "transform"),
                 page.run(style, ".hand", "transitionDuration")]
        self.assertEqual(moves, ["none", "none", "0s"])
        # it is seen to ring all the same
        self.assertNotEqual(page.run(style, ".bell", "borderColor"), "rgba(0, 0, 0, 0)")


class Cost(DevicePages):
    """What the devices' looks cost: each uses some of the kernel's journal."""

    def watched(self, text):
        """A page with a program that runs, of which the commands are counted."""
        page = self.ready()
        page.run(WATCHED)
        page.run_cell(text)
        page.is_in("running")
        page.waits(lambda: page.run("return told.looked > 0 && !lookState.isStale && !lookState.isUnderWay"))
        return page

    def sent(self, page, seconds):
        """How many pieces of memory the page asks for, and how often it presses, in this time; how long it was is in `took`."""
        page.run("told.commands = []")
        began = time.monotonic()
        time.sleep(seconds)
        commands = page.run("return told.commands")
        self.took = time.monotonic() - began
        return commands.count("variables 5"), commands.count("boardPress")

    def test_what_moves_is_looked_at_four_times_a_second(self):
        """A matrix and digits that are near each other are one request."""
        page = self.watched(TURNS)
        looks, _ = self.sent(page, 5)
        self.assertLessEqual(looks, self.took * 4 + 2)
        page.waits(lambda: page.run("return told.commands").count("variables 5") > looks + 3)

    def test_what_stays_is_looked_at_less_often(self):
        """The four pieces of a screen of characters, of which one changes."""
        page = self.watched(TURNS.replace("matrix 8000H, digits 8001H", "text 8000H"))
        time.sleep(6)
        looks, _ = self.sent(page, 6)
        self.assertLessEqual(looks, self.took * (4 + 3 * 0.5) + 4)

    def test_in_the_long_run_it_is_three_requests_a_second(self):
        page = self.watched(TURNS)
        page.run("allowedLooks.count = 0")
        looks, _ = self.sent(page, 8)
        self.assertLessEqual(looks, self.took * 3 + 2)
        seen = set()
        page.waits(lambda: seen.add(self.first_row(page)) or len(seen) > 3)

    def test_a_program_that_waits_costs_nothing(self):
        """But for a look every five seconds, and two or three after a press."""
        page = self.watched(DOTS)
        page.shows(page.state, "waits for a button")
        time.sleep(2)
        looks, _ = self.sent(page, 6)
        self.assertLessEqual(looks, 3)
        page.press(1)
        looks, _ = self.sent(page, 4)
        self.assertLessEqual(looks, 5)
        self.assertEqual(self.first_row(page), 1)

    def test_a_page_that_does_not_follow_looks_at_nothing(self):
        page = self.watched(TURNS)
        page.click("#follow")
        time.sleep(1)
        self.assertEqual(self.sent(page, 3)[0], 0)

    def test_nothing_is_sent_while_nothing_runs_or_nobody_looks(self):
        page = self.watched(TURNS)
        page.browser.ask("POST", "/window/minimize")
        page.waits(lambda: page.run("return document.hidden"))
        page.waits(lambda: self.sent(page, 1)[0] == 0)
        self.assertEqual(self.sent(page, 2)[0], 0)
        page.browser.size(1250, 1130)
        page.waits(lambda: not page.run("return document.hidden"))
        page.click("#interrupt")
        page.is_in("idle")
        page.waits(lambda: self.sent(page, 1)[0] == 0)
        self.assertEqual(self.sent(page, 3)[0], 0)

    def test_a_clock_presses_as_often_as_it_says(self):
        page = self.watched(TICKS)
        page.shows(page.state, "waits for a button")
        page.click(".clock button")
        time.sleep(1)
        page.run("told.commands = []")
        began = time.monotonic()
        time.sleep(5)
        commands = page.run("return told.commands")
        took = time.monotonic() - began
        self.assertLessEqual(commands.count("boardPress"), took * 3 + 2)
        # and the page looks at the board as at a program that runs
        self.assertLessEqual(len(commands), took * (3 + 5) + 4, commands)
        page.browser.ask("POST", "/window/minimize")
        page.waits(lambda: page.run("return document.hidden"))
        page.waits(lambda: self.sent(page, 1)[1] == 0)

    def test_presses_lead_to_no_looks_at_all_of_the_board_elsewhere(self):
        """Another page follows the run, as before."""
        page = self.watched(DOTS)
        page.shows(page.state, "waits for a button")
        other = self.open_another()
        other.is_in("running")
        page.run("told.commands = []")
        for vector in (1,) * 8 + (2,):
            self.presses(other, vector)
            time.sleep(0.25)
        page.waits(lambda: self.first_row(page) == 2)
        commands = page.run("return told.commands")
        self.assertNotIn("debugInfo", commands)
        self.assertLess(len(commands), 60, commands)

    def test_a_held_key_floods_nothing(self):
        page = self.watched(DOTS)
        page.shows(page.state, "waits for a button")
        page.run("told.commands = []")
        page.run("""
            const key = document.querySelector('.arrows button');
            for (let count = 0; count < 200; ++count) {
                key.dispatchEvent(new KeyboardEvent('keydown', {key: 'ArrowUp', bubbles: true, repeat: count > 0}));
            }
            for (let count = 0; count < 200; ++count) key.click();""")
        time.sleep(2)
        self.assertLess(page.run("return told.commands").count("boardPress"), 6)


class Examples(DevicePages):
    """The panel's examples that use devices."""

    FILES = {"Traffic lights": "traffic", "A keypad and digits": "keypad", "Drawing on a screen": "drawing",
             "Triangles of dots": "triangles"}

    def example(self, name):
        """A page on which an example was run."""
        page = self.ready()
        page.waits(lambda: page.texts("#examples option")[1:])
        page.choose("#examples", str(page.texts("#examples option").index(name) - 1))
        page.click("#run")
        return page

    def test_they_are_files_too(self):
        with open(os.path.join(HERE, "..", "kernelspec", "examples.json"), encoding="utf-8") as file:
            texts = {each["name"]: "\n".join(each["lines"]) + "\n" for each in json.load(file)}
        for name, file in self.FILES.items():
            self.assertEqual((TOP / f"examples/{file}.asm").read_text(encoding="utf-8"), texts[name])

    def test_traffic_lights(self):
        page = self.example("Traffic lights")
        lamps = ["01001100", "01001010", "01001001", "01011001", "01100001", "01010001", "01001001"]
        ticks = [4, 1, 1, 1, 4, 1, 1]
        page.waits(lambda: page.state() == "waits for a button" and page.lamps() == lamps[0])
        self.assertEqual(page.run(NAMES), ["Traffic lights", "Clock", "Bell"])
        for lit, count in zip(lamps[1:] + lamps[:1], ticks):
            for _ in range(count):
                self.presses(page, 7)
            page.shows(page.lamps, lit)
        # who wants to walk may when both roads are red
        page.press(1)
        for _ in range(sum(ticks)):
            self.presses(page, 7)
        page.shows(page.lamps, "10001001")
        page.shows(lambda: page.text(".bell-device p"), "It has rung once")
        for _ in range(4):
            self.presses(page, 7)
        page.shows(page.lamps, lamps[0])
        page.picture("panel-lights", 1366, 900)
        page.click("#interrupt")
        page.is_in("idle")

    def test_a_keypad_and_digits(self):
        page = self.example("A keypad and digits")
        page.waits(lambda: page.run(NAMES) == ["Keypad", "Digits", "Bell"])
        self.shows_label(page, ".of-digits .digits", "0000")
        page.run("document.querySelector('.keypad button').focus()")
        for typed, shown in (("80", "0080"), ("55", "8055"), ("E", "0000"), ("12345", "2345")):
            page.browser.type(typed)
            self.shows_label(page, ".of-digits .digits", shown)
        page.browser.type("a")
        page.shows(lambda: page.text(".bell-device p"), "It has rung once")
        page.click("#interrupt")
        page.is_in("idle")

    def test_drawing_on_a_screen(self):
        page = self.example("Drawing on a screen")
        page.waits(lambda: page.state() == "waits for a button" and page.texts(".text-screen .reversed") == ["*"])
        page.run("document.querySelector('.arrows button').focus()")
        rows = [" " * 64] * 16

        def drawn():
            return page.text(".text-screen").split("\n")[:16]

        moves = [(RIGHT, 8, 33), (RIGHT, 8, 34), (ARROW_DOWN, 9, 34), (LEFT, 9, 33), (UP, 8, 33)]
        for key, row, column in moves:
            page.browser.key(key)
            page.waits(lambda place=[row, column]: page.run(PEN) == place)
        wanted = [list(row) for row in rows]
        for row, column in ((8, 32), (8, 33), (8, 34), (9, 34), (9, 33)):
            wanted[row][column] = "*"
        page.shows(drawn, ["".join(row) for row in wanted])
        page.picture("panel-drawing", 1366, 1000)
        page.click("#interrupt")
        page.is_in("idle")

    def test_triangles_of_dots(self):
        page = self.example("Triangles of dots")
        page.is_in("idle")
        rows, row = [], 1
        for _ in range(192):
            rows.append(row)
            row ^= row << 1 & (1 << 256) - 1
        self.shows_label(page, ".dot-screen", f"{sum(row.bit_count() for row in rows)} of 49152 dots are lit")
        for y in (0, 1, 100, 191):
            for x in (0, 64, 200, 255):
                colour = LIT if rows[y] >> 255 - x & 1 else DARK
                self.assertEqual(page.run(DOT, ".dot-screen", x, y), colour, (x, y))
        page.picture("panel-triangles", 1366, 1000)
