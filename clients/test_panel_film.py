"""The front panel's timeline over the stops, the explanation of a step, and films of a run: how they are made, what plays them
anywhere, and which are refused."""
import json
import os
import re
import tempfile
import unittest
from pathlib import Path

from browser import ESCAPE, TAB, wait_until
from modules import TOP
from panel_page import PICTURES, SAVES, keep_picture
from panel_tests import Pages
from test_panel import CALLS
from test_panel_beside import CONTRAST, PLACE, SMALL
from test_panel_programs import DROP, OPEN

HOME, END, LEFT, RIGHT = "\ue011", "\ue010", "\ue012", "\ue014"

# Adds, stores, prints, lights the lamps and ends, by each way to memory.
ADDS = """\
; Adds <b>two</b> numbers.
        ORG 100H
START:  LXI SP,1000H
        MVI A,9AH
        MVI B,70H
        ADD B
        STA SUM
        LXI H,SUM
        INR M
        PUSH PSW
        CALL SHOW
        HLT
SHOW:   OUT 2
        ADI '0'
        OUT 1
        RET
SUM:    DB 0
        END START
"""

# What the steps through it are explained by, from the second stop on.
EXPLAINED = [
    "LXI SP,01000H: SP gets 1000H",
    "MVI A,09AH: A gets 9AH",
    "MVI B,070H: B gets 70H",
    "ADD B: 9AH + 70H = 10AH, so A gets 0AH",
    "STA SUM: the byte at 011BH gets 0AH from A",
    "LXI H,SUM: HL gets 011BH",
    "INR M: the byte at 011BH: 0AH + 1 = 0BH",
    "PUSH PSW: 0A03H, which is PSW, goes to the stack at 0FFEH",
    "CALL SHOW: goes to 0114H, with the return address 0113H on the stack",
    "OUT 002H: port 2, the lamps, gets 0AH from A",
    "ADI 030H: 0AH + 30H = 3AH",
    "OUT 001H: port 1, the console, gets 3AH from A",
    "RET: goes back to 0113H, the word on the stack",
]

# The films that are kept: where each is, its program, and how many steps it has.
KEPT = {
    "docs/film.html": ("""\
; Adds two numbers, and shows the sum.
        ORG 100H
START:  LXI SP,1000H
        MVI A,38H
        MVI B,2BH
        ADD B
        CALL SHOW
        HLT
SHOW:   OUT 2           ; the lamps
        ANI 0FH
        ADI '0'
        OUT 1           ; the console
        RET
        END START
""", 10),
    "lessons/06-calls-film.html": ("""\
; A routine that calls another one.
        ORG 100H
START:  LXI SP,1000H
        MVI B,5
        CALL OUTER
        HLT
OUTER:  PUSH B
        MVI B,1
        CALL INNER
        POP B           ; 5 again
        RET
INNER:  INR B
        RET
        END START
""", 10),
}
MOST_KEPT = 40 << 10
HELD = re.compile(r"<script type=\"application/json\" id=\"film\">\n(.*)\n</script>", re.S)

WHY = "return [...document.querySelectorAll('#why-result, #why-flags li')].map(each => each.textContent.trim())"
OPENED = "return document.getElementById('film-dialog').open"

# The player of a film, in the page or in a file.
FIND = "const host = document.getElementById('film-dialog') ? document.getElementById('film') : document.querySelector('main'); "
PART = FIND + "const part = host.shadowRoot.querySelector(arguments[0]); return part && part.textContent"
PARTS = FIND + "return [...host.shadowRoot.querySelectorAll(arguments[0])].map(each => each.textContent)"
PRESS = FIND + "host.shadowRoot.querySelector(arguments[0]).click()"
MOVE = FIND + """
    const field = host.shadowRoot.querySelector('.at');
    field.value = arguments[0];
    field.dispatchEvent(new Event('input'));"""

# The errors of a page's own policy, and of its scripts.
WATCHES = """
    window.faults = [];
    addEventListener('securitypolicyviolation', event => faults.push(event.violatedDirective));
    addEventListener('error', event => faults.push(event.message));"""


class Stepped(Pages):
    def stepped(self, text, count=None):
        """A page with a program, after a number of steps by instruction, or as many as there are explanations above."""
        page = self.open()
        page.is_in("idle")
        page.run("setCell(arguments[0])", text)
        page.click("#run-stopped")
        page.waits(lambda: page.state() == "stopped: breakpoint" and page.line())
        page.waits(lambda: page.breakpoints() == [])
        page.choose("#granularity", "instruction")
        for done in range(len(EXPLAINED) if count is None else count):
            page.command("stepIn")
            page.waits(lambda done=done: len(page.texts("#trace tbody tr")) == done + 2 and page.state() == "stopped: step")
        return page


class Timeline(Stepped):
    VALUE = "const {value, max} = document.getElementById('timeline'); return [Number(value), Number(max)]"
    SAID = "return document.getElementById('timeline').getAttribute('aria-valuetext')"

    def test_a_slider_over_the_stops(self):
        page = self.stepped(ADDS)
        last = len(EXPLAINED)
        self.assertEqual((page.run(self.VALUE), page.text("#moment")), ([last, last], "now"))
        self.assertFalse(page.run("return document.getElementById('to-now').checkVisibility()"))
        page.run("document.getElementById('timeline').focus()")
        page.browser.key(HOME)
        self.assertEqual((page.run(self.VALUE), page.text("#past-shown"), page.line()), ([0, last], f"{last} stops ago", 3))
        for _ in range(5):
            page.browser.key(RIGHT)
        # registers, bytes and lamps are those of then, and the machine stays where it is
        self.assertEqual((page.line(), page.registers()["A"], page.registers()["PC"]), (8, "0A", "010B"))
        self.assertEqual(page.run(self.SAID), "8 stops ago: stop 6, 010BH LXI H,SUM, changed: 011B 00 to 0A")
        self.assertEqual(page.lamps(), "00000000")
        self.assertEqual(page.text("#to-now"), "As it was 8 stops ago. Back to now")
        self.assertTrue(page.run("return document.querySelector('[data-command=stepIn]').disabled"))
        registers = {it["name"]: it["value"] for it in page.ask("variables", variablesReference=1)["variables"]}
        self.assertEqual(registers["PC"], "00113H")
        # one key leads back, from anywhere
        page.run("document.body.focus(); document.activeElement.blur()")
        page.browser.key(ESCAPE)
        self.assertEqual((page.run(self.VALUE), page.text("#moment"), page.registers()["PC"]), ([last, last], "now", "0113"))
        self.assertEqual(page.lamps(), "00001010")
        # but not from a field that it leaves
        page.run("document.getElementById('timeline').focus()")
        page.browser.key(LEFT)
        page.run("document.getElementById('cell').focus()")
        page.browser.key(ESCAPE)
        self.assertEqual(page.text("#moment"), "1 stop ago")
        page.click("#to-now")
        self.assertEqual(page.text("#moment"), "now")

    def test_after_the_run_now_is_behind_the_last_stop(self):
        page = self.stepped(ADDS, 2)
        page.command("continue")
        page.is_in("idle")
        page.waits(lambda: page.run(self.VALUE) == [3, 3])
        page.run("document.getElementById('timeline').focus()")
        page.browser.key(LEFT)
        self.assertEqual((page.text("#moment"), page.line(), page.registers()["A"]), ("1 stop ago", 5, "9A"))
        page.browser.key(END)
        self.assertEqual((page.text("#moment"), page.registers()["A"]), ("now", "3A"))
        page.click("#trace-clear")
        self.assertFalse(page.run("return document.getElementById('timeline').checkVisibility()"))

    def test_it_stays_over_a_reload(self):
        page = self.stepped(ADDS, 6)
        page.reload()
        page.waits(lambda: page.run(self.VALUE) == [6, 6])
        page.run("document.getElementById('timeline').focus()")
        page.browser.key(LEFT)
        self.assertEqual(page.run(self.SAID), "1 stop ago: stop 6, 010BH LXI H,SUM, changed: 011B 00 to 0A")


class Explained(Stepped):
    def test_each_step_is_explained(self):
        page = self.stepped(ADDS, 0)
        self.assertEqual(page.run(WHY), ["Steps are explained here, each with its numbers"])
        for number, wanted in enumerate(EXPLAINED):
            page.command("stepIn")
            page.waits(lambda number=number: len(page.texts("#trace tbody tr")) == number + 2)
            page.shows(lambda: page.run(WHY)[0], wanted)
        page.run("document.getElementById('timeline').focus()")
        for _ in range(len(EXPLAINED) - 4):
            page.browser.key(LEFT)
        self.assertEqual(page.run(WHY), [
            EXPLAINED[3], "S is 0: bit 7 of 0AH is 0", "Z is 0: 0AH isn't zero",
            "AC is 0: the low digits AH + 0H = AH: no carry to the high digit",
            "P is 1: 0AH is 00001010 in binary, with 2 one bits, an even number", "CY is 1: 10AH is above FFH"])
        # it is one line until it is opened, and stays as it was left
        self.assertFalse(page.run("return document.getElementById('why-flags').checkVisibility()"))
        page.click("#why-result")
        self.assertTrue(page.run("return document.getElementById('why-flags').checkVisibility()"))
        page.picture("panel-why", 1140, 890)
        page.reload()
        page.waits(lambda: page.run("return document.getElementById('why').open"))

    def test_what_isnt_one_instruction_isnt_explained(self):
        page = self.stepped(ADDS, 1)
        page.choose("#granularity", "line")
        page.to_line(9)
        page.stops("breakpoint", 9)
        page.waits(lambda: page.run(WHY) == ["Not explained: not one instruction alone led here from the stop before"])
        page.command("stepIn")
        page.shows(lambda: page.run(WHY)[0], EXPLAINED[6])

    def test_an_interrupt_is_explained(self):
        page = self.stepped("        ORG 100H\nSTART:  LXI SP,1000H\n        EI\n        NOP\n        HLT\n        END START\n", 3)
        page.press(2)
        page.command("stepIn")
        page.waits(lambda: page.registers()["PC"] == "0010")
        page.shows(lambda: page.run(WHY)[0], "Interrupt: a button asked for RST 2, which goes to 0010H, with the return address 0105H on "
                                             "the stack. Interrupts are off")


class Film(Stepped):
    def filmed(self, text=ADDS, count=None):
        """A page after some steps, with the name and the text of the film that it saves."""
        page = self.stepped(text, count)
        page.run(SAVES)
        return page, *self.save(page)

    def save(self, page):
        page.run("window.saved = []")
        page.click("#film-save")
        return page.waits(lambda: page.run("return window.saved[0]"))

    def play(self, text):
        """Opens a film's file, alone in a folder, in a window of its own. Returns the browser."""
        folder = self.enterContext(tempfile.TemporaryDirectory())
        path = os.path.join(folder, "film.html")
        with open(path, "w", encoding="utf-8", newline="") as file:
            file.write(text)
        self.browser.new_window()
        self.browser.open("file://" + path)
        wait_until(lambda: self.browser.run("return document.readyState") == "complete"
                   and self.browser.run("return document.querySelector('h1') !== null"))
        return self.browser

    def test_a_film_plays_alone(self):
        page, name, text = self.filmed()
        self.assertEqual(name, "adds-b-two-b-numbers.html")
        self.assertLess(len(text), 60_000)
        # it has no address but the empty one of its icon, and nothing of the page's
        self.assertEqual(re.findall(r"(?:src|href)=\"([^\"]*)\"", text), ["data:,"])
        self.assertNotRegex(text, r"https?:|\bimport\b|fetch\(|localhost|127\.0\.0\.1")
        self.assertRegex(text, r"<meta http-equiv=\"Content-Security-Policy\" content=\"default-src 'none'; script-src 'nonce-\w{32}'")
        browser = self.play(text)
        self.assertEqual(browser.run("return [document.title, document.querySelector('h1').textContent, document.links.length]"),
                         ["Adds <b>two</b> numbers, 14 moments"] * 2 + [0])
        self.assertEqual(browser.run(PART, ".told"), "Moment 1 of 14, stop 1, line 3, before LXI SP,01000H.")
        browser.run(MOVE, 6)
        self.assertEqual(browser.run(PART, ".now"), "9        INR M")
        browser.run(MOVE, 4)
        self.assertEqual(browser.run(PART, ".told"),
                         "Moment 5 of 14, stop 5, line 7, before STA SUM. One instruction after the moment before. "
                         "Since the moment before: A from 9A to 0A, P from 0 to 1, CY from 0 to 1.")
        self.assertEqual(browser.run(PARTS, ".reasons li")[0], EXPLAINED[3])
        self.assertEqual(browser.run(PART, "[data-name=A]"), "0A")
        self.assertEqual(browser.run(PARTS, ".registers .new"), ["0A", "1", "1"])
        browser.run(PRESS, ".after")
        self.assertEqual(browser.run(PARTS, ".changes .mono"), ["011B 00\u21920A"])
        self.assertEqual(browser.run(PARTS, ".seen .new"), ["0A"])
        browser.run(MOVE, 13)
        self.assertEqual((browser.run(PART, ".output"), browser.run(PART, ".lights .mono")), (":", "0AH, switches 00H"))
        browser.run(MOVE, 10)
        self.assertEqual((browser.run(PART, ".output"), browser.run(PART, ".stack .mono")), ("", "SHOW \u2190 main"))
        self.assertEqual(browser.run(PARTS, ".text b"), [])
        self.assertEqual(browser.run("return performance.getEntriesByType('resource').map(each => each.name)"), [])
        self.keep(browser)

    def keep(self, browser):
        for scheme in ("light", "dark"):
            browser.prefer(scheme)
            keep_picture(browser, f"film-{scheme}")
        browser.prefer("light")

    def test_keys_and_playing(self):
        _, _, text = self.filmed(count=4)
        browser = self.play(text)
        place = FIND + "return host.shadowRoot.querySelector('.count').textContent"
        for key, wanted in ((RIGHT, "2 of 5"), (RIGHT, "3 of 5"), (LEFT, "2 of 5"), (END, "5 of 5"), (RIGHT, "5 of 5"), (HOME, "1 of 5")):
            browser.key(key)
            self.assertEqual(browser.run(place), wanted)
        chosen = FIND + "return host.shadowRoot.querySelector('.rate').value"
        for _ in range(5):
            browser.key("+")
        self.assertEqual(browser.run(chosen), "20")
        browser.key(" ")
        wait_until(lambda: browser.run(place) == "5 of 5" and browser.run(PART, ".play") == "Play")
        # from the end it begins anew
        browser.key("-")
        browser.run(PRESS, ".play")
        self.assertEqual(browser.run(PART, ".play"), "Pause")
        self.assertEqual(browser.run(FIND + "return host.shadowRoot.querySelector('.told').getAttribute('aria-live')"), "off")
        wait_until(lambda: browser.run(place) == "5 of 5" and browser.run(PART, ".play") == "Play")
        # all moments as text
        browser.run(PRESS, ".all summary")
        rows = wait_until(lambda: browser.run(PARTS, ".all li"))
        self.assertEqual(len(rows), 5)
        self.assertTrue(rows[4].startswith("Moment 5 of 5, stop 5, line 7, before STA SUM."), rows[4])
        self.assertIn("CY is 1: 10AH is above FFH", rows[4])
        names = FIND + """return [...host.shadowRoot.querySelectorAll('button, input, select')].map(each =>
            each.getAttribute('aria-label') || each.textContent)"""
        self.assertEqual(browser.run(names), ["Play", "Moment before", "Moment after", "Moment", "Speed"])

    def test_the_end_of_a_run_and_what_a_film_doesnt_show(self):
        page = self.stepped(ADDS, 2)
        page.command("continue")
        page.is_in("idle")
        page.run(SAVES)
        _, text = self.save(page)
        browser = self.play(text)
        browser.run(MOVE, 3)
        self.assertTrue(browser.run(PART, ".told").startswith("Moment 4 of 4. The run has ended. Since the moment before: A from 9A to 3A"),
                        browser.run(PART, ".told"))
        self.assertEqual((browser.run(PART, ".output"), browser.run(PART, ".lights .mono")), (":", "0AH, switches 00H"))
        self.assertIn("What ran between two stops isn't in it, nor memory that the page didn't look at.",
                      " ".join(browser.run(PARTS, ".note")))

    def test_a_run_over_several_instructions_says_so(self):
        page = self.stepped(ADDS, 1)
        page.to_line(8)
        page.stops("breakpoint", 8)
        page.run(SAVES)
        _, text = self.save(page)
        browser = self.play(text)
        browser.run(MOVE, 2)
        self.assertIn("Other instructions may have run since the moment before.", browser.run(PART, ".told"))
        self.assertEqual(browser.run(PARTS, ".reasons li"), ["nothing"])

    def test_a_film_of_stops_before_a_reload(self):
        page = self.stepped(ADDS)
        page.reload()
        page.waits(lambda: len(page.texts("#trace tbody tr")) == len(EXPLAINED) + 1)
        page.run(SAVES)
        _, text = self.save(page)
        browser = self.play(text)
        browser.run(MOVE, 13)
        self.assertEqual(browser.run(PART, ".output"), "What was printed up to here isn't in the film.")
        self.assertIn("RET", browser.run(PARTS, ".reasons li")[0])

    def test_a_film_is_opened_by_the_page(self):
        page, name, text = self.filmed()
        page.run("setCell('; mine\\n')")
        for how in (OPEN, DROP):
            page.run(how, name, text)
            page.waits(lambda: page.run(OPENED))
            self.assertEqual(page.text("#film-title"), "Adds <b>two</b> numbers, 14 moments")
            page.run(MOVE, 4)
            self.assertEqual(page.run(PARTS, ".reasons li")[0], EXPLAINED[3])
            # the board and the cell stay as they are
            self.assertEqual((page.registers()["PC"], page.run("return document.getElementById('cell').value")), ("0113", "; mine\n"))
            page.picture("panel-film", 1140, 890)
            page.browser.key(ESCAPE)
            page.waits(lambda: not page.run(OPENED))
        page.run(OPEN, name, text)
        page.waits(lambda: page.run(OPENED))
        page.click("#film-program")
        page.waits(lambda: page.run("return document.getElementById('cell').value") == ADDS)
        self.assertFalse(page.run(OPENED))
        # what was there is a draft
        page.waits(lambda: any("mine" in each for each in page.texts("#drafts option")))

    def test_the_films_that_readme_and_a_lesson_have(self):
        """They are what the page makes of their programs, and play to their ends. LAB80_PICTURES makes them again."""
        for path, (program, count) in KEPT.items():
            with self.subTest(path):
                page = self.stepped(program, count)
                page.run(SAVES)
                _, text = self.save(page)
                if PICTURES:
                    Path(PICTURES, Path(path).name).write_text(text, encoding="utf-8")
                kept = (TOP / path).read_text(encoding="utf-8")
                self.assertLess(len(kept.encode()), MOST_KEPT)
                mine, other = (json.loads(HELD.search(each)[1]) for each in (kept, text))
                self.assertEqual(mine["moments"][-1]["printed"], len(mine["output"]))
                # what was printed may come some milliseconds after its stop
                for moment in (*mine["moments"], *other["moments"]):
                    del moment["printed"]
                self.assertEqual(mine, {**other, "output": mine["output"]})
                browser = self.play(kept)
                for at in range(1, count + 2):
                    self.assertEqual(browser.run(PART, ".count"), f"{at} of {count + 1}")
                    browser.run(PRESS, ".after")
                self.assertIn("HLT", browser.run(PART, ".now"))
                keep_picture(browser, Path(path).stem)
                browser.close_window()
                self.browser.use(self.window)

    def test_films_that_cant_be_played(self):
        page, _, text = self.filmed(count=2)
        page.run("setCell('; mine\\n')")
        before, data, after = re.fullmatch(r"(.*id=\"film\">\n)(.*)(\n</script>.*)", text, re.S).groups()
        film = json.loads(data)

        def changed(**given):
            return before + json.dumps({**film, **given}).replace("<", "\\u003c") + after

        first, *rest = film["moments"]
        refused = (
            (text.replace("lab80 film 1", "lab80 film 2"), "this is a film of version 2, and this page plays version 1"),
            (text[:len(before) + 500], "the film is damaged, or was cut off"),
            (text[:600], "the film is damaged, or was cut off"),
            (before + data[:-40] + after, "the film is damaged, or was cut off"),
            (before + "null" + after, "the film can't be played: it is damaged, or was cut off"),
            (changed(version=9), "the film can't be played: it is of version 9, and this player plays version 1"),
            (changed(moments=[]), "the film can't be played: it is damaged: it has no moments that can be shown"),
            (changed(moments=[first] * 1001), "the film can't be played: it has more than 1000 moments"),
            (changed(moments=[first, {**first, "registers": ["<b>"] * 9}]),
             "the film can't be played: it is damaged: moment 2 has no registers that can be shown"),
            (changed(moments=[{**first, "memory": [[0, "<img>"]]}]),
             "the film can't be played: it is damaged: moment 1 has no memory that can be shown"),
            (changed(moments=[{**first, "text": 7}]), "the film can't be played: it is damaged: moment 1 has no line that can be shown"),
            (changed(texts=["x" * 4_500_000]), "bytes are too many; a film has 4,194,304 at most"),
        )
        for number, (wrong, why) in enumerate(refused):
            with self.subTest(why=why, number=number):
                page.run("document.querySelector('#message span').textContent = ''")
                page.run(OPEN, f"film{number}.html", wrong)
                page.waits(lambda: page.message().startswith(f"film{number}.html: "))
                self.assertRegex(page.message(), rf"^film{number}\.html: (\d+ )?{re.escape(why)}\. Nothing was opened$")
                self.assertFalse(page.run(OPENED))
        page.run("return fetch('about:blank').catch(() => 0)")
        page.run("""
            const given = new DataTransfer(), field = document.getElementById('file'), [text] = arguments;
            const bytes = new TextEncoder().encode(text);
            bytes[bytes.length - 200] = 0xFF;
            given.items.add(new File([bytes], 'bytes.html'));
            field.files = given.files;
            field.dispatchEvent(new Event('change'));""", text)
        page.says("bytes.html: the film is damaged: it is no text in UTF-8. Nothing was opened")
        self.assertEqual(page.run("return document.getElementById('cell').value"), "; mine\n")
        # opened by themselves they say so too
        for wrong, why in ((text[:len(before) + 500], "it is damaged, or was cut off"), (text[:len(before) - 20], "it is damaged, or was cut off"),
                           (changed(version=9), "it is of version 9, and this player plays version 1"),
                           (changed(moments=[{**first, "flags": []}]), "it is damaged: moment 1 has no flags that can be shown")):
            browser = self.play(wrong)
            self.assertEqual(browser.run("return document.querySelector('h1').textContent"),
                             f"This file has no film that can be played: {why}.")
            browser.close_window()
            self.browser.use(self.window)

    def test_hostile_texts_in_a_film(self):
        """Nothing in a film runs as a script or is read as HTML; what turns the direction of writing is shown as what it is."""
        page, _, text = self.filmed(count=2)
        before, data, after = re.fullmatch(r"(.*id=\"film\">\n)(.*)(\n</script>.*)", text, re.S).groups()
        film = json.loads(data)
        hostile = "</script><script>window.bad = 1</script><img src=x onerror=window.bad=1>\u202eTLH\u2066<!--"
        film.update(title=hostile, texts=[hostile + "\n" + film["texts"][0]], output=hostile, left=[hostile])
        for moment in film["moments"]:
            moment.update(code=hostile, line=1, printed=len(hostile), why=[hostile], calls=[hostile], changed=[[hostile[-20:]] * 3])
        wrong = before + json.dumps(film).replace("<", "\\u003c") + after
        shown = "onerror=window.bad=1>\u2039U+202E\u203aTLH\u2039U+2066\u203a<!--"
        page.run(OPEN, "hostile.html", wrong)
        page.waits(lambda: page.run(OPENED))
        page.run(MOVE, 1)
        for selector in (".now", ".output", ".reasons li", ".told", ".stack .mono", ".note:nth-of-type(3)"):
            self.assertIn(shown, page.run(PART, selector), selector)
        page.click("#film-program")
        self.assertRegex(page.message(), "^Film: the program has characters that turn the direction of writing")
        self.assertNotIn("TLH", page.run("return document.getElementById('cell').value"))
        self.assertIsNone(page.run("return window.bad || null"))
        browser = self.play(wrong)
        self.assertIn(shown, browser.run(PART, ".now"))
        self.assertIn(shown, browser.run("return document.querySelector('h1').textContent"))
        browser.run(MOVE, 1)
        browser.run(PRESS, ".all summary")
        self.assertIsNone(browser.run("return window.bad || null"))
        # and if the data were read as HTML, the policy would let nothing run
        bare = before + data + after.replace("</body>", "<script>window.bad = 1</script><img src=x onerror=window.bad=1></body>")
        browser = self.play(bare)
        self.assertEqual(browser.run(PART, ".count"), "1 of 3")
        self.assertIsNone(browser.run("return window.bad || null"))

    def test_long_programs_and_outputs(self):
        """A mebibyte of text is left out, with a sentence; 500 stops and a long output have room."""
        filler = "; " + "<" * 900 + "\n"
        page = self.stepped(ADDS + "        NOP\n" * 0 + filler * 1, 1)
        page.run("known.texts.set(known.shown, {...known.texts.get(known.shown), text: known.texts.get(known.shown).text + '; <\\n'.repeat(250000)})")
        page.run("for (let at = 0; at < 600; ++at) { ++board.stops; recordStop(); }")
        page.run(SAVES)
        _, text = self.save(page)
        self.assertLess(len(text.encode()), 4 << 20)
        browser = self.play(text)
        self.assertEqual(browser.run(PART, ".count"), "1 of 500")
        self.assertIn("One program is left out, since it is too long for a film.", browser.run(PARTS, ".note"))
        self.assertEqual(browser.run(PART, ".text"), "This moment's program isn't in the film.")
        browser.close_window()
        page.browser.use(page.window)
        page.run(OPEN, "long.html", text)
        page.waits(lambda: page.run(OPENED))

    def test_a_film_fits_narrow_pages_and_fingers(self):
        _, _, text = self.filmed(count=4)
        browser = self.play(text)
        small = SMALL.replace("document.querySelectorAll", "document.querySelector('main').shadowRoot.querySelectorAll")
        wide = """return Math.max(document.documentElement.scrollWidth,
            ...[...document.querySelector('main').shadowRoot.querySelectorAll('section, .bar')].map(each => each.getBoundingClientRect().right))
            - innerWidth"""
        for width in (390, 683, 1366):
            browser.size(max(width, 500), 844)
            if width < 500 and self.browser_class.__name__ == "Browser":
                browser.devtools("Emulation.setDeviceMetricsOverride", width=width, height=844, deviceScaleFactor=1, mobile=False)
                self.addCleanup(browser.devtools, "Emulation.clearDeviceMetricsOverride")
            self.assertLessEqual(browser.run(wide), 1, width)
            self.assertEqual(browser.run(small), [], width)
            keep_picture(browser, f"film-{width}")


if __name__ == "__main__":
    unittest.main()
