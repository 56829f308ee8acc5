"""The front panel's cell as the source of its own program: margin, breakpoints, the line of a stop; what Source shows beside it; and
texts that are long, or were edited since they ran."""
import re

from browser import ARROW_DOWN, ENTER, ESCAPE, SHIFT, TAB, wait_until
from panel_tests import Pages
from test_panel import CALLS, ENDLESS
from test_panel_beside import CONTRAST, SEEN, SMALL, TOO_WIDE

F9, END, HOME = "\ue039", "\ue010", "\ue011"

# Puts the caret before the first place of a text in the cell, as a click there does.
CARET = """
    const field = document.getElementById('cell'), at = field.value.indexOf(arguments[0]);
    field.focus();
    field.setSelectionRange(at, at);
    field.dispatchEvent(new MouseEvent('click', {bubbles: true}));"""

# The breakpoints of the cell, each with whether the board has it; and the board's own, by the first line of their text.
MARKS = """
    const set = [...document.querySelectorAll('#coloured .gutter[aria-pressed=true]')];
    return set.map(each => [+each.textContent, !each.classList.contains('unverified')]);"""
BOARD = """
    const names = path => (known.texts.get(path) || {text: path}).text.split('\\n')[0].trim();
    return Object.fromEntries([...board.breakpoints].map(([path, lines]) => [names(path), lines]));"""

# The line that the cell shows as the current one, or 0.
CURRENT = "const line = document.querySelector('#coloured .current'); return line ? +line.dataset.line : 0"

# Takes back what was typed, which is one step or one a key.
UNDO = """
    const field = document.getElementById('cell');
    field.focus();
    for (let steps = 0; steps < 5 && field.value !== arguments[0]; ++steps) document.execCommand('undo');"""

# The lines whose margin and text can be seen whole.
WHOLE = """
    const field = document.getElementById('cell'), {top} = field.getBoundingClientRect();
    const bottom = Math.min(top + field.clientHeight, innerHeight);
    const isWhole = each => each.getBoundingClientRect().top >= top && each.getBoundingClientRect().bottom <= bottom;
    return [...document.querySelectorAll('#coloured .line')].filter(isWhole).map(each => +each.dataset.line);"""

# How far the last line that is drawn lies from where the field has it, once the field is scrolled to its ends.
OFFSET = """(async function (done) {
    const field = document.getElementById('cell');
    field.scrollTop = field.scrollLeft = 1e7;
    await new Promise(done => requestAnimationFrame(() => requestAnimationFrame(done)));
    const last = document.querySelector('#coloured').lastElementChild.getBoundingClientRect(), around = field.getBoundingClientRect();
    const scale = around.height / field.offsetHeight, padding = parseFloat(getComputedStyle(field).paddingBottom);
    done(Math.round(around.top + (field.clientHeight - padding) * scale - last.bottom));
}).apply(null, arguments)"""

# Milliseconds from a key in the middle of the text until the next frame, some times.
TYPES = """
    const [count, done] = arguments, field = document.getElementById('cell'), taken = [], at = Math.floor(field.value.length / 2);
    field.focus();
    field.setSelectionRange(at, at);
    const key = () => {
        if (taken.length === count) return done(taken.sort((one, other) => one - other));
        const from = performance.now();
        document.execCommand('insertText', false, 'x');
        requestAnimationFrame(() => setTimeout(() => { taken.push(performance.now() - from); key(); }));
    };
    key();"""

# Whether the letters of an element can be seen.
IS_CLEAR = "return / 0\\)$/.test(getComputedStyle(document.querySelector(arguments[0])).color.replace(/^rgb\\(.*/, ''))"

# The card that is shown, and the mouse over a word: in the cell that lies behind the field.
CARD = "const card = document.getElementById('card'); return card.hidden ? '' : card.textContent"
OVER = """
    const {left, top, width, height} = [...document.querySelectorAll(arguments[0])][arguments[1]].getBoundingClientRect();
    const at = {clientX: left + width / 2, clientY: top + height / 2, bubbles: true};
    const target = document.elementFromPoint(at.clientX, at.clientY);
    for (const kind of ['mouseover', 'mousemove']) target.dispatchEvent(new MouseEvent(kind, at));"""


class Cell(Pages):
    def with_text(self, text):
        page = self.open()
        page.is_in("idle")
        page.run("setCell(arguments[0])", text)
        return page

    def stopped(self, text=CALLS, line=4):
        """A page whose cell is stopped at a breakpoint that was set before it ran."""
        page = self.with_text(text)
        page.toggle(line)
        page.click("#run")
        page.stops("breakpoint", line)
        return page

    def resize(self, width, height):
        given = {"width": width, "height": height, "deviceScaleFactor": 1, "mobile": False}
        self.browser.devtools("Emulation.setDeviceMetricsOverride", **given)
        self.addCleanup(self.browser.devtools, "Emulation.clearDeviceMetricsOverride")

    def type(self, page, before, text):
        """Types a text before the first place of another one."""
        page.run(CARET, before)
        page.browser.type(text)

    def test_a_program_is_shown_once(self):
        page = self.stopped()
        self.assertEqual((page.run(CURRENT), page.run(MARKS)), (4, [[4, True]]))
        self.assertFalse(page.run(SEEN, "#source-section"))
        self.assertEqual(page.text("#source .line") if page.texts("#source .line") else "", "")
        for command, line in (("stepIn", 7), ("next", 8), ("stepIn", 10), ("stepOut", 9), ("next", 5)):
            page.command(command)
            page.stops("step", line)
        self.assertEqual(page.run("return document.querySelectorAll('[aria-current=true].line').length"), 1)
        # past stops, dimmed, and the frames of the call stack
        page.click("#past-before")
        page.click("#past-before")
        self.assertEqual((page.run(CURRENT), page.run(SEEN, "#source-section")), (10, False))
        self.assertEqual(page.run("return getComputedStyle(document.getElementById('editor')).outlineStyle"), "dashed")
        page.click("#frames button", 2)
        page.waits(lambda: page.run(CURRENT) == 4)
        page.click("#past-now")
        page.waits(lambda: page.run(CURRENT) == 5)
        page.command("continue")
        page.is_in("idle")
        page.waits(lambda: page.run(CURRENT) == 0)
        self.assertFalse(page.run(SEEN, "#source-section"))

    def test_breakpoints_before_the_first_run(self):
        page = self.with_text(CALLS)
        self.assertFalse(page.is_attached())
        x, y = page.run("""
            const {left, top, height} = document.querySelector('#coloured [data-line="8"] .gutter').getBoundingClientRect();
            return [Math.round(left + 9), Math.round(top + height / 2)];""")
        page.browser.click_at(x, y)
        page.waits(lambda: page.run(MARKS) == [[8, True]])
        page.waits(page.is_attached)
        # by F9 on the line of the caret, and by the margin's keys
        page.run(CARET, "ADD A")
        page.browser.key(F9)
        page.waits(lambda: page.run(MARKS) == [[7, True], [8, True]])
        page.run("document.querySelector('#coloured [data-line=\"7\"] .gutter').focus()")
        page.browser.key(ENTER)
        page.waits(lambda: page.run(MARKS) == [[8, True]])
        self.assertEqual(page.run("return document.activeElement.getAttribute('aria-label')"), "Breakpoint on line 7")
        page.click("#run")
        page.stops("breakpoint", 8)
        page.run("document.querySelector('#coloured [data-line=\"7\"] .gutter').focus()")
        for _ in range(3):
            page.browser.key(ARROW_DOWN)
        page.browser.key("t")
        page.stops("breakpoint", 10)
        page.waits(lambda: page.run(MARKS) == [[8, True]])

    def test_keys_lead_into_the_margin_and_out_of_the_cell(self):
        page = self.stopped()
        focused = "return document.activeElement.id || document.activeElement.textContent"
        page.run(CARET, "ADD A")
        page.browser.key(TAB, SHIFT)
        self.assertEqual(page.run(focused), "7")
        page.browser.key(END)
        self.assertEqual(page.run(focused), "13")
        page.browser.key(HOME)
        page.browser.key(TAB)
        self.assertEqual(page.run(focused), "cell")
        page.browser.key(ESCAPE)
        page.browser.key(TAB)
        self.assertEqual(page.run(focused), "run")

    def test_to_the_line_of_the_caret(self):
        page = self.stopped()
        page.run(CARET, "MVI C,1")
        self.assertEqual(page.text("#cell-to-line"), "To line 10")
        page.click("#cell-to-line")
        page.stops("breakpoint", 10)
        page.waits(lambda: page.run(BOARD) == {"ORG 100H": [4]})
        page.click("#interrupt")
        page.is_in("idle")
        self.assertTrue(page.run("return document.getElementById('cell-to-line').disabled"))

    def test_edits_move_breakpoints(self):
        page = self.with_text("; one\n" + CALLS)
        page.toggle(5)
        page.toggle(9)
        page.click("#run")
        page.stops("breakpoint", 5)
        page.click("#interrupt")
        page.is_in("idle")
        self.type(page, "MVI A,5", "NOP" + ENTER)
        self.assertEqual(page.run(MARKS), [[6, False], [10, False]])
        self.assertRegex(page.run("return document.querySelector('#coloured .unverified').getAttribute('aria-label')"),
                         "^Breakpoint on line 6, which is set when the cell is run$")
        # the board still has those of the text that ran, until the new one runs
        self.type(page, "; one", "; two" + ENTER)
        self.assertEqual(page.run(BOARD), {"; one": [5, 9]})
        page.click("#run")
        page.stops("breakpoint", 7)
        page.waits(lambda: page.run(BOARD) == {"; two": [7, 11]})
        self.assertEqual(page.run(MARKS), [[7, True], [11, True]])
        page.click("#interrupt")
        page.is_in("idle")
        # a line that goes takes its breakpoint with it
        page.run(CARET, "        CALL TWICE")
        page.run("""const field = document.getElementById('cell'), {selectionStart: at} = field;
            field.setSelectionRange(at, field.value.indexOf('\\n', at) + 1); document.execCommand('delete')""")
        self.assertEqual(page.run(MARKS), [[10, False]])
        # and a text that ran has its own again
        page.run("document.execCommand('undo')")
        page.waits(lambda: page.run(MARKS) == [[7, True], [11, True]])
        # a click gives the board the edited text
        self.type(page, "; two", "; six" + ENTER)
        page.toggle(3)
        page.waits(lambda: page.run(MARKS) == [[3, True], [8, True], [12, True]])
        page.waits(lambda: page.run(BOARD) == {"; six": [3, 8, 12]})

    def test_where_edits_move_lines(self):
        page = self.with_text("")
        for before, after, marks, moved in (
                ("abc", "abc", [1, 3], [1, 3]), ("abc", "xabc", [1, 3], [2, 4]), ("abc", "axc", [1, 2, 3], [1, 2, 3]),
                ("abc", "ac", [1, 2, 3], [1, 2]), ("abc", "abxyc", [2, 3], [2, 5]), ("abc", "xyc", [1, 2, 3], [1, 3]),
                ("abcd", "xyzd", [1, 2, 3, 4], [4]), ("abc", "", [1, 2, 3], []), ("aaa", "aaaa", [1, 3], [1, 3]), ("", "a", [], [])):
            self.assertEqual(page.run("return moved(arguments[2], [...arguments[0]], [...arguments[1]])", before, after, marks), moved,
                             (before, after))

    def test_a_text_that_was_edited_has_no_current_line(self):
        page = self.stopped()
        ran = page.run("return document.getElementById('cell').value")
        self.type(page, "INR A", "; ")
        self.assertEqual((page.run(CURRENT), page.text("#changed")), (0, "The cell's text has changed since it ran. This is what ran."))
        self.assertTrue(page.run(SEEN, "#source"))
        self.assertEqual((page.line(), page.breakpoints(), page.run(MARKS)), (4, [4], [[4, False]]))
        self.assertIn("        INR A\n", page.source())
        page.picture("panel-edited", 1366, 911)
        self.assertTrue(page.run("return document.getElementById('cell-to-line').disabled"))
        page.command("stepIn")
        page.stops("step", 7)
        page.to_line(9)
        page.stops("breakpoint", 9)
        # undone, it is the text that ran
        page.run(UNDO, ran)
        page.waits(lambda: (page.run(CURRENT), page.text("#changed"), page.run(SEEN, "#source-section")) == (9, "", False))
        page.command("continue")
        page.is_in("idle")
        # where nothing is stopped there is nothing to show of the text that ran
        self.type(page, "INR A", "; ")
        self.assertEqual((page.run(SEEN, "#source"), page.text("#changed")), (False, ""))
        page.click("#past-before")
        page.waits(lambda: page.run(SEEN, "#source") and page.line() == 9)
        self.assertNotEqual(page.text("#changed"), "")

    def test_a_run_amid_an_edit_keeps_its_breakpoints(self):
        """A program that is stopped keeps its breakpoints while the edited text waits for its turn."""
        page = self.stopped()
        self.type(page, "INR A", "; ")
        page.click("#run")
        page.waits(lambda: page.run(BOARD) == {"ORG 100H": [4]} and len(page.run("return [...board.breakpoints.keys()]")) == 2)
        page.command("continue")
        page.stops("breakpoint", 4)
        page.waits(lambda: page.run(CURRENT) == 4)

    def test_source_is_for_other_texts(self):
        page = self.stopped()
        page.click("#interrupt")
        page.is_in("idle")
        self.assertEqual(page.texts("#texts option"), ["the cell"])
        other = self.open_another()
        other.is_in("idle")
        other.run_cell("; other\n" + ENDLESS)
        page.waits(lambda: page.run(SEEN, "#source") and page.source().startswith("; other"))
        self.assertEqual(page.run(MARKS), [[4, True]])
        other.toggle(4)
        for each in (page, other):
            each.waits(lambda: each.state() == "stopped: breakpoint" and each.line() == 4)
        self.assertEqual((page.place(), other.place(), page.text("#changed")), ("#source", "#coloured", ""))
        page.command("continue")
        other.toggle(4)
        other.click("#interrupt")
        page.is_in("idle")
        # the cell is had again by running it, or by a choice
        page.choose("#texts", "")
        self.assertEqual((page.place(), page.run(SEEN, "#source"), page.run(SEEN, "#texts")), ("#coloured", False, True))
        page.choose("#texts", page.run("return document.querySelectorAll('#texts option')[1].value"))
        self.assertEqual((page.place(), page.source()[:7]), ("#source", "; other"))
        page.click("#run")
        page.stops("breakpoint", 4)
        self.assertEqual(page.place(), "#coloured")

    def test_a_folded_cell_leaves_its_text_to_source(self):
        page = self.stopped()
        page.click("#cell-title")
        self.assertEqual((page.run(SEEN, "#cell"), page.place(), page.line()), (False, "#source", 4))
        page.click("#cell-title")
        self.assertEqual((page.run(SEEN, "#source"), page.place(), page.line()), (False, "#coloured", 4))

    def test_breakpoints_that_wait_are_kept(self):
        page = self.stopped()
        page.click("#interrupt")
        page.is_in("idle")
        self.type(page, "MVI A,5", "NOP" + ENTER)
        page.reload()
        page.waits(lambda: page.run(MARKS) == [[5, False]])
        page.click("#run")
        page.stops("breakpoint", 5)
        page.waits(lambda: page.run(BOARD) == {"ORG 100H": [5]})
        page.click("#interrupt")
        page.is_in("idle")
        for kept in ("7", "[]", '{"from": 2, "were": [], "lines": [1]}', '{"from": null, "were": [], "lines": ["<b>"]}', "{"):
            self.type(page, "MVI A,5", "N")
            page.run("window.addEventListener('pagehide', () => sessionStorage.setItem(Object.keys(sessionStorage)"
                     ".find(each => each.endsWith('lab80 marks') || each.endsWith(' marks')), arguments[0]))", kept)
            page.reload()
            page.waits(lambda: page.state() == "idle" and page.texts("#coloured .line"))
            self.assertEqual(page.run(MARKS), [], kept)

    def test_a_refusal_leaves_them_waiting(self):
        page = self.with_text(CALLS)
        page.run("""const asks = line.requests.ask.bind(line.requests);
            line.requests.ask = (send, command, ...more) => asks(send, command === 'dumpCell' ? 'source' : command, ...more);""")
        page.click("#coloured [data-line='4'] .gutter")
        page.waits(lambda: page.message().startswith("Breakpoint on line 4: "))
        self.assertEqual(page.run(MARKS), [[4, False]])

    def test_a_long_text_is_drawn_where_it_is_seen(self):
        text = "".join(f"L{line:05}: MVI A,{line % 256}\n" for line in range(10000))
        page = self.with_text(text)
        self.assertLess(page.run("return document.querySelectorAll('#coloured .line').length"), 60)
        # twice the work of a field alone, as a page without colours has it, would be a lot
        taken = page.browser.run_later(TYPES, 7)
        self.assertLess(taken[0], 1000, taken)
        page.run("document.querySelector('#coloured .gutter[tabindex=\"0\"]').focus()")
        page.browser.key(END)
        self.assertEqual(page.run("return document.activeElement.textContent"), "10001")
        self.assertLess(page.run("return document.querySelectorAll('#coloured .line').length"), 60)
        page.run("document.execCommand = null; setCell(arguments[0])", text)
        for zoom in ("1", "1.1", "0.9"):
            page.run("document.body.style.zoom = arguments[0]", zoom)
            wait_until(lambda: abs(page.browser.run_later(OFFSET)) <= 2)
        self.assertEqual(page.texts("#coloured .line code")[-2], "L09999: MVI A,15")

    def test_a_mebibyte(self):
        """Also in a single line, which keeps its own letters."""
        page = self.with_text("        NOP     ; <img src=x onerror='window.hurt = 1'>\n" * 18000)
        taken = page.browser.run_later(TYPES, 3)
        self.assertLess(taken[0], 5000, taken)
        self.assertLess(page.run("return document.querySelectorAll('#coloured .line').length"), 60)
        self.assertEqual(page.run("return [document.querySelectorAll('#behind img').length, window.hurt || 0]"), [0, 0])
        self.assertTrue(page.run(IS_CLEAR, "#cell"))
        page.run("setCell(';'.repeat(1e6))")
        self.assertFalse(page.run(IS_CLEAR, "#cell"))
        self.assertEqual((page.texts("#coloured code"), page.texts("#coloured .gutter")), ([""], ["1"]))
        page.run("setCell('        HLT\\n        END 0\\n')")
        self.assertTrue(page.run(IS_CLEAR, "#cell"))

    def test_twenty_lines_are_in_view(self):
        page = self.with_text(CALLS * 3)
        self.resize(1366, 768)
        page.waits(lambda: len(page.run(WHOLE)) >= 20)
        self.assertLess(page.run("return document.getElementById('run').getBoundingClientRect().bottom"), 768)

    def test_the_line_of_a_stop_is_brought_into_view(self):
        page = self.with_text("; more\n" * 60 + CALLS)
        page.click("#run-stopped")
        page.stops("breakpoint", 62)
        self.assertIn(62, page.run(WHOLE))
        # and stays where the user scrolls
        page.run("document.getElementById('cell').scrollTop = 0")
        page.waits(lambda: 1 in page.run(WHOLE))
        page.ask("boardSwitches", value=3)
        page.run("lookSoon(0)")
        page.waits(lambda: page.switches() == "00000011")
        self.assertIn(1, page.run(WHOLE))
        page.command("stepIn")
        page.stops("step", 63)
        page.waits(lambda: 63 in page.run(WHOLE))

    def test_narrow_pages(self):
        page = self.stopped()
        for edit in ("", "; "):
            if edit:
                self.type(page, "INR A", edit)
            for width in (360, 390, 683, 800):
                self.resize(width, 844)
                self.assertLessEqual(page.run(TOO_WIDE), 1, (edit, width))
                self.assertEqual(page.run(SMALL) if width < 760 else [], [], (edit, width))

    def test_contrast(self):
        page = self.stopped(CALLS.replace("CALL TWICE", "CALL TWICE ; a comment"))
        self.addCleanup(self.browser.prefer, "light")
        for scheme in ("light", "dark"):
            self.browser.prefer(scheme)
            for selector in (".current .gutter", ".current .comment", ".gutter[aria-pressed=false]", ".label", ".transfer", ".number"):
                self.assertGreaterEqual(page.run(CONTRAST, f"#coloured {selector}"), 4.5, (scheme, selector))

    def test_contrast_themes(self):
        page = self.stopped()
        self.browser.devtools("Emulation.setEmulatedMedia", features=[{"name": "forced-colors", "value": "active"}])
        self.addCleanup(self.browser.devtools, "Emulation.setEmulatedMedia", features=[])
        style = "const it = getComputedStyle(document.querySelector(arguments[0])); return it[arguments[1]]"
        current, other = (page.run(style, f"#coloured .line{which}", "borderLeftColor") for which in (".current", ":not(.current)"))
        self.assertNotEqual(current, other)
        # one of both layers has letters
        self.assertEqual([page.run(IS_CLEAR, each) for each in ("#cell", "#coloured .transfer", "#coloured .gutter")],
                         [False, True, False])

    def test_cards(self):
        page = self.stopped()
        page.run(OVER, "#coloured [data-card]", 1)
        page.waits(lambda: page.run(CARD).startswith("MVI "))
        page.run(OVER, "#coloured .label", 0)
        self.assertEqual(page.run(CARD), "")
        self.type(page, "INR A", "; ")
        page.run(OVER, "#source [data-card]", 0)
        page.waits(lambda: page.run(CARD).startswith("LXI "))

    def test_what_is_drawn_is_the_text(self):
        text = "\tNOP\n<b>x</b>\n\n  ' open\n" + "        DB      'a''b' ; \u00e9 \U0001f600\n" * 3
        page = self.with_text(text)
        self.assertEqual("\n".join(page.texts("#coloured .line code")), text)
        self.assertEqual(page.run("return document.querySelectorAll('#coloured b').length"), 0)
        self.type(page, "NOP", "HLT ; ")
        self.assertEqual(page.texts("#coloured .line code")[0], "\tHLT ; NOP")
        self.assertTrue(re.search("comment", page.run("return document.querySelector('#coloured .line code').innerHTML")))
