"""The front panel beside its notebook, in half a screen or less: what is seen first, sections that fold, sizes of targets; and what
a first visitor finds."""
import os
import re

from browser import wait_until
from panel_tests import NotebookPages, Pages
from test_panel import CALLS

# Where something is: its upper and lower edge, and the lower edge of what can be seen.
PLACE = """
    const {top, bottom} = document.querySelector(arguments[0]).getBoundingClientRect();
    return [Math.round(top), Math.round(bottom), innerHeight];"""

# Controls that can be seen and are smaller than a finger needs. A box to tick has its label for it.
SMALL = """
    const found = [], controls = document.querySelectorAll('button, select, input, summary, a[href]');
    for (const each of controls) {
        const target = /checkbox|radio/.test(each.type) && each.closest('label') || each;
        const {width, height} = target.getBoundingClientRect();
        if (each.checkVisibility() && Math.min(width, height) < 23.5) found.push([each.id || each.textContent, width, height]);
    }
    return found;"""

# How far the page, or what isn't in a list of its own, goes beyond the window's right edge.
TOO_WIDE = """
    const isList = each => each.closest('.listing, pre, .editor, .frames, .names');
    const seen = [...document.body.querySelectorAll('*')].filter(each => each.checkVisibility() && !isList(each));
    return Math.max(document.documentElement.scrollWidth, ...seen.map(each => each.getBoundingClientRect().right)) - innerWidth;"""

# The contrast of a text with what is behind it: that of an element, and all texts with less than 4.5. What is dimmed or can't be
# pressed isn't to be read, and the front panel's metal has several colours.
COLOURS = """
    const pen = new OffscreenCanvas(1, 1).getContext('2d', {willReadFrequently: true});
    const partsOf = colour => {
        pen.clearRect(0, 0, 1, 1);
        pen.fillStyle = colour;
        pen.fillRect(0, 0, 1, 1);
        return [...pen.getImageData(0, 0, 1, 1).data];
    };
    const over = ([r, g, b, a], under) => [r, g, b].map((each, at) => (each * a + under[at] * (255 - a)) / 255);
    const behind = element => {
        if (!element) return [255, 255, 255];
        const parts = partsOf(getComputedStyle(element).backgroundColor);
        return parts[3] === 255 ? parts.slice(0, 3) : over(parts, behind(element.parentElement));
    };
    const luminance = parts => {
        const [r, g, b] = parts.map(each => each / 255).map(each => each <= 0.04045 ? each / 12.92 : ((each + 0.055) / 1.055) ** 2.4);
        return 0.2126 * r + 0.7152 * g + 0.0722 * b + 0.05;
    };
    const contrast = element => {
        const under = behind(element), text = over(partsOf(getComputedStyle(element).color), under);
        const [one, other] = [text, under].map(luminance);
        return Math.max(one, other) / Math.min(one, other);
    };"""
CONTRAST = COLOURS + "return contrast(document.querySelector(arguments[0]));"
TOO_FAINT = COLOURS + """
    const hasText = each => [...each.childNodes].some(node => node.nodeType === 3 && node.data.trim() !== '');
    const isLeftOut = each => each.closest('.metal, :disabled, textarea, [aria-hidden=true]')
        || [...document.querySelectorAll('.past, .old')].some(dimmed => dimmed.contains(each));
    const seen = [...document.body.querySelectorAll('*')].filter(each => hasText(each) && each.checkVisibility() && !isLeftOut(each));
    return seen.filter(each => contrast(each) < 4.5).map(each => [each.id || each.className || each.tagName, each.textContent.slice(0, 30),
        Math.round(contrast(each) * 100) / 100]);"""

FOLDED = "return [...document.querySelectorAll('section.folded .fold')].map(each => each.id)"
SEEN = "return document.querySelector(arguments[0]).checkVisibility()"

# Keeps what the notebook would open.
OPENS = "window.open = (...given) => { window.opened = given; }; return [screen.availWidth, screen.availHeight];"


class Beside(Pages):
    def resize(self, width, height):
        """Gives the page an exact size, which may be smaller than the least of a window."""
        given = {"width": width, "height": height, "deviceScaleFactor": 1, "mobile": False}
        self.browser.devtools("Emulation.setDeviceMetricsOverride", **given)
        self.addCleanup(self.browser.devtools, "Emulation.clearDeviceMetricsOverride")

    def beside(self):
        """A page beside its notebook, at a stop on the fourth line of a cell."""
        page = self.open()
        page.is_in("idle")
        self.browser.open(self.server.page("lab80", "panel.html", kernel=self.kernel, beside=1))
        page.is_in("idle")
        page.run("setCell(arguments[0])", CALLS + "; the end\n")
        page.click("#run-stopped")
        page.stops("breakpoint", 2)
        page.waits(lambda: page.breakpoints() == [])
        return page

    def test_what_a_lesson_speaks_of_is_seen_first(self):
        page = self.beside()
        self.assertFalse(page.run(SEEN, "#cell-section"))
        self.assertTrue(page.run("return document.getElementById('slowly').title !== ''"))
        for width, height in ((683, 660), (800, 660), (960, 900)):
            self.resize(width, height)
            for selector in ("#registers", "#flags", "#source .current", "#lamps", "[data-command=stepIn]"):
                top, bottom, end = page.run(PLACE, selector)
                self.assertTrue(0 <= top < bottom <= end, (width, selector, top, bottom, end))
            # and the buttons stay, however far one scrolls
            page.run("scrollTo(0, 5000)")
            top, bottom, end = page.run(PLACE, "[data-command=stepIn]")
            self.assertTrue(0 <= top < bottom <= end, (width, top, bottom))
            page.run("scrollTo(0, 0)")
        self.resize(683, 660)
        page.picture("panel-beside", 683, 768)

    def test_narrow_pages_scroll_in_one_direction_and_fit_fingers(self):
        page = self.beside()
        for address in (page.run("return location.href"), self.server.page("lab80", "panel.html", kernel=self.kernel)):
            self.browser.open(address)
            page.waits(lambda: page.line() == 2)
            for width in (360, 390, 480, 683):
                self.resize(width, 844)
                self.assertLessEqual(page.run(TOO_WIDE), 1, (address, width))
                self.assertEqual(page.run(SMALL), [], (address, width))

    def test_the_cell_can_be_had_again(self):
        page = self.beside()
        self.assertTrue(page.run(SEEN, "#alone"))
        address = page.run("return document.getElementById('with-cell').href")
        self.assertNotIn("beside", address)
        self.browser.open(address)
        page.waits(lambda: page.line() == 2)
        self.assertEqual((page.run(SEEN, "#cell-section"), page.run(SEEN, "#alone")), (True, False))

    def test_slowly_begins_at_a_stop_alone(self):
        """Beside a notebook there is no cell with which it could begin."""
        page = self.beside()
        is_offered = "return !document.getElementById('slowly').disabled"
        self.assertTrue(page.run(is_offered))
        page.click("#interrupt")
        page.is_in("idle")
        self.assertFalse(page.run(is_offered))

    def test_sections_fold(self):
        page = self.open()
        page.is_in("idle")
        for name in ("memory", "panel"):
            page.click(f"#{name}-title")
        self.assertEqual(page.run(FOLDED), ["panel-title", "memory-title"])
        for selector in ("#memory", "#at", "#lamps"):
            self.assertFalse(page.run(SEEN, selector), selector)
        self.assertEqual(page.run("return document.getElementById('memory-title').getAttribute('aria-expanded')"), "false")
        page.reload()
        self.assertEqual(page.run(FOLDED), ["panel-title", "memory-title"])
        page.run("document.getElementById('memory-title').focus()")
        page.browser.key("\ue007")
        self.assertTrue(page.run(SEEN, "#memory"))
        page.run("localStorage.setItem('lab80 folded', '{\"a\": 1}')")
        page.reload()
        self.assertEqual(page.run(FOLDED), [])

    def test_contrast_themes_show_lamps_and_the_current_line(self):
        page = self.beside()
        page.ask("boardSwitches", value=0xA5)
        self.browser.devtools("Emulation.setEmulatedMedia", features=[{"name": "forced-colors", "value": "active"}])
        self.addCleanup(self.browser.devtools, "Emulation.setEmulatedMedia", features=[])
        style = "const it = getComputedStyle(document.querySelector(arguments[0])); return it[arguments[1]]"
        self.assertIn("gradient", page.run(style, ".lamp", "backgroundImage"))
        current, other = (page.run(style, f"#source .line{which}", "borderLeftColor") for which in (".current", ":not(.current)"))
        self.assertNotEqual(current, other)
        page.picture("panel-forced", 1140, 890)


    def test_contrast_of_all_texts(self):
        page = self.beside()
        self.addCleanup(self.browser.prefer, "light")
        page.run("for (const each of document.querySelectorAll('details')) each.open = true")
        for scheme in ("light", "dark"):
            self.browser.prefer(scheme)
            self.assertEqual(page.run(TOO_FAINT), [], scheme)
            for selector in ("#keys p", "#source .current .gutter", "#code .current .faint", "#frames [aria-current=true] .where",
                             "#registers-section h2", "#source .comment", "#alone"):
                self.assertGreaterEqual(page.run(CONTRAST, selector), 4.5, (scheme, selector))
            page.click("#show-map")
            page.waits(lambda: page.text("#map-told"))
            self.assertEqual(page.run(TOO_FAINT), [], scheme)
            page.click("#map-close")

    def test_every_control_has_a_name(self):
        page = self.beside()
        nameless = """
            const named = each => each.getAttribute('aria-label') || each.textContent.trim() || each.title || each.closest('label')
                || each.labels && each.labels.length > 0 || each.getAttribute('aria-labelledby');
            return [...document.querySelectorAll('button, select, input, textarea, a[href], [tabindex="0"]')]
                .filter(each => !named(each)).map(each => each.id || each.outerHTML.slice(0, 80));"""
        # this one gets its name with the question
        self.assertEqual(page.run(nameless), ["question-yes"])

    def test_names_are_said_apart_from_their_numbers(self):
        page = self.beside()
        names = "return [...document.querySelectorAll(arguments[0])].map(each => each.getAttribute('aria-label'))"
        page.waits(lambda: "TWICE, 010A" in page.run(names, "#symbols button"))
        self.assertEqual(page.run(names, "#frames button"), ["main, line 2, 0100H"])
        page.run("document.getElementById('watch-place').value = 'HL'")
        page.click("#watching button")
        page.waits(lambda: page.run(names, "#watched button:first-child"))
        self.assertRegex(page.run(names, "#watched button:first-child")[0] or "", "^HL, ")


class FirstVisit(Pages):
    CELL = "return document.getElementById('cell').value"

    def test_a_program_and_a_sentence_are_there(self):
        page = self.open()
        page.is_in("idle")
        page.waits(lambda: page.run(self.CELL).startswith("; Prints a text"))
        self.assertEqual(page.text("#first"), "Press Run. Then choose another program among the examples.")
        self.assertTrue(page.run(SEEN, "#first"))
        page.picture("panel-first", 1366, 768)
        page.click("#run")
        page.prints("hello, world\n")
        self.assertFalse(page.run(SEEN, "#first"))
        # it is nobody's draft
        page.reload()
        page.waits(lambda: page.run(self.CELL).startswith("; Prints a text"))
        self.assertFalse(page.run(SEEN, "#drafts"))
        # a cell that was emptied stays empty
        page.run("setCell('')")
        page.reload()
        page.waits(lambda: page.texts("#examples option")[1:])
        self.assertEqual(page.run(self.CELL), "")

    def test_what_there_is_to_read(self):
        page = self.open()
        page.is_in("idle")
        with self.subTest("the card"):
            address = page.run("return document.getElementById('to-card').href")
            self.browser.open(address)
            self.assertIn("MOV", self.browser.run("return document.body.textContent"))
        page = self.open(self.kernel)
        with self.subTest("the glossary"):
            address = page.run("return document.getElementById('to-glossary').href")
            self.browser.open(address)
            self.assertIn("SP, the register", self.browser.run("return document.querySelector('#stack-pointer + dd').textContent"))
            self.assertEqual(self.browser.run(TOO_FAINT), [])
        page = self.open(self.kernel)
        page.click("#to-lessons")
        page.says("Lessons: they are notebooks, and this server's folder has none. Copy the folder lessons there")

    def test_rare_settings_are_out_of_the_way(self):
        page = self.open()
        page.is_in("idle")
        self.assertFalse(page.run(SEEN, "#aliases"))
        page.click("#rare summary")
        self.assertTrue(page.run(SEEN, "#aliases"))

    def test_the_cell_is_coloured(self):
        page = self.open()
        page.is_in("idle")
        page.run("setCell('START:  MVI A,5 ; five\\n        END START\\n')")
        words = "return [...document.querySelectorAll('#coloured span[class]')].map(each => [each.textContent, each.className])"
        self.assertEqual(page.run(words)[:5], [["START", "label"], ["MVI", "transfer"], ["A", "register"], ["5", "number"],
                                               ["; five", "comment"]])
        self.assertEqual("\n".join(page.texts("#coloured code")), page.run(self.CELL))
        colours = "return ['behind', 'cell'].map(id => getComputedStyle(document.getElementById(id)).color)"
        behind, field = page.run(colours)
        self.assertEqual((re.findall(r"\d+", field)[3:], behind != field), (["0"], True))
        # the colours stay at their letters where the cell is scrolled to its ends
        page.run("setCell((' '.repeat(300) + 'NOP\\n').repeat(50) + 'HLT')")
        offset = """
            const field = document.getElementById('cell');
            field.scrollTop = field.scrollLeft = 1e6;
            await new Promise(done => requestAnimationFrame(() => requestAnimationFrame(done)));
            const last = document.querySelector('#coloured').lastElementChild.querySelector('.stack');
            const {bottom} = last.getBoundingClientRect(), {top} = field.getBoundingClientRect();
            const end = top + field.clientTop + field.clientHeight - parseFloat(getComputedStyle(field).paddingBottom);
            arguments[0](Math.round(end - bottom));"""
        self.assertLessEqual(abs(page.browser.run_later(f"(async function () {{{offset}}}).apply(null, arguments)")), 4)
        # a long line has its own letters
        page.run("setCell('        NOP'.repeat(8000))")
        self.assertNotIn(", 0)", page.run(colours)[1])

    def test_all_drafts_are_forgotten(self):
        page = self.open()
        page.is_in("idle")
        page.run("setCell('; mine\\n        HLT\\n        END 0\\n')")
        page.click("#run")
        page.is_in("idle")
        page.waits(lambda: len(page.texts("#drafts option")) == 3)
        page.choose("#drafts", "forget")
        page.answer(yes=False)
        self.assertEqual(len(page.texts("#drafts option")), 3)
        page.choose("#drafts", "forget")
        page.answer(yes=True)
        page.waits(lambda: not page.run(SEEN, "#drafts"))
        page.reload()
        self.assertEqual(page.run("return Object.keys(localStorage).filter(each => each.includes('drafts'))"), [])


class Opened(NotebookPages):
    def test_the_notebook_opens_it_in_half_of_the_screen(self):
        self.notebook("half", [CALLS])
        width, height = self.browser.run(OPENS)
        self.browser.click("#lab80-panel button")
        address, name, features = wait_until(lambda: self.browser.run("return window.opened"))
        self.assertRegex(address, r"panel\.html\?.*\bbeside=1")
        self.assertTrue(name.startswith("lab80-panel-"))
        self.assertEqual(features, f"left={width - width // 2},top=0,width={width // 2},height={height}")

    def test_devices_come_into_view(self):
        """Once, when a cell names others than are shown: they stand below half a screen."""
        self.notebook("devices", ["; lab80: matrix 8000H, arrows\n" + CALLS])
        page = self.press_button()
        page.browser.size(683, 768)
        self.execute(0)
        page.waits(lambda: page.run("return scrollY") > 0)
        _, bottom, lower = page.run(PLACE, "#devices-section")
        self.assertLessEqual(bottom, lower)
        page.run("scrollTo(0, 0)")
        self.execute(0)
        page.waits(lambda: page.text("#texts option").startswith("[2]"))
        self.assertEqual(page.run("return scrollY"), 0)

    def test_lessons_are_found(self):
        self.notebook("01-registers")
        page = self.press_button()
        page.run("window.open = (...given) => { window.opened = given; }")
        page.click("#to-lessons")
        page.waits(lambda: page.run("return window.opened"))
        self.assertEqual(page.run("return window.opened[0].href"), self.server.address + "/tree/lessons")
        self.assertTrue(os.path.exists(os.path.join(self.folder, "lessons", "01-registers.ipynb")))
