"""The static site: without its server, with two versions, in browsers that lack something; its boards after a reload, in a file,
in two windows, and at their end."""
import importlib.machinery
import importlib.util
import json
import os
import shutil
import subprocess
import tempfile
import time
import unittest
from pathlib import Path

import static_site
from browser import Browser, wait_until
from lab80_client import HELLO
from panel_page import PARTS, Page
from ports import free_port
from test_panel import CALLS, DEAF
from test_panel_programs import DROP, OPEN, shared

PROGRAM = Path(static_site.HERE).parent / "crates/lab80_web/out/lab80_web"
# A loop of three instructions, so that BC isn't the same after each number of slices, which are powers of two.
COUNTS = "        ORG 100H\nSTART:  INX B\n        NOP\n        JMP START\n        END START\n"
TALKS = "        ORG 100H\nSTART:  MVI A,'x'\nNEXT:   OUT 1\n        JMP NEXT\n        END START\n"
ENDLESS = "        ORG 100H\nSTART:  INR B\n        JMP START\n        END START\n"

READY = "const [done] = arguments; navigator.serviceWorker.ready.then(() => done(true));"
BAR = "return [...document.querySelectorAll('#site span')].map(each => each.textContent).join()"
CELL = "return document.getElementById('cell').value"
REQUESTS = "return performance.getEntriesByType('resource').map(each => new URL(each.name).origin)"
# Bytes of a saved file, as numbers.
SAVES_BYTES = """
    HTMLAnchorElement.prototype.click = function () {
        const keep = bytes => { window.saved = [this.download, [...new Uint8Array(bytes)]]; };
        fetch(this.href).then(reply => reply.arrayBuffer()).then(keep);
    };"""
# Keeps the page busy for some milliseconds, ends the run, and tells how many characters come until it has ended.
BUSY = """
    const [milliseconds, done] = arguments, {socket} = line, take = socket.onmessage, until = performance.now() + milliseconds;
    let count = 0;
    socket.onmessage = event => { count += event.data.length; take(event); };
    while (performance.now() < until);
    document.getElementById('interrupt').click();
    const look = () => document.getElementById('state-name').textContent === 'idle' ? done(count) : setTimeout(look, 10);
    look();"""
# Tries what the page's policy forbids, and tells what it has stopped.
FORBIDDEN = """
    const [elsewhere, done] = arguments, found = [];
    document.addEventListener('securitypolicyviolation', event => found.push(event.effectiveDirective));
    const script = document.createElement('script'), picture = document.createElement('img');
    script.textContent = 'window.hurt = 1';
    picture.src = elsewhere;
    document.body.append(script, picture);
    setTimeout('window.hurt = 2');
    const tell = () => done([window.hurt || 0, document.cookie, found.sort()]);
    fetch(elsewhere).catch(() => {}).then(() => setTimeout(tell, 300));"""


def maker():
    """web/make as a module."""
    loader = importlib.machinery.SourceFileLoader("web_make", os.path.join(static_site.WEB, "make"))
    module = importlib.util.module_from_spec(importlib.util.spec_from_loader("web_make", loader))
    loader.exec_module(module)
    return module


def copied(enter):
    """A copy of the site, which may be changed. It is removed with the context that is entered."""
    folder = enter(tempfile.TemporaryDirectory())
    shutil.copytree(static_site.site().name, folder, dirs_exist_ok=True)
    return Path(folder)


class Files(unittest.TestCase):
    def test_the_site_has_all_files_of_its_own(self):
        """And they name no other host, and insert no text as HTML."""
        held = {path.name for path in Path(static_site.WEB).iterdir() if path.suffix in (".js", ".css")} - {"single.js", "sw.js"}
        self.assertEqual(held, set(maker().OWN))
        for name in (*held, "single.js", "sw.js"):
            text = Path(static_site.WEB, name).read_text(encoding="utf-8")
            self.assertNotRegex(text, r"innerHTML|insertAdjacentHTML|document\.write|\beval\(|https?://", name)


class SitePages(unittest.TestCase):
    """Tests with a browser each class, which may lack something."""

    seconds, browser_class, more = 120, Browser, ()
    host_class = static_site.Site

    @classmethod
    def setUpClass(cls):
        cls.host = cls.enterClassContext(cls.host_class())
        cls.browser = cls.enterClassContext(cls.browser_class(free_port(), 1250, 1130, *cls.more))

    def setUp(self):
        self.window = self.browser.window()
        self.browser.open(self.host.page("lab80", "logo-32x32.png"))
        self.browser.run("localStorage.clear(); sessionStorage.clear()")
        self.addCleanup(self.close_others)

    def close_others(self):
        for window in self.browser.windows():
            if window != self.window:
                self.browser.use(window)
                self.browser.close_window()
        self.browser.use(self.window)
        self.browser.open("about:blank")

    def open(self, host=None, path="", **asked):
        """A page at the site's own address, unless a board is named."""
        page = Page(self.browser, (host or self.host).page("lab80", "panel.html", **asked) + path)
        page.browser.size(1250, 1130)
        return page

    def says_hello(self, page):
        page.click("#clear")
        page.run_cell(HELLO)
        page.prints("hello, world\n")
        page.is_in("idle")

    def bar(self, page, beginning):
        page.waits(lambda: page.run(BAR).startswith(beginning))

    def board(self, page):
        return page.run("return line.kernel")


class Visits(SitePages):
    def test_a_visitor_presses_run(self):
        """The address has the board, nobody else is asked for anything, and what the policy forbids isn't done."""
        page = self.open()
        page.is_in("idle")
        self.assertIn("hello, world", page.run(CELL))
        page.click("#run")
        page.prints("hello, world\n")
        self.assertEqual(page.run("return location.search"), f"?kernel={self.board(page)}")
        self.assertEqual(set(page.run(REQUESTS)), {self.host.address})
        with static_site.Host(self.host.folder) as elsewhere:
            found = self.browser.run_later(FORBIDDEN, f"{elsewhere.address}/logo-32x32.png")
            self.assertEqual(elsewhere.asked, [])
        self.assertEqual(found, [0, "", ["connect-src", "img-src", "script-src", "script-src-elem"]])

    def test_without_the_server(self):
        with static_site.Site() as host:
            page = self.open(host)
            self.browser.run_later(READY)
            host.stop()
            asked = len(host.asked)
            page.reload()
            page.is_in("idle")
            self.says_hello(page)
            page.browser.open(host.page("lab80", "card.html"))
            self.assertIn("MOV", page.browser.run("return document.body.textContent"))
            self.says_hello(self.open(host))
            self.assertEqual(len(host.asked), asked)

    def test_a_file_that_is_dropped_anywhere(self):
        page = self.open()
        page.is_in("idle")
        page.run(DROP.replace("'cell'", "'registers'"), "one.asm", "; one\n")
        page.waits(lambda: page.run(CELL) == "; one\n")

    def test_boards_of_this_browser(self):
        first = self.open()
        first.is_in("idle")
        name = self.board(first)
        self.browser.new_window()
        page = self.open(path="?kernel=")
        page.is_in("choose a board")
        page.waits(lambda: f"board {name[:8]}" in page.texts("#kernels a"))
        page.browser.click("#start-board")
        page.is_in("idle")
        self.assertNotEqual(self.board(page), name)


class Shares(SitePages):
    def test_a_long_address(self):
        """A whole address has a mebibyte at most."""
        page = self.open()
        page.is_in("idle")
        most = (1 << 20) - len(f"{self.host.address}/#cell=")
        for length, is_shared in ((most // 4 * 3, True), (most // 4 * 3 + 3, False)):
            page.run("setCell(';'.repeat(arguments[0]))", length)
            page.click("#share")
            if is_shared:
                page.waits(lambda: page.run("return location.hash.length") == length // 3 * 4 + len("#cell="))
                page.run("history.replaceState(null, '', location.pathname + location.search)")
        page.says("Share: the cell is too long for an address. Save it as a file instead")

    def test_the_address_opens_for_anybody(self):
        text = "; <img src=x onerror='window.hurt=1'> \u00e9\n        HLT\n" + ";" * 700_000
        page = self.open(path="#cell=" + shared(text.encode()))
        page.is_in("idle")
        page.waits(lambda: page.run(CELL) == text)
        self.assertEqual(page.run("return [location.hash, window.hurt || 0, document.images.length]"), ["", 0, 0])
        page = self.open(path="?turned#cell=" + shared("; \u202e END".encode()))
        page.says("Shared address: the program has characters that turn the direction of writing, and would read otherwise than "
                  "it runs. It was passed over")


class Sessions(SitePages):
    def stopped(self):
        """A page whose program is stopped at a breakpoint, with a switch that was flipped."""
        page = self.open()
        page.is_in("idle")
        page.run_cell(CALLS)
        page.is_in("idle")
        page.waits(lambda: page.run("return known.shown"))
        page.toggle(4)
        page.click("#run")
        page.stops("breakpoint", 4)
        page.flip(3)
        page.waits(lambda: page.switches() == "00001000")
        return page

    def shown(self, page):
        trace = page.texts("#trace tbody tr")
        return page.state(), page.line(), page.registers(), page.flags(), page.breakpoints(), page.switches(), page.frames(), trace

    def is_as_it_was(self, page, shown):
        """All but the reason of the stop, which isn't told again."""
        page.shows(lambda: self.shown(page)[1:], shown[1:])
        page.command("next")
        page.stops("step", 5)
        self.assertEqual(page.registers()["A"], "0A")
        self.assertEqual(len(page.texts("#trace tbody tr")), len(shown[-1]) + 1)

    def test_a_reload_keeps_the_board(self):
        """Also while a program runs, and where the page goes elsewhere and comes back."""
        page = self.stopped()
        shown = self.shown(page)
        page.reload()
        self.is_as_it_was(page, shown)
        page.command("continue")
        page.is_in("idle")
        page.run_cell(ENDLESS)
        page.is_in("running")
        address = page.run("return location.href")
        page.browser.open("about:blank")
        page = Page(self.browser, address)
        page.is_in("running")
        page.click("#interrupt")
        page.is_in("idle")
        self.assertEqual(page.breakpoints(), [4] if "CALL TWICE" in page.source() else [])

    def saved(self, page):
        page.run(SAVES_BYTES)
        page.click("#save-session")
        name, numbers = page.waits(lambda: page.run("return window.saved"))
        self.assertEqual(name, f"board-{self.board(page)[:8]}.lab80")
        return bytes(numbers)

    def test_a_session_is_a_file(self):
        """It opens as another board, and the native program plays it."""
        page = self.stopped()
        page.picture("web", 1366, 860)
        shown, board, data = self.shown(page), self.board(page), self.saved(page)
        page.run(OPEN, "session.lab80", list(data))
        page.waits(lambda: page.run("return location.search") not in ("", f"?kernel={board}"))
        page.waits(lambda: page.state().startswith("stopped"))
        self.assertNotEqual(self.board(page), board)
        page.waits(lambda: page.registers() == shown[2] and page.switches() == shown[5])
        self.assertEqual(page.ask("debugInfo")["breakpoints"][0]["breakpoints"], [{"line": 4}])
        page.run(OPEN, "cut.lab80", list(data[:-1]))
        page.waits(lambda: page.message().startswith("cut.lab80: it is cut off after "))
        if not PROGRAM.exists():
            self.skipTest(f"there is no {PROGRAM.name} to play it natively")
        played = subprocess.run([PROGRAM], input=data, stdout=subprocess.PIPE, timeout=60, check=True).stdout
        self.assertNotIn(b"refused", played)
        self.assertIn(b'"event":"stopped"', played)

    def test_a_long_session_can_be_begun_afresh(self):
        """A run without an end that takes many seconds, of which a page that is loaded anew tells the progress."""
        page = self.open()
        page.is_in("idle")
        page.run_cell(ENDLESS)
        page.is_in("running")
        time.sleep(6)
        page.run("window.isOld = true; location.reload()")
        page.waits(lambda: page.run("return !window.isOld"))
        self.bar(page, "The board is made again from its session: ")
        page.click("#site button")
        page.is_in("idle")
        self.assertEqual(page.texts("#symbols button"), [])
        self.says_hello(page)

    def test_a_restart(self):
        page = self.stopped()
        page.click("#restart")
        page.answer(True)
        page.waits(lambda: "A new board: the kernel was started again." in page.console())
        page.waits(lambda: (page.is_attached(), page.breakpoints(), page.frames()) == (False, [], ["Nothing is stopped."]))
        page.waits(lambda: not page.run("return document.getElementById('anew').hidden"))
        page.is_in("idle")
        page.reload()
        page.is_in("idle")
        self.assertEqual(page.texts("#symbols button"), [])

    def test_two_windows_share_a_board(self):
        page = self.open()
        page.is_in("idle")
        board = self.board(page)
        self.browser.new_window()
        other = self.open(kernel=board)
        other.is_in("idle")
        other.run_cell(DEAF)
        page.is_in("running")
        page.flip(5)
        other.waits(lambda: other.lamps() == "00100000")
        page.click("#interrupt")
        other.is_in("idle")
        self.browser.use(other.window)
        self.browser.close_window()
        self.says_hello(page)

    def test_a_session_that_is_too_long(self):
        """The board goes on, and says once that it isn't kept. Nothing of it is kept."""
        page = self.stopped()
        page.run("for (let at = 0; at < 36; ++at) send('shell', 'comm_info_request', {text: ';'.repeat(500000)})")
        self.bar(page, "The session isn't kept. It has become too long to be kept. Work goes on, but ")
        page.command("next")
        page.stops("step", 5)
        page.click("#save-session")
        page.says("Save the session: it isn't kept whole")
        page.reload()
        page.is_in("idle")
        self.assertEqual(page.texts("#symbols button"), [])

    def test_messages_that_are_too_long(self):
        page = self.open()
        page.is_in("idle")
        page.run("send('shell', 'comm_info_request', {text: ';'.repeat(1048577)})")
        page.says("A message of 1048588 bytes is too long for the board: 1048576 are the most")
        self.says_hello(page)

    def test_a_program_rests_while_its_board_is_hidden(self):
        """Unless it may run on."""
        page = self.open()
        page.is_in("idle")
        page.run_cell(COUNTS)
        page.is_in("running")
        page.waits(lambda: self.moves(page))
        page.browser.ask("POST", "/window/minimize")
        page.waits(lambda: page.run("return document.hidden"))
        page.waits(lambda: not self.moves(page))
        page.run("document.getElementById('runs-hidden').click()")
        page.waits(lambda: self.moves(page))
        page.run("document.getElementById('runs-hidden').click()")
        page.waits(lambda: not self.moves(page))
        page.browser.size(1250, 1130)
        page.waits(lambda: self.moves(page))

    def test_a_program_waits_for_a_page_that_takes_nothing(self):
        """Some mebibytes at most are on their way. A page that takes nothing for long loses its connection, and connects again."""
        page = self.open()
        page.is_in("idle")
        page.run_cell(TALKS)
        page.waits(lambda: len(page.console()) > 10_000)
        self.assertLess(page.browser.run_later(PARTS % BUSY, 4_000), 8 << 20)
        page.run_cell(TALKS)
        page.waits(lambda: len(page.console()) > 10_000)
        page.run("const until = performance.now() + 12000; while (performance.now() < until);")
        page.waits(lambda: page.state().startswith("connection lost"))
        page.is_in("running")
        page.click("#interrupt")
        page.is_in("idle")
        self.says_hello(page)

    def test_a_page_that_the_browser_freezes(self):
        """As it does with one that nobody has looked at for long."""
        page = self.stopped()
        shown = self.shown(page)
        page.browser.ask("POST", "/window/minimize")
        for state in ("frozen", "active"):
            page.browser.devtools("Page.setWebLifecycleState", state=state)
            time.sleep(1)
        page.browser.size(1250, 1130)
        page.waits(lambda: not page.run("return document.hidden"))
        self.assertEqual(self.shown(page), shown)
        page.command("next")
        page.stops("step", 5)
        page.command("continue")
        page.is_in("idle")
        self.says_hello(page)

    def moves(self, page):
        """Whether BC has changed within some tenths of a second."""
        seen = set()
        for _ in range(4):
            registers = page.ask("variables", variablesReference=1)["variables"]
            seen.add(tuple(each["value"] for each in registers if each["name"] in "BC"))
            time.sleep(0.1)
        return len(seen) > 1


class Refused(SitePages):
    """A browser that keeps nothing: its user lets no site do so."""

    @classmethod
    def setUpClass(cls):
        folder = Path(cls.enterClassContext(tempfile.TemporaryDirectory()))
        (folder / "Default").mkdir()
        settings = {"profile": {"default_content_setting_values": {"cookies": 2}}}
        (folder / "Default/Preferences").write_text(json.dumps(settings), encoding="ascii")
        cls.more = ((f"--user-data-dir={folder}",),)
        super().setUpClass()

    def setUp(self):
        self.window = self.browser.window()
        self.addCleanup(self.close_others)

    def test_everything_else_works(self):
        page = self.open()
        page.is_in("idle")
        page.says("This browser keeps nothing for this page: drafts and settings are gone once it is closed")
        self.bar(page, "The session isn't kept. The browser keeps nothing here, or its room is used up. ")
        page.run("tell('')")
        self.says_hello(page)
        page.run_cell(ENDLESS)
        page.is_in("running")
        page.click("#interrupt")
        page.is_in("idle")
        self.assertEqual(page.message(), "")
        self.assertEqual(page.run("return document.querySelectorAll('#site p').length"), 1)


class Full(SitePages):
    def test_room_that_is_used_up(self):
        """A browser knows for half a minute how much room there was, so that there is none from the first page on."""
        self.browser.devtools("Storage.overrideQuotaForOrigin", origin=self.host.address, quotaSize=1)
        page = self.open()
        page.is_in("idle")
        self.bar(page, "The session isn't kept. The browser keeps nothing here, or its room is used up. Work goes on, but ")
        self.says_hello(page)


class Versions(SitePages):
    """Pages have files of one version."""

    def mark(self, folder, text):
        """Makes another version of the site, in which three files say its name, and one says it later."""
        for name in ("panel/dom.js", "panel/main.js", "web/extras.js"):
            path = folder / name
            kept = path.read_text(encoding="utf-8").partition("\nglobalThis.versions")[0]
            path.write_text(f"{kept}\nglobalThis.versions = [...globalThis.versions || [], '{text}'];\n", encoding="utf-8")
        (folder / "examples.json").write_text(f'[{{"name": "{text}", "lines": ["; {text}"]}}]', encoding="utf-8")
        (folder / "sw.js").unlink()
        maker().place_service_worker(folder)

    def has(self, page, text):
        page.waits(lambda: page.run("return globalThis.versions") == [text] * 3)
        page.waits(lambda: page.texts("#examples option")[1:] == [text])

    def test_a_new_version_is_used_as_a_whole(self):
        old, new = copied(self.enterContext), copied(self.enterContext)
        self.mark(old, "old")
        self.mark(new, "new")
        with static_site.Site(copy=str(old)) as host:
            page = self.open(host)
            self.browser.run_later(READY)
            page.reload()
            self.has(page, "old")
            # a host that has copied half of the new version
            shutil.copy(new / "sw.js", old / "sw.js")
            shutil.copy(new / "panel/dom.js", old / "panel/dom.js")
            self.assertEqual(self.updated(page), "redundant")
            page.reload()
            self.has(page, "old")
            shutil.copytree(new, old, dirs_exist_ok=True)
            self.assertEqual(self.updated(page), "installed")
            page.reload()
            self.has(page, "old")
            self.bar(page, "There is a new version of this page.")
            page.click("#site button")
            page.waits(lambda: page.run("return globalThis.versions") == ["new"] * 3)
            self.has(page, "new")
            kept = "const [done] = arguments; caches.keys().then(names => done(names.length));"
            wait_until(lambda: self.browser.run_later(kept) == 1)

    def updated(self, page):
        """Looks for a new version, and returns what has become of it."""
        return page.browser.run_later("""
            const [done] = arguments;
            navigator.serviceWorker.ready.then(registration => {
                registration.addEventListener('updatefound', () => {
                    const found = registration.installing;
                    found.addEventListener('statechange', () => done(found.state), {once: true});
                });
                registration.update().catch(() => {});
            });""")


class Ends(SitePages):
    """The module can't be used, or ends."""

    def ends(self, change, sentence):
        """Changes the modules of a copy of the site, and opens that."""
        folder = copied(self.enterContext)
        for path in folder.glob("web/*.wasm"):
            path.write_bytes(change(path.read_bytes()))
        with static_site.Site(copy=str(folder)) as host:
            page = self.open(host)
            self.use_up(page)
            page.is_in("the kernel has ended")
            self.bar(page, "The board has ended. ")
            self.assertRegex(page.run(BAR), sentence)
            self.assertEqual(page.run(CELL), "; mine\n")
            # it can be begun anew, and may end again
            page.click("#site button")
            page.waits(lambda: page.run(BAR).startswith("The board has ended. ") or page.state() == "idle")

    def use_up(self, page):
        """Has the board keep as many long texts as it wants, until it has ended."""
        page.run("setCell('; mine\\n')")
        for number in range(200):
            if page.state() == "the kernel has ended":
                return
            page.run("""
                if (!isOpen()) return;
                const field = document.getElementById('cell'), kept = field.value;
                field.value = `; ${arguments[0]}\\n` + '        NOP\\n'.repeat(20000);
                runCell();
                field.value = kept;""", number)

    def test_a_damaged_module(self):
        self.ends(lambda data: data[:5000], r"Its file http\S+\.wasm is damaged \(.*\)\. What is written in the cell stays\.$")

    def test_a_module_of_another_program(self):
        self.ends(lambda data: b"\0asm\1\0\0\0", r"Its file http\S+\.wasm is another program's\. What is written in the cell stays\.$")

    def test_out_of_memory(self):
        self.ends(lambda data: with_most(data, 12 << 20), r"Its program has ended with \d+: .*memory.*\. What is written")


def number_at(data, at):
    """A number in LEB128, and the place behind it."""
    value = shift = 0
    while True:
        value |= (data[at] & 127) << shift
        shift, at = shift + 7, at + 1
        if data[at - 1] < 128:
            return value, at


def number_bytes(value):
    out = bytearray()
    while value > 127:
        out.append(value & 127 | 128)
        value >>= 7
    return bytes(out) + bytes([value])


def with_most(module, size):
    """A module whose memory has at most so many bytes (WebAssembly, "Memory Section")."""
    at = 8
    while module[at] != 5:
        length, body = number_at(module, at + 1)
        at = body + length
    length, body = number_at(module, at + 1)
    _, flags_at = number_at(module, body)
    least, _ = number_at(module, flags_at + 1)
    memory = bytes([1, module[flags_at] | 1]) + number_bytes(least) + number_bytes(size >> 16)
    return module[:at + 1] + number_bytes(len(memory)) + memory + module[body + length:]


class WithoutSuspension(SitePages):
    """Where no program can be suspended, a board is in a worker that sleeps, for one window."""

    @classmethod
    def setUpClass(cls):
        super().setUpClass()
        folder = copied(cls.enterClassContext)
        (folder / "web/abilities.js").write_text("export const canSuspend = false;\n", encoding="ascii")
        (folder / "sw.js").unlink()
        maker().place_service_worker(folder)
        worker = (folder / "sw.js").read_text(encoding="utf-8")
        (folder / "sw.js").write_text(worker.replace('"Suspending" in WebAssembly', "false"), encoding="utf-8")
        cls.host = cls.enterClassContext(static_site.Site(copy=str(folder)))

    def test_a_board(self):
        page = self.open()
        page.is_in("idle")
        self.assertTrue(page.run("return crossOriginIsolated"))
        self.says_hello(page)
        page.run_cell(ENDLESS)
        page.is_in("running")
        page.click("#interrupt")
        page.is_in("idle")
        page.reload()
        page.is_in("idle")
        page.waits(lambda: "START0100" in page.texts("#symbols button"))
        page.click("#restart")
        page.answer(True)
        page.waits(lambda: "A new board: the kernel was started again." in page.console())
        page.is_in("idle")
        page.waits(lambda: page.texts("#symbols button") == [])
        self.says_hello(page)

    def test_a_window_after_another(self):
        page = self.open()
        page.is_in("idle")
        board = self.board(page)
        self.browser.new_window()
        self.browser.open(self.host.page("lab80", "panel.html", kernel=board))
        wait_until(lambda: self.browser.run(BAR).startswith("Another window of this browser has this board"))
        other = self.browser.window()
        self.browser.use(page.window)
        self.browser.close_window()
        self.window = other
        self.browser.use(other)
        page = Page(self.browser)
        page.is_in("idle")
        self.says_hello(page)


if __name__ == "__main__":
    unittest.main()
