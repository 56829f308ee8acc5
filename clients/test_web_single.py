"""The static site's page as one file, which a browser opens from a folder that has nothing else."""
import base64
import contextlib
import gzip
import json
import re
import tempfile
import unittest
from pathlib import Path

import firefox
import static_site
import test_web_panel
import test_web_site
from browser import wait_until
from lab80_client import HELLO
from panel_page import Page
from test_firefox import only
from test_panel import CALLS
from test_web_firefox import SiteFirefox
from test_web_site import BAR, CELL, ENDLESS, FORBIDDEN, SitePages

# The most bytes of the file, of which the module has some 250,000 and the tables of the languages 90,000.
MOST_BYTES = 1_050_000

# What the page has loaded, by kinds of addresses.
SCHEMES = "return performance.getEntriesByType('resource').map(each => new URL(each.name).protocol)"
DATA = re.compile(r'(?<=id="files">).*?(?=</script>)', re.S)


def changed(path, change):
    """A change of the page's text, in which a module is another one."""
    def make(text):
        data = json.loads(DATA.search(text)[0])
        assert change(data["modules"][path]) != data["modules"][path]
        data["modules"][path] = change(data["modules"][path])
        return DATA.sub(lambda _: json.dumps(data).replace("<", "\\u003c"), text)
    return make


class File(unittest.TestCase):
    def setUp(self):
        self.text = Path(static_site.one_file().name, "lab80.html").read_text(encoding="utf-8")

    def test_it_is_small_and_the_same_when_made_again(self):
        with tempfile.TemporaryDirectory() as folder:
            path = Path(folder, "lab80.html")
            static_site.make("--single", path)
            self.assertEqual(path.read_text(encoding="utf-8"), self.text)
            self.assertLess(path.stat().st_size, MOST_BYTES)
            self.assertEqual([each.name for each in Path(folder).iterdir()], ["lab80.html"])

    def test_it_names_no_other_file(self):
        """But for the card and the glossary, whose addresses are other ones once the page has begun."""
        before, data, behind = self.text.partition(DATA.search(self.text)[0])
        self.assertEqual(re.findall(r'(?:src|href)="(?!data:|#|\?)([^"]*)"', before + behind), ["card.html", "glossary.html"])
        self.assertNotRegex(before + behind, r"https?://|url\(|@import")
        self.assertEqual(re.findall(r"https?://(?!www\.w3\.org/2000/svg)[^/]*", data), [])

    def test_it_has_the_module(self):
        program = json.loads(DATA.search(self.text)[0])["program"]
        self.assertEqual(program["path"], "web/lab80_web32.wasm")
        self.assertEqual(gzip.decompress(base64.b64decode(program["letters"]))[:4], b"\0asm")


class InFile:
    """What tests of the site's pages have where the page is one file. Each test has a file of its own, and the browser is asked for
    nothing else."""

    host_class = contextlib.nullcontext

    def setUp(self):
        self.host = static_site.OneFile(self.enterContext(tempfile.TemporaryDirectory()))
        self.window = self.browser.window()
        self.addCleanup(self.close_others)

    def changed(self, change):
        return static_site.OneFile(self.enterContext(tempfile.TemporaryDirectory()), change)


class Visits(InFile, SitePages):
    def test_a_visitor_presses_run(self):
        """The address has the board, and what the policy forbids isn't done."""
        page = self.open()
        page.is_in("idle")
        self.assertIn("hello, world", page.run(CELL))
        page.click("#run")
        page.prints("hello, world\n")
        self.assertEqual(page.run("return location.search"), f"?kernel={self.board(page)}")
        self.assertEqual((page.run(BAR), page.message()), ("", ""))
        self.assertLessEqual(set(page.run(SCHEMES)), {"blob:", "data:"})
        with static_site.Host(str(self.host.path.parent)) as elsewhere:
            found = self.browser.run_later(FORBIDDEN, f"{elsewhere.address}/lab80.html")
            self.assertEqual(elsewhere.asked, [])
        self.assertEqual(found, [0, "", ["connect-src", "img-src", "script-src", "script-src-elem"]])

    def test_an_endless_program_is_stopped(self):
        page = self.open()
        page.is_in("idle")
        page.run_cell(ENDLESS)
        page.is_in("running")
        page.click("#interrupt")
        page.is_in("idle")
        self.says_hello(page)

    def test_an_address_with_a_program(self):
        page = self.open()
        page.is_in("idle")
        page.run("setCell('; mine\\n        HLT\\n')")
        page.click("#share")
        page.waits(lambda: page.message().startswith("Share: "))
        address = page.run("return location.href.split(/[?#]/)[0] + location.hash")
        self.assertEqual(address.partition("#")[0], self.host.address)
        self.browser.open("about:blank")
        page = Page(self.browser, address)
        page.is_in("idle")
        page.waits(lambda: page.run(CELL) == "; mine\n        HLT\n")
        self.assertEqual(page.run("return location.hash"), "")

    def test_the_card(self):
        """It opens in a window of its own, with its styles."""
        page = self.open()
        page.is_in("idle")
        self.browser.click("#to-card")
        [other] = wait_until(lambda: [each for each in self.browser.windows() if each != page.window])
        self.browser.use(other)
        wait_until(lambda: "MOV" in self.browser.run("return document.body.textContent"))
        self.assertEqual(self.browser.run("return getComputedStyle(document.querySelector('.columns')).columnGap"), "22.6772px")

    def test_boards_of_this_browser(self):
        first = self.open()
        first.is_in("idle")
        name = self.board(first)
        page = self.open(path="?kernel=")
        page.is_in("choose a board")
        page.waits(lambda: f"board {name[:8]}, which is kept" in page.texts("#kernels a"))
        page.browser.click("#start-board")
        page.is_in("idle")
        self.assertNotEqual(self.board(page), name)

    def test_a_board_in_two_windows(self):
        """The second window gets the board once the first is closed."""
        page = self.open()
        page.is_in("idle")
        page.run_cell(CALLS)
        page.is_in("idle")
        board = self.board(page)
        self.browser.new_window()
        self.browser.open(self.host.page("lab80", "panel.html", kernel=board))
        wait_until(lambda: self.browser.run(BAR).startswith("Another window of this browser has this board"))
        other = self.browser.window()
        self.browser.use(page.window)
        self.browser.close_window()
        self.window = other
        self.browser.use(other)
        page = Page(self.browser)
        page.is_in("idle")
        page.waits(lambda: "TWICE" in "".join(page.texts("#symbols button")))


@only("a_reload_keeps_the_board", "a_session_is_a_file", "a_long_session_can_be_begun_afresh", "a_restart",
      "a_session_that_is_too_long", "messages_that_are_too_long", "a_program_rests_while_its_board_is_hidden")
class Sessions(InFile, test_web_site.Sessions):
    pass


class Refused(InFile, test_web_site.Refused):
    pass


class Damaged(InFile, SitePages):
    """Files that were changed on their way, and a browser that lacks something."""

    def told(self, change):
        """What the page says."""
        self.browser.open(self.changed(change).address)
        text = "return document.getElementById('message').hidden ? '' : document.querySelector('#message span').textContent"
        return wait_until(lambda: self.browser.run(text))

    def test_a_file_that_is_cut_off(self):
        sentence = "The page can't begin: its file is damaged, or cut off"
        self.assertEqual(self.told(lambda text: text[:-100_000]), sentence)
        self.assertEqual(self.told(lambda text: text.replace('"program"', '"program')), sentence)

    def test_a_damaged_module(self):
        page = self.open(self.changed(lambda text: text.replace('"letters": "', '"letters": "AAAA')))
        page.is_in("the kernel has ended")
        self.bar(page, "The board has ended. Its worker has failed (")
        self.assertIn("hello, world", page.run(CELL))

    def test_a_browser_that_can_not_suspend_programs(self):
        host = self.changed(changed("web/abilities.js", lambda text: text.partition("canSuspend = ")[0] + "canSuspend = false;\n"))
        page = self.open(host)
        page.is_in("the kernel has ended")
        page.run("setCell('; mine\\n')")
        self.bar(page, "The board has ended. This browser can't suspend programs, and so runs no board of a page that is one file. ")
        self.assertEqual(page.run(CELL), "; mine\n")


class InFirefox:
    browser_class = SiteFirefox

    @classmethod
    def setUpClass(cls):
        firefox.needed()
        super().setUpClass()


@only("a_visitor_presses_run", "an_endless_program_is_stopped", "an_address_with_a_program", "the_card", "a_board_in_two_windows")
class FirefoxVisits(InFirefox, Visits):
    pass


@only("a_reload_keeps_the_board", "a_session_is_a_file", "a_restart")
class FirefoxSessions(InFirefox, Sessions):
    pass


@only("a_file_that_is_cut_off", "a_browser_that_can_not_suspend_programs")
class FirefoxDamaged(InFirefox, Damaged):
    pass


if __name__ == "__main__":
    unittest.main()
