"""The front panel below a hub, where all users' servers have one origin: whose drafts, settings and cell are shown, and where
shared programs lead."""
import base64
import contextlib
import json
import os
import tempfile
import unittest
import unittest.mock

from browser import Browser
from jupyter_servers import TOKEN, Server, free_port
from panel_page import Page

# Records what the page copies, or has the browser refuse it.
COPIES = """
    const writeText = async text => { window.copied = text; };
    Object.defineProperty(navigator, 'clipboard', {configurable: true, value: {writeText}});"""
REFUSES = "Object.defineProperty(navigator, 'clipboard', {value: undefined});"

NOT_KEPT = "Share: the cell is too long to be kept through a login. Who opens the address must be logged in already"

KEYS = "return [...Object.keys(localStorage), ...Object.keys(sessionStorage)].sort()"
PUTS = "Object.assign(arguments[1] ? localStorage : sessionStorage, arguments[0])"

SHOWN = """
    const value = name => document.getElementById(name).value;
    return [value('cell'), value('base'), value('speed'), document.querySelectorAll('#watched li').length];"""
NOTHING = ["hexadecimal", "3", 0]


def letters_of(text):
    return base64.urlsafe_b64encode(text.encode()).decode().rstrip("=")


class UsersServer(Server):
    """A user's server, as a hub starts it: below a path with the user's name."""

    def __init__(self, folder, base, port):
        with open(os.path.join(folder, "jupyter_server_config.json"), "w", encoding="utf-8") as file:
            json.dump({"ServerApp": {"base_url": base}}, file)
        with unittest.mock.patch("jupyter_servers.free_port", return_value=port), \
             unittest.mock.patch.dict(os.environ, JUPYTER_CONFIG_DIR=folder):
            super().__init__("server", folder)
        self.address += base.rstrip("/")


class Users(unittest.TestCase):
    """Users of one browser, one after another, as in a computer room: their servers have the same origin."""

    seconds = 180

    def setUp(self):
        self.folder = self.enterContext(tempfile.TemporaryDirectory())
        self.port = free_port()
        self.origin = f"http://127.0.0.1:{self.port}"
        self.browser = self.enterContext(Browser(free_port(), 1250, 1130))

    @contextlib.contextmanager
    def server(self, base):
        """The server at a path, into which the browser is let. It is at the port of those before it."""
        with UsersServer(self.folder, base, self.port) as server:
            self.browser.open(server.page("lab80", "logo-32x32.png", token=TOKEN))
            yield server
            self.browser.open("about:blank")
            server.end_kernels()

    def page(self, server, **asked):
        """A page of a new board."""
        kernel = server.start_kernel("lab80")
        page = Page(self.browser, server.page("lab80", "panel.html", kernel=kernel, **asked))
        page.is_in("idle")
        return page

    def works(self, page):
        """Leaves a cell, a draft, and settings."""
        page.run("setCell(arguments[0])", "; the answer of anna\n        HLT\n        END 0\n")
        page.click("#run")
        page.waits(lambda: len(page.texts("#drafts option")) == 3)
        page.choose("#base", "decimal")
        page.run("const speed = document.getElementById('speed'); speed.value = 7; speed.oninput()")
        page.run("document.getElementById('watch-place').value = '0100'")
        page.click("#watching button")
        page.is_in("idle")

    def test_a_user_sees_nothing_of_the_one_before(self):
        with self.server("/user/anna/") as server:
            page = self.page(server)
            self.works(page)
            mine = page.run(SHOWN)
            self.assertEqual(mine[1:], ["decimal", "7", 1])
            others = [key for key in page.run(KEYS) if not key.startswith(("lab80 /user/anna/ ", "lab80 cells left "))]
            self.assertEqual(others, [])
        with self.server("/user/ben/") as server:
            page = self.page(server)
            # a first visitor's cell
            page.waits(lambda: page.run(SHOWN)[0].startswith("; Prints a text"))
            self.assertEqual((page.run(SHOWN)[1:], page.texts("#drafts option")), (NOTHING, ["Drafts"]))
            page.run("setCell('; the answer of ben')")
        with self.server("/user/anna/") as server:
            page = self.page(server)
            self.assertEqual(page.run(SHOWN), mine)
            self.assertRegex(page.texts("#drafts option")[1], "  the answer of anna$")

    def test_a_server_alone_has_what_was_kept_before(self):
        draft = {"version": 1, "drafts": [{"text": "; of before\n", "time": 0}]}
        with self.server("/") as server:
            self.browser.run(PUTS, {"lab80 drafts": json.dumps(draft), "lab80 base": '"binary"'}, True)
            self.browser.run(PUTS, {"lab80 cell": '"; a cell"'}, False)
            page = self.page(server)
            self.assertEqual(page.run(SHOWN), ["; a cell", "binary", "3", 0])
            self.assertRegex(page.texts("#drafts option")[1], "  of before$")

    def test_a_shared_program_leads_to_a_board_of_ones_own(self):
        """Below a hub its address has no user's name, and the text stands where a login keeps it; a named server is as good."""
        text = "; <b> shared \u00e9\n        HLT\n"
        for base, hub in (("/user/anna/", "/"), ("/school/user/user/lab/", "/school/")):
            with self.subTest(base=base), self.server(base) as server:
                page = self.page(server)
                page.run(COPIES + "setCell(arguments[0])", text)
                before = page.run("return location.href")
                page.click("#share")
                wanted = f"{self.origin}{hub}hub/user-redirect/kernelspecs/lab80/panel.html?cell={letters_of(text)}"
                page.shows(lambda: page.run("return window.copied"), wanted)
                self.assertEqual((page.message(), page.run("return location.href")), ("", before))
                page.run(REFUSES)
                page.click("#share")
                page.says(f"Share: the browser doesn't let this page copy. This is the address: {wanted}")

    def test_a_long_program_says_that_a_login_loses_it(self):
        with self.server("/user/anna/") as server:
            page = self.page(server)
            page.run(COPIES)
            for length, mark, said in ((1500, "?", ""), (1501, "#", NOT_KEPT)):
                text = ";" * length
                page.run("setCell(arguments[0])", text)
                page.click("#share")
                address = f"{self.origin}/hub/user-redirect/kernelspecs/lab80/panel.html{mark}cell={letters_of(text)}"
                page.shows(lambda: page.run("return window.copied"), address)
                page.says(said)
            page.run("window.copied = ''; setCell(arguments[0])", ";" * 24001)
            page.click("#share")
            page.says("Share: the cell is too long for an address. Save it as a file instead")
            self.assertEqual(page.run("return window.copied"), "")

    def test_an_address_with_a_program_in_its_query(self):
        """The program is taken from the address, also on the way over the list of boards; what is none is passed over."""
        cell = "return document.getElementById('cell').value"
        with self.server("/user/anna/") as server:
            page = self.page(server, cell=letters_of("; taken\n"))
            self.assertEqual(page.run(cell), "; taken\n")
            self.assertRegex(page.run("return location.href"), r"/panel\.html\?kernel=[^&]+&v=[^&]+$")
            page.browser.open(server.page("lab80", "panel.html", cell=letters_of("; by the list\n")))
            page.waits(lambda: len(page.texts("#kernels a")) == 1)
            page.browser.click("#kernels a")
            page.waits(lambda: page.run(cell) == "; by the list\n")
            page = self.page(server, cell="<b>")
            page.says("The address should have a program, and has something else. It was passed over")
            page = self.page(server, cell="QUFB" * 8001)
            page.says("The address has a program that is too long. It was passed over")
            self.assertEqual(page.run(cell), "; by the list\n")


if __name__ == "__main__":
    unittest.main()
