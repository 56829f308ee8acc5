"""A hub that ends, is restarted, or loses its proxy while a student's program runs; logins that have ended, and students who use
one browser after another."""
import os
import signal
import tempfile
import unittest

import hub
from browser import Browser, wait_until
from lab80_client import HELLO
from panel_page import Page
from ports import free_port
from test_hub import BOARD, LOG_IN, where
from test_notebook import IS_READY
from test_panel_walk import COUNTS

WORDS = {"anna": "word of anna", "ben": "word of ben", "teacher": "word of the teacher"}
LIST = "".join(f"{'*' * (name == 'teacher')}{name} {word}\n" for name, word in WORDS.items())

# Keeps each state that the page shows.
KEEPS_STATES = """
    const shown = document.getElementById('state-name');
    window.statesSeen = [];
    new MutationObserver(() => window.statesSeen.push(shown.textContent)).observe(shown, {childList: true});"""

# The cells of a notebook that Notebook shows: their prompts and outputs.
CELLS = """
    return Jupyter.notebook.get_cells().map(each => [each.element.find('.input_prompt').text().trim().replace(/\\s/g, ' '),
        each.element.find('.output_subarea').text()]);"""

TOLD = "return document.getElementById('told').textContent"

# The most seconds for a new hub and the pauses of a page that tries again, some ten times what they take on an idle machine.
PATIENCE = 300


class Hub(unittest.TestCase):
    """All tests are of one hub, which serves again after each."""

    seconds = 900
    hub_class = hub.Hub

    @classmethod
    def setUpClass(cls):
        cls.hub_class.needed()
        cls.hub = cls.enterClassContext(cls.hub_class(cls.enterClassContext(tempfile.TemporaryDirectory()), LIST))

    def setUp(self):
        self.browser = self.enterContext(Browser(free_port(), 1250, 1130))

    def log_in(self, path, name):
        self.browser.open(self.hub.base + path)
        wait_until(lambda: where(self.browser) == "/hub/login")
        self.browser.run(LOG_IN, name, WORDS[name])

    def opened(self, name, text=""):
        """The panel of a new board on a student's server; the board runs a cell, if one is given."""
        visitor = self.hub.log_in({name: WORDS[name]})[name]
        for board in visitor.boards():
            visitor.ask("DELETE", visitor.at(f"api/kernels/{board['id']}"))
        path = f"/user/{name}/{BOARD}?kernel={visitor.start_board('a.ipynb')}"
        self.log_in(path, name)
        wait_until(lambda: where(self.browser) == f"/user/{name}/{BOARD}")
        page = Page(self.browser, self.hub.base + path)
        page.is_in("idle")
        if text:
            page.run_cell(text)
            page.is_in("running")
        page.run(KEEPS_STATES)
        return page

    def kernels(self):
        return [process for process in self.hub.processes() if hub.is_kernel(process)]

    def runs_on(self, page):
        """The page comes back by itself, to the board as it was."""
        page.waits(lambda: any("connection lost" in state or "stopped" in state for state in page.run("return window.statesSeen")))
        page.waits(lambda: page.state() == "running", PATIENCE)
        states = page.run("return window.statesSeen")
        self.assertNotIn("the kernel has ended", states)
        self.assertNotIn("log in at this server again", states)
        seen = set()
        page.waits(lambda: seen.add(page.registers()["B"]) or len(seen) > 1)

    def works(self, page):
        page.click("#interrupt")
        page.is_in("idle")
        page.run_cell(HELLO)
        page.waits(lambda: page.console().endswith("hello, world\n"))

    def test_a_hub_that_ends_or_is_restarted_amid_a_run(self):
        """The run goes on meanwhile, and the page comes back to it. So does one that somebody opens then."""
        page = self.opened("anna", COUNTS)
        before = self.kernels()
        for sign in (signal.SIGKILL, signal.SIGTERM):
            with self.subTest(sign=sign):
                page.run("window.statesSeen.length = 0")
                self.hub.restart(sign)
                self.runs_on(page)
                self.assertEqual(self.kernels(), before)
        self.works(page)
        again = Page(self.browser, page.run("return location.href"))
        again.is_in("idle")
        # which of the texts that ran is shown first is another matter
        again.waits(lambda: again.run("return [...lab80.known.texts.values()].some(({text}) => text.includes('hello'))"))

    def test_a_notebook_below_a_hub_that_ends(self):
        """Its cell still runs, and can be interrupted."""
        visitor = self.hub.log_in({"ben": WORDS["ben"]})["ben"]
        self.log_in("/user/ben/notebooks/01-registers.ipynb", "ben")
        wait_until(lambda: self.browser.run(IS_READY))
        before = visitor.boards()[0]["id"]
        self.browser.run("""
            const cell = Jupyter.notebook.insert_cell_at_index('code', 0);
            cell.set_text(arguments[0]);
            cell.execute();""", COUNTS)
        wait_until(lambda: self.browser.run(CELLS)[0][0] == "In [*]:")
        self.hub.restart(signal.SIGKILL)
        wait_until(lambda: self.browser.run("return Jupyter.notebook.kernel.is_connected()"), PATIENCE)
        self.assertEqual(self.browser.run(CELLS)[0][0], "In [*]:")
        self.browser.run("Jupyter.notebook.kernel.interrupt()")
        wait_until(lambda: "Interrupted" in self.browser.run(CELLS)[0][1])
        self.assertEqual([board["id"] for board in self.hub.log_in({"ben": WORDS["ben"]})["ben"].boards()], [before])

    def test_a_proxy_that_is_killed(self):
        """The hub starts another one, which knows no server at first."""
        page = self.opened("anna", COUNTS)
        os.kill(self.hub.process_of("configurable-http-proxy"), signal.SIGKILL)
        self.runs_on(page)
        self.works(page)

    def test_an_old_cookie(self):
        """The page says that the login has ended. Where the hub's own has not, the link leads straight back."""
        page = self.opened("anna", COUNTS)
        name = "jupyterhub-user-anna"
        cookie = {"name": name, "value": "old", "path": "/user/anna/", "httpOnly": True}
        self.browser.ask("DELETE", f"/cookie/{name}")
        self.browser.ask("POST", "/cookie", {"cookie": cookie})
        page.run("line.socket.close()")
        page.is_in("log in at this server again")
        self.assertEqual(page.text("#way"), "Log in")
        address = page.run("return location.href")
        self.browser.click("#way")
        wait_until(lambda: self.browser.run("return window.statesSeen ? '' : location.href") == address)
        page = Page(self.browser)
        page.is_in("running")
        self.works(page)

    def test_two_students_in_one_browser(self):
        """Who comes next sees neither the program nor the board of who was there before; a page that was left open says so."""
        page = self.opened("anna")
        page.run("setCell('; of anna')")
        address = page.run("return location.href")
        left = self.browser.window()
        self.browser.new_window()
        self.browser.open(self.hub.base + "/hub/logout")
        self.log_in(f"/hub/user-redirect/{BOARD}", "ben")
        wait_until(lambda: where(self.browser) == f"/user/ben/{BOARD}", PATIENCE)
        other = Page(self.browser)
        other.is_in("choose a board")
        other.click("#start-board")
        other.is_in("idle")
        self.assertNotIn("anna", other.run("return document.getElementById('cell').value"))
        self.browser.open(address)
        wait_until(lambda: "oauth" in where(self.browser) or "403" in self.browser.run("return document.body.innerText"))
        self.assertFalse(self.browser.run("return document.getElementById('state-name') !== null"))
        self.browser.use(left)
        page.run("line.socket.close()")
        page.is_in("log in at this server again")
        self.assertEqual(page.run("return document.getElementById('cell').value"), "; of anna")

    def test_the_class_page_without_its_hub(self):
        self.opened("anna", COUNTS)
        with Browser(free_port(), 1000, 700) as self.browser:
            self.log_in("/services/class/", "teacher")
            wait_until(lambda: where(self.browser) == "/services/class/")
            wait_until(lambda: "runs or waits" in self.browser.run("return document.body.innerText"))
            self.browser.run("window.isOld = true")
            hub_process = self.hub.process_of("jupyterhub_config.py")
            os.kill(hub_process, signal.SIGSTOP)
            try:
                wait_until(lambda: "hub doesn't answer" in self.browser.run(TOLD), PATIENCE)
                self.assertIn("runs or waits", self.browser.run("return document.querySelector('tbody').innerText"))
            finally:
                os.kill(hub_process, signal.SIGCONT)
            wait_until(lambda: self.browser.run(TOLD) == "", PATIENCE)
            self.hub.restart(signal.SIGKILL)
            wait_until(lambda: self.browser.run(TOLD) != "" or not self.browser.run("return window.isOld"), PATIENCE)


if __name__ == "__main__":
    unittest.main()
