"""The class page of a hub: what it shows of boards, when it looks at them, and what it tells the students' servers."""
import asyncio
import html
import http.server
import json
import os
import re
import subprocess
import sys
import tempfile
import threading
import time
import unittest

import hub
from browser import Browser, wait_until
from panel_page import Page, keep_picture
from ports import free_port
from test_hub import BOARD, LOG_IN, where

WORDS = {"anna": "word of anna", "ben": "word of ben", "cora": "word of cora", "teacher": "word of the teacher"}
LIST = "".join(f"{'*' * (name == 'teacher')}{name} {word}\n" for name, word in WORDS.items())

# Lights lamps, and runs on without another change of them.
LAMPS = "        ORG 100H\nSTART:  MVI A,0{}H\n        OUT 2\nLOOP:   JMP LOOP\n        END START\n"
PRINTS = "        ORG 100H\nSTART:  MVI A,'x'\nLOOP:   OUT 1\n        JMP LOOP\n        END START\n"
WAITS = "        ORG 100H\nSTART:  EI\n        HLT\n        JMP START\n        END START\n"

ROW = re.compile(r"<tr.*?</tr>", re.S)
FIELD = re.compile(r"<td>(.*?)</td>", re.S)

# The texts of the page's rows as a browser shows them; and what its script has asked for.
SHOWN = "return [...document.querySelectorAll('tbody tr')].map(row => [...row.cells].map(cell => cell.textContent.trim()))"
LIT = "return [...document.querySelectorAll('tbody tr.%s .lamps i')].map(each => each.className)"
ASKED = "return performance.getEntriesByType('resource').filter(each => each.name.endsWith('/rows')).length"
TOLD = "return document.getElementById('told').textContent"

# Counts in the panel the looks of others at its board, by the sessions that they come from.
COUNTS_LOOKS = """
    window.looks = [];
    on('message', ({channel, header, parent_header: {session, username} = {}}) => {
        if (channel === 'iopub' && header.msg_type === 'status' && username === '8080 panel, looking' && session !== SESSION)
            window.looks.push(session);
    });"""

# Settings of a student's server that keep what comes to it, as a student can.
KEEPS = """
from tornado.web import RequestHandler
begin = RequestHandler.__init__
def keep(self, application, request, **more):
    with open({path!r}, "a") as file:
        print(request.headers.get("Authorization", ""), file=file)
    begin(self, application, request, **more)
RequestHandler.__init__ = keep
"""


class ClassPage(unittest.TestCase):
    """All tests are of one hub."""

    seconds = 900

    @classmethod
    def setUpClass(cls):
        hub.Hub.needed()
        cls.hub = cls.enterClassContext(hub.Hub(cls.enterClassContext(tempfile.TemporaryDirectory()), LIST))
        cls.class_ = cls.hub.log_in({name: WORDS[name] for name in ("anna", "ben")})
        cls.teacher = hub.Visitor(cls.hub).log_in("teacher", WORDS["teacher"])

    def rows(self, name):
        """A student's rows as a teacher sees them: for each the texts of the fields behind the name."""
        status, _, page = self.teacher.page("/services/class/")
        self.assertEqual(status, 200)
        rows = [[html.unescape(re.sub("<.*?>", "", field)).strip() for field in FIELD.findall(row)] for row in ROW.findall(page)]
        return [fields for first, *fields in filter(None, rows) if first == name]

    def shows(self, name, *wanted):
        """Waits until one of a student's rows has these fields behind the notebook's name."""
        try:
            wait_until(lambda: any(row[2:2 + len(wanted)] == list(wanted) for row in self.rows(name)))
        except TimeoutError:
            raise TimeoutError(f"it shows {self.rows(name)}, and not {wanted}") from None

    def log_in(self, browser, path, name):
        browser.open(self.hub.base + path)
        self.assertEqual(where(browser), "/hub/login")
        browser.run(LOG_IN, name, WORDS[name])

    def opened(self, name):
        """A browser of a student with the panel of a new board, alone on the server."""
        visitor = self.class_[name]
        for board in visitor.boards():
            visitor.ask("DELETE", visitor.at(f"api/kernels/{board['id']}"))
        board = visitor.start_board(f"{name}.ipynb")
        browser = self.enterContext(Browser(free_port(), 1250, 1130))
        path = f"/user/{name}/{BOARD}?kernel={board}"
        self.log_in(browser, path, name)
        wait_until(lambda: where(browser) == f"/user/{name}/{BOARD}")
        page = Page(browser, self.hub.base + path)
        page.is_in("idle")
        return page

    def test_lamps_and_what_a_board_does(self):
        page = self.opened("anna")
        self.shows("anna", "idle", "00", "1")
        page.run_cell(LAMPS.format("81"))
        self.shows("anna", "runs or waits", "81", "1")
        page.waits(lambda: page.text("#panels") == "2 pages look")
        page.click("#attached")
        page.waits(page.is_attached)
        page.waits(lambda: page.run("return !document.querySelector('[data-command=pause]').disabled"))
        page.command("pause")
        page.is_in("stopped: pause")
        self.shows("anna", "stopped", "81", "1")
        page.command("continue")
        self.shows("anna", "runs or waits", "81", "1")
        page.click("#interrupt")
        page.is_in("idle")
        self.shows("anna", "idle", "81", "1")
        page.run_cell(WAITS)
        page.is_in("waits for a button")
        self.shows("anna", "runs or waits", "81", "1")
        page.click("#reset")
        page.answer(True)
        self.shows("anna", "idle", "00", "1")

    def test_a_new_board_and_one_that_prints_without_end(self):
        page = self.opened("ben")
        page.run_cell(LAMPS.format("7E"))
        self.shows("ben", "runs or waits", "7E", "1")
        visitor = self.class_["ben"]
        visitor.ask("POST", visitor.at(f"api/kernels/{page.run('return line.kernel')}/restart"), {})
        self.shows("ben", "idle", "00", "1")
        page.waits(lambda: page.state() == "idle")
        page.run_cell(PRINTS)
        self.shows("ben", "runs or waits", "00", "1")

    def is_quiet(self, page):
        """Whether the board has been looked at, but not within the last seconds."""
        before = page.run("return window.looks.length")
        time.sleep(4)
        return page.run("return window.looks.length") == before > 0

    def test_an_idle_board_is_left_alone_and_an_unseen_page_looks_at_none(self):
        page = self.opened("anna")
        page.run(COUNTS_LOOKS)
        self.shows("anna", "idle", "00", "1")
        # once what the first look has set off is over, two further views of the page find nothing else to do
        wait_until(lambda: self.is_quiet(page))
        seen = page.run("return window.looks.length")
        for _ in range(2):
            self.rows("anna")
            time.sleep(6)
        self.assertLessEqual(page.run("return window.looks.length"), seen + 2)
        page.run_cell(LAMPS.format("55"))
        self.shows("anna", "runs or waits", "55", "1")
        # nobody sees the page any more
        visitor = self.class_["anna"]
        wait_until(lambda: [board["connections"] for board in visitor.boards()] == [1], 120)

    def test_a_teachers_browser(self):
        page = self.opened("anna")
        with Browser(free_port(), 1000, 700) as browser:
            self.log_in(browser, "/services/class/", "teacher")
            wait_until(lambda: where(browser) == "/services/class/")
            wait_until(lambda: ["anna", "runs", "anna.ipynb", "idle", "00", "1"] in browser.run(SHOWN))
            browser.run("window.isOld = true; document.querySelector('a[href*=\"/user/anna/\"]').focus()")
            page.run_cell(LAMPS.format("C5"))
            wait_until(lambda: ["anna", "runs", "anna.ipynb", "runs or waits", "C5", "1"] in browser.run(SHOWN))
            self.assertEqual(browser.run(LIT % "busy"), "on on off off off on off on".split())
            self.assertTrue(browser.run("return window.isOld"))
            self.assertIn("/user/anna/", browser.run("return String(document.activeElement.href)"))
            self.pictures(browser)
            # a page that is hidden asks for nothing
            window, other = browser.window(), browser.new_window()
            browser.use(window)
            browser.ask("POST", "/window/minimize")
            wait_until(lambda: browser.run("return document.hidden"))
            asked = browser.run(ASKED)
            time.sleep(7)
            self.assertLessEqual(browser.run(ASKED), asked + 1)
            browser.use(other)
            browser.close_window()
            browser.use(window)
            browser.size(1000, 700)
            wait_until(lambda: not browser.run("return document.hidden") and browser.run(ASKED) > asked + 1)
            # a login that has ended
            browser.ask("DELETE", "/cookie")
            wait_until(lambda: browser.run(TOLD) == "Your login has ended. Log in again")
            browser.click("#told a")
            # the hub's own login hasn't ended, so it leads straight back
            wait_until(lambda: not browser.run("return window.isOld") and where(browser) == "/services/class/")
            wait_until(lambda: browser.run(ASKED) > 0 and browser.run(TOLD) == "")

    def pictures(self, browser):
        for scheme in ("light", "dark"):
            browser.prefer(scheme)
            for width in (390, 683, 1366):
                browser.size(width, 700)
                time.sleep(0.3)
                wide = browser.run("return document.documentElement.scrollWidth - innerWidth")
                self.assertLessEqual(wide, 0, f"{width} points are too few")
                keep_picture(browser, f"class-{scheme}-{width}")
        browser.prefer("light")
        browser.size(1000, 700)
        keep_picture(browser, "hub-class", "body")

    def test_no_server_hears_what_opens_another(self):
        """A student's server can keep what comes to it: so nothing may come that opens the server of somebody else."""
        heard = "/home/cora/heard"
        self.hub.call(sys.executable, "-B", f"{hub.DEPLOY}/accounts.py", "cora")
        folder = "/home/cora/.jupyter"
        self.hub.call("runuser", "-u", "cora", "--", "mkdir", "-p", folder)
        for name in ("jupyter_notebook_config.py", "jupyter_server_config.py"):
            writes = f'printf %s "$1" > {folder}/{name}'
            self.hub.call("runuser", "-u", "cora", "--", "sh", "-c", writes, "sh", KEEPS.format(path=heard))
        self.class_ |= self.hub.log_in({"cora": WORDS["cora"]})
        self.class_["cora"].start_board("cora.ipynb")
        wait_until(lambda: self.rows("cora")[0][1] == "cora.ipynb")
        words = {line for line in self.hub.call("cat", heard)[1].splitlines() if line.startswith("token ")}
        self.assertTrue(words)
        for word in words:
            stranger = hub.Visitor(self.hub)
            own, *others = [stranger.ask("GET", path, Authorization=word)[0] for path in
                            ("/user/cora/api/kernels", "/user/anna/api/kernels", "/hub/api/users/anna", "/hub/api/users")]
            self.assertEqual(own, 200)
            self.assertNotIn(200, others)


# Prints what is found of a student whose server answers something.
ASKS = """
import asyncio, class_boards
print(asyncio.run(class_boards.student("anna", {"ready": True, "pending": None, "url": "/user/anna/"})))
"""

KERNEL = {"id": "1", "name": "lab80", "execution_state": "idle", "connections": 1}
SESSION = {"path": "a.ipynb", "kernel": {"id": "1"}}


class Answering(http.server.BaseHTTPRequestHandler):
    """Answers for the hub with a token, and for a student's server with what the server has for it."""

    def do_POST(self):
        self.reply(b'{"token": "x"}')

    def do_GET(self):
        kernels, sessions = self.server.answers
        self.reply(kernels if "/kernels" in self.path else sessions)

    def reply(self, content):
        self.send_response(200 if content[:1] != b"/" else 302)
        if content[:1] == b"/":
            self.send_header("Location", content.decode())
        self.send_header("Content-Length", str(len(content)))
        self.end_headers()
        self.wfile.write(content)

    def log_message(self, *_):
        pass


class Strange(unittest.TestCase):
    """A student's server may answer anything; then the page says that it doesn't answer, and shows the others."""

    def ask(self, kernels, sessions):
        with http.server.ThreadingHTTPServer(("127.0.0.1", free_port()), Answering) as server:
            server.answers = [each if isinstance(each, bytes) else json.dumps(each).encode() for each in (kernels, sessions)]
            threading.Thread(target=server.serve_forever, daemon=True).start()
            at = f"http://127.0.0.1:{server.server_port}"
            given = os.environ | {"JUPYTERHUB_API_URL": at, "LAB80_PROXY": at, "JUPYTERHUB_API_TOKEN": "own",
                                  "PYTHONPATH": os.path.join(hub.TOP, "deploy")}
            done = subprocess.run([sys.executable, "-B", "-c", ASKS], capture_output=True, text=True, timeout=60, check=False, env=given)
            server.shutdown()
        self.assertEqual(done.returncode, 0, done.stderr)
        return done.stdout

    def test_what_is_a_server(self):
        found = self.ask([KERNEL, KERNEL | {"id": "2", "name": "python3"}], [SESSION])
        self.assertIn("Student(server='runs', boards=[Board(id='1', path='a.ipynb', state='idle', pages=1", found)
        self.assertNotIn("id='2'", found)

    def test_what_is_none(self):
        for kernels, sessions in ((b"", []), (b"x", []), ([1], []), ([{}], []), (None, None), ([], [1]), ([], [{"kernel": 1}]),
                                  ([KERNEL | {"id": 1}], []), ([KERNEL | {"connections": []}], []),
                                  (b"/user/ben/api/kernels", []), (b" " * (2 << 20), [])):
            with self.subTest(kernels=str(kernels)[:40], sessions=sessions):
                self.assertIn("doesn't answer", self.ask(kernels, sessions))

    def test_much(self):
        found = self.ask([KERNEL | {"id": str(number)} for number in range(500)], [SESSION | {"path": "x" * 5000}] * 3)
        self.assertLess(len(found), 10_000)
        state = self.ask([KERNEL | {"execution_state": "<script>"}], [])
        self.assertIn("state=''", state)


if __name__ == "__main__":
    unittest.main()
