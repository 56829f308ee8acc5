"""The class page, a service of the hub for teachers alone: each student, whether the server runs, and the boards there, with what
they do, their lamps and a link to each panel. What it asks keeps no forgotten board: it looks only at boards on which somebody
has a page, and only while a teacher sees this one."""
import asyncio
import base64
import hashlib
import html
import os
import pathlib
import string
import time

from jupyterhub.services.auth import HubOAuthCallbackHandler, HubOAuthenticated
from tornado.httpclient import HTTPError
from tornado.web import RequestHandler, authenticated

import class_boards
from class_watch import Watch

PREFIX, STUDENTS = os.environ["JUPYTERHUB_SERVICE_PREFIX"], pathlib.Path(os.environ["LAB80_STATE"], "students")
HERE = pathlib.Path(__file__).resolve().parent
PAGE, SCRIPT = string.Template((HERE / "class_page.html").read_text("utf-8")), (HERE / "class_page.js").read_text("utf-8")
DIGEST = base64.b64encode(hashlib.sha256(SCRIPT.encode()).digest()).decode()
POLICY = f"default-src 'none'; style-src 'unsafe-inline'; script-src 'sha256-{DIGEST}'; connect-src 'self'; frame-ancestors 'none'"

# The seconds between two questions to the servers, and those after which nobody sees the page any more: without its script, it is
# asked for every fifteen seconds, and else every five.
AGAIN, STAYS = 15, 40

WORDS = {"busy": "runs or waits", "dead": "has ended", "starting": "starts", "restarting": "starts", "autorestarting": "starts"}


class Room:
    """The class as it was found last, and the watches of its boards."""

    def __init__(self):
        self.students, self.watches, self.counted = {}, {}, set()
        self.found = self.seen = float("-inf")
        self.finding = asyncio.Lock()
        self.closing = None

    async def look(self):
        """Somebody sees the page: what was found some time ago is found anew."""
        self.seen = time.monotonic()
        async with self.finding:
            if time.monotonic() - self.found >= AGAIN:
                await self.find()
        if not self.closing or self.closing.done():
            self.closing = asyncio.ensure_future(self.close())

    async def find(self):
        counted = {key for key, watch in self.watches.items() if watch.is_open()}
        known, names = await class_boards.servers(), sorted(STUDENTS.read_text(encoding="utf-8").split())
        found = await asyncio.gather(*(class_boards.student(name, known.get(name)) for name in names))
        self.students, self.counted = dict(zip(names, found)), counted
        self.found = time.monotonic()
        await self.watch()

    async def watch(self):
        """Watches the boards on which a page is open."""
        wanted = {(name, board.id): board for name, student in self.students.items() for board in student.boards
                  if self.pages(name, board) > 0}
        for key in [key for key, watch in self.watches.items() if key not in wanted or watch.has_ended()]:
            self.watches.pop(key).close()
        for key in wanted.keys() - self.watches.keys():
            self.watches[key] = Watch(wanted[key], await class_boards.tokens.of(key[0]))

    def pages(self, name, board):
        """How many pages are open on a board. The server counts the watch too, if there was one."""
        return max(0, board.pages - ((name, board.id) in self.counted))

    async def close(self):
        """Ends all watches once nobody sees the page."""
        while time.monotonic() - self.seen < STAYS:
            await asyncio.sleep(1)
        for watch in self.watches.values():
            watch.close()
        self.watches.clear()
        self.found = float("-inf")

    def rows(self):
        return "\n".join(line for name, student in self.students.items() for line in self.rows_of(name, student))

    def rows_of(self, name, student):
        """The rows of a student: one for each board, or one without."""
        if not student.boards:
            return [row(name, student.server)]
        return [self.row_of(name, student, board) for board in student.boards]

    def row_of(self, name, student, board):
        watch = self.watches.get((name, board.id))
        state = watch and watch.state() or board.state
        link = f'<a href="{html.escape(board.panel)}">{html.escape(board.path)}</a>'
        return row(name, student.server, link, state, lamps(watch and watch.lamps), self.pages(name, board))

    def sum(self):
        with_server = sum(student.server == "runs" for student in self.students.values())
        count = len(self.students)
        return f"{count} student{'s' * (count != 1)}, {with_server} with a server."


def row(name, server, board="", state="", shown="", pages=""):
    fields = html.escape(name), server, board, WORDS.get(state, state), shown, pages
    return f'<tr class="{state}">' + "".join(f"<td>{field}</td>" for field in fields) + "</tr>"


def lamps(byte):
    """The lamps of a byte, the highest bit first, and its digits."""
    if byte is None:
        return ""
    lit = "".join(f'<i class="{"on" if byte >> bit & 1 else "off"}"></i>' for bit in range(7, -1, -1))
    return f'<span class="lamps" role="img" aria-label="{byte:02X} hexadecimal">{lit}</span> <code>{byte:02X}</code>'


room = Room()


class Seen(HubOAuthenticated, RequestHandler):
    """Only who has the scope access:services!service=class gets here."""

    async def is_found(self):
        """Whether the class is known. If it isn't, the answer says so."""
        self.set_header("Cache-Control", "no-store")
        self.set_header("Content-Security-Policy", POLICY)
        try:
            await room.look()
        except (HTTPError, OSError):
            self.set_status(503)
            self.finish("The hub doesn't answer.")
            return False
        return True


class ClassPage(Seen):
    @authenticated
    async def get(self):
        if await self.is_found():
            word = html.escape(self.word())
            self.finish(PAGE.substitute(sum=room.sum(), rows=room.rows(), script=SCRIPT, again=AGAIN, word=word))

    def word(self):
        """What JupyterHub, since 4.1, wants to see again with every request of a script. To read it sets its cookie."""
        return self.xsrf_token.decode() if hasattr(self.hub_auth, "check_xsrf_cookie") else ""


class Rows(Seen):
    """What of the page changes, for its script."""

    async def get(self):
        if not self.current_user:
            self.set_status(403)
        elif await self.is_found():
            self.finish({"sum": room.sum(), "rows": room.rows()})


HANDLERS = [(PREFIX, ClassPage), (PREFIX + "rows", Rows), (PREFIX + "oauth_callback", HubOAuthCallbackHandler)]
