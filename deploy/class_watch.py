"""A watch of a board: its lamps, and whether a program runs, by the messages that every page of the board gets.

It asks as the front panel does: for the lamps by a debug request that only looks, and once whether a cell runs by an empty silent
one, which waits behind it. Servers can't be asked that: Notebook 6 takes the end of each look for the end of the cell."""
import asyncio
import collections
import json
import time
import uuid
from datetime import datetime, timezone

from tornado.httpclient import HTTPRequest
from tornado.websocket import WebSocketError, websocket_connect

from class_boards import FAULTS, LONGEST, PATIENCE, let_in

# The seconds between two looks at a program that runs, and in which an idle board answers an empty cell.
PAUSE, EMPTY_CELL_TAKES = 5, 1

# So many empty cells may wait in a board, which has room for 64 cells.
MOST_LEFT = 4

# A board that posts more messages between two looks than this, or leaves so many looks unanswered, is left alone until its next
# watch.
MOST_POSTS, MOST_UNANSWERED = 5000, 3

# So many connections are opened at once.
opening = asyncio.Semaphore(10)

# The user name of requests that only look, as all pages of a board know it.
LOOKS = "8080 panel, looking"

DEVICES = 3
EMPTY_CELL = {"code": "", "silent": True, "store_history": False, "user_expressions": {}, "allow_stdin": False,
              "stop_on_error": False}
GONE = ("starting", "restarting", "autorestarting", "dead")

# What is read of the messages; a cell's output isn't.
WANTED = ('"status"', '"debug_reply"', '"debug_event"')

# How many empty cells wait in each board.
left = collections.Counter()


class Watch:
    """Begins with the first message, and ends by itself when the connection is lost."""

    def __init__(self, board, token):
        self.board, self.session, self.sequence = board, uuid.uuid4().hex, 0
        self.lamps = self.runs = None
        self.stops, self.due, self.posts, self.unanswered = False, True, 0, 0
        self.asked, self.empty_cell = {}, ""
        self.socket, self.end = None, asyncio.Event()
        self.task = asyncio.ensure_future(self.follow(token))

    def has_ended(self):
        return self.task.done()

    def is_open(self):
        """Whether the server counts this watch among the board's pages."""
        return self.socket is not None and not self.end.is_set()

    def state(self):
        """What the board does, or nothing if it isn't known yet."""
        if self.runs is None:
            return ""
        return "idle" if not self.runs else "stopped" if self.stops else "busy"

    async def follow(self, token):
        request = HTTPRequest(f"{self.board.channels}?session_id={self.session}", headers=let_in(token), connect_timeout=PATIENCE,
                              request_timeout=PATIENCE, follow_redirects=False)
        try:
            async with opening:
                self.socket = await websocket_connect(request, on_message_callback=self.hear, max_message_size=2 * LONGEST)
            await self.begin()
            while not self.end.is_set() and self.unanswered < MOST_UNANSWERED:
                self.posts = 0
                if self.due or self.runs and not self.stops:
                    self.look()
                await self.pause(PAUSE)
        except (*FAULTS, WebSocketError):
            pass  # the page shows what the server tells
        finally:
            if self.socket:
                self.socket.close()

    async def pause(self, seconds):
        """Waits, but not for long if something has changed."""
        until = time.monotonic() + seconds
        while not self.end.is_set() and time.monotonic() < until and not self.due:
            await asyncio.sleep(0.5)

    async def begin(self):
        self.debug("debugInfo", {})
        if left[self.board.id] < MOST_LEFT:
            left[self.board.id] += 1
            self.empty_cell = self.send("shell", "execute_request", EMPTY_CELL)
        self.look()
        await asyncio.sleep(EMPTY_CELL_TAKES)
        if self.runs is None:
            self.runs = bool(self.empty_cell) or self.board.state == "busy"

    def look(self):
        self.due = False
        self.unanswered += 1
        self.debug("variables", {"variablesReference": DEVICES})

    def debug(self, command, arguments):
        self.sequence += 1
        request = {"type": "request", "seq": self.sequence, "command": command, "arguments": arguments}
        self.asked[command] = self.send("control", "debug_request", request)

    def send(self, channel, kind, content):
        """Sends a message. Returns its identifier."""
        header = {"msg_id": uuid.uuid4().hex, "msg_type": kind, "session": self.session, "username": LOOKS, "version": "5.4",
                  "date": datetime.now(timezone.utc).isoformat()}
        message = {"channel": channel, "header": header, "parent_header": {}, "metadata": {}, "content": content, "buffers": []}
        asyncio.ensure_future(self.socket.write_message(json.dumps(message)))
        return header["msg_id"]

    def hear(self, text):
        """A message of the board, or None once the connection is lost."""
        if text is None:
            self.end.set()
            return
        self.posts += 1
        if self.posts > MOST_POSTS:
            self.end.set()
        elif isinstance(text, str) and any(word in text for word in WANTED):
            try:
                self.note(json.loads(text))
            except (ValueError, LookupError, TypeError, AttributeError):
                pass  # no kernel of lab80

    def note(self, message):
        kind, content, parent = message["header"]["msg_type"], message["content"], message["parent_header"]
        if kind == "status":
            self.note_status(content["execution_state"], parent)
        elif kind == "debug_event" and content["event"] in ("stopped", "continued"):
            self.stops, self.due = content["event"] == "stopped", True
        elif kind == "debug_reply" and parent["msg_id"] in self.asked.values():
            self.note_reply(content)

    def note_status(self, state, parent):
        kind, is_look = parent.get("msg_type"), parent.get("username") == LOOKS
        if state in GONE:
            self.runs, self.stops, self.due = False, False, True
        elif kind == "execute_request" and is_look:
            # an empty cell, of this watch or of a page: once it has ended nothing runs
            if state == "idle":
                left.pop(self.board.id, None)
                self.runs, self.stops = False, False
        elif kind in ("execute_request", None):
            self.runs, self.stops, self.due = state == "busy", False, True
        elif not is_look and state == "idle":
            self.due = True

    def note_reply(self, content):
        body = content.get("body") or {}
        if content["command"] == "debugInfo":
            self.stops = bool(body["stoppedThreads"])
        elif content["command"] == "variables":
            values = {each["name"]: each["value"] for each in body["variables"]}
            self.lamps, self.unanswered = int(values["lamps"].removesuffix("H"), 16) & 0xFF, 0

    def close(self):
        self.end.set()
