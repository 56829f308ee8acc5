"""The program lab80_web, which is the kernel over its standard input and output: its items, and what it answers."""
import json
import os
import struct
import subprocess

from modules import TOP
from zmtp import greeting, message, ready

# The path of the built program. LAB80_WEB names another one to test.
PROGRAM = os.environ.get("LAB80_WEB", str(TOP / "crates/lab80_web/out/lab80_web"))

# The most seconds that the program may take for the items of a test. It takes some milliseconds.
PATIENCE = 120

# What either side writes before its items.
HOST, KERNEL = greeting() + ready(b"DEALER"), greeting() + ready(b"ROUTER")

CHANNELS = ("shell", "control", "stdin", "iopub")

MOMENT = 951_782_400

# The most Slices of a run.
MOST = 2 ** 64 - 1


def item(word, *fields):
    """An item, whose fields are numbers, texts and bytes."""
    frames = (it if isinstance(it, bytes) else struct.pack(">Q", it) if isinstance(it, int) else it.encode() for it in fields)
    return message(word.encode(), *frames)


def header(msg_type, msg_id="1"):
    return json.dumps({"msg_id": msg_id, "msg_type": msg_type, "session": "host"})


def request(channel, connection, msg_type, content, moment=MOMENT, msg_id="1"):
    frames = "<IDS|MSG>", "", header(msg_type, msg_id), "{}", "{}", json.dumps(content)
    return item("message", channel, connection, moment, *frames)


def execute(code, connection=1):
    return request("shell", connection, "execute_request", {"code": code})


def debug(command, arguments, connection=2):
    return request("control", connection, "debug_request",
                   {"seq": 1, "type": "request", "command": command, "arguments": arguments})


def interrupt(connection=2):
    return request("control", connection, "interrupt_request", {})


def run(count=MOST, moment=MOMENT):
    return item("run", moment, count)


def window(identity="w", first=1):
    """The items of a window, whose connections get the four numbers from this one on."""
    return b"".join(item("join", it, identity) for it in CHANNELS) + item("subscribe", first + 3, "", MOMENT)


def read_message(read):
    """The frames of the next message; `read` returns so many bytes."""
    frames, flags = [], 1
    while flags & 1:
        flags = read(1)[0]
        size = struct.unpack(">Q", read(8))[0] if flags & 2 else read(1)[0]
        frames.append(read(size))
    return frames


class Post:
    """A post: the connections that get it, the frames before the delimiter, and those behind the signature."""

    def __init__(self, frames):
        place = frames.index(b"<IDS|MSG>")
        self.to = list(struct.unpack(f">{len(frames[1]) // 8}Q", frames[1]))
        self.head, self.frames = frames[2:place], frames[2:]
        assert frames[place + 1] == b"", frames
        header, self.parent, metadata, content = frames[place + 2:]
        assert metadata == b"{}", frames
        self.header, self.content = json.loads(header), json.loads(content)
        self.msg_type = self.header["msg_type"]


def answers_in(output):
    """What each item was answered with: its posts, and the frames of its answer."""
    assert output.startswith(KERNEL), output[:100]
    place, found, posts = len(KERNEL), [], []

    def read(size):
        nonlocal place
        assert place + size <= len(output), "the last message is cut off"
        place += size
        return output[place - size:place]

    while place < len(output):
        frames = read_message(read)
        if frames[0] == b"post":
            posts.append(Post(frames))
        else:
            found.append((posts, frames))
            posts = []
    assert not posts, "the last posts have no answer"
    return found


def play(*items, **options):
    """Runs the program on items, and returns its status, its output and its errors."""
    done = subprocess.run([PROGRAM], input=HOST + b"".join(items), capture_output=True, timeout=PATIENCE, check=False, **options)
    return done.returncode, done.stdout, done.stderr.decode()


def ask(*items):
    """The answers to items, with which the program ends well."""
    status, output, errors = play(*items)
    assert (status, errors) == (0, ""), (status, errors)
    return answers_in(output)


class Board:
    """The program, which is asked item by item."""

    def __init__(self):
        self.process = subprocess.Popen([PROGRAM], stdin=subprocess.PIPE, stdout=subprocess.PIPE)
        self.say(HOST)
        assert self.read(len(KERNEL)) == KERNEL

    def __enter__(self):
        return self

    def __exit__(self, *_):
        self.process.kill()
        self.process.communicate()

    def say(self, data):
        self.process.stdin.write(data)
        self.process.stdin.flush()

    def read(self, size):
        data = self.process.stdout.read(size)
        assert len(data) == size, "the program has ended"
        return data

    def message(self):
        return read_message(self.read)

    def ask(self, data):
        """The posts of an item, and the frames of its answer."""
        self.say(data)
        posts = []
        while True:
            frames = self.message()
            if frames[0] != b"post":
                return posts, frames
            posts.append(Post(frames))
