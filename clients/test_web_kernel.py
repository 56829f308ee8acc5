"""The kernel as a program over standard input and output: recorded sessions, whose posts were worked out independently; items
that are refused; input that isn't ZMTP; runs without an end; want of memory."""
import datetime
import json
import os
import resource
import subprocess
import unittest

from modules import TOP
from web_kernel import (CHANNELS, HOST, KERNEL, MOMENT, MOST, PATIENCE, PROGRAM, Board, answers_in, ask, debug, execute,
                        interrupt, item, play, request, run, window)
from web_sessions import RECORDED, files, item_of
from zmtp import frame, greeting, message, ready

# The greatest limit of a journal: with another one calls may be refused that this kernel, which keeps none, takes.
LIMIT = 4_194_304

# The last is the loader's, which has no memory for the program itself.
ENDED, REFUSED, OUT_OF_MEMORY, FAILED, UNLOADED = 0, 1, 3, 4, 127

FAULTS = {"Full": b"full", "NoConnection": b"no connection"}

# The answers to items, by the replies to their calls.
WORDS = {"Left": b"left", "Subscribed": b"subscribed", "Arrived": b"arrived", "More": b"more", "Idle": b"idle", "Ended": b"ended"}

FIVE = "X: MVI A,5\nHLT\nEND X\n"

ENDLESS = "X: JMP X\nEND X\n"

# A cell that sends bytes without end.
TALKATIVE = "X: MVI A,'x'\nY: OUT 1\nJMP Y\nEND X\n"

# Frames in place of an item.
NO_ITEMS = (
    ["joins", b"shell", b""], ["join"], ["join", b"shell"], ["join", b"shell", b"", b""], ["join", b"hb", b""],
    ["join", b"Shell", b""],
    ["leave"], ["leave", b"1"], ["leave", bytes(7)], ["leave", bytes(9)], ["leave", 1, 2],
    ["subscribe", 4, b""], ["subscribe", 4, b"", bytes(7)], ["subscribe", b"4", b"", MOMENT], ["subscribe", 4, b"", MOMENT, b""],
    ["run"], ["run", MOMENT], ["run", MOMENT, bytes(7)], ["run", bytes(9), 1], ["run", MOMENT, 1, 1],
    ["message", b"shell", 1], ["message", b"hb", 1, MOMENT, b""], ["message", b"shell", bytes(7), MOMENT, b""],
    ["message", b"shell", 1, b"0", b""], [""], ["post", 1],
)

# The frames of a message behind its delimiter, and others in place of them that aren't a message.
HEADER = b'{"msg_id":"1","msg_type":"kernel_info_request","session":"host"}'

NO_MESSAGES = (
    [], [b""], [b"<IDS|MSG>"], [b"<IDS|MSG>", b"", HEADER, b"{}", b"{}"], [b"<IDS|MSG>", b"", b"{}", b"{}", b"{}", b"{}"],
    [b"<IDS|MSG>", b"", HEADER, b"{", b"{}", b"{}"], [b"<IDS|MSG>", b"", HEADER, b"{}", b"", b"{}"],
    [b"<IDS|MSG>", b"", HEADER, b"{}", b"{}", b"\xff"], [b"<ids|msg>", b"", HEADER, b"{}", b"{}", b"{}"],
)

# Input that breaks the protocol, and what is said of it.
BROKEN = (
    (b"GET / HTTP/1.1\r\n\r\n", "no ZMTP greeting"),
    (greeting(version=b"\x02\x00"), "a version before ZMTP 3.0"),
    (greeting(b"PLAIN"), "another mechanism than NULL"),
    (greeting() + message(b"join", b"shell", b""), "a command that isn't accepted"),
    (greeting() + ready(b"SUB"), "a socket type that doesn't fit"),
    (HOST + b"\x08\x00", "reserved flags"),
    (HOST + b"\x02" + (1_048_577).to_bytes(8, "big"), "a frame that is too long"),
    (HOST + b"\x02" + (2 ** 64 - 1).to_bytes(8, "big"), "a frame that is too long"),
    (HOST + frame(bytes(2_097_152)), "a frame that is too long"),
    (HOST + message(*[b""] * 65), "a message of too many frames"),
    (HOST + frame(b"\x05ERROR\x00", command=True), "a command that isn't accepted"),
)


def setUpModule():
    if "LAB80_WEB" not in os.environ:
        subprocess.run([TOP / "build", "lab80_web"], stdin=subprocess.DEVNULL, check=True)


def lines_of(path):
    """The lines of a recorded session, without its fetches, up to the first that no item asks for."""
    with open(path, encoding="ascii") as file:
        texts = file.read().splitlines()
    if json.loads(texts[0])["limit"] != LIMIT:
        return
    for text in texts:
        line = json.loads(text)
        call = line["call"]
        if call["kind"] == "Subscribe" and not call["on"]:
            return
        for at in range(line.get("repeat", 1)):
            if call["kind"] != "Fetch":
                yield json.loads(text.replace("#", str(at)))


def compact(value):
    return json.dumps(value, sort_keys=True, separators=(",", ":"), ensure_ascii=False).encode()


def frames_of(post, moment):
    """The frames of a recorded post that is made at this moment: its topic or the identities, and those of its message."""
    head = [post["topic"].encode()] if "topic" in post else list(map(bytes.fromhex, post["reply_to"]))
    date = datetime.datetime.fromtimestamp(moment, datetime.timezone.utc).strftime("%Y-%m-%dT%H:%M:%SZ")
    header = {"date": date, "msg_id": f"lab80-web_{post['number']}", "msg_type": post["msg_type"], "session": "lab80-web",
              "username": "kernel", "version": "5.4"}
    return [*head, b"<IDS|MSG>", b"", compact(header), post["parent"].encode(), b"{}", compact(post["content"])]


def answer_of(reply):
    """The frames of the answer to the item of a call with this reply."""
    if "refused" in reply:
        return [b"refused", FAULTS[reply["refused"]]]
    if reply["kind"] == "Joined":
        return [b"joined", reply["connection"].to_bytes(8, "big")]
    return [WORDS[reply["kind"]]]


def output_of(lines):
    """What is written for the lines of a session whose posts go to connections that are still there."""
    for line in lines:
        for post in line["posts"]:
            to = b"".join(it.to_bytes(8, "big") for it in post["to"])
            yield message(b"post", to, *frames_of(post, line["call"]["moment"]))
        yield message(*answer_of(line["reply"]))


class Recorded(unittest.TestCase):
    """The recorded sessions of the kernel, each call as an item."""

    seconds = 600

    def check_line(self, line, posts, answer):
        self.assertEqual(answer, answer_of(line["reply"]))
        if "made" in line:
            self.assertEqual(len(posts), line["made"])
            return
        self.assertEqual(len(posts), len(line["posts"]))
        for expected, post in zip(line["posts"], posts):
            # A record doesn't name connections that have left.
            self.assertEqual(expected["to"], [it for it in post.to if it in expected["to"]])
            self.assertEqual(post.frames, frames_of(expected, line["call"]["moment"]))

    def test_sessions(self):
        count = 0
        for path in files():
            lines = list(lines_of(path))
            found = ask(*(item_of(line["call"]) for line in lines))
            self.assertEqual(len(found), len(lines), path)
            for at, (line, (posts, answer)) in enumerate(zip(lines, found)):
                with self.subTest(path=path.name, line=at):
                    self.check_line(line, posts, answer)
            count += len(lines)
        self.assertGreater(count, 2_000)

    def test_files_of_the_crate(self):
        """The gate runs the program, as both compilers build it, on one of the sessions."""
        lines = list(lines_of(RECORDED / "31-pc-and-breakpoints.jsonl"))
        crate = TOP / "crates/lab80_web"
        self.assertEqual((crate / "stdin").read_bytes(), HOST + b"".join(item_of(it["call"]) for it in lines))
        self.assertEqual((crate / "stdout").read_bytes(), KERNEL + b"".join(output_of(lines)))


class Items(unittest.TestCase):
    """Items by hand."""

    def answers(self, *items):
        return [answer for _, answer in ask(*items)]

    def test_what_is_no_item(self):
        for fields in NO_ITEMS:
            with self.subTest(fields=fields):
                join = item("join", "shell", "")
                before, answer, after = self.answers(join, item(*fields), join)
                self.assertEqual(answer, [b"refused", b"not an item"])
                self.assertEqual((before[1][-1], after[1][-1]), (1, 2))

    def test_what_is_no_message(self):
        for frames in NO_MESSAGES:
            with self.subTest(frames=frames):
                self.assertEqual(self.answers(window(), item("message", "shell", 1, MOMENT, *frames))[-1],
                                 [b"refused", b"not a message"])

    def test_connections_that_are_not_there(self):
        good = [b"<IDS|MSG>", b"", HEADER, b"{}", b"{}", b"{}"]
        for number in (0, 5, 2 ** 32 - 1, 2 ** 32, 2 ** 32 + 1, MOST):
            arrives = item("message", "shell", number, MOMENT, *good)
            found = self.answers(window(), item("leave", number), item("subscribe", number, "", MOMENT), arrives)
            self.assertEqual(found[5:], [[b"refused", b"no connection"]] * 3)
        # Requests don't come on iopub, and subscriptions nowhere else.
        found = self.answers(window(), item("message", "iopub", 4, MOMENT, *good), item("subscribe", 1, "", MOMENT))
        self.assertEqual(found[5:], [[b"refused", b"no connection"]] * 2)

    def test_seventeen_windows(self):
        sixteen = b"".join(window(f"w{at}", 1 + 4 * at) for at in range(16))
        more = [item("join", it, "w16") for it in CHANNELS]
        found = self.answers(sixteen, *more, item("leave", 2), more[1])
        self.assertEqual(found[80:84], [[b"refused", b"full"]] * 4)
        self.assertEqual(found[84], [b"left"])
        self.assertEqual(found[85], [b"joined", bytes(7) + b"\x41"])

    def test_each_window_gets_its_replies(self):
        found = ask(window("a"), window("b", 5), execute(FIVE, 1), execute(FIVE, 5), run())
        posts = found[-1][0]
        self.assertEqual([it.to for it in posts if it.msg_type == "execute_reply"], [[1], [5]])
        self.assertEqual({tuple(it.to) for it in posts if it.msg_type != "execute_reply"}, {(4, 8)})

    def test_counts_of_runs(self):
        found = ask(window(), run(0), run(), execute(FIVE), run(0), run(1), run(MOST), run(MOST))
        self.assertEqual([it[0] for _, it in found[5:]], [b"more", b"idle", b"arrived", b"more", b"more", b"idle", b"idle"])

    def test_one_run_is_many(self):
        code = "X: LXI H,0\nY: MVI A,'x'\nOUT 1\nDCX H\nMOV A,H\nORA L\nJNZ Y\nHLT\nEND X\n"
        whole = ask(window(), execute(code), run())
        one_by_one = ask(window(), execute(code), *[run(1)] * 400)
        self.assertEqual(one_by_one[-1][1], [b"idle"])
        self.assertEqual([it.frames for it in whole[-1][0]], [it.frames for posts, _ in one_by_one[6:] for it in posts])

    def test_breakpoint(self):
        found = ask(window(), debug("attach", {}), debug("dumpCell", {"code": ENDLESS}), execute(ENDLESS), run(1))
        path = found[6][0][1].content["body"]["sourcePath"]
        stop = {"source": {"path": path}, "breakpoints": [{"line": 1}], "sourceModified": False}
        found = ask(window(), debug("attach", {}), debug("dumpCell", {"code": ENDLESS}), debug("setBreakpoints", stop),
                    execute(ENDLESS), run(), debug("continue", {"threadId": 1}), run(5))
        events = [it.content for posts, _ in found for it in posts if it.msg_type == "debug_event"]
        self.assertEqual([it["body"]["reason"] for it in events if it["event"] == "stopped"], ["breakpoint"] * 2)

    def test_nothing_runs_after_a_shutdown(self):
        shutdown = request("control", 2, "shutdown_request", {"restart": False})
        found = ask(window(), execute(ENDLESS), run(3), shutdown, run(), run(0))
        self.assertEqual(found[-2:], [([], [b"ended"]), ([], [b"more"])])


class Streams(unittest.TestCase):
    """The streams in which items come."""

    def test_broken_streams(self):
        for data, told in BROKEN:
            with self.subTest(told=told, data=data[:100]):
                done = subprocess.run([PROGRAM], input=data, capture_output=True, timeout=PATIENCE, check=False)
                self.assertEqual((done.returncode, done.stdout, done.stderr.decode()),
                                 (REFUSED, KERNEL, f"broken stream: {told}\n"))

    def test_items_before_the_fault(self):
        status, output, errors = play(window(), b"\x08")
        self.assertEqual((status, errors, len(answers_in(output))), (REFUSED, "broken stream: reserved flags\n", 5))

    def test_an_item_that_is_cut_off(self):
        self.assertEqual(len(ask(window(), run(0)[:-1])), 5)
        self.assertEqual(ask(), [])

    def test_pieces_of_any_size(self):
        data = HOST + window() + execute(FIVE) + run()
        whole = subprocess.run([PROGRAM], input=data, capture_output=True, timeout=PATIENCE, check=True).stdout
        for size in (1, 7, 100):
            with subprocess.Popen([PROGRAM], stdin=subprocess.PIPE, stdout=subprocess.PIPE, bufsize=0) as process:
                for at in range(0, len(data), size):
                    process.stdin.write(data[at:at + size])
                self.assertEqual(process.communicate()[0], whole)

    def test_long_sizes_are_read(self):
        long = b"".join(b"\x03" + len(it).to_bytes(8, "big") + it for it in (b"join", b"shell"))
        self.assertEqual(ask(long + b"\x02" + bytes(8)), [([], [b"joined", bytes(7) + b"\x01"])])

    def test_the_longest_frame(self):
        code = "; " + "x" * 1_000_000 + "\n" + FIVE
        found = ask(window(), execute(code), run())
        self.assertEqual([it.content["code"] for it in found[-1][0] if it.msg_type == "execute_input"], [code])

    def test_a_closed_output(self):
        read, write = os.pipe()
        os.close(read)
        done = subprocess.run([PROGRAM], input=HOST + window(), stdout=write, stderr=subprocess.PIPE, timeout=PATIENCE,
                              check=False)
        os.close(write)
        self.assertEqual((done.returncode, done.stderr), (FAILED, b"a write failed\n"))

    def test_a_failed_read(self):
        folder = os.open("/", os.O_RDONLY)
        done = subprocess.run([PROGRAM], stdin=folder, capture_output=True, timeout=PATIENCE, check=False)
        os.close(folder)
        self.assertEqual((done.returncode, done.stdout, done.stderr), (FAILED, KERNEL, b"a read failed\n"))


class Runs(unittest.TestCase):
    """Runs that have no end of their own."""

    def test_an_interrupt(self):
        with Board() as board:
            board.say(window())
            while board.message() != [b"subscribed"]:
                pass
            board.ask(execute(ENDLESS))
            for _ in range(20):
                self.assertEqual(board.ask(run(50))[1], [b"more"])
            posts, answer = board.ask(interrupt())
            self.assertEqual([it.msg_type for it in posts],
                             ["status", "error", "execute_reply", "status", "interrupt_reply", "status"])
            self.assertEqual(board.ask(run()), ([], [b"idle"]))

    def test_posts_come_while_it_runs(self):
        """The memory doesn't grow with what was written."""
        with Board() as board:
            board.say(window() + execute(TALKATIVE) + run())
            sizes = []
            for at in range(20_000):
                board.message()
                if at % 5_000 == 4_999:
                    with open(f"/proc/{board.process.pid}/statm", encoding="ascii") as file:
                        sizes.append(int(file.read().split()[1]))
            # 4,096 posts of some kilobytes are kept, and there were as many before the first look.
            self.assertLess(max(sizes) - min(sizes), 256)

    def test_want_of_memory(self):
        items = [window(), execute("X: HLT\nDS 60000\nEND X\n"), run(), execute("; " + "x" * 900_000 + "\n" + FIVE), run()]
        whole = play(*items)
        self.assertEqual(whole[0], ENDED)
        ended = set()
        for kilobytes in range(200, 14_000, 300):
            room = kilobytes * 1024
            status, output, errors = play(*items, preexec_fn=lambda: resource.setrlimit(resource.RLIMIT_DATA, (room, room)))
            ended.add(status)
            if status == ENDED:
                self.assertEqual(output, whole[1])
            elif status == OUT_OF_MEMORY:
                self.assertTrue(whole[1].startswith(output), kilobytes)
                self.assertEqual(errors, "out of memory\n")
            else:
                self.assertEqual(status, UNLOADED, errors)
        self.assertLessEqual({ENDED, OUT_OF_MEMORY}, ended)


if __name__ == "__main__":
    unittest.main()
