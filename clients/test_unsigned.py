"""What the kernel keeps for peers without the key: little memory, whatever they send, and it's given back when they leave."""
import contextlib
import select
import struct
import time

from crowds import PLACES, Kernel, SideBySide, side_by_side
from streams import header, signed, written
from zmtp import SOCKET_TYPES, greeting, ready

# The longest message that is no breach: 64 frames of a mebibyte. All but the last are sent, so that it is never whole.
MEBIBYTE = 1_048_576
FRAME = b"\x03" + struct.pack(">Q", MEBIBYTE) + b"z" * MEBIBYTE
FRAMES = 63

# How long strangers send, in seconds; how many bytes of memory the kernel may have meanwhile, where each of 62 may have as many
# as the longest request with one cell, 1,310,720, and somewhat more as it grows; and how many when they have left. Without a
# bound each has 66,000,000.
SENDING, MOST, KEPT = 5, 100_000_000, 32_000_000

# The most seconds until the memory is given back, and until somebody with the key is answered. Both take far less; who must wait
# as strangers do, of whom 4,000 bytes a second are read, waits for minutes.
GIVEN_BACK, ANSWERED = 60, 20

# A cell whose text has nearly a mebibyte, most of it a remark.
LONG_CELL = "HLT\nEND 0\n;" + "x" * 1_040_000


class Stranger:
    """A peer without the key that sends frames as fast as the kernel takes them."""

    def __init__(self, peer):
        self.peer, self.sent = peer.greet(), 0
        peer.stream.setblocking(False)

    def fileno(self):
        return self.peer.stream.fileno()

    def send(self):
        """Sends what the system takes. Whether there is more, and somebody who takes it."""
        at = self.sent % len(FRAME)
        try:
            self.sent += self.peer.stream.send(memoryview(FRAME)[at:])
        except BlockingIOError:
            pass
        except OSError:
            return False
        return self.sent < FRAMES * len(FRAME)


def send_all(strangers, until):
    """All send until that time, with a pause ten times a second for whoever iterates."""
    sending = set(strangers)
    while time.monotonic() < until:
        pause = time.monotonic() + 0.1
        while time.monotonic() < pause:
            takers = select.select([], list(sending), [], 0.05)[1] if sending else ()
            for stranger in takers:
                if not stranger.send():
                    sending.discard(stranger)
            if not takers:
                time.sleep(0.02)
        yield


class Unsigned(SideBySide):
    @side_by_side
    def test_frames_without_an_end(self):
        """Strangers in all places but a good client's on the channels where messages are signed, and on the heartbeat."""
        with Kernel() as kernel, contextlib.ExitStack() as open_ones:
            good = [open_ones.enter_context(kernel.peer(channel)).greet() for channel in ("shell", "control")]
            self.assertTrue(all(peer.is_served() for peer in good))
            places = {"shell": PLACES - 1, "control": PLACES - 1, "stdin": PLACES, "hb": PLACES}
            strangers = [Stranger(open_ones.enter_context(kernel.peer(channel)))
                         for channel, count in places.items() for _ in range(count)]
            for _ in send_all(strangers, time.monotonic() + SENDING):
                self.assertLess(kernel.memory(), MOST)
                for peer in good:
                    began = time.monotonic()
                    self.assertTrue(peer.is_served())
                    self.assertLess(time.monotonic() - began, ANSWERED)
            for stranger in strangers:
                stranger.peer.stream.close()
            until = time.monotonic() + GIVEN_BACK
            while kernel.memory() >= KEPT and time.monotonic() < until:
                time.sleep(0.2)
            self.assertLess(kernel.memory(), KEPT)
            self.assertTrue(all(peer.is_served() for peer in good))

    @side_by_side
    def test_the_longest_cell_as_a_first_message(self):
        """It is as long as what strangers may send, and beside these, who have used up what is read at once, it's read at
        once."""
        with Kernel() as kernel, contextlib.ExitStack() as open_ones:
            strangers = [Stranger(open_ones.enter_context(kernel.peer("shell"))) for _ in range(PLACES // 2)]
            for _ in send_all(strangers, time.monotonic() + 1):
                pass
            for number in range(3):
                first = header(number, "execute_request")
                with kernel.peer("shell") as peer:
                    began = time.monotonic()
                    peer.say(greeting() + ready(SOCKET_TYPES["shell"]))
                    peer.receive(64)
                    peer.receive_message()
                    peer.say(signed(first, b"{}", b"{}", written({"code": LONG_CELL + str(number)})))
                    heard = peer.receive_message()
                    self.assertLess(time.monotonic() - began, ANSWERED)
                self.assertIn(first, heard)
                self.assertIn(b'"status":"ok"', heard[-1])
