"""Handshakes that are longer than those of Jupyter's clients: they are answered at once, however much others with the key have
sent."""
import contextlib
import socket
import time
import unittest

from crowds import Kernel
from streams import header, plain, signed
from zmtp import SOCKET_TYPES, greeting, ready

# What lies behind a handshake is signed and costs nothing. A kernel that reads it with the handshake counts 320 bytes of each
# message, and from 256,000 on lets others wait, a second for each 4,000. So many peers come that it would be ten seconds, and
# some at once, so that a slow machine gets there too.
SIGNED = signed(header(0, "usage_request"), b"{}", b"{}", b'{"x":"' + b"y" * 1_400 + b'"}')
COUNTED, OWED, PAID = 320, 256_000 + 40_000, 4_000
AT_ONCE = 10

# The most seconds for that: some three are enough. A machine that is too slow for it has paid when they have come.
COMING = 120

# The most seconds until a handshake is answered. It takes some milliseconds; a reader that waits until the bytes are paid for
# takes seven and more.
SECONDS = 5

# The seconds between two pieces of a handshake, so that the first is read alone.
BETWEEN = 0.05

# Properties with which a handshake has more than the 192 bytes that are always read at once, and where it is cut, if at all.
LONG = {b"Identity": 255, b"X-Other": 300}
CUTS = (-20, None, 200, 64)


class Handshakes(unittest.TestCase):
    def setUp(self):
        self.kernel = self.enterContext(Kernel())

    def come_and_go(self):
        """Many peers with the key, each with a handshake and a message in one piece."""
        began, number = time.monotonic(), 0
        while number * AT_ONCE * COUNTED <= OWED + PAID * (time.monotonic() - began) and time.monotonic() - began < COMING:
            with contextlib.ExitStack() as stack:
                peers = [stack.enter_context(self.kernel.peer("control")) for _ in range(AT_ONCE)]
                for peer in peers:
                    peer.say(plain("control") + SIGNED)
                    peer.stream.shutdown(socket.SHUT_WR)
                for peer in peers:
                    self.assertTrue(peer.is_ended())
            number += 1

    def answered(self, *pieces):
        """The seconds until a peer that sends its handshake in these pieces is greeted and served."""
        with self.kernel.peer("control") as peer:
            began = time.monotonic()
            for piece in pieces:
                peer.say(piece)
                time.sleep(BETWEEN)
            peer.receive(64)
            self.assertTrue(peer.receive_message()[0].startswith(b"\x05READY"))
            self.assertTrue(peer.is_served())
            return time.monotonic() - began

    def test_a_long_handshake_after_many_peers_with_the_key(self):
        self.come_and_go()
        for name, size in LONG.items():
            for number, cut in enumerate(CUTS):
                # Each has an identity of its own, since the last one may not have left yet.
                whole = greeting() + ready(SOCKET_TYPES["control"], (name, bytes((ord("a") + number,)) * size))
                pieces = (whole,) if cut is None else (whole[:cut], whole[cut:])
                with self.subTest(name, pieces=[len(piece) for piece in pieces]):
                    self.assertLess(self.answered(*pieces), SECONDS)
