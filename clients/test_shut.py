"""Channels that strangers try to shut: whoever comes after them is let in within seconds, and nobody honest has to leave."""
import collections
import contextlib
import threading
import time

from browser import wait_until
from crowds import PLACES, Kernel, SideBySide, side_by_side, wait_until_ready
from zmtp import CHANNELS, SOCKET_TYPES, greeting, message, ready

# The most seconds until Jupyter's own client is ready beside strangers. The kernel takes five, and sees only then who is to
# leave; the rest is for a busy machine. Where strangers shut a channel for a minute, or for good, it isn't ready by then.
SECONDS = 20

# The most where they haven't made their handshake, for which they have a second if others wait, and else ten.
SECONDS_WITHOUT_A_HANDSHAKE = 8

# The seconds after which a handshake that isn't done is given up while nobody waits, and the least and the most that are seen.
HANDSHAKE, LEAST, MOST = 10, 8, 30

# Sockets on one channel that say nothing, four times as many as it has places. Each may hold a place for one second where
# others wait, so that a newcomer waits for four; for ten, it was forty.
SOCKETS, SECONDS_OF_SOCKETS = 64, 15

# The most seconds until a subscriber is let in after strangers have left megabytes to read on iopub. The kernel takes up to
# thirty; where it reads all that they sent at the rate of strangers, it takes seven minutes.
SECONDS_OF_A_TAIL = 40

# A short frame of 255 bytes, of which none has come, and how often one comes.
HALF_A_MESSAGE, SECONDS_OF_A_DROP = b"\x00\xff", 0.1

# Longer than anyone must have been connected to be asked to leave for another.
HONEST = 8


def subscribes_once(peer):
    """A stranger with its handshake done, which says nothing more. On iopub it subscribes to something, which needs no key."""
    peer.greet()
    if peer.channel == "iopub":
        peer.say(message(b"\x01x"))


def says_nothing(_):
    """A stranger that doesn't even greet."""


@contextlib.contextmanager
def dripping(peers):
    """Strangers that go on with a message, byte after byte, until they are closed."""
    is_over = threading.Event()

    def drip():
        going = list(peers)
        while not is_over.wait(SECONDS_OF_A_DROP):
            for peer in list(going):
                try:
                    peer.say(b"x")
                except OSError:
                    going.remove(peer)

    thread = threading.Thread(target=drip)
    thread.start()
    try:
        yield
    finally:
        is_over.set()
        thread.join()


def established(connection):
    """The ports, own and remote, of all connections with a kernel but those of the heartbeat. There a client itself comes anew
    where it isn't answered within a second, as on a busy machine."""
    ports = {connection[f"{channel}_port"] for channel in CHANNELS if channel != "hb"}
    address = "".join(f"{int(part):02X}" for part in reversed(connection["ip"].split(".")))
    found = set()
    with open("/proc/net/tcp", encoding="ascii") as file:
        for line in file.read().split("\n")[1:-1]:
            own, remote, state = line.split()[1:4]
            if own.startswith(address) and int(own[9:], 16) in ports and state == "01":
                found.add((own[9:], remote))
    return found


class Shut(SideBySide):

    def starts_beside(self, channels, comes, seconds=SECONDS):
        """Jupyter's own client is soon ready beside sixteen strangers on each of these channels."""
        with Kernel() as kernel, contextlib.ExitStack() as strangers:
            for channel in channels:
                for _ in range(PLACES):
                    comes(strangers.enter_context(kernel.peer(channel)))
            with kernel.client() as client:
                wait_until_ready(client, seconds)
            self.assertIsNone(kernel.process.poll())

    @side_by_side
    def test_silent_strangers_on_shell(self):
        self.starts_beside(("shell",), subscribes_once)

    @side_by_side
    def test_strangers_that_subscribe_on_iopub(self):
        self.starts_beside(("iopub",), subscribes_once)

    @side_by_side
    def test_silent_strangers_on_control(self):
        self.starts_beside(("control",), subscribes_once)

    @side_by_side
    def test_silent_strangers_on_the_heartbeat(self):
        self.starts_beside(("hb",), subscribes_once)

    @side_by_side
    def test_half_a_message_is_no_beat(self):
        """Strangers on the heartbeat that send a message which doesn't end, a byte now and then."""
        with Kernel() as kernel, contextlib.ExitStack() as strangers:
            peers = [strangers.enter_context(kernel.peer("hb")) for _ in range(PLACES)]
            for peer in peers:
                peer.greet()
                peer.say(HALF_A_MESSAGE)
            strangers.enter_context(dripping(peers))
            with kernel.client() as client:
                wait_until_ready(client, SECONDS)

    @side_by_side
    def test_silent_strangers_on_all_channels(self):
        self.starts_beside(CHANNELS, subscribes_once)

    @side_by_side
    def test_sockets_that_say_nothing_on_all_channels(self):
        self.starts_beside(CHANNELS, says_nothing, SECONDS_WITHOUT_A_HANDSHAKE)

    @side_by_side
    def test_silent_strangers_on_stdin(self):
        """Nobody is answered on stdin, but a newcomer is greeted there."""
        with Kernel() as kernel, contextlib.ExitStack() as strangers:
            for _ in range(PLACES):
                strangers.enter_context(kernel.peer("stdin")).greet()
            began = time.monotonic()
            newcomer = strangers.enter_context(kernel.peer("stdin"))
            newcomer.stream.settimeout(2 * SECONDS)
            newcomer.greet()
            self.assertLess(time.monotonic() - began, SECONDS)

    @side_by_side
    def test_many_sockets_that_say_nothing(self):
        """They wait in the system's queue before a newcomer, and each has its turn, which is short since others wait."""
        with Kernel() as kernel, contextlib.ExitStack() as silent:
            for _ in range(SOCKETS):
                silent.enter_context(kernel.peer("shell"))
            began = time.monotonic()
            with kernel.peer("shell") as newcomer:
                newcomer.stream.settimeout(2 * SECONDS_OF_SOCKETS)
                self.assertTrue(newcomer.greet().is_served())
            self.assertLess(time.monotonic() - began, SECONDS_OF_SOCKETS)

    @side_by_side
    def test_a_heartbeat_that_stops_amid_its_handshake(self):
        """With one byte more than a greeting the handshake isn't done, and its time goes on. Nobody else waits here."""
        said = greeting() + ready(SOCKET_TYPES["hb"])
        with Kernel() as kernel, contextlib.ExitStack() as slow:
            peers = [slow.enter_context(kernel.peer("hb")) for _ in (64, 65, 70)]
            began = time.monotonic()
            for peer, size in zip(peers, (64, 65, 70)):
                peer.say(said[:size])
            for peer in peers:
                self.assertTrue(peer.is_ended(MOST - (time.monotonic() - began)))
                self.assertGreater(time.monotonic() - began, LEAST, HANDSHAKE)

    @side_by_side
    def test_what_strangers_left_on_iopub(self):
        """Sixteen send until the system takes no more, and leave. Nobody has to read to the end what they sent."""
        with Kernel() as kernel:
            strangers = [kernel.peer("iopub").greet() for _ in range(PLACES)]
            said = message(b"\x00" + b"x" * 200) * 300
            for stranger in strangers:
                stranger.stream.setblocking(False)
                with contextlib.suppress(BlockingIOError):
                    while True:
                        stranger.stream.send(said)
            for stranger in strangers:
                stranger.stream.close()
            began = time.monotonic()
            with kernel.peer("iopub") as newcomer:
                newcomer.stream.settimeout(SECONDS_OF_A_TAIL)
                self.assertTrue(newcomer.greet().is_served())
            self.assertLess(time.monotonic() - began, SECONDS_OF_A_TAIL)

    @side_by_side
    def test_those_who_have_the_key_keep_their_places(self):
        """A seventeenth waits, for longer than a stranger would be let stay, until one of sixteen leaves by itself. On the
        heartbeat nothing is signed, and who beats may stay."""
        with Kernel() as kernel, contextlib.ExitStack() as all_peers:
            peers = {channel: [all_peers.enter_context(kernel.peer(channel)).greet() for _ in range(PLACES)]
                     for channel in ("shell", "control", "hb")}
            self.assertTrue(all(peer.is_served() for of_channel in peers.values() for peer in of_channel))
            late = {channel: all_peers.enter_context(kernel.peer(channel)) for channel in peers}
            for channel, peer in late.items():
                peer.say(greeting() + ready(SOCKET_TYPES[channel]))
            time.sleep(HONEST)
            for channel, of_channel in peers.items():
                self.assertTrue(all(peer.is_served() for peer in of_channel), channel)
                of_channel[0].stream.close()
                late[channel].receive(64)
                late[channel].receive_message()
                self.assertTrue(late[channel].is_served())

    @side_by_side
    def test_who_came_first_stays(self):
        """Strangers come anew all the time, each for a second, while as many wait. It's they who leave for one another, and not
        those who were there before: an honest subscriber shows no key either."""
        with Kernel() as kernel, contextlib.ExitStack() as honest:
            first = [honest.enter_context(kernel.peer(channel)).greet() for channel in ("iopub", "stdin")]
            strangers, until = collections.deque(), time.monotonic() + HONEST
            while time.monotonic() < until:
                for peer in first:
                    for _ in range(PLACES // 2):
                        strangers.append(honest.enter_context(kernel.peer(peer.channel)))
                        strangers[-1].say(greeting() + ready(SOCKET_TYPES[peer.channel]))
                while len(strangers) > 2 * PLACES * len(first):
                    strangers.popleft().stream.close()
                time.sleep(0.25)
            for peer in first:
                self.assertFalse(peer.is_ended(0.1), peer.channel)

    @side_by_side
    def test_handshakes_cost_no_subscriber_its_place(self):
        """The other places are taken by strangers amid their handshakes, who leave before these take too long, while others wait. The
        one subscriber is the only one who has been there for long; but those are newer."""
        with Kernel() as kernel, kernel.peer("iopub") as first:
            first.greet()
            time.sleep(HONEST)
            for _ in range(PLACES):
                with contextlib.ExitStack() as strangers:
                    for _ in range(2 * PLACES):
                        strangers.enter_context(kernel.peer("iopub"))
                    time.sleep(0.4)
            self.assertFalse(first.is_ended(0.1))

    @side_by_side
    def test_sixteen_honest_clients_stay(self):
        """All places are taken, and nobody waits for one: the kernel closes no connection, also none that is silent."""
        with Kernel() as kernel, contextlib.ExitStack() as frontends:
            for _ in range(PLACES):
                frontends.enter_context(kernel.client()).wait_for_ready(timeout=SECONDS)
            # libzmq connects in a thread of its own, on stdin maybe after the client is ready.
            wait_until(lambda: len(established(kernel.connection)) == PLACES * (len(CHANNELS) - 1))
            before = established(kernel.connection)
            time.sleep(HONEST)
            self.assertEqual(established(kernel.connection), before)
