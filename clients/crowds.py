"""Shared by the tests of what strangers, peers without the key, can do: tests that run side by side, and kernels of their
own."""
import concurrent.futures
import contextlib
import functools
import itertools
import os
import tempfile
import time
import unittest

from jupyter_client import BlockingKernelClient, write_connection_file

from lab80_client import start_alone
from streams import KEY
from zmtp import Peer

# As many connections as a channel has places.
PLACES = 16

# How long Jupyter's client waits for a beat before it takes the kernel for dead. By default it is a second, which a busy machine
# may take by itself. The kernel lets a newcomer in within half a second; where strangers keep their places for longer, it fails.
SECONDS_OF_A_BEAT = 3

# The length of a page of memory.
PAGE = os.sysconf("SC_PAGE_SIZE")

NUMBERS = itertools.count(1)


def own_address():
    """An address that no other kernel has, so that kernels which begin at once don't find the same ports free."""
    return f"127.{64 + os.getpid() % 64}.{os.getpid() // 64 % 250 + 1}.{next(NUMBERS) % 250 + 1}"


class Kernel:
    """A kernel of its own with the key of `streams`, started as the kernelspec does. It is ended at the end of a `with`."""

    def __enter__(self):
        self.folder = tempfile.TemporaryDirectory()
        self.path, self.connection = write_connection_file(
            os.path.join(self.folder.name, "connection.json"), ip=own_address(), key=KEY)
        self.process = start_alone(self.path)
        return self

    def __exit__(self, *_):
        self.process.kill()
        self.process.communicate()
        self.folder.cleanup()

    def memory(self):
        """How many bytes of memory are its own."""
        with open(f"/proc/{self.process.pid}/statm", encoding="ascii") as file:
            return int(file.read().split()[1]) * PAGE

    def threads(self):
        """The numbers of its threads. The first one's is the process's, and it is the worker."""
        return [int(name) for name in os.listdir(f"/proc/{self.process.pid}/task")]

    def peer(self, channel):
        return Peer(self.connection, channel)

    @contextlib.contextmanager
    def client(self):
        """Jupyter's own client, with all five channels."""
        client = BlockingKernelClient(connection_file=self.path)
        client.load_connection_file()
        client.hb_channel.time_to_dead = SECONDS_OF_A_BEAT
        client.start_channels()
        try:
            yield client
        finally:
            client.stop_channels()


def wait_until_ready(client, seconds):
    """How long Jupyter's own client takes to be answered on shell, iopub and control; or it fails after some time. Its heart must
    beat all the while: it gives up where it isn't answered on shell within a second, and doesn't beat."""
    began = time.monotonic()
    client.wait_for_ready(timeout=seconds)
    client.control_channel.send(client.session.msg("kernel_info_request"))
    client.get_control_msg(timeout=max(began + seconds - time.monotonic(), 1))
    taken = time.monotonic() - began
    # Until it has waited for its first beat, the heart passes for beating.
    time.sleep(max(SECONDS_OF_A_BEAT + 1 - taken, 0))
    if not client.hb_channel.is_beating():
        raise TimeoutError("the heart doesn't beat")
    return taken


def side_by_side(body):
    """A test that begins with all such tests of its class, since they wait rather than work. It must make its own kernel."""
    @functools.wraps(body)
    def test(self):
        self.begun[body.__name__].result()
    test.body = body
    return test


class SideBySide(unittest.TestCase):
    """Tests of which some are `side_by_side`. These begin in threads, and each is told when its turn comes."""

    @classmethod
    def run_apart(cls, name, body):
        case = cls(name)
        try:
            body(case)
        finally:
            case.doCleanups()

    @classmethod
    def setUpClass(cls):
        bodies = {name: value.body for name, value in vars(cls).items() if hasattr(value, "body")}
        pool = concurrent.futures.ThreadPoolExecutor(max(len(bodies), 1))
        cls.addClassCleanup(pool.shutdown)
        cls.begun = {name: pool.submit(cls.run_apart, name, body) for name, body in bodies.items()}
