"""How many threads a kernel has, and what it says where it gets too few threads or descriptors, or too little memory: it ends,
and says why, rather than serve a part of its channels."""
import contextlib
import os
import resource
import select
import shutil
import subprocess
import tempfile
import unittest

from jupyter_client import write_connection_file
from jupyter_client.kernelspec import get_kernel_spec

from crowds import PAGE, Kernel, own_address, wait_until_ready
from lab80_client import ENDLESS
from streams import KEY, header, signed, written
from zmtp import CHANNELS, Peer

# The most threads of a kernel that nobody uses, and of one with Jupyter's own client on all channels.
IDLE, WITH_A_FRONTEND = 12, 25

# Too few descriptors for all channels and a connection on each, unless a channel takes one only when somebody comes.
DESCRIPTORS = 16

# The most threads of a user who has no others: with the first number of them no kernel runs.
THREADS = (1, 2, 4, 8)

# A user that nobody is.
NOBODY = 54_321

# Sizes of memory in mebibytes, from one that is hardly enough for the program itself.
SIZES = (4, 6, 8, 12, 16, 24, 32, 48, 64)

# The status of a program that the loader can't load.
LOADER = 127

# The most seconds until a kernel serves, or has ended. It takes some milliseconds, and one that does neither never does.
SECONDS = 60


def program():
    """The kernel's program, without the kernelspec's script."""
    return os.path.join(get_kernel_spec("lab80").resource_dir, "lab80")


class Limited:
    """A kernel's program with a limit, as `prlimit` names it. It is ended at the end of a `with`."""

    def __init__(self, folder, what, most, path_of_program=None, **options):
        path, self.connection = write_connection_file(os.path.join(folder, "connection.json"), ip=own_address(), key=KEY)
        os.chmod(path, 0o644)
        self.process = subprocess.Popen(
            ["prlimit", f"--{what}={most}", path_of_program or program(), "kernel", path], stdin=subprocess.DEVNULL,
            stdout=subprocess.PIPE, stderr=subprocess.PIPE, text=True, **options)

    def __enter__(self):
        return self

    def __exit__(self, *_):
        self.process.kill()
        self.process.communicate()

    def is_listening(self):
        """Whether it serves; if not, it has ended."""
        if not select.select([self.process.stdout], [], [], SECONDS)[0]:
            raise TimeoutError("it neither serves nor ends")
        return self.process.stdout.readline() == "listening\n"

    def ends(self):
        """Its status at its end, and what it says on standard error."""
        wrong = self.process.communicate(timeout=SECONDS)[1]
        return self.process.returncode, wrong


class Limits(unittest.TestCase):
    def setUp(self):
        self.folder = self.enterContext(tempfile.TemporaryDirectory())

    def check_refusal(self, ended, status, *words):
        """A kernel that can't serve ends with this status, and says why in one line."""
        self.assertEqual(ended[0], status, ended)
        self.assertIn(ended[1], [word + "\n" for word in words])

    def test_threads_of_a_kernel(self):
        """They are made as they are needed, so that a server with many kernels has few."""
        with Kernel() as kernel:
            self.assertLessEqual(len(kernel.threads()), IDLE)
            with kernel.client() as client:
                wait_until_ready(client, SECONDS)
                self.assertLessEqual(len(kernel.threads()), WITH_A_FRONTEND)

    def test_too_few_threads(self):
        if os.geteuid():
            self.skipTest("only root can begin a process of a user who has no others")
        os.chmod(self.folder, 0o755)
        copy = shutil.copy(program(), self.folder)
        served = []
        for count in THREADS:
            with Limited(self.folder, "nproc", count, copy, user=NOBODY, group=NOBODY, extra_groups=()) as kernel:
                served.append(kernel.is_listening())
                if not served[-1]:
                    self.check_refusal(kernel.ends(), 3, "no threads")
        self.assertFalse(served[0])

    def test_too_little_memory(self):
        """Where even the system's loader gets too little it says so itself, and no line of the program can."""
        told = []
        for size in SIZES:
            with Limited(self.folder, "as", size << 20) as kernel:
                if not kernel.is_listening():
                    status, wrong = kernel.ends()
                    if status != LOADER:
                        self.check_refusal((status, wrong), 3, "no memory", "no threads")
                        told.append(wrong)
        self.assertIn("no memory\n", told)

    def test_memory_that_is_used_up(self):
        """While a cell runs, which needs some for its journal, the kernel gets no more from one moment on."""
        with Kernel() as kernel, kernel.peer("shell") as shell, kernel.peer("iopub") as iopub:
            self.assertTrue(iopub.greet().is_served())
            shell.greet().say(signed(header(0, "execute_request"), b"{}", b"{}", written({"code": ENDLESS})))
            while not iopub.receive_message()[0].startswith(b"stream"):
                pass
            resource.prlimit(kernel.process.pid, resource.RLIMIT_DATA, (PAGE, PAGE))
            self.check_refusal((kernel.process.wait(SECONDS), kernel.process.stderr.read()), 3, "no memory")

    def test_few_descriptors(self):
        """Either all channels are served, or the kernel refuses to start: to serve some, and say nothing, is worst."""
        with Limited(self.folder, "nofile", DESCRIPTORS) as kernel, contextlib.ExitStack() as served:
            if not kernel.is_listening():
                self.check_refusal(kernel.ends(), 4, "too few descriptors")
                return
            for channel in CHANNELS:
                peer = served.enter_context(Peer(kernel.connection, channel))
                peer.stream.settimeout(SECONDS / 2)
                self.assertTrue(peer.greet().is_served(), channel)
