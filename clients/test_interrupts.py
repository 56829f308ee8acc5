"""Interrupts: one that is asked for as soon as a client hears of a cell ends that cell. No moment is too early for it, however
slow the thread is that runs cells."""
import contextlib
import json
import os
import threading
import time
import unittest

from crowds import Kernel
from streams import header, signed, written
from zmtp import message

# How many rounds there are, or fewer on a busy machine, in so many seconds; and the seconds before each: then those who write
# wait, and a cell's first posts wake them at once.
ROUNDS, SECONDS, REST = 100, 5, 0.02

# The most seconds until something is heard; the worker gets little of a processor, where others use it all a three-hundredth. A
# cell whose interrupt is lost runs for ever.
PATIENCE = 60

LOOP = {"code": "X: JMP X\nEND 0\n"}

# What another client asks for, and how long it rests then, so that the worker gets the processor now and then. Each request
# wakes those who write to iopub, and they write all that there is.
ASKED = signed(header("other", "kernel_info_request"), b"{}", b"{}", b"{}")
BETWEEN = 0.001


class Interrupts(unittest.TestCase):
    def setUp(self):
        self.kernel = self.enterContext(Kernel())
        self.shell, self.iopub, self.control, self.other = (
            self.enterContext(self.kernel.peer(channel)).greet() for channel in ("shell", "iopub", "control", "shell"))
        self.iopub.say(message(b"\x01"))
        for peer in (self.shell, self.iopub, self.control):
            peer.stream.settimeout(PATIENCE)
        for peer in (self.shell, self.control, self.other):
            self.assertTrue(peer.is_served())
        self.number = 0
        self.share_a_processor()

    def share_a_processor(self):
        """The kernel and this client share one processor, on which the worker gives way to all others. So whoever is woken by
        what the worker posts runs before the worker's next step."""
        own = os.sched_getaffinity(0)
        self.addCleanup(os.sched_setaffinity, 0, own)
        for thread in (*self.kernel.threads(), 0):
            # Threads come and go.
            with contextlib.suppress(ProcessLookupError):
                os.sched_setaffinity(thread, {max(own)})
        os.sched_setscheduler(self.kernel.process.pid, os.SCHED_IDLE, os.sched_param(0))

    def rounds(self):
        """The numbers of rounds, as many as there is time for."""
        until = time.monotonic() + SECONDS
        for number in range(ROUNDS):
            if time.monotonic() > until:
                return
            time.sleep(REST)
            yield number

    def requests(self, kind, content, count=1):
        """Requests, as they are sent, and their headers."""
        firsts = [header(self.number + at, kind) for at in range(count)]
        self.number += count
        return b"".join(signed(first, b"{}", b"{}", written(content)) for first in firsts), firsts

    def hear_busy(self, first):
        """Waits until iopub tells that this request is worked on."""
        until = time.monotonic() + PATIENCE
        while time.monotonic() < until:
            _, parent, _, content = self.iopub.receive_message()[-4:]
            if parent == first and b'"busy"' in content:
                return
        raise TimeoutError

    def interrupt(self):
        self.control.say(self.requests("interrupt_request", {})[0])

    def check_ends(self, firsts):
        """Each of these cells is interrupted, and so is each request for that answered."""
        for first in firsts:
            _, parent, _, content = self.shell.receive_message()[-4:]
            self.assertEqual((parent, json.loads(content).get("ename")), (first, "Interrupted"))
            self.assertIn(b'"status":"ok"', self.control.receive_message()[-1])

    def interrupts(self, count):
        """Sends some cells without an end at once, each round, and interrupts each as soon as it is heard of."""
        for number in self.rounds():
            said, firsts = self.requests("execute_request", LOOP, count)
            self.shell.say(said)
            try:
                for first in firsts:
                    self.hear_busy(first)
                    self.interrupt()
                self.check_ends(firsts)
            except TimeoutError:
                self.fail(f"in round {number} a cell went on after its interrupt was answered")

    def ask(self, is_over):
        """Asks again and again."""
        while not is_over.wait(BETWEEN):
            self.other.say(ASKED)
            self.other.receive_message()

    @contextlib.contextmanager
    def another(self):
        """Another client asks all the while."""
        is_over = threading.Event()
        client = threading.Thread(target=self.ask, args=(is_over,), daemon=True)
        client.start()
        try:
            yield
        finally:
            is_over.set()
            client.join()

    def test_a_cell_is_interrupted_as_soon_as_it_is_heard_of(self):
        self.interrupts(1)

    def test_so_are_cells_that_waited_for_others(self):
        self.interrupts(3)

    def test_so_are_cells_beside_another_client_that_asks(self):
        with self.another():
            self.interrupts(2)


if __name__ == "__main__":
    unittest.main()
