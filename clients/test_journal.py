"""How long the journal lasts: full speed is a store of slices that time alone fills up again, however often a cell is
started."""
import collections
import json
import time
import unittest

import busy
from crowds import Kernel
from streams import header, signed, written
from test_sharing import COUNTS

# Instructions in a round of the cell's inner loop, of which BC and DE count how many are done.
INSTRUCTIONS = 4

# The store: 524,288 slices of 4,096 instructions, after which a cell is slow. It is somewhat more, since it is filled
# meanwhile.
STORE = 524_288 * 4_096

# All seconds here are without those in which the worker waits for a processor, which others use.

# The instructions that every program has at full speed, and the most seconds that they may take: some four on a fast machine.
# With pauses they'd take twelve minutes.
FIRST, SECONDS_OF_THE_FIRST = 1_000_000_000, 100

# The most seconds until the store is used up: some nine on a fast machine.
SECONDS_OF_THE_STORE = 200

# The most instructions a second of a cell with an empty store, which is paced to some 1,400,000, and is looked at for some
# seconds. At full speed they are more than 100,000,000.
PACED, LOOKED_AT = 10_000_000, 2.0

# The least that it has then, with the longest pauses: 20 slices a second.
LEAST = 40_000

# The seconds between two looks.
PAUSE = 0.25

LOOK = {"type": "request", "seq": 1, "command": "variables", "arguments": {"variablesReference": 1}}


class Journal(unittest.TestCase):
    def setUp(self):
        self.kernel = self.enterContext(Kernel())
        self.shell = self.enterContext(self.kernel.peer("shell")).greet()
        self.control = self.enterContext(self.kernel.peer("control")).greet()
        self.asked = 0

    def ask(self, peer, kind, content):
        self.asked += 1
        peer.say(signed(header(self.asked, kind), b"{}", b"{}", written(content)))

    def hear(self, peer):
        """The content of the next message to a peer."""
        return json.loads(peer.receive_message()[5])

    def done(self):
        """How many instructions of the cell are done, and when."""
        self.ask(self.control, "debug_request", LOOK)
        rows = self.hear(self.control)["body"]["variables"]
        values = {row["name"]: int(row["value"].rstrip("H"), 16) for row in rows}
        rounds = 65_536 * (256 * values["D"] + values["E"]) + -(256 * values["B"] + values["C"]) % 65_536
        worker = self.kernel.process.pid
        return INSTRUCTIONS * rounds, time.monotonic() - busy.waited(worker, worker)

    def rate(self, seconds):
        """The cell's instructions a second for some time."""
        first, began = last, ended = self.done()
        while ended - began < seconds:
            time.sleep(PAUSE)
            last, ended = self.done()
        return (last - first) / (ended - began)

    def use_up(self):
        """Runs the cell until its rate falls. How many instructions it has done by then."""
        began, lately = self.done()[1], collections.deque(maxlen=5)
        while True:
            done, now = self.done()
            self.assertLess(now - began, SECONDS_OF_THE_FIRST if done < FIRST else SECONDS_OF_THE_STORE, f"{done} instructions")
            lately.append((done, now))
            # A busy machine may give the kernel no processor for less than a second.
            if len(lately) == lately.maxlen and done - lately[0][0] < PACED * (now - lately[0][1]):
                return done
            time.sleep(PAUSE)

    def start(self):
        """Starts the cell, and waits until it has begun to count again."""
        before = self.done()[0]
        self.ask(self.shell, "execute_request", {"code": COUNTS})
        while before and self.done()[0] >= before:
            time.sleep(0.01)

    def interrupt(self):
        """Ends the run."""
        self.ask(self.control, "interrupt_request", {})
        self.assertEqual(self.hear(self.control), {"status": "ok"})
        self.assertEqual(self.hear(self.shell)["ename"], "Interrupted")

    def test_a_cell_that_is_started_again_is_as_slow_as_before(self):
        self.start()
        self.assertGreater(self.use_up(), 0.98 * STORE)
        self.interrupt()
        for _ in range(2):
            self.start()
            rate = self.rate(LOOKED_AT)
            self.interrupt()
            self.assertLess(rate, PACED)
            self.assertGreater(rate, LEAST)
