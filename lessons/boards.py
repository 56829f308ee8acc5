"""A kernel as a board: cells run on it one after the other, and a debugger calls routines, within bounds of time and output."""
import subprocess
import time

from wire import Wire

# The longest cell that is run: a message to the kernel has at most a mebibyte.
MOST_OF_A_CELL = 1_000_000

# The most bytes that a cell or a call may print, and how many are kept, from the end.
MOST_PRINTED, KEPT = 1 << 20, 4096

# The most bytes of memory that one request shows, and the most requests that wait for their answers.
SHOWN_AT_ONCE, ASKED_AT_ONCE = 256, 32

# Seconds for an answer to the debugger, which comes within some milliseconds.
PATIENCE = 60

# What the debugger shows, by its reference.
SHOWN = {"registers": 1, "flags": 2, "devices": 3, "memory": 5}


class Unfit(Exception):
    """Why a notebook can't be marked, in words."""


class Ended(Exception):
    """A cell or a call was ended, or a call came to an end of its own, and not by a return: why, in words."""

    kept = ""


class Late(Ended):
    """Its time was up."""


def ended(why, kept):
    """The exception, with the end of what was printed."""
    why.kept = kept
    return why


def hexadecimal(value):
    return f"0{value:X}H"


def plain(value):
    """A value as the debugger shows it, as a number if it is one: `05AH`, `1`; or `on`."""
    return int(value[:-1], 16) if value.endswith("H") else int(value) if value.isdigit() else value


class Board:
    """A kernel of its own. It is ended with the block in which it is used."""

    def __init__(self):
        from jupyter_client import KernelManager
        self.running = None
        self.manager = KernelManager(kernel_name="lab80")
        self.manager.start_kernel(stdin=subprocess.DEVNULL, stderr=subprocess.DEVNULL)
        self.wire = Wire(self.manager.get_connection_info())
        if not self.is_ready():
            self.__exit__()
            raise Unfit("wasn't run: no kernel started")

    def is_ready(self):
        """Whether the kernel says within a time what it does, which it says to who begins to listen."""
        end = time.monotonic() + PATIENCE
        while time.monotonic() < end and self.manager.is_alive():
            if self.wire.receive("iopub", 1):
                return True
        return False

    def __enter__(self):
        return self

    def __exit__(self, *_):
        self.wire.close()
        self.manager.shutdown_kernel(now=True)

    # ---- cells

    def run(self, text, seconds):
        """Runs a cell. Returns the end of its output, its error, and why it was ended, each empty if there is none."""
        encoded = text.encode(errors="replace")
        if len(encoded) > MOST_OF_A_CELL:
            return "", "", "is too long to be run"
        self.running = self.execute(encoded.decode())
        try:
            kept, error, _ = self.hear(seconds)
        except Ended as why:
            self.end()
            return why.kept, "", str(why)
        return kept, error, ""

    def execute(self, code, allow_stdin=False, silent=False):
        return self.wire.send("shell", "execute_request", {"code": code, "allow_stdin": allow_stdin, "silent": silent})

    def hear(self, seconds, until=None):
        """Hears what the running cell says until it ends, or until a debug event of this name. Returns the end of what was
        printed, the error, and whether the cell has ended."""
        end, printed, kept, error = time.monotonic() + seconds, 0, "", ""
        while True:
            message = self.wire.receive("iopub", end - time.monotonic())
            if message is None:
                raise ended(Late(f"found no end in {seconds:.3g} s"), kept)
            kind, parent, content = message
            if kind == "debug_event" and content["event"] == until:
                return kept, error, False
            if parent != self.running:
                continue
            if kind == "stream":
                printed += len(content["text"])
                kept = (kept + content["text"])[-KEPT:]
                if printed > MOST_PRINTED:
                    raise ended(Ended("printed more than a mebibyte"), kept)
            elif kind == "error":
                error = f"{content['ename']}: {content['evalue']}"
            elif kind == "status" and content["execution_state"] == "idle":
                return kept, error, True

    def end(self):
        """Ends the running cell. A client that falls far behind a program's output loses its connection, and receives nothing
        until it has a new one: so empty cells are run until one of them is seen to end. A kernel that doesn't respond is ended
        itself."""
        asked = set()
        for _ in range(30):
            if not self.manager.is_alive():
                raise Unfit("ended its kernel")
            self.wire.send("control", "interrupt_request", {})
            asked.add(self.execute("", silent=True))
            if self.hears_end(asked, 1):
                return
        raise Unfit("couldn't be ended, so its kernel was")

    def hears_end(self, asked, seconds):
        """Whether one of these requests is seen to end within a time."""
        end = time.monotonic() + seconds
        while time.monotonic() < end:
            _, parent, content = self.wire.receive("iopub", end - time.monotonic()) or ("", None, {})
            if parent in asked and content.get("execution_state") == "idle":
                return True
        return False

    # ---- the debugger

    def debug(self, *requests):
        """Makes debug requests, pairs of a command and its arguments. Returns their responses' bodies."""
        bodies = []
        for at in range(0, len(requests), ASKED_AT_ONCE):
            asked = [self.ask(*request) for request in requests[at:at + ASKED_AT_ONCE]]
            bodies += [self.answer(each) for each in asked]
        return bodies

    def ask(self, command, arguments):
        request = {"type": "request", "seq": 1, "command": command, "arguments": arguments}
        return self.wire.send("control", "debug_request", request)

    def answer(self, asked):
        while True:
            message = self.wire.receive("control", PATIENCE)
            if message is None:
                raise Unfit("its kernel didn't answer")
            _, parent, content = message
            if parent == asked:
                break
        if not content.get("success"):
            raise Unfit(f"its kernel refused: {content.get('message')}")
        return content.get("body")

    def shown(self, *names):
        """What the debugger shows of these scopes: values by their names."""
        bodies = self.debug(*(("variables", {"variablesReference": SHOWN[name]}) for name in names))
        return {each["name"]: plain(each["value"]) for body in bodies for each in body["variables"]}

    def memory(self, *places):
        """The bytes at these places, pairs of an address and a count."""
        parts = [(start + at, min(SHOWN_AT_ONCE, count - at)) for start, count in places for at in range(0, count, SHOWN_AT_ONCE)]
        asked = [("variables", {"variablesReference": SHOWN["memory"], "start": start, "count": count}) for start, count in parts]
        return bytes(plain(each["value"]) for body in self.debug(*asked) for each in body["variables"])

    def load(self, text, lines, seconds):
        """Loads a program and starts it, with breakpoints on these lines, at the first of which it stops."""
        path = self.debug(("attach", {}), ("dumpCell", {"code": text}))[1]["sourcePath"]
        self.debug(("setBreakpoints", {"source": {"path": path}, "breakpoints": [{"line": line} for line in lines]}))
        self.running = self.execute(text, allow_stdin=True)
        _, error, has_ended = self.hear(seconds, "stopped")
        if has_ended:
            self.debug(("disconnect", {}))
            self.running = None
            raise Ended(error)

    def set(self, registers, memory):
        """Sets registers and bytes of the stopped program."""
        values = [(1, name, value) for name, value in registers.items()]
        values += [(5, f"{start + at & 0xFFFF:04X}", byte) for start, content in memory.items() for at, byte in enumerate(content)]
        self.debug(*(("setVariable", {"variablesReference": reference, "name": name, "value": hexadecimal(value)})
                     for reference, name, value in values))

    def go_on(self, seconds):
        """Lets the stopped program go on to the next stop. Returns the end of what it printed."""
        self.wire.drain("stdin")
        self.debug(("continue", {}))
        # a request on shell makes the kernel say at once what it would say with others a moment later
        self.wire.send("shell", "kernel_info_request", {})
        try:
            kept, error, has_ended = self.hear(seconds, "stopped")
        except Late as why:
            raise Ended(self.halted(str(why))) from None
        if has_ended:
            self.running = None
            raise Ended(error or f"ended by HLT at {self.shown('registers')['PC'] - 1 & 0xFFFF:04X}, and not by a return")
        return kept

    def halted(self, why):
        """What a call waits for that came to no end, or why it was ended."""
        if self.wire.has("stdin"):
            return "asks for a line, and nobody types one"
        self.debug(("pause", {}))
        try:
            self.hear(PATIENCE, "stopped")
        except Ended:
            return why
        seen = self.shown("registers", "flags")
        at = seen["PC"] - 1 & 0xFFFF
        if seen["INTE"] == "on" and self.memory((at, 1)) == b"\x76":
            return f"waits for a button at {at:04X}"
        return f"{why}: it was at {seen['PC']:04X}"

    def step(self):
        """Executes one instruction of the stopped program. Returns what it was."""
        where = self.shown("registers")["PC"]
        [body] = self.debug(("disassemble", {"memoryReference": f"0x{where:04x}", "instructionCount": 1}))
        self.debug(("stepIn", {"threadId": 1, "granularity": "instruction"}))
        self.hear(PATIENCE, "stopped")
        return body["instructions"][0]["instruction"].split()[0]

    def leave(self):
        """Ends the program that is called, if it hasn't ended."""
        if self.running is not None:
            self.end()
        self.running = None
        self.debug(("disconnect", {}))
