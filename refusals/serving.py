"""Starts kernels with connection files of their own, and optionally with failing allocations, reads or writes."""
import json
import os
import random
import select
import subprocess
import tempfile

from refusing import NOTHING, Counts, program

KEY = "a kernel's key"
PORTS = ("shell", "iopub", "stdin", "control", "hb")
FIRST_PORT = 5001
# The most seconds that a kernel may take to start.
SECONDS = 10


class Kernel:
    """A kernel at an address of its own. With a library to preload, its calls may fail."""

    def __init__(self, library=None, refused=NOTHING):
        parts = (random.randrange(1, 255) for _ in range(3))
        self.connection = {"transport": "tcp", "ip": f"127.{'.'.join(map(str, parts))}", "key": KEY,
                           "signature_scheme": "hmac-sha256"}
        self.connection |= {f"{name}_port": FIRST_PORT + place for place, name in enumerate(PORTS)}
        descriptor, self.path = tempfile.mkstemp(suffix=".json")
        with os.fdopen(descriptor, "w", encoding="ascii") as file:
            json.dump(self.connection, file)
        self.counts = Counts(library, refused) if library else None
        self.process = subprocess.Popen(
            [program("lab80_kernel"), "kernel", self.path], env=self.counts.environment if library else {},
            stdin=subprocess.DEVNULL, stdout=subprocess.PIPE, stderr=subprocess.STDOUT)
        said, _, _ = select.select([self.process.stdout], [], [], SECONDS)
        self.listens = bool(said) and self.process.stdout.readline() == b"listening\n"

    def __enter__(self):
        return self

    def __exit__(self, *_):
        self.process.kill()
        self.process.wait()
        self.process.stdout.close()
        os.unlink(self.path)
        if self.counts:
            self.counts.__exit__()

    def status(self, seconds):
        """The status with which it ends within this time, or None."""
        try:
            return self.process.wait(seconds)
        except subprocess.TimeoutExpired:
            return None
