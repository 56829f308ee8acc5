"""Runs programs with failing allocations, reads or writes, for the scripts in this folder."""
import mmap
import os
import struct
import subprocess
import sys
import tempfile
from contextlib import contextmanager
from pathlib import Path

TOP = Path(__file__).resolve().parent.parent
sys.path.insert(0, str(TOP))

from workspace import KIT, folder

# The most seconds that a program may take. It takes some milliseconds.
SECONDS = 30
# The kinds of calls, in the order of the rows of refuse.c.
ALLOCATIONS, READS, WRITES = KINDS = ("allocations", "reads", "writes")
# A number above any count.
ALL = 2**62


def program(crate):
    return folder(crate) / "out" / crate


def build(*crates):
    for crate in crates:
        subprocess.run([TOP / "build", crate], check=True)


@contextmanager
def refuser(name="refuse"):
    """The library to preload, built from refuse.c, or from another file beside this one."""
    tools = KIT / "toolchain/bin"
    with tempfile.TemporaryDirectory() as place:
        library = Path(place) / f"{name}.so"
        words = [tools / "clang", "-O2", "-Wall", "-shared", "-fPIC", "-nostdlib", f"--ld-path={tools}/ld.lld"]
        subprocess.run([*words, "-o", library, Path(__file__).parent / f"{name}.c"], check=True)
        yield library


class Refused:
    """The calls of a kind that fail, from a first number to a last one."""

    def __init__(self, kind=ALLOCATIONS, first=0, last=0):
        self.kind, self.first, self.last = kind, first, last

    def __str__(self):
        rest = "" if self.last == self.first else " and all after it"
        return f"{self.kind.removesuffix('s')} {self.first}{rest} refused"


NOTHING = Refused()


class Counts:
    """The calls of a process that fail, and the number of its calls of each kind."""

    def __init__(self, library, refused=NOTHING):
        descriptor, self.path = tempfile.mkstemp(dir="/dev/shm")
        os.write(descriptor, bytes(32 * len(KINDS)))
        self.shared = mmap.mmap(descriptor, 32 * len(KINDS))
        os.close(descriptor)
        self.refuse(refused)
        self.environment = {"LD_PRELOAD": str(library), "COUNTS": self.path}

    def __enter__(self):
        return self

    def __exit__(self, *_):
        self.shared.close()
        os.unlink(self.path)

    def row(self, kind):
        """The number of calls of a kind, the first and the last call to fail, and the number of failed calls."""
        at = 32 * KINDS.index(kind)
        return struct.unpack("4q", self.shared[at:at + 32])

    def asked(self):
        return {kind: self.row(kind)[0] for kind in KINDS}

    def refuse(self, refused):
        """From now on these calls fail, and no others of their kind."""
        at = 32 * KINDS.index(refused.kind)
        self.shared[at + 8:at + 24] = struct.pack("2q", refused.first, refused.last)


class Made:
    """A run of a program: its status, its output, the number of its calls, and the number of failed ones."""

    def __init__(self, library, words, text=b"", refused=NOTHING):
        with Counts(library, refused) as counts:
            try:
                done = subprocess.run(words, input=text, capture_output=True, env=counts.environment, timeout=SECONDS)
                self.status, self.printed, self.complained = done.returncode, done.stdout, done.stderr
            except subprocess.TimeoutExpired:
                self.status, self.printed, self.complained = f"none after {SECONDS} seconds", b"", b""
            self.asked, self.refused = counts.asked(), counts.row(refused.kind)[3]
