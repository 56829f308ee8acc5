"""The WebAssembly modules of lab80_web against the program itself: on the same input, the same output to the byte."""
import base64
import collections
import concurrent.futures
import json
import os
import random
import resource
import shutil
import subprocess
import tempfile
import threading
import time
import unittest
from functools import partial
from importlib.machinery import SourceFileLoader
from pathlib import Path
from unittest import mock

import web_sessions
from browser import Browser
from modules import TOP, run_with
from ports import free_port
from test_cells import FAULTS, IMAGES, LONG
from web_kernel import HOST, MOMENT, PROGRAM, answers_in, debug, execute, header, interrupt, item, run, window

web = SourceFileLoader("web_build", str(TOP / "web/build")).load_module()

HERE = Path(__file__).resolve().parent
PLACE, RUN = TOP / "web/out", TOP / "web/run.mjs"

# A program's end: its status, its output, and what it told by standard error.
End = collections.namedtuple("End", "status output told")

# The most seconds that a program may take, some twenty times what it takes on an idle machine.
PATIENCE = 120

# How many random messages, and how many of them a session has. The sessions are others each day; what fails tells the seed.
MESSAGES, LONGEST = int(os.environ.get("LAB80_WEB_MESSAGES", "2000")), 500
DAY = int(time.time()) // 86_400

# A cell without an end, which calls, counts, stores and loads: 4,096 instructions of it are a slice.
ENDLESS = """\
        LXI SP,4000H
AGAIN:  LXI H,2000H
        MVI B,0
NEXT:   MOV A,M
        ADD B
        RLC
        MOV M,A
        INX H
        PUSH H
        CALL SUM
        POP H
        DCR B
        JNZ NEXT
        JMP AGAIN
SUM:    XRI 55H
        DAA
        DAD D
        CPI 10
        RNC
        INR C
        RET
        END 0
"""
SLICE = 4_096

# How many slices are timed, and the least that a module reaches of the program's rate. In node 20 it reaches 0.46 with 64-bit
# addresses and 0.51 with 32-bit ones, in newer engines more; compiled with -O1 in place of -O2 it stays below the least.
TIMED, LEAST = 60_000, 0.4

# Longer frames, from a mebibyte on, end the program.
LONGEST_FRAME = 1_000_000

# How many pages of 65,536 bytes are enough for 40 long cells and their answers.
PLENTY = 1_000

# The functions of web/host.c that are tested by themselves, and the limit of their memory.
HEAP = ("rattle_alloc", "rattle_realloc", "rattle_dealloc", "__multi3", "__lshrti3", "__ashlti3")
HEAP_LIMIT, HEAP_STEPS = 8 * 2**20, 4_000

# What node needs before version 24 for memories with 64-bit addresses.
FLAG = "--experimental-wasm-memory64"

# Runs a module in a page, which gets it and the input, and gives the output, in base64.
IN_PAGE = """
    const bytes = (text) => Uint8Array.from(atob(text), (sign) => sign.charCodeAt(0));
    const {status, output, told} = runOn(new WebAssembly.Module(bytes(module)), bytes(input));
    let text = "";
    for (let at = 0; at < output.length; at += 4096) {
        text += String.fromCharCode(...output.subarray(at, at + 4096));
    }
    return {status, output: btoa(text), told};"""

TELL = """
    const module = new WebAssembly.Module(require("fs").readFileSync(process.argv[1]));
    console.log(JSON.stringify([WebAssembly.Module.imports(module), WebAssembly.Module.exports(module)]));"""


def node_for(module):
    """The words that start a node which can compile a module, or None."""
    for words in (["node"], ["node", FLAG]):
        if subprocess.run([*words, "-e", TELL, module], capture_output=True, timeout=PATIENCE, check=False).returncode == 0:
            return words
    return None


def setUpModule():
    for tool, package in (("node", "nodejs"), ("wasm-opt", "binaryen")):
        if not shutil.which(tool):
            raise unittest.SkipTest(f"there is no {tool}: the Debian package {package} has it")
    subprocess.run([TOP / "web/build"], stdin=subprocess.DEVNULL, check=True)


class Module(unittest.TestCase):
    """How the modules are made."""

    # The most seconds that one of these may take: compiling takes half a minute on an idle machine.
    seconds = 1_200

    def setUp(self):
        self.room = Path(self.enterContext(tempfile.TemporaryDirectory()))

    def test_what_they_import_and_export(self):
        for name in (web.WASM64, web.WASM32):
            with self.subTest(name=name):
                words = node_for(PLACE / name) or self.skipTest(f"this node has no {name}")
                imports, exports = json.loads(ended([*words, "-e", TELL, PLACE / name], b"").output)
                self.assertEqual(sorted((it["module"], it["name"]) for it in imports), [("env", "read"), ("env", "write")])
                self.assertEqual(sorted((it["name"], it["kind"]) for it in exports), [("main", "function"), ("memory", "memory")])

    def test_they_are_the_same_when_made_again(self):
        web.make(self.room)
        for name in (web.WASM64, web.WASM32):
            with self.subTest(name=name):
                self.assertEqual((self.room / name).read_bytes(), (PLACE / name).read_bytes())
        self.assertEqual(sorted(it.name for it in self.room.iterdir()), sorted((web.WASM64, web.WASM32)))

    def test_another_target_is_refused(self):
        lines = [old for old, _ in web.TARGETS]
        good = "\n".join(["; ModuleID", *lines, "define i32 @main() #0 {", "}",
                          'attributes #0 = { "probe-stack"="inline-asm" "target-cpu"="x86-64" }'])
        for line, new in web.TARGETS:
            self.assertIn(new, web.rewritten(good))
            with self.assertRaisesRegex(web.Refusal, "has no line `target"):
                web.rewritten(good.replace(line, line.replace("64", "32")))
        self.assertNotIn("probe-stack", web.rewritten(good))
        for part in ("%1 = call <16 x i8> @llvm.x86.ssse3.pshuf.b.128(<16 x i8> %0)", 'call void asm sideeffect "nop", ""()'):
            with self.assertRaisesRegex(web.Refusal, "is for x86-64 alone"):
                web.rewritten(good.replace("}", part + "\n}", 1))

    def test_without_tools(self):
        with mock.patch.dict(os.environ, PATH=""), self.assertRaisesRegex(web.Refusal, "Debian's package binaryen has it"):
            web.build(self.room)

    def test_a_prover_that_calls_clang_in_another_way(self):
        done = subprocess.CompletedProcess([], 0)
        with mock.patch.multiple(web, KEPT=self.room / "none.bc", mark=lambda _: self.room / "mark"), \
                mock.patch.object(web.subprocess, "run", return_value=done), self.assertRaisesRegex(web.Refusal, "module.bc"):
            web.build(self.room)

    def test_another_import_is_refused(self):
        source = self.room / "more.c"
        source.write_text("int more(void); int main(void) { return more(); }")
        web.run(*web.COMPILE, "-x", "c", source, "-o", self.room / "more.o")
        with self.assertRaisesRegex(web.Refusal, "undefined symbol: more"):
            web.link(self.room / "more.wasm", self.room / "more.o")

    def test_the_heap_and_the_arithmetic(self):
        part, wide, narrow = (self.room / name for name in ("host.o", "wide.wasm", "narrow.wasm"))
        web.run(*web.COMPILE, "-x", "c", web.HOST, "-o", part)
        web.link(wide, part, f"--max-memory={HEAP_LIMIT}", exports=HEAP, imports=())
        web.run(*web.LOWER, wide, "-o", narrow)
        for module in (wide, narrow):
            with self.subTest(module=module.stem):
                words = node_for(module) or self.skipTest("this node has no memories with 64-bit addresses")
                for seed in (1, DAY):
                    ran = ended([*words, HERE / "web_heap.mjs", module, HEAP_LIMIT, seed, HEAP_STEPS], b"")
                    self.assertEqual(ran, (0, b"", ""))


def ended(words, data):
    """The end of a program on an input."""
    done = subprocess.run([str(it) for it in words], input=data, capture_output=True, timeout=PATIENCE, check=False)
    return End(done.returncode, done.stdout, done.stderr.decode(errors="replace"))


class Node:
    """Runs modules in node, started with these words."""

    def __init__(self, words):
        self.words = words

    def end(self, module, data):
        """The end of a module's program on an input."""
        return ended([*self.words, RUN, module], data)


class Page:
    """Runs modules in Chromium, one at a time, in place of a node that can't compile them."""

    def __init__(self):
        self.browser, self.lock = Browser(free_port()), threading.Lock()

    def end(self, module, data):
        given = {"module": base64.b64encode(Path(module).read_bytes()).decode(), "input": base64.b64encode(data).decode()}
        with self.lock:
            found = run_with(self.browser, RUN, ["runOn"], IN_PAGE, **given)
        return End(found["status"], base64.b64decode(found["output"]), found["told"])


class Same(unittest.TestCase):
    """What the program and its modules do."""

    # Before a release there are a hundred times as many random messages as in every run.
    seconds = 3_600

    @classmethod
    def setUpClass(cls):
        cls.runners = {}
        for name in (web.WASM64, web.WASM32):
            words = node_for(PLACE / name)
            cls.runners[name] = Node(words) if words else Page()
            if not words:
                cls.enterClassContext(cls.runners[name].browser)

    def end(self, data):
        """The end of the program on an input, which is that of the modules too."""
        wanted = ended([PROGRAM], data)
        for name, runner in self.runners.items():
            found = runner.end(PLACE / name, data)
            self.assertEqual((name, found.status, found.told), (name, wanted.status, wanted.told))
            self.assertTrue(found.output == wanted.output, f"{name}: {first_difference(found.output, wanted.output)}")
        return wanted

    def nodes(self):
        """The command lines of the modules that node can run."""
        return {name: [*it.words, RUN, PLACE / name] for name, it in self.runners.items() if isinstance(it, Node)}

    def are_same(self, sessions):
        """Runs sessions, with their names, two at a time. Each must end well."""
        with concurrent.futures.ThreadPoolExecutor(2) as pool:
            ends = {name: pool.submit(lambda data: self.end(data)[::2], HOST + items) for name, items in sessions}
            for name, end in ends.items():
                with self.subTest(session=name):
                    self.assertEqual(end.result(), (0, ""))

    def test_recorded_sessions(self):
        self.are_same((path.name, web_sessions.recorded(path)) for path in web_sessions.files())

    def test_cells_of_the_assembler(self):
        """Cells that run, for at most 30 slices each, and cells with a fault."""
        cells = [cell for cell, _ in (*FAULTS, *IMAGES)]
        end = self.end(HOST + window() + b"".join(execute(cell) + run(30) for cell in cells))
        kinds = [post.msg_type for posts, _ in answers_in(end.output) for post in posts]
        self.assertEqual(kinds.count("execute_reply"), len(cells))

    def test_deep_and_long_ones(self):
        """What needs most of the stack, whose overflow would trap: cells and contents as deep as they may be, and deeper."""
        cells = [beginning + piece * count + middle + other * count for beginning, piece, count, middle, other, _, _ in LONG]
        items = [execute(cell) + run(1) for cell in cells if len(json.dumps(cell)) < LONGEST_FRAME]
        for depth in (126, 127, 128, 5_000, 400_000):
            deep, frames = "[" * depth + "]" * depth, ("<IDS|MSG>", "", header("kernel_info_request"), "{}")
            items += [item("message", "shell", 1, MOMENT, *frames, *last) for last in (("{}", deep), (deep, "{}"))]
        end = self.end(HOST + window() + b"".join(items))
        self.assertEqual((end.status, end.told), (0, ""))

    def test_random_sessions(self):
        seeds = range(1_000 * DAY, 1_000 * DAY + -(-MESSAGES // LONGEST))
        print(f"random sessions: the seeds from {seeds[0]} to {seeds[-1]}", flush=True)
        length = min(MESSAGES, LONGEST)
        self.are_same((f"seed {seed}", web_sessions.random_session(random.Random(seed), length)) for seed in seeds)

    def test_an_endless_cell(self):
        """A run ends after its count, in the middle of what runs, and goes on where it was."""
        counts = (0, 1, 0, 2, 3, 100, 1)
        look = [debug("pause", {"threadId": 1}), run(5), *(debug("variables", {"variablesReference": it}) for it in (1, 2, 3))]
        items = [debug("attach", {}), execute(ENDLESS), *map(run, counts), *look, debug("continue", {"threadId": 1}), run(10), *look,
                 interrupt(), run(9)]
        end = self.end(HOST + window() + b"".join(items))
        told = [word for _, (word, *_) in answers_in(end.output) if word in (b"more", b"idle")]
        self.assertEqual((told[1:len(counts)], told[-1]), ([b"more"] * 6, b"idle"))

    def test_streams_that_break(self):
        good = HOST + window() + execute("HLT\nEND 0") + run(9)
        for data in (b"", HOST[:63], b"\0" * 64, HOST[:64] + b"\x04\x05READY", good[:-1], good + b"\x08\0",
                     good + b"\x03\xff" + bytes(7), good + b"\x02" + (2**63).to_bytes(8, "big"),
                     good + 70 * b"\x01\x01x" + b"\0\0", good + b"\x04\x05\x04PING"):
            with self.subTest(end=data[-12:]):
                self.end(data)

    def test_a_write_that_fails(self):
        data = HOST + window()
        for words in ([PROGRAM], *self.nodes().values()):
            with self.subTest(program=words[-1]), open("/dev/full", "wb") as full:
                done = subprocess.run(words, input=data, stdout=full, stderr=subprocess.PIPE, timeout=PATIENCE, check=False)
                self.assertEqual((done.returncode, done.stderr), (4, b"a write failed\n"))

    def test_want_of_memory(self):
        """Wherever the memory can't grow, the program says so and ends, as it does natively, after a part of its output."""
        cells = [execute(f"; {count}\n" + "; a long comment\n" * 20_000 + "HLT\nEND 0") + run(1) for count in range(40)]
        data = HOST + window() + b"".join(cells)
        whole = self.end(data)
        narrow = partial(resource.setrlimit, resource.RLIMIT_AS, (2**24, 2**24))
        native = subprocess.run([PROGRAM], input=data, capture_output=True, timeout=PATIENCE, check=False, preexec_fn=narrow)
        self.assertEqual((native.returncode, native.stderr), (3, b"out of memory\n"))
        for name, runner in self.runners.items():
            module = (PLACE / name).read_bytes()
            for more in (0, 1, 3, 10, 30, 100, 300, PLENTY):
                with self.subTest(name=name, more=more), tempfile.NamedTemporaryFile(suffix=".wasm") as file:
                    file.write(with_limit(module, more))
                    file.flush()
                    end = runner.end(file.name, data)
                    if more == PLENTY:
                        self.assertEqual(end.status, 0)
                    else:
                        self.assertEqual((end.status, end.told), (3, "out of memory\n"))
                    self.assertTrue(whole.output.startswith(end.output))
                    self.assertEqual(end.output == whole.output, more == PLENTY)

    def test_the_rate(self):
        """Instructions a second of processor time, which tells more than the clock's where other processes run. They slow down each
        other all the same, so a module is compared with the program in the same round. The best round counts, and there are more of
        them while a module hasn't reached the least."""
        programs = {"native": [PROGRAM], **self.nodes()}
        start, whole = (HOST + window() + execute(ENDLESS) + run(count) for count in (1, TIMED + 1))
        reached = dict.fromkeys(self.nodes(), 0)
        for count in range(12):
            rates = {name: SLICE * TIMED / (seconds(words, whole) - seconds(words, start)) for name, words in programs.items()}
            reached = {name: max(before, rates[name] / rates["native"]) for name, before in reached.items()}
            if count > 1 and min(reached.values()) > LEAST:
                break
        print("million instructions a second:", *(f"{name} {rate / 1e6:.0f}" for name, rate in rates.items()),
              "of the program's rate:", *(f"{name} {part:.2f}" for name, part in reached.items()), flush=True)
        for name, part in reached.items():
            with self.subTest(name=name):
                self.assertGreater(part, LEAST)


def seconds(words, data):
    """The seconds of processor time that a program takes for an input."""
    before = resource.getrusage(resource.RUSAGE_CHILDREN)
    end = ended(words, data)
    after = resource.getrusage(resource.RUSAGE_CHILDREN)
    if end.status:
        raise RuntimeError(end.told)
    return after.ru_utime + after.ru_stime - before.ru_utime - before.ru_stime


def first_difference(found, wanted):
    """Where two outputs differ first, and what stands there."""
    at = len(os.path.commonprefix([found, wanted]))
    return f"from byte {at} on {found[at:at + 60]}, not {wanted[at:at + 60]}"


def with_limit(module, more):
    """A module whose memory can grow by this many pages and no more."""
    at = 8
    while module[at] != 5:
        size, begin = number_at(module, at + 1)
        at = begin + size
    size, begin = number_at(module, at + 1)
    # Of the one memory: its flags, of which 4 tells 64-bit addresses and 1 a limit; its size at first; and its limit.
    least, _ = number_at(module, begin + 2)
    section = bytes((1, module[begin + 1] | 1)) + number_of(least) + number_of(least + more)
    return module[:at] + bytes((5, len(section))) + section + module[begin + size:]


def number_at(module, at):
    """A number of a module, in LEB128, and where it ends."""
    value = shift = 0
    while True:
        value |= (module[at] & 127) << shift
        at, shift = at + 1, shift + 7
        if module[at - 1] < 128:
            return value, at


def number_of(value):
    return bytes((value & 127,)) if value < 128 else bytes((value & 127 | 128,)) + number_of(value >> 7)
