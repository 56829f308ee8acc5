"""The front panel keeps the board: snapshots, a new board that is restored from one, and what it says of a journal near its end."""
import time

from jupyter_servers import TOKEN
from panel_page import Page
from panel_tests import Pages
from test_panel_anew import GONE, UNASKED, kill
from test_panel_walk import COUNTS

# A routine without a start, and a program that fills most of the memory, calls the routine, and changes a byte of its text.
ROUTINE = "        ORG 200H\nSHOW:   OUT 2\n        RET\nCOUNT   EQU 7\nTABLE:  DB 1,2,3\n        END\n"
PROGRAM = """\
; Fills the memory from 4000H on.
        ORG 100H
START:  LXI SP,8000H
        LXI H,4000H
        MVI B,0
FILL:   MOV M,B
        INX H
        INR B
        MOV A,H
        ORA A
        JNZ FILL
        MVI A,5AH
        CALL SHOW
        STA TABLE+COUNT-6
        LXI D,1234H
        STC
        HLT
        END START
"""

# All that the kernel shows of a board: the memory as a text, the other scopes, and the breakpoints.
BOARD = """
    const [done] = arguments, scopes = Promise.all([1, 2, 3].map(scope => variables(scope)));
    Promise.all([allMemory(), allSymbols(), scopes, debug("debugInfo")]).then(([memory, symbols, shown, info]) =>
        done([memory.join(), symbols, shown, info.breakpoints, info.isStarted]));"""
IS_KEPT = "return taking.count > 0 && taking.kept === taking.changes"
# Runs a cell once a snapshot has asked for the middle of the memory.
AMID = """
    const send = line.socket.send.bind(line.socket);
    line.socket.send = text => {
        const {start, variablesReference} = JSON.parse(text).content.arguments || {};
        send(text);
        if (variablesReference === 5 && start === 32768) document.getElementById('run').click();
    };
    Object.assign(taking, {pause: 0, next: 0});
    takeSoon();"""
FILLS = """
    const [done] = arguments, boards = [...Array(10).keys()];
    const keep = at => keepBoard({name: `many ${at}`, kernel: `many ${at}`, at: 1e15 + at, version: 1});
    boards.reduce((last, at) => last.then(() => keep(at)), Promise.resolve())
        .then(() => Promise.all(boards.map(at => newestOf(`many ${at}`)))).then(found => done(found.map(each => each !== null)));"""
EMPTIES = "const [done] = arguments; indexedDB.deleteDatabase('lab80').onsuccess = () => done();"


class Restored(Pages):
    def later(self, page, script):
        return page.browser.run_later("with (globalThis.lab80) {%s\n}" % script)

    def used(self):
        """A page with a board that has loaded the routine, and of which there is no snapshot yet."""
        page = self.open()
        page.is_in("idle")
        page.run("taking.quiet = 60000")
        page.run_cell(ROUTINE)
        page.waits(lambda: "SHOW0200" in page.texts("#symbols button"))
        return page

    def runs(self, page):
        """Runs the program."""
        page.run_cell(PROGRAM)
        page.waits(lambda: "FILL0108" in page.texts("#symbols button") and page.registers()["A"] == "5A")
        page.waits(lambda: "Fills the memory" in page.source())

    def is_kept(self, page):
        """Waits until there is a snapshot of the board as it is."""
        page.run("taking.quiet = 300; takeSoon()")
        page.waits(lambda: page.run(IS_KEPT))

    def is_offered(self, page):
        page.waits(lambda: not page.run("return document.getElementById('restore').hidden"))
        self.assertIn("The page has kept a snapshot of the old one, from ", page.text("#anew-text"))

    def restores(self, page):
        page.click("#restore")
        page.waits(lambda: page.text("#anew-text").startswith("The board is as it was at "))

    def test_a_board_is_restored(self):
        """Memory, symbols, registers, flags, devices and breakpoints are equal; a cell is numbered from 1, and stops."""
        page = self.used()
        self.runs(page)
        page.flip(0)
        page.flip(6)
        page.toggle(12)
        page.waits(lambda: page.switches() == "01000001")
        self.is_kept(page)
        before = self.later(page, BOARD)
        kill(self.kernel)
        self.is_offered(page)
        self.assertIn(GONE + UNASKED, page.text("#anew-text"))
        self.assertTrue(page.run("return document.getElementById('load-again').hidden"))
        page.is_in("idle")
        page.waits(lambda: page.lamps() == "00000000" and page.registers()["A"] == "00")
        page.picture("panel-restore", 1140, 420)
        self.restores(page)
        self.assertEqual(self.later(page, BOARD), before)
        told = page.text("#anew-text")
        self.assertIn(": memory, 5 symbols, registers, flags, lamps, switches and 1 breakpoint.", told)
        self.assertTrue(told.endswith(" Not restored: what was done after that and the cells' numbers."), told)
        page.waits(lambda: page.lamps() == "01011010" and page.breakpoints() == [12])
        page.picture("panel-restored", 1140, 420)
        page.run_cell(PROGRAM)
        page.stops("breakpoint", 12)
        self.assertEqual(page.run("return [...known.texts.values()].pop().count"), 1)

    def test_pages_that_are_opened_later_offer_it_too(self):
        """What can't be given to a board is named. A page asks before it puts back a board that was used since; a bar that was closed
        stays closed."""
        page = self.used()
        page.run_cell("        EI\nHERE:   HLT\n        JMP HERE\n        END 0\n")
        page.shows(page.state, "waits for a button")
        page.type_line("later")
        self.is_kept(page)
        registers = page.registers()
        page.browser.open("about:blank")
        self.server.ask("POST", f"/api/kernels/{self.kernel}/restart", {})
        page = self.open(self.kernel)
        self.is_offered(page)
        self.assertNotIn(UNASKED, page.text("#anew-text"))
        other = self.open_another()
        self.is_offered(other)
        other.is_in("idle")
        self.restores(other)
        told = other.text("#anew-text").partition(" Not restored: ")[2]
        self.assertEqual(told, "what was done after that, the program that waited for a button, with its call stack, that "
                               "interrupts were on, 6 typed characters that no program had read and the cells' numbers.")
        other.shows(other.registers, registers)
        page.click("#restore")
        page.answer(False)
        self.is_offered(page)
        page.click("#anew-close")
        page.reload()
        page.is_in("idle")
        time.sleep(0.3)
        self.assertTrue(page.run("return document.getElementById('anew').hidden"))

    def test_a_snapshot_is_whole_and_there_is_one_a_minute(self):
        page = self.used()
        self.is_kept(page)
        self.runs(page)
        page.waits(lambda: page.run("return taking.next > Date.now() + 50000 && taking.kept < taking.changes"))
        time.sleep(1)
        self.assertEqual(page.run("return [taking.count, taking.isBusy]"), [1, False])
        page.run("document.getElementById('cell').value = arguments[0]", COUNTS)
        at = "const [done] = arguments; newestOf(line.kernel).then(found => done(found.at));"
        before = self.later(page, at)
        page.run(AMID)
        page.is_in("running")
        page.waits(lambda: page.run("return !taking.isBusy"))
        self.assertEqual((page.run("return taking.count"), self.later(page, at)), (1, before))

    def test_the_newest_boards_are_kept(self):
        page = self.open()
        self.assertEqual(self.later(page, FILLS), [False] * 2 + [True] * 8)
        page.browser.run_later(EMPTIES)

    def test_it_says_once_to_save_the_work(self):
        """After five hours in which a program was seen running."""
        page = self.open()
        page.run_cell(COUNTS)
        page.is_in("running")
        page.waits(lambda: page.run("return taking.session !== ''"))
        run = "for (const until = now + 3600000 * arguments[0]; now < until; now += 60000) countUse(now);"
        page.run(f"let now = Date.now(); {run}; globalThis.now = now", 4.9)
        self.assertEqual(page.message(), "")
        page.run(f"let now = globalThis.now; {run}; globalThis.now = now", 0.2)
        self.assertIn("Save your work: programs have run on this board for five hours", page.message())
        page.picture("panel-save", 1140, 420)
        page.run("tell('')")
        page.run(f"let now = globalThis.now; {run}", 1)
        self.assertEqual(page.message(), "")

    def test_an_address_that_names_no_board(self):
        for name in ("..", ".", "a/b"):
            self.browser.open(self.server.page("lab80", "logo-32x32.png", token=TOKEN))
            page = Page(self.browser, self.server.page("lab80", "panel.html", kernel=name))
            page.shows(page.message, f"The address has kernel={name}, which is no board's name. Choose a board here, or start one")
            self.assertEqual((page.state(), page.run("return line.socket")), ("choose a board", None))
