"""JupyterLab 4 in Chromium, from a root of Debian 13: cells, and its own debugger, as they are clicked and typed."""
import unittest

import trixie
from browser import ENTER, Browser, wait_until
from jupyter_servers import TOKEN
from lab80_client import ASKS, ENDLESS, HELLO
from lab_page import FRONT, LabPage
from panel_page import Page, keep_picture
from ports import free_port

# A label without its colon.
FAULTY = "        ORG 100H\nSTART   MVI A,1\n        HLT\n        END START\n"

# Two routines; the first calls the second.
CALLS = """\
        ORG 100H
MAIN:   MVI B,2
        CALL TWICE
        HLT
TWICE:  MOV A,B
        ADD A
        RET
        END MAIN"""

# Counts up forever.
LOOP = "        ORG 200H\nSTART:  MVI B,0\nLOOP:   INR B\n        JMP LOOP\n        END START"


def setUpModule():
    """One browser and one JupyterLab for all tests. Each page has a workspace of its own."""
    global browser, lab, page
    trixie.needed()
    browser = unittest.enterModuleContext(Browser(free_port(), 1300, 850))
    lab = unittest.enterModuleContext(trixie.JupyterLab())
    page = LabPage(browser, lab)


class Cells(unittest.TestCase):
    @classmethod
    def setUpClass(cls):
        page.open("cells", "", FAULTY, ENDLESS, ASKS)

    def output(self, number):
        return page.outputs()[number]

    def run_cell(self, number, *outputs):
        """Runs a cell, and waits for one of these outputs and for the cell's end."""
        page.run_cell(number)
        wait_until(lambda: self.output(number) in outputs and page.prompts()[number] != "[*]:")

    def test_a_cell_is_typed_and_run(self):
        browser.click(FRONT + ".cm-content")
        browser.type(ENTER.join(("MVI A,2AH", "OUT 1", "HLT", "END 0")))
        self.run_cell(0, "*")

    def test_a_fault_is_shown(self):
        self.run_cell(1, "AssemblyError: 2:1 Mnemonic")

    def test_the_square_ends_a_run(self):
        page.run_cell(2)
        wait_until(lambda: self.output(2) == "*")
        self.assertEqual((page.prompts()[2], page.lamp()), ("[*]:", "busy"))
        page.press("interrupt-kernel")
        wait_until(lambda: page.lamp() == "idle")
        self.assertRegex(page.prompts()[2], r"^\[\d+\]:$")
        self.assertEqual(self.output(2), "*Interrupted:")

    def test_a_line_is_asked_for_beneath_the_cell(self):
        page.run_cell(3)
        wait_until(lambda: browser.run("return document.activeElement.classList.contains('jp-Stdin-input')"))
        browser.type("Z" + ENTER)
        wait_until(lambda: page.prompts()[3] != "[*]:")
        self.assertEqual(self.output(3).split()[-1], "Z")


class Debugger(unittest.TestCase):
    """A second after a cell has changed, as by a run, JupyterLab sends the breakpoints again that its margin shows then, and to
    the kernel that it debugs then. A click in the margin at that moment is lost. So are the cell's breakpoints amid Terminate,
    when the margin is empty; and where another notebook has come to the front, its kernel gets them. So breakpoints are set here
    before a cell runs, and before the rest the tests wait until that second is over."""

    def stop(self, name, line, text, frames):
        """Opens a notebook with this cell, sets a breakpoint on a line of it and runs it until it stops there."""
        page.open(name, text)
        page.debug()
        page.toggle(line)
        page.run_cell()
        page.shows(page.frames, frames)

    def step(self, command, *frames):
        page.command(command)
        page.shows(page.frames, list(frames))

    def test_a_program_is_debugged(self):
        """A breakpoint by a click in the margin, and each button of the call stack but Terminate."""
        page.open("calls", CALLS, HELLO)
        page.debug()
        for line, marked in ((6, [6]), (6, []), (3, [3])):
            page.toggle(line)
            self.assertEqual(page.marked(), [marked, []])
            page.shows(page.breakpoints, marked)
        page.run_cell()
        page.shows(page.frames, [("main", 3)])
        page.shows(page.current, [["        CALL TWICE"]] * 2)
        self.assertEqual((page.source(), page.prompts()), (CALLS, ["[*]:", "[ ]:"]))
        self.step("stepIn", ("TWICE", 5), ("main", 3))
        self.step("next", ("TWICE", 6), ("main", 3))
        page.shows(page.current, [["        ADD A"]] * 2)
        self.step("stepOut", ("main", 4))
        # JupyterLab asks for the source when it has the frames, and marks the line even if the program has gone on by then
        page.shows(page.current, [["        HLT"]] * 2)
        self.step("continue")
        page.shows(page.prompts, ["[1]:", "[ ]:"])
        page.shows(page.current, [[], []])
        page.run_cell()
        page.shows(page.frames, [("main", 3)])
        self.step("next", ("main", 4))
        self.step("next")
        page.shows(page.prompts, ["[2]:", "[ ]:"])

    def test_what_is_shown_of_a_stopped_program(self):
        """The source of each frame, and the variables of all scopes."""
        self.stop("shown", 6, CALLS, [("TWICE", 6), ("main", 3)])
        page.shows(page.current, [["        ADD A"]] * 2)
        page.choose_frame(1)
        page.shows(page.current, [["        CALL TWICE"]] * 2)
        page.choose_frame(0)
        page.shows(page.current, [["        ADD A"]] * 2)
        page.shows(page.scopes, ["Registers", "Flags", "Devices", "Symbols", "Memory"])
        page.shows(page.variables, {"A": "002H", "B": "002H", "C": "000H", "D": "000H", "E": "000H", "H": "000H", "L": "000H",
                                    "SP": "0FFFEH", "PC": "00107H"})
        keep_picture(browser, "jupyterlab")
        for scope, values in (
                ("Flags", {"S": "0", "Z": "0", "AC": "0", "P": "0", "CY": "0", "INTE": "off"}),
                ("Devices", {"switches": "000H", "lamps": "000H", "latched": "none", "waiting": "0"}),
                ("Symbols", {"MAIN": "00100H", "TWICE": "00106H"}),
                ("Memory", {f"{address:04X}": "000H" for address in range(16)})):
            page.choose_scope(scope)
            page.shows(page.variables, values)

    def test_a_program_that_runs_is_paused_and_ended(self):
        page.open("paused", LOOP)
        page.debug()
        page.run_cell()
        page.shows(page.prompts, ["[*]:"])
        for _ in range(2):
            page.command("continue")
            wait_until(page.frames)
            [(name, line)] = page.frames()
            self.assertEqual((name, line in (3, 4)), ("main", True))
            page.command("continue")
            page.shows(page.frames, [])
        page.command("continue")
        wait_until(page.frames)
        page.press("interrupt-kernel")
        page.shows(page.prompts, ["[1]:"])
        self.assertEqual(page.outputs(), ["Interrupted:"])
        # JupyterLab shows the stop until then, since the kernel has told it of no other state
        self.step("terminate")

    def test_a_program_is_terminated_and_run_again(self):
        """For Terminate JupyterLab leaves the debugger and joins it again: the program runs to its end, and breakpoints stay."""
        in_routine = [("TWICE", 5), ("main", 3)]
        self.stop("terminated", 5, CALLS, in_routine)
        page.settles()
        self.step("terminate")
        page.shows(page.prompts, ["[1]:"])
        page.shows(page.breakpoints, [5])
        page.shows(page.marked, [[5]])
        page.settles()
        self.assertTrue(page.is_debugging())
        page.run_cell()
        page.shows(page.frames, in_routine)
        self.step("continue")
        page.shows(page.prompts, ["[2]:"])

    def test_a_kernel_is_restarted_at_a_stop(self):
        """Then the debugger is off and breakpoints are gone, as with every kernel."""
        in_routine = [("TWICE", 5), ("main", 3)]
        self.stop("restarted", 5, CALLS, in_routine)
        page.settles()
        page.restart()
        page.shows(page.frames, [])
        page.shows(page.is_debugging, False)
        # JupyterLab asks the new kernel for its state, and the bug can be pressed before it has the answer
        page.settles()
        self.assertEqual((page.is_debugging(), page.breakpoints(), page.marked()), (False, [], [[]]))
        page.run_cell()
        page.shows(page.prompts, ["[1]:"])
        page.debug()
        page.settles()
        page.toggle(5)
        page.run_cell()
        page.shows(page.frames, in_routine)

    def test_other_pages_are_at_the_same_stop(self):
        """JupyterLab's own, loaded anew, and the front panel."""
        in_routine = [("TWICE", 6), ("main", 3)]
        self.stop("beside", 6, CALLS, in_routine)
        page.reload()
        page.shows(page.is_debugging, True)
        page.shows(page.frames, in_routine)
        page.shows(lambda: page.current()[1], ["        ADD A"])
        kernel, notebook = page.kernel(), browser.window()
        browser.new_window()
        panel = Page(browser, lab.page("lab80", "panel.html", kernel=kernel, token=TOKEN))
        try:
            panel.is_in("stopped")
            self.assertEqual((panel.line(), len(panel.frames())), (6, 2))
            panel.command("stepOut")
            panel.stops("step", 4)
            browser.use(notebook)
            page.shows(page.frames, [("main", 4)])
            self.step("continue")
            panel.is_in("idle")
        finally:
            browser.use(panel.window)
            browser.close_window()
            browser.use(notebook)

    def test_two_notebooks_are_debugged_at_once(self):
        in_routine = [("TWICE", 6), ("main", 3)]
        page.write("second", LOOP)
        self.stop("first", 6, CALLS, in_routine)
        page.settles()
        page.open_beside("second")
        # JupyterLab asks the new kernel, and then it returns to the first notebook's stop, until the second one's bug is pressed;
        # if that is before it has returned, it takes the first one's stop for the second one's
        page.settles()
        page.shows(page.frames, in_routine)
        page.debug()
        page.shows(page.title, "SECOND.IPYNB")
        page.shows(page.frames, [])
        page.settles()
        page.toggle(4)
        page.run_cell()
        page.shows(page.frames, [("main", 4)])
        page.shows(page.source, LOOP)
        self.step("next", ("main", 3))
        page.settles()
        page.bring_forward("first")
        page.shows(page.frames, in_routine)
        page.shows(page.source, CALLS)
        page.shows(page.breakpoints, [6])
        self.step("continue")
        page.shows(page.prompts, ["[1]:"])
        page.settles()
        page.bring_forward("second")
        page.shows(page.frames, [("main", 3)])
        self.assertEqual(page.prompts(), ["[*]:"])
