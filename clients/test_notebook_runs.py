"""What Notebook says of names that no cell has defined yet, of runs that end early or not at all; tools that are folded, and
breakpoints by a key."""
import os

import nbformat

from browser import wait_until
from panel_tests import NotebookPages
from test_panel import CALLS, UNDEFINED

DEFINES = "        ORG 300H\nROUT:   RET\n        END\n"
CALLS_IT = "        ORG 100H\nSTART:  LXI SP,1000H\n        CALL ROUT\n        HLT\n        END START\n"
LOOP = "        ORG 100H\nSTART:  JMP START\n        END START\n"
# Waits for a button, before empty memory.
WAITS = "        ORG 100H\nSTART:  EI\n        HLT\n        END START\n"
# A program without a HLT, which runs on through empty memory.
RUNS_ON = "        ORG 100H\nSTART:  MVI A,5\n        END START\n"

TOLD = """
    const texts = selector => [...Jupyter.notebook.get_cells()[arguments[0]].element[0].querySelectorAll(selector)];
    return [texts('.lab80-why').map(each => each.textContent), texts('.lab80-note').map(each => each.textContent)];"""

# The height of a cell's text, what its button says, and whether a line of it is seen.
FOLD = """
    const cell = Jupyter.notebook.get_cells()[arguments[0]], more = cell.element[0].querySelector('.lab80-more');
    const isOpen = more && more.getAttribute('aria-expanded');
    return [cell.code_mirror.getWrapperElement().clientHeight, more && more.textContent, isOpen];"""

NOT_RUN = "The cell {} that defines {} hasn't run on this board. Run it first, and then this one again."
ENDED = "The run was ended from outside. Registers, memory and names stay as they are."


class Said(NotebookPages):
    def why(self, number):
        """What is said at a fault in a cell."""
        return wait_until(lambda: self.browser.run(TOLD, number)[0])

    def note(self, number):
        """What is said below a cell."""
        return wait_until(lambda: self.browser.run(TOLD, number)[1])

    def test_a_name_that_another_cell_defines(self):
        nowhere, below = (CALLS_IT.replace("ROUT", name) for name in ("NOWHERE", "LATER"))
        self.notebook("order", [DEFINES, CALLS_IT, nowhere, below, DEFINES.replace("ROUT", "LATER")])
        self.execute(1, 2, 3)
        self.assertEqual(self.why(1), [NOT_RUN.format("above", "ROUT")])
        self.assertEqual(self.why(2), ["No cell has defined NOWHERE. Define it by a label, NOWHERE:, or by EQU."])
        self.assertEqual(self.why(3), [NOT_RUN.format("below", "LATER")])
        self.execute(0, 1)
        wait_until(lambda: self.browser.run(TOLD, 1)[0] == [])
        self.shows(1, "")

    def test_a_byte_that_is_no_instruction(self):
        self.notebook("undefined", [UNDEFINED, "        NOP\n        END 0\n"])
        self.execute(0)
        self.assertEqual(self.note(0), ["The byte 08H at 0100H is no instruction. A run comes to such a place if a routine lacks its "
                                        "RET, the program its HLT, or an address is wrong."])
        # it goes when the text is changed
        self.browser.run("Jupyter.notebook.get_cells()[0].code_mirror.replaceRange(';', {line: 0, ch: 0})")
        wait_until(lambda: self.browser.run(TOLD, 0)[1] == [])

    def test_a_run_that_is_ended(self):
        self.notebook("ended", [LOOP, WAITS])
        for number in (0, 1):
            self.execute(number)
            self.assertEqual(self.note(number), ["It still runs. The square ends the run."])
            self.browser.run("Jupyter.notebook.kernel.interrupt()")
            wait_until(lambda at=number: self.browser.run(TOLD, at)[1] == [ENDED])

    def test_a_program_without_hlt(self):
        self.notebook("astray", [RUNS_ON])
        page = self.press_button()
        self.execute(0)
        self.assertEqual(self.note(0), ["It runs through empty memory, in which all bytes are NOP. Does the program lack its HLT, "
                                        "or a routine its RET? The square ends the run."])
        page.waits(lambda: page.state() == "runs in empty memory")
        page.waits(lambda: "Does the program lack its HLT" in page.console())
        self.assertEqual(page.console().count("Does the program lack its HLT"), 1)
        page.click("#interrupt")
        page.is_in("idle")

    def test_a_breakpoint_by_a_key(self):
        self.notebook("keys", [CALLS])
        self.browser.run("""
            const cell = Jupyter.notebook.get_cells()[0];
            Jupyter.notebook.edit_mode();
            cell.focus_editor();
            cell.code_mirror.setCursor({line: 4, ch: 2});""")
        self.browser.key("\ue039")
        wait_until(lambda: self.marks(0) == [[5], []])
        self.browser.key("\ue039")
        wait_until(lambda: self.marks(0) == [[], []])


class Tools(NotebookPages):
    def tools(self, text, fault=""):
        """A notebook with a long cell that is tagged as tools; below its lines one more."""
        lines = text.rstrip("\n").split("\n")
        cell = nbformat.v4.new_code_cell("\n".join([*lines[:-1], *["; more"] * 20, fault, lines[-1]]))
        cell.metadata["tags"] = ["tools"]
        notebook = nbformat.v4.new_notebook(cells=[cell, nbformat.v4.new_code_cell(CALLS_IT)])
        notebook.metadata.kernelspec = {"name": "lab80", "display_name": "Intel 8080 (lab80)", "language": "i8080"}
        os.makedirs(os.path.join(self.folder, "lessons"), exist_ok=True)
        nbformat.write(notebook, os.path.join(self.folder, "lessons", "tools.ipynb"))
        self.browser.open(f"{self.server.address}/notebooks/lessons/tools.ipynb")
        wait_until(lambda: self.browser.run("return document.querySelectorAll('.lab80-more').length") == 1)

    def test_tools_are_folded(self):
        self.tools(DEFINES)
        height, text, is_open = self.browser.run(FOLD, 0)
        self.assertLess(height, 90)
        self.assertEqual((text, is_open), ("All 24 lines: they are to be run, and needn't be read", "false"))
        self.assertIsNone(self.browser.run(FOLD, 1)[1])
        self.browser.click(".lab80-more")
        height, text, is_open = self.browser.run(FOLD, 0)
        self.assertGreater(height, 300)
        self.assertEqual((text, is_open), ("Fold", "true"))
        self.browser.click(".lab80-more")
        self.execute(0, 1)
        self.shows(1, "")
        self.assertEqual(self.browser.run(FOLD, 0)[2], "false")

    def test_a_fault_unfolds_them(self):
        self.tools(DEFINES, "        MVI A,256")
        self.execute(0)
        wait_until(lambda: self.browser.run(TOLD, 0)[0])
        self.assertEqual(self.browser.run(FOLD, 0)[2], "true")
