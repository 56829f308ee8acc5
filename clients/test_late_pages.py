"""A front panel in a browser that has seen nothing of the board, as a teacher's at a student's board: it shows the texts of the
board's notebook that the kernel has."""
import os
import unittest
from pathlib import Path

import nbformat
from jupyter_client import BlockingKernelClient
from jupyter_core.paths import jupyter_runtime_dir

from lab80_client import PATIENCE
from panel_tests import Pages

# What must be escaped in an address.
NAME = "of anna/50% \u00e9?.ipynb"

NO_TEXT = "The text of a cell is shown here once it runs."

# Routines; two programs without end; one with a label at an instruction of the first of them; one that the kernel knows from a
# debugger alone; and one that it doesn't know.
TOOLS = "        ORG 300H\nTWICE:  MOV A,B\n        ADD A\n        RET\n        END\n"
LOOP = "        ORG 200H\nSTART:  MVI B,0\nLOOP:   INR B ; \u00e9\n        JMP LOOP\n        END START"
STILL = "        ORG 600H\nSTILL:  JMP STILL\n        END STILL\n"
BEFORE = "        ORG 203H\nHERE:   NOP\n        HLT\n        END HERE\n"
NAMED = "        ORG 400H\nOTHER:  HLT\n        END OTHER\n"
UNKNOWN = "        ORG 500H\nMORE:   HLT\n        END MORE\n"

# Notes the texts that a page asks the kernel for, from its beginning, and what it asks the server for.
NOTES = """{
    const send = WebSocket.prototype.send, load = window.fetch;
    Object.assign(window, {asked: 0, loaded: []});
    WebSocket.prototype.send = function (text) {
        if (JSON.parse(text).content.command === 'source') ++window.asked;
        return send.call(this, text);
    };
    window.fetch = (address, ...more) => {
        const [, name] = /\\/api\\/(sessions|contents)/.exec(address) || [];
        if (name) window.loaded.push(name);
        return load(address, ...more);
    };
}"""

SOURCE = "return [...document.querySelectorAll('#source .line code')].map(each => each.textContent).join('\\n')"
CAN_PAUSE = "return !document.querySelector('[data-command=pause]').disabled"
TEXTS = "return [...known.texts.values()].map(each => each.text)"


class Late(Pages):
    """The student is a client of the kernel. So the browser sees something of the board only when the page is opened."""

    def board(self, *cells, kind="notebook", kept=True):
        """Starts a board of a notebook with these cells, each a text and the count of its run, or None."""
        notebook = nbformat.v4.new_notebook()
        for text, count in cells:
            notebook.cells.append(nbformat.v4.new_code_cell(text, execution_count=count))
        os.makedirs(os.path.join(self.folder, "of anna"), exist_ok=True)
        if kept:
            nbformat.write(notebook, os.path.join(self.folder, NAME))
        else:
            Path(self.folder, NAME).unlink(missing_ok=True)
        wanted = {"path": NAME, "name": "", "type": kind, "kernel": {"name": "lab80"}}
        self.kernel = self.server.ask("POST", "/api/sessions", wanted)["kernel"]["id"]
        self.client = BlockingKernelClient(connection_file=os.path.join(jupyter_runtime_dir(), f"kernel-{self.kernel}.json"))
        self.client.load_connection_file()
        # by default it gives a kernel up that it doesn't hear within a second
        self.client.hb_channel.time_to_dead = PATIENCE
        self.client.start_channels()
        self.addCleanup(self.client.stop_channels)
        self.client.wait_for_ready(timeout=PATIENCE)

    def run_on(self, text):
        """Runs a cell that doesn't end, until it is under way."""
        number, told = self.client.execute(text), None
        while told != (number, "execute_input"):
            message = self.client.get_iopub_msg(timeout=PATIENCE)
            told = message["parent_header"].get("msg_id"), message["msg_type"]

    def debug(self, command, **given):
        content = {"type": "request", "seq": 1, "command": command, "arguments": given}
        self.client.control_channel.send(self.client.session.msg("debug_request", content))
        answer = self.client.get_control_msg(timeout=PATIENCE)["content"]
        self.assertTrue(answer["success"], answer)
        return answer["body"]

    def look(self):
        """The page of the board, in a window of its own."""
        self.browser.new_window()
        self.browser.devtools("Page.addScriptToEvaluateOnNewDocument", source=NOTES)
        page = self.open(self.kernel)
        page.is_in("running")
        return page

    def shows(self, page, *texts):
        """Waits until the page shows the first of these texts, and knows all of them and no others."""
        page.shows(lambda: (page.run(SOURCE), sorted(page.run(TEXTS)), page.message()), (texts[0], sorted(texts), ""))

    def test_a_program_that_runs_is_shown(self):
        """And of the others those that ran before, and whose lines a debugger has named: but the kernel keeps no further ones."""
        self.board((TOOLS, 1), (LOOP, 3), (BEFORE, 2), (NAMED, None), (UNKNOWN, None), ("", None))
        self.client.execute(TOOLS)
        self.client.execute(BEFORE)
        self.debug("dumpCell", code=NAMED)
        self.run_on(LOOP)
        page = self.look()
        self.shows(page, LOOP, TOOLS, BEFORE, NAMED)
        self.assertEqual(page.run("return asked"), 5)
        self.assertEqual(page.line(), 0)
        page.click("#attached")
        page.waits(lambda: page.run(CAN_PAUSE))
        page.command("pause")
        page.waits(lambda: page.state() == "stopped: pause" and page.line() in (3, 4))
        self.shows(page, LOOP, TOOLS, BEFORE, NAMED)
        self.assertEqual(page.run("return asked"), 5)

    def test_a_breakpoint_elsewhere_is_no_reason_to_stop_searching(self):
        self.board((TOOLS, 1), (LOOP, 2))
        path = self.debug("dumpCell", code=TOOLS)["sourcePath"]
        self.debug("attach")
        self.debug("setBreakpoints", source={"path": path}, breakpoints=[{"line": 3}])
        self.run_on(LOOP)
        self.shows(self.look(), LOOP, TOOLS)

    def test_a_stop_in_the_running_program(self):
        self.board((TOOLS, 1), (LOOP, None))
        self.client.execute(TOOLS)
        path = self.debug("dumpCell", code=LOOP)["sourcePath"]
        self.debug("attach")
        self.debug("setBreakpoints", source={"path": path}, breakpoints=[{"line": 3}])
        self.run_on(LOOP)
        self.browser.new_window()
        page = self.open(self.kernel)
        page.is_in("stopped")
        self.shows(page, LOOP, TOOLS)
        self.assertEqual(page.line(), 3)

    def test_a_long_notebook_is_searched_in_part(self):
        """The kernel is asked for fifty of a notebook's cells at most, those first that ran last."""
        self.board((STILL, 300), *((f"; {number}\n        END 0\n", number) for number in range(100, 160)), (UNKNOWN, 1))
        self.run_on(STILL)
        page = self.look()
        self.shows(page, STILL)
        page.waits(lambda: page.run("return asked") >= 50)
        self.assertEqual(page.run("return asked"), 50)

    def test_where_nothing_is_found_the_page_says_so_as_ever(self):
        """A cell that was changed since; a notebook that isn't there any more; what isn't a notebook."""
        for kind, kept, asked, loaded in (
                ("notebook", True, 1, ["sessions", "contents"]), ("notebook", False, 0, ["sessions", "contents"]),
                ("console", True, 0, ["sessions"])):
            with self.subTest(kind=kind, kept=kept):
                self.board((UNKNOWN, None), kind=kind, kept=kept)
                self.run_on(LOOP)
                page = self.look()
                # each page asks once for the board's name
                page.shows(lambda: page.run("return [asked, loaded]"), [asked, ["sessions", *loaded]])
                self.assertEqual((page.text("#source"), page.message()), (NO_TEXT, ""))
                self.server.end_kernels()


if __name__ == "__main__":
    unittest.main()
