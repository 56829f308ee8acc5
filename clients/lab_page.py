"""JupyterLab's page as its user sees it: notebooks and their cells, and the debugger beside them."""
import os

import nbformat

from browser import ENTER, PATIENCE, wait_until

CONTROL = "\ue009"

# The names of the element of the notebook that is in front, which begins all selectors below, and of the debugger.
FRONT = ".jp-NotebookPanel:not(.lm-mod-hidden) "
DEBUGGER = "#jp-debugger-sidebar "

# Notes when the page has sent something to a kernel, or received something, for the last time.
NOTES = """{
    const note = () => { window.lastMessage = performance.now(); };
    window.WebSocket = class extends WebSocket {
        constructor(...given) {
            super(...given);
            this.addEventListener('message', note);
        }
        send(...given) {
            note();
            super.send(...given);
        }
    };
}"""
QUIET = "return performance.now() - (window.lastMessage || 0)"

IS_HERE = "return window.jupyterapp !== undefined && document.querySelector(arguments[0]) !== null"
TEXTS = "return [...document.querySelectorAll(arguments[0])].map(each => each.innerText)"
# The text below each cell.
OUTPUTS = """
    return [...document.querySelectorAll(arguments[0])].map(cell =>
        [...cell.querySelectorAll('.jp-OutputArea-output')].map(each => each.innerText).join('').trim());"""
LAMP = "const lamp = document.querySelector(arguments[0]); return lamp && lamp.dataset.status"
# Where the margin of a line of a cell is in the window. The first element in it has no line.
MARGIN = """
    const [selector, cell, line] = arguments, margin = '.cm-breakpoint-gutter .cm-gutterElement';
    const element = document.querySelectorAll(selector)[cell].querySelectorAll(margin)[line];
    const {x, y, width, height} = element.getBoundingClientRect();
    return [Math.round(x + width / 2), Math.round(y + height / 2)];"""
# The lines of each cell that have a breakpoint's sign.
MARKED = """
    return [...document.querySelectorAll(arguments[0])].map(cell =>
        [...cell.querySelectorAll('.cm-breakpoint-gutter .cm-gutterElement')].slice(1)
            .flatMap((each, at) => each.textContent ? [at + 1] : []));"""
FRAMES = """
    return [...document.querySelectorAll('.jp-DebuggerCallstackFrame')].map(each => {
        const [name, location] = each.children;
        return [name.textContent, +location.textContent.split(':').pop()];
    });"""
VARIABLES = """
    const shown = document.querySelectorAll('.jp-DebuggerVariables-body:not(.lm-mod-hidden) > ul > li');
    return Object.fromEntries([...shown].map(each => [...each.children].slice(-2).map(part => part.textContent)));"""


class LabPage:
    """A window of JupyterLab. All queries and actions go to the notebook in front."""

    def __init__(self, browser, lab):
        self.browser, self.lab = browser, lab
        browser.devtools("Page.addScriptToEvaluateOnNewDocument", source=NOTES)

    def write(self, name, *texts):
        """Makes a notebook with these cells."""
        notebook = nbformat.v4.new_notebook(cells=[nbformat.v4.new_code_cell(text) for text in texts])
        notebook.metadata.kernelspec = {"name": "lab80", "display_name": "Intel 8080 (lab80)", "language": "i8080"}
        nbformat.write(notebook, os.path.join(self.lab.folder, name + ".ipynb"))

    def open(self, name, *texts):
        """Opens a notebook with these cells, and nothing beside it, and waits until its kernel and the debugger are ready."""
        self.write(name, *texts)
        self.browser.open(self.lab.notebook(name))
        self.is_ready()

    def open_beside(self, name):
        """Opens a notebook by the list of files. It is in front then."""
        self.browser.click(f".jp-DirListing-item[title*='{name}.ipynb']")
        self.browser.type(ENTER)
        wait_until(lambda: name in self.name())
        self.is_ready()

    def bring_forward(self, name):
        self.browser.click(f".lm-DockPanel-tabBar .lm-TabBar-tab[title*='{name}.ipynb']")
        wait_until(lambda: name in self.name())

    def reload(self):
        self.browser.open(self.browser.run("return location.href"))
        self.is_ready()

    def is_ready(self):
        """Waits for the kernel, which is ready as soon as the bug can be pressed: it has said then that it has a debugger."""
        try:
            wait_until(lambda: self.browser.run(IS_HERE, FRONT + ".jp-DebuggerBugButton:not([disabled])"), 2 * PATIENCE)
        except TimeoutError:
            raise TimeoutError(f"no kernel is ready; the page shows {self.texts('body')}") from None

    # reading the page

    def texts(self, selector):
        return self.browser.run(TEXTS, selector)

    def name(self):
        """The title of the notebook in front."""
        return " ".join(self.texts(".lm-DockPanel-tabBar .lm-mod-current .lm-TabBar-tabLabel"))

    def kernel(self):
        """The identifier of the kernel of the notebook in front."""
        return self.browser.run("return jupyterapp.shell.currentWidget.sessionContext.session.kernel.id")

    def prompts(self):
        return [text.strip() for text in self.texts(FRONT + ".jp-CodeCell .jp-InputPrompt")]

    def outputs(self):
        return self.browser.run(OUTPUTS, FRONT + ".jp-CodeCell")

    def lamp(self):
        return self.browser.run(LAMP, FRONT + ".jp-Notebook-ExecutionIndicator")

    def is_debugging(self):
        return self.browser.run(IS_HERE, FRONT + ".jp-DebuggerBugButton[aria-pressed=true]")

    def title(self):
        """What stands above the debugger's panels: the name of a notebook, or `-`."""
        return " ".join(self.texts(DEBUGGER + ".jp-SidePanel-header"))

    def breakpoints(self):
        """The lines in the list of breakpoints."""
        return [int(text.split()[-1]) for text in self.texts(".jp-DebuggerBreakpoint")]

    def marked(self):
        """For each cell the lines with a breakpoint in their margin."""
        return self.browser.run(MARKED, FRONT + ".jp-CodeCell")

    def frames(self):
        """The names and lines of the call stack, the innermost first."""
        return [tuple(frame) for frame in self.browser.run(FRAMES)]

    def current(self):
        """The line that is marked in the notebook, and that in the debugger's source."""
        return [self.texts(place + " .jp-DebuggerEditor-highlight") for place in (FRONT, ".jp-DebuggerSources")]

    def source(self):
        return "\n".join(self.texts(".jp-DebuggerSources .cm-line"))

    def scopes(self):
        return self.texts(".jp-DebuggerVariables-toolbar option")

    def variables(self):
        return self.browser.run(VARIABLES)

    def can(self, command):
        """Whether a button of the debugger can be pressed."""
        return self.browser.run(IS_HERE, f"{DEBUGGER}[data-command='debugger:{command}']:not([disabled])")

    def shows(self, read, wanted):
        """Waits until the page shows this. If it fails, it reports what the page shows."""
        try:
            wait_until(lambda: read() == wanted)
        except TimeoutError:
            raise TimeoutError(f"{read.__name__} shows {read()!r}, and not {wanted!r}") from None

    def settles(self):
        """Waits until the page has done all that it does by itself, up to a second after a cell has changed: no message has been
        sent to a kernel or come from there for two seconds."""
        wait_until(lambda: self.browser.run(QUIET) > 2_000)

    # actions

    def run_cell(self, number=0):
        self.browser.click(f"{FRONT}.jp-CodeCell:nth-of-type({number + 1}) .cm-content")
        self.browser.type(ENTER, CONTROL)

    def press(self, command):
        """Presses a button of the notebook."""
        self.browser.click(f"{FRONT}[data-command='notebook:{command}']")

    def command(self, name):
        """Presses a button of the debugger as soon as it can be pressed."""
        wait_until(lambda: self.can(name))
        self.browser.click(f"{DEBUGGER}[data-command='debugger:{name}']")

    def restart(self):
        """Restarts the kernel, and says yes to the question."""
        self.press("restart-kernel")
        wait_until(lambda: self.texts(".jp-Dialog .jp-mod-accept") == ["Restart"])
        self.browser.click(".jp-Dialog .jp-mod-accept")

    def debug(self):
        """Switches the debugger on."""
        self.browser.click(FRONT + ".jp-DebuggerBugButton")
        wait_until(self.is_debugging)

    def toggle(self, line, cell=0):
        """Clicks in the margin beside a line's number, and waits until the sign has changed."""
        before = self.marked()
        self.browser.click_at(*self.browser.run(MARGIN, FRONT + ".jp-CodeCell", cell, line))
        wait_until(lambda: self.marked() != before)

    def choose_scope(self, name):
        self.browser.click(f".jp-DebuggerVariables-toolbar option[value='{name}']")

    def choose_frame(self, number):
        self.browser.click(f".jp-DebuggerCallstackFrame:nth-of-type({number + 1})")
