"""Kate on a virtual screen, with lab80's debugger, and the messages between the two."""
import json
import os
import re
import shutil
import signal
import subprocess
import time

import busy
from dap_wire import TOP, debugger

# The programs that this needs.
PROGRAMS = ("kate", "Xvfb", "xdotool", "dbus-run-session")

# The most seconds until something is so, or a small program ends. Kate itself takes a second or two to start.
PATIENCE = 90

WIDTH, HEIGHT = 1000, 700

# Where the line below Output is, in a window of this size.
CONSOLE = "390", "662"

# Records the messages of both sides, and is found as lab80-dap.
BETWEEN = """\
#!/bin/sh
exec 2>"{folder}/told"
tee "{folder}/asked" | "{program}" | tee "{folder}/said"
"""

# A session in which the debugger's plugin is on and a target is chosen, as its settings page does.
SESSION = """\
[Kate Plugins]
kategdbplugin=true

[Open Documents]
Count=0

[Open MainWindows]
Count=1

[MainWindow0]
Kate-MDI-Sidebar-Visible=true
Kate-MDI-ToolView-Debug View-Position=3
Kate-MDI-ToolView-Debug View-Visible=true
Kate-MDI-ToolView-Locals and Stack-Position=1
Kate-MDI-ToolView-Locals and Stack-Visible=true

[Plugin:kategdbplugin:MainWindow:0]
alwaysFocusOnInput=false
lastTarget=0
redirectTerminal=false
targetCount=1
target_0={target}
version=5
"""

# The letters of the menu Debug.
START, BREAKPOINT, CONTINUE, STEP_OVER, STEP_IN, STEP_OUT, PRINT, STOP = "sbcoiepk"


def is_here():
    return all(shutil.which(program) for program in PROGRAMS)


def wait_for(what, is_so, seconds=PATIENCE):
    until = time.monotonic() + seconds
    while not (found := is_so()):
        if time.monotonic() > until:
            raise TimeoutError(what)
        time.sleep(0.05)
    return found


class Kate:
    """A window with a program and the cursor on a line. It ends with a `with`."""

    def __init__(self, folder, path, line, launch="debug"):
        """Launches are named as in editors/kate/dap.json."""
        self.folder = folder
        self.screen = subprocess.Popen(
            ["Xvfb", "-displayfd", "1", "-screen", "0", f"{WIDTH}x{HEIGHT}x24", "-nolisten", "tcp"],
            stdout=subprocess.PIPE, stderr=subprocess.DEVNULL, text=True)
        self.environment = self.prepare(path, launch) | {"DISPLAY": ":" + self.screen.stdout.readline().strip()}
        self.kate = subprocess.Popen(
            ["dbus-run-session", "--", "kate", "-n", "-s", "lab80", "-l", str(line), path],
            env=self.environment, stdin=subprocess.DEVNULL, stdout=subprocess.DEVNULL, stderr=subprocess.DEVNULL,
            start_new_session=True)
        try:
            self.show(os.path.basename(path))
        except BaseException:
            self.__exit__()
            raise

    def __enter__(self):
        return self

    def __exit__(self, *_):
        os.killpg(self.kate.pid, signal.SIGKILL)
        self.kate.wait()
        self.screen.kill()
        self.screen.communicate()

    def prepare(self, path, launch):
        """Makes a home folder with the debugger's configuration, placed as in docs/EDITORS.md."""
        home, programs, runtime = (os.path.join(self.folder, name) for name in ("home", "programs", "runtime"))
        configuration = os.path.join(home, ".config/kate/gdbplugin")
        colours = os.path.join(home, ".local/share/org.kde.syntax-highlighting/syntax")
        sessions = os.path.join(home, ".local/share/kate/sessions")
        for folder in (programs, configuration, colours, sessions):
            os.makedirs(folder)
        os.mkdir(runtime, 0o700)
        shutil.copy(os.path.join(TOP, "editors/kate/dap.json"), configuration)
        shutil.copy(os.path.join(TOP, "editors/kate/i8080.xml"), colours)
        target = {"debuggerKey": "lab80", "debuggerProfile": launch, "target": "program", "variables": {"file": path}}
        with open(os.path.join(sessions, "lab80.katesession"), "w", encoding="utf-8") as file:
            file.write(SESSION.format(target=json.dumps(target)))
        with open(os.path.join(programs, "lab80-dap"), "w", encoding="utf-8") as file:
            file.write(BETWEEN.format(folder=self.folder, program=debugger()))
        os.chmod(os.path.join(programs, "lab80-dap"), 0o755)
        return {"HOME": home, "PATH": f"{programs}:/usr/bin:/bin", "XDG_RUNTIME_DIR": runtime, "LANG": "C.UTF-8",
                "QT_QPA_PLATFORM": "xcb"}

    def show(self, title):
        window = wait_for("Kate's window", lambda: self.windows("--name", title))[-1]
        wait_for("Kate's menus", lambda: len(self.windows("--name", title)) > 0 and self.is_still())
        self.key_tool("windowmove", window, "0", "0", "windowsize", window, str(WIDTH), str(HEIGHT), "windowfocus", window)
        wait_for("Kate at rest", self.is_still)

    def is_still(self, seconds=0.5):
        """Whether Kate and the processes that it has started want hardly any processor time."""
        before = self.seconds_wanted()
        time.sleep(seconds)
        return self.seconds_wanted() - before < seconds / 5

    def processes(self):
        """The running processes that Kate has started: the name of each, and the seconds for which it has run, or waited for a
        processor, so far."""
        for number in filter(str.isdigit, os.listdir("/proc")):
            try:
                with open(f"/proc/{number}/stat", encoding="utf-8", errors="replace") as file:
                    name, _, rest = file.read().partition("(")[2].rpartition(")")
            except OSError:
                continue
            fields = rest.split()
            if int(fields[3]) == self.kate.pid:
                yield name, (int(fields[11]) + int(fields[12])) / os.sysconf("SC_CLK_TCK") + busy.waited(number)

    def seconds_wanted(self):
        return sum(seconds for _, seconds in self.processes())

    def key_tool(self, *words):
        return subprocess.run(
            ["xdotool", *words], env=self.environment, capture_output=True, text=True, timeout=PATIENCE, check=False)

    def windows(self, *words):
        return self.key_tool("search", "--onlyvisible", *words).stdout.split()

    def choose(self, letter):
        """Chooses from the menu Debug."""
        before = len(self.windows("--class", "kate"))
        self.key_tool("key", "alt+d")
        wait_for("the menu", lambda: len(self.windows("--class", "kate")) > before)
        wait_for("the menu at rest", lambda: self.is_still(0.2))
        self.key_tool("key", letter)
        wait_for("no menu", lambda: len(self.windows("--class", "kate")) <= before)

    def picture(self, path):
        subprocess.run(["scrot", "-o", path], env=self.environment, timeout=PATIENCE, check=True)

    # ---- messages

    def bodies(self, name):
        """The complete messages of one side."""
        try:
            with open(os.path.join(self.folder, name), "rb") as file:
                heard = file.read()
        except FileNotFoundError:
            return []
        found = []
        while (head := re.match(rb"Content-Length: (\d+)\r\n\r\n", heard)) and len(heard) >= head.end() + int(head[1]):
            end = head.end() + int(head[1])
            found.append(json.loads(heard[head.end():end]))
            heard = heard[end:]
        return found

    def asked(self):
        return self.bodies("asked")

    def said(self):
        return self.bodies("said")

    def events(self, name):
        return [it.get("body") for it in self.said() if it.get("event") == name]

    def do(self, letter, what, is_so):
        """Chooses from the menu, and waits until something was sent. Kate asks for the frames and variables of a stop
        before it can do more."""
        self.choose(letter)
        return self.answered(what, is_so)

    def type(self, line, what, is_so):
        """Types into the line below Output, and waits until something was sent."""
        self.key_tool("mousemove", *CONSOLE, "click", "1")
        self.key_tool("type", line)
        self.key_tool("key", "Return")
        return self.answered(what, is_so)

    def answered(self, what, is_so):
        found = wait_for(what, is_so)
        wait_for("all answers", lambda: len(self.asked()) == sum(it["type"] == "response" for it in self.said()))
        wait_for("Kate at rest", self.is_still)
        return found
