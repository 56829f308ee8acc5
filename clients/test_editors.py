"""Editors that debug a program with lab80's debugger, and their files in editors/."""
import json
import os
import re
import shutil
import subprocess
import tomllib
import unittest
import xml.etree.ElementTree

import kate
import test_hex
from dap_wire import TOP, debugger, example
from editor import Session

EDITORS = os.path.join(TOP, "editors")

# The most seconds that an editor may run for a test, long, since the machine may be busy.
PATIENCE = 240

# The expected display in Emacs (emacs_session.el).
SEEN_IN_EMACS = """\
lab80-dap-run: SHOW, line 10, cursor in line 10
dap-next: SHOW, line 11, cursor in line 11
dap-next: SHOW, line 12, cursor in line 12
dap-step-out: main, line 6, cursor in line 6
dap-step-in: main, line 7, cursor in line 7
A lab80: 033H
b lab80: 002H
SHOW+1 lab80: 0010CH
$ lab80: 00107H
1/ lab80: column 1: Operands
switches 5 lab80: ok
switches 256 lab80: a number from 0 to 255 must follow
B lab80: 009H
0100 lab80: the value must be from 0 to 255
scopes: Registers Flags Stack Devices Symbols Memory
registers: 033H 009H 000H 000H 000H 000H 000H 00000H 00107H 00900H 00000H 00000H 03312H
lab80-dap-run: SHOW, line 10, cursor in line 10
B lab80: 001H
lab80-dap-run: main, line 10, cursor in line 10
lab80-dap-step-back: main, line 8, cursor in line 8
lab80-dap-step-back: main, line 7, cursor in line 7
lab80-dap-step-back: main, line 6, cursor in line 6
lab80-dap-step-back: main, line 5, cursor in line 5
back 2 lab80: ok
back 2: main, line 7, cursor in line 7
lab80-dap-reverse: SHOW, line 10, cursor in line 10
lab80-dap-reverse: main, line 3, cursor in line 3
back lab80: the run begins here
dap-next: main, line 4, cursor in line 4
lab80-dap-run: main, line 10, cursor in line 10
ended: terminated
output: "39"
Enter breakpoint condition: "B == 2"
Enter log message: "B is {B}, at {PC:x}"
lab80-dap-run: main, line 6, cursor in line 6
breakpoints: line 10, verified, moved from line 9; line 6, verified
Enter breakpoint condition: "B =="
breakpoints: line 10, verified, moved from line 9; line 6, not verified, condition, column 1: Operands
Enter breakpoint condition: "B == 1"
breakpoints: line 10, verified, moved from line 9; line 6, verified
Enter log message: "then {B"
breakpoints: line 10, verified, moved from line 9; line 6, not verified, log message, column 6: open brace
Enter log message: ""
breakpoints: line 6, verified; line 10, verified, moved from line 9
condition: nil
Enter hit condition: "% 0"
breakpoints: line 6, not verified, hit condition: expected one like 5, >= 5 or % 5; line 10, verified, moved from line 9
Enter hit condition: "2"
breakpoints: line 6, verified; line 10, verified, moved from line 9
lab80-dap-reverse: main, line 3, cursor in line 3
lab80-dap-run: main, line 6, cursor in line 6
B lab80: 002H
Enter hit condition: ""
Enter breakpoint condition: "B == 1"
Enter log message: "then {B}"
lab80-dap-run: main, line 10, cursor in line 10
ended: terminated
output: "B is 3, at 0010BH\\n3B is 2, at 0010BH\\n2B is 3, at 0010BH\\nB is 2, at 0010BH\\nB is 1, at 0010BH\\n1then 1\\n"
"""

# Kate's requests in its session, except those for its display.
ASKED_BY_KATE = ["initialize", "launch", "setBreakpoints", "configurationDone", "evaluate", "next", "stepOut", "stepIn", "continue",
                 "setBreakpoints", "continue", "evaluate", "evaluate", "next", "continue", "continue", "disconnect"]
SHOWING = ("threads", "stackTrace", "scopes", "variables")


def words_of_the_assembler():
    """The one list of reserved words, by kind."""
    with open(os.path.join(TOP, "kernelspec/shared.js"), encoding="utf-8") as file:
        listed = re.search(r"const WORDS = \{(.*?)\};", file.read(), re.S)[1]
    return {kind: words.split() for kind, words in re.findall(r'(\w+): "([^"]*)"', listed)}


def read_json(*path):
    with open(os.path.join(EDITORS, *path), encoding="utf-8") as file:
        return json.load(file)


class Emacs(Session):
    def test_a_program_is_debugged(self):
        if not shutil.which("emacs") or not os.path.isdir("/usr/share/emacs/site-lisp/elpa-src/dap-mode-0.7"):
            self.skipTest("Emacs with dap-mode isn't here: emacs-nox, elpa-dap-mode")
        self.count()
        script = os.path.join(TOP, "clients/emacs_session.el")
        environment = os.environ | {"HOME": self.folder, "LAB80_EDITORS": EDITORS, "LAB80_DAP": debugger()}
        done = subprocess.run(["emacs", "--batch", "-l", script], cwd=self.folder, env=environment, capture_output=True, text=True,
                              timeout=PATIENCE, check=False)
        self.assertEqual((done.returncode, done.stdout), (0, SEEN_IN_EMACS), done.stderr)

    def test_its_file_compiles_without_a_warning(self):
        if not shutil.which("emacs") or not os.path.isdir("/usr/share/emacs/site-lisp/elpa-src/dap-mode-0.7"):
            self.skipTest("Emacs with dap-mode isn't here: emacs-nox, elpa-dap-mode")
        shutil.copy(os.path.join(EDITORS, "emacs/lab80-dap.el"), self.folder)
        words = ["emacs", "--batch", "--eval", "(progn (package-initialize) (setq byte-compile-error-on-warn t))",
                 "-f", "batch-byte-compile", "lab80-dap.el"]
        done = subprocess.run(words, cwd=self.folder, env=os.environ | {"HOME": self.folder}, capture_output=True, text=True,
                              timeout=PATIENCE, check=False)
        self.assertEqual(done.returncode, 0, done.stderr)


class Kate(Session):
    def test_a_program_is_debugged(self):
        if not kate.is_here():
            self.skipTest("Kate on a screen that nobody sees isn't here: kate, xvfb, xdotool")
        path = self.count()
        with kate.Kate(self.folder, path, 10) as window:
            self.debug(window, path)
            kate.wait_for("no process of the debugger", lambda: "tee" not in dict(window.processes()))

    def place(self, window):
        """The routine and the line that Kate was told last."""
        frames = [it for it in window.said() if it.get("command") == "stackTrace"][-1]["body"]["stackFrames"]
        return frames[0]["name"], frames[0]["line"]

    def picture(self, window, name):
        if os.environ.get("LAB80_PICTURES"):
            window.picture(os.path.join(os.environ["LAB80_PICTURES"], name))

    def debug(self, window, path):
        def stops(count):
            return lambda: len(window.events("stopped")) == count

        def line():
            return self.place(window)

        window.do(kate.START, "initialized", lambda: window.events("initialized"))
        window.do(kate.BREAKPOINT, "breakpoints", lambda: window.asked()[-1]["command"] == "setBreakpoints")
        window.do(kate.CONTINUE, "stopped at the breakpoint", stops(1))
        self.assertEqual(line(), ("SHOW", 10))
        window.do(kate.PRINT, "a value", lambda: window.asked()[-1]["command"] == "evaluate")
        self.assertEqual(window.said()[-1]["body"]["result"], "0010BH")
        for letter, count, place in ((kate.STEP_OVER, 2, ("SHOW", 11)), (kate.STEP_OUT, 3, ("main", 6)),
                                     (kate.STEP_IN, 4, ("main", 7))):
            window.do(letter, "a step", stops(count))
            self.assertEqual(line(), place)
            if letter == kate.STEP_OVER:
                self.picture(window, "kate.png")
        window.do(kate.CONTINUE, "stopped at the breakpoint again", stops(5))
        window.do(kate.BREAKPOINT, "no breakpoints", lambda: window.asked()[-1]["command"] == "setBreakpoints")
        window.do(kate.CONTINUE, "held at its end", stops(6))
        window.type("print back start", "stopped at its start", stops(7))
        self.assertEqual(line(), ("main", 3))
        window.type("print back 1", "an answer", lambda: window.said()[-1].get("message") == "the run begins here")
        window.do(kate.STEP_OVER, "a step", stops(8))
        self.assertEqual(line(), ("main", 4))
        window.do(kate.CONTINUE, "held at its end again", stops(9))
        window.choose(kate.CONTINUE)
        kate.wait_for("its end", lambda: window.asked()[-1]["command"] == "disconnect")
        self.assertEqual([it["command"] for it in window.asked() if it["command"] not in SHOWING], ASKED_BY_KATE)
        self.assertEqual("".join(body["output"] for body in window.events("output")), "321")
        self.assertEqual(window.events("exited"), [{"exitCode": 0}])
        self.assertEqual([it["message"] for it in window.said() if it.get("success") is False], ["the run begins here"])

    def without_source(self, name, *words, text):
        """The path of a file that lab80-hex writes."""
        test_hex.setUpModule()
        status, content = test_hex.call(*words, text=text)
        self.assertEqual(status, test_hex.SUCCESS)
        path = os.path.join(self.folder, name)
        with open(path, "wb") as file:
            file.write(content)
        return path, content

    def test_a_program_without_source(self):
        """It is stepped, but Kate doesn't ask for its text."""
        if not kate.is_here():
            self.skipTest("Kate on a screen that nobody sees isn't here: kate, xvfb, xdotool")
        path, _ = self.without_source("count.hex", text=example("count.asm"))
        with kate.Kate(self.folder, path, 1, "from the first line") as window:
            window.do(kate.START, "initialized", lambda: window.events("initialized"))
            for letter, count, place in ((kate.CONTINUE, 1, ("main", 2)), (kate.STEP_OVER, 2, ("main", 3)),
                                         (kate.STEP_OVER, 3, ("main", 4)), (kate.STEP_IN, 4, ("010BH", 8))):
                window.do(letter, "a stop", lambda count=count: len(window.events("stopped")) == count)
                self.assertEqual(self.place(window), place)
            self.assertNotIn("source", [it["command"] for it in window.asked()])

    def test_a_program_without_source_as_a_cell(self):
        if not kate.is_here():
            self.skipTest("Kate on a screen that nobody sees isn't here: kate, xvfb, xdotool")
        _, content = self.without_source("count.hex", text=example("count.asm"))
        path, _ = self.without_source("count-hex.asm", "--list", text=content)
        with kate.Kate(self.folder, path, 8) as window:
            window.do(kate.START, "initialized", lambda: window.events("initialized"))
            window.do(kate.BREAKPOINT, "breakpoints", lambda: window.asked()[-1]["command"] == "setBreakpoints")
            for letter, count, place in ((kate.CONTINUE, 1, ("010BH", 8)), (kate.STEP_OVER, 2, ("010BH", 9))):
                window.do(letter, "a stop", lambda count=count: len(window.events("stopped")) == count)
                self.assertEqual(self.place(window), place)
            self.picture(window, "kate-hex.png")


class VisualStudioCode(unittest.TestCase):
    """The extension, checked by reading its files; it wasn't tried in Visual Studio Code."""

    manifest = read_json("vscode", "package.json")

    def test_the_manifest_has_known_keys(self):
        known = {"name", "displayName", "description", "version", "publisher", "private", "engines", "categories", "main",
                 "activationEvents", "contributes"}
        self.assertLessEqual(set(self.manifest), known)
        contributes = self.manifest["contributes"]
        self.assertLessEqual(set(contributes), {"languages", "grammars", "breakpoints", "configuration", "debuggers"})
        for name, known in (
            ("languages", {"id", "aliases", "extensions", "configuration"}),
            ("grammars", {"language", "scopeName", "path"}),
            ("breakpoints", {"language"}),
            ("debuggers", {"type", "label", "languages", "configurationAttributes", "initialConfigurations",
                           "configurationSnippets"}),
        ):
            for each in contributes[name]:
                self.assertLessEqual(set(each), known, name)
        for each in contributes["configuration"]["properties"].values():
            self.assertLessEqual(set(each), {"type", "default", "description"})

    def test_its_names_agree(self):
        contributes = self.manifest["contributes"]
        [language], [debugger_] = contributes["languages"], contributes["debuggers"]
        self.assertEqual([it["language"] for it in contributes["grammars"] + contributes["breakpoints"]], [language["id"]] * 2)
        self.assertEqual(debugger_["languages"], [language["id"]])
        snippets = [it["body"] for it in debugger_["configurationSnippets"]]
        for each in debugger_["initialConfigurations"] + snippets:
            self.assertEqual((each["type"], each["request"]), (debugger_["type"], "launch"))
            self.assertLessEqual(set(each) - {"type", "request", "name"}, set(self.attributes()))
        with open(os.path.join(TOP, "VERSION"), encoding="ascii") as file:
            self.assertEqual(self.manifest["version"], file.read().strip() + ".0")

    def attributes(self):
        return self.manifest["contributes"]["debuggers"][0]["configurationAttributes"]["launch"]["properties"]

    def test_a_launch_has_the_debuggers_arguments(self):
        self.assertEqual({name: it["type"] for name, it in self.attributes().items()}, {
            "program": "string", "stopOnEntry": "boolean", "noDebug": "boolean", "aliases": "boolean", "switches": "integer",
            "input": "string", "origin": "integer", "start": "integer", "stopAtEnd": "boolean", "watchCommands": "boolean"})
        for each in self.attributes().values():
            self.assertLessEqual(set(each), {"type", "description", "default", "minimum", "maximum"})

    def test_the_files_that_it_names_are_there(self):
        contributes = self.manifest["contributes"]
        named = [self.manifest["main"], contributes["grammars"][0]["path"], contributes["languages"][0]["configuration"]]
        for path in named:
            self.assertTrue(os.path.isfile(os.path.join(EDITORS, "vscode", path)), path)
        read_json("vscode", contributes["languages"][0]["configuration"])


# A text, and the colour of each word.
COLOURED = (
    ("START:  LXI H,TEXT ; A",
     [("START", "label"), ("LXI", "transfer"), ("H", "register"), ("TEXT", "other"), ("; A", "semicolon")]),
    ("count equ 5*(lines-1)",
     [("count", "label"), ("equ", "directive"), ("5", "numeric"), ("*", "operator"), ("lines", "other"), ("-", "operator"),
      ("1", "numeric")]),
    ("  db 'IT''S',0FFH,2B,101b",
     [("db", "directive"), ("'IT''S'", "single"), ("0FFH", "numeric"), ("2B", "number"), ("101b", "numeric")]),
    ("  MVI A,'x", [("MVI", "transfer"), ("A", "register"), ("'x", "string")]),
    ("?A@1 : MOVE", [("?A@1", "label"), ("MOVE", "other")]),
    ("  IF NOT DEBUG", [("IF", "directive"), ("NOT", "word"), ("DEBUG", "other")]),
    ("  jmp $+3", [("jmp", "branch"), ("$", "operator"), ("+", "operator"), ("3", "numeric")]),
)


class Grammar(unittest.TestCase):
    """The language's colours, as a TextMate grammar."""

    patterns = read_json("vscode", "syntaxes", "i8080.tmLanguage.json")["patterns"]

    def test_its_words_are_the_assemblers(self):
        kinds = words_of_the_assembler()
        names = {"operator": "word"}
        for kind, words in kinds.items():
            [found] = [it for it in self.patterns if it["name"].split(".")[-2] == names.get(kind, kind) and "(?i:" in it["match"]
                       and "|" in it["match"]]
            self.assertEqual(re.search(r"\(\?i:([A-Z|]+)\)", found["match"])[1].split("|"), words, kind)

    def coloured(self, line):
        """Each part of a line with the last word but one of its style's name: at each place the first that matches."""
        at, found = 0, []
        while at < len(line):
            tried = ((re.compile(it["match"]).match(line, at), it["name"].split(".")[-2]) for it in self.patterns)
            matches = [(match, name) for match, name in tried if match]
            if matches:
                match, name = matches[0]
                found.append((match[0], name))
            at = matches[0][0].end() if matches else at + 1
        return found

    def test_colours(self):
        for line, parts in COLOURED:
            self.assertEqual(self.coloured(line), parts, line)


# Loads Neovim's file in place of nvim-dap, and prints what it says to it, each function by what it gives.
IN_NEOVIM = """\
local dap = { adapters = {}, configurations = {} }
package.preload.dap = function() return dap end
vim.fn.input = function(prompt) return prompt:find("Switches") and "5" or "go" end
dofile(vim.env.LAB80_EDITORS .. "/nvim/lab80.lua")
for _, each in ipairs(dap.configurations.asm) do
  for name, value in pairs(each) do
    each[name] = type(value) == "function" and value() or value
  end
end
io.stdout:write(vim.json.encode(dap))
"""

# Loads the file for dape in its place, and prints what it says to it.
IN_DAPE = """\
(require 'cl-lib)
(require 'json)
(setq dape-configs nil)
(provide 'dape)
(load (expand-file-name "emacs/lab80-dape.el" (getenv "LAB80_EDITORS")) nil t)
(find-file "count.asm")
(dolist (each (reverse dape-configs))
  (let ((told (cl-loop for (key value) on (cdr each) by #'cddr
                       collect (cons key (if (functionp value) (funcall value) value)))))
    (princ (concat (json-encode told) "\\n"))))
"""

# What the launches of each of these editors add to the program, and that it is kept at its end.
FIRST_LINE, ALIASES = {"stopOnEntry": True}, {"aliases": True}
TYPED = {"switches": 5, "input": "go\r"}


class Launches(Session):
    """The launches that the files for Vim, Neovim and dape offer. The debugger must take each of them."""

    def take(self, launches, path, added):
        self.assertEqual([it for it in launches if it["request"] != "launch" or it["program"] != path], [])
        shared = {"request": "launch", "program": path, "stopAtEnd": True}
        said = [{name: it[name] for name in it if name not in ("type", "name")} for it in launches]
        self.assertEqual(said, [shared | each for each in added])
        for each in said:
            del each["request"]
            self.editor().launch(each.pop("program"), **each)

    def test_vim(self):
        path, read = self.count(), read_json("vim", "vimspector.json")
        self.assertEqual(read["adapters"], {"lab80": {"name": "lab80", "command": ["lab80-dap"]}})
        launches = []
        for each in read["configurations"].values():
            self.assertEqual((each["adapter"], each["filetypes"]), ("lab80", ["asm", "hex"]))
            self.assertEqual(each["breakpoints"], {"exception": {"undefined": "Y", "halt": "N"}})
            launch = each["configuration"] | {"program": each["configuration"]["program"].replace("${file}", path)}
            if "switches#json" in launch:
                self.assertEqual((launch.pop("switches#json"), launch["input"]), ("${Switches:0}", "${Input}\r"))
                launch |= TYPED
            launches.append(launch)
        self.take(launches, path, ({}, FIRST_LINE, ALIASES, TYPED))

    def test_neovim(self):
        if not shutil.which("nvim"):
            self.skipTest("Neovim isn't here: neovim")
        path, script = self.count(), self.program(IN_NEOVIM, "script.lua")
        told = self.printed("nvim", "--headless", "-u", "NONE", "-i", "NONE", "-c", f"luafile {script}", "-c", "qa!")
        read = json.loads(told)
        self.assertEqual(read["adapters"], {"lab80": {"type": "executable", "command": "lab80-dap"}})
        for filetype in ("asm", "hex"):
            launches = [it | {"program": it["program"].replace("${file}", path)} for it in read["configurations"][filetype]]
            self.take(launches, path, ({}, FIRST_LINE, ALIASES, TYPED))

    def test_dape(self):
        if not shutil.which("emacs"):
            self.skipTest("Emacs isn't here: emacs-nox")
        path, script = self.count(), self.program(IN_DAPE, "script.el")
        launches = [json.loads(line) for line in self.printed("emacs", "-Q", "--batch", "-l", script).splitlines()]
        for each in launches:
            self.assertEqual((each.pop("modes"), each.pop("command")), (["asm-mode"], "lab80-dap"))
        self.take(launches, path, ({}, FIRST_LINE, ALIASES))

    def printed(self, *words):
        environment = os.environ | {"HOME": self.folder, "LAB80_EDITORS": EDITORS}
        done = subprocess.run(words, cwd=self.folder, env=environment, capture_output=True, text=True,
                              timeout=PATIENCE, check=True)
        return done.stdout


class Configurations(unittest.TestCase):
    """The files in editors/ for other editors are readable, and name the debugger."""

    def test_helix(self):
        with open(os.path.join(EDITORS, "helix/languages.toml"), "rb") as file:
            [language] = tomllib.load(file)["language"]
        self.assertEqual(language["debugger"]["command"], "lab80-dap")
        for each in language["debugger"]["templates"]:
            self.assertEqual(each["request"], "launch")

    def test_kate(self):
        [configured] = read_json("kate", "dap.json")["dap"].values()
        self.assertEqual(configured["run"]["command"], ["lab80-dap"])
        colours = xml.etree.ElementTree.parse(os.path.join(EDITORS, "kate/i8080.xml"))
        lists = {it.get("name"): [item.text for item in it] for it in colours.iter("list")}
        self.assertEqual(lists, words_of_the_assembler())
        self.assertEqual({it.get("String") for it in colours.iter("keyword")}, set(lists))


if __name__ == "__main__":
    unittest.main()
