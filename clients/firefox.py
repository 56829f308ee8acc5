"""A browser without a screen: Firefox, controlled by its own protocol, Marionette. Debian has no WebDriver for it.

Marionette has the same commands under other names, so that this is a `browser.Browser` whose commands are sent elsewhere."""
import json
import os
import re
import shutil
import socket
import subprocess
import tempfile
import unittest

from browser import PATIENCE, Browser, wait_until

PROGRAM = "firefox-esr"

# The most seconds that it may take to start, some hundred times what it takes on an idle machine.
STARTS = 270

# WebDriver's commands as Marionette names them. A star stands for an element's reference or a cookie's name.
COMMANDS = {
    "POST /url": "Navigate",
    "POST /execute/sync": "ExecuteScript",
    "POST /execute/async": "ExecuteAsyncScript",
    "POST /element": "FindElement",
    "POST /element/*/click": "ElementClick",
    "GET /element/*/screenshot": "TakeScreenshot",
    "GET /screenshot": "TakeScreenshot",
    "POST /actions": "PerformActions",
    "GET /window": "GetWindowHandle",
    "POST /window": "SwitchToWindow",
    "DELETE /window": "CloseWindow",
    "GET /window/handles": "GetWindowHandles",
    "POST /window/new": "NewWindow",
    "POST /window/rect": "SetWindowRect",
    "POST /window/minimize": "MinimizeWindow",
    "GET /cookie": "GetCookies",
    "POST /cookie": "AddCookie",
    "DELETE /cookie": "DeleteAllCookies",
    "DELETE /cookie/*": "DeleteCookie",
}

# Scripts run in a surrounding of their own, whose `globalThis` isn't the page's. These call them as functions of the page.
IN_PAGE = "return window.Function(arguments[0]).apply(window, arguments[1]);"
IN_PAGE_LATER = "window.Function(arguments[0]).apply(window, [...arguments[1], arguments[2]]);"

# Firefox asks nobody for anything but the page, can be cut off from this machine's servers too, and takes an address of more
# than a mebibyte, which the page itself refuses. Marionette sets the rest.
SETTINGS = {
    "app.normandy.enabled": False,
    "browser.shell.checkDefaultBrowser": False,
    "browser.startup.page": 0,
    "datareporting.policy.dataSubmissionEnabled": False,
    "layout.css.prefers-color-scheme.content-override": 1,
    "network.captive-portal-service.enabled": False,
    "network.connectivity-service.enabled": False,
    "network.disable-localhost-when-offline": True,
    "network.standard-url.max-length": 2 << 20,
}

# Runs Firefox, and removes the folder $0 when it has ended. TERM, which also comes when the tests are killed, ends it. It ends
# with this shell, too, if that one is killed.
KEEPER = """
    firefox=
    trap 'kill -KILL $firefox 2>/dev/null' TERM
    setpriv --pdeathsig KILL "$@" &
    firefox=$!
    wait $firefox
    wait $firefox
    rm -rf "$0"
"""


class Refused(OSError):
    """A command that Firefox refuses, or that it doesn't answer any more."""


def needed():
    """Passes over the tests of a class or a module if there is no Firefox."""
    if not shutil.which(PROGRAM):
        raise unittest.SkipTest(f"there is no Firefox: the Debian package {PROGRAM} has it")


class Firefox(Browser):
    """A window of Firefox. It ends with a `with`, and leaves nothing behind, even if the tests are killed."""

    def __init__(self, port, width=900, height=900):
        self.folder = tempfile.TemporaryDirectory()
        self.used, self.number, self.heard = "", 0, b""
        self.keeper = self.start(port, width, height)
        try:
            self.wire = wait_until(lambda: self.connect(port), STARTS)
            self.wire.settimeout(STARTS)
            self.receive()
            self.command("WebDriver:NewSession", {"timeouts": {"script": 1_000 * PATIENCE}})
            self.wire.settimeout(PATIENCE + 10)
            self.size(width, height)
        except BaseException:
            self.end()
            raise

    def start(self, port, width, height):
        folder = self.folder.name
        profile = os.path.join(folder, "profile")
        os.mkdir(profile)
        with open(os.path.join(profile, "user.js"), "w", encoding="ascii") as file:
            for name, value in (SETTINGS | {"marionette.port": port}).items():
                file.write(f"user_pref({json.dumps(name)}, {json.dumps(value)});\n")
        own = {"HOME": folder, "TMPDIR": folder, "LANG": "C.UTF-8", "PATH": os.environ["PATH"], "MOZ_CRASHREPORTER_DISABLE": "1",
               "MOZ_HEADLESS_WIDTH": str(width), "MOZ_HEADLESS_HEIGHT": str(height)}
        words = [PROGRAM, "--headless", "--marionette", "--remote-allow-system-access", "--no-remote", "--profile", profile,
                 "about:blank"]
        return subprocess.Popen(["setpriv", "--pdeathsig", "TERM", "sh", "-c", KEEPER, folder, *words], env=own, cwd=folder,
                                stdin=subprocess.DEVNULL, stdout=subprocess.DEVNULL, stderr=subprocess.DEVNULL)

    def connect(self, port):
        if self.keeper.poll() is not None:
            raise RuntimeError("Firefox has ended before it could be controlled")
        return socket.create_connection(("127.0.0.1", port), PATIENCE + 10)

    def __exit__(self, *_):
        try:
            self.command("Marionette:Quit", {"flags": ["eForceQuit"]})
            self.keeper.wait(PATIENCE)
        finally:
            self.end()

    def end(self):
        """Ends Firefox if it still runs, and waits until its folder is gone."""
        self.keeper.terminate()
        self.keeper.wait(PATIENCE)
        self.folder.cleanup()

    def receive(self):
        """The next message: its length, a colon, and JSON."""
        while b":" not in self.heard:
            self.hear()
        length, _, self.heard = self.heard.partition(b":")
        while len(self.heard) < int(length):
            self.hear()
        message, self.heard = self.heard[:int(length)], self.heard[int(length):]
        return json.loads(message)

    def hear(self):
        more = self.wire.recv(1 << 20)
        if not more:
            raise Refused("Firefox has ended")
        self.heard += more

    def command(self, name, given):
        """Sends a command, and returns the answer to it."""
        self.number += 1
        message = json.dumps([0, self.number, name, given]).encode()
        self.wire.sendall(b"%d:%s" % (len(message), message))
        answer = [1, 0, None, None]
        while answer[1] != self.number:
            answer = self.receive()
        _, _, wrong, value = answer
        if wrong:
            raise Refused(f"{name}: {wrong['error']}: {wrong['message']}")
        return value["value"] if isinstance(value, dict) and "value" in value else value

    def ask(self, method, path, content=None):
        given = dict(content or {})
        if found := re.fullmatch(r"/(element|cookie)/([^/]+)(.*)", path):
            given["id" if found[1] == "element" else "name"] = found[2]
            path = f"/{found[1]}/*{found[3]}"
        if path.endswith("/screenshot"):
            given["full"] = False
        return self.command("WebDriver:" + COMMANDS[f"{method} {path}"], given)

    def run(self, script, *given):
        return super().run(IN_PAGE, script, given)

    def run_later(self, script, *given):
        return super().run_later(IN_PAGE_LATER, script, given)

    def within(self, script, *given):
        """The value of a script in Firefox itself."""
        self.command("Marionette:SetContext", {"value": "chrome"})
        try:
            return super().run(script, *given)
        finally:
            self.command("Marionette:SetContext", {"value": "content"})

    def prefer(self, scheme):
        name = "layout.css.prefers-color-scheme.content-override"
        self.within("Services.prefs.setIntPref(arguments[0], arguments[1])", name, ("dark", "light").index(scheme))

    def devtools(self, command, **given):
        """Of Chromium's own protocol the one thing that tests of the panel ask for: the network is gone, or is there again."""
        if command == "Network.emulateNetworkConditions":
            self.within("Services.io.offline = arguments[0]", given["offline"])
        elif command != "Network.enable":
            raise Refused(f"{command} is a command for Chromium")
