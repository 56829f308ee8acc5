"""The static site of web/, and a host of files for it, in the place of a Jupyter server; and its page as one file, without a host."""
import functools
import http.server
import os
import shutil
import subprocess
import tempfile
import threading
import unittest
import urllib.parse
import uuid
from pathlib import Path

from ports import free_port

HERE = os.path.dirname(os.path.abspath(__file__))
WEB = os.path.join(HERE, "..", "web")

# The folder with modules that are made already; by default web/make makes them.
MODULES = os.environ.get("LAB80_MODULES")


def make(*given):
    """Makes the site in an empty folder, or its page as a file. Where the module can't be made, tests of it are passed over."""
    words = [os.path.join(WEB, "make"), *given, *(["--modules", MODULES] if MODULES else [])]
    made = subprocess.run(words, stdout=subprocess.PIPE, stderr=subprocess.STDOUT, text=True, check=False)
    if made.returncode:
        raise unittest.SkipTest(f"there is no site: {made.stdout.strip()}")


@functools.cache
def site():
    """The site, in a folder that goes with this process."""
    folder = tempfile.TemporaryDirectory()
    make(folder.name)
    return folder


@functools.cache
def one_file():
    """The page as one file, in a folder that goes with this process."""
    folder = tempfile.TemporaryDirectory()
    make("--single", os.path.join(folder.name, "lab80.html"))
    return folder


class Handler(http.server.SimpleHTTPRequestHandler):
    """What `python3 -m http.server` runs, but without its lines on standard error. The paths that are asked for are kept."""

    def log_message(self, *_):
        self.server.asked.append(self.path)


class Host:
    """A host of files. It ends with a `with`, and keeps its port when it is stopped for a while."""

    def __init__(self, folder):
        self.folder, self.port, self.asked, self.server = folder, free_port(), [], None
        self.address = f"http://127.0.0.1:{self.port}"

    def __enter__(self):
        self.start()
        return self

    def __exit__(self, *_):
        self.stop()

    def start(self):
        handler = functools.partial(Handler, directory=self.folder)
        self.server = http.server.ThreadingHTTPServer(("127.0.0.1", self.port), handler)
        self.server.asked = self.asked
        threading.Thread(target=self.server.serve_forever, daemon=True).start()

    def stop(self):
        if self.server:
            self.server.shutdown()
            self.server.server_close()
        self.server = None


class Site(Host):
    """A host of the site, or of a changed copy in a folder, for tests that are written for `jupyter_servers.Server`."""

    def __init__(self, _program="", _folder="", copy=None):
        super().__init__(copy or site().name)

    def page(self, _name, file, **asked):
        """The address of one of the page's files, by the kernelspec's names."""
        asked.pop("token", None)
        query = urllib.parse.urlencode(asked)
        return f"{self.address}/{'' if file == 'panel.html' else file}" + (f"?{query}" if query else "")

    def start_kernel(self, _name):
        """The name of a board that begins when it is opened first."""
        return str(uuid.uuid4())

    def end_kernels(self):
        """Boards end with their last window."""


class OneFile:
    """The page as one file, alone in a folder, in the place of a host. `change` makes another one of its text."""

    def __init__(self, folder, change=lambda text: text):
        self.path = Path(folder, "lab80.html")
        shutil.copy(os.path.join(one_file().name, "lab80.html"), self.path)
        self.path.write_text(change(self.path.read_text(encoding="utf-8")), encoding="utf-8")
        self.address = self.path.as_uri()

    def page(self, _name, _file, **asked):
        query = urllib.parse.urlencode(asked)
        return self.address + (f"?{query}" if query else "")
