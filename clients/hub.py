"""A class below JupyterHub, as deploy/begin serves it: on this machine, but with accounts, homes and kept files of its own, which
are gone when it ends; and its visitors, by the cookies of a browser. On Debian 13 it is `trixie.Hub5`."""
import concurrent.futures
import glob
import http.cookiejar
import json
import os
import re
import shutil
import subprocess
import unittest
import urllib.error
import urllib.parse
import urllib.request

from jupyter_client.kernelspec import get_kernel_spec

from browser import wait_until
from ports import SIZE, free_port, is_free

TOP = os.path.dirname(os.path.dirname(os.path.abspath(__file__)))

SPEC = "/usr/share/jupyter/kernels/lab80"
EXTENSION = "/usr/share/jupyter/labextensions/lab80"
DEPLOY = "/usr/share/lab80/deploy"
STATE = "/var/lib/lab80"

# Runs a command with the files of a folder laid over the machine's, and with other ones where it would change the machine's. Only
# this command and what it starts see them.
PLACE = """
mount -t tmpfs -o mode=755 lab80 "$0/own" && mkdir "$0/own/etc" "$0/own/work" &&
mount -t overlay lab80 -o lowerdir=/etc,upperdir="$0/own/etc",workdir="$0/own/work" /etc &&
mount -t overlay lab80 -o ro,lowerdir="$0/usr":/usr /usr &&
for folder in /home /run /var/lib /var/log; do mount -t tmpfs -o mode=755 lab80 "$folder" || exit; done &&
exec "$@"
"""
# Serves a class, and serves it again where a restart was asked for, as systemd does.
SERVES = """
mkdir -p {state} && cp "$0/more" {state}/more_config.py || exit
while {deploy}/begin --serve "$0/list"; [ -e "$0/again" ]; do rm "$0/again"; done"""

# Runs a cell on the kernel of a connection file, and ends once the cell is busy.
RUN = """
import sys
from jupyter_client import BlockingKernelClient
client = BlockingKernelClient(connection_file=sys.argv[1])
client.load_connection_file()
client.start_channels()
client.wait_for_ready(timeout=60)
cell = client.execute(sys.argv[2])
while True:
    message = client.get_iopub_msg(timeout=60)
    if message["parent_header"].get("msg_id") == cell and message["content"].get("execution_state") == "busy":
        break
"""

APART = ["unshare", "--mount", "--pid", "--fork", "--kill-child", "--mount-proc"]

# Ends a command with the process that started it.
ENDING = ["setpriv", "--pdeathsig", "KILL"]

# A field of a form that the hub's pages ask to be sent back, from JupyterHub 4.1 on.
FIELD = re.compile(r'<input[^>]*name="(_xsrf|scopes)"[^>]*value="([^"]*)"')


def free_ports():
    """A port that is free together with the three that deploy/jupyterhub_config.py takes besides, all in this process's block."""
    for _ in range(SIZE):
        port = free_port()
        if port % SIZE < SIZE - 82 and all(is_free(port + more) for more in (1, 81, 82)):
            free_port()
            return port
    raise OSError("no port is free with the others of a hub")


def lay_out(folder):
    """Puts below a folder what the package has for a hub: the kernel, JupyterLab's extension, the lessons and deploy."""
    spec = get_kernel_spec("lab80").resource_dir
    shutil.copytree(spec, folder + SPEC)
    shutil.copytree(os.path.join(spec, "../../labextensions/lab80"), folder + EXTENSION)
    with open(folder + SPEC + "/kernel.json", "r+", encoding="utf-8") as file:
        spec = json.load(file)
        spec["argv"][1] = SPEC + "/start"
        file.seek(0)
        file.truncate()
        json.dump(spec, file)
    shutil.copytree(os.path.join(TOP, "deploy"), folder + DEPLOY, ignore=shutil.ignore_patterns("__pycache__"))
    lessons = folder + "/usr/share/doc/lab80/lessons"
    os.makedirs(lessons)
    for path in glob.glob(os.path.join(TOP, "lessons/*.ipynb")):
        shutil.copy(path, lessons)


class Hub:
    """A hub with a class. It ends with a `with`, and all that it has started."""

    # The first page of a student's server.
    FRONT = "tree"

    @staticmethod
    def needed():
        """Passes over the tests of a class if this process can't make such a place, or the hub isn't installed."""
        tried = subprocess.run([*APART, "true"], capture_output=True, check=False)
        programs = "jupyterhub", "configurable-http-proxy"
        if os.geteuid() != 0 or tried.returncode != 0 or not all(map(shutil.which, programs)):
            raise unittest.SkipTest("it needs root, namespaces, and Debian's jupyterhub")

    def __init__(self, folder, people, more=""):
        """The class is a list as begin takes it; `more` are settings of the hub."""
        os.chmod(folder, 0o755)
        os.mkdir(os.path.join(folder, "own"))
        lay_out(folder)
        self.folder, self.base = folder, self.address()
        self.list, self.log = os.path.join(folder, "list"), os.path.join(folder, "hub.log")
        with open(self.list, "w", encoding="utf-8") as file:
            file.write(people)
        with open(os.path.join(folder, "more"), "w", encoding="utf-8") as file:
            file.write(more)
        # A busy machine may not start the proxy within JupyterHub's ten seconds. Then it is tried once more, as systemd does.
        with open(os.path.join(folder, "again"), "w", encoding="ascii"):
            pass
        # Node of another maker than Debian doesn't search the folder of Debian's modules.
        self.environment = {"PATH": "/usr/sbin:/usr/bin:/sbin:/bin", "LANG": "C.UTF-8", "HOME": "/root",
                            "NODE_PATH": "/usr/share/nodejs", "LAB80_HUB": self.base}
        command = self.command("sh", "-c", SERVES.format(state=STATE, deploy=DEPLOY), folder)
        with open(self.log, "wb") as log:
            self.process = subprocess.Popen(command, cwd="/", stdin=subprocess.DEVNULL, stdout=log, stderr=log,
                                            env=self.environment)

    def address(self):
        return f"http://127.0.0.1:{free_ports()}"

    def command(self, *words):
        """The command that runs these words in the hub's place, and ends with this process."""
        return [*ENDING, *APART, "sh", "-c", PLACE, self.folder, *words]

    def __enter__(self):
        try:
            wait_until(lambda: self.has_ended() or Visitor(self).ask("GET", "/hub/api/")[0] == 200, 240)
        except BaseException:
            self.__exit__()
            raise
        if self.has_ended():
            raise ChildProcessError(f"the hub has ended: {self.told()[-3000:]}")
        return self

    def __exit__(self, *_):
        try:
            left = self.processes()
        except OSError:
            left = []
        self.process.kill()
        self.process.wait(60)
        wait_until(lambda: not any(os.path.exists(f"/proc/{process}") for process in left), 60)

    def has_ended(self):
        return self.process.poll() is not None

    def told(self):
        with open(self.log, encoding="utf-8", errors="replace") as file:
            return file.read()

    def told_of(self, name):
        """What the log has about somebody, but for the requests that were answered."""
        lines = [line for line in self.told().splitlines() if name in line and " 200 " not in line and " pending" not in line]
        return "\n".join(lines[-40:])

    def first(self):
        """The number of its first process, with which all others end."""
        with open(f"/proc/{self.process.pid}/task/{self.process.pid}/children", encoding="ascii") as file:
            for number in file.read().split():
                return int(number)
        raise ProcessLookupError("it hasn't begun yet, or has ended")

    def processes(self):
        """The numbers of all its processes."""
        wanted, found = os.readlink(f"/proc/{self.first()}/ns/pid"), []
        for path in glob.glob("/proc/[0-9]*/ns/pid"):
            try:
                if os.readlink(path) == wanted:
                    found.append(int(path.split("/")[2]))
            except OSError:
                pass
        return found

    def process_of(self, word):
        """The number of the hub's process whose command has a word."""
        [found] = [process for process in self.processes() if any(word in each for each in command_of(process))]
        return found

    def restart(self, sign):
        """Ends the hub with a signal, and waits until it serves again. The students' servers are left alone."""
        before = self.process_of("jupyterhub_config.py")
        with open(os.path.join(self.folder, "again"), "w", encoding="ascii"):
            os.kill(before, sign)
        wait_until(lambda: not os.path.exists(f"/proc/{before}"), 60)
        wait_until(lambda: Visitor(self).ask("GET", "/hub/api/")[0] == 200, 240)

    def entry(self):
        """The words before a command that is to run in the hub's place."""
        return ["nsenter", f"--target={self.first()}", "--mount", "--pid"]

    def call(self, *words):
        """Runs a command in the hub's place. Returns its status and what it prints."""
        done = subprocess.run([*self.entry(), *words], capture_output=True, text=True, timeout=60, check=False, env=self.environment)
        return done.returncode, done.stdout + done.stderr

    def change_class(self, people):
        """Has begin read another list, as a teacher does while it serves."""
        with open(self.list, "w", encoding="utf-8") as file:
            file.write(people)
        return self.call(f"{DEPLOY}/begin", self.list)

    def run_cell(self, name, board, text):
        """Has a student's board run a cell, as a notebook does. Returns once the cell runs."""
        connection = f"/home/{name}/.local/share/jupyter/runtime/kernel-{board}.json"
        done, told = self.call("runuser", "-u", name, "--", "/usr/bin/python3", "-B", "-c", RUN, connection, text)
        if done != 0:
            raise ChildProcessError(told)

    def log_in(self, people, seconds=600):
        """Logs in several persons at once, as a class does: names and passwords. Returns them by name, each with a server.
        The hub is asked for one after another whether it has started: thirty who ask all the time keep it busy."""
        with concurrent.futures.ThreadPoolExecutor(len(people)) as pool:
            found = dict(zip(people, pool.map(lambda name: Visitor(self).log_in(name, people[name]).begin(), people)))
            wait_until(lambda: all(visitor.has_begun() for visitor in found.values()), seconds)
            list(pool.map(Visitor.enter, found.values()))
        return found


class Visitor:
    """Somebody who has a browser's cookies, and no browser."""

    def __init__(self, hub):
        self.hub, self.name, self.is_served = hub, "", False
        self.cookies = http.cookiejar.CookieJar()
        self.opener = urllib.request.build_opener(urllib.request.HTTPCookieProcessor(self.cookies))

    def ask(self, method, path, content=None, **headers):
        """Sends a request as JSON, or as a form if it is text. Returns the status, where redirects led to, and the answer."""
        data = content.encode() if isinstance(content, str) else content and json.dumps(content).encode()
        kind = "application/x-www-form-urlencoded" if isinstance(content, str) else "application/json"
        word = self.word(path)
        headers |= {"Content-Type": kind, "Referer": self.hub.base + path} | ({"X-XSRFToken": word} if word else {})
        request = urllib.request.Request(self.hub.base + path, data, headers, method=method)
        try:
            with self.opener.open(request, timeout=240) as answer:
                return answer.status, urllib.parse.urlsplit(answer.url).path, answer.read().decode()
        except urllib.error.HTTPError as refusal:
            with refusal:
                return refusal.code, urllib.parse.urlsplit(refusal.url).path, refusal.read().decode(errors="replace")

    def word(self, path):
        """What a server wants to see again of the requests of its own pages: the cookie with the longest path."""
        found = [cookie for cookie in self.cookies if cookie.name == "_xsrf" and path.startswith(cookie.path)]
        return max(found, key=lambda cookie: len(cookie.path)).value if found else None

    def page(self, path):
        return self.ask("GET", path, **{"Sec-Fetch-Mode": "navigate"})

    def answer(self, path, page, **given):
        """Sends a form back, with the fields that are hidden in it."""
        fields = FIELD.findall(page) + list(given.items())
        return self.ask("POST", path, urllib.parse.urlencode(fields), **{"Sec-Fetch-Mode": "navigate"})

    def log_in(self, name, password):
        """Logs in at the hub. Where that is refused, the name stays empty."""
        form = self.page("/hub/login")[2]
        status, where, _ = self.answer("/hub/login?next=%2Fhub%2Fhome", form, username=name, password=password)
        if (status, where) == (200, "/hub/home"):
            self.name = name
        return self

    def begin(self):
        """Starts the server."""
        self.page("/hub/spawn")
        return self

    def has_begun(self):
        """Whether the server has started. Once it has, nobody is asked any more."""
        if not self.is_served:
            status, _, told = self.ask("GET", f"/hub/api/users/{self.name}")
            server = json.loads(told)["servers"].get("") if status == 200 else None
            if not server:
                raise ChildProcessError(f"{self.name} has no server: {status}\n{self.hub.told_of(self.name)}")
            self.is_served = server["ready"]
        return self.is_served

    def enter(self):
        """Opens the server's page, with which it knows this visitor."""
        status, where, _ = self.page(self.at(self.hub.FRONT))
        if status != 200 or not where.startswith(self.at("")):
            raise ValueError(f"{self.name} sees {status} {where}\n{self.hub.told_of(self.name)}")
        return self

    def at(self, path):
        """The address of something on this visitor's server."""
        return f"/user/{self.name}/{path}"

    def start_board(self, notebook):
        """Starts a board for a notebook, as its page does. Returns the board's identifier."""
        wanted = {"path": notebook, "name": notebook, "type": "notebook", "kernel": {"name": "lab80"}}
        status, _, told = self.ask("POST", self.at("api/sessions"), wanted)
        if status != 201:
            raise ValueError(f"{self.name} has no board: {status} {told[:500]}")
        return json.loads(told)["kernel"]["id"]

    def boards(self):
        return json.loads(self.ask("GET", self.at("api/kernels"))[2])


def command_of(process):
    """The words of a process's command."""
    try:
        with open(f"/proc/{process}/cmdline", encoding="utf-8", errors="replace") as file:
            return file.read().split("\0")[:-1]
    except OSError:
        return []


def held(process):
    """The memory of a process in bytes, and of what it shares with others its part."""
    try:
        with open(f"/proc/{process}/smaps_rollup", encoding="ascii") as file:
            return 1024 * int(re.search(r"(?m)^Pss: +(\d+) kB$", file.read())[1])
    except OSError:
        return 0


def threads(process):
    try:
        return len(os.listdir(f"/proc/{process}/task"))
    except OSError:
        return 0


def is_kernel(process):
    try:
        return os.readlink(f"/proc/{process}/exe").endswith(SPEC + "/lab80")
    except OSError:
        return False
