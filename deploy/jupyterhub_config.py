"""A class of lab80 on one machine: the configuration of JupyterHub 3 (Debian 12) and 5 (Debian 13), with an account of the
machine for each student. docs/HUB.md says how it is begun.

    LAB80_HUB      where it is reached, by default http://:8000. Higher ports, up to 1100 more, are for this machine alone
    LAB80_STATE    the folder of what it keeps, by default /var/lib/lab80. Settings in more_config.py there come after these
"""
import asyncio
import importlib.util
import itertools
import os
import pathlib
import socket
import sys
import urllib.parse

from jupyterhub.auth import Authenticator

HERE = pathlib.Path(__file__).resolve().parent
sys.path.insert(0, str(HERE))
sys.dont_write_bytecode = True

import class_file

ADDRESS = os.environ.get("LAB80_HUB", "http://:8000")
PORT = urllib.parse.urlsplit(ADDRESS).port or 8000
KEPT = class_file.FOLDER / "hub"

# The seconds after which a board without a page ends, and then a server without boards; and between two looks for such boards.
FORGOTTEN, LOOKS = 3600, 300


class ClassAuthenticator(Authenticator):
    """Lets in whom the class's file names. The file is read each time, so a changed one needs no restart."""

    async def authenticate(self, handler, data):
        name = data["username"].strip().lower()
        person = class_file.people().get(name)
        if person is None or not class_file.is_password(data["password"], person.word):
            return None
        return known(name, person)

    async def refresh_user(self, user, handler=None, **_):
        """Asked again every few minutes: who isn't named any more is out."""
        person = class_file.people().get(user.name)
        return known(user.name, person) if person else False


def known(name, person):
    return {"name": name, "admin": False, "groups": ["teachers" if person.teaches else "students"]}


# A class logs in all at once. Few servers start at the same time, and the others wait for them: thirty at once on two processors
# would take each so long that the hub gave up. Accounts are made one by one, since useradd gives up where another one runs.
starts = asyncio.Semaphore(2 * (os.cpu_count() or 1))
making = asyncio.Lock()
leaving = set()


# The ports of servers, one after another. The hub's own choice is any free port, which two may get at the same moment.
ports = itertools.cycle((*range(PORT + 2, PORT + 81), *range(PORT + 100, PORT + 1100)))


def is_free(port):
    with socket.socket() as tried:
        return tried.connect_ex(("127.0.0.1", port)) != 0


async def leave(spawner):
    """Lets the next server start once this one has started, or failed to."""
    while spawner.pending == "spawn":
        await asyncio.sleep(0.2)
    starts.release()


async def prepare(spawner):
    """Before a student's server starts: its turn, the account and the lessons. What they have to say is in the hub's log."""
    await starts.acquire()
    leaving.add(task := asyncio.ensure_future(leave(spawner)))
    task.add_done_callback(leaving.discard)
    spawner.port = next(filter(is_free, itertools.islice(ports, 1000)), 0)
    async with making:
        program = await asyncio.create_subprocess_exec(sys.executable, "-B", str(HERE / "accounts.py"), spawner.user.name)
        if await program.wait() != 0:
            raise RuntimeError(f"{spawner.user.name} has no account")


def is_there(module):
    return importlib.util.find_spec(module) is not None


# Servers are Notebook 6's where there is no JupyterLab, as in Debian 12.
is_notebook_6 = not is_there("jupyterlab") and is_there("notebook") and is_there("notebook.notebookapp")


c.JupyterHub.bind_url = ADDRESS
c.ConfigurableHTTPProxy.api_url = f"http://127.0.0.1:{PORT + 1}"
c.JupyterHub.hub_bind_url = f"http://127.0.0.1:{PORT + 81}"
c.ConfigurableHTTPProxy.pid_file = str(KEPT / "proxy.pid")
c.JupyterHub.db_url = f"sqlite:///{KEPT}/hub.sqlite"
c.JupyterHub.cookie_secret_file = str(KEPT / "cookie_secret")
c.JupyterHub.authenticator_class = ClassAuthenticator
c.Authenticator.manage_groups = True
if hasattr(Authenticator, "allow_all"):
    c.Authenticator.allow_all = True        # from JupyterHub 5; the class's file decides
c.JupyterHub.spawner_class = "jupyterhub.spawner.LocalProcessSpawner"
c.Spawner.pre_spawn_hook = prepare
c.Spawner.notebook_dir = "~/lessons"

c.Spawner.start_timeout = c.Spawner.http_timeout = 120

# A page of a server that has ended starts it again, without a question.
c.JupyterHub.implicit_spawn_seconds = 0.5

# With cull_busy a forgotten program ends too: one that runs or waits is busy for ever.
application = "NotebookApp" if is_notebook_6 else "ServerApp"
c.Spawner.args = [f"--MappingKernelManager.cull_idle_timeout={FORGOTTEN}", f"--MappingKernelManager.cull_interval={LOOKS}",
                  "--MappingKernelManager.cull_busy=True", f"--{application}.shutdown_no_activity_timeout={FORGOTTEN}"]

# Where jupyter_server is installed too, JupyterHub 3 would start that, which has no pages of its own.
if is_notebook_6:
    c.Spawner.environment = {"JUPYTERHUB_SINGLEUSER_APP": "notebook.notebookapp.NotebookApp"}

# A hub that is restarted, or ends by a fault, ends nobody's board. The class page's service goes with it, for its port.
c.JupyterHub.cleanup_servers = False

# A teacher sees who is there, starts and ends servers, and opens them. The class page, for teachers alone, looks at a student's
# server with a token that opens no other.
c.JupyterHub.services = [{
    "name": "class", "url": f"http://127.0.0.1:{PORT + 82}", "user": "nobody", "cwd": "/", "oauth_no_confirm": True,
    "command": ["/usr/bin/setpriv", "--pdeathsig", "TERM", sys.executable, "-B", str(HERE / "class_service.py")],
    "environment": {"LAB80_STATE": str(class_file.FOLDER), "LAB80_PROXY": f"http://127.0.0.1:{PORT}"}}]
c.JupyterHub.load_roles = [
    {"name": "teachers", "groups": ["teachers"],
     "scopes": ["admin-ui", "list:users", "admin:servers", "access:servers", "access:services!service=class"]},
    {"name": "class-page", "services": ["class"], "scopes": ["list:users", "read:servers", "tokens"]}]

if (class_file.FOLDER / "more_config.py").exists():
    load_subconfig(str(class_file.FOLDER / "more_config.py"))
