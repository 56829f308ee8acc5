"""JupyterLab and JupyterHub 5 of Debian 13, from the root that the script `trixie` makes. Debian 12 has neither."""
import contextlib
import ctypes
import os
import shutil
import signal
import subprocess
import tempfile
import unittest

import hub
from browser import PATIENCE, wait_until
from jupyter_servers import TOKEN, Server
from ports import free_port

# Where the root is: the variable, or the folder that the script takes by itself.
CACHE = os.environ.get("XDG_CACHE_HOME") or os.path.expanduser("~/.cache")
ROOT = os.environ.get("LAB80_TRIXIE") or os.path.join(CACHE, "lab80/trixie")

# Runs a command in the root $1, with the folder $2 for what mounts need, and with $3 further folders at their own paths. Whatever
# the command changes elsewhere in the root is kept in memory. All mounts are seen by this command alone, and go with it.
ENTER = """
    root=$1 place=$2 count=$3
    shift 3
    mount -t tmpfs -o mode=755 lab80 "$place"
    mkdir "$place/changed" "$place/work" "$place/root"
    cd "$root"
    mount -t overlay -o "lowerdir=.,upperdir=$place/changed,workdir=$place/work" lab80 "$place/root"
    mount -t proc proc "$place/root/proc"
    mount --rbind /dev "$place/root/dev"
    while [ "$count" -gt 0 ]; do
        mkdir -p "$place/root$1"
        mount --bind "$1" "$place/root$1"
        shift
        count=$((count - 1))
    done
    /usr/sbin/chroot "$place/root" "$@"
    exit $?
"""

# Puts the files of a folder into the root, and runs a command.
LAY_OUT = 'cp -r "$0/usr/." /usr/ && exec "$@"'

# Boots the systemd of the root $1, as its first process, with the folder $2 for what mounts need and the files of the folder $3
# laid over it, in the cgroup $4. The hierarchy of cgroups is the one of today, wherever this machine has it.
BOOT = """
    root=$1 place=$2 folder=$3 group=$4
    mount -t tmpfs -o mode=755 lab80 "$place"
    mkdir "$place/changed" "$place/work" "$place/root" "$place/cgroup"
    mount -t cgroup2 lab80 "$place/cgroup"
    mkdir "$place/cgroup/$group"
    echo 0 >"$place/cgroup/$group/cgroup.procs"
    umount "$place/cgroup"
    exec unshare --cgroup sh -ec "$5" sh "$root" "$place" "$folder"
"""
# The rest, in a namespace of cgroups in which that one is the first. systemd gets no rights to what belongs to the machine.
BOOTED = """
    cd "$1"
    place=$2 folder=$3
    mount -t overlay -o "lowerdir=.,upperdir=$place/changed,workdir=$place/work" lab80 "$place/root"
    cd "$place/root"
    cp -r "$folder/usr/." usr/
    mount -t proc proc proc
    mount --bind proc/sys proc/sys
    mount -o remount,bind,ro proc/sys
    mount -t sysfs -o ro sysfs sys
    mount -t cgroup2 lab80 sys/fs/cgroup
    mount -t tmpfs -o mode=755 lab80 run
    mount -t tmpfs -o mode=755 lab80 dev
    mkdir dev/pts dev/shm
    mount -t devpts -o newinstance,ptmxmode=666,mode=620,gid=5 lab80 dev/pts
    mount -t tmpfs -o mode=1777 lab80 dev/shm
    for name in null zero full random urandom tty; do
        : >"dev/$name"
        mount --bind "/dev/$name" "dev/$name"
    done
    ln -s pts/ptmx dev/ptmx
    ln -s /proc/self/fd dev/fd
    mkdir -p ".$folder"
    mount --bind "$folder" ".$folder"
    ln -s /dev/null etc/systemd/system/tmp.mount    # it would hide the folder
    echo lab80 >etc/hostname
    echo 127.0.1.1 lab80 >>etc/hosts
    exec setpriv --bounding-set=-sys_time,-sys_module,-sys_rawio,-syslog,-sys_boot /usr/sbin/chroot . env -i container=lab80 \
        PATH=/usr/sbin:/usr/bin:/sbin:/bin /lib/systemd/systemd --log-target=console --show-status=no
"""
# Removes a cgroup, and all below it.
LEAVE = """
    mount -t cgroup2 lab80 "$0"
    [ ! -e "$0/$1" ] || find "$0/$1" -depth -type d -exec rmdir {} +
"""

# Quiet settings: no question whether there should be news.
SETTINGS = {"apputils-extension/notification": '{"fetchNews": "false", "checkForUpdates": false, "doNotDisturbMode": true}'}


def is_whole():
    """Whether the root is there, made of the packages that are named now."""
    packages = os.path.join(os.path.dirname(os.path.abspath(__file__)), "trixie-packages")
    try:
        with open(os.path.join(ROOT, "etc/lab80-root"), encoding="ascii") as made, open(packages, encoding="ascii") as named:
            return made.read() == "trixie\n" + named.read()
    except OSError:
        return False


def needed():
    """Passes over the tests of a class or a module if there is no such root, or it can't be entered."""
    if os.geteuid() != 0:
        raise unittest.SkipTest("only root can enter a root of Debian 13")
    if not is_whole():
        raise unittest.SkipTest(f"no Debian 13 in {ROOT}: clients/trixie makes it, or says why it can't")
    with tempfile.TemporaryDirectory() as folder:
        done = subprocess.run(inside(["true"], folder), capture_output=True, text=True, timeout=PATIENCE, check=False)
    if done.returncode != 0:
        raise unittest.SkipTest(f"the root of Debian 13 can't be entered: {done.stderr.strip()}")


def before_a_release():
    """Passes over tests that take minutes, and aren't run each time."""
    if "LAB80_HUB5" not in os.environ:
        raise unittest.SkipTest("before a release: LAB80_HUB5=all")


def inside(words, place, *folders, **environment):
    """The command that runs these words in the root, with an environment of its own. It sees these folders at their own paths. An
    empty folder, `place`, is for the mounts. All that runs there ends with the first process there, whose parent is the command,
    and that one ends with the process that started the command, even if that is killed."""
    given = {"HOME": "/root", "LANG": "C.UTF-8", "PATH": "/usr/local/bin:/usr/bin:/bin:/usr/sbin:/sbin"} | environment
    return ["setpriv", "--pdeathsig", "KILL", "unshare", "--mount", "--pid", "--fork", "--kill-child",
            "sh", "-ec", ENTER, "sh", ROOT, place, str(len(folders)), *folders,
            "env", "-i", *(f"{name}={value}" for name, value in given.items()), *words]


class JupyterLab(Server):
    """JupyterLab over a folder of notebooks, `folder`, with the kernelspec of the tests. It ends with a `with`.

    It is at `address`, and wants the token `jupyter_servers.TOKEN`. Extensions are the folders in `labextensions`, if that is
    given, as they would be in `share/jupyter/labextensions`."""

    def __init__(self, labextensions=None):
        self.held = tempfile.TemporaryDirectory()
        self.folder, place, home, data = (self.make(name) for name in ("notebooks", "root", "home", "data"))
        self.set_up(home)
        if labextensions:
            shutil.copytree(labextensions, os.path.join(data, "labextensions"))
        self.port = free_port()
        self.address = f"http://127.0.0.1:{self.port}"
        self.log = os.path.join(self.held.name, "log")
        specs = os.environ["JUPYTER_PATH"]
        words = ["jupyter", "lab", "--no-browser", "--allow-root", "--ip=127.0.0.1", f"--port={self.port}",
                 f"--ServerApp.root_dir={self.folder}", f"--ServerApp.token={TOKEN}", "--ServerApp.port_retries=0",
                 "--LabApp.expose_app_in_browser=True"]
        command = inside(words, place, self.held.name, specs, HOME=home, JUPYTER_PATH=f"{data}:{specs}")
        with open(self.log, "wb") as log:
            self.process = subprocess.Popen(command, stdin=subprocess.DEVNULL, stdout=log, stderr=log)

    def make(self, name):
        path = os.path.join(self.held.name, name)
        os.mkdir(path)
        return path

    def set_up(self, home):
        for name, text in SETTINGS.items():
            path = os.path.join(home, ".jupyter/lab/user-settings/@jupyterlab", name + ".jupyterlab-settings")
            os.makedirs(os.path.dirname(path))
            with open(path, "w", encoding="ascii") as file:
                file.write(text)

    def __enter__(self):
        try:
            wait_until(self.is_there, 2 * PATIENCE)
        except BaseException:
            self.end()
            raise
        return self

    def is_there(self):
        """Whether it answers. If it has ended, the last lines of its log say why."""
        if self.process.poll() is not None:
            with open(self.log, encoding="utf-8", errors="replace") as log:
                raise RuntimeError("JupyterLab has ended:\n" + "".join(log.readlines()[-20:]))
        return self.ask("GET", "/api")["version"]

    def __exit__(self, *_):
        try:
            self.ask("POST", "/api/shutdown", {})
            self.process.wait(PATIENCE)
        except (OSError, subprocess.TimeoutExpired):
            pass
        finally:
            self.end()

    def end(self):
        """Kills what still runs, and waits until all of it is gone."""
        number = self.process.pid
        if self.process.poll() is None:
            with open(f"/proc/{number}/task/{number}/children", encoding="ascii") as file:
                [first] = file.read().split() or [number]
            with contextlib.suppress(ProcessLookupError):
                os.kill(int(first), signal.SIGKILL)
        try:
            self.process.wait(PATIENCE)
        finally:
            self.process.kill()
            self.held.cleanup()

    def notebook(self, name):
        """The address of a notebook, in a workspace of its own, in which nothing else is open."""
        return f"{self.address}/lab/workspaces/{name}/tree/{name}.ipynb?token={TOKEN}"


class Hub5(hub.Hub):
    """A hub with a class, as `hub.Hub`, but Debian 13's: JupyterHub 5, whose servers show JupyterLab."""

    FRONT = "lab"
    needed = staticmethod(needed)

    def command(self, *words):
        return inside(["sh", "-c", LAY_OUT, self.folder, *words], os.path.join(self.folder, "own"), self.folder, **self.environment)

    def entry(self):
        return [*super().entry(), "chroot", os.path.join(self.folder, "own/root")]


class Unit(Hub5):
    """The same as a unit of systemd, which `begin` makes and starts. It serves at port 8000, as everywhere, in a network of its
    own, to which the process of the tests belongs from then on."""

    GROUP = f"lab80-{os.getpid()}"
    FORKS = ["unshare", "--mount", "--pid", "--ipc", "--uts", "--fork", "--kill-child"]

    @staticmethod
    def needed():
        needed()
        if not os.path.exists(os.path.join(ROOT, "lib/systemd/systemd")) or leave_network() != 0:
            raise unittest.SkipTest("no network of its own can be had, or no systemd")

    def address(self):
        return "http://127.0.0.1:8000"

    def command(self, *_):
        return [*hub.ENDING, *self.FORKS, "sh", "-ec", BOOT, "sh", ROOT, os.path.join(self.folder, "own"), self.folder, self.GROUP,
                BOOTED]

    def __enter__(self):
        try:
            wait_until(lambda: self.has_ended() or self.call("systemctl", "is-system-running")[1].strip() == "running", 120)
            self.before = self.states("jupyterhub")
            status, told = self.call(f"{hub.DEPLOY}/begin", self.list)
            if status != 0:
                raise ChildProcessError(told)
        except BaseException:
            self.__exit__()
            raise
        return super().__enter__()

    def __exit__(self, *_):
        super().__exit__()
        with tempfile.TemporaryDirectory() as place:
            subprocess.run(["unshare", "--mount", "sh", "-ec", LEAVE, place, self.GROUP], check=True)

    def entry(self):
        before, *others = super().entry()
        return [before, "--uts", *others]

    def told(self):
        """What the unit has printed."""
        return self.call("journalctl", "--unit=lab80-hub", "--output=cat", "--no-pager")[1]

    def states(self, unit):
        """Whether a unit runs, and whether it is started with the machine."""
        return [self.call("systemctl", word, unit)[1].strip() for word in ("is-active", "is-enabled")]

    def shows(self, name):
        """A property of the hub's unit."""
        return self.call("systemctl", "show", "--value", f"--property={name}", "lab80-hub")[1].strip()


def leave_network():
    """Takes this process into a network of its own, with nothing but itself. Returns 0, or something else if that can't be."""
    new_network = 0x40000000
    return ctypes.CDLL(None).unshare(new_network) or subprocess.run(["ip", "link", "set", "lo", "up"], check=False).returncode
