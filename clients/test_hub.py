"""A class below JupyterHub, as deploy/ sets it up: thirty students on one machine, each with a board, the memory that this takes,
what a teacher sees and may open, and who is refused."""
import html
import os
import re
import subprocess
import sys
import tempfile
import unittest

import hub
from browser import Browser, wait_until
from lab80_client import HELLO
from panel_page import Page
from ports import free_port

STUDENTS = [f"s{number:02}" for number in range(1, 31)]
WORDS = {name: f"word of {name}" for name in STUDENTS} | {"teacher": "word of the teacher"}

# The list of the class, and a setting of the hub: who is out is so within a second.
LIST = "# the class\n*teacher word of the teacher\n" + "".join(f"{name} {WORDS[name]}\n" for name in STUDENTS)
MORE = "c.Authenticator.auth_refresh_age = 1\n"

# The most memory of a class of thirty with a board each.
MOST = 3.5e9

# The most tasks of a class of thirty with a board each, far below what a unit may have on a machine of 2 GB.
TASKS = 900

FIELDS = re.compile("<td>(.*?)</td>")

NOTEBOOK = "03-jumps.ipynb"
BOARD = "kernelspecs/lab80/panel.html"
ENDLESS = " ORG 100H\nX: INR B\n JMP X\n END X"

# Fills in the hub's form, and sends it.
LOG_IN = """
    const [name, word] = arguments;
    document.getElementById("username_input").value = name;
    document.getElementById("password_input").value = word;
    document.getElementById("login_submit").click();"""
AUTHORIZE = "const button = document.querySelector('form [type=submit]'); if (button) button.click();"


def where(browser):
    return browser.run("return location.pathname")


class Class(unittest.TestCase):
    """All tests are of one hub, whose class has logged in at once."""

    hub_class = hub.Hub

    @classmethod
    def setUpClass(cls):
        cls.hub_class.needed()
        cls.hub = cls.enterClassContext(cls.hub_class(cls.enterClassContext(tempfile.TemporaryDirectory()), LIST, MORE))
        cls.class_ = cls.hub.log_in({name: WORDS[name] for name in STUDENTS})
        cls.boards = {name: visitor.start_board(NOTEBOOK) for name, visitor in cls.class_.items()}
        cls.teacher = hub.Visitor(cls.hub).log_in("teacher", WORDS["teacher"])

    def rows(self):
        """The class page as a teacher sees it: for each student the texts of the fields behind the name."""
        status, _, page = self.teacher.page("/services/class/")
        self.assertEqual(status, 200)
        rows = [[html.unescape(re.sub("<.*?>", "", field)) for field in FIELDS.findall(row)] for row in page.split("<tr")]
        return {name: fields for name, *fields in filter(None, rows)}

    def test_each_has_a_board_of_an_own_account(self):
        kernels = [process for process in self.hub.processes() if hub.is_kernel(process)]
        self.assertLessEqual(len(STUDENTS), len({os.stat(f"/proc/{process}").st_uid for process in kernels}))
        for name, visitor in self.class_.items():
            self.assertEqual([(board["id"], board["name"]) for board in visitor.boards()], [(self.boards[name], "lab80")])

    def test_the_memory_and_the_tasks_of_the_class(self):
        processes = self.hub.processes()
        self.assertLess(sum(map(hub.held, processes)), MOST)
        self.assertLess(sum(map(hub.threads, processes)), TASKS)

    def test_homes_are_private_and_have_the_lessons(self):
        _, modes = self.hub.call("stat", "-c", "%a %U %n", *(f"/home/{name}" for name in STUDENTS))
        self.assertEqual(modes.splitlines(), [f"700 {name} /home/{name}" for name in STUDENTS])
        lessons = sorted(name for name in os.listdir(os.path.join(hub.TOP, "lessons")) if name.endswith(".ipynb"))
        self.assertEqual(self.hub.call("ls", "/home/s01/lessons")[1].split(), lessons)

    def test_the_class_page_shows_each_student(self):
        rows = self.rows()
        self.assertEqual(sorted(rows), STUDENTS)
        self.assertEqual(rows["s01"], ["runs", NOTEBOOK, "idle", "", "0"])

    def test_names_on_the_class_page_are_text(self):
        name = "<b>&\"'.ipynb"
        self.class_["s05"].start_board(name)
        wait_until(lambda: f">{html.escape(name)}<" in self.teacher.page("/services/class/")[2])
        self.assertNotIn("<b>", self.teacher.page("/services/class/")[2])

    def test_the_class_page_is_for_teachers(self):
        self.assertEqual(self.class_["s01"].page("/services/class/")[0], 403)
        self.assertEqual(hub.Visitor(self.hub).page("/services/class/")[1], "/hub/login")

    def test_other_students_boards_are_refused(self):
        other = self.class_["s02"]
        self.assertEqual(other.page(f"/user/s01/{BOARD}")[0], 403)
        self.assertEqual(other.page("/user/s01/api/kernels")[0], 403)
        self.assertEqual(other.page("/hub/admin")[0], 403)
        status, address, _ = hub.Visitor(self.hub).page(f"/user/s01/{BOARD}")
        self.assertEqual((status, address), (200, "/hub/login"))

    def test_wrong_names_and_words(self):
        for name, word in (("s01", "word of s02"), ("s01", ""), ("root", ""), ("nobody", "x"), ("*teacher", WORDS["teacher"])):
            with self.subTest(name=name):
                self.assertEqual(hub.Visitor(self.hub).log_in(name, word).name, "")

    def test_a_class_that_changes(self):
        """Nobody's board ends by it; who comes gets a word, and who isn't named any more is out."""
        status, told = self.hub.change_class(LIST + "late\n")
        late, word = told.splitlines()[0].split()
        self.assertEqual((status, late), (0, "late"))
        visitor = hub.Visitor(self.hub).log_in(late, word)
        self.assertEqual(visitor.name, "late")
        # the servers are asked every fifteen seconds
        wait_until(lambda: self.rows().get("late") == ["doesn't run", "", "", "", ""])
        self.assertEqual(self.hub.change_class(LIST)[0], 0)
        wait_until(lambda: "late" not in self.rows())
        wait_until(lambda: visitor.page("/hub/home")[1] == "/hub/login")
        self.assertEqual([board["id"] for board in self.class_["s01"].boards()], [self.boards["s01"]])

    def test_what_a_student_links_to_is_not_collected(self):
        self.hub.call("runuser", "-u", "s02", "--", "ln", "-s", "/var/lib/lab80/class", "/home/s02/lessons/stolen.ipynb")
        folder = os.path.join(self.hub.folder, "collected")
        _, told = self.hub.call(f"{hub.DEPLOY}/collect", folder)
        self.assertIn("/home/s02/lessons/stolen.ipynb: Too many levels of symbolic links", told)
        self.assertEqual(sorted(os.listdir(folder)), STUDENTS)
        self.assertEqual(os.listdir(os.path.join(folder, "s02")), os.listdir(os.path.join(folder, "s01")))
        self.assertIn(NOTEBOOK, os.listdir(os.path.join(folder, "s02")))

    def test_a_home_keeps_its_owner(self):
        """Where accounts are made anew, as in another container, nobody gets the home of somebody else."""
        make = [sys.executable, "-B", f"{hub.DEPLOY}/accounts.py"]
        self.hub.call(*make, "gone")
        number = self.hub.call("stat", "-c", "%u", "/home/gone")
        self.hub.call("userdel", "gone")
        self.hub.call(*make, "next")
        self.hub.call(*make, "gone")
        self.assertEqual(self.hub.call("id", "-u", "gone"), number)
        self.assertNotEqual(self.hub.call("id", "-u", "next"), number)

    def log_in(self, browser, path, name):
        """Opens an address of the hub, and logs in there, as the hub asks."""
        browser.open(self.hub.base + path)
        self.assertEqual(where(browser), "/hub/login")
        browser.run(LOG_IN, name, WORDS[name])

    def test_the_one_address_of_a_class(self):
        with Browser(free_port(), 1250, 1130) as browser:
            self.log_in(browser, f"/hub/user-redirect/{BOARD}", "s03")
            wait_until(lambda: where(browser) == f"/user/s03/{BOARD}")
            page = Page(browser)
            self.assertIn(NOTEBOOK, wait_until(lambda: page.text("#kernels")))
            page = Page(browser, f"{self.hub.base}/user/s03/{BOARD}?kernel={self.boards['s03']}")
            page.is_in("idle")
            page.run_cell(HELLO)
            page.prints("hello, world\n")

    def test_a_teacher_opens_a_students_board(self):
        self.hub.run_cell("s04", self.boards["s04"], ENDLESS)
        wait_until(lambda: self.rows()["s04"][:3] == ["runs", NOTEBOOK, "runs or waits"])
        with Browser(free_port(), 1000, 1100) as browser:
            self.log_in(browser, "/services/class/", "teacher")
            wait_until(lambda: where(browser) == "/services/class/")
            browser.run("document.querySelector('a[href*=\"/user/s04/\"]').click()")
            wait_until(lambda: "oauth" in where(browser))
            browser.run(AUTHORIZE)
            wait_until(lambda: where(browser) == f"/user/s04/{BOARD}")
            page = Page(browser)
            page.is_in("running")
            page.click("#interrupt")
            page.is_in("idle")


class ClassFile(unittest.TestCase):
    """The file of a class, which deploy/class_file.py makes of a teacher's list."""

    def setUp(self):
        self.folder = self.enterContext(tempfile.TemporaryDirectory())

    def make(self, people):
        """Makes the file of a list. Returns the status, what is printed, and the file's lines."""
        path = os.path.join(self.folder, "list")
        with open(path, "w", encoding="utf-8") as file:
            file.write(people)
        done = subprocess.run([sys.executable, "-B", os.path.join(hub.TOP, "deploy/class_file.py"), path], capture_output=True,
                              text=True, timeout=60, check=False, env=os.environ | {"LAB80_STATE": self.folder})
        return done.returncode, done.stdout, done.stderr

    def kept(self, name="class"):
        with open(os.path.join(self.folder, name), encoding="utf-8") as file:
            return file.read()

    def test_words_are_not_in_the_file(self):
        status, told, _ = self.make("*anna secret word\nBen\n\n# nobody\n")
        self.assertEqual(status, 0)
        name, word = told.split()
        self.assertEqual(name, "ben")
        self.assertRegex(self.kept(), r"\A\*anna scrypt:\w+:\w+\nben scrypt:\w+:\w+\n\Z")
        self.assertNotIn("secret", self.kept())
        self.assertNotIn(word, self.kept())
        self.assertEqual(self.kept("students"), "ben\n")
        self.assertEqual(os.stat(os.path.join(self.folder, "class")).st_mode & 0o777, 0o600)

    def test_who_has_a_word_keeps_it(self):
        self.make("*anna one\nben\n")
        before = self.kept()
        status, told, _ = self.make("*anna\nben\ncora\n")
        self.assertEqual((status, told.split()[0]), (0, "cora"))
        self.assertTrue(self.kept().startswith(before))

    def test_lists_that_are_refused(self):
        for people, why in (("", "names nobody"), ("anna\nroot x\n", "line 2: 'root' is an account of the system's"),
                            ("*anna\nAnna\n", "line 2: 'anna' is there twice"), ("a/b\n", "line 1: 'a/b' can't"),
                            ("ö\n", "line 1: 'ö' can't be an account's name"), ("-x\n", "line 1: '-x' can't")):
            with self.subTest(people=people):
                status, told, wrong = self.make(people)
                self.assertEqual((status, told), (1, ""))
                self.assertIn(why, wrong)
                self.assertFalse(os.path.exists(os.path.join(self.folder, "class")))

    def test_a_list_without_a_teacher_is_told(self):
        self.assertIn("no teacher", self.make("anna\n")[2])
