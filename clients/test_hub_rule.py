"""The front panel and Notebook where requests are refused as JupyterHub does, below an address as a hub gives to each user; and
what a page says that can't begin, or is shut out."""
import json
import os
import shutil
import tempfile
import urllib.parse

from browser import Browser, wait_until
from jupyter_servers import TOKEN, Server, free_port
from lab80_client import HELLO
from panel_page import Page, keep_picture
from panel_tests import HERE, NotebookPages, Pages
from stand_in import StandIn
from test_notebook import FAULTY, TOLD

BASE = "/user/ann/"

# The file and the names under which each server is told of extensions.
CONFIGURATION = {"server": ("jupyter_server_config", "ServerApp", "jpserver_extensions"),
                 "notebook": ("jupyter_notebook_config", "NotebookApp", "nbserver_extensions")}

# What a page says that can't begin, and its link.
SAID = "const told = document.querySelector('body > [role=alert]:only-child'); return told && told.textContent"
LINK = "body > [role=alert] a"

SHUT = "The server doesn't let this page in (403)"
NO_COOKIE = ", and the browser keeps no cookie _xsrf for it"

HREF = "return document.getElementById('way').getAttribute('href')"
HAS_WAY = "return document.getElementById('way') !== null"


class HubServer(Server):
    """A server with the rule, below a user's address."""

    def __init__(self, program, folder):
        file, application, extensions = CONFIGURATION[program]
        place = os.path.join(folder, "config")
        os.mkdir(place)
        with open(os.path.join(place, file + ".json"), "w", encoding="utf-8") as config:
            json.dump({application: {"base_url": BASE, extensions: {"hub_rule": True}}}, config)
        os.environ.update(JUPYTER_CONFIG_PATH=place, PYTHONPATH=HERE)
        super().__init__(program, folder)
        self.address += BASE.rstrip("/")


class Below(Pages):
    """Tests with such a server."""

    seconds = 180

    @classmethod
    def setUpClass(cls):
        cls.folder = cls.enterClassContext(tempfile.TemporaryDirectory())
        cls.server = cls.enterClassContext(HubServer(cls.program, cls.folder))
        cls.browser = cls.enterClassContext(Browser(free_port(), 1250, 1130))

    def setUp(self):
        super().setUp()
        self.browser.devtools("Network.clearBrowserCache")

    def cookies(self):
        """The browser's cookies for the server."""
        return {each["name"]: each["value"] for each in self.browser.ask("GET", "/cookie")}

    def kept(self, page):
        """The page's address, under which the browser keeps it. The page itself is left."""
        address = page.run("return location.href")
        self.browser.open("about:blank")
        return address

    def says(self, sentence, link):
        """Waits until a page that can't begin says so."""
        try:
            wait_until(lambda: self.browser.run(SAID) == f"{sentence}. {link}")
        except TimeoutError:
            shown = self.browser.run("return document.body.innerText.slice(0, 300)")
            raise TimeoutError(f"it shows {shown!r}, and not {sentence!r}") from None

    def logs_in(self):
        """Gives the token at the server's login, to which a page has led. It leads back to the page."""
        wait_until(lambda: self.browser.run("return location.pathname") == BASE + "login")
        self.browser.click("#password_input")
        self.browser.type(TOKEN)
        self.browser.click("#login_submit")
        return Page(self.browser)


class Panel(Below):
    """The front panel on a server alone."""

    def test_the_rule(self):
        """Requests of scripts, which modules are too, need the value of the cookie; others don't."""
        cookies = self.cookies()
        value = urllib.parse.quote(cookies["_xsrf"])
        has = {"Cookie": "; ".join(f"{name}={each}" for name, each in cookies.items())}
        asked, file = BASE + "api/kernelspecs/lab80", BASE + "kernelspecs/lab80/shared.js"
        for mode in ("cors", "same-origin"):
            given = has | {"Sec-Fetch-Mode": mode}
            for more in ({}, {"X-XSRFToken": "another"}):
                self.assertEqual(self.server.status(asked, given | more), 403)
                self.assertEqual(self.server.status(file, given | more), 302)
            self.assertEqual(self.server.status(asked, given | {"X-XSRFToken": cookies["_xsrf"]}), 200)
            self.assertEqual(self.server.status(f"{file}?_xsrf={value}", given), 200)
        for mode in ("navigate", "no-cors"):
            self.assertEqual(self.server.status(file, has | {"Sec-Fetch-Mode": mode}), 200)

    def test_a_board_is_started_and_runs_a_cell(self):
        page = Page(self.browser, self.server.page("lab80", "panel.html"))
        page.is_in("choose a board")
        page.click("#start-board")
        page.is_in("idle")
        page.run_cell(HELLO)
        page.waits(lambda: page.console().endswith("hello, world\n"))
        page.waits(lambda: len(page.texts("#examples option")) > 1)
        page.is_in("idle")

    def test_a_page_that_isnt_let_in_says_why(self):
        """One that the browser has kept, after the cookies are gone. Its link leads to the login, and then back."""
        address = self.kept(self.open())
        self.browser.ask("DELETE", "/cookie")
        self.browser.open(self.server.page("lab80", "logo-32x32.png"))
        self.browser.ask("DELETE", "/cookie")
        self.browser.open(address)
        self.says(SHUT + NO_COOKIE, "Log in")
        keep_picture(self.browser, "panel-shut")
        self.browser.click(LINK)
        page = self.logs_in()
        page.is_in("idle")
        self.assertEqual(page.run("return location.href"), address)

    def test_a_page_without_the_cookie_gets_it_when_it_is_opened(self):
        address = self.kept(self.open())
        self.browser.open(self.server.page("lab80", "logo-32x32.png"))
        self.browser.ask("DELETE", "/cookie/_xsrf")
        self.browser.open(address)
        self.says(SHUT + NO_COOKIE, "Log in")
        self.browser.click(LINK)
        page = Page(self.browser)
        page.is_in("idle")

    def test_one_with_an_old_cookie_too(self):
        address = self.kept(self.open())
        self.browser.open(self.server.page("lab80", "logo-32x32.png"))
        for name in self.cookies():
            self.browser.ask("DELETE", "/cookie/" + name)
        self.browser.ask("POST", "/cookie", {"cookie": {"name": "_xsrf", "value": "old", "path": BASE}})
        self.browser.open(address)
        self.says(SHUT, "Log in")
        self.browser.click(LINK)
        self.logs_in().is_in("idle")

    def test_a_login_that_has_ended(self):
        """The page says so, and its link logs in and leads back to the board."""
        page = self.open()
        page.run_cell(HELLO)
        page.waits(lambda: page.console().endswith("hello, world\n"))
        self.browser.ask("DELETE", "/cookie")
        page.run("line.socket.close()")
        page.is_in("log in at this server again")
        self.assertEqual(page.text("#way"), "Log in")
        page.picture("panel-log-in", 1140, 200)
        self.browser.click("#way")
        page = self.logs_in()
        page.is_in("idle")
        self.assertEqual((page.run("return line.kernel"), page.run(HAS_WAY)), (self.kernel, False))

    def test_a_stopped_server(self):
        """Hubs say so by 424, or older ones by 503. A link leads to where the hub starts it; the page also comes back alone."""
        with StandIn(self.server.port) as hub:
            kernel = self.server.start_kernel("lab80")
            address = self.server.page("lab80", "panel.html", kernel=kernel, token=TOKEN)
            page = Page(self.browser, address.replace(f":{self.server.port}", f":{hub.port}"))
            page.is_in("idle")
            back = urllib.parse.quote(page.run("return location.pathname + location.search"), safe="")
            for status in (424, 503):
                hub.answer(status)
                page.waits(lambda: page.state().startswith("this server is stopped, next try in "))
                self.assertEqual(page.text("#way"), "Start the server")
                self.assertEqual(page.run(HREF), "/hub/spawn/ann?next=" + back)
                page.picture("panel-stopped", 1140, 200)
                hub.answer(0)
                page.waits(lambda: page.state() == "idle")
                self.assertFalse(page.run(HAS_WAY))


class Lacking(Below):
    """A kernelspec of its own, whose files are damaged."""

    def setUp(self):
        super().setUp()
        self.whole = os.path.join(os.environ["JUPYTER_PATH"], "kernels/lab80")
        self.place = os.path.join(os.environ["JUPYTER_DATA_DIR"], "kernels/lacking")
        shutil.copytree(self.whole, self.place, dirs_exist_ok=True)
        self.addCleanup(shutil.rmtree, self.place, ignore_errors=True)
        self.address = self.server.page("lacking", "panel.html")

    def test_a_file_that_isnt_there(self):
        os.remove(os.path.join(self.place, "panel/dom.js"))
        self.browser.open(self.address)
        self.says("The server of this page doesn't have its file panel/dom.js (404)", "Load this page anew")
        shutil.copy(os.path.join(self.whole, "panel/dom.js"), os.path.join(self.place, "panel/dom.js"))
        self.browser.click(LINK)
        Page(self.browser).is_in("choose a board")

    def test_a_file_of_another_version(self):
        with open(os.path.join(self.place, "panel/files.js"), "w", encoding="utf-8") as file:
            file.write("export const other = 0;\n")
        self.browser.open(self.address)
        wait_until(lambda: str(self.browser.run(SAID)).startswith("A file of this page can't be used (Uncaught SyntaxError: "))
        self.assertIn("does not provide an export named 'saveFile'", self.browser.run(SAID))

    def test_a_kernel_that_was_removed(self):
        page = Page(self.browser, self.address)
        page.is_in("choose a board")
        address = self.kept(page)
        shutil.rmtree(self.place)
        self.browser.open(address)
        self.says("The server of this page doesn't have the kernel lacking (404)", "Load this page anew")

    def test_a_server_that_doesnt_answer(self):
        page = Page(self.browser, self.address)
        page.is_in("choose a board")
        address = self.kept(page)
        self.browser.devtools("Network.enable")
        network = {"latency": 0, "downloadThroughput": -1, "uploadThroughput": -1}
        try:
            self.browser.devtools("Network.emulateNetworkConditions", offline=True, **network)
            self.browser.open(address)
            self.says("The server of this page doesn't answer", "Load this page anew")
        finally:
            self.browser.devtools("Network.emulateNetworkConditions", offline=False, **network)
        self.browser.click(LINK)
        Page(self.browser).is_in("choose a board")


class InNotebook(Below, NotebookPages):
    """The classic Notebook, and the panel that its button opens."""

    def test_colours_words_and_the_panel(self):
        self.notebook("rule", [FAULTY, HELLO])
        self.execute(0)
        wait_until(lambda: self.browser.run(TOLD, 0)["why"])
        self.assertEqual(self.browser.run(TOLD, 0)["notes"], [])
        self.execute(1)
        self.shows(1, "hello, world")
        page = self.press_button()
        page.is_in("idle")
        page.run_cell(HELLO)
        page.waits(lambda: page.console().endswith("hello, world\n"))
