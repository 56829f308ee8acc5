"""The hub as a unit of systemd, which runs as the first process in a root of Debian 13: begin as a teacher calls it, and students'
boards while the unit is restarted, stopped and killed. It is run with LAB80_HUB5 set."""
import json
import os
import signal
import tempfile
import unittest

import hub
import trixie
from browser import wait_until
from test_hub import ENDLESS, NOTEBOOK

LIST = "*teacher word of the teacher\nanna word of anna\n"


class Unit(unittest.TestCase):
    """All tests are of one hub, which serves again after each, and of a board that runs all the time."""

    seconds = 900

    @classmethod
    def setUpClass(cls):
        trixie.before_a_release()
        trixie.Unit.needed()
        cls.hub = cls.enterClassContext(trixie.Unit(cls.enterClassContext(tempfile.TemporaryDirectory()), LIST))
        cls.anna = cls.hub.log_in({"anna": "word of anna"})["anna"]
        cls.board = cls.anna.start_board(NOTEBOOK)
        cls.hub.run_cell("anna", cls.board, ENDLESS)
        [cls.kernel] = [process for process in cls.hub.processes() if hub.is_kernel(process)]

    def serves(self):
        wait_until(lambda: hub.Visitor(self.hub).ask("GET", "/hub/api/")[0] == 200, 240)

    def main(self):
        return int(self.hub.shows("MainPID"))

    def is_found_again(self):
        """The hub knows the student's server, and the board still runs; a page that logs in now reaches both."""
        self.serves()
        anna = self.hub.log_in({"anna": "word of anna"})["anna"]
        self.assertEqual([(each["id"], each["execution_state"]) for each in anna.boards()], [(self.board, "busy")])
        self.assertEqual([process for process in self.hub.processes() if hub.is_kernel(process)], [self.kernel])

    def test_begin_takes_the_place_of_debians_unit(self):
        self.assertEqual(self.hub.before, ["active", "enabled"])
        self.assertEqual(self.hub.states("jupyterhub"), ["inactive", "disabled"])
        self.assertEqual(self.hub.states("lab80-hub"), ["active", "enabled"])

    def test_boards_run_on_where_the_unit_is_restarted(self):
        before = self.main()
        self.assertEqual(self.hub.call("systemctl", "restart", "lab80-hub")[0], 0)
        self.assertNotEqual(self.main(), before)
        self.is_found_again()

    def test_and_where_it_is_stopped(self):
        self.assertEqual(self.hub.call("systemctl", "stop", "lab80-hub")[0], 0)
        self.assertEqual(self.hub.states("lab80-hub")[0], "inactive")
        self.assertTrue(os.path.exists(f"/proc/{self.kernel}"))
        self.assertEqual(self.hub.call("systemctl", "start", "lab80-hub")[0], 0)
        self.is_found_again()

    def test_a_hub_that_is_killed_is_started_again(self):
        before = self.main()
        self.assertEqual(self.hub.call("systemctl", "kill", "--kill-whom=main", f"--signal={signal.SIGKILL}", "lab80-hub")[0], 0)
        wait_until(lambda: self.main() not in (0, before))
        self.is_found_again()

    def test_a_class_that_changes_restarts_nothing(self):
        before = self.main()
        status, told = self.hub.change_class(LIST + "late\n")
        name, word = told.split()[:2]
        self.assertEqual((status, name, self.main()), (0, "late", before))
        self.assertEqual(hub.Visitor(self.hub).log_in(name, word).name, "late")

    def test_the_unit_has_room_for_a_class(self):
        self.assertEqual(self.hub.shows("KillMode"), "process")
        self.assertLess(30 * 15, int(self.hub.shows("TasksMax")))


if __name__ == "__main__":
    unittest.main()
