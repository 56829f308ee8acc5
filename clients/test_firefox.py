"""The front panel in Firefox: tests of the panel that run in Chromium with their own files, those that tell most of a
browser; and that nothing is left of a Firefox."""
import glob
import os
import subprocess
import sys
import unittest
import unittest.mock

import firefox
import test_languages
import test_panel
import test_panel_anew
import test_panel_cell
import test_panel_devices
import test_panel_map
import test_panel_programs
import test_panel_restore
import test_panel_seeing
import test_panel_users
import test_panel_walk
import test_panel_warnings
from browser import wait_until
from panel_tests import HERE
from ports import free_port

# Opens a Firefox, says where its folder is, and never ends by itself.
OPENS = """
import signal, firefox, ports
opened = firefox.Firefox(ports.free_port())
print(opened.folder.name, flush=True)
signal.pause()"""


def setUpModule():
    firefox.needed()


class InFirefox:
    """What a class of the panel's tests has besides them."""

    browser_class = firefox.Firefox


def only(*names):
    """Leaves a class the tests of these names, which it inherits."""
    def choose(tests):
        held = unittest.defaultTestLoader.getTestCaseNames(tests)
        missing = {f"test_{name}" for name in names} - set(held)
        if missing:
            raise NameError(f"{tests.__name__} has no {missing}")
        for name in held:
            if name[len("test_"):] not in names:
                setattr(tests, name, None)
        return tests
    return choose


@only("lamps_switches_and_a_button", "reset_is_asked_once_more", "a_stop_and_steps_by_line", "steps_by_instruction_and_keys",
      "what_is_shown_of_a_stop", "a_stop_in_an_interrupt", "the_current_line_is_seen", "changes_by_hand", "lines_are_typed",
      "two_pages_on_one_board", "a_lost_line_is_made_anew", "texts_are_shown_as_texts", "a_hidden_page_sends_nothing",
      "keyboard_and_roles", "a_token_is_taken_from_the_address", "files_have_plain_addresses")
class Panel(InFirefox, test_panel.Panel):
    pass


@only("a_kernel_that_ends_by_itself_too")
class Anew(InFirefox, test_panel_anew.Anew):
    pass


@only("a_page_that_is_opened_late", "a_page_that_is_loaded_anew_while_a_cell_runs")
class Live(InFirefox, test_panel_walk.Live):
    pass


@only("a_run_is_stopped_at_its_first_instruction", "a_slow_run", "the_trace_and_going_back")
class Walk(InFirefox, test_panel_walk.Walk):
    pass


@only("files", "addresses_with_a_program", "drafts_are_kept", "keys_of_the_cell", "the_focus_is_never_beneath_the_head",
      "errors_in_words_at_their_place", "cards_on_hover_and_focus")
class Programs(InFirefox, test_panel_programs.Programs):
    pass


@only("a_program_is_shown_once", "breakpoints_before_the_first_run", "keys_lead_into_the_margin_and_out_of_the_cell",
      "to_the_line_of_the_caret", "edits_move_breakpoints", "a_text_that_was_edited_has_no_current_line",
      "a_long_text_is_drawn_where_it_is_seen", "a_mebibyte", "cards", "what_is_drawn_is_the_text")
class Cell(InFirefox, test_panel_cell.Cell):
    pass


@only("screens_of_dots", "digits_and_segments", "what_the_user_chooses_is_kept_for_the_program")
class Devices(InFirefox, test_panel_devices.Devices):
    pass


@only("arrows_press_buttons", "the_keypad_types", "a_bell_is_heard_and_seen")
class Keys(InFirefox, test_panel_devices.Keys):
    pass


@only("bases", "dresses_of_the_lamps", "run_is_above_the_fold")
class Seeing(InFirefox, test_panel_seeing.Seeing):
    pass


@only("all_of_memory", "a_page_of_it", "it_follows_a_run")
class Map(InFirefox, test_panel_map.Map):
    pass


@only("a_stack_that_isnt_balanced", "code_that_is_overwritten")
class Warned(InFirefox, test_panel_warnings.Warned):
    pass


@only("german")
class Languages(InFirefox, test_languages.InLanguages):
    pass


@only("a_board_is_restored", "the_newest_boards_are_kept")
class Restored(InFirefox, test_panel_restore.Restored):
    pass


@only("a_shared_program_leads_to_a_board_of_ones_own")
class Users(test_panel_users.Users):
    def setUp(self):
        with unittest.mock.patch("test_panel_users.Browser", firefox.Firefox):
            super().setUp()


@only("margins_of_cells")
class Notebook(InFirefox, test_panel.InNotebook):
    pass


def processes(folder):
    """The processes with this folder as their home, which are those of one Firefox."""
    found = []
    for path in glob.glob("/proc/[0-9]*/environ"):
        try:
            with open(path, "rb") as file:
                if b"HOME=" + folder.encode() in file.read().split(b"\0"):
                    found.append(path)
        except OSError:
            pass
    return found


class Ends(unittest.TestCase):
    """Neither processes nor files are left."""

    def is_gone(self, folder):
        wait_until(lambda: not processes(folder) and not os.path.exists(folder))

    def test_after_the_tests(self):
        with firefox.Firefox(free_port()) as opened:
            self.assertGreater(len(processes(opened.folder.name)), 2)
        self.is_gone(opened.folder.name)

    def test_after_tests_that_are_killed(self):
        with subprocess.Popen([sys.executable, "-B", "-c", OPENS], cwd=HERE, stdout=subprocess.PIPE, text=True) as tests:
            folder = tests.stdout.readline().strip()
            self.assertTrue(os.path.isdir(folder))
            self.assertGreater(len(processes(folder)), 2)
            tests.kill()
        self.is_gone(folder)


if __name__ == "__main__":
    unittest.main()
