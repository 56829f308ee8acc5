"""The front panel's own tests over the static site, whose boards run in the browser. Those that need a server are left out, each
for a reason; and so are those of how often the page looks at the board, which doesn't depend on who runs it."""
import unittest
import unittest.mock

import static_site
import test_panel
import test_panel_anew
import test_panel_beside
import test_panel_cell
import test_panel_devices
import test_panel_film
import test_panel_map
import test_panel_programs
import test_panel_restore
import test_panel_seeing
import test_panel_walk
import test_panel_warnings

LOGIN = "who is let in is a server's matter"
KERNEL = "it ends or restarts a kernel by the server, or from outside"
NETWORK = "the connection to a worker isn't lost"
AT_ONCE = "a page without a board gets one at once"
JOURNAL = "a board in the browser has no journal to fill"
LESSONS = "the lessons are pages of the site"


def without(**reasons):
    """Leaves a class all tests that it inherits but these, which its server needs."""
    def choose(tests):
        for name, reason in reasons.items():
            if not getattr(tests, f"test_{name}", None) or not reason:
                raise NameError(f"{tests.__name__} has no test_{name}")
            setattr(tests, f"test_{name}", None)
        return tests
    return choose


class OnSite:
    """What a class of the panel's tests has besides them."""

    @classmethod
    def setUpClass(cls):
        with unittest.mock.patch("panel_tests.Server", static_site.Site):
            super().setUpClass()

    def open(self, kernel=None):
        """Opens the page. What tests do to its WebSockets is done to what it has in their place."""
        page = super().open(kernel)
        page.run("globalThis.WebSocket = line.socket.constructor")
        return page


@without(who_is_let_in=LOGIN, files_have_plain_addresses=LOGIN, a_token_is_taken_from_the_address=LOGIN,
         without_a_kernel_a_list_is_shown=AT_ONCE, a_restart_forgets_stops_and_breakpoints=KERNEL,
         a_lost_line_is_made_anew=NETWORK)
class Panel(OnSite, test_panel.Panel):
    pass


@without(an_ended_kernel_leads_back_and_a_board_is_started_from_the_list=KERNEL)
class Live(OnSite, test_panel_walk.Live):
    pass


class Marks(OnSite, test_panel_walk.Marks):
    pass


class Walk(OnSite, test_panel_walk.Walk):
    pass


@without(an_address_with_a_program_keeps_it_on_the_way_to_a_board=AT_ONCE)
class Programs(OnSite, test_panel_programs.Programs):
    pass


class Seeing(OnSite, test_panel_seeing.Seeing):
    pass


class Map(OnSite, test_panel_map.Map):
    pass


class Warned(OnSite, test_panel_warnings.Warned):
    pass


class Devices(OnSite, test_panel_devices.Devices):
    pass


class Keys(OnSite, test_panel_devices.Keys):
    pass


class Examples(OnSite, test_panel_devices.Examples):
    pass


@without(a_restart_says_what_is_gone=KERNEL, a_kernel_that_ends_by_itself_too=KERNEL)
class Anew(OnSite, test_panel_anew.Anew):
    pass


@without(a_board_is_restored=KERNEL, pages_that_are_opened_later_offer_it_too=KERNEL, it_says_once_to_save_the_work=JOURNAL)
class Restored(OnSite, test_panel_restore.Restored):
    pass


class Beside(OnSite, test_panel_beside.Beside):
    pass


class Cell(OnSite, test_panel_cell.Cell):
    pass


class Timeline(OnSite, test_panel_film.Timeline):
    pass


class Explained(OnSite, test_panel_film.Explained):
    pass


class Film(OnSite, test_panel_film.Film):
    pass


@without(what_there_is_to_read=LESSONS)
class FirstVisit(OnSite, test_panel_beside.FirstVisit):
    pass


if __name__ == "__main__":
    unittest.main()
