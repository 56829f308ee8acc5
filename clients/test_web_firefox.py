"""The static site in Firefox: tests of the panel that tell most of a browser, and some of the site's own."""
import unittest

import firefox
import test_web_panel
import test_web_site
from test_firefox import only


def setUpModule():
    firefox.needed()


class SiteFirefox(firefox.Firefox):
    """A Firefox whose scripts the site's policy lets run. They aren't made of texts in the page, but have its objects, and a
    `globalThis` of their own."""

    def run(self, script, *given):
        return self.in_page("ExecuteScript", script, given)

    def run_later(self, script, *given):
        return self.in_page("ExecuteAsyncScript", script, given)

    def in_page(self, name, script, given):
        words = {"script": script.replace("globalThis", "window"), "args": given, "sandbox": None}
        return self.command("WebDriver:" + name, words)


class InFirefox:
    browser_class = SiteFirefox


@only("lamps_switches_and_a_button", "reset_is_asked_once_more", "a_stop_and_steps_by_line", "steps_by_instruction_and_keys",
      "what_is_shown_of_a_stop", "changes_by_hand", "lines_are_typed", "two_pages_on_one_board",
      "a_page_that_is_closed_ends_nothing", "texts_are_shown_as_texts")
class Panel(InFirefox, test_web_panel.Panel):
    pass


@only("a_page_that_is_loaded_anew_while_a_cell_runs")
class Live(InFirefox, test_web_panel.Live):
    pass


@only("a_slow_run", "the_trace_and_going_back")
class Walk(InFirefox, test_web_panel.Walk):
    pass


@only("files", "addresses_with_a_program", "keys_of_the_cell")
class Programs(InFirefox, test_web_panel.Programs):
    pass


@only("screens_of_dots", "a_running_program_is_followed")
class Devices(InFirefox, test_web_panel.Devices):
    pass


@only("arrows_press_buttons")
class Keys(InFirefox, test_web_panel.Keys):
    pass


@only("bases")
class Seeing(InFirefox, test_web_panel.Seeing):
    pass


@only("all_of_memory", "a_page_of_it")
class Map(InFirefox, test_web_panel.Map):
    pass


@only("a_stack_that_isnt_balanced")
class Warned(InFirefox, test_web_panel.Warned):
    pass


@only("a_slider_over_the_stops")
class Timeline(InFirefox, test_web_panel.Timeline):
    pass


@only("each_step_is_explained")
class Explained(InFirefox, test_web_panel.Explained):
    pass


@only("a_film_plays_alone", "keys_and_playing", "a_film_is_opened_by_the_page", "films_that_cant_be_played",
      "hostile_texts_in_a_film")
class Film(InFirefox, test_web_panel.Film):
    pass


@only("without_the_server", "boards_of_this_browser")
class Visits(InFirefox, test_web_site.Visits):
    pass


@only("a_reload_keeps_the_board", "a_session_is_a_file")
class Sessions(InFirefox, test_web_site.Sessions):
    pass


if __name__ == "__main__":
    unittest.main()
