"""What the front panel's looks at the board cost: how many requests are under way at once, and how many are sent while a program
runs, waits, or changes nothing; that a hidden page sends none; how many pages look."""
import time

from panel_tests import Pages
from test_panel import CALLS
from test_panel_walk import COUNTS, WAITS

# Changes the lamps, registers and flags without end; and nothing at all.
LAMPS = """\
START:  MVI B,0
LOOP:   INR B
        MOV A,B
        OUT 2
        INX H
        INX D
        JMP LOOP
        END START
"""
STILL = "START:  JMP START\n        END START\n"

# Counts what the page sends: the looks that are under way, the most of them at once, and all commands. Answers count as quick,
# however busy the machine is, and no snapshot is taken.
WATCHED = """
    trip.quick = 1e6;
    taking.quiet = 1e6;
    const under = new Set(), send = line.socket.send.bind(line.socket), hears = line.socket.onmessage;
    globalThis.told = {most: 0, commands: []};
    line.socket.send = text => {
        const {header, content} = JSON.parse(text);
        const {command = header.msg_type, arguments: {variablesReference = ''} = {}} = content;
        told.commands.push(`${command} ${variablesReference}`.trim());
        if (header.username.endsWith("looking") && header.msg_type === "debug_request") under.add(header.msg_id);
        told.most = Math.max(told.most, under.size);
        send(text);
    };
    line.socket.onmessage = event => {
        const {header, parent_header: parent = {}} = JSON.parse(event.data);
        if (header.msg_type === "debug_reply") under.delete(parent.msg_id);
        hears(event);
    };
    on("looked", () => { told.looked = (told.looked || 0) + 1; });"""

# Holds replies back until they are released.
HELD = """
    const hears = line.socket.onmessage, held = [];
    line.socket.onmessage = event => event.data.includes('"debug_reply"') ? void held.push(event) : hears(event);
    globalThis.release = () => { line.socket.onmessage = hears; held.forEach(hears); };"""

# A page's head: the places of all that is in it, but the note about others.
PLACES = """
    return [...document.querySelectorAll('header, header > :not(#panels)')].map(each => {
        const {x, y, width, height} = each.getBoundingClientRect();
        return each.id === 'state' ? [x, y, height] : [x, y, width, height];
    });"""


class Looks(Pages):
    def sent(self, page, seconds):
        """The commands that the page sends in this time. How long it really was is in `took`."""
        page.run("told.commands = []")
        began = time.monotonic()
        time.sleep(seconds)
        commands = page.run("return told.commands")
        self.took = time.monotonic() - began
        return commands

    def runs(self, text):
        """A page with a running program, when its first looks are over."""
        page = self.open()
        page.is_in("idle")
        page.run(WATCHED)
        page.run_cell(text)
        page.is_in("running")
        page.waits(lambda: page.run("return told.looked > 0 && !lookState.isStale && !lookState.isUnderWay"))
        return page

    def test_one_request_is_under_way_at_a_time(self):
        page = self.open()
        page.is_in("idle")
        page.run(WATCHED)
        page.run("setCell(arguments[0])", CALLS)
        page.click("#run-stopped")
        page.stops("breakpoint", 2)
        for line in (3, 4, 7):
            page.command("stepIn")
            page.stops("step", line)
        # one may just have been sent when a command of the user comes between
        self.assertLessEqual(page.run("return told.most"), 2)
        page.run("told.most = told.looked = 0; lookSoon(0)")
        page.waits(lambda: page.run("return told.looked > 0"))
        self.assertEqual(page.run("return told.most"), 1)

    def test_all_at_once_where_answers_take_longer(self):
        page = self.open()
        page.is_in("idle")
        page.run(WATCHED)
        page.run("Object.assign(trip, {quick: 5, takes: 20}); lookSoon(0)")
        page.waits(lambda: page.run("return told.looked > 0"))
        self.assertGreater(page.run("return told.most"), 5)

    def test_a_look_that_is_not_needed_any_more_sends_nothing_more(self):
        """Of five looks of which each replaces the one before, four have sent one request at most."""
        page = self.open()
        page.is_in("idle")
        page.run(WATCHED)
        page.waits(lambda: self.sent(page, 1) == [])
        page.run(HELD)
        for _ in range(5):
            page.run("lookSoon(0)")
            time.sleep(0.1)
        page.run("told.looked = 0; release()")
        page.waits(lambda: page.run("return told.looked > 0 && !lookState.isUnderWay"))
        commands = page.run("return told.commands")
        self.assertLessEqual(commands.count("debugInfo"), 2, commands)
        self.assertLessEqual(len(commands), 12, commands)

    def test_a_running_program_is_looked_at_often_enough_and_no_more(self):
        page = self.runs(LAMPS)
        commands = self.sent(page, 8)
        # lamps and registers twice a second, flags and code less often
        self.assertLessEqual(len(commands), self.took * 5 + 4, commands)
        seen = set()
        page.waits(lambda: seen.add((page.lamps(), page.registers()["H"])) or len(seen) > 5)

    def test_a_program_that_runs_for_long_is_looked_at_less_often(self):
        """By then as if 600 requests had been sent."""
        page = self.runs(LAMPS)
        page.run("allowed.count = 0")
        commands = self.sent(page, 10)
        self.assertLessEqual(len(commands), self.took * 3 + 6, commands)
        seen = set()
        page.waits(lambda: seen.add((page.lamps(), page.registers()["H"])) or len(seen) > 5)

    def test_what_stays_as_it_is_is_looked_at_less_often(self):
        page = self.runs(STILL)
        time.sleep(3)
        commands = self.sent(page, 8)
        self.assertLessEqual(len(commands), self.took * 2.5 + 4, commands)

    def test_a_program_that_waits_is_looked_at_when_something_is_posted(self):
        """And seldom besides. A button of another page is seen."""
        page = self.runs(WAITS)
        page.shows(page.state, "waits for a button")
        time.sleep(1)
        commands = self.sent(page, 8)
        self.assertLessEqual(len(commands), self.took, commands)
        other = self.open_another()
        other.is_in("running")
        for count in ("01", "02"):
            other.press(1)
            for each in (other, page):
                each.waits(lambda: each.registers()["B"] == count)
        page.waits(lambda: page.state() == "waits for a button")

    def test_nothing_is_stale_after_a_stop(self):
        page = self.runs(COUNTS)
        time.sleep(2)
        page.ask("attach")
        page.ask("pause")
        page.is_in("stopped: pause")
        registers = {it["name"]: it["value"] for it in page.ask("variables", variablesReference=1)["variables"]}
        page.waits(lambda: page.registers()["PC"] == registers["PC"][1:5] and page.registers()["B"] == registers["B"][1:3])
        page.waits(lambda: page.at_pc().startswith(registers["PC"][1:5]))

    def test_a_hidden_page_does_not_look_and_looks_when_it_is_seen_again(self):
        page = self.runs(LAMPS)
        page.browser.ask("POST", "/window/minimize")
        page.waits(lambda: page.run("return document.hidden"))
        # what was under way is answered
        page.waits(lambda: self.sent(page, 1) == [])
        self.assertEqual(self.sent(page, 3), [])
        page.run("""
            document.addEventListener('visibilitychange', () => { told.atOnce = told.commands.length; });
            setInterval(() => { told.shown = document.hidden; }, 100);""")
        page.browser.size(1250, 1130)
        page.waits(lambda: not page.run("return document.hidden"))
        self.assertEqual(page.run("return told.atOnce"), 1)

    def test_how_many_pages_look(self):
        """It is said in the page's head, where it moves nothing."""
        page = self.runs(COUNTS)
        self.assertEqual(page.text("#panels"), "")
        places = page.run(PLACES)
        other = self.open_another()
        other.is_in("running")
        for each in (page, other):
            each.waits(lambda: each.text("#panels") == "2 pages look")
        other.browser.close_window()
        self.assertEqual(page.run(PLACES), places)
        page.picture("panel-two", 1140, 420)
        page.waits(lambda: page.text("#panels") == "")
