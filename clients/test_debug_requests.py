"""Debug requests as frontends write them, and what each is answered to the byte, or why it is refused. The answers are worked out
from docs/PROTOCOL.md and docs/BOARD.md. The hashes in the paths of cells are another program's."""
import json
import unittest

from lab80_client import Lab

# Commands without arguments, whatever stands there, and what they are answered on a new board that has a debugger.
BARE_COMMANDS = (
    ("initialize", 'true {"supportsConfigurationDoneRequest":true,"supportsDisassembleRequest":true,"supportsSetVariable":true,'
                   '"supportsSteppingGranularity":true}'),
    ("attach", "true {}"), ("configurationDone", "true {}"),
    ("threads", 'true {"threads":[{"id":1,"name":"8080"}]}'),
    ("continue", "false NotStopped"), ("pause", "false NotRunning"),
    ("debugInfo", 'true {"breakpoints":[],"exceptionPaths":[],"hashMethod":"Murmur2","hashSeed":0,"isStarted":true,'
                  '"richRendering":false,"stoppedThreads":[],"tmpFilePrefix":"/tmp/i8080_lab/","tmpFileSuffix":".asm"}'),
    ("inspectVariables", "true REGISTERS"), ("boardReset", "true {}"), ("disconnect", "true {}"),
)

REGISTERS = ",".join(f'{{"name":"{name}","value":"{value}","variablesReference":0}}' for name, value in (
    ("A", "000H"), ("B", "000H"), ("C", "000H"), ("D", "000H"), ("E", "000H"), ("H", "000H"), ("L", "000H"), ("SP", "00000H"),
    ("PC", "00000H")))

DETACHED = ('true {"breakpoints":[],"exceptionPaths":[],"hashMethod":"Murmur2","hashSeed":0,"isStarted":false,'
            '"richRendering":false,"stoppedThreads":[],"tmpFilePrefix":"/tmp/i8080_lab/","tmpFileSuffix":".asm"}')

# Cells, and their paths.
PATHS = {
    "": 0, "HLT": 136272956, "a": 2456313694, "ab": 446775395, "abc": 324500635, "abcd": 646393889, "abcde": 1594468574,
    "\u00e9": 876201565, "The quick brown fox jumps over the lazy dog": 556214736, "MVI A,5\nHLT\n": 3195194222,
}

# Cells as they stand in JSON.
CELLS = (r'"HLT ;\"\n"', r'"\"\\\n\u00e9"', r'"\u0048LT\/"')

# Requests, and what they are answered on a new board, one after another. What may be left out is 0, and other arguments aren't
# looked at.
ON_A_NEW_BOARD = (
    ('stackTrace {}', "false NotStopped"),
    ('scopes {"frameId":1}', "false NotStopped"),
    ('setVariable {"variablesReference":1,"name":"A","value":"05AH"}', "false NotStopped"),
    ('variables {"variablesReference":5,"start":16,"count":2,"filter":"named"}',
     'true {"variables":[{"name":"0010","value":"000H","variablesReference":0},'
     '{"name":"0011","value":"000H","variablesReference":0}]}'),
    ('variables {"variablesReference":5,"start":65535}',
     'true {"variables":[{"name":"FFFF","value":"000H","variablesReference":0}]}'),
    ('variables {"variablesReference":1}', "true REGISTERS"),
    ('variables {"variablesReference":4}', 'true {"variables":[]}'),
    ('variables {"variablesReference":0}', "false BadReference"),
    ('boardSwitches {"value":255}', "true {}"),
    ('boardPress {"vector":8}', "false Vector"),
    ('boardPress {"vector":7}', "true {}"),
    ('boardType {"text":"\\u0041b"}', "true {}"),
    ('boardType {"text":""}', "true {}"),
    ('variables {"variablesReference":3}',
     'true {"variables":[{"name":"switches","value":"0FFH","variablesReference":0},'
     '{"name":"lamps","value":"000H","variablesReference":0},{"name":"latched","value":"7","variablesReference":0},'
     '{"name":"waiting","value":"2","variablesReference":0}]}'),
    ('boardAliases {"aliases":false}', "true {}"), ('boardAliases {"alias":0,"value":null,"aliases":true}', "true {}"),
    ('boardAliases {"aliases":true}', "true {}"),
    ('source {"source":{"path":"/tmp/a.asm"},"sourceReference":0}', "false NoSource"),
    ('setBreakpoints {"source":{"path":"a"}}', "false NoSource"),
    ('dumpCell {"code":"NOP\\nNOP\\nHLT\\n"}', 'true {"sourcePath":"PATH"}'),
    ('setBreakpoints {"source":{"path":"PATH"}}', 'true {"breakpoints":[]}'),
    ('setBreakpoints {"source":{"path":"PATH","name":1},"breakpoints":[]}', 'true {"breakpoints":[]}'),
    ('setBreakpoints {"source":{"path":"PATH"},"lines":[9],'
     '"breakpoints":[{"line":3,"column":1},{"line":0},{"line":3},{"line":90}]}',
     'true {"breakpoints":[{"line":3,"verified":true},{"line":0,"verified":false},{"line":3,"verified":true},'
     '{"line":90,"verified":false}]}'),
    ('disassemble {"memoryReference":"0x0aFf","instructionCount":1}',
     'true {"instructions":[{"address":"0x0aff","instruction":"NOP","instructionBytes":"00"}]}'),
    # Each byte is an instruction, and addresses go round.
    ('disassemble {"memoryReference":"0xFFFF","offset":2,"instructionOffset":4294967294,"instructionCount":2,'
     '"resolveSymbols":false}',
     'true {"instructions":[{"address":"0xffff","instruction":"NOP","instructionBytes":"00"},'
     '{"address":"0x0000","instruction":"NOP","instructionBytes":"00"}]}'),
)

# Lines with several instructions: a call with the instruction behind it, and a routine.
SPANS = """\
START:  LXI SP,100H
        DB 0CDH,0BH,0,0
        DB 0,0
        HLT
        NOP
PART:   DB 0,0
        RET
        END START
"""
CALL, PART, NEXT_LINE, BEHIND_CALL, SECOND_LINE_OF_PART, AMID_PART = 0x0003, 0x000B, 0x0007, 0x0006, 0x000D, 0x000C

BY_LINE = ("{}", '{"granularity":"line"}', '{"granularity":"statement"}', '{"granularity":"Instruction"}', '{"threadId":1}')
BY_INSTRUCTION = ('{"granularity":"instruction","threadId":1}',)

# Changes by hand at a stop, and what they are answered.
CHANGES = (
    ('{"variablesReference":1,"name":"A","value":"05AH"}', 'true {"value":"05AH"}'),
    ('{"value":"0BH","name":"C3FE","variablesReference":5}', 'true {"value":"00BH"}'),
    ('{"value":"B","name":"C3FE","variablesReference":5}', "false BadValue"),
    ('{"variablesReference":0,"name":"","value":""}', "false BadReference"),
    ('{"variablesReference":4294967295,"name":"PC","value":""}', "false BadReference"),
    (r'{"variablesReference":1,"name":"\u0041\"\u00e9","value":"5"}', "false UnknownName"),
    (r'{"variablesReference":1,"name":"\u0042","value":"\u0035"}', 'true {"value":"005H"}'),
    (r'{"variablesReference":1,"name":"A","value":"\\5\/"}', "false BadValue"),
    ('{"variablesReference":1,"name":"SP","value":"1.5","format":{"hex":true},"start":null}', "false BadValue"),
    ('{"variablesReference":1,"name":"SP","value":"15","format":{"hex":true},"start":null}', 'true {"value":"0000FH"}'),
    (r'{"variablesReference":1,"name":"A","value":"5\n6"}', "false BadValue"),
)

# In the places marked % each of these values is refused.
ARGUED = ("setBreakpoints", "stackTrace", "scopes", "variables", "setVariable", "next", "stepIn", "stepOut", "disassemble",
          "source", "dumpCell", "boardSwitches", "boardPress", "boardType", "boardAliases")
WITH_ONE_ARGUMENT = ("scopes", "dumpCell", "boardSwitches", "boardPress", "boardType", "boardAliases")
INCOMPLETE = (
    "setBreakpoints {}", 'setBreakpoints {"breakpoints":[]}', "variables {}", 'variables {"start":0,"count":1}', "setVariable {}",
    'setVariable {"name":"A","value":"1"}', 'setVariable {"variablesReference":1,"value":"1"}',
    'setVariable {"variablesReference":1,"name":"A"}', 'disassemble {"instructionCount":1}',
    'disassemble {"memoryReference":"0x0000"}', "source {}", 'source {"source":{}}', 'source {"path":"a"}',
)
NUMBERS = (
    'stackTrace {"startFrame":%}', 'stackTrace {"levels":%}', 'scopes {"frameId":%}', 'variables {"variablesReference":%}',
    'variables {"variablesReference":1,"start":%}', 'variables {"variablesReference":4,"count":%}',
    'setVariable {"name":"A","value":"1","variablesReference":%}',
    'disassemble {"memoryReference":"0x0000","instructionCount":1,"offset":%}',
    'disassemble {"memoryReference":"0x0000","instructionCount":1,"instructionOffset":%}',
    'disassemble {"memoryReference":"0x0000","instructionCount":%}', 'boardSwitches {"value":%}', 'boardPress {"vector":%}',
    'setBreakpoints {"source":{"path":"a"},"breakpoints":[{"line":%}]}',
)
NO_NUMBERS = ("4294967296", "18446744073709551616", "-1", "-0", "1.0", "1.5", "1e0", "null", '"1"', "[1]", "{}", "true")
BYTES, NO_BYTES = ('boardSwitches {"value":%}', 'boardPress {"vector":%}'), ("256",)
COUNTS, NO_COUNTS = ('disassemble {"memoryReference":"0x0000","instructionCount":%}',), ("0", "257")
TEXTS = ('dumpCell {"code":%}', 'boardType {"text":%}', 'setVariable {"variablesReference":1,"value":"1","name":%}',
         'setVariable {"variablesReference":1,"name":"A","value":%}')
NO_TEXTS = ("null", "5", "true", "[]", '["A"]', "{}")
GRANULARITIES = ('next {"granularity":%}', 'stepIn {"granularity":%}', 'stepOut {"granularity":%}')
NO_GRANULARITIES = ("null", "1", '["line"]')
TRUTHS = ('boardAliases {"aliases":%}',)
NO_TRUTHS = ("1", "0", "1.0", '"true"', '"false"', '""', "null", "[]", "[true]", "{}")
SOURCES, NO_SOURCES = ('source {"source":%}', 'setBreakpoints {"source":%}'), ('"a"', "null", '{"path":null}', '["a"]')
REFERENCES = ('disassemble {"instructionCount":1,"memoryReference":%}',)
NO_REFERENCES = ('""', '"0x"', '"0x000"', '"0x00000"', '"0000"', '"000000"', '"0X0000"', '"1x0000"', '"0x000g"', '"0x00 0"',
                 '"0x+000"', '" 0x0000"', "0", "null")
BREAKPOINTS = ('setBreakpoints {"source":{"path":"a"},"breakpoints":%}',)
NO_BREAKPOINTS = (
    "null", "{}", "1", "[1]", "[null]", "[{}]", '[{"line":1},{"column":1}]', '[{"line":1,"condition":"A==1"}]',
    '[{"line":1,"condition":null}]', '[{"line":1,"hitCondition":""}]', '[{"line":1},{"line":2,"logMessage":false}]')

# Contents that are no request, as JSON.
NO_REQUESTS = (
    "{}", '{"seq":1,"type":"event","command":"threads"}', '{"seq":1,"type":"Request","command":"threads"}',
    '{"seq":1,"type":null,"command":"threads"}', '{"seq":1,"command":"threads"}', '{"type":"request","command":"threads"}',
    '{"seq":null,"type":"request","command":"threads"}', '{"seq":1.0,"type":"request","command":"threads"}',
    '{"seq":-1,"type":"request","command":"threads"}', '{"seq":4294967296,"type":"request","command":"threads"}',
    '{"seq":1,"type":"request"}', '{"seq":1,"type":"request","command":3}', '{"seq":1,"type":"event","command":"evaluate"}',
)

# Commands that the kernel doesn't have.
UNKNOWN = ("evaluate", "setExpression", "SetVariable", "boardaliases", "", "Threads", "threads ", "stepBack", "modules",
           "copyToGlobals")


def written(value):
    """JSON as it was received, without blanks."""
    return json.dumps(value, separators=(",", ":"), ensure_ascii=False)


class Asking(Lab):
    def answer_to(self, text):
        """The text of the response to a request with this text."""
        return self.control("debug", text.encode())

    def told(self, command, arguments="null", number=7):
        """How a request ends, and the body or the message of its response, whose text must have this form alone."""
        response = self.answer_to(f'{{"seq":{number},"type":"request","command":"{command}","arguments":{arguments}}}')
        end = f'"request_seq":{number},"seq":{response["seq"]},"success":'
        if response["success"]:
            body = written(response["body"])
            self.assertEqual(written(response), f'{{"body":{body},"command":"{command}",{end}true,"type":"response"}}')
            return f"true {body}"
        message = response["message"]
        self.assertEqual(written(response), f'{{"command":"{command}","message":"{message}",{end}false,"type":"response"}}')
        return f"false {message}"

    def expect(self, row, wanted, path=""):
        """A request is answered so: the command and its arguments, in which PATH is a path."""
        command, _, arguments = row.replace("PATH", path).partition(" ")
        wanted = wanted.replace("PATH", path).replace("REGISTERS", f'{{"variables":[{REGISTERS}]}}')
        self.assertEqual(self.told(command, arguments or "null"), wanted, row[:200])

    def path_of(self, code):
        return self.debug("dumpCell", {"code": code})["sourcePath"]

    def next_event(self, name, body):
        """The next event, which must have this text but for its number."""
        event = self.wait_for("debug_event")["content"]
        body = f'"body":{body},' if body else ""
        self.assertEqual(written(event), f'{{{body}"event":"{name}","seq":{event["seq"]},"type":"event"}}')


class Readings(Asking):
    def test_commands_without_arguments(self):
        self.expect("debugInfo", DETACHED)
        self.assertEqual(self.told("attach"), "true {}")
        for command, wanted in BARE_COMMANDS:
            for arguments in ('{"restart":true}', "[]"):
                self.expect(f"{command} {arguments}", wanted)
                if command == "initialize":
                    self.next_event("initialized", "")
        self.expect("debugInfo", DETACHED)

    def test_numbers_of_requests(self):
        for number in (0, 1, 4_294_967_295):
            self.assertEqual(self.told("threads", number=number), 'true {"threads":[{"id":1,"name":"8080"}]}')
        response = self.answer_to('{"seq":1,"type":"request","command":"threads"}')
        self.assertEqual((response["success"], response["request_seq"]), (True, 1))

    def test_commands_on_a_new_board(self):
        path = self.path_of("NOP\nNOP\nHLT\n")
        for row, wanted in ON_A_NEW_BOARD:
            self.expect(row, wanted, path)

    def test_a_breakpoint_on_each_of_256_lines_and_no_more(self):
        path, one = self.path_of("NOP\n"), '{"line":1}'
        for count in (256, 257):
            answer = self.told("setBreakpoints", f'{{"source":{{"path":"{path}"}},"breakpoints":[{",".join([one] * count)}]}}')
            shown = ",".join(['{"line":1,"verified":true}'] * count)
            self.assertEqual(answer, "false Arguments" if count == 257 else f'true {{"breakpoints":[{shown}]}}')

    def test_paths_of_cells(self):
        for code, number in PATHS.items():
            self.assertEqual(self.told("dumpCell", written({"code": code})), f'true {{"sourcePath":"/tmp/i8080_lab/{number}.asm"}}')

    def test_texts_of_cells(self):
        for code in CELLS:
            path = self.path_of(json.loads(code))
            wanted = f'true {{"content":{written(json.loads(code))}}}'
            self.assertEqual(self.told("source", written({"source": {"path": path}})), wanted)


class Stops(Asking):
    def run_to(self, line):
        """Runs SPANS to a breakpoint on this line. Returns its path."""
        self.debug("attach", {})
        path = self.path_of(SPANS)
        self.debug("setBreakpoints", {"source": {"path": path}, "breakpoints": [{"line": line}, {"line": 5}]})
        self.client.execute(SPANS)
        self.next_event("stopped", '{"allThreadsStopped":true,"reason":"breakpoint","threadId":1}')
        return path

    def put(self, name, value):
        self.debug("setVariable", {"variablesReference": 1, "name": name, "value": value})

    def step(self, command, arguments, to, reason="step"):
        self.assertEqual(self.told(command, arguments), "true {}")
        self.next_event("continued", '{"allThreadsContinued":true,"threadId":1}')
        self.next_event("stopped", f'{{"allThreadsStopped":true,"reason":"{reason}","threadId":1}}')
        frame = self.debug("stackTrace", {"threadId": 1, "levels": 1})["stackFrames"][0]
        self.assertEqual(frame["instructionPointerReference"], f"0x{to:04x}", (command, arguments))

    def test_steps_by_lines_and_by_instructions(self):
        self.run_to(2)
        for every, over, within in ((BY_LINE, NEXT_LINE, SECOND_LINE_OF_PART), (BY_INSTRUCTION, BEHIND_CALL, AMID_PART)):
            for arguments in every:
                self.put("PC", str(CALL))
                self.step("next", arguments, over)
                self.put("PC", str(CALL))
                self.step("stepIn", arguments, PART)
                self.step("stepIn", arguments, within)
                self.step("stepOut", arguments, over)

    def test_frames(self):
        path = self.run_to(6)
        source = f'"source":{{"path":"{path}"}}'
        inner = f'{{"column":1,"id":1,"instructionPointerReference":"0x000b","line":6,"name":"PART",{source}}}'
        outer = f'{{"column":1,"id":2,"instructionPointerReference":"0x0003","line":2,"name":"main",{source}}}'
        for arguments, frames in (("{}", f"{inner},{outer}"), ('{"threadId":1}', f"{inner},{outer}"), ('{"levels":1}', inner),
                                  ('{"startFrame":1,"levels":20}', outer),
                                  ('{"startFrame":4294967295,"levels":20,"format":null}', "")):
            self.assertEqual(self.told("stackTrace", arguments), f'true {{"stackFrames":[{frames}],"totalFrames":2}}')
        # A call that stands in no cell.
        for number, byte in enumerate(("0CDH", "11", "0")):
            self.debug("setVariable", {"variablesReference": 5, "name": f"{0x8000 + number:04X}", "value": byte})
        self.step("stepOut", "{}", NEXT_LINE)
        self.put("PC", "8000H")
        self.step("stepIn", "{}", PART, "breakpoint")
        outer = '{"column":1,"id":2,"instructionPointerReference":"0x8000","line":0,"name":"main"}'
        self.assertEqual(self.told("stackTrace", "{}"), f'true {{"stackFrames":[{inner},{outer}],"totalFrames":2}}')

    def test_scopes(self):
        self.run_to(2)
        scopes = ('{"expensive":false,"name":"Registers","variablesReference":1},'
                  '{"expensive":false,"name":"Flags","variablesReference":2},'
                  '{"expensive":false,"name":"Devices","variablesReference":3},'
                  '{"expensive":false,"name":"Symbols","variablesReference":4},'
                  '{"expensive":true,"name":"Memory","variablesReference":5}')
        self.assertEqual(self.told("scopes", '{"frameId":1}'), f'true {{"scopes":[{scopes}]}}')
        self.assertEqual(self.told("scopes", '{"frameId":2}'), "false BadFrame")

    def test_changes_by_hand(self):
        self.run_to(2)
        for arguments, wanted in CHANGES:
            self.expect(f"setVariable {arguments}", wanted)
        self.expect('variables {"variablesReference":5,"start":50174,"count":1}',
                    'true {"variables":[{"name":"C3FE","value":"00BH","variablesReference":0}]}')

    def test_instructions(self):
        self.run_to(2)
        self.expect('disassemble {"memoryReference":"0x0001","offset":2,"instructionCount":2}',
                    'true {"instructions":[{"address":"0x0003","instruction":"CALL 0000BH","instructionBytes":"CD 0B 00"},'
                    '{"address":"0x0006","instruction":"NOP","instructionBytes":"00"}]}')
        # One that goes round.
        for name, byte in (("FFFF", "0C3H"), ("0000", "4"), ("0001", "0AFH"), ("0002", "0")):
            self.debug("setVariable", {"variablesReference": 5, "name": name, "value": byte})
        self.expect('disassemble {"memoryReference":"0xffff","instructionCount":2}',
                    'true {"instructions":[{"address":"0xffff","instruction":"JMP 0AF04H","instructionBytes":"C3 04 AF"},'
                    '{"address":"0x0002","instruction":"NOP","instructionBytes":"00"}]}')

    def test_what_a_frontend_that_joins_is_told(self):
        path = self.run_to(2)
        self.expect("debugInfo", 'true {"breakpoints":[{"breakpoints":[{"line":2},{"line":5}],"source":"PATH"}],'
                    '"exceptionPaths":[],"hashMethod":"Murmur2","hashSeed":0,"isStarted":true,"richRendering":false,'
                    '"stoppedThreads":[1],"tmpFilePrefix":"/tmp/i8080_lab/","tmpFileSuffix":".asm"}', path)

    def test_a_pause(self):
        self.debug("attach", {})
        self.run_endless()
        self.assertEqual(self.told("pause"), "true {}")
        self.next_event("stopped", '{"allThreadsStopped":true,"reason":"pause","threadId":1}')
        self.assertEqual(self.told("continue"), 'true {"allThreadsContinued":true}')
        self.next_event("continued", '{"allThreadsContinued":true,"threadId":1}')
        self.control("interrupt")


class Refusals(Asking):
    def refuse(self, places, values):
        """At each of these places each of these values is refused."""
        for place in places:
            for value in values:
                self.expect(place.replace("%", value), "false Arguments")

    def test_arguments_that_are_missing(self):
        self.refuse([f"{command} %" for command in ARGUED], ("[]", "null", "1", '"a"', "true"))
        self.refuse([f"{command} %" for command in WITH_ONE_ARGUMENT], ("{}", '{"argument":1}'))
        self.refuse(["%"], INCOMPLETE)
        for command in ("scopes", "setVariable", "boardAliases"):
            response = self.answer_to(f'{{"seq":1,"type":"request","command":"{command}"}}')
            self.assertEqual((response["success"], response["message"]), (False, "Arguments"))

    def test_what_is_no_number(self):
        self.refuse(NUMBERS, NO_NUMBERS)
        self.refuse(BYTES, NO_BYTES)
        self.refuse(COUNTS, NO_COUNTS)

    def test_values_of_another_kind(self):
        for places, values in ((TEXTS, NO_TEXTS), (GRANULARITIES, NO_GRANULARITIES), (TRUTHS, NO_TRUTHS), (SOURCES, NO_SOURCES),
                               (REFERENCES, NO_REFERENCES), (BREAKPOINTS, NO_BREAKPOINTS)):
            self.refuse(places, values)

    def test_what_is_no_request(self):
        for text in NO_REQUESTS:
            response = self.answer_to(text)
            self.assertEqual(written(response), '{"command":"","message":"NotRequest","request_seq":0,'
                             f'"seq":{response["seq"]},"success":false,"type":"response"}}', text)

    def test_commands_that_there_are_not(self):
        for command in UNKNOWN:
            self.assertEqual(self.told(command), "false Command", command)


if __name__ == "__main__":
    unittest.main()
