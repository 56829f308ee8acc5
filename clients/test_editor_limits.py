"""The most and the least of what an editor asks: expressions and log messages of the greatest length and depth, breakpoints, bytes,
numbers of requests, and the names of programs by their endings."""
import base64
import os
import unittest

from dap_wire import CLIENT, framed
from editor import FIRST_DATA_ID, FIRST_INSTRUCTION_ID, FIRST_LINE_ID, Session
from test_editor_plays import PROGRAM, text_of

# The line at which the program of plays/values.asm halts. HL and SP are 010DH there, and COUNT is 5.
HALT = 10

# Of expressions a beginning, how often it stands there, the middle, and the end, which stands there as often; and what is shown.
NESTED = (
    ("[", 16, "5", "]", "000H"), ("[", 17, "5", "]", "column 1: Nesting"), ("word[", 16, "HL", "]", "00000H"),
    ("(", 63, "5", ")", "00005H"), ("(", 64, "5", ")", "column 1: Nesting"), ("-", 63, "5", "", "0FFFBH"),
    ("-", 64, "5", "", "column 1: Nesting"), ("!", 1023, "5", "", "00000H"), ("!", 1024, "5", "", "column 1: TooLong"),
)

# Conditions, and what there is to object to them.
CONDITIONS = {" " * 1023 + "5": None, " " * 1024 + "5": "condition, column 1: TooLong"}

# Log messages, and their texts or why they can't be told.
LOGS = {
    "a" * 1024: "a" * 1024, "\u00e9" * 512: "\u00e9" * 512, "{{" * 512: "{" * 512, "}}" * 512: "}" * 512,
    "a" * 1021 + "{5}": "a" * 1021 + "5", "{5}" * 341: "5" * 341, "{-1}" * 256: "65535" * 256,
}
NO_LOGS = {
    "a" * 1025: "column 1: TooLong", "\u00e9" * 512 + "a": "column 1: TooLong", "a" * 1023 + "{": "column 1024: open brace",
    "a" * 1024 + "{": "column 1: TooLong", "a" * 1021 + "{5 }": "column 1: TooLong", "a" * 1021 + "{+}": "column 1023: Operands",
}

# Bodies, and the command, the number and the message of what they are answered, or its body.
BODIES = (
    ("null", "", 0, "not a request"), ("[]", "", 0, "not a request"), ('{"seq":', "", 0, "not a request"),
    ('{"seq":7,"type":"event","command":"restart"}', "", 0, "not a request"),
    ('{"seq":-1,"type":"request","command":"restart"}', "", 0, "not a request"),
    ('{"seq":4294967296,"type":"request","command":"restart"}', "", 0, "not a request"),
    ('{"seq":7,"type":"request","command":3}', "", 0, "not a request"),
    ('{"seq":0,"type":"request","command":"Restart","arguments":null}', "Restart", 0, "unknown command"),
    ('{"seq":1,"type":"request","command":"configurationDone","arguments":null}', "configurationDone", 1, {}),
    ('{"seq":4294967295,"type":"request","command":"restart"}', "restart", 4_294_967_295, {}),
)

# Names of files without source, and of texts.
IMAGES = ("count.hex", "a.IHX", "A.Com", "a b.asm.bin", "x.rom")
TEXTS = ("x.hex.asm", "b.asm", ".hex", "hex", "x.hex2")

# HLT as Intel HEX, and as a text.
HALT_HEX, HALT_TEXT = b":010100007688\n:00010001FE\n", b"START: HLT\n END START\n"


class Limits(Session):
    def stopped(self):
        """An editor whose program is stopped where it halts."""
        editor = self.editor()
        self.path = self.program(text_of("values.asm"), PROGRAM)
        self.assertEqual(editor.run_to(self.path, HALT), "breakpoint")
        return editor

    def set(self, editor, *options):
        given = [{"line": HALT} | it for it in options]
        return editor.do("setBreakpoints", source={"path": self.path}, breakpoints=given)["breakpoints"]

    def test_expressions(self):
        editor = self.stopped()
        for start, count, middle, end, shown in NESTED:
            self.assertEqual(editor.evaluate(start * count + middle + end * count), shown, (start, count))
        shown = self.set(editor, *({"condition": text} for text in CONDITIONS))
        self.assertEqual([it.get("message") for it in shown], list(CONDITIONS.values()))

    def test_log_messages(self):
        editor = self.stopped()
        shown = self.set(editor, *({"logMessage": text} for text in NO_LOGS))
        self.assertEqual([it["message"] for it in shown], [f"log message, {why}" for why in NO_LOGS.values()])
        self.set(editor, *({"logMessage": text} for text in LOGS))
        editor.do("continue", threadId=1)
        told = [body["output"] for name, body in editor.events_to("terminated") if name == "output"]
        self.assertEqual(told, [f"{text}\n" for text in LOGS.values()])

    def test_breakpoints(self):
        editor = self.stopped()
        shown = self.set(editor, *[{}] * 256)
        self.assertEqual(shown, [{"id": FIRST_LINE_ID + number, "line": HALT, "verified": True} for number in range(256)])
        shown = editor.do("setDataBreakpoints", breakpoints=[{"dataId": "A"}] * 256)["breakpoints"]
        few = [{"id": FIRST_DATA_ID + number, "verified": True} for number in range(16)]
        many = [{"id": FIRST_DATA_ID + number, "message": "more than 16 data breakpoints", "verified": False}
                for number in range(16, 256)]
        self.assertEqual(shown, few + many)
        given = [{"instructionReference": "0x0100"}] * 255 + [{"instructionReference": "?"}]
        shown = editor.do("setInstructionBreakpoints", breakpoints=given)["breakpoints"]
        wanted = [{"id": FIRST_INSTRUCTION_ID + number, "instructionReference": "0x0100", "verified": True}
                  for number in range(255)]
        last = {"id": FIRST_INSTRUCTION_ID + 255, "message": "there is no such address", "verified": False}
        self.assertEqual(shown, [*wanted, last])
        for command, one in (("setBreakpoints", {"line": 1}), ("setFunctionBreakpoints", {"name": "A"}),
                             ("setDataBreakpoints", {"dataId": "A"}), ("setInstructionBreakpoints", {"instructionReference": "?"})):
            why = editor.refusal(command, source={"path": self.path}, breakpoints=[one] * 257)
            self.assertEqual(why, "bad arguments: breakpoints", command)

    def test_bytes(self):
        editor = self.stopped()
        data = base64.b64encode(bytes(range(256)) * 256).decode()
        self.assertEqual(editor.do("writeMemory", memoryReference="0x0000", data=data), {"bytesWritten": 65_536})
        self.assertEqual(editor.do("readMemory", memoryReference="0x0000", count=65_536), {"address": "0x0000", "data": data})

    def test_bodies(self):
        editor = self.editor(folder=self.folder)
        self.program(text_of("values.asm"), PROGRAM)
        editor.launch(PROGRAM)
        for text, command, number, wanted in BODIES:
            editor.say(framed(text.encode()))
            response = editor.response()
            told = response["body"] if response["success"] else response["message"]
            self.assertEqual((response["command"], response["request_seq"], told), (command, number, wanted), text)

    def test_names(self):
        for names, content, ending, reference in ((IMAGES, b"\x76", " (disassembly)", {"sourceReference": 1}),
                                                  (TEXTS, HALT_TEXT, "", {})):
            for name in names:
                path = os.path.join(self.folder, name)
                with open(path, "wb") as file:
                    file.write(HALT_HEX if name.lower().endswith((".hex", ".ihx")) and reference else content)
                editor = self.editor()
                editor.launch(path)
                self.assertEqual(editor.do("loadedSources"), {"sources": [{"name": name + ending, "path": path, **reference}]})

    def test_an_image_from_0(self):
        """HLT stands in the second line of its disassembly, which an editor that counts from 0 knows as 1."""
        path = os.path.join(self.folder, "x.rom")
        with open(path, "wb") as file:
            file.write(b"\x76")
        editor = self.editor()
        editor.do("initialize", **CLIENT | {"linesStartAt1": False, "columnsStartAt1": False})
        editor.do("launch", program=path)
        source = {"name": "x.rom (disassembly)", "path": path, "sourceReference": 1}
        editor.do("setBreakpoints", source={"path": path}, breakpoints=[{"line": 1, "logMessage": "\u00e9 is {B}"}, {"line": 1}])
        editor.do("configurationDone")
        self.assertEqual(editor.stop(), "breakpoint")
        frame = {"column": 0, "id": 1, "instructionPointerReference": "0x0000", "line": 1, "name": "main", "source": source}
        self.assertEqual(editor.do("stackTrace", threadId=1), {"stackFrames": [frame], "totalFrames": 1})
        code = {"address": "0x0000", "instruction": "HLT", "instructionBytes": "76", "line": 1, "location": source}
        self.assertEqual(editor.do("disassemble", memoryReference="0x0000", instructionCount=1), {"instructions": [code]})
        editor.do("continue", threadId=1)
        told = {"category": "console", "column": 0, "line": 1, "output": "\u00e9 is 0\n", "source": source}
        self.assertEqual(editor.events_to("terminated")[1], ("output", told))


if __name__ == "__main__":
    unittest.main()
