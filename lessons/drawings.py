"""The lessons' drawings, as SVG. Pages and the book show them as they are, and notebooks as the PNG that `lessons/make --drawings`
makes of them, since JupyterLab shows no embedded SVG. A drawing is light or dark as its page is. It is 640 points wide, which a
telephone shows at half the size: so its letters are large."""
import hashlib
import html
import math
import struct
import subprocess
import tempfile
import zlib
from pathlib import Path

WIDTH = 640

STYLE = """\
.page { fill: #fdfcf9 } .ink { fill: #20242b } .faint { fill: #565c67 } .strong { fill: #1a4f92 } .warm { fill: #8a3a08 }
.box, .soft, .mark, .hot { stroke: #4a505b; stroke-width: 1.3 }
.box { fill: #ffffff } .soft { fill: #eceae2 } .mark { fill: #d8e6f8 } .hot { fill: #fbe3c9 }
.line { stroke: #4a505b; stroke-width: 1.6; fill: none } .way { stroke: #1a4f92; stroke-width: 2; fill: none }
.head { fill: #4a505b } .way-head { fill: #1a4f92 }
text { font: 15px "DejaVu Sans", Verdana, Helvetica, sans-serif; text-anchor: middle }
.code { font-family: "DejaVu Sans Mono", Menlo, Consolas, monospace; font-size: 16px }
.small { font-size: 14px } .large { font-size: 20px } .bold { font-weight: bold }
.left { text-anchor: start } .right { text-anchor: end }
@media (prefers-color-scheme: dark) {
.page { fill: #191c22 } .ink { fill: #dde2ea } .faint { fill: #a3abb8 } .strong { fill: #8fbcf5 } .warm { fill: #efb27f }
.box, .soft, .mark, .hot { stroke: #98a1b0 }
.box { fill: #15181d } .soft { fill: #2a2f38 } .mark { fill: #1d3a5f } .hot { fill: #533516 }
.line { stroke: #98a1b0 } .way { stroke: #8fbcf5 } .head { fill: #98a1b0 } .way-head { fill: #8fbcf5 }
}
"""


class Drawing:
    """A drawing to which parts are added. Places are in points, from the top left."""

    def __init__(self, height, title):
        self.height, self.title, self.parts = height, title, []

    def add(self, part):
        self.parts.append(part)

    def text(self, x, y, words, kind="ink"):
        """Words, if there are any, whose middle is at x unless the kind says `left` or `right`."""
        if words:
            self.add(f'<text x="{x:g}" y="{y:g}" class="{kind}">{html.escape(words, quote=False)}</text>')

    def box(self, x, y, width, height, words="", kind="box", letters="code ink"):
        """A box with words in its middle."""
        self.add(f'<rect x="{x:g}" y="{y:g}" width="{width:g}" height="{height:g}" rx="3" class="{kind}"/>')
        self.text(x + width / 2, y + height / 2 + 5.5, words, letters)

    def row(self, x, y, width, words, kind="box", height=34, letters="code ink"):
        """Boxes side by side, one for each word."""
        for at, word in enumerate(words):
            self.box(x + at * width, y, width, height, word, kind, letters)

    def head(self, x, y, angle, kind):
        """The head of an arrow that arrives at a place in a direction, in degrees."""
        turn = f"translate({x:g} {y:g}) rotate({angle:g})"
        self.add(f'<path d="M0 0 L-10 -5 L-10 5 Z" transform="{turn}" class="{kind}"/>')

    def path(self, *places, kind="line", curve=False):
        """An arrow over these places: straight, or a curve whose inner places draw it to themselves."""
        way = " ".join(f"{x:g} {y:g}" for x, y in places[1:])
        self.add(f'<path d="M{places[0][0]:g} {places[0][1]:g} {"C" if curve else "L"}{way}" class="{kind}"/>')
        (x, y), (from_x, from_y) = places[-1], places[-2]
        self.head(x, y, math.degrees(math.atan2(y - from_y, x - from_x)), "way-head" if kind == "way" else "head")

    def line(self, *places):
        """A line without a head."""
        self.add(f'<path d="M{" L".join(f"{x:g} {y:g}" for x, y in places)}" class="line"/>')

    def svg(self):
        size = f'width="{WIDTH}" height="{self.height}" viewBox="0 0 {WIDTH} {self.height}"'
        return "\n".join([
            f'<svg xmlns="http://www.w3.org/2000/svg" {size} role="img">', f"<title>{html.escape(self.title)}</title>",
            f"<style>{STYLE}</style>", f'<rect width="{WIDTH}" height="{self.height}" class="page"/>', *self.parts, "</svg>\n"])


def byte():
    """The eight bits of B7."""
    made = Drawing(232, "The byte B7: its bits, their weights, and its two hexadecimal digits")
    for at, bit in enumerate("10110111"):
        x = 130 + 62 * at
        made.text(x + 31, 32, str(7 - at), "faint")
        made.box(x, 44, 62, 44, bit, "mark" if bit == "1" else "box", "code ink large")
        made.text(x + 31, 112, str(128 >> at), "code ink" if bit == "1" else "code faint")
    for y, word in ((32, "bit"), (72, "byte"), (112, "weight")):
        made.text(112, y, word, "faint right")
    for x, digit, told in ((130, "B", "1011: 8 + 2 + 1 = 11"), (378, "7", "0111: 4 + 2 + 1 = 7")):
        made.line((x + 4, 128), (x + 4, 136), (x + 244, 136), (x + 244, 128))
        made.box(x + 100, 148, 48, 38, digit, "hot", "code ink large")
        made.text(x + 124, 212, told, "small ink")
    made.text(112, 172, "hexadecimal", "faint right")
    return made


def signs():
    """The bytes on a line, with and without signs."""
    made = Drawing(222, "The bytes from 00 to FF, as numbers without a sign and in two's complement")
    bytes_ = ("00", "01", "..", "7F", "80", "..", "FE", "FF")
    unsigned = ("0", "1", "", "127", "128", "", "254", "255")
    signed = ("0", "1", "", "127", "-128", "", "-2", "-1")
    for at, each in enumerate(bytes_):
        x = 136 + 60 * at
        made.box(x, 64, 60, 38, each, "box" if at < 4 else "hot", "code ink")
        made.text(x + 30, 46, unsigned[at], "code ink")
        made.text(x + 30, 132, signed[at], "code strong" if at < 4 else "code warm")
    for y, word in ((46, "unsigned"), (88, "byte"), (132, "signed")):
        made.text(96, y, word, "faint right")
    for x, word, kind in ((256, "bit 7 is 0: zero or more", "strong"), (496, "bit 7 is 1: negative", "warm")):
        made.line((x - 116, 144), (x - 116, 152), (x + 116, 152), (x + 116, 144))
        made.text(x, 174, word, kind)
    made.path((616, 83), (628, 83), (628, 212), (114, 212), (114, 83), (133, 83), kind="way")
    made.text(376, 203, "one more than FF is 00, with a carry", "small strong")
    return made


def registers():
    """The registers and pairs."""
    made = Drawing(330, "The registers of the 8080, and which of them form pairs")
    made.text(130, 28, "8 bits", "faint")
    made.text(290, 28, "8 bits", "faint")
    rows = (("A", "flags", "PSW", "accumulator and flags"), ("B", "C", "B", "the pair BC"),
            ("D", "E", "D", "the pair DE"), ("H", "L", "H", "the pair HL, M's address"))
    for at, (high, low, name, told) in enumerate(rows):
        y = 40 + 46 * at
        made.box(50, y, 160, 38, high, "mark" if at == 0 else "box", "code ink large")
        made.box(210, y, 160, 38, low, "soft" if at == 0 else "box", "code ink large" if at else "ink")
        made.text(392, y + 25, name, "code strong bold left")
        made.text(392 + 44, y + 25, told, "small ink left")
    for at, (name, told) in enumerate((("SP", "stack pointer"), ("PC", "program counter"))):
        y = 238 + 46 * at
        made.box(50, y, 320, 38, name, "hot", "code ink large")
        made.text(392, y + 25, told + ", 16 bits", "small ink left")
    return made


def flags():
    """The byte of the flags."""
    made = Drawing(206, "The byte of the flags")
    told = ("sign", "zero", "", "half", "", "parity", "", "carry")
    more = ("bit 7", "all bits 0", "always 0", "carry, bit 3", "always 0", "even", "always 1", "or borrow")
    for at, name in enumerate(("S", "Z", "0", "AC", "0", "P", "1", "CY")):
        x, is_flag = 24 + 74 * at, len(told[at]) > 0
        made.text(x + 37, 28, str(7 - at), "faint")
        made.box(x, 40, 74, 46, name, "mark" if is_flag else "soft", "code ink large" if is_flag else "code faint large")
        made.text(x + 37, 110, told[at], "ink")
        made.text(x + 37, 132, more[at], "small faint")
    for at, weight in ((0, "80H"), (1, "40H"), (3, "10H"), (5, "04H"), (7, "01H")):
        made.text(24 + 74 * at + 37, 158, weight, "code strong")
    made.text(320, 192, "PUSH PSW stores this byte below A; its weights are those of a mask", "small faint")
    return made


def branch():
    """A choice and a loop, as the ways of a program."""
    made = Drawing(316, "The ways of a program: a choice between two parts, and a loop")
    made.text(150, 26, "a choice", "faint")
    made.text(460, 26, "a loop", "faint")
    made.box(80, 44, 140, 36, "CMP C")
    made.box(80, 104, 140, 36, "JNZ OTHER", "mark")
    made.box(20, 170, 120, 36, "equal", "soft", "ink")
    made.box(170, 170, 120, 36, "different", "soft", "ink")
    made.box(80, 254, 140, 36, "OUT 1")
    made.path((150, 80), (150, 102))
    made.path((110, 140), (84, 168))
    made.path((190, 140), (226, 168), kind="way")
    made.path((80, 206), (118, 252))
    made.path((230, 206), (186, 252))
    made.text(76, 158, "Z is 1", "small ink right")
    made.text(224, 158, "Z is 0", "small strong left")
    made.text(62, 240, "JMP BOTH", "small ink")
    for y, words, kind in ((44, "MVI B,8", "box"), (104, "CALL HEX", "soft"), (164, "DCR B", "box"), (224, "JNZ AGAIN", "mark")):
        made.box(390, y, 140, 36, words, kind)
        made.path((460, y + 36), (460, y + 58 if y < 224 else y + 76))
    made.path((530, 242), (564, 242), (564, 122), (532, 122), kind="way")
    made.text(571, 187, "not 0", "small strong left")
    made.text(470, 284, "B is 0", "small ink left")
    made.text(380, 128, "AGAIN:", "code ink right")
    return made


def pointer():
    """HL points at a byte of memory."""
    made = Drawing(226, "HL holds the address of a byte in memory, which M stands for")
    made.text(130, 30, "the pair H", "faint")
    made.row(50, 44, 80, ("H", "L"), "soft", 28)
    made.row(50, 72, 80, ("01", "23"), "mark", 42, "code ink large")
    made.text(440, 30, "memory", "faint")
    rows = (("0121", "48", "'H'"), ("0122", "65", "'e'"), ("0123", "6C", "'l' is M"), ("0124", "6C", "'l'"), ("0125", "6F", "'o'"))
    for at, (address, content, told) in enumerate(rows):
        y, is_there = 44 + 34 * at, at == 2
        made.box(400, y, 80, 34, content, "hot" if is_there else "box")
        made.text(388, y + 22, address, "code strong right" if is_there else "code faint right")
        made.text(492, y + 22, told, "code ink left" if is_there else "code faint left")
    made.path((130, 114), (130, 129), (334, 129), kind="way")
    made.text(140, 152, "MOV A,M loads A with 6C", "small ink left")
    made.text(140, 176, "INX H goes on to 0124", "small ink left")
    return made


def memory():
    """The memory as the lessons use it."""
    made = Drawing(384, "The 65,536 bytes of memory, and where the lessons put their programs")
    rows = (
        ("0000", 44, "places 0, 8 .. 38", "RST 0 to 7 and the buttons, lesson 11", "mark"),
        ("0100", 44, "programs", "the cells that run, by ORG 100H", "box"),
        ("", 26, "..", "", "soft"),
        ("0FFF", 44, "stack", "grows to lower addresses from here", "hot"),
        ("", 26, "..", "", "soft"),
        ("2000", 44, "exercises", "your routines, at 2000, 2100 and 2200", "box"),
        ("", 26, "..", "nobody's: zeros, which are NOP", "soft"),
        ("E000", 44, "the judge", "", "box"),
        ("F000", 44, "tools", "HEX, TEXT and others, by ORG 0F000H", "box"))
    y = 34
    made.text(120, 22, "address", "faint right")
    for address, height, name, told, kind in rows:
        is_stack = name == "stack"
        made.box(140, y, 180, height, name, kind, "ink")
        made.text(126, y + height - 4 if is_stack else y + 16, address, "code strong right")
        made.text(338, y + height / 2 + 5, told, "small ink left")
        if is_stack:
            made.path((300, y + height - 6), (300, y + 6), kind="way")
        y += height
    made.text(126, y - 4, "FFFF", "code strong right")
    return made


ROTATES = (("RLC", False, True), ("RRC", False, False), ("RAL", True, True), ("RAR", True, False))


def rotate(made, y, name, has_carry, is_left):
    """One rotate: the eight bits, CY, and the ways between them."""
    made.text(20, y + 25, name, "code large strong bold left")
    made.text(20, y + 52, "nine bits" if has_carry else "eight bits", "small faint left")
    made.box(126, y, 56, 40, "CY", "hot", "code large ink")
    for bit in range(8):
        made.box(250 + 44 * bit, y, 44, 40, str(7 - bit), "box", "code large ink")
    first, last, middle, low, fork, edge = 250, 602, y + 20, y + 68, 216, 622
    inner = (first + 60, last - 60)
    made.path((inner[is_left], y + 54), (inner[not is_left], y + 54))
    if has_carry and is_left:
        made.path((first, middle), (184, middle), kind="way")
        made.path((154, y + 40), (154, low), (edge, low), (edge, middle), (last + 2, middle), kind="way")
    elif has_carry:
        made.path((last, middle), (edge, middle), (edge, low), (154, low), (154, y + 42), kind="way")
        made.path((182, middle), (first - 2, middle), kind="way")
    elif is_left:
        made.path((first, middle), (184, middle), kind="way")
        made.path((fork, middle), (fork, low), (edge, low), (edge, middle), (last + 2, middle), kind="way")
    else:
        made.path((last, middle), (edge, middle), (edge, low), (fork, low), (fork, middle), (first - 2, middle), kind="way")
        made.path((fork, middle), (184, middle), kind="way")


def rotates():
    """The four rotates."""
    made = Drawing(426, "The four rotates: which way the bits of A move, and what CY takes and gives")
    for at, (name, has_carry, is_left) in enumerate(ROTATES):
        rotate(made, 18 + 104 * at, name, has_carry, is_left)
    return made


def stack_column(made, x, title, rows, sp):
    """A part of memory with the place that SP points at; rows are an address, a byte, a note and a kind."""
    made.text(x + 40, 52, title, "bold ink")
    for at, (address, content, note, kind) in enumerate(rows):
        y = 66 + 34 * at
        made.box(x, y, 80, 34, content, kind)
        made.text(x - 10, y + 22, address, "code strong right" if address == sp else "code faint right")
        made.text(x + 88, y + 22, note, "small ink left")
        if address == sp:
            made.path((x - 84, y + 17), (x - 56, y + 17), kind="way")
            made.text(x - 90, y + 22, "SP", "code strong bold right")


def push():
    """The stack before and after PUSH B."""
    made = Drawing(240, "The stack before and after PUSH B")
    made.text(320, 24, "PUSH B, where B holds 12 and C holds 34", "code ink")
    below = [("0FFE", "..", "", "soft"), ("0FFF", "..", "", "soft"), ("1000", "..", "", "box"), ("1001", "..", "", "box")]
    above = [("0FFE", "34", "C", "hot"), ("0FFF", "12", "B", "hot"), *below[2:]]
    stack_column(made, 150, "before", below, "1000")
    stack_column(made, 460, "after", above, "0FFE")
    made.text(320, 224, "POP B takes both bytes back, and SP is 1000 again.", "small faint")
    return made


def call():
    """The stack before and after CALL, and after RET."""
    made = Drawing(250, "The stack before CALL, in the subroutine, and after RET")
    made.text(320, 24, "0103:  CALL WHERE    (three bytes; the next instruction is at 0106)", "code ink small")
    rest = [("1000", "..", "", "box")]
    empty = [("0FFE", "..", "", "soft"), ("0FFF", "..", "", "soft"), *rest]
    full = [("0FFE", "06", "", "hot"), ("0FFF", "01", "", "hot"), *rest]
    free = [("0FFE", "06", "", "soft"), ("0FFF", "01", "", "soft"), *rest]
    for x, title, rows, sp, pc in ((126, "before CALL", empty, "1000", "0103"), (340, "in WHERE", full, "0FFE", "010D"),
                                   (554, "after RET", free, "1000", "0106")):
        stack_column(made, x, title, rows, sp)
        made.text(x + 40, 200, f"PC {pc}", "code strong")
    made.text(320, 234, "The two bytes stay below SP after RET, until something else is pushed.", "small faint")
    return made


def interrupt():
    """What happens at an interrupt."""
    made = Drawing(408, "An interrupt: the program, the button, the routine at its place, and the way back")
    made.text(110, 28, "the program", "faint")
    for at, words in enumerate(("INR A", "MOV M,A", "INX H", "DCR B")):
        made.box(40, 42 + 44 * at, 140, 36, words, "mark" if at == 1 else "box")
    made.text(470, 28, "place 28H", "faint")
    made.box(400, 42, 150, 36, "JMP PRESSED")
    made.text(470, 122, "the routine", "faint")
    for at, words in enumerate(("PUSH PSW", "..", "POP PSW", "EI", "RET")):
        made.box(400, 136 + 36 * at, 150, 36, words, "soft" if words == ".." else "box")
    made.path((475, 78), (475, 106))
    made.box(216, 92, 112, 36, "button 5", "hot", "ink")
    made.path((216, 110), (184, 110))
    made.path((180, 100), (250, 50), (330, 60), (396, 60), kind="way", curve=True)
    made.text(286, 44, "1", "strong bold")
    made.path((400, 298), (300, 298), (240, 190), (184, 152), kind="way", curve=True)
    made.text(302, 280, "2", "strong bold")
    for at, words in enumerate((
            "1  The processor finishes MOV M,A, turns interrupts off, pushes PC, which is",
            "the address of INX H, and goes on at 28H.", "2  EI, and RET pops PC: the program goes on at INX H.")):
        made.text(56 if at == 1 else 40, 348 + 22 * at, words, "small ink left")
    return made


def cycles():
    """The machine cycles and states of a loop of two instructions."""
    made = Drawing(212, "The machine cycles and states of DCR B and JNZ: five states, and ten in three cycles")
    x, state = 40, 37
    for words, counts in (("DCR B", ((5, "fetch 05"),)), ("JNZ AGAIN", ((4, "fetch C2"), (3, "read low"), (3, "read high")))):
        total = sum(count for count, _ in counts)
        made.box(x, 40, total * state, 34, words, "mark")
        made.text(x + total * state / 2, 30, f"{total} states", "strong")
        at = x
        for count, told in counts:
            made.box(at, 78, count * state, 34, told, "soft", "small ink")
            for each in range(count):
                made.box(at + each * state, 116, state, 30, f"T{each + 1}", "box", "small code ink")
            at += count * state
        x = at
    made.text(320, 172, "one turn of the loop: 15 states", "ink")
    made.text(320, 196, "at 2 MHz a state is half a microsecond, so a turn takes 7.5 microseconds", "small faint")
    return made


DRAWINGS = {made.__name__: made for made in (
    byte, signs, registers, flags, branch, pointer, memory, rotates, push, call, interrupt, cycles)}


def svg(name):
    """The text of a drawing."""
    return DRAWINGS[name]().svg()


# ---- the pictures of them in notebooks

# Points of a picture for each of a drawing: so wide is a notebook's text.
SCALE = 1.25


def sum_of(name):
    """What is written into the picture of a drawing: by it one knows whether it shows the drawing as it is now."""
    return hashlib.sha256(f"{SCALE} {svg(name)}".encode()).hexdigest()


def with_sum(png, words):
    """A PNG with a line of text in it."""
    chunk = b"tEXtSource\0" + words.encode()
    packed = struct.pack(">I", len(chunk) - 4) + chunk + struct.pack(">I", zlib.crc32(chunk))
    return png[:33] + packed + png[33:]


def picture(name, folder):
    """A drawing as a PNG with few colours, by Chromium and pngquant."""
    source, target, made = folder / f"{name}.svg", folder / f"{name}.png", DRAWINGS[name]()
    source.write_text(made.svg(), encoding="utf-8")
    words = ["chromium", "--headless", "--no-sandbox", "--disable-gpu", "--hide-scrollbars", f"--force-device-scale-factor={SCALE}",
             f"--window-size={WIDTH},{made.height}", f"--screenshot={target}", source.as_uri()]
    subprocess.run(words, check=True, stderr=subprocess.DEVNULL, stdout=subprocess.DEVNULL)
    subprocess.run(["pngquant", "--force", "--speed", "1", "--nofs", "--strip", "--output", target, "16", target], check=True)
    return with_sum(target.read_bytes(), sum_of(name))


def save(folder):
    """Writes the pictures of all drawings into a folder."""
    with tempfile.TemporaryDirectory() as work:
        for name in DRAWINGS:
            (folder / f"{name}.png").write_bytes(picture(name, Path(work)))
