"""What an exercise is called with and asked, as its lesson's source states it, and inputs drawn from that.

A statement is lines of words:

    call LARGER                 the routine: a label or an address; several are called in turn
    B 0..255                    what it is given: a register or pair, and its ranges
    C B-1..B+1 0..255           a range may refer to what stands above it
    HL text(0..20)              the address of a text, here of 0 to 20 characters and a zero
    HL bytes(B)                 the address of so many bytes
    HL digits(0..255)           the address of a decimal number and what ends it
    B decimal(0..99)            a number with two decimal digits in a byte
    byte LAMPS 0..255           a byte in memory at a label; `word PRESSES ..` is a word
    also B=0 C=255              one of the inputs, with these numbers
    gives A CY LAMPS            what is asked: registers, pairs, flags, labels from above, `bytes` (those at addresses that are
                                given, and some beside them), `console`, `lamps` and `interrupts`
    change RATE EQU 2000 4000   the cell is judged with other numbers in this line too
    only PUSH POP RET           the instructions that the routine may execute

Numbers are written as in a cell. The ends of each range are always among the inputs, and so is every number that stands alone.
"""
import re

# How many inputs are drawn.
COUNT = 40

REGISTERS = tuple("ABCDEHL")
PAIRS = ("BC", "DE", "HL")
FLAGS = ("S", "Z", "AC", "P", "CY")
OTHERS = ("bytes", "console", "lamps", "interrupts")

# The most bytes at an address.
MOST_BYTES = 255

# How many bytes beside those at an address are random too, and how many addresses lie between two addresses that are given.
BESIDE, APART = 4, 768

# What ends a number of decimal digits: characters beside the digits, and others.
ENDS = b"/:\0 ,A@;-"

# Bytes that occur more often than others in random ones.
EDGES = (0, 1, 0x7F, 0x80, 0xFF)

TERM = re.compile(r"(?:([A-Za-z@?][\w@?]*)(?:([+-])(\d\w*))?|(-?\d\w*|'.'))\Z")
SPECIAL = re.compile(r"(text|bytes|digits|decimal)\(([^()]+)\)\Z")


class Unreadable(Exception):
    """Why a statement can't be read, in words."""


def number(word):
    """The number that a word of the assembler writes."""
    if word.startswith("'"):
        return ord(word[1])
    sign, digits = (-1, word[1:]) if word.startswith("-") else (1, word)
    for letter, base in (("H", 16), ("B", 2), ("O", 8), ("Q", 8), ("D", 10)):
        if digits.upper().endswith(letter):
            digits = digits[:-1]
            break
    else:
        base = 10
    try:
        return sign * int(digits, base)
    except ValueError:
        raise Unreadable(f"`{word}` is no number") from None


class Term:
    """An end of a range: a number, or one relative to another input."""

    def __init__(self, word):
        found = TERM.match(word)
        if not found:
            raise Unreadable(f"`{word}` is neither a number nor a name")
        self.name, sign, offset, alone = found.groups()
        self.offset = number(alone or offset or "0") * (-1 if sign == "-" else 1)

    def value(self, values):
        if self.name is None:
            return self.offset
        return values[self.name] + self.offset


class Range:
    """From one end to the other; a single number is both ends."""

    def __init__(self, word):
        first, _, last = word.partition("..")
        self.first, self.last, self.is_single = Term(first), Term(last or first), not last

    def ends(self, values):
        return self.first.value(values), self.last.value(values)

    def names(self):
        return {term.name for term in (self.first, self.last)} - {None}


class Given:
    """A place that is given a value: a register or pair, or a label of a byte or word."""

    def __init__(self, name, size, words):
        self.name, self.size, self.kind = name, size, "number"
        special = SPECIAL.match(words[0]) if words else None
        if special:
            self.kind, words = special[1], [special[2]]
        if not words or special and len(words) > 1:
            raise Unreadable(f"`{name}` has no range")
        self.ranges = [Range(word) for word in words]

    def is_address(self):
        return self.kind in ("text", "bytes", "digits")

    def all_ends(self):
        """The ends of its ranges, each a range and which of its ends; that of a single number once."""
        return [(each, at) for each in self.ranges for at in range(1 if each.is_single else 2)]

    def draw(self, random, values, end):
        """A number in one of the ranges: with `end` that end of them, else any."""
        if isinstance(end, str):
            return number(end)
        chosen, at = end or (random.choice(self.ranges), None)
        ends = chosen.ends(values)
        found = random.randint(*sorted(ends)) if at is None else ends[at]
        if self.kind == "decimal":
            return int(str(found), 16)
        return found if self.is_address() else found % (1 << 8 * self.size)

    def bytes(self, random, drawn):
        """The bytes at its address, for the number drawn."""
        if self.kind == "text":
            return bytes(character(random) for _ in range(drawn)) + b"\0"
        if self.kind == "bytes":
            return some_bytes(random, drawn)
        digits = random.choice(("", "0", "00")) + str(drawn) if random.random() < 0.9 else ""
        return digits.encode() + bytes([random.choice(ENDS)]) + bytes(random.choice(b"0123456789") for _ in range(2))


def character(random):
    """A character of a text: most can be seen, and of the others there are more of the first and last."""
    return random.randint(0x21, 0x7E) if random.random() < 0.7 else random.choice((0x80, random.randint(0x81, 0xFE), 0xFF))


def some_bytes(random, count):
    return bytes(random.choice(EDGES) if random.random() < 0.3 else random.randrange(256) for _ in range(count))


class Case:
    """One input: the routine, all registers and flags, bytes at labels, and bytes at addresses of the judge's own."""

    def __init__(self, routine, flags, random):
        self.routine, self.flags = routine, flags
        self.registers = {name: random.randrange(256) for name in REGISTERS}
        self.labels, self.blocks, self.given = {}, {}, []

    def give(self, given, drawn, random, place):
        """Gives a place the number drawn for it. `place` is where the bytes of an address begin, from the first of them."""
        if given.is_address():
            content = given.bytes(random, drawn)
            self.blocks[given.name] = place - BESIDE, some_bytes(random, BESIDE) + content + some_bytes(random, BESIDE), content
        elif given.name in REGISTERS:
            self.registers[given.name] = drawn
        elif given.name in PAIRS:
            self.set_pair(given.name, drawn)
        else:
            self.labels[given.name] = drawn.to_bytes(given.size, "little")
        self.given.append((given, drawn))

    def set_pair(self, name, value):
        self.registers[name[0]], self.registers[name[1]] = value >> 8, value & 255

    def at(self, base):
        """The same with its blocks from this address on: their addresses and bytes, and the registers."""
        self.memory = {base + place: content for place, content, _ in self.blocks.values()}
        for name, (place, _, _) in self.blocks.items():
            self.set_pair(name, base + place + BESIDE)
        return self

    def words(self):
        """What is given, in the form of the judges in the notebooks."""
        return " ".join(self.word(given, drawn) for given, drawn in self.given)

    def word(self, given, drawn):
        if given.is_address():
            address = 256 * self.registers[given.name[0]] + self.registers[given.name[1]]
            return f"{given.name}={address:04X} ({shown_bytes(self.blocks[given.name][2])})"
        return f"{given.name}={drawn:0{2 * given.size}X}"


def shown_bytes(content):
    """Bytes in words: as a text, if they are one."""
    text, zero, _ = content.partition(b"\0")
    if zero and content.endswith(b"\0") and text.isascii() and text.decode().isprintable() and b"'" not in text:
        return f"'{text.decode()}',0"
    return content[:16].hex(" ").upper() + " .." * (len(content) > 16)


class Inputs:
    """A statement that was read."""

    def __init__(self, text):
        self.routines, self.given, self.asked, self.changes, self.only, self.also = [], [], [], [], (), []
        for line in text.splitlines():
            words = line.split()
            if words:
                self.read(words[0], words[1:], line)
        if not self.routines or not self.asked:
            raise Unreadable("a line `call` and a line `gives` are needed")
        if len(self.also) + max((len(each.all_ends()) for each in self.given), default=0) > COUNT:
            raise Unreadable(f"there are more ends of ranges, and lines `also`, than the {COUNT} inputs")

    def read(self, word, words, line):
        if word == "call":
            self.routines = words
            [number(each) for each in words if each[0].isdigit()]
        elif word == "gives":
            self.ask(words)
        elif word == "only":
            self.only = tuple(words)
        elif word == "also":
            self.also.append(dict(self.one(each) for each in words))
        elif word == "change":
            if len(words) < 4 or words[1] not in ("EQU", "SET"):
                raise Unreadable(f"`{line}` changes no line with EQU or SET")
            self.changes.append((words[0], words[1], words[2], words[3:]))
        elif word in ("byte", "word") and words:
            self.add(Given(words[0], 1 if word == "byte" else 2, words[1:]))
        elif word in PAIRS or word in REGISTERS:
            self.add(Given(word, len(word), words))
        else:
            raise Unreadable(f"`{word}` begins no line of inputs")

    def one(self, word):
        name, _, value = word.partition("=")
        if name not in {each.name for each in self.given if not each.is_address()}:
            raise Unreadable(f"`{word}` gives nothing that stands above a number")
        number(value)
        return name, value

    def add(self, given):
        known = {each.name for each in self.given}
        for each in given.ranges:
            for name in each.names() - known:
                raise Unreadable(f"`{name}` isn't given above")
        if given.is_address() and given.name not in PAIRS:
            raise Unreadable(f"`{given.name}` holds no address")
        most = {"text": MOST_BYTES, "bytes": MOST_BYTES, "decimal": 100 ** given.size - 1}.get(given.kind)
        if most and any(self.most(term) > most for each in given.ranges for term in (each.first, each.last)):
            raise Unreadable(f"`{given.name}` has {given.kind} of more than {most}")
        self.given.append(given)

    def most(self, term):
        """The most that a term may come to."""
        sizes = {each.name: each.size for each in self.given}
        return term.offset + (0 if term.name is None else 256 ** sizes[term.name] - 1)

    def ask(self, words):
        labels = {each.name for each in self.given if each.name not in REGISTERS and each.name not in PAIRS}
        for word in words:
            if word not in REGISTERS and word not in PAIRS + FLAGS + OTHERS and word not in labels:
                raise Unreadable(f"`{word}` can't be asked")
        self.asked += words

    def labels(self):
        """The labels that it names: those of routines, and of bytes and words."""
        routines = [name for name in self.routines if not name[0].isdigit()]
        return routines + [each.name for each in self.given if each.name not in REGISTERS and each.name not in PAIRS]

    def cases(self, random):
        """Inputs: those that are stated one by one, and then the ends of each range have a place among others that are drawn."""
        stated = [[one.get(given.name) for given in self.given] for one in self.also]
        plans = [self.plan(random, given) for given in self.given]
        others = [[plan[at] for plan in plans] for at in range(COUNT - len(stated))]
        return [self.case(random, ends, call) for ends, call in zip(stated + others, self.calls(random))]

    def calls(self, random):
        """Routines and flags for the inputs: each routine as often as the others, and every other time with all flags that weren't
        set the time before, and no others."""
        flags = {}
        for at in range(COUNT):
            routine = self.routines[at % len(self.routines)]
            flags[routine] = flags[routine] ^ 0xFF if routine in flags and at // len(self.routines) % 2 else random.randrange(256)
            yield routine, flags[routine]

    def plan(self, random, given):
        """For each input that isn't stated which end of a place's ranges it has, or None."""
        ends = given.all_ends()
        plan = ends + [None] * (COUNT - len(self.also) - len(ends))
        random.shuffle(plan)
        return plan

    def case(self, random, ends, call):
        case, values = Case(*call, random), {}
        for at, (given, end) in enumerate(zip(self.given, ends)):
            drawn = values[given.name] = given.draw(random, values, end)
            case.give(given, drawn, random, APART * at + self.offset(random, drawn))
        return case

    def offset(self, random, drawn):
        """Where bytes begin among those between two addresses: half of the time so that they reach over the end of a page."""
        if random.random() < 0.5:
            return 256 - min(240, random.randint(0, max(1, drawn)))
        return random.randint(BESIDE, 200)

    def variants(self):
        """What is put in place of lines, for one group of inputs after another: nothing at first, and then each number in turn."""
        yield {}
        for at in range(max((len(others) for *_, others in self.changes), default=0)):
            yield {(name, word, value): others[at % len(others)] for name, word, value, others in self.changes}
