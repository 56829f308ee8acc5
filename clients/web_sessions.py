"""Sessions of lab80_web: those that were recorded for lab80_tests, and random ones."""
import json
import re
from functools import cache

from modules import TOP
from web_kernel import CHANNELS, MOMENT, execute, interrupt, item, request, run, window

RECORDED = TOP / "crates/lab80_tests/data"

# What is put in the place of numbers.
VALUES = ("0", "1", "2", "7", "255", "256", "65535", "65536", "-1", "4294967296", "1e3", "0.5", "null", '"x"', "[]")

# Items that aren't any, or that ask for what isn't there.
ODD = (run(0), item(""), item("run"), item("run", MOMENT), item("run", "", ""), item("joins", "shell", ""),
       item("join", "hb", ""), item("leave", 999), item("leave", b"\0\0\0\1"), item("subscribe", 999, "", MOMENT),
       item("subscribe", 1, "", MOMENT), item("message", "shell", 1, MOMENT), item("message", "shell", 1, MOMENT, "<IDS|MSG>"),
       item("message", "shell", 1, MOMENT, "<IDS|MSG>", "x", "{}", "{}", "{}", "{}"), request("iopub", 4, "execute_request", {}))


def files():
    return sorted(RECORDED.glob("*.jsonl"))


def calls(path):
    """The calls of a recorded session. A call that is repeated has its number in the place of each `#`."""
    for line in path.read_text(encoding="ascii").splitlines():
        entry = json.loads(line)
        for count in range(entry.get("repeat", 1)):
            yield json.loads(json.dumps(entry["call"]).replace("#", str(count))) if "repeat" in entry else entry["call"]


def arrive(call):
    identities = map(bytes.fromhex, call["identities"])
    return item("message", call["channel"], call["connection"], call["moment"], *identities, "<IDS|MSG>", "", call["header"],
                "{}", "{}", json.dumps(call["content"]))


def item_of(call):
    """The item of a call; nothing for a fetch, or for the end of a subscription."""
    kind = call["kind"]
    if kind == "Join":
        return item("join", call["channel"], bytes.fromhex(call["identity"]))
    if kind == "Leave":
        return item("leave", call["connection"])
    if kind == "Subscribe" and call["on"]:
        return item("subscribe", call["connection"], bytes.fromhex(call["prefix"]), call["moment"])
    if kind == "Arrive":
        return arrive(call)
    return run(1, call["moment"]) if kind == "Slice" else b""


def recorded(path):
    return b"".join(map(item_of, calls(path)))


@cache
def requests():
    """What the recorded sessions ask, once each: the channel, the type, and the text of the content."""
    found = (it for path in files() for it in calls(path) if it["kind"] == "Arrive" and it["msg_type"] != "shutdown_request")
    return sorted({(it["channel"], it["msg_type"], json.dumps(it["content"])) for it in found})


@cache
def programs():
    """The cells of the examples and of the lessons."""
    examples = ["\n".join(it["lines"]) for it in json.loads((TOP / "kernelspec/examples.json").read_text(encoding="utf-8"))]
    notebooks = (json.loads(path.read_text(encoding="utf-8")) for path in sorted((TOP / "lessons").glob("*.ipynb")))
    return examples + ["".join(it["source"]) for book in notebooks for it in book["cells"] if it["cell_type"] == "code"]


def changed(chance, text):
    """A text of JSON with other values in the place of some numbers."""
    return re.sub(r"(?<=[:,\[] )\d+(?=[,\]}])", lambda it: chance.choice(VALUES) if chance.random() < 0.2 else it[0], text)


def any_request(chance):
    channel, kind, content = chance.choice(requests())
    content = json.loads(changed(chance, content))
    return request(channel, CHANNELS.index(channel) + 1, kind, content, msg_id=str(chance.randrange(10**6)))


def any_items(chance):
    """A few items that belong together."""
    kind = chance.randrange(20)
    if kind < 5:
        return execute(chance.choice(programs())) + run(chance.randrange(9))
    if kind < 14:
        return any_request(chance)
    if kind < 17:
        return run(chance.choice((1, 1, 2, 30)), MOMENT + chance.randrange(10**9))
    if kind == 17:
        return interrupt() + run(1)
    if kind == 18:
        return chance.choice(ODD)
    first = chance.randrange(5, 40)
    return window(f"w{first}", first) if chance.random() < 0.5 else b"".join(item("leave", first + place) for place in range(4))


def random_session(chance, count):
    """A session of one window and about so many messages."""
    return window() + b"".join(any_items(chance) for _ in range(count))
