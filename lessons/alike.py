"""Answers of different students that are the same."""
import collections
import hashlib
import re

# Answers with fewer instructions than this are often the same by chance.
FEWEST = 8

# A quoted text, a comment, a word, or any other sign.
PART = re.compile(r"'(?:[^']|'')*'|;.*|[\w@?$]+|\S")

# Words that begin no instruction.
NO_INSTRUCTIONS = {"ORG", "EQU", "SET", "DB", "DW", "DS", "IF", "ELSE", "ENDIF", "END"}


def statements(text):
    """The statements of a cell, each a list of its words, without labels' colons, comments and blanks."""
    for line in text.splitlines():
        parts = [part if part[0] == "'" else part.upper() for part in PART.findall(line) if part[0] != ";"]
        if parts:
            yield parts


def fingerprint(text):
    """A checksum of an answer that is the same whatever its comments, blanks and names are, or None for a short one."""
    found, count, names = [], 0, {}
    for parts in statements(text):
        is_label = len(parts) > 1 and parts[1] == ":"
        if is_label or len(parts) > 1 and parts[1] in ("EQU", "SET"):
            names.setdefault(parts[0], f"name {len(names)}")
        word = parts[2] if is_label and len(parts) > 2 else parts[0]
        count += word not in NO_INSTRUCTIONS and word not in names
        found.append(parts)
    if count < FEWEST:
        return None
    text = "\n".join(" ".join(names.get(part, part) for part in parts) for parts in found)
    return hashlib.sha256(text.encode(errors="replace")).hexdigest()


def same_answers(marked, lessons):
    """Sentences on answers that several students have, or a student and the teacher."""
    owners = collections.defaultdict(list)
    for each in marked:
        for number, sum_ in each.answers.items():
            if sum_ and each.who not in owners[each.lesson, number, sum_]:
                owners[each.lesson, number, sum_].append(each.who)
    for (lesson, number, sum_), names in sorted(owners.items()):
        teachers = sum_ == fingerprint(lessons[lesson].answers[number])
        if len(names) > 1 or teachers:
            whose = f"{', '.join(names)}{' and the teacher' if teachers else ''}"
            yield f"the same answer to exercise {number} of {lesson}: {whose}"
