"""The class's file: who may log in. It has a line for each person, the name and what is kept of the password; a teacher's name
has a star before it. JupyterHub reads it at each login, and nobody but root can read it. Beside it lies a list of the students'
names alone, for the class page.

    python3 class_file.py LIST      makes both of a teacher's list, with `name` or `name password` in each line

Who has no password in the list keeps the one of before, or gets one, which is printed.
"""
import collections
import hashlib
import hmac
import os
import pathlib
import pwd
import re
import secrets
import sys

# The folder of what the hub keeps.
FOLDER = pathlib.Path(os.environ.get("LAB80_STATE", "/var/lib/lab80"))
PEOPLE, STUDENTS = FOLDER / "class", FOLDER / "students"

# What Debian takes as the name of an account, and the first number of accounts that aren't the system's.
NAME = re.compile(r"[a-z][a-z0-9_-]{0,31}")
FIRST = 1000

# The letters of passwords that are made here: none looks like another one.
LETTERS = "abcdefghjkmnpqrstuvwxyz23456789"
LENGTH = 8

Person = collections.namedtuple("Person", "teaches word")


class Wrong(Exception):
    """A list that can't be used, and why."""


def lines(path):
    """The persons of a list or a class's file: names, whether they teach, and what stands behind the name, if anything."""
    with open(path, encoding="utf-8-sig") as file:
        for number, line in enumerate(file, 1):
            if line.strip() and not line.lstrip().startswith("#"):
                name, *rest = line.strip().removeprefix("*").split(None, 1)
                yield number, name.lower(), Person(line.lstrip().startswith("*"), rest[0] if rest else "")


def people():
    """Who may log in, by name."""
    return {name: person for _, name, person in lines(PEOPLE)} if PEOPLE.exists() else {}


def key(password, salt):
    return hashlib.scrypt(password.encode(), salt=salt, n=1 << 14, r=8, p=1).hex()


def kept(password):
    """What is kept of a password, from which nobody can tell it."""
    salt = os.urandom(16)
    return f"scrypt:{salt.hex()}:{key(password, salt)}"


def is_password(password, word):
    """Whether a password is the one of which this word was kept."""
    _, salt, made = word.split(":")
    return hmac.compare_digest(key(password, bytes.fromhex(salt)), made)


def check_name(name):
    if not NAME.fullmatch(name):
        raise Wrong(f"{name!r} can't be an account's name: a letter from a to z, then such letters, digits, - and _, 32 in all")
    try:
        if pwd.getpwnam(name).pw_uid < FIRST:
            raise Wrong(f"{name!r} is an account of the system's")
    except KeyError:
        pass


def read_list(path):
    """The persons of a teacher's list."""
    found = {}
    for number, name, person in lines(path):
        try:
            check_name(name)
            if name in found:
                raise Wrong(f"{name!r} is there twice")
        except Wrong as wrong:
            raise Wrong(f"{path}, line {number}: {wrong}") from None
        found[name] = person
    if not found:
        raise Wrong(f"{path} names nobody")
    return found


def write(path, text, mode):
    """Writes a file as a whole, or not at all."""
    new = path.with_name(path.name + ".new")
    new.unlink(missing_ok=True)
    with open(os.open(new, os.O_WRONLY | os.O_CREAT | os.O_EXCL, mode), "w", encoding="utf-8") as file:
        os.fchmod(file.fileno(), mode)
        file.write(text)
    new.replace(path)


def make(path):
    """Makes the class's file of a teacher's list. Returns the passwords that were made."""
    before, made, told = people(), {}, {}
    for name, person in read_list(path).items():
        word = kept(person.word) if person.word else before[name].word if name in before else None
        if word is None:
            told[name] = "".join(secrets.choice(LETTERS) for _ in range(LENGTH))
            word = kept(told[name])
        made[name] = Person(person.teaches, word)
    write(PEOPLE, "".join(f"{'*' * person.teaches}{name} {person.word}\n" for name, person in made.items()), 0o600)
    write(STUDENTS, "".join(f"{name}\n" for name, person in made.items() if not person.teaches), 0o644)
    return told


def main():
    try:
        for name, password in make(sys.argv[1]).items():
            print(f"{name:32} {password}")
        if not any(person.teaches for person in people().values()):
            print("begin: the list has no teacher, who has a star before the name", file=sys.stderr)
    except (Wrong, OSError, UnicodeDecodeError) as wrong:
        sys.exit(f"begin: {wrong}")


if __name__ == "__main__":
    main()
