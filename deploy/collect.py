"""Copies the notebooks of a class into FOLDER/NAME/. Homes belong to students, so no link there is followed, nothing but files is
read, and none that is longer than what lessons/mark takes."""
import os
import pathlib
import pwd
import stat
import sys

from class_file import STUDENTS

# The most bytes of a notebook: lessons/mark refuses a longer one, and says so.
MOST = (16 << 20) + 1

FOLDER_ONLY = os.O_RDONLY | os.O_DIRECTORY | os.O_NOFOLLOW
FILE_ONLY = os.O_RDONLY | os.O_NONBLOCK | os.O_NOFOLLOW


def notebooks(home):
    """The notebooks in a home's folder lessons: names and bytes."""
    base = os.open(home, FOLDER_ONLY)
    folder = os.open("lessons", FOLDER_ONLY, dir_fd=base)
    for name in sorted(os.listdir(folder)):
        if name.endswith(".ipynb"):
            try:
                file = os.open(name, FILE_ONLY, dir_fd=folder)
            except OSError as wrong:
                print(f"collect: {home}/lessons/{name}: {wrong.strerror}", file=sys.stderr)
                continue
            with open(file, "rb") as opened:
                if stat.S_ISREG(os.fstat(file).st_mode):
                    yield name, opened.read(MOST)
    os.close(folder)
    os.close(base)


def collect(name, target):
    """Copies a student's notebooks. Returns how many."""
    (target / name).mkdir(parents=True, exist_ok=True)
    count = 0
    for count, (file, content) in enumerate(notebooks(pwd.getpwnam(name).pw_dir), 1):
        (target / name / file).write_bytes(content)
    return count


def main():
    if len(sys.argv) != 2:
        sys.exit("usage: collect FOLDER")
    for name in STUDENTS.read_text(encoding="utf-8").split():
        try:
            print(f"{name}: {collect(name, pathlib.Path(sys.argv[1]))} notebooks")
        except KeyError:
            print(f"{name}: has never logged in")
        except OSError as wrong:
            print(f"collect: {name}: {wrong}", file=sys.stderr)


if __name__ == "__main__":
    main()
