"""A student's account on the machine, made when the student's server starts for the first time, and the lessons in its home:

    python3 accounts.py NAME
"""
import os
import pathlib
import pwd
import subprocess
import sys

from class_file import FIRST, FOLDER

HOMES = pathlib.Path("/home")

# Where lessons come from: the package, and the teacher.
LESSONS = "/usr/share/doc/lab80/lessons", str(FOLDER / "lessons")

# Copies the lessons that a home doesn't have. What is there is never changed. It runs as the student, so that a link in the home
# leads nowhere where the student couldn't write anyway.
COPY = """
umask 077 && cd "$HOME" && mkdir -p lessons || exit
for file in "$0"/* "$1"/*; do
    [ ! -f "$file" ] || [ -e "lessons/${file##*/}" ] || cp "$file" lessons/ || exit
done
"""


def free_number():
    """A number that neither an account has nor a home's owner. Homes stay where a container is made anew, and accounts don't."""
    taken = [user.pw_uid for user in pwd.getpwall()] + [home.stat().st_uid for home in HOMES.iterdir()]
    return max([FIRST - 1, *(number for number in taken if FIRST <= number < 60000)]) + 1


def make_account(name):
    """Makes an account, with a home that only its owner can read, unless there is one. Returns it."""
    home = HOMES / name
    try:
        number = pwd.getpwnam(name).pw_uid
    except KeyError:
        number = home.stat().st_uid if home.exists() else free_number()
        if number >= FIRST:
            subprocess.run(["/usr/sbin/useradd", "--create-home", "--home-dir", str(home), "--shell", "/bin/bash", "--key",
                            "HOME_MODE=0700", "--uid", str(number), "--", name], check=True)
    if number < FIRST:
        sys.exit(f"{name}: the account, or the owner of {home}, is the system's")
    return pwd.getpwnam(name)


def give_lessons(user):
    """Copies the lessons that a student doesn't have yet. A server starts without them too."""
    environment = {"PATH": "/usr/bin:/bin", "HOME": user.pw_dir}
    done = subprocess.run(["/bin/sh", "-c", COPY, *LESSONS], check=False, cwd="/", env=environment, user=user.pw_uid,
                          group=user.pw_gid, extra_groups=os.getgrouplist(user.pw_name, user.pw_gid))
    if done.returncode != 0:
        print(f"{user.pw_name} doesn't have all lessons", file=sys.stderr)


if __name__ == "__main__":
    give_lessons(make_account(sys.argv[1]))
