"""README.md's way to a first answer: in a bare root of Debian 12, without a network and without the
toolchain, its first command installs the release in dist/ of a clone, and its second one solves a
graph and checks the answer. The way of the wheel stands beside it."""
import os
import re
import shutil
import subprocess
import time

from bare_root import SEARCHED, entry_words
from c_parts import Skipped
from made_release import TOP

DEBIAN, PACKAGES = "bookworm", "python3,python3-venv"
# Where the clone is in the root.
CLONE = "/root/blossom"
A_MINUTE = 60


def inside(root, *words):
    """A command in the root, without a network if that can be: its status, and what it prints."""
    done = subprocess.run(
        [*entry_words(), root, *words],
        stdin=subprocess.DEVNULL,
        capture_output=True,
        text=True,
        env={"PATH": "/usr/sbin:/usr/bin:/sbin:/bin", "LC_ALL": "C.UTF-8", "HOME": "/root"},
    )
    return done.returncode, done.stdout + (done.stderr if done.returncode else "")


def in_clone(root, command):
    """A line of README.md as a shell in the clone runs it."""
    return inside(root, "bash", "-c", "cd %s && %s" % (CLONE, command))


def put_root(folder):
    """Puts a bare Debian 12 with Python there. Skipped: it can't be had."""
    debootstrap = shutil.which("debootstrap", path=SEARCHED)
    if debootstrap is None or os.geteuid() != 0:
        raise Skipped("debootstrap isn't installed, or this isn't root")
    words = [debootstrap, "--variant=minbase", "--include=" + PACKAGES, DEBIAN, folder]
    if subprocess.run(words, capture_output=True).returncode != 0:
        raise Skipped("debootstrap can't get Debian 12 here")


def put_clone(root, dist):
    """Puts the files of this checkout into the root, with the files of a release as its dist/."""
    words = ["git", "ls-files", "-z", "--", ".", ":(exclude)dist"]
    listed = subprocess.run(words, cwd=TOP, capture_output=True, check=True).stdout
    for path in filter(None, map(os.fsdecode, listed.split(b"\0"))):
        place = os.path.join(root + CLONE, path)
        os.makedirs(os.path.dirname(place), exist_ok=True)
        shutil.copy(os.path.join(TOP, path), place)
    shutil.copytree(dist, root + CLONE + "/dist")


def shown():
    """The two commands of README.md, and that of the wheel."""
    with open(os.path.join(TOP, "README.md"), encoding="utf-8") as file:
        text = file.read()
    two = re.search(r"^    (apt install .*)\n    (.*)\n", text, re.M)
    wheel = re.search(r"`(python3 -m venv [^`]*)`", text)
    return two[1], two[2], wheel[1]


def timed(root):
    """Runs the two commands. Answers the seconds until each has ended, and what they say."""
    start, ends, said = time.monotonic(), [], []
    for command in shown()[:2]:
        said.append(in_clone(root, command))
        ends.append(time.monotonic() - start)
    return ends, said


def first_answer(root, tests):
    """The two commands end well, in less than a minute."""
    ends, ((status, told), answer) = timed(root)
    tests.compare("README's first command", told.encode(), 0, status)
    tests.compare("README's second command", b"", (0, "s ACCEPTED\n"), answer)
    name = "seconds until the first checked answer (%.1f), under a minute" % ends[1]
    tests.compare(name, b"", True, ends[1] < A_MINUTE)
    print("README's two commands in a bare Debian 12: %.1f and %.1f seconds" % tuple(ends))


def by_the_wheel(root, piece, tests):
    """The wheel in a virtual environment answers, with the program that it brings."""
    status, told = in_clone(root, shown()[2])
    tests.compare("README's way of the wheel", told.encode(), 0, status)
    with open(root + CLONE + "/piece.py", "w", encoding="utf-8") as file:
        file.write(piece)
    got = inside(root, CLONE + "/venv/bin/python", CLONE + "/piece.py")
    wanted = 0, "[(2, 3), (4, 1)] 2 True True\n"
    tests.compare("Python in the virtual environment", b"", wanted, got)
    status, told = inside(root, CLONE + "/venv/bin/blossom-verify")
    tests.compare("blossom-verify in it", told.encode(), 0, status)
