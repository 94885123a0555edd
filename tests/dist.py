"""Tests of dist/, the release that the repository holds: in stand-in checkouts that it is made of
what CI has passed, equals a second one byte by byte, and that each difference is told; then that of
this checkout is compared with what is built here."""
import hashlib
import json
import os
import subprocess
import sys
import tempfile

import from_dist
from c_parts import Skipped
from made_release import TOP, bytes_of, commit, git, is_built, stand_in_checkout, write


def says(folder, *words):
    """The status of scripts/dist.py in a checkout, and what it prints."""
    script = os.path.join(folder, "scripts", "dist.py")
    done = subprocess.run([sys.executable, script, *words], capture_output=True, text=True)
    return done.returncode, done.stdout + done.stderr


def head(folder):
    """The commit that is checked out."""
    words = ["git", "rev-parse", "HEAD"]
    return subprocess.run(words, cwd=folder, capture_output=True, text=True).stdout.strip()


def note(folder):
    with open(os.path.join(folder, "dist", "PROVED.json"), encoding="utf-8") as file:
        return json.load(file)


def files(folder):
    """The files of dist/ and their bytes."""
    dist = os.path.join(folder, "dist")
    return {name: bytes_of(os.path.join(dist, name)) for name in sorted(os.listdir(dist))}


def sum_again(folder, name):
    """Has SHA256SUMS list the present checksum of a file."""
    path = os.path.join(folder, "dist", "SHA256SUMS")
    lines = bytes_of(path).decode().splitlines()
    told = hashlib.sha256(bytes_of(os.path.join(folder, "dist", name))).hexdigest()
    lines = ["%s  %s" % (told, name) if line.endswith("  " + name) else line for line in lines]
    write(path, "\n".join(lines) + "\n")


def made(folder, tests):
    """It is made of what CI has passed, and is no source of itself: nothing changes after its
    commit."""
    status, said = says(folder, "--check")
    tests.compare("a checkout without dist/", b"", (0, True), (status, "is no dist/" in said))
    status, said = says(folder)
    first, of = files(folder), head(folder)
    tests.compare("dist/ is made", said.encode(), (0, 6), (status, len(first)))
    tests.compare("the commit that it names", b"", of, note(folder)["commit"])
    commit(folder)
    status, said = says(folder)
    tests.compare("dist/ is made again", said.encode(), (0, True), (status, first == files(folder)))
    with tempfile.TemporaryDirectory() as room:
        inside = from_dist.unpacked(room, os.path.join(folder, "dist"))
        for path, built in (
            ("bin/blossom", "crates/blossom/out/blossom"),
            ("lib/libblossom.so", "capi/out/libblossom.so"),
            ("lib/libblossom.a", "capi/out/libblossom.a"),
        ):
            same = bytes_of(os.path.join(inside, path)) == bytes_of(os.path.join(folder, built))
            tests.compare("what --dist tests as " + path, b"", True, same)
    equals = "dist/ (%s) equals a release made here, byte by byte\n" % note(folder)["version"]
    tests.compare("dist/ is compared", b"", (0, equals), says(folder, "--check"))


def refused(folder, tests):
    """Uncommitted changes and sources that CI hasn't seen."""
    write(os.path.join(folder, "new.txt"), "new")
    status, said = says(folder)
    tests.compare("changes", b"", (1, True), (status, "uncommitted changes" in said))
    os.remove(os.path.join(folder, "new.txt"))
    tests.compare("an argument that it has not", b"", 2, says(folder, "--all")[0])


def changed(folder, tests):
    """A file that is changed, missing or added is told, with or without its checksum."""
    wheel = next(name for name in files(folder) if name.endswith(".whl"))
    path = os.path.join(folder, "dist", wheel)
    write(path, "more", "a")
    wanted = 1, "dist/%s differs from SHA256SUMS\n" % wheel
    tests.compare("a changed wheel", b"", wanted, says(folder, "--check"))
    sum_again(folder, wheel)
    status, said = says(folder, "--check")
    isnt = "dist/%s isn't the file" % wheel in said
    tests.compare("a changed wheel with its sum", said.encode(), (1, True), (status, isnt))
    os.remove(path)
    wanted = 1, "dist/%s is missing\n" % wheel
    tests.compare("without the wheel", b"", wanted, says(folder, "--check"))
    git(folder, "checkout", "dist")
    write(os.path.join(folder, "dist", "more"), "more")
    wanted = 1, "dist/more was added\n"
    tests.compare("a file more", b"", wanted, says(folder, "--check"))
    os.remove(os.path.join(folder, "dist", "more"))


def other_tools(folder, tests):
    """Another zlib gives one line."""
    told = note(folder)
    told["packed by"]["zlib"] = "0.9"
    write(os.path.join(folder, "dist", "PROVED.json"), json.dumps(told))
    sum_again(folder, "PROVED.json")
    status, said = says(folder, "--check")
    named = said.startswith("dist/ was made by zlib 0.9") or ", zlib 0.9" in said
    wanted = 0, 1, True
    tests.compare("another zlib", said.encode(), wanted, (status, said.count("\n"), named))
    git(folder, "checkout", "dist")


def behind(folder, tests):
    """Other sources give one line, with the number of commits."""
    line = "dist/ (%s) is behind by %%s\n" % note(folder)["version"]
    for number in ("1 commit", "2 commits"):
        write(os.path.join(folder, "README.md"), "more\n", "a")
        commit(folder)
        tests.compare(number, b"", (0, line % number), says(folder, "--check"))
    write(os.path.join(folder, "README.md"), "more\n", "a")
    wanted = 0, line % "2 commits and uncommitted changes"
    tests.compare("changes besides", b"", wanted, says(folder, "--check"))


def stand_in(program, tests):
    """All of it in one stand-in checkout."""
    if not is_built():
        raise Skipped("the program and the library for C aren't both built of the present sources")
    with tempfile.TemporaryDirectory() as folder:
        stand_in_checkout(folder, tests)
        toolchain = as_toolchain(folder)
        try:
            for part in (made, refused, changed, other_tools, behind):
                part(folder, tests)
        finally:
            os.environ["PATH"] = toolchain


def as_toolchain(folder):
    """Has a stand-in for the toolchain, of the version that the stand-in for CI noted, be the first
    in PATH. Answers PATH before."""
    path, kit = os.environ["PATH"], json.loads(bytes_of(os.path.join(folder, "out", "gate.json")))
    write(os.path.join(folder, "out", "rt"), "#!/bin/sh\necho '%s'\n" % kit["kit"])
    os.chmod(os.path.join(folder, "out", "rt"), 0o755)
    os.environ["PATH"] = os.path.join(folder, "out") + os.pathsep + path
    return path


def this_checkout(program, tests):
    """That of this checkout. What is said of it is printed."""
    if not os.path.exists(os.path.join(TOP, ".git")):
        raise Skipped("this is no clone: git can't tell the commit")
    if not is_built():
        raise Skipped("the program and the library for C aren't both built of the present sources")
    status, said = says(TOP, "--check")
    print("scripts/dist.py --check: " + said.rstrip("\n"))
    tests.compare("dist/ of this checkout", said.encode(), 0, status)


def check(program, tests):
    """Adds these tests to `tests`."""
    for part in (stand_in, this_checkout):
        try:
            part(program, tests)
        except Skipped as told:
            tests.skip("dist." + part.__name__, told)
