"""Tests that a checkout answers at once: if dist/ is of the present sources, `./blossom`, the
Python package and its search for the library take what is in it, with or without the toolchain; if
not, or if BLOSSOM_BUILD is 1, the launcher builds. In small repositories with a stand-in for the
toolchain, as in tests/launcher.py, and once in a clone of this checkout."""
import hashlib
import io
import json
import os
import shutil
import subprocess
import sys
import tarfile
import tempfile

import launcher
from c_parts import Skipped
from made_release import STAMP, bytes_of, commit, is_built, script, stand_in_checkout, write

PROGRAM = b"#!/bin/sh\necho released\n"
SOURCES = "from targets import released_sources; print(released_sources())"
FIND = """import sys
sys.path.insert(0, 'python')
from blossom.library import find_library
from blossom.process import find_program
print(find_program(), find_library())
"""
LINE = "blossom: program and library are those of dist/ (1.2.3), which was made of these sources"
EXAMPLE = "examples/perfect-two-triangles.checked"


def put_dist(room, program=PROGRAM):
    """Puts a dist/ of the present sources into a small repository."""
    dist = os.path.join(room, "dist")
    os.makedirs(dist, exist_ok=True)
    told = subprocess.run(
        [sys.executable, "-c", SOURCES],
        cwd=os.path.join(room, "scripts"),
        capture_output=True,
        text=True,
        check=True,
    ).stdout.strip()
    packed = os.path.join(dist, "blossom-1.2.3-linux-x86_64.tar.gz")
    files = {"bin/blossom": program, "lib/libblossom.so.5": b"library"}
    with tarfile.open(packed, "w:gz") as archive:
        for path, content in files.items():
            entry = tarfile.TarInfo("blossom-1.2.3-linux-x86_64/" + path)
            entry.size = len(content)
            archive.addfile(entry, io.BytesIO(content))
    made = {"blossom": PROGRAM, "libblossom.so": b"library"}
    made = {name: hashlib.sha256(content).hexdigest() for name, content in made.items()}
    note = {"version": "1.2.3", "made of": told, "made": made}
    write(os.path.join(dist, "PROVED.json"), json.dumps(note))
    lines = [(os.path.join(dist, name), name) for name in sorted(os.listdir(dist))]
    lines = [
        "%s  %s\n" % (hashlib.sha256(bytes_of(path)).hexdigest(), name)
        for path, name in lines
        if name != "SHA256SUMS"
    ]
    write(os.path.join(dist, "SHA256SUMS"), "".join(lines))


def taken(tests):
    """The first call takes the program and says so; the next ones say nothing, and call no Python.
    It is the same if the toolchain is there."""
    for kit in (False, True):
        with tempfile.TemporaryDirectory() as room:
            launcher.repository(room)
            put_dist(room)
            status, output, said, built = launcher.call(room, kit)
            got = status, output, said.startswith(LINE), said.count("\n"), built
            tests.compare("a call over dist/", "", (0, "released\n", True, 1, []), got)
            launcher.pythons(room)
            wanted = (0, "released\n", "", []), 0
            got = launcher.call(room, kit), launcher.pythons(room)
            tests.compare("a second call over dist/", "", wanted, got)
            os.utime(os.path.join(room, "crates", "low", "src", "lib.rt"), (1, 1))
            wanted = 0, "released\n", "", []
            tests.compare("a source with another time", "", wanted, launcher.call(room, kit))


def built_instead(tests):
    """With BLOSSOM_BUILD=1 the program is built, and then it is the one that runs."""
    with tempfile.TemporaryDirectory() as room:
        launcher.repository(room)
        put_dist(room)
        os.environ["BLOSSOM_BUILD"] = "1"
        try:
            status, output, said, built = launcher.call(room)
            wanted = 0, "made\n", True, True
            got = status, output, "build blossom" in built, "20 minutes" in said.splitlines()[0]
            tests.compare("BLOSSOM_BUILD=1", "", wanted, got)
        finally:
            del os.environ["BLOSSOM_BUILD"]
        wanted = 0, "made\n", "", []
        tests.compare("what is built goes before dist/", "", wanted, launcher.call(room))
        os.utime(os.path.join(room, "crates", "low", "src", "lib.rt"), (1, 1))
        tests.compare("and so if times are others", "", wanted, launcher.call(room))


def built_of_others(tests):
    """A program that was built of other sources doesn't keep dist/ from being taken."""
    with tempfile.TemporaryDirectory() as room:
        launcher.repository(room)
        launcher.call(room)
        launcher.change(room, "low")
        put_dist(room)
        wanted = 0, "released\n", []
        status, output, _, built = launcher.call(room)
        tests.compare("dist/ beside an older build", "", wanted, (status, output, built))


def other_sources(tests):
    """A release of other sources isn't taken, also if it was before."""
    for path, text in (
        ("crates/low/src/lib.rt", "// more"),
        ("crates.txt", launcher.CRATES.replace("left:", "left: right")),
        ("HANDLES", "more"),
        ("VERSION", "1.2.4"),
    ):
        with tempfile.TemporaryDirectory() as room:
            launcher.repository(room)
            put_dist(room)
            launcher.call(room)
            write(os.path.join(room, path), text)
            status, output, said, _ = launcher.call(room, kit=False)
            wanted = 69, "", 1
            got = status, output, said.count("\n")
            tests.compare("dist/ after a change of " + path, said, wanted, got)
    with tempfile.TemporaryDirectory() as room:
        launcher.repository(room)
        put_dist(room)
        launcher.change(room, "other")
        wanted = 0, "released\n"
        got = launcher.call(room, kit=False)[:2]
        tests.compare("a change of what the program doesn't depend on", "", wanted, got)


def damaged(tests):
    """A tarball that isn't the one of SHA256SUMS, and a program that isn't the one of PROVED.json,
    aren't taken."""
    with tempfile.TemporaryDirectory() as room:
        launcher.repository(room)
        put_dist(room, b"#!/bin/sh\necho another\n")
        status, output, said, _ = launcher.call(room, kit=False)
        got = status, output, "its blossom isn't the file that PROVED.json names" in said
        tests.compare("another program in dist/", said, (69, "", True), got)
        write(os.path.join(room, "dist", "blossom-1.2.3-linux-x86_64.tar.gz"), "more", "a")
        status, output, said, _ = launcher.call(room, kit=False)
        got = status, output, "its tarball isn't the file that SHA256SUMS lists" in said
        tests.compare("another tarball in dist/", said, (69, "", True), got)
        write(os.path.join(room, "dist", "PROVED.json"), "more", "a")
        status, output, said, _ = launcher.call(room, kit=False)
        got = status, output, "dist/ can't be used: " in said
        tests.compare("another PROVED.json in dist/", said, (69, "", True), got)


def package(tests):
    """The Python package of a checkout finds program and library of dist/, says so once, and builds
    if it shall."""
    with tempfile.TemporaryDirectory() as room:
        launcher.repository(room)
        put_dist(room)
        shutil.copytree(os.path.join(launcher.TOP, "python"), os.path.join(room, "python"))
        environment = dict(os.environ, PYTHONDONTWRITEBYTECODE="1")
        for name in ("BLOSSOM", "BLOSSOM_LIBRARY", "PYTHONPATH"):
            environment.pop(name, None)

        def found(**more):
            words = [sys.executable, "-c", FIND]
            done = subprocess.run(
                words, cwd=room, capture_output=True, text=True, env={**environment, **more}
            )
            return done.returncode, done.stdout, done.stderr

        folder = os.path.join(room, "out", "dist")
        released = [os.path.join(folder, name) for name in ("blossom", "libblossom.so")]
        status, output, said = found()
        wanted = 0, " ".join(released) + "\n", True, 1
        got = status, output, said.startswith(LINE), said.count("\n")
        tests.compare("the package over dist/", said, wanted, got)
        wanted = 0, " ".join(released) + "\n", ""
        tests.compare("the package in the next process", "", wanted, found())
        status, output, said = found(BLOSSOM_BUILD="1")
        tests.compare("the package, BLOSSOM_BUILD=1", said, (1, True), (status, "build it" in said))
        write(os.path.join(room, "HANDLES"), "more")
        status, output, said = found()
        tests.compare("the package, other sources", said, (1, True), (status, "build it" in said))


def clone(tests):
    """A clone of this checkout with a dist/ answers within a second: of a processor, since other
    work may keep the machine busy."""
    if not is_built():
        raise Skipped("the program and the library for C aren't both built of the present sources")
    with tempfile.TemporaryDirectory() as folder:
        top, fresh = os.path.join(folder, "top"), os.path.join(folder, "fresh")
        os.mkdir(top)
        stand_in_checkout(top, tests)
        os.mkdir(os.path.join(top, "dist"))
        script("release").make(os.path.join(top, "dist"), STAMP)
        commit(top)
        subprocess.run(["git", "clone", "-q", top, fresh], check=True)
        words, given = [os.path.join(fresh, "blossom"), "check", "perfect"], bytes_of(
            os.path.join(launcher.TOP, EXAMPLE)
        )
        times = []
        for turn in range(3):
            shutil.rmtree(os.path.join(fresh, "out"), ignore_errors=True)
            start = os.times()
            done = subprocess.run(words, input=given, capture_output=True)
            end = os.times()
            used = end.children_user - start.children_user
            times.append(used + end.children_system - start.children_system)
            got = done.returncode, done.stdout, done.stderr.count(b"\n")
            tests.compare("a clone answers", given, (0, b"s ACCEPTED\n", 1), got)
        name = "a clone answers within a second (%.2f s)" % min(times)
        tests.compare(name, "", True, min(times) < 1)


def check(tests):
    """All of it, as a part of the whole run of tests."""
    for part in (taken, built_instead, built_of_others, other_sources, damaged, package, clone):
        try:
            part(tests)
        except Skipped as told:
            tests.skip("dist_program." + part.__name__, told)
