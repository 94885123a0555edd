#!/usr/bin/env python3
"""Builds the program or the library for C: the crates that it depends on and no others, each proved
first.

Usage: build.py program|library [--after-gate | --is-built] [--for PROCESS]

Nothing is done where what stands there is of the present sources. Else the sources of the crates
below the target are copied to a folder of their own, without their must-fail edits, and `rt ci` is
run there. It proves each crate once, as many side by side as there are processors. A crate is
proved over the statements of those below it, as in CI, which takes less time than over their
proofs. Some versions of the toolchain keep what `rt ci` has proved: then a build that was
interrupted continues where it was, and one after CI has little left to prove. The target's own crate is proved last, by the compiler that compiles it over
what this leaves, and linked.

--after-gate: `rt ci` has just passed here, and what it left in crates/*/out is taken. --is-built:
builds nothing; the status is 0 where what stands there is of the present sources, and then it is
noted how these look. --for: the process that wants this; where it has gone, the build ends.

A line a crate goes to standard error, with its number and the time so far. The status is 0; that of
`rt ci`, whose last lines are printed then; 69 if there is no Rattle toolchain; or 128 and the
number of the signal that ended it. A build that is ended takes its proofs along and leaves nothing but what
is kept."""
import argparse
import contextlib
import fcntl
import glob
import os
import re
import shutil
import signal
import subprocess
import sys
import tempfile
import time

import link_library
import link_program
from compiling import die_with_parent
from sources import TOP, crates_below
from targets import TARGETS, look

# What a crate is copied of.
PARTS = ("src", "specs", "proofs")
# How `rt ci` says that a crate is proved, now or by an earlier run.
PROVED = re.compile(r"rt: (\w+) (?:proved$|is kept: )")
# The crate that is a static library.
LIBRARY = "blossom_c"
LAST_LINES = 30
# The seconds that `rt ci` has to end.
PATIENCE = 30
NO_KIT = 69
WITHOUT_KIT = (
    "%s: building needs the Rattle toolchain: the command rt is not in PATH; "
    'install a release instead, see "Install" in README.md'
)
SIGNALS = (signal.SIGINT, signal.SIGTERM, signal.SIGHUP)


class Stopped(BaseException):
    """A signal has told the build to end."""


def on_signal(number, frame):
    for each in SIGNALS:
        signal.signal(each, signal.SIG_IGN)
    raise Stopped(number)


@contextlib.contextmanager
def running(words, folder):
    """A process in a folder, whose output is read; it is ended however it is left. If interrupted,
    `rt ci` waits for its proofs; one that is told to end takes them along."""
    process = subprocess.Popen(
        words,
        cwd=folder,
        stdin=subprocess.DEVNULL,
        stdout=subprocess.PIPE,
        stderr=subprocess.STDOUT,
        text=True,
        errors="replace",
        preexec_fn=die_with_parent,
    )
    try:
        yield process
    finally:
        process.terminate()
        with contextlib.suppress(subprocess.TimeoutExpired):
            process.wait(PATIENCE)
        process.kill()


def proved_by_rt(target):
    """The crates that `rt ci` proves for a target. Its own is proved by the compiler that makes it,
    which makes none of what isn't proved; `rt ci` would do it a second time, and makes no archive
    of a static library."""
    crates = crates_below(target.crate)
    del crates[target.crate]
    return crates


def copy_sources(folder, crate):
    """Copies the sources of a crate to its place in a folder."""
    for part in PARTS:
        source, target = (os.path.join(top, "crates", crate, part) for top in (TOP, folder))
        if os.path.isdir(source):
            shutil.copytree(source, target)


def lay_out(folder, crates):
    """Makes the folder a repository of these crates; what `rt ci` sets aside it so puts there too,
    and nothing is left of it where it is ended."""
    os.mkdir(os.path.join(folder, ".git"))
    for crate in crates:
        copy_sources(folder, crate)
    with open(os.path.join(folder, "crates.txt"), "w", encoding="utf-8") as file:
        file.writelines(crates.values())
    shutil.copy(os.path.join(TOP, "HANDLES"), folder)


def minutes(seconds):
    return "%d s" % seconds if seconds < 60 else "%d min %d s" % divmod(int(seconds), 60)


class Progress:
    """Says each crate that is proved, with its number and the time so far."""

    def __init__(self, name, crates):
        self.name, self.crates, self.done = name, crates, 0
        self.start = time.monotonic()

    def read(self, line):
        """Says what a line of `rt ci` tells."""
        proved = PROVED.match(line)
        if proved:
            self.say(proved[1])

    def say(self, crate):
        """Says that a crate is proved."""
        self.done += 1
        took = minutes(time.monotonic() - self.start)
        told = (self.name, self.done, len(self.crates), crate, took)
        print("%s: %d of %d: %s, %s" % told, file=sys.stderr)


class Build:
    """A build of a target."""

    def __init__(self, target):
        self.target, self.crates = target, proved_by_rt(target)
        self.log = os.path.join(target.logs, "build.log")

    def prove(self, folder, progress):
        """Proves the crates below the target in a folder. Answers the status."""
        lay_out(folder, self.crates)
        with open(self.log, "w", encoding="utf-8") as file:
            with running(["rt", "ci"], folder) as process:
                for line in process.stdout:
                    file.write(line)
                    progress.read(line)
                return process.wait()

    def run(self, finish):
        """Proves the crates below the target; `finish` takes what is wanted from the folder where
        they are. Answers the status."""
        crate = self.target.crate
        progress = Progress(crate, crates_below(crate))
        folder = tempfile.mkdtemp(prefix="%s-build-" % crate)
        try:
            status = self.prove(folder, progress)
            if not status:
                finish(folder)
                progress.say(crate)
            return status
        finally:
            shutil.rmtree(folder, ignore_errors=True)

    def report(self, status):
        """Shows the end of what `rt ci` said."""
        with open(self.log, encoding="utf-8", errors="replace") as log:
            lines = log.read().splitlines()
        print("\n".join(lines[-LAST_LINES:]), file=sys.stderr)
        print(
            "%s: the build failed with status %d; its whole log is %s"
            % (self.target.crate, status, self.log),
            file=sys.stderr,
        )


def take(target, folder, sources):
    """Makes the target in a repository whose crates below it `rt ci` has just proved, and takes it.
    CI has made the program too."""
    if folder == TOP and target.crate != LIBRARY:
        target.put([os.path.join(target.folder, "blossom")], sources)
        return
    if folder != TOP:
        copy_sources(folder, target.crate)
    make = link_library.libraries if target.crate == LIBRARY else link_program.programs
    with tempfile.TemporaryDirectory(prefix="%s-link-" % target.crate) as room:
        target.put(make(folder, proved_by_rt(target), room), sources)


def left_by_gate(target):
    """Whether `rt ci` has left here what the target is made of. Where other commands had left
    libraries, which they stamp, it has put these back in place of its own."""
    if target.crate != LIBRARY:
        return os.path.exists(os.path.join(target.folder, "blossom"))
    places = [os.path.join(TOP, "crates", name, "out", "rlib") for name in proved_by_rt(target)]
    are_there = all(glob.glob(os.path.join(place, "*.rlib")) for place in places)
    return are_there and not any(os.path.exists(os.path.join(place, "stamp")) for place in places)


def build(target, after_gate, sources):
    """Builds the target of these sources. Answers the status."""
    if after_gate and left_by_gate(target):
        take(target, TOP, sources)
        return 0
    if shutil.which("rt") is None:
        print(WITHOUT_KIT % target.crate, file=sys.stderr)
        return NO_KIT
    print(
        "%s: building from the sources: each crate is proved first, which takes some 20 minutes"
        " on four processors, and less if the toolchain has kept some" % target.crate,
        file=sys.stderr,
    )
    target.take_away()
    building = Build(target)
    try:
        status = building.run(lambda folder: take(target, folder, sources))
    except subprocess.CalledProcessError as told:
        print("%s: %s" % (target.crate, told), file=sys.stderr)
        return told.returncode
    if status:
        building.report(status)
    return status


@contextlib.contextmanager
def in_turn(target):
    """Lets one build of a target run at a time."""
    os.makedirs(target.folder, exist_ok=True)
    os.makedirs(target.logs, exist_ok=True)
    with open(os.path.join(target.folder, "build.lock"), "w", encoding="ascii") as lock:
        fcntl.flock(lock, fcntl.LOCK_EX)
        yield


def noted_if_built(target):
    """Whether what stands there is of the present sources, as a status. If so it is noted how they
    look, unless the folder can't be written."""
    seen = look()
    if not target.is_built(target.sources()):
        return 1
    target.note(seen)
    return 0


def words():
    parser = argparse.ArgumentParser(
        description=__doc__, formatter_class=argparse.RawDescriptionHelpFormatter
    )
    parser.add_argument("target", choices=list(TARGETS))
    how = parser.add_mutually_exclusive_group()
    how.add_argument("--after-gate", action="store_true")
    how.add_argument("--is-built", action="store_true")
    parser.add_argument("--for", dest="parent", type=int)
    return parser.parse_args()


def main():
    said = words()
    target = TARGETS[said.target]
    for number in SIGNALS:
        signal.signal(number, on_signal)
    try:
        if said.parent is not None:
            die_with_parent()
            if os.getppid() != said.parent:
                return 128 + signal.SIGTERM
        if said.is_built:
            return noted_if_built(target)
        with in_turn(target):
            seen = look()
            sources = target.sources()
            status = 0 if target.is_built(sources) else build(target, said.after_gate, sources)
            if not status:
                target.note(seen)
            return status
    except Stopped as told:
        return 128 + told.args[0]


if __name__ == "__main__":
    sys.exit(main())
