#!/usr/bin/env python3
"""What a run of the gate costs: processor seconds of each crate's own proof, of its tests and of
its must-fail edits.

Usage: gate.py [COMMAND ..] (without words: .ci/run). Runs the command at the top of the repository,
and watches the processes that come from it. A row a crate goes to standard output when it has
ended, then the whole, which is the operating system's count of all that the command started; what
was too short to be seen stands in the row `other`. It ends with the command's status.

The gate keeps on a machine what it has passed. For a cold run, where nothing is kept, move the
folder that it keeps it in away first (docs/PERFORMANCE.md)."""
import collections
import os
import resource
import subprocess
import sys
import threading
import time

TOP = os.path.dirname(os.path.dirname(os.path.abspath(__file__)))
TICKS = os.sysconf("SC_CLK_TCK")
PARTS = ("proof", "tests", "edits")
PAUSE = 0.1


def processes():
    """The processes that run now: number, parent, start, and processor seconds of their own."""
    for name in os.listdir("/proc"):
        if not name.isdigit():
            continue
        try:
            with open("/proc/%s/stat" % name, encoding="latin-1") as file:
                fields = file.read().rpartition(")")[2].split()
        except OSError:
            continue
        yield int(name), int(fields[1]), fields[19], (int(fields[11]) + int(fields[12])) / TICKS


def place_of(number):
    """The crate that a process of the prover works on and in which part of the gate, or None."""
    try:
        with open("/proc/%d/cmdline" % number, "rb") as file:
            words = [word.decode(errors="replace") for word in file.read().split(b"\0")]
        folder = os.readlink("/proc/%d/cwd" % number)
    except OSError:
        return None
    if "--crate-name" not in words:
        return None
    crate = words[words.index("--crate-name") + 1]
    if os.path.basename(folder).startswith("rt-edit"):
        return crate, "edits"
    return crate, "tests" if "--test" in words else "proof"


class Watch(threading.Thread):
    """Looks at all processes below this one again and again, and keeps what each had used when
    it was last seen."""

    def __init__(self):
        super().__init__(daemon=True)
        self.ended = threading.Event()
        self.seconds, self.places = {}, {}

    def look(self):
        below = {os.getpid()}
        seen = sorted(processes())
        grown = True
        while grown:
            more = {number for number, parent, _, _ in seen if parent in below} - below
            below |= more
            grown = bool(more)
        for number, _, start, seconds in seen:
            if number in below:
                key = number, start
                self.seconds[key] = seconds
                if key not in self.places or self.places[key] is None:
                    self.places[key] = place_of(number)

    def run(self):
        while not self.ended.wait(PAUSE):
            self.look()


def main():
    command = sys.argv[1:] or [".ci/run"]
    watch, start = Watch(), time.monotonic()
    watch.start()
    status = subprocess.run(command, cwd=TOP).returncode
    wall = time.monotonic() - start
    watch.ended.set()
    watch.join()
    used = resource.getrusage(resource.RUSAGE_CHILDREN)
    whole = used.ru_utime + used.ru_stime
    rows = collections.defaultdict(lambda: dict.fromkeys(PARTS, 0.0))
    for key, place in watch.places.items():
        if place:
            rows[place[0]][place[1]] += watch.seconds[key]
    print("\n| Crate | Proof | Tests | Edits | Whole |\n|---|---|---|---|---|")
    for name, parts in sorted(rows.items(), key=lambda row: -sum(row[1].values())):
        print(
            "| `%s` | %s | %d |"
            % (name, " | ".join("%d" % parts[it] for it in PARTS), sum(parts.values()))
        )
    sums = [sum(parts[it] for parts in rows.values()) for it in PARTS]
    print("| other | | | | %d |" % (whole - sum(sums)))
    print("| all | %s | %d |" % (" | ".join("%d" % it for it in sums), whole))
    print(
        "\n%.1f processor minutes, %.1f minutes on the wall, status %d"
        % (whole / 60, wall / 60, status)
    )
    return status


if __name__ == "__main__":
    sys.exit(main())
