#!/usr/bin/env python3
"""What CI has passed: noted at its end, and read by scripts/release.py, which makes nothing
of other sources.

Usage:
    gate_stamp.py sources
        prints the checksum of all files of the repository but dist/ as they stand
    gate_stamp.py note CHECKSUM LOG LINE
        notes that CI has passed: the checksum at its beginning, the log of `rt ci`, and the
        line that it closes with. Nothing is noted, and the status is 1, where the files aren't
        those of the checksum any more."""
import glob
import hashlib
import json
import os
import re
import subprocess
import sys

from sources import TOP, digest, list_of
from targets import TARGETS

# The release that the repository holds, which is made of the other files.
RELEASE = "dist/"
STAMP = os.path.join(TOP, "out", "gate.json")
FUNCTION = re.compile(r"^(\s*)(?:pub(?:\(\w+\))? )?(?:const |unsafe |extern \"C\" )*fn \w+")


def files():
    """The files of the repository but those of the release that it holds, by their paths."""
    listed = subprocess.run(
        ["git", "ls-files", "-z"], cwd=TOP, capture_output=True, check=True
    ).stdout
    paths = [os.fsdecode(path) for path in listed.split(b"\0") if path]
    return sorted(path for path in paths if not path.startswith(RELEASE))


def source_list():
    """A line for each file of the repository: its SHA-256 and its path."""
    return list_of(files())


def checksum():
    """The SHA-256 of that list."""
    return hashlib.sha256(source_list().encode("utf-8", "surrogateescape")).hexdigest()


def has_body(lines):
    """Whether the function whose text begins with these lines has a body: one of a trait may have
    none."""
    indent = FUNCTION.match(lines[0])[1]
    for line in lines:
        if (
            line in (indent + "{", indent + "{}")
            or line.endswith(" {")
            or line == lines[0]
            and line.endswith("}")
        ):
            return True
        if line.endswith(";"):
            return False
    return False


def functions():
    """How many functions the crates have, but for those that are derived. None is built that isn't
    proved."""
    count = 0
    for path in glob.glob(os.path.join(TOP, "crates", "*", "src", "**", "*.rt"), recursive=True):
        with open(path, encoding="utf-8") as file:
            lines = file.read().splitlines()
        count += sum(
            1
            for place, line in enumerate(lines)
            if FUNCTION.match(line) and has_body(lines[place:])
        )
    return count


def crates():
    with open(os.path.join(TOP, "crates.txt"), encoding="utf-8") as file:
        return sum(1 for line in file if line.split("#")[0].strip())


def edits_refused(log):
    """How many must-fail edits `rt ci` says that the prover has refused."""
    with open(log, encoding="utf-8", errors="replace") as file:
        told = re.findall(r"must-fail edits: (\d+) refused", file.read())
    return int(told[-1]) if told else 0


def made():
    """The SHA-256 of each file that CI has built and tried."""
    paths = [
        os.path.join(target.folder, name) for target in TARGETS.values() for name in target.names
    ]
    return {os.path.basename(path): digest(path) for path in paths}


def note(log, line):
    """Writes the stamp."""
    stamp = {
        "sources": checksum(),
        "kit": subprocess.run(
            ["rt", "version"], capture_output=True, text=True, check=True
        ).stdout.strip(),
        "line": line,
        "crates": crates(),
        "edits": edits_refused(log),
        "functions": functions(),
        "made": made(),
    }
    os.makedirs(os.path.dirname(STAMP), exist_ok=True)
    with open(STAMP + ".new", "w", encoding="utf-8") as file:
        json.dump(stamp, file, indent=1)
    os.replace(STAMP + ".new", STAMP)


def read():
    """What is noted; None where nothing is."""
    try:
        with open(STAMP, encoding="utf-8") as file:
            return json.load(file)
    except (OSError, ValueError):
        return None


def main(words):
    if words == ["sources"]:
        print(checksum())
        return 0
    if len(words) != 4 or words[0] != "note":
        print(__doc__, file=sys.stderr)
        return 2
    if words[1] != checksum():
        print(
            "gate: files of the repository have changed since it began, so nothing is noted of it",
            file=sys.stderr,
        )
        return 1
    note(*words[2:])
    return 0


if __name__ == "__main__":
    sys.exit(main(sys.argv[1:]))
