#!/usr/bin/env python3
"""Makes dist/, the release that the repository holds, or checks it.

Usage: dist.py [--check | --sources]

Without an argument it makes the files of dist/ anew by scripts/release.py, of the commit that CI
has just passed here; PROVED.json names that commit. Commit dist/ alone after that: its files are no
sources, so the release stays that of the checkout.

With --check it compares the files of dist/ with SHA256SUMS. Then, if the sources here are those of
dist/, it makes the release once more and compares it byte by byte. The commit, the closing line of
CI and its counts are taken from PROVED.json. One line says if the sources are others, with the
number of commits between, or if another toolchain, zlib, Python or dpkg-deb makes a release here.
The status is 0 in these cases and if there is no dist/, and 1 if a file differs.

With --sources it prints nothing; the status is 0 if the sources here are those of dist/."""
import hashlib
import os
import shutil
import subprocess
import sys
import tempfile

import gate_stamp
import release
from dist_program import DIST, SUMS, note, sums
from sources import digest


def make():
    """Makes the files of dist/. Answers their paths. Refused: see scripts/release.py."""
    release.refuse_changes()
    stamp = release.passed()
    with tempfile.TemporaryDirectory() as room:
        paths = release.make(room, stamp)
        shutil.rmtree(DIST, ignore_errors=True)
        os.makedirs(DIST)
        return [shutil.copy(path, DIST) for path in paths]


def faults_of_sums():
    """The files of dist/ that aren't as SHA256SUMS says."""
    there = set(os.listdir(DIST)) - {SUMS}
    wanted = sums() if os.path.exists(os.path.join(DIST, SUMS)) else {SUMS: None}
    for name in sorted(there | wanted.keys() | {"PROVED.json"}):
        if name not in there:
            yield "dist/%s is missing" % name
        elif name not in wanted:
            yield "dist/%s was added" % name
        elif digest(os.path.join(DIST, name)) != wanted[name]:
            yield "dist/%s differs from SHA256SUMS" % name


def is_of_these_sources(told):
    """Whether dist/ was made of the sources here, by what PROVED.json says; None says nothing."""
    if told is None:
        return False
    sources = gate_stamp.source_list().encode("utf-8", "surrogateescape")
    return told["sources"]["sha256"] == hashlib.sha256(sources).hexdigest()


def behind(told):
    """The line that says how far dist/ is behind the sources here."""
    try:
        count = int(release.git("rev-list", "--count", told["commit"] + "..HEAD"))
        number = "%d commit%s" % (count, "" if count == 1 else "s")
    except subprocess.CalledProcessError:
        number = "an unknown number of commits"
    changed = " and uncommitted changes" if release.git("status", "--porcelain") else ""
    return "dist/ (%s) is behind by %s%s" % (told["version"], number, changed)


def toolchain():
    """The toolchain here."""
    if shutil.which("rt") is None:
        return "none"
    done = subprocess.run(["rt", "version"], capture_output=True, text=True, check=True)
    return done.stdout.strip()


def other_tools(told):
    """What would make a release here and isn't what has made dist/: a line, or None."""
    here = dict(release.packed_by(), toolchain=toolchain())
    there = dict(told["packed by"], toolchain=told["kit"])
    other = ["%s %s" % (name, here[name]) for name in there if here[name] != there[name]]
    named = ["%s %s" % (name, there[name]) for name in there if here[name] != there[name]]
    if not other:
        return None
    return "dist/ was made by %s, not by %s: no bytes compared" % (
        ", ".join(named), ", ".join(other)
    )


def faults_of_bytes(told):
    """The files of dist/ that aren't those of a release that is made here."""
    stamp = dict(told["gate"], kit=told["kit"], commit=told["commit"])
    with tempfile.TemporaryDirectory() as room:
        made = {os.path.basename(path): digest(path) for path in release.make(room, stamp)}
    there = {name: digest(os.path.join(DIST, name)) for name in os.listdir(DIST)}
    for name in sorted(made.keys() | there.keys()):
        if made.get(name) != there.get(name):
            yield "dist/%s isn't the file that a release made here has" % name


def check():
    """The status and the lines of a check."""
    if not os.path.isdir(DIST):
        return 0, ["there is no dist/: scripts/dist.py makes it"]
    faults = list(faults_of_sums())
    if faults:
        return 1, faults
    told = note()
    if not is_of_these_sources(told):
        return 0, [behind(told)]
    other = other_tools(told)
    if other:
        return 0, [other]
    release.refuse_unbuilt()
    faults = list(faults_of_bytes(told))
    whole = "dist/ (%s) equals a release made here, byte by byte" % told["version"]
    return (1, faults) if faults else (0, [whole])


def main(words):
    if words not in ([], ["--check"], ["--sources"]):
        print(__doc__)
        return 2
    if words == ["--sources"]:
        return 0 if is_of_these_sources(note()) else 1
    try:
        status, lines = check() if words else (0, make())
    except release.Refused as why:
        status, lines = 1, ["dist: %s" % why]
    print("\n".join(lines))
    return status


if __name__ == "__main__":
    sys.exit(main(sys.argv[1:]))
