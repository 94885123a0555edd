#!/usr/bin/env python3
"""Takes the program and the shared library of dist/, so that a checkout answers at once.

Usage: dist_program.py

If the sources here (the crates of program and library, crates.txt, HANDLES, VERSION) are by their
checksum those that dist/ was made of, its program and its shared library are unpacked to out/dist,
and one line on standard error says so. The status is 0 then. It is 1 if there is no dist/, if it is
of other sources, or if the program is built of the present ones, and 2 if dist/ is damaged or
out/dist can't be written; then a line says why."""
import hashlib
import io
import json
import os
import sys
import tarfile

from sources import TOP, digest
from targets import SONAME, TARGETS, look, released_sources

DIST = os.path.join(TOP, "dist")
SUMS = "SHA256SUMS"
FOLDER = os.path.join(TOP, "out", "dist")
# The files that are taken: each with its place in the tarball.
FILES = {"blossom": "bin/blossom", "libblossom.so": "lib/" + SONAME}


class Damaged(Exception):
    """A file of dist/ isn't what PROVED.json or SHA256SUMS says."""


def note():
    """What PROVED.json of dist/ says; None if there is no dist/."""
    try:
        with open(os.path.join(DIST, "PROVED.json"), encoding="utf-8") as file:
            return json.load(file)
    except FileNotFoundError:
        return None


def sums():
    """The files that SHA256SUMS of dist/ lists, each with its checksum."""
    with open(os.path.join(DIST, SUMS), encoding="ascii") as file:
        return {line[66:].rstrip("\n"): line[:64] for line in file}


def tarball():
    """The bytes of the tarball. Damaged: it isn't the file that SHA256SUMS lists."""
    for name, told in sums().items():
        if name.endswith(".tar.gz"):
            with open(os.path.join(DIST, name), "rb") as file:
                content = file.read()
            if hashlib.sha256(content).hexdigest() == told:
                return content
    raise Damaged("its tarball isn't the file that SHA256SUMS lists")


def unpacked(told, folder=FOLDER):
    """Puts the files into a folder, each in one step. Damaged: see `Damaged`."""
    os.makedirs(folder, exist_ok=True)
    with tarfile.open(fileobj=io.BytesIO(tarball())) as archive:
        top = archive.getnames()[0].split("/")[0]
        for name, place in FILES.items():
            path = os.path.join(folder, name)
            fresh = "%s.%d" % (path, os.getpid())
            with open(fresh, "wb") as file:
                file.write(archive.extractfile("%s/%s" % (top, place)).read())
            if digest(fresh) != told["made"][name]:
                os.remove(fresh)
                raise Damaged("its %s isn't the file that PROVED.json names" % name)
            os.chmod(fresh, 0o755)
            os.replace(fresh, path)


def noted(seen):
    """Notes what the sources look like, which spares the next call the checksum."""
    fresh = os.path.join(FOLDER, "blossom.look.%d" % os.getpid())
    with open(fresh, "wb") as file:
        file.write(seen)
    os.replace(fresh, os.path.join(FOLDER, "blossom.look"))


def is_unpacked(told):
    """Whether the files are there already: then the sources have other times, and no more."""
    paths = {name: os.path.join(FOLDER, name) for name in FILES}
    return all(
        os.path.exists(path) and digest(path) == told["made"][name]
        for name, path in paths.items()
    )


def is_built():
    """Whether the program is built of the present sources."""
    program = TARGETS["program"]
    return os.path.exists(program.stamp) and program.is_built(program.sources())


def main(words):
    if words:
        print(__doc__)
        return 2
    try:
        told, seen = note(), look()
        if told is None or told.get("made of") != released_sources() or is_built():
            return 1
        if not is_unpacked(told):
            unpacked(told)
            line = "blossom: program and library are those of dist/ (%s), which was made of these"
            line += " sources; BLOSSOM_BUILD=1 builds them instead"
            print(line % told["version"], file=sys.stderr)
        noted(seen)
    except (Damaged, OSError, ValueError, tarfile.TarError, KeyError) as why:
        print("blossom: dist/ can't be used: %s" % why, file=sys.stderr)
        return 2
    return 0


if __name__ == "__main__":
    sys.exit(main(sys.argv[1:]))
