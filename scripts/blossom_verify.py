#!python
"""Compares an installed release of blossom, or a checkout, with the checksums it came with.

Usage: blossom-verify [CHECKOUT]

Lists each file of the installed wheel, tarball or Debian package that differs from PROVED.json, is
missing, or was added to a folder of the release. With CHECKOUT it compares the sources in that
folder with those that the release was made of. The status is 0 if all are equal, 1 if one isn't, 2
if no release is installed here or the arguments are invalid.

A checksum shows that the files are those that PROVED.json names. It shows nothing of who made
PROVED.json: releases have no signature, so get SHA256SUMS from where you trust it."""
import hashlib
import importlib.util
import json
import os
import sys

HERE = os.path.dirname(os.path.realpath(__file__))
NOTE = "PROVED.json"
ENDINGS = (".rt", ".antt")
# Folders without sources or files of a release: what builds and Python leave.
LEFT_OUT = ("out", "__pycache__", ".git")


def homes():
    """The folders that may hold the note, with the kind of release: an installed tarball or Debian
    package, and the Python package of a wheel."""
    prefix = os.path.dirname(HERE)
    kind = "deb" if os.path.exists("/var/lib/dpkg/info/blossom.list") and prefix == "/usr" else None
    yield kind or "tarball", os.path.join(prefix, "share", "blossom")
    found = importlib.util.find_spec("blossom")
    if found is not None and found.origin:
        yield "wheel", os.path.join(os.path.dirname(found.origin), "release")


def digest(path):
    """The SHA-256 of a file. The first line of a script counts only if it isn't an interpreter's,
    which installers write anew."""
    with open(path, "rb") as file:
        content = file.read()
    if os.path.basename(path).startswith("blossom-") and content.startswith(b"#!"):
        content = content.partition(b"\n")[2]
    return hashlib.sha256(content).hexdigest()


def places(kind, home):
    """Where the parts of a release are: the beginning of a path in the note, and the folder that
    stands for it, the longest beginning first."""
    if kind != "wheel":
        return [("", os.path.dirname(os.path.dirname(home)) if kind == "tarball" else "/")]
    site = os.path.dirname(os.path.dirname(home))
    return [("scripts/", HERE), ("data/", os.path.dirname(HERE)), ("", site)]


def place_of(path, where):
    """The installed file of a path in the note."""
    begin, folder = next(pair for pair in where if path.startswith(pair[0]))
    return os.path.join(folder, path[len(begin) :])


def owned(kind, home):
    """The folders that hold files of the release alone."""
    if kind == "wheel":
        return [os.path.dirname(home), os.path.join(os.path.dirname(HERE), "share/doc/blossom")]
    share = os.path.dirname(home)
    lib, pages = os.path.join(os.path.dirname(share), "lib"), os.path.join(share, "doc/blossom")
    if kind == "tarball":
        return [home, pages, os.path.join(lib, "cmake", "blossom")]
    return [home, pages, os.path.join(lib, "python3", "dist-packages", "blossom")]


def files_below(folder):
    for at, inner, names in os.walk(folder):
        inner[:] = [name for name in inner if name not in LEFT_OUT]
        yield from (os.path.join(at, name) for name in names)


def faults_of_files(kind, home, note):
    """What isn't as the note says of what is installed."""
    where = places(kind, home)
    listed_files = note["files"][kind].items()
    wanted = {os.path.realpath(place_of(path, where)): told for path, told in listed_files}
    for path, told in sorted(wanted.items()):
        if not os.path.isfile(path):
            yield "%s is missing" % path
        elif digest(path) != told:
            yield "%s differs" % path
    for folder in owned(kind, home):
        for path in sorted(files_below(folder)):
            if os.path.realpath(path) not in wanted and os.path.basename(path) != NOTE:
                yield "%s was added" % path


def listed(home):
    """The sources of the release: their checksums by their paths."""
    path = os.path.join(home, "SOURCES.sha256")
    with open(path, encoding="utf-8", errors="surrogateescape") as file:
        return {line[66:].rstrip("\n"): line[:64] for line in file}


def faults_of_sources(home, note, checkout):
    """What isn't as the note says in a checkout."""
    with open(os.path.join(home, "SOURCES.sha256"), "rb") as file:
        if hashlib.sha256(file.read()).hexdigest() != note["sources"]["sha256"]:
            yield "SOURCES.sha256 differs"
    sources = listed(home)
    for path, wanted in sources.items():
        whole = os.path.join(checkout, path)
        if not os.path.isfile(whole):
            yield "%s is missing" % path
        else:
            with open(whole, "rb") as file:
                if hashlib.sha256(file.read()).hexdigest() != wanted:
                    yield "%s differs" % path
    for path in sorted(files_below(os.path.join(checkout, "crates"))):
        path = os.path.relpath(path, checkout)
        if path.endswith(ENDINGS) and path not in sources:
            yield "%s was added" % path


def compared(words):
    """The status and the lines for these arguments."""
    if words in (["-h"], ["--help"]):
        return 0, [__doc__]
    if len(words) > 1:
        return 2, [__doc__]
    found = [(kind, home) for kind, home in homes() if os.path.isfile(os.path.join(home, NOTE))]
    if not found:
        return 2, ["no release is installed here: PROVED.json not found"]
    if words and not os.path.isdir(words[0]):
        return 2, ["not a checkout: no folder %s" % words[0]]
    kind, home = found[0]
    with open(os.path.join(home, NOTE), encoding="utf-8") as file:
        note = json.load(file)
    faults = list(faults_of_files(kind, home, note))
    if words:
        faults += faults_of_sources(home, note, words[0])
    if faults:
        return 1, faults
    sources = " and %d sources" % note["sources"]["files"] if words else ""
    told = len(note["files"][kind]), sources, note["version"], note["gate"]["line"]
    return 0, ["%d files%s are those of blossom %s; its CI ended with: %s" % told]


def main(words):
    status, lines = compared(words)
    try:
        print("\n".join(lines), flush=True)
    except BrokenPipeError:
        os.dup2(os.open(os.devnull, os.O_WRONLY), sys.stdout.fileno())
    return status


if __name__ == "__main__":
    sys.exit(main(sys.argv[1:]))
