"""The sources that a build is made of: which files they are, and their checksum."""
import hashlib
import os

TOP = os.path.dirname(os.path.dirname(os.path.abspath(__file__)))
# What a crate is proved and made of.
ENDINGS = (".rt", ".antt")
# Folders of a crate that its proof doesn't read.
LEFT_OUT = ("out", "must-fail")


def crates_below(*crates, top=TOP):
    """The repository's crates that some depend on, and these: the line of crates.txt of each."""
    lines, below = {}, {}
    with open(os.path.join(top, "crates.txt"), encoding="utf-8") as file:
        for line in file:
            name, colon, rest = line.split("#")[0].partition(":")
            if colon:
                lines[name.split()[0]], below[name.split()[0]] = line, rest.split()
    wanted, left = {}, list(crates)
    while left:
        name = left.pop()
        if name in lines and name not in wanted:
            wanted[name] = lines[name]
            left += below[name]
    return wanted


def files_of(crate, top=TOP):
    """The files of a crate that its proof reads, by their paths from the top."""
    for folder, inner, names in os.walk(os.path.join(top, "crates", crate)):
        inner[:] = [name for name in inner if name not in LEFT_OUT]
        for name in names:
            if name.endswith(ENDINGS):
                yield os.path.relpath(os.path.join(folder, name), top)


def digest(path):
    """The SHA-256 of a file, in hexadecimal digits."""
    with open(path, "rb") as file:
        return hashlib.sha256(file.read()).hexdigest()


def list_of(paths, top=TOP):
    """A line for each file: its SHA-256 and its path, as sha256sum writes them, in the order of the
    paths."""
    return "".join("%s  %s\n" % (digest(os.path.join(top, path)), path) for path in sorted(paths))


def checksum(paths, top=TOP):
    """One SHA-256 for the names and contents of all these files."""
    return hashlib.sha256(list_of(paths, top).encode("utf-8", "surrogateescape")).hexdigest()


def checksum_below(*crates, others=(), top=TOP):
    """That of crates with all that they depend on, and of other files besides."""
    crates = crates_below(*crates, top=top)
    paths = [path for name in crates for path in files_of(name, top)]
    lines = hashlib.sha256(
        "".join(crates[name] for name in sorted(crates)).encode("utf-8")
    ).hexdigest()
    return hashlib.sha256(
        (lines + checksum([*paths, "HANDLES", *others], top)).encode("ascii")
    ).hexdigest()
