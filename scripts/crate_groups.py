"""The groups of crates.txt, and the sources of each crate: for the pages that are made of them."""
import glob
import os
import re

TOP = os.path.join(os.path.dirname(os.path.abspath(__file__)), "..")


def read(path):
    with open(os.path.join(TOP, path), encoding="utf-8") as file:
        return file.read()


def groups():
    """The groups of crates.txt: a name, what it has, and its crates with their dependencies."""
    found = []
    for line in read("crates.txt").splitlines():
        head = re.match(r"# (\w+): (.*)", line)
        if head:
            found.append((head[1], head[2], []))
        elif line.strip() and not line.startswith("#"):
            name, _, below = line.split("#")[0].partition(":")
            found[-1][2].append((name.split()[0], below.split()))
    return found


def crates():
    """The names of all crates, lowest first."""
    return [name for _, _, members in groups() for name, _ in members]


def sources(crate):
    """The paths of a crate's sources below the top, by name."""
    found = glob.glob(os.path.join(TOP, "crates", crate, "src", "**", "*.rt"), recursive=True)
    return sorted(os.path.relpath(path, TOP) for path in found)
