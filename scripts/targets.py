"""What is built here: the program and the library for C; where they stand, and of which sources."""
import contextlib
import os
import shutil
import subprocess

from sources import TOP, checksum_below

# The shared object's name for the programs that are linked to it, with the version of its calls.
SONAME = "libblossom.so.5"
# What lists the sources with their sizes and times, as ./blossom does.
LOOK = "find crates.txt HANDLES VERSION crates ( -name out -o -name must-fail ) -prune -o".split()
LOOK += "-type f ( -name *.rt -o -name *.antt -o -name crates.txt -o -name HANDLES".split()
LOOK += ["-o", "-name", "VERSION", ")", "-printf", "%p %s %T@ %C@\\n"]


def look():
    """What the sources look like: their names, sizes and times."""
    return subprocess.run(LOOK, cwd=TOP, stdout=subprocess.PIPE).stdout


def released_sources():
    """The checksum of what program and library are made of, with the number of the release."""
    crates = [target.crate for target in TARGETS.values()]
    return checksum_below(*crates, others=["VERSION"])


class Target:
    """What is built: of which crate, which files it is, and where they stand. others: what it is
    made by, beside the sources of crates. copies: other names under which its files stand too."""

    def __init__(self, crate, folder, names, others=(), copies=()):
        self.crate, self.names, self.others, self.copies = crate, names, others, copies
        self.folder = os.path.join(TOP, folder)
        self.stamp = os.path.join(self.folder, "blossom.sources")
        self.noted = os.path.join(self.folder, "blossom.look")
        self.logs = os.path.join(TOP, "crates", crate, "out")

    def sources(self):
        """The checksum of its sources."""
        return checksum_below(self.crate, others=self.others)

    def note(self, seen):
        """Notes what the sources look like, where that can be noted: it spares a checksum."""
        with contextlib.suppress(OSError), open(self.noted, "wb") as file:
            file.write(seen)

    def is_built(self, sources):
        """Whether all of it stands there, and is of these sources."""
        try:
            with open(self.stamp, encoding="ascii") as file:
                return file.read().strip() == sources and all(
                    os.path.exists(os.path.join(self.folder, name)) for name in self.names
                )
        except OSError:
            return False

    def take_away(self):
        """Takes all of it away, the stamp last."""
        copies = [copy for copy, _ in self.copies]
        for path in [os.path.join(self.folder, name) for name in [*copies, *self.names]]:
            with contextlib.suppress(FileNotFoundError):
                os.remove(path)
        for path in (self.noted, self.stamp):
            with contextlib.suppress(FileNotFoundError):
                os.remove(path)

    def put(self, made, sources):
        """Puts files into their places: first what was there goes, then the stamp comes, then they
        do. So whenever this ends, nothing stands there under a stamp of other sources."""
        fresh = [os.path.join(self.folder, name + ".new") for name in self.names]
        for source, path in zip(made, fresh):
            shutil.copy(source, path)
        with open(self.stamp + ".new", "w", encoding="ascii") as file:
            file.write(sources + "\n")
        self.take_away()
        os.replace(self.stamp + ".new", self.stamp)
        for path, name in zip(fresh, self.names):
            os.replace(path, os.path.join(self.folder, name))
        # (no symbolic links: `rt ci` refuses a checkout that has one)
        for copy, name in self.copies:
            shutil.copy(os.path.join(self.folder, name), os.path.join(self.folder, copy))


TARGETS = {
    "program": Target("blossom", "crates/blossom/out", ("blossom",)),
    "library": Target(
        "blossom_c",
        "capi/out",
        ("libblossom.a", "libblossom.so"),
        (
            "scripts/build.py",
            "scripts/compiling.py",
            "scripts/link_library.py",
            "scripts/sources.py",
            "scripts/targets.py",
        ),
        ((SONAME, "libblossom.so"),),
    ),
}
