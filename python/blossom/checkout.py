"""Where this package lies: in a checkout of the repository, installed from one, or installed from a
release, which brings the program along."""
from __future__ import annotations

import contextlib
import csv
import functools
import os
import subprocess
import sys
from typing import Iterator, Optional, Tuple

HERE = os.path.dirname(os.path.abspath(__file__))
#: The folder of a release: the shared object, and what was proved of it and of the program.
RELEASE = os.path.join(HERE, "release")


@functools.lru_cache(maxsize=None)
def checkout() -> Optional[str]:
    """The folder of the repository that this package lies in, or that it was installed from; None
    where that isn't there (any more)."""
    try:
        from .installed_from import CHECKOUT as top  # written by the build, where the package is installed
    except ImportError:
        top = os.path.dirname(os.path.dirname(HERE))
    is_checkout = top is not None and os.path.isfile(os.path.join(top, "blossom")) and os.path.isdir(os.path.join(top, "crates"))
    return top if is_checkout else None


def version() -> str:
    """The number of the release that this package is, or of the checkout."""
    try:
        from .installed_from import VERSION
        return str(VERSION)
    except ImportError:
        with open(os.path.join(os.path.dirname(os.path.dirname(HERE)), "VERSION"), encoding="ascii") as file:
            return file.read().strip()


def released(name: str) -> Optional[str]:
    """The path of a file of the release that this package was installed from; None where that has
    no such file, or it was installed from a checkout."""
    path = os.path.join(RELEASE, name)
    return path if os.path.isfile(path) else None


def recorded(name: str) -> Iterator[str]:
    """Where the record of what was installed with this package has a command of this name: a file
    of the size that it states, since an installer that moves files may leave their old places."""
    site = os.path.dirname(HERE)
    record = os.path.join(site, "%s-%s.dist-info" % (os.path.basename(HERE), version()), "RECORD")
    with contextlib.suppress(OSError), open(record, encoding="utf-8", newline="") as file:
        for row in csv.reader(file):
            if len(row) == 3 and row[0].endswith(("/bin/" + name, "/scripts/" + name)):
                path = os.path.join(site, row[0])
                if os.path.isfile(path) and str(os.path.getsize(path)) == row[2]:
                    yield path


@functools.lru_cache(maxsize=None)
def released_command(name: str) -> Optional[str]:
    """The path of a command of the release that this package was installed from: by the record of
    what was installed; beside the package, where `pip install --target` puts it; or in a wheel that
    is unpacked. None if it isn't there, or the package was installed from a checkout."""
    if not os.path.isdir(RELEASE):
        return None
    site = os.path.dirname(HERE)
    unpacked = "%s-%s.data" % (os.path.basename(HERE), version())
    places = [*recorded(name), os.path.join(site, "bin", name),
              os.path.join(site, unpacked, "scripts", name)]
    return next((os.path.realpath(path) for path in places if os.path.isfile(path)), None)


def sources(folder: str) -> Iterator[os.DirEntry[str]]:
    """The sources in a folder of crates, and in the folders in it."""
    with os.scandir(folder) as entries:
        for entry in entries:
            if entry.is_dir(follow_symlinks=False):
                if entry.name not in ("out", "must-fail"):
                    yield from sources(entry.path)
            elif entry.name.endswith((".rt", ".antt")):
                yield entry


def look(path: str, told: os.stat_result) -> str:
    """The line that the launcher notes of a file: its path from the top, its size, and when it was
    changed."""
    times = ["%d.%09d0" % divmod(time, 10**9) for time in (told.st_mtime_ns, told.st_ctime_ns)]
    return "%s %d %s\n" % (path, told.st_size, " ".join(times))


def looks_the_same(top: str, noted: str) -> bool:
    """Whether the sources of a checkout have the names, sizes and times that a build's file `noted`
    has."""
    crates = os.path.join(top, "crates")
    inside = len(crates) - len("crates")
    try:
        with open(noted, encoding="utf-8", errors="surrogateescape") as file:
            before = set(file)
        now = {look(name, os.stat(os.path.join(top, name)))
               for name in ("crates.txt", "HANDLES", "VERSION")}
        return before == now | {look(entry.path[inside:], entry.stat())
                                for entry in sources(crates)}
    except OSError:
        return False


def has_the_sources(top: str, target: str) -> bool:
    """Whether a target ("program" or "library") is built of the sources of a checkout, by their
    checksum: those of a copy have other times. The script that builds it tells, and notes how they
    look, which spares the next process the checksum."""
    words = [sys.executable or "python3", os.path.join(top, "scripts", "build.py"), target,
             "--is-built"]
    try:
        return subprocess.run(words, stdin=subprocess.DEVNULL, stdout=subprocess.DEVNULL,
                              stderr=subprocess.DEVNULL, check=False).returncode == 0
    except OSError:
        return False


def stamp_of(folder: str) -> Tuple[int, int, int]:
    """What tells one build in a folder from the next: which file its stamp is, and its time."""
    try:
        told = os.stat(os.path.join(folder, "blossom.sources"))
    except OSError:
        return 0, 0, 0
    return told.st_ino, told.st_size, told.st_mtime_ns


@functools.lru_cache(maxsize=None)
def is_built_as_stamped(top: str, folder: str, target: str, stamp: Tuple[int, int, int]) -> bool:
    """See `is_present`, for what a build has stamped so. It is looked at once in a process."""
    return looks_the_same(top, os.path.join(folder, "blossom.look")) or has_the_sources(top, target)


def is_present(top: str, folder: str, target: str) -> bool:
    """Whether what a folder of a checkout has of a target ("program" or "library") is built of the
    checkout's sources."""
    return is_built_as_stamped(top, folder, target, stamp_of(folder))


def takes_release(top: str) -> bool:
    """Whether the release in dist/ of a checkout is of the checkout's sources: the script unpacks
    its program and its library, and what it says is passed on."""
    words = [sys.executable or "python3", os.path.join(top, "scripts", "dist_program.py")]
    try:
        done = subprocess.run(words, stdin=subprocess.DEVNULL, stdout=subprocess.DEVNULL,
                              stderr=subprocess.PIPE, check=False)
    except OSError:
        return False
    if sys.stderr is not None:
        sys.stderr.write(done.stderr.decode("utf-8", "replace"))
    return done.returncode == 0


def times_of(*paths: str) -> Tuple[int, ...]:
    """When these files were changed; 0 for one that isn't there."""
    found = []
    for path in paths:
        try:
            found.append(os.stat(path).st_mtime_ns)
        except OSError:
            found.append(0)
    return tuple(found)


@functools.lru_cache(maxsize=None)
def is_released(top: str, noted: str, times: Tuple[int, ...]) -> bool:
    """See `unpacked`, for a release and a note of these times. It is looked at once in a
    process."""
    return looks_the_same(top, noted) or bool(times[0]) and takes_release(top)


def unpacked(top: str, name: str) -> Optional[str]:
    """The path of a file of the release in dist/ of a checkout, if that was made of the checkout's
    sources: the program or the library. None if it is of others, or BLOSSOM_BUILD is 1."""
    folder = os.path.join(top, "out", "dist")
    path, noted = os.path.join(folder, name), os.path.join(folder, "blossom.look")
    if os.environ.get("BLOSSOM_BUILD") == "1":
        return None
    times = times_of(os.path.join(top, "dist", "PROVED.json"), noted)
    return path if is_released(top, noted, times) and os.path.exists(path) else None
