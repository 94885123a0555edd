#!/usr/bin/env python3
"""How long it takes from a clone to the first checked answer, by README.md's two commands in a bare
root of Debian 12 with Python, without a network and without the toolchain.

Usage: first_answer.py [FOLDER]. FOLDER has the files of a release; without it, it is dist/. It
needs root, debootstrap and, for the bare root itself, a network."""
import os
import sys
import tempfile

TOP = os.path.dirname(os.path.dirname(os.path.abspath(__file__)))
sys.path.append(os.path.join(TOP, "tests"))
import two_commands  # noqa: E402


def main():
    dist = sys.argv[1] if len(sys.argv) > 1 else os.path.join(TOP, "dist")
    if not os.path.isdir(dist):
        sys.exit("there is no folder %s: scripts/dist.py makes dist/" % dist)
    with tempfile.TemporaryDirectory() as folder:
        root = os.path.join(folder, "root")
        two_commands.put_root(root)
        two_commands.put_clone(root, dist)
        ends, said = two_commands.timed(root)
    for command, (status, told) in zip(two_commands.shown(), said):
        print("%s\n  status %d: %s" % (command, status, told.rstrip("\n").rpartition("\n")[2]))
    print("installed after %.1f s, the first answer checked after %.1f s" % tuple(ends))
    sys.exit(any(status for status, _ in said))


if __name__ == "__main__":
    try:
        main()
    except two_commands.Skipped as told:
        sys.exit(str(told))
