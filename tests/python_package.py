"""Runs the tests of the Python package over the built program, and adds their counts to those of
the whole run. A test that is skipped, since something that it wants isn't installed or built, is
shown with its reason, and counted.

They are run by the Python that has most of the libraries that tests want: Debian's, where
`scripts/test_libraries.sh` has installed them."""
import os
import re
import subprocess
import sys

HERE = os.path.dirname(os.path.abspath(__file__))
DEBIANS = "/usr/bin/python3"
# What is unpacked there, by the same script, is newer than what Debian's Python has.
LIBRARIES = os.path.join(
    os.path.dirname(HERE), "out", "libraries", "usr", "lib", "python3", "dist-packages"
)
WANTED = (
    "numpy",
    "matplotlib",
    "networkx",
    "tqdm",
    "distributed",
    "hypothesis",
    "pandas",
    "scipy",
    "pip",
)
FOUND = (
    "import sys\nfrom importlib.util import find_spec\n"
    "print(sum(find_spec(name) is not None for name in sys.argv[1:]))"
)


def has(python):
    """How many of the libraries a Python has; -1 where it isn't there."""
    try:
        return int(
            subprocess.run(
                [python, "-c", FOUND, *WANTED],
                capture_output=True,
                text=True,
                timeout=60,
                check=True,
            ).stdout
        )
    except (OSError, ValueError, subprocess.SubprocessError):
        return -1


def best_python():
    """The Python that has most of the libraries, this one before Debian's, and the folder of
    libraries besides that it takes, if any."""
    python = max((sys.executable, DEBIANS), key=has)
    besides = os.path.realpath(python).startswith("/usr/bin/") and os.path.isdir(LIBRARIES)
    return python, LIBRARIES if besides else None


def check(program, tests):
    """Adds the tests of the package to `tests`. Prints what failed or was skipped."""
    python, libraries = best_python()
    environment = dict(os.environ, BLOSSOM=program, PYTHONDONTWRITEBYTECODE="1")
    if libraries:
        environment["BLOSSOM_TEST_LIBRARIES"] = libraries
    done = subprocess.run(
        [python, os.path.join(HERE, "python", "run.py")],
        env=environment,
        capture_output=True,
        text=True,
        timeout=1800,
    )
    lines = done.stdout.splitlines()
    counts = re.fullmatch(r"(\d+) passed, (\d+) failed, (\d+) skipped", lines[-1] if lines else "")
    if counts is None:
        tests.compare(
            "the tests of the Python package end with their counts",
            "",
            "counts",
            done.stdout[-500:] + done.stderr[-2000:],
        )
        return
    print("\n".join(lines[:-1] + ["the Python package, by %s: %s" % (python, lines[-1])]))
    tests.passed += int(counts.group(1))
    tests.failed += int(counts.group(2))
    tests.skipped += int(counts.group(3))
    tests.compare(
        "the tests of the Python package end as their counts say",
        "",
        int(counts.group(2)) > 0,
        done.returncode != 0,
    )
