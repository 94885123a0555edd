"""The second checker as a program, `blossom-check-plain`: it prints what the built program prints,
with the same status, on stored documents, on each stored input of `check`, and on arguments and
files that can't be read. What it says of inputs that were changed at random tests/fuzz.py
compares."""
import concurrent.futures
import os
import subprocess
import sys

import tables
from kinds import KINDS

HERE = os.path.dirname(os.path.abspath(__file__))
PROGRAM = os.path.join(HERE, "..", "packaging", "blossom_check_plain.py")
#: Longer inputs are left to the in-process comparison.
LONGEST = 100_000


def run(words, given=b""):
    done = subprocess.run([sys.executable, PROGRAM] + words, input=given, capture_output=True)
    return done.returncode, done.stdout.decode("latin-1"), done.stderr.decode("latin-1")


def inputs():
    """Stored inputs of `check`: a name, a kind, the bytes, and what the program answers."""
    for case in tables.cases():
        words = case["words"]
        if len(words) == 2 and words[0] == "check" and words[1] in KINDS:
            given = tables.given(case)
            if len(given) <= LONGEST and isinstance(case.get("output"), str):
                yield case["name"], words[1], given, (case["status"], case["output"], "")


def check(tests):
    """All of it, as a part of the whole run of tests."""
    stored = list(inputs())
    with concurrent.futures.ThreadPoolExecutor(os.cpu_count()) as pool:
        answers = list(pool.map(lambda row: run([row[1]], row[2]), stored))
    for (name, _, given, wanted), got in zip(stored, answers):
        tests.compare("blossom-check-plain, " + name, given, wanted, got)
    tests.compare("stored inputs of check", b"", True, len(stored) > 100)
    document = os.path.join(HERE, "documents", "perfect", "accepted-optimal.checked")
    tests.compare("a file", b"", (0, "s ACCEPTED\n", ""), run(["perfect", document]))
    for words in ([], ["cover"], ["perfect", document, "more"]):
        tests.compare("arguments %r" % words, b"", (2, "s USAGE\n", ""), run(words))
    status, output, said = run(["perfect", os.path.join(HERE, "nowhere")])
    tests.compare("a file that isn't there", b"", (6, "", True), (status, output, "nowhere" in said))
