"""The program that runs one part of the work by itself, for the benches: each part once, on a
small input."""
import os
import subprocess

from c_parts import RELEASE

PROGRAM = os.path.join(
    os.path.dirname(os.path.abspath(__file__)), "..", "crates", "timed_parts", "out", "timed_parts"
)
TRIANGLE = "p edge 3 3\ne 1 2 1\ne 2 3 1\ne 3 1 1\n"
PAIR = "p edge 2 1\nn 1 2\nn 2 2\ne 1 2 4\n"
LOOSE = "c by hand\ns  OPTIMAL perfect 012\n\nx 1\t1\ny 1 -0\n"

# Words, input, and the status and output that come: the checksums are those of
# bench/plain_queue.cpp.
ROWS = [
    (["document"], LOOSE, 0, "s OPTIMAL perfect 12\nx 1 1\ny 1 0\n"),
    (["document", "read"], LOOSE, 0, ""),
    (["document"], "s OPTIMAL\n", 3, ""),
    (["walk", "3"], TRIANGLE, 0, "3\n"),
    (["walk", "0"], TRIANGLE, 0, "0\n"),
    (["walk", "3"], "p edge 4 2\ne 1 2 1\ne 3 4 1\n", 3, ""),
    (["gadget", "bmatch", "2"], PAIR, 0, "4\n"),
    (["gadget", "postman", "1"], TRIANGLE, 0, "6\n"),
    (["gadget", "path", "1"], "p edge 2 1\nn 1 1\nn 2 1\ne 1 2 1\n", 0, "1\n"),
    (["gadget", "bmatch", "0"], PAIR, 0, "0\n"),
    (["gadget", "cover", "1"], PAIR, 1, ""),
    (["queue", "1"], "", 0, "18252103138497064745\n"),
    (["queue", "0"], "", 0, "0\n"),
    (["queue", "many"], "", 1, ""),
    (["rising", "1"], "", 0, "2553132689284439105\n"),
    (["rising", "0"], "", 0, "0\n"),
    (["rising"], "", 1, ""),
    ([], "", 1, ""),
]


def check(tests):
    if RELEASE:
        tests.skip("timed_parts", "a release doesn't have this program of the benches")
        return
    for words, given, status, output in ROWS:
        done = subprocess.run(
            [PROGRAM] + words, input=given, capture_output=True, text=True, timeout=60
        )
        tests.compare(
            "timed_parts " + " ".join(words),
            given,
            (status, output),
            (done.returncode, done.stdout),
        )
