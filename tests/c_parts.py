"""What the tests of the library for C share."""
import ctypes
import os
import subprocess

import made
from c_header import Header
from kinds import KINDS

TOP = os.path.join(os.path.dirname(os.path.abspath(__file__)), "..")
# The folder of the libraries: of those that are built here, or of those of a release.
RELEASE = os.environ.get("BLOSSOM_TEST_RELEASE")
OUT = RELEASE or os.path.join(TOP, "capi", "out")
EDGE = b"p edge 2 1\ne 1 2 5\n"
SOLVED = b"s OPTIMAL perfect 5\nx 1 1\ny 1 5\ny 2 5\n"
TRIANGLES = b"p edge 6 7\ne 1 2 1\ne 2 3 1\ne 1 3 1\ne 4 5 1\ne 5 6 1\ne 4 6 1\ne 3 4 10\n"

#: The words of the program for each task of the header.
WORDS = {"SOLVE": "solve {}", "SOLVE_WITHOUT_PROOF": "solve {} --brief", "CHECK": "check {}"}


#: For each kind that no trial draws another one, whose made instances serve it.
LIKE = {
    "interval": "capmatch",
    "oddpath": "path",
    "evenpath": "path",
    "bottleneck": "perfect",
    "gallai": "match",
}


def made_rows(kind, start, n, m):
    """The edges of a made instance, and the numbers that its lines give each vertex: a value, or
    the two bounds of `interval`."""
    edges, values = made.made(LIKE.get(kind, kind), start, n, m)
    return edges, [(b - 1, b) if kind == "interval" else (b,) for b in values]


def made_text(kind, start, n, m):
    """The text of such an instance."""
    edges, values = made_rows(kind, start, n, m)
    lines = [("p", "edge", n, m)]
    lines += [("e", *[field for field in edge if field is not None]) for edge in edges]
    lines += [("n", v, *given) for v, given in enumerate(values, 1)]
    return "".join(" ".join(map(str, line)) + "\n" for line in lines).encode()


class Skipped(Exception):
    """What a part wants isn't there."""


def is_built():
    """Whether there are libraries to test: of the present sources, or of a release."""
    build = os.path.join(TOP, "capi", "build.sh")
    return bool(RELEASE) or subprocess.run([build, "--is-built"]).returncode == 0


def run(program, words, given, limit=None):
    """A run of the program: its status and what it printed."""
    done = subprocess.run(
        [program] + words, input=given, capture_output=True, timeout=300, preexec_fn=limit
    )
    return done.returncode, done.stdout


def words_of(task, kind):
    return WORDS[task].format(kind).split()


class Library:
    """The shared object, called by what the header declares: tasks and kinds by the header's names,
    or by numbers."""

    def __init__(self):
        self.header = Header()
        self.object = ctypes.CDLL(os.path.abspath(os.path.join(OUT, "libblossom.so")))
        for name, (answer, words) in self.header.calls.items():
            getattr(self.object, name).restype, getattr(self.object, name).argtypes = answer, words

    def numbers(self, task, kind):
        return self.header.tasks.get(task, task), self.header.kinds.get(str(kind).upper(), kind)

    def call_at(self, task, kind, given, length, buffer, room, function=None):
        """A call by addresses: the status, and the length that is told; -1 where something beside
        its place was written."""
        used = (ctypes.c_size_t * 3)(*[2**64 - 1] * 3)
        place = ctypes.c_size_t.from_buffer(used, ctypes.sizeof(ctypes.c_size_t))
        status = (function or self.object.blossom_call)(
            *self.numbers(task, kind), given, length, buffer, room, ctypes.byref(place)
        )
        return status, used[1] if used[0] == used[2] == 2**64 - 1 else -1

    def call(self, task, kind, given, room):
        """The status, the length that is told, and the whole buffer, which is one byte longer than
        is said and full of sevens before."""
        buffer = ctypes.create_string_buffer(b"\7" * (room + 1), room + 1)
        status, used = self.call_at(task, kind, given, len(given), ctypes.addressof(buffer), room)
        return status, used, buffer.raw

    def answer(self, task, kind, given):
        status, used, buffer = self.call(task, kind, given, 1 << 16)
        return status, buffer[:used]
