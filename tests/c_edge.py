"""Tests of the edge of the library for C: its numbers, types and lengths, by its header, its
documents and the program."""
import ctypes
import mmap
import os
import re
import resource
import subprocess
import sys

from c_parts import EDGE, KINDS, SOLVED, TOP, TRIANGLES, Library, Skipped, run, words_of

#: Where Linux reserves no memory for pages that aren't touched.
MAP_NORESERVE = 0x4000


#: For each status that an input can give a task, a kind and an input that gives it.
GIVEN = (
    ("OK", "SOLVE", "perfect", TRIANGLES),
    ("OK", "SOLVE_WITHOUT_PROOF", "match", EDGE),
    ("OK", "CHECK", "perfect", EDGE + SOLVED),
    ("REJECTED", "CHECK", "perfect", EDGE + SOLVED.replace(b"y 1 5", b"y 1 6")),
    ("MALFORMED", "SOLVE", "tjoin", b"p edge 2 1\ne 1 3\n"),
    ("TOO_LARGE", "SOLVE", "bmatch", b"p edge 2 1\nn 1 4096\nn 2 4096\ne 1 2 1\n"),
    ("TOO_LONG", "SOLVE", "path", b"\n" * 16_777_217),
)
#: A long input, and how much memory is too little for it.
LONG, LITTLE = b"\n" * 16_000_000, 12 << 20
# (a call doesn't copy its bytes, so it wants memory for an instance of many edges)
LARGE = b"p edge 2 65536\n" + b"e 1 2 1\n" * 65_536


def statuses(program, library, tests):
    """Each status of the header is the program's on an input that gives it, and the library's, with
    the program's bytes."""
    named = dict(library.header.statuses)
    for name, task, kind, given in GIVEN:
        status, answer = run(program, words_of(task, kind), given)
        wanted = (status, status, answer)
        tests.compare(
            "the library for C, status %s" % name,
            given[:100],
            wanted,
            (library.header.statuses[name], *library.answer(task, kind, given)),
        )
        named.pop(name, None)
    little = run(
        program,
        ["solve", "perfect"],
        LONG,
        lambda: resource.setrlimit(resource.RLIMIT_AS, (LITTLE, LITTLE)),
    )
    tests.compare(
        "the library for C, status OUT_OF_MEMORY",
        b"",
        (little[0], "%d 0 True\n" % little[0]),
        (named.pop("OUT_OF_MEMORY"), with_little_memory()),
    )
    tests.compare(
        "the library for C, status BUFFER_TOO_SMALL",
        EDGE,
        (named.pop("BUFFER_TOO_SMALL"), len(SOLVED)),
        library.call("SOLVE", "perfect", EDGE, 3)[:2],
    )
    tests.compare(
        "the library for C, status INVALID_ARGUMENT",
        EDGE,
        (named.pop("INVALID_ARGUMENT"), 0),
        library.call(0, 0, EDGE, 3)[:2],
    )
    tests.compare("the library for C, the statuses that no test gives", b"", {}, named)


def with_little_memory():
    """What a process of its own prints where it has no memory for a call: the status, the length,
    and whether the buffer is as it was."""
    done = subprocess.run(
        [sys.executable, os.path.abspath(__file__), "--little-memory"],
        capture_output=True,
        text=True,
        timeout=60,
    )
    return done.stdout + done.stderr


def print_with_little_memory():
    library, buffer = Library(), ctypes.create_string_buffer(b"\7" * 100, 100)
    with open("/proc/self/statm", encoding="ascii") as file:
        size = int(file.read().split()[0]) * resource.getpagesize() + (4 << 20)
    resource.setrlimit(resource.RLIMIT_AS, (size, size))
    print(
        *library.call_at("SOLVE", "perfect", LARGE, len(LARGE), ctypes.addressof(buffer), 100),
        buffer.raw == b"\7" * 100,
    )


def reserved(size):
    """So many bytes of zeros, of which pages that aren't touched take no memory, and their
    address."""
    try:
        held = mmap.mmap(-1, size, mmap.MAP_PRIVATE | mmap.MAP_ANONYMOUS | MAP_NORESERVE)
    except OSError as error:
        raise Skipped("so many bytes can't be reserved (%s)" % error) from None
    return held, ctypes.addressof(ctypes.c_char.from_buffer(held))


def great_lengths(program, library, tests):
    """Lengths past 2^32 are taken as they are, though their lower halves are a few bytes; the
    longest answer is a room."""
    for room in (2**32 + 5, 2**33, library.header.longest_answer):
        held, at = reserved(room)
        status, used = library.call_at("SOLVE", "perfect", EDGE, len(EDGE), at, room)
        tests.compare(
            "the library for C, %d bytes of room" % room,
            EDGE,
            (0, len(SOLVED), SOLVED),
            (status, used, held[: len(SOLVED)]),
        )
    held, at = reserved(2**32 + len(EDGE))
    held[: len(EDGE)] = EDGE
    for task in ("SOLVE", "CHECK"):
        buffer = ctypes.create_string_buffer(80)
        ended = library.call_at(task, "perfect", at, len(held), ctypes.addressof(buffer), 80)
        tests.compare(
            "the library for C, an input of more than 2^32 bytes",
            EDGE,
            (5, 10, b"s TOOLONG\n"),
            (*ended, buffer.raw[:10]),
        )


def halves_of_registers(program, library, tests):
    """A number of 32 bits is what the lower half of its register holds: what the upper half holds
    is the caller's."""
    wide = ctypes.CFUNCTYPE(
        ctypes.c_uint32,
        ctypes.c_uint64,
        ctypes.c_uint64,
        *library.header.calls["blossom_call"][1][2:],
    )(("blossom_call", library.object))
    buffer = ctypes.create_string_buffer(80)
    for task, kind in ((2**32, 0), (0, 2**32), (2**63, 2**63)):
        numbers = [
            number + more for number, more in zip(library.numbers("SOLVE", "perfect"), (task, kind))
        ]
        ended = library.call_at(*numbers, EDGE, len(EDGE), ctypes.addressof(buffer), 80, wide)
        tests.compare("the library for C, upper halves of registers", EDGE, (0, len(SOLVED)), ended)


def longest_answer(program, library, tests):
    """The header's longest answers are what is proved of a computed document, and what docs/C.md
    says."""
    with open(
        os.path.join(TOP, "crates", "solve_answers", "src", "limits.rt"), encoding="utf-8"
    ) as file:
        proved = file.read()
    with open(os.path.join(TOP, "docs", "C.md"), encoding="utf-8") as file:
        told = file.read()
    for limit, name, longest in (
        ("DOCUMENT_BYTE_LIMIT", "BLOSSOM_MAX_ANSWER_BYTES", library.header.longest_answer),
        ("PATHS_BYTE_LIMIT", "BLOSSOM_MAX_GALLAI_BYTES", library.header.longest_gallai),
    ):
        in_bytes = int(re.search(r"%s: usize = ([\d_]+);" % limit, proved)[1])
        in_words = int(re.search(r"`%s` \((\d+) MiB\)" % name, told)[1]) << 20
        tests.compare(name, b"", (in_bytes, in_words), (longest, longest))


def version(program, library, tests):
    """The library is of the version of its header, which docs/C.md tells."""
    with open(os.path.join(TOP, "docs", "C.md"), encoding="utf-8") as file:
        told = int(re.search(r"`blossom_abi\(\)` is (\d+)", file.read())[1])
    tests.compare(
        "the library for C, its version",
        b"",
        (library.header.abi, told),
        (library.object.blossom_abi(),) * 2,
    )


def no_such_call(program, library, tests):
    """Numbers of no task and of no kind are told, and nothing is written; the header names each
    other one."""
    wanted = (library.header.statuses["INVALID_ARGUMENT"], 0, b"\7" * 81)
    for task, kind in (
        (0, 1),
        (4, 1),
        (2**32 - 1, 1),
        (257, 1),
        (65537, 1),
        (1, 0),
        (1, 14),
        (3, 2**32 - 1),
        (3, 264),
        (3, 65544),
        (0, 0),
    ):
        tests.compare(
            "the library for C, task %d and kind %d" % (task, kind),
            EDGE,
            wanted,
            library.call(task, kind, EDGE, 80),
        )
    tests.compare(
        "the tasks and kinds of blossom.h",
        b"",
        ([1, 2, 3], list(range(1, 14))),
        (sorted(library.header.tasks.values()), sorted(library.header.kinds.values())),
    )


def python_numbers(program, library, tests):
    """The numbers that the Python package calls by are the header's."""
    sys.path.insert(0, os.path.join(TOP, "python"))
    from blossom import array_library
    from blossom import library as python

    sys.path.pop(0)
    header = library.header
    tests.compare(
        "the kinds of blossom.h in Python",
        b"",
        {kind: header.kinds[kind.upper()] for kind in KINDS},
        python.KIND_NUMBERS,
    )
    tests.compare(
        "the tasks of blossom.h in Python",
        b"",
        {
            "solve": header.tasks["SOLVE"],
            "brief": header.tasks["SOLVE_WITHOUT_PROOF"],
            "check": header.tasks["CHECK"],
        },
        python.TASKS,
    )
    tests.compare(
        "the other numbers of blossom.h in Python",
        b"",
        (header.abi, header.statuses["BUFFER_TOO_SMALL"], header.statuses["INVALID_ARGUMENT"]),
        (python.ABI, python.BUFFER_TOO_SMALL, python.INVALID_ARGUMENT),
    )
    tests.compare(
        "the rules and outcomes of blossom.h in Python",
        b"",
        ({*header.input_errors.values()}, header.join_outcomes["JOINED"]),
        ({*array_library.RULES}, array_library.JOINED),
    )


PARTS = (
    statuses,
    great_lengths,
    halves_of_registers,
    longest_answer,
    version,
    no_such_call,
    python_numbers,
)

if __name__ == "__main__" and sys.argv[1:] == ["--little-memory"]:
    print_with_little_memory()
