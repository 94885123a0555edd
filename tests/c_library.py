"""Tests of the library for C that `capi/build.sh` has built: that it answers as the program does,
byte for byte, what it leaves in buffers, that equal calls give equal answers, and that calls give
their memory back; with those of its edge, over arrays and by compilers. A part that wants what
isn't there is shown as skipped, and counted."""
import concurrent.futures
import ctypes
import glob
import os
import random

import c_arrays
import c_compilers
import c_edge
import c_joins
import c_many_runs
import c_structs
import tables
from c_parts import EDGE, KINDS, SOLVED, TOP, WORDS, Library, Skipped, is_built
from c_parts import made_text, run, words_of

HERE = os.path.dirname(os.path.abspath(__file__))


def task_of(words):
    """The task and the kind of these words, where a call has them."""
    for kind in KINDS:
        for task in WORDS:
            if words == words_of(task, kind) or (
                task == "SOLVE_WITHOUT_PROOF" and words == ["solve", "--brief", kind]
            ):
                return task, kind
    return None


def inputs():
    """The stored inputs that a call takes: a name, a task, a kind and the bytes."""
    for case in tables.cases():
        of = task_of(case["words"])
        if of is not None:
            yield case["name"], *of, tables.given(case)
    for path in sorted(glob.glob(os.path.join(HERE, "documents", "*", "*.checked"))):
        with open(path, "rb") as file:
            yield os.path.relpath(path, HERE), "CHECK", os.path.basename(
                os.path.dirname(path)
            ), file.read()


def same_answers(program, library, tests):
    """Each stored input gets the program's status and its very bytes; the instances among the
    examples do too, for each kind."""
    for name, task, kind, given in inputs():
        tests.compare(
            "the library for C, " + name,
            given,
            run(program, words_of(task, kind), given),
            library.answer(task, kind, given),
        )
    for path in sorted(glob.glob(os.path.join(TOP, "examples", "*.dimacs"))):
        with open(path, "rb") as file:
            given = file.read()
        for kind in KINDS:
            tests.compare(
                "the library for C, %s, %s" % (os.path.basename(path), kind),
                given,
                run(program, ["solve", kind], given),
                library.answer("SOLVE", kind, given),
            )


def long_inputs(program, library, tests):
    """The longest inputs, and one byte more."""
    for task, most, line in (
        ("SOLVE", 16_777_216, 16_777_217),
        ("CHECK", 536_870_912, 536_870_913),
    ):
        tests.compare(
            "the library for C, the longest input",
            b"",
            (3, b"s MALFORMED HeaderMissing %d\n" % line),
            library.answer(task, "perfect", b"\n" * most),
        )
        tests.compare(
            "the library for C, one byte more",
            b"",
            (5, b"s TOOLONG\n"),
            library.answer(task, "perfect", b"\n" * (most + 1)),
        )


def buffers(program, library, tests):
    """The answer stands at the front of a buffer that is long enough, and nothing else is written;
    a shorter one is left as it was."""
    short = library.header.statuses["BUFFER_TOO_SMALL"]
    for task, given in (
        ("SOLVE", EDGE),
        ("CHECK", EDGE + SOLVED),
        ("SOLVE_WITHOUT_PROOF", b"p edge 0\n"),
        ("SOLVE", b""),
    ):
        status, answer = run(program, words_of(task, "perfect"), given)
        for room in range(len(answer) + 3):
            wanted = (
                (short, len(answer), b"\7" * (room + 1))
                if room < len(answer)
                else (status, len(answer), answer + b"\7" * (room + 1 - len(answer)))
            )
            tests.compare(
                "the library for C, %d bytes of room for %d" % (room, len(answer)),
                given,
                wanted,
                library.call(task, "perfect", given, room),
            )


def equal_calls(program, library, tests):
    """A call answers what it answered before, whatever was called in between, in whatever thread
    and buffer; some of them take so long that they meet others."""
    rows = [(task, kind, given) for name, task, kind, given in inputs() if task != "CHECK"]
    for start, kind in enumerate(KINDS):
        text = made_text(kind, start, 30, 70)
        rows += [("SOLVE", kind, text), ("SOLVE_WITHOUT_PROOF", kind, text)] * 3
    random.Random(1).shuffle(rows)
    first = [library.answer(*row) for row in rows]
    with concurrent.futures.ThreadPoolExecutor(4) as executor:
        at_once = list(executor.map(lambda row: library.answer(*row), rows * 2))
    back = [library.answer(*row) for row in reversed(rows)]
    for row, one, two, three, four in zip(
        rows, first, at_once, at_once[len(rows) :], reversed(back)
    ):
        tests.compare(
            "the library for C, equal calls, %s %s" % row[:2], row[2], [one] * 3, [two, three, four]
        )


def resident():
    """The pages of this process that are in memory."""
    try:
        with open("/proc/self/statm", encoding="ascii") as file:
            return int(file.read().split()[1])
    except OSError:
        raise Skipped("there is no /proc/self/statm") from None


def memory(program, library, tests):
    """A hundred thousand calls, some of them refused, leave the process as large as it was: a leak
    of one byte a call takes 3 MB of the heap. Equal ones end alike."""
    named = (
        ("SOLVE", "perfect", EDGE),
        ("CHECK", "perfect", EDGE + SOLVED),
        ("SOLVE", "tjoin", b"p edge 3 2\nn 1 1\nn 3 1\ne 1 2 1\ne 2 3 1\n"),
        ("SOLVE_WITHOUT_PROOF", "match", EDGE),
        ("CHECK", "path", b"p edge 0\n"),
    )
    rows = [(*library.numbers(task, kind), given) for task, kind, given in named]
    buffer, used = ctypes.create_string_buffer(100), ctypes.c_size_t()
    rooms, ends = (100, 20), set()

    def calls(count):
        for turn in range(count):
            task, kind, given = rows[turn % len(rows)]
            status = library.object.blossom_call(
                task,
                kind,
                given,
                len(given),
                ctypes.addressof(buffer),
                rooms[turn % 2],
                ctypes.byref(used),
            )
            ends.add((turn % 10, status, used.value))

    calls(5_000)
    before = resident()
    calls(100_000)
    grown = (resident() - before) * os.sysconf("SC_PAGE_SIZE")
    tests.compare(
        "the library for C, memory after 100,000 calls (%d bytes more)" % grown,
        b"",
        (True, 10),
        (grown < 1 << 20, len(ends)),
    )


PARTS = (same_answers, long_inputs, buffers, equal_calls, memory)


def check(program, tests):
    """Adds these tests to `tests`. Prints the parts that were skipped, with the reason."""
    passed, failed, skipped = tests.passed, tests.failed, tests.skipped
    library = Library() if is_built() else None
    others = c_edge, c_arrays, c_joins, c_structs, c_compilers, c_many_runs
    for part in sum((one.PARTS for one in others), PARTS):
        try:
            if library is None:
                raise Skipped("capi/out isn't of the present sources (capi/build.sh)")
            part(program, library, tests)
        except Skipped as reason:
            tests.skip("c_library." + part.__name__, reason)
    print(
        "the library for C: %d passed, %d failed, %d skipped"
        % (tests.passed - passed, tests.failed - failed, tests.skipped - skipped)
    )
