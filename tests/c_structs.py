"""Tests of the structs of blossom.h and of blossom.hpp, which are C and C++ over the calls over
arrays: the parts of an answer, buffers without an answer, the texts of rules, what exceptions say,
temporaries, and the example, by compilers."""
import os
import subprocess
import tempfile

import c_compilers
from c_arrays import EXAMPLE, Arrays
from c_header import CAPI

SOURCES = os.path.join(os.path.dirname(os.path.abspath(__file__)), "c_sources")
STANDARDS = ("-std=c++17", "-std=c++20")
#: What the example prints.
PRINTED = """a buffer for 9 is too small for %d
weight: 12
counts: %s
duals: %s
%schecked: status 0, rule 0: success
with another weight: status 1, rule 5: the weight of the solution differs from the stated one
"""
STAR = (5, [3, 2, 3, 5], [1, 3, 4, 3], [], [], [])
TRIANGLE = (3, [1, 2, 1], [2, 3, 3], [4, 5, 6], [], [])
BOUNDED = (*TRIANGLE[:5], [1, 2, 0, 1, 1, 1])
#: What tests/c_sources/parts.c solves, and whether without proof.
SHOWN = (
    ("SOLVE", "perfect", EXAMPLE),
    ("SOLVE_WITHOUT_PROOF", "perfect", EXAMPLE),
    ("SOLVE", "interval", (*EXAMPLE[:5], [1, 2, 0, 1, 1, 1, 0, 1, 0, 1, 0, 1])),
    ("SOLVE", "gallai", STAR),
    ("SOLVE_WITHOUT_PROOF", "gallai", STAR),
    ("SOLVE", "perfect", STAR),
    ("SOLVE", "path", (*STAR[:5], [0, 0, 1, 0, 1])),
    ("SOLVE", "path", (5, STAR[1], [1, 3, 6, 3], [], [], [0, 0, 1, 0, 1])),
    ("SOLVE", "path", (5, STAR[1], [], [], [], [0, 0, 1, 0, 1])),
)
#: For each number of a part its place among the stretches of an answer.
SETS, PATHS = {3: 2, 4: 3, 5: 4}, {7: 2, 8: 3, 9: 4}


def line(*words):
    return " ".join(map(str, words)) + "\n"


def stretches(numbers):
    """The six stretches of an answer after its head."""
    _, _, _, a, p, k, t, b = numbers[:8]
    ends, at = [], 8
    for size in (a, p, k, k + 1, t, b):
        ends.append(numbers[at : at + size])
        at += size
    return ends


def parts(kind, numbers):
    """The parts of an answer by their numbers; a part that the kind has not is empty."""
    of = stretches(numbers)
    own, other = (PATHS, SETS) if kind == "gallai" else (SETS, PATHS)
    return {
        **{1: of[0], 2: of[1], 6: of[5]},
        **{part: of[place] for part, place in own.items()},
        **dict.fromkeys(other, []),
    }


def items(of, first):
    """The items of each set or path, whose duals or starts are part `first`."""
    own, offsets, held = of[first], of[first + 1], of[first + 2]
    return [(number, held[offsets[j] : offsets[j + 1]]) for j, number in enumerate(own)]


def ran(tests, what, of, name, library, options=()):
    """What a source prints where it compiles without a warning and ends with 0; else None."""
    variable, usual, words = of
    with tempfile.TemporaryDirectory() as room:
        made = c_compilers.compiled(
            tests,
            what,
            (variable, usual, [*words, *options]),
            name if os.path.isabs(name) else os.path.join(SOURCES, name),
            library,
            room,
        )
        if made is None:
            return None
        done = subprocess.run([made], capture_output=True, timeout=60)
        tests.compare(what + " ends", b"", (0, b""), (done.returncode, done.stderr))
        return done.stdout.decode()


def shown(arrays, task, kind, given):
    """What tests/c_sources/parts.c prints of one answer."""
    status, numbers = arrays.answer(task, kind, given)
    text = line("status", status)
    if status != 0:
        nothing = "".join("%d: nothing\n" % part for part in range(11))
        told = "0 0 0, %d %d\n" % tuple(numbers)
        return text + nothing + told + "".join("%d: nothing\n" % n for n in range(1, 10))
    of = parts(kind, numbers)
    rows = [line("%d:" % part, *of[part]) for part in range(1, 10)]
    fields = list(rows)
    for offsets in (4, 8):
        # (with no set or path their one offset isn't shown)
        if len(of[offsets]) < 2:
            fields[offsets - 1] = "%d:\n" % offsets
    head = "0: nothing\n" + "".join(rows) + "10: nothing\n"
    return text + head + "%d %d %d, 0 0\n" % tuple(numbers[:3]) + "".join(fields)


def parts_of_answers(program, library, tests):
    """`blossom_part` and the fields of `struct blossom_answer` are the stretches of the answer,
    those of sets and of paths each under their own names; what no part has is nothing."""
    arrays = Arrays(library)
    wanted = "".join(shown(arrays, *row) for row in SHOWN)
    text = ran(tests, "parts of answers", c_compilers.C, "parts.c", "libblossom.so")
    tests.compare("parts of answers", b"", wanted, text)


def buffers_without_an_answer(program, library, tests):
    """A check of a buffer that is too small for its answer is refused, and nothing is read; numbers
    whose lengths don't add up have no parts; each rule and status has a text of its own."""
    numbers = Arrays(library).answer("SOLVE", "match", TRIANGLE)[1]
    whole = len(numbers)
    told = ["-DWHOLE_LENGTH=%d" % whole]
    what = "buffers without an answer"
    text = ran(tests, what, c_compilers.C, "refused.c", "libblossom.a", told)
    lines = (text or "").splitlines()
    wanted = [
        "%d: %d %d, 0 0, %d, %d" % (size, *((9, 10) if size < whole else (0, 0)), whole, fits)
        for size, fits in enumerate([0] * whole + [1] * 3)
    ]
    wanted += ["tour: 0 15 15", "whole: 8 3"]
    others = ("shorter", "head alone", "lengths past all numbers", "empty", "null")
    wanted += ["%s: 0 0" % of for of in others] + ["another length: 0 0"] * 25
    tests.compare(what, b"", wanted, lines[: len(wanted)])
    texts_of_rules(library.header, lines[len(wanted) :], tests)


def texts_of_rules(header, lines, tests):
    """The text of each rule and status is its own, and numbers without one are unknown."""
    told = dict(one.split(": ", 1) for one in lines)
    statuses = header.statuses
    known = {"%d 0" % number for name, number in statuses.items() if number not in (1, 3)}
    known |= {"%d %d" % (statuses["MALFORMED"], one) for one in header.input_errors.values()}
    known |= {"%d %d" % (statuses["REJECTED"], one) for one in header.violations.values()}
    unknown = {text for key, text in told.items() if key not in known}
    tests.compare("texts of no rule", b"", {"unknown rule", "unknown status"}, unknown)
    texts = [text for key, text in told.items() if key in known]
    tests.compare("each text is its own", b"", len(known), len(set(texts) - unknown))


def answer_lines(kind, numbers):
    """What tests/c_sources/answers.cpp prints of an answer."""
    of = parts(kind, numbers)
    text = line(*numbers[:3], len(of[3])) + line("solution", *of[1]) + line("duals", *of[2])
    for first in (3, 7) if kind == "gallai" else (3,):
        if of[first + 1]:
            text += "".join(line("%d:" % own, *held) for own, held in items(of, first))
    return text + line("obstruction", *of[6])


def exceptions(header):
    """What the exceptions of tests/c_sources/answers.cpp say."""
    return [
        "%d blossom: rejected: a vertex of the certificate graph lacks its dual (rule %d)"
        % ((header.violations["DUAL_MISSING"],) * 2),
        "%d 3 blossom: malformed arrays: an endpoint is 0 or greater than the number of vertices"
        " (rule %d) at index 3" % ((header.input_errors["ENDPOINT"],) * 2),
        "%d 0 blossom: malformed arrays: there are more than 4096 vertices (rule %d)"
        % ((header.input_errors["VERTICES"],) * 2),
        "16385 0 blossom: too large: the certificate graph has 16385 vertices and 0 edges, the"
        " limits are 16384 and 1048576",
        "blossom: unknown kind",
    ]


def c_plus_plus(program, library, tests):
    """The header for C++ compiles by each standard without a warning, and tells what the calls do:
    answers with their sets and paths, and exceptions with rule, index and numbers."""
    arrays = Arrays(library)
    match = arrays.answer("SOLVE", "match", TRIANGLE)[1]
    wanted = answer_lines("match", match)
    wanted += answer_lines("match", arrays.answer("SOLVE_WITHOUT_PROOF", "match", TRIANGLE)[1])
    wanted += answer_lines("interval", arrays.answer("SOLVE", "interval", BOUNDED)[1])
    wanted += answer_lines("gallai", arrays.answer("SOLVE", "gallai", STAR)[1])
    wanted += "\n".join(exceptions(library.header)) + "\n"
    for size in (0, 8, len(match) - 1, 12, 12, 14):
        wanted += "blossom: these %d numbers do not have the layout of an answer\n" % size
    for standard in STANDARDS:
        what = "C++ over arrays, " + standard
        text = ran(
            tests, what, c_compilers.C_PLUS_PLUS, "answers.cpp", "libblossom.so", [standard]
        )
        tests.compare(what, b"", wanted, text)


def temporaries(program, library, tests):
    """A container that stays has a view, and so have the parts of an answer that stays; temporary
    ones have none, by either standard."""
    for standard in STANDARDS:
        what = "temporaries, " + standard
        text = ran(
            tests, what, c_compilers.C_PLUS_PLUS, "temporaries.cpp", "libblossom.a", [standard]
        )
        tests.compare(what, b"", "", text)


def printed(arrays):
    """What the example prints."""
    numbers = arrays.answer("SOLVE", "perfect", EXAMPLE)[1]
    of = parts("perfect", numbers)
    sets = "".join(line("dual %d, members:" % dual, *held) for dual, held in items(of, 3))
    return PRINTED % (len(numbers), *(" ".join(map(str, of[part])) for part in (1, 2)), sets)


def example(program, library, tests):
    """The example compiles with each library without a warning and runs; so it does with sanitizers
    on the caller's side, where the compiler has them."""
    wanted = printed(Arrays(library))
    source = os.path.join(os.path.abspath(CAPI), "example_arrays.c")
    sanitized = c_compilers.SANITIZED
    for name, more in (("libblossom.so", []), ("libblossom.a", []), ("libblossom.so", sanitized)):
        what = "the example over arrays%s with %s" % (", sanitized," if more else "", name)
        text = ran(tests, what, c_compilers.C, source, name, more)
        tests.compare(what, b"", wanted, text)


PARTS = (parts_of_answers, buffers_without_an_answer, c_plus_plus, temporaries, example)
