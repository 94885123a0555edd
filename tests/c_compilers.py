"""Tests of the library for C and its header by compilers: what the example prints, what the
header's numbers and types are to them, and which symbols there are. A part that wants a compiler
that isn't there is shown as skipped."""
import os
import re
import shutil
import subprocess
import tempfile

from c_header import CAPI
from c_parts import OUT, TRIANGLES, Skipped, run

SOURCES = os.path.join(os.path.dirname(os.path.abspath(__file__)), "c_sources")
STRICT = "-Wall -Wextra -pedantic -Werror -Wshadow -Wconversion -Wsign-conversion".split()
C = ("CC", "cc", ["-std=c99", "-O2", *STRICT])
C_PLUS_PLUS = ("CXX", "c++", [*STRICT, "-Wold-style-cast", "-Wzero-as-null-pointer-constant"])
#: Functions by the types that docs/C.md and the header's words give the calls, and each number
#: of the header.
NUMBERS = """#include "blossom.h"
#include <stdio.h>
static uint32_t (*const call)(uint32_t, uint32_t, const uint8_t *, size_t, uint8_t *, size_t,
                              size_t *) = blossom_call;
static uint32_t (*const version)(void) = blossom_abi;
int main(void) {
    size_t used, longest = BLOSSOM_MAX_ANSWER_BYTES;
    uint8_t byte = 0;
    printf("%%d %%d\\n", BLOSSOM_ABI, version() == BLOSSOM_ABI);
    printf("%%zu %%zu\\n", longest, sizeof(BLOSSOM_MAX_ANSWER_BYTES));
    printf("%%d\\n", BLOSSOM_LONGEST_ANSWER == longest);
%s    return (int)call(BLOSSOM_SOLVE, BLOSSOM_PERFECT, &byte, 0, &byte, 0, &used);
}
"""
SANITIZED = ["-fsanitize=address,undefined", "-fno-sanitize-recover=all", "-g"]
CALL = """#include "blossom.h"
int main() { return blossom_abi() == BLOSSOM_ABI ? 0 : 1; }
"""


def found(of):
    """The path of a compiler, and its words."""
    variable, usual, words = of
    compiler = shutil.which(os.environ.get(variable, usual))
    if compiler is None:
        raise Skipped("there is no compiler %s" % os.environ.get(variable, usual))
    return compiler, words


def compiled(tests, what, of, source, library, room):
    """Compiles a file with the library without a warning. Answers the program, or None where that
    failed, which is told."""
    compiler, words = found(of)
    made = os.path.join(room, "made")
    done = subprocess.run(
        [compiler]
        + words
        + [
            "-I" + CAPI,
            source,
            os.path.join(OUT, library),
            "-Wl,-rpath," + os.path.abspath(OUT),
            "-o",
            made,
        ],
        capture_output=True,
    )
    tests.compare(
        "%s compiles with %s" % (what, library), b"", (0, b""), (done.returncode, done.stderr)
    )
    return made if done.returncode == 0 else None


def written(room, name, text):
    path = os.path.join(room, name)
    with open(path, "w", encoding="utf-8") as file:
        file.write(text)
    return path


def example(program, library, tests):
    """The example compiles with each library, as C of 1999 without a warning, and runs; with
    sanitizers too, which tell memory that isn't given back."""
    solved = run(program, ["solve", "perfect"], TRIANGLES)[1]
    wanted = (0, b"16 bytes are too few for %d\n" % len(solved) + solved + b"s ACCEPTED\n", b"")
    source = os.path.join(CAPI, "example.c")
    for name, more in (("libblossom.so", []), ("libblossom.a", []), ("libblossom.so", SANITIZED)):
        what, of = "the example%s" % (", sanitized" if more else ""), (*C[:2], [*C[2], *more])
        with tempfile.TemporaryDirectory() as room:
            made = compiled(tests, what, of, source, name, room)
            if made:
                done = subprocess.run([made], capture_output=True, timeout=60)
                got = done.returncode, done.stdout, done.stderr
                tests.compare("%s with %s" % (what, name), b"", wanted, got)


def failing_examples(program, library, tests):
    """Each example says what is wrong and ends with 1 if the library is of another version, if its
    calls or the example run out of memory, and if there is no optimal answer."""
    abi, out_of_memory = library.header.abi, library.header.statuses["OUT_OF_MEMORY"]
    compiler, words = found(C)
    other = b"the library has version %d, its header %d: install both of one release\n"
    no_memory = ["-Dmalloc=no_memory"]
    for name, version, status, more, wanted in (
        ("example.c", abi + 1, out_of_memory, [], other % (abi + 1, abi)),
        ("example_arrays.c", abi + 1, out_of_memory, [], other % (abi + 1, abi)),
        ("example.c", abi, out_of_memory, [], b"out of memory\n"),
        ("example_arrays.c", abi, out_of_memory, [], b"status 8, index 0: out of memory\n"),
        ("example.c", abi, 0, no_memory, b"out of memory\n"),
        ("example_arrays.c", abi, 0, no_memory, b"status 8, index 0: out of memory\n"),
        ("example_arrays.c", abi, 0, [], b"status 0, index 0: success\n"),
        ("example_joins.c", abi + 1, out_of_memory, [], other % (abi + 1, abi)),
        ("example_joins.c", abi, out_of_memory, [], b"status 8, index 0: out of memory\n"),
        ("example_joins.c", abi, 0, no_memory, b"status 8, index 0: out of memory\n"),
    ):
        told = ["-DVERSION=%d" % version, "-DSTATUS=%d" % status, "-I" + CAPI, *more]
        sources = [os.path.join(CAPI, name), os.path.join(SOURCES, "stand_in.c")]
        with tempfile.TemporaryDirectory() as room:
            made = os.path.join(room, "made")
            subprocess.run([compiler, *words, *told, *sources, "-o", made], check=True)
            done = subprocess.run([made], capture_output=True, timeout=60)
            got = done.returncode, done.stdout, done.stderr
            what = "%s with version %d, status %d %s" % (name, version, status, " ".join(more))
            tests.compare(what, b"", (1, b"", wanted), got)


#: The names of 1.0.0 that have another one now, and their numbers.
OLD_NAMES = {"DONE": 0, "SHORT_BUFFER": 9, "NO_SUCH_CALL": 10, "SOLVE_BRIEFLY": 2}


def numbers_and_types(program, library, tests):
    """A compiler finds the calls to be of their types, and the numbers that the other tests read in
    the header."""
    header = library.header
    named = {
        **header.tasks,
        **header.kinds,
        **header.statuses,
        **header.input_errors,
        **header.outcomes,
        **header.violations,
        **header.parts,
        **header.join_outcomes,
    }
    tests.compare(
        "the names of 1.0.0", b"", {*OLD_NAMES, "LONGEST_ANSWER"}, set(header.aliases)
    )
    named.update(OLD_NAMES)
    lines = "".join('    printf("%s %%d\\n", BLOSSOM_%s);\n' % (name, name) for name in named)
    wanted = "%d 1\n%d 8\n1\n" % (header.abi, header.longest_answer) + "".join(
        "%s %d\n" % one for one in named.items()
    )
    with tempfile.TemporaryDirectory() as room:
        made = compiled(
            tests,
            "a call by its types",
            C,
            written(room, "numbers.c", NUMBERS % lines),
            "libblossom.a",
            room,
        )
        if made:
            done = subprocess.run([made], capture_output=True, text=True, timeout=60)
            tests.compare(
                "the numbers of blossom.h to a compiler",
                b"",
                (header.statuses["BUFFER_TOO_SMALL"], wanted),
                (done.returncode, done.stdout),
            )


def header_in_c_plus_plus(program, library, tests):
    with tempfile.TemporaryDirectory() as room:
        made = compiled(
            tests,
            "C++ with the header",
            C_PLUS_PLUS,
            written(room, "call.cpp", CALL),
            "libblossom.a",
            room,
        )
        if made:
            tests.compare("C++ with the header", b"", 0, subprocess.run([made]).returncode)


def symbols(program, library, tests):
    """The shared object and the static library define the calls and no other symbol."""
    if shutil.which("nm") is None:
        raise Skipped("there is no nm")
    for name, word in (("libblossom.so", "-D"), ("libblossom.a", "-g")):
        done = subprocess.run(
            ["nm", word, "--defined-only", os.path.join(OUT, name)], capture_output=True, text=True
        )
        tests.compare(
            "the symbols of " + name,
            b"",
            sorted(library.header.calls),
            re.findall(r" [A-Z] (\S+)$", done.stdout, re.M),
        )


PARTS = (example, failing_examples, numbers_and_types, header_in_c_plus_plus, symbols)
