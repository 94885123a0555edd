#!/usr/bin/env python3
"""Memory that is refused at one call: the program answers want of memory with nothing written. For
each run below the call of number 1, 2, 3 .. is refused, until a run asks for memory less often than
that and ends as it does without a refusal.

Usage: refused_memory.py PROGRAM. It stands on the C library of GNU and on `cc`. The gate makes
the first runs, in which memory is wanted for the words of the command line and for little else;
the others are made by hand. Where words are no command and there are more of them, `clap` wants
memory for what it would say of them, and a refusal of that is no matter: the answer is usage all
the same."""
import os
import shutil
import subprocess
import sys
import tempfile

HERE = os.path.dirname(os.path.abspath(__file__))
TRIANGLES = "p edge 6 7\ne 1 2 1\ne 2 3 1\ne 1 3 1\ne 4 5 1\ne 5 6 1\ne 4 6 1\ne 3 4 10\n"
#: Runs in which memory is wanted for words, and for little else.
WORDS = (("check cover", ""), ("", ""), ("trial perfect 1 0 0", ""))
RUNS = WORDS + (
    ("solve perfect --brief", TRIANGLES),
    ("solve perfect", TRIANGLES),
    (
        "check perfect",
        TRIANGLES
        + "s OPTIMAL perfect 12\nx 1 1\nx 5 1\nx 7 1\ny 1 1\ny 2 1\ny 3 1\ny 4 1\ny 5 1\ny 6 1\n"
        "z 9 3 1 2 3\nz 9 3 4 5 6\n",
    ),
    (
        "check perfect",
        "p edge 4 9\n"
        + "e 1 2 1\n" * 8
        + "e 3 4 1\ns OPTIMAL perfect 2\nx 1 1\nx 9 1\ny 1 0\ny 2 1\ny 3 1\ny 4 0\n"
        "z 1 3 1 2 3\nz 1 3 2 3 4\n",
    ),
    ("solve path", "p edge 3 3\nn 1 1\nn 3 1\ne 1 2 3\ne 2 3 -1\ne 1 3 4\n"),
    ("solve path", "p edge 3 3\nn 1 1\nn 3 1\ne 1 2 -1\ne 2 3 -1\ne 1 3 1\n"),
    ("solve match", "p edge 4 3\ne 1 2 1\ne 2 3 5\ne 3 4 1\n"),
    ("solve bmatch", "p edge 2 1\nn 1 2\nn 2 2\ne 1 2 4\n"),
    ("solve capmatch", "p edge 2 2\nn 1 2\nn 2 2\ne 1 2 4 1\ne 1 2 5\n"),
    ("solve capmatch", "p edge 2 1\nn 1 2\nn 2 2\ne 1 2 4 1\n"),
    ("solve ffactor", "p edge 4 4\ne 1 2 1\ne 2 3 5\ne 3 4 1\ne 1 4 5\n"),
    ("solve tjoin", "p edge 3 3\nn 1 1\nn 3 1\ne 1 2 3\ne 2 3 -1\ne 1 3 4\n"),
    ("solve tjoin", "p edge 2 0\nn 1 1\nn 2 1\n"),
    ("solve postman", "p edge 3 2\ne 1 2 4\ne 2 3 6\n"),
    ("solve postman", "p edge 4 2\ne 1 2 4\ne 3 4 6\n"),
    ("solve match", "p edge 2 2\ne 1 1 4\ne 1 2 5\n"),
    ("solve bmatch", "p edge 1 1\nn 1 4\ne 1 1 4\n"),
    ("solve capmatch", "p edge 1 2\nn 1 4\ne 1 1 4 1\ne 1 1 5\n"),
    ("solve postman", "p edge 2 2\ne 1 2 4\ne 2 2 6\n"),
    ("solve path", "p edge 2 2\nn 1 1\nn 2 1\ne 1 2 1\ne 1 1 -1\n"),
    (
        "check path",
        "p edge 3 3\nn 1 1\nn 3 1\ne 1 2 -1\ne 2 3 -1\ne 1 3 1\ns NONCONSERVATIVE path\nw 1 3 1 2 3\n",
    ),
    ("check capmatch", "p edge 2 1\nn 1 2\nn 2 2\ne 1 2 4 1\ns INFEASIBLE capmatch\nu 2 5 6\n"),
    ("check tjoin", "p edge 2 0\nn 1 1\nn 2 1\ns INFEASIBLE tjoin\nt 1 2\n"),
    ("check perfect", "p edge 2 1\ne 1 9\n"),
    ("solve bmatch", "p edge 5 0\nn 1 4096\nn 2 4096\nn 3 4096\nn 4 4096\n"),
    ("trial capmatch 1 4 5", ""),
)
#: Stored documents: each is checked, and its instance solved.
DOCUMENTS = (
    "interval/accepted-optimal",
    "oddpath/accepted-optimal",
    "evenpath/accepted-optimal",
    "bottleneck/accepted-optimal",
    "gallai/accepted-blossoms-and-a-pair",
)


def runs_of_documents():
    """A solve and a check for each stored document."""
    for name in DOCUMENTS:
        with open(os.path.join(HERE, "documents", name + ".checked"), encoding="utf-8") as file:
            text = file.read()
        kind = name.split("/")[0]
        yield "solve " + kind, text[: text.index("\ns ") + 1]
        yield "check " + kind, text


def refusing(folder):
    """The library that refuses a call for memory, compiled."""
    library = os.path.join(folder, "refusing.so")
    subprocess.run(
        ["cc", "-O1", "-shared", "-fPIC", "-o", library, os.path.join(HERE, "refusing.c")],
        check=True,
    )
    return library


def run(program, library, words, given, call):
    """The run where the call of this number is refused: its end, and whether there was such a
    call."""
    read, write = os.pipe()
    environment = dict(
        os.environ, LD_PRELOAD=library, REFUSED_CALL=str(call), REFUSED_TO=str(write)
    )
    done = subprocess.run(
        [program] + words,
        input=given,
        capture_output=True,
        env=environment,
        pass_fds=[write],
        timeout=60,
    )
    os.close(write)
    refused = os.read(read, 1) != b""
    os.close(read)
    return (done.returncode, done.stdout, done.stderr), refused


def calls_that_answer_wrongly(program, library, words, given):
    """How often the run asks for memory, and the calls whose refusal isn't answered as it should
    be."""
    usual, _ = run(program, library, words, given, 0)
    call, wrong = 1, []
    while True:
        end, refused = run(program, library, words, given, call)
        if end != ((8, b"", b"") if refused else usual):
            wrong.append((call, end))
        if not refused:
            return call - 1, usual, wrong
        call += 1


def try_all(program, runs, say=print):
    """Makes the runs, and says a line for each. Answers how many calls ended as they should, and
    how many didn't; a run that asks for no memory is a failure."""
    passed = failed = 0
    with tempfile.TemporaryDirectory() as folder:
        library = refusing(folder)
        for line, text in runs:
            calls, usual, wrong = calls_that_answer_wrongly(
                program, library, line.split(), text.encode()
            )
            say(
                "%-24.24s %4d calls for memory, else %r"
                % (line, calls, usual[1].split(b"\n")[0].decode())
            )
            passed, failed = passed + calls + 1 - len(wrong), failed + len(wrong) + (calls == 0)
            for call, end in wrong:
                print("FAILED %s %r, call %d: %r" % (line, text, call, end))
    return passed, failed


def check(program, tests):
    """The runs for words, as a part of the whole run of tests. Without `cc` they are shown as
    skipped: process_ends has a row for words, too."""
    if shutil.which("cc") is None:
        tests.skip("refused_memory.check", "there is no cc")
        return
    passed, failed = try_all(program, WORDS, lambda line: None)
    tests.passed, tests.failed = tests.passed + passed, tests.failed + failed


def main():
    passed, failed = try_all(os.path.abspath(sys.argv[1]), RUNS + tuple(runs_of_documents()))
    print("%d passed, %d failed" % (passed, failed))
    sys.exit(0 if failed == 0 and passed > 0 else 1)


if __name__ == "__main__":
    main()
