"""What `./blossom` hands to the program, what a build is made in, where it goes on, and one whole
build by the kit. But for this last one the kit is a stand-in, as in tests/launcher.py."""
import os
import re
import shutil
import signal
import subprocess
import tempfile

import launcher
from made_release import script

TOP = launcher.TOP
# What a crate has besides sources, for a program that the gate runs.
RUN_WITH = ("args", "stdin", "stdout", "status")
# Keeps a copy of the folder in which it is called. It waits in front of the crate that a file
# `waits` beside it names, once it has proved what comes before, until it is told to end. A crate for
# which a folder `proved` beside it has a file is kept.
STAND_IN = """#!/bin/sh
beside=$(dirname "$0")
if [ "$1" = doc ]; then echo "$(dirname "$beside")/kit/page"; exit 0; fi
cp -r . "$CALLS.folder.$$"
for name in $(awk -F'[: ]+' '{ print $1, $1; for (i = 2; i <= NF; i++) if ($i) print $i, $1 }' \
  crates.txt | tsort); do
  if [ "$(cat "$beside/waits" 2>/dev/null)" = "$name" ]; then
    sleep 100 &
    trap "kill $!; exit 1" TERM
    echo $$ $! >>"$CALLS.processes"
    wait
  fi
  if [ -e "$beside/proved/$name" ]; then
    echo "rt: $name is kept: an earlier run proved it"
    continue
  fi
  echo "$1 $name" >>"$CALLS"
  [ -d "$beside/proved" ] && touch "$beside/proved/$name"
  echo "rt: $name proved"
done
"""
# The program that this linker makes shows its words, copies its input, and ends with a status of
# its own.
LINKER = """#!/bin/sh
while [ "$1" != -o ]; do shift; done
cat >"$2" <<'END'
#!/bin/sh
for word; do printf '[%s]' "$word"; done
cat
exit 9
END
chmod +x "$2"
"""


def written(room, path, text):
    with open(os.path.join(room, path), "w", encoding="utf-8") as file:
        file.write(text)


def repository(room):
    """A small repository."""
    launcher.repository(room)
    for path, text in (("bin/rt", STAND_IN), ("kit/bin/rattle-link", LINKER)):
        written(room, path, text)


def call(room, words=(), given=b""):
    """One call: its status, what it printed, and what was proved in it."""
    calls = os.path.join(room, "calls")
    open(calls, "w", encoding="utf-8").close()
    done = subprocess.run(
        [os.path.join(room, "blossom"), *words],
        input=given,
        capture_output=True,
        env=launcher.environment(room),
    )
    with open(calls, encoding="utf-8") as file:
        return done.returncode, done.stdout, file.read().splitlines()


def words(tests):
    """The program gets the very words and the input of a call, also where this one builds it, and
    the call ends with its status."""
    with tempfile.TemporaryDirectory() as room:
        repository(room)
        for line in (
            [],
            ["solve", "perfect"],
            ["two words", "", " ", "*", "-n", "$HOME", "a\nb", "--brief"],
            [""],
        ):
            wanted = (9, "".join("[%s]" % word for word in line).encode() + b"an input\n")
            tests.compare("the words %r" % line, "", wanted, call(room, line, b"an input\n")[:2])


def files(folder):
    """The files below a folder, by their paths, and what they hold."""
    found = {}
    for at, _, names in os.walk(folder):
        for name in names:
            with open(os.path.join(at, name), encoding="utf-8") as file:
                found[os.path.relpath(os.path.join(at, name), folder)] = file.read()
    return found


def folder(tests):
    """A build is made in a folder that has all sources of the crates below the program, and
    HANDLES; and no more."""
    with tempfile.TemporaryDirectory() as room:
        repository(room)
        lines = launcher.CRATES.replace("other: low\n", "").replace("blossom: low\n", "")
        wanted = {"HANDLES": "none", "crates.txt": lines}
        for name in ("blossom", "low", "left", "right", "other"):
            for path in (
                "src/inner/more.rt",
                "specs/Some.antt",
                "proofs/inner/Some.antt",
                "must-fail/one.edit",
                "out/old",
                "README.md",
                *RUN_WITH,
            ):
                at = os.path.join("crates", name, path)
                os.makedirs(os.path.dirname(os.path.join(room, at)), exist_ok=True)
                with open(os.path.join(room, at), "w", encoding="utf-8") as file:
                    file.write("%s of %s" % (path, name))
                is_source = path.split("/")[0] in ("src", "specs", "proofs")
                if is_source and name not in ("other", "blossom"):
                    wanted[at] = "%s of %s" % (path, name)
            if name not in ("other", "blossom"):
                wanted[os.path.join("crates", name, "src", "lib.rt")] = "// " + name
        call(room)
        copies = [name for name in os.listdir(room) if name.startswith("calls.folder.")]
        tests.compare("the folders of a build", "", 1, len(copies))
        found = files(os.path.join(room, copies[0]))
        found["crates.txt"] = "".join(sorted(found["crates.txt"].splitlines(keepends=True)))
        wanted["crates.txt"] = "".join(sorted(wanted["crates.txt"].splitlines(keepends=True)))
        tests.compare("what a build is made of", "", wanted, found)


def goes_on(tests):
    """A build that was interrupted goes on with what isn't kept."""
    with tempfile.TemporaryDirectory() as room:
        repository(room)
        os.makedirs(os.path.join(room, "bin", "proved"))
        written(room, "bin/waits", "right\n")
        open(os.path.join(room, "calls"), "w", encoding="utf-8").close()
        started, numbers = launcher.started(room)
        started.send_signal(signal.SIGINT)
        started.communicate()
        with open(os.path.join(room, "calls"), encoding="utf-8") as file:
            before = file.read().splitlines()
        tests.compare(
            "a build that is interrupted",
            "",
            (130, ["ci left"], True),
            (started.returncode, before, launcher.are_gone(numbers)),
        )
        os.remove(os.path.join(room, "bin", "waits"))
        left = ["ci right", "ci low", "build blossom"]
        tests.compare("and goes on", "", (9, b"", left), call(room))


def copied(room):
    """A copy of what `./blossom` is built from."""
    for path in ("blossom", "crates.txt", "HANDLES", "VERSION"):
        shutil.copy(os.path.join(TOP, path), room)
    for path in ("crates", "scripts"):
        shutil.copytree(
            os.path.join(TOP, path),
            os.path.join(room, path),
            ignore=shutil.ignore_patterns("out", "__pycache__"),
        )


def keeps():
    """Whether this toolchain's `rt ci`, which has just passed, keeps what it proved."""
    page = subprocess.run(["rt", "doc"], capture_output=True, text=True).stdout.strip()
    beside = os.path.dirname(os.path.dirname(page))
    return bool(page) and os.path.isdir(os.path.join(beside, "rattle-kept"))


def by_the_kit(tests):
    """One whole build by the kit, over what is kept, of a copy of the sources: the program answers,
    and its crates were said one by one."""
    if not keeps():
        tests.skip("builds.by_the_kit", "this toolchain keeps nothing: it would prove all anew")
        return
    given = b"p edge 2 1\ne 1 2 5\n"
    with tempfile.TemporaryDirectory() as room:
        copied(room)
        words = [os.path.join(room, "blossom"), "solve", "perfect"]
        done = subprocess.run(words, input=given, capture_output=True)
        answer = b"s OPTIMAL perfect 5\nx 1 1\ny 1 5\ny 2 5\n"
        ended = (done.returncode, done.stdout)
        tests.compare("a build by the kit", given, (0, answer), ended)
        said = re.findall(r"^blossom: (\d+) of (\d+): \w+, ", done.stderr.decode(), re.M)
        count = len(script("sources").crates_below("blossom"))
        wanted = [(str(number), str(count)) for number in range(1, count + 1)]
        tests.compare("the crates that it says", given, wanted, said)
        again = subprocess.run(words, input=given, capture_output=True)
        ended = (again.returncode, again.stdout, again.stderr)
        tests.compare("a call after that", given, (0, answer, b""), ended)


def check(tests):
    for part in (words, folder, goes_on):
        part(tests)
