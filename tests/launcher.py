"""What `./blossom` does about builds, with a stand-in for the command that proves and builds
crates: it builds once, goes on where it was, after a failed build never runs an older program, ends
whole when it is stopped, and says what is missing."""
import concurrent.futures
import contextlib
import os
import shutil
import signal
import subprocess
import sys
import tempfile
import time

TOP = os.path.join(os.path.dirname(os.path.abspath(__file__)), "..")
# Notes which crates it proves, and keeps them beside itself where there is a folder for that, for
# another run; but fails on one that has a file `broken` among its sources, or whose must-fail edits
# are there. Beside a file `slow` it works, in a process of its own, until it is told to end, and
# takes that along; beside a file `pause` it waits a second first.
STAND_IN = """#!/bin/sh
kept=$(dirname "$0")/../rattle-kept
if [ "$1" = doc ]; then echo "$(dirname "$(dirname "$0")")/kit/page"; exit 0; fi
if [ -e "$(dirname "$0")/pause" ]; then sleep 1; fi
if [ -e "$(dirname "$0")/slow" ]; then
  sleep 100 &
  trap "kill $!; exit 1" TERM
  echo $$ $! >>"$CALLS.processes"
  wait
fi
for name in $(awk -F'[: ]+' '{ print $1, $1; for (i = 2; i <= NF; i++) if ($i) print $i, $1 }' \
  crates.txt | tsort); do
  if [ -e crates/$name/src/broken ]; then echo "the proof of $name failed"; exit 3; fi
  if [ -e crates/$name/must-fail ]; then echo "$name has edits"; exit 4; fi
  if [ -d "$kept" ] && ! mkdir "$kept/$name" 2>/dev/null; then
    while [ ! -e "$kept/$name/proved" ]; do sleep 0.1; done
    echo "rt: $name is kept: an earlier run proved it"
  else
    echo "$1 $name" >>"$CALLS"
    [ -d "$kept" ] && touch "$kept/$name/proved"
    echo "rt: $name proved"
  fi
done
"""
# Stand-ins for the compiler, which notes the crate that it compiles, fails on one that has a file
# `unfit` among its sources, and beside a file `slow` works until it is told to end; and for the
# linker, which makes the program.
COMPILER = """#!/bin/sh
for word; do made=$word; done
if [ -e "$(dirname "$0")/slow" ]; then echo $$ $PPID >>"$CALLS.processes"; exec sleep 100; fi
if [ -e src/unfit ]; then echo "it is unfit"; exit 5; fi
echo "build $(basename "$PWD")" >>"$CALLS"
echo object >"$made"
"""
LINKER = """#!/bin/sh
while [ "$1" != -o ]; do shift; done
printf '#!/bin/sh\\necho made\\n' >"$2"
chmod +x "$2"
"""


# The seconds after which a call of the launcher hangs.
LONGEST = 300
# The program stands on `low`, which stands on two crates; `other` is none that it needs.
CRATES = "blossom: low\nlow: left right\nleft:\nright:\nother: low\n"


def repository(room, crates=CRATES):
    """A small repository of these crates with the launcher."""
    os.makedirs(os.path.join(room, "bin"))
    for name in (line.split(":")[0] for line in crates.splitlines()):
        os.makedirs(os.path.join(room, "crates", name, "src"))
        with open(
            os.path.join(room, "crates", name, "src", "lib.rt"), "w", encoding="utf-8"
        ) as file:
            file.write("// " + name)
        os.makedirs(os.path.join(room, "crates", name, "must-fail"))
    os.makedirs(os.path.join(room, "kit", "bin"))
    for path, text in (
        ("crates.txt", crates),
        ("HANDLES", "none"),
        ("VERSION", "1.2.3"),
        ("bin/rt", STAND_IN),
        ("kit/bin/rattle", COMPILER),
        ("kit/bin/rattle-link", LINKER),
    ):
        with open(os.path.join(room, path), "w", encoding="utf-8") as file:
            file.write(text)
        if "bin" in path:
            os.chmod(os.path.join(room, path), 0o755)
    os.makedirs(os.path.join(room, "scripts"))
    for path in (
        "blossom",
        "scripts/build.py",
        "scripts/compiling.py",
        "scripts/dist_program.py",
        "scripts/link_library.py",
        "scripts/link_program.py",
        "scripts/sources.py",
        "scripts/targets.py",
    ):
        shutil.copy(os.path.join(TOP, path), os.path.join(room, path))


def environment(room, kit=True):
    """What the launcher is started with: the stand-in is the first `rt` in PATH, or there is none.
    A stand-in notes each call of Python."""
    folders = [
        folder
        for folder in os.environ["PATH"].split(os.pathsep)
        if kit or not os.path.exists(os.path.join(folder, "rt"))
    ]
    os.makedirs(os.path.join(room, "python"), exist_ok=True)
    with open(os.path.join(room, "python", "python3"), "w", encoding="utf-8") as file:
        file.write('#!/bin/sh\necho python3 >>"$CALLS.pythons"\nexec %s "$@"\n' % sys.executable)
    os.chmod(os.path.join(room, "python", "python3"), 0o755)
    os.makedirs(os.path.join(room, "tmp"), exist_ok=True)
    return dict(
        os.environ,
        CALLS=os.path.join(room, "calls"),
        TMPDIR=os.path.join(room, "tmp"),
        PATH=os.pathsep.join(
            [os.path.join(room, "python"), *([os.path.join(room, "bin")] if kit else []), *folders]
        ),
    )


def call(room, kit=True):
    """One call of the launcher: its status, what it printed, what it said, and what was built in
    it."""
    calls = os.path.join(room, "calls")
    open(calls, "w", encoding="utf-8").close()
    done = subprocess.run(
        [os.path.join(room, "blossom")],
        capture_output=True,
        text=True,
        stdin=subprocess.DEVNULL,
        env=environment(room, kit),
        timeout=LONGEST,
    )
    with open(calls, encoding="utf-8") as file:
        return done.returncode, done.stdout, done.stderr, file.read().splitlines()


def pythons(room):
    """How many times Python was called since this was asked last."""
    path = os.path.join(room, "calls.pythons")
    if not os.path.exists(path):
        return 0
    with open(path, encoding="utf-8") as file:
        count = len(file.readlines())
    os.remove(path)
    return count


def change(room, name):
    with open(os.path.join(room, "crates", name, "src", "lib.rt"), "a", encoding="utf-8") as file:
        file.write("\n// more")


def looks(tests):
    """A call looks at names, sizes and times alone; where these are others a checksum tells whether
    there is something to build."""
    with tempfile.TemporaryDirectory() as room:
        repository(room)
        source = os.path.join(room, "crates", "low", "src", "lib.rt")
        call(room)
        pythons(room)
        tests.compare(
            "a call of a built program takes no checksum",
            "",
            ((0, "made\n", "", []), 0),
            (call(room), pythons(room)),
        )
        os.utime(source, (1, 1))
        tests.compare(
            "after a change of a time it does, and builds nothing",
            "",
            ((0, "made\n", "", []), 1),
            (call(room), pythons(room)),
        )
        tests.compare("once", "", ((0, "made\n", "", []), 0), (call(room), pythons(room)))
        told = os.stat(source)
        with open(source, encoding="utf-8") as file:
            text = file.read()
        with open(source, "w", encoding="utf-8") as file:
            file.write(text[::-1])
        os.utime(source, ns=(told.st_atime_ns, told.st_mtime_ns))
        status, output, _, built = call(room)
        tests.compare(
            "a change that leaves size and time as they were is seen",
            "",
            (0, "made\n", True),
            (status, output, "ci low" in built),
        )
        os.rename(source, os.path.join(room, "crates", "low", "src", "other.rt"))
        status, output, _, built = call(room)
        tests.compare(
            "and so is another name", "", (0, "made\n", True), (status, output, "ci low" in built)
        )
        for path, text in (
            ("crates/low/src/more.antt", "-- more"),
            ("HANDLES", "more"),
            ("crates.txt", CRATES.replace("left:", "left: right")),
        ):
            with open(os.path.join(room, path), "w", encoding="utf-8") as file:
                file.write(text)
            status, output, _, built = call(room)
            tests.compare(
                "and so is a change of " + path,
                "",
                (0, "made\n", True),
                (status, output, "ci low" in built),
            )
        os.remove(os.path.join(room, "crates", "blossom", "out", "blossom.sources"))
        os.remove(os.path.join(room, "crates", "blossom", "out", "blossom.look"))
        tests.compare(
            "a program without its stamp isn't run", "", True, "build blossom" in call(room)[3]
        )


def without_kit(tests):
    """Without the toolchain one line says what is missing and where a release is; what is built of
    the present sources runs."""
    with tempfile.TemporaryDirectory() as room:
        repository(room)
        status, output, said, _ = call(room, kit=False)
        tests.compare(
            "without the toolchain",
            "",
            (69, "", 1, True),
            (
                status,
                output,
                len(said.splitlines()),
                "the command rt is not in PATH" in said and '"Install" in README.md' in said,
            ),
        )
        with open(os.path.join(TOP, "README.md"), encoding="utf-8") as file:
            tests.compare(
                "the heading that it names", "", True, "\n## Install\n" in file.read()
            )
        call(room)
        os.utime(os.path.join(room, "crates", "low", "src", "lib.rt"), (1, 1))
        tests.compare(
            "without the toolchain, after a build", "", (0, "made\n", "", []), call(room, kit=False)
        )
        change(room, "low")
        tests.compare(
            "without the toolchain, after a change", "", (69, ""), call(room, kit=False)[:2]
        )


def started(room, words=()):
    """A launcher whose build is at work: its process, and the numbers of those that work."""
    with contextlib.suppress(FileNotFoundError):
        os.remove(os.path.join(room, "calls.processes"))
    launcher = subprocess.Popen(
        [os.path.join(room, "blossom"), *words],
        stdin=subprocess.DEVNULL,
        stdout=subprocess.PIPE,
        stderr=subprocess.DEVNULL,
        env=environment(room),
    )
    return launcher, at_work(room)


def at_work(room):
    """The numbers of the processes that the stand-in works in, once they are there."""
    for _ in range(1200):
        with contextlib.suppress(OSError), open(
            os.path.join(room, "calls.processes"), encoding="utf-8"
        ) as file:
            numbers = [int(number) for number in file.read().split()]
            if numbers:
                return numbers
        time.sleep(0.05)
    return []


def are_gone(numbers):
    """Whether these processes end."""
    for _ in range(1200):
        if not any(os.path.exists("/proc/%d" % number) for number in numbers):
            return True
        time.sleep(0.05)
    return False


def left(room):
    """What a build has left: of its folders, and of its program."""
    for _ in range(200):
        if not os.listdir(os.path.join(room, "tmp")):
            break
        time.sleep(0.05)
    out = os.path.join(room, "crates", "blossom", "out")
    return os.listdir(os.path.join(room, "tmp")), [
        name for name in os.listdir(out) if name in ("blossom", "blossom.sources", "blossom.look")
    ]


def stops(tests):
    """A build that is stopped ends whole: its status tells the signal, nothing of it runs or lies
    about, and the next call builds."""
    for number, status in (
        (signal.SIGINT, 130),
        (signal.SIGTERM, 143),
        (signal.SIGHUP, 129),
        (signal.SIGKILL, -9),
    ):
        with tempfile.TemporaryDirectory() as room:
            repository(room)
            open(os.path.join(room, "bin", "slow"), "w", encoding="utf-8").close()
            launcher, numbers = started(room)
            launcher.send_signal(number)
            output = launcher.communicate()[0]
            tests.compare(
                "a build that signal %d stops" % number,
                "",
                (status, b"", True, True),
                (launcher.returncode, output, len(numbers) == 2, are_gone(numbers)),
            )
            tests.compare("what signal %d leaves of it" % number, "", ([], []), left(room))
            os.remove(os.path.join(room, "bin", "slow"))
            tests.compare("and the next call", "", (0, "made\n"), call(room)[:2])


def stops_compiling(tests):
    """A build that is killed itself takes the compiler along."""
    with tempfile.TemporaryDirectory() as room:
        repository(room)
        slow = os.path.join(room, "kit", "bin", "slow")
        open(slow, "w", encoding="utf-8").close()
        launcher, numbers = started(room)
        os.kill(numbers[1], signal.SIGKILL)
        launcher.communicate()
        tests.compare(
            "a build that is killed while its program is compiled",
            "",
            (137, True),
            (launcher.returncode, are_gone(numbers)),
        )
        os.remove(slow)
        tests.compare("and the call after it", "", (0, "made\n"), call(room)[:2])


def time_limit(tests):
    """A build that a call from Python has started ends with its time limit."""
    with tempfile.TemporaryDirectory() as room:
        repository(room)
        open(os.path.join(room, "bin", "slow"), "w", encoding="utf-8").close()
        code = (
            "import blossom\ntry:\n    blossom.min_weight_perfect_matching([(1, 2)], program=%r, timeout=3)\n"
            "except blossom.TimeLimit:\n    print('stopped')\n"
        )
        caller = subprocess.Popen(
            [sys.executable, "-c", code % os.path.join(room, "blossom")],
            stdout=subprocess.PIPE,
            stderr=subprocess.DEVNULL,
            text=True,
            env=dict(environment(room), PYTHONPATH=os.path.join(TOP, "python")),
        )
        numbers = at_work(room)
        tests.compare(
            "a time limit from Python",
            "",
            ("stopped\n", True, True),
            (caller.communicate()[0], len(numbers) == 2, are_gone(numbers)),
        )
        tests.compare("what it leaves", "", ([], []), left(room))


def at_once(tests):
    """Calls at once build once."""
    with tempfile.TemporaryDirectory() as room:
        repository(room)
        open(os.path.join(room, "bin", "pause"), "w", encoding="utf-8").close()
        words, given = [os.path.join(room, "blossom")], environment(room)
        with concurrent.futures.ThreadPoolExecutor(3) as executor:
            answers = list(
                executor.map(
                    lambda turn: subprocess.run(words, capture_output=True, env=given).stdout,
                    range(3),
                )
            )
        with open(os.path.join(room, "calls"), encoding="utf-8") as file:
            tests.compare(
                "three calls at once",
                "",
                ([b"made\n"] * 3, 1),
                (answers, file.read().count("build blossom\n")),
            )


def ended_after(targets, room, last):
    """Puts old files and then new ones into a folder, and ends after so many steps. Answers whether
    it came to its end, the stamp, and what stands there."""
    target = targets.Target("blossom", room, ("one", "other"))
    steps, kept = iter(range(last)), {name: getattr(os, name) for name in ("replace", "remove")}

    def counted(name):
        def step(*words):
            if next(steps, None) is None:
                raise InterruptedError
            return kept[name](*words)

        return step

    try:
        os.replace, os.remove = counted("replace"), counted("remove")
        for text in ("old", "new"):
            write(os.path.join(room, "made"), text)
            target.put([os.path.join(room, "made")] * 2, text)
        is_whole = True
    except InterruptedError:
        is_whole = False
    finally:
        os.replace, os.remove = kept["replace"], kept["remove"]
    stamp = read(target.stamp)
    return is_whole, stamp, [read(os.path.join(room, name)) for name in target.names]


def write(path, text):
    with open(path, "w", encoding="utf-8") as file:
        file.write(text)


def read(path):
    """What a file says; None where there is none."""
    with contextlib.suppress(FileNotFoundError), open(path, encoding="utf-8") as file:
        return file.read().strip()
    return None


def order(tests):
    """Wherever a build ends, no program stands there without the stamp of its own sources."""
    if os.path.join(TOP, "scripts") not in sys.path:
        sys.path.append(os.path.join(TOP, "scripts"))
    import targets

    whole = []
    for last in range(16):
        with tempfile.TemporaryDirectory() as room:
            is_whole, stamp, there = ended_after(targets, room, last)
        whole.append(is_whole)
        name = "what stands under a stamp, %d steps into a build" % last
        tests.compare(name, "", [], [text for text in there if text not in (None, stamp)])
    tests.compare(
        "builds that were ended, and one that wasn't", "", (False, True), (whole[0], whole[-1])
    )


def check(tests):
    for part in (builds, looks, without_kit, stops, stops_compiling, time_limit, at_once, order):
        part(tests)


def builds(tests):
    """What is built, and when."""
    with tempfile.TemporaryDirectory() as room:
        repository(room)
        broken = os.path.join(room, "crates", "low", "src", "broken")
        every = ["ci left", "ci right", "ci low", "build blossom"]
        status, output, said, built = call(room)
        tests.compare(
            "the first call builds what the program stands on, without must-fail edits",
            "",
            (0, "made\n", every),
            (status, output, built),
        )
        tests.compare(
            "a line a crate is said",
            "",
            [
                "blossom: 1 of 4: left",
                "blossom: 2 of 4: right",
                "blossom: 3 of 4: low",
                "blossom: 4 of 4: blossom",
            ],
            [line.rpartition(",")[0] for line in said.splitlines() if " of " in line],
        )
        tests.compare("a second call builds nothing", "", (0, "made\n", "", []), call(room))
        change(room, "low")
        open(broken, "w", encoding="utf-8").close()
        status, output, said, built = call(room)
        tests.compare(
            "a failed build ends with its status and runs nothing",
            "",
            (3, "", every[:2]),
            (status, output, built),
        )
        tests.compare("the end of its log is shown", "", True, "the proof of low failed" in said)
        status, output, _, built = call(room)
        tests.compare(
            "and so does the next call", "", (3, "", every[:2]), (status, output, built)
        )
        os.remove(broken)
        status, output, _, built = call(room)
        tests.compare("a mended build runs", "", (0, "made\n", every), (status, output, built))
        unfit = os.path.join(room, "crates", "blossom", "src", "unfit")
        change(room, "blossom")
        open(unfit, "w", encoding="utf-8").close()
        status, output, said, built = call(room)
        tests.compare(
            "a program that can't be compiled is none, and why is shown",
            "",
            (5, "", every[:3], True),
            (status, output, built, "it is unfit" in said),
        )
        os.remove(unfit)
        tests.compare("and one that is mended runs", "", (0, "made\n"), call(room)[:2])
        change(room, "other")
        tests.compare("a change of what it doesn't stand on", "", (0, "made\n"), call(room)[:2])
