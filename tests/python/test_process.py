"""The program as a process: where it is found, and how calls end that don't end well."""
import contextlib
import io
import os
import shutil
import signal
import subprocess
import sys
import tempfile
import time
import unittest
from unittest import mock

import blossom
from blossom.checkout import is_built_as_stamped, released_command
from blossom.library import find_library
from blossom.process import Process, Running, find_program
from blossom.processors import processors
from support import TOP

EDGE = [("a", "b", 1)]


@contextlib.contextmanager
def stand_in(text):
    """A program with this text of the shell."""
    with tempfile.TemporaryDirectory() as room:
        path = os.path.join(room, "stand-in")
        with open(path, "w", encoding="utf-8") as file:
            file.write("#!/bin/sh\n" + text)
        os.chmod(path, 0o755)
        yield path


def write(room, path, text):
    """Writes a file of this path in a folder."""
    os.makedirs(os.path.dirname(os.path.join(room, path)), exist_ok=True)
    with open(os.path.join(room, path), "w", encoding="utf-8") as file:
        file.write(text)


@contextlib.contextmanager
def small_checkout():
    """A folder that looks like a checkout of one crate, where nothing is built."""
    with tempfile.TemporaryDirectory() as room:
        for path in (
            "blossom",
            "crates.txt",
            "HANDLES",
            "VERSION",
            "crates/blossom/src/main.rt",
            "crates/blossom/out/build.log",
        ):
            write(room, path, path)
        yield room


@contextlib.contextmanager
def installed(places, record, size=4):
    """The folder where a release of the package is installed, with a command of four bytes at these
    places, and a record that states one place, if any, and its size."""
    with tempfile.TemporaryDirectory() as room, mock.patch.dict(os.environ):
        os.environ.pop("BLOSSOM", None)
        site = os.path.join(room, "lib", "site")
        write(site, "blossom/release/PROVED.json", "")
        for place in places:
            write(site, place, "1234")
        if record:
            line = "blossom/a.py,,\n%s,sha256=0,%d\n" % (record, size)
            write(site, "blossom-7.8.9.dist-info/RECORD", line)
        here = os.path.join(site, "blossom")
        with mock.patch.multiple(
            "blossom.checkout",
            HERE=here,
            RELEASE=os.path.join(here, "release"),
            version=lambda: "7.8.9",
        ):
            released_command.cache_clear()
            yield site
        released_command.cache_clear()


@contextlib.contextmanager
def copied_checkout(target, place):
    """A folder with this checkout's scripts and a target that is stamped as of its sources, without
    a note how they look."""
    with tempfile.TemporaryDirectory() as room:
        for crate in ("blossom", "blossom_c"):
            write(room, "crates/%s/src/lib.rt" % crate, crate)
        for path in ("blossom", "HANDLES", "VERSION"):
            write(room, path, path)
        write(room, "crates.txt", "blossom:\nblossom_c:\n")
        shutil.copytree(os.path.join(TOP, "scripts"), os.path.join(room, "scripts"))
        write(room, os.path.join(*place), "built")
        write(room, "capi/out/libblossom.a", "built")
        told = "from targets import TARGETS; print(TARGETS[%r].sources())" % target
        done = subprocess.run(
            [sys.executable, "-c", told],
            cwd=os.path.join(room, "scripts"),
            stdout=subprocess.PIPE,
            check=True,
        )
        write(room, os.path.join(*place[:-1], "blossom.sources"), done.stdout.decode("ascii"))
        yield room


class Found(unittest.TestCase):
    def test_the_argument_goes_before_the_environment(self):
        with mock.patch.dict(os.environ, BLOSSOM="/there"):
            self.assertEqual((find_program("/here"), find_program()), ("/here", "/there"))

    def test_the_checkout_goes_before_the_path(self):
        with mock.patch.dict(os.environ):
            os.environ.pop("BLOSSOM", None)
            self.assertIn(
                find_program(),
                (
                    os.path.join(TOP, "crates", "blossom", "out", "blossom"),
                    os.path.join(TOP, "out", "dist", "blossom"),
                    os.path.join(TOP, "blossom"),
                ),
            )
            with mock.patch("blossom.process.checkout", lambda: None):
                with mock.patch("shutil.which", lambda name: "/in/the/path/" + name):
                    self.assertEqual(find_program(), "/in/the/path/blossom")
                with mock.patch("shutil.which", lambda name: None), self.assertRaisesRegex(
                    blossom.SolverError, "pass program="
                ):
                    find_program()

    def test_a_program_of_other_sources_is_not_taken(self):
        with mock.patch.dict(os.environ), small_checkout() as room, mock.patch(
            "blossom.process.checkout", lambda: room
        ):
            os.environ.pop("BLOSSOM", None)
            launcher, built = os.path.join(room, "blossom"), os.path.join(
                room, "crates", "blossom", "out", "blossom"
            )
            self.assertEqual(self.found(), launcher)
            open(built, "w", encoding="utf-8").close()
            self.assertEqual(self.found(), launcher)
            self.look(room, built)
            self.assertEqual(self.found(), built)
            for change in (
                lambda: os.utime(os.path.join(room, "crates", "blossom", "src", "main.rt"), (1, 1)),
                lambda: write(room, "HANDLES", "more"),
                lambda: write(room, "crates.txt", "more"),
                lambda: write(room, "crates/blossom/src/more.antt", ""),
                lambda: os.rename(
                    os.path.join(room, "crates", "blossom", "src", "main.rt"),
                    os.path.join(room, "crates", "blossom", "src", "lib.rt"),
                ),
            ):
                change()
                self.assertEqual(self.found(), launcher)
                self.look(room, built)
                self.assertEqual(self.found(), built)
            write(room, "crates/blossom/README.md", "no source")
            write(room, "crates/blossom/must-fail/one.edit", "no source")
            self.assertEqual(self.found(), built)

    def test_a_release_has_its_own(self):
        with tempfile.TemporaryDirectory() as room, mock.patch(
            "blossom.checkout.RELEASE", room
        ), mock.patch.dict(os.environ):
            os.environ.pop("BLOSSOM_LIBRARY", None)
            write(room, "libblossom.so", "")
            self.assertEqual(find_library(), os.path.join(room, "libblossom.so"))
            os.environ["BLOSSOM_LIBRARY"] = "/there"
            self.assertEqual((find_library("/here"), find_library()), ("/here", "/there"))

    def test_a_release_has_its_program_where_the_installer_put_it(self):
        recorded = "../../bin/blossom"
        for places, record, wanted in (
            ([recorded], recorded, recorded),
            (["bin/blossom"], recorded, "bin/blossom"),
            ([recorded, "bin/blossom"], recorded, recorded),
            ([recorded, "bin/blossom"], None, "bin/blossom"),
            (["blossom-7.8.9.data/scripts/blossom"], None, "blossom-7.8.9.data/scripts/blossom"),
            ([], recorded, None),
        ):
            with installed(places, record) as site:
                found = released_command("blossom")
                whole = wanted and os.path.realpath(os.path.join(site, wanted))
                self.assertEqual(found, whole)
                if whole:
                    self.assertEqual(find_program(), whole)
        with installed([recorded, "bin/blossom"], recorded, size=5) as site:
            # (what stands at the recorded place is another file)
            place = os.path.realpath(os.path.join(site, "bin/blossom"))
            self.assertEqual(released_command("blossom"), place)
        released_command.cache_clear()
        self.assertIsNone(released_command("blossom"))  # this is a checkout

    def test_a_copy_of_the_same_bytes_is_taken(self):
        for target, find, place in (
            ("program", find_program, ("crates", "blossom", "out", "blossom")),
            ("library", find_library, ("capi", "out", "libblossom.so")),
        ):
            with mock.patch.dict(os.environ), copied_checkout(target, place) as room:
                os.environ.pop("BLOSSOM", None)
                os.environ.pop("BLOSSOM_LIBRARY", None)
                built = os.path.join(room, *place)
                with mock.patch(find.__module__ + ".checkout", lambda: room):
                    is_built_as_stamped.cache_clear()
                    self.assertEqual(find(), built)
                    with mock.patch("subprocess.run", side_effect=AssertionError):
                        self.assertEqual(find(), built)  # (it is looked at once)
                        is_built_as_stamped.cache_clear()
                        self.assertEqual(find(), built)  # (and noted for other processes)
                    write(room, "HANDLES", "other")
                    is_built_as_stamped.cache_clear()
                    self.assertFalse(self.is_taken(find, built))

    def is_taken(self, find, built):
        """Whether this is found."""
        try:
            return find() == built
        except blossom.SolverError:
            return False

    def test_a_build_is_seen_in_the_same_process(self):
        with mock.patch.dict(os.environ), copied_checkout(
            "program", ("crates", "blossom", "out", "blossom")
        ) as room, mock.patch("blossom.process.checkout", lambda: room):
            os.environ.pop("BLOSSOM", None)
            built = os.path.join(room, "crates", "blossom", "out", "blossom")
            stamp = os.path.join(os.path.dirname(built), "blossom.sources")
            with open(stamp, encoding="ascii") as file:
                right = file.read()
            write(room, os.path.relpath(stamp, room), "0" * 64 + "\n")
            is_built_as_stamped.cache_clear()
            self.assertEqual(find_program(), os.path.join(room, "blossom"))
            os.remove(stamp)
            write(room, os.path.relpath(stamp, room), right)
            self.assertEqual(find_program(), built)

    def test_an_unbuilt_checkout_says_what_the_launcher_said(self):
        with small_checkout() as room, mock.patch(
            "blossom.process.checkout", lambda: room
        ), mock.patch.dict(os.environ):
            os.environ.pop("BLOSSOM", None)
            is_built_as_stamped.cache_clear()
            for text, told in (
                ("echo 1 >&2; echo no kit >&2; exit 69", "status 69.*: 1\nno kit$"),
                ("cat >/dev/null; echo it is unfit >&2; exit 1", "status 1.*: it is unfit$"),
                ("seq 9 >&2; exit 70", "status 70.*: 5\n6\n7\n8\n9$"),
                ("exit 77", "status 77"),
            ):
                write(room, "blossom", "#!/bin/sh\n" + text)
                os.chmod(os.path.join(room, "blossom"), 0o755)
                with mock.patch("sys.stderr", io.StringIO()) as passed_on:
                    with self.assertRaisesRegex(blossom.SolverError, told):
                        blossom.min_weight_perfect_matching(EDGE, engine="process")
                self.assertEqual("no kit" in told, "no kit\n" in passed_on.getvalue())

    def test_processors_are_those_that_may_be_used(self):
        with mock.patch("os.sched_getaffinity", lambda process: {2, 5, 7}, create=True):
            self.assertEqual(processors(), 3)

    def found(self):
        """What is found in a process that hasn't looked yet."""
        is_built_as_stamped.cache_clear()
        return find_program()

    def look(self, room, built):
        """Notes what the sources look like, as the build does."""
        sys.path.append(os.path.join(TOP, "scripts"))
        from targets import LOOK

        sys.path.pop()
        with open(built + ".look", "wb") as file:
            subprocess.run(LOOK, cwd=room, stdout=file, check=True)

    def test_a_program_that_is_not_there(self):
        with self.assertRaisesRegex(blossom.SolverError, "can't be started"):
            blossom.min_weight_perfect_matching(EDGE, program="/nowhere/blossom")


class Ends(unittest.TestCase):
    def test_a_call_that_takes_too_long_is_stopped(self):
        with stand_in("exec sleep 60") as path:
            start = time.monotonic()
            with self.assertRaises(blossom.TimeLimit) as told:
                blossom.min_weight_perfect_matching(EDGE, program=path, timeout=0.2)
            self.assertLess(time.monotonic() - start, 20)
            self.assertIsInstance(told.exception, TimeoutError)

    def test_a_time_limit_that_is_kept(self):
        self.assertEqual(blossom.min_weight_perfect_matching(EDGE, timeout=60).weight, 1)

    def test_statuses_that_are_no_answer(self):
        for text, words in (
            ("exit 8", "out of memory"),
            ("exit 2", "unknown command"),
            ("exit 77", "status 77"),
            ("exit 4", "status 4"),
            ("kill -9 $$", "signal"),
            ("echo hello", "invalid line in the document"),
            ("true", "isn't blossom: it printed nothing"),
            ("echo s OPTIMAL perfect x", "invalid line"),
        ):
            with stand_in(text) as path, self.assertRaisesRegex(blossom.SolverError, words):
                blossom.min_weight_perfect_matching(EDGE, program=path).weight
        for text in (
            "echo hello",
            "echo s ACCEPTED; exit 1",
            "echo s REJECTED Slack 3",
            "echo s REJECTED; exit 1",
        ):
            with stand_in(text) as path, self.assertRaisesRegex(
                blossom.SolverError, "unexpected output of the checker"
            ):
                blossom.check(EDGE, "perfect", "", program=path)
        with stand_in("echo s TOOLONG; exit 5") as path, self.assertRaises(blossom.LimitExceeded):
            blossom.min_weight_perfect_matching(EDGE, program=path)

    def test_an_interrupt_ends_the_process_too(self):
        with stand_in("echo $$ > $0.pid; exec sleep 60") as path:
            # where the tests run in the background, interrupts are ignored unless they are asked
            # for
            code = (
                "import blossom, signal; signal.signal(signal.SIGINT, signal.default_int_handler); blossom.solve([(1, 2)], program=%r)"
                % path
            )
            child = subprocess.Popen([sys.executable, "-c", code], stderr=subprocess.DEVNULL)
            number = self.number_in(path + ".pid")
            time.sleep(1)  # until the caller waits for the process that it just started
            os.kill(child.pid, signal.SIGINT)  # to the caller alone, and not to the process
            self.assertNotEqual(child.wait(60), 0)
            self.gone(number)

    def test_what_runs_can_be_stopped_from_another_thread(self):
        running = Running()
        with subprocess.Popen(["sleep", "60"]) as early, subprocess.Popen(["sleep", "60"]) as late:
            running.add(early)
            running.stop()
            running.add(late)
            self.assertEqual((early.wait(20), late.wait(20)), (-9, -9))

    def test_what_has_ended_is_kept_no_longer(self):
        running = Running()
        with stand_in("exit 2") as path:
            self.assertEqual(Process(path).run("solve", "perfect", b"", running=running)[0], 2)
        self.assertEqual(running.children, set())

    def number_in(self, path):
        for _ in range(1200):
            if os.path.exists(path) and open(path, encoding="utf-8").read().strip():
                return int(open(path, encoding="utf-8").read())
            time.sleep(0.05)
        self.fail("the stand-in was never started")

    def gone(self, number):
        for _ in range(1200):
            try:
                os.kill(number, 0)
            except ProcessLookupError:
                return
            time.sleep(0.05)
        self.fail("the process still runs")
