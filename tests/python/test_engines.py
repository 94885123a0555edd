"""What runs a call if nobody says: the library for small graphs, else a process."""
import concurrent.futures
import contextlib
import inspect
import os
import unittest
from unittest import mock

import blossom
from blossom.documents import read
from blossom.running import FEW_EDGES

ANSWER = b"s OPTIMAL perfect 1\nx 1 1\ny 1 1\ny 2 1\n"
EDGE = [("a", "b", 1)]
BRIEF = b"s OPTIMAL tjoin 1\nx 1 1\n"


class Calls:
    """Stand-ins for the two engines, which note which one was called."""

    def __init__(self, found=True):
        self.noted, self.found = [], found

    def process(self, task, kind, text, timeout=None, running=None):
        self.noted.append("process")
        if task == "check":
            return 0, b"s ACCEPTED\n"
        return 0, BRIEF if kind == "tjoin" else ANSWER

    def library(self, task, asked, timeout=None, running=None):
        self.noted.append("library")
        return 0, read(BRIEF if asked.kind == "tjoin" else ANSWER)

    def judge(self, asked, document, timeout=None):
        self.noted.append("library")
        return 0, b"s ACCEPTED\n"

    def look(self, path, environment):
        if self.found:
            return self
        raise blossom.SolverError("there is none")

    def prepared(self, numbers):
        self.noted.append("library")
        return mock.Mock(used=lambda odd: [0])

    def taken(self):
        """Which engines were called since this was asked."""
        noted, self.noted = self.noted, []
        return noted


@contextlib.contextmanager
def engines(found=True, named=None):
    """The stand-ins in place of both engines."""
    calls = Calls(found)
    with contextlib.ExitStack() as stack:
        for place, stand_in in (
            ("blossom.process.Process.run", calls.process),
            ("blossom.library.Library.solve", calls.library),
            ("blossom.library.Library.judge", calls.judge),
            ("blossom.library.Library._prepared", calls.prepared),
            ("blossom.running.found", calls.look),
        ):
            stack.enter_context(mock.patch(place, stand_in))
        stack.enter_context(mock.patch.dict(os.environ))
        os.environ.pop("BLOSSOM_LIBRARY", None)
        if named:
            os.environ["BLOSSOM_LIBRARY"] = named
        yield calls


class Chosen(unittest.TestCase):
    def solved(self, calls, edges=EDGE, **words):
        """Which engine a call takes."""
        blossom.solve(edges, "perfect", **words)
        return calls.taken()

    def test_a_small_graph_is_the_librarys(self):
        with engines() as calls:
            self.assertEqual(self.solved(calls), ["library"])
            self.assertEqual(self.solved(calls, engine="auto"), ["library"])
            self.assertEqual(self.solved(calls, certificate=False), ["library"])

    def test_a_limit_of_time_wants_a_process(self):
        with engines() as calls:
            self.assertEqual(self.solved(calls, timeout=5), ["process"])

    def test_a_large_graph_wants_a_process(self):
        self.assertEqual(FEW_EDGES, 4096)
        with engines() as calls:
            self.assertEqual(self.solved(calls, EDGE * 4096), ["library"])
            self.assertEqual(self.solved(calls, EDGE * 4097), ["process"])

    def test_without_a_library_it_is_a_process(self):
        with engines(found=False) as calls:
            self.assertEqual(self.solved(calls), ["process"])

    def test_a_library_that_is_named_has_to_be_there(self):
        with engines(found=False, named="/nowhere/libblossom.so"):
            with self.assertRaisesRegex(blossom.SolverError, "there is none"):
                blossom.solve(EDGE, "perfect")

    def test_the_path_of_a_program_means_a_process_of_it(self):
        with engines() as calls:
            self.assertEqual(self.solved(calls, program="/some/blossom"), ["process"])
            self.assertEqual(
                self.solved(calls, program="/some/blossom", engine="auto"), ["process"]
            )

    def test_whoever_says_which_gets_it(self):
        with engines() as calls:
            self.assertEqual(self.solved(calls, engine="process"), ["process"])
            self.assertEqual(self.solved(calls, EDGE * 5000, engine="library"), ["library"])
        with self.assertRaisesRegex(ValueError, "engine must be .*, got 'best'"):
            blossom.solve(EDGE, "perfect", engine="best")

    def test_it_is_the_default_of_every_call(self):
        calls = [getattr(blossom, name) for name in blossom.__all__]
        calls += [blossom.Decoder.from_edges, blossom.Decoder.from_check_matrix]
        defaults = {}
        for call in filter(callable, calls):
            with contextlib.suppress(ValueError, TypeError):
                engine = inspect.signature(call).parameters.get("engine")
                if engine is not None:
                    defaults[call.__qualname__] = engine.default
        self.assertEqual(defaults.pop("check"), None)
        self.assertEqual(set(defaults.values()), {"auto"})
        self.assertGreaterEqual(len(defaults), 15)


class Checked(unittest.TestCase):
    def test_an_own_answer_is_checked_by_the_same_rule(self):
        with engines() as calls:
            answer = blossom.solve(EDGE, "perfect")
            large = blossom.solve(EDGE * 5000, "perfect")
            calls.taken()
            for check, engine in (
                (answer.check, "library"),
                (lambda: answer.check(timeout=5), "process"),
                (lambda: answer.check(engine="process"), "process"),
                (lambda: blossom.check(EDGE, "perfect", answer), "library"),
                (lambda: blossom.check(EDGE, "perfect", answer.certificate), "library"),
                (large.check, "process"),
            ):
                self.assertTrue(check())
                self.assertEqual(calls.taken(), [engine])

    def test_a_document_from_elsewhere_is_checked_by_a_process(self):
        with engines() as calls:
            instance = blossom.Instance.from_graph(EDGE, "perfect")
            for engine in (None, "auto"):
                blossom.check(EDGE, "perfect", ANSWER, engine=engine)
                blossom.Certificate(instance, ANSWER).check(engine=engine)
                blossom.Certificate(instance, read(ANSWER)).check(engine=engine)
                self.assertEqual(calls.taken(), ["process"] * 3)


class Many(unittest.TestCase):
    def test_each_graph_is_chosen_for(self):
        with engines() as calls:
            blossom.solve_many("perfect", [EDGE, EDGE * 5000, EDGE * 200, EDGE])
            self.assertEqual(sorted(calls.taken()), ["library"] * 3 + ["process"])
            blossom.solve_many("perfect", [EDGE, EDGE], timeout=5)
            self.assertEqual(calls.taken(), ["process"] * 2)

    def test_so_it_is_in_an_executor(self):
        with engines() as calls, mock.patch(
            "blossom.library.Library.run",
            lambda own, task, kind, text, timeout=None, running=None: (
                calls.noted.append("library"),
                (0, ANSWER),
            )[1],
        ):
            with concurrent.futures.ThreadPoolExecutor(1) as executor:
                blossom.solve_many("perfect", [EDGE, EDGE * 5000], executor=executor)
                self.assertEqual(calls.taken(), ["library", "process"])

    def test_a_decoder_chooses_once(self):
        small = [(None, 0), (0, 1), (1, None)]
        large = [(node, node + 1) for node in range(4_090)] + [(0, node) for node in range(2, 20)]
        for edges, words, engine in (
            (small, {}, "library"),
            (small, {"timeout": 5}, "process"),
            (small, {"engine": "process"}, "process"),
            (large, {}, "process"),
        ):
            with engines() as calls:
                decoder = blossom.Decoder.from_edges(edges, **words)
                decoder.decode({0} if edges is small else {0, 1})
                self.assertEqual(calls.taken(), [engine])
        with engines(found=False) as calls:
            blossom.Decoder.from_edges(small).decode({0})
            self.assertEqual(calls.taken(), ["process"])
