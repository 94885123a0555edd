"""The same answers by the shared object in this process."""
import concurrent.futures
import ctypes
import os
import re
import threading
import unittest
from unittest import mock

import blossom
from blossom import array_library, documents
from blossom import library as library_module
from blossom.library import find_library
from support import TOP, TRIANGLES, instances, library_or_skip


class Same(unittest.TestCase):
    def setUp(self):
        self.path = library_or_skip()

    def test_answers_are_those_of_the_program(self):
        process, library = blossom.Process(), blossom.Library(self.path)
        for kind in blossom.KINDS:
            for edges, words in instances(kind, 8, seed=3):
                of = blossom.Instance.from_graph(edges, kind, **words)
                for task in ("solve", "brief"):
                    told = process.run(task, kind, of.text)
                    self.assertEqual(told, library.run(task, kind, of.text))
                    self.same_over_arrays(library, task, of, *told)
                whole = of.text + process.run("solve", kind, of.text)[1]
                self.assertEqual(
                    process.run("check", kind, whole), library.run("check", kind, whole)
                )

    def same_over_arrays(self, library, task, of, status, text):
        """The call over arrays comes to the text's document, as numbers and as text; but that of
        `gallai` has no sets in brief."""
        came, document = library.solve(task, of)
        if (task, of.kind) == ("brief", "gallai"):
            text = b"".join(one for one in text.splitlines(True) if one[:1] in b"sx")
        self.assertEqual(came, status)
        if status != 0:
            self.assertEqual(document, text)
        else:
            self.assertEqual((document, documents.spelled(document)), (documents.read(text), text))

    def test_the_calls_take_it(self):
        answer = blossom.min_weight_perfect_matching(TRIANGLES, engine="library")
        self.assertEqual(answer.weight, 12)
        self.assertTrue(answer.check(engine="library"))
        with self.assertRaises(blossom.LimitExceeded):
            blossom.perfect_b_matching([("a", "b", 1)], {"a": 4096, "b": 4096}, engine="library")

    def test_threads_share_nothing(self):
        graphs = [[("a", "b", weight)] for weight in range(300)]
        with concurrent.futures.ThreadPoolExecutor(8) as executor:
            answers = blossom.solve_many("perfect", graphs, engine="library", executor=executor)
        self.assertEqual([answer.weight for answer in answers], list(range(300)))

    def test_processes_share_nothing(self):
        graphs = [[("a", "b", weight)] for weight in range(40)]
        with concurrent.futures.ProcessPoolExecutor(2) as executor:
            answers = blossom.solve_many("perfect", graphs, engine="library", executor=executor)
        self.assertEqual([answer.weight for answer in answers], list(range(40)))


class Function:
    """A function of a stand-in for the shared object."""

    def __init__(self, does):
        self.does, self.argtypes, self.restype = does, None, None

    def __call__(self, *words):
        return self.does(*words)


def items(where, length, kind):
    """The numbers of 32 bits, or of 64, that stand there."""
    return list((kind * length).from_address(where))


class Shared:
    """A stand-in for the shared object: of a version, with a status, and an answer of so many times
    a byte, or of numbers. `asked` has the numbers and texts of its calls, `arrays` those of its
    calls over arrays."""

    def __init__(self, version=5, status=0, answer=b"", times=1, numbers=()):
        self.asked, self.status, self.answer, self.times = [], status, answer, times
        self.arrays, self.numbers = [], numbers
        self.blossom_abi = Function(lambda: version)
        self.blossom_call = Function(self.call)
        self.blossom_solve_arrays = Function(self.solve)
        self.blossom_check_arrays = Function(self.judge)
        self.blossom_join_arrays = Function(None)
        self.verdict, self.judged = (0, ()), []

    def call(self, task, kind, text, length, buffer, room, used):
        self.asked.append((task, kind, text, length, room, threading.get_ident(), buffer))
        if self.times > 1:
            ctypes.memset(buffer, self.answer[0], self.times)
        else:
            ctypes.memmove(buffer, self.answer, len(self.answer))
        used._obj.value = len(self.answer) * self.times
        return self.status

    def solve(self, task, kind, vertices, *words):
        lists = [
            items(*words[place : place + 2], code)
            for place, code in zip(
                (0, 2, 4, 6, 8), [ctypes.c_uint32] * 2 + [ctypes.c_int64] * 2 + [ctypes.c_uint32]
            )
        ]
        output, room, used = words[10:]
        self.arrays.append((task, kind, vertices, *lists, room))
        return self.tell(self.status, self.numbers, output, used)

    def judge(self, kind, vertices, *words):
        self.judged.append(
            (
                kind,
                vertices,
                items(*words[0:2], ctypes.c_uint32),
                items(*words[10:12], ctypes.c_int64),
            )
        )
        return self.tell(*self.verdict, words[12], words[14])

    def tell(self, status, numbers, output, used):
        told = (ctypes.c_int64 * len(numbers))(*numbers)
        ctypes.memmove(output, told, ctypes.sizeof(told))
        used._obj.value = len(numbers)
        return status


#: The answer that uses the one edge, of weight 1, of a graph of two vertices.
ONE_EDGE = (1, 1, 0, 1, 2, 0, 0, 0, 1, 1, 1, 0)


class StandIn(unittest.TestCase):
    def library(self, shared):
        """What calls the stand-in."""
        for known in (library_module.loaded, library_module.found):
            known.cache_clear()
            self.addCleanup(known.cache_clear)
        patch = mock.patch("ctypes.CDLL", lambda path: shared)
        patch.start()
        self.addCleanup(patch.stop)
        return blossom.Library("/anywhere/libblossom.so")


class Called(StandIn):
    def header(self):
        with open(os.path.join(TOP, "capi", "blossom.h"), encoding="utf-8") as file:
            return file.read()

    def number(self, name):
        """The number that the header gives a name."""
        found = re.search(r"\b%s\s*(?:=)?\s*(\d+)" % name, self.header())
        return int(found.group(1))

    def test_another_version_is_refused(self):
        for version in (0, 4, 6):
            with self.assertRaisesRegex(
                blossom.SolverError,
                "has ABI version %d, but this package needs 5" % version,
            ):
                self.library(Shared(version)).run("solve", "perfect", b"")
        self.assertEqual(self.number("BLOSSOM_ABI"), library_module.ABI)

    def test_a_call_that_is_missing(self):
        for call in ("blossom_solve_arrays", "blossom_check_arrays", "blossom_join_arrays"):
            for version, words in ((5, "can't be used: .*%s" % call), (4, "ABI version 4")):
                shared = Shared(version)
                delattr(shared, call)
                with self.assertRaisesRegex(blossom.SolverError, words):
                    self.library(shared).run("solve", "perfect", b"")

    def test_statuses_that_are_the_callers_fault(self):
        for status in (9, 10):
            with self.assertRaisesRegex(blossom.SolverError, "status %d on 3 bytes" % status):
                self.library(Shared(status=status)).run("solve", "perfect", b"abc")
        for status in (0, 1, 3, 4, 5, 8):
            found = self.library(Shared(status=status, answer=b"told")).run("solve", "path", b"abc")
            self.assertEqual(found, (status, b"told"))

    def longest(self, name):
        """The length that the header gives a name."""
        size, shift = re.search(
            r"BLOSSOM_MAX_%s_BYTES \(BLOSSOM_CAST_\(size_t, (\d+)\) << (\d+)\)" % name,
            self.header(),
        ).groups()
        return int(size) << int(shift)

    def test_the_longest_answer_of_each_kind_fits(self):
        for kind in blossom.KINDS:
            most = self.longest("GALLAI" if kind == "gallai" else "ANSWER")
            shared = Shared(answer=b"x", times=most)
            status, output = self.library(shared).run("solve", kind, b"")
            self.assertEqual((status, len(output), output.count(b"x")), (0, most, most))
            self.assertGreaterEqual(shared.asked[0][4], most)

    def test_so_does_it_as_numbers(self):
        # 4,096 paths of 4,094 edges, and the counts of 65,536 edges, with 4,096 neighbours
        most = 8 + 65_536 + 4_096 + 4_097 + 4_096 * 4_094 + 4_096
        shared = Shared(numbers=(1, 0, 0, 1, 0, 0, 0, 0, 0, 0))
        library = self.library(shared)
        library.solve("solve", blossom.instance([("a", "b")], "gallai"))
        self.assertGreaterEqual(shared.arrays[0][-1], most)

    def test_a_long_answer_keeps_no_memory(self):
        shared = Shared(answer=b"x", times=self.longest("GALLAI"))
        library = self.library(shared)
        library.run("solve", "gallai", b"")
        held = library_module.buffers.of_size[library_module.BUFFERS["gallai"]].memory
        self.assertEqual((held[0], held[64 << 20]), (0, 0))

    def test_a_buffer_that_there_is_no_memory_for(self):
        library, refused = self.library(Shared()), OSError(12, "Cannot allocate memory")
        with mock.patch.object(library_module, "buffers", library_module.Buffers()):
            with mock.patch("mmap.mmap", side_effect=refused):
                with self.assertRaisesRegex(blossom.SolverError, "out of memory: a buffer of 1"):
                    library.run("solve", "gallai", b"")

    def test_short_answers_after_long_ones(self):
        shared = Shared(answer=b"x", times=5000)
        library = self.library(shared)
        library.run("solve", "perfect", b"")
        shared.answer, shared.times = b"short", 1
        self.assertEqual(library.run("solve", "perfect", b""), (0, b"short"))

    def test_tasks_and_kinds_have_the_numbers_of_the_header(self):
        shared = Shared()
        library = self.library(shared)
        for task, name in (
            ("solve", "BLOSSOM_SOLVE"),
            ("brief", "BLOSSOM_SOLVE_WITHOUT_PROOF"),
            ("check", "BLOSSOM_CHECK"),
        ):
            for kind in blossom.KINDS:
                library.run(task, kind, b"some text")
                self.assertEqual(
                    shared.asked[-1][:4],
                    (self.number(name), self.number("BLOSSOM_" + kind.upper()), b"some text", 9),
                )

    def test_each_thread_has_room_of_its_own(self):
        shared = Shared()
        library, turn = self.library(shared), threading.Barrier(2, timeout=60)

        def run():
            turn.wait()
            library.run("solve", "perfect", b"")
            turn.wait()

        threads = [threading.Thread(target=run) for _ in range(2)]
        for thread in threads:
            thread.start()
        for thread in threads:
            thread.join()
        library.run("solve", "perfect", b"")
        library.run("solve", "perfect", b"")
        here = {asked[6] for asked in shared.asked if asked[5] == threading.get_ident()}
        self.assertEqual((len(here), len({asked[6] for asked in shared.asked})), (1, 3))

    def test_it_is_looked_for_once(self):
        shared = Shared(numbers=ONE_EDGE)
        self.library(shared)
        with mock.patch.dict(os.environ, BLOSSOM_LIBRARY="/there.so"):
            with mock.patch("blossom.library.find_library", side_effect=["/there.so"]) as looked:
                answers = [
                    blossom.min_weight_perfect_matching([("a", "b", 1)], engine="library")
                    for _ in range(3)
                ]
        self.assertEqual(([answer.weight for answer in answers], looked.call_count), ([1] * 3, 1))

    def test_answers_are_checked_by_it_too(self):
        shared = Shared(numbers=ONE_EDGE)
        answer = blossom.min_weight_perfect_matching([("a", "b", 1)], engine=self.library(shared))
        with mock.patch("subprocess.Popen", side_effect=AssertionError):
            self.assertTrue(answer.check())
            self.assertTrue(blossom.check([("a", "b", 1)], "perfect", answer))
            self.assertTrue(blossom.check([("a", "b", 1)], "perfect", answer.certificate))
        self.assertEqual(shared.judged, [(1, 2, [1], list(ONE_EDGE))] * 3)
        for number, rule in enumerate(array_library.DOCUMENT_RULES, 1):
            shared.verdict = (1, (number, 0))
            verdict = answer.check()
            self.assertEqual((bool(verdict), verdict.rule, verdict.line), (False, rule, None))
        for status, numbers, error in (
            (3, (4, 1), "rule Endpoint at line 1"),
            (8, (), "memory"),
            (4, (9, 9), "9 vertices|too large|limit"),
            (9, (), "status 9"),
            (10, (), "status 10"),
        ):
            shared.verdict = (status, numbers)
            with self.assertRaisesRegex(blossom.BlossomError, error):
                answer.check()

    def test_and_so_is_what_shows_that_there_is_none(self):
        shared = Shared(numbers=(2, 0, 0, 1, 0, 0, 0, 0, 0, 0))
        with self.assertRaises(blossom.Infeasible) as told:
            blossom.min_weight_perfect_matching(
                [("a", "b")], nodes=["c"], engine=self.library(shared)
            )
        self.assertEqual(told.exception.certificate.text, b"s INFEASIBLE perfect\nu 0\n")
        with mock.patch("subprocess.Popen", side_effect=AssertionError):
            self.assertTrue(told.exception.certificate.check())
            self.assertTrue(blossom.check([("a", "b")], "perfect", told.exception, nodes=["c"]))
        self.assertEqual(shared.judged[1:], [(1, 3, [2], [2, 0, 0, 1] + [0] * 6)])

    def test_a_brief_answer_and_a_text_are_judged_as_texts(self):
        shared = Shared(
            answer=b"s REJECTED DualMissing 3\n", status=0, numbers=(1, 1, 0, 1, 0, 0, 0, 0, 1, 0)
        )
        answer = blossom.min_weight_perfect_matching(
            [("a", "b", 1)], engine=self.library(shared), certificate=False
        )
        shared.status = 1
        verdict = answer.check()
        self.assertEqual((verdict.rule, verdict.line, shared.judged), ("DualMissing", 3, []))
        self.assertEqual(shared.asked[0][2], b"p edge 2 1\ne 1 2 1\ns OPTIMAL perfect 1\nx 1 1\n")


class OverArrays(StandIn):
    """What goes to the call over arrays, and what is made of what comes back."""

    def solved(self, numbers, edges, kind, **words):
        """The stand-in, and the answer or the error that these numbers become."""
        shared = Shared(numbers=numbers)
        try:
            return shared, blossom.solve(edges, kind, engine=self.library(shared), **words)
        except blossom.BlossomError as error:
            return shared, error

    def test_an_instance_goes_as_numbers(self):
        shared, _ = self.solved(
            (1, 3, 0, 2, 0, 0, 0, 0, 0, 1, 0),
            [("a", "b", 7, 2), ("b", "c", -3)],
            "capmatch",
            degrees={"b": 3},
            nodes=["c"],
            certificate=False,
        )
        self.assertEqual(
            shared.arrays,
            [(2, 4, 3, [2, 3], [3, 1], [7, -3], [2, -1], [1, 1, 3], library_module.BUFFER // 8)],
        )

    def test_bounds_go_as_two_numbers_a_node(self):
        for words, values in (
            ({"lower": {"b": 1}, "upper": 2}, [0, 2, 1, 2, 0, 2]),
            ({"upper": 1}, []),
            ({"lower": {"c": 1}, "upper": 1}, [0, 1, 0, 1, 1, 1]),
        ):
            shared, _ = self.solved(
                (1, 3, 0, 2, 0, 0, 0, 0, 0, 1, 0),
                [("a", "b", 7, 2), ("b", "c", -3)],
                "interval",
                certificate=False,
                **words
            )
            self.assertEqual(
                shared.arrays,
                [(2, 9, 3, [1, 2], [2, 3], [7, -3], [2, -1], values, library_module.BUFFER // 8)],
            )
        for kind, number in (("oddpath", 10), ("evenpath", 11)):
            shared, _ = self.solved(
                (1, 7, 1, 1, 0, 0, 0, 0, 1, 0),
                [("a", "b", 7), ("b", "c", 3)],
                kind,
                source="c",
                target="b",
            )
            self.assertEqual(
                shared.arrays[0][:8], (1, number, 3, [1, 2], [2, 3], [7, 3], [], [0, 1, 1])
            )
        shared, _ = self.solved((1, 7, 0, 1, 0, 0, 0, 0, 1, 0), [("a", "b", 7)], "bottleneck")
        self.assertEqual(shared.arrays[0][:8], (1, 12, 2, [1], [2], [7], [], []))

    def test_what_is_usual_goes_as_nothing(self):
        for graph in ([("a", "b", 7), ("b", "c", 5)], [("a", "b", 7, 1), ("b", "c", 5, 1)]):
            shared, _ = self.solved((1, 7, 0, 2, 0, 0, 0, 0, 1, 0, 0), graph, "match")
            self.assertEqual(shared.arrays[0][:8], (1, 2, 3, [1, 2], [2, 3], [7, 5], [], []))

    def test_each_part_of_an_answer(self):
        edges = [("a", "b", 2), ("b", "c", 2), ("c", "a", 2), ("c", "d", 1)]
        numbers = (
            1,
            3,
            0,
            4,
            4,
            2,
            6,
            0,
            1,
            0,
            0,
            1,
            2,
            -2,
            3,
            5,
            11,
            13,
            0,
            3,
            6,
            1,
            2,
            3,
            2,
            3,
            4,
        )
        _, answer = self.solved(numbers, edges, "perfect")
        document = answer.certificate.document
        self.assertEqual((document.counts, document.weight, document.walk), ({1: 1, 4: 1}, 3, None))
        self.assertEqual(document.duals, {1: 2, 2: -2, 3: 3, 4: 5})
        self.assertEqual(document.sets, [(11, [1, 2, 3]), (13, [2, 3, 4])])
        self.assertEqual(
            answer.certificate.text,
            b"s OPTIMAL perfect 3\nx 1 1\nx 4 1\ny 1 2\ny 2 -2\ny 3 3\ny 4 5\n"
            b"z 11 3 1 2 3\nz 13 3 2 3 4\n",
        )

    def test_sets_within_sets(self):
        numbers = (
            1,
            3,
            0,
            1,
            5,
            3,
            9,
            0,
            1,
            *range(5),
            7,
            8,
            9,
            0,
            3,
            6,
            9,
            1,
            2,
            3,
            4,
            5,
            -1,
            6,
            7,
            -2,
        )
        _, answer = self.solved(numbers, [("a", "b", 3)], "perfect")
        document = answer.certificate.document
        self.assertEqual(
            document.set_lines, [(7, [1, 2, 3], []), (8, [4, 5], [1]), (9, [6, 7], [2])]
        )
        self.assertEqual(document.sets[2], (9, [1, 2, 3, 4, 5, 6, 7]))
        self.assertTrue(
            answer.certificate.text.endswith(b"z 7 3 1 2 3\nz 8 3 4 5 @1\nz 9 3 6 7 @2\n")
        )

    def test_walks_and_what_excludes_answers(self):
        edges = [("a", "b", 2), ("b", "c", 2), ("c", "a", 2)]
        _, tour = self.solved((1, 6, 2, 3, 0, 0, 0, 0, 2, 3, 1, 0), edges, "postman")
        self.assertEqual((tour.node_walk, tour.weight), (["b", "c", "a", "b"], 6))
        ends = {"source": "a", "target": "c"}
        _, error = self.solved((3, 0, 1, 2, 0, 0, 0, 0, 1, 1, 0), edges, "path", **ends)
        self.assertIsInstance(error, blossom.NegativeCycle)
        self.assertEqual(error.certificate.document.walk, (1, [1, 1]))
        _, path = self.solved(
            (1, 4, 1, 2, 0, 0, 0, 0, 1, 2, 0), edges, "evenpath", source="c", target="a"
        )
        self.assertEqual(
            (path.node_walk, path.certificate.text),
            (["c", "b", "a"], b"s OPTIMAL evenpath 4\nw 1 2 1 2\n"),
        )
        _, met = self.solved((1, 6, 0, 3, 0, 0, 0, 0, 2, 0, 1, 0), edges, "interval", upper=4)
        self.assertEqual(
            (met.edge_counts, met.certificate.text),
            ([2, 0, 1], b"s OPTIMAL interval 6\nx 1 2\nx 3 1\n"),
        )
        for kind, name, words in (
            ("perfect", "barrier", {}),
            ("path", "odd_part", ends),
            ("oddpath", "barrier", ends),
            ("evenpath", "barrier", ends),
            ("bottleneck", "barrier", {}),
            ("interval", "barrier", {"upper": 1}),
            ("postman", "split_part", {}),
            ("tjoin", "odd_part", {"terminals": ["a"]}),
        ):
            _, error = self.solved((2, 0, 0, 3, 0, 0, 0, 2, 0, 0, 0, 0, 1, 3), edges, kind, **words)
            self.assertIsInstance(error, blossom.Infeasible)
            document = error.certificate.document
            self.assertEqual((getattr(document, name), document.counts), ([1, 3], {}))

    def test_the_barrier_beside_a_bottleneck(self):
        edges = [("a", "b", 1), ("c", "d", 9), ("a", "c", 5), ("b", "d", 6)]
        head = (1, 6, 0, 4, 0, 0, 0)
        for members in ([], [1], [2, 3]):
            numbers = (*head, len(members), 0, 0, 1, 1, 0, *members)
            shared, answer = self.solved(numbers, edges, "bottleneck")
            self.assertEqual((answer.weight, answer.edge_counts), (6, [0, 0, 1, 1]))
            self.assertEqual(
                (answer.certificate.document.barrier, answer.certificate.barrier),
                (members, ["abcd"[one - 1] for one in members]),
            )
            line = " ".join(map(str, ["u", len(members), *members])).encode()
            self.assertEqual(
                answer.certificate.text, b"s OPTIMAL bottleneck 6\nx 3 1\nx 4 1\n" + line + b"\n"
            )
            self.assertTrue(answer.check())
            self.assertEqual(shared.judged, [(12, 4, [1, 3, 1, 2], list(numbers))])
        shared, answer = self.solved(
            (*head, 0, 0, 0, 1, 1, 0), edges, "bottleneck", certificate=False
        )
        self.assertEqual(
            (answer.certificate.barrier, answer.certificate.text),
            (None, b"s OPTIMAL bottleneck 6\nx 3 1\nx 4 1\n"),
        )
        shared.status, shared.answer = 1, b"s REJECTED NotBarrier 6\n"
        self.assertEqual((answer.check().rule, shared.judged), ("NotBarrier", []))

    def test_paths_and_sets_of_a_greatest_matching(self):
        edges = [("a", "b"), ("c", "b")]
        numbers = (1, 1, 0, 2, 0, 2, 2, 1, 1, 0, 1, 3, 0, 2, 2, 1, 2, 2)
        shared, answer = self.solved(numbers, edges, "gallai")
        self.assertEqual((answer.weight, answer.decomposition), (1, (["a", "c"], ["b"], [])))
        self.assertEqual(
            (answer.alternating_path("a"), answer.alternating_path("c")),
            ([("a", "b"), ("b", "c")], []),
        )
        self.assertEqual(
            answer.certificate.text,
            b"s OPTIMAL gallai 1\nx 1 1\nd 2 1 3\nu 1 2\nr 1 2 1 2\nr 3 0\n",
        )
        self.assertTrue(answer.check())
        self.assertEqual(shared.judged, [(13, 3, [1, 3], list(numbers))])
        shared, answer = self.solved(
            (1, 1, 0, 2, 0, 0, 0, 0, 1, 0, 0), edges, "gallai", certificate=False
        )
        self.assertEqual((answer.weight, answer.decomposition), (1, None))
        shared.status, shared.answer = 1, b"s REJECTED PathMissing 4\n"
        self.assertEqual((answer.check().rule, shared.judged), ("PathMissing", []))

    def test_a_bottleneck_without_nodes(self):
        shared, answer = self.solved((1, 0, 0, 0, 0, 0, 0, 0, 0), [], "bottleneck")
        self.assertEqual((answer.weight, answer.edges, answer.certificate.barrier), (0, [], None))
        self.assertEqual(answer.certificate.text, b"s OPTIMAL bottleneck 0\n")

    def test_other_statuses_say_what_the_program_prints(self):
        for status, numbers, error, words in (
            (4, (5000, 7), blossom.LimitExceeded, "5000 vertices and 7 edges|too large|limit"),
            (3, (6, 2), blossom.BlossomError, "rule Capacity at line 2"),
            (3, (8, 2), blossom.BlossomError, "rule Value at line 2"),
            (3, (10, 0), blossom.GraphError, "rule PathEnds at line 0"),
            (8, (), blossom.SolverError, "out of memory"),
        ):
            shared = Shared(status=status, numbers=numbers)
            with self.assertRaisesRegex(error, words):
                blossom.solve([("a", "b", 1)], "perfect", engine=self.library(shared))


class Refused(unittest.TestCase):
    def test_a_timeout(self):
        with self.assertRaisesRegex(ValueError, "cannot be interrupted"):
            blossom.min_weight_perfect_matching(TRIANGLES, engine="library", timeout=1)

    def test_a_library_that_is_none(self):
        for path in ("/nowhere/libblossom.so", os.path.join(TOP, "README.md")):
            with self.assertRaisesRegex(blossom.SolverError, "can't be used"):
                blossom.min_weight_perfect_matching(TRIANGLES, engine="library", program=path)

    def test_where_it_is_found(self):
        with mock.patch.dict(os.environ, BLOSSOM_LIBRARY="/there.so"):
            self.assertEqual((find_library("/here.so"), find_library()), ("/here.so", "/there.so"))
        with mock.patch.dict(os.environ), mock.patch("blossom.library.checkout", lambda: None):
            os.environ.pop("BLOSSOM_LIBRARY", None)
            with self.assertRaisesRegex(blossom.SolverError, "capi/build.sh"):
                find_library()

    def test_another_way_to_run_it(self):
        with self.assertRaisesRegex(ValueError, "engine must be"):
            blossom.min_weight_perfect_matching(TRIANGLES, engine="telepathy")
