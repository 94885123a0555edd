"""Calls of the library for joins that are prepared once, and the decoder's shots by them: beside
the same shots by a process, and over stand-ins for the function that joins."""
import concurrent.futures
import copy
import ctypes
import itertools
import pickle
import random
import time
import types
import unittest
from array import array
from unittest import mock

import blossom
from blossom.array_library import most_of_brief, most_of_joins
from blossom.buffers import Numbers, address
from blossom.prepared import PreparedCall, PreparedCalls, graph_words, joins_in, places_of_ones
from support import StandIn, library_or_skip, wanted

#: A path of five vertices, whose edges weigh 3, 1, 4 and 1.
PATH = Numbers(5, array("I", [1, 2, 3, 4]), array("I", [2, 3, 4, 5]), array("q", [3, 1, 4, 1]),
               array("q"), array("I"))


def plain(word):
    """A parameter as a number."""
    return getattr(word, "value", word)


def items(where, length, of):
    """The numbers that stand there."""
    return list((of * plain(length)).from_address(plain(where)))


def answer(edges, weight, outcome=0):
    """The numbers of an answer to so many sets, all of which came to these edges."""
    return lambda sets: [*[outcome] * sets, *[weight] * sets,
                         *(len(edges) * place for place in range(sets + 1)), *[*edges] * sets]


class Function:
    """In place of `blossom_join_arrays`: notes what it is asked, and answers so."""

    def __init__(self, status=0, numbers=answer((), 0), fails=None):
        self.status, self.numbers, self.fails, self.asked = status, numbers, fails, []

    def __call__(self, vertices, *words):
        forms = [ctypes.c_uint32] * 2 + [ctypes.c_int64] + [ctypes.c_uint32] * 2
        lists = [items(*words[2 * place:2 * place + 2], of) for place, of in enumerate(forms)]
        output, room, used = words[10:]
        self.asked.append((plain(vertices), lists, plain(room)))
        if self.fails is not None:
            raise self.fails
        numbers = self.numbers(len(lists[3]) - 1) if callable(self.numbers) else self.numbers
        told = (ctypes.c_int64 * len(numbers))(*numbers)
        ctypes.memmove(plain(output), told, ctypes.sizeof(told))
        used._obj.value = len(numbers)
        return self.status

    def sets(self):
        """The sets of terminals of each call."""
        return [[of[4][first:last] for first, last in zip(of[3], of[3][1:])]
                for _, of, _ in self.asked]


class By:
    """In place of the library: makes calls of this function, and answers all else so."""

    def __init__(self, function, status=0, output=b"s OPTIMAL tjoin 1\nx 1 1\n"):
        self.function, self.status, self.output, self.asked = function, status, output, []

    def run(self, task, kind, text, timeout=None, running=None):
        self.asked.append((task, kind, text))
        return self.status, self.output

    def _prepared(self, numbers):
        return PreparedCall(self.function, numbers)

    def _joins(self, numbers, starts, terminals):
        sets, used = len(starts) - 1, ctypes.c_size_t()
        room = (ctypes.c_int64 * most_of_joins(sets, len(numbers.first)))()
        status = self.function(*graph_words(numbers), *address(starts), *address(terminals),
                               ctypes.addressof(room), len(room), ctypes.byref(used))
        found = memoryview(room).cast("B").cast("q")[:used.value]
        return joins_in(found, sets) if status == 0 else None


class Calls(unittest.TestCase):
    def test_where_the_ones_stand(self):
        for flags, places in ((b"", []), (b"\0\0", []), (b"\1", [0]), (b"\0\1\1\0\1", [1, 2, 4]),
                              (b"\2\1\xff", [1])):
            self.assertEqual(places_of_ones(flags), places)
            self.assertEqual(places_of_ones(bytearray(flags)), places)

    def test_what_is_asked(self):
        function = Function()
        call = PreparedCall(function, PATH)
        for odd in ([0, 4], [], [1, 2], [3, 4, 0, 1]):
            call.used(odd)
            terminals = [vertex + 1 for vertex in odd]
            self.assertEqual(function.asked.pop(), (
                5, [[1, 2, 3, 4], [2, 3, 4, 5], [3, 1, 4, 1], [0, len(odd)], terminals],
                most_of_joins(1, 4)))

    def test_there_is_room_for_an_answer(self):
        for edges in (0, 1, 7):
            self.assertEqual(most_of_brief(edges), 9 + 2 * edges)  # as BLOSSOM_SIZE_WITHOUT_PROOF
            for sets in (0, 1, 5):  # as BLOSSOM_JOINS_SIZE
                self.assertEqual(most_of_joins(sets, edges), 2 + 3 * sets + sets * edges)

    def test_what_is_read(self):
        for edges, weight, used in (((1, 2, 3, 4), 9, [0, 1, 2, 3]), ((3,), 4, [2]),
                                    ((2, 4), 2, [1, 3]), ((), 0, [])):
            call = PreparedCall(Function(0, answer(edges, weight)), PATH)
            self.assertEqual(call.used([0, 1]), used)

    def test_what_is_no_join_of_these(self):
        told = answer((2, 4), 2)
        for status, numbers in ((8, told), (9, told), (3, told), (4, told),
                                (0, answer((2, 4), 2, 1)), (0, answer((2, 4), 2, 2)),
                                (0, answer((), 0, 3)), (0, answer((), 0, 4)),
                                (0, answer((2, 4), 3)), (0, answer((2, 2, 2), 2)),
                                (0, [0, 2, 0, 1, 2, 4]), (0, [0, 2, 0, 2, 2]),
                                (0, answer((2, 4), -2))):
            with self.subTest(status=status, numbers=numbers):
                call = PreparedCall(Function(status, numbers), PATH)
                self.assertIsNone(call.used([0, 4]))

    def test_each_thread_has_a_call_of_its_own_and_takes_it_again(self):
        made, inner = [], []

        class Call:
            def used(self, odd):
                if odd:
                    inner.append(calls.used(odd[1:]))  # as another thread at the same time
                return [len(made)]

        calls = PreparedCalls(lambda: made.append(Call()) or made[-1], None)
        for odd, number in (([], 1), ([], 1), ([3], 2), ([3], 2), ([3, 4], 3), ([], 3)):
            self.assertEqual((calls.used(odd), len(made)), ([number], number))

    def test_a_call_that_was_interrupted_is_not_used_again(self):
        function = Function(fails=KeyboardInterrupt())
        calls = PreparedCalls(lambda: PreparedCall(function, PATH), None)
        with self.assertRaises(KeyboardInterrupt):
            calls.used([0, 4])
        function.fails = None
        self.assertEqual((calls.used([1]), len(calls._idle)), ([], 1))
        self.assertEqual(function.sets()[-1], [[2]])


class Shots(unittest.TestCase):
    def decoder(self, by, **words):
        edges = [(0, 1, 3, 0), (1, 2, 1, 1), (2, 3, 4, 2), (3, 4, 1, 3)]
        return blossom.Decoder.from_edges(edges, engine=by, **words)

    def test_a_shot_is_one_call(self):
        by = By(Function(0, answer((2, 3), 5)))
        decoder = self.decoder(by)
        for shot in ({1, 3}, [0, 1, 0, 1, 0]):
            self.assertEqual(decoder.decode(shot, return_weight=True), ([0, 1, 1, 0], 5))
        self.assertEqual(decoder.decode_to_edges_array({3, 1}), [(1, 2), (2, 3)])
        self.assertEqual((by.function.sets(), by.asked), ([[[2, 4]]] * 3, []))

    def test_the_boundary_is_met_where_the_detectors_are_odd(self):
        by = By(Function(0, answer((2, 3), 3)))
        decoder = blossom.Decoder.from_edges([(0, None, 3, 0), (0, 1, 1, 1), (1, 2, 2, 3),
                                              (2, None, 4, 2)], engine=by)
        for shot, terminals in (({0, 2}, [1, 3]), ({1}, [2, 4]), ([1, 1, 1], [1, 2, 3, 4])):
            self.assertEqual(decoder.decode(shot, return_weight=True), ([0, 1, 0, 1], 3))
            self.assertEqual(by.function.sets()[-1], [terminals])

    def test_shots_of_a_batch_are_calls_in_threads_where_the_graph_is_large(self):
        shots = [{1, 3}, [0, 1, 0, 1, 0], {0, 4}]
        for small, pools, calls in ((3, 1, 3), (4, 0, 1)):
            by = By(Function(0, answer((2, 3), 5)))
            pool = mock.Mock(wraps=concurrent.futures.ThreadPoolExecutor)
            with mock.patch("blossom.decoder.SMALL", small), \
                    mock.patch("blossom.decoding_batch.FEW_SETS", 1), \
                    mock.patch("blossom.decoding_batch.processors", lambda: 3), \
                    mock.patch("concurrent.futures.ThreadPoolExecutor", pool):
                decoder = self.decoder(by)
                self.assertEqual(decoder.decode_batch(shots, return_weights=True),
                                 ([[0, 1, 1, 0]] * 3, [5] * 3))
                self.assertEqual(decoder.decode_batch(shots[:1]), [[0, 1, 1, 0]])
                self.assertEqual(decoder.decode_batch([]), [])
            self.assertEqual((pool.call_count, len(by.function.asked), by.asked),
                             (pools, calls + 1, []))
            by.function.status, by.status, by.output = 8, 8, b""
            with self.assertRaisesRegex(blossom.SolverError, "^shot 0: .*out of memory"):
                decoder.decode_batch(shots)

    def test_an_executor_is_given_texts(self):
        by = By(Function(fails=AssertionError()))
        with concurrent.futures.ThreadPoolExecutor(2) as executor:
            found = self.decoder(by).decode_batch([{0, 1}] * 3, executor=executor)
        self.assertEqual((found, [asked[0] for asked in by.asked]),
                         ([[1, 0, 0, 0]] * 3, ["brief"] * 3))

    def test_what_a_prepared_call_does_not_answer_is_solved_in_full(self):
        text = b"p edge 5 4\ne 1 2 3\ne 2 3 1\ne 3 4 4\ne 4 5 1\nn 1 1\nn 5 1\n"
        for function in (Function(9), Function(0, answer((), 1)), Function(0, answer((), 0, 1))):
            by = By(function)
            self.assertEqual(self.decoder(by).decode({0, 4}, return_weight=True),
                             ([1, 0, 0, 0], 3))
            self.assertEqual((len(function.asked), by.asked), (1, [("solve", "tjoin", text)]))
        by = By(Function(8), 8, b"")
        with self.assertRaisesRegex(blossom.SolverError, "out of memory"):
            self.decoder(by).decode({0, 4})

    def test_the_library_prepares_joins(self):
        function = Function(0, answer((2, 3), 5))
        library = types.SimpleNamespace(blossom_join_arrays=function)
        with mock.patch("blossom.library.found", lambda path, environment: library):
            decoder = self.decoder("library")
            for other in (decoder, copy.deepcopy(decoder), pickle.loads(pickle.dumps(decoder))):
                self.assertEqual(other.decode({1, 3}), [0, 1, 1, 0])
                self.assertEqual((function.asked[-1][0], function.sets()[-1]), (5, [[2, 4]]))
                self.assertEqual(other.decode_batch([{1, 3}] * 2), [[0, 1, 1, 0]] * 2)
                self.assertEqual(function.sets()[-1], [[2, 4]] * 2)
            for _ in range(3):
                copied = pickle.loads(pickle.dumps(decoder))  # (which has made calls by now)
                self.assertEqual(copied.decode({1, 3}), [0, 1, 1, 0])

    def test_a_document_names_edges_in_any_order(self):
        decoder = self.decoder(StandIn(0, b"s OPTIMAL tjoin 8\nx 3 1\nx 1 1\nx 2 1\n"))
        self.assertEqual(decoder.decode_to_edges_array({0, 3}), [(0, 1), (1, 2), (2, 3)])

    def test_a_run_that_failed_is_made_once(self):
        by = StandIn(8, b"")
        with self.assertRaisesRegex(blossom.SolverError, "out of memory"):
            self.decoder(by).decode({0, 3})
        self.assertEqual([asked[0] for asked in by.asked], ["brief"])

    def test_a_time_limit_asks_for_what_can_be_stopped(self):
        by = By(Function(fails=AssertionError()))
        self.assertEqual(self.decoder(by, timeout=3).decode({0, 1}), [1, 0, 0, 0])
        self.assertEqual([asked[:2] for asked in by.asked], [("brief", "tjoin")])


#: A ring of detectors with chords, its boundary, and an observable that some errors flip.
RING = [(node, (node + 1) % 9, 2 + node % 3, node % 2) for node in range(9)]
RING += [(0, 4, 3, None), (2, 7, 5, [0, 1]), (3, None, 6, 1), (8, None, -1, 0), (9, None, -2, 2),
         (9, 5, 4, 3)]


class ByLibrary(unittest.TestCase):
    def setUp(self):
        self.path = library_or_skip()

    def by_library(self, edges, **words):
        return blossom.Decoder.from_edges(edges, engine="library", program=self.path, **words)

    def test_shots_are_those_of_a_process(self):
        chance = random.Random(11)
        for turn in range(12):
            nodes = chance.randint(2, 7)
            pairs = list(itertools.combinations(range(-1, nodes), 2))
            edges = [(*pair, chance.randint(-3 if turn % 2 else 0, 6), place)
                     for place, pair in enumerate(chance.sample(pairs, min(9, len(pairs))))]
            boundary = chance.sample(range(nodes), turn % 3 == 2)
            own = self.by_library(edges, boundary=boundary)
            other = blossom.Decoder.from_edges(edges, boundary=boundary)
            for _ in range(8):
                shot = {node for node in range(other.num_nodes) if chance.random() < 0.4}
                with self.subTest(edges=edges, boundary=boundary, shot=shot):
                    self.same(own, other, shot)

    def same(self, own, other, shot):
        """Both come to the same weight by sets of errors that flip what they say, or to the same
        part that shows that there is none."""
        try:
            wanted_weight = other.decode(shot, return_weight=True)[1]
        except blossom.Infeasible as told:
            with self.assertRaises(blossom.Infeasible) as caught:
                own.decode(shot)
            self.assertEqual(caught.exception.closed_set, told.closed_set)
            return
        prediction, weight = own.decode(shot, return_weight=True)
        used = [place for place, flips in enumerate(prediction) if flips]
        pairs = own.decode_to_edges_array(shot)
        edges = own.edges()
        self.assertEqual((weight, sum(edges[place][2]["weight"] for place in used)),
                         (wanted_weight, wanted_weight))
        self.assertEqual([(edges[place][0], -1 if edges[place][1] is None else edges[place][1])
                          for place in used], pairs)
        ends = [node for pair in pairs for node in pair]
        apart = own.boundary | {-1}
        self.assertEqual({node for node in ends if ends.count(node) % 2} - apart, shot - apart)

    def test_threads_share_nothing(self):
        decoder, chance = self.by_library(RING), random.Random(5)
        shots = [set(chance.sample(range(9), chance.randint(0, 9))) for _ in range(400)]
        wanted_ones = [decoder.decode(shot, return_weight=True) for shot in shots]
        with concurrent.futures.ThreadPoolExecutor(8) as executor:
            found = executor.map(lambda shot: decoder.decode(shot, return_weight=True), shots)
            self.assertEqual(list(found), wanted_ones)
        with mock.patch("blossom.decoder.SMALL", 0):
            self.assertEqual(decoder.decode_batch(shots, return_weights=True),
                             tuple(map(list, zip(*wanted_ones))))
        with self.assertRaises(ValueError):
            decoder.decode_batch([{1}, {10}])

    def test_copies_and_processes_share_nothing(self):
        decoder, shots = self.by_library(RING), [{1, 5}, {0, 3, 7}, set(), {8}]
        wanted_ones = [decoder.decode(shot) for shot in shots]
        for other in (copy.deepcopy(decoder), pickle.loads(pickle.dumps(decoder))):
            self.assertEqual([other.decode(shot) for shot in shots], wanted_ones)
        with concurrent.futures.ProcessPoolExecutor(2) as executor:
            self.assertEqual(list(executor.map(decoder.decode, shots)), wanted_ones)

    def test_a_graph_that_changes_is_prepared_anew(self):
        decoder = self.by_library([(0, 1, 3, 0), (1, 2, 5, 1)])
        self.assertEqual(decoder.decode({0, 2}, return_weight=True), ([1, 1], 8))
        decoder.add_edge(0, 2, 2, 7)
        self.assertEqual(decoder.decode({0, 2}, return_weight=True), ([0, 0, 1], 7))
        decoder.add_edge(2, 0, 0, 2, merge_strategy="replace")
        self.assertEqual(decoder.decode({0, 2}, return_weight=True), ([1, 0, 0], 2))
        decoder.ensure_num_fault_ids(5)
        self.assertEqual(decoder.decode({0, 2}), [1, 0, 0, 0, 0])
        decoder.set_boundary_nodes([1])
        self.assertEqual(decoder.decode({0}, return_weight=True), ([1, 0, 0, 0, 0], 3))

    def test_no_call_takes_a_time_limit(self):
        with self.assertRaisesRegex(ValueError, "cannot be interrupted"):
            self.by_library(RING, timeout=3).decode({1, 2})

    def test_weights_are_scaled_back(self):
        decoder = self.by_library([(0, 1, 2.5, 0), (1, 2, 0.25, 1)], scale=4)
        self.assertEqual(decoder.decode({0, 2}, return_weight=True), ([1, 1], 2.75))
        self.assertEqual(decoder.decode({2, 1}, return_weight=True)[1], 0.25)

    def test_a_shot_takes_little_time_beside_its_call(self):
        decoder, shot = self.by_library([(node, node + 1, 2) for node in range(300)]), {5, 9, 30}
        decoder.decode(shot | {8})
        call = decoder._planned().parts[0].calls._idle.pop()  # (the next shot makes another)
        terminals = array("I", [vertex + 1 for vertex in shot | {8}])
        words = (*address(terminals), *call._last)
        whole, alone = [], []
        for _ in range(300):
            start = time.process_time()
            decoder.decode(shot | {8})
            between = time.process_time()
            call._call(*words)
            whole.append(between - start)
            alone.append(time.process_time() - between)
        # (Ten microseconds, on a machine that does nothing else; at most 50 are promised.)
        self.assertLess(min(whole) - min(alone), 150e-6)

    def test_graphs_without_edges_or_nodes(self):
        decoder = blossom.Decoder(engine="library", program=self.path)
        self.assertEqual((decoder.decode([]), decoder.decode(set())), ([], []))
        decoder.set_boundary_nodes([2])
        self.assertEqual(decoder.decode([0, 0, 1], return_weight=True), ([], 0))
        with self.assertRaises(blossom.Infeasible):
            decoder.decode({1})


#: What is said of a list or an array that is no syndrome of it.
REFUSED = "invalid syndrome: expected 4 entries 0 or 1, got"


class Syndromes(unittest.TestCase):
    """Forms of one syndrome, of a decoder whose node 3 is the boundary's."""

    def setUp(self):
        self.decoder = blossom.Decoder.from_edges(
            [(0, 1, 3, 0), (1, 2, 1, 1), (2, 3, 4, 2)], boundary=[3],
            engine=By(Function(0, answer((2,), 1))))

    def fired(self, syndrome):
        self.decoder.decode(syndrome)
        terminals, = self.decoder._by.function.sets()[-1]
        return sorted(terminal - 1 for terminal in terminals if terminal < 4)

    def test_forms(self):
        for syndrome in ({1, 2}, frozenset([2, 1]), {1, 2, 3}, [0, 1, 1], [0, 1, 1, 0],
                         [0, 1, 1, 1], (0, 1, 1), [False, True, True], [0.0, 1.0, 1],
                         array("b", [0, 1, 1]), iter([0, 1, 1])):
            with self.subTest(syndrome=syndrome):
                self.assertEqual(self.fired(syndrome), [1, 2])

    def test_forms_of_numpy(self):
        numpy = wanted("numpy")
        entries = [0, 1, 1]
        for name in ("uint8", "int8", "bool", "int64", "uint16", "float32", "object", ">i4"):
            for given in (entries, entries + [0], entries + [1]):
                syndrome = numpy.array(given, dtype=name)
                with self.subTest(name=name, given=given):
                    self.assertEqual(self.fired(syndrome), [1, 2])
                    self.assertEqual(self.decoder.decode(syndrome).tolist(), [0, 1, 0])
        self.assertEqual(self.fired(numpy.array([[0, 9], [1, 9], [1, 9]])[:, 0]), [1, 2])
        self.assertEqual(self.fired({numpy.int64(1), numpy.uint8(2)}), [1, 2])
        self.assertEqual(self.fired([numpy.uint8(0), numpy.uint8(1), numpy.int64(1)]), [1, 2])

    def test_predictions_of_numpy_are_the_callers(self):
        numpy = wanted("numpy")
        prediction = self.decoder.decode(numpy.array([0, 1, 1]))
        self.assertEqual((prediction.dtype, prediction.shape), (numpy.uint8, (3,)))
        prediction[0] = 1
        self.assertEqual(prediction.tolist(), [1, 1, 0])
        self.assertEqual(self.decoder.decode([0, 1, 1]), [0, 1, 0])

    def test_what_is_no_syndrome(self):
        refused = [[0, 1], [0, 1, 1, 0, 0], [0, 2, 1], [0, 256, 1], [0, 257, 1], [0, -1, 1],
                   [0, 0.5, 1], [0, None, 1], ["0", "1", "1"], [[0], [1], [1]], []]
        for syndrome in refused:
            with self.subTest(syndrome=syndrome), self.assertRaisesRegex(ValueError, REFUSED):
                self.decoder.decode(syndrome)
        for syndrome in ({4}, frozenset([1, 9])):
            with self.subTest(syndrome=syndrome), self.assertRaisesRegex(ValueError, "out of range"):
                self.decoder.decode(syndrome)
        for syndrome in ({True}, {1.0}, {-1}, {"1"}, {None}, {0.5, 1}):
            with self.subTest(syndrome=syndrome), self.assertRaises(blossom.GraphError):
                self.decoder.decode(syndrome)
        self.assertEqual(self.decoder._by.function.asked, [])

    def test_what_is_no_syndrome_of_numpy(self):
        numpy = wanted("numpy")
        for entries in ([0, 2, 1], [0, 256, 1], [3, -1, 0], [0, 1], [[0], [1], [1]], [0.5, 1, 1],
                        [0, 1, 1, 0, 1], [float("nan"), 0, 0]):
            with self.subTest(entries=entries), self.assertRaisesRegex(ValueError, REFUSED):
                self.decoder.decode(numpy.array(entries))
        for entries, name in ((["", "1", "1"], "U1"), (["", "", ""], "U1"),
                              ([b"", b"\1", b"\1"], "S1"), ([[0], [1], [1]], "uint8"),
                              ([[0, 1, 1]], "bool"), ([1], "uint32"), ([0, 255, 1], "uint8"),
                              ([-1, 0, 1], "int8")):
            with self.subTest(entries=entries), self.assertRaisesRegex(ValueError, REFUSED):
                self.decoder.decode(numpy.array(entries, dtype=name))
        self.assertEqual(self.decoder._by.function.asked, [])
