"""Many shots of a decoder by few calls of the library: which sets a call has, what is read of it,
and each shot beside a call of its own."""
import itertools
import pickle
import random
import unittest
from array import array
from fractions import Fraction
from unittest import mock

import blossom
from blossom import decoding_batch
from blossom.library import BUFFER, most_sets
from blossom.array_library import most_of_joins
from support import library_or_skip, wanted
from test_error_models import in_parts
from test_prepared import By, Function, answer

#: A path of five detectors, whose edges weigh 3, 1, 4 and 1.
LINE = [(0, 1, 3, 0), (1, 2, 1, 1), (2, 3, 4, 2), (3, 4, 1, 3)]
#: What the exceptions for batches begin with.
NO_ERRORS = "^shot %d: no errors have this syndrome: 1 detector fired among %s, which no boundary"


def made(chance, **words):
    """A decoder by chance: some edges at the boundary, some nodes in it, loops, edges of several
    observables and weights of either sign."""
    nodes = chance.randint(2, 9)
    pairs = list(itertools.combinations(range(-1, nodes), 2)) + [(0, 0), (1, 1)]
    least = chance.choice((-3, 0, 0))
    edges = [(*pair, chance.randint(least, 6), chance.sample(range(4), chance.randint(0, 3)))
             for pair in chance.sample(pairs, min(len(pairs), chance.randint(3, 12)))]
    boundary = chance.choice(([], [nodes - 1], chance.sample(range(nodes), 1)))
    return blossom.Decoder.from_edges(edges, boundary=boundary, **words)


def shots_of(decoder, chance, count):
    """So many syndromes by chance, of which many have errors, as lists of 0 and 1."""
    edges, shots = decoder.edges(), []
    for _ in range(count):
        shot = [0] * decoder.num_nodes
        for node1, node2, _ in edges:
            if chance.random() < 0.3:
                for node in {node1, node2} - {None} if node1 != node2 else ():
                    shot[node] ^= 1
        if chance.random() < 0.3:
            shot[chance.randrange(len(shot))] ^= 1
        shots.append(shot)
    return shots


class Asked(unittest.TestCase):
    def decoder(self, by, edges=LINE, **words):
        return blossom.Decoder.from_edges(edges, engine=by, **words)

    def test_one_call_has_all_sets(self):
        by = By(Function(0, answer((2, 3), 5)))
        shots = [{1, 3}, [0, 1, 0, 1, 0], {4, 0}]
        found = self.decoder(by).decode_batch(shots, return_weights=True)
        self.assertEqual(found, ([[0, 1, 1, 0]] * 3, [5] * 3))
        (vertices, lists, room), = by.function.asked
        self.assertEqual(
            (vertices, lists[:4], room),
            (5, [[1, 2, 3, 4], [2, 3, 4, 5], [3, 1, 4, 1], [0, 2, 4, 6]], most_of_joins(3, 4)))
        self.assertEqual([sorted(one) for one in by.function.sets()[0]], [[2, 4], [2, 4], [1, 5]])

    def test_arrays_leave_out_shots_that_nothing_fired_in(self):
        numpy = wanted("numpy")
        shots = numpy.array([[0, 1, 0, 1, 0], [0] * 5, [1, 0, 0, 0, 1], [0] * 5], "uint8")
        by = By(Function(0, answer((2, 3), 5)))
        found, weights = self.decoder(by).decode_batch(shots, return_weights=True)
        self.assertEqual(found.tolist(), [[0, 1, 1, 0], [0] * 4, [0, 1, 1, 0], [0] * 4])
        self.assertEqual((weights.tolist(), weights.dtype), ([5, 0, 5, 0], numpy.float64))
        self.assertEqual(by.function.sets(), [[[2, 4], [1, 5]]])
        # (a negative weight may be used though nothing fired)
        by = By(Function(0, answer((1,), -1)))
        decoder = self.decoder(by, [(0, 1, -1, 0), (1, 2, 1, 1)])
        self.assertEqual(decoder.decode_batch(shots[1:2, :3]).tolist(), [[1, 0]])
        self.assertEqual(by.function.sets(), [[[]]])

    def test_the_boundary_is_a_terminal_where_the_detectors_are_odd(self):
        edges = [(0, None, 3, 0), (0, 1, 1, 1), (1, 2, 2, 3), (2, None, 4, 2), (3, 4, 1)]
        by = By(Function(0, answer((2, 3), 3)))
        shots = [[1, 0, 1, 0, 0], [0, 1, 0, 0, 0], [1, 1, 1, 1, 1], [0, 0, 1, 1, 0]]
        sets = [[1, 3], [2, 6], [1, 2, 3, 4, 5, 6], [3, 4, 6]]
        decoder = self.decoder(by, edges)
        decoder.decode_batch(shots)
        self.assertEqual([sorted(one) for one in by.function.sets()[0]], sets)
        numpy = wanted("numpy")
        for form in ("uint8", "bool", "int64", "int8", ">i4"):
            decoder.decode_batch(numpy.array(shots, form))
            self.assertEqual(by.function.sets()[-1], sets)

    def test_nodes_of_the_boundary_are_no_terminals(self):
        by = By(Function(0, answer((), 0)))
        decoder = self.decoder(by, [(0, 1, 3, 0), (1, 2, 1, 1)], boundary=[1])
        shots, sets = [[1, 1, 1], [0, 1, 1], [1, 0, 0]], [[1, 3], [3, 4], [1, 4]]
        decoder.decode_batch(shots)
        decoder.decode_batch(wanted("numpy").array(shots))
        self.assertEqual([list(map(sorted, one)) for one in by.function.sets()], [sets] * 2)
        last = self.decoder(by, [(0, 1, 3, 0), (1, 2, 1, 1)], boundary=[2])
        for shots in ([[1, 1]], [[1, 1, 1]]):
            last.decode_batch(wanted("numpy").array(shots))
            self.assertEqual(by.function.sets()[-1], [[1, 2]])

    def test_a_call_has_so_many_sets(self):
        shots = [{1, 3}] * 7
        for most, calls in ((3, [3, 3, 1]), (7, [7]), (1, [1] * 7)):
            by = By(Function(0, answer((2, 3), 5)))
            with mock.patch("blossom.decoding_batch.MOST_SETS", most):
                self.decoder(by).decode_batch(shots)
            self.assertEqual([len(sets) for sets in by.function.sets()], calls)
        for edges in (0, 1, 421, 4096, 65536):
            room = BUFFER // 8
            self.assertLessEqual(most_of_joins(most_sets(edges), edges), room)
            self.assertGreater(most_of_joins(most_sets(edges) + 1, edges), room)
        self.assertEqual(most_sets(65536), 17)

    def test_threads_share_the_sets_of_a_large_graph(self):
        def pieces(count, apart):
            part = self.decoder(By(Function()))._planned().parts[0]
            starts = array("I", range(0, 2 * count + 1, 2))
            sets = decoding_batch.Sets(0, part, list(range(count)), starts,
                                       array("I", [1, 2] * count))
            found = list(sets.pieces(apart))
            self.assertEqual(sum((one.shots for one in found), []), sets.shots)
            for one in found:
                self.assertEqual(list(one.starts), list(range(0, 2 * len(one.shots) + 1, 2)))
                self.assertEqual(list(one.terminals), [1, 2] * len(one.shots))
            return [len(one.shots) for one in found]

        with mock.patch("blossom.decoding_batch.processors", lambda: 4):
            self.assertEqual(pieces(0, True), [])
            self.assertEqual(pieces(20, True), [16, 4])
            self.assertEqual(pieces(100, True), [25] * 4)
            self.assertEqual(pieces(100, False), [100])
            self.assertEqual(pieces(2000, True), [256] * 7 + [208])

    def test_a_call_that_failed_is_made_for_each_shot(self):
        edges = [(0, 1, 3, 0), (1, 2, 1, 1)]
        shots = [[1, 1, 0], [0, 0, 0], [1, 1, 0]]
        for function in (Function(8), Function(0, answer((2,), 1, 1)), Function(0, answer((1,), 2)),
                         Function(0, answer((), 3)), Function(0, answer((), 0, 4))):
            by = By(function, output=b"s OPTIMAL tjoin 3\nx 1 1\n")
            decoder = self.decoder(by, edges)
            self.assertEqual(decoder.decode_batch(shots[:1] * 2, return_weights=True),
                             ([[1, 0]] * 2, [3] * 2))
            self.assertEqual([asked[:2] for asked in by.asked], [("solve", "tjoin")] * 2)
            numpy = wanted("numpy")
            found, weights = decoder.decode_batch(numpy.array(shots), return_weights=True)
            self.assertEqual((found.tolist(), weights.tolist()),
                             ([[1, 0], [0, 0], [1, 0]], [3, 0, 3]))
            self.assertEqual(len(by.asked), 4)
            by.status, by.output = 8, b""
            for given in (shots, numpy.array(shots)):
                with self.assertRaisesRegex(blossom.SolverError, "^shot 0: .*out of memory"):
                    decoder.decode_batch(given)

    def test_an_executor_and_a_time_limit_ask_for_no_call(self):
        numpy = wanted("numpy")
        by = By(Function(fails=AssertionError()))
        shots = numpy.array([[1, 1, 0, 0, 0]] * 2)
        found = self.decoder(by, timeout=3).decode_batch(shots)
        self.assertEqual((found.tolist(), [asked[0] for asked in by.asked]),
                         ([[1, 0, 0, 0]] * 2, ["brief"] * 2))

    def test_observables_are_flipped_by_each_edge(self):
        numpy = wanted("numpy")
        edges = [(0, 1, 1, [0, 2]), (1, 2, 1, [2]), (2, 3, 1), (3, 3, -1, [1, 3])]
        by = By(Function(0, answer((1, 2, 3), 3)))
        decoder = self.decoder(by, edges)
        shots = [[1, 0, 0, 1], [0, 0, 0, 0]]
        self.assertEqual(decoder.decode_batch(shots[:1], return_weights=True),
                         ([[1, 1, 0, 1]], [2]))
        decoder.ensure_num_fault_ids(5)
        found, weights = decoder.decode_batch(numpy.array(shots), return_weights=True)
        self.assertEqual(found.tolist(), [[1, 1, 0, 1, 0], [0, 1, 0, 1, 0]])
        self.assertEqual((found.dtype, weights.tolist()), (numpy.uint8, [2, -1]))
        copied = pickle.loads(pickle.dumps(decoder._planned().flip_columns))
        self.assertEqual(list(map(list, copied)), [[0, 2, -1, 1], [2, -1, -1, 3]])

    def test_weights_are_in_the_units_that_were_given(self):
        numpy = wanted("numpy")
        for scale, weight in ((4, 5), (3, 5), (Fraction(7, 10), 9), (2**38, 10**12 - 1),
                              (Fraction(1, 4), 11)):
            by = By(Function(0, answer((1,), weight)))
            decoder = self.decoder(by, [(0, 1, Fraction(weight) / Fraction(scale), 0)],
                                   scale=scale)
            one, = decoder.decode_batch([[1, 1]], return_weights=True)[1]
            many = decoder.decode_batch(numpy.array([[1, 1], [0, 0], [1, 1]]), return_weights=True)
            self.assertEqual(many[1].tolist(), [float(one), 0.0, float(one)])


class Forms(unittest.TestCase):
    """Shots that are no batch, and shots without errors, by the library."""

    def setUp(self):
        self.path = library_or_skip()

    def decoder(self, edges=LINE, **words):
        return blossom.Decoder.from_edges(edges, engine="library", program=self.path, **words)

    def refused(self, decoder, shots, error, said):
        with self.assertRaisesRegex(error, said) as told:
            decoder.decode_batch(shots)
        return told.exception

    def test_shots_without_errors(self):
        decoder, numpy = self.decoder([(0, None, 1, 0), (0, 1, 2, 1), (2, 3, 1, 2)]), None
        shots = [[1, 1, 0, 0], [1, 0, 1, 0], [0, 0, 0, 1], [0, 1, 1, 1]]
        forms = [shots, [set(itertools.compress(range(4), shot)) for shot in shots]]
        numpy = wanted("numpy")
        for given in (*forms, numpy.array(shots), list(numpy.array(shots))):
            told = self.refused(decoder, given, blossom.Infeasible, NO_ERRORS % (1, "2, 3"))
            self.assertEqual(told.closed_set, [2, 3])
            again = pickle.loads(pickle.dumps(told))
            self.assertEqual((str(again), again.closed_set), (str(told), [2, 3]))
        with self.assertRaisesRegex(blossom.Infeasible, "^no errors have this syndrome: 1"):
            decoder.decode(shots[1])
        parts = in_parts(decoder)
        for given in (shots, numpy.array(shots)):
            self.refused(parts, given, blossom.Infeasible, NO_ERRORS % (1, "2, 3"))
        process = blossom.Decoder.from_edges([(0, 1, 2, 1), (2, 3, 1, 2)], engine="process")
        self.refused(process, shots[2:3], blossom.Infeasible, NO_ERRORS % (0, "2, 3"))

    def test_the_first_shot_without_errors_is_told(self):
        edges = [(0, 1, 1), (2, 3, 1), (4, 5, 1)]
        decoder = self.decoder(edges)
        shots = [[0] * 6 for _ in range(9)]
        shots[4][4] = shots[5][2] = shots[6][0] = shots[5][0] = 1
        numpy = wanted("numpy")
        for one in (decoder, in_parts(decoder)):
            for most in (1, 2, 9):
                with mock.patch("blossom.decoding_batch.MOST_SETS", most):
                    for given in (shots, numpy.array(shots)):
                        self.refused(one, given, blossom.Infeasible, NO_ERRORS % (4, "4, 5"))

    def test_shots_that_are_no_syndromes(self):
        decoder, numpy = self.decoder(), wanted("numpy")
        for shot in ([0, 1], [0, 1, 0, 1, 2], [0] * 6):
            said = r"^shot 2: invalid syndrome: expected 5 entries 0 or 1, got %d" % len(shot)
            self.refused(decoder, [[0] * 5, {1, 2}, shot], ValueError, said)
        self.refused(decoder, [{1, 2}, {9}], ValueError, "^shot 1: detector 9 out of range")
        self.refused(decoder, [[0] * 5, "00000"], TypeError, "^shot 1: syndrome must be")
        for shots, shot in (([[0, 1, 0, 1, 0], [0, 2, 0, 0, 0]], 1), ([[0, -1, 0, 0, 0]], 0),
                            ([[0, 1], [0, 1]], 0), ([[0.5] * 5], 0)):
            self.refused(decoder, numpy.array(shots), ValueError,
                         "^shot %d: invalid syndrome: expected 5 entries 0 or 1" % shot)
        self.refused(decoder, numpy.array([0, 1, 0, 1, 0]), TypeError, "got one syndrome")

    def test_shots_of_a_graph_that_is_too_large(self):
        decoder = self.decoder([(0, node, 1) for node in range(1, 1500)])
        shot = [1, 1] + [0] * 1498
        for given in ([shot], wanted("numpy").array([shot])):
            told = self.refused(decoder, given, blossom.LimitExceeded,
                                "^shot 0: instance too large")
            with self.assertRaises(blossom.LimitExceeded) as alone:
                decoder.decode(shot)
            self.assertEqual(str(told), "shot 0: %s" % alone.exception)

    def test_batches_of_nothing(self):
        numpy, decoder = wanted("numpy"), self.decoder()
        found, weights = decoder.decode_batch(numpy.zeros((0, 5), int), return_weights=True)
        self.assertEqual((found.shape, weights.shape), ((0, 4), (0,)))
        self.assertEqual(decoder.decode_batch([]), [])
        nothing = blossom.Decoder(engine="library", program=self.path)
        self.assertEqual(nothing.decode_batch([[], []], return_weights=True), ([[], []], [0, 0]))
        found = nothing.decode_batch(numpy.zeros((3, 0), "uint8"), return_weights=True)
        self.assertEqual((found[0].shape, found[1].tolist()), ((3, 0), [0, 0, 0]))
        no_faults = self.decoder([(0, 1, 2), (1, 2, 3)])
        found = no_faults.decode_batch(numpy.array([[1, 0, 1], [0, 0, 0]]), return_weights=True)
        self.assertEqual((found[0].shape, found[1].tolist()), ((2, 0), [5, 0]))


class ByLibrary(unittest.TestCase):
    """Each shot of a batch beside a call of its own."""

    def setUp(self):
        self.path = library_or_skip()

    def same(self, decoder, shots):
        """A batch in each form has the predictions and weights of single shots."""
        alone = [decoder.decode(shot, return_weight=True) for shot in shots]
        predictions, weights = [one for one, _ in alone], [weight for _, weight in alone]
        self.assertEqual(decoder.decode_batch(shots, return_weights=True), (predictions, weights))
        numpy = wanted("numpy")
        for form in ("uint8", "bool", "int32"):
            given = numpy.array(shots, form).reshape(len(shots), decoder.num_nodes)
            found = decoder.decode_batch(given, return_weights=True)
            self.assertEqual(found[0].tolist(), predictions)
            self.assertEqual(found[1].tolist(), list(map(float, weights)))
            self.assertEqual(given.tolist(), numpy.array(shots, form).tolist())
        detectors = decoder._planned().lengths[1]
        packed = numpy.packbits(numpy.array(shots, "uint8")[:, :detectors], axis=1,
                                bitorder="little")
        found = decoder.decode_batch(packed, bit_packed_shots=True, bit_packed_predictions=True)
        wanted_bits = numpy.packbits(numpy.array(predictions, "uint8"), axis=1, bitorder="little")
        self.assertEqual(found.tolist(), wanted_bits.tolist())

    def test_batches_are_their_shots(self):
        chance, joined = random.Random(4), 0
        for _ in range(40):
            decoder = made(chance, engine="library", program=self.path)
            shots = []
            for shot in shots_of(decoder, chance, 30):
                try:
                    decoder.decode(shot)
                except blossom.Infeasible:
                    continue
                shots.append(shot)
            joined += len(shots)
            for one in (decoder, in_parts(decoder)) if not decoder.boundary else (decoder,):
                with mock.patch("blossom.decoding_batch.MOST_SETS", chance.choice((1, 4, 256))):
                    if shots and decoder.num_fault_ids:
                        self.same(one, shots)
        self.assertGreater(joined, 500)

    def test_threads_share_a_batch(self):
        chance = random.Random(7)
        edges = [(node, node + 1, chance.randint(1, 9), node) for node in range(150)]
        decoder = blossom.Decoder.from_edges([*edges, (0, None, 3), (150, None, 4)],
                                             engine="library", program=self.path)
        with mock.patch("blossom.decoding_batch.FEW_SETS", 2), \
                mock.patch("blossom.decoding_batch.processors", lambda: 4):
            self.same(decoder, shots_of(decoder, chance, 50))

    def test_without_numpy_the_same(self):
        chance = random.Random(3)
        decoder = made(chance, engine="library", program=self.path)
        shots = [shot for shot in shots_of(decoder, chance, 20) if not any(shot)] + [
            [0] * decoder.num_nodes]
        with mock.patch.dict("sys.modules", numpy=None):
            found = decoder.decode_batch(shots, return_weights=True)
        self.assertEqual(found, decoder.decode_batch(shots, return_weights=True))


if __name__ == "__main__":
    unittest.main()
