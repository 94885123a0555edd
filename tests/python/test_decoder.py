"""The decoder: predictions, weights and edges, compared with a search of all sets of errors."""
import itertools
import math
import random
import time
import unittest
from fractions import Fraction
from unittest import mock

import blossom
from support import StandIn, library_or_skip, wanted

STEANE = [[1, 1, 0, 0], [0, 1, 1, 0], [0, 0, 1, 1]]


def ring(nodes):
    """A ring of detectors with an observable on its last edge."""
    return [
        (node, (node + 1) % nodes, 1, 0 if node == nodes - 1 else None) for node in range(nodes)
    ]


def least(edges, boundary, nodes, fired):
    """The least weight of a set of errors that fires these detectors, by trying all; None where
    there is none."""
    best = None
    for count in range(len(edges) + 1):
        for chosen in itertools.combinations(edges, count):
            flips = [end for edge in chosen for end in edge[:2]]
            if all(
                (flips.count(node) % 2 == 1) == (node in fired)
                for node in range(nodes)
                if node not in boundary
            ):
                weight = sum(edge[2] for edge in chosen)
                best = weight if best is None else min(best, weight)
    return best


class Decoding(unittest.TestCase):
    def test_a_repetition_code(self):
        decoder = blossom.Decoder()
        decoder.add_boundary_edge(0, fault_ids={0})
        decoder.add_edge(0, 1, fault_ids={1}, weight=2)
        decoder.add_edge(1, 2, fault_ids=2)
        decoder.add_boundary_edge(2, fault_ids=3, weight=1)
        self.assertEqual(
            (decoder.num_nodes, decoder.num_detectors, decoder.num_edges, decoder.num_fault_ids),
            (3, 3, 4, 4),
        )
        self.assertEqual(decoder.decode([1, 0, 0]), [1, 0, 0, 0])
        self.assertEqual(decoder.decode([1, 1, 0], return_weight=True), ([0, 1, 0, 0], 2))
        self.assertEqual(decoder.decode({1}, return_weight=True), ([0, 0, 1, 1], 2))
        self.assertEqual(decoder.decode_to_edges_array([0, 1, 1]), [(1, 2)])
        self.assertEqual(decoder.decode_to_edges_array([1, 0, 0]), [(0, -1)])
        self.assertEqual(decoder.decode([0, 0, 0]), [0, 0, 0, 0])
        self.assertEqual(
            decoder.edges()[0],
            (0, None, {"fault_ids": {0}, "weight": 1, "error_probability": None}),
        )

    def test_all_syndromes_of_made_graphs(self):
        chance = random.Random(7)
        for turn in range(25):
            nodes = chance.randint(1, 5)
            pairs = [pair for pair in itertools.combinations(range(-1, nodes), 2)]
            edges = [
                (*pair, chance.randint(-3 if turn % 2 else 0, 6))
                for pair in chance.sample(pairs, chance.randint(1, min(6, len(pairs))))
            ]
            boundary = set(chance.sample(range(nodes), chance.randint(0, nodes // 2)))
            decoder = blossom.Decoder.from_edges(
                [(*edge, place) for place, edge in enumerate(edges)], boundary=boundary
            )
            for size in range(1 << nodes):
                fired = {node for node in range(nodes) if size >> node & 1} - boundary
                with self.subTest(edges=edges, boundary=boundary, fired=fired):
                    self.compare(decoder, edges, boundary, decoder.num_nodes, fired)

    def compare(self, decoder, edges, boundary, nodes, fired):
        if fired and max(fired) >= nodes:
            with self.assertRaises(ValueError):
                decoder.decode(fired)
            return
        wanted_weight = least(edges, boundary | {-1}, nodes, fired)
        if wanted_weight is None:
            with self.assertRaises(blossom.Infeasible):
                decoder.decode(fired)
            return
        prediction, weight = decoder.decode(fired, return_weight=True)
        chosen = [edge for edge, used in zip(edges, prediction) if used]
        flips = [end for edge in chosen for end in edge[:2]]
        self.assertEqual((weight, sum(edge[2] for edge in chosen)), (wanted_weight, wanted_weight))
        self.assertEqual({node for node in range(nodes) if flips.count(node) % 2} - boundary, fired)

    def test_a_boundary_of_many_edges(self):
        decoder = blossom.Decoder.from_edges(
            [(node, None, 5, 0) for node in range(50)] + [(node, node + 1, 1) for node in range(49)]
        )
        self.assertEqual(decoder.decode({0, 49}, return_weight=True), ([0], 10))
        self.assertEqual(decoder.decode({3, 7, 30}, return_weight=True), ([1], 9))
        self.assertEqual(decoder.decode_to_edges_array({0, 49}), [(0, -1), (49, -1)])
        self.assertTrue(decoder.answer({3, 7, 30}).check())
        turned = blossom.Decoder.from_edges(
            [(node, node + 1, 1) for node in range(49)] + [(node, None, 5, 0) for node in range(50)]
        )
        self.assertEqual(turned.decode({0, 49}, return_weight=True), ([0], 10))
        self.assertEqual(turned.decode({0, 20, 49}, return_weight=True), ([1], 15))
        ends = [node for pair in decoder.instance({3}).ends for node in pair if node >= 50]
        self.assertEqual((len(set(ends)), max(map(ends.count, ends))), (4, 18))  # no node has many

    def test_edges_within_the_boundary(self):
        decoder = blossom.Decoder.from_edges(
            [(0, 1, -5, 0), (1, None, -2, 1), (0, 3, 4, 2), (2, 1, 3, 3)], boundary=[0, 1]
        )
        self.assertEqual(decoder.decode([0, 0, 0, 0], return_weight=True), ([1, 1, 0, 0], -7))
        self.assertEqual(decoder.decode({2}, return_weight=True), ([1, 1, 0, 1], -4))
        self.assertEqual(decoder.decode_to_edges_array({2}), [(0, 1), (1, -1), (2, 1)])

    def test_errors_that_flip_no_detector(self):
        decoder = blossom.Decoder.from_edges(
            [(0, 0, -5, 0), (0, 1, 2, 1), (1, 1, 3, 2), (2, 2, -1, 3)], boundary=[2]
        )
        self.assertEqual(decoder.decode([0, 0, 0], return_weight=True), ([1, 0, 0, 1], -6))
        self.assertEqual(decoder.decode({0, 1}, return_weight=True), ([1, 1, 0, 1], -4))
        self.assertEqual(decoder.decode_to_edges_array({0, 1}), [(0, 0), (0, 1), (2, 2)])
        self.assertEqual(decoder.edges()[0][:2], (0, 0))
        decoder.add_edge(1, 1, fault_ids=2, weight=-7, merge_strategy="smallest-weight")
        self.assertEqual(decoder.decode([0, 0, 0], return_weight=True), ([1, 0, 1, 1], -13))
        with self.assertRaisesRegex(ValueError, "duplicate edge"):
            decoder.add_edge(1, 1)
        self.assertEqual(
            decoder.instance(set()).edge_count, 1
        )  # (the least joins have none of them)

    def test_answers_prove_themselves(self):
        answer = blossom.Decoder.from_edges(ring(7)).answer({1, 4})
        self.assertEqual((answer.weight, answer.certificate.dual_value), (3, 3))
        self.assertTrue(answer.check())

    def test_batches(self):
        decoder = blossom.Decoder.from_edges(ring(5))
        shots = [[0] * 5, [1, 0, 0, 0, 1], [1, 1, 0, 0, 0]]
        self.assertEqual(decoder.decode_batch(shots), [[0], [1], [0]])
        self.assertEqual(
            decoder.decode_batch(shots, return_weights=True), ([[0], [1], [0]], [0, 1, 1])
        )
        self.assertEqual(decoder.decode_batch([]), [])

    def test_no_set_of_errors(self):
        decoder = blossom.Decoder.from_edges(ring(5))
        with self.assertRaises(ValueError) as told:
            decoder.decode([1, 0, 0, 0, 0])
        self.assertEqual(told.exception.closed_set, [0, 1, 2, 3, 4])

    def test_the_boundary_has_no_part_in_what_is_apart_from_it(self):
        for edges, boundary, apart in (
            ([(0, None), (1, 2)], (), [1, 2]),
            ([(1, 2), (3, 0)], [3], [1, 2]),
            ([(2, None), (0, 1)], (), [0, 1]),
        ):
            decoder = blossom.Decoder.from_edges(edges, boundary=boundary)
            near = ({0, 1, 2} - set(apart)).pop()
            self.assertEqual(decoder.decode({near}), [])
            self.assertEqual(decoder.decode({near, *apart}), [])
            for fired in ({apart[0]}, {apart[1], near}):
                with self.assertRaises(blossom.Infeasible) as told:
                    decoder.decode(fired)
                self.assertEqual(told.exception.closed_set, apart)


class Built(unittest.TestCase):
    def test_of_a_check_matrix(self):
        decoder = blossom.Decoder.from_check_matrix([[1, 1, 0], [0, 1, 1]], weights=[1, 1, 1])
        self.assertEqual((decoder.num_detectors, decoder.num_fault_ids), (2, 3))
        self.assertEqual(decoder.decode([1, 1]), [0, 1, 0])
        decoder = blossom.Decoder.from_check_matrix(
            [[1, 1, 0], [0, 1, 1]], weights=3, faults_matrix=[[1, 0, 0], [1, 1, 1]]
        )
        self.assertEqual(decoder.decode([1, 0], return_weight=True), ([1, 1], 3))
        with self.assertRaisesRegex(blossom.GraphError, "column 0 .* has 3"):
            blossom.Decoder.from_check_matrix([[1], [1], [1]])

    def test_of_a_graph_of_networkx(self):
        networkx = wanted("networkx")
        graph = networkx.Graph()
        graph.add_edge(0, 1, fault_ids={0}, weight=2)
        graph.add_edge(1, 2, weight=1)
        graph.nodes[2]["is_boundary"] = True
        decoder = blossom.Decoder.from_networkx(graph)
        self.assertEqual((decoder.boundary, decoder.num_detectors), ({2}, 2))
        self.assertEqual(decoder.decode([1, 0], return_weight=True), ([1], 3))
        self.assertEqual(decoder.decode([1, 0, 1], return_weight=True), ([1], 3))

    def test_a_node_of_networkx_without_edges_is_a_detector(self):
        graph = wanted("networkx").Graph([(0, 1, {"weight": 1})])
        graph.add_node(4)
        decoder = blossom.Decoder.from_networkx(graph)
        self.assertEqual((decoder.num_nodes, decoder.num_detectors), (5, 5))
        self.assertEqual(decoder.decode_to_edges_array([1, 1, 0, 0, 0]), [(0, 1)])
        with self.assertRaises(blossom.Infeasible):
            decoder.decode({4})

    def test_two_edges_of_the_same_nodes(self):
        for merge, weight, least in (
            ("replace", 5, 5),
            ("keep-original", 5, 3),
            ("smallest-weight", 5, 3),
            ("replace", 2, 2),
            ("keep-original", 2, 3),
            ("smallest-weight", 2, 2),
        ):
            decoder = blossom.Decoder.from_edges([(0, 1, 3)])
            decoder.add_edge(1, 0, weight=weight, merge_strategy=merge)
            self.assertEqual(decoder.decode([1, 1], return_weight=True)[1], least)
        with self.assertRaisesRegex(ValueError, "duplicate edge"):
            decoder.add_edge(0, 1)
        with self.assertRaisesRegex(ValueError, "merge_strategy must be one of"):
            decoder.add_edge(0, 2, merge_strategy="largest-weight")
        for edge in ((0,), (0, 1, 2, 3, 4)):
            with self.assertRaisesRegex(blossom.GraphError, "invalid edge"):
                blossom.Decoder.from_edges([edge])

    def test_weights_are_whole_or_scaled(self):
        with self.assertRaisesRegex(blossom.WeightError, "scale="):
            blossom.Decoder.from_edges([(0, 1, 2.5)]).decode([1, 1])
        self.assertEqual(
            blossom.Decoder.from_edges([(0, 1, 2.5)], scale=2).decode([1, 1], return_weight=True)[
                1
            ],
            Fraction(5, 2),
        )
        finest = blossom.Decoder.from_edges([(0, 1, 2.944438979166440)], scale="finest")
        self.assertAlmostEqual(
            float(finest.decode([1, 1], return_weight=True)[1]), 2.944438979166440, places=7
        )

    def test_what_is_no_edge_or_syndrome(self):
        decoder = blossom.Decoder.from_edges(ring(3))
        for nodes in ((-1, -1), (None, None), (0.5, 1), (-2, 1), ("a", 1)):
            with self.assertRaises(blossom.GraphError):
                decoder.add_edge(*nodes)
        for syndrome in ([1, 1], [1, 1, 0, 0], [2, 0, 0], {5}):
            with self.assertRaises(ValueError):
                decoder.decode(syndrome)

    def test_an_edge_more_after_a_call(self):
        decoder = blossom.Decoder.from_edges([(0, 1, 3)])
        self.assertEqual(decoder.decode([1, 1], return_weight=True)[1], 3)
        decoder.add_boundary_edge(0)
        decoder.add_boundary_edge(1, fault_ids=[1])
        self.assertEqual(decoder.decode([1, 1], return_weight=True), ([0, 1], 2))
        decoder.ensure_num_fault_ids(4)
        self.assertEqual(decoder.decode([1, 1]), [0, 1, 0, 0])


class Constructed(unittest.TestCase):
    def test_a_check_matrix_is_taken_by_the_constructor(self):
        decoder = blossom.Decoder(STEANE, [5, 1, 1, 1], faults_matrix=[[1, 0, 0, 1]])
        self.assertEqual(
            (decoder.num_detectors, decoder.num_edges, decoder.num_fault_ids), (3, 4, 1)
        )
        self.assertEqual(
            decoder.edges()[0],
            (0, None, {"fault_ids": {0}, "weight": 5, "error_probability": None}),
        )
        self.assertEqual(decoder.decode([1, 0, 0], return_weight=True), ([1], 3))
        self.assertEqual(blossom.Decoder(STEANE).decode([1, 1, 0]), [0, 1, 0, 0])
        same = blossom.Decoder.from_check_matrix(STEANE, [5, 1, 1, 1], faults_matrix=[[1, 0, 0, 1]])
        self.assertEqual(same.edges(), decoder.edges())

    def test_a_graph_of_networkx_too(self):
        networkx = wanted("networkx")
        graph = networkx.path_graph(3)
        graph.edges[0, 1]["error_probability"] = 0.1
        decoder = blossom.Decoder(graph)
        self.assertEqual(decoder.edges()[0][2]["error_probability"], 0.1)
        with self.assertRaisesRegex(blossom.GraphError, "apply only to a check matrix"):
            blossom.Decoder(graph, 3)

    def test_what_is_no_matrix(self):
        for matrix, words, said in (
            (5, {}, "a list of rows, got int"),
            ("101", {}, "a list of rows"),
            ([1, 0, 1], {}, "row 0 .*, got 1"),
            ([[1, 0], [1]], {}, "equal lengths"),
            ([[1, 0]], {}, "column 1 .* has 0 nonzero entries"),
            ([[1, 1]], {"weights": [1, 2, 3]}, "weights: expected 2 .*, got 3"),
            ([[1, 1]], {"error_probabilities": [0.1]}, "error_probabilities: expected 2 .*, got 1"),
            ([[1, 1]], {"faults_matrix": [[1]]}, "faults_matrix .*, got 1"),
        ):
            with self.subTest(matrix=matrix), self.assertRaisesRegex(blossom.GraphError, said):
                blossom.Decoder(matrix, **words)
        with self.assertRaisesRegex(blossom.GraphError, "apply only to a check matrix"):
            blossom.Decoder(weights=[1, 2])

    def test_weights_of_probabilities(self):
        decoder = blossom.Decoder(STEANE, error_probabilities=[0.1, 0.2, 0.3, 0.4])
        for edge, chance in zip(decoder.edges(), (0.1, 0.2, 0.3, 0.4)):
            self.assertAlmostEqual(edge[2]["weight"], math.log((1 - chance) / chance))
            self.assertEqual(edge[2]["error_probability"], chance)
        prediction, weight = decoder.decode([1, 0, 0], return_weight=True)
        likely = math.log(4) + math.log(7 / 3) + math.log(1.5)
        self.assertEqual(prediction, [1, 0, 0, 0])
        self.assertAlmostEqual(float(weight), math.log(9), places=7)
        self.assertGreater(likely, math.log(9))
        self.assertEqual((decoder.scale, math.log2(decoder.scale) % 1), (2**38, 0))

    def test_the_scale_is_said(self):
        for scale, found in ((1000, 1000), (None, 2**38), ("finest", 2**38)):
            decoder = blossom.Decoder(scale=scale, rounding="nearest")
            decoder.add_boundary_edge(0, error_probability=0.1)
            self.assertEqual(decoder.scale, found)
            self.assertAlmostEqual(
                float(decoder.decode({0}, return_weight=True)[1]), math.log(9), places=3
            )
        self.assertEqual(blossom.Decoder.from_edges([(0, 1, 3)]).scale, 1)
        with self.assertRaisesRegex(blossom.WeightError, "must be an integer"):
            blossom.Decoder([[1, 1]], error_probabilities=0.1, scale=1).decode({0})

    def test_what_is_no_probability(self):
        decoder = blossom.Decoder()
        for chance in (0, 1, -0.1, 1.5, float("nan"), "likely"):
            with self.assertRaisesRegex(blossom.WeightError, "error_probability"):
                decoder.add_edge(0, 1, error_probability=chance)
        with self.assertRaisesRegex(blossom.WeightError, ", not both"):
            decoder.add_edge(0, 1, None, 3, 0.1)
        self.assertEqual(decoder.num_edges, 0)
        decoder.add_edge(0, 1, error_probability=0.5)
        decoder.add_edge(1, 2, error_probability=0.75)
        for edge, weight in zip(decoder.edges(), (0, -math.log(3))):
            self.assertAlmostEqual(edge[2]["weight"], weight)


class Calls(unittest.TestCase):
    def asked(self, call):
        """What a decoder asks of the program by a call, where no pool can be made."""
        stand_in = StandIn(0, b"s OPTIMAL tjoin 1\nx 5 1\n")
        decoder = blossom.Decoder.from_edges(ring(5), engine=stand_in)
        with mock.patch("concurrent.futures.ThreadPoolExecutor", side_effect=AssertionError):
            call(decoder)
        return stand_in.asked

    def test_one_shot_makes_no_pool(self):
        text = (
            "p edge 5 5\n"
            + "".join("e %d %d 1\n" % (node + 1, (node + 1) % 5 + 1) for node in range(5))
            + "n 1 1\nn 5 1\n"
        )
        for call in (
            lambda decoder: decoder.decode([1, 0, 0, 0, 1]),
            lambda decoder: decoder.decode({4, 0}),
            lambda decoder: decoder.decode_to_edges_array([1, 0, 0, 0, 1]),
            lambda decoder: decoder.decode_batch([[1, 0, 0, 0, 1]]),
        ):
            self.assertEqual(self.asked(call), [("brief", "tjoin", text.encode(), None)])
        self.assertEqual(
            self.asked(lambda decoder: decoder.answer({0, 4})),
            [("solve", "tjoin", text.encode(), None)],
        )

    def test_an_answer_is_checked_as_it_was_found(self):
        stand_in = StandIn(0, b"s OPTIMAL tjoin 1\nx 5 1\n")
        answer = blossom.Decoder.from_edges(ring(5), engine=stand_in, timeout=9).answer({0, 4})
        stand_in.output = b"s ACCEPTED\n"
        self.assertTrue(answer.check())
        self.assertEqual([asked[0] for asked in stand_in.asked], ["solve", "check"])
        self.assertEqual(stand_in.asked[0][3], 9)

    def test_errors_of_runs(self):
        decoder = blossom.Decoder.from_edges(ring(5), engine=StandIn(8, b""))
        for call in (decoder.decode, decoder.answer, lambda shot: decoder.decode_batch([shot] * 3)):
            with self.assertRaisesRegex(blossom.SolverError, "out of memory"):
                call({0, 4})

    def test_a_shot_takes_little_time_beside_the_solver(self):
        rows = [(node, node + 1, 2, node) for node in range(900)]
        rows += [(node, node + 2, 3) for node in range(900)]
        stand_in = StandIn(
            0, b"s OPTIMAL tjoin 9\n" + b"".join(b"x %d 1\n" % edge for edge in range(1, 30))
        )
        decoder = blossom.Decoder.from_edges(rows, engine=stand_in)
        decoder.decode({0, 1})
        least = 1.0
        for _ in range(20):
            start = time.process_time()
            for _ in range(20):
                decoder.decode({5, 9, 600, 640})
            least = min(least, (time.process_time() - start) / 20)
        self.assertLess(least, 400e-6)  # (50 microseconds, on a machine that does nothing else)


class Arrays(unittest.TestCase):
    def test_numpy_is_answered_by_numpy(self):
        numpy = wanted("numpy")
        decoder = blossom.Decoder.from_edges(ring(5))
        prediction, weight = decoder.decode(
            numpy.array([1, 0, 0, 0, 1], dtype=numpy.uint8), return_weight=True
        )
        self.assertEqual((prediction.dtype, prediction.tolist(), weight), (numpy.uint8, [1], 1))
        predictions, weights = decoder.decode_batch(
            numpy.array([[1, 1, 0, 0, 0], [0] * 5]), return_weights=True
        )
        self.assertEqual(
            (predictions.shape, predictions.tolist(), weights.tolist()),
            ((2, 1), [[0], [0]], [1.0, 0.0]),
        )
        self.assertEqual(
            decoder.decode_to_edges_array(numpy.array([1, 1, 0, 0, 0])).tolist(), [[0, 1]]
        )
        self.assertEqual(decoder.decode_batch(numpy.zeros((0, 5), dtype=int)).shape, (0, 1))

    def test_check_matrices_of_numpy(self):
        numpy = wanted("numpy")
        decoder = blossom.Decoder.from_check_matrix(
            numpy.array([[1, 1, 0], [0, 1, 1]]), weights=numpy.array([1.0, 1.5, 1.0]), scale=2
        )
        self.assertEqual(decoder.decode(numpy.array([1, 1])).tolist(), [0, 1, 0])


class ByLibrary(unittest.TestCase):
    def test_small_calls_by_the_library(self):
        decoder = blossom.Decoder.from_edges(ring(5), engine="library", program=library_or_skip())
        self.assertEqual(decoder.decode_batch([[1, 0, 0, 0, 1]] * 200), [[1]] * 200)
