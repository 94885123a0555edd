"""Detector error models: what their lines mean, the decoders that they make, and shots in the forms
of Stim. Decoders of made codes are compared with a second decoder, which pairs detectors by
shortest paths."""
import itertools
import math
import os
import random
import tempfile
import unittest

import blossom
from blossom.detector_error_model import MOST_INSTRUCTIONS, read_model
from made_models import repetition_code, surface_code
from support import library_or_skip, wanted

BY_HAND = """
# two rounds of a repetition code
error(0.1) D0 L0
error[between](0.2) D0 D1   # a comment
repeat 2 {
    error(0.05) D0 D2 ^ D1 L1
    detector(1, 2, 0.5) D0
    shift_detectors(0, 0, 1) 2
}
ERROR(0) D0 D1 D2
logical_observable L3
detector D9
"""
#: A line that is wrong, and what is said of it.
WRONG = (
    ("error(0.1) D0 D1 D2", r"line 1 .*: an error flips 3 detectors \(D0, D1, D2\): separate it"),
    ("error(0.1) D0\nrepeat 2 {\nerror(0.1) D4 D3 D2 ^ D1\n}", r"line 3 .* \(D2, D3, D4\)"),
    ("error D0", r"line 1 .*: invalid probability \(\)"),
    ("error(1.5) D0", r"invalid probability \(1.5\)"),
    ("error(nan) D0", r"invalid probability \(nan\)"),
    ("error(0.1, 0.2) D0", "invalid probability"),
    ("error(0.1 0.2) D0", "invalid numbers"),
    ("error(1) D0", "line 1 .*: an error has the probability 1"),
    ("error(0.1) D0 X1", "invalid target 'X1': choose from D0, D1, .., L0, L1, .., .$"),
    ("error(0.1) Dx", "invalid target 'Dx': expected a number after D"),
    ("error(0.1) D-1", "invalid target 'D-1'"),
    ("error(0.1 D0", "line 1 .*: invalid instruction 'error.0.1 D0'"),
    ("detector L0", "invalid target 'L0': choose from D0, D1, .."),
    ("detector(x) D0", "invalid numbers"),
    ("logical_observable D0", "invalid target 'D0': choose from L0"),
    ("shift_detectors -2", "invalid target '-2' of shift_detectors"),
    ("shift_detectors 1 2", "invalid target '1 2' of shift_detectors"),
    ("repeat {\n}", "line 1 .*: invalid target '' of repeat"),
    ("repeat 2\n", "line 1 .*: invalid use of {"),
    ("error(0.1) D0 {\n}", "line 1 .*: invalid use of {"),
    ("\n}\n", "line 2 .*: } without a repeat block"),
    ("# text\nrepeat 2 {\nerror(0.1) D0\n", "line 2 .*: the repeat block has no end"),
    ("# text\nmeasure(0.1) D0", "line 2 .*: unknown instruction 'measure': choose from error, det"),
)


def brute_force(decoder, fired):
    """The least weight of errors that fire these detectors, by trying all sets of errors."""
    edges = decoder.edges()
    best = math.inf
    for chosen in itertools.product((0, 1), repeat=len(edges)):
        flipped = set()
        for (node1, node2, _), used in zip(edges, chosen):
            if used:
                flipped ^= {node1} if node2 is None else {node1} ^ {node2}
        if flipped == fired:
            best = min(best, sum(edge[2]["weight"] for edge, used in zip(edges, chosen) if used))
    return best


def by_pairs(networkx, decoder, fired):
    """The least weight of errors that fire these detectors, as a matching of them and of a boundary
    for each, by shortest paths. No weight is negative."""
    graph = networkx.Graph()
    graph.add_nodes_from(range(decoder.num_nodes))
    for node1, node2, edge in decoder.edges():
        graph.add_edge(node1, "boundary" if node2 is None else node2, weight=edge["weight"])
    pairs = networkx.Graph()
    distance = {node: networkx.single_source_dijkstra_path_length(graph, node) for node in fired}
    for one, other in itertools.combinations(sorted(fired), 2):
        pairs.add_edge(one, other, weight=distance[one].get(other, 1e9))
        pairs.add_edge((one, "boundary"), (other, "boundary"), weight=0)
    for one in fired:
        pairs.add_edge(one, (one, "boundary"), weight=distance[one].get("boundary", 1e9))
    matched = networkx.min_weight_matching(pairs)
    return sum(pairs.edges[pair]["weight"] for pair in matched)


def made_shot(decoder, chance, times=1):
    """The detectors that errors by chance fire, and the observables that they flip."""
    fired, flipped = set(), set()
    for node1, node2, edge in decoder.edges():
        if chance.random() < times * edge["error_probability"]:
            fired ^= {node1} if node2 is None else {node1, node2}
            flipped ^= edge["fault_ids"]
    return fired, flipped


class Models(unittest.TestCase):
    def test_a_model_by_hand(self):
        model = read_model(BY_HAND)
        self.assertEqual(
            [
                (part.line, part.probability, part.detectors, set(part.observables))
                for part in model.parts
            ],
            [
                (3, 0.1, (0,), {0}),
                (4, 0.2, (0, 1), set()),
                (6, 0.05, (0, 2), set()),
                (6, 0.05, (1,), {1}),
                (6, 0.05, (2, 4), set()),
                (6, 0.05, (3,), {1}),
            ],
        )
        self.assertEqual((model.detectors, model.observables), (14, 4))
        self.assertEqual(model.coordinates, {0: (1, 2, 0.5), 2: (1, 2, 1.5)})

    def test_what_a_part_names_twice_it_does_not_flip(self):
        model = read_model("error(0.1) D0 D1 D0 L0 L0 L1 ^ D2 D2 L5\ndetector D7 D7")
        self.assertEqual([part[2:] for part in model.parts], [((1,), {1})])
        self.assertEqual((model.detectors, model.observables), (8, 6))

    def test_repeat_blocks_within_each_other(self):
        text = "repeat 3 {\nrepeat 2 {\nerror(0.1) D0\nshift_detectors 1\n}\nshift_detectors 10\n}"
        model = read_model(text + "\nerror(0.1) D0")
        found = [part.detectors[0] for part in model.parts]
        self.assertEqual(found, [0, 1, 12, 13, 24, 25, 36])
        self.assertEqual(read_model("repeat 0 {\nerror(0.1) D0\n}").parts, [])

    def test_a_model_of_too_many_instructions(self):
        text = "error(0.1) D0"
        for _ in range(30):
            text = "repeat 10 {\n%s\n}" % text
        with self.assertRaisesRegex(blossom.LimitExceeded, "the limit is %d" % MOST_INSTRUCTIONS):
            read_model(text)
        empty = "repeat 1000000 {\n" * 2000 + "}\n" * 2000
        self.assertEqual(read_model(empty + "error(0.1) D3").detectors, 4)

    def test_wrong_lines(self):
        for text, told in WRONG:
            with self.subTest(text=text), self.assertRaisesRegex(blossom.GraphError, told):
                blossom.Decoder.from_detector_error_model(text)

    def test_text_paths_and_objects(self):
        class Model:
            num_detectors = num_observables = 1

            def __str__(self):
                return "error(0.1) D0 L0"

        with tempfile.TemporaryDirectory() as room:
            path = os.path.join(room, "error model")
            with open(path, "w", encoding="utf-8") as file:
                file.write("error(0.1) D0 L0\n")
            make = blossom.Decoder.from_detector_error_model
            for given in ("error(0.1) D0 L0", "# \nerror(0.1) D0 L0", path, Model()):
                self.assertEqual(make(given).num_edges, 1)
            by_file = blossom.Decoder.from_detector_error_model_file(path)
            self.assertEqual(by_file.edges(), make(path).edges())
            self.assertEqual(make("").num_nodes, 0)
            with self.assertRaises(FileNotFoundError):
                make(os.path.join(room, "missing.dem"))
            with self.assertRaisesRegex(blossom.GraphError, "got a int; pass a text, a path"):
                make(5)


class Merging(unittest.TestCase):
    def test_parallel_errors_are_independent(self):
        """Either of two errors comes and not both; the observables of the first are kept."""
        text = "error(0.1) D0 D1 L0\nerror(0.2) D1 D0 L1\nerror(0.3) D0 D1\nerror(0.4) D1 L1"
        decoder = blossom.Decoder.from_detector_error_model(text)
        first, second = decoder.edges()
        chance = 0.5 * (1 - 0.8 * 0.6 * 0.4)
        self.assertEqual((first[:2], first[2]["fault_ids"]), ((0, 1), {0}))
        self.assertAlmostEqual(first[2]["error_probability"], chance, places=15)
        self.assertAlmostEqual(first[2]["weight"], math.log((1 - chance) / chance), places=12)
        self.assertEqual((second[:2], second[2]["fault_ids"]), ((1, None), {1}))
        self.assertEqual(decoder.num_fault_ids, 2)

    def test_independent_edges_of_weights(self):
        decoder = blossom.Decoder(scale="finest")
        decoder.add_edge(0, 1, fault_ids=0, weight=math.log(9))
        decoder.add_edge(1, 0, fault_ids=1, weight=math.log(4), merge_strategy="independent")
        edge = decoder.edges()[0][2]
        self.assertAlmostEqual(edge["weight"], math.log(0.74 / 0.26), places=12)
        self.assertEqual((edge["fault_ids"], edge["error_probability"]), ({0}, None))
        decoder.add_edge(1, 0, weight=0, merge_strategy="independent")
        self.assertAlmostEqual(decoder.edges()[0][2]["weight"], 0)

    def test_likely_errors_have_negative_weights(self):
        text = "error(0.9) D0 D1 L0\nerror(0.2) D0\nerror(0.2) D1"
        decoder = blossom.Decoder.from_detector_error_model(text)
        self.assertEqual(decoder.decode(set()), [0])
        self.assertEqual(decoder.decode({0, 1}), [1])
        self.assertLess(decoder.edges()[0][2]["weight"], 0)


class Codes(unittest.TestCase):
    def test_all_syndromes_of_a_repetition_code(self):
        for text in (repetition_code(3, 2, 0.1), surface_code(2, 1, 0.05, decomposed=False)):
            decoder = blossom.Decoder.from_detector_error_model(text)
            self.assertLessEqual(decoder.num_edges, 13)
            for size in range(min(1 << decoder.num_detectors, 64)):
                fired = {node for node in range(decoder.num_detectors) if size >> node & 1}
                _, weight = decoder.decode(fired, return_weight=True)
                self.assertAlmostEqual(float(weight), brute_force(decoder, fired), places=6)

    def test_shots_of_surface_codes(self):
        networkx = wanted("networkx")
        chance = random.Random(9)
        for distance, rounds, diagonal in ((3, 3, False), (3, 2, True), (5, 3, False)):
            text = surface_code(distance, rounds, 0.02, diagonal=diagonal)
            decoder = blossom.Decoder.from_detector_error_model(text)
            for _ in range(6):
                fired, _ = made_shot(decoder, chance)
                answer, weight = decoder.answer(fired), by_pairs(networkx, decoder, fired)
                self.assertAlmostEqual(float(answer.weight), weight, places=5)
                self.assertTrue(answer.check())

    def test_few_errors_are_found(self):
        """As many errors as half the distance never mislead."""
        chance = random.Random(4)
        decoder = blossom.Decoder.from_detector_error_model(surface_code(5, 4, 0.01))
        self.assertEqual((decoder.num_detectors, decoder.num_fault_ids), (120, 1))
        for _ in range(30):
            fired, flipped = set(), set()
            for node1, node2, edge in chance.sample(decoder.edges(), 2):
                fired ^= {node1} if node2 is None else {node1, node2}
                flipped ^= edge["fault_ids"]
            self.assertEqual(decoder.decode(fired), [int(0 in flipped)])

    def test_coordinates(self):
        decoder = blossom.Decoder.from_detector_error_model(surface_code(3, 2, 0.01))
        places = decoder.detector_coordinates()
        self.assertEqual(len(places), decoder.num_detectors)
        self.assertEqual({place[2] for place in places.values()}, {0, 1, 2})
        self.assertEqual(places[8][:2], places[0][:2])

    def test_distance_15_in_15_rounds(self):
        """The whole graph is over the limit of joins, and each of its two components isn't."""
        library = library_or_skip()
        text, chance = surface_code(15, 15, 0.005), random.Random(2)
        decoder = blossom.Decoder.from_detector_error_model(text, engine="library", program=library)
        self.assertEqual((decoder.num_detectors, decoder.num_edges), (3584, 10112))
        fired, flipped = made_shot(decoder, chance)
        prediction, weight = decoder.decode(fired, return_weight=True)
        self.assertEqual(prediction, [int(0 in flipped)])
        used = decoder.decode_to_edges_array(fired)
        ends = [node for pair in used for node in pair if node != -1]
        self.assertEqual({node for node in ends if ends.count(node) % 2}, fired)
        own = {frozenset(pair[:2]): pair[2]["weight"] for pair in decoder.edges()}
        whole = sum(own[frozenset((u, None if v == -1 else v))] for u, v in used)
        self.assertAlmostEqual(float(weight), whole, places=4)
        with self.assertRaisesRegex(blossom.LimitExceeded, "the limit is 16384"):
            decoder.answer(fired)

    def test_a_component_of_too_many_nodes_is_refused(self):
        with self.assertRaisesRegex(blossom.LimitExceeded, "4790 nodes .* limits are 4096"):
            blossom.Decoder.from_detector_error_model(repetition_code(60, 80, 0.01))

    def test_which_distances_fit(self):
        """The largest distances that the page on Python names, and the next ones."""
        for fits, diagonal, distance in (
            (True, False, 17),
            (False, False, 19),
            (True, True, 13),
            (False, True, 15),
        ):
            text = surface_code(distance, distance, 0.005, diagonal=diagonal)
            with self.subTest(distance=distance, diagonal=diagonal):
                if fits:
                    made = blossom.Decoder.from_detector_error_model(text)
                    self.assertEqual(len(made._planned().parts), 2)
                    continue
                with self.assertRaisesRegex(
                    blossom.LimitExceeded, "the limit is 16384, so at most 8192 edges"
                ):
                    blossom.Decoder.from_detector_error_model(text)

    def test_parts_answer_as_the_whole_does(self):
        chance = random.Random(8)
        whole = blossom.Decoder.from_detector_error_model(surface_code(3, 3, 0.03))
        parts = in_parts(whole)
        self.assertEqual(len(parts._planned().parts), 2)
        for _ in range(8):
            fired, _ = made_shot(whole, chance, 2)
            self.assertEqual(
                parts.decode(fired, return_weight=True)[1],
                whole.decode(fired, return_weight=True)[1],
            )
        shots = [made_shot(whole, chance)[0] for _ in range(5)]
        both = [one.decode_batch(shots, return_weights=True)[1] for one in (parts, whole)]
        self.assertEqual(*both)
        self.assertEqual(parts.answer(shots[0]).weight, whole.answer(shots[0]).weight)

    def test_a_part_without_an_answer(self):
        decoder = blossom.Decoder.from_edges(
            [(0, 1, 1), (2, 3, 1, 0), (3, None, -2, 1), (5, 5, -1)]
        )
        parts = in_parts(decoder)
        self.assertEqual(parts.decode({0, 1, 3}, return_weight=True), ([0, 1], -2))
        self.assertEqual(decoder.decode({0, 1, 3}, return_weight=True), ([0, 1], -2))
        for fired, closed in (({2, 0}, [0, 1]), ({4}, [4])):
            with self.assertRaises(blossom.Infeasible) as told:
                parts.decode(fired)
            self.assertEqual(told.exception.closed_set, closed)


def in_parts(decoder):
    """The same decoder, whose components are solved apart as those of a large graph are."""
    from unittest import mock

    from blossom.decoding_plan import Maker

    edges = [(u, v, edge["weight"], edge["fault_ids"]) for u, v, edge in decoder.edges()]
    with mock.patch.object(Maker, "fits", lambda self: False):
        copy = blossom.Decoder.from_edges(edges, scale=decoder.scale, rounding="nearest")
        copy._planned()
    return copy


class Shots(unittest.TestCase):
    def setUp(self):
        self.numpy = wanted("numpy")
        self.decoder = blossom.Decoder.from_detector_error_model(repetition_code(5, 2, 0.1))
        chance = self.numpy.random.default_rng(3)
        self.shots = chance.integers(0, 2, (20, self.decoder.num_detectors), dtype="uint8")
        self.wanted = self.decoder.decode_batch(self.shots)
        self.packed = self.numpy.packbits(self.shots, axis=1, bitorder="little")

    def same(self, found, expected, shape=(20, 1)):
        self.assertIsInstance(found, self.numpy.ndarray)
        self.assertEqual((found.dtype, found.shape), ("uint8", shape))
        self.assertEqual(found.tolist(), expected.tolist())

    def test_packed_shots_and_predictions(self):
        decoder, numpy = self.decoder, self.numpy
        self.same(decoder.decode_batch(self.packed, bit_packed_shots=True), self.wanted)
        predictions = numpy.packbits(self.wanted, axis=1, bitorder="little")
        both = decoder.decode_batch(
            self.packed, bit_packed_shots=True, bit_packed_predictions=True, return_weights=True
        )
        self.same(both[0], predictions)
        self.assertEqual(
            both[1].tolist(), decoder.decode_batch(self.shots, return_weights=True)[1].tolist()
        )
        self.same(decoder.decode_batch(self.shots, bit_packed_predictions=True), predictions)
        self.same(
            decoder.decode_shots_bit_packed(bit_packed_detection_event_data=self.packed),
            predictions,
        )
        decoder.ensure_num_fault_ids(11)
        wide = decoder.decode_batch(self.packed, bit_packed_shots=True, bit_packed_predictions=True)
        self.same(wide[:, :1], predictions)
        self.assertEqual(wide.shape, (20, 2))
        none = numpy.zeros((0, self.packed.shape[1]), dtype="uint8")
        self.assertEqual(
            decoder.decode_shots_bit_packed(bit_packed_detection_event_data=none).shape, (0, 2)
        )

    def test_wrong_packed_shots(self):
        wide = self.numpy.zeros((3, 9), dtype="uint8")
        for shots, told in (
            (wide, r"shape \(shots, 2\) for 12 detectors, got one of uint8 of shape \(3, 9\)"),
            (self.packed.astype("int64"), "got one of int64"),
            (self.packed[0], r"shape \(2,\)"),
            (self.packed | [[0, 16]] * 20, "invalid packed shot 0: a bit after the last of 12"),
        ):
            with self.assertRaisesRegex(ValueError, told):
                self.decoder.decode_batch(
                    shots.astype("uint8") if "bit" in told else shots, bit_packed_shots=True
                )

    def test_files_of_shots(self):
        with tempfile.TemporaryDirectory() as room:

            def path(name):
                return os.path.join(room, name)

            lines = "".join("".join(map(str, shot)) + "\n" for shot in self.shots.tolist())
            with open(path("shots.01"), "w", encoding="ascii") as file:
                file.write(lines)
            with open(path("shots.b8"), "wb") as file:
                file.write(self.packed.tobytes())
            for name in ("shots.01", "shots.b8"):
                self.same(self.decoder.decode_file(path(name)), self.wanted)
            self.decoder.decode_file(path("shots.01"), path("out.b8"))
            self.decoder.decode_file(
                path("shots.b8"), path("out"), format="b8", predictions_format="01"
            )
            with open(path("out.b8"), "rb") as file:
                self.assertEqual(list(file.read()), [one[0] for one in self.wanted.tolist()])
            with open(path("out"), encoding="ascii") as file:
                self.assertEqual(file.read().split(), [str(one[0]) for one in self.wanted.tolist()])
            for name, content, told in (
                ("short.01", b"0101\n", "line 1 of .*short.01: expected 12 times 0 or 1, got 4"),
                ("odd.01", lines.encode() + b"01010101010x", "line 21 of .*odd.01"),
                ("odd.b8", b"abc", "odd.b8 has 3 bytes: expected a multiple of 2"),
                ("shots.csv", b"", "unknown format 'csv' of shots: choose from 01, b8"),
            ):
                with open(path(name), "wb") as file:
                    file.write(content)
                with self.subTest(name=name), self.assertRaisesRegex(ValueError, told):
                    self.decoder.decode_file(path(name))
