"""Discs and moats to scale: no two of them overlap, matched edges lie in them alone, and their
lengths come to the weight."""
import itertools
import math
import random
import unittest

import blossom
from blossom.drawing import draw
from blossom.drawing.moats import DISC, MOAT_LINE, MOATS
from blossom.drawing.shapes import Area, Curve, Disc, Text
from support import TRIANGLES

#: Two triangles, far from each other: each is an odd set.
FAR = {"a": (0, 0), "b": (2, 3.4), "c": (4, 0), "d": (20, 0), "e": (22, 3.4), "f": (24, 0)}


def distances(points, scale=1000):
    """All pairs of points with their rounded distances."""
    return [
        (one, other, round(scale * math.dist(points[one], points[other])))
        for one, other in itertools.combinations(points, 2)
    ]


def made_points(seed, number=16):
    """Points by chance, of which some are close together."""
    chance = random.Random(seed)
    centres = [(chance.uniform(0, 90), chance.uniform(0, 60)) for _ in range(5)]
    return {
        node: tuple(one + chance.gauss(0, 9) for one in chance.choice(centres))
        for node in range(number)
    }


def discs(picture, *fills):
    """The discs of these fills: their centres and radii."""
    return [
        (shape.centre, shape.radius)
        for shape in picture.sheet.shapes
        if isinstance(shape, Disc) and shape.fill in fills
    ]


def caption(picture):
    """The line below the picture."""
    return [shape.words for shape in picture.sheet.shapes if isinstance(shape, Text)][-1]


class Proofs(unittest.TestCase):
    def test_matched_edges_lie_in_discs_and_moats(self):
        for seed in range(6):
            answer = blossom.min_weight_perfect_matching(distances(made_points(seed)))
            picture = answer.draw(made_points(seed), labels=False, weights=False)
            regions = discs(picture, DISC, *MOATS)
            lines = [shape for shape in picture.sheet.shapes if isinstance(shape, Curve)]
            self.assertEqual(len(lines), 8)  # (unused edges would hide the proof)
            for line, part in itertools.product(lines, range(101)):
                spot = [
                    one + part / 100 * (other - one) for one, other in zip(line.start, line.end)
                ]
                inside = any(math.dist(spot, centre) < size + 1.5 for centre, size in regions)
                self.assertTrue(inside, (seed, spot))

    def test_discs_and_outer_moats_do_not_overlap(self):
        nested = 0
        for seed in range(6):
            answer = blossom.min_weight_perfect_matching(distances(made_points(seed)))
            scene = answer.draw(made_points(seed), labels=False)
            reached = {}
            for centre, size in discs(scene, DISC, MOAT_LINE):
                reached[centre] = max(size, reached.get(centre, 0))
            sets = [set(one.members) for one in answer.certificate.odd_sets]
            nested += any(one < other for one in sets for other in sets)
            centres = {
                node: shape.centre
                for node, shape in zip(
                    answer.instance.nodes,
                    [one for one in scene.sheet.shapes if getattr(one, "fill", "") == "#ffffff"],
                )
            }
            for one, other in itertools.combinations(answer.instance.nodes, 2):
                if not any({one, other} <= members for members in sets):
                    apart = math.dist(centres[one], centres[other])
                    both = sum(reached.get(centres[node], 0) for node in (one, other))
                    self.assertLess(both, apart + 1.5, (seed, one, other))
        self.assertGreater(nested, 0)

    def test_the_caption_adds_up(self):
        answer = blossom.min_weight_perfect_matching(distances(FAR, 100))
        self.assertEqual(
            caption(answer.draw(FAR)).partition(": ")[2], "2388 = 1188 in radii + 1200 in moats"
        )
        picture = answer.draw(FAR)
        wide = max(size for _, size in discs(picture, MOAT_LINE))
        self.assertAlmostEqual(wide, max(size for _, size in discs(picture, DISC)) * 4 + 0.5, 3)
        tight = blossom.min_weight_perfect_matching([(0, 1, 5), (2, 3, 5), (0, 3, 9)])
        self.assertTrue(caption(tight.draw(dual_length=0.1)).endswith("10, as long as all radii"))

    def test_moats_around_moats_are_darker(self):
        found = set()
        for seed in range(6):
            points = made_points(seed)
            picture = blossom.min_weight_perfect_matching(distances(points)).draw(points)
            shown = [shape.fill for shape in picture.sheet.shapes if isinstance(shape, Disc)]
            moats = [fill for fill in shown if fill in MOATS]
            self.assertEqual(moats[:1], list(MOATS[: min(len(moats), 1)]))
            found |= set(shown)
        self.assertLessEqual({MOATS[0], MOATS[1]}, found)

    def test_a_moat_within_another_reaches_less_far(self):
        """A node of dual 1 in a set of dual 2 within one of dual 3: its discs reach 1, 3 and 6."""
        of = blossom.Instance.from_graph([(node, node + 1, 9) for node in range(5)], "perfect")
        text = b"s OPTIMAL perfect 27\nx 1 1\nx 3 1\nx 5 1\n"
        text += b"".join(b"y %d 2\n" % node for node in range(1, 7))
        text += b"z 4 3 1 2 3\nz 6 5 1 2 3 4 5\n"
        places = {node: (20 * node, 0) for node in range(6)}
        picture = draw(blossom.Answer(of, blossom.Certificate(of, text)), places, dual_length=1)
        own = min(centre for centre, _ in discs(picture, DISC))
        sizes = [
            discs(picture, fill)[[centre for centre, _ in discs(picture, fill)].index(own)][1]
            for fill in (DISC, MOATS[1], MOATS[0])
        ]
        for size, reached in zip(sizes, (1, 3, 6)):
            self.assertAlmostEqual((size + 0.5 * (reached > 1)) / sizes[0], reached, delta=0.01)


class Scales(unittest.TestCase):
    def to_scale(self, edges, places, **words):
        answer = blossom.min_weight_perfect_matching(edges, **words)
        return bool(discs(answer.draw(places), DISC))

    def test_weights_that_are_lengths_are_seen(self):
        points = made_points(3, 8)
        for scale in (10, 1000, 10**6):
            self.assertTrue(self.to_scale(distances(points, scale), points))
        exact = [(u, v, math.dist(points[u], points[v])) for u, v, _ in distances(points)]
        self.assertTrue(self.to_scale(exact, points, scale="finest"))
        self.assertTrue(self.to_scale(exact, points, scale=1000, rounding="nearest"))

    def test_other_weights_are_not(self):
        points = made_points(3, 8)
        off = [(u, v, weight + 100 * (u == 0)) for u, v, weight in distances(points, 10)]
        self.assertFalse(self.to_scale(off, points))
        self.assertFalse(self.to_scale([(u, v, 1) for u, v, _ in off], points))
        self.assertFalse(self.to_scale([(u, v, 0) for u, v, _ in off], points))
        self.assertFalse(self.to_scale([("a", "b", 4)], {"a": (0, 0), "b": (4, 0)}))
        self.assertFalse(self.to_scale(TRIANGLES, FAR))

    def test_what_the_caller_says(self):
        answer = blossom.min_weight_perfect_matching(distances(FAR, 100))
        self.assertEqual(discs(answer.draw(FAR, duals=False), DISC, *MOATS), [])
        self.assertEqual(discs(answer.draw(FAR, odd_sets=False), *MOATS), [])
        twice = discs(answer.draw(FAR, dual_length=0.02), DISC)
        for (_, once), (_, double) in zip(discs(answer.draw(FAR), DISC), twice):
            self.assertAlmostEqual(2 * once, double, delta=0.01)

        def lines(**words):
            shapes = answer.draw(FAR, **words).sheet.shapes
            return sum(isinstance(shape, Curve) for shape in shapes)

        self.assertEqual(
            (lines(), lines(unused_edges=True), lines(unused_edges=False)), (15, 15, 3)
        )

    def test_other_kinds_have_hulls(self):
        answer = blossom.max_weight_matching(TRIANGLES)
        picture = answer.draw(FAR, dual_length=0.1)
        self.assertEqual(discs(picture, DISC, *MOATS), [])
        areas = [shape for shape in picture.sheet.shapes if isinstance(shape, Area)]
        self.assertEqual(len(areas), len(answer.certificate.odd_sets) and 1)

    def test_a_negative_dual_is_a_ring(self):
        text = b"s OPTIMAL perfect 4\nx 1 1\ny 1 12\ny 2 -4\n"
        of = blossom.Instance.from_graph([("a", "b", 4)], "perfect")
        picture = draw(
            blossom.Answer(of, blossom.Certificate(of, text)),
            {"a": (0, 0), "b": (4, 0)},
            dual_length=1,
        )
        rings = [
            shape
            for shape in picture.sheet.shapes
            if isinstance(shape, Disc) and shape.fill == "none"
        ]
        self.assertEqual(len(rings), 1)
        self.assertAlmostEqual(3 * rings[0].radius, discs(picture, DISC)[0][1])

    def test_a_certificate_alone_and_an_answer_without_one(self):
        answer = blossom.min_weight_perfect_matching(distances(FAR, 100))
        self.assertEqual(len(discs(draw(answer.certificate, FAR), DISC)), 6)
        bare = blossom.min_weight_perfect_matching(distances(FAR, 100), certificate=False)
        self.assertEqual(discs(bare.draw(FAR), DISC, *MOATS), [])
