"""Dense instances: matrices of costs, points, and graphs of many edges. Their answers weigh what the
program says of all pairs."""
import contextlib
import io
import itertools
import math
import os
import random
import re
import tempfile
import time
import unittest
from fractions import Fraction
from unittest import mock

import blossom
from blossom import dense
from blossom.documents import Document, SetLine
from blossom.errors import LimitExceeded
from blossom.laminar import ArrayDuals, Duals
from dense_cases import (
    MATRICES,
    METRICS,
    STYLES,
    distance,
    matrix,
    pairs_of_matrix,
    pairs_of_points,
    points,
    seeded,
)
from support import StandIn, library_or_skip, wanted

CALLS = {
    "perfect": blossom.min_weight_perfect_matching,
    "match": blossom.max_weight_matching,
    "interval": blossom.min_weight_edge_cover,
}


def weight_of(call, *arguments, **words):
    """What an answer weighs, None if there is none; and the answer, or the error."""
    try:
        answer = call(*arguments, **words)
    except blossom.Infeasible as error:
        return None, error
    return answer.weight, answer


def cover_by_hand(count, edges):
    """The weight of a minimum-weight edge cover, by all sets of nodes; None if there is none."""
    best = {0: 0}
    for u, v, weight in edges:
        for nodes, sum_of in list(best.items()):
            more = nodes | 1 << u | 1 << v
            best[more] = min(best.get(more, sum_of + weight), sum_of + weight)
    return best.get((1 << count) - 1)


class Dense(unittest.TestCase):
    def setUp(self):
        self.numpy = wanted("numpy")
        library_or_skip()

    def is_proved(self, answer):
        """The checker and the test of all pairs accept an answer, or that there is none."""
        certificate = answer.certificate
        self.assertEqual(certificate.check(engine="library"), blossom.Verdict(True))

    def same(self, kind, count, edges, **words):
        """The answer of a dense instance weighs what the program says of all its pairs."""
        call, words = CALLS[kind], {"engine": "library", **words}
        found, answer = weight_of(call, **words)
        if kind == "interval":
            known = cover_by_hand(count, edges)
        else:
            known, _ = weight_of(call, edges, nodes=range(count), engine="library")
        scale = 1 if found is None else answer.instance.scale
        self.assertEqual(found, None if known is None else Fraction(known) / scale)
        self.is_proved(answer)
        if found is None:
            return None
        weights = {(u, v): weight for u, v, weight in edges}
        self.assertEqual(sum(weights[tuple(sorted(edge))] for edge in answer.edges), known)
        return answer


class Weights(Dense):
    """Five hundred made instances, of all metrics and of matrices, with ties, points at the same
    place and points on a line."""

    def test_points(self):
        chance = seeded("points")
        for style, metric, turn in itertools.product(STYLES, METRICS, range(15)):
            kind = ("perfect", "match")[turn % 2]
            given = points(chance, chance.choice((2, 6, 14, 30, 50)) + turn % 2, style)
            if kind == "perfect":
                given = given[: len(given) // 2 * 2]
            scale = chance.choice((1, 7, 1000))
            with self.subTest(style=style, metric=metric, points=given, scale=scale):
                self.same(
                    kind,
                    len(given),
                    pairs_of_points(given, metric, scale),
                    points=given,
                    metric=metric,
                    scale=scale,
                    rounding="nearest",
                )

    def test_matrices(self):
        chance = seeded("matrices")
        for style, turn in itertools.product(MATRICES, range(40)):
            kind = ("perfect", "match")[turn % 2]
            rows = matrix(chance, chance.choice((1, 2, 5, 12, 30, 44)), style)
            with self.subTest(style=style, rows=rows):
                edges = pairs_of_matrix(rows)
                for costs in self.forms(rows):
                    self.same(kind, len(rows), edges, costs=costs)

    def forms(self, rows):
        """The matrix as floats, masked or sparse."""
        sparse = wanted("scipy.sparse")
        filled = self.numpy.array(
            [[math.nan if cost is None else cost for cost in row] for row in rows], float
        ).reshape(len(rows), -1)
        there = self.numpy.argwhere(~self.numpy.isnan(filled)).T
        yield filled
        yield self.numpy.ma.masked_invalid(filled)
        yield sparse.coo_matrix((filled[there[0], there[1]], (there[0], there[1])), filled.shape)

    def test_edge_covers(self):
        chance = seeded("covers")
        for turn in range(60):
            if turn % 2:
                rows = matrix(chance, chance.randint(2, 9), MATRICES[turn // 2 % 4])
                self.same("interval", len(rows), pairs_of_matrix(rows), costs=next(self.forms(rows)))
                continue
            given = points(chance, chance.randint(2, 9), STYLES[turn // 2 % 6])
            metric = METRICS[turn % 3]
            edges = pairs_of_points(given, metric, 10)
            words = {"points": given, "metric": metric, "scale": 10, "rounding": "nearest"}
            self.same("interval", len(given), edges, **words)

    def test_a_function_as_metric(self):
        chance = seeded("functions")
        for turn in range(20):
            given = points(chance, 12, "grid")

            def metric(one, other):
                squares = sum((int(a) - int(b)) ** 2 for a, b in zip(one, other))
                return math.inf if squares > 90 else squares

            edges = [
                (u, v, sum((a - b) ** 2 for a, b in zip(given[u], given[v])))
                for u, v in itertools.combinations(range(12), 2)
            ]
            near = [edge for edge in edges if edge[2] <= 90]
            self.same(("perfect", "match")[turn % 2], 12, near, points=given, metric=metric)

    def test_all_pairs_of_362_points(self):
        chance = seeded("largest")
        for style, kind in (("doubles", "perfect"), ("grid", "perfect"), ("decimals", "match")):
            given = points(chance, 362, style)
            edges = pairs_of_points(given, "euclidean", 10**4)
            self.same(kind, 362, edges, points=given, scale=10**4)

    def test_graphs_of_many_edges(self):
        chance = seeded("graphs")
        ends = [[chance.randrange(90) for _ in range(2)] for _ in range(66000)]
        edges = [("n%d" % u, "n%d" % v, chance.randint(-5, 10**6)) for u, v in ends]
        best = {}
        for place, (u, v, weight) in enumerate(edges):
            for kind, key in (("perfect", weight), ("match", -weight), ("interval", weight)):
                pair = (kind, *sorted((u, v)))
                if u != v and best.get(pair, (math.inf,))[0] > key:
                    best[pair] = (key, place)
        for kind, call in CALLS.items():
            answer = call(iter(edges), engine="library")
            self.is_proved(answer)
            places = answer.edge_indices
            self.assertEqual(sum(edges[place][2] for place in places), answer.weight)
            self.assertEqual([answer.edge_counts[place] for place in places], [1] * len(places))
            self.assertEqual(answer.edges, [answer.instance.edges[place] for place in places])
            if kind == "interval":
                self.assertEqual({end for edge in answer.edges for end in edge[:2]},
                                 {end for edge in edges for end in edge[:2]})
                negative = {place for place, edge in enumerate(edges) if edge[2] < 0}
                self.assertLessEqual({p for p in negative if edges[p][0] != edges[p][1]},
                                     set(places))
                continue
            few = [edges[place] for key, (_, place) in best.items() if key[0] == kind]
            self.assertEqual(call(few, engine="library").weight, answer.weight)
            slacks = answer.certificate.slacks()
            self.assertGreaterEqual(slacks.min(), 0)
            self.assertEqual(set(slacks[places]), {0})
            self.assertEqual(slacks[7], answer.certificate.slack(7))
            self.assertGreaterEqual(answer.reduced_cost[answer.instance.edges[7]], slacks[7])


class Rounds(Dense):
    def setUp(self):
        super().setUp()
        from blossom.dense import rounds

        self.rounds = rounds

    def test_few_pairs_a_round(self):
        """Also if each round adds one pair or a few, and if pairs have to make place for others."""
        chance = seeded("rounds")
        for first, more, most in ((1, 1, 10**6), (2, 3, 10**6), (2, 30, 100), (3, 40, 130)):
            with mock.patch.multiple(self.rounds, FIRST=first, MORE=more, MOST_EDGES=most):
                for kind in CALLS:
                    rows = matrix(chance, 8 if kind == "interval" else 22, "ties")
                    costs = self.numpy.array(
                        [[0 if cost is None else cost for cost in row] for row in rows])
                    self.same(kind, len(rows), pairs_of_matrix(rows), costs=costs)
                    given = points(chance, 8 if kind == "interval" else 30, "doubles")
                    edges = pairs_of_points(given, "euclidean", 99)
                    self.same(kind, len(given), edges, points=given, scale=99)

    def test_pairs_that_make_no_place(self):
        """LimitExceeded, rather than rounds without end."""
        rows = matrix(seeded("standstill"), 40, "ties")
        costs = self.numpy.array([[0 if cost is None else cost for cost in row] for row in rows])
        with mock.patch.multiple(self.rounds, FIRST=1, MORE=1, MOST_EDGES=22):
            with self.assertRaisesRegex(LimitExceeded, "the duals prove nothing yet"):
                blossom.min_weight_perfect_matching(costs=costs, engine="library")

    def test_progress(self):
        given, seen = points(seeded("progress"), 40, "doubles"), []
        blossom.min_weight_perfect_matching(
            points=given, engine="library", progress=lambda done, total: seen.append((done, total)))
        self.assertEqual(seen[-1], (780, 780))
        self.assertLessEqual({total for _, total in seen}, {780})
        wanted("tqdm")
        with contextlib.redirect_stderr(io.StringIO()) as bar:
            blossom.max_weight_matching(points=given, engine="library", progress=True)
        self.assertRegex(bar.getvalue(), "780/780.*pair/s")

    def test_time_is_that_of_all_rounds(self):
        given = points(seeded("time"), 40, "doubles")
        with self.assertRaises(blossom.TimeLimit):
            blossom.min_weight_perfect_matching(points=given, timeout=1e-9)
        answer = blossom.min_weight_perfect_matching(points=given, timeout=60)
        self.assertEqual(answer.certificate.check(timeout=60), blossom.Verdict(True))

    def test_by_processes(self):
        for kind, call in CALLS.items():
            given = points(seeded("processes"), 20, "doubles")
            answer = call(points=given, engine="process")
            self.assertEqual(answer.weight, call(points=given, engine="library").weight, kind)
            self.assertEqual(answer.check(), blossom.Verdict(True))

    def test_a_solver_that_fails(self):
        for output in (b"", b"s OPTIMAL perfect 0\nx 9 1\n"):
            with self.assertRaises(blossom.SolverError):
                blossom.min_weight_perfect_matching(
                    costs=self.numpy.zeros((2, 2)), engine=StandIn(0, output))
        with self.assertRaises(blossom.SolverError):
            blossom.min_weight_perfect_matching(
                costs=self.numpy.zeros((2, 2)), engine=StandIn(8, b""))


class Assignments(Dense):
    def test_as_scipy(self):
        solver = wanted("scipy.optimize").linear_sum_assignment
        chance = seeded("assignments")
        missed = 0
        for turn in range(160):
            shape = [chance.choice((0, 1, 2, 5, 12, 25)) for _ in range(2)]
            shape = shape if turn % 3 else [shape[0]] * 2
            bound = chance.choice((2, 50, 10**9))
            costs = self.numpy.array([[float(chance.randint(-bound, bound)) for _ in range(
                shape[1])] for _ in range(shape[0])]).reshape(shape)
            maximize, missing = bool(turn % 2), chance.choice((0, 0.4, 0.8))
            hidden = self.numpy.array([[chance.random() < missing for _ in range(
                shape[1])] for _ in range(shape[0])], bool).reshape(shape)
            costs[hidden] = -math.inf if maximize else math.inf
            with self.subTest(costs=costs, maximize=maximize):
                try:
                    known = costs[solver(costs, maximize)].sum()
                except ValueError:
                    known = None
                try:
                    found = blossom.assignment(costs, maximize, engine="library")
                except blossom.Infeasible as error:
                    missed += 1
                    self.assertIsNone(known)
                    self.is_proved(error)
                    self.assertRegex(str(error), "no assignment exists: .* columns between them")
                    continue
                self.assertEqual((costs[found].sum(), found.weight), (known, known))
                self.assertEqual(found.check(engine="library"), blossom.Verdict(True))
                rows, columns = found
                self.assertEqual(len(rows), min(shape))
                self.assertEqual(sorted(set(rows.tolist())), rows.tolist())
                self.assertEqual(len(set(columns.tolist())), len(rows))
        self.assertGreater(missed, 5)

    def test_what_it_says(self):
        found = blossom.assignment([[4, 1, 3], [2, 0, 5], [3, 2, 2]], engine="library")
        self.assertEqual(found.columns.tolist(), [1, 0, 2])
        self.assertEqual(repr(found), "<assignment of weight 5: 3 rows>")
        duals = found.certificate.duals
        self.assertEqual(set(duals), {(side, place) for side in ("row", "column")
                                      for place in range(3)})
        self.assertEqual(sum(duals.values()), 5)
        half = blossom.assignment([[0.5, 0.1]], scale=10, engine="library")
        self.assertEqual((half.weight, half.columns.tolist()), (Fraction(1, 10), [1]))

    def test_rows_with_too_few_columns(self):
        none = math.nan
        with self.assertRaises(blossom.Infeasible) as told:
            blossom.assignment([[1, none, none], [2, none, none], [3, 4, 5]], engine="library")
        self.assertEqual(str(told.exception), "no assignment exists: ('row', 0), ('row', 1) have"
                                              " only 1 columns between them")
        self.assertEqual(told.exception.barrier, [("column", 0)])

    def test_limits(self):
        with self.assertRaises(LimitExceeded):
            blossom.assignment(self.numpy.zeros((4000, 97)))
        far = [[0, 10**12, 5], [10**12, 0, math.nan]]
        with self.assertRaisesRegex(blossom.WeightError, "pass a smaller scale"):
            blossom.assignment(far, engine="library")


class BadInput(Dense):
    def refused(self, error, text, call=blossom.min_weight_perfect_matching, **words):
        with self.assertRaisesRegex(error, text):
            call(engine="library", **words)

    def test_costs(self):
        numpy, graph = self.numpy, blossom.GraphError
        self.refused(graph, r"symmetric: got 1 at \(0, 1\) and 3 at \(1, 0\)",
                     costs=numpy.arange(9).reshape(3, 3)[:3])
        self.refused(graph, r"symmetric: got 0.0 at \(0, 2\) and 2.0 at \(2, 0\)",
                     costs=wanted("scipy.sparse").csr_matrix([[0, 0, 0.], [0, 0, 0], [2, 0, 0]]))
        self.refused(graph, r"square matrix: got the shape \(3, 4\)", costs=numpy.zeros((3, 4)))
        self.refused(graph, "matrix of numbers", costs=[["a", "b"], ["c", "d"]])
        self.refused(graph, "matrix of numbers", costs=numpy.zeros(4))
        self.refused(graph, "matrix of numbers", costs=[[1, 2], [3]])
        self.refused(graph, "name each of the 2 rows once: got 3 names", costs=numpy.zeros((2, 2)),
                     nodes=list("abc"))
        self.refused(graph, "name each of the 2 rows once: got 2 names, 1 of them different",
                     costs=numpy.zeros((2, 2)), nodes=list("aa"))
        self.refused(blossom.Infeasible, "the number of nodes is odd, 3",
                     costs=numpy.zeros((3, 3)))
        lonely = numpy.zeros((4, 4))
        lonely[2] = lonely[:, 2] = math.inf
        self.refused(blossom.Infeasible, "2 has no pair", costs=lonely)
        self.refused(blossom.Infeasible, "no edge cover exists: 2 has no pair", costs=lonely,
                     call=blossom.min_weight_edge_cover)
        self.assertEqual(len(blossom.max_weight_matching(costs=lonely + 1, engine="library").edges),
                         1)
        self.refused(blossom.WeightError, "scale=10", costs=[[0, 0.5], [0.5, 0]])
        self.refused(blossom.WeightError, r"\(0, 1\)", costs=[[0, 2 * 10**12], [2 * 10**12, 0]])
        self.refused(LimitExceeded, "4097", costs=numpy.zeros((4097, 4097), numpy.int8))

    def test_points(self):
        numpy, graph = self.numpy, blossom.GraphError
        self.refused(graph, r"two or three columns: got the shape \(4, 5\)",
                     points=numpy.zeros((4, 5)))
        self.refused(graph, r"point 1 is not finite: got \(nan, 0.0\)",
                     points=[[0, 0], [math.nan, 0]])
        self.refused(graph, "points must be numbers", points=[["a", "b"], ["c", "d"]])
        self.refused(ValueError, "unknown metric 'taxi': choose from euclidean, manhattan",
                     points=[[0, 0], [1, 1]], metric="taxi")
        self.refused(blossom.WeightError, "the coordinates aren't integers, so distances aren't",
                     points=[[0, 0], [0.5, 1]], metric="manhattan")
        self.refused(blossom.WeightError, "over 10.12", points=[[0, 0], [1, 1]], scale=10**12)
        far = [[-(10**11), 0], [8 * 10**11, 0]]  # (within the limit, and far from nought)
        answer = blossom.min_weight_perfect_matching(points=far, scale=1)
        self.assertEqual(answer.weight, 9 * 10**11)
        self.refused(blossom.Infeasible, "odd, 3", points=[[0, 0], [1, 1], [2, 2]])
        self.refused(LimitExceeded, "4097", points=numpy.zeros((4097, 2)))

    def test_arguments(self):
        costs = [[0, 1], [1, 0]]
        for call in (blossom.min_weight_perfect_matching, blossom.assignment):
            self.refused(TypeError, "timeout= must be a number", call, costs=costs, timeout="x")
            self.refused(blossom.ArgumentError, "rounding must be", call, costs=costs, rounding=1)
        for nodes, told in ((5, "got 5"), ("ab", "the text 'ab'"), ([[1], [2]], "hashable")):
            self.refused(TypeError, "nodes= must .*" + told, costs=costs, nodes=nodes)
        for cost in ("x", [1]):
            said = re.escape("weight of edge (0, 1) must be a finite number, got %r" % (cost,))
            self.refused(blossom.WeightError, said, points=[(0, 0), (1, 1)],
                         metric=lambda one, other, cost=cost: cost)

    def test_which_input(self):
        self.refused(TypeError, "got none of them")
        self.refused(TypeError, "got graph and points=", graph=[(0, 1)], points=[[0, 0], [1, 1]])
        self.refused(TypeError, "got costs= and points=", costs=[[0]], points=[[0, 0]])

    def test_a_matrix_without_the_keyword(self):
        for matrix_of in (self.numpy.zeros((5, 5)), wanted("scipy.sparse").eye(5)):
            self.refused(blossom.GraphError, "costs=", graph=matrix_of)

    def test_nothing_at_all(self):
        for words in ({"points": []}, {"costs": []}, {"points": self.numpy.zeros((0, 3))}):
            for call in CALLS.values():
                answer = call(engine="library", **words)
                self.assertEqual((answer.edges, answer.weight), ([], 0))
                self.is_proved(answer)


class Answers(Dense):
    def test_names(self):
        pandas = wanted("pandas")
        rows = self.numpy.array([[0, 3, 1, 9], [3, 0, 8, 2], [1, 8, 0, 7], [9, 2, 7, 0]])
        labelled = pandas.DataFrame(rows, index=list("abcd"), columns=list("abcd"))
        for words in ({"costs": labelled}, {"costs": rows, "nodes": list("abcd")}):
            answer = blossom.min_weight_perfect_matching(engine="library", **words)
            self.assertEqual(answer.edges, [("a", "c"), ("b", "d")])
            self.assertEqual(answer.mate, {"a": "c", "c": "a", "b": "d", "d": "b"})
            self.assertEqual(answer.rows[1], {"u": "b", "v": "d", "weight": 2, "count": 1})
            self.assertEqual(set(answer.certificate.duals), set("abcd"))
            self.assertEqual(answer.certificate.slack(("c", "a")), 0)
        with self.assertRaisesRegex(blossom.GraphError, "same labels"):
            blossom.min_weight_perfect_matching(costs=labelled.rename(columns={"a": "z"}))

    def test_scales(self):
        square = [(0, 0), (0, 0.25), (1, 0), (1, 0.25)]
        answer = blossom.min_weight_perfect_matching(points=square, engine="library")
        self.assertEqual(answer.weight, Fraction(1, 2))
        self.assertEqual(answer.instance.scale, 10**11)
        rounded = blossom.min_weight_perfect_matching(points=square, scale=1, engine="library")
        self.assertEqual((rounded.weight, rounded.instance.scale), (0, 1))
        answer = blossom.min_weight_perfect_matching(costs=[[0, 0.1], [0.1, 0]], scale="finest",
                                                     engine="library")
        self.assertAlmostEqual(float(answer.weight), 0.1, places=10)
        called = blossom.min_weight_perfect_matching(
            points=square[:2], metric=lambda one, other: 0.1, scale="finest", engine="library")
        self.assertEqual(called.instance.scale, answer.instance.scale)

    def test_pictures_have_the_points(self):
        square = [(0, 0), (0, 1), (5, 0), (5, 1)]
        answer = blossom.min_weight_perfect_matching(points=square, engine="library")
        placed = answer.draw({node: point for node, point in enumerate(square)}).svg()
        self.assertEqual(answer.draw().svg(), placed)

    def test_certificates_are_written(self):
        answer = blossom.min_weight_perfect_matching(points=points(seeded("w"), 40, "doubles"),
                                                     engine="library")
        with tempfile.TemporaryDirectory() as room:
            path = os.path.join(room, "proof.checked")
            answer.certificate.write(path)
            with open(path, "rb") as file:
                text = file.read()
        self.assertIn(answer.certificate.last_round.text, text)

    def test_what_is_false_is_refused(self):
        given = points(seeded("false"), 40, "doubles")
        answer = blossom.min_weight_perfect_matching(points=given, engine="library")
        certificate = answer.certificate
        problem = certificate.problem
        chosen = dense.pairs.joined([(certificate.instance._numbers.first.astype("int64") - 1,
                                      certificate.instance._numbers.second.astype("int64") - 1)])
        few = dense.rounds.solve_round(problem, self.used(answer), certificate.by, None)
        self.assertEqual(few.check(engine="library"), blossom.Verdict(False, "Slack"))
        costs = problem.pairs.costs(*chosen)
        with mock.patch.object(dense.pairs.PointPairs, "costs", lambda *words: costs + 1):
            self.assertEqual(certificate.check(engine="library"),
                             blossom.Verdict(False, "WeightDiffers"))
        none = dense.rounds.solve_round(problem, self.used(answer, 1), certificate.by, None)
        self.assertEqual(none.check(engine="library"), blossom.Verdict(False, "NotBarrier"))
        cover = blossom.min_weight_edge_cover(points=given, engine="library")
        self.assertTrue(cover.check(engine="library"))
        for changed, rule in (({"fixed": cover.certificate.fixed + 1}, "WeightDiffers"),
                              ({"savings": few}, "Slack")):
            words = {"savings": cover.certificate.savings, "fixed": cover.certificate.fixed}
            wrong = dense.covers.CoverCertificate(cover.instance, cover.certificate.document,
                                                  cover.certificate.by, **{**words, **changed})
            self.assertEqual(wrong.check(engine="library"), blossom.Verdict(False, rule))
        counts = dict(list(cover.certificate.document.counts.items())[1:])
        lacking = Document("optimal", "interval", cover.certificate.document.weight, counts)
        wrong = dense.covers.CoverCertificate(cover.instance, lacking, cover.certificate.by, **words)
        self.assertEqual(wrong.check(engine="library"), blossom.Verdict(False, "NotFeasible"))

    def used(self, answer, fewer=0):
        """The pairs of an answer, but for the last ones."""
        pairs = self.numpy.array(answer.edges)[:len(answer.edges) - fewer]
        return pairs[:, 0], pairs[:, 1]

    def test_slacks_of_all_pairs(self):
        given = points(seeded("slacks"), 30, "decimals")
        for kind in ("perfect", "match"):
            answer = CALLS[kind](points=given, engine="library")
            slack = answer.certificate.slack
            pairs = itertools.combinations(range(30), 2)
            self.assertGreaterEqual(min(slack(pair) for pair in pairs), 0)
            self.assertEqual({slack(edge) for edge in answer.edges}, {0})
            self.assertEqual(list(answer.certificate.slacks()),
                             [slack(edge) for edge in answer.instance.edges])
            for pair in ((3, 3), (0, 30), (0, 1, 0), 10**6):
                with self.assertRaises(KeyError) as told:
                    slack(pair)
                self.assertIsInstance(told.exception, blossom.ArgumentError)
            for pair in (None, "01", (1,), ([], 1)):
                with self.assertRaisesRegex(TypeError, "edge must be"):
                    slack(pair)
            with self.assertRaisesRegex(ValueError, "only the pairs of the last round"):
                answer.reduced_cost


class Exactness(Dense):
    def test_distances(self):
        """Each is the nearest integer, halves up, also where doubles can't tell."""
        from blossom.dense.metrics import Distances

        chance = seeded("exactness")
        for style, metric, scale in itertools.product(
                (*STYLES, "halves", "far"), METRICS, (1, 10, Fraction(1, 3), 10**7)):
            given = {"halves": lambda: [(chance.randint(0, 40) / 2, 0) for _ in range(12)],
                     "far": lambda: [(10**6 + chance.randint(0, 10**4), chance.randint(0, 10**4))
                                     for _ in range(12)]}.get(
                                         style, lambda: points(chance, 12, style))()
            with self.subTest(given=given, metric=metric, scale=scale):
                made = Distances(self.numpy.array(given), metric, scale, "nearest")
                one, other = self.numpy.triu_indices(12, 1)
                found = made.between(one, other).tolist()
                known = [distance(given[u], given[v], metric, scale)
                         for u, v in itertools.combinations(range(12), 2)]
                self.assertEqual(found, known)
                near = made.block(0, 12, 0, 12)[one, other]
                self.assertLessEqual(abs(near - self.numpy.array(known)).max(), made.error)

    def test_pairs_below(self):
        """All pairs that cost less than their nodes allow are found, also in blocks of few rows."""
        from blossom.dense.metrics import Distances
        from blossom.dense.pairs import MatrixPairs, PointPairs

        chance, numpy = seeded("below"), self.numpy
        for turn, farthest in itertools.product(range(30), (False, True)):
            given = numpy.array(points(chance, 40, "decimals"))
            made = PointPairs(Distances(given, METRICS[turn % 3], 10, "nearest"), farthest)
            one, other = numpy.triu_indices(40, 1)
            costs = made.costs(one, other)
            sign = -1 if farthest else 1
            allowed = numpy.array([chance.randint(-200, 700) * sign for _ in range(40)])
            wanted_pairs = {(u, v) for u, v, cost in zip(one.tolist(), other.tolist(), costs.tolist())
                            if 2 * cost < allowed[u] + allowed[v]}
            matrix = numpy.full((40, 40), 2**60)
            matrix[one, other] = matrix[other, one] = costs
            with mock.patch("blossom.dense.pairs.BLOCK", chance.choice((40, 120, 2**16))):
                for pairs in (made, MatrixPairs(matrix)):
                    found = {pair for ends in pairs.below(2, allowed)
                             for pair in zip(ends[0].tolist(), ends[1].tolist())}
                    self.assertLessEqual(wanted_pairs, found)

    def test_whole_arrays(self):
        """An array becomes the integers that its numbers become one by one."""
        from blossom.dense.whole import scale_for, whole_array
        from blossom.weights import scale_of, whole

        chance = seeded("whole")
        made = [lambda: chance.randint(-50, 50), lambda: chance.randint(-50, 50) / 10,
                lambda: chance.randint(-50, 50) / 8, chance.random,
                lambda: chance.randint(-10**12, 10**12), lambda: chance.uniform(-1e12, 1e12),
                lambda: chance.randint(-10**4, 10**4) + 0.5, lambda: 0.1 + chance.random() * 1e-9]
        refused = 0
        for turn, (form, rounding) in enumerate(
                itertools.product(made, (None, "nearest"))):
            for scale in (1, 10, 1000, Fraction(1, 3), 7, "finest"):
                values = [form() for _ in range(20)]
                array = self.numpy.array(values)
                factor = scale_for(scale, array)
                self.assertEqual(factor, scale_of(scale, values, int))
                how = "nearest" if scale == "finest" else rounding
                try:
                    known = [whole(value, factor, how, "e%d" % place, others=values)
                             for place, value in enumerate(values)]
                except blossom.WeightError as error:
                    refused += 1
                    with self.assertRaises(blossom.WeightError) as told:
                        whole_array(array, factor, how, "e%d".__mod__)
                    self.assertEqual(str(told.exception), str(error))
                    continue
                self.assertEqual(whole_array(array, factor, how, "e%d".__mod__).tolist(), known)
        self.assertGreater(refused, 20)

    def test_sums_over_sets(self):
        """The slack beside laminar sets, and beside sets that cross, is what its definition says,
        for numbers within 64 bits and over."""
        chance = random.Random(1)
        for turn in range(400):
            count = chance.randint(1, 20)
            document = Document("optimal", "perfect", 0)
            times = 10**18 if turn % 10 == 0 else 1
            document.duals = {v: times * chance.randint(-9, 9) for v in range(1, count + 1)}
            document.set_lines = self.sets(chance, count, times)
            pairs = list(itertools.product(range(1, count + 1), repeat=2))
            known = [sum(dual for dual, members in document.sets if u in members and v in members)
                     for u, v in pairs]
            duals = Duals(document)
            array = ArrayDuals(duals, 9)
            ends = [self.numpy.array(end) for end in zip(*pairs)]
            self.assertEqual(array.both(*ends).tolist(), known)
            self.assertEqual([duals.slack(u, v, 5) for u, v in pairs], [
                10 - document.duals[u] - document.duals[v] - sum(
                    dual for dual, members in document.sets if (u in members) != (v in members))
                for u, v in pairs])

    def sets(self, chance, count, times):
        """Some families of sets, each laminar."""
        lines = []
        for _ in range(chance.randint(0, 3)):
            items = [(v, None) for v in range(1, count + 1)]
            while len(items) > 3 and chance.random() < 0.8:
                taken = [items.pop(chance.randrange(len(items))) for _ in range(3)]
                lines.append(SetLine(times * chance.randint(1, 9),
                                     sorted(v for v, inner in taken if inner is None),
                                     sorted(inner for _, inner in taken if inner is not None)))
                items.append((None, len(lines)))
        return lines

    def test_deep_sets(self):
        """A chain of 2,000 sets, in no time to speak of."""
        count = 4001
        document = Document("optimal", "perfect", 0)
        document.duals = dict.fromkeys(range(1, count + 1), 0)
        document.set_lines = [SetLine(1, [1, 2, 3], [])] + [
            SetLine(1, [2 * place, 2 * place + 1], [place - 1]) for place in range(2, 2001)]
        array = ArrayDuals(Duals(document), 9)
        one = self.numpy.arange(2, count + 1)
        found = array.both(one, self.numpy.full(count - 1, 1))
        self.assertEqual(found.tolist(), [2000 - max(v // 2 - 1, 0) for v in one.tolist()])


class CommandLine(Dense):
    def test_points_of_a_file(self):
        with tempfile.TemporaryDirectory() as room:
            path, out = (os.path.join(room, name) for name in ("points.csv", "pairs.csv"))
            with open(path, "w", encoding="utf-8") as file:
                file.write("name,x,y,z\nA,0,0,0\nB,9,9,0\nC,0.5,0,0\nD,9,9,8\n")
            told = self.run_main(["solve", path, "--points", "x,y", "-o", out, "--check",
                                  "--picture", os.path.join(room, "pairs.svg")])
            self.assertEqual(told, (0, "perfect: weight 0.5, accepted by the checker\n"))
            with open(out, encoding="utf-8") as file:
                self.assertEqual(file.read().split(), ["u,v,weight,count", "A,C,0.5,1", "B,D,0,1"])
            status, told = self.run_main(["solve", path, "--points", "x,y,z", "--kind", "match",
                                          "--metric", "manhattan", "--scale", "2", "-o", out])
            self.assertEqual((status, told), (0, "match: weight 43.5\n"))
            for words, text in ((["x,w"], "got x,w, and the file has name, x, y, z"),
                                (["x"], "must name two or three columns"),
                                (["x,name"], "name of point 0 must be a number, got 'A'"),
                                (["x,y", "--kind", "tjoin"], "perfect and match, got tjoin")):
                status, told = self.run_main(["solve", path, "--points", *words])
                self.assertEqual(status, 1)
                self.assertIn(text, told)

    def run_main(self, words):
        from blossom.commands import main

        with contextlib.redirect_stderr(io.StringIO()) as told:
            status = main(words)
        return status, told.getvalue()


class WithoutNumpy(unittest.TestCase):
    def test_the_package_is_imported_without_it(self):
        import subprocess
        import sys

        code = ("import sys; sys.modules['numpy'] = sys.modules['scipy'] = None; import blossom\n"
                "for words in ({'costs': [[0]]}, {'points': [[0, 0]]}):\n"
                "    try:\n        blossom.min_weight_perfect_matching(**words)\n"
                "    except ImportError as error:\n        print(error)\n"
                "try:\n    blossom.min_weight_perfect_matching([(0, 1)] * 65537)\n"
                "except blossom.LimitExceeded as error:\n    print(error)\n")
        done = subprocess.run([sys.executable, "-c", code], capture_output=True, text=True)
        self.assertEqual(done.stderr, "")
        costs, points, graph = done.stdout.splitlines()
        self.assertRegex(costs, "matrices of costs .* numpy")
        self.assertRegex(points, "points .* numpy")
        self.assertIn("65537", graph)
