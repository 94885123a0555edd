"""Slacks and reduced costs, beside solving again: on 2,000 small graphs of all kinds that have duals,
a second solver forces or forbids each edge."""
import math
import os
import random
import sys
import unittest
from fractions import Fraction

import blossom
from support import PATHS, TOP, library_or_skip, made, wanted

sys.path.append(os.path.join(TOP, "tests"))

import plain_solver  # noqa: E402

KINDS = [kind for kind in blossom.KINDS if kind not in ("bottleneck", "gallai")]
#: So many graphs of each kind.
GRAPHS = 182


def larger(chance, kind):
    """A graph of up to eight nodes: that of `made`, or one of more nodes and single edges."""
    edges, words = made(chance, kind)
    if kind not in ("perfect", "match", "tjoin", "postman", *PATHS) or chance.random() < 0.5:
        return edges, words
    nodes = ["n%d" % number for number in range(chance.choice((6, 8)))]
    least = 0 if kind in ("postman", *PATHS) else -3
    ends = [chance.sample(nodes, 2) for _ in range(chance.randint(8, 10))]
    if kind == "perfect":
        ends += zip(nodes[::2], nodes[1::2])
    words = {"nodes": nodes}
    if kind == "tjoin":
        words["terminals"] = chance.sample(nodes, 2)
    elif kind in PATHS:
        words["source"], words["target"] = nodes[0], nodes[-1]
    return [(*pair, chance.randint(least, 9), None) for pair in ends], words


class Again:
    """What solutions weigh that use one edge of an instance a given number of times."""

    def __init__(self, of):
        self.of, self.kind = of, of.kind
        numbers = of.number_of()
        self.edges = [
            (numbers[u], numbers[v], weight, capacity)
            for (u, v), weight, capacity in zip(of.ends, of.weights, of.capacities)
        ]
        self.bounds = of.bounds or {"match": [(0, 1)], "perfect": [(1, 1)]}.get(
            self.kind, [(0, 0)]) * len(of.nodes)
        if self.kind in ("bmatch", "capmatch", "ffactor"):
            self.bounds = [(value, value) for value in of.values]

    def most(self, index):
        """How often a solution uses the edge at most."""
        u, v, _, capacity = self.edges[index]
        if self.kind in ("tjoin", "postman", *PATHS):
            return 1
        ends = [self.bounds[end - 1][1] // (2 if u == v else 1) for end in (u, v)]
        once = [1] if self.kind in ("perfect", "match", "ffactor") else []
        return min(*ends, *once, *([capacity] if capacity is not None else []))

    def weight(self, index, times):
        """The weight of a best solution that uses the edge so often; infinite if there is none."""
        u, v, weight, _ = self.edges[index]
        rest = self.edges[:index] + self.edges[index + 1:]
        if self.kind in PATHS:
            return self.paths(index, times)
        if self.kind in ("tjoin", "postman"):
            odd = self.odd() ^ ({u} ^ {v} if times else set())
            found = plain_solver.least_join(rest, odd)
            return math.inf if found is None else found + times * weight
        left = [list(bound) for bound in self.bounds]
        for end in (u, v):
            left[end - 1] = [max(bound - times, 0) if bound is not None else None
                             for bound in left[end - 1]]
        sign = -1 if self.kind == "match" else 1
        turned = [(*edge[:2], sign * edge[2], 1 if self.kind in (
            "perfect", "match", "ffactor") else edge[3]) for edge in rest]
        capped = [edge if self.kind != "bmatch" else (*edge[:3], None) for edge in turned]
        found = plain_solver.best_weight("interval", capped, tuple(map(tuple, left)))
        return math.inf if found is None else found + times * sign * weight

    def odd(self):
        """The vertices of odd degree in a join."""
        if self.kind == "tjoin":
            return {v for v, value in enumerate(self.of.values, 1) if value % 2}
        return {v for v in range(1, len(self.of.nodes) + 1)
                if sum(edge[:2].count(v) for edge in self.edges) % 2}

    def paths(self, index, times):
        """The least weight of a path that uses the edge or doesn't."""
        ends = [v for v, value in enumerate(self.of.values, 1) if value % 2]
        parity = {"oddpath": 1, "evenpath": 0}.get(self.kind)
        found = [weight for weight, places in self.walks(ends[0], ends[1], {ends[0]}, ())
                 if (index in places) == bool(times) and parity in (None, len(places) % 2)]
        return min(found, default=math.inf)

    def walks(self, here, end, met, places):
        """The paths from a vertex to another: weight and places of their edges."""
        if here == end:
            yield sum(self.edges[place][2] for place in places), places
            return
        for place, (u, v, _, _) in enumerate(self.edges):
            there = {u: v, v: u}.get(here)
            if there is not None and there not in met:
                yield from self.walks(there, end, met | {there}, (*places, place))


def used_in(answer):
    """How often each edge is used; a tour uses those that it walks an even number of times."""
    counts = answer.edge_counts
    return [1 - count % 2 for count in counts] if answer.kind == "postman" else counts


class Slacks(unittest.TestCase):
    def setUp(self):
        library_or_skip()

    def test_beside_solving_again(self):
        equal = total = 0
        for kind in KINDS:
            chance = random.Random("slacks " + kind)
            graphs = 0
            while graphs < GRAPHS:
                edges, words = larger(chance, kind)
                try:
                    answer = blossom.solve(edges, kind, engine="library", **words)
                except (blossom.Infeasible, blossom.NegativeCycle):
                    continue
                graphs += 1
                with self.subTest(kind=kind, edges=edges, words=words):
                    for bound, known in self.compared(answer):
                        total += 1
                        equal += bound == known
        self.assertGreater(total, 10000)
        self.assertGreater(equal / total, 0.3)  # (bounds that are always 0 would say nothing)

    def compared(self, answer):
        """The reduced cost of each edge, and what it is a bound of; both hold."""
        again, certificate = Again(answer.instance), answer.certificate
        sign = -1 if answer.kind == "match" else 1
        base = sum(answer.instance.weights) if answer.kind == "postman" else 0
        optimum = sign * (answer.certificate.document.weight or 0) - base
        for index, (name, used) in enumerate(zip(answer.instance.edges, used_in(answer))):
            slack, cost = certificate.slack(index), answer.reduced_cost[name]
            self.assertGreaterEqual(min(slack, cost), 0)
            self.assertEqual(slack, 0 if used else cost)
            self.assertEqual(slack, certificate.slack(name))
            for times in range(again.most(index) + 1):
                weight = again.weight(index, times)
                self.assertGreaterEqual(weight, optimum + (times * slack if times else 0))
                if times < used:
                    self.assertGreaterEqual(weight, optimum + (used - times) * cost)
            if again.most(index):
                yield cost, again.weight(index, 1 - min(used, 1)) - optimum

    def test_definition(self):
        """For `perfect` it is the weight less all duals at the edge, in the caller's units."""
        chance = random.Random("definition")
        for _ in range(60):
            edges, words = larger(chance, "perfect")
            edges = [(u, v, Fraction(weight, 4)) for u, v, weight, _ in edges]
            try:
                answer = blossom.solve(edges, scale=4, engine="library", **words)
            except blossom.Infeasible:
                continue
            proof = answer.certificate
            for name, (u, v, weight) in zip(answer.instance.edges, edges):
                if u == v:
                    self.assertEqual(proof.slack(name), math.inf)
                    continue
                sets = sum(one.dual for one in proof.odd_sets
                           if (u in one.members) != (v in one.members))
                known = weight - proof.duals[u] - proof.duals[v] - sets
                self.assertEqual(proof.slack(name), known)
                self.assertEqual(proof.slack((v, u, *name[2:])), known)

    def test_reduced_cost_of_a_matched_edge(self):
        """Two other edges at its ends cover them, or a parallel one does: the least slack."""
        chance = random.Random("matched")
        for _ in range(60):
            edges, words = larger(chance, "perfect")
            try:
                answer = blossom.solve(edges, "perfect", engine="library", **words)
            except blossom.Infeasible:
                continue
            of, slacks = answer.instance, list(map(answer.certificate.slack, range(len(edges))))
            for name in answer.edges:
                own = of.edges.index(name)
                others = [
                    [slack for index, slack in enumerate(slacks)
                     if index != own and node in of.ends[index]]
                    for node in of.ends[own]
                ]
                both = [slack for index, slack in enumerate(slacks)
                        if index != own and set(of.ends[index]) == set(of.ends[own])]
                least = sum(min(found, default=math.inf) for found in others)
                self.assertEqual(answer.reduced_cost[name], min([least, *both]))

    def test_arrays(self):
        numpy = wanted("numpy")
        whole = blossom.solve([("a", "b", 2), ("b", "c", 6), ("c", "d", 2), ("d", "a", 6)],
                              engine="library")
        slacks = whole.certificate.slacks()
        self.assertEqual((slacks.dtype, slacks.tolist()), (numpy.int64, [
            whole.certificate.slack(index) for index in range(4)]))
        self.assertEqual(list(whole.reduced_cost), whole.instance.edges)
        loop = blossom.solve([("a", "b", 1), ("a", "a", 1)], engine="library")
        self.assertEqual(loop.certificate.slacks().tolist(), [0, math.inf])
        self.assertEqual(loop.reduced_cost, {("a", "b"): math.inf, ("a", "a"): math.inf})

    def test_what_has_none(self):
        edges = [("a", "b", 1), ("b", "c", 1), ("c", "d", 1)]
        for kind in ("bottleneck", "gallai"):
            answer = blossom.solve(edges, kind, engine="library")
            for call in (lambda: answer.certificate.slack(0), lambda: answer.reduced_cost):
                with self.assertRaisesRegex(ValueError, "no duals"):
                    call()
        brief = blossom.solve(edges, certificate=False, engine="library")
        with self.assertRaisesRegex(ValueError, "without a certificate"):
            brief.certificate.slack(("a", "b"))
        answer = blossom.solve(edges, engine="library")
        for edge in (("a", "c"), ("a", "b", 1), 3, -1):
            with self.assertRaisesRegex(KeyError, "the graph has no edge"):
                answer.certificate.slack(edge)
        double = blossom.solve([*edges, ("a", "b", 2)], engine="library")
        with self.assertRaisesRegex(KeyError, r"there are \('a', 'b', 0\), \('a', 'b', 1\)"):
            double.certificate.slack(("b", "a"))
