"""Answers of problems that are solved as another one on the same graph: edge covers,
maximum-cardinality matchings, and tours along some of the edges."""
from __future__ import annotations

import dataclasses
from array import array
from dataclasses import dataclass
from fractions import Fraction
from functools import cached_property
from typing import Any, Callable, Dict, Hashable, Iterable, List, Optional, Sequence, Tuple

from .answers import Answer
from .arguments import node_in
from .certificates import Certificate, Number
from .errors import GraphError, Infeasible, WeightError
from .instances import Instance, refuse_negative
from .kinds import MOST_WEIGHT, Kind
from .tables import EdgeName, Node
from .weights import plain
from .wording import shown

#: What solves an instance: `solve` with the caller's engine and the like.
Solver = Callable[[Instance], Answer]


@dataclass(frozen=True, repr=False)
class DerivedAnswer(Answer):
    """An answer that is made of the optimal solution of another problem. `certificate` proves that
    solution, and `certificate.instance` is that problem; `instance` is the caller's graph.

    problem: what was asked for, in words. counts: how often each edge is used. walk: the indices of
    the edges of a tour in their order, and the node where it begins."""

    problem: str = ""
    used: Tuple[int, ...] = ()
    walk_of: Optional[Tuple[Node, Tuple[int, ...]]] = None

    @property
    def weight(self) -> Number:
        weights = self.instance.weights
        total = sum(count * weights[index] for index, count in enumerate(self.used) if count)
        return plain(Fraction(total) / self.instance.scale)

    @property
    def is_walk(self) -> bool:
        return self.walk_of is not None

    @cached_property
    def edge_counts(self) -> List[int]:
        return list(self.used)

    @cached_property
    def edge_indices(self) -> List[int]:
        return [index for index, count in enumerate(self.used) if count]

    @property
    def edge_walk_indices(self) -> List[int]:
        return [] if self.walk_of is None else list(self.walk_of[1])

    @cached_property
    def edge_walk(self) -> List[EdgeName]:
        if self.walk_of is None:
            return []
        here, steps = self.walk_of[0], []
        for index in self.walk_of[1]:
            first, second = self.instance.ends[index]
            there = second if here == first else first
            steps.append((here, there, *self.instance.edges[index][2:]))
            here = there
        return steps

    @cached_property
    def mate(self) -> Dict[Node, Node]:
        return super().mate if self.problem == MATCHING else {}

    def __repr__(self) -> str:
        used = len(self.edge_walk_indices) if self.is_walk else len(self.edge_indices)
        return "<%s of weight %s: %d %s>" % (self.problem, shown(self.weight), used,
                                             "steps" if self.is_walk else "edges")


MATCHING = "maximum-cardinality matching"


def with_weights(of: Instance, kind: Kind, weights: Sequence[int]) -> Instance:
    """The instance with other integers as weights."""
    numbers = of._numbers._replace(weights=array("q", weights))
    return dataclasses.replace(of, kind=kind, _numbers=numbers, scale=Fraction(1))


def answer_by(of: Instance, certificate: Certificate, problem: str,
              indices: Iterable[int]) -> Answer:
    """The answer that uses these edges once each."""
    used = [0] * of.edge_count
    for index in indices:
        used[index] = 1
    return DerivedAnswer(of, certificate, problem, tuple(used))


def largest_matching(of: Instance, sign: int, solve: Solver) -> Answer:
    """The maximum-cardinality matching of maximum weight (sign 1) or minimum weight (-1). An edge
    is worth more than all weights of a matching differ, so a matching of maximum worth has maximum
    cardinality. If such worths pass the limit a perfect matching is looked for. WeightError: there
    is none either."""
    weights = [sign * one for one in of.weights]
    least = min(weights, default=0)
    spread = max(weights, default=0) - least
    base = 1 + (len(of.nodes) // 2) * spread
    if base + spread <= MOST_WEIGHT:
        worths = with_weights(of, "match", [base + one - least for one in weights])
        found = solve(worths)
        return answer_by(of, found.certificate, MATCHING, found.edge_indices)
    try:
        found = solve(with_weights(of, "perfect", [-one for one in weights]))
    except Infeasible:
        raise WeightError("weights differ by %s, too much for a maximum-cardinality matching of %d"
                          " nodes: pass a smaller scale and rounding='nearest'"
                          % (shown(spread), len(of.nodes))) from None
    return answer_by(of, found.certificate, MATCHING, found.edge_indices)


def edge_cover(of: Instance, solve: Solver) -> Answer:
    """An edge cover of least weight. It has all edges of negative weight. Each node that these
    don't cover has a cheapest edge; a matched pair of such nodes saves what both cost less their
    edge. So the cover has the edges of a matching that saves most, and the cheapest edge of each
    other node. Infeasible: a node has no edge."""
    numbers, weights = of.number_of(), of.weights
    ends = [(numbers[u] - 1, numbers[v] - 1) for u, v in of.ends]
    cheapest = cheapest_edges(len(of.nodes), ends, weights)
    refuse_alone(of, cheapest, solve)
    free = {node for pair, weight in zip(ends, weights) if weight < 0 for node in pair}
    costs = [0 if node in free else weights[edge] for node, edge in enumerate(cheapest)]
    saved = [max(-MOST_WEIGHT, costs[u] + costs[v] - max(weight, 0))
             for (u, v), weight in zip(ends, weights)]
    found = solve(with_weights(of, "match", saved))
    matched = set(found.edge_indices)
    covered = free.union(*(ends[edge] for edge in matched))
    taken = matched.union(edge for edge, weight in enumerate(weights) if weight < 0)
    taken.update(edge for node, edge in enumerate(cheapest) if node not in covered)
    return answer_by(of, found.certificate, "edge cover", taken)


def cheapest_edges(nodes: int, ends: Sequence[Tuple[int, int]],
                   weights: Sequence[int]) -> List[int]:
    """The first of the cheapest edges at each node, by its index; -1 if it has none."""
    cheapest = [-1] * nodes
    for edge, (pair, weight) in enumerate(zip(ends, weights)):
        for node in pair:
            if cheapest[node] < 0 or weight < weights[cheapest[node]]:
                cheapest[node] = edge
    return cheapest


def refuse_alone(of: Instance, cheapest: Sequence[int], solve: Solver) -> None:
    """Infeasible: a node has no edge. The certificate is that of the node alone."""
    if -1 in cheapest:
        node = of.nodes[cheapest.index(-1)]
        solve(Instance.from_graph([], "interval", nodes=[node], lower=1, upper=1))


def started(answer: Answer, start: Node) -> Answer:
    """The tour, from this node on. GraphError: it doesn't come there."""
    walk = answer.node_walk
    node_in("start", start)
    if start not in answer.instance.number_of():
        raise GraphError("node %r isn't in the graph" % (start,))
    if start not in walk:
        raise GraphError("a tour can't start at %r: no edge meets it" % (start,))
    place = walk.index(start)
    indices = answer.edge_walk_indices
    turned = (start, tuple(indices[place:] + indices[:place]))
    return DerivedAnswer(answer.instance, answer.certificate, "tour", tuple(answer.edge_counts),
                         turned)


def tour_of(of: Instance, required: Sequence[int], solve: Solver) -> Answer:
    """The tour of least weight along these edges, by index, which are connected; it may use all
    others besides. `of` is an instance of `tjoin`. It goes along them, and again along the edges of
    a least join of their nodes of odd degree."""
    met: Dict[Node, int] = {}
    for index in required:
        for node in of.ends[index]:
            met[node] = met.get(node, 0) + 1
    refuse_negative("postman", of.weights, of.table)
    values = array("I", [met.get(node, 0) % 2 for node in of.nodes])
    join = solve(dataclasses.replace(of, _numbers=of._numbers._replace(values=values)))
    counts = list(join.edge_counts)
    for index in required:
        counts[index] += 1
    first = next(iter(met), None)
    walk = euler_walk(of, counts, first)
    return DerivedAnswer(of, join.certificate, "tour", tuple(counts), (first, walk))


def euler_walk(of: Instance, counts: Sequence[int], start: Any) -> Tuple[int, ...]:
    """The edges of a closed walk from this node that uses each edge so often. All degrees are even,
    and the used edges connected."""
    at: Dict[Hashable, List[Tuple[int, Node]]] = {}
    for index, count in enumerate(counts):
        u, v = of.ends[index]
        for _ in range(count):
            at.setdefault(u, []).append((index, v))
            at.setdefault(v, []).append((index, u))
    left = list(counts)
    stack: List[Tuple[Any, int]] = [(start, -1)]
    walk: List[int] = []
    while stack:
        near = at.get(stack[-1][0], [])
        while near and not left[near[-1][0]]:
            near.pop()
        if near:
            index, there = near.pop()
            left[index] -= 1
            stack.append((there, index))
        else:
            walk.append(stack.pop()[1])
    return tuple(walk[:-1])
