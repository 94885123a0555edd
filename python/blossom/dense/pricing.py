"""Dense instances by pricing: a few pairs are solved as an instance of the program, the duals of
its answer are tested on all other pairs, those of negative slack are added, and so on. The last
duals prove the answer for all pairs.

A perfect matching is solved as `perfect`; a matching that may miss nodes as `match`, whose
certificate graph has each node twice: there the slack of a pair is that of its two images together,
which a matching either has both or hasn't."""
from __future__ import annotations

from dataclasses import dataclass, field
from fractions import Fraction
from typing import Any, Iterator, List, Tuple

from ..buffers import numbers_of
from ..column_tables import ColumnTable
from ..documents import Document
from ..instances import Instance
from ..kinds import MOST_WEIGHT, Kind, usual_of
from ..laminar import ArrayDuals, Duals
from ..tables import Node
from .pairs import MISSING, Chosen, Pairs, joined, ordered


@dataclass
class Problem:
    """A dense instance.

    kind: "perfect" or "match". pairs: what pairs cost. offsets: of `match` the weight of a pair is
    what the offsets of its nodes add up to, less its cost; a pair whose weight isn't positive is in
    no answer. nodes: the names. scale: what the caller's weights were multiplied by. graph: what
    was given."""

    kind: Kind
    pairs: Pairs
    offsets: Any
    nodes: List[Node]
    scale: Fraction = Fraction(1)
    graph: Any = field(default=None, repr=False)

    @property
    def factor(self) -> int:
        """How often the cost of a pair counts in its slack."""
        return 2 if self.kind == "perfect" else 4

    def weights(self, first: Any, second: Any) -> Any:
        """The weights of these pairs in the instance of a round, and which pairs it takes."""
        costs = self.pairs.costs(first, second)
        there = costs != MISSING
        if self.kind == "perfect":
            return costs, there
        weights = self.offsets[first] + self.offsets[second] - costs
        return weights, there & (weights > 0)

    def taken(self, chosen: Chosen) -> Chosen:
        """Those of the pairs that an instance takes, each once."""
        first, second = ordered(*chosen)
        there = self.weights(first, second)[1]
        return first[there], second[there]

    def instance(self, chosen: Chosen) -> Instance:
        """The instance of these pairs, whose table names nodes by their numbers."""
        first, second = chosen
        weights = self.weights(first, second)[0]
        table = ColumnTable(first, second, weights, (None,) * len(first), {}, None, None)
        numbers = numbers_of(self.pairs.size, (first + 1).astype("uint32"),
                             (second + 1).astype("uint32"), weights, (), (), usual_of(self.kind))
        return Instance(self.kind, table, self.nodes, numbers, self.scale, False, self.graph)


class Slack:
    """The slack of the pairs of a problem beside the duals of a document, in doubled units."""

    def __init__(self, problem: Problem, document: Document) -> None:
        import numpy

        self.problem, size = problem, problem.pairs.size
        self.duals = ArrayDuals(Duals(document), 8 * MOST_WEIGHT)
        self.vertices = [numpy.arange(1, size + 1)]
        if problem.kind == "match":
            self.vertices.append(numpy.arange(size + 1, 2 * size + 1))
        self.allowed = sum(self.duals.cover[own] for own in self.vertices)
        if problem.kind == "match":
            self.allowed = self.allowed + 4 * problem.offsets

    def of(self, first: Any, second: Any, costs: Any = None) -> Any:
        """The slack of these pairs, or of edges between them that cost this."""
        both = sum(self.duals.both(own[first], own[second]) for own in self.vertices)
        costs = self.problem.pairs.costs(first, second) if costs is None else costs
        return (self.problem.factor * costs - self.allowed[first] - self.allowed[second]
                + 2 * both)

    def negative(self) -> Iterator[Tuple[Any, Any, Any]]:
        """All pairs of negative slack that an instance takes, with their slack."""
        for first, second in self.problem.pairs.below(self.problem.factor, self.allowed):
            if not len(first):
                continue
            slack = self.of(first, second)
            below = slack < 0
            if self.problem.kind == "match":
                below &= self.problem.weights(first, second)[1]
            if below.any():
                yield first[below], second[below], slack[below]


class Least:
    """The pairs of least slack among many, and how many there were."""

    def __init__(self, most: int) -> None:
        self._found: List[Tuple[Any, Any, Any]] = []
        self._most, self._held, self.count = most, 0, 0

    def add(self, first: Any, second: Any, slack: Any) -> None:
        """Some more pairs."""
        self._found.append((first, second, slack))
        self._held += len(first)
        self.count += len(first)
        if self._held > 8 * self._most:
            self._keep()

    def _keep(self) -> None:
        """Drops all but the least."""
        import numpy

        first, second, slack = (numpy.concatenate(own) for own in zip(*self._found))
        if len(slack) > self._most:
            kept = numpy.argsort(slack, kind="stable")[:self._most]
            first, second, slack = first[kept], second[kept], slack[kept]
        self._found, self._held = [(first, second, slack)], len(first)

    def pairs(self) -> Chosen:
        """The least of them."""
        if not self._found:
            return joined([])
        self._keep()
        return self._found[0][0], self._found[0][1]
