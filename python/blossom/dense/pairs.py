"""The pairs of nodes of a dense instance and what they cost, in three forms: a matrix, points, and
a list of edges. Nodes are numbers from 0. Costs are minimised: of a problem that maximises they are
the weights with their signs turned.

All are asked the same: what given pairs cost, which pairs are cheapest at each node, and which
pairs cost less than two numbers of their nodes allow. None of them makes arrays of all pairs for
that."""
from __future__ import annotations

import sys
from importlib.util import find_spec
from typing import Any, Iterator, Protocol, Tuple

from .metrics import Distances

#: The cost of a pair that is missing. Four times as much is within 64 bits.
MISSING = 2**60
#: So many entries of a matrix are looked at at once.
BLOCK = 2**16
#: Points so many that a tree is worth the import of scipy.
MANY = 2000
#: Two arrays: the lesser node of each pair, and the greater.
Chosen = Tuple[Any, Any]


class Pairs(Protocol):
    """The pairs of a dense instance. size: how many nodes there are. count: how many pairs.
    error: what `below` has to allow for."""

    size: int
    count: int

    def costs(self, first: Any, second: Any) -> Any:
        """What these pairs cost, `MISSING` if there is no such pair."""
        ...

    def cheapest(self, most: int) -> Chosen:
        """The cheapest pairs at each node, so many of them and perhaps more."""
        ...

    def below(self, factor: int, allowed: Any) -> Iterator[Chosen]:
        """All pairs whose cost times the factor, which is positive, is less than the sum of what is
        allowed at the two nodes, and perhaps others."""
        ...

    def across(self, part: Any) -> Chosen:
        """Some pairs of nodes of different parts, and at least one if there is any. part: a number
        for each node, negative for those that are left out."""
        ...

    def clipped(self) -> "Pairs":
        """The same pairs with negative costs as 0."""
        ...


def ordered(first: Any, second: Any) -> Chosen:
    """The pairs, each once, with the lesser node first; none of a node with itself."""
    import numpy

    lesser, greater = numpy.minimum(first, second), numpy.maximum(first, second)
    size = int(greater.max()) + 1 if len(greater) else 1
    codes = numpy.unique(lesser.astype(numpy.int64) * size + greater)
    codes = codes[codes // size != codes % size]
    return codes // size, codes % size


def rows_at_once(size: int) -> int:
    """How many rows of this length are a block."""
    return max(1, BLOCK // max(size, 1))


class MatrixPairs:
    """The pairs of a matrix of costs, symmetric, whose diagonal is `MISSING`."""

    def __init__(self, costs: Any) -> None:
        import numpy

        self.matrix = costs
        self.size = len(costs)
        self.count = int(numpy.count_nonzero(costs != MISSING)) // 2

    def costs(self, first: Any, second: Any) -> Any:
        return self.matrix[first, second]

    def cheapest(self, most: int) -> Chosen:
        return cheapest_of_rows(self.matrix, most)

    def below(self, factor: int, allowed: Any) -> Iterator[Chosen]:
        import numpy

        step = rows_at_once(self.size)
        for begin in range(0, self.size, step):
            rest = self.matrix[begin:begin + step, begin:] * factor
            rest -= allowed[begin:begin + step, None]
            rows, columns = numpy.nonzero(rest < allowed[None, begin:])
            upper = rows < columns
            yield rows[upper] + begin, columns[upper] + begin

    def across(self, part: Any) -> Chosen:
        import numpy

        step, found = rows_at_once(self.size), []
        for begin in range(0, self.size, step):
            own = part[begin:begin + step, None]
            allowed = (own != part[None, :]) & (own >= 0) & (part[None, :] >= 0)
            rows = numpy.where(allowed, self.matrix[begin:begin + step], MISSING)
            best = rows.argmin(axis=1)
            there = numpy.flatnonzero(rows[numpy.arange(len(rows)), best] != MISSING)
            found.append((there + begin, best[there]))
        return ordered(*joined(found))

    def clipped(self) -> Pairs:
        import numpy

        return type(self)(numpy.maximum(self.matrix, 0)) if (self.matrix < 0).any() else self


class SidedPairs(MatrixPairs):
    """The pairs of a matrix with a node for each row, and then one for each column."""

    def __init__(self, costs: Any) -> None:
        import numpy

        self.matrix = costs
        self.rows, self.size = len(costs), sum(costs.shape)
        self.count = int(numpy.count_nonzero(costs != MISSING))

    def costs(self, first: Any, second: Any) -> Any:
        import numpy

        found = numpy.full(len(first), MISSING)
        there = (first < self.rows) & (second >= self.rows)
        found[there] = self.matrix[first[there], second[there] - self.rows]
        return found

    def cheapest(self, most: int) -> Chosen:
        rows, columns = cheapest_of_rows(self.matrix, most)
        others, more = cheapest_of_rows(self.matrix.T, most)
        return joined([(rows, columns + self.rows), (more, others + self.rows)])

    def below(self, factor: int, allowed: Any) -> Iterator[Chosen]:
        import numpy

        step = rows_at_once(self.matrix.shape[1])
        for begin in range(0, self.rows, step):
            rest = self.matrix[begin:begin + step] * factor
            rest -= allowed[begin:min(begin + step, self.rows), None]
            rows, columns = numpy.nonzero(rest < allowed[None, self.rows:])
            yield rows + begin, columns + self.rows

    def across(self, part: Any) -> Chosen:
        import numpy

        step, found, there = rows_at_once(self.matrix.shape[1]), [], part[self.rows:]
        if not len(there):
            return joined([])
        for begin in range(0, self.rows, step):
            own = part[begin:min(begin + step, self.rows), None]
            allowed = (own != there[None, :]) & (own >= 0) & (there[None, :] >= 0)
            rows = numpy.where(allowed, self.matrix[begin:begin + step], MISSING)
            best = rows.argmin(axis=1)
            kept = numpy.flatnonzero(rows[numpy.arange(len(rows)), best] != MISSING)
            found.append((kept + begin, best[kept] + self.rows))
        return joined(found)


class PointPairs:
    """The pairs of points. farthest: distances are maximised."""

    def __init__(self, distances: Distances, farthest: bool = False) -> None:
        self.distances, self.sign = distances, -1 if farthest else 1
        self.size = len(distances.points)
        self.count = self.size * (self.size - 1) // 2

    def costs(self, first: Any, second: Any) -> Any:
        return self.sign * self.distances.between(first, second)

    def cheapest(self, most: int) -> Chosen:
        import numpy

        if self.sign > 0 and self.size > most and has_trees(self.size):
            near = self.distances.neighbours(most)
            return ordered(numpy.repeat(numpy.arange(self.size), near.shape[1]), near.ravel())
        step, found = rows_at_once(self.size), []
        for begin in range(0, self.size, step):
            end = min(begin + step, self.size)
            lengths = self.sign * self.distances.block(begin, end, 0, self.size)
            lengths[numpy.arange(end - begin), numpy.arange(begin, end)] = numpy.inf
            rows, columns = cheapest_of_rows(lengths, most)
            found.append((rows + begin, columns))
        return ordered(*joined(found))

    def below(self, factor: int, allowed: Any) -> Iterator[Chosen]:
        import numpy

        most = float(numpy.abs(allowed).max()) if self.size else 0.0
        near = allowed.astype(numpy.float64) + factor * self.distances.error + most * 2.0**-50
        order, first = self.distances.by_first()
        sorted_by, near, step = self.distances.chosen(order), near[order], rows_at_once(self.size)
        reach = 2 * float(near.max()) / factor if self.sign > 0 and self.size else numpy.inf
        for begin in range(0, self.size, step):
            end = min(begin + step, self.size)
            last = int(numpy.searchsorted(first, first[end - 1] + reach, "right"))
            rest = sorted_by.block(begin, end, begin, last)
            rest *= self.sign * factor
            rest -= near[begin:end, None]
            rows, columns = numpy.nonzero(rest < near[None, begin:last])
            upper = rows < columns
            one, other = order[rows[upper] + begin], order[columns[upper] + begin]
            yield numpy.minimum(one, other), numpy.maximum(one, other)

    def across(self, part: Any) -> Chosen:
        import numpy

        step, found = rows_at_once(self.size), []
        for begin in range(0, self.size, step):
            end = min(begin + step, self.size)
            own = part[begin:end, None]
            allowed = (own != part[None, :]) & (own >= 0) & (part[None, :] >= 0)
            lengths = self.sign * self.distances.block(begin, end, 0, self.size)
            lengths[~allowed] = numpy.inf
            best = lengths.argmin(axis=1)
            there = numpy.flatnonzero(numpy.isfinite(lengths[numpy.arange(end - begin), best]))
            found.append((there + begin, best[there]))
        return ordered(*joined(found))

    def clipped(self) -> Pairs:
        return self


class EdgePairs:
    """The pairs of a list of edges: of parallel ones the cheapest counts, and loops don't. listed:
    the ends of all of these. place: where the edge of a pair stands in that list."""

    def __init__(self, size: int, first: Any, second: Any, costs: Any) -> None:
        import numpy

        self.size, self._all, self.listed = size, costs, (first, second)
        lesser, greater = numpy.minimum(first, second), numpy.maximum(first, second)
        codes = lesser.astype(numpy.int64) * size + greater
        order = numpy.lexsort((costs, codes))
        codes, places = codes[order], order
        own = numpy.flatnonzero(lesser[order] != greater[order])
        codes, places = codes[own], places[own]
        new = numpy.flatnonzero(numpy.append(True, codes[1:] != codes[:-1])[:len(codes)])
        self._codes, self.place = codes[new], places[new]
        self._costs = costs[self.place]
        self.count = len(self._codes)

    @property
    def ends(self) -> Chosen:
        """All pairs."""
        return self._codes // self.size, self._codes % self.size

    def weights(self, is_turned: bool) -> Any:
        """The weight of each edge of the list: its cost, or that with its sign turned."""
        return -self._all if is_turned else self._all

    def costs(self, first: Any, second: Any) -> Any:
        import numpy

        found = numpy.full(len(first), MISSING)
        places, there = self.find(first, second)
        found[there] = self._costs[places[there]]
        return found

    def find(self, first: Any, second: Any) -> Chosen:
        """Where these pairs stand among all, and which of them are there."""
        import numpy

        codes = numpy.minimum(first, second) * self.size + numpy.maximum(first, second)
        places = numpy.searchsorted(self._codes, codes)
        places = numpy.minimum(places, max(self.count - 1, 0))
        there = self._codes[places] == codes if self.count else numpy.zeros(len(codes), bool)
        return places, there

    def cheapest(self, most: int) -> Chosen:
        import numpy

        ends = numpy.concatenate((self._codes // self.size, self._codes % self.size))
        order = numpy.lexsort((numpy.concatenate((self._costs, self._costs)), ends))
        ends = ends[order]
        starts = numpy.searchsorted(ends, ends)
        chosen = order[numpy.arange(len(ends)) - starts < most] % max(self.count, 1)
        codes = self._codes[numpy.unique(chosen)]
        return codes // self.size, codes % self.size

    def below(self, factor: int, allowed: Any) -> Iterator[Chosen]:
        for begin in range(0, self.count, BLOCK):
            codes = self._codes[begin:begin + BLOCK]
            first, second = codes // self.size, codes % self.size
            rest = factor * self._costs[begin:begin + BLOCK] - allowed[first] < allowed[second]
            yield first[rest], second[rest]

    def across(self, part: Any) -> Chosen:
        import numpy

        first, second = self.ends
        own, other = part[first], part[second]
        allowed = numpy.flatnonzero((own != other) & (own >= 0) & (other >= 0))
        allowed = allowed[numpy.argsort(self._costs[allowed], kind="stable")]
        chosen = [allowed[numpy.unique(ends[allowed], return_index=True)[1]]
                  for ends in (first, second)]
        codes = self._codes[numpy.unique(numpy.concatenate(chosen))]
        return codes // self.size, codes % self.size

    def clipped(self) -> Pairs:
        import numpy

        return EdgePairs(self.size, *self.listed, numpy.maximum(self._all, 0))


def cheapest_of_rows(matrix: Any, most: int) -> Chosen:
    """Rows and columns of the least entries of each row that aren't missing."""
    import numpy

    found, step, width = [], rows_at_once(matrix.shape[1]), matrix.shape[1]
    for begin in range(0, len(matrix), step):
        rows = matrix[begin:begin + step]
        if width > most:
            columns = numpy.argpartition(rows, most, axis=1)[:, :most]
        else:
            columns = numpy.broadcast_to(numpy.arange(width), rows.shape)
        near = numpy.repeat(numpy.arange(len(rows)), columns.shape[1]), columns.ravel()
        there = rows[near] < MISSING
        found.append((near[0][there] + begin, near[1][there]))
    return joined(found)


def joined(found: Any) -> Chosen:
    """The pairs of several arrays as two."""
    import numpy

    none = numpy.empty(0, numpy.int64)
    firsts, seconds = [none], [none]
    for first, second in found:
        firsts.append(first)
        seconds.append(second)
    return numpy.concatenate(firsts), numpy.concatenate(seconds)


def has_trees(size: int) -> bool:
    """Whether trees of so many points are worth it: scipy, which has them, is installed, and the
    points are so many that it takes no longer to import it."""
    return "scipy.spatial" in sys.modules or size >= MANY and find_spec("scipy") is not None
