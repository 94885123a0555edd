"""The slack of edges beside the duals of a document.

With cover(v) the dual of a vertex v and of all sets that contain it, and both(u, v) the duals of
the sets that contain both, an edge of weight w has the slack 2w - cover(u) - cover(v)
+ 2 both(u, v), in the doubled units of documents.

Sets that contain each other form trees. In the order of a walk through such a tree the sets are
intervals of vertices, and both(u, v) is the least of the sums between neighbours from u to v. So
one slack takes constant time, however deep the sets lie in each other."""
from __future__ import annotations

from functools import cached_property
from typing import Any, List, Sequence, Set, Tuple

from .documents import Document, SetLine

#: Sums within this bound are added in 64 bits, others as integers of Python.
SAFE = 2**61


class Layer:
    """Trees of sets that have no vertex in common.

    lines: all set lines of a document. roots: the places of the outermost sets of these trees.
    vertices: how many vertices there are, which are numbered from 1."""

    def __init__(self, lines: Sequence[SetLine], roots: Sequence[int], vertices: int) -> None:
        self.place = [0] * (vertices + 1)  # (0: in no set)
        self.inside = [0]
        self.between = [0]  # (both of the vertices at this place and the next)
        for root in roots:
            self._walk(lines, root)

    def _walk(self, lines: Sequence[SetLine], root: int) -> None:
        """Appends the vertices of a tree. A set that is left goes back to the stack, below the
        sets within it, so that the walk comes back to it between them."""
        low, stack = 0, [(root, lines[root].dual, True)]
        while stack:
            line, total, is_new = stack.pop()
            low = min(low, total)
            if not is_new:
                continue
            for vertex in lines[line].vertices:
                self.between[-1] = low
                self.place[vertex] = len(self.inside)
                self.inside.append(total)
                self.between.append(0)
                low = total
            for reference in reversed(lines[line].references):
                inner = reference - 1
                stack.append((line, total, False))
                stack.append((inner, total + lines[inner].dual, True))

    @cached_property
    def tables(self) -> List[List[int]]:
        """Table k has at place i the least of 2^k entries of `between` from i on."""
        tables, width = [self.between], 1
        while 2 * width <= len(self.between):
            last = tables[-1]
            tables.append([min(pair) for pair in zip(last, last[width:])])
            width *= 2
        return tables

    def both(self, one: int, other: int) -> int:
        """What the sets weigh that contain both vertices."""
        first, last = sorted((self.place[one], self.place[other]))
        if first == last:
            return self.inside[first]
        level = (last - first).bit_length() - 1
        table = self.tables[level]
        return 0 if not first else min(table[first], table[last - (1 << level)])


def vertices_of(lines: Sequence[SetLine], root: int) -> Set[int]:
    """The vertices that the set at this place contains, by itself or in sets within it."""
    found: Set[int] = set()
    stack = [root]
    while stack:
        one = lines[stack.pop()]
        found.update(one.vertices)
        stack += [reference - 1 for reference in one.references]
    return found


def layers_of(lines: Sequence[SetLine], vertices: int) -> List[Layer]:
    """The sets as layers of trees: one layer, unless sets of different trees cross."""
    inner = {reference - 1 for one in lines for reference in one.references}
    taken: List[Tuple[Set[int], List[int]]] = []
    for root in (place for place in range(len(lines)) if place not in inner):
        own = vertices_of(lines, root)
        free = next((layer for layer in taken if layer[0].isdisjoint(own)), None)
        if free is None:
            free = (set(), [])
            taken.append(free)
        free[0].update(own)
        free[1].append(root)
    return [Layer(lines, roots, vertices) for _, roots in taken]


class Duals:
    """The duals of a document, as slacks need them. Vertices are numbers from 1."""

    def __init__(self, document: Document) -> None:
        count = len(document.duals)
        self.layers = layers_of(document.set_lines, count)
        self.cover = [0, *(document.duals[vertex] for vertex in range(1, count + 1))]
        for layer in self.layers:
            inside, place = layer.inside, layer.place
            self.cover = [own + inside[here] for own, here in zip(self.cover, place)]

    def slack(self, one: int, other: int, weight: int) -> int:
        """The slack of an edge of this weight between two vertices, in doubled units."""
        both = sum(layer.both(one, other) for layer in self.layers)
        return 2 * weight - self.cover[one] - self.cover[other] + 2 * both


class ArrayDuals:
    """The same over arrays of numpy."""

    def __init__(self, duals: Duals, most_weight: int) -> None:
        """most_weight: no weight is greater, with either sign."""
        import numpy

        most = (4 * most_weight + 4 * max(abs(one) for one in duals.cover)
                + 8 * sum(max(layer.inside) for layer in duals.layers))
        self.type: Any = numpy.int64 if most < SAFE else object
        self.cover = numpy.array(duals.cover, self.type)
        self._places = [numpy.array(layer.place) for layer in duals.layers]
        self._inside = [numpy.array(layer.inside, self.type) for layer in duals.layers]
        self._tables = [stacked([numpy.array(table, self.type) for table in layer.tables])
                        for layer in duals.layers]

    def both(self, one: Any, other: Any) -> Any:
        """What the sets weigh that contain both vertices of each of these pairs."""
        import numpy

        total = numpy.zeros(len(one), self.type)
        for places, inside, tables in zip(self._places, self._inside, self._tables):
            first = numpy.minimum(places[one], places[other])
            last = numpy.maximum(places[one], places[other])
            length = numpy.maximum(last - first, 1)
            level = numpy.frexp(length)[1] - 1  # (exact: lengths are far below 2^53)
            least = numpy.minimum(tables[level, first],
                                  tables[level, numpy.maximum(last - (1 << level), 0)])
            least[first == 0] = 0
            same = first == last
            least[same] = inside[first[same]]
            total += least
        return total


def stacked(tables: List[Any]) -> Any:
    """The tables as the rows of one array, with zeros behind the shorter ones."""
    import numpy

    rows = numpy.zeros((len(tables), len(tables[0])), tables[0].dtype)
    for row, table in zip(rows, tables):
        row[:len(table)] = table
    return rows
