"""Graphs whose edges came as columns. Their nodes are numbered at once, by numpy where the ends are
arrays of it, and lists of names are made only where somebody asks for them."""
from __future__ import annotations

from functools import cached_property
from itertools import chain
from typing import Any, Dict, List, Mapping, NamedTuple, Optional, Tuple

from .buffers import is_of_numpy
from .tables import EdgeName, Node, Table, each_once, named, plain_list

#: Numbers of nodes that spread over so many times as many places as there are ends are sorted.
SPREAD = 4
#: So many edges a node name most nodes, if there are more.
FIRST = 4
#: Pairs of nodes that are at most so many times the edges are marked in a table, others sorted.
DENSE = 128


class Numbering(NamedTuple):
    """The nodes in the order in which the edges name them, and the ends of the edges as numbers
    from 1 on."""

    nodes: List[Node]
    first: Any
    second: Any

    def ends(self, numbers: Any, places: Optional[List[int]] = None) -> List[Node]:
        """The nodes of these numbers, of one end of each edge, at these places; at all without
        them."""
        own = plain_list(numbers) if places is None else picked(numbers, places)
        return list(map([None, *self.nodes].__getitem__, own))

    def pairs(self, places: Optional[List[int]] = None) -> List[Tuple[Node, Node]]:
        """The two nodes of the edges at these places; of all without them."""
        return list(zip(self.ends(self.first, places), self.ends(self.second, places)))


def array_of(column: Any) -> Any:
    """A column of a DataFrame as an array of numpy, any other as it is. Dates stay dates."""
    if hasattr(column, "to_numpy") and getattr(column.dtype, "kind", "") not in ("M", "m"):
        return column.to_numpy()
    return list(column) if hasattr(column, "to_numpy") else column


def is_number(column: Any) -> bool:
    """Whether a column is a list of numbers in an array of numpy, of which none is masked."""
    return (is_of_numpy(column) and column.ndim == 1 and column.dtype.kind in "iuf"
            and not hasattr(column, "mask"))


def within(column: Any, most: int) -> bool:
    """Whether all numbers of a column are at most `most`, with either sign."""
    return not len(column) or -most <= column.min().item() <= column.max().item() <= most


def is_whole(column: Any) -> bool:
    """Whether a column is an array of numpy that holds integers which fit 64 bits with a sign."""
    return (is_number(column)
            and (column.dtype.kind == "i" or column.dtype.kind == "u" and column.itemsize < 8))


def are_ends(first: Any, second: Any) -> bool:
    """Whether the ends of edges are integers in arrays of numpy."""
    return is_whole(first) and is_whole(second)


def numbering(first: Any, second: Any) -> Numbering:
    """The nodes that these ends name, numbered from 1 in the order in which they come, edge by
    edge."""
    if are_ends(first, second):
        return numbering_of_arrays(first, second)
    ends = plain_list(first), plain_list(second)
    nodes = each_once(chain.from_iterable(zip(*ends)))
    number_of = {node: number for number, node in enumerate(nodes, 1)}
    return Numbering(nodes, *(list(map(number_of.__getitem__, column)) for column in ends))


def numbering_of_arrays(first: Any, second: Any) -> Numbering:
    """The same of arrays of integers."""
    import numpy

    count = len(first)
    if not count:
        return Numbering([], numpy.empty(0, numpy.uint32), numpy.empty(0, numpy.uint32))
    wide = [ends.astype(numpy.int64, copy=False) for ends in (first, second)]
    most = max(map(unsigned_max, wide))
    if most < SPREAD * 2 * count:
        return numbered_by_places(wide[0], wide[1], numpy.arange(most + 1))
    least = min(int(ends.min()) for ends in wide)
    most = max(int(ends.max()) for ends in wide)
    if most - least < SPREAD * 2 * count:
        nodes = numpy.arange(most - least + 1) + least  # (the number behind the last may not fit)
        return numbered_by_places(wide[0] - least, wide[1] - least, nodes)
    nodes, both = numpy.unique(numpy.concatenate(wide), return_inverse=True)
    return numbered_by_places(both[:count], both[count:], nodes)


def unsigned_max(ends: Any) -> int:
    """The greatest of these integers of 64 bits; a negative one counts as a large one."""
    return int(ends.view("uint64").max())


def numbered_by_places(first: Any, second: Any, nodes: Any) -> Numbering:
    """The same of ends that are places among these nodes, of which some may be no ends. If nodes
    have many edges, the first edges name most of them, and the others are looked at by edges whose
    ends have no number yet."""
    import numpy

    number = numpy.zeros(len(nodes), numpy.uint32)
    few = FIRST * len(nodes) if 2 * FIRST * len(nodes) < len(first) else len(first)
    there = new_nodes(first[:few], second[:few], number, 0)
    ends = number[first], number[second]
    if few < len(first):
        left = ((ends[0] == 0) | (ends[1] == 0)).nonzero()[0]
        more = new_nodes(first[left], second[left], number, len(there))
        there = numpy.concatenate((there, more))
        for numbers, places in zip(ends, (first, second)):
            numbers[left] = number[places[left]]
    return Numbering(nodes[there].tolist(), *ends)


def new_nodes(first: Any, second: Any, number: Any, known: int) -> Any:
    """The places of those nodes among these ends that have no number, in the order in which the
    edges name them. They get the numbers after the known ones."""
    import numpy

    places = numpy.arange(len(first))[::-1]
    comes = numpy.minimum(2 * comes_first(first, places, len(number)),
                          2 * comes_first(second, places, len(number)) + 1)
    comes[number > 0] = 2 * len(first)
    is_first = numpy.zeros(2 * len(first) + 1, bool)
    is_first[comes] = True
    ends = is_first[:-1].nonzero()[0]
    edges = ends // 2
    there = numpy.where(ends % 2 == 0, first[edges], second[edges])
    number[there] = numpy.arange(known + 1, known + 1 + len(there))
    return there


def comes_first(ends: Any, places: Any, nodes: int) -> Any:
    """The first edge at which each node stands among these ends, or their number where it never
    does. places: those of all edges, from the last on."""
    import numpy

    comes = numpy.full(nodes, len(ends))
    comes[ends[::-1]] = places  # (the last that is written stays)
    return comes


def are_parallel(nodes: int, first: Any, second: Any) -> bool:
    """Whether some pair of these nodes, numbered from 1, is joined more than once."""
    if is_of_numpy(first):
        return are_parallel_arrays(nodes, first, second)
    past = nodes + 1
    pairs = {one * past + other if one < other else other * past + one
             for one, other in zip(first, second)}
    return len(pairs) < len(first)


def are_parallel_arrays(nodes: int, first: Any, second: Any) -> bool:
    """The same of arrays of numpy."""
    import numpy

    pairs = (numpy.minimum(first, second).astype("int64") * (nodes + 1)
             + numpy.maximum(first, second))
    if (nodes + 1) ** 2 <= DENSE * len(first):
        seen = numpy.zeros((nodes + 1) ** 2, bool)
        seen[pairs] = True
        return bool(numpy.count_nonzero(seen) < len(first))
    pairs.sort()
    return bool((pairs[1:] == pairs[:-1]).any())


def kept(column: Any) -> Any:
    """A copy of a column, so that the caller may change it afterwards; a tuple can't be."""
    if type(column) is tuple:
        return column
    return column.copy() if hasattr(column, "copy") else list(column)


class ColumnTable(Table):
    """A graph as columns, which are lists or arrays of numpy: a `Table` whose lists are made when
    somebody asks for them.

    own_ends: the columns of the ends, unless `numbering` was made of them at once. weight_column,
    capacity_column, other_columns: what else is known."""

    def __init__(self, first: Any, second: Any, weights: Any, capacities: Any,
                 columns: Mapping[str, Any], weight_name: Optional[str],
                 capacity_name: Optional[str]) -> None:
        self.own_ends: Optional[Tuple[Any, Any]] = None
        if are_ends(first, second):  # (the columns needn't be kept: numbers and nodes tell them)
            self.numbering = numbering_of_arrays(first, second)
        else:
            self.own_ends = kept(first), kept(second)
        self.take(kept(weights), kept(capacities),
                  {name: kept(column) for name, column in columns.items()}, weight_name,
                  capacity_name)

    def take(self, weights: Any, capacities: Any, columns: Dict[str, Any],
             weight_name: Optional[str], capacity_name: Optional[str]) -> None:
        """Takes all columns but those of the ends."""
        self.weight_column, self.capacity_column = weights, capacities
        self.other_columns = columns
        self.values: Dict[Node, Any] = {}
        self.lower: Dict[Node, Any] = {}
        self.upper: Dict[Node, Any] = {}
        self.positions: Dict[Node, Tuple[float, float]] = {}
        self.weight_name, self.capacity_name = weight_name, capacity_name

    @cached_property
    def numbering(self) -> Numbering:
        """Its nodes and its edges as numbers."""
        assert self.own_ends is not None
        return numbering(*self.own_ends)

    @cached_property
    def nodes(self) -> List[Node]:  # type: ignore[override]
        return self.numbering.nodes

    @cached_property
    def ends(self) -> List[Tuple[Node, Node]]:  # type: ignore[override]
        if self.own_ends is None:
            return self.numbering.pairs()
        return list(zip(*map(plain_list, self.own_ends)))

    @cached_property
    def names(self) -> List[EdgeName]:  # type: ignore[override]
        return named(self.ends)

    @cached_property
    def weights(self) -> List[Any]:  # type: ignore[override]
        return plain_list(self.weight_column)

    @cached_property
    def capacities(self) -> List[Any]:  # type: ignore[override]
        return plain_list(self.capacity_column)

    @cached_property
    def columns(self) -> Dict[str, List[Any]]:  # type: ignore[override]
        return {name: plain_list(column) for name, column in self.other_columns.items()}

    @property
    def edge_count(self) -> int:
        return len(self.numbering.first if self.own_ends is None else self.own_ends[0])

    @cached_property
    def has_parallel_edges(self) -> bool:
        """Whether some pair of nodes is joined more than once."""
        first, second = self.numbering.first, self.numbering.second
        return are_parallel(len(self.numbering.nodes), first, second)

    def name(self, place: int) -> EdgeName:
        return self.names_of([place])[0]

    def names_of(self, places: List[int]) -> List[EdgeName]:
        if self.has_parallel_edges:
            return super().names_of(places)
        if self.own_ends is None:
            return list(self.numbering.pairs(places))
        return list(zip(*(picked(column, places) for column in self.own_ends)))


class SimpleTable(ColumnTable):
    """The columns of a graph without parallel edges, whose nodes have an order of their own. Nobody
    else has these columns."""

    has_parallel_edges = False

    def __init__(self, numbering: Numbering, weights: List[Any], capacities: List[Any],
                 columns: Dict[str, List[Any]], weight_name: Optional[str],
                 capacity_name: Optional[str]) -> None:
        self.own_ends, self.numbering = None, numbering
        self.take(weights, capacities, columns, weight_name, capacity_name)

    @cached_property
    def names(self) -> List[EdgeName]:  # type: ignore[override]
        return list(self.ends)


def picked(column: Any, places: List[int]) -> List[Any]:
    """The entries of a column at these places, as Python's own values."""
    if is_of_numpy(column):
        return plain_list(column[places])
    return list(map(plain_list(column).__getitem__, places))
