"""Instances: a graph and a kind, as the program reads them, with the names that its numbers stand
for."""
from __future__ import annotations

import hashlib
import math
import numbers
from dataclasses import dataclass
from fractions import Fraction
from functools import cached_property
from itertools import chain
from operator import itemgetter
from typing import Any, Dict, Iterable, List, Mapping, Optional, Sequence, Tuple, Union

from . import kinds
from .arguments import node_in, nodes_in
from .bounds import Bound, all_bounds, refuse_words
from .buffers import NO_CAPACITY, Numbers, is_of_numpy, numbers_of
from .column_tables import ColumnTable, is_number, within
from .deprecated import old_keywords
from .errors import GraphError, LimitExceeded, WeightError
from .graphs import USUAL_CAPACITY, USUAL_WEIGHT, Graph, table_of
from .kinds import Kind, usual_of
from .node_values import attribute_of, is_natural, mapping_of, value_of
from .tables import EdgeName, Node, Table
from .weights import Rounding, Scale, all_whole, exact, plain, refuse_rounding, scale_of
from .wording import ON_COMMAND_LINE, argument, shown, word

Degrees = Union[str, Mapping[Any, int], None]


@dataclass(frozen=True, repr=False, eq=False)
class Instance:
    """A graph as the program reads it.

    Vertex i + 1 of the program is `nodes[i]`, and its edge i + 1 is `edges[i]`. Make one by
    `Instance.from_graph`.

    Attributes
    ----------
    kind : str
        One of `blossom.KINDS`.
    table : Table
        The graph as columns.
    nodes : list
        The names of the nodes, in order.
    scale : Fraction
        What the weights were multiplied by.
    graph : object
        The graph as it was given.
    """

    kind: Kind
    table: Table
    nodes: List[Node]
    _numbers: Numbers  # the same graph in the program's numbers
    scale: Fraction = Fraction(1)
    # A path is asked for from its greater end to its lesser, so the program's is the other way.
    _backwards: bool = False
    graph: Any = None

    @classmethod
    @old_keywords("values")
    def from_graph(cls, graph: Graph, kind: Kind, *, nodes: Iterable[Node] = (),
                   weight: Optional[str] = USUAL_WEIGHT, capacity: Optional[str] = USUAL_CAPACITY,
                   degrees: Degrees = None, terminals: Optional[Iterable[Node]] = None,
                   source: Optional[Node] = None, target: Optional[Node] = None,
                   lower: Bound = None, upper: Bound = None,
                   default_capacity: Optional[int] = None, scale: Scale = 1,
                   rounding: Rounding = None) -> Instance:
        """Make the instance of a kind on a graph.

        Parameters
        ----------
        graph : graph
            A graph in any of the forms that `blossom.graphs` lists.
        kind : str
            One of `blossom.KINDS`.
        nodes : iterable of nodes
            Nodes to begin with, so that those without edges are in the graph too.
        weight, capacity : str or None
            Names of attributes or columns; one that is passed must exist. Without `weight` an edge
            that has no `weight` counts as 1, unless the graph has a column that may be weights.
            With `weight=None` each edge counts as 1.
        degrees : mapping or str
            For `bmatch`, `capmatch` and `ffactor`: the degree of each node in the solution, as a
            mapping or the name of a node attribute; 1 for other nodes.
        terminals : iterable of nodes
            For `tjoin`: the nodes of odd degree in the join.
        source, target : node
            For `path`, `oddpath` and `evenpath`: the two ends.
        lower, upper : int, mapping or str
            For `interval`: degree bounds, as a number for all nodes, a mapping, or the name of a
            node attribute. By default the lower bound is 0 and the upper bound is what the edges of
            the node allow.
        default_capacity : int or None
            For `capmatch` and `interval`: the capacity of each edge without one; None means
            unlimited.
        scale : number or "finest"
            What weights are multiplied by; they must be integers then, unless they are rounded.
            "finest" rounds to the finest power of two that fits. Answers and duals come back in
            the units that were given.
        rounding : None or "nearest"
            Whether scaled weights are rounded to the nearest integer.

        Returns
        -------
        Instance

        Raises
        ------
        GraphError
            If the graph, or what is said about its nodes, isn't an instance of the kind.
        WeightError
            If a weight, once scaled, isn't an integer within 10^12.
        LimitExceeded
            If there are over 4,096 nodes or 65,536 edges, or a degree is over 4,096.

        Examples
        --------
        >>> graph = [("a", "b", 0.5), ("b", "c", 2)]
        >>> instance = blossom.Instance.from_graph(graph, "match", scale=2)
        >>> instance.nodes, instance.weights
        (['a', 'b', 'c'], [1, 4])
        >>> blossom.solve(instance, "match").weight
        2
        """
        kind, table = kinds.known(kind), table_of(graph, weight, capacity)
        refuse_rounding(rounding)
        before = nodes_in("nodes", nodes)
        names = list(dict.fromkeys([*before, *table.nodes])) if before else table.nodes
        refuse_missing_ends(table)
        refuse_large(len(names), table.edge_count)
        refuse_words(kind, lower, upper, default_capacity)
        given = asked_values(graph, table, kind, degrees, terminals, source, target)
        is_numbered = isinstance(table, ColumnTable) and not before
        number_of = ({} if is_numbered and not given else
                     {node: number for number, node in enumerate(names, 1)})
        first, second = numbered(table, number_of, is_numbered)
        is_finest = isinstance(scale, str) and scale == "finest"
        factor = scale_of(scale, table.weights if is_finest else (), table.name)
        weights = weights_of(table, factor, "nearest" if is_finest else rounding)
        refuse_negative(kind, weights, table)
        capacities = capacities_of(table, kind, default_capacity)
        if kind in kinds.BOUNDED:
            asked = all_bounds(graph, table, names, capacities, lower, upper)
        else:
            asked = all_values(names, given, number_of, kind)
        numbers = numbers_of(len(names), first, second, weights, capacities, asked, usual_of(kind))
        backwards = (kind in kinds.PATHS and source is not None
                     and number_of[source] > number_of[target])
        return cls(kind, table, names, numbers, factor, backwards, graph)

    @property
    def edges(self) -> List[EdgeName]:
        """The names of the edges, in order: (u, v), or (u, v, key) in a multigraph."""
        return self.table.names

    @property
    def ends(self) -> List[Tuple[Node, Node]]:
        """The two nodes of each edge."""
        return self.table.ends

    @property
    def columns(self) -> Dict[str, List[Any]]:
        """The other columns and attributes of the edges, by name."""
        return self.table.columns

    @cached_property
    def weights(self) -> List[int]:
        """The weights as integers: the given weights times `scale`."""
        return list(self._numbers.weights.tolist())

    @cached_property
    def capacities(self) -> List[Optional[int]]:
        """The capacity of each edge, or None if it has none.

        Only edges of `capmatch` and `interval` have capacities."""
        own = self._numbers.capacities.tolist()
        return ([None if one == NO_CAPACITY else one for one in own]
                if own else [None] * self.edge_count)

    @cached_property
    def values(self) -> List[int]:
        """The degree of each node.

        For joins and paths it is 1 at a terminal and otherwise 0, for `interval` it is the upper
        bound."""
        if self.kind in kinds.BOUNDED:
            return [upper for _, upper in self.bounds]
        own: List[int] = self._numbers.values.tolist()
        return own or [kinds.default_value(self.kind)] * len(self.nodes)

    @cached_property
    def bounds(self) -> List[Tuple[int, int]]:
        """The lower and upper degree bound of each node, for `interval`; empty for other kinds."""
        if self.kind not in kinds.BOUNDED:
            return []
        own: List[int] = self._numbers.values.tolist() or [*usual_of(self.kind)] * len(self.nodes)
        return list(zip(own[::2], own[1::2]))

    @property
    def edge_count(self) -> int:
        """The number of edges."""
        return len(self._numbers.first)

    @cached_property
    def text(self) -> bytes:
        """The instance as the program reads it: bytes in the format of docs/FORMAT.md."""
        first, second = self._numbers.first.tolist(), self._numbers.second.tolist()
        return text_of(len(self.nodes), first, second, self.weights, self.capacities,
                       self.bounds or self.values, self.kind)

    def number_of(self) -> Dict[Node, int]:
        """Return the program's number of each node, from 1.

        Returns
        -------
        dict
            A number for each node.
        """
        return {node: number for number, node in enumerate(self.nodes, 1)}

    def weight_of(self, index: int) -> Union[int, Fraction]:
        """Return the weight of an edge in your units, rounded if weights were rounded.

        Parameters
        ----------
        index : int
            The index of the edge, from 0.

        Returns
        -------
        int or Fraction
        """
        return plain(Fraction(self.weights[index]) / self.scale)

    def given_weight(self, index: int) -> Any:
        """Return the weight of an edge as it was given; a decimal number of a file as a float.

        Parameters
        ----------
        index : int
            The index of the edge, from 0.

        Returns
        -------
        number
        """
        given = self.table.weights[index]
        return float(given) if isinstance(given, Fraction) else given

    def given_weights(self, indices: List[int]) -> List[Any]:
        """Return the weights of some edges as they were given.

        Parameters
        ----------
        indices : list of int
            The indices of the edges, from 0.

        Returns
        -------
        list
            A weight for each index: see `given_weight`."""
        given = list(map(self.table.weights.__getitem__, indices))
        if set(map(type, given)) <= {int, float}:
            return given
        return list(map(self.given_weight, indices))

    @cached_property
    def is_rounded(self) -> bool:
        """Whether some weight was rounded."""
        if self.scale == 1 and set(map(type, self.table.weights)) <= {int}:
            return False
        return any(exact(given, "") * self.scale != own
                   for given, own in zip(self.table.weights, self.weights))

    @property
    def checksum(self) -> str:
        """The SHA-256 of `text`, in hexadecimal digits.

        It is equal for equal graphs whose nodes and edges have the same order."""
        return hashlib.sha256(self.text).hexdigest()

    def __eq__(self, other: object) -> bool:
        """Whether both are the same graph of the same kind, with the same names in order."""
        if not isinstance(other, Instance):
            return NotImplemented
        return ((self.kind, self.scale, self._backwards, self.nodes, self.edges, self.ends)
                == (other.kind, other.scale, other._backwards, other.nodes, other.edges, other.ends)
                and self.text == other.text)

    __hash__ = None  # type: ignore[assignment]

    def __repr__(self) -> str:
        return "<%s instance of %d nodes and %d edges>" % (self.kind, len(self.nodes),
                                                           self.edge_count)


def refuse_large(nodes: int, edges: int) -> None:
    """LimitExceeded: the graph has more nodes or edges than any kind takes."""
    if nodes > kinds.MOST_NODES or edges > kinds.MOST_EDGES:
        raise LimitExceeded("graph too large: %d nodes and %d edges; the limits are %d and %d"
                            % (nodes, edges, kinds.MOST_NODES, kinds.MOST_EDGES), nodes, edges)


def refuse_missing_ends(table: Table) -> None:
    """GraphError: an end of an edge is None, nan or pandas.NA."""
    if isinstance(table, ColumnTable) and is_of_numpy(table.numbering.first):
        return  # (integers)
    types = set(map(type, table.nodes))
    if types <= {int, str} or types <= {int, tuple} or not any(map(is_missing, table.nodes)):
        return
    index = next((index for index, pair in enumerate(table.ends) if any(map(is_missing, pair))), 0)
    raise GraphError("missing edge end in row %d: %r" % (index, table.ends[index:index + 1]))


def is_missing(node: Any) -> bool:
    """Whether it stands for no node: None, or what isn't equal to itself."""
    if node is None or str(node) == "<NA>":
        return True
    return not isinstance(node, (str, bytes, int, tuple)) and bool(node != node)


def numbered(table: Table, number_of: Mapping[Node, int], is_own: bool) -> Tuple[Any, Any]:
    """The numbers of the two ends of each edge. is_own: the nodes are those of a table of columns,
    in its order."""
    if is_own and isinstance(table, ColumnTable):
        return table.numbering.first, table.numbering.second
    first, second = (list(map(number_of.__getitem__, map(itemgetter(end), table.ends)))
                     for end in (0, 1))
    return first, second


def weights_of(table: Table, scale: Fraction, rounding: Optional[str]) -> Any:
    """The weights as integers: as an array of numpy if they came as one, are whole and within the
    limit, and aren't scaled. WeightError: see `weights`."""
    column = table.weight_column if isinstance(table, ColumnTable) and scale == 1 else None
    if is_number(column) and within(column, kinds.MOST_WEIGHT):
        rounded = column.astype("int64", copy=False)  # (the column is the table's own)
        if column.dtype.kind != "f" or (rounded == column).all():
            return rounded
    return all_whole(table.weights, scale, rounding, table.name)


def refuse_negative(kind: str, weights: Any, table: Table) -> None:
    """WeightError: a tour or a path of some parity is asked for, and an edge has negative
    weight."""
    if kind not in kinds.FROM_ZERO:
        return
    own = weights.tolist() if is_of_numpy(weights) else weights
    if min(own, default=0) < 0:
        least = own.index(min(own))
        raise WeightError("edge %r has negative weight %s: kind %r requires nonnegative weights"
                          % (table.names[least], shown(table.weights[least]), kind))


def asked_values(graph: Any, table: Table, kind: Kind, degrees: Degrees,
                 terminals: Optional[Iterable[Node]], source: Optional[Node],
                 target: Optional[Node]) -> Mapping[Any, int]:
    """What the caller says of nodes, as one mapping. GraphError: the kind doesn't ask for it, or
    asks for something else."""
    if terminals is not None and kind != "tjoin":
        raise GraphError("%s applies only to kind 'tjoin', got kind %r"
                         % (argument("terminals"), kind))
    if (source is not None or target is not None) and kind not in kinds.PATHS:
        raise GraphError("%s and %s apply only to kinds 'path', 'oddpath' and 'evenpath', got kind"
                         " %r%s" % (argument("source"), argument("target"), kind, start_of(kind)))
    if terminals is not None:
        return dict.fromkeys(nodes_in("terminals", terminals), 1)
    if source is not None or target is not None:
        return path_values(source, target)
    if degrees is not None and kind not in kinds.VALUED + kinds.ODD:
        raise GraphError("%s applies only to kinds %s, got kind %r"
                         % (argument("degrees"), ", ".join(map(repr, kinds.VALUED)), kind))
    given = named_values(graph, table, degrees, kind)
    if kind in kinds.PATHS and sum(is_natural(one) and one % 2 == 1 for one in given.values()) != 2:
        raise GraphError("kind %r needs %s and %s" % (kind, argument("source"),
                                                      argument("target")))
    if kind == "tjoin" and degrees is None and not table.values:
        raise GraphError("kind 'tjoin' needs %s: pass the nodes of odd degree, or none by %s"
                         % (argument("terminals"), word("terminals", no_terminals())))
    return given


def start_of(kind: Kind) -> str:
    """What names the start of a tour."""
    return "; pass %s for where a tour starts" % argument("start") if kind == "postman" else ""


def no_terminals() -> Any:
    """How a caller passes no terminals."""
    return "" if ON_COMMAND_LINE.get() else []


def path_values(source: Any, target: Any) -> Dict[Any, int]:
    """The values of the ends of a path. GraphError: one is missing, or both are one node.
    TypeError: one isn't a node."""
    for name, end in (("source", source), ("target", target)):
        if end is None:
            raise GraphError("missing %s: a path needs both ends" % argument(name))
        node_in(name, end)
    if source == target:
        raise GraphError("source and target must be two different nodes, got %r and %r"
                         % (source, target))
    return {source: 1, target: 1}


def named_values(graph: Any, table: Table, degrees: Degrees, kind: Kind) -> Mapping[Any, int]:
    """The values of nodes: those of a mapping, of an attribute, or of the table itself."""
    if isinstance(degrees, str):
        return attribute_of(graph, table, "degrees", degrees)
    own = table.values if kind in kinds.VALUED + kinds.ODD else {}
    return dict(own if degrees is None else
                mapping_of("degrees", degrees, " or the name of a node attribute"))


def all_values(nodes: Sequence[Node], given: Mapping[Any, int], number_of: Mapping[Node, int],
               kind: Kind) -> List[int]:
    """The value of each node, or none if all are the usual ones. GraphError: one that is given
    isn't in the graph, or see `value_of`."""
    if not given:
        return []
    absent = [node for node in given if node not in number_of]
    if absent:
        raise GraphError("node %r isn't in the graph" % (absent[0],))
    values = [kinds.default_value(kind)] * len(nodes)
    for node, value in given.items():
        values[number_of[node] - 1] = value_of(node, value)
    return values


def capacities_of(table: Table, kind: Kind, default: Optional[int]) -> List[Optional[int]]:
    """The capacity of each edge, if the kind asks for them. default: that of an edge without
    one."""
    if kind not in kinds.CAPPED:
        return []
    usual = default_of(default)
    own = (capacity_of(one, name) for one, name in zip(table.capacities, table.names))
    return [usual if one is None else one for one in own]


def capacity_of(capacity: Any, edge: Any) -> Optional[int]:
    """The capacity of an edge, or None if it has none (None, infinity, nan). One over 4,096 is as
    good as that, since no degree is greater. GraphError: it isn't a nonnegative integer."""
    if capacity is None or (isinstance(capacity, numbers.Real) and not math.isfinite(capacity)):
        return None
    if not is_natural(capacity):
        raise GraphError("capacity of edge %r must be a nonnegative integer, got %r"
                         % (edge, capacity))
    return min(int(capacity), kinds.MOST_VALUE)


def default_of(default: Any) -> Optional[int]:
    """The capacity of edges without one. GraphError: it isn't a nonnegative integer."""
    try:
        return capacity_of(default, None)
    except GraphError:
        raise GraphError("%s must be a nonnegative integer or None, got %r"
                         % (argument("default_capacity"), default)) from None


def text_of(nodes: int, first: List[int], second: List[int], weights: List[int],
            capacities: List[Optional[int]], values: Sequence[Any], kind: Kind) -> bytes:
    """The instance as the program reads it. values: of the nodes, or their bounds. One text is
    filled in for all edges at once, since that takes least time."""
    if capacities.count(None) == len(capacities):
        rows: Iterable[Tuple[Any, ...]] = zip(first, second, weights)
        form = "e %d %d %d\n" * len(first)
    else:
        rows = zip(first, second, weights, ["" if c is None else " %d" % c for c in capacities])
        form = "e %d %d %d%s\n" * len(first)
    lines = ["p edge %d %d\n" % (nodes, len(first)), form % tuple(chain.from_iterable(rows))]
    if kind in kinds.VALUED or kind in kinds.ODD:
        usual = kinds.default_value(kind)
        lines += ["n %d %d\n" % (number, value) for number, value in enumerate(values, 1)
                  if value != usual]
    if kind in kinds.BOUNDED:  # (of all nodes, so that a file of it is read as it was written)
        lines += ["n %d %d %d\n" % (number, *both) for number, both in enumerate(values, 1)]
    return "".join(lines).encode("ascii")
