"""A graph as one table: its nodes, and a row for each edge."""
from __future__ import annotations

from dataclasses import dataclass, field
from operator import itemgetter
from typing import Any, Dict, Hashable, Iterable, List, Optional, Sequence, Tuple

Node = Hashable
#: The name of an edge: `(u, v)`, or `(u, v, key)`.
EdgeName = Tuple[Any, ...]


@dataclass(repr=False)
class Table:
    """A graph as columns: each list about edges has one entry for each edge.

    Attributes
    ----------
    nodes : list
        Each node once.
    ends : list of pairs
        The two ends of each edge.
    names : list of tuples
        The name of each edge, all different: (u, v), or (u, v, key) in a graph with parallel edges.
    weights : list
        Numbers of any type.
    capacities : list
        How often an edge is used at most; None for an edge without a capacity.
    values : dict
        Degrees of those nodes that have one.
    lower, upper : dict
        Degree bounds of those nodes that have them, for `interval`.
    columns : dict
        The other columns of the edges, by name.
    weight_name, capacity_name : str or None
        The names of the columns of the weights and of the capacities; None without such a column.
    positions : dict
        The positions (x, y) of those nodes that have one.
    """

    nodes: List[Node]
    ends: List[Tuple[Node, Node]]
    names: List[EdgeName]
    weights: List[Any]
    capacities: List[Any]
    values: Dict[Node, Any] = field(default_factory=dict)
    columns: Dict[str, List[Any]] = field(default_factory=dict)
    weight_name: Optional[str] = None
    capacity_name: Optional[str] = None
    lower: Dict[Node, Any] = field(default_factory=dict)
    upper: Dict[Node, Any] = field(default_factory=dict)
    positions: Dict[Node, Tuple[float, float]] = field(default_factory=dict)

    @property
    def edge_count(self) -> int:
        """The number of edges."""
        return len(self.ends)

    def name(self, place: int) -> EdgeName:
        """Return the name of an edge.

        Parameters
        ----------
        place : int
            The index of the edge, from 0.

        Returns
        -------
        tuple
        """
        return self.names[place]

    def names_of(self, places: List[int]) -> List[EdgeName]:
        """Return the names of edges.

        Parameters
        ----------
        places : list of int
            The indices of the edges, from 0.

        Returns
        -------
        list of tuples
        """
        return list(map(self.names.__getitem__, places))

    def __repr__(self) -> str:
        return "<table of %d nodes and %d edges>" % (len(self.nodes), self.edge_count)


class Alike:
    """A column that has the same entry for each edge.

    entry: that. count: how many edges there are."""

    def __init__(self, entry: Any, count: int) -> None:
        self.entry, self.count = entry, count

    def __len__(self) -> int:
        return self.count

    def tolist(self) -> List[Any]:
        """The column as a list."""
        return [self.entry] * self.count

    def copy(self) -> Alike:
        """Itself, since nobody changes it."""
        return self


def each_once(nodes: Iterable[Any]) -> List[Node]:
    """The nodes, each once, in their order. TypeError: one can't be hashed."""
    given = list(nodes)
    try:
        return list(dict.fromkeys(given))
    except TypeError:
        raise TypeError("nodes must be hashable, got %r" % (unhashable(given),)) from None


def unhashable(nodes: Iterable[Any]) -> Any:
    """The first of these that can't be hashed."""
    for node in nodes:
        try:
            hash(node)
        except TypeError:
            return node
    return None


def named(ends: Sequence[Tuple[Node, Node]]) -> List[EdgeName]:
    """Names for edges that come without: `(u, v)`, but where some pair is joined more than once all
    are `(u, v, key)`, with the number of earlier edges of the pair as the key, as networkx counts
    them."""
    pairs = set(ends)
    turned = zip(map(itemgetter(1), ends), map(itemgetter(0), ends))
    if len(pairs) == len(ends) and pairs.isdisjoint(turned):
        return list(ends)
    seen: Dict[Tuple[Node, Node], int] = {}
    names: List[EdgeName] = []
    for u, v in ends:
        both = (v, u) if (v, u) in seen else (u, v)
        key = seen.get(both, 0)
        seen[both] = key + 1
        names.append((u, v, key))
    return names if len(seen) < len(ends) else list(ends)


def plain_list(column: Any) -> List[Any]:
    """A column as a list of Python's own values. Entries that numpy masks are None."""
    if isinstance(column, list):
        return column
    kind = getattr(getattr(column, "dtype", None), "kind", "")
    if kind == "f" and column.dtype.itemsize < 8 and len(column.shape) == 1:
        # (as they print: 0.1 and not 0.10000000149)
        return [None if hasattr(one, "mask") else float(str(one)) for one in column]
    values: List[Any] = (column.tolist() if hasattr(column, "tolist") and kind not in ("M", "m")
                         else list(column))
    return values
