"""Which edges a tour has to use, as a caller names them."""
from __future__ import annotations

from typing import Any, Dict, Iterable, List, Set, Union

from .errors import GraphError
from .instances import Instance
from .obstructions import first_of, reached
from .tables import EdgeName, unhashable
from .wording import argument

#: The names of edges, or that of a column or attribute that is true of them.
Required = Union[str, Iterable[EdgeName], None]
#: Texts of a column that say no.
NO = ("", "0", "no", "false", "none")


def required_indices(of: Instance, required: Any) -> List[int]:
    """The indices of the edges that are required, in their order. GraphError: one isn't in the
    graph, or they aren't connected. TypeError: they are no names of edges."""
    if isinstance(required, str):
        found = those_of_column(of, required)
    elif hasattr(required, "__iter__"):
        found = those_named(of, required)
    else:
        raise TypeError("%s must be an iterable of edges, or the name of a column, got %r"
                        % (argument("required"), required))
    refuse_parts(of, found)
    return found


def those_of_column(of: Instance, name: str) -> List[int]:
    """The indices of the edges of which a column is true. GraphError: there is no such column."""
    if name not in of.columns:
        raise GraphError("no edge has %r, which %s names" % (name, argument("required")))
    return [index for index, entry in enumerate(of.columns[name]) if is_true(entry)]


def is_true(entry: Any) -> bool:
    """Whether an entry of a column says yes."""
    if isinstance(entry, str):
        return entry.strip().lower() not in NO
    return entry is not None and str(entry) not in ("nan", "<NA>") and bool(entry)


def those_named(of: Instance, required: Iterable[Any]) -> List[int]:
    """The indices of the edges of these names. GraphError: one isn't in the graph, or could be one
    of several."""
    index_of: Dict[Any, List[int]] = {}
    for index, name in enumerate(of.edges):
        for way in {name, (name[1], name[0], *name[2:])}:
            index_of.setdefault(way, []).append(index)
            if len(name) > 2:
                index_of.setdefault(way[:2], []).append(index)
    found: Set[int] = set()
    for name in required:
        way = tuple(name) if isinstance(name, list) else name
        places = index_of.get(way, []) if unhashable([way]) is None else []
        if not places:
            raise GraphError("%s has %r, which isn't an edge of the graph"
                             % (argument("required"), name))
        if len(set(places)) > 1:
            raise GraphError("%s has %r, and the graph has %d such edges: name one with its key,"
                             " such as %r" % (argument("required"), name, len(set(places)),
                                              of.edges[places[0]]))
        found.add(places[0])
    return sorted(found)


def refuse_parts(of: Instance, required: List[int]) -> None:
    """GraphError: the required edges aren't connected."""
    near: Dict[Any, Set[Any]] = {}
    for u, v in (of.ends[index] for index in required):
        near.setdefault(u, set()).add(v)
        near.setdefault(v, set()).add(u)
    left, parts = dict.fromkeys(node for node in of.nodes if node in near), []
    while left:
        part = reached(next(iter(left)), near)
        parts.append([node for node in left if node in part])
        left = dict.fromkeys(node for node in left if node not in part)
    if len(parts) > 1:
        raise GraphError("the required edges are in %d parts: %s; add edges to %s that join them,"
                         " since a tour is exact only then"
                         % (len(parts), "; ".join(map(part_told, parts[:3])),
                            argument("required")))


def part_told(part: List[Any]) -> str:
    """A part, in words."""
    return "one of %d nodes (%s)" % (len(part), first_of(part))
