"""Names for the vertices that duals and barriers refer to.

For `perfect`, `bottleneck` and `gallai` they are the nodes themselves. The other kinds are solved
as perfect matchings of a larger graph, the certificate graph, which docs/FORMAT.md describes. Its
vertices have names made of the caller's:

- `Copy(node, copy)`: one copy of a node, counted from 0. For `match` copy 0 is the node itself and
copy 1 its mirror; for `bmatch`, `capmatch` and `ffactor` a node has as many copies as its degree.
- `Subdivision(edge, unit, node)`: for `capmatch` and `ffactor` one of the two vertices that
subdivide a unit of an edge's use. `node` is the end of the edge that the vertex is next to, and
`unit` counts the units from 0.
- `Port(node, edge)`: for `tjoin`, `postman` and `path` the end of an edge at a node; `edge` is None
for the parity vertex that a node has if the number of its ports has the wrong parity.
- `Mirror(vertex, half)`: for `interval` a copy or a subdivision vertex in one of the two mirrored
halves; `vertex` is its name for `capmatch` with the upper bounds as degrees, `half` is 0 or 1.
- `Layer(node, layer)`: for `oddpath` and `evenpath` the vertex of a node in parity layer 0 or 1. A
path takes edges of layer 0 and of layer 1 alternately. In layer 1 an odd path's ends have no
vertex; an even path's target has none in layer 0, and its source none in layer 1.

Both ends of a loop are one node, so subdivision vertices and ports have a last field, `end`: it is
1 for a loop's second end, `Subdivision(edge, unit, node, 1)` and `Port(node, edge, 1)`, and 0
otherwise. Matchings (`perfect`, `match`, `bottleneck`, `gallai`) and paths of a given parity never
use a loop, and their graphs have no edge for it."""
from __future__ import annotations

from typing import Any, Callable, Dict, Hashable, List, NamedTuple, Tuple

from .deprecated import old_property
from .instances import Instance
from .kinds import Kind


class Copy(NamedTuple):
    """One copy of a node.

    Attributes
    ----------
    node : node
        The node.
    copy : int
        The number of the copy, from 0; for `match` 1 is the mirror.
    """

    node: Hashable
    copy: int


class Subdivision(NamedTuple):
    """One of the two vertices that subdivide a unit of an edge's use.

    Attributes
    ----------
    edge : tuple
        The name of the edge.
    unit : int
        The number of the unit, from 0.
    node : node
        The end that the vertex is next to.
    end : int
        1 at the second end of a loop, otherwise 0.
    """

    edge: Any
    unit: int
    node: Hashable
    end: int = 0


class Port(NamedTuple):
    """The end of an edge at a node, or the node's parity vertex.

    Attributes
    ----------
    node : node
        The node.
    edge : tuple or None
        The name of the edge; None for the parity vertex.
    end : int
        1 at the second end of a loop, otherwise 0.
    """

    node: Hashable
    edge: Any
    end: int = 0


class Mirror(NamedTuple):
    """A copy or a subdivision vertex in one of the two mirrored halves.

    Attributes
    ----------
    vertex : Copy or Subdivision
        Its name for `capmatch`.
    half : int
        0 or 1.
    """

    vertex: Any
    half: int


class Layer(NamedTuple):
    """The vertex of a node in one of the two parity layers.

    Attributes
    ----------
    node : node
        The node.
    layer : int
        0 or 1.
    """

    node: Hashable
    layer: int


# (The names of release 1.0.0; a named tuple takes no such attributes in its class.)
setattr(Subdivision, "gate", old_property("gate", "unit"))
setattr(Subdivision, "side", old_property("side", "node"))


def node_of(name: Any) -> Hashable:
    """The node that a vertex belongs to."""
    if isinstance(name, Mirror):
        return node_of(name.vertex)
    is_made = isinstance(name, (Copy, Subdivision, Port, Layer))
    found: Hashable = name.node if is_made else name
    return found


def is_subdivision(name: Any) -> bool:
    """Whether the name is that of a subdivision vertex, in whichever half."""
    return isinstance(name.vertex if isinstance(name, Mirror) else name, Subdivision)


def copies(of: Instance) -> List[Any]:
    """The copies of each node."""
    return [Copy(node, copy) for node, value in zip(of.nodes, of.values) for copy in range(value)]


def units_of(of: Instance) -> List[int]:
    """How many units of use each edge has, for `capmatch`, `ffactor` and each half of `interval`:
    as often as it can be used, but a loop at most half as often as the degree of its node."""
    value_at = dict(zip(of.nodes, of.values))
    most = [1 if of.kind == "ffactor" else capacity for capacity in of.capacities]
    return [min(value_at[u], value_at[v], *([] if one is None else [one]))
            for (u, v), one in zip(of.ends, most)]


def subdivisions(of: Instance) -> List[Any]:
    """The subdivision vertices of each edge: first those next to its first end."""
    return [Subdivision(edge, unit, node, end)
            for edge, ends, units in zip(of.edges, of.ends, units_of(of))
            for node, end in zip(ends, (0, second_end(ends))) for unit in range(units)]


def second_end(ends: Tuple[Hashable, Hashable]) -> int:
    """The `end` of the second end of an edge: 1 if the edge is a loop."""
    return int(ends[0] == ends[1])


def ports(of: Instance) -> List[Any]:
    """The ports of each node in the order of the edges, and its parity vertex. A loop has two at
    its node. A tour needs no parity vertices."""
    at: Dict[Hashable, List[Any]] = {node: [] for node in of.nodes}
    for edge, ends in zip(of.edges, of.ends):
        at[ends[0]].append(Port(ends[0], edge))
        at[ends[1]].append(Port(ends[1], edge, second_end(ends)))
    names: List[Any] = []
    for node, value in zip(of.nodes, of.values):
        odd = of.kind != "postman" and (len(at[node]) + value) % 2 == 1
        names += at[node] + ([Port(node, None)] if odd else [])
    return names


def nodes(of: Instance) -> List[Any]:
    """The nodes themselves."""
    return list(of.nodes)


def nodes_and_mirrors(of: Instance) -> List[Any]:
    """The nodes, and then their mirrors."""
    return [Copy(node, copy) for copy in (0, 1) for node in of.nodes]


def copies_and_subdivisions(of: Instance) -> List[Any]:
    """The copies of each node, and then the subdivision vertices of each edge."""
    return copies(of) + subdivisions(of)


def mirrored(of: Instance) -> List[Any]:
    """The copies and subdivision vertices of one half, and then those of the other."""
    return [Mirror(name, half) for half in (0, 1) for name in copies_and_subdivisions(of)]


def layers(of: Instance) -> List[Any]:
    """The vertices of layer 0, and then those of layer 1."""
    first, second = (node for node, value in zip(of.nodes, of.values) if value % 2)
    absent = {Layer(first, 1), Layer(second, 1 if of.kind == "oddpath" else 0)}
    return [name for layer in (0, 1) for name in (Layer(node, layer) for node in of.nodes)
            if name not in absent]


#: The vertices of each kind's graph.
NAMES: Dict[Kind, Callable[[Instance], List[Any]]] = {
    "perfect": nodes, "match": nodes_and_mirrors, "bmatch": copies,
    "capmatch": copies_and_subdivisions, "ffactor": copies_and_subdivisions, "tjoin": ports,
    "postman": ports, "path": ports, "interval": mirrored, "oddpath": layers, "evenpath": layers,
    "bottleneck": nodes, "gallai": nodes}


def vertex_names(of: Instance) -> List[Any]:
    """The names of the vertices of the certificate graph; that of vertex i + 1 is at index i."""
    return NAMES[of.kind](of)
