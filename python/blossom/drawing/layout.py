"""Where nodes are drawn when nobody says: so that distances in the plane are like distances in the
graph."""
from __future__ import annotations

from collections.abc import Mapping as MappingType
from math import atan2, cos, hypot, isfinite, nan, pi, sin
from typing import Any, Dict, Hashable, List, Mapping, Optional, Sequence, Tuple

from ..errors import GraphError
from ..instances import Instance
from .geometry import Point

#: About how many pairs of nodes are looked at; more nodes get fewer rounds.
PAIRS = 3_000_000
ROUNDS = 300
#: In graphs of more nodes each looks at its neighbours and at so many others alone.
ALL_LOOKED_AT = 150
PIVOTS = 24


class MissingPosition(GraphError, KeyError):
    """A node has no position."""

    def __str__(self) -> str:
        return str(self.args[0])


def given_positions(instance: Instance) -> Optional[Dict[Hashable, Point]]:
    """The positions that a graph has: those of a file's table; of a networkx graph an attribute
    `pos` of every node, or `x` and `y`."""
    graph = instance.graph
    for own in (instance.table.positions, getattr(graph, "positions", None)):
        if own and all(node in own for node in instance.nodes):
            return dict(own)
    if not hasattr(graph, "is_directed"):
        return None
    found: Dict[Hashable, Any] = {}
    for node, attributes in graph.nodes(data=True):
        if "pos" in attributes:
            found[node] = tuple(attributes["pos"])
        elif "x" in attributes and "y" in attributes:
            found[node] = (attributes["x"], attributes["y"])
    return found if len(found) == len(instance.nodes) else None


def positions_of(instance: Instance, positions: Optional[Mapping[Any, Point]]) -> List[Point]:
    """The position of each node, in order: those that are passed, those that the graph has, or a
    layout. MissingPosition: a node has none in those that are passed."""
    known = positions if positions is not None else given_positions(instance)
    if positions is not None and not isinstance(positions, MappingType):
        raise TypeError("positions= must be a mapping from nodes to (x, y), got %s"
                        % type(positions).__name__)
    if known is None:
        number_of = instance.number_of()
        edges = [(number_of[u] - 1, number_of[v] - 1) for u, v in instance.ends]
        return layout(len(instance.nodes), edges)
    missing = [node for node in instance.nodes if node not in known]
    if missing:
        raise MissingPosition("positions= lacks %d node%s, the first is %r"
                              % (len(missing), "s" if len(missing) > 1 else "", missing[0]))
    return [place_in(node, known[node]) for node in instance.nodes]


def place_in(node: Hashable, position: Any) -> Point:
    """A position as two numbers. GraphError: it isn't a pair of finite numbers."""
    try:
        x, y = position
        place = (float(x), float(y))
    except (TypeError, ValueError):
        place = (nan, nan)
    if not (isfinite(place[0]) and isfinite(place[1])):
        raise GraphError("position of node %r must be a pair of numbers, got %r" % (node, position))
    return place


def neighbours_of(nodes: int, edges: Sequence[Tuple[int, int]]) -> List[List[int]]:
    """The neighbours of each node."""
    neighbours: List[List[int]] = [[] for _ in range(nodes)]
    for first, second in edges:
        neighbours[first].append(second)
        neighbours[second].append(first)
    return neighbours


def hops(neighbours: List[List[int]], start: int) -> List[int]:
    """The number of edges on a shortest way from the start to each node; for nodes out of reach
    some more than the longest."""
    distance, front = {start: 0}, [start]
    while front:
        reached = [(there, distance[here] + 1) for here in front for there in neighbours[here]
                   if there not in distance]
        distance.update(reached)
        front = list(dict(reached))
    far = max(distance.values()) + 2
    return [distance.get(node, far) for node in range(len(neighbours))]


def layout(nodes: int, edges: List[Tuple[int, int]]) -> List[Point]:
    """Positions by majorization of the stress: each node goes to where its distances to the others
    are wrong by least, round by round, from a circle on. In a large graph it looks at its
    neighbours and at some nodes far from each other, and starts where those say."""
    circle = [(cos(2 * pi * node / max(nodes, 1)), sin(2 * pi * node / max(nodes, 1)))
              for node in range(nodes)]
    if nodes < 3 or not edges:
        return circle
    neighbours = neighbours_of(nodes, edges)
    if nodes > ALL_LOOKED_AT:
        return lying(large_layout(neighbours))
    looks = [[(other, float(hop)) for other, hop in enumerate(hops(neighbours, node))
              if other != node] for node in range(nodes)]
    return lying(rounds(circle, looks))


def rounds(points: List[Point], looks: List[List[Tuple[int, float]]]) -> List[Point]:
    """The points after each has gone often enough to where its wanted distances say."""
    points, pairs = list(points), sum(map(len, looks)) + 1
    for _ in range(min(ROUNDS, PAIRS // pairs + 1)):
        for node, look in enumerate(looks):
            if look:
                points[node] = settled(node, points, look)
    return points


def large_layout(neighbours: List[List[int]]) -> List[Point]:
    """The layout of a large graph: its distances to the pivots, seen from where they differ most,
    and then rounds of looks at neighbours and pivots."""
    pivots, distances = far_apart(neighbours)
    start = seen_from_two_sides(distances)
    looks = [[(other, 1.0) for other in near if other != node]
             + [(pivot, float(row[node])) for pivot, row in zip(pivots, distances)
                if pivot != node and row[node] > 1]
             for node, near in enumerate(neighbours)]
    return rounds(start, looks)


def far_apart(neighbours: List[List[int]]) -> Tuple[List[int], List[List[int]]]:
    """Nodes that are far from each other, and the distances of all nodes to each of them."""
    pivots = [max(range(len(neighbours)), key=lambda node: len(neighbours[node]))]
    distances = [hops(neighbours, pivots[0])]
    nearest = list(distances[0])
    while len(pivots) < min(PIVOTS, len(neighbours)):
        pivots.append(max(range(len(nearest)), key=nearest.__getitem__))
        distances.append(hops(neighbours, pivots[-1]))
        nearest = [min(pair) for pair in zip(nearest, distances[-1])]
    return pivots, distances


def seen_from_two_sides(distances: List[List[int]]) -> List[Point]:
    """The two directions in which nodes differ most by their distances to the pivots."""
    centred = []
    for row in distances:
        mean = sum(row) / len(row)
        centred.append([one - mean for one in row])
    first = direction(centred, None)
    second = direction(centred, first)
    return list(zip(along(centred, first), along(centred, second)))


def along(rows: List[List[float]], weights: List[float]) -> List[float]:
    """How far each node is in this direction."""
    return [sum(weight * one for weight, one in zip(weights, column)) for column in zip(*rows)]


def direction(rows: List[List[float]], other: Optional[List[float]]) -> List[float]:
    """The direction in which columns differ most, square to the other one, by powers."""
    found = [1.0 + 0.1 * place for place in range(len(rows))]
    for _ in range(60):
        if other is not None:
            part = sum(one * two for one, two in zip(found, other))
            found = [one - part * two for one, two in zip(found, other)]
        far = along(rows, found)
        found = [sum(one * two for one, two in zip(row, far)) for row in rows]
        length = hypot(*found) or 1.0
        found = [one / length for one in found]
    return found


def lying(points: List[Point]) -> List[Point]:
    """The points turned so that they spread across more than up: sheets are wider than high."""
    middle = sum(x for x, _ in points) / len(points), sum(y for _, y in points) / len(points)
    moved = [(x - middle[0], y - middle[1]) for x, y in points]
    spread = sum(x * x - y * y for x, y in moved)
    slant = atan2(2 * sum(x * y for x, y in moved), spread) / 2
    return [(x * cos(slant) + y * sin(slant), y * cos(slant) - x * sin(slant)) for x, y in moved]


def settled(node: int, points: List[Point], look: List[Tuple[int, float]]) -> Point:
    """Where a node goes, by its wanted distances to others."""
    x, y = points[node]
    across = up = whole = 0.0
    for other, wanted in look:
        other_x, other_y = points[other]
        weight = 1 / (wanted * wanted)
        stretch = wanted / (hypot(x - other_x, y - other_y) or 1e-9)
        across += weight * (other_x + stretch * (x - other_x))
        up += weight * (other_y + stretch * (y - other_y))
        whole += weight
    return across / whole, up / whole
