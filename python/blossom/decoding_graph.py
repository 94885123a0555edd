"""What a `Decoder` solves for a syndrome: a join in the graph of its detectors, with the boundary
as a few more nodes.

The ends of all edges at the boundary are one node, which is met as often as need be. One node of
many edges would make the certificate graph large (it joins all pairs of the edges at a node), so
the boundary is a row of nodes with some edges each, joined by edges of weight 0, along which any
two of them are met together for nothing. """
from __future__ import annotations

from dataclasses import dataclass
from typing import AbstractSet, Collection, Dict, List, Sequence, Set, Tuple

#: How many of the decoder's edges each node of the boundary has.
EDGES_A_NODE = 16


@dataclass
class DecodingGraph:
    """The graph of joins. Nodes up to `detectors` are those that were given, the others stand for
    the boundary.

    ends: two nodes for each edge. origins: the given edge that each edge is, or -1. apart: the
    nodes that aren't connected with the boundary. first: the first node of the boundary, or -1."""

    nodes: int
    ends: List[Tuple[int, int]]
    origins: List[int]
    apart: Set[int]
    first: int = -1

    def terminals(self, fired: AbstractSet[int]) -> Collection[int]:
        """The nodes that a join for these detectors meets an odd number of times. The boundary
        takes part in pairs that have only one detector on its side."""
        if self.first < 0:
            return fired
        near = len(fired) - len(fired & self.apart)
        return [*fired, self.first] if near % 2 else fired


def decoding_graph(nodes: int, ends: Sequence[Tuple[int, int]]) -> DecodingGraph:
    """The graph of joins for edges with these ends, of which -1 is the boundary. No edge has one
    end twice."""
    graph = DecodingGraph(nodes, [], [], set())
    at_boundary = 0
    for edge, pair in enumerate(ends):
        inner = [node for node in pair if node != -1]
        if len(inner) == 1:
            if at_boundary % EDGES_A_NODE == 0:
                add_boundary_node(graph)
            at_boundary += 1
            inner.append(graph.nodes - 1)
        graph.ends.append((inner[0], inner[1]))
        graph.origins.append(edge)
    number = components(graph.nodes, graph.ends)
    graph.apart = {node for node in range(graph.nodes)
                   if graph.first < 0 or number[node] != number[graph.first]}
    return graph


def add_boundary_node(graph: DecodingGraph) -> None:
    """One more node of the boundary, joined to the last one."""
    if graph.first < 0:
        graph.first = graph.nodes
    else:
        graph.ends.append((graph.nodes - 1, graph.nodes))
        graph.origins.append(-1)
    graph.nodes += 1


def components(nodes: int, ends: Sequence[Tuple[int, int]]) -> List[int]:
    """The number of each node's component, by the edges that don't end at the boundary, which is
    -1."""
    neighbours: Dict[int, List[int]] = {}
    for first, second in ends:
        if first >= 0 and second >= 0:
            neighbours.setdefault(first, []).append(second)
            neighbours.setdefault(second, []).append(first)
    number = [-1] * nodes
    for start in range(nodes):
        if number[start] < 0:
            spread(neighbours, number, start)
    return number


def spread(neighbours: Dict[int, List[int]], number: List[int], start: int) -> None:
    """Gives the nodes of a component the number of its first node."""
    number[start], left = start, [start]
    while left:
        new = [node for node in neighbours.get(left.pop(), []) if number[node] < 0]
        for node in new:
            number[node] = start
        left += new
