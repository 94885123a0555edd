"""What a `Decoder` makes once of its graph for all syndromes, and what it solves for one.

The whole graph is one part if its joins are within the limits. Otherwise each of its components is
a part: no error joins two of them, except through the boundary, of which each part has its own."""
from __future__ import annotations

import dataclasses
from array import array
from dataclasses import dataclass
from fractions import Fraction
from functools import cached_property
from itertools import chain
from typing import (TYPE_CHECKING, AbstractSet, Callable, Dict, FrozenSet, Iterable, List, Optional,
                    Sequence, Set, Tuple)

from .buffers import Numbers
from .certificates import Number
from .decoding_graph import DecodingGraph, components, decoding_graph
from .errors import LimitExceeded
from .instances import Instance
from .kinds import MOST_EDGES, MOST_NODES, MOST_PAIRS, MOST_VERTICES, Kind
from .limits import too_large
from .prepared import PreparedCalls
from .running import Runner, _prepared, chosen
from .weights import Scale, plain, scale_of, whole

if TYPE_CHECKING:
    from .decoder import DecoderEdge

Ends = Tuple[int, int]


@dataclass
class Part:
    """A part of the graph that is solved by itself.

    nodes: the decoder's nodes in it, in the order of the part's own. graph: that of its joins.
    base: its instance without terminals. errors: for each edge of the graph the decoder's edge that
    it is, or -1. calls: of the library, if it is what runs the program. restless: whether some
    errors have negative weights, so that they may be used though no detector fired."""

    nodes: List[int]
    graph: DecodingGraph
    base: Instance
    errors: List[int]
    calls: Optional[PreparedCalls]
    restless: bool

    def used(self, places: Iterable[int]) -> List[int]:
        """The decoder's edges among the edges of the graph at these places."""
        return [error for error in map(self.errors.__getitem__, places) if error >= 0]

    def shot(self, fired: AbstractSet[int]) -> Shot:
        """What is solved if these nodes of the part fired."""
        return Shot(self, sorted(node + 1 for node in self.graph.terminals(fired)))


@dataclass
class Plan:
    """What is made once for all syndromes.

    parts: see there. weights: of the decoder's edges, as integers. flips: the observables that each
    of them flips. always: the weight of the errors that are always used, what they flip, and which
    they are. detectors: the nodes that aren't the boundary's. lengths: those that a syndrome can
    have. scale: by which weights were multiplied."""

    parts: List[Part]
    weights: List[int]
    flips: List[Tuple[int, ...]]
    always: Tuple[int, List[int], List[int]]
    detectors: FrozenSet[int]
    lengths: Tuple[int, int]
    scale: Fraction
    maker: Maker

    @cached_property
    def whole(self) -> Part:
        """All of the graph as one part.

        Raises
        ------
        LimitExceeded
            If it is too large for that.
        """
        return self.parts[0] if len(self.parts) == 1 else self.maker.part(self.maker.all_nodes())

    @cached_property
    def place(self) -> Dict[int, Tuple[int, int]]:
        """For each detector the number of its part, and which node of it the detector is."""
        return {node: (number, rank) for number, part in enumerate(self.parts)
                for rank, node in enumerate(part.nodes)}

    @cached_property
    def restless(self) -> List[int]:
        """The numbers of the parts that are solved for each syndrome."""
        return [number for number, part in enumerate(self.parts) if part.restless]

    def split(self, fired: AbstractSet[int]) -> List[Tuple[int, AbstractSet[int]]]:
        """The numbers of the parts to solve if these detectors fired, each with the nodes of it
        that did."""
        if len(self.parts) == 1:
            return [(0, fired)]
        own: Dict[int, Set[int]] = {number: set() for number in self.restless}
        for detector in fired:
            number, rank = self.place[detector]
            own.setdefault(number, set()).add(rank)
        return sorted(own.items())

    def used(self, errors: Sequence[int]) -> List[int]:
        """The decoder's edges that are used, in their order: these, and those that always are."""
        return sorted([*errors, *self.always[2]])

    def flipped(self, errors: Sequence[int], observables: int) -> bytearray:
        """Whether these errors flip each of so many observables: bytes of 0 and 1."""
        flips = filter(None, map(self.flips.__getitem__, errors))  # (most flip none)
        flipped = bytearray(observables)
        for fault in chain(self.always[1], chain.from_iterable(flips)):
            flipped[fault] ^= 1
        return flipped

    def weight(self, errors: Sequence[int]) -> Number:
        """What these errors weigh, in the units that were given."""
        weight = sum(map(self.weights.__getitem__, errors), self.always[0])
        return weight if self.scale == 1 else plain(weight / self.scale)

    @cached_property
    def flip_columns(self) -> List[array[int]]:
        """For each of the decoder's edges its first observable, its second, and so on: as many
        columns as one edge has observables. -1: it has fewer."""
        return [array("q", [(*flips, -1)[min(turn, len(flips))] for flips in self.flips])
                for turn in range(max(map(len, self.flips), default=0))]

    def refuse_too_large(self) -> None:
        """Refuses a plan of which a part is too large for every syndrome.

        Raises
        ------
        LimitExceeded
            If there is one; the message names the limit.
        """
        told = next(filter(None, (too_large(part.base) for part in self.parts)), "")
        if told:
            raise LimitExceeded(told, sum(len(part.nodes) for part in self.parts),
                                len(self.weights))


@dataclass(frozen=True)
class Shot:
    """What is solved for one syndrome: the joins of these terminals, which are numbers from 1."""

    part: Part
    terminals: List[int]
    kind: Kind = "tjoin"

    @property
    def text(self) -> bytes:
        """What the program reads."""
        lines = "".join(map("n %d 1\n".__mod__, self.terminals))
        return self.part.base.text + lines.encode("ascii")

    @property
    def _numbers(self) -> Numbers:
        """The same as numbers."""
        values = array("I", bytes(array("I").itemsize * self.part.graph.nodes))
        for terminal in self.terminals:
            values[terminal - 1] = 1
        return self.part.base._numbers._replace(values=values)


@dataclass
class Maker:
    """Makes the parts of a decoder's graph.

    nodes: how many the decoder has. ends, weights: of its edges, the boundary as -1, and no edge
    twice at one node. edges: those that are in the graph."""

    nodes: int
    ends: List[Ends]
    weights: List[int]
    edges: List[int]
    scale: Fraction
    by: Runner
    timeout: Optional[float]

    def all_nodes(self) -> List[int]:
        """The decoder's nodes."""
        return list(range(self.nodes))

    def part(self, nodes: List[int], edges: Optional[List[int]] = None) -> Part:
        """The part of these nodes, with these edges; all without them."""
        own = self.edges if edges is None else edges
        rank = {node: number for number, node in enumerate(nodes)}
        rank[-1] = -1
        ends = [(rank[self.ends[edge][0]], rank[self.ends[edge][1]]) for edge in own]
        graph = decoding_graph(len(nodes), ends)
        if len(graph.ends) > MOST_EDGES:
            raise LimitExceeded("too many edges in the decoder: %d; the limit is %d"
                                % (len(own), MOST_EDGES), len(nodes), len(own))
        errors = [own[origin] if origin >= 0 else -1 for origin in graph.origins]
        weights = [self.weights[error] if error >= 0 else 0 for error in errors]
        names = [*nodes, *range(self.nodes, self.nodes + graph.nodes - len(nodes))]
        base = Instance.from_graph([(names[u], names[v], weight) for (u, v), weight
                                    in zip(graph.ends, weights)], "tjoin", nodes=names,
                                   terminals=())
        base = dataclasses.replace(base, scale=self.scale)
        by = chosen(self.by, len(graph.ends), self.timeout)
        calls = _prepared(by, base._numbers, self.timeout)
        return Part(nodes, graph, base, errors, calls, min(weights, default=0) < 0)

    def parts(self) -> List[Part]:
        """All nodes as one part, or the components if that part may be too large."""
        found = components(self.nodes, [self.ends[edge] for edge in self.edges])
        if len(set(found)) <= 1 or self.fits():
            return [self.part(self.all_nodes())]
        nodes: Dict[int, List[int]] = {}
        for node, number in enumerate(found):
            nodes.setdefault(number, []).append(node)
        edges: Dict[int, List[int]] = {number: [] for number in nodes}
        for edge in self.edges:
            edges[found[max(self.ends[edge])]].append(edge)
        return [self.part(own, edges[number]) for number, own in nodes.items()]

    def fits(self) -> bool:
        """Whether all nodes as one part are within the limits, whatever the syndrome is."""
        graph = decoding_graph(self.nodes, [self.ends[edge] for edge in self.edges])
        degree = [1] * graph.nodes  # (of which one is a parity vertex)
        for u, v in graph.ends:
            degree[u] += 1
            degree[v] += 1
        pairs = sum(one * (one - 1) // 2 for one in degree) + len(graph.ends)
        return (graph.nodes <= MOST_NODES and len(graph.ends) <= MOST_EDGES
                and sum(degree) <= MOST_VERTICES and pairs <= MOST_PAIRS)


def names_of(edges: Sequence[DecoderEdge]) -> Callable[[int], Tuple[int, int]]:
    """What messages call the edge at an index."""
    return lambda place: (edges[place].node1, edges[place].node2)


def plan_of(nodes: int, edges: Sequence[DecoderEdge], boundary: Set[int], scale: Scale,
            rounding: Optional[str], by: Runner, timeout: Optional[float]) -> Plan:
    """The plan of a decoder's edges.

    Raises
    ------
    WeightError
        If a weight isn't an integer, and neither `scale` nor `rounding` says what to do.
    LimitExceeded
        If there are too many nodes or edges.
    """
    given, name = [edge.weight for edge in edges], names_of(edges)
    number = scale_of(scale, given, name)
    near = "nearest" if isinstance(scale, str) and scale == "finest" else rounding
    weights = [whole(one, number, near, name(place), given, "Decoder(.., %s)")
               for place, one in enumerate(given)]
    ends = [ends_of(edge, boundary) for edge in edges]
    in_graph = [place for place, (one, other) in enumerate(ends) if one != other]
    always = [place for place, (one, other) in enumerate(ends)
              if one == other and weights[place] < 0]
    flips = [tuple(edge.fault_ids) for edge in edges]
    maker = Maker(nodes, ends, weights, in_graph, number, by, timeout)
    detectors = frozenset(range(nodes)).difference(boundary)
    return Plan(maker.parts(), weights, flips,
                (sum(weights[place] for place in always),
                 [fault for place in always for fault in flips[place]], always),
                detectors, (nodes, 1 + max(detectors, default=-1)), number, maker)


def ends_of(edge: DecoderEdge, boundary: Set[int]) -> Ends:
    """The ends of an error, the boundary as -1. An error that flips no detector has one end
    twice."""
    if edge.node1 == edge.node2:
        return edge.node1, edge.node1
    one, other = (-1 if node in boundary else node for node in (edge.node1, edge.node2))
    return one, other
