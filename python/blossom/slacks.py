"""Slacks of edges, and reduced costs: what the duals say of solutions that use an edge, or don't.

An edge of the graph has images in the certificate graph, and a solution that uses the edge has a
perfect matching there that uses images of it. That matching weighs as much more than all duals
together as the slacks of its edges add up to, at least. So, with the slack of an edge the least
that one use of it adds to that sum, in the units of the solution's weight,

- a solution that uses an edge once weighs at least its slack more than the optimum (for `match`:
  less), and if it uses the edge k times, at least k times that;
- an edge that is used by some optimal solution has the slack 0.

A solution that uses a used edge less often has other edges of the certificate graph in place of an
image. The reduced cost of a used edge is the least slack of these together."""
from __future__ import annotations

import math
from collections import defaultdict
from fractions import Fraction
from itertools import combinations
from typing import Any, Dict, Iterable, Iterator, List, Optional, Tuple, Union

from .documents import Document
from .errors import ArgumentError
from .instances import Instance
from .kinds import MATCHED, ODD, PARITIES
from .laminar import Duals
from .tables import EdgeName
from .vertices import Copy, Layer, Mirror, Port, Subdivision, units_of, vertex_names
from .weights import plain

#: A slack in units of weight; infinite for an edge that no solution uses.
Slack = Union[int, Fraction, float]
#: An edge of the certificate graph: its ends by number, and its weight.
Image = Tuple[int, int, int]
#: What one use of an edge takes: from each of these lists one image.
Images = List[List[Image]]
#: Kinds whose solutions are matched twice in the certificate graph.
TWICE = ("match", "interval")
#: Kinds with vertices that subdivide edges.
SUBDIVIDED = ("capmatch", "ffactor", "interval")


class UnknownEdge(ArgumentError, KeyError):
    """The graph lacks the edge that is named."""

    def __str__(self) -> str:
        return str(self.args[0])


class EdgeSlacks:
    """The slacks of the edges of an instance beside the duals of a document. ValueError: it has no
    duals."""

    def __init__(self, instance: Instance, document: Document) -> None:
        self.number_of = {name: number for number, name in enumerate(vertex_names(instance), 1)}
        if document.status != "optimal" or len(document.duals) != len(self.number_of):
            raise ArgumentError("there are no duals, so no slacks: the answer is of kind %s%s"
                                % (instance.kind, "" if instance.kind in ("bottleneck", "gallai")
                                   else " without a certificate"))
        self.instance, self.document = instance, document
        self.duals = Duals(document)
        self.units = units_of(instance) if instance.kind in SUBDIVIDED else []
        self.value_at = dict(zip(instance.nodes, instance.values))

    def doubled(self, image: Image) -> int:
        """The slack of an edge of the certificate graph, in doubled units."""
        return self.duals.slack(*image)

    def in_units(self, doubled: Slack) -> Slack:
        """A sum of such slacks in the units of a solution's weight."""
        if doubled == math.inf:
            return math.inf
        times = 4 if self.instance.kind in TWICE else 2
        return plain(Fraction(doubled) / times / self.instance.scale)

    def slack(self, index: int) -> Slack:
        """The slack of an edge."""
        return self.in_units(self.sum_of(self.images(index)))

    def sum_of(self, images: Images) -> Slack:
        """The least slack of an image in each list, added up."""
        return sum(min(map(self.doubled, part), default=math.inf) for part in images)

    def images(self, index: int) -> Images:
        """What a use of the edge at this index takes."""
        kind, (u, v) = self.instance.kind, self.instance.ends[index]
        weight = self.instance.weights[index]
        if kind in (*MATCHED, *PARITIES) and u == v:
            return [[]]
        if kind == "perfect":
            return [[self.edge(u, v, weight)]]
        if kind == "match":
            return [[self.edge(Copy(u, copy), Copy(v, copy), -weight)] for copy in (0, 1)]
        if kind in PARITIES:
            return [[self.edge(Layer(u, layer), Layer(v, layer), weight) for layer in (0, 1)
                     if Layer(u, layer) in self.number_of and Layer(v, layer) in self.number_of]]
        if kind in (*ODD, "postman"):
            return [[self.port_image(index)]]
        if kind == "bmatch":
            return [[self.edge(one, other, weight) for one in self.copies(u)
                     for other in self.copies(v) if u != v or one < other]]
        halves = (0, 1) if kind == "interval" else (None,)
        return [part for half in halves for part in self.subdivided(index, half)]

    def edge(self, one: Any, other: Any, weight: int) -> Image:
        """The edge of the certificate graph between two of its vertices, by name."""
        return self.number_of[one], self.number_of[other], weight

    def copies(self, node: Any) -> List[Any]:
        """The copies of a node."""
        return [Copy(node, copy) for copy in range(self.value_at[node])]

    def port_image(self, index: int) -> Image:
        """The edge between the two ports of an edge."""
        name, (u, v) = self.instance.edges[index], self.instance.ends[index]
        return self.edge(Port(u, name), Port(v, name, int(u == v)), self.instance.weights[index])

    def subdivided(self, index: int, half: Optional[int]) -> Images:
        """The images of a use of an edge that is subdivided, in one half: an edge from a copy of
        its first end, and one to a copy of its second."""
        near, far = self.unit_vertices(index, half)
        u, v = self.instance.ends[index]
        own, other = ([in_half(copy, half) for copy in self.copies(node)] for node in (u, v))
        return [[self.edge(copy, vertex, self.instance.weights[index])
                 for copy in own for vertex in near],
                [self.edge(vertex, copy, 0) for vertex in far for copy in other]]

    def unit_vertices(self, index: int, half: Optional[int]) -> Tuple[List[Any], List[Any]]:
        """The vertices that subdivide the units of an edge, next to either end."""
        name, (u, v) = self.instance.edges[index], self.instance.ends[index]
        units = range(self.units[index])
        return ([in_half(Subdivision(name, unit, u), half) for unit in units],
                [in_half(Subdivision(name, unit, v, int(u == v)), half) for unit in units])


def in_half(name: Any, half: Optional[int]) -> Any:
    """The name of a vertex in one of two mirrored halves, if there are halves."""
    return name if half is None else Mirror(name, half)


class ReducedCosts(EdgeSlacks):
    """The reduced costs of the edges of an instance."""

    def __init__(self, instance: Instance, document: Document) -> None:
        super().__init__(instance, document)
        self.used = used_edges(instance, document)
        # The least slacks at each vertex of the certificate graph, with the edges of the graph.
        self.least: Dict[int, List[Tuple[int, int]]] = defaultdict(list)
        if instance.kind not in SUBDIVIDED and self.used:
            self._gather()

    def _gather(self) -> None:
        """Finds the two least slacks at each vertex, of different edges of the graph."""
        for index, image in self._certificate_edges():
            slack = self.doubled(image)
            for end in image[:2]:
                least = [one for one in self.least[end] if one[1] != index or index < 0]
                same = [one for one in self.least[end] if one[1] == index and index >= 0]
                least.append(min([(slack, index), *same]))
                self.least[end] = sorted(least)[:2]

    def _certificate_edges(self) -> Iterator[Tuple[int, Image]]:
        """The edges of the certificate graph, each with the edge of the graph that it is an image
        of; -1 if it is of none."""
        for index in range(self.instance.edge_count):
            for part in self.images(index):
                for image in part:
                    yield index, image
        for one, other in self._other_pairs():
            yield -1, self.edge(one, other, 0)

    def _other_pairs(self) -> Iterable[Tuple[Any, Any]]:
        """The edges of the certificate graph that are images of none."""
        kind, nodes = self.instance.kind, self.instance.nodes
        if kind == "match":
            return [(Copy(node, 0), Copy(node, 1)) for node in nodes]
        if kind in PARITIES:
            return [(Layer(node, 0), Layer(node, 1)) for node in nodes
                    if Layer(node, 0) in self.number_of and Layer(node, 1) in self.number_of]
        at: Dict[Any, List[Port]] = defaultdict(list)
        if kind in (*ODD, "postman"):
            for port in self.number_of:
                at[port.node].append(port)
        return (pair for ports in at.values() for pair in combinations(ports, 2))

    def cost(self, index: int) -> Slack:
        """The reduced cost of an edge."""
        if index not in self.used:
            return self.slack(index)
        kind = self.instance.kind
        if kind in SUBDIVIDED:
            halves = (0, 1) if kind == "interval" else (None,)
            return self.in_units(sum(self.unused_unit(index, half) for half in halves))
        if kind == "bmatch":
            return self.in_units(self.other_copies(index))
        images = [part[0] for part in self.images(index)]
        if kind in PARITIES:
            u, v = (Layer(end, self.used[index]) for end in self.instance.ends[index])
            images = [self.edge(u, v, self.instance.weights[index])]
        return self.in_units(self.covered(index, [end for image in images for end in image[:2]]))

    def unused_unit(self, index: int, half: Optional[int]) -> Slack:
        """The least slack of an edge that joins the two vertices of a unit: a unit that isn't used
        takes it."""
        near, far = self.unit_vertices(index, half)
        return min(self.doubled(self.edge(one, other, 0)) for one in near for other in far)

    def other_copies(self, index: int) -> Slack:
        """For `bmatch`: the least slack of another edge at a copy of an end, if this edge is used
        at all of its copies; of both ends together, unless there is a parallel edge. A loop takes
        two copies, so it counts half."""
        (u, v), count = self.instance.ends[index], self.document.counts[index + 1]
        others = [set(pair) for place, pair in enumerate(self.instance.ends) if place != index]
        sums = [part_of(min(self.other(self.number_of[copy], index) for copy in self.copies(node)),
                        2 if u != v and {node} in others else 1)
                for node in {u, v} if self.value_at[node] == count * (2 if u == v else 1)]
        is_parallel = {u, v} in others
        return max(sums, default=0) if is_parallel else sum(sums)

    def other(self, vertex: int, index: int) -> Slack:
        """The least slack at a vertex of the certificate graph, of an edge that isn't an image of
        this edge."""
        return min((slack for slack, edge in self.least[vertex] if edge != index or edge < 0),
                   default=math.inf)

    def covered(self, index: int, ends: List[int]) -> Slack:
        """The least sum of slacks of edges that cover these vertices of the certificate graph, and
        are no images of this edge."""
        joints = self.joints(index, ends)
        found: List[Slack] = []
        for count in range(len(joints) + 1):
            for chosen in combinations(joints, count):
                met = {end for image in chosen for end in image[:2]}
                left = sum(self.other(end, index) for end in ends if end not in met)
                found.append(sum(map(self.doubled, chosen)) + left)
        return min(found)

    def joints(self, index: int, ends: List[int]) -> List[Image]:
        """The edges of the certificate graph between two of these vertices that are no images of
        this edge: of parallel ones the lightest."""
        best: Dict[Tuple[int, int], Image] = {}
        pairs = {frozenset(self.instance.ends[index])}
        near = [place for place, pair in enumerate(self.instance.ends) if frozenset(pair) in pairs]
        images = [image for place in near if place != index
                  for part in self.images(place) for image in part]
        for image in images + self.own_joints(index, ends):
            pair = (min(image[:2]), max(image[:2]))
            if set(pair) <= set(ends):
                best[pair] = min(image, best.get(pair, image), key=self.doubled)
        return list(best.values())

    def own_joints(self, index: int, ends: List[int]) -> List[Image]:
        """Those that are images of no edge."""
        kind, (u, v) = self.instance.kind, self.instance.ends[index]
        if kind == "match":
            return [self.edge(Copy(node, 0), Copy(node, 1), 0) for node in (u, v)]
        if kind in (*ODD, "postman") and u == v and kind not in PARITIES:
            return [(ends[0], ends[1], 0)]
        return []


def part_of(slack: Slack, parts: int) -> Slack:
    """A part of a slack."""
    return slack if slack == math.inf else Fraction(slack) / parts


def used_edges(instance: Instance, document: Document) -> Dict[int, int]:
    """The edges that are used, by index; for paths of a given parity each with its layer. A tour
    uses those that it walks an even number of times."""
    if document.walk is None:
        return dict.fromkeys((number - 1 for number in document.counts), 0)
    if instance.kind == "postman":
        times: Dict[int, int] = defaultdict(int)
        for number in document.walk[1]:
            times[number - 1] += 1
        return {index: 0 for index, count in times.items() if count % 2 == 0}
    return {number - 1: place % 2 for place, number in enumerate(document.walk[1])}


def index_of(instance: Instance, edge: Any) -> int:
    """The index of an edge that is named (u, v), (v, u) or (u, v, key), or the index itself.
    UnknownEdge: the graph lacks it. TypeError: see `name_in`."""
    if is_index(edge):
        if not 0 <= edge < instance.edge_count:
            raise UnknownEdge("the graph has no edge %d: it has %d" % (edge, instance.edge_count))
        return int(edge)
    names, name = indices_of(instance), name_in(edge)
    turned = (*name[1::-1], *name[2:])
    if name not in names and turned not in names:
        keys = [one for one in names if one[:2] in (name, turned)]
        raise UnknownEdge("the graph has no edge %r%s" % (name, ": there are %s" % ", ".join(
            map(repr, keys)) if keys else ""))
    return names[name] if name in names else names[turned]


def is_index(edge: Any) -> bool:
    """Whether an edge is named by its index, an integer of Python or numpy."""
    return hasattr(edge, "__index__") and not hasattr(edge, "__len__")


def name_in(edge: Any) -> EdgeName:
    """The name of an edge as a tuple. TypeError: it can't be a name."""
    try:
        name: EdgeName = () if isinstance(edge, (str, bytes)) else tuple(edge)
        hash(name)
    except TypeError:
        name = ()
    if len(name) not in (2, 3):
        raise TypeError("edge must be (u, v), (u, v, key) or an index, got %r" % (edge,))
    return name


def indices_of(instance: Instance) -> Dict[EdgeName, int]:
    """The index of each edge by name."""
    return {name: index for index, name in enumerate(instance.edges)}
