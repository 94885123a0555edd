"""What there is to draw of an answer: places on the sheet, and what the certificate says of nodes
and sets of nodes."""
from __future__ import annotations

from dataclasses import dataclass
from functools import cached_property
from math import atan2, hypot, pi, sqrt
from typing import Any, Dict, FrozenSet, Hashable, List, Mapping, Optional, Sequence, Tuple, Union

from ..answers import Answer
from ..certificates import Certificate
from ..vertices import Layer, is_subdivision, node_of
from ..instances import Instance
from .geometry import Point
from .layout import positions_of
from .moats import has_moats, length_of_unit

MARGIN = 58.0
CAPTION = 30.0
#: Names of more letters stand beside their nodes and not in them.
LETTERS = 3
#: Up to so many edges have their weights beside them, unless the caller says.
WEIGHTS_SHOWN = 30
#: Up to so many nodes have their names, unless the caller says.
LABELS_SHOWN = 80
#: Up to so many nodes have their duals drawn, and the odd sets around them, unless the caller says.
DUALS_SHOWN = 200
#: Beside discs and moats, unused edges are drawn of graphs with at most so many edges a node.
UNUSED_SHOWN = 3
#: Up to so many steps of a walk have their numbers, and up to so many are arrows.
STEPS_SHOWN = 100
ARROWS_SHOWN = 500
#: A sheet is so wide; one of many nodes is wider, so that each has some room.
WIDTH, WIDEST, ROOM_OF_A_NODE = 640.0, 2400.0, 44.0


@dataclass(frozen=True)
class Words:
    """What the caller says of a picture; None where the number of nodes and edges says it. See
    `blossom.draw`."""

    width: Optional[float] = None
    height: Optional[float] = None
    labels: Union[None, bool, Mapping[Any, str]] = None
    weights: Optional[bool] = None
    steps: Optional[bool] = None
    duals: Optional[bool] = None
    odd_sets: Optional[bool] = None
    dual_length: Optional[float] = None
    caption: bool = True
    unused_edges: Optional[bool] = None


def said(word: Optional[bool], usual: bool) -> bool:
    """What the caller says, or what is usual."""
    return usual if word is None else word


@dataclass
class Scene:
    """An answer on its sheet. Nodes are places in `instance.nodes` from here on.

    points: of the nodes, in pixels. radius: of the circles that nodes are. unit: pixels for a unit
    of weight where duals are drawn to scale, or None. names: of the nodes as texts. inside: names
    stand in the nodes. weights, steps, heads, duals, sets: whether these are shown: weights of
    edges, numbers of steps, heads of arrows, duals, odd sets. pen: how wide lines are beside those
    of a small picture. unused: whether edges are shown that aren't used. moats: whether duals are
    discs and moats to scale."""

    instance: Instance
    certificate: Certificate
    answer: Optional[Answer]
    width: float
    height: float
    points: List[Point]
    radius: float
    unit: Optional[float]
    names: List[str]
    inside: bool
    weights: bool
    steps: bool = True
    heads: bool = True
    duals: bool = True
    sets: bool = True
    pen: float = 1.0
    unused: bool = True
    moats: bool = False

    @cached_property
    def places(self) -> Dict[Hashable, int]:
        """The place of each node."""
        return {node: place for place, node in enumerate(self.instance.nodes)}

    def dual_of(self) -> List[float]:
        """For each node the mean of the duals of its vertices, in units of weight."""
        found: Dict[Hashable, List[float]] = {}
        for name, dual in self.certificate.duals.items():
            if not is_subdivision(name):
                found.setdefault(node_of(name), []).append(float(dual))
        own = [found.get(node, []) for node in self.instance.nodes]
        return [sum(duals) / max(len(duals), 1) for duals in own]

    def node_sets(self) -> List[Tuple[List[int], float]]:
        """The nodes of each odd set with its dual, the larger sets first; sets of the same nodes
        are one, with their duals added."""
        sets: Dict[FrozenSet[int], float] = {}
        for members, dual in self.certificate.odd_sets:
            nodes = frozenset(self.places[node_of(name)] for name in members)
            sets[nodes] = sets.get(nodes, 0.0) + float(dual)
        order = sorted(sets.items(), key=lambda one: (-len(one[0]), sorted(one[0])))
        return [(sorted(nodes), dual) for nodes, dual in order]

    def marked(self, names: Optional[Sequence[Any]]) -> List[int]:
        """The nodes that these names belong to."""
        return sorted({self.places[node_of(name)] for name in names or ()})

    @property
    def barrier(self) -> Optional[List[Any]]:
        """The barrier that is drawn: beside a best answer only where odd sets are."""
        shown = self.sets or self.certificate.status != "optimal"
        return self.certificate.barrier if shown else None

    def layers(self, names: Optional[Sequence[Any]]) -> Dict[int, str]:
        """For each node that such names belong to in which layers it is named: `0`, `1` or `0, 1`.
        Empty for names of no layer."""
        found: Dict[int, List[int]] = {}
        for name in names or ():
            if isinstance(name, Layer):
                found.setdefault(self.places[name.node], []).append(name.layer)
        return {node: ", ".join(map(str, sorted(own))) for node, own in found.items()}

    def pair(self, index: int) -> Tuple[int, int]:
        """The ends of an edge."""
        first, second = self.instance.ends[index]
        return self.places[first], self.places[second]

    @cached_property
    def pairs(self) -> List[Tuple[int, int]]:
        """The ends of each edge."""
        return [self.pair(index) for index in range(len(self.instance.edges))]

    @cached_property
    def ways(self) -> List[List[float]]:
        """The directions in which edges lead away from each node to others."""
        found: List[List[float]] = [[] for _ in self.points]
        for first, second in self.pairs:
            for here, there in ((first, second), (second, first)) if first != second else ():
                (x, y), (other_x, other_y) = self.points[here], self.points[there]
                found[here].append(atan2(other_y - y, other_x - x))
        return found

    @cached_property
    def loops(self) -> Dict[int, float]:
        """The direction in which loops lie at each node that has any: where no other edge is."""
        return {first: free_direction(self.ways[first]) for first, second in self.pairs
                if first == second}

    def free_directions(self) -> List[float]:
        """For each node the direction that is farthest from all its edges: there its name has
        room."""
        return [free_direction(ways + [self.loops[node]] if node in self.loops else ways)
                for node, ways in enumerate(self.ways)]

    def nearest(self) -> float:
        """The least distance between two nodes, in pixels; of many nodes half of what each would
        have if they stood evenly."""
        number = len(self.points)
        if number > 400:
            return 0.5 * sqrt(self.width * self.height / number)
        pairs = ((a, b) for place, a in enumerate(self.points) for b in self.points[:place])
        return min((hypot(a[0] - b[0], a[1] - b[1]) for a, b in pairs), default=200.0)


def free_direction(directions: Sequence[float]) -> float:
    """The middle of the widest gap between these directions; down where there are none."""
    if not directions:
        return pi / 2
    angles = sorted(directions)
    following = angles[1:] + [angles[0] + 2 * pi]
    gaps = [(after - before, before) for before, after in zip(angles, following)]
    width, start = max(gaps)
    return start + width / 2


def fitted(points: List[Point], width: float, height: Optional[float],
           caption: float) -> Tuple[List[Point], float, float]:
    """The points on a sheet of this width, the sheet's height, and the pixels for a unit of length.
    The y axis turns over."""
    across = [x for x, _ in points] or [0.0]
    up = [y for _, y in points] or [0.0]
    spans = max(across) - min(across), max(up) - min(up)
    if height is None:
        wanted = (width - 2 * MARGIN) * (spans[1] / spans[0] if spans[0] else 1.0) + 2 * MARGIN
        height = min(max(wanted, 0.3 * width), 1.1 * width) + caption
    rooms = width - 2 * MARGIN, height - caption - 2 * MARGIN
    scale = min((room / span for room, span in zip(rooms, spans) if span), default=1.0)
    middle = (max(across) + min(across)) / 2, (max(up) + min(up)) / 2
    placed = [(width / 2 + (x - middle[0]) * scale,
               (height - caption) / 2 - (y - middle[1]) * scale) for x, y in points]
    return placed, height, scale


def scene_of(subject: Union[Answer, Certificate], positions: Optional[Mapping[Any, Point]],
             words: Words) -> Scene:
    """The scene of an answer or of a certificate."""
    certificate = subject.certificate if isinstance(subject, Answer) else subject
    answer = subject if isinstance(subject, Answer) else None
    instance = certificate.instance if answer is None else answer.instance
    number = len(instance.nodes)
    width = words.width or min(max(WIDTH, ROOM_OF_A_NODE * sqrt(number)), WIDEST)
    places = positions_of(instance, positions)
    points, height, scale = fitted(places, width, words.height, CAPTION if words.caption else 0.0)
    names = names_of(instance, words.labels)
    unit = unit_of(certificate, places, words)
    to_scale = unit is not None
    inside = max(map(len, names), default=0) <= LETTERS and not to_scale and any(names)
    scene = Scene(instance, certificate, answer, width, height, points, 11.0 if inside else 5.0,
                  None if unit is None else unit * scale, names, inside,
                  said(words.weights, len(instance.edges) <= WEIGHTS_SHOWN
                       and instance.kind != "postman"))
    walk = len(answer.edge_walk_indices if answer is not None else certificate.negative_cycle or ())
    scene.steps = said(words.steps, walk <= STEPS_SHOWN)
    scene.heads = words.steps is True or walk <= ARROWS_SHOWN
    scene.duals = said(words.duals, number <= DUALS_SHOWN or to_scale)
    scene.sets = said(words.odd_sets, number <= DUALS_SHOWN or to_scale)
    scene.moats = to_scale and scene.duals and has_moats(instance)
    scene.unused = said(words.unused_edges, not scene.moats
                        or len(instance.edges) <= UNUSED_SHOWN * number)
    scene.radius = min(scene.radius, max(2.5 if number <= 400 else 1.5, 0.3 * scene.nearest()))
    if number > DUALS_SHOWN:
        scene.pen = min(1.0, max(0.35, 0.02 * scene.nearest()))
    return scene


def unit_of(certificate: Certificate, places: Sequence[Point], words: Words) -> Optional[float]:
    """How long a unit of weight is, in units of the positions, if duals are drawn to scale: what
    the caller says, or what the edges say that weigh as their lengths."""
    instance = certificate.instance
    if words.dual_length is not None:
        return words.dual_length
    few = said(words.duals, len(instance.nodes) <= DUALS_SHOWN)
    if not few or not has_moats(instance) or not certificate.document.duals:
        return None
    return length_of_unit(instance, places)


def names_of(instance: Instance, labels: Union[None, bool, Mapping[Any, str]]) -> List[str]:
    """The text at each node."""
    if isinstance(labels, Mapping):
        return [str(labels.get(node, "")) for node in instance.nodes]
    shown = said(labels, len(instance.nodes) <= LABELS_SHOWN)
    return [str(node) if shown else "" for node in instance.nodes]
