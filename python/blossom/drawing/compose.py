"""The shapes of a scene: odd sets as shaded hulls, duals as discs, used edges bold, walks as
arrows, what excludes answers in red."""
from __future__ import annotations

from math import cos, sin
from typing import Dict, FrozenSet, List, Sequence, Set, Tuple

from ..kinds import BOUNDED, ODD, OF_NODES, PARITIES, VALUED, WALKED
from .geometry import (Point, arrow_head, control_point, loop_controls, on_curve, rounded_hull,
                       toward)
from .moats import moats, shown, sum_in_words
from .parts import components_without, lighter_pairs
from .scene import CAPTION, Scene
from .shapes import Area, Curve, Disc, Shape, Sheet, Text, frame

INK = "#2b2d42"
FAINT = "#c3c8d1"
QUIET = "#6c7383"
USED = "#17627f"
AGAIN = "#e07a2f"
OTHER = "#7b5ea7"
SET = "#3f7fbf"
ABOVE = "#f4b942"
BELOW = "#a06cc4"
BAD = "#c8374a"
WHITE = "#ffffff"
#: Of nodes that a matching meets, where it needn't meet all.
MET = "#dde3ea"
#: Pixels between edges of the same two nodes.
APART = 15.0
#: Pixels from a node to the farthest point of its first loop.
REACH = 30.0
#: Pixels between what is drawn and the sides of the sheet.
RIM = 8.0
TITLES = {"perfect": "perfect matching of least weight", "match": "matching of greatest weight",
          "bmatch": "b-matching of least weight",
          "capmatch": "b-matching of least weight within capacities",
          "ffactor": "factor of least weight", "tjoin": "join of least weight",
          "postman": "least closed walk along all edges", "path": "shortest path",
          "interval": "edges of least weight between bounds",
          "oddpath": "shortest path of an odd number of edges",
          "evenpath": "shortest path of an even number of edges",
          "bottleneck": "perfect matching whose heaviest edge is lightest",
          "gallai": "edges of a greatest matching, and the nodes that some such one misses"}


def bends(pairs: Sequence[Tuple[int, int]], pen: float) -> List[float]:
    """How far each edge between two nodes is bent aside, and how far each loop reaches, so that
    none of the same two nodes lie on each other."""
    count: Dict[FrozenSet[int], int] = {}
    for pair in pairs:
        count[frozenset(pair)] = count.get(frozenset(pair), 0) + 1
    seen: Dict[FrozenSet[int], int] = {}
    found = []
    for first, second in pairs:
        both = frozenset((first, second))
        rank = seen.get(both, 0)
        seen[both] = rank + 1
        bend = (rank - (count[both] - 1) / 2) * APART * pen
        loop = (REACH + rank * APART) * pen
        found.append(loop if first == second else bend if first < second else -bend)
    return found


def curve(scene: Scene, pair: Tuple[int, int], bend: float, colour: str, width: float,
          tag: str = "") -> Curve:
    """The curve of an edge from node to node, or of a loop."""
    start, end = scene.points[pair[0]], scene.points[pair[1]]
    if pair[0] == pair[1]:
        first, second = loop_controls(start, scene.loops[pair[0]], scene.radius + bend)
        return Curve(start, first, end, colour, width, second=second, tag=tag)
    return Curve(start, control_point(start, end, bend), end, colour, width, tag=tag)


def halfway(line: Curve) -> Point:
    """The middle of a curve, where its text stands."""
    return on_curve(line.corners, 0.5)


def arrow(scene: Scene, pair: Tuple[int, int], bend: float, colour: str, label: str,
          tag: str = "") -> List[Shape]:
    """An arrow from node to node, with a label on its way."""
    line = curve(scene, pair, bend, colour, 2.2 * scene.pen, tag)
    shapes: List[Shape] = [line]
    if scene.heads:
        last = line.corners[-2]
        tip = toward(line.end, last, scene.radius + 2 * scene.pen)
        shapes.append(Area(arrow_head(tip, last, 11 * scene.pen), colour))
        line.end = toward(tip, last, 7 * scene.pen)
    if scene.steps:
        shapes.append(Text(halfway(line), label, 10.5, colour, rim=True, bold=True))
    return shapes


def odd_sets(scene: Scene, discs: Sequence[float]) -> List[Shape]:
    """The odd sets, larger ones first, each around the discs of its nodes and what is within it. To
    scale its rim is as far out as the duals say."""
    sets, duals = scene.node_sets(), scene.dual_of()
    shapes: List[Shape] = []
    for nodes, _ in sets:
        within = [(inner, dual) for inner, dual in sets if set(inner) <= set(nodes)]
        if scene.unit is None:
            levels = 1 + max(depth(inner, within) for inner, _ in within)
            margins = [max(discs[node], scene.radius) + 8 * levels - 1 for node in nodes]
        else:
            margins = [scene.unit * (max(duals[node], 0) + sum(dual for inner, dual in within
                                                               if node in inner))
                       for node in nodes]
        corners = rounded_hull([scene.points[node] for node in nodes], margins)
        shapes.append(Area(corners, SET, 0.16, SET, 1.2, "set %d" % len(shapes)))
    return shapes


def depth(nodes: List[int], sets: List[Tuple[List[int], float]]) -> int:
    """How many of the sets hold these nodes, and more."""
    return sum(set(nodes) < set(other) for other, _ in sets)


def disc_sizes(scene: Scene) -> List[float]:
    """The radii of the discs of the duals: to scale the duals themselves, else rings around the
    nodes that are the wider the greater they are."""
    duals = scene.dual_of()
    greatest = max([abs(dual) for dual in duals], default=0.0) or 1.0
    ring = min(22.0, max(7.0, 0.4 * scene.nearest() - scene.radius))
    if scene.unit:
        return [abs(dual) * scene.unit for dual in duals]
    return [scene.radius + ring * (0.15 + 0.85 * abs(dual) / greatest) if dual else 0.0
            for dual in duals]


def dual_discs(scene: Scene, sizes: Sequence[float]) -> List[Shape]:
    """The duals of nodes that aren't 0, as discs."""
    colours = [ABOVE if dual > 0 else BELOW for dual in scene.dual_of()]
    return [Disc(place, size, colour, 0.5, colour, 1.0, "node %d" % node)
            for node, (place, size, colour) in enumerate(zip(scene.points, sizes, colours)) if size]


def plain_edges(scene: Scene) -> List[Shape]:
    """The edges of an answer that isn't a walk, and those that a path leaves: bold where they are
    used."""
    pairs = scene.pairs
    counts = scene.answer.edge_counts if scene.answer is not None else [0] * len(pairs)
    walked = scene.instance.kind in WALKED
    bold, thin = 4.2 * scene.pen, 1.6 * scene.pen
    heavy = heaviest(scene)
    shown = [(index, pair, bend) for index, (pair, bend) in
             enumerate(zip(pairs, bends(pairs, scene.pen))) if counts[index] or scene.unused]
    drawn = [curve(scene, pair, bend, AGAIN if index in heavy else USED, bold, "edge %d" % index)
             if counts[index] and not walked
             else curve(scene, pair, bend, FAINT, thin, "edge %d" % index)
             for index, pair, bend in shown if not (walked and counts[index])]
    drawn.sort(key=lambda line: line.width)
    texts = [weight_text(scene, index, pair, bend, counts[index]) for index, pair, bend in shown]
    return [*drawn, *[text for text in texts if text.words]]


def heaviest(scene: Scene) -> Set[int]:
    """The used edges that weigh as much as a best answer of `bottleneck` does, by their places."""
    if scene.answer is None or scene.instance.kind != "bottleneck":
        return set()
    weight = scene.answer.certificate.document.weight
    return {index for index in scene.answer.edge_indices
            if scene.instance.weights[index] == weight}


def weight_text(scene: Scene, index: int, pair: Tuple[int, int], bend: float, count: int) -> Text:
    """What stands at an edge: its weight where weights are shown, and how often it is used where
    that is more than once."""
    line = curve(scene, pair, bend, INK, 1)
    words = str(scene.instance.weight_of(index)) if scene.weights else ""
    if count > 1 and scene.instance.kind not in WALKED:
        words = ("%s \u00d7%d" % (words, count)).strip()
    return Text(halfway(line), words, 10.5, USED if count else QUIET, rim=True, bold=count > 0)


def arrows(scene: Scene) -> List[Shape]:
    """The steps of a walk in their order, and the negative cycle. A step along an
    edge that was walked before stands out, and lies over the others. The steps of a path of some
    parity have two colours in turn, those of its two sides."""
    answer, cycle = scene.answer, scene.certificate.negative_cycle or []
    steps = cycle if answer is None else answer.edge_walk
    edges = range(len(steps)) if answer is None else answer.edge_walk_indices
    pairs = [(scene.places[step[0]], scene.places[step[1]]) for step in steps]
    seen: Set[int] = set()
    shapes: List[Shape] = []
    for place, (pair, bend, edge) in enumerate(zip(pairs, bends(pairs, scene.pen), edges), 1):
        colour = BAD if scene.answer is None else AGAIN if edge in seen else USED
        if scene.instance.kind in PARITIES and is_on_other_side(scene, place, len(pairs)):
            colour = OTHER
        seen.add(edge)
        tag = "" if answer is None else "edge %d" % edge
        shapes += arrow(scene, pair, bend, colour, str(place), tag)
    return sorted(shapes, key=depth_of_step)


def is_on_other_side(scene: Scene, place: int, steps: int) -> bool:
    """Whether a step of a path, counted from 1, is an edge of the second side: each other one from
    the end where the program starts."""
    return (steps + 1 - place if scene.instance._backwards else place) % 2 == 0


def depth_of_step(shape: Shape) -> int:
    """Which shapes of a walk lie over which: texts over steps along edges that were walked before,
    and those over the others."""
    if isinstance(shape, Text):
        return 2
    colour = shape.colour if isinstance(shape, Curve) else shape.fill
    return int(colour == AGAIN)


def excluding(scene: Scene) -> List[Shape]:
    """The part that no edge leaves, and the odd components that a barrier of nodes leaves: those of
    `gallai`, which exclude nothing, in another colour."""
    closed = scene.certificate.closed_set
    parts = [] if closed is None else [scene.marked(closed)]
    if scene.barrier is not None and scene.instance.kind in OF_NODES:
        pairs, removed = lighter_pairs(scene.certificate), scene.marked(scene.barrier)
        parts = [part for part in components_without(len(scene.points), pairs, removed)
                 if len(part) % 2]
    hulls = [rounded_hull([scene.points[node] for node in part], [scene.radius + 14] * len(part))
             for part in parts if part]
    colour = SET if scene.instance.kind == "gallai" else BAD
    return [Area(corners, colour, 0.12, colour, 1.2) for corners in hulls]


def nodes(scene: Scene) -> List[Shape]:
    """The nodes with their names: red in a barrier, with the sides on which they are in it where
    there are two; dark where they are terminals; and with their values or bounds where those ask
    for something. Of `gallai` the neighbours of its components are filled, and nodes open that the
    matching misses."""
    notes = notes_of(scene)
    fills = fills_of(scene)
    inside = scene.inside and not notes
    away = scene.free_directions()
    discs: List[Shape] = []
    texts: List[Shape] = []
    for node, (place, name) in enumerate(zip(scene.points, scene.names)):
        fill = fills[node]
        discs.append(Disc(place, scene.radius, fill, 1.0, INK, 1.4 * scene.pen, "node %d" % node))
        if node in notes:
            name = "%s:%s" % (name, notes[node])
        if name and inside:
            colour = INK if fill in (WHITE, MET) else WHITE
            texts.append(Text(place, name, 11, colour, bold=True))
        elif name:
            texts.append(beside(place, away[node], scene.radius, name))
    return discs + texts


def fills_of(scene: Scene) -> List[str]:
    """The colour that each node is filled with."""
    of, answer = scene.instance, scene.answer
    barrier = set(scene.marked(scene.barrier))
    if of.kind == "gallai":
        met = answer.mate if answer is not None else {}
        return [AGAIN if place in barrier else MET if node in met else WHITE
                for place, node in enumerate(of.nodes)]
    terminal = [of.kind in ODD and value % 2 == 1 for value in of.values]
    return [BAD if place in barrier else INK if terminal[place] else WHITE
            for place in range(len(of.nodes))]


def notes_of(scene: Scene) -> Dict[int, str]:
    """What stands behind the names of nodes: values, bounds, or the sides of a barrier."""
    of = scene.instance
    if of.kind in VALUED:
        return {node: str(value) for node, value in enumerate(of.values)}
    if of.kind in BOUNDED:
        return {node: "%d..%d" % both for node, both in enumerate(of.bounds)}
    return scene.layers(scene.certificate.barrier)


def beside(place: Point, direction: float, radius: float, name: str) -> Text:
    """A name by its node, in this direction."""
    across, down = cos(direction), sin(direction)
    anchor = "start" if across > 0.4 else "end" if across < -0.4 else "middle"
    centre = (place[0] + across * (radius + 6), place[1] + down * (radius + 10))
    return Text(centre, name, 11, INK, rim=True, anchor=anchor)


def title(scene: Scene) -> str:
    """What the picture shows, in words."""
    kind, certificate = scene.instance.kind, scene.certificate
    if certificate.status == "infeasible":
        what = "barrier" if certificate.barrier is not None else "part that no edge leaves"
        return "No answer: the %s in red shows it" % what
    if certificate.status == "nonconservative":
        return "No shortest path: the negative cycle in red"
    weight = scene.answer.weight if scene.answer else certificate.document.weight or 0
    proof = sum_in_words(scene) if scene.moats else ""
    return "%s: %s%s" % (TITLES[kind][0].upper() + TITLES[kind][1:], shown(weight), proof)


def compose(scene: Scene, caption: bool) -> Sheet:
    """The sheet of a scene."""
    discs = disc_sizes(scene) if scene.duals and not scene.moats else [0.0] * len(scene.points)
    shapes: List[Shape] = odd_sets(scene, discs) if scene.sets and not scene.moats else []
    shapes += excluding(scene)
    shapes += moats(scene) if scene.moats else dual_discs(scene, discs)
    shapes += plain_edges(scene) + arrows(scene) + nodes(scene)
    left, top, right, bottom = frame(scene.width, scene.height, shapes, RIM)
    if caption:
        bottom = max(bottom, frame(scene.width, scene.height, shapes, CAPTION)[3])
        place = ((left + right) / 2, bottom - CAPTION / 2 - 2)
        shapes.append(Text(place, title(scene), 14, INK, rim=True))
    return Sheet(left, top, right - left, bottom - top, shapes)
