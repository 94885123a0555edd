"""The picture of a proof to scale, after Jünger and Pulleyblank: the dual of a node is the radius
of a disc around it, and the dual of an odd set is the width of a moat around the discs and moats
of its nodes.

If weights are distances, the picture of a minimum-weight perfect matching shows why none is
shorter, after Jünger and Pulleyblank. The dual of a node is the radius of a disc around it. The
dual of an odd set is the width of a moat around the discs and moats of its nodes. No two of them
overlap. Every perfect matching has an edge that leaves each disc, and an edge that crosses each
moat. So it is at least as long as all radii and all widths together. The edges of this one run
through discs and moats alone, so it is exactly as long:

![Yellow discs around the nodes, blue moats around odd sets, and edges within them](pictures/duals.svg)

The same holds if only some pairs can be matched; discs of other pairs may overlap then:

![Duals to scale as discs, odd sets as moats](pictures/matching.svg)
"""
from __future__ import annotations

from fractions import Fraction
from math import hypot
from typing import TYPE_CHECKING, FrozenSet, List, Optional, Sequence, Tuple

from ..certificates import Number
from ..instances import Instance
from ..weights import plain
from .geometry import Point
from .shapes import Disc, Shape

if TYPE_CHECKING:
    from .scene import Scene

#: Moats by how many others lie around them, in turn, and the discs of nodes.
MOATS = ("#bcd7ec", "#8fbcdd", "#6aa3cf")
MOAT_LINE, DISC, DISC_LINE, BELOW_LINE = "#3f7fbf", "#fbdf9a", "#d89a1e", "#a06cc4"
#: How wide the lines are around moats and discs of a small picture, in pixels.
RIM_WIDTH = 1.0
#: A narrower moat can't be seen, and one up to twice as wide as its line has none.
NARROWEST, LINED = 0.2, 2.0
#: So many of the largest discs of a moat are tried for whether they hide another.
HIDING = 40
#: By how much a weight may differ from the length that it stands for: half a unit, if it was
#: rounded to an integer, and at most this part of it, so that overlaps can't be seen.
ROUNDED, SEEN = 0.5, 0.02
#: Fewer edges than these may weigh as their lengths by chance.
FEWEST_EDGES = 2
MoatSet = Tuple[FrozenSet[int], float]


def has_moats(instance: Instance) -> bool:
    """Whether the duals belong to the nodes themselves, so that discs and moats show them."""
    return instance.kind == "perfect"


def length_of_unit(instance: Instance, points: Sequence[Point]) -> Optional[float]:
    """How long a unit of weight is if all edges weigh as their lengths say; None if they don't.
    Weights may be rounded to integers."""
    place = {node: number for number, node in enumerate(instance.nodes)}
    ends = [(points[place[u]], points[place[v]]) for u, v in instance.ends]
    lengths = [hypot(one[0] - other[0], one[1] - other[1]) for one, other in ends]
    whole, total = sum(lengths), sum(instance.weights)
    if len(lengths) < FEWEST_EDGES or whole <= 0 or total <= 0:
        return None
    scale, off = total / whole, ROUNDED * len(lengths) / whole  # (which rounding may move it by)
    far = [abs(scale * length - weight) - 1e-9 * weight
           for length, weight in zip(lengths, instance.weights)]
    allowed = [min(ROUNDED + off * length, SEEN * weight)
               for length, weight in zip(lengths, instance.weights)]
    if any(one > most for one, most in zip(far, allowed)):
        return None
    return float(instance.scale) / scale


def reach(sets: Sequence[MoatSet], duals: Sequence[float], members: FrozenSet[int],
          node: int) -> float:
    """How far the moat of a set reaches from one of its nodes: the dual of the node and of each set
    from this one inwards that holds it."""
    return duals[node] + sum(dual for inner, dual in sets if node in inner and inner <= members)


def moats(scene: Scene) -> List[Shape]:
    """The moats, outer ones first, each as discs around its nodes with one line around them all,
    and then the discs of the nodes."""
    sets = [(frozenset(nodes), dual) for nodes, dual in scene.node_sets()] if scene.sets else []
    duals = scene.dual_of()
    shapes: List[Shape] = []
    for rank, (members, _) in enumerate(sets):
        shapes += moat(scene, sets, duals, rank)
    return shapes + radii(scene, duals)


def moat(scene: Scene, sets: Sequence[MoatSet], duals: Sequence[float], rank: int) -> List[Shape]:
    """The moat of one of the sets. The discs of its line lie behind those that fill it, so that
    only the line around their union shows."""
    (members, width), unit, rim = sets[rank], scene.unit or 0.0, RIM_WIDTH * scene.pen
    if width * unit < NARROWEST:
        return []
    depth = sum(members < other for other, _ in sets)
    sizes = [(unit * reach(sets, duals, members, node), scene.points[node]) for node in members]
    tag, fill = "set %d" % rank, MOATS[depth % len(MOATS)]
    seen = not_hidden(sizes)
    if width * unit < LINED * rim:
        return [Disc(place, size, fill, tag=tag) for size, place in seen]
    return [*(Disc(place, size + rim / 2, MOAT_LINE, tag=tag) for size, place in seen),
            *(Disc(place, max(size - rim / 2, 0.0), fill, tag=tag) for size, place in seen)]


def not_hidden(sizes: Sequence[Tuple[float, Point]]) -> List[Tuple[float, Point]]:
    """The discs with these radii that don't lie within a larger one."""
    kept: List[Tuple[float, Point]] = []
    for size, place in sorted(sizes, reverse=True):
        if size > 0 and not any(hypot(place[0] - x, place[1] - y) + size <= larger
                                for larger, (x, y) in kept[:HIDING]):
            kept.append((size, place))
    return kept


def radii(scene: Scene, duals: Sequence[float]) -> List[Shape]:
    """The discs of the nodes. A negative dual is a ring: it takes as much away."""
    unit, rim = scene.unit or 0.0, RIM_WIDTH * scene.pen
    return [Disc(place, dual * unit, DISC, 1.0, DISC_LINE, rim, "node %d" % node)
            if dual > 0 else
            Disc(place, -dual * unit, "none", 1.0, BELOW_LINE, rim, "node %d" % node)
            for node, (place, dual) in enumerate(zip(scene.points, duals)) if dual]


def lengths(scene: Scene) -> Tuple[Number, Number]:
    """What all radii come to, and all widths of moats, in the units of the weights."""
    certificate = scene.certificate
    duals = map(Fraction, certificate.duals.values())
    sets = (Fraction(certificate.in_units(one.dual)) for one in certificate.document.set_lines)
    return plain(sum(duals, Fraction(0))), plain(sum(sets, Fraction(0)))


def sum_in_words(scene: Scene) -> str:
    """What is behind the weight in the caption of such a picture."""
    discs, widths = lengths(scene)
    if not widths:
        return ", as long as all radii"
    return " = %s in radii + %s in moats" % (shown(discs), shown(widths))


def shown(number: Number) -> str:
    """A number as people read it: to at most three places."""
    return str(number) if isinstance(number, int) else ("%.3f" % number).rstrip("0").rstrip(".")
