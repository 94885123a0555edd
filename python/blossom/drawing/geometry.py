"""Points of the plane: hulls, and curves between nodes."""
from __future__ import annotations

from math import cos, hypot, pi, sin
from typing import List, Sequence, Tuple

Point = Tuple[float, float]
CORNERS = 40
#: How far a loop spreads to either side of its direction.
LOOP = 0.55


def turn(origin: Point, first: Point, second: Point) -> float:
    """Above 0 where the way from the first point to the second turns left around the origin."""
    return ((first[0] - origin[0]) * (second[1] - origin[1])
            - (first[1] - origin[1]) * (second[0] - origin[0]))


def half_hull(points: Sequence[Point]) -> List[Point]:
    """One side of the hull of sorted points, without its last point."""
    kept: List[Point] = []
    for point in points:
        while len(kept) > 1 and turn(kept[-2], kept[-1], point) <= 0:
            kept.pop()
        kept.append(point)
    return kept[:-1]


def hull(points: Sequence[Point]) -> List[Point]:
    """The convex hull, counter-clockwise: the corners alone."""
    ordered = sorted(set(points))
    return ordered if len(ordered) < 3 else half_hull(ordered) + half_hull(ordered[::-1])


def rounded_hull(points: Sequence[Point], margins: Sequence[float]) -> List[Point]:
    """The hull of discs around the points, each with its own radius."""
    around = [(cos(2 * pi * corner / CORNERS), sin(2 * pi * corner / CORNERS))
              for corner in range(CORNERS)]
    return hull([(x + margin * dx, y + margin * dy)
                 for (x, y), margin in zip(points, margins) for dx, dy in around])


def toward(start: Point, end: Point, length: float) -> Point:
    """The point so far from the start in the direction of the end."""
    distance = hypot(end[0] - start[0], end[1] - start[1]) or 1.0
    part = length / distance
    return start[0] + (end[0] - start[0]) * part, start[1] + (end[1] - start[1]) * part


def control_point(start: Point, end: Point, bend: float) -> Point:
    """The control point of a curve that passes so far to the side of the middle."""
    distance = hypot(end[0] - start[0], end[1] - start[1]) or 1.0
    middle = ((start[0] + end[0]) / 2, (start[1] + end[1]) / 2)
    aside = 2 * bend / distance
    return middle[0] - (end[1] - start[1]) * aside, middle[1] + (end[0] - start[0]) * aside


def loop_controls(place: Point, direction: float, reach: float) -> Tuple[Point, Point]:
    """The two control points of a curve from a place back to it that reaches so far in this
    direction."""
    away = reach / (0.75 * cos(LOOP))  # (a curve of the third degree comes three quarters as far)
    first, second = ((place[0] + away * cos(angle), place[1] + away * sin(angle))
                     for angle in (direction - LOOP, direction + LOOP))
    return first, second


def on_curve(corners: Sequence[Point], part: float) -> Point:
    """The point of a curve with these corners (its start, what it is bent towards, its end) at this
    part of its way, from 0 to 1."""
    points = list(corners)
    while len(points) > 1:
        points = [((1 - part) * one[0] + part * other[0], (1 - part) * one[1] + part * other[1])
                  for one, other in zip(points, points[1:])]
    return points[0]


def arrow_head(tip: Point, origin: Point, length: float) -> List[Point]:
    """A triangle with this tip that points away from the origin."""
    back = toward(tip, origin, length)
    side = ((tip[1] - back[1]) * 0.42, (back[0] - tip[0]) * 0.42)
    return [tip, (back[0] + side[0], back[1] + side[1]), (back[0] - side[0], back[1] - side[1])]
