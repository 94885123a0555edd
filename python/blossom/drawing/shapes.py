"""What a picture is made of: shapes on a sheet of pixels, whose y axis points down. Lengths are in
pixels; colours are as in CSS. A shape's tag says what it stands for ("edge 3", "node 0", "set 1"),
or is empty."""
from __future__ import annotations

from dataclasses import dataclass
from typing import List, Optional, Tuple, Union

from .geometry import Point

#: About how wide a letter is, in its size.
LETTER = 0.58


@dataclass
class Area:
    """A polygon with a line around it."""

    corners: List[Point]
    fill: str
    opacity: float = 1.0
    line: str = "none"
    line_width: float = 0.0
    tag: str = ""


@dataclass
class Disc:
    """A disc with a line around it."""

    centre: Point
    radius: float
    fill: str
    opacity: float = 1.0
    line: str = "none"
    line_width: float = 0.0
    tag: str = ""


@dataclass
class Curve:
    """A curve from start to end: of the second degree, bent towards the control point, or of the
    third one where it is bent towards a second one too, as a loop is."""

    start: Point
    control: Point
    end: Point
    colour: str
    width: float
    dashed: bool = False
    second: Optional[Point] = None
    tag: str = ""

    @property
    def corners(self) -> List[Point]:
        """Its start, what it is bent towards, and its end."""
        between = [self.control] if self.second is None else [self.control, self.second]
        return [self.start, *between, self.end]


@dataclass
class Text:
    """A text around a point, with a white rim where `rim` is True. anchor: "middle", "start" or
    "end"."""

    centre: Point
    words: str
    size: float
    colour: str
    rim: bool = False
    bold: bool = False
    anchor: str = "middle"


Shape = Union[Area, Disc, Curve, Text]


@dataclass
class Sheet:
    """Shapes, those behind first, and the rectangle of the plane that is shown: its upper left
    corner, its width and height."""

    left: float
    top: float
    width: float
    height: float
    shapes: List[Shape]


def corners_of(shape: Shape) -> List[Point]:
    """Points that no part of the shape reaches beyond, to all sides; none of curves between two
    nodes. How wide a text is can only be guessed."""
    if isinstance(shape, Area):
        return shape.corners
    if isinstance(shape, Disc):
        (x, y), size = shape.centre, shape.radius
        return [(x - size, y - size), (x + size, y + size)]
    if isinstance(shape, Text):
        (x, y), wide = shape.centre, LETTER * shape.size * len(shape.words)
        start = {"start": x, "middle": x - wide / 2, "end": x - wide}[shape.anchor]
        return [(start, y - shape.size / 2), (start + wide, y + shape.size / 2)]
    return [] if shape.second is None else shape.corners


def frame(width: float, height: float, shapes: List[Shape],
          rim: float) -> Tuple[float, float, float, float]:
    """The sides (left, top, right, bottom) of a sheet of this size, moved out where shapes would
    reach over them or nearer than the rim."""
    corners = [corner for shape in shapes for corner in corners_of(shape)] or [(rim, rim)]
    across, down = [x for x, _ in corners], [y for _, y in corners]
    return (min(0.0, min(across) - rim), min(0.0, min(down) - rim),
            max(width, max(across) + rim), max(height, max(down) + rim))
