"""Pictures by matplotlib: on axes that are given, or as PNG, PDF and whatever else it writes."""
from __future__ import annotations

import os
from itertools import groupby
from typing import IO, Any, List, Tuple, Union

from ..wording import wanted
from .shapes import Area, Curve, Disc, Shape, Sheet, Text

PIXELS_AN_INCH = 100.0
#: How many points of matplotlib's a pixel has.
POINTS = 72 / PIXELS_AN_INCH
NAMES = "pictures on axes, as PNG and as PDF"
SIDES = {"middle": "center", "start": "left", "end": "right"}


def add_text(axes: Any, shape: Text, order: int) -> None:
    """Draws a text over what has a lesser order."""
    effects = wanted("matplotlib.patheffects", NAMES)
    rim = [effects.withStroke(linewidth=3 * POINTS, foreground="white")] if shape.rim else []
    axes.text(*shape.centre, shape.words, fontsize=shape.size * POINTS, color=shape.colour,
              zorder=order, va="center_baseline", ha=SIDES[shape.anchor], path_effects=rim,
              weight="bold" if shape.bold else "normal")


def path_of(shape: Shape) -> Any:
    """The path of a shape that isn't a text."""
    path = wanted("matplotlib.path", NAMES).Path
    if isinstance(shape, Curve):
        corners = shape.corners
        degree = path.CURVE3 if shape.second is None else path.CURVE4
        return path(corners, [path.MOVETO] + [degree] * (len(corners) - 1))
    if isinstance(shape, Disc):
        return path.circle(shape.centre, shape.radius)
    assert isinstance(shape, Area)
    return path([*shape.corners, shape.corners[0]], closed=True)


def look_of(shape: Shape) -> Tuple[Any, Any, float, Any]:
    """The colours of a shape's face and line, the line's width and its dashes."""
    colour = wanted("matplotlib.colors", NAMES).to_rgba
    if isinstance(shape, Curve):
        dashes = (0, (4, 3)) if shape.dashed else "solid"
        return colour("none"), colour(shape.colour), shape.width * POINTS, dashes
    assert isinstance(shape, (Area, Disc))
    return (colour(shape.fill, shape.opacity), colour(shape.line), shape.line_width * POINTS,
            "solid")


def add_paths(axes: Any, shapes: List[Shape], order: int) -> None:
    """Draws shapes that are no texts, in their order, as one collection of paths: that is much
    faster than one by one."""
    faces, lines, widths, dashes = zip(*map(look_of, shapes))
    axes.add_collection(wanted("matplotlib.collections", NAMES).PathCollection(
        [path_of(shape) for shape in shapes], facecolors=faces, edgecolors=lines,
        linewidths=widths, linestyles=dashes, zorder=order, transform=axes.transData,
        capstyle="butt"), autolim=False)


def on_axes(sheet: Sheet, axes: Any) -> None:
    """Draws the sheet on axes of matplotlib, which then have its pixels as their units."""
    groups = groupby(sheet.shapes, key=lambda shape: isinstance(shape, Text))
    for order, (are_texts, shapes) in enumerate(groups, 2):
        if not are_texts:
            add_paths(axes, list(shapes), order)
            continue
        for shape in shapes:
            assert isinstance(shape, Text)
            add_text(axes, shape, order)
    axes.set_xlim(sheet.left, sheet.left + sheet.width)
    axes.set_ylim(sheet.top + sheet.height, sheet.top)
    axes.set_aspect("equal")
    axes.set_axis_off()


def save(sheet: Sheet, file: Union[str, os.PathLike[str], IO[bytes]], format: str,
         sharpness: float = 2.0) -> None:
    """Writes the sheet as a picture of this format. sharpness: dots for each pixel of the sheet."""
    figure = wanted("matplotlib.figure", NAMES).Figure(
        figsize=(sheet.width / PIXELS_AN_INCH, sheet.height / PIXELS_AN_INCH),
        dpi=PIXELS_AN_INCH * sharpness)
    wanted("matplotlib.backends.backend_agg", NAMES).FigureCanvasAgg(figure)
    on_axes(sheet, figure.add_axes((0, 0, 1, 1)))
    figure.savefig(file, format=format, facecolor="white")
