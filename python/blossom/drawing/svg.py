"""Pictures as SVG, without any other library."""
from __future__ import annotations

from typing import List, Tuple
from xml.sax.saxutils import escape, quoteattr

from .shapes import Area, Curve, Disc, Shape, Sheet, Text

FONT = "Helvetica, Arial, sans-serif"


def short(number: float) -> str:
    """A number of pixels, to a tenth."""
    text = "%.1f" % number
    return text[:-2] if text.endswith(".0") else text


def point(place: Tuple[float, float]) -> str:
    """A point as SVG has it."""
    return "%s,%s" % (short(place[0]), short(place[1]))


def tagged(shape: Shape) -> str:
    """The element of a shape, with an attribute that says which part of the picture it is."""
    tag = "" if isinstance(shape, Text) else shape.tag
    name, space, rest = element(shape).partition(" ")
    return '%s data-part="%s"%s%s' % (name, tag, space, rest) if tag else name + space + rest


def element(shape: Shape) -> str:
    """The element of a shape."""
    if isinstance(shape, Curve):
        dashes = ' stroke-dasharray="5 4"' if shape.dashed else ""
        start, *others = map(point, shape.corners)
        return '<path d="M%s %s%s" fill="none" stroke="%s" stroke-width="%s"%s/>' % (
            start, "Q" if shape.second is None else "C", " ".join(others), shape.colour,
            short(shape.width), dashes)
    if isinstance(shape, Text):
        return text_element(shape)
    line = "" if shape.line == "none" else (
        ' stroke="%s" stroke-width="%s"' % (shape.line, short(shape.line_width)))
    opacity = "" if shape.opacity == 1 else ' fill-opacity="%g"' % shape.opacity
    look = ' fill="%s"%s%s/>' % (shape.fill, opacity, line)
    if isinstance(shape, Area):
        return '<polygon points="%s"' % " ".join(point(corner) for corner in shape.corners) + look
    assert isinstance(shape, Disc)
    numbers = (*shape.centre, shape.radius)
    return '<circle cx="%s" cy="%s" r="%s"' % tuple(map(short, numbers)) + look


def text_element(shape: Text) -> str:
    """The element of a text."""
    rim = ""
    if shape.rim:
        rim = ' stroke="white" stroke-width="3" stroke-linejoin="round" paint-order="stroke"'
    weight = ' font-weight="bold"' if shape.bold else ""
    return '<text x="%s" y="%s" font-size="%s" text-anchor="%s" fill="%s"%s%s>%s</text>' % (
        short(shape.centre[0]), short(shape.centre[1] + 0.35 * shape.size), short(shape.size),
        shape.anchor, shape.colour, weight, rim, escape(shape.words))


def svg(sheet: Sheet, title: str, tags: bool = False) -> str:
    """The picture as the text of an SVG file; the title is what a reader of the screen says. tags:
    whether elements say which part of the picture they are."""
    left, top, width, height = map(short, (sheet.left, sheet.top, sheet.width, sheet.height))
    lines: List[str] = [
        '<svg xmlns="http://www.w3.org/2000/svg" width="%s" height="%s" viewBox="%s %s %s %s"'
        ' font-family=%s>' % (width, height, left, top, width, height, quoteattr(FONT)),
        "<title>%s</title>" % escape(title),
        '<rect x="%s" y="%s" width="100%%" height="100%%" fill="white"/>' % (left, top)]
    write = tagged if tags else element
    return "\n".join(lines + [write(shape) for shape in sheet.shapes] + ["</svg>\n"])
