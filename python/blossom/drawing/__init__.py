"""Pictures of answers: SVG by this package alone, PNG and other formats by matplotlib.

`answer.draw(positions, file="picture.svg")` writes SVG; `.png` and `.pdf` need matplotlib. Used
edges are bold, walks are numbered arrows, odd sets hulls or moats, and duals discs: yellow if
positive, violet if negative. What proves infeasibility is red: `blossom.draw(error)`. The heaviest
edges of a bottleneck are orange and its barrier red. A Gallai-Edmonds decomposition has the
components of D shaded, A orange, and missed nodes open.

![Two red nodes, without which four odd components are left](pictures/barrier.svg)

![The tour: numbered arrows, orange if a street is driven again](pictures/tour.svg)

| Argument | Meaning | Default |
|---|---|---|
| `positions` | where each node is, y upwards, in any unit | `pos`, or `x` and `y`, of the graph; else a layout |
| `file` | where to write it: a path, or a file that is open for bytes | nowhere |
| `width`, `height` | in pixels | 640 wide, more for more than 200 nodes |
| `labels` | names of nodes: `True`, `False`, or texts by node | up to 80 nodes |
| `weights` | whether weights are written at the edges | up to 30 edges, but not for tours |
| `steps` | whether the steps of a walk have numbers | up to 100 steps |
| `duals`, `odd_sets` | whether these are drawn | up to 200 nodes |
| `dual_length` | the length of a unit of weight in units of the positions | to scale if edges weigh as their lengths |
| `unused_edges` | whether unused edges are drawn | yes; beside discs and moats up to three a node |
| `caption`, `axes` | a line below; axes of matplotlib to draw on | yes; none |
"""
from __future__ import annotations

import numbers
import os
from dataclasses import dataclass
from typing import IO, Any, Mapping, Optional, Tuple, Union

from ..answers import Answer
from ..arguments import refuse_no_file, refuse_unless
from ..certificates import Certificate
from ..errors import ArgumentError, NoOptimum
from .compose import compose, title
from .scene import Words, scene_of
from .shapes import Sheet
from .svg import svg

Position = Tuple[float, float]
File = Union[str, os.PathLike[str], IO[bytes]]


#: The formats of pictures; all but the first are written by matplotlib.
PICTURES = ("svg", "png", "pdf")


@dataclass(repr=False)
class Picture:
    """A picture of an answer. A notebook shows it as it is."""

    sheet: Sheet
    title: str

    def svg(self) -> str:
        """The picture as the text of an SVG file."""
        return svg(self.sheet, self.title)

    def save(self, file: File, format: Optional[str] = None) -> None:
        """Write it to a file.

        Parameters
        ----------
        file : path or file open for bytes
            Where to write it.
        format : "svg", "png" or "pdf"
            By default what the ending of the path says, or svg. All but svg need matplotlib.

        Raises
        ------
        ArgumentError
            If the format is unknown.
        ImportError
            If the format needs matplotlib, and it isn't installed.
        """
        refuse_no_file(file)
        target: Any = file
        chosen = format_of_picture(target, format)
        if chosen != "svg":
            from . import raster

            raster.save(self.sheet, target, chosen)
        elif hasattr(target, "write"):
            target.write(self.svg().encode("utf-8"))
        else:
            with open(target, "w", encoding="utf-8") as opened:
                opened.write(self.svg())

    def on_axes(self, axes: Any) -> None:
        """Draw it on axes of matplotlib."""
        from . import raster

        raster.on_axes(self.sheet, axes)

    def __repr__(self) -> str:
        return "<picture: %s>" % self.title

    def _repr_svg_(self) -> str:
        return self.svg()


def format_of_picture(file: Any, format: Optional[str] = None) -> str:
    """The format that is passed, or that the ending of a path says. ArgumentError: it is none that
    pictures are written in."""
    ending = "" if hasattr(file, "write") else os.path.splitext(os.fspath(file))[1]
    chosen = format or ending[1:].lower() or "svg"
    if chosen not in PICTURES:
        raise ArgumentError("unknown picture format %r: choose from %s"
                            % (chosen, ", ".join(PICTURES)))
    return chosen


def draw(subject: Union[Answer, Certificate, NoOptimum],
         positions: Optional[Mapping[Any, Position]] = None, file: Optional[File] = None, *,
         width: Optional[float] = None, height: Optional[float] = None,
         labels: Union[None, bool, Mapping[Any, str]] = None, weights: Optional[bool] = None,
         steps: Optional[bool] = None, duals: Optional[bool] = None,
         odd_sets: Optional[bool] = None, dual_length: Optional[float] = None,
         unused_edges: Optional[bool] = None, caption: bool = True, axes: Any = None) -> Picture:
    """Draw an answer, or what shows that there is none.

    Used edges are bold. The steps of a walk are numbered arrows, orange if an edge is walked again.
    Duals are discs, yellow if positive and violet if negative. Odd sets are shaded hulls. What
    shows that there is no solution is red: a barrier, a closed set or a negative cycle.

    For `bottleneck` the heaviest edges are orange. Red is the barrier that shows that they are
    needed, and the odd components that lighter edges leave without it are shaded. For `gallai` the
    components of D are shaded, the nodes of A are orange, and the nodes that the matching misses
    are open.

    With `dual_length` duals are drawn to scale. The radius of a disc is the dual of its node, and
    around an odd set there is a moat as wide as its dual. If weights are distances, discs and moats
    don't overlap, and every perfect matching crosses them all. So a matching whose edges lie in
    discs and moats alone has minimum weight. This is the default for a perfect matching whose edges
    weigh their lengths in the picture. For other kinds hulls are wider by the duals of their sets.

    If a kind has duals for vertices of its own, a disc shows the mean of those of a node. A set
    shows the nodes of its members.

    Parameters
    ----------
    subject : Answer, Certificate or NoOptimum
        What to draw.
    positions : mapping of nodes to (x, y)
        The position of each node in any unit, with y upwards. By default the `pos` (or `x` and `y`)
        of a networkx graph, or a layout.
    file : path or file open for bytes
        Where to write the picture besides: see `Picture.save`.
    width, height : float
        The size in pixels; by default 640, and more for over 200 nodes or if the positions require
        it.
    labels : bool or mapping of nodes to str
        Whether nodes have names, or texts in their place; by default up to 80 nodes have names.
    weights : bool
        Whether edges have weights; by default up to 30 edges have, but not those of tours.
    steps : bool
        Whether the steps of a walk have numbers; by default up to 100 steps have. From 500 steps
        they are lines without arrowheads.
    duals, odd_sets : bool
        Whether these are drawn; by default for up to 200 nodes. `odd_sets` includes the components
        of `bottleneck` and `gallai`.
    dual_length : float
        The length of a unit of weight, in units of the positions.
    unused_edges : bool
        Whether unused edges are drawn; by default they are, but with discs and moats only up to
        three edges for each node.
    caption : bool
        Whether a line below the picture says what it is.
    axes : matplotlib.axes.Axes
        Axes to draw on besides.

    Returns
    -------
    Picture
        The picture, which a notebook shows.

    Raises
    ------
    TypeError
        If the subject has no certificate or answer to draw.
    GraphError
        If a node has no position.

    Examples
    --------
    >>> answer = blossom.min_weight_perfect_matching([("a", "b", 1), ("b", "c", 4), ("c", "d", 1)])
    >>> blossom.draw(answer, {"a": (0, 0), "b": (1, 0), "c": (1, 1), "d": (0, 1)}).svg()[:4]
    '<svg'
    """
    shown = subject.certificate if isinstance(subject, NoOptimum) else subject
    if not isinstance(shown, (Answer, Certificate)):
        raise TypeError("cannot draw a %s: expected an Answer, a Certificate or an exception with a"
                        " certificate" % type(shown).__name__)
    for name, number in (("width", width), ("height", height), ("dual_length", dual_length)):
        refuse_unless(isinstance(number, (numbers.Real, type(None))), name, "a number", number)
    refuse_unless(axes is None or hasattr(axes, "add_collection"), "axes", "axes of matplotlib",
                  axes)
    scene = scene_of(shown, positions, Words(width, height, labels, weights, steps, duals, odd_sets,
                                             dual_length, caption, unused_edges))
    picture = Picture(compose(scene, caption), title(scene))
    if file is not None:
        picture.save(file)
    if axes is not None:
        picture.on_axes(axes)
    return picture


def page(answer: Answer, positions: Optional[Mapping[Any, Position]] = None,
         file: Optional[File] = None, **words: Any) -> str:
    """The page of an answer with its picture: see `Answer.to_html`."""
    from . import html

    picture = draw(answer, positions, **words)
    text = html.page_of(answer, picture.title, svg(picture.sheet, picture.title, tags=True))
    if file is not None:
        refuse_no_file(file)
    target: Any = file
    if hasattr(target, "write"):
        target.write(text.encode("utf-8"))
    elif target is not None:
        with open(target, "w", encoding="utf-8") as opened:
            opened.write(text)
    return text
