"""Points and the distances between them, as exact integers: no matrix of them is kept.

Distances are taken by doubles first. Where one of these is so near to a half that the doubles can't
tell which integer is nearest, the distance is compared exactly, by integers of Python."""
from __future__ import annotations

import copy
import math
from fractions import Fraction
from typing import Any, Callable, Dict, Literal, Optional, Tuple, Union

from ..errors import ArgumentError, GraphError, WeightError
from ..kinds import MOST_WEIGHT
from ..weights import Rounding, Scale, exact, scale_of
from ..wording import wanted, word
from .whole import converted

Metric = Union[Literal["euclidean", "manhattan", "chebyshev"], Callable[[Any, Any], Any]]
METRICS = ("euclidean", "manhattan", "chebyshev")
#: The distance of two points by doubles is wrong by this part of itself at most, and by this part
#: of the greatest coordinate.
PART, PART_OF_COORDINATES = 2.0**-49, 2.0**-46


def coordinates_of(points: Any) -> Any:
    """The points as an array of numpy with a row for each. GraphError: they are none."""
    import numpy

    given = points.to_numpy() if hasattr(points, "to_numpy") else points
    try:
        rows = numpy.asarray(given)
    except ValueError:
        rows = numpy.empty(0, object)
    if rows.size == 0 and rows.ndim == 1 and hasattr(given, "__len__") and not len(given):
        return numpy.empty((0, 2))
    if rows.ndim != 2 or rows.shape[1] not in (2, 3):
        raise GraphError("points must be an array of two or three columns: got the shape %s"
                         % (rows.shape,))
    if rows.dtype.kind not in "iuf":
        raise GraphError("points must be numbers: got an array of %s" % rows.dtype)
    if not numpy.isfinite(rows).all():
        place = int(numpy.flatnonzero(~numpy.isfinite(rows).all(axis=1))[0])
        raise GraphError("point %d is not finite: got %s" % (place, tuple(rows[place].tolist())))
    return rows.copy()


def metric_of(metric: Metric) -> Metric:
    """The metric. ValueError: there is none of that name."""
    if callable(metric) or metric in METRICS:
        return metric
    raise ArgumentError("unknown metric %r: choose from %s, or pass a function of two points"
                        % (metric, ", ".join(METRICS)))


class Distances:
    """The distances of points by one of `METRICS`, times a scale, as integers.

    Euclidean ones are rounded to the nearest integer, and without a scale the scale is the greatest
    power of ten at which all of them are within 10^12. Those of the other metrics are integers, or
    rounded if `rounding` says so; halves are rounded up. WeightError: they aren't integers, or
    one is over 10^12."""

    def __init__(self, points: Any, metric: str, scale: Optional[Scale],
                 rounding: Rounding) -> None:
        import numpy

        self.points, self.metric = points, metric
        self._exact: Dict[int, Tuple[Fraction, ...]] = {}
        values = points.astype(numpy.float64)
        self._size = float(numpy.abs(values).max()) if values.size else 0.0
        self._values = values - values.min(axis=0) if len(values) else values
        extent = self._values.max(axis=0) if len(values) else numpy.zeros(2)
        span = float(self._length(extent[None, :])[0])
        self.scale = self._scale(scale, span)
        self._values *= float(self.scale)
        self._error = self._size * float(self.scale) * PART_OF_COORDINATES
        if span * float(self.scale) > MOST_WEIGHT * (1 - PART) - self._error - 1:
            raise WeightError("the points span a distance of %g, which is over 10^12 times the"
                              " scale %s: pass a smaller one" % (span, self.scale))
        if metric != "euclidean" and rounding is None:
            self._refuse_broken()

    def _scale(self, scale: Optional[Scale], span: float) -> Fraction:
        """The scale as a number."""
        if scale is None and self.metric != "euclidean":
            return Fraction(1)
        if scale is not None and scale != "finest":
            return scale_of(scale, (), int)
        if not span:
            return Fraction(1)
        power = math.floor(math.log10(MOST_WEIGHT / span))
        while span * 10.0**power > MOST_WEIGHT / 2:
            power -= 1
        return Fraction(10)**power

    def _refuse_broken(self) -> None:
        """WeightError: the coordinates aren't all integers apart, times the scale."""
        import numpy

        for column in self.points.T:
            rounded = numpy.empty(len(column), numpy.int64)
            if not converted(column, self.scale, None, rounded).any():
                continue
            if len({exact(entry, "of a point") * self.scale % 1 for entry in column.tolist()}) > 1:
                raise WeightError("the coordinates aren't integers%s, so distances aren't: pass %s"
                                  " or another scale, or %s"
                                  % ("" if self.scale == 1 else " times the scale %s" % self.scale,
                                     word("scale", 1000), word("rounding", "nearest")))

    def _point(self, place: int) -> Tuple[Fraction, ...]:
        """A point times the scale, exactly."""
        if place not in self._exact:
            self._exact[place] = tuple(exact(entry, "of a point") * self.scale
                                       for entry in self.points[place].tolist())
        return self._exact[place]

    def _length(self, steps: Any) -> Any:
        """How long steps are, one in a row, by doubles."""
        import numpy

        if self.metric == "euclidean":
            return numpy.sqrt((steps * steps).sum(axis=1))
        across = numpy.abs(steps)
        return across.sum(axis=1) if self.metric == "manhattan" else across.max(axis=1)

    def _exact_length(self, one: int, other: int) -> int:
        """The nearest integer to the distance of two points."""
        across = [abs(a - b) for a, b in zip(self._point(one), self._point(other))]
        if self.metric == "euclidean":
            return (math.isqrt(math.floor(4 * sum(a * a for a in across))) + 1) // 2
        total = sum(across) if self.metric == "manhattan" else max(across)
        return (math.floor(2 * total) + 1) // 2

    def between(self, first: Any, second: Any) -> Any:
        """The distances of pairs of points, as integers of 64 bits."""
        import numpy

        lengths = self._length(self._values[first] - self._values[second])
        found = numpy.floor(lengths + 0.5).astype(numpy.int64)
        off = numpy.abs(lengths - numpy.floor(lengths) - 0.5)
        for place in numpy.flatnonzero(off <= lengths * PART + self._error).tolist():
            found[place] = self._exact_length(int(first[place]), int(second[place]))
        return found

    @property
    def error(self) -> float:
        """By how much a length of `block` differs from the integer at most."""
        return 1 + self._error + MOST_WEIGHT * PART

    def block(self, begin: int, end: int, start: int, last: int) -> Any:
        """How far each of the points `begin` to `end` is from each of `start` to `last`, by
        doubles."""
        import numpy

        total: Any = None
        for column in self._values.T:
            across = column[begin:end, None] - column[None, start:last]
            if self.metric == "euclidean":
                across *= across
            else:
                numpy.abs(across, out=across)
            if total is None:
                total = across
            elif self.metric == "chebyshev":
                numpy.maximum(total, across, out=total)
            else:
                total += across
        if self.metric == "euclidean":
            numpy.sqrt(total, out=total)
        return total

    def tree_order(self) -> float:
        """The metric as trees of points name it."""
        return {"euclidean": 2, "manhattan": 1}.get(self.metric, float("inf"))

    def neighbours(self, most: int) -> Any:
        """For each point so many of the nearest, by a k-d tree; itself may be among them."""
        tree = wanted("scipy.spatial", "trees of points").cKDTree(self._values)
        return tree.query(self._values, most + 1, p=self.tree_order())[1]

    def by_first(self) -> Tuple[Any, Any]:
        """The places of the points by their first coordinates, and these, in this order."""
        import numpy

        order = numpy.argsort(self._values[:, 0], kind="stable")
        return order, self._values[order, 0]

    def chosen(self, places: Any) -> "Distances":
        """The same distances of these points alone, for `block`."""
        other = copy.copy(self)
        other._values = self._values[places]
        return other
