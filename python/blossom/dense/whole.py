"""Arrays of weights as integers: what `blossom.weights` says of one weight, for millions at once.
A float is the decimal number that Python prints for it, here too."""
from __future__ import annotations

from fractions import Fraction
from typing import Any, Callable, Optional

from ..kinds import MOST_WEIGHT
from ..weights import Scale, exact, finest, scale_of, whole

#: A product of doubles, of which one stands for a decimal, differs by this part from the exact one.
PART = 2.0**-50
#: The advice of an error is for so many of the other weights.
SOME = 1000
#: So large a part of an array is converted at once.
BLOCK = 2**20


def scale_for(scale: Scale, values: Any) -> Fraction:
    """The scale as a number, where `values` are the finite weights. WeightError: see `scale_of`."""
    import numpy

    if scale != "finest" or not values.size:
        return scale_of(scale, (), int)
    if values.dtype.kind not in "iuf":
        return finest([exact(one, "of the matrix") for one in values.tolist()])
    rounded = numpy.rint(values) if values.dtype.kind == "f" else values
    broken = numpy.flatnonzero(rounded != values)[:1]
    chosen = [values.min(), values.max(), *values[broken]]
    return finest([exact(one.item(), "of the matrix") for one in chosen])


def whole_array(values: Any, scale: Fraction, rounding: Optional[str],
                name: Callable[[int], Any]) -> Any:
    """The weights of an array of one dimension, times the scale, as integers of 64 bits. name: that
    of the pair at a place. WeightError: see `blossom.weights.whole`."""
    import numpy

    found = numpy.empty(len(values), numpy.int64)
    for begin in range(0, len(values), BLOCK):
        part = values[begin:begin + BLOCK]
        own = found[begin:begin + BLOCK]
        doubtful = converted(part, scale, rounding, own)
        for place in numpy.flatnonzero(doubtful).tolist():
            weight = part[place].item() if hasattr(part[place], "item") else part[place]
            own[place] = whole(weight, scale, rounding, name(begin + place),
                               others=part[:SOME].tolist())
    return found


def converted(values: Any, scale: Fraction, rounding: Optional[str], found: Any) -> Any:
    """Writes the integers of these weights to `found`, and says at which of them that isn't known
    to be exact."""
    import numpy

    if values.dtype.kind not in "biuf" or not is_short(scale, rounding):
        return numpy.ones(len(values), bool)
    doubles = values.astype(numpy.float64)
    scaled = doubles * float(scale)
    large = ~(numpy.abs(scaled) <= MOST_WEIGHT)  # (nan is, too)
    scaled[large] = 0
    rounded = numpy.rint(scaled)
    found[:] = rounded
    if values.dtype.kind in "biu" and scale == 1:
        return large
    if rounding is not None:
        off = numpy.abs(scaled - numpy.floor(scaled) - 0.5)
        return large | (off <= numpy.abs(scaled) * PART)
    return large | (rounded / float(scale) != doubles)


def is_short(scale: Fraction, rounding: Optional[str]) -> bool:
    """Whether doubles tell exactly which weights are integers times the scale: if they are rounded,
    or else if it is a power of ten, since two decimals of 15 digits are two doubles."""
    if rounding is not None:
        return True
    return scale.denominator == 1 and scale <= MOST_WEIGHT and set(str(scale)[1:]) <= {"0"} and (
        str(scale)[0] == "1")

