"""Weights as integers: the solver takes no others, and nothing is rounded unless the caller says
so.

Weights are integers of at most 10^12 in absolute value. For others say how to round: `scale=1000`
multiplies all, `rounding="nearest"` rounds, `scale="finest"` takes the finest power of two that
fits. Weights and duals come back in your units, as a `Fraction` if they aren't integers. A float
means the decimal number that Python prints for it.
"""
from __future__ import annotations

import math
import numbers
from fractions import Fraction
from typing import Any, Callable, Iterable, List, Literal, Optional, Union

from .errors import ArgumentError, WeightError
from .kinds import MOST_WEIGHT
from .numbers_in_text import Exact
from .wording import argument, shown, word

Scale = Union[int, float, str, Fraction]
Rounding = Optional[Literal["nearest"]]
ROUNDINGS = (None, "nearest")
ONE = Fraction(1)
# Weights of more decimal places than these get no advice on a scale: times it they would pass the
# limit.
MOST_PLACES = 12


def refuse_rounding(rounding: Any) -> None:
    """ArgumentError: weights aren't rounded so."""
    if rounding not in ROUNDINGS:
        raise ArgumentError("rounding must be None or 'nearest', got %r" % (rounding,))


def exact(weight: Any, edge: Any) -> Fraction:
    """The number that a weight is. A float is the decimal number that Python prints for it, so that
    0.1 is one tenth. WeightError: it isn't a number, or not finite."""
    try:
        if isinstance(weight, str):
            raise ValueError
        if isinstance(weight, numbers.Rational):
            return Fraction(weight)
        return Fraction(str(weight))
    except (ValueError, TypeError, OverflowError):
        raise WeightError("weight of edge %r must be a finite number, got %r"
                          % (edge, weight)) from None


def scale_of(scale: Scale, weights: Iterable[Any], name: Callable[[int], Any]) -> Fraction:
    """The scale as a number. `"finest"` is the greatest power of two by which all weights stay
    within 10^12, or 1 if all are integers already. name: that of the edge at an index.
    WeightError: the scale isn't a positive number."""
    if type(scale) is int and scale == 1:
        return ONE
    if isinstance(scale, str) and scale == "finest":
        return finest([exact(weight, name(index)) for index, weight in enumerate(weights)])
    try:
        number = Fraction(str(scale)) if isinstance(scale, float) else Fraction(scale)
    except (ValueError, TypeError, OverflowError, ZeroDivisionError):
        number = Fraction(0)
    if number <= 0:
        raise WeightError("%s must be a positive number or 'finest', got %r"
                          % (argument("scale"), scale))
    return number


def finest(weights: List[Fraction]) -> Fraction:
    """The scale of `"finest"` for these weights."""
    greatest = max((abs(weight) for weight in weights), default=Fraction(0))
    all_whole = all(weight.denominator == 1 for weight in weights)
    if greatest == 0 or (greatest <= MOST_WEIGHT and all_whole):
        return Fraction(1)
    power = math.floor(math.log2(MOST_WEIGHT / greatest))
    scale = Fraction(2) ** power
    return scale if greatest * scale <= MOST_WEIGHT else scale / 2


def advice(weights: Iterable[Any], form: str) -> str:
    """What makes all of these weights integers, in words. form: how arguments are passed."""
    given = [exact(one, "") for one in weights if is_finite(one)]
    greatest = max((abs(one) for one in given), default=Fraction(0))
    rounded = form % word("scale", "finest")
    for scale in (10**places for places in range(1, MOST_PLACES + 1)):
        if greatest * scale <= MOST_WEIGHT and all(scale % one.denominator == 0 for one in given):
            return ("pass %s to multiply all weights, or %s to round them"
                    % (form % word("scale", scale), rounded))
    return "pass %s to round all weights to multiples of a power of two" % rounded


def is_finite(weight: Any) -> bool:
    """Whether a weight is a finite number."""
    try:
        exact(weight, "")
    except WeightError:
        return False
    return True


def whole(weight: Any, scale: Fraction, rounding: Optional[str], edge: Any,
          others: Iterable[Any] = (), form: str = "%s") -> int:
    """The weight times the scale as an integer. edge: what a refusal names. others: the weights
    that its advice is to make integers too. form: how its arguments are passed.
    WeightError: the product isn't an integer, and `rounding` isn't "nearest"; or it is outside
    -10^12 to 10^12."""
    if type(weight) is int and scale == 1:
        value = weight
    else:
        number = exact(weight, edge)
        scaled = number * scale
        if scaled.denominator != 1 and rounding != "nearest":
            times = "" if scale == 1 else " × scale %s" % shown(scale)
            raise WeightError("weight of edge %r must be an integer, got %s%s: %s"
                              % (edge, shown(weight), times, advice([weight, *others], form)))
        value = round(scaled)
    if not -MOST_WEIGHT <= value <= MOST_WEIGHT:
        times = "" if scale == 1 else " (times the scale %s)" % shown(scale)
        raise WeightError("weight of edge %r is %s%s, outside ±10^12: pass a smaller scale, e.g."
                          " %s and %s" % (edge, shown(value), times,
                                       word("scale", smaller(scale, value)),
                                       word("rounding", "nearest")))
    return value


def smaller(scale: Fraction, value: int) -> Scale:
    """A scale by which this weight would be within the limit."""
    digits = len(str(abs(value) - 1)) - len(str(MOST_WEIGHT)) + 1
    return float(scale / 10**digits) or "finest"


def all_whole(weights: List[Any], scale: Fraction, rounding: Optional[str],
              name: Callable[[int], Any]) -> List[int]:
    """`whole` of each of the weights: those of one type, whole as they are, at once. name: that of
    the edge at an index."""
    types, ready = set(map(type, weights)) if scale is ONE or scale == 1 else set(), weights
    if types == {float} and all(map(float.is_integer, weights)):
        types, ready = {int}, list(map(int, weights))
    if types == {int} and -MOST_WEIGHT <= min(ready) and max(ready) <= MOST_WEIGHT:
        return ready
    return [whole(one, scale, rounding, name(index), others=weights)
            for index, one in enumerate(weights)]


def plain(number: Fraction) -> Union[int, Fraction]:
    """The number, as an int if it is whole; else it prints as a decimal number."""
    return int(number) if number.denominator == 1 else Exact(number)
