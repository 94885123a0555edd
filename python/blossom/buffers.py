"""An instance as numbers in arrays, of `array` or of numpy: what a call by the library takes, and
what the text of an instance is made of."""
from __future__ import annotations

from array import array
from typing import Any, List, NamedTuple, Optional, Sequence, Tuple

#: An address for an array without items, since a call takes no 0.
NOWHERE = array("q", [0])
NO_CAPACITY = -1


class Numbers(NamedTuple):
    """An instance as numbers: how many vertices there are, the two ends of each edge (from 1), its
    weight, its capacity (-1 where it has none), and the value of each vertex, or its two bounds in
    turn. All but the first are arrays, of 32 bits without sign, or of 64 with one for weights and
    capacities. Without items capacities stand for none, and values for the usual ones of the
    kind."""

    vertices: int
    first: Any
    second: Any
    weights: Any
    capacities: Any
    values: Any


def is_of_numpy(items: Any) -> bool:
    """Whether the items are an array of numpy."""
    return hasattr(items, "ctypes")


def packed(code: str, items: Any) -> Any:
    """The items as an array of this type, or as they are where they are one of numpy."""
    return items if is_of_numpy(items) else array(code, items)


def numbers_of(vertices: int, first: Any, second: Any, weights: Any,
               capacities: Sequence[Optional[int]], values: Sequence[int],
               usual: Sequence[int]) -> Numbers:
    """The numbers of lists, or of arrays of numpy. usual: what a vertex has where nothing is
    given: its value, or its two bounds."""
    bounded = [] if capacities.count(None) == len(capacities) else [
        NO_CAPACITY if one is None else one for one in capacities]
    return Numbers(vertices, packed("I", first), packed("I", second), packed("q", weights),
                   array("q", bounded), values_of(values, usual))


def values_of(values: Sequence[int], usual: Sequence[int]) -> Any:
    """The values of vertices, or their bounds, as an array without items where all are the usual
    ones."""
    width = len(usual)
    is_usual = all(values[place::width].count(one) * width == len(values)
                   for place, one in enumerate(usual))
    return array("I", [] if is_usual else values)


def address(items: Any) -> Tuple[int, int]:
    """Where an array stands, and how many items it has."""
    if not len(items):
        return NOWHERE.buffer_info()[0], 0
    where: int = items.ctypes.data if is_of_numpy(items) else items.buffer_info()[0]
    return where, len(items)


def parameters(kind: int, numbers: Numbers) -> List[int]:
    """The parameters of a call that say what the instance is: the number of its kind, how many
    vertices there are, and an address and a length for each of the arrays."""
    words = [kind, numbers.vertices]
    for items in numbers[1:]:
        words.extend(address(items))
    return words
