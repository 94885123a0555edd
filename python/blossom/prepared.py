"""Calls of the library for joins that are made many times in one graph. The graph is put down once;
a call writes sets of terminals, and reads the edges of their joins."""
from __future__ import annotations

import ctypes
import functools
from array import array
from typing import Any, Callable, Collection, List, NamedTuple, Optional, Union

from .array_library import ANSWER_TYPES, DONE, JOIN_TYPES, JOINED, most_of_joins
from .buffers import Numbers, address

#: The types of the parameters of a call up to the starts, and of those after the terminals but the
#: last, by which the length of the answer is told.
FIRST, LAST = JOIN_TYPES[:-2], ANSWER_TYPES[:-1]


def ones_in(array: Any) -> List[int]:
    """Where the numbers of an array of numpy that aren't 0 stand, in their order."""
    places: List[int] = array.nonzero()[0].tolist()
    return places


def places_of_ones(flags: Union[bytes, bytearray]) -> List[int]:
    """Where the bytes that are 1 stand, in their order. Where few are, this takes less time than a
    look at each."""
    places, find = [], flags.find
    place = find(1)
    while place >= 0:
        places.append(place)
        place = find(1, place + 1)
    return places


class Joins(NamedTuple):
    """What sets of terminals came to, as arrays of 64 bits.

    outcomes: one for each set. weights: those of the joins. starts: where the edges of each join
    start, and the end of the last. edges: those of all joins in turn, from 1."""

    outcomes: Any
    weights: Any
    starts: Any
    edges: Any


def joins_in(numbers: memoryview, sets: int) -> Joins:
    """The joins of so many sets, as copies of the numbers of an answer."""
    ends, parts = [0, sets, 2 * sets, 3 * sets + 1, len(numbers)], []
    for first, last in zip(ends, ends[1:]):
        part = array("q")
        part.frombytes(numbers[first:last].cast("B"))
        parts.append(part)
    return Joins(*parts)


def graph_words(numbers: Numbers) -> List[int]:
    """The parameters of a call for joins that say what the graph is."""
    words = [numbers.vertices]
    for items in (numbers.first, numbers.second, numbers.weights):
        words.extend(address(items))
    return words


class PreparedCall:
    """A call for the join of one set of terminals over arrays that stay where they are, for one
    thread at a time.

    join: `blossom_join_arrays` of the library. numbers: the graph."""

    def __init__(self, join: Any, numbers: Numbers) -> None:
        self._numbers = numbers  # (whose arrays live as long as the call)
        self._starts = array("I", [0, 0])
        self._room = bytearray(8 * most_of_joins(1, len(numbers.first)))
        self._found = memoryview(self._room).cast("q")
        self._used = ctypes.c_size_t()
        words = [*graph_words(numbers), *address(self._starts)]
        self._call = functools.partial(join, *(of(word) for of, word in zip(FIRST, words)))
        room = [ctypes.addressof(ctypes.c_char.from_buffer(self._room)), len(self._found)]
        self._last = [*(of(word) for of, word in zip(LAST, room)), ctypes.byref(self._used)]
        self._weight_at = [0, *numbers.weights.tolist()].__getitem__

    def used(self, odd: Collection[int]) -> Optional[List[int]]:
        """The places of the edges of a best join of these vertices (counted from 0), in their
        order. None: the call came to anything else than a join that weighs what it says."""
        terminals = array("I", [vertex + 1 for vertex in odd])
        self._starts[1] = len(terminals)
        status, found = self._call(*address(terminals), *self._last), self._found
        if status != DONE or found[0] != JOINED or self._used.value != 4 + found[3]:
            return None
        edges = found[4:4 + found[3]].tolist()
        is_sound = sum(map(self._weight_at, edges)) == found[1]
        return [edge - 1 for edge in edges] if is_sound else None


class PreparedCalls:
    """Prepared calls in one graph, as many as threads that call at once, and calls for many sets.

    make: makes one more. many: the joins of sets of terminals, whose starts and vertices are arrays
    of 32 bits; None if there was no answer."""

    def __init__(self, make: Callable[[], PreparedCall],
                 many: Callable[[Any, Any], Optional[Joins]]) -> None:
        self._make, self.many = make, many
        self._idle: List[PreparedCall] = []

    def used(self, odd: Collection[int]) -> Optional[List[int]]:
        """See `PreparedCall.used`."""
        try:
            call = self._idle.pop()
        except IndexError:
            call = self._make()
        places = call.used(odd)
        self._idle.append(call)  # (one that was interrupted isn't used again)
        return places

    def __reduce__(self) -> Any:
        """A copy, here or in another process, prepares calls of its own."""
        return PreparedCalls, (self._make, self.many)
