"""The document of an answer that came as numbers in an array.

What it states is made when somebody asks for it. A check of the answer takes the numbers as they
came. What follows the head of an answer stands in `capi/blossom.h`."""
from __future__ import annotations

import sys
from array import array
from functools import cached_property
from itertools import accumulate, compress
from typing import Any, Dict, List, Optional, Tuple

from .documents import Document, SetLine, Status
from .kinds import OF_NODES, WALKED

#: How an answer begins: its state, weight, start of a walk, and how many numbers each part has.
HEAD = 8
STATES: Dict[int, Status] = {1: "optimal", 2: "infeasible", 3: "nonconservative"}
STATE_NUMBERS: Dict[str, int] = {state: number for number, state in STATES.items()}
#: What excludes all answers of a kind, of those whose instances have no barrier for it.
PARTS = {"tjoin": "odd_part", "path": "odd_part", "postman": "split_part"}
#: The parts that follow the head, in their order.
ANSWER, DUALS, SETS, OFFSETS, MEMBERS, EXCLUDING = range(6)
#: What is made of the numbers when somebody asks for it.
MADE = frozenset({"counts", "walk", "duals", "set_lines", "barrier", "odd_part", "split_part",
                  "outer", "paths"})
#: So few counts are looked at one by one.
FEW = 100


class ArrayDocument(Document):
    """A document over the numbers of an answer.

    An optimal answer of `bottleneck` has a barrier where it uses an edge: that is where there are
    vertices. Of `gallai` the sets are paths: their edges stand in place of members, and the
    vertices that they begin at in place of duals.

    numbers: all of them, as an array of 64 bits. brief: it has nothing that proves the answer, or
    that there is none."""

    def __init__(self, kind: str, numbers: Any, brief: bool = False) -> None:
        state, weight, self._start, answers, duals, sets, members, excluding = numbers[:HEAD]
        proof = (0,) * 5 if brief else (duals, sets, sets + 1, members, excluding)
        self._places = tuple(accumulate((HEAD, answers, *proof)))
        self._numbers, self._is_brief = numbers, brief
        self.status, self.kind = STATES[state], kind
        self.weight = weight if self.status == "optimal" else None

    def _part(self, part: int) -> memoryview:
        """The numbers of a part."""
        return memoryview(self._numbers)[self._places[part]:self._places[part + 1]]

    @property
    def _is_walk(self) -> bool:
        """Whether its answer is a list of edges, and not how often each edge is used."""
        return self.status == "nonconservative" or self.kind in WALKED

    @property
    def _is_decomposition(self) -> bool:
        """Whether its sets are paths."""
        return self.kind == "gallai" and not self._is_brief

    @cached_property
    def counts(self) -> Dict[int, int]:  # type: ignore[override]
        is_counted = self.status != "infeasible" and not self._is_walk
        return used(self._part(ANSWER)) if is_counted else {}

    @cached_property
    def walk(self) -> Optional[Tuple[int, List[int]]]:  # type: ignore[override]
        is_walked = self.status != "infeasible" and self._is_walk and self._start
        return (self._start, self._part(ANSWER).tolist()) if is_walked else None

    @cached_property
    def duals(self) -> Dict[int, int]:  # type: ignore[override]
        return dict(enumerate(self._part(DUALS).tolist(), 1))

    def _items(self) -> List[List[int]]:
        """The members of each set, or the edges of each path."""
        offsets, held = self._part(OFFSETS).tolist(), self._part(MEMBERS).tolist()
        return [held[begin:end] for begin, end in zip(offsets, offsets[1:])]

    @cached_property
    def set_lines(self) -> List[SetLine]:  # type: ignore[override]
        if self.kind == "gallai":
            return []
        return list(map(set_of, self._part(SETS).tolist(), self._items()))

    @cached_property
    def outer(self) -> Optional[List[int]]:  # type: ignore[override]
        return self._part(SETS).tolist() if self._is_decomposition else None

    @cached_property
    def paths(self) -> Dict[int, List[int]]:  # type: ignore[override]
        return dict(zip(self.outer, self._items())) if self.outer is not None else {}

    @cached_property
    def barrier(self) -> Optional[List[int]]:  # type: ignore[override]
        return self._excluding("barrier")

    @cached_property
    def odd_part(self) -> Optional[List[int]]:  # type: ignore[override]
        return self._excluding("odd_part")

    @cached_property
    def split_part(self) -> Optional[List[int]]:  # type: ignore[override]
        return self._excluding("split_part")

    def _excluding(self, name: str) -> Optional[List[int]]:
        """What excludes other answers, if it has this name."""
        if not self._has_obstruction() or PARTS.get(self.kind, "barrier") != name:
            return None
        found: List[int] = self._part(EXCLUDING).tolist()
        return found

    def _has_obstruction(self) -> bool:
        """Whether something excludes other answers."""
        return not self._is_brief and (
            self.status == "infeasible" or self.kind == "gallai"
            or self.kind == "bottleneck" and any(self._part(ANSWER)))

    def places(self) -> List[int]:
        if not MADE.isdisjoint(vars(self)):
            return super().places()  # (somebody may have changed it)
        if self.status == "infeasible" or self._is_walk and not self._start:
            return []
        own = self._part(ANSWER)
        return sorted({edge - 1 for edge in own}) if self._is_walk else places_of(own)

    def edge_numbers(self) -> List[int]:
        if self.status == "infeasible":
            return []
        if self._is_walk:
            found: List[int] = self._part(ANSWER).tolist()
            return found
        counted = self._places[DUALS] - self._places[ANSWER]
        paths = self._part(MEMBERS).tolist() if self._is_decomposition else []
        return [counted, *paths] if counted else paths

    def node_numbers(self) -> List[int]:
        walked = [self._start] if self._is_walk and self._start else []
        outer = self._part(SETS).tolist() if self._is_decomposition else []
        is_of_nodes = self.kind in OF_NODES or self.kind in PARTS
        excluding = is_of_nodes and self._has_obstruction()
        return [*walked, *outer, *(self._part(EXCLUDING) if excluding else ())]

    def is_whole(self) -> bool:
        if self.kind == "gallai":
            return not self._is_brief
        if self.status == "optimal" and self.kind != "bottleneck":
            return bool(self._part(DUALS))
        return self.status == "nonconservative" or self._has_obstruction()

    def numbers_for(self, edges: int) -> Any:
        """All numbers as they came, for a check on a graph of so many edges. None: they are of
        another graph, are no proof, or somebody may have changed what was made of them."""
        is_same = (self.status == STATES[self._numbers[0]] and MADE.isdisjoint(vars(self))
                   and (self.weight or 0) == self._numbers[1])
        fits = self._is_walk or self._places[DUALS] - self._places[ANSWER] == edges
        return self._numbers if is_same and fits and not self._is_brief else None


def set_of(dual: int, items: List[int]) -> SetLine:
    """The set of these items: numbers of vertices, and of earlier sets, negative."""
    if min(items, default=0) >= 0:
        return SetLine(dual, items, [])
    return SetLine(dual, [one for one in items if one >= 0], [-one for one in items if one < 0])


def numpy_for(counts: Any) -> Any:
    """The module numpy, where it is there already and there are so many counts that it takes less
    time than a look at each; else None."""
    return sys.modules.get("numpy") if len(counts) > FEW else None


def places_of(counts: Any) -> List[int]:
    """The places, from 0, of the counts that aren't 0. counts: an array of 64 bits."""
    numpy = numpy_for(counts)
    if numpy is None:
        return list(compress(range(len(counts)), counts))
    found: List[int] = (numpy.frombuffer(counts, "int64") != 0).nonzero()[0].tolist()
    return found


def used(counts: Any) -> Dict[int, int]:
    """The counts that aren't 0, by their places from 1. counts: an array of 64 bits."""
    return {place + 1: counts[place] for place in places_of(counts)}


def copied(numbers: memoryview) -> Any:
    """A copy of numbers of 64 bits as an array."""
    copy = array("q")
    copy.frombytes(numbers.cast("B"))
    return copy
