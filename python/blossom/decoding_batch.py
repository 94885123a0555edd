"""Many shots of a decoder by few calls of the library: each finds the joins of many sets of
terminals in the graph of a part. Shots in an array of numpy stay in arrays on the way."""
from __future__ import annotations

import contextlib
import sys
from array import array
from operator import itemgetter
from typing import (AbstractSet, Any, Callable, Iterable, Iterator, List, NamedTuple, Optional,
                    Sequence, Set, Tuple)

from .array_library import JOINED
from .batch import mapped
from .buffers import is_of_numpy
from .decoding_plan import Part, Plan
from .errors import BlossomError
from .library import most_sets
from .prepared import Joins
from .processors import processors

#: How many sets a call has at most, since Ctrl-C waits for its end, and at least if there are more
#: and other threads could take them.
MOST_SETS, FEW_SETS = 256, 16
#: What finds the decoder's edges for nodes of a part that a call has no join for, or raises.
InFull = Callable[[Part, AbstractSet[int]], List[int]]


class Refused(NamedTuple):
    """A set that a call has no join for: its shot, the number of its part, and the nodes of the
    part that fired."""

    shot: int
    number: int
    nodes: Set[int]


class Sets(NamedTuple):
    """Sets of terminals in the graph of a part, in the order of their shots.

    number: of the part. shots: the index of the shot of each set. starts, terminals: as the
    library takes them, arrays of 32 bits."""

    number: int
    part: Part
    shots: Any
    starts: Any
    terminals: Any

    def refused(self, place: int) -> Refused:
        """What is solved by itself of this set: its terminals are nodes that fired, and maybe one
        of the boundary."""
        own = self.terminals[self.starts[place]:self.starts[place + 1]]
        fired = {int(one) - 1 for one in own if one <= len(self.part.nodes)}
        return Refused(int(self.shots[place]), self.number, fired)

    def pieces(self, apart: bool) -> Iterator[Sets]:
        """The sets of each call, which threads may share where they are to be apart."""
        count, most = len(self.shots), min(MOST_SETS, most_sets(len(self.part.graph.ends)))
        if apart:
            most = min(most, max(-(-count // processors()), FEW_SETS))
        for first in range(0, count, most):
            starts = self.starts[first:first + most + 1]
            begin, end = starts[0], starts[-1]
            own = (starts - begin if is_of_numpy(starts)
                   else array("I", [start - begin for start in starts]))
            yield self._replace(shots=self.shots[first:first + most], starts=own,
                                terminals=self.terminals[begin:end])

    def joins(self) -> Optional[Joins]:
        """The joins of the sets, of a part that has calls."""
        return self.part.calls.many(self.starts, self.terminals) if self.part.calls else None


def has_calls(plan: Plan) -> bool:
    """Whether all parts are solved by calls of the library."""
    return all(part.calls is not None for part in plan.parts)


@contextlib.contextmanager
def of_shot(number: int) -> Iterator[None]:
    """Within it, what an error says begins with the index of this shot."""
    try:
        yield
    except (BlossomError, TypeError) as error:
        error.args = ("shot %d: %s" % (number, error.args[0]), *error.args[1:])
        raise


def in_full_each(refused: Iterable[Refused], plan: Plan,
                 in_full: InFull) -> Iterator[Tuple[int, List[int]]]:
    """The shots of these sets in their order, with the decoder's edges of each. If one has none,
    that is raised with the index of the shot."""
    for shot, number, nodes in sorted(refused, key=itemgetter(0, 1)):
        with of_shot(shot):
            errors = in_full(plan.parts[number], nodes)
        yield shot, errors


def sets_of(plan: Plan, fired: Sequence[AbstractSet[int]]) -> List[Sets]:
    """The sets of terminals in each part, for shots of these detectors."""
    every = [Sets(number, part, [], array("I", [0]), array("I"))
             for number, part in enumerate(plan.parts)]
    for shot, detectors in enumerate(fired):
        for number, nodes in plan.split(detectors):
            sets = every[number]
            sets.terminals.extend([node + 1 for node in sets.part.graph.terminals(nodes)])
            sets.starts.append(len(sets.terminals))
            sets.shots.append(shot)
    return every


def used_in(sets: Sets) -> List[Optional[List[int]]]:
    """The decoder's edges in the join of each set. None: the call has no join for it that weighs
    what it says."""
    joins = sets.joins()
    if joins is None:
        return [None] * len(sets.shots)
    edges, part = joins.edges.tolist(), sets.part
    weight_at = [0, *part.base._numbers.weights].__getitem__
    error_at = [-1, *part.errors].__getitem__
    found: List[Optional[List[int]]] = []
    for outcome, weight, begin, end in zip(joins.outcomes, joins.weights, joins.starts,
                                           joins.starts[1:]):
        own = edges[begin:end]
        is_sound = outcome == JOINED and sum(map(weight_at, own)) == weight
        found.append([error for error in map(error_at, own) if error >= 0] if is_sound else None)
    return found


def errors_of(plan: Plan, fired: Sequence[AbstractSet[int]], in_full: InFull,
              apart: bool) -> List[List[int]]:
    """The decoder's edges for shots of these detectors. apart: whether threads may share them."""
    errors: List[List[int]] = [[] for _ in fired]
    pieces = [piece for sets in sets_of(plan, fired) for piece in sets.pieces(apart)]
    refused: List[Refused] = []
    for sets, found in zip(pieces, mapped(used_in, pieces, apart)):
        for place, own in enumerate(found):
            if own is None:
                refused.append(sets.refused(place))
            else:
                errors[sets.shots[place]] += own
    for shot, own in in_full_each(refused, plan, in_full):
        errors[shot] += own
    return errors


def entries_in(shots: Any, plan: Plan) -> Any:
    """The shots as an array of truth values, if they are an array of numpy with a row of 0 and 1
    for each. None: they have another form, or one isn't a syndrome of this graph."""
    numpy: Any = sys.modules.get("numpy")
    if (numpy is None or type(shots) is not numpy.ndarray or shots.ndim != 2
            or shots.dtype.kind not in "biu" or shots.shape[1] not in plan.lengths):
        return None
    entries = shots.astype(bool)
    return entries if shots.dtype.kind == "b" or (entries == shots).all() else None


def sets_in(numpy: Any, plan: Plan, number: int, entries: Any) -> Sets:
    """The sets of terminals in a part, for shots with these entries."""
    part, width = plan.parts[number], entries.shape[1]
    ranks = numpy.array([rank for rank, node in enumerate(part.nodes)
                         if node in plan.detectors and node < width], "int64")
    columns = numpy.array(part.nodes, "int64")[ranks]
    rows, places = (entries if len(columns) == width else entries[:, columns]).nonzero()
    terminals = ranks[places] + 1
    counts = numpy.bincount(rows, minlength=len(entries))
    if part.graph.first >= 0:
        near = ~numpy.isin(ranks, list(part.graph.apart))
        odd = numpy.bincount(rows[near[places]], minlength=len(entries)) % 2 == 1
        terminals = numpy.insert(terminals, numpy.cumsum(counts)[odd], part.graph.first + 1)
        counts += odd
    shots = numpy.arange(len(entries)) if part.restless else counts.nonzero()[0]
    starts = numpy.concatenate(([0], numpy.cumsum(counts[shots])))
    return Sets(number, part, shots, starts.astype("uint32"), terminals.astype("uint32"))


class Columns(NamedTuple):
    """What is known of the edges of a part, from 1, as arrays of numpy.

    weights: theirs. flips: for each its first observable, its second, and so on; -1 for none."""

    weights: Any
    flips: List[Any]


def columns_of(numpy: Any, plan: Plan, part: Part) -> Columns:
    """The columns of a part."""
    errors = numpy.array([-1, *part.errors], "int64")
    flips = [numpy.where(errors >= 0, numpy.asarray(column)[errors], -1)
             for column in plan.flip_columns]
    return Columns(numpy.array([0, *part.base._numbers.weights], "int64"), flips)


class Predicted(NamedTuple):
    """What the joins of sets flip and weigh, and whether they are sound; nothing of those that
    aren't."""

    flips: Any
    weights: Any
    is_sound: Any


def predicted(numpy: Any, sets: Sets, columns: Columns, observables: int) -> Predicted:
    """What the joins of the sets flip, of so many observables, and weigh."""
    count, joins = len(sets.shots), sets.joins()
    if joins is None:
        joins = Joins([1] * count, [0] * count, [0] * (count + 1), [])
    outcomes, weights, starts, edges = (numpy.asarray(one, "int64") for one in joins)
    ends = numpy.concatenate(([0], numpy.cumsum(columns.weights[edges])))[starts]
    is_sound = (outcomes == JOINED) & (numpy.diff(ends) == weights)
    rows = numpy.repeat(numpy.arange(count), numpy.diff(starts))
    flips = numpy.zeros(count * observables, "int64")
    for column in columns.flips:
        own = column[edges]
        is_flip = (own >= 0) & is_sound[rows]
        flips += numpy.bincount(rows[is_flip] * observables + own[is_flip],
                                minlength=count * observables)
    flips = (flips % 2).astype("uint8").reshape(count, observables)
    return Predicted(flips, numpy.where(is_sound, weights, 0), is_sound)


def decoded(plan: Plan, entries: Any, observables: int, in_full: InFull,
            apart: bool) -> Tuple[Any, Any]:
    """The predictions for shots with these entries, and the weights of their errors, as arrays of
    numpy. apart: whether threads may share the shots."""
    numpy: Any = sys.modules["numpy"]
    always = numpy.frombuffer(bytes(plan.flipped([], observables)) + b"\0", "uint8")[:-1]
    predictions = numpy.empty((len(entries), observables), "uint8")
    predictions[:] = always
    weights = numpy.full(len(entries), plan.always[0], "int64")
    columns = [columns_of(numpy, plan, part) for part in plan.parts]
    pieces = [piece for number in range(len(plan.parts))
              for piece in sets_in(numpy, plan, number, entries).pieces(apart)]
    refused: List[Refused] = []
    for sets, found in zip(pieces, mapped(
            lambda sets: predicted(numpy, sets, columns[sets.number], observables), pieces, apart)):
        predictions[sets.shots] ^= found.flips
        weights[sets.shots] += found.weights
        refused += map(sets.refused, (~found.is_sound).nonzero()[0].tolist())
    for shot, own in in_full_each(refused, plan, in_full):
        predictions[shot] ^= always ^ numpy.array(plan.flipped(own, observables), "uint8")
        weights[shot] += sum(map(plan.weights.__getitem__, own))
    return predictions, in_units(numpy, plan, weights)


def in_units(numpy: Any, plan: Plan, weights: Any) -> Any:
    """The weights in the units that were given."""
    scale = plan.scale
    if scale.denominator == 1 and scale.numerator & (scale.numerator - 1) == 0:
        return weights / float(scale)  # (which is exact)
    known, places = numpy.unique(weights, return_inverse=True)
    return numpy.array([float(weight / scale) for weight in known.tolist()], "float64")[places]
