"""Minimum-weight edge covers of dense instances, by a matching.

Let near(v) be what the cheapest pair of node v costs, with negative costs as 0. A matching of pairs
that save near(u) + near(v) - cost each, and the cheapest pair of each node that it misses, are an
edge cover; and of each edge cover that minimises the cost such a matching saves as much. So a
maximum-weight matching of the savings gives a minimum-weight edge cover. All negative pairs belong
to that besides."""
from __future__ import annotations

import os
from dataclasses import dataclass
from typing import IO, Any, List, Optional, Tuple, Union

from ..answers import Answer, Verdict
from ..batch import Progress, reporter
from ..buffers import numbers_of
from ..certificates import Certificate
from ..column_tables import ColumnTable
from ..documents import Document
from ..errors import Infeasible
from ..instances import Instance
from ..kinds import MOST_VALUE
from ..running import Engine, Runner
from ..wording import some
from .certificates import DenseCertificate
from .given import Given, in_units
from .matchings import picked
from .pairs import Chosen, EdgePairs, joined, ordered
from .pricing import Problem
from .rounds import solve_by_pricing


@dataclass(frozen=True, repr=False, eq=False)
class CoverCertificate(Certificate):
    """What proves an edge cover of a dense instance: the certificate of the matching that saves the
    most (`savings`), and sums.

    fixed: what the cover would weigh without any savings: the cheapest pair of each node, and all
    negative pairs."""

    savings: Any = None
    fixed: int = 0

    def check(self, *, engine: Optional[Engine] = None, program: Optional[str] = None,
              timeout: Optional[float] = None) -> Verdict:
        """Judge it: the matching of the savings as `DenseCertificate.check` does, and then, by
        sums that are tested and not proved, that the edges cover all nodes and weigh as much less
        than `fixed` as the matching saves. Parameters are those of `blossom.check`."""
        verdict: Verdict = self.savings.check(engine=engine, program=program, timeout=timeout)
        if not verdict:
            return verdict
        counts, weights = self.document.counts, self.instance.weights
        met = {end for number in counts for end in self.instance.ends[number - 1]}
        if len(met) < len(self.instance.nodes):
            return Verdict(False, "NotFeasible")
        weight = sum(weights[number - 1] for number in counts)
        saved: int = self.savings.document.weight
        is_right = weight == self.document.weight == self.fixed - saved
        return Verdict(True) if is_right else Verdict(False, "WeightDiffers")

    def write(self, file: Union[str, os.PathLike[str], IO[str], IO[bytes]],
              instance: bool = True) -> None:
        """Writes the certificate of the matching of the savings: see `Certificate.write`."""
        self.savings.write(file, instance)


def solve_cover(given: Given, by: Runner, timeout: Optional[float] = None,
                progress: Progress = None) -> Answer:
    """A minimum-weight edge cover of a dense instance. Infeasible: a node has no pair. Others: see
    `answer_of`."""
    pairs, near, cheapest = given.pairs.clipped(), *cheapest_pairs(given)
    problem = Problem("match", pairs, near, list(range(pairs.size)), given.scale)
    with reporter(progress, pairs.count, "pair") as report:
        savings = solve_by_pricing(problem, by, timeout, report)
    chosen = ordered(*joined([used_in(savings), uncovered(savings, cheapest), negative(given)]))
    below = given.pairs.costs(*negative(given))
    return answer_with(given, chosen, savings, int(near.sum()) + int(below.sum()))


def cheapest_pairs(given: Given) -> Tuple[Any, Any]:
    """What the cheapest pair of each node costs, negative costs as 0, and the other node of that
    pair. Infeasible: a node has none."""
    import numpy

    pairs = given.pairs.clipped()
    first, second = pairs.cheapest(1)
    ends, others = numpy.append(first, second), numpy.append(second, first)
    costs = pairs.costs(ends, others)
    order = numpy.lexsort((costs, ends))
    starts = numpy.searchsorted(ends[order], numpy.arange(pairs.size))
    found = numpy.bincount(ends, minlength=pairs.size) > 0
    if not found.all():
        raise no_cover(given, numpy.flatnonzero(~found).tolist())
    best = order[starts]
    return costs[best], others[best]


def no_cover(given: Given, alone: List[int]) -> Infeasible:
    """What is said if nodes have no pair; the certificate is that of the first alone, which proves
    it, since no pair of the instance is at it."""
    names = [given.nodes[place] for place in alone]
    numbers = numbers_of(1, [], [], [], (), [1, 1], (0, 1))
    table = ColumnTable([], [], [], [], {}, None, None)
    instance = Instance("interval", table, names[:1], numbers, given.scale, False, given.graph)
    document = Document("infeasible", "interval", barrier=[])
    return Infeasible("no edge cover exists: %s %s no pair"
                      % (some(names), "has" if len(names) == 1 else "have"),
                      Certificate(instance, document))


def used_in(certificate: DenseCertificate) -> Chosen:
    """The pairs of a matching."""
    import numpy

    numbers = certificate.instance._numbers
    places = numpy.array(sorted(certificate.document.counts), numpy.int64) - 1
    return (numpy.asarray(numbers.first)[places].astype(numpy.int64) - 1,
            numpy.asarray(numbers.second)[places].astype(numpy.int64) - 1)


def uncovered(certificate: DenseCertificate, cheapest: Any) -> Chosen:
    """The cheapest pair of each node that a matching misses."""
    import numpy

    missed = numpy.ones(len(cheapest), bool)
    for ends in used_in(certificate):
        missed[ends] = False
    places = numpy.flatnonzero(missed)
    return places, cheapest[places]


def negative(given: Given) -> Chosen:
    """All pairs of negative cost."""
    import numpy

    none = numpy.zeros(given.pairs.size, numpy.int64)
    found = []
    for first, second in given.pairs.below(1, none):
        below = given.pairs.costs(first, second) < 0
        found.append((first[below], second[below]))
    return joined(found)


def answer_with(given: Given, chosen: Chosen, savings: DenseCertificate, fixed: int) -> Answer:
    """The answer that uses these pairs."""
    import numpy

    weight, places = int(given.pairs.costs(*chosen).sum()), numpy.arange(len(chosen[0]))
    if given.table is not None and isinstance(given.pairs, EdgePairs):
        places = given.pairs.place[given.pairs.find(*chosen)[0]]
        more = numpy.setdiff1d(numpy.flatnonzero(given.pairs.weights(False) < 0), places)
        weight += int(given.pairs.weights(False)[more].sum())
        fixed += int(given.pairs.weights(False)[more].sum())
        places = numpy.append(places, more)
    instance = instance_of_cover(given, chosen)
    counts = {place + 1: 1 for place in sorted(places.tolist())}
    document = Document("optimal", "interval", weight, counts)
    return Answer(instance, CoverCertificate(instance, document, savings.by, savings, fixed))


def instance_of_cover(given: Given, chosen: Chosen) -> Instance:
    """The instance that the answer is of: the whole graph, or the pairs that are used."""
    import numpy

    if given.table is not None and isinstance(given.pairs, EdgePairs):
        first, second = given.pairs.listed
        weights, table = given.pairs.weights(False), given.table
    else:
        first, second = chosen
        weights = given.pairs.costs(first, second)
        table = ColumnTable(picked(given.nodes, first), picked(given.nodes, second),
                            in_units(weights, given.scale), (None,) * len(first), {}, None, None)
    degrees = numpy.bincount(numpy.append(first, second), minlength=given.pairs.size)
    bounds = numpy.ones(2 * given.pairs.size, numpy.int64)
    bounds[1::2] = numpy.minimum(degrees, MOST_VALUE)
    numbers = numbers_of(given.pairs.size, (first + 1).astype("uint32"),
                         (second + 1).astype("uint32"), weights, [1] * len(first),
                         bounds.tolist(), (0, 1))
    return Instance("interval", table, given.nodes, numbers, given.scale, False, given.graph)
