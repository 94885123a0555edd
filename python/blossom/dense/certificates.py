"""Certificates of dense instances: the document of the last round, and the test of all other
pairs."""
from __future__ import annotations

import math
import os
from dataclasses import dataclass
from fractions import Fraction
from functools import cached_property
from typing import IO, Any, Optional, Tuple, Union

from ..answers import Verdict
from ..certificates import Certificate, Number
from ..errors import ArgumentError
from ..running import Engine
from ..slacks import UnknownEdge, index_of, is_index, name_in
from ..weights import plain
from ..wording import wanted
from .pairs import MISSING
from .pricing import Problem, Slack


@dataclass(frozen=True, repr=False, eq=False)
class DenseCertificate(Certificate):
    """What proves an answer of a dense instance: the document of the last round of pricing, and the
    slack of all pairs that this round lacks.

    problem: all pairs and what they cost. last: the certificate of the last round, of whose few
    pairs the proved checker judges the document; None if this is it."""

    problem: Any = None
    last: Optional[Certificate] = None

    @property
    def last_round(self) -> Certificate:
        """The certificate of the last round alone."""
        return self.last or Certificate(self.instance, self.written, self.by)

    @property
    def _lacks_pairs(self) -> bool:
        return self.last is None

    def check(self, *, engine: Optional[Engine] = None, program: Optional[str] = None,
              timeout: Optional[float] = None) -> Verdict:
        """Judge it: the proved checker the document of the last round, and this package, which is
        tested and not proved, all pairs that the round lacks, by arithmetic with its duals or its
        barrier. Parameters are those of `blossom.check`."""
        last = self.last_round
        verdict = last.check(engine=engine, program=program, timeout=timeout)
        return tested(self.problem, last) if verdict else verdict

    def slack(self, edge: Any) -> Number:
        """The slack of an edge, or of any pair of nodes (u, v): see `Certificate.slack`. KeyError:
        there is no such pair."""
        import numpy

        if self.last is not None or is_index(edge):
            index = index_of(self.instance, edge)
            u, v = (self.instance.nodes.index(end) for end in self.instance.ends[index])
            costs = self._costs(slice(index, index + 1))
        else:
            u, v = self._places_of(edge)
            costs = None
        one, other = numpy.array([min(u, v)]), numpy.array([max(u, v)])
        if u == v or int(self.problem.pairs.costs(one, other)[0]) == MISSING:
            raise UnknownEdge("the instance has no pair %r" % (edge,))
        return self._in_units(int(self._slack_of_pairs.of(one, other, costs)[0]))

    def _places_of(self, pair: Any) -> Tuple[int, int]:
        """The indices of two nodes. UnknownEdge: the instance lacks one. TypeError: see
        `name_in`."""
        nodes, ends = self.instance.nodes, name_in(pair)
        if len(ends) != 2 or not set(ends) <= set(nodes):
            raise UnknownEdge("the instance has no pair %r" % (pair,))
        return nodes.index(ends[0]), nodes.index(ends[1])

    def _costs(self, places: slice) -> Any:
        """What these edges of `instance` cost."""
        import numpy

        problem: Problem = self.problem
        numbers = self.instance._numbers
        weights = numpy.asarray(numbers.weights[places], numpy.int64)
        if problem.kind == "perfect":
            return weights
        ends = (numpy.asarray(own[places], numpy.int64) - 1
                for own in (numbers.first, numbers.second))
        return sum(problem.offsets[own] for own in ends) - weights

    def _in_units(self, slack: int) -> Number:
        """A slack of a pair in units of weight."""
        return plain(Fraction(slack, self.problem.factor) / self.instance.scale)

    @cached_property
    def _slack_of_pairs(self) -> Slack:
        """What says the slack of each pair. ValueError: there are no duals."""
        if self.status != "optimal":
            raise ArgumentError("there are no duals, so no slacks: no solution is feasible")
        return Slack(self.problem, self.last_round.document)

    def slacks(self) -> Any:
        """The slacks of the edges of `instance`, in their order; for `costs=` and `points=` these
        are the pairs of the last round. See `Certificate.slacks`."""
        numpy = wanted("numpy", "arrays of slacks")
        first, second = (numpy.asarray(own, numpy.int64) - 1 for own in (
            self.instance._numbers.first, self.instance._numbers.second))
        lesser, greater = numpy.minimum(first, second), numpy.maximum(first, second)
        slacks = self._slack_of_pairs.of(lesser, greater, self._costs(slice(None)))
        found = [math.inf if loop else self._in_units(slack) for slack, loop in zip(
            slacks.tolist(), (first == second).tolist())]
        return numpy.array(found, "int64" if set(map(type, found)) <= {int} else object)

    def write(self, file: Union[str, os.PathLike[str], IO[str], IO[bytes]],
              instance: bool = True) -> None:
        """Writes that of the last round: see `Certificate.write`."""
        self.last_round.write(file, instance)


def tested(problem: Problem, certificate: Certificate) -> Verdict:
    """Whether the pairs of a dense instance bear out what a document says of some of them."""
    import numpy

    from .rounds import parts

    numbers = certificate.instance._numbers
    chosen = (numpy.asarray(numbers.first).astype(numpy.int64) - 1,
              numpy.asarray(numbers.second).astype(numpy.int64) - 1)
    weights, there = problem.weights(*chosen)
    if not (there.all() and (weights == numpy.asarray(numbers.weights)).all()):
        return Verdict(False, "WeightDiffers")
    if certificate.status == "infeasible":
        more = problem.pairs.across(parts(problem, chosen, certificate.document))
        return Verdict(False, "NotBarrier") if len(more[0]) else Verdict(True)
    negative = next(Slack(problem, certificate.document).negative(), None)
    return Verdict(True) if negative is None else Verdict(False, "Slack")
