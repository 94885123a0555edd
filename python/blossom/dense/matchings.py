"""Matchings of dense instances."""
from __future__ import annotations

import dataclasses
from typing import Any, List, Optional

from ..answers import Answer
from ..batch import Progress, reporter
from ..buffers import numbers_of
from ..certificates import Certificate
from ..column_tables import ColumnTable
from ..errors import Infeasible
from ..instances import Instance
from ..kinds import Kind, usual_of
from ..obstructions import why_infeasible
from ..running import Runner
from ..tables import Node, Table
from ..wording import some
from .certificates import DenseCertificate
from .given import Given, in_units
from .pairs import EdgePairs
from .pricing import Problem
from .rounds import solve_by_pricing


def solve_matching(given: Given, kind: Kind, by: Runner, timeout: Optional[float] = None,
                   progress: Progress = None) -> Answer:
    """A best matching of a dense instance, whose costs are minimised: a perfect one ("perfect"), or
    any ("match"). Infeasible: there is no perfect one. Others: see `answer_of`."""
    import numpy

    problem = Problem(kind, given.pairs, numpy.zeros(given.pairs.size, numpy.int64), given.nodes,
                      given.scale, given.graph)
    with reporter(progress, given.pairs.count, "pair") as report:
        found = solve_by_pricing(problem, by, timeout, report)
    certificate = named(given, found)
    if certificate.status == "infeasible":
        raise Infeasible(reason(certificate), certificate)
    return Answer(certificate.instance, certificate)


def named(given: Given, certificate: DenseCertificate) -> DenseCertificate:
    """The certificate of the last round in the caller's names: of a graph over all its edges, else
    over the pairs of the round."""
    if given.table is not None and isinstance(given.pairs, EdgePairs):
        return of_graph(given, given.table, given.pairs, certificate)
    instance = certificate.instance
    first, second = instance._numbers.first - 1, instance._numbers.second - 1
    weights = in_units(instance._numbers.weights, given.scale)
    table: Table = ColumnTable(picked(given.nodes, first), picked(given.nodes, second), weights,
                               (None,) * len(first), {}, None, None)
    whole = dataclasses.replace(instance, table=table)
    return DenseCertificate(whole, certificate.written, certificate.by, certificate.problem)


def picked(nodes: List[Node], places: Any) -> List[Node]:
    """The nodes at these places."""
    return [nodes[place] for place in places.tolist()]


def of_graph(given: Given, table: Table, pairs: EdgePairs,
             certificate: DenseCertificate) -> DenseCertificate:
    """The certificate over all edges of a graph."""
    kind, last = certificate.instance.kind, certificate.last_round
    ends = [(end + 1).astype("uint32") for end in pairs.listed]
    numbers = numbers_of(len(given.nodes), ends[0], ends[1], pairs.weights(kind == "match"), (), (),
                         usual_of(kind))
    whole = Instance(kind, table, given.nodes, numbers, given.scale, False, given.graph)
    own = last.instance._numbers
    places = pairs.place[pairs.find(own.first.astype("int64") - 1,
                                    own.second.astype("int64") - 1)[0]]
    counts = {int(places[number - 1]) + 1: count
              for number, count in certificate.document.counts.items()}
    document = certificate.document.changed(counts=dict(sorted(counts.items())))
    return DenseCertificate(whole, document, certificate.by, certificate.problem, last)


def reason(certificate: Certificate) -> str:
    """Why a dense instance has no perfect matching, in words."""
    nodes = certificate.instance.nodes
    if len(nodes) % 2:
        return "no perfect matching exists: the number of nodes is odd, %d" % len(nodes)
    alone = lonely(certificate)
    if alone:
        return "no perfect matching exists: %s %s no pair" % (
            some(alone), "has" if len(alone) == 1 else "have")
    return why_infeasible(certificate)


def lonely(certificate: Any) -> List[Node]:
    """The nodes that have no pair at all."""
    import numpy

    pairs = certificate.problem.pairs
    met = numpy.zeros(pairs.size, bool)
    for ends in pairs.cheapest(1):
        met[ends] = True
    return [certificate.instance.nodes[place] for place in numpy.flatnonzero(~met).tolist()]
