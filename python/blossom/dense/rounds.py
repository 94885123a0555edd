"""The rounds of pricing."""
from __future__ import annotations

import time
from typing import Any, Callable, List, Optional, Tuple

from ..answers import refuse, refuse_strange
from ..documents import Document
from ..errors import LimitExceeded, TimeLimit
from ..instances import Instance
from ..kinds import MOST_EDGES
from ..running import Runner, solved
from .certificates import DenseCertificate
from .pairs import Chosen, joined, ordered
from .pricing import Least, Problem, Slack

#: So many of the cheapest pairs at each node are solved first.
FIRST = 8
#: So many pairs are added in a round at most.
MORE = 20000
#: So many nodes that the cheapest pairs leave over are matched by the cheapest of all their pairs.
LEFT = 400
Report = Callable[[int], None]


def solve_by_pricing(problem: Problem, by: Runner, timeout: Optional[float],
                     report: Report) -> DenseCertificate:
    """The certificate of the last round: that of a best answer of the problem, or of there being
    none. report: called after each round with the number of pairs that don't matter any more.
    TimeLimit: all rounds together take longer. Others: see `answer_of`."""
    end = None if timeout is None else time.monotonic() + timeout
    chosen, dropped_at = first_pairs(problem), None
    while True:
        certificate = solve_round(problem, chosen, by, end)
        more, count = missing_pairs(problem, chosen, certificate)
        report(problem.pairs.count - count)
        if not count:
            return certificate
        if len(chosen[0]) + len(more[0]) > MOST_EDGES:
            dropped_at = refuse_standstill(certificate, dropped_at)
            chosen = without_slack(problem, chosen, certificate, MOST_EDGES - len(more[0]))
        chosen = ordered(*joined([chosen, more]))


def solve_round(problem: Problem, chosen: Chosen, by: Runner,
                end: Optional[float]) -> DenseCertificate:
    """The certificate of the instance of these pairs. end: until when, by the monotonic clock."""
    left = None if end is None else end - time.monotonic()
    if left is not None and left <= 0:
        raise TimeLimit("the rounds of pricing took longer than the timeout")
    instance = problem.instance(chosen)
    status, came = solved(by, "solve", instance, left)
    if status != 0:
        refuse(status, came if isinstance(came, bytes) else b"", instance)
    certificate = DenseCertificate(instance, came, by, problem)
    refuse_strange(certificate)
    return certificate


def missing_pairs(problem: Problem, chosen: Chosen,
                  certificate: DenseCertificate) -> Tuple[Chosen, int]:
    """Pairs that the instance of a round lacks, and how many there are: those of negative slack;
    or, if it has no perfect matching, pairs that join components which its barrier leaves."""
    if certificate.status == "infeasible":
        more = problem.pairs.across(parts(problem, chosen, certificate.document))
        return more, len(more[0])
    least = Least(MORE)
    for first, second, slack in Slack(problem, certificate.document).negative():
        least.add(first, second, slack)
    return least.pairs(), least.count


def parts(problem: Problem, chosen: Chosen, document: Document) -> Any:
    """The component of each node among these pairs without the barrier, as the least node in it;
    -1 for the nodes of the barrier."""
    import numpy

    barrier = {number - 1 for number in document.barrier or ()}
    least = list(range(problem.pairs.size))
    for one, other in zip(chosen[0].tolist(), chosen[1].tolist()):
        if one not in barrier and other not in barrier:
            one, other = sorted((root_of(least, one), root_of(least, other)))
            least[other] = one
    return numpy.array([-1 if node in barrier else root_of(least, node)
                        for node in range(problem.pairs.size)])


def root_of(least: List[int], node: int) -> int:
    """The least node known to be in the component of a node; the way there is made shorter."""
    while least[node] != node:
        least[node] = least[least[node]]
        node = least[node]
    return node


def refuse_standstill(certificate: DenseCertificate, before: Optional[int]) -> int:
    """The weight of the round, at which pairs are dropped to make place for others. LimitExceeded:
    there is no answer yet, or none is better than when pairs were dropped last."""
    weight = certificate.document.weight
    if weight is None or weight == before:
        raise LimitExceeded("the duals prove nothing yet, and more than %d pairs would be needed at"
                            " once" % MOST_EDGES, None, MOST_EDGES)
    return weight


def without_slack(problem: Problem, chosen: Chosen, certificate: DenseCertificate,
                  most: int) -> Chosen:
    """So many of the pairs, those of least slack: among them all that the answer uses, unless too
    many have the slack 0."""
    import numpy

    slack = Slack(problem, certificate.document).of(*chosen)
    kept = numpy.sort(numpy.argsort(slack, kind="stable")[:most])
    return chosen[0][kept], chosen[1][kept]


def first_pairs(problem: Problem) -> Chosen:
    """The pairs of the first round: the cheapest at each node, and for a perfect matching some more
    by which all nodes are matched, if all pairs are there."""
    near = problem.taken(problem.pairs.cheapest(FIRST))
    if problem.kind != "perfect":
        return near
    left = alternating(problem, greedy(problem, near, list(range(problem.pairs.size)))[1])
    return ordered(*joined([near, matching_of(problem, left)]))


def alternating(problem: Problem, nodes: List[int]) -> List[int]:
    """The nodes, rows and columns of a matrix by turns, so that neighbours may be a pair."""
    sides: Any = getattr(problem.pairs, "rows", None)
    if sides is None:
        return nodes
    rows, columns = ([node for node in nodes if (node < sides) == own] for own in (True, False))
    return [node for pair in zip(rows, columns) for node in pair]


def matching_of(problem: Problem, nodes: List[int]) -> Chosen:
    """A matching of these nodes, of all of them if all pairs are there."""
    import numpy

    far = nodes[LEFT:] if len(nodes) % 2 == 0 else nodes[LEFT:-1]
    near = numpy.array(nodes[:LEFT], numpy.int64)
    one, other = numpy.triu_indices(len(near), 1)
    matched = greedy(problem, problem.taken((near[one], near[other])), nodes[:LEFT])[0]
    rest = (numpy.array(far[::2], numpy.int64), numpy.array(far[1::2], numpy.int64))
    return problem.taken(joined([matched, rest]))


def greedy(problem: Problem, chosen: Chosen, nodes: List[int]) -> Tuple[Chosen, List[int]]:
    """A matching by the cheapest of these pairs first, and which of the nodes it misses."""
    import numpy

    order = numpy.argsort(problem.pairs.costs(*chosen), kind="stable")
    free, found = set(nodes), []
    for one, other in zip(chosen[0][order].tolist(), chosen[1][order].tolist()):
        if one in free and other in free:
            free -= {one, other}
            found.append((one, other))
    pairs = numpy.array(found, numpy.int64).reshape(-1, 2)
    return (pairs[:, 0], pairs[:, 1]), [node for node in nodes if node in free]
