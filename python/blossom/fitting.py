"""Whether an answer that was read from a file is one of the graph that it is put on. A document
speaks in numbers, so on a graph whose nodes or edges come in another order it says something
else."""
from __future__ import annotations

from fractions import Fraction
from typing import Any, List, Optional

from .answers import Answer, answer_of
from .certificates import CHECKSUM
from .errors import GraphError, SolverError
from .instances import Instance
from .kinds import BOUNDED, CAPPED, MATCHED, PARITIES, PERFECT, WALKED
from .weights import plain
from .wording import shown


def fitted(of: Instance, text: bytes) -> Answer:
    """The answer of a file that the program wrote, or that `Certificate.write` did, on this
    instance. GraphError: the file holds no answer, or one of another graph. Infeasible,
    NegativeCycle: what it holds says that there is none."""
    refuse_other_checksum(of, text)
    try:
        answer = answer_of(of, 0, document_in(of, text))
    except SolverError as error:
        raise GraphError("the file has no answer for this graph: %s" % error) from None
    reason = misfit(answer)
    if reason is not None:
        raise other_graph(reason)
    return answer


def other_graph(reason: str) -> GraphError:
    """The error of an answer that isn't one of this graph."""
    return GraphError("the answer belongs to another graph, or to this graph in another order: %s"
                      % reason)


def refuse_other_checksum(of: Instance, text: bytes) -> None:
    """GraphError: the file says of which instance it is, and that is another one."""
    for line in text.splitlines():
        told = line[len(CHECKSUM):].strip().decode("latin-1")
        if line.startswith(CHECKSUM) and told != of.checksum:
            raise other_graph("checksum %s, expected %s" % (told, of.checksum))


def is_line_of(line: bytes, letter: bytes) -> bool:
    """Whether the line's first field is this one."""
    return line.split()[:1] == [letter]


def document_in(of: Instance, text: bytes) -> bytes:
    """The document of a file: all of it, or what stands behind the instance. GraphError: the
    instance there is another one, or nothing stands behind it."""
    lines = text.splitlines(keepends=True)
    if not any(is_line_of(line, b"p") for line in lines):
        return text
    start = next((place for place, line in enumerate(lines) if is_line_of(line, b"s")), len(lines))
    if start == len(lines):
        raise GraphError("the file has an instance but no answer: pass the output of"
                         " `blossom solve`")
    own = [line.split() for line in lines[:start] if not line.split()[:1] or
           not line.split()[0].startswith(b"c")]
    if [line for line in own if line] != [line.split() for line in of.text.splitlines()]:
        raise other_graph("the instance in the file differs")
    return b"".join(lines[start:])


def misfit(answer: Answer) -> Optional[str]:
    """What of the answer can't be so in its graph, in words; None where nothing is."""
    of, walk = answer.instance, answer.certificate.document.walk
    if walk is not None:
        broken = broken_walk(of, *walk)
        if broken is not None:
            return broken
    weight = weight_in(answer)
    if weight != answer.certificate.document.weight:
        if of.kind == "gallai":
            return "stated size %d, actual %d" % (answer.weight, weight)
        here = plain(Fraction(weight) / of.scale)
        return "stated weight %s, but its edges weigh %s in this graph" % (
            shown(answer.weight), shown(here))
    return wrong_walk(answer) if of.kind in WALKED else wrong_uses(answer)


def weight_in(answer: Answer) -> int:
    """What the answer weighs in its graph, times the scale: what all of its edges do, or for
    `bottleneck` what the heaviest does; or for `gallai` how many they are."""
    of = answer.instance
    if of.kind == "gallai":
        return len(answer.edge_indices)
    if of.kind == "bottleneck":
        return max((of.weights[index] for index in answer.edge_indices), default=0)
    return sum(of.weights[index] * answer.edge_counts[index] for index in answer.edge_indices)


def broken_walk(of: Instance, start: int, edges: List[int]) -> Optional[str]:
    """The first step of a walk that doesn't begin where the one before it ends, in words."""
    here: Any = of.nodes[start - 1]
    for place, number in enumerate(edges, 1):
        first, second = of.ends[number - 1]
        if here not in (first, second):
            return "step %d uses edge %r, which does not meet node %r" % (
                place, of.edges[number - 1], here)
        here = second if here == first else first
    return None


def wrong_walk(answer: Answer) -> Optional[str]:
    """What of a walk isn't as its kind asks, in words."""
    of, walk = answer.instance, answer.node_walk
    if of.kind == "postman":
        if walk[:1] != walk[-1:]:
            return "the walk is not closed: it ends at %r" % (walk[-1],)
        if 0 in answer.edge_counts:
            return "the walk omits edge %r" % (of.edges[answer.edge_counts.index(0)],)
        return None
    ends = [node for node, value in zip(of.nodes, of.values) if value % 2]
    if not walk or {walk[0], walk[-1]} != set(ends) or len(set(walk)) < len(walk):
        return "not a simple path from %r to %r" % tuple(ends)
    if of.kind in PARITIES and (len(walk) % 2 == 0) != (of.kind == "oddpath"):
        return "path with %d edges: expected an %s number" % (
            len(walk) - 1, "odd" if of.kind == "oddpath" else "even")
    return None


def wrong_uses(answer: Answer) -> Optional[str]:
    """What of an answer that isn't a walk isn't as its kind asks, in words."""
    of = answer.instance
    most = of.capacities if of.kind in ("bmatch", *CAPPED) else [1] * len(of.edges)
    met = dict.fromkeys(of.nodes, 0)
    for index in answer.edge_indices:
        count, limit = answer.edge_counts[index], most[index]
        if limit is not None and count > limit:
            return "edge %r is used %d times, above its capacity %d" % (
                of.edges[index], count, limit)
        for node in of.ends[index]:
            met[node] += count
    for node, (least, value) in zip(of.nodes, of.bounds or [(0, one) for one in of.values]):
        if met[node] < least or not is_met(of.kind, met[node], value):
            return "node %r has degree %d, expected %s" % (
                node, met[node], expected_degree(of.kind, least, value))
    return None


def expected_degree(kind: str, least: int, value: int) -> str:
    """What the degree of a node is to be, in words."""
    if kind in PERFECT:
        return "1"
    if kind in MATCHED:
        return "0 or 1"
    if kind in BOUNDED:
        return "%d to %d" % (least, value)
    return ("an odd one" if value % 2 else "an even one") if kind == "tjoin" else str(value)


def is_met(kind: str, times: int, value: int) -> bool:
    """Whether a node can have this degree in an answer of the kind."""
    if kind in PERFECT:
        return times == 1
    if kind in MATCHED:
        return times <= 1
    if kind in BOUNDED:
        return times <= value
    return (times - value) % 2 == 0 if kind == "tjoin" else times == value
