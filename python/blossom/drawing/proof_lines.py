"""The inequalities that prove an answer, line by line, and what their sum says of its weight."""
from __future__ import annotations

from dataclasses import dataclass, field
from fractions import Fraction
from typing import Any, Dict, FrozenSet, List, Optional, Tuple

from ..answers import Answer
from ..certificates import Certificate
from ..vertices import node_of
from ..kinds import OF_NODES
from .parts import components_without, lighter_pairs


@dataclass
class Line:
    """An inequality, the number that it is multiplied by, and the part of the picture that it
    belongs to ("node 3", "set 0", or none)."""

    text: str
    times: Fraction
    part: str = ""


@dataclass
class Proof:
    """The lines, and how the weight follows from their sum: it is `factor` times the sum, plus
    `constant`.

    about: what the lines say. conclusion: what the sum says, where `{sum}` and `{weight}` stand for
    numbers."""

    about: str
    conclusion: str
    lines: List[Line] = field(default_factory=list)
    factor: Fraction = Fraction(1)
    constant: Fraction = Fraction(0)


#: What x stands for, by whether the lines are about the nodes themselves.
ABOUT_NODES = (
    "Let x(e) be 1 if a perfect matching uses the edge e, and 0 if not. Every perfect matching has"
    " exactly one edge at each node, and at least one edge that leaves each set of an odd number of"
    " nodes. Multiply each line by its number and add: in the sum no edge has more than its weight,"
    " so every perfect matching weighs at least the right side.")
ABOUT_VERTICES = (
    "The lines are about perfect matchings of the certificate graph, whose vertices are made of"
    " the nodes (docs/FORMAT.md); solutions of the problem are such matchings. Multiply each line"
    " by its number and add: in the sum no edge has more than its weight, so every perfect matching"
    " of that graph weighs at least the right side.")
ABOUT_BOTTLENECK = (
    "Each line is a component of an odd number of nodes that the edges lighter than {weight} leave"
    " once the red nodes are removed. A perfect matching of lighter edges pairs a node of each"
    " component with a red node of its own.")
ABOUT_GALLAI = (
    "Each line is a component of an odd number of nodes that is left once the orange nodes are"
    " removed. A matching leaves a node of it over, unless it pairs one with an orange node.")
AT_LEAST = "The sum is {sum}, so no solution weighs less than {weight}: the answer is optimal."
CONCLUSIONS = {
    "match": "The sum is {sum}, which is -2 times a weight, so no matching weighs more than"
             " {weight}: the answer is optimal.",
    "interval": "The sum is {sum}, which is twice a weight, so no solution weighs less than"
                " {weight}: the answer is optimal.",
    "postman": "The sum is {sum}. With all edges once it is {weight}, and no closed walk along all"
               " edges weighs less: the answer is optimal.",
}


def proof_of(answer: Answer) -> Optional[Proof]:
    """The proof of an answer; None if it was solved without its certificate."""
    if answer.kind in ("bottleneck", "gallai"):
        return by_components(answer)
    if answer.instance.nodes and not answer.certificate.document.duals:
        return None
    return by_duals(answer)


def by_duals(answer: Answer) -> Proof:
    """The lines of duals that aren't 0: of vertices, and then of odd sets."""
    certificate, kind = answer.certificate, answer.kind
    proof = Proof(ABOUT_NODES if kind in OF_NODES else ABOUT_VERTICES,
                  CONCLUSIONS.get(kind, AT_LEAST))
    place = {node: number for number, node in enumerate(answer.instance.nodes)}
    for name, dual in certificate.duals.items():
        if dual:
            proof.lines.append(Line("x(\u03b4(%s)) = 1" % in_words(name), Fraction(dual),
                                    "node %d" % place[node_of(name)]))
    ranks = set_ranks(certificate, place)
    proof.lines += [Line("x(\u03b4({%s})) \u2265 1" % listed(one.members), Fraction(one.dual),
                         "set %d" % ranks[nodes_in(one.members, place)])
                    for one in certificate.odd_sets]
    if kind in ("match", "interval"):
        proof.factor = Fraction(-1 if kind == "match" else 1, 2)
    if kind == "postman":
        proof.constant = Fraction(sum(answer.instance.weights)) / answer.instance.scale
    return proof


def nodes_in(members: Tuple[Any, ...], place: Dict[Any, int]) -> FrozenSet[int]:
    """The nodes that the members of an odd set belong to."""
    return frozenset(place[node_of(name)] for name in members)


def set_ranks(certificate: Certificate, place: Dict[Any, int]) -> Dict[FrozenSet[int], int]:
    """The rank of each odd set in the picture, which shows larger ones first and those of the same
    nodes as one."""
    sets = {nodes_in(one.members, place) for one in certificate.odd_sets}
    order = sorted(sets, key=lambda nodes: (-len(nodes), sorted(nodes)))
    return {nodes: rank for rank, nodes in enumerate(order)}


def by_components(answer: Answer) -> Optional[Proof]:
    """The lines of the odd components that a barrier leaves: of `bottleneck` among lighter edges,
    of `gallai` among all."""
    certificate, nodes = answer.certificate, answer.instance.nodes
    if certificate.barrier is None:
        return None
    place = {node: number for number, node in enumerate(nodes)}
    removed = [place[node] for node in certificate.barrier]
    parts = [part for part in components_without(len(nodes), lighter_pairs(certificate), removed)
             if len(part) % 2]
    lines = [Line("{%s} is odd" % listed([nodes[node] for node in sorted(part)]), Fraction(1),
                  "node %d" % min(part)) for part in sorted(parts, key=min)]
    if answer.kind == "gallai":
        about = ("There are {sum} such components and %d orange nodes, so every matching leaves at"
                 " least %d of the %d nodes over and has at most {weight} edges: the answer is a"
                 " maximum matching." % (len(removed), len(lines) - len(removed), len(nodes)))
        return Proof(ABOUT_GALLAI, about, lines, Fraction(-1, 2),
                     Fraction(len(nodes) + len(removed), 2))
    about = ("There are {sum} such components and only %d red nodes, so every perfect matching has"
             " an edge of weight {weight} or more: the answer is optimal." % len(removed))
    said = ABOUT_BOTTLENECK.replace("{weight}", str(answer.weight))
    return Proof(said, about, lines, Fraction(0), Fraction(answer.weight))


def in_words(name: Any) -> str:
    """A name of a vertex as a line has it."""
    return name if isinstance(name, str) else repr(name)


def listed(names: Any, most: int = 12) -> str:
    """Some of the names."""
    shown = ", ".join(in_words(name) for name in list(names)[:most])
    return shown + (", .. (%d in all)" % len(names) if len(names) > most else "")
