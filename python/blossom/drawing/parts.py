"""The components of a graph that a barrier leaves."""
from __future__ import annotations

from typing import List, Sequence, Tuple

from ..certificates import Certificate
from .layout import neighbours_of


def lighter_pairs(certificate: Certificate) -> List[Tuple[int, int]]:
    """The ends of the edges that a barrier refers to, as places of nodes: those lighter than the
    answer of `bottleneck`, and all edges otherwise."""
    instance, weight = certificate.instance, certificate.document.weight
    place = {node: number for number, node in enumerate(instance.nodes)}
    ends = [(place[u], place[v]) for u, v in instance.ends]
    if weight is None or instance.kind != "bottleneck" or certificate.status != "optimal":
        return ends
    return [pair for pair, own in zip(ends, instance.weights) if own < weight]


def components_without(nodes: int, pairs: Sequence[Tuple[int, int]],
                       removed: Sequence[int]) -> List[List[int]]:
    """The components that are left without these nodes."""
    neighbours = neighbours_of(nodes, pairs)
    left, found = set(range(nodes)) - set(removed), []
    while left:
        part: List[int] = []
        front = [left.pop()]
        while front:
            part.append(front.pop())
            near = left.intersection(neighbours[part[-1]])
            left -= near
            front += near
        found.append(part)
    return found
