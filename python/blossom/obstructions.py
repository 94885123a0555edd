"""Why a problem has no solution, in the caller's words: what its certificate proves, said of nodes
and edges of the graph."""
from __future__ import annotations

from typing import TYPE_CHECKING, Any, Dict, Hashable, List, Optional, Sequence, Set, Tuple

from .kinds import BOUNDED, OF_NODES, PARITIES, VALUED
from .vertices import Mirror
from .wording import some

if TYPE_CHECKING:
    from .answers import Answer
    from .certificates import Certificate
    from .instances import Instance

NO_ANSWER = {
    "perfect": "no perfect matching exists",
    "bottleneck": "no perfect matching exists",
    "bmatch": "no perfect b-matching with these degrees exists",
    "capmatch": "no perfect b-matching with these degrees exists within the capacities",
    "ffactor": "no f-factor with these degrees exists",
    "tjoin": "no T-join exists for these terminals",
    "postman": "no closed walk covers all edges: the edges are not connected",
    "path": "no path from %r to %r exists",
    "interval": "no subgraph satisfies the degree bounds",
    "oddpath": "no path from %r to %r has an odd number of edges",
    "evenpath": "no path from %r to %r has an even number of edges",
}
#: How many nodes of a part are named.
NAMED = 3


def why_infeasible(certificate: Certificate) -> str:
    """The message of an instance without a solution."""
    of = certificate.instance
    told = NO_ANSWER.get(of.kind, "no solution exists")
    if "%r" in told:
        told %= ends_of(of)
    if certificate.barrier is not None:
        return told + ": " + why_barrier(of, certificate.barrier)
    if certificate.closed_set is not None:
        return told + ": " + why_closed(of, certificate.closed_set)
    return told


def ends_of(of: Instance) -> Tuple[Any, Any]:
    """The source and the target of a path."""
    ends = [node for node, value in zip(of.nodes, of.values) if value % 2]
    return (ends[1], ends[0]) if of._backwards else (ends[0], ends[1])


def why_closed(of: Instance, part: List[Any]) -> str:
    """What a set of nodes that no edge leaves shows."""
    if of.kind == "postman":
        return parts_told(of, part)
    if of.kind == "path":
        return "no edge leaves %s, and %r lies outside" % (some(part), outside(of, part))
    odd = sum(value % 2 for node, value in zip(of.nodes, of.values) if node in set(part))
    return "no edge leaves %s, which contain%s %d terminal%s" % (
        some(part), "s" if len(part) == 1 else "", odd, "s" if odd != 1 else "")


def outside(of: Instance, part: List[Any]) -> Any:
    """The end of a path outside this part."""
    inside = set(part)
    return next((end for end in ends_of(of) if end not in inside), None)


def parts_told(of: Instance, part: List[Any]) -> str:
    """The parts that the edges of a graph fall into, the largest first, in words. part: one that no
    edge leaves."""
    parts = sorted(parts_of(of), key=len, reverse=True)
    if len(parts) < 2:
        return "no edge leaves %s" % some(part)
    told = ["one of %d node%s (%s)" % (len(part), "s" if len(part) > 1 else "", first_of(part))
            for part in parts[:NAMED]]
    left = len(parts) - NAMED
    return "they are in %d parts that no edge joins: %s%s" % (
        len(parts), ", ".join(told), ", and %d more" % left if left > 0 else "")


def first_of(part: Sequence[Any]) -> str:
    """The first nodes of a part, in words."""
    shown = ", ".join(map(repr, part[:NAMED]))
    return shown + (", .." if len(part) > NAMED else "")


def parts_of(of: Instance) -> List[List[Any]]:
    """The components that have edges, each as its nodes in the order of the graph."""
    near: Dict[Hashable, Set[Hashable]] = {}
    for first, second in of.ends:
        near.setdefault(first, set()).add(second)
        near.setdefault(second, set()).add(first)
    place = {node: index for index, node in enumerate(of.nodes)}
    left, parts = dict.fromkeys(node for node in of.nodes if node in near), []
    while left:
        part = reached(next(iter(left)), near)
        parts.append(sorted(part, key=place.__getitem__))
        for node in part:
            del left[node]
    return parts


def reached(start: Hashable, near: Dict[Hashable, Set[Hashable]]) -> Set[Hashable]:
    """The nodes that can be reached from this one."""
    seen, front = {start}, [start]
    while front:
        new = near[front.pop()] - seen
        seen |= new
        front += new
    return seen


def why_barrier(of: Instance, barrier: List[Any]) -> str:
    """What a barrier shows: of a node alone, or of a part of odd size, if that is all."""
    if of.kind in (*VALUED, *BOUNDED):
        told = why_at_node(of)
        if told:
            return told
    if not barrier:
        return why_odd(of)
    if of.kind in PARITIES:
        return "removing %s leaves more than %d odd components of its two layers" % (
            some(map(plain_name, barrier)), len(barrier))
    graph = "" if of.kind in OF_NODES else " of the certificate graph"
    return "removing %s leaves more than %d odd components%s" % (
        some(map(plain_name, barrier)), len(barrier), graph)


def why_odd(of: Instance) -> str:
    """What an empty barrier shows: a part has odd size."""
    if of.kind not in OF_NODES:
        return "a connected component of the certificate graph has an odd number of vertices"
    joined = {node for pair in of.ends for node in pair if pair[0] != pair[1]}
    parts = parts_of(of) + [[node] for node in of.nodes if node not in joined]
    odd = sorted((part for part in parts if len(part) % 2), key=len)
    if not odd:
        return "a connected component of the graph has an odd number of nodes"
    if len(odd[0]) == 1:
        return "node %r has no edge to another node" % (odd[0][0],)
    return "the component of %s has an odd number of nodes, %d" % (first_of(odd[0]), len(odd[0]))


def why_at_node(of: Instance) -> str:
    """What excludes every solution at one node: its edges can't be used so often. "" if nothing
    does at any."""
    most = dict.fromkeys(of.nodes, 0)
    value_at = dict(zip(of.nodes, of.values))
    ones: List[Optional[int]] = [1] * len(of.ends)
    caps = ones if of.kind == "ffactor" else of.capacities
    for (u, v), cap in zip(of.ends, caps):
        use = min(value_at[u], value_at[v]) if u != v else value_at[u] // 2
        use = use if cap is None else min(use, cap)
        most[u] += use
        most[v] += use
    wants = [low for low, _ in of.bounds] if of.kind in BOUNDED else of.values
    told = next(((node, want) for node, want in zip(of.nodes, wants) if want > most[node]), None)
    if told is None:
        return ""
    least = "at least " if of.kind in BOUNDED else ""
    if not any(told[0] in pair for pair in of.ends):
        return "node %r must have degree %s%d, and has no edge" % (told[0], least, told[1])
    return "node %r must have degree %s%d, and its edges allow %d" % (
        told[0], least, told[1], most[told[0]])


def plain_name(name: Any) -> Any:
    """A vertex of a certificate graph for a message: as a plain tuple."""
    if isinstance(name, Mirror):
        return (plain_name(name.vertex), name.half)
    return tuple(name) if isinstance(name, tuple) and type(name) is not tuple else name


def no_path(answer: Answer, node: Any) -> str:
    """Why an answer has no alternating path to a node."""
    if node not in set(answer.instance.nodes):
        return "node %r isn't in the graph" % (node,)
    if answer.kind != "gallai":
        return "alternating paths are those of kind 'gallai', got kind %r" % answer.kind
    if answer.decomposition is not None and node in answer.decomposition.D:
        return "no alternating path from %r: the answer has no certificate" % (node,)
    return "no alternating path from %r: every maximum matching covers it" % (node,)


