"""What is too large for a kind, in the nodes and edges of the caller's graph: the solver's limits
are those of the certificate graph."""
from __future__ import annotations

from typing import Any, Dict, List

from .instances import Instance
from .kinds import MATCHED, MOST_PAIRS, MOST_VERTICES, PARITIES
from .vertices import units_of


def too_large(of: Instance) -> str:
    """Which limit this instance passes, in words, and what to do; "" if it passes none, as for
    matchings, whose certificate graphs have each node at most twice."""
    if of.kind in (*MATCHED, *PARITIES):
        return ""
    if of.kind == "bmatch":
        return too_much_degree(of)
    if of.kind in ("capmatch", "ffactor"):
        return too_many_uses(of)
    return too_much_room(of) if of.kind == "interval" else too_many_ends(of)


def passed(of: Instance, what: str, advice: str) -> str:
    """The message: `what` is too large, and `advice` is what to do."""
    return "instance too large for kind %r: %s: %s" % (of.kind, what, advice)


def too_much_degree(of: Instance) -> str:
    """For b-matchings: the degrees, and the ways in which edges can be used."""
    value_at = dict(zip(of.nodes, of.values))
    total = sum(of.values)
    ways = sum(value_at[u] * (value_at[u] - 1) // 2 if u == v else value_at[u] * value_at[v]
               for u, v in of.ends)
    if total > MOST_VERTICES:
        return passed(of, "the degrees sum to %d; the limit is %d" % (total, MOST_VERTICES),
                      "pass smaller degrees, or split the graph at its components")
    if ways > MOST_PAIRS:
        loops = " and b(v)(b(v)-1)/2 for each loop" if has_loop(of) else ""
        return passed(of, "its certificate graph has %d edges, b(u)·b(v) for each edge uv%s; the"
                      " limit is %d" % (ways, loops, MOST_PAIRS),
                      "pass smaller degrees, or fewer edges")
    return ""


def has_loop(of: Instance) -> bool:
    """Whether some edge is a loop."""
    return any(u == v for u, v in of.ends)


def too_many_uses(of: Instance) -> str:
    """For factors and capacities: the degrees, and how often edges can be used."""
    value_at, uses = dict(zip(of.nodes, of.values)), units_of(of)
    size = sum(of.values) + 2 * sum(uses)
    pairs = sum(use * (value_at[u] + use + value_at[v]) for use, (u, v) in zip(uses, of.ends))
    advice = "pass smaller degrees or capacities, or fewer edges"
    if size > MOST_VERTICES:
        return passed(of, "its certificate graph has %d vertices (degrees %d + 2 × edge uses %d);"
                      " the limit is %d" % (size, sum(of.values), sum(uses), MOST_VERTICES), advice)
    if pairs > MOST_PAIRS:
        return passed(of, "its certificate graph has %d edges; the limit is %d"
                      % (pairs, MOST_PAIRS), advice)
    return ""


def too_much_room(of: Instance) -> str:
    """For degree bounds: the upper bounds, and how often edges can be used; the certificate graph
    has all of it twice."""
    value_at, uses = dict(zip(of.nodes, of.values)), units_of(of)
    size = 2 * (sum(of.values) + 2 * sum(uses))
    pairs = (2 * sum(use * (value_at[u] + use + value_at[v])
                     for use, (u, v) in zip(uses, of.ends))
             + sum(upper - lower for lower, upper in of.bounds))
    if size > MOST_VERTICES:
        return passed(of, "its certificate graph has %d vertices (2 × upper bounds %d + 4 × edge"
                      " uses %d); the limit is %d"
                      % (size, sum(of.values), sum(uses), MOST_VERTICES), advice_on_bounds(of))
    if pairs > MOST_PAIRS:
        return passed(of, "its certificate graph has %d edges; the limit is %d"
                      % (pairs, MOST_PAIRS), advice_on_bounds(of))
    return ""


def advice_on_bounds(of: Instance) -> str:
    """What to do if degree bounds are too large."""
    covers = all(both == (1, 1) or both[0] == 1 for both in of.bounds) and of.nodes
    if covers and set(of.capacities) <= {1}:
        return "an edge cover of more than 2048 edges is solved by min_weight_edge_cover(graph)"
    return "pass smaller upper bounds or capacities, or fewer edges"


def too_many_ends(of: Instance) -> str:
    """For joins, tours and paths: the ends of edges, and the pairs of edges that meet at a node. A
    path is a join twice: first one without terminals, which shows that there is no negative
    cycle."""
    degree: Dict[Any, int] = dict.fromkeys(of.nodes, 0)
    for pair in of.ends:
        for node in pair:
            degree[node] += 1
    for values in ([0] * len(of.nodes), of.values) if of.kind == "path" else (of.values,):
        told = too_many_ports(of, [degree[node] + (of.kind != "postman" and
                                                   (degree[node] + value) % 2)
                                   for node, value in zip(of.nodes, values)], degree)
        if told:
            return told
    return ""


def too_many_ports(of: Instance, ports: List[int], degree: Dict[Any, int]) -> str:
    """For a join whose nodes have so many ports."""
    pairs = sum(one * (one - 1) // 2 for one in ports)
    if sum(ports) > MOST_VERTICES:
        return passed(of, "%d edges give %d ports; the limit is %d, so at most %d edges"
                      % (len(of.ends), sum(ports), MOST_VERTICES, MOST_VERTICES // 2),
                      "replace each chain of edges without a crossing by one edge")
    if pairs + len(of.ends) > MOST_PAIRS:
        largest = of.nodes[max(range(len(ports)), key=ports.__getitem__)]
        twice = ", a loop counts twice" if has_loop(of) else ""
        return passed(of, "%d pairs of incident edges (node %r has degree %d%s); the limit is %d"
                      % (pairs, largest, degree[largest], twice, MOST_PAIRS - len(of.ends)),
                      "split that node into several, joined by edges of weight 0")
    return ""
