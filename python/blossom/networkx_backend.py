"""networkx's matchings by blossom: `nx.max_weight_matching(G, backend="blossom")` and
`nx.min_weight_matching(G, backend="blossom")`, with networkx 3.2 or later, once the package is
installed.

`nx.max_weight_matching(G, backend="blossom")` and `nx.min_weight_matching(G, backend="blossom")`
need networkx 3.2 and an installed package. They answer what networkx's own functions are to answer,
exactly. `nx.config.backend_priority = ["blossom"]` makes it the default, and networkx 3.4 falls
back if a graph is too large. Other weights than integers are rounded to the finest power of two
that fits, with a `RoundedWeightsWarning`.
"""
from __future__ import annotations

import contextlib
import warnings
from typing import Any, Dict, Iterator, List, Mapping, Optional, Sequence, Set, Tuple, Union

from .answers import Answer
from .errors import Infeasible, LimitExceeded, RoundedWeightsWarning
from .kinds import MOST_EDGES, MOST_NODES
from .solving import solve
from .tables import Node
from .weights import exact, scale_of, whole
from .wording import shown

Edges = List[Tuple[Node, Node, int]]
#: The name of a node that no graph has: an object is equal to itself alone.
NOBODY = object()


class TooLarge(LimitExceeded, NotImplementedError):
    """The graph is too large for the program. networkx goes on by itself where it may, since it
    sees a NotImplementedError."""


@contextlib.contextmanager
def within_limits() -> Iterator[None]:
    """Lets networkx see which graphs are too large."""
    try:
        yield
    except LimitExceeded as error:
        raise TooLarge(*error.args) from error


def whole_edges(graph: Any, weight: Optional[str]) -> Edges:
    """The edges except loops, which no matching has, with integers as weights."""
    edges = [(first, second, attributes.get(weight, 1))
             for first, second, attributes in graph.edges(data=True) if first != second]
    scale = scale_of("finest", [edge[2] for edge in edges], lambda index: edges[index][:2])
    if any((exact(edge[2], edge[:2]) * scale).denominator != 1 for edge in edges):
        warnings.warn("weights rounded to multiples of %s: the optimum holds for the rounded"
                      " weights" % shown(1 / scale), RoundedWeightsWarning, stacklevel=3)
    return [(first, second, whole(one, scale, "nearest", (first, second)))
            for first, second, one in edges]


def most_edges(nodes: List[Node], edges: Edges) -> Set[Tuple[Node, Node]]:
    """A matching of least weight among those with the most edges: a perfect one where there is one.
    Else let one node more take the place of every partner that is lacking: it is met as often as
    the largest matching leaves nodes alone."""
    try:
        return pairs(solve(edges, "perfect", nodes=nodes, certificate=False))
    except Infeasible:
        counted = [edge[:2] for edge in edges]
        largest = len(solve(counted, "match", nodes=nodes, certificate=False).edge_indices)
    alone = len(nodes) - 2 * largest
    lonely: Edges = [(node, NOBODY, 0) for node in nodes]
    try:
        used = solve(edges + lonely, "bmatch", nodes=nodes, degrees={NOBODY: alone},
                     certificate=False)
    except LimitExceeded as error:
        raise LimitExceeded("graph too large: a maximum matching leaves %d of %d nodes exposed, so"
                            " the reduction needs %d × %d + %d edges"
                            % (alone, len(nodes), alone, len(nodes), len(edges)),
                            *error.args[1:]) from None
    return {pair for pair in pairs(used) if NOBODY not in pair}


def pairs(answer: Answer) -> Set[Tuple[Node, Node]]:
    """The edges that are used, as pairs of nodes."""
    return {answer.instance.ends[index] for index in answer.edge_indices}


def max_weight_matching(G: Any, maxcardinality: bool = False,
                        weight: Optional[str] = "weight") -> Set[Tuple[Node, Node]]:
    """A matching of greatest weight; with `maxcardinality` among those with the most edges."""
    forget(G)
    with within_limits():
        edges = whole_edges(G, weight)
        if maxcardinality:
            return most_edges(list(G), [(first, second, -one) for first, second, one in edges])
        return pairs(solve(edges, "match", nodes=list(G), certificate=False))


def min_weight_matching(G: Any, weight: Optional[str] = "weight") -> Set[Tuple[Node, Node]]:
    """A matching of least weight among those with the most edges."""
    forget(G)
    with within_limits():
        return most_edges(list(G), whole_edges(G, weight))


def forget(graph: Any) -> None:
    """Takes away what networkx keeps of a conversion: there is none, since graphs are read as they
    stand, and what is kept makes it warn of graphs that were changed since."""
    kept = getattr(graph, "__networkx_cache__", None) or {}
    kept.get("backends", {}).pop("blossom", None)


def convert_from_nx(graph: Any, **how: Any) -> Any:
    """The graph: it is read as it stands."""
    return graph


def convert_to_nx(found: Any, **how: Any) -> Any:
    """The answer: it is as networkx has it."""
    return found


def can_run(name: str, args: Sequence[Any], kwargs: Mapping[str, Any]) -> Union[bool, str]:
    """Whether the function can be run on its graph, or why not, in words. (Where many nodes stay
    alone a smaller graph may be too large; that is seen when it is run.)"""
    if name not in ("max_weight_matching", "min_weight_matching"):
        return "blossom implements only max_weight_matching and min_weight_matching"
    graph = args[0] if args else kwargs.get("G")
    nodes, edges = graph.number_of_nodes(), graph.number_of_edges()
    if nodes > MOST_NODES or edges > MOST_EDGES:
        return ("graph too large: %d nodes, %d edges; the limits are %d and %d"
                % (nodes, edges, MOST_NODES, MOST_EDGES))
    return True


def should_run(name: str, args: Sequence[Any], kwargs: Mapping[str, Any]) -> Union[bool, str]:
    """Whether the function should be run where networkx may choose."""
    return can_run(name, args, kwargs)


def info() -> Dict[str, Any]:
    """What networkx shows of the backend."""
    told = "Proved to be of %s weight; weights that aren't whole are rounded."
    return {"backend_name": "blossom", "project": "blossom", "package": "blossom",
            "short_summary": "Exact matchings whose optimality is proved.",
            "functions": {"max_weight_matching": {"additional_docs": told % "greatest"},
                          "min_weight_matching": {"additional_docs": told % "least"}}}
