"""Bounds: how often a node is met at least and at most, as a caller says it and as numbers.

`degrees=` is a mapping or a node attribute. `lower=` and `upper=` are a number for all nodes, a
mapping, or a node attribute. Without a lower bound the degree is 0 or more, without an upper bound
as large as the edges allow. `degree_constrained_subgraph` uses each edge at most once, or as often
as its capacity. `default_capacity=3` is the capacity of an edge without one, and
`default_capacity=None` no limit: then one of its ends needs an upper bound.

- `lower=1` is an edge cover.
- `upper=2` is disjoint paths and cycles. Without a lower bound they are empty unless some weight is
  negative; for maximum weight negate the weights.
- Equal bounds are an f-factor, or with `default_capacity=None` a perfect b-matching.
"""
from __future__ import annotations

from typing import Any, Dict, List, Mapping, Optional, Sequence, Union

from . import kinds
from .errors import GraphError, LimitExceeded
from .kinds import Kind
from .node_values import attribute_of, mapping_of, value_of
from .tables import Node, Table
from .wording import argument, word

#: One bound for all nodes, a bound for each, or the name of an attribute of nodes that has them.
Bound = Union[int, str, Mapping[Any, int], None]


def refuse_words(kind: Kind, lower: Bound, upper: Bound,
                 default_capacity: Optional[int]) -> None:
    """GraphError: bounds or a usual capacity are said of a kind that doesn't ask for them."""
    if (lower is not None or upper is not None) and kind not in kinds.BOUNDED:
        raise GraphError("%s and %s apply only to kind 'interval', got kind %r"
                         % (argument("lower"), argument("upper"), kind))
    if default_capacity is not None and kind not in kinds.CAPPED:
        raise GraphError("%s applies only to kinds 'capmatch' and 'interval', got kind %r"
                         % (argument("default_capacity"), kind))


def all_bounds(graph: Any, table: Table, nodes: Sequence[Node],
               capacities: Sequence[Optional[int]], lower: Bound, upper: Bound) -> List[int]:
    """The two bounds of each node in turn. GraphError: a lower bound is above the upper one, one is
    given of a node that isn't in the graph, or see `allowed`. LimitExceeded: see there."""
    below = bound_of(graph, table, nodes, "lower", table.lower if lower is None else lower)
    above = bound_of(graph, table, nodes, "upper", table.upper if upper is None else upper)
    refuse_absent(nodes, [*below, *above])
    wanting = [node for node in nodes if node not in above]
    above.update(allowed(table, wanting, capacities, below, above))
    bounds: List[int] = []
    for node in nodes:
        least, greatest = below.get(node, 0), above[node]
        if least > greatest:
            raise GraphError("lower bound exceeds upper bound at node %r: %d > %d"
                             % (node, least, greatest))
        bounds += [least, greatest]
    return bounds


def refuse_absent(nodes: Sequence[Node], named: Sequence[Node]) -> None:
    """GraphError: one that is named isn't in the graph."""
    there = set(nodes)
    for node in named:
        if node not in there:
            raise GraphError("node %r isn't in the graph" % (node,))


def bound_of(graph: Any, table: Table, nodes: Sequence[Node], name: str,
             bound: Union[int, str, Mapping[Any, int]]) -> Dict[Node, int]:
    """The bound of each node that has one. GraphError, LimitExceeded: one is none."""
    if isinstance(bound, str):
        given = attribute_of(graph, table, name, bound)
    elif isinstance(bound, Mapping):
        given = bound
    elif hasattr(bound, "__iter__"):
        given = mapping_of(name, bound, ", a number for all nodes or the name of an attribute")
    else:
        given = dict.fromkeys(nodes, bound)
    return {node: value_of(node, value, name + " bound") for node, value in given.items()}


def allowed(table: Table, nodes: Sequence[Node], capacities: Sequence[Optional[int]],
            below: Mapping[Node, int], above: Mapping[Node, int]) -> Dict[Node, int]:
    """How often the edges at each of these nodes, which have no upper bound, can be used together;
    at least the lower bound, so that an answer that this excludes is missing, and not a bound.
    GraphError: an edge there has no capacity, and its other end no upper bound. LimitExceeded: it
    is more than 4,096."""
    found = dict.fromkeys(nodes, 0)
    if not found:
        return found
    for place, (pair, capacity) in enumerate(zip(table.ends, capacities)):
        for here, there in (pair, pair[::-1]):
            if here in found:
                limits = [one for one in (capacity, above.get(there)) if one is not None]
                if not limits:
                    raise unlimited(table.name(place))
                found[here] += min(limits)
    for node, most in found.items():
        if most > kinds.MOST_VALUE:
            raise LimitExceeded("the edges at node %r allow degree %d, above the limit %d: give the"
                                " node an upper bound" % (node, most, kinds.MOST_VALUE))
    return {node: max(most, below.get(node, 0)) for node, most in found.items()}


def unlimited(edge: Any) -> GraphError:
    """The error of an edge that nothing limits."""
    return GraphError("edge %r is unbounded: give it a capacity, give one of its ends an upper"
                      " bound, or pass %s" % (edge, word("default_capacity", 1)))
