"""What a caller says of nodes: numbers for each, or the attribute that has them."""
from __future__ import annotations

import math
import numbers
from typing import Any, Mapping

from . import kinds
from .errors import GraphError, LimitExceeded
from .tables import Node, Table
from .wording import argument, shown, word


def is_natural(value: Any) -> bool:
    """Whether it is a nonnegative integer, of whatever type."""
    return (isinstance(value, numbers.Real) and math.isfinite(value) and float(value).is_integer()
            and float(value) >= 0)


def value_of(node: Node, value: Any, what: str = "degree") -> int:
    """The value as an int, which messages call `what`. GraphError: it isn't a nonnegative integer.
    LimitExceeded: it is over 4,096."""
    if not is_natural(value):
        raise GraphError("%s of node %r must be a nonnegative integer, got %r"
                         % (what, node, value))
    if value > kinds.MOST_VALUE:
        raise LimitExceeded("%s of node %r is %s, above the limit %d"
                            % (what, node, shown(value), kinds.MOST_VALUE))
    return int(value)


def mapping_of(name: str, given: Any, others: str) -> Mapping[Any, Any]:
    """The mapping that a caller passed as the argument of this name. TypeError: it is none; others:
    what else the argument takes, in words."""
    if not isinstance(given, Mapping):
        raise TypeError("%s must be a mapping from nodes%s, got %s"
                        % (argument(name), others, type(given).__name__))
    return given


def attribute_of(graph: Any, table: Table, name: str, attribute: str) -> Mapping[Any, int]:
    """The attribute of each node that has it, which the argument of this name asks for. GraphError:
    no node has it."""
    if not hasattr(graph, "nodes") or isinstance(graph, Table):
        raise GraphError("%s names a node attribute, but this graph has no node attributes: pass a"
                         " mapping" % word(name, attribute))
    found = {node: attributes[attribute] for node, attributes in graph.nodes(data=True)
             if attribute in attributes}
    if not found and table.nodes:
        raise GraphError("no node has the attribute %r named by %s" % (attribute, argument(name)))
    return found
