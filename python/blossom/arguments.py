"""Arguments that many calls have: what is wrong with them is said by their names."""
from __future__ import annotations

import math
import numbers
import os
from typing import Any, List

from .errors import ArgumentError
from .tables import plain_list
from .wording import argument


def nodes_in(name: str, nodes: Any) -> List[Any]:
    """The nodes that were passed as the argument of this name. TypeError: they aren't an
    iterable of hashable nodes, or are a text, whose letters aren't meant."""
    if isinstance(nodes, (str, bytes)):
        raise TypeError("%s must be an iterable of nodes, got the text %r: pass [%r]"
                        % (argument(name), nodes, nodes))
    if not hasattr(nodes, "__iter__"):
        raise TypeError("%s must be an iterable of nodes, got %r" % (argument(name), nodes))
    return [node_in(name, node) for node in plain_list(nodes)]


def node_in(name: str, node: Any) -> Any:
    """The node that was passed as the argument of this name, or as an item of it. TypeError: it
    can't be hashed."""
    try:
        hash(node)
    except TypeError:
        raise TypeError("%s must name hashable nodes, got %r" % (argument(name), node)) from None
    return node


def refuse_timeout(timeout: Any) -> None:
    """TypeError, ArgumentError: that isn't a number of seconds."""
    if timeout is None:
        return
    if not isinstance(timeout, numbers.Real) or isinstance(timeout, bool):
        raise TypeError("%s must be a number of seconds or None, got %r"
                        % (argument("timeout"), timeout))
    if math.isnan(timeout) or timeout < 0:
        raise ArgumentError("%s must be a nonnegative number of seconds, got %r"
                            % (argument("timeout"), timeout))


def refuse_unless(fits: bool, name: str, what: str, got: Any) -> None:
    """TypeError: the argument of this name isn't what it must be."""
    if not fits:
        raise TypeError("%s must be %s, got %r" % (argument(name), what, got))


def refuse_no_file(file: Any) -> None:
    """TypeError: that is neither a path nor an open file."""
    refuse_unless(isinstance(file, (str, os.PathLike)) or hasattr(file, "write"), "file",
                  "a path or an open file", file)
