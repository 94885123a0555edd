"""What isn't a graph, though it may look like one: what to pass instead."""
from __future__ import annotations

import os
from typing import Any, List

from .errors import GraphError

FORMS = "a networkx graph, a list of edges, columns by name, or blossom.read(file)"


def refuse_other_things(graph: Any) -> None:
    """GraphError: that isn't a graph; the message says what to pass instead."""
    if isinstance(graph, (str, os.PathLike)):
        raise GraphError("expected a graph, got %s: use blossom.read(%r) to read a file"
                         % (type(graph).__name__, os.fspath(graph)))
    if isinstance(graph, (bytes, bytearray)) or hasattr(graph, "read"):
        raise GraphError("expected a graph, got %s: use blossom.read(file) to read a file that is"
                         " open for text" % type(graph).__name__)
    if hasattr(graph, "tocoo"):
        raise GraphError("expected an edge list, got a %s matrix: pass it as costs=, or pass (m.row,"
                         " m.col, m.data) with m = scipy.sparse.triu(matrix).tocoo()"
                         % " × ".join(map(str, getattr(graph, "shape", ("sparse",)))))
    if not hasattr(graph, "__iter__"):
        raise GraphError("expected a graph, got %r: pass %s" % (graph, FORMS))


def is_square(rows: List[Any]) -> bool:
    """Whether these rows are a matrix of as many numbers each, and no list of edges: it is larger
    than edges are, or symmetric with 0 on its diagonal."""
    size = len(rows)
    if size < 2 or not all(isinstance(row, list) and len(row) == size for row in rows):
        return False
    if not all(isinstance(entry, (int, float)) for row in rows for entry in row):
        return False
    both = all(rows[one][other] == rows[other][one] for one in range(size) for other in range(one))
    return size > 4 or both and not any(rows[place][place] for place in range(size))


def refuse_square(rows: List[Any]) -> None:
    """GraphError: the rows are a square matrix of numbers."""
    if is_square(rows):
        raise GraphError("expected an edge list, got a %d × %d matrix: pass it as costs=, or pass"
                         " networkx.from_numpy_array(matrix), or edges as tuples"
                         % ((len(rows),) * 2))
