"""Graphs as lists of edges: `u v`, `u v weight` or `u v weight capacity` a line, between blanks;
`#` begins a comment."""
from __future__ import annotations

from typing import IO, Optional

from ..errors import GraphError
from ..graphs import USUAL_CAPACITY, USUAL_WEIGHT
from .csv_table import table_of_rows
from ..tables import Table


def read_edge_list(file: IO[str], weight: Optional[str] = USUAL_WEIGHT,
                   capacity: Optional[str] = USUAL_CAPACITY) -> Table:
    """The graph of an open file with an edge a line. Nodes are texts; an edge without a weight
    weighs 1, and so do all with `weight=None`. GraphError: a line isn't of two to four fields, or a
    number is none."""
    lines = [(place, fields) for place, fields
             in enumerate((line.split("#")[0].split() for line in file), 1) if fields]
    for place, fields in lines:
        if not 2 <= len(fields) <= 4:
            raise GraphError("line %d is invalid, %r: expected 'u v [weight [capacity]]'"
                             % (place, " ".join(fields)))
    rows = [dict(zip(("u", "v", "weight", "capacity"), fields)) for _, fields in lines]
    return table_of_rows(rows, "u", "v", None if weight is None else "weight",
                         None if capacity is None else "capacity", ("weight", "capacity"), 1,
                         ["line %d: " % place for place, _ in lines])
