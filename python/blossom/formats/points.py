"""Points as CSV: a line of names, then a line for each point."""
from __future__ import annotations

import csv
import io
from typing import Any, List, Tuple

from ..errors import GraphError
from ..numbers_in_text import number
from .csv_table import separator_of

#: Columns that name points.
NAMES = ("node", "name", "id")


def read_points(text: str, columns: List[str]) -> Tuple[List[Any], List[List[float]]]:
    """The points of a CSV file, of which this is the text: their names, from the first of the
    columns `NAMES` that it has, else numbers from 0; and their coordinates, from these columns.
    GraphError: a column isn't there, or an entry isn't a number."""
    file = io.StringIO(text, newline="")
    first = file.readline().lstrip("\ufeff")
    separator = separator_of(first)
    header = [name.strip() for name in next(csv.reader([first], delimiter=separator), [])]
    missing = [name for name in columns if name not in header]
    if missing or len(columns) not in (2, 3):
        raise GraphError("--points must name two or three columns: got %s, and the file has %s"
                         % (",".join(columns), ", ".join(header) or "none"))
    lines = [line for line in csv.reader(file, delimiter=separator)
             if any(entry.strip() for entry in line)]
    rows = [dict(zip(header, line)) for line in lines]
    label = next((name for name in NAMES if name in header and name not in columns), None)
    names = [place if label is None else row.get(label, "").strip()
             for place, row in enumerate(rows)]
    found = [[float(number(row.get(name, ""), "%s of point %s" % (name, own))) for name in columns]
             for own, row in zip(names, rows)]
    return names, found
