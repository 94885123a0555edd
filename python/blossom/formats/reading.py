"""Which format a file is of, and the graph that it holds."""
from __future__ import annotations

import csv
import io
import os
from typing import IO, Any, Callable, Dict, Literal, Optional, Union

from ..errors import GraphError
from ..graphs import USUAL_CAPACITY, USUAL_WEIGHT
from .csv_table import read_csv
from .dimacs import read_dimacs
from .edge_list import read_edge_list
from .graphml import read_graphml
from ..tables import Table
from ..wording import ON_COMMAND_LINE

Format = Literal["csv", "edges", "graphml", "dimacs"]
READERS: Dict[str, Callable[[IO[str], Optional[str], Optional[str]], Table]] = {
    "csv": read_csv, "edges": read_edge_list, "graphml": read_graphml, "dimacs": read_dimacs}
FORMATS = tuple(READERS)
ENDINGS = {".csv": "csv", ".tsv": "csv", ".edges": "edges", ".edgelist": "edges", ".txt": "edges",
           ".graphml": "graphml", ".xml": "graphml", ".dimacs": "dimacs", ".dim": "dimacs",
           ".col": "dimacs", ".match": "dimacs"}


def format_of(path: str) -> str:
    """The format that a file's name says. GraphError: it says none."""
    ending = os.path.splitext(path)[1].lower()
    if ending not in ENDINGS:
        raise GraphError("cannot tell the format from the name %r: pass %s (%s)"
                         % (path, "--from" if ON_COMMAND_LINE.get() else "format=",
                            ", ".join(FORMATS)))
    return ENDINGS[ending]


def read(file: Union[str, os.PathLike[str], IO[str]], format: Optional[Format] = None, *,
         weight: Optional[str] = USUAL_WEIGHT,
         capacity: Optional[str] = USUAL_CAPACITY) -> Table:
    """Read a graph from a file, for every call that takes a graph.

    Parameters
    ----------
    file : path or file open for text
        The file.
    format : "csv", "edges", "graphml" or "dimacs"
        Its format; by default what the ending of the path says (.csv, .tsv, .edges, .edgelist,
        .txt, .graphml, .xml, .dimacs, .dim, .col, .match).
    weight, capacity : str or None
        The names of these columns; with `weight=None` each edge weighs 1.

    Returns
    -------
    Table
        The graph. Its numbers are exact.

    Raises
    ------
    GraphError
        If the file isn't of that format, isn't text, or lacks a column that is named.

    Examples
    --------
    >>> import io
    >>> streets = blossom.read(io.StringIO("u,v,weight\\na,b,2.5\\nb,a,1\\n"), "csv")
    >>> float(blossom.chinese_postman(streets, scale=10).weight)
    3.5
    """
    given: Any = file
    if not hasattr(given, "read") and not isinstance(given, (str, os.PathLike)):
        raise GraphError("expected a path or an open text file, got %s" % type(given).__name__)
    name = str(getattr(given, "name", "")) if hasattr(given, "read") else os.fspath(given)
    chosen = format or format_of(name)
    by, text = reader(chosen), text_of(given)
    try:
        return by(io.StringIO(text, newline=""), weight, capacity)
    except csv.Error as error:
        raise GraphError("invalid CSV in %r: %s" % (name, error)) from None


def text_of(file: Any) -> str:
    """The text of a file. GraphError: its bytes are no text."""
    try:
        if hasattr(file, "read"):
            text = file.read()
        else:
            with open(file, "rb") as opened:
                text = opened.read().decode("utf-8")
    except UnicodeDecodeError as error:
        raise not_text(file, error) from None
    if not isinstance(text, str):
        raise GraphError("the file is open in binary mode: open it in text mode")
    if "\0" in text:
        raise GraphError("the file is not text: supported formats are %s" % ", ".join(FORMATS))
    return text


def not_text(file: Any, error: UnicodeDecodeError) -> GraphError:
    """The error of a file that isn't UTF-8."""
    name = str(getattr(file, "name", "the file")) if hasattr(file, "read") else os.fspath(file)
    before = error.object[:error.start]
    if b"\0" in error.object:
        return GraphError("%s is not text: supported formats are %s" % (name, ", ".join(FORMATS)))
    return GraphError("%s is not UTF-8 (byte 0x%02x in line %d): save it as UTF-8"
                      % (name, error.object[error.start], before.count(b"\n") + 1))


def reader(format: str) -> Callable[[IO[str], Optional[str], Optional[str]], Table]:
    """What reads the format. GraphError: there is none of that name."""
    if format not in READERS:
        raise GraphError("unknown format %r: choose from %s" % (format, ", ".join(FORMATS)))
    return READERS[format]
