"""Instances and answers as files."""
from __future__ import annotations

import csv
import io
from typing import IO, Any, Dict, List

from ..answers import Answer
from ..certificates import legend
from ..errors import GraphError
from ..instances import Instance
from .graphml import write_graphml

ANSWER_FORMATS = ("csv", "graphml")
#: The types of GraphML for the columns that answers have of their own.
TYPES = {"step": "int", "key": "string", "weight": "double", "rounded_weight": "double",
         "count": "int"}


def write_instance(instance: Instance, file: IO[bytes]) -> None:
    """Writes what `blossom solve` reads, with comments that say which name each number has, and
    the instance's checksum, by which an answer is known again."""
    file.write(legend(instance) + instance.text)


def names_of(rows: List[Dict[str, Any]], walks: bool) -> List[str]:
    """The columns of the rows, in order; those of an answer without rows are its own."""
    return list(rows[0]) if rows else ["step", "u", "v", "weight"] if walks else [
        "u", "v", "weight", "count"]


def write_answer(answer: Answer, file: IO[bytes], format: str = "csv") -> None:
    """Writes an answer as "csv" or "graphml": the edges that it uses with their weights and how
    often (`count`), or the steps of a walk in their order (`step`), each with the columns that the
    edge has in the graph. GraphError: another format."""
    rows = answer.rows
    names = names_of(rows, answer.is_walk)
    if format == "csv":
        text = io.StringIO()
        table = csv.DictWriter(text, names, lineterminator="\n")
        table.writeheader()
        table.writerows(rows)
        file.write(text.getvalue().encode("utf-8"))
    elif format == "graphml":
        whole = all(isinstance(row["weight"], int) for row in rows)
        types = {name: TYPES.get(name, "string") for name in names if name not in ("u", "v")}
        types["weight"] = "int" if whole else "double"
        write_graphml(file, answer.instance.nodes, rows, types, answer.instance.table.positions)
    else:
        raise GraphError("unknown format %r: choose from %s" % (format, ", ".join(ANSWER_FORMATS)))
