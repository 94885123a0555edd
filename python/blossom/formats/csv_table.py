"""Graphs as CSV: a line of names, then a line for each edge."""
from __future__ import annotations

import csv
from typing import IO, Any, Dict, List, Mapping, NamedTuple, Optional, Sequence, Tuple

from ..errors import GraphError
from ..graphs import END_NAMES, USUAL_CAPACITY, USUAL_WEIGHT, Usual, refuse_absent
from ..numbers_in_text import is_blank, number
from ..tables import EdgeName, Table, named
from ..wording import some, word

SEPARATORS = ",;\t"


class Line(NamedTuple):
    """A row of a CSV file, and the number of the line on which it begins."""

    number: int
    entries: List[str]


def separator_of(line: str) -> str:
    """The separator that stands most often in the line of names."""
    return max(SEPARATORS, key=line.count)


def read_csv(file: IO[str], weight: Optional[str] = USUAL_WEIGHT,
             capacity: Optional[str] = USUAL_CAPACITY) -> Table:
    """The graph of an open CSV file. Its columns have names in the first line: `u` and `v` (or
    `source` and `target`, `from` and `to`, in capitals too), and perhaps `weight`, `capacity` and
    `key`, in any order; others come back with answers. Nodes are texts. GraphError: it isn't such a
    table, or a column that is named doesn't exist."""
    lines = list(file)
    lines[:1] = [line.lstrip("\ufeff") for line in lines[:1]]
    names, pair = header_of(lines)
    own = [name for name in names if name and name not in pair]
    rows = rows_of(lines, names, separator_of(lines[0]))
    for named_as, what in ((weight, "weight"), (capacity, "capacity")):
        if named_as is not None and not isinstance(named_as, Usual) and named_as not in own:
            columns = {name: [row.get(name) for row, _ in rows] for name in own
                       if name not in ("key", capacity)}
            refuse_absent(named_as, what, columns)
    return table_of_rows([row for row, _ in rows], pair[0], pair[1], weight, capacity, own,
                         places=["line %d: " % place for _, place in rows])


def header_of(lines: Sequence[str]) -> Tuple[List[str], Tuple[str, str]]:
    """The names of the columns, and which two of them are the ends. GraphError: there are none, or
    a name stands there twice."""
    first = lines[0] if lines else ""
    if not first.strip():
        raise GraphError("the file has no line of column names: begin it with u,v,weight")
    if first.startswith("#"):
        raise GraphError("the file begins with a comment, %r: begin it with the column names, such"
                         " as u,v,weight" % first.strip())
    separator = separator_of(first)
    names = [name.strip() for name in next(csv.reader([first], delimiter=separator), [])]
    twice = [name for name in names if name and names.count(name) > 1]
    if twice:
        raise GraphError("duplicate column name %r in the header" % twice[0])
    known = {name.lower(): name for name in reversed(names)}
    pair = next((pair for pair in END_NAMES if set(pair) <= set(known)), None)
    if pair is None:
        raise GraphError("no columns for the edge ends: got %s; name them 'u' and 'v' (or 'source'"
                         " and 'target', 'from' and 'to')" % some(names))
    return names, (known[pair[0]], known[pair[1]])


def rows_of(lines: Sequence[str], names: Sequence[str],
            separator: str) -> List[Tuple[Dict[str, str], int]]:
    """The rows below the header as mappings, each with the number of its line. GraphError: one has
    more fields than there are columns, or is a comment."""
    found = []
    for line in numbered_lines(lines, separator):
        entries = [entry.strip() for entry in line.entries]
        if not any(entries):
            continue
        if lines[line.number - 1].startswith("#"):
            raise GraphError("line %d begins with '#', and CSV has no comments: delete the line, or"
                             " quote the name" % line.number)
        if any(entries[len(names):]):
            raise GraphError("line %d has %d fields, but the header has %d columns: quote a field"
                             " that holds %r, and write decimals with a point"
                             % (line.number, len(entries), len(names), separator))
        found.append((dict(zip(names, entries)), line.number))
    return found


def numbered_lines(lines: Sequence[str], separator: str) -> List[Line]:
    """The rows below the header, each with the number of the line on which it begins."""
    reader, found, before = csv.reader(lines, delimiter=separator), [], 0
    for entries in reader:
        found.append(Line(before + 1, entries))
        before = reader.line_num
    return found[1:]


def table_of_rows(rows: Sequence[Mapping[str, Any]], first: str, second: str,
                  weight: Optional[str], capacity: Optional[str], names: Sequence[str],
                  missing: Any = None, places: Sequence[str] = ()) -> Table:
    """The table of rows of texts, whose columns besides the ends are `names`. missing: what an edge
    weighs that has no text for it, or None if that is refused. places: what messages say first of
    each row. GraphError: an end is missing, a number is invalid, or two edges have one name."""
    places = places or [""] * len(rows)
    for row, place in zip(rows, places):
        if not row.get(first) or not row.get(second):
            raise GraphError("%smissing edge end: %r" % (place, dict(row)))
    ends: List[Tuple[Any, Any]] = [(row[first], row[second]) for row in rows]
    keys = [row.get("key") for row in rows]
    keyed = bool(rows) and all(key is not None for key in keys)
    edges: List[EdgeName] = ([(*pair, key) for pair, key in zip(ends, keys)] if keyed
                             else named(ends))
    if len(set(edges)) < len(edges):
        raise GraphError("two edges have the same ends and the same key")
    others: Dict[str, List[Any]] = {name: [row.get(name, "") for row in rows] for name in names
                                    if name not in (weight, capacity) and not
                                    (keyed and name == "key")}
    known_as = [place + "%s of edge " + repr(edge) for place, edge in zip(places, edges)]
    return Table(list(dict.fromkeys(node for pair in ends for node in pair)), ends, edges,
                 weights_of(rows, known_as, weight if weight in names else None, missing),
                 capacities_of(rows, known_as, capacity if capacity in names else None),
                 columns=others, weight_name=weight if weight in names else None,
                 capacity_name=capacity if capacity in names else None)


def weights_of(rows: Sequence[Mapping[str, Any]], known_as: Sequence[str], weight: Optional[str],
               missing: Any) -> List[Any]:
    """The weights of rows that have such a column, or 1 each. known_as: how messages call what an
    edge has. GraphError: one is blank, or isn't a number."""
    if weight is None:
        return [1] * len(rows)
    found = []
    for row, what in zip(rows, known_as):
        if is_blank(row.get(weight)) and missing is None:
            raise GraphError("%s is empty: fill it in, or pass %s for unit weights"
                             % (what % str(weight), word("weight", None)))
        found.append(missing if is_blank(row.get(weight)) else
                     number(row[weight], what % "weight"))
    return found


def capacities_of(rows: Sequence[Mapping[str, Any]], known_as: Sequence[str],
                  capacity: Optional[str]) -> List[Any]:
    """The capacities of rows, None if they have none. GraphError: one isn't a number."""
    if capacity is None:
        return [None] * len(rows)
    return [None if is_blank(row.get(capacity)) else number(row[capacity], what % "capacity")
            for row, what in zip(rows, known_as)]
