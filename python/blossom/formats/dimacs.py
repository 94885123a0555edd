"""Graphs in the DIMACS format of matching problems, as docs/FORMAT.md has it for instances."""
from __future__ import annotations

from typing import IO, Any, Dict, List, Optional

from ..errors import GraphError
from ..graphs import USUAL_CAPACITY, USUAL_WEIGHT
from ..kinds import usual_of
from ..numbers_in_text import number
from ..tables import Table, named

#: The bounds of a vertex without a line.
LOWER, UPPER = usual_of("interval")


def read_dimacs(file: IO[str], weight: Optional[str] = USUAL_WEIGHT,
                capacity: Optional[str] = USUAL_CAPACITY) -> Table:
    """The graph of an open file with `p edge N M`, `e U V [W [C]]`, `n V B` and `n V LOW HIGH`
    lines; nodes are the numbers 1 to N. Where a line has bounds, nodes without such a line have 0
    and 1, as for the program. Each edge weighs 1 with `weight=None`. GraphError: a line isn't such
    a line, a node isn't among them, or there are not M edges."""
    lines = [(place, fields) for place, fields in enumerate(map(str.split, file), 1)
             if fields and not fields[0].startswith("c")]
    headers = [fields for _, fields in lines if fields[0] == "p"]
    wrong = next(((place, fields) for place, fields in lines if fields[0] not in "pen"), None)
    if wrong is not None:
        raise GraphError("line %d begins with %r: expected 'p', 'e', 'n' or 'c'"
                         % (wrong[0], wrong[1][0]))
    if len(headers) != 1 or len(headers[0]) != 4:
        raise GraphError("expected one header line 'p edge N M', found %d" % len(headers))
    nodes, edges = (int(number(field, "the header's number")) for field in headers[0][2:])
    table = Table(list(range(1, nodes + 1)), [], [], [], [])
    for place, fields in lines:
        if fields[0] != "p":
            take(table, fields, place)
    if len(table.ends) != edges:
        raise GraphError("the header says %d edges, and there are %d" % (edges, len(table.ends)))
    if table.upper:
        table.lower = {node: table.lower.get(node, LOWER) for node in table.nodes}
        table.upper = {node: table.upper.get(node, UPPER) for node in table.nodes}
    table.names = named(table.ends)
    table.weight_name, table.capacity_name = "weight", "capacity"
    if weight is None:
        table.weights, table.weight_name = [1] * edges, None
    return table


def take(table: Table, fields: List[str], place: int) -> None:
    """Adds an `e` or `n` line to the table. place: the number of the line."""
    numbers = [number(field, "line %d: each field" % place) for field in fields[1:]]
    if fields[0] == "n" and len(numbers) == 2:
        values: Dict[Any, Any] = table.values
        values[known(table, numbers[0])] = numbers[1]
    elif fields[0] == "n" and len(numbers) == 3:
        node = known(table, numbers[0])
        table.lower[node], table.upper[node] = numbers[1:]
    elif fields[0] == "e" and 2 <= len(numbers) <= 4:
        table.ends.append((known(table, numbers[0]), known(table, numbers[1])))
        table.weights.append(numbers[2] if len(numbers) > 2 else 1)
        table.capacities.append(numbers[3] if len(numbers) > 3 else None)
    else:
        raise GraphError("wrong number of fields in line %d, %r" % (place, " ".join(fields)))


def known(table: Table, node: Any) -> Any:
    """The node, if it is one."""
    if node not in range(1, len(table.nodes) + 1):
        raise GraphError("vertex %s out of range 1 to %d" % (node, len(table.nodes)))
    return node
