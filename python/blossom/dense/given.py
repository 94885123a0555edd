"""What callers pass as a dense instance: a matrix of costs, points, or a graph of many edges."""
from __future__ import annotations

from dataclasses import dataclass
from fractions import Fraction
from typing import Any, Dict, Iterable, List, Optional, Tuple

from ..arguments import nodes_in
from ..errors import GraphError
from ..graphs import Graph, table_of
from ..instances import numbered, refuse_large, weights_of
from ..tables import Node, Table
from ..weights import Rounding, Scale, plain, scale_of
from ..wording import wanted
from .metrics import Distances, Metric, coordinates_of, metric_of
from .pairs import MISSING, EdgePairs, MatrixPairs, Pairs, PointPairs, rows_at_once
from .whole import scale_for, whole_array


class Placed:
    """What pictures ask of points: where each node stands."""

    def __init__(self, nodes: List[Node], points: Any) -> None:
        self.positions: Dict[Node, Tuple[float, ...]] = {
            node: tuple(row[:2]) for node, row in zip(nodes, points.tolist())}


@dataclass
class Given:
    """A dense instance as it was given.

    pairs: what pairs cost. nodes: their names. scale: what weights were multiplied by. graph: what
    was given, or where points stand. table: of a graph its edges."""

    pairs: Pairs
    nodes: List[Node]
    scale: Fraction
    graph: Any = None
    table: Optional[Table] = None


def names_for(size: int, nodes: Iterable[Node], what: str, own: Any = None) -> List[Node]:
    """The names of so many nodes: those that are passed, those that the input has, or numbers from
    0. GraphError: they are too many, too few, or two are equal. LimitExceeded: see
    `refuse_large`."""
    refuse_large(size, 0)
    names = nodes_in("nodes", nodes) or (list(own) if own is not None else list(range(size)))
    if len(names) != size or len(set(names)) != size:
        raise GraphError("nodes must name each of the %d %s once: got %d names, %d of them"
                         " different" % (size, what, len(names), len(set(names))))
    return names


def labels_of(matrix: Any) -> Any:
    """The labels of a square DataFrame, or None. GraphError: its columns have others than its
    rows."""
    if not hasattr(matrix, "to_numpy") or not hasattr(matrix, "columns"):
        return None
    rows, columns = list(matrix.index), list(matrix.columns)
    if len(rows) == len(columns) and rows != columns:
        raise GraphError("costs must have the same labels for rows and columns: got %r and %r"
                         % (rows[:3], columns[:3]))
    return rows


def array_of_costs(costs: Any) -> Any:
    """The costs as an array of numpy of two dimensions, masked or not. GraphError: they are
    none."""
    import numpy

    given = costs.to_numpy() if hasattr(costs, "to_numpy") else costs
    try:
        matrix = given if isinstance(given, numpy.ma.MaskedArray) else numpy.asarray(given)
    except ValueError:
        matrix = numpy.empty(0)
    if matrix.ndim == 1 and not matrix.size and hasattr(given, "__len__") and not len(given):
        return numpy.empty((0, 0))
    if matrix.ndim != 2 or matrix.dtype.kind not in "biufO":
        raise GraphError("costs must be a matrix of numbers: got an array of %s of the shape %s"
                         % (matrix.dtype, matrix.shape))
    return matrix


def is_present(block: Any) -> Any:
    """Which entries of an array are there: neither masked nor infinite nor nan nor None."""
    import numpy

    masks: Any = numpy.ma
    plain = masks.getdata(block)
    if plain.dtype.kind == "f":
        present = numpy.isfinite(plain)
    elif plain.dtype.kind == "O":
        present = numpy.array([[is_cost(one) for one in row] for row in plain],
                              bool).reshape(plain.shape)
    else:
        present = numpy.ones(plain.shape, bool)
    return present & ~masks.getmaskarray(block) if masks.isMaskedArray(block) else present


def is_cost(entry: Any) -> bool:
    """Whether an entry is there: neither None nor infinite nor nan. Other things that aren't
    numbers are refused with the weights."""
    try:
        return entry is not None and bool(abs(entry) < float("inf"))
    except TypeError:
        return True


def whole_matrix(matrix: Any, sign: int, scale: Fraction, rounding: Rounding,
                 is_square: bool) -> Any:
    """The costs as integers, `MISSING` for pairs that aren't there and on the diagonal of a square
    of pairs. WeightError: see `whole_array`."""
    import numpy

    masks: Any = numpy.ma
    found = numpy.full(matrix.shape, MISSING)
    step = rows_at_once(matrix.shape[1])
    for begin in range(0, len(matrix), step):
        block = matrix[begin:begin + step]
        there = is_present(block)
        if is_square:
            rows = numpy.arange(len(block))
            there[rows, rows + begin] = False
        places = numpy.argwhere(there)
        found[begin:begin + step][there] = sign * whole_array(
            masks.getdata(block)[there], scale, rounding,
            lambda place: (int(places[place][0]) + begin, int(places[place][1])))
    return found


def refuse_asymmetric(found: Any, matrix: Any) -> None:
    """GraphError: the costs of some pair differ by the order of its nodes."""
    import numpy

    step = rows_at_once(len(found))
    for begin in range(0, len(found), step):
        differs = found[begin:begin + step] != found[:, begin:begin + step].T
        if differs.any():
            one, other = numpy.argwhere(differs)[0].tolist()
            raise asymmetric(one + begin, other, matrix[one + begin, other],
                             matrix[other, one + begin])


def asymmetric(one: int, other: int, cost: Any, back: Any) -> GraphError:
    """What is said of a pair that has two costs."""
    return GraphError("costs must be symmetric: got %s at (%d, %d) and %s at (%d, %d); pass"
                      " (costs + costs.T) / 2, or for rows and columns that are different things"
                      " call blossom.assignment" % (cost, one, other, back, other, one))


def scale_of_matrix(matrix: Any, scale: Optional[Scale]) -> Fraction:
    """The scale as a number. WeightError: see `scale_of`."""
    if scale != "finest":
        return scale_of(1 if scale is None else scale, (), int)
    import numpy

    masks: Any = numpy.ma
    return scale_for(scale, masks.getdata(matrix)[is_present(matrix)])


def near(scale: Optional[Scale], rounding: Rounding) -> Rounding:
    """How weights are rounded: `scale="finest"` asks for that, too."""
    return "nearest" if scale == "finest" else rounding


def from_costs(costs: Any, sign: int, scale: Optional[Scale], rounding: Rounding,
               nodes: Iterable[Node]) -> Given:
    """The instance of a matrix. sign: -1 turns the costs' signs. GraphError: it isn't square or not
    symmetric. WeightError: see `whole_array`."""
    wanted("numpy", "matrices of costs")
    if hasattr(costs, "tocoo"):
        return from_sparse(costs, sign, scale, rounding, nodes)
    matrix = array_of_costs(costs)
    if matrix.shape[0] != matrix.shape[1]:
        raise GraphError("costs must be a square matrix: got the shape %s; call blossom.assignment"
                         " for rows and columns that are different things" % (matrix.shape,))
    names = names_for(len(matrix), nodes, "rows", labels_of(costs))
    factor = scale_of_matrix(matrix, scale)
    found = whole_matrix(matrix, sign, factor, near(scale, rounding), True)
    refuse_asymmetric(found, matrix)
    return Given(MatrixPairs(found), names, factor)


def from_sparse(costs: Any, sign: int, scale: Optional[Scale], rounding: Rounding,
                nodes: Iterable[Node]) -> Given:
    """The same of a sparse matrix of scipy; entries that it doesn't store are missing pairs."""
    import numpy

    if costs.shape[0] != costs.shape[1]:
        raise GraphError("costs must be a square matrix: got the shape %s" % (costs.shape,))
    names = names_for(costs.shape[0], nodes, "rows")
    entries = costs.tocoo(copy=True)
    entries.sum_duplicates()
    there = (entries.row != entries.col) & numpy.isfinite(entries.data)
    row, column, data = (own[there] for own in (entries.row, entries.col, entries.data))
    factor = scale_for(1 if scale is None else scale, data)
    weights = sign * whole_array(data, factor, near(scale, rounding),
                                 lambda place: (int(row[place]), int(column[place])))
    upper = EdgePairs(len(names), row[row < column], column[row < column], weights[row < column])
    lower = EdgePairs(len(names), row[row > column], column[row > column], weights[row > column])
    for own, other in ((upper, lower), (lower, upper)):
        costs_there = other.costs(*own.ends)
        differs = numpy.flatnonzero(costs_there != own.costs(*own.ends))
        if len(differs):
            one, two = (int(end[differs[0]]) for end in own.ends)
            cell = costs.tocsr()
            raise asymmetric(one, two, cell[one, two], cell[two, one])
    return Given(upper, names, factor)


def from_points(points: Any, metric: Metric, sign: int, scale: Optional[Scale],
                rounding: Rounding, nodes: Iterable[Node]) -> Given:
    """The instance of points. GraphError, WeightError: see `coordinates_of`, `Distances`."""
    wanted("numpy", "points")
    rows, chosen = coordinates_of(points), metric_of(metric)
    names = names_for(len(rows), nodes, "points")
    placed = Placed(names, rows)
    if not isinstance(chosen, str):
        given = from_costs(matrix_of_calls(rows, chosen), sign, scale, rounding, names)
        return Given(given.pairs, names, given.scale, placed)
    distances = Distances(rows, chosen, scale, near(scale, rounding))
    return Given(PointPairs(distances, sign < 0), names, distances.scale, placed)


def matrix_of_calls(points: Any, metric: Any) -> Any:
    """What a function says of each pair of points, as a matrix: numbers of any type."""
    import numpy

    size = len(points)
    found = numpy.full((size, size), None)
    for one in range(size):
        for other in range(one + 1, size):
            found[one, other] = found[other, one] = metric(points[one], points[other])
    values = found[~numpy.eye(size, dtype=bool)].tolist()
    if all(isinstance(value, (int, float)) for value in values):
        numpy.fill_diagonal(found, 0)
        return found.astype(float) if any(isinstance(one, float) for one in values) else found
    return found


def in_units(weights: Any, scale: Fraction) -> Any:
    """Weights of an instance in the caller's units."""
    if scale == 1:
        return weights
    return [plain(Fraction(weight) / scale) for weight in weights.tolist()]


def from_graph(graph: Graph, weight: Optional[str], sign: int, scale: Optional[Scale],
               rounding: Rounding, nodes: Iterable[Node]) -> Given:
    """The instance of a graph. GraphError, WeightError: see `Instance.from_graph`."""
    wanted("numpy", "graphs of more than 65,536 edges")
    import numpy

    table, before = table_of(graph, weight), list(nodes)
    names = list(dict.fromkeys([*before, *table.nodes])) if before else table.nodes
    refuse_large(len(names), 0)
    number_of = {node: number for number, node in enumerate(names, 1)}
    first, second = numbered(table, number_of, not before)
    chosen: Scale = 1 if scale is None else scale
    factor = scale_of(chosen, table.weights if chosen == "finest" else (), table.name)
    weights = numpy.asarray(weights_of(table, factor, near(scale, rounding)), numpy.int64)
    ends = [numpy.asarray(end, numpy.int64) - 1 for end in (first, second)]
    pairs = EdgePairs(len(names), ends[0], ends[1], sign * weights)
    return Given(pairs, names, factor, graph, table)
