"""Assignments: each row of a matrix gets a column of its own, such that the entries add up to as
little, or as much, as possible.

Rows and columns are the nodes of a bipartite graph. A square matrix asks for a minimum-weight
perfect matching of it. If there are more columns than rows, a matching of the weights
K + m(i) - cost is maximised, with m(i) the least cost in row i and K so great that it pays to match
each row."""
from __future__ import annotations

from fractions import Fraction
from typing import Any, List, NamedTuple, Optional, Tuple

from ..answers import Verdict
from ..arguments import refuse_timeout
from ..batch import Progress, reporter
from ..certificates import Number
from ..errors import Infeasible, WeightError
from ..kinds import MOST_WEIGHT
from ..instances import refuse_large
from ..running import Engine, Runner, runner
from ..tables import Node
from ..weights import Rounding, Scale, plain, refuse_rounding
from ..wording import some, wanted
from .certificates import DenseCertificate
from .covers import used_in
from .given import array_of_costs, near, scale_of_matrix, whole_matrix
from .pairs import MISSING, SidedPairs
from .pricing import Problem
from .rounds import solve_by_pricing


class _RowsAndColumns(NamedTuple):
    """Two arrays."""

    rows: Any
    columns: Any


class Assignment(_RowsAndColumns):
    """An optimal assignment: a pair of arrays, as scipy's `linear_sum_assignment` returns it.

    `rows, columns = assignment` are indices, and `costs[assignment]` are the entries that are
    chosen.

    Attributes
    ----------
    rows, columns : numpy.ndarray
        The indices of the rows and columns, each of shape (pairs,).
    weight : int or Fraction
        The sum of the entries.
    certificate : DenseCertificate
        The proof that it is optimal, over nodes ("row", i) and ("column", j).
    """

    weight: Number
    certificate: DenseCertificate

    def check(self, *, engine: Optional[Engine] = None, program: Optional[str] = None,
              timeout: Optional[float] = None) -> Verdict:
        """Check the assignment: see `DenseCertificate.check`.

        Parameters
        ----------
        engine, program, timeout
            See `Answer.check`.

        Returns
        -------
        Verdict
            True if the certificate proves that the assignment is optimal.
        """
        return self.certificate.check(engine=engine, program=program, timeout=timeout)

    def __repr__(self) -> str:
        return "<assignment of weight %s: %d rows>" % (self.weight, len(self.rows))


def assignment(costs: Any, maximize: bool = False, *, scale: Optional[Scale] = None,
               rounding: Rounding = None, progress: Progress = None, engine: Engine = "auto",
               program: Optional[str] = None, timeout: Optional[float] = None) -> Assignment:
    """Find a minimum-weight assignment of the rows of a matrix to its columns.

    The arguments and the two arrays of the answer are those of scipy's `linear_sum_assignment`; the
    answer has a certificate besides.

    Parameters
    ----------
    costs : matrix of numpy, nested lists or a DataFrame
        Rows and columns together are at most 4,096. `inf`, `nan` and masked entries are pairs that
        must not be used.
    maximize : bool
        Whether the sum is maximised.
    progress : bool or callable
        True for a bar by tqdm, or a function of (done, total).
    scale, rounding, engine, program, timeout
        See `solve`.

    Returns
    -------
    Assignment

    Raises
    ------
    Infeasible
        If some rows have fewer columns together than they are.
    GraphError, WeightError, LimitExceeded, TimeLimit, SolverError
        See `solve`.

    Examples
    --------
    >>> rows, columns = blossom.assignment([[4, 1, 3], [2, 0, 5], [3, 2, 2]])
    >>> columns.tolist()
    [1, 0, 2]"""
    numpy = wanted("numpy", "assignments")
    refuse_timeout(timeout)
    refuse_rounding(rounding)
    matrix = array_of_costs(costs)
    refuse_large(sum(matrix.shape), 0)
    factor = scale_of_matrix(matrix, scale)
    whole = whole_matrix(matrix, -1 if maximize else 1, factor, near(scale, rounding), False)
    is_turned = whole.shape[0] > whole.shape[1]
    own = numpy.ascontiguousarray(whole.T) if is_turned else whole
    problem = problem_of(own, names_of(own, is_turned), factor)
    with reporter(progress, problem.pairs.count, "pair") as report:
        certificate = solve_by_pricing(problem, runner(engine, program), timeout, report)
    refuse_unmatched(certificate, own, names_of(own, is_turned), factor)
    chosen = used_in(certificate)
    rows, columns = chosen[0], chosen[1] - len(own)
    total = int(own[rows, columns].sum()) * (-1 if maximize else 1)
    pair = (columns, rows) if is_turned else (rows, columns)
    order = numpy.argsort(pair[0], kind="stable")
    found = Assignment(pair[0][order], pair[1][order])
    found.weight, found.certificate = plain(Fraction(total) / factor), certificate
    return found


def names_of(costs: Any, is_turned: bool) -> List[Node]:
    """The names of the nodes: those of the lesser side first."""
    sides = ("column", "row") if is_turned else ("row", "column")
    return [(side, place) for side, size in zip(sides, costs.shape) for place in range(size)]


def problem_of(costs: Any, nodes: List[Node], scale: Fraction) -> Problem:
    """The problem of a matrix of no more rows than columns. WeightError: a weight that it needs is
    over the limit."""
    import numpy

    pairs, offsets = SidedPairs(costs), numpy.zeros(sum(costs.shape), numpy.int64)
    if costs.shape[0] == costs.shape[1]:
        return Problem("perfect", pairs, offsets, nodes, scale)
    there = costs != MISSING
    least = numpy.where(there.any(axis=1), costs.min(axis=1, initial=MISSING), 0)
    spread = int(numpy.where(there, costs - least[:, None], 0).max(initial=0))
    most = 1 + spread * (1 if there.all() else len(costs))
    if most > MOST_WEIGHT:
        raise WeightError("the costs of a row differ by %d, times the scale %s: the matching needs"
                          " weights up to %d, and they must be within 10^12; pass a smaller scale"
                          % (spread, scale, most))
    offsets[:len(costs)] = least + most
    return Problem("match", pairs, offsets, nodes, scale)


def refuse_unmatched(certificate: DenseCertificate, costs: Any, nodes: List[Node],
                     scale: Fraction) -> None:
    """Infeasible: some rows have too few columns. Its certificate is that of these rows and their
    columns alone, which have no perfect matching."""
    import numpy

    if certificate.status == "optimal" and len(certificate.document.counts) == len(costs):
        return
    rows, columns = violators(certificate, costs)
    part = numpy.ascontiguousarray(costs[numpy.ix_(rows, columns)])
    names = [nodes[row] for row in rows] + [nodes[len(costs) + column] for column in columns]
    problem = Problem("perfect", SidedPairs(part), numpy.zeros(len(names), numpy.int64), names,
                      scale)
    proof = solve_by_pricing(problem, certificate.by, None, lambda done: None)
    raise Infeasible("no assignment exists: %s have only %d columns between them"
                     % (some(names[:len(rows)]), len(columns)), proof)


def violators(certificate: DenseCertificate, costs: Any) -> Tuple[List[int], List[int]]:
    """Rows that have fewer columns together than they are, and these columns: what alternating
    paths reach from a row that a maximum matching misses."""
    import numpy

    owner, there = numpy.full(costs.shape[1], -1), costs != MISSING
    if certificate.status == "optimal":
        first, second = used_in(certificate)
        owner[second - len(costs)] = first
    while True:
        missed = min(set(range(len(costs))) - set(owner.tolist()))
        found, columns, end = reached(there, owner, missed)
        if end is None:
            return sorted(found), columns
        augment(found, owner, *end)


def reached(there: Any, owner: Any, start: int) -> Tuple[Any, List[int], Any]:
    """The rows that alternating paths reach from one, each with the row before it; the columns on
    the way; and a row and a free column at the end of such a path, if one ends so."""
    import numpy

    before, seen, stack = {start: -1}, numpy.zeros(there.shape[1], bool), [start]
    while stack:
        row = stack.pop()
        new = there[row] & ~seen
        free = numpy.flatnonzero(new & (owner < 0))
        if len(free):
            return before, [], (row, int(free[0]))
        seen |= new
        for column in numpy.flatnonzero(new).tolist():
            before.setdefault(int(owner[column]), row)
            stack.append(int(owner[column]))
    return before, numpy.flatnonzero(seen).tolist(), None


def augment(before: Any, owner: Any, row: int, column: int) -> None:
    """Matches one row more: exchanges the columns along a path that ends at a free column."""
    import numpy

    while row >= 0:
        own = numpy.flatnonzero(owner == row)
        owner[column] = row
        if len(own):
            column = int(own[0])
        row = before[row]
