"""What can go wrong. Each error is a BlossomError, and each can be pickled, so that it comes back
from other processes.

Every error is a `BlossomError`, or a `TypeError` that names the argument.

- `Infeasible` has the `barrier` or `closed_set` that proves it; `NegativeCycle` has the cycle.
- `GraphError`, `WeightError` and `ArgumentError` say what is wrong with the input.
- `LimitExceeded` says what is too large, in your nodes and edges, and what to do.
- `TimeLimit` and `SolverError` say how the solver ended.

For degree bounds twice the sum of the upper bounds and four times the uses of edges are at most
16,384 together. Paths of a given parity are never too large.
"""
from __future__ import annotations

from typing import TYPE_CHECKING, Any, List, Optional

from .deprecated import old_property

if TYPE_CHECKING:
    from .certificates import Certificate


class BlossomError(Exception):
    """The base class of all errors of this package."""


class GraphError(BlossomError, ValueError):
    """The graph isn't an instance of the kind: it is directed, or lacks a node that is named."""


class ArgumentError(BlossomError, ValueError):
    """An argument has an invalid value."""


class WeightError(BlossomError, ValueError):
    """A weight, once scaled, isn't an integer within 10^12."""


class LimitExceeded(BlossomError):
    """The instance, or its certificate graph, is too large.

    Attributes
    ----------
    vertices, edges : int or None
        The numbers that are too large, if they are known.
    """

    def __init__(self, message: str, vertices: Optional[int] = None, edges: Optional[int] = None):
        super().__init__(message, vertices, edges)
        self.vertices = vertices
        self.edges = edges

    def __str__(self) -> str:
        return str(self.args[0])


class TimeLimit(BlossomError, TimeoutError):
    """The program was stopped because it took longer than `timeout` seconds."""


class SolverError(BlossomError):
    """The solver or checker isn't found, or it failed.

    It fails if a signal ends it, if it is out of memory, or if its answer can't be read."""


class NoOptimum(BlossomError, ValueError):
    """The problem has no optimal solution.

    Attributes
    ----------
    certificate : Certificate
        The proof of that, unless the call asked for none.
    """

    def __init__(self, message: str, certificate: "Certificate"):
        super().__init__(message, certificate)
        self.certificate = certificate

    def __str__(self) -> str:
        return str(self.args[0])


class Infeasible(NoOptimum):
    """The problem has no feasible solution.

    Attributes
    ----------
    barrier : list or None
        See `Certificate.barrier`.
    closed_set : list or None
        See `Certificate.closed_set`.

    Examples
    --------
    >>> try:
    ...     blossom.min_weight_perfect_matching([("hub", 1), ("hub", 2), ("hub", 3)])
    ... except blossom.Infeasible as error:
    ...     print(error.barrier)
    ['hub']
    """

    @property
    def barrier(self) -> Optional[List[Any]]:
        """A set of vertices whose removal leaves more odd components than it has members.

        For matchings, factors, degree bounds and paths of a given parity; the components are those
        of the certificate graph. None for other kinds."""
        return self.certificate.barrier

    @property
    def closed_set(self) -> Optional[List[Any]]:
        """A set of nodes that no edge leaves.

        For joins and paths of any parity it contains an odd number of terminals. For tours there
        are edges inside and outside. None for other kinds."""
        return self.certificate.closed_set

    part = old_property("part", "closed_set")


class NegativeCycle(NoOptimum):
    """The graph has a negative cycle, so shortest paths aren't solved in it.

    Attributes
    ----------
    negative_cycle : list
        See `Certificate.negative_cycle`.
    """

    @property
    def negative_cycle(self) -> Optional[List[Any]]:
        """The edges of a negative cycle in their order, each as (from, to) or (from, to, key)."""
        return self.certificate.negative_cycle

    circuit = old_property("circuit", "negative_cycle")


class RoundedWeightsWarning(UserWarning):
    """Weights were rounded: the answer is optimal for the rounded weights."""
