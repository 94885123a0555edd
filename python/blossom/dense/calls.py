"""Which instances are dense, and what solves them."""
from __future__ import annotations

from importlib.util import find_spec
from typing import Any, Iterable, Optional

from ..answers import Answer
from ..arguments import refuse_timeout
from ..batch import Progress
from ..errors import LimitExceeded
from ..kinds import MOST_EDGES, MOST_NODES, Kind
from ..running import Engine, runner
from ..tables import Node
from ..weights import Rounding, Scale, refuse_rounding
from .covers import solve_cover
from .given import from_costs, from_graph, from_points
from .matchings import solve_matching
from .metrics import Metric


def is_dense(graph: Any, costs: Any, points: Any) -> bool:
    """Whether a dense instance is passed and no graph. TypeError: not exactly one of them is."""
    passed = [name for name, one in (("graph", graph), ("costs=", costs), ("points=", points))
              if one is not None]
    if len(passed) != 1:
        raise TypeError("expected one of a graph, costs= and points=: got %s"
                        % (" and ".join(passed) or "none of them"))
    return graph is None


def may_be_priced(error: LimitExceeded) -> bool:
    """Whether a graph is too large only since it has more edges than the program takes, and numpy,
    which pricing needs, is installed."""
    return ((error.vertices or 0) <= MOST_NODES and (error.edges or 0) > MOST_EDGES
            and find_spec("numpy") is not None)


def solve_dense(problem: Kind, *, graph: Any = None, costs: Any = None, points: Any = None,
                metric: Metric = "euclidean", nodes: Iterable[Node] = (),
                weight: Optional[str] = None, scale: Optional[Scale] = None,
                rounding: Rounding = None, engine: Engine = "auto",
                program: Optional[str] = None, timeout: Optional[float] = None,
                progress: Progress = None) -> Answer:
    """An optimal answer of a dense instance: a matching ("perfect", "match") or an edge cover
    ("interval"). The arguments are those of `min_weight_perfect_matching`."""
    refuse_timeout(timeout)
    refuse_rounding(rounding)
    sign = -1 if problem == "match" else 1
    if costs is not None:
        given = from_costs(costs, sign, scale, rounding, nodes)
    elif points is not None:
        given = from_points(points, metric, sign, scale, rounding, nodes)
    else:
        given = from_graph(graph, weight, sign, scale, rounding, nodes)
    by = runner(engine, program)
    if problem == "interval":
        return solve_cover(given, by, timeout, progress)
    return solve_matching(given, problem, by, timeout, progress)
