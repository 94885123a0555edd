"""Solve matchings, b-matchings, factors, T-joins, tours and paths exactly, with certificates.

The package `blossom` needs Python 3.9 or later and nothing else. networkx, numpy, pandas, scipy,
matplotlib and tqdm are used if you pass their objects or ask for them. In docs/,
[TUTORIAL.md](TUTORIAL.md) begins at the beginning, [HOWTO.md](HOWTO.md) has recipes, and
[PYTHON.md](PYTHON.md) has a guide and then the reference. Its pieces run as they stand at the top
of the checkout; a test runs them.

A checkout takes the program of `dist/` if that is of its sources; if not, `./blossom` builds it
once. `pip install ./python` (or `PYTHONPATH=python`) serves Python. pip needs no network.

Examples
--------
>>> import blossom
>>> answer = blossom.min_weight_perfect_matching(
...     [("a", "b", 1), ("b", "c", 4), ("c", "d", 1), ("d", "a", 4)])
>>> answer.edges, answer.weight, bool(answer.check())
([('a', 'b'), ('c', 'd')], 2, True)
"""
from __future__ import annotations

from typing import TYPE_CHECKING, Any

from . import vertices
from .answers import Answer, GallaiEdmonds, Verdict
from .batch import solve_many
from .certificates import Certificate, LaminarSet, OddSet
from .checkout import version
from .decoder import Decoder
from .dense import Assignment, assignment
from .deprecated import warn as _warn
from .drawing import draw
from .errors import (ArgumentError, BlossomError, GraphError, Infeasible, LimitExceeded, NegativeCycle, NoOptimum,
                     RoundedWeightsWarning, SolverError, TimeLimit, WeightError)
from .formats import read
from .instances import Instance
from .kinds import KINDS
from .library import Library
from .process import Process
from .optimality import Judgement, is_optimal
from .solving import (bottleneck_perfect_matching, check, chinese_postman,
                      degree_constrained_subgraph, f_factor, gallai_edmonds_decomposition,
                      max_weight_matching, min_weight_edge_cover, min_weight_matching,
                      min_weight_perfect_matching,
                      perfect_b_matching, perfect_capacitated_b_matching, shortest_path, solve,
                      t_join)
from .tables import Table

__version__ = version()
__all__ = [
    "Answer", "ArgumentError", "Assignment", "BlossomError", "Certificate", "Decoder",
    "GallaiEdmonds", "GraphError", "Infeasible", "Instance", "Judgement", "KINDS", "LaminarSet",
    "Library", "LimitExceeded", "NegativeCycle", "NoOptimum", "OddSet", "Process",
    "RoundedWeightsWarning", "SolverError", "Table", "TimeLimit", "Verdict", "WeightError",
    "assignment", "bottleneck_perfect_matching", "check", "chinese_postman",
    "degree_constrained_subgraph", "draw", "f_factor", "gallai_edmonds_decomposition",
    "is_optimal", "max_weight_matching", "min_weight_edge_cover", "min_weight_matching",
    "min_weight_perfect_matching", "perfect_b_matching", "perfect_capacitated_b_matching", "read",
    "shortest_path", "solve", "solve_many", "t_join", "vertices",
]
#: Names of release 1.0.0, and what they are called now.
_OLD_NAMES = {
    "perfect_matching": "min_weight_perfect_matching", "b_matching": "perfect_b_matching",
    "capacitated_b_matching": "perfect_capacitated_b_matching", "postman": "chinese_postman",
    "instance": "Instance.from_graph", "NoBest": "NoOptimum", "NonConservative": "NegativeCycle",
    "ProgramFailed": "SolverError", "RoundedWeights": "RoundedWeightsWarning",
    "Copy": "vertices.Copy", "Gate": "vertices.Subdivision", "Port": "vertices.Port",
}


if not TYPE_CHECKING:  # (a type checker shall find names that don't exist)
    def __getattr__(name: str) -> Any:
        """What a name of release 1.0.0 stands for."""
        if name not in _OLD_NAMES:
            raise AttributeError("module 'blossom' has no attribute %r" % name)
        path = _OLD_NAMES[name].split(".")
        _warn("blossom.%s" % name, "blossom.%s" % _OLD_NAMES[name])
        found = globals()[path[0]]
        return found if len(path) == 1 else getattr(found, path[1])
