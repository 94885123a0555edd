"""Whether a solution that some other program found is optimal: with a certificate of that solution,
or with a better one."""
from __future__ import annotations

import numbers
from collections.abc import Mapping
from dataclasses import dataclass
from typing import Any, Dict, Iterable, List, Optional, Tuple, Union

from .answers import Answer
from .arguments import node_in, refuse_unless
from .bounds import Bound
from .certificates import Certificate, Number
from .documents import Document
from .errors import ArgumentError, GraphError
from .fitting import misfit
from .graphs import USUAL_CAPACITY, USUAL_WEIGHT, Graph
from .instances import Degrees, Instance
from .kinds import MATCHED, PATHS, WALKED, Kind
from .running import Engine
from .slacks import indices_of
from .solving import instance_of, solve
from .tables import Node
from .weights import Rounding, Scale


@dataclass(frozen=True)
class Judgement:
    """The judgement of a solution that some other program found; it is true if that is optimal.

    Attributes
    ----------
    answer : Answer
        The solution with a certificate that proves it optimal or, if it isn't optimal, an optimal
        answer.
    weight : int, Fraction or None
        The weight of the solution; None if it isn't feasible.
    reason : str or None
        Why it isn't optimal, in words; None if it is.
    """

    answer: Answer
    weight: Optional[Number]
    reason: Optional[str] = None

    def __bool__(self) -> bool:
        return self.reason is None


def is_optimal(graph: Union[Graph, Instance], kind: Kind, edges: Any, *,
               nodes: Iterable[Node] = (), weight: Optional[str] = USUAL_WEIGHT,
               capacity: Optional[str] = USUAL_CAPACITY, degrees: Degrees = None,
               terminals: Optional[Iterable[Node]] = None, source: Optional[Node] = None,
               target: Optional[Node] = None, lower: Bound = None, upper: Bound = None,
               default_capacity: Optional[int] = None, scale: Scale = 1, rounding: Rounding = None,
               engine: Engine = "auto", program: Optional[str] = None,
               timeout: Optional[float] = None) -> Judgement:
    """Judge a solution that some other program found.

    Parameters
    ----------
    graph : graph or Instance
        See `solve`.
    kind : str
        One of `blossom.KINDS`.
    edges : iterable or mapping
        The edges of the solution, by name (in either direction) or by index. An edge that is used
        more than once is listed as often, or a mapping has its count. A name (u, v) of parallel
        edges means the best of them that isn't used yet. For matchings it may also be a mapping of
        each node to its mate, for tours and paths a list of nodes.
    nodes, weight, capacity, degrees, terminals, source, target, lower, upper,
    default_capacity, scale, rounding, engine, program, timeout
        See `solve`.

    Returns
    -------
    Judgement
        True if the solution is optimal; then `judgement.answer` is the solution with a certificate.
        Otherwise `judgement.answer` is an optimal one, and `judgement.reason` says what is wrong.

    Raises
    ------
    GraphError
        If the graph lacks an edge of the solution.
    Infeasible, NegativeCycle, WeightError, LimitExceeded, TimeLimit, SolverError
        See `solve`.

    Examples
    --------
    >>> square = [("a", "b", 1), ("b", "c", 4), ("c", "d", 1), ("d", "a", 4)]
    >>> bool(blossom.is_optimal(square, "perfect", [("a", "b"), ("c", "d")]))
    True
    >>> blossom.is_optimal(square, "perfect", [("b", "c"), ("a", "d")]).reason
    'it weighs 8, and an optimal solution weighs 2'
    """
    of = instance_of(graph, kind, {"nodes": nodes, "weight": weight, "capacity": capacity,
                                   "degrees": degrees, "terminals": terminals, "source": source,
                                   "target": target, "lower": lower, "upper": upper,
                                   "default_capacity": default_capacity, "scale": scale,
                                   "rounding": rounding})
    indices = indices_in(of, edges)
    best = solve(of, of.kind, engine=engine, program=program, timeout=timeout)
    return judgement(best, indices)


def judgement(best: Answer, indices: List[int]) -> Judgement:
    """What is said of these edges, of which some may be used more than once."""
    of = best.instance
    document = document_with(best, indices)
    if document is None:
        return Judgement(best, None, "its edges are no walk of the problem")
    answer = Answer(of, Certificate(of, document, best.certificate.by))
    wrong = misfit(answer)
    if wrong is not None:
        return Judgement(best, None, wrong)
    if answer.weight == best.weight:
        return Judgement(answer, answer.weight)
    told = "it has %s edges, and a maximum matching has %s" if of.kind == "gallai" else (
        "it weighs %s, and an optimal solution weighs %s")
    return Judgement(best, answer.weight, told % (answer.weight, best.weight))


def document_with(best: Answer, indices: List[int]) -> Optional[Document]:
    """The document of an optimal answer with other edges in place of its own, and their weight.
    None: they are no walk, and one is asked for."""
    of, document = best.instance, best.certificate.document
    weights = [of.weights[index] for index in indices]
    weight = {"bottleneck": max(weights, default=0), "gallai": len(indices)}.get(
        of.kind, sum(weights))
    if of.kind in WALKED:
        walk = walk_of(of, indices)
        if walk is None:
            return None
        return document.changed(walk=walk if walk[1] else None, weight=weight)
    counts: Dict[int, int] = {}
    for index in sorted(indices):
        counts[index + 1] = counts.get(index + 1, 0) + 1
    paths = document.paths
    if of.kind == "gallai" and len(counts) == len(document.counts):
        paths = paths_beside(of, document, list(counts))
    return document.changed(counts=counts, weight=weight, paths=paths)


def walk_of(of: Instance, indices: List[int]) -> Optional[Tuple[int, List[int]]]:
    """A walk along these edges, as a document has it: from the lesser end of a path, or from the
    first edge of a tour. None: they join to none. It goes on where it can; where it is stuck before
    all edges are used, it goes back and takes the others in between."""
    left: Dict[int, List[Tuple[int, int]]] = {}
    number_of, used = of.number_of(), [False] * len(indices)
    for place, index in enumerate(indices):
        one, other = (number_of[end] for end in of.ends[index])
        left.setdefault(one, []).append((place, other))
        left.setdefault(other, []).append((place, one))
    ends = [number for number, value in enumerate(of.values, 1) if value % 2]
    start = ends[0] if of.kind in PATHS else min(left, default=1)
    stack: List[Tuple[int, int]] = [(start, 0)]
    walk: List[int] = []
    while stack:
        here = stack[-1][0]
        while left.get(here) and used[left[here][-1][0]]:
            left[here].pop()
        if left.get(here):
            place, there = left[here].pop()
            used[place] = True
            stack.append((there, indices[place] + 1))
        else:
            walk.append(stack.pop()[1])
    steps = walk[-2::-1]
    return (start, steps) if len(steps) == len(indices) and joins(of, start, steps) else None


def joins(of: Instance, start: int, steps: List[int]) -> bool:
    """Whether each of these edges, by number, begins where the one before it ends."""
    here = of.nodes[start - 1]
    for number in steps:
        first, second = of.ends[number - 1]
        if here not in (first, second):
            return False
        here = second if here == first else first
    return True


def paths_beside(of: Instance, document: Document, edges: List[int]) -> Dict[int, List[int]]:
    """The alternating paths of a Gallai-Edmonds decomposition for another maximum matching, which
    consists of these edges.

    The matching of the document with the edges of a path exchanged misses a node. From there the
    edges of the other matching and of this one lead alternately to a node that the other misses."""
    number_of = of.number_of()
    own = mates(of, number_of, edges)
    paths = {}
    for node, path in document.paths.items():
        missing = mates(of, number_of, sorted(set(document.counts) ^ set(path)))
        found, here, mine = [], node, True
        while here in (own if mine else missing):
            number, here = (own if mine else missing)[here]
            found.append(number)
            mine = not mine
        paths[node] = found
    return paths


def mates(of: Instance, number_of: Dict[Node, int],
          edges: List[int]) -> Dict[int, Tuple[int, int]]:
    """For each node of a matching its edge and its mate, by number."""
    found = {}
    for number in edges:
        one, other = (number_of[end] for end in of.ends[number - 1])
        found[one], found[other] = (number, other), (number, one)
    return found


def indices_in(of: Instance, edges: Any) -> List[int]:
    """The indices of the edges of a solution, each as often as it is used. GraphError: one isn't
    in the graph. TypeError: they aren't edges."""
    refuse_unless(hasattr(edges, "__iter__") and not isinstance(edges, (str, bytes)), "edges",
                  "an iterable of edges, or a mapping", edges)
    names = indices_of(of)
    nodes = set(of.nodes)
    if isinstance(edges, Mapping):
        if of.kind in MATCHED and edges and nodes.issuperset(edges):
            edges = list({frozenset((one, node_in("edges", mate))): (one, mate)
                          for one, mate in edges.items()}.values())
        else:
            edges = [edge for edge, count in edges.items() for _ in range(times(edge, count))]
    given = list(edges)
    if of.kind in WALKED and given and all(is_node(one, nodes) for one in given) and not all(
            is_name(one, names) for one in given):
        given = list(zip(given, given[1:]))
    return chosen(of, given, names)


def times(edge: Any, count: Any) -> int:
    """How often an edge is used. ArgumentError: that isn't a number of times."""
    if not isinstance(count, numbers.Integral) or count < 0:
        raise ArgumentError("count of edge %r must be a nonnegative integer, got %r"
                            % (edge, count))
    return int(count)


def is_hashable(name: Any) -> bool:
    """Whether it can be the name of an edge."""
    try:
        hash(name)
    except TypeError:
        return False
    return True


def is_node(one: Any, nodes: Any) -> bool:
    """Whether it is one of the nodes."""
    try:
        return one in nodes
    except TypeError:
        return False


def is_name(one: Any, names: Dict[Any, int]) -> bool:
    """Whether it is the name of an edge, in either direction."""
    try:
        return tuple(one) in names or (*tuple(one)[1::-1], *tuple(one)[2:]) in names
    except TypeError:
        return False


def chosen(of: Instance, given: List[Any], names: Dict[Any, int]) -> List[int]:
    """The index of each edge that is given. GraphError: see `indices_in`."""
    parallel: Dict[Any, List[int]] = {}
    for index, (u, v) in enumerate(of.ends):
        parallel.setdefault(frozenset((u, v)), []).append(index)
    for indices in parallel.values():
        indices.sort(key=of.weights.__getitem__, reverse=of.kind != "match")
    found = [index_in(edge, of.edge_count, names, parallel) for edge in given]
    if None in found:
        raise GraphError("edge %r isn't in the graph" % (given[found.index(None)],))
    return [index for index in found if index is not None]


def index_in(edge: Any, count: int, names: Dict[Any, int],
             parallel: Dict[Any, List[int]]) -> Optional[int]:
    """The index of an edge, or None if there is none of that name. parallel: the edges of each pair
    of nodes that no name without a key stood for yet, the best of them last."""
    if isinstance(edge, int):
        return edge if 0 <= edge < count else None
    own = tuple(edge) if isinstance(edge, (tuple, list, frozenset, set)) else ()
    if not is_hashable(own):
        return None
    turned = (*own[1::-1], *own[2:])
    if own in names or turned in names:
        return names[own] if own in names else names[turned]
    left = parallel.get(frozenset(own), []) if len(own) == 2 else []
    if len(left) > 1:
        return left.pop()
    return left[0] if left else None
