"""Solving and checking: one call for every kind, and one for each problem with its own
arguments."""
from __future__ import annotations

from dataclasses import replace
from typing import TYPE_CHECKING, Any, Callable, Dict, Iterable, Literal, Optional, Tuple, Union

from .arguments import refuse_timeout
from .answers import Answer, Verdict, answer_of, verdict_of
from .bounds import Bound
from .certificates import Certificate
from .deprecated import old_keywords
from .derived import edge_cover, largest_matching, started, tour_of
from .documents import Document, what_is
from .errors import ArgumentError, LimitExceeded, NoOptimum, SolverError
from .graphs import USUAL_CAPACITY, USUAL_WEIGHT, Graph
from .instances import Degrees, Instance
from .kinds import Kind, known
from .required_edges import Required, required_indices
from .running import Engine, Runner, chosen, runner, runner_again, solved
from .tables import Node
from .weights import Rounding, Scale

if TYPE_CHECKING:
    from .batch import Progress
    from .dense.metrics import Metric

#: The arguments of `Instance.from_graph` if nothing is passed.
USUAL: Dict[str, Any] = {"nodes": (), "weight": USUAL_WEIGHT, "capacity": USUAL_CAPACITY,
                         "degrees": None, "terminals": None, "source": None, "target": None,
                         "lower": None, "upper": None, "default_capacity": None, "scale": 1,
                         "rounding": None}
#: The kind of a path of some parity.
PATH_KINDS: Dict[Optional[str], Kind] = {None: "path", "odd": "oddpath", "even": "evenpath"}


def instance_of(graph: Union[Graph, Instance], kind: Kind, how: Dict[str, Any]) -> Instance:
    """The graph as an instance of the kind, or the instance itself if it is one already.
    ValueError: that is of another kind. TypeError: arguments for making one are passed besides."""
    if not isinstance(graph, Instance):
        return Instance.from_graph(graph, kind, **how)
    if graph.kind != known(kind):
        raise ArgumentError("instance of the wrong kind: expected %r, got %r" % (kind, graph.kind))
    said = [name for name, value in how.items() if not is_usual(value, USUAL[name])]
    if said:
        raise TypeError("%s cannot be passed with an existing Instance: pass them to"
                        " Instance.from_graph" % ", ".join(name + "=" for name in sorted(said)))
    return graph


def is_usual(value: Any, usual: Any) -> bool:
    """Whether an argument is what it is if nothing is passed."""
    return type(value) is type(usual) and bool(value == usual)


@old_keywords("via", "brief", "values")
def solve(graph: Union[Graph, Instance], kind: Kind = "perfect", *, nodes: Iterable[Node] = (),
          weight: Optional[str] = USUAL_WEIGHT, capacity: Optional[str] = USUAL_CAPACITY,
          degrees: Degrees = None, terminals: Optional[Iterable[Node]] = None,
          source: Optional[Node] = None, target: Optional[Node] = None, lower: Bound = None,
          upper: Bound = None, default_capacity: Optional[int] = None, scale: Scale = 1,
          rounding: Rounding = None, certificate: bool = True, engine: Engine = "auto",
          program: Optional[str] = None, timeout: Optional[float] = None) -> Answer:
    """Solve a problem of any kind, with a certificate.

    Parameters
    ----------
    graph : graph or Instance
        A graph in any of the forms that `blossom.graphs` lists, or an instance of the kind.
    kind : str
        One of `blossom.KINDS`.
    certificate : bool
        Whether the answer has a certificate; one without is shorter, and proves nothing.
    engine : "auto", "process", "library", Process or Library
        "auto" calls the library in this process if it is found, no `timeout` is given and the graph
        has at most 4,096 edges. Otherwise it starts a process. `timeout` and Ctrl-C end a process
        at once; on a call of the library Ctrl-C takes effect when that has ended.
    program : str
        Path of the program, or with `engine="library"` of the shared object.
    timeout : float
        Seconds after which the process of the solver is stopped. The library has no timeout.
    nodes, weight, capacity, degrees, terminals, source, target, lower, upper,
    default_capacity, scale, rounding
        See `Instance.from_graph`.

    Returns
    -------
    Answer
        An optimal solution, in your names for nodes and edges and in your units of weight.

    Raises
    ------
    Infeasible
        If there is no feasible solution.
    NegativeCycle
        If the graph has a negative cycle and the kind is `path`.
    GraphError, WeightError
        If the graph isn't an instance of the kind.
    LimitExceeded
        If the instance or its certificate graph is too large.
    TimeLimit
        If the solver took longer than `timeout`.
    SolverError
        If the solver isn't found, or failed.

    Examples
    --------
    >>> answer = blossom.solve([("a", "b", 1), ("b", "c", 2)], "tjoin", terminals=["a", "c"])
    >>> answer.edges
    [('a', 'b'), ('b', 'c')]
    >>> answer.weight
    3
    """
    of = instance_of(graph, kind, {"nodes": nodes, "weight": weight, "capacity": capacity,
                                   "degrees": degrees, "terminals": terminals, "source": source,
                                   "target": target, "lower": lower, "upper": upper,
                                   "default_capacity": default_capacity, "scale": scale,
                                   "rounding": rounding})
    refuse_timeout(timeout)
    by = runner(engine, program)
    return answer_of(of, *solved(by, "solve" if certificate else "brief", of, timeout), by)


@old_keywords("via", "values")
def check(graph: Union[Graph, Instance], kind: Kind,
          answer: Union[Answer, Certificate, NoOptimum, str, bytes], *, nodes: Iterable[Node] = (),
          weight: Optional[str] = USUAL_WEIGHT, capacity: Optional[str] = USUAL_CAPACITY,
          degrees: Degrees = None, terminals: Optional[Iterable[Node]] = None,
          source: Optional[Node] = None, target: Optional[Node] = None, lower: Bound = None,
          upper: Bound = None, default_capacity: Optional[int] = None, scale: Scale = 1,
          rounding: Rounding = None, engine: Optional[Engine] = None,
          program: Optional[str] = None, timeout: Optional[float] = None) -> Verdict:
    """Have the proved checker judge an answer, a certificate or the text of a document.

    A document refers to nodes and edges by their numbers. Pass the graph as it was solved: the
    nodes and edges in the same order, and the same other arguments.

    Parameters
    ----------
    graph : graph or Instance
        The graph that was solved.
    kind : str
        One of `blossom.KINDS`.
    answer : Answer, Certificate, NoOptimum, str or bytes
        What to judge: an exception is judged by its certificate.
    engine, program
        What runs the checker: see `solve`. Without both it is what solved the answer, and "auto"
        follows the same rule. A text, and a certificate from elsewhere, is checked by a process,
        which can be stopped: a hostile document can take hours.
    nodes, weight, capacity, degrees, terminals, source, target, lower, upper,
    default_capacity, scale, rounding, timeout
        See `solve`.

    Returns
    -------
    Verdict
        True if the document proves what it states.

    Raises
    ------
    GraphError, WeightError, LimitExceeded, TimeLimit, SolverError
        See `solve`.

    Examples
    --------
    >>> graph = [("a", "b", 1), ("b", "c", 4), ("c", "d", 1), ("d", "a", 4)]
    >>> answer = blossom.min_weight_perfect_matching(graph)
    >>> bool(blossom.check(graph, "perfect", answer))
    True
    >>> heavier = [("a", "b", 2), *graph[1:]]
    >>> blossom.check(heavier, "perfect", answer).rule
    'WeightDiffers'
    """
    of = instance_of(graph, kind, {"nodes": nodes, "weight": weight, "capacity": capacity,
                                   "degrees": degrees, "terminals": terminals, "source": source,
                                   "target": target, "lower": lower, "upper": upper,
                                   "default_capacity": default_capacity, "scale": scale,
                                   "rounding": rounding})
    document = document_of(answer)
    before = document.by if isinstance(document, Certificate) else None
    refuse_timeout(timeout)
    by = runner_again(before, engine, program)
    if isinstance(document, Certificate) and document.by is not None:
        by = chosen(by, of.edge_count, timeout)
    if isinstance(document, Certificate):
        return verdict_of(of, *judged(by, of, document, timeout))
    return verdict_of(of, *by.run("check", of.kind, of.text + document, timeout))


def judged(by: Runner, of: Instance, certificate: Certificate,
           timeout: Optional[float]) -> Tuple[int, bytes]:
    """What the checker says of a certificate for an instance: over arrays where `by` takes them and
    the certificate came so, in full."""
    written = certificate.written
    if hasattr(by, "judge") and isinstance(written, Document) and written.is_whole():
        told: Tuple[int, bytes] = by.judge(of, written, timeout)
        return told
    return by.run("check", of.kind, of.text + certificate.text, timeout)


def document_of(answer: Any) -> Union[Certificate, bytes]:
    """The certificate of an answer, or the bytes of a text. TypeError: it is none of these.
    SolverError: the text holds no document."""
    if isinstance(answer, (Answer, NoOptimum)):
        return answer.certificate
    if isinstance(answer, Certificate):
        return answer
    if isinstance(answer, (str, bytes, bytearray, memoryview)):
        text = answer.encode("utf-8") if isinstance(answer, str) else bytes(answer)
        if text.strip() and not any(line.split()[:1] == [b"s"] for line in text.split(b"\n")):
            raise SolverError("no document found: %s" % what_is(text))
        return text
    raise TypeError("cannot check a %s: expected an Answer, a Certificate, str or bytes"
                    % type(answer).__name__)


def solve_either(kind: Kind, graph: Union[Graph, Instance, None], costs: Any, points: Any,
                 metric: Metric, progress: Progress, how: Dict[str, Any]) -> Answer:
    """An optimal answer of a graph, of a matrix of costs or of points. Dense instances, and graphs
    of more edges than the program takes, are solved by pricing."""
    from .dense.calls import is_dense, may_be_priced, solve_dense

    dense = {name: one for name, one in how.items() if name != "certificate"}
    if is_dense(graph, costs, points):
        del dense["weight"]
        return solve_dense(kind, costs=costs, points=points, metric=metric, progress=progress,
                           **dense)
    given: Any = graph
    if hasattr(given, "__next__") and not hasattr(given, "read"):
        given = list(given)
    own = {**how, "scale": 1 if how["scale"] is None else how["scale"]}
    try:
        return cover_of(given, own) if kind == "interval" else solve(given, kind, **own)
    except LimitExceeded as error:
        if isinstance(given, Instance) or not may_be_priced(error):
            raise
    return solve_dense(kind, graph=given, progress=progress, **dense)


@old_keywords("via", "brief")
def min_weight_perfect_matching(
        graph: Union[Graph, Instance, None] = None, *, costs: Any = None, points: Any = None,
        metric: Metric = "euclidean", nodes: Iterable[Node] = (),
        weight: Optional[str] = USUAL_WEIGHT, scale: Optional[Scale] = None,
        rounding: Rounding = None, certificate: bool = True, engine: Engine = "auto",
        program: Optional[str] = None, timeout: Optional[float] = None,
        progress: Progress = None) -> Answer:
    """Find a minimum-weight perfect matching: each node is an end of exactly one of its edges.

    The certificate of a dense instance is that of the last round of pricing, and `answer.check()`
    tests all other pairs, too.

    Parameters
    ----------
    graph : graph or Instance
        See `solve`. A graph of more than 65,536 edges is solved by pricing, which needs numpy.
    costs : square symmetric matrix of numpy or scipy.sparse, in place of a graph
        What each pair costs, of shape (nodes, nodes). `inf`, `nan`, masked entries and those that a
        sparse matrix doesn't store are missing pairs. The diagonal is ignored.
    points : array of shape (nodes, 2) or (nodes, 3), in place of a graph
        All pairs of points are edges, with their distances as weights.
    metric : "euclidean", "manhattan", "chebyshev" or callable
        The distance of points; a callable takes two points.
    nodes : iterable
        Names of the rows of `costs` or of the points; without it numbers from 0.
    scale : number or "finest"
        What weights are multiplied by: they must be integers then. Euclidean distances are rounded
        to the nearest integer. Without `scale` it is for them the largest power of ten at which all
        of them are within 10^12; `answer.instance.scale` is the scale.
    progress : bool or callable
        True for a bar by tqdm. A callable is called with (done, total) after each round of pricing:
        `done` counts the pairs that can't improve the answer.
    weight, rounding, certificate, engine, program, timeout
        See `solve`.

    Returns
    -------
    Answer
        A perfect matching of minimum weight.

    Raises
    ------
    Infeasible
        If the graph has no perfect matching.
    GraphError, WeightError, LimitExceeded, TimeLimit, SolverError
        See `solve`.

    Examples
    --------
    >>> answer = blossom.min_weight_perfect_matching(
    ...     [("a", "b", 1), ("b", "c", 4), ("c", "d", 1), ("d", "a", 4)])
    >>> answer.edges
    [('a', 'b'), ('c', 'd')]
    >>> answer.weight
    2
    >>> bool(answer.check())
    True
    """
    return solve_either("perfect", graph, costs, points, metric, progress, {
        "nodes": nodes, "weight": weight, "scale": scale, "rounding": rounding,
        "certificate": certificate, "engine": engine, "program": program, "timeout": timeout})


@old_keywords("via", "brief")
def bottleneck_perfect_matching(
        graph: Union[Graph, Instance], *, nodes: Iterable[Node] = (),
        weight: Optional[str] = USUAL_WEIGHT, scale: Scale = 1, rounding: Rounding = None,
        certificate: bool = True, engine: Engine = "auto", program: Optional[str] = None,
        timeout: Optional[float] = None) -> Answer:
    """Find a perfect matching that minimises its largest edge weight.

    `answer.weight` is that weight. `answer.certificate.barrier` shows that lighter edges alone have
    no perfect matching.

    Parameters
    ----------
    graph : graph or Instance
        See `solve`.
    nodes, weight, scale, rounding, certificate, engine, program, timeout
        See `solve`.

    Returns
    -------
    Answer
        A perfect matching.

    Raises
    ------
    Infeasible
        If the graph has no perfect matching.
    GraphError, WeightError, LimitExceeded, TimeLimit, SolverError
        See `solve`.

    Examples
    --------
    >>> answer = blossom.bottleneck_perfect_matching(
    ...     [("a", "b", 1), ("b", "c", 4), ("c", "d", 6), ("d", "a", 4)])
    >>> answer.edges
    [('b', 'c'), ('d', 'a')]
    >>> answer.weight
    4
    """
    return solve(graph, "bottleneck", nodes=nodes, weight=weight, scale=scale, rounding=rounding,
                 certificate=certificate, engine=engine, program=program, timeout=timeout)


@old_keywords("via")
def gallai_edmonds_decomposition(
        graph: Union[Graph, Instance], *, nodes: Iterable[Node] = (), engine: Engine = "auto",
        program: Optional[str] = None, timeout: Optional[float] = None) -> Answer:
    """Find a maximum matching and the Gallai-Edmonds decomposition; weights are ignored.

    `D, A, C = answer.decomposition` are the nodes that some maximum matching misses, their
    neighbours, and all others. `answer.alternating_path(node)` shows that a maximum matching misses
    this node.

    Parameters
    ----------
    graph : graph or Instance
        See `solve`.
    nodes, engine, program, timeout
        See `solve`.

    Returns
    -------
    Answer
        A maximum matching, with its decomposition.

    Raises
    ------
    GraphError, LimitExceeded, TimeLimit, SolverError
        See `solve`.

    Examples
    --------
    >>> answer = blossom.gallai_edmonds_decomposition([("hub", 1), ("hub", 2), ("hub", 3)])
    >>> answer.weight
    1
    >>> D, A, C = answer.decomposition
    >>> D, A, C
    ([1, 2, 3], ['hub'], [])
    """
    weight = USUAL_WEIGHT if isinstance(graph, Instance) else None
    return solve(graph, "gallai", nodes=nodes, weight=weight, engine=engine, program=program,
                 timeout=timeout)


@old_keywords("via", "brief")
def max_weight_matching(
        graph: Union[Graph, Instance, None] = None, maxcardinality: bool = False, *,
        costs: Any = None, points: Any = None, metric: Metric = "euclidean",
        nodes: Iterable[Node] = (), weight: Optional[str] = USUAL_WEIGHT,
        scale: Optional[Scale] = None, rounding: Rounding = None, certificate: bool = True,
        engine: Engine = "auto", program: Optional[str] = None, timeout: Optional[float] = None,
        progress: Progress = None) -> Answer:
    """Find a maximum-weight matching: each node is an end of at most one of its edges.

    Parameters
    ----------
    graph : graph or Instance
        See `solve`.
    maxcardinality : bool
        Whether to find a maximum-weight matching among the maximum-cardinality matchings of a
        graph. The certificate is then for the same graph with raised weights, by which each edge
        counts for more than all weights differ.
    costs, points
        The weights that are maximised: see `min_weight_perfect_matching`.
    metric, nodes, weight, scale, rounding, certificate, engine, program, timeout, progress
        See `min_weight_perfect_matching`.

    Returns
    -------
    Answer
        A matching of maximum weight.

    Raises
    ------
    GraphError, WeightError, LimitExceeded, TimeLimit, SolverError
        See `solve`.

    Examples
    --------
    >>> path = [("a", "b", 2), ("b", "c", 5), ("c", "d", 2)]
    >>> blossom.max_weight_matching(path).edges
    [('b', 'c')]
    >>> blossom.max_weight_matching(path, maxcardinality=True).edges
    [('a', 'b'), ('c', 'd')]
    """
    how: Dict[str, Any] = {"certificate": certificate, "engine": engine, "program": program,
                           "timeout": timeout}
    if maxcardinality and graph is not None:
        return of_most_edges(graph, 1, nodes, weight, 1 if scale is None else scale, rounding, how)
    if maxcardinality:
        raise ArgumentError("maxcardinality=True needs a graph: got costs= or points=")
    how.update(nodes=nodes, weight=weight, scale=scale, rounding=rounding)
    return solve_either("match", graph, costs, points, metric, progress, how)


def min_weight_matching(
        graph: Union[Graph, Instance], *, nodes: Iterable[Node] = (),
        weight: Optional[str] = USUAL_WEIGHT, scale: Scale = 1, rounding: Rounding = None,
        certificate: bool = True, engine: Engine = "auto", program: Optional[str] = None,
        timeout: Optional[float] = None) -> Answer:
    """Find a minimum-weight matching among the maximum-cardinality matchings, as networkx does.

    The certificate is for the same graph with other weights, by which each edge counts for more
    than all weights differ.

    Parameters
    ----------
    graph : graph or Instance
        See `solve`.
    nodes, weight, scale, rounding, certificate, engine, program, timeout
        See `solve`.

    Returns
    -------
    Answer
        A maximum-cardinality matching of minimum weight.

    Raises
    ------
    GraphError, WeightError, LimitExceeded, TimeLimit, SolverError
        See `solve`.

    Examples
    --------
    >>> blossom.min_weight_matching([("a", "b", 3), ("b", "c", 1)]).edges
    [('b', 'c')]
    """
    return of_most_edges(graph, -1, nodes, weight, scale, rounding,
                         {"certificate": certificate, "engine": engine, "program": program,
                          "timeout": timeout})


def of_most_edges(graph: Union[Graph, Instance], sign: int, nodes: Iterable[Node],
                  weight: Optional[str], scale: Scale, rounding: Rounding,
                  how: Dict[str, Any]) -> Answer:
    """See `derived.largest_matching`. how: the other arguments of `solve`."""
    of = instance_of(graph, "match", {"nodes": nodes, "weight": weight, "scale": scale,
                                      "rounding": rounding})
    return largest_matching(of, sign, lambda one: solve(one, one.kind, **how))


@old_keywords("via", "brief", "values")
def perfect_b_matching(
        graph: Union[Graph, Instance], degrees: Degrees = None, *, nodes: Iterable[Node] = (),
        weight: Optional[str] = USUAL_WEIGHT, scale: Scale = 1, rounding: Rounding = None,
        certificate: bool = True, engine: Engine = "auto", program: Optional[str] = None,
        timeout: Optional[float] = None) -> Answer:
    """Find a minimum-weight perfect b-matching.

    Each edge may be used any number of times, and each node has the degree that is given.

    Parameters
    ----------
    graph : graph or Instance
        See `solve`.
    degrees : mapping or str
        The degree of each node, or the name of a node attribute; 1 for other nodes.
    nodes, weight, scale, rounding, certificate, engine, program, timeout
        See `solve`.

    Returns
    -------
    Answer
        A b-matching; `answer.multiplicities` says how often each edge is used.

    Raises
    ------
    Infeasible
        If no b-matching has these degrees.
    GraphError, WeightError, LimitExceeded, TimeLimit, SolverError
        See `solve`.

    Examples
    --------
    >>> answer = blossom.perfect_b_matching([("a", "b", 3), ("b", "c", 1)], {"a": 2, "b": 3})
    >>> answer.multiplicities
    {('a', 'b'): 2, ('b', 'c'): 1}
    >>> answer.weight
    7
    """
    return solve(graph, "bmatch", nodes=nodes, weight=weight, degrees=degrees, scale=scale,
                 rounding=rounding, certificate=certificate, engine=engine, program=program,
                 timeout=timeout)


@old_keywords("via", "brief", "values")
def perfect_capacitated_b_matching(
        graph: Union[Graph, Instance], degrees: Degrees = None,
        capacity: Optional[str] = USUAL_CAPACITY, *, nodes: Iterable[Node] = (),
        weight: Optional[str] = USUAL_WEIGHT, default_capacity: Optional[int] = None,
        scale: Scale = 1, rounding: Rounding = None, certificate: bool = True,
        engine: Engine = "auto", program: Optional[str] = None,
        timeout: Optional[float] = None) -> Answer:
    """Find a minimum-weight perfect b-matching that respects the capacities of its edges.

    Parameters
    ----------
    graph : graph or Instance
        See `solve`.
    degrees : mapping or str
        The degree of each node, or the name of a node attribute; 1 for other nodes.
    capacity : str
        The attribute or column of capacities: how often an edge is used at most.
    default_capacity : int or None
        The capacity of an edge without one; None means unlimited.
    nodes, weight, scale, rounding, certificate, engine, program, timeout
        See `solve`.

    Returns
    -------
    Answer
        A b-matching; `answer.multiplicities` says how often each edge is used.

    Raises
    ------
    Infeasible
        If no b-matching has these degrees within the capacities.
    GraphError, WeightError, LimitExceeded, TimeLimit, SolverError
        See `solve`.

    Examples
    --------
    >>> square = [("a", "b", 1), ("b", "c", 4), ("c", "d", 1), ("d", "a", 4)]
    >>> answer = blossom.perfect_capacitated_b_matching(
    ...     square, dict.fromkeys("abcd", 3), default_capacity=2)
    >>> answer.multiplicities
    {('a', 'b'): 2, ('b', 'c'): 1, ('c', 'd'): 2, ('d', 'a'): 1}
    """
    return solve(graph, "capmatch", nodes=nodes, weight=weight, degrees=degrees, capacity=capacity,
                 default_capacity=default_capacity, scale=scale, rounding=rounding,
                 certificate=certificate, engine=engine, program=program, timeout=timeout)


@old_keywords("via", "brief", "values")
def f_factor(
        graph: Union[Graph, Instance], degrees: Degrees = None, *, nodes: Iterable[Node] = (),
        weight: Optional[str] = USUAL_WEIGHT, scale: Scale = 1, rounding: Rounding = None,
        certificate: bool = True, engine: Engine = "auto", program: Optional[str] = None,
        timeout: Optional[float] = None) -> Answer:
    """Find a minimum-weight f-factor.

    Each edge is used at most once, and each node has the degree that is given.

    Parameters
    ----------
    graph : graph or Instance
        See `solve`.
    degrees : mapping or str
        The degree of each node, or the name of a node attribute; 1 for other nodes.
    nodes, weight, scale, rounding, certificate, engine, program, timeout
        See `solve`.

    Returns
    -------
    Answer
        An f-factor.

    Raises
    ------
    Infeasible
        If no f-factor has these degrees.
    GraphError, WeightError, LimitExceeded, TimeLimit, SolverError
        See `solve`.

    Examples
    --------
    >>> graph = [("a", "b", 1), ("b", "c", 1), ("c", "a", 1), ("a", "d", 9), ("c", "d", 2)]
    >>> blossom.f_factor(graph, {"a": 1, "b": 1, "c": 1, "d": 1}).edges
    [('a', 'b'), ('c', 'd')]
    """
    return solve(graph, "ffactor", nodes=nodes, weight=weight, degrees=degrees, scale=scale,
                 rounding=rounding, certificate=certificate, engine=engine, program=program,
                 timeout=timeout)


@old_keywords("via", "brief")
def t_join(
        graph: Union[Graph, Instance], terminals: Iterable[Node], *, nodes: Iterable[Node] = (),
        weight: Optional[str] = USUAL_WEIGHT, scale: Scale = 1, rounding: Rounding = None,
        certificate: bool = True, engine: Engine = "auto", program: Optional[str] = None,
        timeout: Optional[float] = None) -> Answer:
    """Find a minimum-weight T-join: edges that give exactly the terminals an odd degree.

    Weights may be negative.

    Parameters
    ----------
    graph : graph or Instance
        See `solve`.
    terminals : iterable of nodes
        The nodes of odd degree in the join.
    nodes, weight, scale, rounding, certificate, engine, program, timeout
        See `solve`.

    Returns
    -------
    Answer
        A T-join.

    Raises
    ------
    Infeasible
        If a component has an odd number of terminals.
    GraphError, WeightError, LimitExceeded, TimeLimit, SolverError
        See `solve`.

    Examples
    --------
    >>> blossom.t_join([("a", "b", 1), ("b", "c", 2), ("a", "c", 4)], ["a", "c"]).edges
    [('a', 'b'), ('b', 'c')]
    """
    return solve(graph, "tjoin", nodes=nodes, weight=weight, terminals=terminals, scale=scale,
                 rounding=rounding, certificate=certificate, engine=engine, program=program,
                 timeout=timeout)


@old_keywords("via", "brief")
def chinese_postman(
        graph: Union[Graph, Instance], *, start: Optional[Node] = None, required: Required = None,
        nodes: Iterable[Node] = (), weight: Optional[str] = USUAL_WEIGHT, scale: Scale = 1,
        rounding: Rounding = None, certificate: bool = True, engine: Engine = "auto",
        program: Optional[str] = None, timeout: Optional[float] = None) -> Answer:
    """Find a minimum-weight closed walk that uses each edge at least once.

    Weights must be nonnegative.

    Parameters
    ----------
    graph : graph or Instance
        See `solve`.
    start : node
        Where the walk begins and ends, such as a depot; without it any node.
    required : iterable of edges, or str
        The edges that the walk has to use, which must be connected: their names, or the column or
        attribute that is true for them. The walk may use all other edges besides. The certificate
        then proves a minimum-weight join: the edges that are walked again, or needn't be walked.
        Without it all edges are required.
    nodes, weight, scale, rounding, certificate, engine, program, timeout
        See `solve`.

    Returns
    -------
    Answer
        A tour; `answer.node_walk` and `answer.edge_walk` are its nodes and edges in order.

    Raises
    ------
    Infeasible
        If the edges are not connected.
    GraphError
        If the required edges are not connected, or no edge of the walk meets `start`.
    WeightError, LimitExceeded, TimeLimit, SolverError
        See `solve`.

    Examples
    --------
    >>> streets = [("a", "b", 3), ("b", "c", 4), ("c", "a", 5), ("c", "d", 2)]
    >>> answer = blossom.chinese_postman(streets, start="d")
    >>> answer.weight
    16
    >>> answer.node_walk[0], answer.node_walk[-1], len(answer.edge_walk)
    ('d', 'd', 5)
    """
    how: Dict[str, Any] = {"certificate": certificate, "engine": engine, "program": program,
                           "timeout": timeout}
    of = instance_of(graph, "postman", {"nodes": nodes, "weight": weight, "scale": scale,
                                        "rounding": rounding})
    if required is not None:
        answer = tour_of(replace(of, kind="tjoin"), required_indices(of, required),
                         lambda one: solve(one, one.kind, **how))
    else:
        answer = solve(of, "postman", **how)
    return answer if start is None else started(answer, start)


@old_keywords("via", "brief")
def shortest_path(
        graph: Union[Graph, Instance], source: Node, target: Node, *, nodes: Iterable[Node] = (),
        weight: Optional[str] = USUAL_WEIGHT, parity: Optional[Literal["odd", "even"]] = None,
        scale: Scale = 1, rounding: Rounding = None, certificate: bool = True,
        engine: Engine = "auto", program: Optional[str] = None,
        timeout: Optional[float] = None) -> Answer:
    """Find a minimum-weight simple path from source to target.

    Edges may have negative weight, but cycles may not.

    Parameters
    ----------
    graph : graph or Instance
        See `solve`.
    source, target : node
        The two ends, which are different.
    parity : None, "odd" or "even"
        Whether the path has an odd or an even number of edges. With a parity, weights must be
        nonnegative.
    nodes, weight, scale, rounding, certificate, engine, program, timeout
        See `solve`.

    Returns
    -------
    Answer
        A path; `answer.node_walk` and `answer.edge_walk` are its nodes and edges in order.

    Raises
    ------
    Infeasible
        If no path exists.
    NegativeCycle
        If the graph has a negative cycle.
    GraphError, WeightError, LimitExceeded, TimeLimit, SolverError
        See `solve`.

    Examples
    --------
    >>> graph = [("a", "b", 1), ("b", "c", 1), ("a", "c", 5)]
    >>> blossom.shortest_path(graph, "a", "c").node_walk
    ['a', 'b', 'c']
    >>> blossom.shortest_path(graph, "a", "c", parity="odd").node_walk
    ['a', 'c']
    """
    if not isinstance(parity, (str, type(None))) or parity not in PATH_KINDS:
        raise ArgumentError("parity must be 'odd', 'even' or None, got %r" % (parity,))
    return solve(graph, PATH_KINDS[parity], nodes=nodes, weight=weight, source=source,
                 target=target, scale=scale, rounding=rounding, certificate=certificate,
                 engine=engine, program=program, timeout=timeout)


def degree_constrained_subgraph(
        graph: Union[Graph, Instance], lower: Bound = None, upper: Bound = None, *,
        capacity: Optional[str] = USUAL_CAPACITY, default_capacity: Optional[int] = 1,
        nodes: Iterable[Node] = (), weight: Optional[str] = USUAL_WEIGHT, scale: Scale = 1,
        rounding: Rounding = None, certificate: bool = True, engine: Engine = "auto",
        program: Optional[str] = None, timeout: Optional[float] = None) -> Answer:
    """Find a minimum-weight subgraph within degree bounds.

    `upper=2` gives paths and cycles that have no node in common. Without a lower bound they have
    edges only if some weight is negative.

    Parameters
    ----------
    graph : graph or Instance
        See `solve`. An `Instance` has its own bounds and capacities.
    lower, upper : int, mapping or str
        The degree bounds: a number for all nodes, a mapping, or the name of a node attribute. By
        default the lower bound is 0 and the upper bound is what the edges of the node allow.
    capacity : str
        The attribute or column of capacities: how often an edge is used at most.
    default_capacity : int or None
        The capacity of an edge without one; None means limited by the upper bounds alone.
    nodes, weight, scale, rounding, certificate, engine, program, timeout
        See `solve`.

    Returns
    -------
    Answer
        A subgraph; `answer.multiplicities` says how often each edge is used.

    Raises
    ------
    Infeasible
        If no subgraph is within the bounds.
    GraphError, WeightError, LimitExceeded, TimeLimit, SolverError
        See `solve`.

    Examples
    --------
    >>> shifts = [("ann", "mon", 1), ("ann", "tue", 3), ("bob", "mon", 2), ("bob", "tue", 2)]
    >>> blossom.degree_constrained_subgraph(shifts, lower={"mon": 1, "tue": 1}, upper=1).edges
    [('ann', 'mon'), ('bob', 'tue')]
    """
    if isinstance(graph, Instance) and default_capacity == 1:
        default_capacity = None
    return solve(graph, "interval", nodes=nodes, weight=weight, capacity=capacity, lower=lower,
                 upper=upper, default_capacity=default_capacity, scale=scale, rounding=rounding,
                 certificate=certificate, engine=engine, program=program, timeout=timeout)


def min_weight_edge_cover(
        graph: Union[Graph, None] = None, *, costs: Any = None, points: Any = None,
        metric: Metric = "euclidean", nodes: Iterable[Node] = (),
        weight: Optional[str] = USUAL_WEIGHT, scale: Optional[Scale] = None,
        rounding: Rounding = None, certificate: bool = True, engine: Engine = "auto",
        program: Optional[str] = None, timeout: Optional[float] = None,
        progress: Progress = None) -> Answer:
    """Find a minimum-weight edge cover: each node is an end of at least one of its edges.

    All edges of negative weight are in the cover. The certificate is for a maximum-weight matching
    in the same graph, in which an edge weighs what it saves: the cheapest edges of its two ends
    less the edge itself.

    Parameters
    ----------
    graph : graph
        See `solve`.
    costs, points, metric, nodes, weight, scale, rounding, certificate, engine, program, timeout,
    progress
        See `min_weight_perfect_matching`.

    Returns
    -------
    Answer
        An edge cover of minimum weight.

    Raises
    ------
    Infeasible
        If a node has no edge.
    GraphError, WeightError, LimitExceeded, TimeLimit, SolverError
        See `solve`.

    Examples
    --------
    >>> blossom.min_weight_edge_cover([("a", "b", 1), ("b", "c", 2), ("c", "d", 1)]).edges
    [('a', 'b'), ('c', 'd')]
    """
    return solve_either("interval", graph, costs, points, metric, progress, {
        "nodes": nodes, "weight": weight, "scale": scale, "rounding": rounding,
        "certificate": certificate, "engine": engine, "program": program, "timeout": timeout})


def cover_of(graph: Graph, how: Dict[str, Any]) -> Answer:
    """A minimum-weight edge cover of a graph that the program takes."""
    asked = {name: how.pop(name) for name in ("nodes", "weight", "scale", "rounding")}
    of = Instance.from_graph(graph, "match", **asked)
    return edge_cover(of, lambda one: solve(one, one.kind, **how))
