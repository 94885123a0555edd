"""Answers, in the caller's names, and what the program says instead of one.

An answer has `edges`, `weight`, `mate` (matchings), `node_walk` and `edge_walk` (tours and paths),
`multiplicities`, `edge_indices`, `edge_counts`, `rows`, `certificate`, `check()`, `draw()` and
`to_networkx()`. `rows` has a dict for each used edge or step, with the columns that the edge had,
so `pandas.DataFrame(tour.rows)` is a tour with street names.

A path of odd or even length visits no node twice. So it may weigh more than a walk of that parity,
and be missing if there is such a walk:

    import blossom

    streets = [("Home", "Park", 1), ("Park", "Mill", 1), ("Mill", "School", 1)]
    streets += [("Park", "School", 4)]
    odd = blossom.shortest_path(streets, "Home", "School", parity="odd")
    print(odd.node_walk, odd.weight)  # ['Home', 'Park', 'Mill', 'School'] 3
    even = blossom.shortest_path(streets, "School", "Home", parity="even")
    print(even.node_walk)  # ['School', 'Park', 'Home']
"""
from __future__ import annotations

import os
from dataclasses import dataclass
from fractions import Fraction
from functools import cached_property
from typing import (IO, TYPE_CHECKING, Any, Dict, List, Mapping, NamedTuple, Optional, Sequence,
                    Tuple, Union)

from .arguments import node_in
from .certificates import Certificate, Number, walked
from .deprecated import old_keywords, old_property
from .documents import Document
from .errors import (ArgumentError, GraphError, Infeasible, LimitExceeded, NegativeCycle,
                     SolverError)
from .instances import Instance
from .kinds import MATCHED, MOST_PAIRS, MOST_VERTICES, WALKED, Kind
from .limits import too_large
from .obstructions import no_path, why_infeasible
from .tables import EdgeName, Node
from .weights import plain
from .wording import shown, some

if TYPE_CHECKING:
    from .drawing import Picture
    from .running import Engine
    from .slacks import Slack


class GallaiEdmonds(NamedTuple):
    """The Gallai-Edmonds decomposition of a graph: three lists of nodes, in the order of the graph.

    Attributes
    ----------
    D : list
        The nodes that some maximum matching misses.
    A : list
        The neighbours of D outside D. Each maximum matching matches them to nodes in different
        components of D.
    C : list
        All other nodes. Each maximum matching matches them among themselves.
    """

    D: List[Node]
    A: List[Node]
    C: List[Node]


@dataclass(frozen=True, repr=False)
class Answer:
    """An optimal solution of an instance.

    Edges are named as in the graph: `(u, v)`, or `(u, v, key)` in a multigraph. A list of edges is
    a multigraph if it has parallel edges; their keys count the edges of a pair from 0.

    Attributes
    ----------
    instance : Instance
        The problem that was solved.
    certificate : Certificate
        The proof that the solution is optimal.
    """

    instance: Instance
    certificate: Certificate

    __hash__ = None  # type: ignore[assignment]

    @property
    def kind(self) -> Kind:
        """The kind of problem, one of `blossom.KINDS`."""
        return self.instance.kind

    @property
    def is_walk(self) -> bool:
        """Whether it is a tour or a path."""
        return self.kind in WALKED

    @property
    def weight(self) -> Number:
        """The total weight in the units that were given.

        It is an int, or a Fraction if it isn't an integer. For `bottleneck` it is the largest
        weight of an edge that is used, and 0 if no edge is used. For `gallai` it is the number of
        edges."""
        weight = self.certificate.document.weight or 0
        return weight if self.kind == "gallai" else plain(Fraction(weight) / self.instance.scale)

    @cached_property
    def edge_counts(self) -> List[int]:
        """How often each edge is used: one number for each edge of the graph, in its order."""
        document = self.certificate.document
        counts = [0] * self.instance.edge_count
        for number, count in document.counts.items():
            counts[number - 1] = count
        for number in document.walk[1] if document.walk else ():
            counts[number - 1] += 1
        return counts

    @cached_property
    def edge_indices(self) -> List[int]:
        """The indices (from 0) of the edges that are used, among the edges of the graph."""
        return self.certificate.document.places()

    @property
    def edges(self) -> List[EdgeName]:
        """The edges that are used, each once, in the order of the graph."""
        return self.instance.table.names_of(self.edge_indices)

    @property
    def multiplicities(self) -> Dict[EdgeName, int]:
        """How often each edge is used, for those edges that are used at all."""
        names, counts = self.instance.edges, self.edge_counts
        return {names[index]: counts[index] for index in self.edge_indices}

    @property
    def edge_walk_indices(self) -> List[int]:
        """The indices (from 0) of the edges of `edge_walk`, among the edges of the graph."""
        walk = self.certificate.document.walk
        numbers = walk[1] if walk else []
        order = reversed(numbers) if self.instance._backwards else numbers
        return [number - 1 for number in order]

    @cached_property
    def edge_walk(self) -> List[EdgeName]:
        """The edges of a tour or path in its order, each as (from, to) or (from, to, key).

        The direction is that of the walk. It is empty for other kinds."""
        walk = self.certificate.document.walk
        if walk is None:
            return []
        steps = walked(self.instance, *walk)
        if not self.instance._backwards:
            return steps
        return [(step[1], step[0], *step[2:]) for step in reversed(steps)]

    @property
    def node_walk(self) -> List[Node]:
        """The nodes of a tour or path in its order, one more than `edge_walk` has edges.

        A tour ends where it starts. It is empty for other kinds, and for a tour of a graph without
        edges."""
        steps = self.edge_walk
        return [step[0] for step in steps] + [step[1] for step in steps[-1:]]

    @cached_property
    def mate(self) -> Dict[Node, Node]:
        """The mate of each matched node, for `perfect`, `match`, `bottleneck` and `gallai`."""
        indices = self.edge_indices if self.kind in MATCHED else []
        pairs = [self.instance.ends[index] for index in indices]
        return {one: other for first, second in pairs
                for one, other in ((first, second), (second, first))}

    @cached_property
    def reduced_cost(self) -> Dict[EdgeName, Slack]:
        """How much the weight of each edge may change, by name, while this answer stays optimal.

        An unused edge may become lighter by that much and a used one heavier, if all other weights
        stay; for `match` it is the other way round. For `postman` the edges that are walked an even
        number of times count as used.

        The numbers come from the duals of the certificate and are safe: the answer may stay optimal
        beyond them, above all if there are several optimal solutions or duals. Each solution that
        uses an unused edge, or a used edge less often, weighs at least the edge's reduced cost more
        than the optimum (`match`: less). It is infinite for an edge that no solution uses, or that
        each uses.

        Raises
        ------
        ValueError
            If there are no duals: for `bottleneck`, `gallai` and answers without a certificate. If
            the answer is one of `points=` or `costs=`, whose instance holds only some pairs.
        """
        from .slacks import ReducedCosts

        if self.certificate._lacks_pairs:
            raise ArgumentError("the instance holds only the pairs of the last round, so reduced"
                                " costs aren't known: certificate.slack((u, v)) is what a pair"
                                " that isn't used may get lighter")
        if self.certificate.instance is not self.instance:
            raise ArgumentError("the certificate is of another problem: it says nothing of the"
                                " edges")
        costs = ReducedCosts(self.instance, self.certificate.document)
        return {name: costs.cost(index) for index, name in enumerate(self.instance.edges)}

    @property
    def decomposition(self) -> Optional[GallaiEdmonds]:
        """The Gallai-Edmonds decomposition of the graph, for `gallai`.

        `D, A, C = answer.decomposition` are three lists of nodes. It is None for other kinds, and
        if the answer has no certificate."""
        outer, barrier = self.certificate.document.outer, self.certificate.barrier
        if outer is None or barrier is None:
            return None
        nodes = self.instance.nodes
        inner = [nodes[number - 1] for number in outer]
        others = {*inner, *barrier}
        return GallaiEdmonds(inner, barrier, [node for node in nodes if node not in others])

    def alternating_path(self, node: Node) -> List[EdgeName]:
        """Find an even alternating path from a node of D to one that the matching misses.

        With its edges exchanged the matching is as large and misses the node.

        Parameters
        ----------
        node : node
            A node of `answer.decomposition.D`.

        Returns
        -------
        list
            The edges as (from, to) or (from, to, key), alternately in the matching and outside it.

        Raises
        ------
        ValueError
            If no such path exists, since every maximum matching covers the node, or if the answer
            has no certificate.
        """
        paths = self.certificate.alternating_paths
        if node_in("node", node) not in paths:
            raise ArgumentError(no_path(self, node))
        return paths[node]

    @property
    def rows(self) -> List[Dict[str, Any]]:
        """A row for each edge that is used, or for each step of a walk, as a dict.

        Edges come in the order of the graph, steps in the order of the walk.
        `pandas.DataFrame(answer.rows)` is a table of them. A row has these entries:

        - `step`: for walks the number of the step, from 1;
        - `u`, `v` and, in multigraphs, `key`;
        - `weight`: the weight as it was given, and `rounded_weight` if weights were rounded;
        - `count`: for other kinds how often the edge is used;
        - the columns and attributes that the edge has in the graph; one whose name is taken is
          called `given_weight` and so on."""
        walks = self.is_walk
        indices = self.edge_walk_indices if walks else self.edge_indices
        own, given = self._own_columns(indices), self.instance.columns
        columns = [column for _, column in own]
        columns += [list(map(column.__getitem__, indices)) for column in given.values()]
        names = [name for name, _ in own]
        names += ["given_" + name if name in OWN_COLUMNS else name for name in given]
        return [dict(zip(names, row)) for row in zip(*columns)]

    def _own_columns(self, indices: List[int]) -> List[Tuple[str, Sequence[Any]]]:
        """The columns of these rows that aren't the graph's own, with their names."""
        walks = self.is_walk
        own: List[Tuple[str, Sequence[Any]]] = (
            [("step", range(1, 1 + len(indices)))] if walks else [])
        own += zip(("u", "v", "key"), zip(*(self.edge_walk if walks else self.edges)))
        own.append(("weight", self.instance.given_weights(indices)))
        if self.instance.is_rounded:
            own.append(("rounded_weight", [float(self.instance.weight_of(index))
                                           for index in indices]))
        if not walks:
            own.append(("count", list(map(self.edge_counts.__getitem__, indices))))
        return own

    def to_networkx(self) -> Any:
        """Make a networkx MultiGraph of the used edges on all nodes.

        Each edge is there as often as it is used. For a tour this is the graph with the edges
        doubled that are walked again, as `networkx.eulerize` makes it.

        Returns
        -------
        networkx.MultiGraph
            Its edges have the attributes `weight` and `edge`, their name.
        """
        from .wording import wanted

        graph = wanted("networkx", "graphs of networkx").MultiGraph()
        graph.add_nodes_from(self.instance.nodes)
        for index in self.edge_indices:
            how = {"weight": self.instance.given_weight(index), "edge": self.instance.edges[index]}
            for _ in range(self.edge_counts[index]):
                graph.add_edge(*self.instance.ends[index], **how)
        return graph

    @old_keywords("via")
    def check(self, *, engine: Optional[Engine] = None, program: Optional[str] = None,
              timeout: Optional[float] = None) -> Verdict:
        """Have the proved checker judge it: see `blossom.check`.

        Parameters
        ----------
        engine, program
            What runs the checker; without both it is what solved the answer.
        timeout : float
            Seconds after which the process of the checker is stopped.

        Returns
        -------
        Verdict
            True if the certificate proves the answer.
        """
        return self.certificate.check(engine=engine, program=program, timeout=timeout)

    def draw(self, positions: Optional[Mapping[Any, Tuple[float, float]]] = None,
             file: Union[None, str, os.PathLike[str], IO[bytes]] = None, *,
             width: Optional[float] = None, height: Optional[float] = None,
             labels: Union[None, bool, Mapping[Any, str]] = None, weights: Optional[bool] = None,
             steps: Optional[bool] = None, duals: Optional[bool] = None,
             odd_sets: Optional[bool] = None, dual_length: Optional[float] = None,
             unused_edges: Optional[bool] = None, caption: bool = True,
             axes: Any = None) -> Picture:
        """Draw the answer with its certificate.

        Parameters
        ----------
        positions, file, width, height, labels, weights, steps, duals, odd_sets, dual_length,
        unused_edges, caption, axes
            See `blossom.draw`.

        Returns
        -------
        Picture
        """
        from .drawing import draw

        return draw(self, positions, file, width=width, height=height, labels=labels,
                    weights=weights, steps=steps, duals=duals, odd_sets=odd_sets,
                    dual_length=dual_length, unused_edges=unused_edges, caption=caption,
                    axes=axes)

    def to_html(self, file: Union[None, str, os.PathLike[str], IO[bytes]] = None,
                positions: Optional[Mapping[Any, Tuple[float, float]]] = None,
                **words: Any) -> str:
        """Make a page that shows the answer and its proof.

        It is one file of HTML that loads nothing else: a picture to drag and zoom, the inequalities
        that prove the answer, and a button that adds them up. Nodes, edges and odd sets show
        weight, dual and slack if the mouse is over them.

        Parameters
        ----------
        file : path or file open for bytes
            Where to write the page.
        positions : mapping of nodes to (x, y)
            As for `blossom.draw`.
        **words
            As for `blossom.draw`, except `axes`.

        Returns
        -------
        str
            The page.
        """
        from .drawing import page

        return page(self, positions, file, **words)

    uses = old_property("uses", "multiplicities")
    counts = old_property("counts", "edge_counts")
    indices = old_property("indices", "edge_indices")
    partner = old_property("partner", "mate")
    steps = old_property("steps", "edge_walk")
    walk = old_property("walk", "node_walk")
    step_indices = old_property("step_indices", "edge_walk_indices")

    def __repr__(self) -> str:
        used = "%d steps" % len(self.edge_walk_indices) if self.is_walk else (
            "%d edges" % len(self.edge_indices))
        return "<%s answer of weight %s: %s>" % (self.kind, shown(self.weight), used)

    def _repr_html_(self) -> str:
        """What a notebook shows: the first rows, with a picture where the answer is small."""
        from .showing import page_of

        return page_of(self)


#: The columns of `Answer.rows` that aren't the graph's own.
OWN_COLUMNS = ("step", "u", "v", "key", "weight", "rounded_weight", "count")


@dataclass(frozen=True)
class Verdict:
    """The verdict of the proved checker on a document; it is true if the document is accepted.

    Attributes
    ----------
    accepted : bool
        Whether the document proves what it states.
    rule : str or None
        The first rule that is violated; docs/FORMAT.md lists them.
    line : int or None
        The line of the input (instance, then document) in which this shows; None if no text was
        judged.
    """

    accepted: bool
    rule: Optional[str] = None
    line: Optional[int] = None

    def __bool__(self) -> bool:
        return self.accepted


def answer_of(instance: Instance, status: int, output: Union[bytes, Document],
              by: Any = None) -> Answer:
    """The answer that a run of `solve` came to, as text or as numbers; `by` is what ran it.
    Infeasible, NegativeCycle: there is none that is best. What `refuse` says: the run did not
    come to that."""
    if status != 0:
        refuse(status, output if isinstance(output, bytes) else b"", instance)
    if not output:
        raise SolverError("%s isn't blossom: it printed nothing"
                          % (getattr(by, "program", None) or "the program"))
    certificate = Certificate(instance, output, by)
    refuse_strange(certificate)
    if certificate.status == "infeasible":
        raise Infeasible(why_infeasible(certificate), certificate)
    if certificate.status == "nonconservative":
        cycle = certificate.negative_cycle
        raise NegativeCycle("the graph has a negative cycle%s; kind 'path' requires that no cycle"
                            " has negative weight" % ("" if cycle is None else ": " + some(cycle)),
                            certificate)
    return Answer(instance, certificate)


def refuse_strange(certificate: Certificate) -> None:
    """Refuses a document that refers to something else than its instance. SolverError: it is of
    another kind, or names edges or nodes that aren't there."""
    document, instance = certificate.document, certificate.instance
    if document.kind != instance.kind:
        raise SolverError("document of the wrong kind: expected %s, got %s"
                          % (instance.kind, document.kind))
    refuse_outside("edge", document.edge_numbers(), instance.edge_count)
    refuse_outside("node", document.node_numbers(), len(instance.nodes))


def refuse_outside(what: str, numbers: List[int], count: int) -> None:
    """SolverError: one of the numbers isn't from 1 to this one."""
    if numbers and not 1 <= min(numbers) <= max(numbers) <= count:
        wrong = next(number for number in numbers if not 1 <= number <= count)
        raise SolverError("document refers to %s %d, but the graph has %d: was it computed for"
                          " another graph?" % (what, wrong, count))


def verdict_of(instance: Instance, status: int, output: bytes) -> Verdict:
    """The verdict that a run of `check` printed. What `refuse` says: it did not come to that."""
    if status > 1 or status < 0:
        refuse(status, output, instance)
    words = output.decode("latin-1").split()
    if words[:2] == ["s", "ACCEPTED"] and len(words) == 2 and status == 0:
        return Verdict(True)
    if words[:2] == ["s", "REJECTED"] and len(words) == 4 and status == 1:
        return Verdict(False, words[2], int(words[3]) or None)
    raise SolverError("unexpected output of the checker: %r; expected 's ACCEPTED' or 's REJECTED"
                      " RULE LINE'" % output[:80])


#: What exit statuses mean that are no answer and no verdict.
MEANINGS = {2: "unknown command; is the program from another version?", 6: "cannot read its input",
            7: "cannot write its output", 8: "out of memory"}
#: Longer inputs than these are refused.
MOST_BYTES = "16 MiB for solving, 512 MiB for checking"


def refuse(status: int, output: bytes, instance: Instance) -> None:
    """Raises what an exit status other than that of an answer or a verdict means."""
    words = output.decode("latin-1").split()[1:]
    if status == 3 and len(words) == 3:
        raise GraphError("the solver rejected the instance: rule %s at line %s; see docs/FORMAT.md,"
                         " 'Rules'" % (words[1], words[2]))
    if status == 4 and len(words) == 3:
        vertices, edges = int(words[1]), int(words[2])
        told = too_large(instance) or (
            "certificate graph too large: %d vertices and %d edges; the limits are %d and %d"
            % (vertices, edges, MOST_VERTICES, MOST_PAIRS))
        raise LimitExceeded(told, vertices, edges)
    if status == 5:
        raise LimitExceeded("input too long for the solver: the limit is %s" % MOST_BYTES)
    raise SolverError("the solver failed with exit status %d: %s"
                      % (status, MEANINGS.get(status, strange(status, output))))


def strange(status: int, output: bytes) -> str:
    """What an exit status means that the program never ends with, in words."""
    if status < 0:
        return "killed by signal %d" % -status
    return "unexpected status%s; is it blossom?" % (", or output %r" % output[:80] if output
                                                    else " or output")
