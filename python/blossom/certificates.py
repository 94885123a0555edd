"""Certificates: what a document states and proves, in the caller's names.

`answer.certificate` has a dual for each node and for some odd sets of nodes, in your units. No edge
weighs less than the duals of its ends and of the odd sets that contain exactly one of them, and all
duals together are the answer's weight.

    import blossom

    triangles = [("a", "b", 1), ("b", "c", 1), ("a", "c", 1), ("d", "e", 1), ("e", "f", 1)]
    triangles += [("d", "f", 1), ("c", "d", 10)]
    proof = blossom.min_weight_perfect_matching(triangles).certificate
    print(sorted(proof.duals), proof.dual_value)  # ['a', 'b', 'c', 'd', 'e', 'f'] 12
    print(proof.status, bool(proof.check()))  # optimal True

For kinds other than `perfect`, `bottleneck` and `gallai` the duals belong to the vertices of the
certificate graph, which `help(blossom.vertices)` names:

| Kind | Vertices | Dual value |
|---|---|---|
| `match` | `Copy(node, copy)` | -2W |
| `bmatch`, `capmatch`, `ffactor` | `Copy(node, copy)`, `Subdivision(edge, unit, node)` | W |
| `tjoin`, `path` | `Port(node, edge)` | W |
| `postman` | `Port(node, edge)` | W minus the weight of all edges |
| `interval` | `Mirror(vertex, half)` of copies and subdivision vertices | 2W |
| `oddpath`, `evenpath` | `Layer(node, layer)` | W |
| `bottleneck`, `gallai` | nodes; a `barrier` and `alternating_paths` instead of duals | 0 |

The second end of a loop has a last field 1. `certificate.odd_sets` has each set with all members,
`certificate.laminar_sets` the same sets by the smaller ones that they contain, which is short even
if thousands are nested. `certificate.write(file)` writes what `blossom check` reads.

The program is proved ([README](../README.md#what-is-proved)); the package is tested
(`tests/python`). `answer.check()` judges the very document that the answer was read from, so of an
accepted answer only the translation of names has to be trusted.
"""
from __future__ import annotations

import os
from dataclasses import dataclass
from fractions import Fraction
from functools import cached_property
from typing import (IO, TYPE_CHECKING, Any, Dict, List, Mapping, NamedTuple, Optional, Tuple, Union)

from . import documents
from .arguments import refuse_no_file
from .deprecated import old_keywords, old_property
from .instances import Instance
from .tables import EdgeName, Node
from .vertices import vertex_names
from .weights import plain
from .wording import wanted

if TYPE_CHECKING:
    from .answers import Verdict
    from .drawing import Picture
    from .running import Engine
    from .slacks import EdgeSlacks, Slack

Number = Union[int, Fraction]


class OddSet(NamedTuple):
    """An odd set of at least three vertices of the certificate graph, with its dual.

    Attributes
    ----------
    members : tuple
        The names of its vertices.
    dual : int or Fraction
        Its dual in units of weight.
    """

    members: Tuple[Any, ...]
    dual: Number


class LaminarSet(NamedTuple):
    """An odd set of a laminar family, by vertices and by earlier sets.

    Attributes
    ----------
    vertices : tuple
        The names of its vertices outside these sets.
    inner : tuple of int
        The sets that it contains, as indices (from 0) in the list of the family.
    dual : int or Fraction
        Its dual in units of weight.
    """

    vertices: Tuple[Any, ...]
    inner: Tuple[int, ...]
    dual: Number


@dataclass(frozen=True, repr=False, eq=False)
class Certificate:
    """A proof that an answer is optimal, or that there is none.

    Duals refer to the certificate graph, whose minimum-weight perfect matchings are the optimal
    solutions. For `perfect` it is the graph without its loops. For other kinds its vertices have
    the names that `blossom.vertices` explains. An edge of it weighs at least the duals of its two
    ends and of the odd sets that contain exactly one of them. So no perfect matching weighs less
    than all duals together.

    Two kinds have no duals. For `bottleneck` there is a `barrier` of the graph of all lighter
    edges. For `gallai` there are `alternating_paths` from the nodes of D in the decomposition, and
    `barrier` is its set A.

    Attributes
    ----------
    instance : Instance
        The problem.
    written : bytes or Document
        What the program gave: the document as text or as numbers.
    by : Process, Library or None
        What ran the program, and runs it again for `check`.
    """

    instance: Instance
    written: Union[bytes, documents.Document]
    by: Any = None

    @property
    def _lacks_pairs(self) -> bool:
        """Whether the problem has pairs that `instance` lacks."""
        return False

    @cached_property
    def text(self) -> bytes:
        """The document as text, which `blossom check` judges after `instance.text`."""
        given = self.written
        return documents.spelled(given) if isinstance(given, documents.Document) else given

    @cached_property
    def document(self) -> documents.Document:
        """The document as numbers."""
        return documents.of(self.written)

    def __eq__(self, other: object) -> bool:
        """Whether it is the same document of the same instance, in whichever form they came."""
        if not isinstance(other, Certificate):
            return NotImplemented
        return self.instance == other.instance and self.text == other.text

    __hash__ = None  # type: ignore[assignment]

    @property
    def status(self) -> documents.Status:
        """"optimal", "infeasible" or "nonconservative" (there is a negative cycle)."""
        return self.document.status

    @cached_property
    def vertex_names(self) -> List[Any]:
        """The names of the vertices of the certificate graph, in the order of their numbers."""
        return vertex_names(self.instance)

    def in_units(self, doubled: int) -> Number:
        """Convert a dual of the document to units of weight.

        Parameters
        ----------
        doubled : int
            The dual as documents have it: doubled, and scaled as the weights.

        Returns
        -------
        int or Fraction
        """
        return plain(Fraction(doubled, 2) / self.instance.scale)

    @cached_property
    def duals(self) -> Dict[Any, Number]:
        """The dual of each vertex of the certificate graph, by name, in units of weight.

        It is empty if there is no optimal solution, without a certificate, and for `bottleneck` and
        `gallai`."""
        return {self.vertex_names[number - 1]: self.in_units(dual)
                for number, dual in self.document.duals.items()}

    @cached_property
    def odd_sets(self) -> List[OddSet]:
        """The odd sets whose dual isn't 0, each with all its members.

        Nested sets can have many members in total; `laminar_sets` stays short."""
        names = self.vertex_names
        return [OddSet(tuple(names[number - 1] for number in members), self.in_units(dual))
                for dual, members in self.document.sets]

    @property
    def laminar_sets(self) -> List[LaminarSet]:
        """The odd sets, each by the earlier sets that it contains and its other members.

        The order is that of `odd_sets`: a set comes after all sets that it contains. Each vertex
        and each set is listed in at most one other set, however deep the sets are nested."""
        names = self.vertex_names
        return [LaminarSet(tuple(names[number - 1] for number in one.vertices),
                          tuple(reference - 1 for reference in one.references),
                          self.in_units(one.dual))
                for one in self.document.set_lines]

    @property
    def dual_value(self) -> Number:
        """The sum of all duals in units of weight; 0 without duals."""
        sets = (self.in_units(one.dual) for one in self.document.set_lines)
        return sum(self.duals.values()) + sum(sets)

    @cached_property
    def _slacks(self) -> EdgeSlacks:
        """What says the slack of each edge."""
        from .slacks import EdgeSlacks

        return EdgeSlacks(self.instance, self.document)

    def slack(self, edge: Any) -> Slack:
        """Return the slack of an edge: how much lighter it must be to be in an optimal solution.

        For `match` it is how much heavier. Each solution that uses the edge weighs at least its
        slack more than the optimum (`match`: less), so an edge of an optimal solution has slack 0.

        For `perfect` it is the weight less the duals of both ends and of the odd sets that contain
        exactly one of them. For other kinds it is the minimum total slack of the edges that one use
        of this edge takes in the certificate graph, or half of it if that has each solution twice
        (`match`, `interval`). For `postman` a use is an even number of walks along the edge. It is
        infinite for an edge that no solution uses.

        Parameters
        ----------
        edge : tuple or int
            The edge by name, in either direction, or its index.

        Returns
        -------
        int, Fraction or float
            The slack in units of weight.

        Raises
        ------
        KeyError
            If the graph has no such edge.
        ValueError
            If there are no duals: for `bottleneck`, `gallai` and answers without a certificate.

        Examples
        --------
        >>> answer = blossom.min_weight_perfect_matching(
        ...     [("a", "b", 1), ("b", "c", 4), ("c", "d", 1), ("d", "a", 4)])
        >>> answer.certificate.slack(("a", "b"))
        0
        """
        from .slacks import index_of

        return self._slacks.slack(index_of(self.instance, edge))

    def slacks(self) -> Any:
        """Return the slacks of all edges, in their order.

        Returns
        -------
        numpy.ndarray
            Of shape (edges,), in units of weight: integers if all slacks are, and otherwise
            Python's numbers.

        Raises
        ------
        ValueError
            If there are no duals: see `slack`.
        """
        numpy = wanted("numpy", "arrays of slacks")
        found = [self._slacks.slack(index) for index in range(self.instance.edge_count)]
        return numpy.array(found, "int64" if set(map(type, found)) <= {int} else object)

    @property
    def barrier(self) -> Optional[List[Any]]:
        """A set of vertices whose removal leaves more odd components than it has members.

        The vertices are given by name; so there is no perfect matching. For `bottleneck` this holds
        for the graph of all edges that weigh less than the answer. For `gallai` it is the set A of
        the decomposition: the odd components exceed its members by the number of nodes that the
        matching misses. It is None if the document has no barrier."""
        members = self.document.barrier
        return None if members is None else [self.vertex_names[number - 1] for number in members]

    @cached_property
    def alternating_paths(self) -> Dict[Node, List[EdgeName]]:
        """An even alternating path from each node of D to one that the matching misses (`gallai`).

        A path is a list of edges (from, to) or (from, to, key), alternately in the matching and
        outside it; it is empty if the matching misses the node itself. With the edges of a path
        exchanged the matching is as large. There are none for other kinds, and without a
        certificate."""
        return {self.instance.nodes[number - 1]: walked(self.instance, number, edges)
                for number, edges in self.document.paths.items()}

    @property
    def closed_set(self) -> Optional[List[Node]]:
        """The nodes of a set that no edge leaves, which excludes every solution.

        For joins and paths it contains an odd number of terminals; for tours there are edges inside
        and outside. It is None if the document has no such set."""
        odd, split = self.document.odd_part, self.document.split_part
        members = odd if odd is not None else split
        return None if members is None else [self.instance.nodes[number - 1] for number in members]

    @property
    def negative_cycle(self) -> Optional[List[EdgeName]]:
        """The edges of a negative cycle in their order, each as (from, to) or (from, to, key).

        It is None if the document has no such cycle."""
        if self.status != "nonconservative" or self.document.walk is None:
            return None
        return walked(self.instance, *self.document.walk)

    @old_keywords("via")
    def check(self, *, engine: Optional[Engine] = None, program: Optional[str] = None,
              timeout: Optional[float] = None) -> Verdict:
        """Have the proved checker judge it: see `blossom.check`.

        Parameters
        ----------
        engine, program
            What runs the checker; without both it is what solved the answer.
        timeout : float
            Seconds after which the process of the checker is stopped.

        Returns
        -------
        Verdict
            True if the document proves what it states.
        """
        from .solving import check

        return check(self.instance, self.instance.kind, self, engine=engine, program=program,
                     timeout=timeout)

    names = old_property("names", "vertex_names")
    bound = old_property("bound", "dual_value")
    part = old_property("part", "closed_set")
    circuit = old_property("circuit", "negative_cycle")

    def __str__(self) -> str:
        return self.text.decode("ascii")

    def __repr__(self) -> str:
        held = "%d duals, %d odd sets" % (len(self.document.duals), len(self.document.sets))
        if self.document.barrier is not None:
            held = "a barrier of %d nodes" % len(self.document.barrier)
        if self.document.outer is not None:
            held = "%d paths" % len(self.document.paths)
        return "<certificate of %s: %s%s>" % (self.instance.kind, self.status,
                                              ", " + held if self.status == "optimal" else "")

    def write(self, file: Union[str, os.PathLike[str], IO[str], IO[bytes]],
              instance: bool = True) -> None:
        """Write it to a file as an input of `blossom check KIND`.

        Comments in the file say which name each number has.

        Parameters
        ----------
        file : path or file open for text or bytes
            Where to write it.
        instance : bool
            Whether to write the instance before the document.
        """
        whole = (legend(self.instance) + self.instance.text if instance else b"") + self.text
        if isinstance(file, (str, os.PathLike)):
            with open(file, "wb") as opened:
                opened.write(whole)
            return
        refuse_no_file(file)
        target: Any = file
        if hasattr(target, "encoding") or isinstance(getattr(target, "getvalue", bytes)(), str):
            target.write(whole.decode("ascii"))
        else:
            target.write(whole)

    def draw(self, positions: Optional[Mapping[Any, Tuple[float, float]]] = None,
             file: Union[None, str, os.PathLike[str], IO[bytes]] = None, *,
             width: Optional[float] = None, height: Optional[float] = None,
             labels: Union[None, bool, Mapping[Any, str]] = None, weights: Optional[bool] = None,
             steps: Optional[bool] = None, duals: Optional[bool] = None,
             odd_sets: Optional[bool] = None, dual_length: Optional[float] = None,
             unused_edges: Optional[bool] = None, caption: bool = True,
             axes: Any = None) -> Picture:
        """Draw the certificate.

        Parameters
        ----------
        positions, file, width, height, labels, weights, steps, duals, odd_sets, dual_length,
        unused_edges, caption, axes
            See `blossom.draw`.

        Returns
        -------
        Picture
        """
        from .drawing import draw

        return draw(self, positions, file, width=width, height=height, labels=labels,
                    weights=weights, steps=steps, duals=duals, odd_sets=odd_sets,
                    dual_length=dual_length, unused_edges=unused_edges, caption=caption,
                    axes=axes)


#: Begins the comment that says which instance a file is of.
CHECKSUM = b"c instance sha256 "


def legend(instance: Instance) -> bytes:
    """Comment lines: the instance's checksum, and which name each number has. A name takes one
    line, whatever it is."""
    lines = ["c vertex %d is %s" % pair for pair in enumerate(map(ascii, instance.nodes), 1)]
    lines += ["c edge %d is %s" % pair for pair in enumerate(map(ascii, instance.edges), 1)]
    comments = "".join(" ".join(line.splitlines()) + "\n" for line in lines).encode("ascii")
    return CHECKSUM + instance.checksum.encode("ascii") + b"\n" + comments


def walked(instance: Instance, start: int, edges: List[int]) -> List[EdgeName]:
    """The edges of a walk as (from, to) or (from, to, key), the way they are walked. The arguments
    are numbers from 1."""
    indices = [number - 1 for number in edges]
    nodes = list(map([None, *instance.nodes].__getitem__, along(instance, start, indices)))
    steps: List[EdgeName] = list(zip(nodes, nodes[1:]))
    if all(len(name) == 2 for name in instance.table.names_of(indices[:1])):
        return steps
    return [(*step, *name[2:]) for step, name in zip(steps, instance.table.names_of(indices))]


def along(instance: Instance, start: int, indices: List[int]) -> List[int]:
    """The vertices of a walk from this vertex along edges."""
    here, vertices = start, [start]
    first, second = instance._numbers.first.tolist(), instance._numbers.second.tolist()
    for index in indices:
        here = second[index] if here == first[index] else first[index]
        vertices.append(here)
    return vertices
