"""A decoder for quantum error correcting codes whose errors each flip at most two detectors: a
least set of errors for a syndrome.

`Decoder` has the calls of `pymatching.Matching` that build and decode, with the same arguments in
the same order, and `from_edges`. What is different:

- The answer is exact. Weights are rounded only if you say so by `scale=`, or pass error
  probabilities. Their weights log((1 - p) / p) are rounded to the finest power of two that fits;
  the property `scale` says which.
- `answer(syndrome)` is an answer with a certificate.
- A syndrome may be a set of detectors. Predictions are lists, or arrays if the syndrome is one.
- `from_check_matrix` has a virtual boundary and one round of measurements. There is no `add_noise`.
- A component of the graph has at most some 7,700 edges. Larger graphs are solved by components.

`decode_batch` has the library find the joins of many shots by each call, and shots in an array of
numpy stay in arrays up to their predictions. A shot takes a tenth of a millisecond to some
milliseconds. The decoder is for judging decoders and for small codes.

    import blossom

    decoder, rows, columns = blossom.Decoder(), 6, 9
    for here in range(rows * columns):
        if here % columns == 0:
            decoder.add_boundary_edge(here, fault_ids=0)
        if here % columns < columns - 1:
            decoder.add_edge(here, here + 1)
        if here // columns < rows - 1:
            decoder.add_edge(here, here + columns)
    print(decoder.decode({1, 12, 13, 22, 25, 33, 37, 38, 51}, return_weight=True))  # ([1], 9)

![The errors that explain the dark detectors](pictures/decoding.svg)
"""
from __future__ import annotations

import concurrent.futures
import contextlib
import dataclasses
import numbers
import pathlib
from dataclasses import dataclass
from itertools import compress
from typing import (AbstractSet, Any, Dict, FrozenSet, Iterable, List, Literal, Optional, Sequence,
                    Set, Tuple, Union, overload)

from . import documents
from .answers import Answer, answer_of
from .arguments import refuse_timeout, refuse_unless
from .batch import SMALL, Run, runs
from .certificates import Number
from .decoder_input import (BOUNDARY, either_weight, fault_ids_in, fired_in, flags_like, for_each,
                            is_boundary, like, node_in, rows_of, weight_of_probability)
from .decoding_batch import decoded, entries_in, errors_of, has_calls, of_shot
from .decoding_plan import Part, Plan, plan_of
from .deprecated import old_keywords
from .detector_error_model import edges_in, read_model
from .documents import Document
from .errors import ArgumentError, BlossomError, GraphError, Infeasible, WeightError
from .graphs import NetworkxGraph
from .instances import Instance
from .running import Engine, runner, solved
from .shots import Format, Path, packed, read_shots, unpacked, write_predictions
from .weights import Rounding, Scale, plain
from .wording import some

#: A syndrome whose answer is a list.
Listed = Union[Sequence[int], AbstractSet[int]]
#: Any syndrome: one of these, or a numpy array.
Syndrome = Union[Listed, Any]
FaultIds = Union[None, int, Iterable[int]]
Merge = Literal["disallow", "independent", "smallest-weight", "keep-original", "replace"]
MERGES = ("disallow", "independent", "smallest-weight", "keep-original", "replace")


@dataclass(frozen=True)
class DecoderEdge:
    """An error: the edge of two nodes, whose detectors it flips.

    An error whose nodes are equal flips that detector twice, and so none.

    Attributes
    ----------
    node1, node2 : int
        The two nodes; -1 is the boundary.
    weight : number
        Its weight.
    fault_ids : frozenset of int
        The observables that it flips.
    error_probability : float or None
        Its probability, if the weight was made of it.
    """

    node1: int
    node2: int
    weight: Any
    fault_ids: FrozenSet[int]
    error_probability: Optional[float] = None


class Decoder:
    """Decode syndromes on a graph: nodes are detectors, numbered from 0, and edges are errors.

    Each syndrome gets a minimum-weight set of errors. The calls are named and ordered as in
    PyMatching's `Matching`.

    Parameters
    ----------
    graph : check matrix or networkx graph
        See `from_check_matrix` and `from_networkx`; without it the decoder has no edges yet.
    weights, error_probabilities, faults_matrix, merge_strategy
        For a matrix: see `from_check_matrix`.
    scale, rounding
        See `Instance.from_graph`. Without them weights must be integers. If errors have
        probabilities, `scale` is "finest" by default; the property `scale` says which number that
        is.
    engine, program, timeout
        See `solve`; they apply to each call. The library answers if the decoder has at most 4,096
        edges and no timeout, which saves the start of a process each time.

    Raises
    ------
    GraphError, WeightError, LimitExceeded
        See `solve`.

    Examples
    --------
    >>> decoder = blossom.Decoder([[1, 1, 0], [0, 1, 1]])
    >>> decoder.decode([1, 0])
    [1, 0, 0]
    >>> decoder.decode([1, 1], return_weight=True)
    ([0, 1, 0], 1)
    """

    @old_keywords("via")
    def __init__(self, graph: Any = None, weights: Any = None, error_probabilities: Any = None, *,
                 faults_matrix: Any = None, merge_strategy: Merge = "smallest-weight",
                 scale: Optional[Scale] = None, rounding: Rounding = None,
                 engine: Engine = "auto", program: Optional[str] = None,
                 timeout: Optional[float] = None):
        self._edges: List[DecoderEdge] = []
        self._place: Dict[FrozenSet[int], int] = {}
        self._boundary: Set[int] = set()
        self._coordinates: Dict[int, Tuple[float, ...]] = {}
        self._faults = 0
        self._nodes = 0
        self._scale, self._rounding = scale, rounding
        refuse_timeout(timeout)
        self._by, self._timeout = runner(engine, program), timeout
        self._plan: Optional[Plan] = None
        for_matrices = (weights, error_probabilities, faults_matrix)
        if hasattr(graph, "is_directed") or graph is None:
            if any(one is not None for one in for_matrices):
                raise GraphError("weights=, error_probabilities= and faults_matrix= apply only to a"
                                 " check matrix, got %s" % type(graph).__name__)
            if graph is not None:
                self._take_networkx(graph)
        else:
            self._take_matrix(graph, weights, error_probabilities, faults_matrix, merge_strategy)
        if self._edges:
            self._planned()  # (so that weights that can't be are refused at once)

    @classmethod
    @old_keywords("via")
    def from_edges(cls, edges: Iterable[Sequence[Any]], *, boundary: Iterable[int] = (),
                   scale: Optional[Scale] = None, rounding: Rounding = None,
                   engine: Engine = "auto", program: Optional[str] = None,
                   timeout: Optional[float] = None) -> Decoder:
        """Make a decoder from a list of edges.

        Parameters
        ----------
        edges : iterable of tuples
            Edges (node1, node2), (node1, node2, weight) or (node1, node2, weight, fault_ids). None
            or -1 in place of a node is the boundary.
        boundary : iterable of int
            Nodes that belong to the boundary besides.
        scale, rounding, engine, program, timeout
            As for the constructor.

        Returns
        -------
        Decoder

        Examples
        --------
        >>> decoder = blossom.Decoder.from_edges([(0, -1, 2, 0), (0, 1, 1, 1), (1, -1, 2, 2)])
        >>> decoder.decode({0, 1})
        [0, 1, 0]
        """
        decoder = cls(scale=scale, rounding=rounding, engine=engine, program=program,
                      timeout=timeout)
        refuse_unless(hasattr(edges, "__iter__"), "edges", "an iterable of edges", edges)
        for edge in edges:
            if not hasattr(edge, "__len__") or isinstance(edge, str) or not 2 <= len(edge) <= 4:
                raise GraphError("invalid edge %r: expected (node1, node2[, weight[, fault_ids]])"
                                 % (edge,))
            node1, node2, *rest = edge
            fault_ids = rest[1] if len(rest) > 1 else None
            decoder._add(node1, node2, fault_ids, rest[0] if rest else 1, None, "disallow")
        decoder.set_boundary_nodes(boundary)
        decoder._planned()
        return decoder

    @classmethod
    @old_keywords("via")
    def from_check_matrix(cls, check_matrix: Any, weights: Any = None,
                          error_probabilities: Any = None, *, faults_matrix: Any = None,
                          merge_strategy: Merge = "smallest-weight", scale: Optional[Scale] = None,
                          rounding: Rounding = None, engine: Engine = "auto",
                          program: Optional[str] = None,
                          timeout: Optional[float] = None) -> Decoder:
        """Make a decoder from a check matrix.

        Parameters
        ----------
        check_matrix : lists, numpy array or scipy matrix, of shape (detectors, errors)
            Entries 0 and 1, with one or two entries 1 in each column. An error with one entry flips
            that detector and the boundary.
        weights : number or sequence
            The weight of each error; 1 by default.
        error_probabilities : float or sequence
            The probability of each error, in place of weights: see `add_edge`.
        faults_matrix : matrix of shape (observables, errors)
            Which observables each error flips; without it each error is an observable of its own.
        merge_strategy : str
            What to do with errors of the same detectors: see `add_edge`.
        scale, rounding, engine, program, timeout
            As for the constructor.

        Returns
        -------
        Decoder

        Raises
        ------
        GraphError
            If a column has no entry 1, or more than two.
        """
        return cls(check_matrix, weights, error_probabilities, faults_matrix=faults_matrix,
                   merge_strategy=merge_strategy, scale=scale, rounding=rounding, engine=engine,
                   program=program, timeout=timeout)

    @classmethod
    @old_keywords("via")
    def from_networkx(cls, graph: NetworkxGraph, *, scale: Optional[Scale] = None,
                      rounding: Rounding = None, engine: Engine = "auto",
                      program: Optional[str] = None, timeout: Optional[float] = None) -> Decoder:
        """Make a decoder from a networkx graph with nodes 0, 1, 2 and so on.

        Parameters
        ----------
        graph : networkx.Graph or networkx.MultiGraph
            Edges may have the attributes `weight` or `error_probability`, and `fault_ids`. Nodes of
            the boundary have the attribute `is_boundary`.
        scale, rounding, engine, program, timeout
            As for the constructor.

        Returns
        -------
        Decoder
        """
        return cls(graph, scale=scale, rounding=rounding, engine=engine, program=program,
                   timeout=timeout)

    def _take_networkx(self, graph: Any) -> None:
        """Adds the edges of a graph of networkx."""
        for node1, node2, attributes in graph.edges(data=True):
            self._add(node1, node2, attributes.get("fault_ids"), attributes.get("weight"),
                      attributes.get("error_probability"), "disallow")
        last = max((node_in(node) for node in graph.nodes), default=-1)
        self._nodes = max(self._nodes, 1 + last)
        self.set_boundary_nodes([node for node, attributes in graph.nodes(data=True)
                                 if attributes.get("is_boundary")])

    def _take_matrix(self, check_matrix: Any, weights: Any, error_probabilities: Any,
                     faults_matrix: Any, merge_strategy: Merge) -> None:
        """Adds the errors of a check matrix."""
        rows = rows_of(check_matrix)
        columns = list(zip(*rows))
        weight_of = for_each(weights, len(columns), "weights")
        chance_of = for_each(error_probabilities, len(columns), "error_probabilities")
        faults = None if faults_matrix is None else list(zip(*rows_of(faults_matrix)))
        if faults is not None and len(faults) != len(columns):
            raise GraphError("faults_matrix must have as many columns as the check matrix: expected"
                             " %d, got %d" % (len(columns), len(faults)))
        self._nodes = len(rows)
        self.ensure_num_fault_ids(len(columns) if faults is None else len(rows_of(faults_matrix)))
        for error, column in enumerate(columns):
            flipped = [detector for detector, entry in enumerate(column) if entry]
            if not 1 <= len(flipped) <= 2:
                raise GraphError("column %d of the check matrix has %d nonzero entries: expected 1"
                                 " or 2" % (error, len(flipped)))
            flips = {error} if faults is None else {fault for fault, entry
                                                    in enumerate(faults[error]) if entry}
            self._add(flipped[0], (flipped + [BOUNDARY])[1], flips, weight_of[error],
                      chance_of[error], merge_strategy)

    @classmethod
    def from_detector_error_model(cls, model: Any, *, scale: Optional[Scale] = None,
                                  rounding: Rounding = None, engine: Engine = "auto",
                                  program: Optional[str] = None,
                                  timeout: Optional[float] = None) -> Decoder:
        """Make a decoder from a detector error model of Stim.

        Each part of an error that flips one detector or two is an edge. Errors of the same
        detectors are independent: they are merged into one, whose probability is that an odd number
        of them occurs. It flips the observables of the first, as in PyMatching. Parts without a
        detector can't be seen and are left out.

        Parameters
        ----------
        model : str, path or stim.DetectorErrorModel
            The text of a model, or the file that it is in. A text has several lines or begins with
            an instruction.
        scale, rounding, engine, program, timeout
            As for the constructor.

        Returns
        -------
        Decoder

        Raises
        ------
        GraphError
            If a line breaks the format, or an error flips more than two detectors and isn't
            decomposed by `^`; the message names the line.
        LimitExceeded
            If the graph is too large.

        Examples
        --------
        >>> model = "error(0.1) D0 L0\\nerror(0.1) D0 D1\\nerror(0.1) D1"
        >>> decoder = blossom.Decoder.from_detector_error_model(model)
        >>> decoder.decode([1, 0])
        [1]
        """
        decoder = cls(scale=scale, rounding=rounding, engine=engine, program=program,
                      timeout=timeout)
        found = read_model(model)
        for detectors, observables, probability in edges_in(found):
            decoder._add(detectors[0], (*detectors, BOUNDARY)[1], observables, None, probability,
                         "independent")
        decoder._nodes = max(decoder._nodes, found.detectors)
        decoder._coordinates = found.coordinates
        decoder.ensure_num_fault_ids(found.observables)
        decoder._planned().refuse_too_large()
        return decoder

    @classmethod
    def from_detector_error_model_file(cls, path: Path, **words: Any) -> Decoder:
        """Make a decoder from a file with a detector error model of Stim.

        Parameters
        ----------
        path : path
            The file.
        **words
            As for `from_detector_error_model`.

        Returns
        -------
        Decoder
        """
        return cls.from_detector_error_model(pathlib.Path(path), **words)

    def detector_coordinates(self) -> Dict[int, Tuple[float, ...]]:
        """Return the coordinates that the detector error model gives its detectors.

        Returns
        -------
        dict
            A tuple of coordinates for each detector that has them.
        """
        return dict(self._coordinates)

    def add_edge(self, node1: int, node2: int, fault_ids: FaultIds = None, weight: Any = None,
                 error_probability: Optional[float] = None, *,
                 merge_strategy: Merge = "disallow") -> None:
        """Add an error that flips the detectors of two nodes.

        An error that flips no detector is a loop, whose nodes are equal.

        Parameters
        ----------
        node1, node2 : int
            The two nodes, from 0; None or -1 is the boundary.
        fault_ids : int or iterable of int
            The observables that it flips.
        weight : number
            Any number, negative or not; 1 by default.
        error_probability : float
            The probability p of the error, in place of a weight, with 0 < p < 1. Its weight is
            log((1 - p) / p), so that a minimum-weight set of errors is a most likely one.
        merge_strategy : str
            What to do if the two nodes have an edge already. "disallow" refuses the new one,
            "replace" takes it in place of the old one, "keep-original" leaves it out, and
            "smallest-weight" takes the lighter. "independent" merges both into an error that occurs
            if exactly one of them does, and flips the observables of the first.

        Raises
        ------
        ArgumentError
            If there is an edge already and `merge_strategy` is "disallow".
        GraphError, WeightError
            If a node, an observable, a weight or a probability is invalid.
        """
        self._add(node1, node2, fault_ids, weight, error_probability, merge_strategy)

    def add_boundary_edge(self, node: int, fault_ids: FaultIds = None, weight: Any = None,
                          error_probability: Optional[float] = None, *,
                          merge_strategy: Merge = "disallow") -> None:
        """Add an error that flips the detector of one node alone.

        Parameters
        ----------
        node : int
            The node, from 0.
        fault_ids, weight, error_probability, merge_strategy
            See `add_edge`.
        """
        self._add(node, BOUNDARY, fault_ids, weight, error_probability, merge_strategy)

    def set_boundary_nodes(self, nodes: Iterable[int]) -> None:
        """Set the nodes that belong to the boundary and aren't detectors.

        Parameters
        ----------
        nodes : iterable of int
            All such nodes; earlier ones are replaced.
        """
        refuse_unless(hasattr(nodes, "__iter__"), "nodes", "an iterable of nodes", nodes)
        self._boundary = {node_in(node) for node in nodes}
        self._nodes = max([self._nodes, *[node + 1 for node in self._boundary]])
        self._plan = None

    def ensure_num_fault_ids(self, number: int) -> None:
        """Make predictions at least this long.

        Parameters
        ----------
        number : int
            The minimum number of observables.
        """
        refuse_unless(isinstance(number, numbers.Integral), "number", "an integer", number)
        self._faults = max(self._faults, number)

    @property
    def num_nodes(self) -> int:
        """The number of nodes: one more than the largest that is named."""
        return self._nodes

    @property
    def num_detectors(self) -> int:
        """The number of nodes outside the boundary."""
        return self._nodes - len(self._boundary)

    @property
    def num_edges(self) -> int:
        """The number of edges."""
        return len(self._edges)

    @property
    def num_fault_ids(self) -> int:
        """The length of predictions: one more than the largest observable that is named."""
        return self._faults

    @property
    def boundary(self) -> Set[int]:
        """The nodes that belong to the boundary."""
        return set(self._boundary)

    @property
    def scale(self) -> Number:
        """What weights are multiplied by before they are rounded, if at all."""
        return plain(self._planned().scale)

    def edges(self) -> List[Tuple[int, Optional[int], Dict[str, Any]]]:
        """Return the edges with their attributes.

        Returns
        -------
        list of tuples
            Edges (node1, node2, attributes): node2 is None at the boundary. The attributes are
            "fault_ids", "weight" and "error_probability", which is None without a probability.
        """
        return [(edge.node1, None if edge.node2 == BOUNDARY else edge.node2,
                 {"fault_ids": set(edge.fault_ids), "weight": edge.weight,
                  "error_probability": edge.error_probability}) for edge in self._edges]

    def __repr__(self) -> str:
        return "<decoder of %d detectors, %d boundary nodes, %d edges, %d observables>" % (
            self.num_detectors, len(self._boundary), self.num_edges, self.num_fault_ids)

    @overload
    def decode(self, syndrome: Listed, *, return_weight: Literal[False] = False) -> List[int]: ...

    @overload
    def decode(self, syndrome: Listed, *,
               return_weight: Literal[True]) -> Tuple[List[int], Number]: ...

    @overload
    def decode(self, syndrome: Any, *, return_weight: bool = False) -> Any: ...

    def decode(self, syndrome: Syndrome, *, return_weight: bool = False) -> Any:
        """Predict the observables that a minimum-weight set of errors with this syndrome flips.

        Parameters
        ----------
        syndrome : list, set or numpy.ndarray
            0 or 1 for each node, or for each detector if the nodes of the boundary come last; or
            the set of the detectors that fired.
        return_weight : bool
            Whether to return the weight of the errors too.

        Returns
        -------
        list or numpy.ndarray
            0 or 1 for each observable, of shape (num_fault_ids,): for an array an array of uint8.
            With `return_weight` a pair of this and the weight.

        Raises
        ------
        Infeasible
            If no set of errors has this syndrome.
        ArgumentError
            If the syndrome has a wrong length or other entries.
        LimitExceeded, TimeLimit, SolverError
            See `solve`.
        """
        errors, plan = self._errors(self._fired(syndrome)), self._planned()
        prediction = flags_like(syndrome, plan.flipped(errors, self._faults))
        return (prediction, plan.weight(errors)) if return_weight else prediction

    def decode_batch(self, shots: Any, *, return_weights: bool = False,
                     bit_packed_shots: bool = False, bit_packed_predictions: bool = False,
                     executor: Optional[concurrent.futures.Executor] = None) -> Any:
        """Decode many syndromes.

        Parameters
        ----------
        shots : sequence of syndromes
            As for `decode`, or a numpy array of shape (shots, detectors).
        return_weights : bool
            Whether to return the weights too.
        bit_packed_shots : bool
            Whether `shots` is an array of uint8 of shape (shots, ceil(num_detectors / 8)): a byte
            holds eight detectors, the lowest bit first.
        bit_packed_predictions : bool
            Whether to pack the predictions in the same way.
        executor : concurrent.futures.Executor
            As for `solve_many`.

        Returns
        -------
        list or numpy.ndarray
            The predictions: for an array one of shape (shots, num_fault_ids). With `return_weights`
            a pair of these and the weights, of shape (shots,).

        Raises
        ------
        Infeasible, ArgumentError, LimitExceeded, TimeLimit, SolverError
            See `decode`. The message begins with the index of the shot: "shot 3: ..".

        Examples
        --------
        >>> decoder = blossom.Decoder([[1, 1, 0], [0, 1, 1]])
        >>> decoder.decode_batch([[0, 0], [1, 0], [1, 1]])
        [[0, 0, 0], [1, 0, 0], [0, 1, 0]]
        """
        plan = self._planned()
        if bit_packed_shots:
            shots = unpacked(shots, plan.lengths[1])
        entries = entries_in(shots, plan) if executor is None and has_calls(plan) else None
        if entries is None:
            joins = self._errors_of_all(shots, executor)
            flipped = [list(plan.flipped(errors, self._faults)) for errors in joins]
            predictions = like(shots, flipped, "uint8", (len(joins), self._faults))
            weights = None
            if return_weights:
                weights = like(shots, list(map(plan.weight, joins)), "float64")
        else:
            predictions, weights = decoded(plan, entries, self._faults, self._in_full,
                                           len(self._edges) > SMALL)
        if bit_packed_predictions:
            predictions = packed(predictions)
        return (predictions, weights) if return_weights else predictions

    def decode_shots_bit_packed(self, *, bit_packed_detection_event_data: Any) -> Any:
        """Decode packed shots into packed predictions, as a compiled decoder of sinter does.

        Parameters
        ----------
        bit_packed_detection_event_data : numpy.ndarray
            Of uint8 and of shape (shots, ceil(num_detectors / 8)).

        Returns
        -------
        numpy.ndarray
            Of uint8 and of shape (shots, ceil(num_fault_ids / 8)).
        """
        return self.decode_batch(bit_packed_detection_event_data, bit_packed_shots=True,
                                 bit_packed_predictions=True)

    def decode_file(self, shots: Path, predictions: Optional[Path] = None, *,
                    format: Optional[Format] = None,
                    predictions_format: Optional[Format] = None) -> Any:
        """Decode a file of shots.

        Parameters
        ----------
        shots, predictions : path
            The file of shots, and a file to write the predictions to.
        format, predictions_format : {"01", "b8"}
            Their formats; by default the endings of the paths.

        Returns
        -------
        numpy.ndarray
            The predictions, of uint8 and of shape (shots, num_fault_ids).

        Raises
        ------
        ValueError
            If the file doesn't have a bit for each detector.
        """
        found = self.decode_batch(read_shots(shots, self._planned().lengths[1], format))
        if predictions is not None:
            write_predictions(predictions, found, predictions_format)
        return found

    @overload
    def decode_to_edges_array(self, syndrome: Listed) -> List[Tuple[int, int]]: ...

    @overload
    def decode_to_edges_array(self, syndrome: Any) -> Any: ...

    def decode_to_edges_array(self, syndrome: Syndrome) -> Any:
        """Return the edges of a minimum-weight set of errors with this syndrome.

        Parameters
        ----------
        syndrome : list, set or numpy.ndarray
            See `decode`.

        Returns
        -------
        list or numpy.ndarray
            Pairs of nodes, of which -1 is the boundary: for an array an array of shape (edges, 2).
        """
        used = self._planned().used(self._errors(self._fired(syndrome)))
        pairs = [(self._edges[edge].node1, self._edges[edge].node2) for edge in used]
        return like(syndrome, pairs, "int64", (len(pairs), 2))

    def answer(self, syndrome: Syndrome) -> Answer:
        """Return the T-join that `decode` reads its prediction from, with its certificate.

        Its nodes are those of the decoder and, from `num_nodes`, those that represent the boundary.
        Its edges are in the order of `add_edge`, and include edges of weight 0 between nodes of the
        boundary.

        Parameters
        ----------
        syndrome : list, set or numpy.ndarray
            See `decode`.

        Returns
        -------
        Answer
        """
        fired = self._fired(syndrome)
        of = instance_of(self._planned().whole, fired)
        status, output = solved(self._by, "solve", of, self._timeout)
        return self._answer_of(fired, of, status, output)

    def instance(self, syndrome: Syndrome) -> Instance:
        """Return the instance of `tjoin` for a syndrome.

        Parameters
        ----------
        syndrome : list, set or numpy.ndarray
            See `decode`.

        Returns
        -------
        Instance

        Raises
        ------
        ArgumentError
            If the syndrome has a wrong length or other entries.
        """
        return instance_of(self._planned().whole, self._fired(syndrome))

    def _add(self, node1: Any, node2: Any, fault_ids: FaultIds, weight: Any,
             error_probability: Any, merge_strategy: str) -> None:
        if merge_strategy not in MERGES:
            raise ArgumentError("merge_strategy must be one of %s, got %r"
                                % (", ".join(MERGES), merge_strategy))
        if weight is not None and error_probability is not None:
            raise WeightError("pass either weight= or error_probability=, not both")
        nodes = [BOUNDARY if node is None or is_boundary(node) else node_in(node)
                 for node in (node1, node2)]
        if nodes == [BOUNDARY, BOUNDARY]:
            raise GraphError("edge (%r, %r) joins the boundary to itself: at least one end must be"
                             " a detector" % (node1, node2))
        if nodes[0] == BOUNDARY:
            nodes.reverse()
        if error_probability is not None:
            weight = weight_of_probability(error_probability)
        edge = DecoderEdge(nodes[0], nodes[1], 1 if weight is None else weight,
                           fault_ids_in(fault_ids), error_probability)
        self._merge(edge, merge_strategy)
        self._nodes = max(self._nodes, *[node + 1 for node in nodes])
        self._faults = max([self._faults, *[fault + 1 for fault in edge.fault_ids]])
        self._plan = None

    def _merge(self, edge: DecoderEdge, merge_strategy: str) -> None:
        """Takes an edge in, unless that of the same nodes stays. ValueError: there is one, and
        that isn't allowed."""
        place = self._place.setdefault(frozenset((edge.node1, edge.node2)), len(self._edges))
        if place == len(self._edges):
            self._edges.append(edge)
        elif merge_strategy == "disallow":
            raise ArgumentError("duplicate edge (%r, %r): pass merge_strategy= to say which one to"
                                " keep" % (edge.node1, edge.node2))
        elif merge_strategy == "independent":
            self._edges[place] = either_of(self._edges[place], edge)
        elif merge_strategy == "replace" or (merge_strategy == "smallest-weight"
                                             and edge.weight < self._edges[place].weight):
            self._edges[place] = edge

    def _planned(self) -> Plan:
        if self._plan is None:
            likely = any(edge.error_probability is not None for edge in self._edges)
            scale = self._scale if self._scale is not None else "finest" if likely else 1
            self._plan = plan_of(self._nodes, self._edges, self._boundary, scale, self._rounding,
                                 self._by, self._timeout)
        return self._plan

    def _fired(self, syndrome: Syndrome) -> AbstractSet[int]:
        """The detectors that fired. ValueError: the syndrome isn't one of this graph."""
        plan = self._planned()
        fired = fired_in(syndrome, plan.detectors, plan.lengths)
        return self._fired_in_any(syndrome, plan) if fired is None else fired

    def _fired_in_all(self, shots: Sequence[Syndrome]) -> List[AbstractSet[int]]:
        """The same of each of these syndromes."""
        fired: List[AbstractSet[int]] = []
        try:
            for shot in shots:
                fired.append(self._fired(shot))
        except (BlossomError, TypeError):
            with of_shot(len(fired)):
                raise
        return fired

    def _fired_in_any(self, syndrome: Syndrome, plan: Plan) -> AbstractSet[int]:
        """The same for a syndrome in any form."""
        if isinstance(syndrome, (str, bytes)) or not hasattr(syndrome, "__iter__"):
            raise TypeError("syndrome must be a sequence of 0 and 1, or a set of detectors, got %r"
                            % (syndrome,))
        if isinstance(syndrome, (set, frozenset)):
            fired = {node_in(node) for node in syndrome}
            if fired and max(fired) >= self._nodes:
                raise ArgumentError("detector %d out of range: the graph has nodes 0 to %d"
                                    % (max(fired), self._nodes - 1))
            return fired - self._boundary
        entries = syndrome.tolist() if hasattr(syndrome, "tolist") else list(syndrome)
        fired = set(compress(range(len(entries)), entries))
        if (len(entries) not in plan.lengths
                or entries.count(0) + entries.count(1) != len(entries)):
            raise ArgumentError("invalid syndrome: expected %d entries 0 or 1, got %d entries %r%s"
                                % (self._nodes, len(entries), entries[:9],
                                   ".." if len(entries) > 9 else ""))
        return fired - self._boundary

    def _errors(self, fired: AbstractSet[int]) -> List[int]:
        """The decoder's edges in a minimum-weight join for these detectors, apart from those that
        are always used."""
        plan = self._planned()
        if len(plan.parts) == 1:
            return self._errors_in(plan.parts[0], fired)
        errors: List[int] = []
        for part, nodes in plan.split(fired):
            errors += self._errors_in(plan.parts[part], nodes)
        return errors

    def _errors_in(self, part: Part, fired: AbstractSet[int]) -> List[int]:
        """The same for these nodes of a part."""
        if part.calls is None:
            run = solved(self._by, "brief", part.shot(fired), self._timeout)
            return self._read(part, fired, run)
        places = part.calls.used(part.graph.terminals(fired))
        return self._in_full(part, fired) if places is None else part.used(places)

    def _errors_of_all(self, shots: Sequence[Syndrome],
                       executor: Optional[concurrent.futures.Executor]) -> List[List[int]]:
        """The same for each of these syndromes."""
        if isinstance(shots, (str, bytes)) or not hasattr(shots, "__iter__"):
            raise TypeError("shots must be a sequence of syndromes, got %r" % (shots,))
        if any(isinstance(shot, numbers.Integral) for shot in shots):
            raise TypeError("shots must be a sequence of syndromes, got one syndrome: pass"
                            " [syndrome]")
        fired, plan = self._fired_in_all(shots), self._planned()
        if executor is None and has_calls(plan):
            return errors_of(plan, fired, self._in_full, len(self._edges) > SMALL)
        joins: List[List[int]] = [[] for _ in fired]
        asked = [(number, plan.parts[part], nodes) for number, shot in enumerate(fired)
                 for part, nodes in plan.split(shot)]
        texts = [part.shot(nodes) for _, part, nodes in asked]
        with contextlib.closing(runs(self._by, "brief", texts, self._timeout, executor)) as ended:
            for place, run in ended:
                number, part, nodes = asked[place]
                with of_shot(number):
                    joins[number] += self._read(part, nodes, run)
        return joins

    def _read(self, part: Part, fired: AbstractSet[int], run: Run) -> List[int]:
        """The decoder's edges that a run without certificate used. What else it came to is
        raised."""
        if isinstance(run, BlossomError):
            raise run
        status, output = run
        document = documents.of(output) if status == 0 else None
        if document is None or document.status != "optimal":
            return self._in_full(part, fired, status, output)
        return part.used(places_in(document))

    def _in_full(self, part: Part, fired: AbstractSet[int], status: int = 0,
                 output: Union[bytes, Document] = b"") -> List[int]:
        """The decoder's edges that a run with certificate uses, unless one without has ended with a
        status that isn't 0. What either came to besides is raised, with the part of the graph that
        shows that there is no answer, which a run without certificate doesn't say."""
        of = instance_of(part, fired)
        if status == 0:
            status, output = solved(self._by, "solve", of, self._timeout)
        own = {part.nodes[node] for node in fired}
        document = self._answer_of(own, of, status, output).certificate.document
        return part.used(places_in(document))

    def _answer_of(self, fired: AbstractSet[int], of: Instance, status: int,
                   output: Union[bytes, Document]) -> Answer:
        """The answer that a run in full came to. Infeasible: no errors have this syndrome."""
        try:
            return answer_of(of, status, output, self._by)
        except Infeasible as error:
            part = error.closed_set or []
            count = len(set(part).intersection(fired))
            told = ("" if not part else ": %d detector%s fired among %s, which no boundary edge"
                    " leaves" % (count, "s" if count != 1 else "", some(part)))
            raise Infeasible("no errors have this syndrome" + told, error.certificate) from None


def instance_of(part: Part, fired: AbstractSet[int]) -> Instance:
    """The instance of a part for these nodes of it."""
    return dataclasses.replace(part.base, _numbers=part.shot(fired)._numbers)


def either_of(first: DecoderEdge, second: DecoderEdge) -> DecoderEdge:
    """The error that occurs if exactly one of two errors at the same nodes does. It flips the
    observables of the first: in a code of a distance over 2 both flip the same."""
    one, other = first.error_probability, second.error_probability
    if one is None or other is None:
        weight = either_weight(float(first.weight), float(second.weight))
        return dataclasses.replace(first, weight=weight, error_probability=None)
    chance = one * (1 - other) + other * (1 - one)
    return dataclasses.replace(first, weight=weight_of_probability(chance),
                               error_probability=chance)


def places_in(document: Document) -> List[int]:
    """The places of the edges that a document uses."""
    return [number - 1 for number in document.counts]
