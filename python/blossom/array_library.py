"""A solve by the shared object over arrays: an instance goes there as numbers, and the answer comes
back as numbers. No text is written or read on the way.

What follows the head of an answer, and how an answer is judged, stands in `capi/blossom.h`."""
from __future__ import annotations

import ctypes
from array import array
from typing import Any, Dict, List, Protocol, Sequence, Union

from .array_documents import HEAD, STATE_NUMBERS, ArrayDocument
from .buffers import Numbers
from .documents import Document
from .kinds import WALKED

#: The rules that arrays can break, by their numbers; none has the number 7.
RULES = {1: "Lengths", 2: "Vertices", 3: "Edges", 4: "Endpoint", 5: "Weight", 6: "Capacity",
         8: "Value", 9: "Negative", 10: "PathEnds", 11: "Starts"}
#: The rules that a document can break, by their numbers from 1.
DOCUMENT_RULES = ("DocForm", "KindDiffers", "DocRange", "NotFeasible", "WeightDiffers",
                  "DualMissing", "SetForm", "Slack", "ValueDiffers", "NotBarrier", "NotClosed",
                  "NotCircuit", "PathForm", "PathMissing")

DONE, REJECTED, MALFORMED, TOO_LARGE = 0, 1, 3, 4
#: The outcome of a set of terminals that has a join.
JOINED = 0
#: The types of the parameters that say what the instance is, from the kind on.
INSTANCE_TYPES: List[Any] = ([ctypes.c_uint32, ctypes.c_uint32]
                             + 5 * [ctypes.c_void_p, ctypes.c_size_t])
#: The types of the parameters of a call for joins, up to the terminals.
JOIN_TYPES: List[Any] = [ctypes.c_uint32] + 5 * [ctypes.c_void_p, ctypes.c_size_t]
DOCUMENT_TYPES: List[Any] = [ctypes.c_void_p, ctypes.c_size_t]
ANSWER_TYPES: List[Any] = [ctypes.c_void_p, ctypes.c_size_t, ctypes.POINTER(ctypes.c_size_t)]


class _Asked(Protocol):
    """What is solved, in either form."""

    @property
    def kind(self) -> Any: ...

    @property
    def text(self) -> bytes: ...

    @property
    def _numbers(self) -> Numbers: ...


def most_of_brief(edges: int) -> int:
    """How many numbers a brief answer has at most, on an instance of so many edges."""
    return HEAD + 1 + 2 * edges


def most_of_joins(sets: int, edges: int) -> int:
    """How many numbers the joins of so many sets have at most, in a graph of so many edges."""
    return 2 + sets * (3 + edges)


def refusal(status: int, found: Sequence[int]) -> bytes:
    """What the program prints instead of an answer, where these are the numbers."""
    if status == MALFORMED:
        return b"s MALFORMED %s %d\n" % (RULES[found[0]].encode("ascii"), found[1])
    if status == TOO_LARGE:
        return b"s TOOLARGE %d %d\n" % (found[0], found[1])
    return b""


def verdict_line(status: int, found: Sequence[int]) -> bytes:
    """What the program prints of a document that was judged over arrays, which have no lines."""
    if status == DONE:
        return b"s ACCEPTED\n"
    if status == REJECTED:
        return b"s REJECTED %s 0\n" % DOCUMENT_RULES[found[0] - 1].encode("ascii")
    return refusal(status, found)


def numbers_of_document(document: Document, edges: int) -> Any:
    """The numbers of a document on an instance of so many edges, as `ArrayDocument` reads them."""
    given = document.numbers_for(edges) if isinstance(document, ArrayDocument) else None
    return made_numbers(document, edges) if given is None else given


def made_numbers(document: Document, edges: int) -> Any:
    """The same of what the document states."""
    if document.walk is not None:
        start, length = document.walk[0], len(document.walk[1])
    else:
        start, length = 0, 0 if document.kind in WALKED else edges
    duals = list(map(document.duals.__getitem__, range(1, len(document.duals) + 1)))
    parts = [(one.dual, [*one.vertices, *(-reference for reference in one.references)])
             for one in document.set_lines] or list(document.paths.items())
    offsets, held = [0], []
    for _, items in parts:
        held += items
        offsets.append(len(held))
    excluding = document.barrier or document.odd_part or document.split_part or []
    head = [STATE_NUMBERS[document.status], document.weight or 0, start, length, len(duals),
            len(parts), len(held), len(excluding)]
    numbers = array("q", head)
    if document.walk is not None:
        numbers.extend(document.walk[1])
    else:
        append_counts(numbers, document.counts, length)
    numbers.extend([*duals, *(own for own, _ in parts), *offsets, *held, *excluding])
    return numbers


def append_counts(numbers: Any, counts: Dict[int, int], edges: int) -> None:
    """Appends how often each of so many edges is used."""
    before = len(numbers) - 1
    numbers.frombytes(bytes(8 * edges))
    for edge, count in counts.items():
        if 1 <= edge <= edges:
            numbers[before + edge] = count


Outcome = Union[bytes, Document]
