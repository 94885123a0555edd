"""The texts that the program writes, as values: numbers as they stand there, without names."""
from __future__ import annotations

import re
from dataclasses import dataclass, field, fields
from functools import cached_property
from itertools import chain
from typing import Any, Dict, FrozenSet, List, Literal, NamedTuple, Optional, Set, Tuple, Union

from .errors import SolverError
from .kinds import OF_NODES

Status = Literal["optimal", "infeasible", "nonconservative"]
STATES: Dict[str, Status] = {"OPTIMAL": "optimal", "INFEASIBLE": "infeasible",
                             "NONCONSERVATIVE": "nonconservative"}
#: The letters of the lines that a document has, by its status and kind; `*` is any other kind.
LETTERS = {("optimal", "postman"): "wyz", ("optimal", "path"): "wyz",
           ("optimal", "oddpath"): "wyz", ("optimal", "evenpath"): "wyz",
           ("optimal", "bottleneck"): "xu", ("optimal", "gallai"): "xdur",
           ("optimal", "*"): "xyz", ("infeasible", "gallai"): "",
           ("infeasible", "tjoin"): "t", ("infeasible", "path"): "t",
           ("infeasible", "postman"): "q", ("infeasible", "*"): "u",
           ("nonconservative", "path"): "w"}
#: How many numbers stand before those that a line counts; the last of them is their number.
COUNTED = {"w": 2, "d": 1, "u": 1, "t": 1, "q": 1, "r": 2}


class SetLine(NamedTuple):
    """An odd set of vertices of the certificate graph: its dual, vertices, and references, which
    are the numbers (from 1 on) of earlier sets that it holds whole."""

    dual: int
    vertices: List[int]
    references: List[int]


@dataclass(repr=False, eq=False)
class Document:
    """What a document states. Vertices and edges are numbers from 1 on.

    status: "optimal", "infeasible" or "nonconservative". weight: of an optimal answer.
    counts: how often each edge is used that is used at all. walk: its first vertex and its edges.
    duals: of the vertices of the certificate graph, in doubled units. set_lines: odd sets of such
    vertices. barrier, odd_part, split_part: what proves that there is no answer. A barrier stands
    beside a best answer of `bottleneck` too, and is one of the graph of the lighter edges; not
    where there are no vertices. Of `gallai` it has the neighbours of `outer`, which are the
    vertices that some greatest matching misses. paths: for each of these the edges of a path from
    it, in the matching and outside it in turn, to a vertex that the matching misses."""

    status: Status
    kind: str
    weight: Optional[int] = None
    counts: Dict[int, int] = field(default_factory=dict)
    walk: Optional[Tuple[int, List[int]]] = None
    duals: Dict[int, int] = field(default_factory=dict)
    set_lines: List[SetLine] = field(default_factory=list)
    barrier: Optional[List[int]] = None
    odd_part: Optional[List[int]] = None
    split_part: Optional[List[int]] = None
    outer: Optional[List[int]] = None
    paths: Dict[int, List[int]] = field(default_factory=dict)

    @property
    def sets(self) -> List[Tuple[int, List[int]]]:
        """Each odd set as its dual and all its members, ascending. Many sets within each other have
        many members."""
        found: List[Tuple[int, List[int]]] = []
        for one in self.set_lines:
            members: Set[int] = set(one.vertices)
            members.update(*(found[reference - 1][1] for reference in one.references))
            found.append((one.dual, sorted(members)))
        return found

    def places(self) -> List[int]:
        """The places, from 0, of the edges that are used, in their order."""
        walked = self.walk[1] if self.walk else ()
        return sorted({number - 1 for number in (*self.counts, *walked)})

    def edge_numbers(self) -> List[int]:
        """Numbers of edges that it refers to, with the greatest among them."""
        return [*self.counts, *(self.walk[1] if self.walk else ()),
                *chain.from_iterable(self.paths.values())]

    def node_numbers(self) -> List[int]:
        """Numbers of nodes of the graph that it refers to."""
        return [*(self.walk[:1] if self.walk else ()), *(self.odd_part or ()),
                *(self.split_part or ()), *(self.outer or ()), *self.paths,
                *(self.barrier or () if self.kind in OF_NODES else ())]

    def is_whole(self) -> bool:
        """Whether it has what proves what it states."""
        if self.kind == "gallai":
            return self.outer is not None and set(self.outer) == set(self.paths)
        if self.status == "optimal" and self.kind != "bottleneck":
            return bool(self.duals)
        return self.status == "nonconservative" or any(
            one is not None for one in (self.barrier, self.odd_part, self.split_part))

    def changed(self, **parts: Any) -> Document:
        """A document that has these parts in place of its own."""
        own = {one.name: getattr(self, one.name) for one in fields(Document)}
        return Document(**{**own, **parts})

    def __eq__(self, other: object) -> bool:
        """Whether both state the same, in whichever form they came."""
        if not isinstance(other, Document):
            return NotImplemented
        return all(getattr(self, one.name) == getattr(other, one.name) for one in fields(Document))

    __hash__ = None  # type: ignore[assignment]

    def __repr__(self) -> str:
        return "<%s document of %s>" % (self.status, self.kind)


class TextDocument(Document):
    """A document of a text. Its lines of duals become numbers when somebody asks for the duals.

    dual_lines: one line or more each, in their order. They are known to be such lines."""

    def __init__(self, status: Status, kind: str, weight: Optional[int] = None) -> None:
        super().__init__(status, kind, weight)
        del self.duals  # (so that the next look at it makes it)
        self.dual_lines: List[str] = []

    @cached_property
    def duals(self) -> Dict[int, int]:  # type: ignore[override]
        fields = " ".join(self.dual_lines).split()
        return dict(zip(map(int, fields[1::3]), map(int, fields[2::3])))


def of(given: Union[bytes, Document]) -> Document:
    """The document that was given, or that of a text. SolverError: the text is none."""
    return given if isinstance(given, Document) else read(given)


def spelled(document: Document) -> bytes:
    """The document as the program writes it."""
    word = next(word for word, status in STATES.items() if status == document.status)
    weight = "" if document.weight is None else " %d" % document.weight
    lines = ["s %s %s%s" % (word, document.kind, weight)]
    lines += ["x %d %d" % one for one in document.counts.items()]
    if document.walk is not None:
        lines.append(line("w %d" % document.walk[0], document.walk[1]))
    lines += ["y %d %d" % one for one in document.duals.items()]
    lines += map(set_line, document.set_lines)
    beside = (("d", document.outer), ("u", document.barrier), ("t", document.odd_part),
              ("q", document.split_part))
    lines += [line(letter, members) for letter, members in beside if members is not None]
    lines += [line("r %d" % vertex, edges) for vertex, edges in document.paths.items()]
    return ("\n".join(lines) + "\n").encode("ascii")


def line(begin: str, numbers: List[int]) -> str:
    """A line that begins so, and then counts its numbers and lists them."""
    return " ".join([begin, str(len(numbers)), *map(str, numbers)])


def set_line(one: SetLine) -> str:
    """The line of a set: its vertices, and then its references."""
    items = [*map(str, one.vertices), *map("@%d".__mod__, one.references)]
    return " ".join(["z", str(one.dual), str(len(items)), *items])


def header(fields: List[str]) -> TextDocument:
    """The document that an `s` line begins. ValueError, KeyError, IndexError: it isn't such a
    line."""
    status, kind = STATES[fields[1]], fields[2]
    length = 4 if status == "optimal" else 3
    if fields[0] != "s" or len(fields) != length:
        raise ValueError(fields)
    return TextDocument(status, kind, int(fields[3]) if length == 4 else None)


def take_set(document: Document, fields: List[str]) -> None:
    """Adds the line of a set to the document. ValueError, IndexError: its fields aren't those of
    one, or it refers to a set that isn't there before it."""
    dual, count, items = int(fields[0]), int(fields[1]), fields[2:]
    references = [int(item[1:]) for item in items if item[0] == "@"]
    vertices = list(map(int, [item for item in items if item[0] != "@"] if references else items))
    known = len(document.set_lines)
    if len(items) != count or references and not 1 <= min(references) <= max(references) <= known:
        raise ValueError(fields)
    document.set_lines.append(SetLine(dual, vertices, references))


def take(document: TextDocument, letter: str, numbers: List[int]) -> None:
    """Adds one line but that of a set to the document. ValueError, IndexError: its numbers aren't
    those of such a line, or it stands there a second time."""
    before = COUNTED.get(letter, 2)
    if letter in COUNTED and len(numbers) != before + numbers[before - 1]:
        raise ValueError(letter)
    if letter == "x":
        edge, count = numbers
        if edge in document.counts or count < 1:
            raise ValueError(letter)
        document.counts[edge] = count
    elif letter == "y":
        vertex, dual = numbers
        document.dual_lines.append("y %d %d" % (vertex, dual))
    elif letter == "r":
        if numbers[0] in document.paths:
            raise ValueError(letter)
        document.paths[numbers[0]] = numbers[2:]
    else:
        take_once(document, letter, numbers)


def take_once(document: Document, letter: str, numbers: List[int]) -> None:
    """Adds a line of those that stand there once. ValueError: one stands there already."""
    known = (document.walk, document.barrier, document.odd_part, document.split_part)
    if letter == "d" and document.outer is None:
        document.outer = numbers[1:]
    elif letter == "d" or any(one is not None for one in known):
        raise ValueError(letter)
    elif letter == "w":
        document.walk = (numbers[0], numbers[2:])
    elif letter == "u":
        document.barrier = numbers[1:]
    elif letter == "t":
        document.odd_part = numbers[1:]
    else:
        document.split_part = numbers[1:]


def letters_of(document: Document) -> FrozenSet[str]:
    """The letters of the lines that this document may have."""
    status = document.status
    return frozenset(LETTERS.get((status, document.kind), LETTERS.get((status, "*"), "")))


def what_is(text: bytes) -> str:
    """What a text without a document is, in words."""
    start = text.split(b"\n")[0][:40].decode("latin-1").strip()
    return "the text begins with %r, expected an 's' line" % start if start else "nothing printed"


#: Several lines of duals, which are read at once, or one line of any form.
PIECES = re.compile("(?:y [0-9]{1,18} -?[0-9]{1,18}\\n){2,}|[^\\n]+")


def read(text: bytes) -> Document:
    """The document of a text; comments and blank lines are skipped. SolverError: it is none."""
    document, letters = None, frozenset[str]()
    for line in PIECES.findall(text.decode("latin-1")):
        fields = line.split(None, 1) if "\n" in line else line.split()
        if not fields or fields[0].startswith("c"):
            continue
        try:
            if document is None:
                document = header(fields)
                letters = letters_of(document)
            elif fields[0] not in letters:
                raise ValueError(line)
            elif fields[0] == "z":
                take_set(document, fields[1:])
            elif "\n" in line:
                document.dual_lines.append(line)
            else:
                take(document, fields[0], list(map(int, fields[1:])))
        except (ValueError, KeyError, IndexError):
            first = line.partition("\n")[0]
            raise SolverError("invalid line in the document: %r" % first[:80]) from None
    if document is None:
        raise SolverError("no document found: %s" % what_is(text))
    return document
