"""What runs the solver and the checker: a process, or the library in this process.

`engine="auto"` calls the library in this process if it is found, there is no `timeout=`, and the
graph has at most 4,096 edges; otherwise it starts a process. `answer.check()` follows the same
rule. A document from elsewhere is checked by a process, since a hostile one can take hours.

- `engine="process"`: `timeout=` and Ctrl-C stop it at once. The program is looked up in `program=`,
  the environment variable `BLOSSOM`, the installed wheel or package, the checkout, and `PATH`.
- `engine="library"`: a small call takes a tenth of a millisecond; Ctrl-C takes effect when it has
  ended. `libblossom.so` is that of the wheel or package, `capi/out/libblossom.so` of the checkout,
  or what `BLOSSOM_LIBRARY` names. Verdicts have a rule but no line.
- `blossom.Process(path)`, `blossom.Library(path)`, or any object with their `run`.

`certificate=False` leaves out what proves an answer.
"""
from __future__ import annotations

import functools
import os
from dataclasses import dataclass
from typing import Any, Literal, Optional, Protocol, Tuple, Union

from .array_library import _Asked
from .buffers import Numbers
from .documents import Document
from .errors import ArgumentError, SolverError
from .library import Library, found
from .prepared import PreparedCalls
from .process import Process


class Runner(Protocol):
    """What runs the program."""

    def run(self, task: str, kind: str, text: bytes, timeout: Optional[float] = None,
            running: Any = None) -> Tuple[int, bytes]:
        """See `Process.run`."""
        ...


Engine = Union[Literal["auto", "process", "library"], Runner]
#: The library answers graphs of at most so many edges if nobody says which engine to take.
FEW_EDGES = 4_096
#: The status of a run, and the document, as text or as numbers.
_Came = Tuple[int, Union[bytes, Document]]


def is_library_there() -> bool:
    """Whether the library is found and can be called. SolverError: the environment names one that
    can't."""
    named = os.environ.get("BLOSSOM_LIBRARY")
    try:
        found(None, named)
    except SolverError:
        if named:
            raise
        return False
    return True


@dataclass(frozen=True)
class Auto:
    """The library for a call that ends soon, else a process: see above."""

    def chosen(self, edges: int, timeout: Optional[float]) -> Runner:
        """What runs a call on a graph of so many edges."""
        if timeout is None and edges <= FEW_EDGES and is_library_there():
            return Library()
        return Process()

    def run(self, task: str, kind: str, text: bytes, timeout: Optional[float] = None,
            running: Any = None) -> Tuple[int, bytes]:
        """See `Process.run`. What is checked as a text may come from anywhere."""
        by = Process() if task == "check" else self.chosen(text.count(b"\ne "), timeout)
        return by.run(task, kind, text, timeout, running)


def chosen(by: Runner, edges: int, timeout: Optional[float]) -> Runner:
    """What runs a call on a graph of so many edges: `by`, unless that is still to be chosen."""
    return by.chosen(edges, timeout) if isinstance(by, Auto) else by


def solved(by: Runner, task: str, asked: _Asked, timeout: Optional[float] = None,
           running: Any = None) -> _Came:
    """What a run of "solve" or "brief" comes to: over arrays where `by` takes them (`Library`),
    else by text."""
    if isinstance(by, Auto):
        by = by.chosen(len(asked._numbers.first), timeout)
    if hasattr(by, "solve"):
        came: _Came = by.solve(task, asked, timeout, running)
        return came
    return by.run(task, asked.kind, asked.text, timeout, running)


def _prepared(by: Runner, numbers: Numbers, timeout: Optional[float]) -> Optional[PreparedCalls]:
    """Calls for joins in this graph, where `by` makes them (`Library`) and none is to be
    stopped."""
    if timeout is not None or not (hasattr(by, "_prepared") and hasattr(by, "_joins")):
        return None
    return PreparedCalls(functools.partial(by._prepared, numbers),
                         functools.partial(by._joins, numbers))


def runner(engine: Engine = "auto", program: Optional[str] = None) -> Runner:
    """What runs the program. engine: "auto", "process", "library", or something made by `Process`
    or `Library`. program: the path of the program, or of the shared object. ArgumentError: engine
    is none of these."""
    if engine == "auto" and program is None:
        return Auto()
    if engine in ("auto", "process"):
        return Process(program)
    if engine == "library":
        return Library(program)
    if not isinstance(engine, str) and hasattr(engine, "run"):
        return engine
    raise ArgumentError("engine must be 'auto', 'process' or 'library', got %r" % (engine,))


def runner_again(before: Optional[Runner], engine: Optional[Engine],
                 program: Optional[str]) -> Runner:
    """What runs the program on something that `before` ran it on: that again, unless the caller
    says another way; a process for what came from elsewhere."""
    if engine is None and program is None and before is not None:
        return before
    return runner("process" if engine is None else engine, program)
