"""The same call in this process: the shared object that `capi/build.sh` builds, by ctypes. It saves
the start of a process, some milliseconds a call, and gives up what a process gives: no call can be
stopped before its end."""
from __future__ import annotations

import contextlib
import ctypes
import functools
import mmap
import os
import threading
from dataclasses import dataclass
from typing import Any, Dict, Iterator, Optional, Tuple, Union

from .array_documents import ArrayDocument, copied
from .array_library import (ANSWER_TYPES, DOCUMENT_TYPES, DONE, INSTANCE_TYPES, JOIN_TYPES, _Asked,
                            most_of_joins, numbers_of_document, refusal, verdict_line)
from .buffers import Numbers, address, parameters
from .checkout import checkout, is_present, released, unpacked
from .documents import Document
from .errors import ArgumentError, SolverError
from .kinds import KINDS
from .prepared import Joins, PreparedCall, graph_words, joins_in

#: What capi/blossom.h calls BLOSSOM_ABI: the version of the call that is declared here.
ABI = 5
TASKS = {"solve": 1, "brief": 2, "check": 3}
KIND_NUMBERS: Dict[str, int] = {kind: number for number, kind in enumerate(KINDS, 1)}
BUFFER_TOO_SMALL = 9
INVALID_ARGUMENT = 10
#: A buffer of so many bytes holds each answer of most kinds: as text 8 MiB and a line, as numbers
#: some 200,000 of 8 bytes. Pages that no answer reaches cost address space alone.
BUFFER = 9 << 20
#: The same for kinds with longer answers. `gallai` has a path for each of 4,096 nodes, of at most
#: 4,094 edges: 128 MiB as text, and with the counts of all edges 16,850,000 numbers.
BUFFERS = {"gallai": 129 << 20}
PLACE = ("capi", "out", "libblossom.so")


def find_library(path: Optional[str] = None) -> str:
    """The path of the shared object: the argument, the environment variable BLOSSOM_LIBRARY, that
    of the release that this package is, what was built in the checkout of the present sources, or
    that of the release in dist/ if that is of these. SolverError: there is none."""
    named = path or os.environ.get("BLOSSOM_LIBRARY") or released("libblossom.so")
    if named:
        return os.fspath(named)
    top = checkout()
    if top is not None:
        built = os.path.join(top, *PLACE)
        if os.path.exists(built) and is_present(top, os.path.dirname(built), "library"):
            return built
        taken = unpacked(top, "libblossom.so")
        if taken is not None:
            return taken
        if os.path.exists(built):
            raise SolverError("%s is out of date: rebuild it with capi/build.sh" % built)
    raise SolverError("libblossom.so not found: build it with capi/build.sh, or set"
                      " $BLOSSOM_LIBRARY")


@functools.lru_cache(maxsize=None)
def loaded(path: str) -> ctypes.CDLL:
    """The library of this path, whose calls leave the interpreter's lock to other threads.
    SolverError: it can't be loaded, or declares another version of the call."""
    try:
        library = ctypes.CDLL(path)
        library.blossom_abi.restype = ctypes.c_uint32
        library.blossom_abi.argtypes = []
        library.blossom_call.restype = ctypes.c_uint32
        version = library.blossom_abi()
        if version == ABI:
            library.blossom_solve_arrays, library.blossom_check_arrays
            library.blossom_join_arrays
    except (OSError, AttributeError) as error:
        raise SolverError("the library %s can't be used: %s" % (path, error)) from None
    if version != ABI:
        raise SolverError("%s has ABI version %d, but this package needs %d"
                          % (path, version, ABI))
    library.blossom_call.argtypes = [ctypes.c_uint32, ctypes.c_uint32, ctypes.c_char_p,
                                     ctypes.c_size_t, ctypes.c_void_p, ctypes.c_size_t,
                                     ctypes.POINTER(ctypes.c_size_t)]
    solve, check = library.blossom_solve_arrays, library.blossom_check_arrays
    join = library.blossom_join_arrays
    solve.restype = check.restype = join.restype = ctypes.c_uint32
    solve.argtypes = [ctypes.c_uint32, *INSTANCE_TYPES, *ANSWER_TYPES]
    join.argtypes = [*JOIN_TYPES, *ANSWER_TYPES]
    check.argtypes = [*INSTANCE_TYPES, *DOCUMENT_TYPES, *ANSWER_TYPES]
    return library


@functools.lru_cache(maxsize=None)
def found(path: Optional[str], environment: Optional[str]) -> ctypes.CDLL:
    """The library that `find_library` finds for these, looked for once. SolverError: see
    there."""
    return loaded(find_library(path))


class Buffer:
    """Memory for an answer, of so many bytes. SolverError: there isn't so much."""

    def __init__(self, size: int) -> None:
        try:
            # Private, so that the child of a fork has its own.
            self.memory = mmap.mmap(-1, size, flags=mmap.MAP_PRIVATE | mmap.MAP_ANONYMOUS)
        except OSError as error:
            raise SolverError("out of memory: a buffer of %d bytes for the answer: %s"
                                % (size, error)) from None
        self.size = size
        self.address = ctypes.addressof(ctypes.c_ubyte.from_buffer(self.memory))
        self.numbers = memoryview(self.memory).cast("q")
        self.used = ctypes.c_size_t()
        self.used_at = ctypes.byref(self.used)

    def give_back(self) -> None:
        """Gives the pages of a large buffer back to the system."""
        if self.size > BUFFER:
            self.memory.madvise(mmap.MADV_DONTNEED)


class Buffers(threading.local):
    """The buffers of a thread, by their sizes, so that no two calls that run share one."""

    def __init__(self) -> None:
        self.of_size: Dict[int, Buffer] = {}

    @contextlib.contextmanager
    def lent(self, kind: str) -> Iterator[Buffer]:
        """The buffer of this thread for an answer of the kind."""
        size = BUFFERS.get(kind, BUFFER)
        buffer = self.of_size.get(size) or self.of_size.setdefault(size, Buffer(size))
        try:
            yield buffer
        finally:
            buffer.give_back()


buffers = Buffers()


def most_sets(edges: int) -> int:
    """How many sets of terminals in a graph of so many edges have their joins in one buffer."""
    return (BUFFER // 8 - most_of_joins(0, edges)) // (3 + edges)


@dataclass(frozen=True)
class Library:
    """Calls the library in this process, which saves the start of a process for each call.

    Parameters
    ----------
    path : str
        The path of the shared object. By default it is looked for at the first call: the
        environment variable BLOSSOM_LIBRARY, then the release or checkout that the package belongs
        to.
    """

    path: Optional[str] = None

    def run(self, task: str, kind: str, text: bytes, timeout: Optional[float] = None,
            running: object = None) -> Tuple[int, bytes]:
        """Call the library once on a text.

        Parameters
        ----------
        task, kind, text
            See `Process.run`.
        timeout : None
            The library has no timeout.
        running : object
            Ignored.

        Returns
        -------
        tuple of int and bytes
            The exit status and the output of the program.

        Raises
        ------
        ArgumentError
            If a timeout is given, since a call in this process can't be stopped.
        SolverError
            If the library isn't found, or failed.
        """
        refuse_timeout(timeout)
        library = found(self.path, os.environ.get("BLOSSOM_LIBRARY"))
        with buffers.lent(kind) as own:
            status: int = library.blossom_call(TASKS[task], KIND_NUMBERS[kind], text, len(text),
                                               own.address, own.size, own.used_at)
            if status in (BUFFER_TOO_SMALL, INVALID_ARGUMENT):
                raise SolverError("libblossom failed with status %d on %d bytes"
                                  % (status, len(text)))
            return status, own.memory[:own.used.value]

    def solve(self, task: str, asked: _Asked, timeout: Optional[float] = None,
              running: object = None) -> Tuple[int, Union[bytes, Document]]:
        """Solve an instance over arrays, without a text.

        Parameters
        ----------
        task : "solve" or "brief"
            "brief" solves without a certificate.
        asked : Instance
            What to solve.
        timeout, running
            See `run`.

        Returns
        -------
        tuple of int and Document or bytes
            The exit status, and the document; with a status other than 0 the line that the program
            prints.

        Raises
        ------
        ArgumentError, SolverError
            See `run`.
        """
        refuse_timeout(timeout)
        library = found(self.path, os.environ.get("BLOSSOM_LIBRARY"))
        given = asked._numbers  # (which lives until the call has ended)
        with buffers.lent(asked.kind) as own:
            status: int = library.blossom_solve_arrays(
                TASKS[task], *parameters(KIND_NUMBERS[asked.kind], given), own.address,
                len(own.numbers), own.used_at)
            if status in (BUFFER_TOO_SMALL, INVALID_ARGUMENT):
                raise SolverError("libblossom failed with status %d on %d edges"
                                  % (status, len(given.first)))
            numbers = own.numbers[:own.used.value]
            if status != DONE:
                return status, refusal(status, numbers)
            return status, ArrayDocument(asked.kind, copied(numbers), task == "brief")

    def _prepared(self, numbers: Numbers) -> PreparedCall:
        """What finds the join of one set of terminals after the other in this graph. SolverError:
        see `run`."""
        library = found(self.path, os.environ.get("BLOSSOM_LIBRARY"))
        return PreparedCall(library.blossom_join_arrays, numbers)

    def _joins(self, numbers: Numbers, starts: Any, terminals: Any) -> Optional[Joins]:
        """The joins of sets of terminals, at most `most_sets` of them. None: there was no answer,
        as for lack of memory. SolverError: see `run`."""
        library = found(self.path, os.environ.get("BLOSSOM_LIBRARY"))
        with buffers.lent("tjoin") as own:
            status: int = library.blossom_join_arrays(
                *graph_words(numbers), *address(starts), *address(terminals), own.address,
                len(own.numbers), own.used_at)
            if status != DONE:
                return None
            return joins_in(own.numbers[:own.used.value], len(starts) - 1)

    def judge(self, asked: _Asked, document: Document,
              timeout: Optional[float] = None) -> Tuple[int, bytes]:
        """Check a document over arrays, without a text.

        Parameters
        ----------
        asked : Instance
            The instance.
        document : Document
            What to check.
        timeout : None
            See `run`.

        Returns
        -------
        tuple of int and bytes
            The exit status and the verdict, which names a rule and the line 0.

        Raises
        ------
        ArgumentError, SolverError
            See `run`.
        """
        refuse_timeout(timeout)
        library = found(self.path, os.environ.get("BLOSSOM_LIBRARY"))
        given, told = asked._numbers, numbers_of_document(document, len(asked._numbers.first))
        with buffers.lent("a verdict") as own:
            status: int = library.blossom_check_arrays(
                *parameters(KIND_NUMBERS[asked.kind], given), *address(told), own.address,
                len(own.numbers), own.used_at)
            if status in (BUFFER_TOO_SMALL, INVALID_ARGUMENT):
                raise SolverError("libblossom failed with status %d on %d edges"
                                  % (status, len(given.first)))
            return status, verdict_line(status, own.numbers[:own.used.value])


def refuse_timeout(timeout: Optional[float]) -> None:
    """ArgumentError: there is a timeout."""
    if timeout is not None:
        raise ArgumentError("timeout= needs engine='process': in-process calls cannot be"
                            " interrupted")
