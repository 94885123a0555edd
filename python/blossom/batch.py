"""Many graphs at once, over any executor of `concurrent.futures`: threads, processes, or machines
(as dask's `Client.get_executor()`).

`solve_many` solves many graphs, by threads, by `executor=` of `concurrent.futures` or dask, with
`progress=True` for a bar:

    import blossom

    graphs = [[("a", "b", 3), ("b", "c", weight)] for weight in range(5)]
    answers = blossom.solve_many("match", graphs, timeout=60)
    print([answer.weight for answer in answers])  # [3, 3, 3, 3, 4]
    found = blossom.solve_many("perfect", graphs, errors="return")
    print(type(found[0]).__name__)  # Infeasible
"""
from __future__ import annotations

import concurrent.futures
import contextlib
import functools
from typing import (Any, Callable, Dict, Generator, Iterable, Iterator, List, Literal, Optional,
                    Mapping, Sequence, Tuple, TypeVar, Union, overload)

from .answers import Answer, answer_of
from .arguments import refuse_timeout, refuse_unless
from .array_library import _Asked
from .bounds import Bound
from .deprecated import old_keywords
from .errors import ArgumentError, BlossomError
from .graphs import USUAL_CAPACITY, USUAL_WEIGHT, Graph
from .instances import Degrees, Instance
from .kinds import Kind
from .library import Library
from .process import Running
from .processors import processors
from .running import Engine, Runner, _Came, chosen, runner, solved
from .solving import instance_of
from .tables import Node, Table
from .weights import Rounding, Scale
from .wording import wanted

Progress = Union[None, bool, Callable[[int, int], None]]
Errors = Literal["raise", "return"]
#: What a run came to: its status and the document, or an error of this package.
Run = Union[_Came, BlossomError]
#: What runs came to, as they end, each with the place of its text.
Ended = Generator[Tuple[int, Run], None, None]
Future = concurrent.futures.Future
Given = TypeVar("Given")
Found = TypeVar("Found")
#: A graph of so few edges is answered by the library before another thread has begun with it.
SMALL = 100


def run_text(by: Runner, task: str, kind: str, text: bytes,
             timeout: Optional[float]) -> Tuple[int, bytes]:
    """One run, as it goes to an executor: only bytes, numbers and paths go there and come back."""
    return by.run(task, kind, text, timeout)


def came_to(run: Callable[[], _Came]) -> Run:
    """What a run came to."""
    try:
        return run()
    except BlossomError as error:
        return error


def awaited(waiting: Dict[Future[_Came], int]) -> Ended:
    """What runs came to, as they end, each with its place. What isn't begun when the caller wants
    no more is cancelled."""
    try:
        for future in concurrent.futures.as_completed(waiting):
            yield waiting[future], came_to(future.result)
    finally:
        for future in waiting:
            future.cancel()


@contextlib.contextmanager
def threads(by: Runner, jobs: int) -> Iterator[Callable[..., Future[_Came]]]:
    """What hands runs to threads of their own, if there are any; what runs when an error ends it is
    stopped."""
    running = Running()
    workers = min(processors(), max(jobs, 1))
    with concurrent.futures.ThreadPoolExecutor(workers) as own:
        try:
            yield lambda *job: own.submit(functools.partial(solved, by, running=running), *job)
        except BaseException:
            running.stop()
            raise


def runs(by: Runner, task: str, asked: Sequence[_Asked], timeout: Optional[float] = None,
         executor: Optional[concurrent.futures.Executor] = None) -> Ended:
    """What a run on each of these came to, with its place, as they end. Without an executor a
    single run, and a small one by the library, are this thread's."""
    if executor is not None:
        yield from awaited({executor.submit(run_text, by, task, one.kind, one.text, timeout): place
                            for place, one in enumerate(asked)})
        return
    apart = [place for place, one in enumerate(asked)
             if len(one._numbers.first) > SMALL
             or not isinstance(chosen(by, len(one._numbers.first), timeout), Library)]
    if len(apart) < 2:
        for place, one in enumerate(asked):
            yield place, came_to(functools.partial(solved, by, task, one, timeout))
        return
    with threads(by, len(apart)) as submit:
        waiting = {submit(task, asked[place], timeout): place for place in apart}
        for place in sorted(set(range(len(asked))).difference(apart)):
            yield place, came_to(functools.partial(solved, by, task, asked[place], timeout))
        yield from awaited(waiting)


def mapped(call: Callable[[Given], Found], given: Sequence[Given], apart: bool) -> List[Found]:
    """What a call of the library comes to for each of these: in threads where they are to be apart
    and are several. What isn't begun when an error ends it is cancelled."""
    if not apart or len(given) < 2:
        return list(map(call, given))
    workers = min(processors(), len(given))
    with concurrent.futures.ThreadPoolExecutor(workers) as own:
        return list(own.map(call, given))


def prepared(graph: Any, kind: Kind, how: Dict[str, Any],
             errors: Errors) -> Union[Instance, BlossomError]:
    """The instance of a graph, or the error that making it is, where errors are to be returned."""
    try:
        return instance_of(graph, kind, {} if isinstance(graph, Instance) else how)
    except BlossomError as error:
        if errors == "raise":
            raise
        return error


def outcome(instance: Instance, run: Run, by: Runner,
            errors: Errors) -> Union[Answer, BlossomError]:
    """The answer that a run came to, or its error, where errors are to be returned."""
    try:
        if isinstance(run, BlossomError):
            raise run
        return answer_of(instance, *run, by)
    except BlossomError as error:
        if errors == "raise":
            raise
        return error


def refuse_one_graph(graphs: Any) -> None:
    """TypeError: these are no graphs, but one."""
    is_one = (isinstance(graphs, (str, bytes, Mapping, Instance, Table))
              or hasattr(graphs, "is_directed") or not hasattr(graphs, "__iter__"))
    if is_one or hasattr(graphs, "iloc") or hasattr(graphs, "dtype"):
        raise TypeError("graphs must be an iterable of graphs, got one %s: pass [graph]"
                        % type(graphs).__name__)


@contextlib.contextmanager
def reporter(progress: Progress, total: int,
             unit: str = "graph") -> Iterator[Callable[[int], None]]:
    """What is called with the number of graphs, or of another unit, that are done."""
    if progress is True:
        with wanted("tqdm", "progress bars").tqdm(total=total, unit=unit) as bar:
            yield lambda done: bar.update(done - bar.n) and None
    elif callable(progress):
        call = progress
        yield lambda done: call(done, total)
    else:
        yield lambda done: None


@overload
def solve_many(kind: Kind, graphs: Iterable[Union[Graph, Instance]], *,
               errors: Literal["raise"] = "raise",
               executor: Optional[concurrent.futures.Executor] = None, progress: Progress = None,
               certificate: bool = True, engine: Engine = "auto", program: Optional[str] = None,
               timeout: Optional[float] = None, nodes: Iterable[Node] = (),
               weight: Optional[str] = USUAL_WEIGHT, capacity: Optional[str] = USUAL_CAPACITY,
               degrees: Degrees = None, terminals: Optional[Iterable[Node]] = None,
               source: Optional[Node] = None, target: Optional[Node] = None, lower: Bound = None,
               upper: Bound = None, default_capacity: Optional[int] = None, scale: Scale = 1,
               rounding: Rounding = None) -> List[Answer]: ...


@overload
def solve_many(kind: Kind, graphs: Iterable[Union[Graph, Instance]], *,
               errors: Literal["return"],
               executor: Optional[concurrent.futures.Executor] = None, progress: Progress = None,
               certificate: bool = True, engine: Engine = "auto", program: Optional[str] = None,
               timeout: Optional[float] = None, nodes: Iterable[Node] = (),
               weight: Optional[str] = USUAL_WEIGHT, capacity: Optional[str] = USUAL_CAPACITY,
               degrees: Degrees = None, terminals: Optional[Iterable[Node]] = None,
               source: Optional[Node] = None, target: Optional[Node] = None, lower: Bound = None,
               upper: Bound = None, default_capacity: Optional[int] = None, scale: Scale = 1,
               rounding: Rounding = None) -> List[Union[Answer, BlossomError]]: ...


@old_keywords("via", "brief", "values")
def solve_many(kind: Kind, graphs: Iterable[Any], *, errors: Errors = "raise",
               executor: Optional[concurrent.futures.Executor] = None, progress: Progress = None,
               certificate: bool = True, engine: Engine = "auto", program: Optional[str] = None,
               timeout: Optional[float] = None, **how: Any) -> Any:
    """Solve many graphs for one kind.

    Parameters
    ----------
    kind : str
        One of `blossom.KINDS`.
    graphs : iterable of graphs or Instances
        Each in any of the forms that `solve` takes. An `Instance` keeps its own arguments.
    errors : "raise" or "return"
        Whether to raise the first error, or to return each error of this package in place of its
        answer. If an error is raised, processes that still run are stopped; other calls are waited
        for or left.
    executor : concurrent.futures.Executor
        What runs the calls, on other machines too if they have the package and the program. By
        default each processor has a thread; small calls of the library, and a single call, run in
        the thread of the caller.
    progress : bool or callable
        True for a bar by tqdm, or a function of (done, total).
    certificate, program
        See `solve`.
    engine : "auto", "process", "library", Process or Library
        See `solve`; "auto" chooses for each graph.
    timeout : float
        Seconds for each graph.
    **how
        The other arguments of `solve`, for all graphs that aren't an `Instance`.

    Returns
    -------
    list
        The answers, in the order of the graphs.

    Raises
    ------
    Infeasible, NegativeCycle, GraphError, WeightError, LimitExceeded, TimeLimit, SolverError
        With `errors="raise"`: see `solve`.

    Examples
    --------
    >>> graphs = [[("a", "b", 1)], [("a", "b", 1), ("b", "c", 1)]]
    >>> found = blossom.solve_many("perfect", graphs, errors="return")
    >>> found[0].weight, type(found[1]).__name__
    (1, 'Infeasible')
    """
    if errors not in ("raise", "return"):
        raise ArgumentError("errors must be 'raise' or 'return', got %r" % (errors,))
    refuse_one_graph(graphs)
    refuse_timeout(timeout)
    refuse_unless(executor is None or hasattr(executor, "submit"), "executor",
                  "an executor of concurrent.futures", executor)
    by, task = runner(engine, program), "solve" if certificate else "brief"
    results: List[Any] = [prepared(graph, kind, how, errors) for graph in graphs]
    places = [place for place, one in enumerate(results) if isinstance(one, Instance)]
    ended = runs(by, task, [results[place] for place in places], timeout, executor)
    with contextlib.closing(ended), reporter(progress, len(results)) as report:
        for done, (number, run) in enumerate(ended, 1 + len(results) - len(places)):
            place = places[number]
            results[place] = outcome(results[place], run, by, errors)
            report(done)
    return results
