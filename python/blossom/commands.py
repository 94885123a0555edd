"""The commands of the package: `python -m blossom solve` from a file of a graph to a file of an
answer, and `python -m blossom convert` between files of graphs and the program's texts.

`python -m blossom solve FILE --kind KIND` solves a graph of a file and writes CSV or GraphML with
its columns. `--picture` draws it, `--certificate` writes the proof, `--check` has it checked.
`python -m blossom convert` goes by the program's own texts:

    python -m blossom convert examples/streets.csv --kind postman -o streets.dimacs
    ./blossom solve postman < streets.dimacs > tour.txt
    python -m blossom convert examples/streets.csv --kind postman --answer tour.txt -o tour.csv

Both read CSV (columns `u`, `v` or `from`, `to` or `source`, `target`, then `weight`, `capacity`,
`key` and others), edge lists (`u v weight capacity`), GraphML and DIMACS files. Options are the
arguments of the calls; `--help` lists them. Degrees and bounds may stand in the file: node data
`value`, `lower` and `upper` in GraphML, `n` lines in DIMACS files.

`--answer` puts an answer on a graph only if it is feasible there and has the weight that it states.
What `convert` and `certificate.write` write begins with a checksum of the instance, which is
compared too.
"""
from __future__ import annotations

import argparse
import contextlib
import os
import sys
from fractions import Fraction
from typing import IO, Any, Dict, Iterator, List, Optional, Union

from .answers import Answer, Verdict
from .certificates import Certificate
from .checkout import checkout
from .dense.metrics import METRICS
from .drawing import format_of_picture
from .errors import BlossomError, GraphError, NoOptimum, SolverError
from .fitting import fitted
from .formats import FORMATS, format_of, read, write_answer, write_instance
from .formats.points import read_points
from .formats.reading import ENDINGS, Format, text_of
from .formats.writing import ANSWER_FORMATS
from .graphs import USUAL_CAPACITY, USUAL_WEIGHT
from .instances import Instance
from .kinds import KINDS
from .process import find_program
from .solving import chinese_postman, max_weight_matching, min_weight_perfect_matching, solve
from .tables import Table
from .wording import command_line, shown

SOLVE_EXAMPLES = """examples:
  python -m blossom solve streets.csv --kind postman -o tour.csv --picture tour.svg
  python -m blossom solve pairs.edges --kind match
  python -m blossom solve pairs.edges --kind gallai --picture sets.svg
  python -m blossom solve roads.csv --kind path --source A --target B --weight length --scale 1000
  python -m blossom solve shifts.csv --kind interval --lower 1 --upper Ann=3,Bob=2 \
      --default-capacity 1
  python -m blossom solve points.csv --points x,y -o pairs.csv --picture pairs.svg
"""
CONVERT_EXAMPLES = """examples:
  python -m blossom convert streets.csv --kind postman -o streets.dimacs
  blossom solve postman < streets.dimacs > tour.txt
  python -m blossom convert streets.csv --kind postman --answer tour.txt -o tour.csv
"""
#: What each command does besides reading a graph.
EPILOG = ("`python -m blossom solve --help` says more. The program `blossom` is another command, over"
          " graphs in numbers from standard input: `blossom solve KIND [--brief]`, `blossom check"
          " KIND` and `blossom trial KIND START N M`; see `man blossom`.")
DOES = {"solve": "Reads a graph from a file, and writes the optimal solution: CSV or GraphML.",
        "convert": "Writes a graph as the program reads it; or, with --answer, what the program"
                   " wrote for that as CSV or GraphML."}


class OldOption(argparse.Action):
    """An option of release 1.0.0 by its old name: it still works, and a line says the new one."""

    def __call__(self, parser: argparse.ArgumentParser, given: argparse.Namespace, value: Any,
                 option: Optional[str] = None) -> None:
        print("%s is deprecated: use --%s" % (option, self.dest), file=sys.stderr)
        setattr(given, self.dest, value)


def parser() -> argparse.ArgumentParser:
    """What the words are."""
    about = (__doc__ or "").split("\n\n")[0]
    words = argparse.ArgumentParser(prog="python -m blossom", description=about, epilog=EPILOG)
    words.add_argument("--version", action="version", version="blossom " + version())
    commands = words.add_subparsers(dest="command", metavar="COMMAND", required=True)
    for name, examples in (("solve", SOLVE_EXAMPLES), ("convert", CONVERT_EXAMPLES)):
        one = commands.add_parser(name, help=DOES[name], description=DOES[name], epilog=examples,
                                  formatter_class=argparse.RawDescriptionHelpFormatter)
        add_graph_words(one, name)
        add_output_words(one, name)
    return words


def version() -> str:
    """The version of the package."""
    from . import __version__

    return __version__


def add_graph_words(words: argparse.ArgumentParser, command: str) -> None:
    """The words that say what the graph is, and what of it is asked."""
    add = words.add_argument
    add("graph", help="a file with a graph (- is standard input)")
    add("--kind", choices=KINDS, default="perfect", help="the kind of problem (perfect)")
    add("--from", dest="format", choices=FORMATS,
        help="the format of the graph; without it, what the file's name says")
    add("--weight", metavar="NAME",
        help="the column of weights, which has to be there; without it `weight`, where there is"
             " one; '' counts each edge as 1")
    add("--capacity", metavar="NAME", help="the column of capacities; without it `capacity`")
    add("--scale",
        help="what weights are multiplied by, or finest; 1 if nothing is said, and for Euclidean"
             " distances a power of ten")
    add("--rounding", choices=["nearest"], help="rounds weights that aren't whole then")
    add("--terminals", metavar="A,B,..",
        help="for tjoin: the nodes that are met an odd number of times")
    add("--degrees", metavar="A=2,..",
        help="for bmatch, capmatch, ffactor: the degrees of nodes; 1 for other nodes")
    add("--values", dest="degrees", action=OldOption, help=argparse.SUPPRESS)
    add("--source", help="for path, oddpath, evenpath: where it starts")
    add("--target", help="for path, oddpath, evenpath: where it ends")
    if command == "solve":
        add("--start", help="for postman: where the tour starts and ends")
        add("--required", metavar="NAME",
            help="for postman: the column that is true of the edges that the tour has to use")
    add("--lower", metavar="A=1,..",
        help="for interval: how often nodes are met at least, or a number for all; 0 where nothing"
             " is said")
    add("--upper", metavar="A=2,..",
        help="for interval: how often nodes are met at most, or a number for all; where nothing is"
             " said, as often as their edges allow")
    add("--default-capacity", type=int, metavar="NUMBER",
        help="for capmatch, interval: how often an edge without a capacity is used at most; any"
             " number of times where nothing is said")


def add_output_words(words: argparse.ArgumentParser, command: str) -> None:
    """The words that say what is written."""
    add = words.add_argument
    add("-o", "--output", default="-", help="where to write (- is standard output, the default)")
    add("--to", choices=ANSWER_FORMATS,
        help="the format of the answer; without it, what the output's name says, or csv")
    if command == "convert":
        add("--answer", metavar="FILE",
            help="what `blossom solve KIND` wrote for this graph: written as CSV or GraphML")
        return
    add("--points", metavar="X,Y",
        help="the file is a CSV of points with these two or three columns of coordinates, and names"
             " in a column node, name or id: all pairs are edges (for perfect, match)")
    add("--metric", choices=METRICS, default="euclidean", help="the distance of points (euclidean)")
    add("--picture", metavar="FILE", help="draws the answer besides: .svg, .png or .pdf")
    add("--certificate", metavar="FILE",
        help="writes instance and document besides, as `blossom check KIND` reads them")
    add("--check", action="store_true", help="has the proved checker judge the answer besides")
    add("--timeout", type=float, metavar="SECONDS", help="ends the solver after so many seconds")
    add("--program", metavar="FILE", help="the program; without it, see docs/PYTHON.md")


def node_named(table: Table, name: str) -> Any:
    """The node of that name: nodes of files are texts, but those of DIMACS files numbers."""
    return next((node for node in table.nodes if str(node) == name), name)


def values_in(table: Table, word: str, text: str) -> Dict[Any, int]:
    """The values of a list such as `A=2,B=3`. GraphError: an entry is none."""
    found: Dict[Any, int] = {}
    for entry in filter(None, text.split(",")):
        name, equal, value = entry.rpartition("=")
        if not equal or not value.strip().isdecimal():
            number = " or a number for all" if word in ("lower", "upper") else ""
            raise GraphError("invalid entry in --%s: %r; expected NODE=NUMBER%s"
                             % (word, entry, number))
        found[node_named(table, name)] = int(value)
    return found


def bound_in(table: Table, word: str, text: str) -> Union[int, Dict[Any, int]]:
    """A bound for all nodes; or those of a list, and of the file for other nodes. GraphError: see
    `values_in`."""
    if text.strip().isdecimal():
        return int(text)
    return {**(table.lower if word == "lower" else table.upper), **values_in(table, word, text)}


def words_of(table: Table, given: argparse.Namespace) -> Dict[str, Any]:
    """The words of `blossom.instance` that were given."""
    how: Dict[str, Any] = {"scale": given.scale or "1", "rounding": given.rounding,
                           "default_capacity": given.default_capacity}
    if given.terminals is not None:
        names = [name for name in given.terminals.split(",") if name]
        how["terminals"] = [node_named(table, name) for name in names]
    elif given.kind == "tjoin" and not table.values and is_dimacs(given):
        how["terminals"] = []  # (there a vertex without a line isn't a terminal)
    if given.degrees is not None:
        how["degrees"] = {**table.values, **values_in(table, "degrees", given.degrees)}
    for bound in ("lower", "upper"):
        if getattr(given, bound) is not None:
            how[bound] = bound_in(table, bound, getattr(given, bound))
    for end in ("source", "target"):
        if getattr(given, end) is not None:
            how[end] = node_named(table, getattr(given, end))
    return how


def instance_in(given: argparse.Namespace) -> Instance:
    """The instance of the graph that was given."""
    source = sys.stdin if given.graph == "-" else given.graph
    format: Optional[Format] = given.format or (None if given.graph != "-" else "csv")
    weight = USUAL_WEIGHT if given.weight is None else given.weight or None
    capacity = USUAL_CAPACITY if given.capacity is None else given.capacity or None
    table = read(source, format, weight=weight, capacity=capacity)
    return Instance.from_graph(table, given.kind, weight=USUAL_WEIGHT if weight else None,
                               **words_of(table, given))


def is_dimacs(given: argparse.Namespace) -> bool:
    """Whether the graph is a DIMACS file."""
    format: str = given.format or (format_of(given.graph) if given.graph != "-" else "csv")
    return format == "dimacs"


@contextlib.contextmanager
def output(path: str) -> Iterator[IO[bytes]]:
    """The file to write, or standard output. A file that isn't written whole isn't left there."""
    if path == "-":
        yield sys.stdout.buffer
        return
    with open(path, "wb") as file:
        yield file


def format_for(given: argparse.Namespace) -> str:
    """The format that the answer is written in. GraphError: the output's name says none that
    answers are written in."""
    if given.to is not None:
        return str(given.to)
    if given.output == "-":
        return "csv"
    if os.path.splitext(given.output)[1].lower() not in ENDINGS:
        raise cannot_write(given.output)
    chosen = format_of(given.output)
    if chosen not in ANSWER_FORMATS:
        raise cannot_write(given.output)
    return chosen


def cannot_write(path: str) -> GraphError:
    """The error of a format that answers aren't written in."""
    return GraphError("cannot write an answer as %r: use %s, or pass --to"
                      % (path, " or ".join("." + one for one in ANSWER_FORMATS)))


def convert(given: argparse.Namespace) -> None:
    """Writes the instance, or the answer that is given."""
    of = instance_in(given)
    if given.answer is None:
        with output(given.output) as file:
            write_instance(of, file)
        return
    format = format_for(given)
    with open(given.answer, "rb") as file:
        answer = fitted(of, file.read())
    judge(answer, given.answer)
    with output(given.output) as file:
        write_answer(answer, file, format)


def solved(of: Instance, given: argparse.Namespace) -> Answer:
    """The answer of an instance; for a tour from a start, or along required edges."""
    for name in ("start", "required"):
        if getattr(given, name) is not None and of.kind != "postman":
            raise GraphError("--%s applies only to --kind postman, got %s" % (name, of.kind))
    if of.kind != "postman":
        return solve(of, of.kind, engine="process", timeout=given.timeout, program=given.program)
    start = None if given.start is None else node_named(of.table, given.start)
    return chinese_postman(of, start=start, required=given.required, engine="process",
                           timeout=given.timeout, program=given.program)


def judge(answer: Answer, name: str) -> None:
    """Has the checker judge an answer of a file, if it can. GraphError: it rejects the answer,
    which isn't optimal for this graph."""
    if not answer.certificate.document.is_whole():
        print("not judged: %s has no certificate" % name, file=sys.stderr)
        return
    if not program_exists():
        print("not judged: the program isn't built", file=sys.stderr)
        return
    verdict = answer.check(engine="process")
    if not verdict:
        raise GraphError("%s has no optimal answer for this graph: the checker rejected it, rule %s"
                         " at line %s" % (name, verdict.rule, verdict.line))


def program_exists() -> bool:
    """Whether the program can run at once: the launcher of a checkout would build it first."""
    try:
        found = find_program()
    except SolverError:
        return False
    top = checkout()
    return top is None or os.path.abspath(found) != os.path.join(os.path.abspath(top), "blossom")


def of_points(given: argparse.Namespace) -> Answer:
    """The answer of points. GraphError: the kind takes none."""
    if given.kind not in ("perfect", "match"):
        raise GraphError("--points applies only to --kind perfect and match, got %s" % given.kind)
    text = text_of(sys.stdin if given.graph == "-" else given.graph)
    names, points = read_points(text, [name.strip() for name in given.points.split(",")])
    how: Dict[str, Any] = {"points": points, "nodes": names, "metric": given.metric,
                           "scale": given.scale, "rounding": given.rounding, "engine": "process",
                           "timeout": given.timeout, "program": given.program}
    if given.kind == "perfect":
        return min_weight_perfect_matching(**how)
    return max_weight_matching(**how)


def find(given: argparse.Namespace) -> None:
    """Solves, and writes what was asked for."""
    format = format_for(given)
    if given.picture is not None:
        format_of_picture(given.picture)
    try:
        answer = solved(instance_in(given), given) if given.points is None else of_points(given)
    except NoOptimum as error:
        write_beside(error.certificate, given)
        raise
    with output(given.output) as file:
        write_answer(answer, file, format)
    write_beside(answer, given)
    if given.check:
        refuse_unproved(answer.check(program=given.program, timeout=given.timeout))
    accepted = ", accepted by the checker" if given.check else ""
    print("%s: weight %s%s" % (given.kind, weight_told(answer), accepted), file=sys.stderr)
    sets = answer.decomposition
    for name, found in () if sets is None else sets._asdict().items():
        print("%s: %s" % (name, ", ".join(map(str, found)) or "empty"), file=sys.stderr)


def write_beside(found: Union[Answer, Certificate], given: argparse.Namespace) -> None:
    """Writes the picture and the certificate that were asked for, of an answer or of what proves
    that there is none."""
    if given.picture is not None:
        found.draw(file=given.picture)
    if given.certificate is not None:
        of = found.certificate if isinstance(found, Answer) else found
        of.write(given.certificate)


def weight_told(answer: Answer) -> str:
    """The weight of an answer, and what its weights were rounded to."""
    if not answer.instance.is_rounded:
        return shown(answer.weight)
    return "%.12g (weights rounded to multiples of %s)" % (answer.weight,
                                                           step_told(answer.instance.scale))


def step_told(scale: Fraction) -> str:
    """What weights of this scale are multiples of, in words."""
    if scale.denominator == 1 and scale > 1 and bin(int(scale)).count("1") == 1:
        return "2^-%d" % (int(scale).bit_length() - 1)
    return shown(1 / scale)


def refuse_unproved(verdict: Verdict) -> None:
    """SolverError: the checker doesn't accept the answer."""
    if not verdict:
        raise SolverError("the checker rejected the answer: rule %s at line %s"
                          % (verdict.rule, verdict.line))


def main(words: Optional[List[str]] = None) -> int:
    """The commands: 0 where it is done; 1 where there is no optimal solution, or something isn't as
    it should be, which is said on standard error; 2 where the words are no command."""
    given = parser().parse_args(words)
    try:
        with command_line():
            (find if given.command == "solve" else convert)(given)
    except NoOptimum as error:
        print("no solution: %s" % error, file=sys.stderr)
        return 1
    except BrokenPipeError:
        os.dup2(os.open(os.devnull, os.O_WRONLY), 1)  # so that the end says nothing of it
        return 1
    except (BlossomError, OSError, ValueError, ImportError) as error:
        print("%s: %s" % (given.command, error), file=sys.stderr)
        return 1
    return 0
