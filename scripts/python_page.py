"""What docs/PYTHON.md says of the package: a guide made of the docstrings of modules, and a
reference made of those of all public names."""
import importlib
import inspect
import os
import re
import sys

from crate_groups import TOP

sys.path.insert(0, os.path.join(TOP, "python"))
#: The sections of the guide: a heading, and the module whose docstring has the section behind its
#: first paragraph.
GUIDE = (
    ("", "blossom"),
    ("## Graphs", "blossom.graphs"),
    ("## Weights", "blossom.weights"),
    ("## Degrees and bounds", "blossom.bounds"),
    ("## Answers", "blossom.answers"),
    ("## Errors", "blossom.errors"),
    ("## Certificates", "blossom.certificates"),
    ("## Engines", "blossom.running"),
    ("## Many graphs", "blossom.batch"),
    ("## Decoder", "blossom.decoder"),
    ("### Error models and shots of Stim", "blossom.detector_error_model"),
    ("## networkx", "blossom.networkx_backend"),
    ("## Pictures", "blossom.drawing"),
    ("### A picture that proves", "blossom.drawing.moats"),
    ("### A page that proves", "blossom.drawing.html"),
    ("## Files", "blossom.commands"),
)
#: The sections of the reference: a title, and the names in it.
SECTIONS = (
    (
        "Matchings",
        "min_weight_perfect_matching max_weight_matching min_weight_matching "
        "bottleneck_perfect_matching gallai_edmonds_decomposition assignment",
    ),
    (
        "Degrees and covers",
        "perfect_b_matching perfect_capacitated_b_matching f_factor degree_constrained_subgraph "
        "min_weight_edge_cover",
    ),
    ("Joins, tours and paths", "t_join chinese_postman shortest_path"),
    ("Any kind", "solve check is_optimal solve_many read draw"),
    (
        "Answers",
        "Answer Assignment Certificate GallaiEdmonds OddSet LaminarSet Judgement Verdict",
    ),
    ("Graphs as instances", "Instance Table"),
    ("Decoding", "Decoder"),
    ("Engines", "Process Library"),
    (
        "Exceptions",
        "BlossomError ArgumentError GraphError WeightError LimitExceeded NoOptimum Infeasible "
        "NegativeCycle SolverError TimeLimit RoundedWeightsWarning",
    ),
)
#: How the field of a named tuple is documented by Python: its class says what it is.
FIELD = "Alias for field number"


def package(name="blossom"):
    """A module of the checkout's package."""
    return importlib.import_module(name)


def guide_part():
    """The docstrings of modules without their first paragraph and without what doctest runs."""
    lines = []
    for heading, name in GUIDE:
        said = inspect.getdoc(package(name)).split("\nExamples\n---")[0]
        section = said.partition("\n\n")[2].strip("\n")
        if not section:
            raise ValueError("the docstring of %s has no section for the guide" % name)
        lines += [heading, ""] if heading else []
        lines += section.split("\n") + [""]
    return lines[:-1]


def signature(name, thing):
    """A call as it is written, with its defaults."""
    try:
        parameters = inspect.signature(thing).parameters.values()
    except (TypeError, ValueError):
        return name
    shown, starred = [], False
    for one in parameters:
        if one.name in ("self", "cls"):
            continue
        if one.kind is one.KEYWORD_ONLY and not starred:
            shown.append("*")
            starred = True
        default = "" if one.default is one.empty else "=%r" % (one.default,)
        stars = {one.VAR_POSITIONAL: "*", one.VAR_KEYWORD: "**"}.get(one.kind, "")
        shown.append(stars + one.name + default)
        starred = starred or one.kind is one.VAR_POSITIONAL
    return "%s(%s)" % (name, ", ".join(shown))


def described(docstring):
    """A docstring in numpy style as Markdown: its sections are lists, its examples code."""
    text, *parts = re.split(r"^(\w[\w ]*)\n-{3,}\n", docstring, flags=re.M)
    lines = [text.strip(), ""]
    for title, body in zip(parts[::2], parts[1::2]):
        lines += ["**%s**" % title, ""]
        if title == "Examples":
            lines += ["    " + line if line else "" for line in body.rstrip().splitlines()]
        else:
            lines += ["- " + item for item in items_of(body)]
        lines.append("")
    return lines


def items_of(body):
    """The entries of a section: each a name or type, with what is said of it behind a colon."""
    for item in re.split(r"(?<!,)\n(?=\S)", body.strip("\n")):
        head, *rest = re.sub(r",\n(?=\S)", ", ", item).split("\n")
        name, _, kind = head.partition(" : ")
        said = " ".join(line.strip() for line in rest).strip()
        yield "`%s`%s%s" % (name, " (%s)" % kind if kind else "", ": " + said if said else "")


def members(thing):
    """The public members of a class that have a docstring, by name."""
    for name, member in vars(thing).items():
        if name.startswith("_"):
            continue
        called = isinstance(member, (classmethod, staticmethod)) or inspect.isfunction(member)
        function = member.__func__ if isinstance(member, (classmethod, staticmethod)) else member
        text = inspect.getdoc(function) or ""
        plain = text.startswith(("Deprecated", FIELD)) or type(member).__module__ == "fractions"
        if text and not plain:
            yield signature(name, function) if called else name, text


def described_class(name, thing):
    """The members of a class, each with its whole docstring below a heading of its own."""
    for head, text in members(thing):
        yield from ["#### `%s.%s`" % (name, head), "", *described(text)]


def described_name(name):
    """A public name below its heading."""
    thing = getattr(package(), name)
    yield from ["### `%s`" % signature(name, thing), "", *described(inspect.getdoc(thing))]
    if inspect.isclass(thing) and not issubclass(thing, Exception):
        yield from described_class(name, thing)


def reference_part():
    """All public names by section."""
    there, lines = set(package().__all__) - {"KINDS", "vertices"}, []
    listed = {name for _, names in SECTIONS for name in names.split()}
    if listed != there:
        raise ValueError("names in no section of the reference, or gone: %s" % (listed ^ there))
    for title, names in SECTIONS:
        lines += ["## " + title, ""]
        lines += [line for name in names.split() for line in described_name(name)]
    return re.sub(r"\n{3,}", "\n\n", "\n".join(lines)).strip("\n").split("\n")
