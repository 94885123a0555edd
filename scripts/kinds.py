#!/usr/bin/env python3
"""The table of kinds outside the crates: reads crates/mb_problem/src/kind.rt, and writes what other
languages and pages say of the kinds: tuples of the Python package and of the tests, the enum of
the C header, the tables of README.md, docs/FORMAT.md and the tarball's page, the man page and the
completions of shells.

Usage: kinds.py [--check]. Without --check it writes the generated parts anew; with it, it lists the
files that differ and ends with status 1 if there are any."""
import argparse
import os
import re
import sys

TOP = os.path.join(os.path.dirname(os.path.abspath(__file__)), "..")
SOURCE = "crates/mb_problem/src/kind.rt"
#: The head of a method whose body is one match by kind.
METHOD = re.compile(r"pub fn (\w+)\(self\)(?:(?! fn )[^;])*?\n    \{\s*match self (?=\{)")

#: What users read of each kind: the problem, and the call of the Python package that solves it.
TEXTS = {
    "perfect": ("minimum-weight perfect matching", "min_weight_perfect_matching(G)"),
    "match": ("maximum-weight matching", "max_weight_matching(G)"),
    "bmatch": ("minimum-weight perfect b-matching", "perfect_b_matching(G, degrees)"),
    "capmatch": ("the same with edge capacities", "perfect_capacitated_b_matching(G, degrees)"),
    "ffactor": ("the same with each edge at most once", "f_factor(G, degrees)"),
    "tjoin": ("minimum-weight T-join", "t_join(G, terminals)"),
    "postman": ("Chinese postman tour", "chinese_postman(G)"),
    "path": ("shortest path without negative cycles", "shortest_path(G, source, target)"),
    "interval": (
        "minimum weight within degree bounds",
        "degree_constrained_subgraph(G, lower, upper)",
    ),
    "oddpath": ("shortest path of odd length", 'shortest_path(.., parity="odd")'),
    "evenpath": ("shortest path of even length", 'shortest_path(.., parity="even")'),
    "bottleneck": (
        "perfect matching with the lightest heaviest edge",
        "bottleneck_perfect_matching(G)",
    ),
    "gallai": (
        "maximum matching, Gallai-Edmonds decomposition",
        "gallai_edmonds_decomposition(G)",
    ),
}
#: What docs/FORMAT.md says of each kind: which answers are feasible, and which of them are optimal
#: if these aren't those of minimum weight.
FEASIBLE = {
    "perfect": "each edge used at most once, degree 1 at each vertex",
    "match": "each edge used at most once, degree at most 1 at each vertex",
    "bmatch": "edges used any number of times, degree B at each vertex",
    "capmatch": "as `bmatch`, each edge used at most C times",
    "ffactor": "each edge used at most once, degree B at each vertex",
    "tjoin": "each edge used at most once, odd degree exactly at the vertices of T",
    "postman": "a closed walk that uses each edge at least once; the empty walk if there are no edges",
    "path": "a walk from the smaller to the larger vertex of T that visits no vertex twice",
    "interval": "each edge used at most C times, degree from LO to HI at each vertex",
    "oddpath": "as `path`, with an odd number of edges",
    "evenpath": "as `path`, with an even number of edges",
    "bottleneck": "as `perfect`",
    "gallai": "as `match`",
}
OPTIMAL = {
    "match": "maximum weight",
    "bottleneck": "minimum weight, which is that of its heaviest edge",
    "gallai": "maximum number of edges",
}
BEST = {
    "Duals": "duals",
    "LighterBarrier": "a barrier of the lighter edges",
    "OuterPaths": "alternating paths and a barrier",
}
NONE = {
    "Barrier": "a barrier",
    "OddPart": "a component with odd terminals",
    "SplitPart": "two components with edges",
    "Never": "always solvable",
}


def braces(text, start):
    """What stands in the braces that open at this place."""
    depth = 0
    for place in range(start, len(text)):
        depth += (text[place] == "{") - (text[place] == "}")
        if depth == 0:
            return text[start + 1 : place]
    raise ValueError("unbalanced braces in " + SOURCE)


def tables(text):
    """Each method of Kind that is one match by kind: its result by the kind's variant."""
    text = re.sub(r"//.*", "", text)
    found = {}
    for head in METHOD.finditer(text):
        arms = re.finditer(r"((?:\|?\s*Kind::\w+\s*)+)=>\s*([^,]+),", braces(text, head.end()))
        found[head[1]] = {
            kind: " ".join(arm[2].split())
            for arm in arms
            for kind in re.findall(r"Kind::(\w+)", arm[1])
        }
    return found


class Kind:
    """A kind, with what kind.rt says of it."""

    def __init__(self, variant, methods):
        def of(name):
            return re.sub(r"^\w+::", "", methods[name][variant])

        self.name = re.fullmatch(r'b"(\w+)"', of("name"))[1]
        self.number = int(of("number"))
        self.walk = of("form") == "Walk"
        self.obstruction = of("obstruction")
        self.needs = of("needs")
        self.value = of("vertex_value")
        self.use = of("edge_use")
        self.proof = re.match(r"\w+", of("proof"))[0]
        self.trial = of("is_drawn") == "true"
        self.gadget = re.match(r"\w+", of("gadget"))[0]


def read():
    with open(os.path.join(TOP, SOURCE), encoding="utf-8") as file:
        text = file.read()
    methods = tables(text)
    kinds = [Kind(variant, methods) for variant in methods["name"]]
    return sorted(kinds, key=lambda kind: kind.number)


def tuples(kinds):
    """The tuples of the Python package: name, comment, and the kinds in it."""
    tests = [
        (
            "MATCHED",
            "Kinds whose answer is a matching.",
            lambda k: k.value == "Unused" and not k.walk,
        ),
        (
            "PERFECT",
            "Kinds whose answer covers each node once.",
            lambda k: k.value == "Unused" and k.obstruction == "Barrier",
        ),
        (
            "OF_NODES",
            "Kinds whose certificate graph has the nodes themselves, without loops.",
            lambda k: k.gadget in ("Itself", "Unweighted"),
        ),
        (
            "VALUED",
            "Kinds with a degree at each node, by default 1.",
            lambda k: k.value == "Degree",
        ),
        (
            "BOUNDED",
            "Kinds with two degree bounds at each node, by default 0 and 1.",
            lambda k: k.value == "Bounds",
        ),
        ("CAPPED", "Kinds whose edges may have capacities.", lambda k: k.use.startswith("Within")),
        ("PARITIES", "Paths of an odd or even number of edges.", lambda k: k.gadget == "Sides"),
        ("PATHS", "Kinds whose answer is a path between two ends.", lambda k: k.value == "End"),
        (
            "ODD",
            "Kinds whose terminals are the nodes of odd value, by default 0.",
            lambda k: k.value in ("Parity", "End"),
        ),
        ("WALKED", "Kinds whose answer is a walk.", lambda k: k.walk),
        (
            "FROM_ZERO",
            "Kinds that take no negative weights.",
            lambda k: k.needs.endswith("WeightsFromZero"),
        ),
    ]
    return [(name, said, [k.name for k in kinds if test(k)]) for name, said, test in tests]


def filled(head, items, tail):
    """A list of items behind a head, in lines of at most 100 columns."""
    lines, line = [], head
    for place, item in enumerate(items):
        piece = item + (tail if place == len(items) - 1 else ",")
        if len(line) + len(piece) > 99:
            lines.append(line.rstrip())
            line = " " * len(head)
        line += piece + " "
    return "\n".join(lines + [line.rstrip()])


def python_tuple(name, kinds):
    items = ['"%s"' % kind for kind in kinds]
    items[-1] += "," if len(items) == 1 else ""
    return filled("%s: Tuple[Kind, ...] = (" % name, items, ")")


def python_part(kinds):
    names = [kind.name for kind in kinds]
    lines = [filled("Kind = Literal[", ['"%s"' % name for name in names], "]")]
    lines.append(python_tuple("KINDS", names))
    for name, said, members in tuples(kinds):
        lines += ["#: " + said, python_tuple(name, members)]
    return "\n".join(lines)


def tests_part(kinds):
    return "\n".join(["KINDS = ("] + ['    "%s",' % kind.name for kind in kinds] + [")"])


def header_part(kinds):
    """The enumerators of the C header, each with the comment that it has there."""
    with open(os.path.join(TOP, "capi/blossom.h"), encoding="utf-8") as file:
        said = dict(re.findall(r"^    (BLOSSOM_\w+) = \d+,? +/\*\*< (.*) \*/$", file.read(), re.M))
    rows = []
    for kind in kinds:
        name = "BLOSSOM_" + kind.name.upper()
        comma = "," if kind is not kinds[-1] else ""
        row = "%s = %d%s" % (name, kind.number, comma)
        rows.append("    %-24s /**< %s */" % (row, said.get(name, TEXTS[kind.name][0])))
    return "\n".join(rows)


def problems_part(kinds):
    rows = [
        "| Problem | Python | Kind | Proves optimality | Proves infeasibility |",
        "|---|---|---|---|---|",
    ]
    for kind in kinds:
        text, call = TEXTS[kind.name]
        rows.append(
            "| %s | `%s` | `%s` | %s | %s |"
            % (text, call, kind.name, BEST[kind.proof], NONE[kind.obstruction])
        )
    return "\n".join(rows)


def feasible_part(kinds):
    rows = ["", "| Kind | Feasible | Optimal |", "|---|---|---|"]
    for kind in kinds:
        best = OPTIMAL.get(kind.name, "minimum weight")
        rows.append("| `%s` | %s | %s |" % (kind.name, FEASIBLE[kind.name], best))
    return "\n".join(rows + [""])


def letters(kind):
    """The lines of a document of a kind: behind its solution those that prove it optimal, and those
    of an infeasible instance, if there can be one."""
    proof = {"Duals": "y, z", "LighterBarrier": "u", "OuterPaths": "d, u, r"}[kind.proof]
    none = {"Barrier": "u", "OddPart": "t", "SplitPart": "q", "Never": None}[kind.obstruction]
    return ("w" if kind.walk else "x") + ", " + proof, none


def letters_part(kinds):
    """Which letters come after which `s` line: kinds with the same ones share a row."""
    rows = {}
    for place, status in enumerate(("OPTIMAL", "INFEASIBLE")):
        for kind in kinds:
            if letters(kind)[place]:
                rows.setdefault((status, letters(kind)[place]), []).append(kind.name)
    named = [kind.name for kind in kinds if kind.gadget == "PathPorts"]
    rows["NONCONSERVATIVE", "w"] = named
    lines = ["", "| `s` line | Kinds | Letters |", "|---|---|---|"]
    for (status, told), names in rows.items():
        head = "s %s %s%s" % (
            status,
            names[0] if len(names) == 1 else "KIND",
            " W" if status == "OPTIMAL" else "",
        )
        lines.append("| `%s` | %s | %s |" % (head, ", ".join("`%s`" % one for one in names), told))
    return "\n".join(lines + [""])


def names_of(kinds, trials=False):
    return " ".join(kind.name for kind in kinds if kind.trial or not trials)


def manual_part(kinds):
    rows = [".TP 12\n.B %s\n%s" % (kind.name, TEXTS[kind.name][0]) for kind in kinds]
    return "\n".join(rows).replace("-", "\\-")


def page_part(kinds):
    rows = ["| `%s` | %s |" % (kind.name, TEXTS[kind.name][0]) for kind in kinds]
    return "\n".join(["| Kind | Problem |", "|---|---|", *rows])


def bash_part(kinds):
    head = "  kinds='%s'\n  trials='%s'"
    return head % (names_of(kinds), names_of(kinds, trials=True))


def zsh_part(kinds):
    return "  kinds=(%s)\n  trials=(%s)" % (names_of(kinds), names_of(kinds, trials=True))


def fish_part(kinds):
    return "set -g blossom_kinds %s\nset -g blossom_trials %s" % (
        names_of(kinds),
        names_of(kinds, trials=True),
    )


#: Each generated part: the file, the line before it, the line after it, and what makes it.
PARTS = [
    ("README.md", "<!-- generated: problems -->", "<!-- end -->", problems_part),
    ("docs/FORMAT.md", "<!-- generated: feasible -->", "<!-- end -->", feasible_part),
    ("docs/FORMAT.md", "<!-- generated: letters -->", "<!-- end -->", letters_part),
    ("tests/kinds.py", "# generated by scripts/kinds.py", "# end", tests_part),
    ("python/blossom/kinds.py", "# generated by scripts/kinds.py", "# end", python_part),
    ("capi/blossom.h", "enum blossom_kind {", "};", header_part),
    ("packaging/blossom.1", '.\\" generated: kinds', '.\\" end', manual_part),
    ("capi/README.md", "<!-- generated: kinds -->", "<!-- end -->", page_part),
    ("packaging/blossom.bash", "  # generated: kinds", "  # end", bash_part),
    ("packaging/blossom.zsh", "  # generated: kinds", "  # end", zsh_part),
    ("packaging/blossom.fish", "# generated: kinds", "# end", fish_part),
]


def replaced(text, before, after, part):
    start = text.index(before + "\n") + len(before) + 1
    return text[:start] + part + "\n" + text[text.index(after, start) :]


def main():
    parser = argparse.ArgumentParser(description=__doc__.split("\n")[0])
    parser.add_argument("--check", action="store_true")
    words = parser.parse_args()
    kinds = read()
    status = 0
    for name, before, after, make in PARTS:
        path = os.path.join(TOP, name)
        with open(path, encoding="utf-8") as file:
            text = file.read()
        made = replaced(text, before, after, make(kinds))
        if made == text:
            continue
        if words.check:
            print("%s: differs from crates: run scripts/kinds.py" % name)
            status = 1
        else:
            with open(path, "w", encoding="utf-8") as file:
                file.write(made)
    sys.exit(status)


if __name__ == "__main__":
    main()
