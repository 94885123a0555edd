"""How many definitions the statements of docs/PROOF.md depend on."""
from crate_groups import read
from promises import all_definitions, promises_of

#: What is counted: in words, and either definitions (a crate, a file of its specs, and names) or a
#: call (a source, and the call), whose promises name definitions.
STATEMENTS = (
    ("feasible, weight, best", ("mb_problem", "Feasible", "IsFeasible weight_of IsBest")),
    ("what a document states is true", ("certificates", "Proved", "StatesTruth")),
    ("a document proves what it states", ("certificates", "Proved", "IsProved")),
    ("the contract of `cert_check::judge`", ("cert_check/src/judging.rt", "judge")),
    ("the contract of `mwpm_engine::Engine::run`", ("mwpm_engine/src/engine.rt", "Engine::run")),
    ("the contract of `solve_kinds::solve`", ("solve_kinds/src/solving.rt", "solve")),
    ("the contract of `match_cli::run`, with all formats", ("match_cli/src/program.rt", "run")),
)


def named(definitions, statement):
    """The definitions that a statement names."""
    if len(statement) == 3:
        crate, file, names = statement
        keys = {("Rattle.%s.specs.%s" % (crate, file), name) for name in names.split()}
    else:
        found = promises_of(read("crates/" + statement[0]), definitions)
        keys = {key for one in found if one.call == statement[1] for key in one.definitions}
    if not keys or keys - definitions.lines.keys():
        raise ValueError("no such definitions: %s" % (statement,))
    return keys


def reach_part():
    """A row for each statement: the definitions that it reaches, and their lines."""
    definitions = all_definitions()
    lines = ["| Statement | Definitions | Lines |", "|---|--:|--:|"]
    for words, statement in STATEMENTS:
        reached = definitions.reached(named(definitions, statement))
        length = sum(bool(line.strip()) for key in reached for line in bodies(definitions, key))
        lines.append("| %s | %d | %s |" % (words, len(reached), format(length, ",")))
    return lines


def bodies(definitions, key):
    return definitions.bodies[key].splitlines()
