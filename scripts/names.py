#!/usr/bin/env python3
"""Checks the names in crates/: of crates, modules, types and clauses, and the words of comments.

Usage: names.py [TOP]. A name of OLD is refused, and so is a word of OLD_WORDS in a comment. KEPT
lists names that stay, each with the reason. It prints a line for each finding, and for each name of
KEPT that nothing has, and ends with status 1 if there are any."""
import collections
import glob
import os
import re
import sys

TOP = os.path.join(os.path.dirname(os.path.abspath(__file__)), "..")
#: Names that were, by what they name, and what to write in their place.
OLD = {
    "crate": {
        "edge_queue": "search_heap",
        "search_lists": "search_tables",
        "event_bounds": "search_keys",
        "outer_sets": "gallai_theory",
        "kind_answers": "solve_answers",
        "text_check": "check_text",
        "dual_free_kinds": "solve_kinds",
        "match_call": "match_cli",
        "command_words": "match_cli",
        "outcome_lines": "document_lines",
        "greedy_start": "search_start",
        "pass_parts": "search_start",
        "join_guess": "array_joins",
        "join_tests": "walk_tests",
        "solve_tests": "program_tests",
        "text_tests": "program_tests",
        "kind_solver": "solve_kinds",
    },
    "module": {
        "bounding": "a noun with `by_keys`",
        "felling": "dissolving",
        "gates": "subdivision or copy_sizes",
        "hop": "grandparent",
        "lifting": "raising",
        "listing": "insertion, set_list or tree_lists",
        "numbers": "what is numbered",
        "sides": "layers or sizes",
        "standing": "tree_nodes",
        "taken": "extraction",
        "top": "program",
        "turn": "tie_rank",
    },
    "type": {
        "Ending": "CallStatus",
        "Exclusion": "Obstruction",
        "Extent": "Sizes",
        "Hop": "GrandparentLink",
        "Measure": "Cost",
        "Need": "Precondition",
        "Reply": "Output",
        "Sense": "Objective",
        "Standing": "TreeNodes",
        "Start": "WalkStart",
        "Stop": "Failure",
        "Turn": "TieRank or LineResult",
    },
    "clause": {
        "around": "edge_ends",
        "begun": "started",
        "bounding": "vertex_keys",
        "can": "possible",
        "close": "a bound by name",
        "few": "size_limit",
        "fit": "conservative",
        "fresh": "current or not_run",
        "good": "is_family or is_graph",
        "looks": "inspections",
        "plain": "loopless",
        "planted": "all_rooted",
        "queued": "event_times",
        "ready": "well_formed",
        "rest": "frame",
        "same": "same_graph",
        "small": "value_limit",
        "some": "nonempty",
        "standing": "listed",
        "still": "unchanged, or what doesn't change",
        "there": "in_range, in_tree or on_path",
    },
}
#: Words of comments that were, and what to write.
OLD_WORDS = {
    r"\bseeds?\b(?! of (the )?(numbers|chance))": "tree id",
    r"\bhops?\b": "grandparent link",
    r"\buproot\w*": "free the tree",
}
#: Crates whose comments have such words of another meaning.
OTHER_WORDS = {"inst_gen", "match_cli", "search_tests", "brute_force"}
#: What stays, by what it names, crate and name: `*` is every crate.
KEPT = {
    ("clause", "*", "some"): "what holds of a value, beside `none`; as a premise, at least one",
    ("clause", "alt_forest", "same"): "an edge that is the same as the graph's",
    ("clause", "array_call", "same"): "an instance that is the same as the arrays'",
    ("clause", "cert_check", "same"): "a document and a call of the same kind",
    ("clause", "document_lines", "same"): "the same set in another order",
    ("clause", "dual_change", "same"): "keys that stay the same",
    ("clause", "search_heap", "same"): "a heap that stays the same, and tables of the same length",
    ("clause", "dimacs_read", "rest"): "one rest of a line",
    ("clause", "mb_base", "rest"): "the rest of the bytes",
    ("clause", "mb_problem", "standing"): "the bounds of vertices that stand alone",
    ("clause", "gadget_base", "begun"): "a run of places that has begun, beside `not_ended`",
    ("clause", "blossom_arena", "fresh"): "a name that no node has",
    ("type", "program_tests", "Ending"): "how a run of the program ends",
}
CLAUSE = re.compile(r"^\s*(?:requires|ensures)\*? (\w+) \{", re.M)
TYPE = re.compile(r"^\s*(?:pub(?:\(\w+\))? )?(?:struct|enum|trait|type) (\w+)", re.M)
COMMENT = {".rt": re.compile(r"(?://[/!]?|^\s*\*)(.*)"), ".antt": re.compile(r"(?:^|\s)--(.*)")}

Finding = collections.namedtuple("Finding", "place kind crate name")


def read(path):
    with open(path, encoding="utf-8") as file:
        return file.read()


def names_of(crate):
    """What a crate names: its place, kind, crate and name."""
    name = os.path.basename(crate)
    yield Finding(name, "crate", name, name)
    for path in sorted(glob.glob(os.path.join(crate, "src", "**", "*.rt"), recursive=True)):
        text, place = read(path), os.path.relpath(path, os.path.dirname(crate))
        yield Finding(place, "module", name, os.path.splitext(os.path.basename(path))[0])
        for kind, pattern in (("type", TYPE), ("clause", CLAUSE)):
            for found in pattern.finditer(text):
                number = text.count("\n", 0, found.start(1)) + 1
                yield Finding("%s:%d" % (place, number), kind, name, found[1])


def old_names(top):
    """Names of OLD that crates have, without those that are kept, and what is kept for nothing."""
    needed = set()
    for crate in sorted(glob.glob(os.path.join(top, "crates", "*"))):
        for one in names_of(crate):
            better = OLD[one.kind].get(one.name)
            if better is None:
                continue
            keys = {(one.kind, it, one.name) for it in (one.crate, "*")} & KEPT.keys()
            needed |= keys
            if not keys:
                yield "%s: the %s %s: write %s" % (one.place, one.kind, one.name, better)
    for key in sorted(KEPT.keys() - needed):
        yield "kept for nothing: %s %s of %s" % (key[0], key[2], key[1])


def old_words(top):
    """Words of OLD_WORDS in comments of sources, definitions and proofs."""
    for path in sorted(glob.glob(os.path.join(top, "crates", "*", "*", "**"), recursive=True)):
        comment = COMMENT.get(os.path.splitext(path)[1])
        place = os.path.relpath(path, os.path.join(top, "crates"))
        parts = place.split(os.sep)
        if comment is None or parts[0] in OTHER_WORDS or parts[1] == "out":
            continue
        for number, line in enumerate(read(path).split("\n"), 1):
            said = comment.search(line)
            prose = re.sub(r"`[^`]*`", "", said[1]) if said else ""
            for pattern, better in OLD_WORDS.items():
                for found in re.finditer(pattern, prose, re.I):
                    yield "%s:%d: %r: write %s" % (place, number, found[0], better)


def main():
    top = sys.argv[1] if len(sys.argv) > 1 else TOP
    found = [*old_names(top), *old_words(top)]
    print("\n".join(found) if found else "the names are as they should be")
    print("%d findings" % len(found))
    sys.exit(1 if found else 0)


if __name__ == "__main__":
    main()
