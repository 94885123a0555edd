#!/usr/bin/env python3
"""Plants a dummy in a copy of the repository, and prints the files of crates that it touches.

Usage: dry_run.py kind [--own-gadget] [--prove CRATE ..] [--keep FOLDER]
       dry_run.py letter [--prove CRATE ..] [--keep FOLDER]
       dry_run.py option [--prove CRATE ..] [--keep FOLDER]

kind    a kind that answers as `bmatch` does; with --own-gadget its certificate graph has a form of
        its own, built as that of `bmatch`. The compiler names each table in code that lacks a row,
        one at a time; the script plants the row and compiles again. It then plants the rows of
        specs/ and proofs/, as copies of those of `bmatch`.
letter  a line type of documents that has what `q` has, a set of vertices on one line. The compiler
        names src/letter.rt, src/part.rt and src/document.rt of `doc_format`. The other files are
        those of the list in docs/EXTENDING.md: the prover alone names them.
option  a value of `Detail` that leaves out the certificate as `Brief` does, with a number for C.
        The compiler names src/detail.rt of `solve_answers`. The other files are those of the list
        in docs/EXTENDING.md but for the flag's in `match_cli`: the prover alone names them.

At the end it prints all files that it changed and their number. This takes about five minutes.

With --prove it has the prover check these crates of the copy, lowest first: `mb_problem` takes five
minutes with the crates below it, `solve_answers` three quarters of an hour. If they are proved,
nothing else in them lacks a row. No test of CI runs the script, since it takes over a minute."""
import argparse
import os
import sys
import tempfile

import dry_letter
import dry_option
from planting import code_rows, copied, imported, prove

# An enum, the variant whose rows are copied, and the dummy.
KIND = "Kind", "BMatch", "Dummy"
FORM = "GadgetForm", "Copies", "Dummied"

# What of a dummy isn't a copy of another kind's row, as its name: file, the row before it, its row.
OWN_ROWS = [
    ("src/kind.rt", "    Gallai,\n", "    /// A dummy.\n    Dummy,\n"),
    (
        "src/kind.rt",
        '            Kind::Gallai => b"gallai",\n',
        '            Kind::Dummy => b"dummy",\n',
    ),
    ("src/kind.rt", "            Kind::Gallai => 13,\n", "            Kind::Dummy => 14,\n"),
    (
        "src/kind.rt",
        "            13 => Some(Kind::Gallai),\n",
        "            14 => Some(Kind::Dummy),\n",
    ),
    (
        "src/kind.rt",
        "            return Some(Kind::Gallai);\n        }\n",
        "        if Kind::Dummy.is_named(name) {\n"
        "            return Some(Kind::Dummy);\n        }\n",
    ),
    (
        "specs/Kinds.antt",
        'kind_text Gallai = codes "gallai"\n',
        'kind_text Dummy = codes "dummy"\n',
    ),
    ("specs/Kinds.antt", "kind_number Gallai = 13\n", "kind_number Dummy = 14\n"),
]
# A kind with the graph of another is like that one, and one with its own graph like itself.
LIKE_BMATCH = """like_first Dummy = record {
  gadget = refl;
  answers = record {
    reaches = record { duals = refl; need = refl; feasible = λ i answer f. f };
    feasible = λ i answer f. f;
    value = λ i answer. refl;
    form = refl;
    obstruction = refl;
    conservative = refl;
    start = refl;
  };
}
"""
LIKE_ITSELF = "like_first Dummy = record { gadget = refl; answers = read_as_itself Dummy refl }\n"
# Chains of tests, each with one more at its end.
CHAINS = [
    (
        "specs/Kinds.antt",
        "Some Gallai else None))))))",
        "Some Gallai else\n"
        "    (if bytes_eq text (kind_text Dummy) then Some Dummy else None)))))))",
    ),
    (
        "specs/Kinds.antt",
        "Some Gallai else None))))))))))))",
        "Some Gallai else\n    (if number == 14 then Some Dummy else None)))))))))))))",
    ),
    (
        "proofs/KindLaws.antt",
        "n 13 kind Gallai _ refl refl (λ is.\n    absurd (cc)) is)",
        "n 13 kind Gallai _ refl refl (λ is.\n"
        "    by_test (eqb n 14) n 14 kind Dummy _ refl refl (λ is.\n    absurd (cc)) is) is)",
    ),
]

# Where definitions and proofs have a clause for each kind or form.
BY_CLAUSE = "mb_problem/specs", "mb_problem/proofs", "gadget_base/specs", "array_call/proofs"


def plant_own(copy, ending):
    for path, before, row in OWN_ROWS:
        if path.endswith(ending):
            copy.replace(f"mb_problem/{path}", before, before + row)
    for path, old, new in CHAINS:
        if path.endswith(ending):
            copy.replace(f"mb_problem/{path}", old, new)


def plant_code(copy, enums):
    while (path := copy.lacking()) is not None:
        print("the compiler names", path, flush=True)
        changes = [copy.change(path, lambda text: code_rows(text, *it)) for it in enums]
        if not any(changes):
            sys.exit(f"{path}: no row to copy")


def plant_likeness(copy, own):
    path = "mb_problem/proofs/KindLaws.antt"
    before = "like_first Gallai"
    copy.replace(path, before, (LIKE_ITSELF if own else LIKE_BMATCH) + before)
    if own:
        before = "first_with Unweighted"
        copy.replace(path, before, "first_with Dummied = Dummy\n" + before)


def plant_form(copy):
    before = "    /// A port for each edge"
    row = "    /// A dummy.\n    Dummied,\n"
    copy.replace("mb_problem/src/gadget.rt", before, row + before)


def take_form(copy):
    old, new = "Kind::Dummy => GadgetForm::Copies", "Kind::Dummy => GadgetForm::Dummied"
    copy.replace("mb_problem/src/kind.rt", old, new)
    old, new = "gadget_of Dummy = Copies", "gadget_of Dummy = Dummied"
    path = "mb_problem/specs/Kinds.antt"
    copy.replace(path, old, new)
    copy.change(path, lambda text: imported(text, *FORM[1:]))


def plant_kind(copy, own):
    enums = [KIND, FORM] if own else [KIND]
    plant_own(copy, "src/kind.rt")
    if own:
        plant_form(copy)
    plant_code(copy, enums)
    copy.change("mb_problem/src/feasibility.rt", lambda text: code_rows(text, *KIND))
    plant_own(copy, ".antt")
    for folder in BY_CLAUSE:
        copy.plant_clauses(folder, enums)
    plant_likeness(copy, own)
    if own:
        take_form(copy)


# What is planted but kinds, by its name.
PLANTERS = {"letter": dry_letter.plant, "option": dry_option.plant}


def run(words, folder):
    copy = copied(folder)
    if words.what == "kind":
        plant_kind(copy, words.own_gadget)
    else:
        PLANTERS[words.what](copy)
    print("\n".join(copy.changed))
    print(len(copy.changed), "files", flush=True)
    prove(copy, words.prove)


def main():
    parser = argparse.ArgumentParser(description=__doc__.split("\n")[0])
    parser.add_argument("what", choices=["kind", *PLANTERS])
    parser.add_argument("--own-gadget", action="store_true", help="a form of certificate graph too")
    parser.add_argument("--prove", nargs="*", default=[], metavar="CRATE", help="crates to prove")
    parser.add_argument("--keep", metavar="FOLDER", help="make the copy there, and leave it")
    words = parser.parse_args()
    if words.keep:
        os.makedirs(words.keep, exist_ok=True)
        return run(words, words.keep)
    with tempfile.TemporaryDirectory() as folder:
        return run(words, folder)


if __name__ == "__main__":
    sys.exit(main())
