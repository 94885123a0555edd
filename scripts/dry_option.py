"""What a dummy value of `Detail` touches, for scripts/dry_run.py: like `Brief` it leaves out the
certificate, and it has a number for C."""
import sys

from planting import clause_rows, code_rows, imported, with_own

DETAIL = "Detail", "Brief", "Dummy"
#: Where the value itself is planted. The compiler names this file alone.
FIRST = "solve_answers/src/detail.rt"
#: The files that the list in docs/EXTENDING.md has besides, but for those of the flag.
LISTED = (
    "solve_answers/specs/Details.antt",
    "solve_kinds/proofs/Settling.antt",
    "array_call/proofs/Briefs.antt",
    "blossom_c/specs/ArrayEndings.antt",
    "blossom_c/src/call_numbers.rt",
    "blossom_c/proofs/Rooms.antt",
)
#: Those of them with clauses to copy.
BY_CLAUSE = "Details.antt", "Settling.antt", "Briefs.antt"

#: What isn't a copy of a row: the file, a text, and what takes its place.
OWN_ROWS = (
    ("detail.rt", "    Brief,\n", "    Brief,\n    /// A dummy.\n    Dummy,\n"),
    (
        "ArrayEndings.antt",
        "number_of_solving Brief = 2\n",
        "number_of_solving Brief = 2\nnumber_of_solving Dummy = 4\n",
    ),
    (
        "call_numbers.rt",
        "        2 => Some(Detail::Brief),\n",
        "        2 => Some(Detail::Brief),\n        4 => Some(Detail::Dummy),\n",
    ),
    (
        "Rooms.antt",
        "never-short task kind a before after used (Brief,",
        "never-short task kind a before after used (Dummy, _, solving, _, _) brief room = absurd "
        "(let same : number_of_solving Dummy ≡ number_of_solving Brief = solving ∙ brief in cc)\n"
        "never-short task kind a before after used (Brief,",
    ),
)


def with_rows(path, text):
    """The text of a listed file with all rows of the dummy."""
    if path.endswith(BY_CLAUSE):
        text = clause_rows(text, *DETAIL[1:])
    if path.endswith(".antt"):
        text = imported(text, *DETAIL[1:])
    return with_own(path, text, OWN_ROWS)


def plant(copy):
    """Plants the rows of the dummy in a copy of the crates."""
    copy.change(FIRST, lambda text: with_own(FIRST, text, OWN_ROWS))
    while (path := copy.lacking()) is not None:
        print("the compiler names", path, flush=True)
        if not copy.change(path, lambda text: code_rows(text, *DETAIL)):
            sys.exit(f"{path}: no row to copy")
    for path in LISTED:
        if not copy.change(path, lambda text: with_rows(path, text)):
            sys.exit(f"{path}: no row to copy")
