"""The table of must-fail edits in docs/TESTING.md: each edit of the crates, and what refuses it by
scripts/refused_by.txt."""
import glob
import os
import re

from crate_groups import TOP, crates, read
from promises import contracts_of

LIST = "scripts/refused_by.txt"


def edits():
    """All edits, each a crate and a name, in the order of crates.txt."""
    for crate in crates():
        for path in sorted(glob.glob(os.path.join(TOP, "crates", crate, "must-fail", "*.edit"))):
            yield crate, os.path.basename(path)[: -len(".edit")]


def refusals():
    """What refuses each edit: a line of the list is a crate, an edit, and calls with clauses."""
    found = {}
    for line in read(LIST).splitlines():
        if line and not line.startswith("#"):
            crate, edit, refused = line.split(" ", 2)
            found[crate, edit] = refused
    return found


def checked(crate, refused):
    """The calls and clauses as Markdown, if the crate has them."""
    contracts, shown = contracts_of(crate), []
    for one in refused.split("; "):
        call, _, clauses = one.partition(": ")
        for clause in filter(None, re.split(", ", clauses)):
            if clause not in contracts.get(call, ()):
                raise ValueError("%s: %s has no clause %s in crate %s" % (LIST, call, clause, crate))
        if call not in contracts:
            raise ValueError("%s: crate %s has no call %s" % (LIST, crate, call))
        named = ", ".join("`%s`" % clause for clause in filter(None, clauses.split(", ")))
        shown.append("`%s`%s" % (call, ": " + named if named else ""))
    return "; ".join(shown)


def must_fail_part(known=None):
    """A row for each edit. The list of refusals is that of the repository if none is given."""
    known = refusals() if known is None else known
    there, lines = list(edits()), ["| Crate | Edit | Refused by |", "|---|---|---|"]
    if set(there) != set(known):
        raise ValueError("%s doesn't list the edits: %s" % (LIST, set(there) ^ set(known)))
    for crate, edit in there:
        lines.append("| `%s` | `%s` | %s |" % (crate, edit, checked(crate, known[crate, edit])))
    return lines
