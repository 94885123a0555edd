"""The table of wrong bodies in docs/TESTING.md: what scripts/mutants.py found, by
scripts/bodies_tried.txt."""
from crate_groups import read

LIST = "scripts/bodies_tried.txt"
#: The verdicts of scripts/mutants.py in the order of the columns.
VERDICTS = ("refused", "names", "noticed", "same", "hole", "limit")


def tries(text):
    """What was tried: for each place the commit, the date, the seed and a count for each verdict."""
    for number, line in enumerate(text.splitlines(), 1):
        if line and not line.startswith("#"):
            where, commit, date, seed, *counts = line.split()
            found = dict(one.split("=") for one in counts)
            if set(found) - set(VERDICTS):
                raise ValueError("%s:%d: a verdict that nobody gives: %s" % (LIST, number, line))
            yield where, commit, date, seed, [int(found.get(word, 0)) for word in VERDICTS]


def wrong_bodies_part(text=None):
    """A row for each place. The text is that of the list if none is given."""
    lines = [
        "| Where | Commit | Date | Seed | Bodies | Refused by a clause | Only by a name in a proof"
        " | Noticed by a test | Same program | Hole | No verdict |",
        "|---|---|---|--:|--:|--:|--:|--:|--:|--:|--:|",
    ]
    for where, commit, date, seed, counts in tries(read(LIST) if text is None else text):
        cells = [where, "`%s`" % commit, date, seed, sum(counts), *counts]
        lines.append("| %s |" % " | ".join(str(cell) for cell in cells))
    return lines
