"""What docs/CRATES.md and docs/PROMISES.md say of the crates, made of crates.txt, of the crates' own
pages and of the sources."""
import collections
import re

from crate_groups import crates, groups, read
from promises import all_definitions, promises

LINK = "[%s](../crates/%s)"


def purpose(crate):
    """What a crate is for: the first paragraph of its page."""
    page = re.match(r"# %s\n\n((?:\S.*\n)+)" % crate, read("crates/%s/README.md" % crate))
    if page is None:
        raise ValueError("crates/%s/README.md has no title with a paragraph" % crate)
    return " ".join(page[1].split())


def code(names):
    return ", ".join("`%s`" % name for name in names)


def crates_part():
    """A table of each group: its crates, what they do, and what they depend on."""
    lines = []
    row = "| `%s` | %s | %s |"
    for name, what, members in groups():
        lines += ["", "## %s: %s" % (name.capitalize(), what), ""]
        lines += ["| Crate | What it does | Depends on |", "|---|---|---|"]
        lines += [row % (crate, purpose(crate), code(below)) for crate, below in members]
    return lines[1:]


def promise_rows(crate, found):
    """The rows of a crate's promises."""
    for promise in found:
        call = "%s::%s" % (crate, promise.call)
        clauses = code(name for name in promise.clauses if name)
        named = code(sorted({name for _, name in promise.definitions}))
        yield "| `%s` | %s | %s | %s |" % (call, clauses, promise.sentence, named)


def promises_part():
    """A table of each crate that has promises, and the files of all definitions that these
    reach."""
    definitions, reached, lines = all_definitions(), set(), []
    for crate in crates():
        found = promises(crate, definitions)
        reached.update(key for promise in found for key in promise.definitions)
        if found:
            lines += ["## `%s`" % crate, "", "| Call | Clauses | Promise | Definitions |"]
            lines += ["|---|---|---|---|", *promise_rows(crate, found), ""]
    return lines + definition_lines(definitions, definitions.reached(reached))


def headline(path):
    """What a file of definitions says that it has: the first sentence of its first comment."""
    comment = re.match(r"(?:-- ?.*\n)*", read("crates/" + path))[0]
    text = " ".join(line[2:].strip() for line in comment.splitlines())
    return re.split(r"(?<=[.:;])(?: |$)", text)[0].rstrip(".:;")


def definition_lines(definitions, reached):
    """A row for each file of definitions: what it has, and those that promises reach."""
    order, named = crates(), collections.defaultdict(list)
    places = {definitions.lines[key]: key[1] for key in reached}
    for path, line in sorted(places, key=lambda at: (order.index(at[0].split("/")[0]), at)):
        named[path].append(places[path, line])
    lines = ["## Definitions", "", "What the clauses above name, and what that depends on:", ""]
    lines += ["| File | What it defines | Names |", "|---|---|---|"]
    for path, names in named.items():
        shown = LINK % (path[: -len(".antt")].replace("/specs/", " "), path)
        lines.append("| %s | %s | %s |" % (shown, headline(path), code(names)))
    return lines
