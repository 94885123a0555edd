"""What docs/C.md takes from capi/blossom.h: tables of enums, and the layout of an answer."""
import re

from crate_groups import read

HEADER = "capi/blossom.h"
ENTRY = re.compile(r"\b(BLOSSOM_\w+) = (\w+),? +/\*\*< (.*?) \*/")
RENAMED = "its name in 1.0.0"


def entries(enum):
    """Name, number and meaning of each entry of an enum."""
    found = re.search(r"enum %s \{(.*?)\n\};" % enum, read(HEADER), re.S)
    if found is None:
        raise ValueError("%s has no enum %s" % (HEADER, enum))
    return ENTRY.findall(found[1])


def numbered(enum):
    """The rows of an enum, without its old names."""
    yield from ("| Number | Name | Meaning |", "|--:|---|---|")
    for name, number, meaning in entries(enum):
        if meaning != RENAMED:
            yield "| %s | `%s` | %s |" % (number, name, meaning)


def tasks_part():
    return list(numbered("blossom_task"))


def kinds_part():
    return list(numbered("blossom_kind"))


def input_errors_part():
    return list(numbered("blossom_input_error"))


def join_outcomes_part():
    return list(numbered("blossom_join_outcome"))


def old_names_part():
    """The names of 1.0.0: those of enums, and of a constant."""
    old = [entry for enum in ("blossom_status", "blossom_task") for entry in entries(enum)]
    pairs = [(name, now) for name, now, meaning in old if meaning == RENAMED]
    pairs += re.findall(
        r"in 1\.0\.0\. \*/\n#define (BLOSSOM_\w+) (BLOSSOM_\w+)\n", read(HEADER)
    )
    return ["| In 1.0.0 | Now |", "|---|---|"] + ["| `%s` | `%s` |" % pair for pair in pairs]


def table_before(words):
    """A table of numbers, as the header draws it before these words."""
    table = re.search(r"\n((?: \*     .*\n| \*\n)+) \*\n \* %s" % words, read(HEADER))
    return [line[3:].rstrip() for line in table[1].strip("\n").split("\n")]


def layout_part():
    """The table of the numbers of an answer."""
    return table_before("Without proof p")


def join_layout_part():
    """The table of the numbers of the joins of sets."""
    return table_before("At BLOSSOM_MALFORMED `output`")
