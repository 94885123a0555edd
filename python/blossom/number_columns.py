"""Which columns hold numbers, so that weights under a name that isn't known don't count as 1."""
from __future__ import annotations

import numbers
from decimal import Decimal
from typing import Any, Iterable, List, Mapping

from .numbers_in_text import is_blank, is_number_text


#: How values print that stand for none.
NOTHING = ("nan", "<NA>", "NaT")


def number_columns(columns: Mapping[Any, Any]) -> List[Any]:
    """The names of the columns that hold numbers alone, or blanks."""
    return [name for name, column in columns.items() if holds_numbers(column)]


def holds_numbers(column: Any) -> bool:
    """Whether a column holds numbers, and besides them at most blanks."""
    kind = getattr(getattr(column, "dtype", None), "kind", "O")
    if kind in "iuf":
        return len(column) > 0
    return kind in "OUS" and are_numbers(column if column is not None else ())


def are_numbers(entries: Iterable[Any]) -> bool:
    """Whether some of the entries are numbers, and all others blanks."""
    given = [one for one in entries if not is_empty(one)]
    return bool(given) and all(map(is_number, given))


def is_empty(entry: Any) -> bool:
    """Whether an entry says nothing: None, a text of blanks, nan, or pandas.NA."""
    return is_blank(entry) or not isinstance(entry, str) and str(entry) in NOTHING


def is_number(entry: Any) -> bool:
    """Whether an entry is a number, or the text of one."""
    if isinstance(entry, str):
        return is_number_text(entry)
    return isinstance(entry, (numbers.Real, Decimal)) and not isinstance(entry, bool)
