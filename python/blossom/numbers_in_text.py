"""Numbers of files: exactly as they are written there."""
from __future__ import annotations

from decimal import Decimal
from fractions import Fraction
from typing import Any, Union

from .errors import GraphError
from .wording import decimal_of


class Exact(Fraction):
    """A number that isn't an integer. It equals the fraction, and prints as a decimal number if it
    is one of at most 60 places."""

    def __str__(self) -> str:
        try:
            return format(decimal_of(self), "f")
        except ValueError:
            return super().__str__()

    def __format__(self, form: str) -> str:
        """As a decimal or a float, since fractions take a form from Python 3.12 on alone."""
        if not form:
            return str(self)
        try:
            number: Union[Decimal, float] = decimal_of(self)
        except ValueError:
            number = float(self)
        return format(number, form)


def number(text: Any, what: str) -> Union[int, Fraction]:
    """The number that a text is, exactly: an int if it is whole. GraphError: it isn't a number;
    `what` says of what."""
    plain = str(text).strip()
    if plain.isascii() and plain.isdecimal():
        return int(plain)
    try:
        value = Fraction(plain)
    except (ValueError, ZeroDivisionError):
        raise GraphError("%s must be a number, got %r" % (what, text)) from None
    return int(value) if value.denominator == 1 else Exact(value)


def is_number_text(text: Any) -> bool:
    """Whether a text is a number."""
    try:
        number(text, "")
    except GraphError:
        return False
    return True


def is_blank(text: Any) -> bool:
    """Whether there is no text, or nothing but blanks."""
    return text is None or not str(text).strip()
