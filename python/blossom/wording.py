"""How messages write arguments and numbers: `scale=10` in Python, and `--scale 10` on a command
line."""
from __future__ import annotations

import contextlib
import importlib
import shlex
from contextvars import ContextVar
from decimal import Decimal
from fractions import Fraction
from typing import Any, Iterable, Iterator

ON_COMMAND_LINE: ContextVar[bool] = ContextVar("ON_COMMAND_LINE", default=False)
#: Numbers of more digits than these are shown with an exponent.
DIGITS = 18


def word(name: str, value: Any) -> str:
    """An argument with this value, as the caller writes it."""
    if ON_COMMAND_LINE.get():
        return "%s %s" % (argument(name), shlex.quote("" if value is None else str(value)))
    return "%s=%r" % (name, value)


def argument(name: str) -> str:
    """An argument as the caller writes it: `default_capacity=`, or `--default-capacity`."""
    if ON_COMMAND_LINE.get():
        return "--" + name.replace("_", "-")
    return name + "="


@contextlib.contextmanager
def command_line() -> Iterator[None]:
    """Within it messages name the options of the command line."""
    before = ON_COMMAND_LINE.set(True)
    try:
        yield
    finally:
        ON_COMMAND_LINE.reset(before)


def wanted(module: str, what: str) -> Any:
    """A module of another package. ImportError: it isn't installed; `what` says what needs it."""
    try:
        return importlib.import_module(module)
    except ImportError as error:
        name = module.partition(".")[0]
        raise ImportError("%s need %s: pip install %s (%s)" % (what, name, name, error),
                          name=name) from error


def decimal_of(number: Fraction) -> Decimal:
    """The decimal number that equals this one. ValueError: none of at most 60 places does."""
    places = next((one for one in range(61) if 10**one % number.denominator == 0), None)
    if places is None:
        raise ValueError(number)
    sign, digits = int(number < 0), str(abs(number.numerator) * 10**places // number.denominator)
    return Decimal((sign, tuple(map(int, digits)), -places))


def shown(number: Any) -> str:
    """A number for a message: as a decimal, and with an exponent if it is long."""
    if isinstance(number, Fraction):
        with contextlib.suppress(ValueError):
            number = decimal_of(number)
    text = str(number)
    if len(text) > DIGITS:
        with contextlib.suppress(OverflowError, ValueError, TypeError):
            return "%.12g" % float(number)
    return text


def some(names: Iterable[Any]) -> str:
    """The first of the names, in words."""
    known = list(names)
    left = len(known) - 6
    return ", ".join(map(repr, known[:6])) + (" and %d more" % left if left > 0 else "")
