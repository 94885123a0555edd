"""Names of release 1.0.0 that have better ones now. Each still works, with a DeprecationWarning
that says the new name; they go in release 2.0.0."""
from __future__ import annotations

import functools
import warnings
from typing import Any, Callable, Dict, TypeVar, cast

Call = TypeVar("Call", bound=Callable[..., Any])
#: Keyword arguments that have another name now.
KEYWORDS = {"via": "engine", "values": "degrees"}


def warn(old: str, new: str, stacklevel: int = 3) -> None:
    """Warns that a name is deprecated. stacklevel: 1 is this function."""
    warnings.warn("%s is deprecated: use %s" % (old, new), DeprecationWarning, stacklevel)


def old_property(old: str, new: str) -> Any:
    """A property that answers what the property or method `new` does."""

    def get(self: object) -> Any:
        warn("%s.%s" % (type(self).__name__, old), new)
        return getattr(self, new)

    return property(get, doc="Deprecated: use `%s`." % new)


def present(words: Dict[str, Any]) -> Dict[str, Any]:
    """Keyword arguments by their present names. TypeError: one is passed by both names."""
    found = {name: value for name, value in words.items() if name not in (*KEYWORDS, "brief")}
    for old, new in KEYWORDS.items():
        if old in words:
            warn("%s=" % old, "%s=" % new, 4)
            refuse_both(old, new, found)
            found[new] = words[old]
    if "brief" in words:
        warn("brief=%r" % (words["brief"],), "certificate=%r" % (not words["brief"],), 4)
        refuse_both("brief", "certificate", found)
        found["certificate"] = not words["brief"]
    return found


def refuse_both(old: str, new: str, words: Dict[str, Any]) -> None:
    """TypeError: an argument is passed by its new name too."""
    if new in words:
        raise TypeError("%s= and %s= are one argument: pass %s= alone" % (old, new, new))


def old_keywords(*names: str) -> Callable[[Call], Call]:
    """Lets a call take these keyword arguments of release 1.0.0."""
    known = frozenset(names)

    def decorated(call: Call) -> Call:
        @functools.wraps(call)
        def taking(*arguments: Any, **words: Any) -> Any:
            if not known.isdisjoint(words):
                words = present(words)
            return call(*arguments, **words)

        return cast(Call, taking)

    return decorated
