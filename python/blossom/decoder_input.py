"""What a `Decoder` is given, in the forms that PyMatching takes."""
from __future__ import annotations

import math
import sys
from typing import AbstractSet, Any, FrozenSet, List, Optional, Sequence, Tuple

from .errors import GraphError, WeightError
from .prepared import ones_in, places_of_ones
from .wording import wanted

#: What stands for the boundary in place of a node.
BOUNDARY = -1


#: What to do with errors of probability 0.
NEVER = "; omit errors that never occur"


def weight_of_probability(probability: Any) -> float:
    """The weight of an error that is so likely: the logarithm of (1 - p) / p. WeightError: it isn't
    between 0 and 1."""
    if not isinstance(probability, (int, float)) and not hasattr(probability, "__float__"):
        raise WeightError("error_probability must be a number, got %r" % (probability,))
    number = float(probability)
    if not 0 < number < 1:
        raise WeightError("error_probability must lie strictly between 0 and 1, got %r%s"
                          % (probability, NEVER if number == 0 else ""))
    return math.log1p(-number) - math.log(number)


def either_weight(first: float, second: float) -> float:
    """The weight of the error that occurs if exactly one of two errors of these weights does, if
    weights are logarithms of (1 - p) / p."""
    near, far = abs(first + second), abs(first - second)
    return (near - far) / 2 + math.log1p(math.exp(-near)) - math.log1p(math.exp(-far))


def for_each(given: Any, count: int, what: str) -> List[Any]:
    """What is given for each of so many errors: the same for all, or one each. GraphError: there
    are more or fewer."""
    if not hasattr(given, "__len__"):
        return [given] * count
    values = given.tolist() if hasattr(given, "tolist") else list(given)
    if len(values) != count:
        raise GraphError("wrong length of %s: expected %d (one per column), got %d"
                         % (what, count, len(values)))
    return list(values)


def like(given: Any, values: List[Any], dtype: str, shape: Any = None) -> Any:
    """The values as they are, or as a numpy array where what was given is one."""
    if not hasattr(given, "dtype"):
        return values
    array = wanted("numpy", "arrays").array(values, dtype=dtype)
    return array if shape is None else array.reshape(shape)


def flags_like(given: Any, flags: bytearray) -> Any:
    """Bytes of 0 and 1 as a list, or as a numpy array where what was given is one."""
    if not hasattr(given, "dtype"):
        return list(flags)
    numpy = sys.modules.get("numpy") or wanted("numpy", "arrays")
    return numpy.array(flags, dtype=numpy.uint8)


#: The types of the numbers in a usual set; True is none.
INTS = frozenset([int])


def fired_in(syndrome: Any, detectors: FrozenSet[int],
             lengths: Tuple[int, int]) -> Optional[AbstractSet[int]]:
    """The detectors that fired, of a syndrome in one of the usual forms: a set of numbers, or a
    list or a numpy array of 0 and 1. None: it has another form, isn't one of these detectors, or
    names nodes of the boundary."""
    form = type(syndrome)
    if form is set or form is frozenset:
        usual = syndrome <= detectors and INTS.issuperset(map(type, syndrome))
        return syndrome if usual else None
    flags = flags_in(syndrome, form)
    if flags is None or len(flags) not in lengths:
        return None
    if flags.count(0) + flags.count(1) != len(flags):
        return None
    fired = set(places_of_ones(flags) if form is list else ones_in(syndrome))
    return fired if len(detectors) == lengths[0] else fired & detectors


def flags_in(syndrome: Any, form: type) -> Optional[bytes]:
    """The entries of a list, or of a numpy array that is one, as bytes. None: it is neither, or an
    entry isn't an integer that a byte holds."""
    if form is not list:
        numpy: Any = sys.modules.get("numpy")
        if (numpy is None or form is not numpy.ndarray or syndrome.ndim != 1
                or syndrome.dtype.kind not in "biu"):
            return None
        if syndrome.itemsize == 1:
            own: bytes = syndrome.tobytes()
            return own
        syndrome = syndrome.tolist()
    try:
        return bytes(syndrome)
    except (TypeError, ValueError):
        return None


def is_boundary(node: Any) -> bool:
    """Whether it stands for the boundary, as PyMatching writes it."""
    return hasattr(node, "__index__") and not isinstance(node, bool) and node == BOUNDARY


def node_in(node: Any) -> int:
    """The node as a number. GraphError: it is none."""
    if isinstance(node, bool) or not hasattr(node, "__index__") or node.__index__() < 0:
        raise GraphError("node must be a nonnegative integer, got %r" % (node,))
    return int(node.__index__())


def fault_ids_in(fault_ids: Any) -> FrozenSet[int]:
    """The observables that are given: none, one or several. GraphError: one isn't a number."""
    if fault_ids is None or isinstance(fault_ids, int) and fault_ids == -1:
        return frozenset()
    if hasattr(fault_ids, "__index__"):
        return frozenset([node_in(fault_ids)])
    if isinstance(fault_ids, (str, bytes)) or not hasattr(fault_ids, "__iter__"):
        raise GraphError("fault_ids must be nonnegative integers, got %r" % (fault_ids,))
    return frozenset(node_in(fault) for fault in fault_ids)


def rows_of(matrix: Any) -> List[Sequence[int]]:
    """The rows of a matrix. GraphError: that is none."""
    dense = matrix.toarray() if hasattr(matrix, "toarray") else matrix
    if isinstance(dense, (str, bytes)) or not hasattr(dense, "__iter__"):
        raise GraphError("check matrix must be a 2-D array or a list of rows, got %s"
                         % type(matrix).__name__)
    rows = dense.tolist() if hasattr(dense, "tolist") else list(dense)
    for place, row in enumerate(rows):
        if isinstance(row, (str, bytes)) or not hasattr(row, "__iter__"):
            raise GraphError("row %d of the check matrix must be a sequence of 0 and 1, got %r"
                             % (place, row))
    if len({len(list(row)) for row in rows}) > 1:
        raise GraphError("rows of the check matrix must have equal lengths")
    return [list(row) for row in rows]
