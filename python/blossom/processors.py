"""How many processors this process may use."""
from __future__ import annotations

import os


def processors() -> int:
    """How many there are, or fewer if the process is bound to some of them."""
    if hasattr(os, "sched_getaffinity"):
        return len(os.sched_getaffinity(0)) or 1
    return os.cpu_count() or 1
