"""Runs networkx's own tests of its matchings of greatest and least weight, with blossom in place
of networkx's functions, and then the words that a call of the backend takes. A process of its
own: networkx looks for backends when it is imported."""
import contextlib
import sys
import types
import warnings


def raises(error, call, *words, **how):
    """The call ends with the error."""
    try:
        call(*words, **how)
    except error:
        return
    raise AssertionError("no %s" % error)


try:
    import pytest
except (
    ImportError
):  # networkx's tests name it for their tables, none of which is about these two functions, and for errors
    pytest = types.ModuleType("pytest")
    pytest.mark = types.SimpleNamespace(parametrize=lambda *table, **how: lambda test: test)
    pytest.raises = raises
    sys.modules["pytest"] = pytest

import networkx

import blossom
from blossom import networkx_backend

CALLED = []


def counted(function):
    """The function, which notes that it was called."""

    def call(*words, **how):
        CALLED.append(function.__name__)
        return function(*words, **how)

    return call


@contextlib.contextmanager
def blossom_first():
    """networkx asks blossom where a call names no backend: by its settings, or as it did before
    it had any."""
    if hasattr(networkx, "config"):
        with networkx.config(backend_priority=["blossom"]):
            yield
    else:
        from networkx.utils.backends import _dispatch

        before, _dispatch._automatic_backends = _dispatch._automatic_backends, ["blossom"]
        try:
            yield
        finally:
            _dispatch._automatic_backends = before


def own_tests():
    """The tests of networkx: how many ran."""
    from networkx.algorithms.tests.test_matching import TestMaxWeightMatching as cases

    names = [name for name in dir(cases) if name.startswith("test_")]
    for name in names:
        getattr(cases(), name)()
    return len(names)


def main():
    for name in ("max_weight_matching", "min_weight_matching"):
        setattr(networkx_backend, name, counted(getattr(networkx_backend, name)))
    warnings.simplefilter("error")
    warnings.simplefilter("ignore", blossom.RoundedWeightsWarning)
    with blossom_first():
        ran = own_tests()
    assert (
        CALLED.count("max_weight_matching") >= ran and CALLED.count("min_weight_matching") >= ran
    ), CALLED
    graph = networkx.Graph(
        [("a", "b", {"weight": 3}), ("b", "c", {"weight": 5}), ("c", "d", {"weight": 3})]
    )
    for call, edges in ((networkx.max_weight_matching, 2), (networkx.min_weight_matching, 2)):
        assert len(call(graph, backend="blossom")) == edges
    warnings.simplefilter("error", blossom.RoundedWeightsWarning)
    graph["a"]["b"]["weight"] = 3.14159
    try:
        networkx.max_weight_matching(graph, backend="blossom")
        raise AssertionError("rounded without a word")
    except blossom.RoundedWeightsWarning:
        print("%d tests of networkx, %d calls of the backend" % (ran, len(CALLED)))


if __name__ == "__main__":
    main()
