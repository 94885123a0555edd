#!/usr/bin/env python3
"""Compares the package with networkx on graphs that hypothesis makes. Run by hand, where both are
installed; it is no part of the gate.

Usage: by_hand.py [EXAMPLES], with the program's path in the environment variable BLOSSOM where
it isn't built in this checkout."""
import itertools
import os
import sys

import networkx
from hypothesis import HealthCheck, given, settings
from hypothesis import strategies as some

sys.path.insert(0, os.path.join(os.path.dirname(os.path.abspath(__file__)), "..", "..", "python"))

import blossom  # noqa: E402
from blossom import networkx_backend  # noqa: E402

EXAMPLES = int(sys.argv[1]) if len(sys.argv) > 1 else 300
limits = settings(
    max_examples=EXAMPLES, deadline=None, database=None, suppress_health_check=list(HealthCheck)
)


@some.composite
def graphs(draw, least=-20, most=20, largest=9):
    """Graphs of up to so many nodes with whole weights, some of whose nodes have no edges, and
    some loops."""
    count = draw(some.integers(1, largest))
    pairs = [(u, v) for v in range(count) for u in range(v + 1)]
    graph = networkx.Graph()
    graph.add_nodes_from(range(count))
    for u, v in draw(some.lists(some.sampled_from(pairs), unique=True)) if pairs else []:
        graph.add_edge(u, v, weight=draw(some.integers(least, most)))
    return graph


def weight_of(graph, edges):
    return sum(graph[u][v]["weight"] for u, v in edges)


@limits
@given(graphs())
def matchings_of_greatest_weight(graph):
    answer = blossom.max_weight_matching(graph)
    assert networkx.is_matching(graph, set(answer.edges))
    assert answer.weight == weight_of(graph, networkx.max_weight_matching(graph)) and answer.check()


@limits
@given(graphs(), some.booleans())
def matchings_of_the_most_edges(graph, least):
    name = "min_weight_matching" if least else "max_weight_matching"
    how = {} if least else {"maxcardinality": True}
    found, known = getattr(networkx_backend, name)(graph, **how), getattr(networkx, name)(
        graph, **how
    )
    assert networkx.is_matching(graph, found) and len(found) == len(known)
    assert weight_of(graph, found) == weight_of(graph, known)


@limits
@given(graphs())
def perfect_matchings(graph):
    known = networkx.max_weight_matching(
        networkx.Graph((u, v, {"weight": -w}) for u, v, w in graph.edges(data="weight")),
        maxcardinality=True,
    )
    try:
        answer = blossom.min_weight_perfect_matching(graph)
    except blossom.Infeasible as told:
        assert 2 * len(known) < len(graph) and told.certificate.check()
        assert odd_parts(graph, told.barrier) > len(told.barrier)
        return
    assert answer.weight == weight_of(graph, known) and answer.check()


def odd_parts(graph, barrier):
    """How many components of odd size are left without the barrier."""
    left = graph.subgraph(set(graph) - set(barrier))
    return sum(len(part) % 2 for part in networkx.connected_components(left))


@limits
@given(graphs(most=5))
def bottlenecks(graph):
    """By the least weight up to which the edges have a perfect matching."""

    def up_to(weight):
        part = networkx.Graph((u, v) for u, v, own in graph.edges(data="weight") if own <= weight)
        part.add_nodes_from(graph)
        return part

    weights = sorted({weight for _, _, weight in graph.edges(data="weight")})
    known = [
        weight
        for weight in weights
        if 2 * len(networkx.max_weight_matching(up_to(weight), maxcardinality=True)) == len(graph)
    ]
    try:
        answer = blossom.bottleneck_perfect_matching(graph)
    except blossom.Infeasible as told:
        assert (
            not known
            and told.certificate.check()
            and odd_parts(graph, told.barrier) > len(told.barrier)
        )
        return
    assert networkx.is_perfect_matching(graph, set(answer.edges)) and answer.check()
    assert answer.weight == known[0] == max(graph[u][v]["weight"] for u, v in answer.edges)
    barrier = answer.certificate.barrier
    assert odd_parts(up_to(known[0] - 1), barrier) > len(barrier)


@limits
@given(graphs(most=0))
def greatest_matchings(graph):
    """A node is missed by some matching of the most edges where the graph without it has one as
    large."""

    def size(part):
        return len(networkx.max_weight_matching(part, maxcardinality=True))

    answer = blossom.gallai_edmonds_decomposition(graph)
    outer = [node for node in graph if size(graph.subgraph(set(graph) - {node})) == size(graph)]
    assert (
        answer.weight == size(graph)
        and networkx.is_matching(graph, set(answer.edges))
        and answer.check()
    )
    found = answer.decomposition
    assert found.D == outer and set(found.A) == {
        near for node in outer for near in graph[node]
    } - set(outer)
    assert set(found.C) == set(graph) - set(outer) - set(found.A)
    for node in outer:
        steps = answer.alternating_path(node)
        others = {frozenset(edge) for edge in answer.edges} ^ {
            frozenset(step[:2]) for step in steps
        }
        assert len(others) == answer.weight and not any(node in edge for edge in others)


@limits
@given(graphs(least=0), some.data())
def shortest_paths(graph, data):
    if len(graph) < 2:
        return
    source, target = data.draw(
        some.lists(some.sampled_from(sorted(graph)), min_size=2, max_size=2, unique=True)
    )
    try:
        answer = blossom.shortest_path(graph, source, target)
    except blossom.Infeasible as told:
        assert not networkx.has_path(graph, source, target) and told.certificate.check()
        return
    assert (
        answer.weight
        == networkx.dijkstra_path_length(graph, source, target)
        == networkx.path_weight(graph, answer.node_walk, "weight")
    )
    assert (answer.node_walk[0], answer.node_walk[-1]) == (source, target) and answer.check()


@limits
@given(graphs(least=0, largest=6), some.data())
def paths_of_a_parity(graph, data):
    if len(graph) < 2:
        return
    source, target = data.draw(
        some.lists(some.sampled_from(sorted(graph)), min_size=2, max_size=2, unique=True)
    )
    known = {0: [], 1: []}
    for walk in networkx.all_simple_paths(graph, source, target):
        known[(len(walk) - 1) % 2].append(networkx.path_weight(graph, walk, "weight"))
    for parity, weights in (("even", known[0]), ("odd", known[1])):
        try:
            answer = blossom.shortest_path(graph, source, target, parity=parity)
        except blossom.Infeasible as told:
            assert not weights and told.certificate.check()
            continue
        assert (
            answer.weight == min(weights) == networkx.path_weight(graph, answer.node_walk, "weight")
        )
        assert (answer.node_walk[0], answer.node_walk[-1]) == (source, target) and answer.check()


@limits
@given(graphs())
def edge_covers(graph):
    """Of the fewest edges: as many as a matching of the most edges leaves to be covered."""
    graph.remove_edges_from(list(networkx.selfloop_edges(graph)))
    alone = list(networkx.isolates(graph))
    try:
        answer = blossom.degree_constrained_subgraph(graph, lower=1, weight=None)
    except blossom.Infeasible as told:
        assert alone and told.certificate.check()
        return
    assert not alone and networkx.is_edge_cover(graph, set(answer.edges)) and answer.check()
    assert (
        answer.weight
        == len(answer.edges)
        == len(graph) - len(networkx.max_weight_matching(graph, maxcardinality=True))
    )


@limits
@given(graphs(largest=6), some.data())
def degrees_between_bounds(graph, data):
    lower = {node: data.draw(some.integers(0, 2)) for node in graph}
    upper = {node: lower[node] + data.draw(some.integers(0, 2)) for node in graph}
    edges = list(graph.edges(data="weight"))[:12]
    graph = networkx.Graph(graph.edge_subgraph([edge[:2] for edge in edges]))
    graph.add_nodes_from(lower)
    edges, known = list(graph.edges), []
    for chosen in itertools.product((0, 1), repeat=len(edges)):
        some_edges = graph.edge_subgraph(list(itertools.compress(edges, chosen)))
        degree = {node: some_edges.degree[node] if node in some_edges else 0 for node in graph}
        if all(lower[node] <= degree[node] <= upper[node] for node in graph):
            known.append(weight_of(graph, itertools.compress(edges, chosen)))
    try:
        answer = blossom.degree_constrained_subgraph(graph, lower, upper)
    except blossom.Infeasible as told:
        assert not known and told.certificate.check()
        return
    degree = dict(answer.to_networkx().degree)
    assert answer.weight == min(known) == weight_of(graph, answer.edges) and answer.check()
    assert all(lower[node] <= degree[node] <= upper[node] for node in graph)


@limits
@given(graphs(least=0))
def tours(graph):
    if (
        sum(
            graph.subgraph(component).number_of_edges() > 0
            for component in networkx.connected_components(graph)
        )
        > 1
    ):
        return
    answer = blossom.chinese_postman(graph)
    doubled = answer.to_networkx()
    doubled.remove_nodes_from(list(networkx.isolates(doubled)))
    assert graph.number_of_edges() == 0 or networkx.is_eulerian(doubled)
    odd = networkx.Graph()
    away = dict(networkx.all_pairs_dijkstra_path_length(graph))
    odd_nodes = [node for node, degree in graph.degree if degree % 2]
    odd.add_weighted_edges_from((u, v, away[u][v]) for u in odd_nodes for v in odd_nodes if u < v)
    again = sum(odd[u][v]["weight"] for u, v in networkx.min_weight_matching(odd))
    assert answer.weight == graph.size(weight="weight") + again and answer.check()


if __name__ == "__main__":
    for test in (
        matchings_of_greatest_weight,
        matchings_of_the_most_edges,
        perfect_matchings,
        bottlenecks,
        greatest_matchings,
        shortest_paths,
        paths_of_a_parity,
        edge_covers,
        degrees_between_bounds,
        tours,
    ):
        test()
        print("%s: %d examples" % (test.__name__.replace("_", " "), EXAMPLES))
