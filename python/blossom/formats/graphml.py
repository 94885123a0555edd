"""Graphs as GraphML, by the XML reader of the standard library."""
from __future__ import annotations

from typing import IO, Any, Dict, List, Mapping, NamedTuple, Optional, Tuple
from xml.etree import ElementTree

from ..errors import GraphError
from ..graphs import USUAL_CAPACITY, USUAL_WEIGHT, Usual, refuse_absent
from ..numbers_in_text import number
from .csv_table import table_of_rows
from ..tables import Table

SPACE = "http://graphml.graphdrawing.org/xmlns"


class Keys(NamedTuple):
    """What the keys of a file say: the name of each, and the data that nodes or edges without such
    data have."""

    names: Dict[str, str]
    defaults: Dict[str, Dict[str, str]]


def local(element: ElementTree.Element) -> str:
    """The name of an element without its namespace: some tools write none."""
    return element.tag.rpartition("}")[2]


def keys_of(root: ElementTree.Element) -> Keys:
    """The keys of a file."""
    keys = Keys({}, {"node": {}, "edge": {}})
    for key in (element for element in root.iter() if local(element) == "key"):
        name = key.get("attr.name", "")
        keys.names[key.get("id", "")] = name
        default = next((child.text or "" for child in key if local(child) == "default"), None)
        for what in ("node", "edge"):
            if default is not None and key.get("for", "all") in (what, "all"):
                keys.defaults[what][name] = default.strip()
    return keys


def data_of(element: ElementTree.Element, keys: Keys) -> Dict[str, str]:
    """The texts of a node's or an edge's data, by the names of their keys."""
    found = [child for child in element if local(child) == "data"]
    own = {keys.names.get(child.get("key", ""), child.get("key", "")): (child.text or "").strip()
           for child in found}
    return {**keys.defaults[local(element)], **own}


def read_graphml(file: IO[Any], weight: Optional[str] = USUAL_WEIGHT,
                 capacity: Optional[str] = USUAL_CAPACITY, value: str = "value") -> Table:
    """The first graph of an open GraphML file: nodes are the texts of their ids; edges have
    `weight` and `capacity`, and nodes `value`, `lower` and `upper`, and positions `x` and `y`, if
    there are such data; other data of edges come back with answers. An edge without a weight
    weighs 1, unless `weight` was named or the key has a default. GraphError: it isn't GraphML, or
    is a directed graph, or edges lack what is named."""
    try:
        root = ElementTree.parse(file).getroot()
    except ElementTree.ParseError as error:
        raise GraphError("not well-formed XML: %s" % error) from None
    graph = next((element for element in root.iter() if local(element) == "graph"), None)
    if graph is None:
        raise GraphError("no <graph> element found")
    refuse_directed(graph)
    keys = keys_of(root)
    rows = [edge_row(element, keys) for element in graph if local(element) == "edge"]
    table = edges_of(with_keys(rows), weight, capacity)
    nodes = {element.get("id"): data_of(element, keys) for element in graph
             if local(element) == "node"}
    table.nodes = list(dict.fromkeys([*nodes, *table.nodes]))
    table.values, table.lower, table.upper = (numbers_of(nodes, name)
                                              for name in (value, "lower", "upper"))
    table.positions = positions_of(nodes)
    return table


def refuse_directed(graph: ElementTree.Element) -> None:
    """GraphError: the graph or an edge of it is directed."""
    undirected = graph.get("edgedefault") != "directed"
    edges = [element for element in graph if local(element) == "edge"]
    if undirected and not any(edge.get("directed") == "true" for edge in edges):
        return
    if not undirected and edges and all(edge.get("directed") == "false" for edge in edges):
        return
    raise GraphError("the graph %s, expected an undirected one: write edgedefault=\"undirected\""
                     % ("has a directed edge" if undirected else "is directed"))


def numbers_of(nodes: Mapping[Any, Mapping[str, str]], name: str) -> Dict[Any, Any]:
    """The data of this name of each node that has any. GraphError: one isn't a number."""
    return {node: number(data[name], "%s of node %r" % (name, node))
            for node, data in nodes.items() if data.get(name)}


def positions_of(nodes: Mapping[Any, Mapping[str, str]]) -> Dict[Any, Tuple[float, float]]:
    """The positions `x` and `y` of the nodes, if each node has both."""
    try:
        return {node: (float(data["x"]), float(data["y"])) for node, data in nodes.items()}
    except (KeyError, ValueError):
        return {}


def edges_of(rows: List[Dict[str, Any]], weight: Optional[str],
             capacity: Optional[str]) -> Table:
    """The table of the rows. GraphError: they lack what is named."""
    known: Mapping[str, Any] = {name: None for row in rows for name in row}
    names = [name for name in known if name not in ("u", "v")]
    columns = {name: [row.get(name) for row in rows] for name in names
               if name not in ("key", capacity)}
    for named_as, what in ((weight, "weight"), (capacity, "capacity")):
        if rows and named_as is not None and not isinstance(named_as, Usual):
            if named_as not in names:
                refuse_absent(named_as, what, columns)
    missing = 1 if isinstance(weight, Usual) else None
    return table_of_rows(rows, "u", "v", weight, capacity, names, missing)


def edge_row(element: ElementTree.Element, keys: Keys) -> Dict[str, Any]:
    """One edge as a row of texts."""
    row: Dict[str, Any] = {**data_of(element, keys), "u": element.get("source"),
                           "v": element.get("target")}
    row.pop("key", None)
    if element.get("id") is not None:
        row["key"] = element.get("id")
    return row


def with_keys(rows: List[Dict[str, Any]]) -> List[Dict[str, Any]]:
    """The rows, without the ids of edges if no two edges join the same pair: such edges are named
    by their ends alone."""
    pairs = {frozenset((row["u"], row["v"])) for row in rows}
    if len(pairs) < len(rows):
        return rows
    return [{name: entry for name, entry in row.items() if name != "key"} for row in rows]


def write_graphml(file: IO[bytes], nodes: List[Any], edges: List[Dict[str, Any]],
                  types: Dict[str, str],
                  positions: Optional[Mapping[Any, Tuple[float, float]]] = None) -> None:
    """Writes an undirected graph. Each edge is a mapping with `u`, `v` and the data named in
    `types`, whose types are those of GraphML (int, double, string); nodes have their positions, if
    these are known."""
    root = ElementTree.Element("graphml", xmlns=SPACE)
    keys = [("edge", name, kind) for name, kind in types.items()]
    keys += [("node", name, "double") for name in ("x", "y") if positions]
    for what, name, kind in keys:
        ElementTree.SubElement(root, "key", {"id": what[0] + "_" + name, "for": what,
                                             "attr.name": name, "attr.type": kind})
    graph = ElementTree.SubElement(root, "graph", edgedefault="undirected")
    for node in nodes:
        element = ElementTree.SubElement(graph, "node", id=str(node))
        for name, number in zip("xy", (positions or {}).get(node, ())):
            ElementTree.SubElement(element, "data", key="n_" + name).text = repr(number)
    for place, edge in enumerate(edges):
        element = ElementTree.SubElement(graph, "edge", id="e%d" % place, source=str(edge["u"]),
                                         target=str(edge["v"]))
        for name in types:
            if edge.get(name) is not None:
                ElementTree.SubElement(element, "data", key="e_" + name).text = str(edge[name])
    ElementTree.ElementTree(root).write(file, encoding="utf-8", xml_declaration=True)
