"""Pages that show an answer with its proof: one file of HTML that needs nothing else.

`answer.to_html("proof.html", positions)` writes a page that needs nothing else. It has the picture
to drag and zoom, and tells weight, duals and slack of what the mouse is over. It lists the
inequalities that prove the answer, and a button adds them up:

    import blossom

    triangles = [("a", "b", 1), ("b", "c", 1), ("a", "c", 1), ("d", "e", 1), ("e", "f", 1)]
    triangles += [("d", "f", 1), ("c", "d", 10)]
    page = blossom.min_weight_perfect_matching(triangles).to_html("proof.html")
    print("Add them up" in page)  # True
"""
from __future__ import annotations

import json
import pkgutil
from fractions import Fraction
from html import escape
from math import inf, lcm
from typing import Any, Dict, List, Optional, Sequence, Tuple

from ..answers import Answer
from ..vertices import is_subdivision, node_of
from ..kinds import OF_NODES
from ..slacks import EdgeSlacks
from .proof_lines import Proof, in_words, listed, proof_of, set_ranks

#: The page. It may load nothing and connect to nowhere.
PAGE = """<!DOCTYPE html>
<html lang="en">
<head>
<meta charset="utf-8">
<meta name="viewport" content="width=device-width, initial-scale=1">
<meta http-equiv="Content-Security-Policy" content="default-src 'none'; img-src data:; \
style-src 'unsafe-inline'; script-src 'unsafe-inline'">
<link rel="icon" href="data:,">
<title>{title}</title>
<style>
{style}</style>
</head>
<body>
<header><h1>{title}</h1></header>
<main>
<section id="picture">
<div class="buttons"><button id="nearer">+</button><button id="farther">&minus;</button>\
<button id="whole">Whole picture</button></div>
{picture}<p id="told"></p>
</section>
<section id="proof">
{proof}</section>
</main>
<script type="application/json" id="data">{data}</script>
<script>
{script}</script>
</body>
</html>
"""
PROOF = """<h2>Why no other solution is better</h2>
<p>{about}</p>
<div class="lines"><table><thead><tr><th>line</th><th class="number">times</th></tr></thead>\
<tbody id="lines"></tbody></table></div>
<button id="add">Add them up</button>
<table><tr><td>sum</td><td class="number" id="sum"></td></tr>\
<tr><td>weight that follows</td><td class="number" id="weight"></td></tr>\
<tr><td>weight of the answer</td><td class="number">{weight}</td></tr></table>
<p id="conclusion"></p>
<p id="edges"></p>
"""
NO_PROOF = "<p>This answer was solved without its certificate, so there are no lines to add.</p>\n"
#: So many duals of a node's vertices are shown at most.
DUALS_SHOWN = 6


def page_of(answer: Answer, title: str, picture: str) -> str:
    """The page of an answer with this picture, whose shapes say which parts they are."""
    proof = proof_of(answer)
    said = NO_PROOF if proof is None else PROOF.format(about=escape(proof.about),
                                                       weight=escape(in_decimals(answer.weight)))
    return PAGE.format(title=escape(title), style=beside("page.css"), script=beside("page.js"),
                       picture=picture, proof=said, data=for_script(data_of(answer, proof)))


def beside(name: str) -> str:
    """A file of this folder as text."""
    found = pkgutil.get_data(__name__, name)
    if found is None:
        raise FileNotFoundError("%s is missing beside %s" % (name, __file__))
    return found.decode("utf-8")


def for_script(data: Any) -> str:
    """Data as JSON that can't end the script that it stands in."""
    return (json.dumps(data, ensure_ascii=True, separators=(",", ":"))
            .replace("<", "\\u003c").replace(">", "\\u003e").replace("&", "\\u0026"))


def in_decimals(number: Any) -> str:
    """A number as people read it: exact to six places, else rounded to nine digits."""
    if number == inf:
        return "infinite"
    exact = Fraction(number)
    if 10**6 % exact.denominator == 0:
        text = "%.6f" % exact if abs(exact) < 10**9 else str(float(exact))
        return str(int(exact)) if exact.denominator == 1 else text.rstrip("0")
    return "\u2248 %.9g" % float(exact)


def data_of(answer: Answer, proof: Optional[Proof]) -> Dict[str, Any]:
    """What the script reads. Numbers are integers as texts, so many of which make a unit."""
    if proof is None:
        return {"units": "1", "parts": parts_of(answer, []), "lines": [], "edges": []}
    edges = edge_terms(answer)
    numbers = [*(line.times for line in proof.lines), Fraction(answer.weight), proof.constant,
               *(weight for _, weight, _, _ in edges), *(one for edge in edges for one in edge[2])]
    units = lcm(*(number.denominator for number in numbers))
    divisor = proof.factor.denominator

    def whole(number: Fraction) -> str:
        return str(int(number * units))

    return {"units": str(units), "weight": whole(Fraction(answer.weight)),
            "follows": [str(proof.factor.numerator), whole(proof.constant * divisor), str(divisor)],
            "conclusion": proof.conclusion, "parts": parts_of(answer, edges),
            "lines": [[line.text, whole(line.times), line.part] for line in proof.lines],
            "edges": [[name, whole(weight), [whole(one) for one in meets], used]
                      for name, weight, meets, used in edges]}


EdgeTerms = Tuple[str, Fraction, List[Fraction], int]


def edge_terms(answer: Answer) -> List[EdgeTerms]:
    """For each edge that isn't a loop its name, its weight, the duals of its ends and of the sets
    that it leaves, and how often it is used. Empty if duals aren't those of nodes."""
    if answer.kind not in OF_NODES or not answer.certificate.document.duals:
        return []
    certificate, instance = answer.certificate, answer.instance
    duals = certificate.duals
    holding: Dict[Any, Dict[int, Fraction]] = {node: {} for node in instance.nodes}
    for rank, one in enumerate(certificate.odd_sets):
        for node in one.members:
            holding[node][rank] = Fraction(one.dual)
    used = set(answer.certificate.document.counts)
    return [(edge_name(edge), Fraction(weight) / instance.scale,
             [Fraction(duals[u]), Fraction(duals[v]), *left(holding[u], holding[v])],
             int(number in used))
            for number, (edge, (u, v), weight) in enumerate(
                zip(instance.edges, instance.ends, instance.weights), 1) if u != v]


def left(first: Dict[int, Fraction], second: Dict[int, Fraction]) -> List[Fraction]:
    """The duals of the sets that hold exactly one end of an edge."""
    return [(first.get(rank) or second[rank]) for rank in sorted(first.keys() ^ second.keys())]


def edge_name(edge: Sequence[Any]) -> str:
    """An edge as a page has it."""
    key = " (%s)" % in_words(edge[2]) if len(edge) > 2 else ""
    return "%s \u2013 %s%s" % (in_words(edge[0]), in_words(edge[1]), key)


def parts_of(answer: Answer, edges: Sequence[EdgeTerms]) -> Dict[str, str]:
    """What hovering over each part of the picture tells."""
    return {**edge_parts(answer, edges), **node_parts(answer), **set_parts(answer)}


def edge_parts(answer: Answer, edges: Sequence[EdgeTerms]) -> Dict[str, str]:
    """Of each edge its weight, how often it is used, and its slack, with the duals that it comes
    from if they are those of nodes."""
    instance, found = answer.instance, {}
    counts, terms = answer.edge_counts, {name: meets for name, _, meets, _ in edges}
    slacks = None if edges else slacks_of(answer)
    for index, edge in enumerate(instance.edges):
        name, weight = edge_name(edge), Fraction(instance.weights[index]) / instance.scale
        used = {0: "unused", 1: "used"}.get(counts[index], "used %d times" % counts[index])
        text = "%s: weight %s, %s" % (name, in_decimals(weight), used)
        meets = terms.get(name)
        if meets is not None:
            text += "; duals %s, slack %s" % (" + ".join(map(in_decimals, meets)),
                                              in_decimals(weight - sum(meets)))
        elif slacks is not None:
            text += "; slack %s" % in_decimals(slacks.slack(index))
        found["edge %d" % index] = text
    return found


def slacks_of(answer: Answer) -> Optional[EdgeSlacks]:
    """The slacks of the edges beside the duals of the certificate graph, if there are any."""
    document = answer.certificate.document
    return EdgeSlacks(answer.instance, document) if document.duals else None


def node_parts(answer: Answer) -> Dict[str, str]:
    """Of each node its dual, or those of its vertices in the certificate graph."""
    own: Dict[Any, List[Fraction]] = {node: [] for node in answer.instance.nodes}
    for name, dual in answer.certificate.duals.items():
        if not is_subdivision(name):
            own[node_of(name)].append(Fraction(dual))
    found = {}
    for number, (node, duals) in enumerate(own.items()):
        shown = ", ".join(map(in_decimals, duals[:DUALS_SHOWN]))
        more = ", .." if len(duals) > DUALS_SHOWN else ""
        many = "duals" if len(duals) > 1 else "dual"
        found["node %d" % number] = in_words(node) + (": %s %s%s" % (many, shown, more)
                                                      if duals else "")
    return found


def set_parts(answer: Answer) -> Dict[str, str]:
    """Of each odd set that the picture shows its nodes and its duals together."""
    place = {node: number for number, node in enumerate(answer.instance.nodes)}
    found, nodes = {}, answer.instance.nodes
    total: Dict[int, Fraction] = {}
    ranks = set_ranks(answer.certificate, place)
    for one in answer.certificate.odd_sets:
        rank = ranks[frozenset(place[node_of(name)] for name in one.members)]
        total[rank] = total.get(rank, Fraction(0)) + Fraction(one.dual)
    for members, rank in ranks.items():
        names = listed([nodes[number] for number in sorted(members)])
        found["set %d" % rank] = "{%s}: dual %s" % (names, in_decimals(total[rank]))
    return found
