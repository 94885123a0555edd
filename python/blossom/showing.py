"""What a notebook shows of an answer."""
from __future__ import annotations

from html import escape
from typing import TYPE_CHECKING, Any, List, Optional

if TYPE_CHECKING:
    from .answers import Answer

#: A picture is shown of graphs of so many nodes and edges; of others it takes longer to draw.
SMALL_NODES, SMALL_EDGES = 80, 200
#: So many rows are shown of an answer.
ROWS = 20


def picture_of(answer: Answer) -> Optional[str]:
    """The picture of a small answer as SVG; None for others."""
    of = answer.instance
    if not of.nodes or len(of.nodes) > SMALL_NODES or len(of.edges) > SMALL_EDGES:
        return None
    return answer.draw().svg()


def cells(tag: str, entries: List[Any]) -> str:
    """A row of a table."""
    return "<tr>%s</tr>" % "".join("<%s>%s</%s>" % (tag, escape(str(entry)), tag)
                                   for entry in entries)


def page_of(answer: Answer) -> str:
    """A short page: what it is, the picture of a small answer, and its first rows."""
    rows = answer.rows[:ROWS]
    left = len(answer.edge_walk_indices or answer.edge_indices) - len(rows)
    parts = ["<p>%s</p>" % escape(repr(answer)[1:-1]), picture_of(answer) or ""]
    if rows:
        body = "".join(cells("td", list(row.values())) for row in rows)
        parts.append("<table>%s%s</table>" % (cells("th", list(rows[0])), body))
    if left > 0:
        parts.append("<p>and %d more: <code>answer.rows</code></p>" % left)
    return "\n".join(part for part in parts if part)
