"""Pictures."""
import inspect
import io
import os
import re
import tempfile
import time
import unittest
from xml.etree import ElementTree

import blossom
from blossom.drawing.compose import halfway
from blossom.drawing.geometry import hull, loop_controls, on_curve, rounded_hull
from blossom.drawing.layout import layout
from blossom.drawing.moats import DISC
from blossom.drawing.shapes import Area, Curve, Disc, Text, frame
from blossom.drawing.svg import svg
from support import STAR, TOP, TRIANGLES, StandIn, instances, wanted

PLACES = {"a": (0, 0), "b": (0, 2), "c": (1, 1), "d": (3, 1), "e": (4, 2), "f": (4, 0)}


def parts(picture):
    """How many elements of each name the SVG has."""
    names = [
        element.tag.rpartition("}")[2] for element in ElementTree.fromstring(picture.svg()).iter()
    ]
    return {name: names.count(name) for name in names}


class Pictures(unittest.TestCase):
    def test_odd_sets_are_hulls_and_duals_discs(self):
        answer = blossom.min_weight_perfect_matching(TRIANGLES)
        found = parts(answer.draw(PLACES))
        duals = sum(1 for dual in answer.certificate.duals.values() if dual)
        self.assertEqual(
            (found["polygon"], found["circle"], found["path"]),
            (len(answer.certificate.odd_sets), 6 + duals, 7),
        )
        self.assertEqual(parts(answer.draw(PLACES, odd_sets=False, duals=False))["circle"], 6)

    def test_walks_are_arrows(self):
        answer = blossom.chinese_postman([(1, 2, 4), (2, 3, 4), (3, 4, 4), (1, 4, 4), (1, 3, 5)])
        found = parts(answer.draw(duals=False, odd_sets=False))
        self.assertEqual((found["polygon"], found["path"]), (6, 6))
        steps = [shape for shape in answer.draw().sheet.shapes if type(shape).__name__ == "Curve"]
        again = [shape.colour == "#e07a2f" for shape in steps]  # the last, over all others
        self.assertEqual(again, [False] * 5 + [True])

    def test_loops_reach_out_of_their_nodes(self):
        edges = [("a", "b", 2), ("a", "a", 3), ("a", "a", 4), ("b", "b", 5)]
        answer = blossom.perfect_b_matching(edges, {"a": 3, "b": 1})
        sheet = answer.draw({"a": (0, 0), "b": (1, 0)}, duals=False, odd_sets=False).sheet
        loops = [
            shape for shape in sheet.shapes if isinstance(shape, Curve) and shape.second is not None
        ]
        self.assertEqual(len(loops), 3)
        first, second = (
            next(
                shape.centre
                for shape in sheet.shapes
                if isinstance(shape, Disc) and place(shape.centre[0])
            )
            for place in (lambda x: x < 320, lambda x: x > 320)
        )
        for loop in loops:
            self.assertIn(loop.start, (first, second))
            self.assertEqual(loop.start, loop.end)
            away = halfway(loop)[0] - loop.start[0]  # (the other node lies on the other side)
            self.assertTrue(away < -30 if loop.start == first else away > 30, away)
            self.assertTrue(
                all(
                    sheet.left < x < sheet.left + sheet.width
                    and sheet.top < y < sheet.top + sheet.height
                    for x, y in loop.corners
                )
            )
        self.assertEqual(len({halfway(loop) for loop in loops}), 3)
        self.assertEqual(len([loop for loop in loops if loop.colour == "#17627f"]), 1)
        self.assertEqual(
            len(re.findall(r'<path d="M\S+ C\S+ \S+ \S+" fill="none"', svg(sheet, ""))), 3
        )
        self.assertEqual(
            {shape.words for shape in sheet.shapes if isinstance(shape, Text)} & set("2345"),
            set("2345"),
        )

    def test_walks_along_loops_are_arrows(self):
        picture = blossom.chinese_postman([("a", "b", 1), ("b", "b", 1)]).draw(
            duals=False, odd_sets=False
        )
        loops = [
            shape
            for shape in picture.sheet.shapes
            if isinstance(shape, Curve) and shape.second is not None
        ]
        self.assertEqual((len(loops), parts(picture)["polygon"]), (1, 3))
        self.assertNotEqual(
            loops[0].start, loops[0].end
        )  # the end of its line is behind the head of its arrow
        with self.assertRaises(blossom.NegativeCycle) as told:
            blossom.shortest_path([("a", "b", 1), ("b", "b", -1)], "a", "b")
        self.assertEqual(told.exception.negative_cycle, [("b", "b")])
        red = [
            shape
            for shape in blossom.draw(told.exception).sheet.shapes
            if isinstance(shape, Curve) and shape.colour == "#c8374a"
        ]
        self.assertEqual([shape.second is None for shape in red], [False])

    def test_a_node_with_nothing_but_loops(self):
        sheet = blossom.t_join(2 * [("a", "a", -1)], []).draw().sheet
        discs = [shape for shape in sheet.shapes if isinstance(shape, Disc)]
        loops = [shape for shape in sheet.shapes if isinstance(shape, Curve)]
        self.assertTrue(
            loops and all(halfway(loop)[1] > discs[-1].centre[1] + 30 for loop in loops)
        )

    def test_what_excludes_answers_is_red(self):
        with self.assertRaises(blossom.Infeasible) as told:
            blossom.min_weight_perfect_matching(STAR)
        found = blossom.draw(told.exception)
        self.assertEqual(
            (
                found.svg().count("<circle"),
                found.svg().count('fill="#c8374a" stroke="#2b2d42"'),
                parts(found)["polygon"],
            ),
            (4, 1, 3),
        )
        with self.assertRaises(blossom.NegativeCycle) as told:
            blossom.shortest_path([(1, 2, 1), (2, 3, -3), (3, 4, 1), (2, 4, 1)], 1, 4)
        self.assertIn("negative cycle in red", blossom.draw(told.exception).svg())
        with self.assertRaises(blossom.Infeasible) as told:
            blossom.chinese_postman([(1, 2), (3, 4)])
        self.assertIn("part that no edge leaves", blossom.draw(told.exception).svg())

    def test_the_steps_of_a_path_of_a_parity_are_told_by_their_sides(self):
        edges = [("a", "b", 1), ("b", "c", 1), ("c", "d", 1), ("d", "e", 1)]
        for target, parity, sides in (("d", "odd", "010"), ("e", "even", "0101")):
            text = (
                "s OPTIMAL %spath %d\nw 1 %d %s\n"
                % (parity, len(sides), len(sides), " ".join("1234"[: len(sides)]))
            ).encode()
            for ends, wanted_sides in ((("a", target), sides), ((target, "a"), sides[::-1])):
                answer = blossom.shortest_path(edges, *ends, parity=parity, engine=StandIn(0, text))
                shapes = answer.draw(duals=False, odd_sets=False).sheet.shapes
                steps = [
                    shape
                    for shape in shapes
                    if isinstance(shape, Curve) and shape.colour != "#c3c8d1"
                ]
                self.assertEqual(
                    [{"#17627f": "0", "#7b5ea7": "1"}[shape.colour] for shape in steps],
                    list(wanted_sides),
                )
                heads = [shape.fill for shape in shapes if isinstance(shape, Area)]
                self.assertEqual(heads, [shape.colour for shape in steps])
        answer = blossom.shortest_path(
            edges, "a", "c", engine=StandIn(0, b"s OPTIMAL path 2\nw 1 2 1 2\n")
        )
        self.assertNotIn("#7b5ea7", answer.draw().svg())

    def test_a_barrier_names_its_sides(self):
        of = blossom.Instance.from_graph(
            [("a", "b"), ("b", "c"), ("c", "d")], "oddpath", source="a", target="c"
        )
        for members, names in (
            ("1 2", {"a", "b:0", "c", "d"}),
            ("2 2 5", {"a", "b:0, 1", "c", "d"}),
            ("1 6", {"a", "b", "c", "d:1"}),
            ("0", set("abcd")),
        ):
            picture = blossom.Certificate(
                of, b"s INFEASIBLE oddpath\nu %s\n" % members.encode()
            ).draw(weights=False, caption=False)
            self.assertEqual(
                {shape.words for shape in picture.sheet.shapes if isinstance(shape, Text)}, names
            )
            red = [
                shape
                for shape in picture.sheet.shapes
                if isinstance(shape, Disc) and shape.fill == "#c8374a"
            ]
            self.assertEqual(len(red), len([name for name in names if ":" in name]))
            # (with a side a name is too long for its node, and then all are beside theirs)
            within = [
                shape.words
                for shape in picture.sheet.shapes
                if isinstance(shape, Text) and shape.bold
            ]
            self.assertEqual(set(within), set() if red else names)
        self.assertIn(
            "No answer: the barrier in red shows it",
            blossom.Certificate(of, b"s INFEASIBLE oddpath\nu 1 2\n").draw().svg(),
        )

    def test_nodes_have_their_bounds_and_duals_of_both_halves(self):
        of = blossom.Instance.from_graph([("a", "b", 3)], "interval", lower={"a": 1}, upper=1)
        duals = b"".join(
            b"y %d %d\n" % (vertex, dual) for vertex, dual in enumerate((6, 2, 9, 9, 2, 2, 9, 9), 1)
        )
        subject = blossom.Answer(
            of, blossom.Certificate(of, b"s OPTIMAL interval 3\nx 1 1\n" + duals)
        )
        shapes = subject.draw(
            {"a": (0, 0), "b": (10, 0)}, dual_length=1, caption=False
        ).sheet.shapes
        self.assertEqual(
            {shape.words for shape in shapes if isinstance(shape, Text)}, {"a:1..1", "b:0..1", "3"}
        )
        discs = [
            shape.radius for shape in shapes if isinstance(shape, Disc) and shape.opacity == 0.5
        ]
        self.assertAlmostEqual(
            discs[0], 2 * discs[1]
        )  # (6 + 2) and (2 + 2), halved; gates don't count

    def test_captions_of_bounds_and_parities(self):
        for kind, words, text, said in (
            (
                "interval",
                {"upper": 2},
                b"s OPTIMAL interval 4\nx 1 1\n",
                "Edges of least weight between bounds: 4",
            ),
            (
                "bottleneck",
                {},
                b"s OPTIMAL bottleneck 4\nx 1 1\nu 0\n",
                "Perfect matching whose heaviest edge is lightest: 4",
            ),
            (
                "gallai",
                {},
                b"s OPTIMAL gallai 1\nx 1 1\nd 0\nu 0\n",
                "Edges of a greatest matching, and the nodes that some such one misses: 1",
            ),
            (
                "oddpath",
                {"source": "a", "target": "b"},
                b"s OPTIMAL oddpath 4\nw 1 1 1\n",
                "Shortest path of an odd number of edges: 4",
            ),
            (
                "evenpath",
                {"source": "a", "target": "b"},
                b"s OPTIMAL evenpath 4\nw 1 1 1\n",
                "Shortest path of an even number of edges: 4",
            ),
        ):
            answer = blossom.solve([("a", "b", 4)], kind, engine=StandIn(0, text), **words)
            self.assertEqual(answer.draw().title, said)

    def test_what_greatest_matchings_miss(self):
        edges = [(*"ab",), (*"bc",), (*"ac",), (*"cd",), (*"de",), (*"df",), (*"gh",)]
        text = b"s OPTIMAL gallai 3\nx 1 1\nx 5 1\nx 7 1\nd 5 1 2 3 5 6\nu 1 4\n"
        places = {node: (7 * place, place % 2) for place, node in enumerate("abcdefgh")}
        answer = blossom.gallai_edmonds_decomposition(edges, engine=StandIn(0, text))
        shapes = answer.draw(places, caption=False, weights=False).sheet.shapes
        discs = dict(zip("abcdefgh", [shape.fill for shape in shapes if isinstance(shape, Disc)]))
        met, border, missed = "#dde3ea", "#e07a2f", "#ffffff"
        self.assertEqual(
            discs, dict(zip("abcdefgh", (met, met, missed, border, met, missed, met, met)))
        )
        hulls = [shape for shape in shapes if isinstance(shape, Area)]
        self.assertEqual([shape.fill for shape in hulls], 3 * ["#3f7fbf"])  # abc, e and f
        words = {shape.words: shape.colour for shape in shapes if isinstance(shape, Text)}
        self.assertEqual((words["a"], words["d"]), ("#2b2d42", "#ffffff"))
        bare = answer.draw(places, caption=False, weights=False, odd_sets=False).sheet.shapes
        self.assertEqual([shape for shape in bare if isinstance(shape, Area)], [])

    def bottleneck(self, edges, text, **words):
        """The colours of used edges, the hulls in red, and the nodes in red, of a picture on a
        line of nodes."""
        answer = blossom.bottleneck_perfect_matching(edges, engine=StandIn(0, text), scale=2)
        sheet = answer.draw(
            {"abcdef"[place]: (place, 0) for place in range(6)},
            caption=False,
            weights=False,
            **words
        ).sheet
        nodes = dict(
            zip(answer.instance.nodes, [shape for shape in sheet.shapes if isinstance(shape, Disc)])
        )
        used = [
            shape.colour
            for shape in sheet.shapes
            if isinstance(shape, Curve) and shape.colour != "#c3c8d1"
        ]
        hulls = [
            shape.corners
            for shape in sheet.shapes
            if isinstance(shape, Area) and shape.fill == "#c8374a"
        ]
        within = [
            "".join(
                sorted(
                    node
                    for node, disc in nodes.items()
                    if min(x for x, _ in hull) < disc.centre[0] < max(x for x, _ in hull)
                )
            )
            for hull in hulls
        ]
        return (
            used,
            sorted(within),
            "".join(node for node, disc in nodes.items() if disc.fill == "#c8374a"),
        )

    def test_the_heaviest_edges_of_a_bottleneck_and_what_lighter_ones_leave(self):
        line = [(*"ab", 1.5), (*"bc", 0.5), (*"cd", 1), (*"de", 2), (*"ef", 1.5), (*"af", 3)]
        used = b"s OPTIMAL bottleneck 3\nx 1 1\nx 3 1\nx 5 1\n"
        blue, orange = "#17627f", "#e07a2f"
        # Below 3/2 a, bcd, e and f hang together; without c they are a, b, d, e and f.
        self.assertEqual(
            self.bottleneck(line, used + b"u 0\n"),
            ([orange, blue, orange], ["a", "bcd", "e", "f"], ""),
        )
        self.assertEqual(
            self.bottleneck(line, used + b"u 1 3\n"),
            ([orange, blue, orange], ["a", "b", "d", "e", "f"], "c"),
        )
        self.assertEqual(
            self.bottleneck(line, used + b"u 2 2 4\n"),
            ([orange, blue, orange], ["a", "c", "e", "f"], "bd"),
        )
        # The answer alone: brief, or where the odd sets of other kinds aren't drawn.
        self.assertEqual(self.bottleneck(line, used), ([orange, blue, orange], [], ""))
        self.assertEqual(
            self.bottleneck(line, used + b"u 1 3\n", odd_sets=False),
            ([orange, blue, orange], [], ""),
        )
        with self.assertRaises(blossom.Infeasible) as told:
            blossom.bottleneck_perfect_matching(
                STAR, engine=StandIn(0, b"s INFEASIBLE bottleneck\nu 1 1\n")
            )
        for odd_sets in (
            None,
            False,
        ):  # there edges of all weights count, and the barrier is all there is
            shapes = blossom.draw(told.exception, odd_sets=odd_sets).sheet.shapes
            self.assertEqual(len([shape for shape in shapes if isinstance(shape, Area)]), 3)
            self.assertEqual(
                len(
                    [
                        shape
                        for shape in shapes
                        if isinstance(shape, Disc) and shape.fill == "#c8374a"
                    ]
                ),
                1,
            )

    def test_other_kinds_have_no_heaviest_edges(self):
        sheet = (
            blossom.min_weight_perfect_matching(
                [("a", "b", 3)], engine=StandIn(0, b"s OPTIMAL perfect 3\nx 1 1\n")
            )
            .draw()
            .sheet
        )
        self.assertEqual(
            [shape.colour for shape in sheet.shapes if isinstance(shape, Curve)], ["#17627f"]
        )

    def test_components_of_even_size_are_not_marked(self):
        of = blossom.Instance.from_graph(STAR + [("hub", "p"), ("p", "q")], "perfect")
        for text, hulls in (("u 1 1", 3), ("u 0", 0), ("u 2 1 5", 4)):
            certificate = blossom.Certificate(of, b"s INFEASIBLE perfect\n%s\n" % text.encode())
            self.assertEqual(parts(certificate.draw()).get("polygon", 0), hulls, text)

    def test_every_answer_can_be_drawn(self):
        for kind in blossom.KINDS:
            for edges, words in instances(kind, 6, seed=4):
                try:
                    subject = blossom.solve(edges, kind, **words)
                except blossom.NoOptimum as told:
                    subject = told
                self.assertIn("circle", parts(blossom.draw(subject)))
        self.assertEqual(parts(blossom.max_weight_matching([]).draw())["svg"], 1)

    def test_duals_to_scale_are_radii(self):
        answer = blossom.min_weight_perfect_matching([(0, 1, 10)])
        picture = answer.draw({0: (0, 0), 1: (10, 0)}, dual_length=1)
        discs = [shape for shape in picture.sheet.shapes if getattr(shape, "fill", "") == DISC]
        points = {shape.centre for shape in picture.sheet.shapes if hasattr(shape, "radius")}
        self.assertAlmostEqual(
            sum(disc.radius for disc in discs), max(points)[0] - min(points)[0], delta=0.01
        )

    def test_labels(self):
        answer = blossom.min_weight_perfect_matching([("<&>", "b", 1)])
        self.assertIn("&lt;&amp;&gt;", answer.draw().svg())
        self.assertIn(">Bee<", answer.draw(labels={"b": "Bee"}).svg())
        self.assertNotIn(">b<", answer.draw(labels=False, weights=False).svg())

    def test_a_position_that_is_missing(self):
        with self.assertRaises(KeyError) as told:
            blossom.min_weight_perfect_matching([("a", "b")]).draw({"a": (0, 0)})
        self.assertEqual(str(told.exception), "positions= lacks 1 node, the first is 'b'")
        self.assertIsInstance(told.exception, blossom.GraphError)

    def test_positions_of_a_graph(self):
        networkx = wanted("networkx")
        graph = networkx.Graph()
        graph.add_node("a", pos=(0, 0))
        graph.add_node("b", x=5, y=0)
        graph.add_edge("a", "b")
        discs = [
            shape
            for shape in blossom.min_weight_perfect_matching(graph).draw(duals=False).sheet.shapes
            if hasattr(shape, "radius")
        ]
        self.assertEqual(discs[0].centre[1], discs[1].centre[1])


class Files(unittest.TestCase):
    def test_svg(self):
        answer = blossom.min_weight_perfect_matching([("a", "b")])
        with tempfile.TemporaryDirectory() as room:
            path = os.path.join(room, "picture.svg")
            picture = answer.draw(file=path)
            with open(path, encoding="utf-8") as file:
                self.assertEqual(file.read(), picture.svg())
        raw = io.BytesIO()
        picture.save(raw)
        self.assertEqual(raw.getvalue().decode(), picture._repr_svg_())

    def test_png(self):
        wanted("matplotlib")
        raw = io.BytesIO()
        blossom.chinese_postman([(1, 2, 4), (2, 3, 4), (1, 3, 5), (3, 3, 1)]).draw().save(
            raw, "png"
        )
        self.assertEqual(raw.getvalue()[:4], b"\x89PNG")

    def test_axes_of_matplotlib(self):
        wanted("matplotlib")
        from matplotlib.figure import Figure

        axes = Figure().add_subplot()
        blossom.min_weight_perfect_matching(TRIANGLES).draw(PLACES, axes=axes)
        paths = [path for one in axes.collections for path in one.get_paths()]
        self.assertEqual((len(axes.patches), len(axes.texts)), (0, 14))
        self.assertEqual(
            len(paths),
            len(blossom.min_weight_perfect_matching(TRIANGLES).draw(PLACES).sheet.shapes) - 14,
        )


def town(rows, columns):
    """The streets of a town: a grid, whose nodes are their places."""
    places = {(row, column): (column, row) for row in range(rows) for column in range(columns)}
    streets = [
        (here, there)
        for here in places
        for there in ((here[0], here[1] + 1), (here[0] + 1, here[1]))
        if there in places
    ]
    return places, streets


def toured(streets):
    """A picture's subject without the program: a walk to and fro along each street, by a search in
    depth."""
    numbers, near = {}, {}
    for number, (u, v) in enumerate(streets, 1):
        for here, there in ((u, v), (v, u)):
            numbers[here, there] = number
            near.setdefault(here, []).append(there)
    walk, seen, stack = [], set(), [streets[0][0]]
    while stack:
        here = stack[-1]
        there = next((one for one in near[here] if numbers[here, one] not in seen), None)
        if there is None:
            stack.pop()
            if stack:
                walk.append(numbers[here, stack[-1]])
            continue
        seen.add(numbers[here, there])
        walk.append(numbers[here, there])
        stack.append(there)
    text = "s OPTIMAL postman %d\nw 1 %d %s\n" % (len(walk), len(walk), " ".join(map(str, walk)))
    return blossom.chinese_postman(streets, engine=StandIn(0, text.encode()))


class Sizes(unittest.TestCase):
    def texts(self, picture):
        return [shape for shape in picture.sheet.shapes if hasattr(shape, "words")]

    def kinds(self, picture, name):
        return sum(type(shape).__name__ == name for shape in picture.sheet.shapes)

    def test_a_town_of_1500_streets_can_be_read(self):
        places, streets = town(28, 28)
        self.assertGreater(len(streets), 1500)
        picture = toured(streets).draw(places)
        self.assertEqual([text.words for text in self.texts(picture)], [picture.title])
        self.assertEqual(self.kinds(picture, "Area"), 0)
        self.assertGreater(picture.sheet.width, 1200)
        radii = {shape.radius for shape in picture.sheet.shapes if hasattr(shape, "radius")}
        apart = 1200 / 28
        self.assertTrue(all(1 < radius < 0.3 * apart for radius in radii))
        widths = {shape.width for shape in picture.sheet.shapes if hasattr(shape, "control")}
        self.assertTrue(all(0.5 < width < 0.2 * apart for width in widths))

    def test_what_the_caller_says_stands(self):
        places, streets = town(28, 28)
        answer = toured(streets)
        picture = answer.draw(places, labels=True, steps=True, width=500, caption=False)
        self.assertEqual(len(self.texts(picture)), 28 * 28 + len(answer.edge_walk))
        self.assertEqual(self.kinds(picture, "Area"), len(answer.edge_walk))
        self.assertLess(picture.sheet.width, 640)
        self.assertEqual(len(self.texts(answer.draw(places, labels={(0, 0): "here"}))), 2)

    def test_small_pictures_have_everything(self):
        answer = toured(town(3, 3)[1])
        picture = answer.draw(town(3, 3)[0])
        self.assertEqual(len(self.texts(picture)), 9 + len(answer.edge_walk) + 1)
        self.assertEqual(
            (self.kinds(picture, "Area"), picture.sheet.width >= 640), (len(answer.edge_walk), True)
        )
        bare = answer.draw(town(3, 3)[0], labels=False, steps=False)
        self.assertEqual(len(self.texts(bare)), 1)

    def test_duals_and_sets_of_many_nodes_want_to_be_asked_for(self):
        nodes = 202
        edges = [(node, node + 1, 2) for node in range(0, nodes, 2)]
        document = "s OPTIMAL perfect %d\n" % nodes
        document += "".join("x %d 1\n" % edge for edge in range(1, nodes // 2 + 1))
        document += "".join("y %d 2\n" % node for node in range(1, nodes + 1)) + "z 2 3 1 2 3\n"
        answer = blossom.min_weight_perfect_matching(edges, engine=StandIn(0, document.encode()))
        places = {node: (node // 2 * 10, node % 2 * 10) for node in range(nodes)}
        self.assertEqual(self.kinds(answer.draw(places), "Disc"), nodes)
        self.assertEqual(self.kinds(answer.draw(places), "Area"), 0)
        picture = answer.draw(places, duals=True, odd_sets=True)
        moat = 2 * 3  # (a disc of its line, and one that fills it, around each member)
        self.assertEqual(
            (self.kinds(picture, "Disc"), self.kinds(picture, "Area")), (2 * nodes + moat, 0)
        )
        narrow = answer.draw(places, dual_length=1)  # (a moat that has no room for a line)
        self.assertEqual(self.kinds(narrow, "Disc"), 2 * nodes + 3)
        places[0] = (-3, 1)
        picture = answer.draw(places, duals=True, odd_sets=True)
        self.assertEqual((self.kinds(picture, "Disc"), self.kinds(picture, "Area")), (2 * nodes, 1))

    def test_a_png_of_a_town_takes_no_more_than_two_seconds(self):
        wanted("matplotlib")
        places, streets = town(28, 28)
        picture = toured(streets).draw(places)
        picture.save(io.BytesIO(), "png")  # (the first finds fonts)
        least = 9.0
        for _ in range(3):
            start = time.process_time()
            picture.save(io.BytesIO(), "png")
            least = min(least, time.process_time() - start)
        self.assertLess(least, 2)

    def test_a_layout_of_many_nodes_has_neighbours_near_each_other(self):
        for rows, columns in ((12, 12), (14, 30)):
            places, streets = town(rows, columns)
            number = {place: node for node, place in enumerate(places)}
            points = layout(len(places), [(number[u], number[v]) for u, v in streets])
            lengths = sorted(
                (
                    (points[number[u]][0] - points[number[v]][0]) ** 2
                    + (points[number[u]][1] - points[number[v]][1]) ** 2
                )
                ** 0.5
                for u, v in streets
            )
            wide = max(x for x, _ in points) - min(x for x, _ in points)
            high = max(y for _, y in points) - min(y for _, y in points)
            self.assertLess(lengths[-1], 0.2 * wide)
            self.assertLess(lengths[-1], 4 * lengths[0])
            self.assertTrue(0.15 * wide < high <= wide)

    def test_all_words_are_documented(self):
        words = [name for name in inspect.signature(blossom.draw).parameters if name != "subject"]
        with open(os.path.join(TOP, "docs", "PYTHON.md"), encoding="utf-8") as file:
            page = file.read()
        for word in words:
            self.assertRegex(blossom.draw.__doc__, r"\b%s\b" % word)
            self.assertTrue(re.search(r"`%s(=[^`]*)?`" % word, page), word)
        for call in (blossom.Answer.draw, blossom.Certificate.draw):
            self.assertEqual(list(inspect.signature(call).parameters)[1:], words)


class Notebooks(unittest.TestCase):
    def test_small_answers_show_a_picture_and_their_rows(self):
        answer = toured(town(2, 2)[1])
        self.assertFalse(hasattr(answer, "_repr_svg_"))  # (the page has it)
        self.assertIn(answer.draw().svg(), answer._repr_html_())
        page = ElementTree.fromstring("<div>%s</div>" % answer._repr_html_())
        self.assertEqual(len(page.findall(".//tr")), 1 + 8)
        self.assertEqual([cell.text for cell in page.find(".//tr")], ["step", "u", "v", "weight"])
        self.assertEqual(len(page.findall("{http://www.w3.org/2000/svg}svg")), 1)

    def test_large_ones_show_their_first_rows(self):
        answer = toured(town(10, 10)[1])
        page = ElementTree.fromstring("<div>%s</div>" % answer._repr_html_())
        self.assertEqual(len(page.findall(".//tr")), 1 + 20)
        self.assertEqual(page.findall("p")[-1].text, "and 340 more: ")
        self.assertIsNone(page.find("{http://www.w3.org/2000/svg}svg"))

    def test_names_are_escaped(self):
        answer = blossom.min_weight_perfect_matching([("<b>", "&", 1)], engine=StandIn())
        self.assertIn("<td>&lt;b&gt;</td><td>&amp;</td>", answer._repr_html_())
        none = blossom.max_weight_matching([], engine=StandIn(0, b"s OPTIMAL match 0\n"))
        self.assertEqual(none._repr_html_(), "<p>match answer of weight 0: 0 edges</p>")

    def test_reprs_are_short(self):
        answer = toured(town(10, 10)[1])
        decoder = blossom.Decoder([[1, 1, 0], [0, 1, 1]])
        for thing, text in (
            (answer, "<postman answer of weight 360: 360 steps>"),
            (answer.instance, "<postman instance of 100 nodes and 180 edges>"),
            (answer.certificate, "<certificate of postman: optimal, 0 duals, 0 odd sets>"),
            (answer.certificate.document, "<optimal document of postman>"),
            (answer.draw(), "<picture: Least closed walk along all edges: 360>"),
            (blossom.read(io.StringIO("a b\n"), "edges"), "<table of 2 nodes and 1 edges>"),
            (decoder, "<decoder of 2 detectors, 0 boundary nodes, 3 edges, 3 observables>"),
        ):
            self.assertEqual(repr(thing), text)
        self.assertEqual(
            repr(blossom.Certificate(answer.instance, b"s INFEASIBLE postman\n")),
            "<certificate of postman: infeasible>",
        )


class Plane(unittest.TestCase):
    def test_hulls(self):
        self.assertEqual(hull([(0, 0), (1, 1), (2, 0), (1, 3), (1, 1)]), [(0, 0), (2, 0), (1, 3)])
        self.assertEqual(hull([(0, 0), (1, 0), (2, 0), (1, 3)]), [(0, 0), (2, 0), (1, 3)])
        self.assertTrue(
            all(
                abs((x * x + y * y) ** 0.5 - 5) < 1e-9
                for x, y in rounded_hull([(0, 0), (0, 0)], [5, 2])
            )
        )

    def test_curves(self):
        self.assertEqual(on_curve([(0, 0), (4, 8), (8, 0)], 0.5), (4, 4))
        self.assertEqual(on_curve([(0, 0), (4, 8), (8, 0)], 0), (0, 0))
        first, second = loop_controls((3, 4), 0, 10)
        farthest = on_curve([(3, 4), first, second, (3, 4)], 0.5)
        self.assertTrue(abs(farthest[0] - 13) < 1e-9 and abs(farthest[1] - 4) < 1e-9, farthest)

    def test_a_sheet_reaches_around_all_shapes(self):
        disc, area = Disc((0, 0), 5, "red"), Area([(3, 3), (20, 4), (4, 9)], "red")
        self.assertEqual(frame(10, 12, [disc], 1), (-6, -6, 10, 12))
        self.assertEqual(frame(10, 12, [disc, area], 1), (-6, -6, 21, 12))
        left, top, right, bottom = frame(10, 12, [Text((5, 20), "a long text", 10, "red")], 1)
        self.assertTrue(left < -20 and right > 30 and (top, bottom) == (0, 26))
        loop = Curve((5, 5), (40, 0), (5, 5), "red", 1, second=(40, 30))
        self.assertEqual(frame(10, 12, [loop], 1), (0, -1, 41, 31))
        self.assertEqual(
            frame(10, 12, [Curve((5, 5), (40, 0), (5, 7), "red", 1)], 1), (0, 0, 10, 12)
        )

    def test_a_layout_is_the_same_each_time(self):
        edges = [(0, 1), (1, 2), (2, 0), (3, 4)]
        self.assertEqual(layout(5, edges), layout(5, edges))
        self.assertEqual(len(layout(2000, [])), 2000)
