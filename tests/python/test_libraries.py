"""What the package does with the real libraries: pictures by matplotlib as they look, many graphs
over processes of dask, arrays of numpy, graphs of hypothesis."""
import io
import os
import random
import subprocess
import sys
import tempfile
import unittest

import blossom
from support import HERE, wanted

# Where nodes stand, and the colours that they, used edges and other edges have.
SQUARE = {"a": (0, 0), "b": (4, 0), "c": (4, 4), "d": (0, 4)}
EDGES = [("a", "b", 1), ("b", "c", 9), ("c", "d", 1), ("d", "a", 9)]


def pixels(picture):
    """The picture as matplotlib's reader of PNG gives it: rows of red, green and blue from 0 to
    255."""
    image = wanted("matplotlib.image")
    raw = io.BytesIO()
    picture.save(raw, "png")
    raw.seek(0)
    return (image.imread(raw)[:, :, :3] * 255).round().astype(int)


def colour(name):
    """The three numbers of a colour."""
    return tuple(int(round(part * 255)) for part in wanted("matplotlib.colors").to_rgb(name))


def graphs(count):
    """Small graphs by chance, of which each has a perfect matching, and what the least weighs."""
    chance = random.Random(7)
    for _ in range(count):
        weights = [chance.randint(0, 99) for _ in range(4)]
        yield list(zip("abcd", "bcda", weights)), min(
            weights[0] + weights[2], weights[1] + weights[3]
        )


class Pictures(unittest.TestCase):
    def setUp(self):
        wanted("matplotlib")
        picture = blossom.min_weight_perfect_matching(EDGES).draw(
            SQUARE, duals=False, odd_sets=False, labels=False, weights=False
        )
        self.sheet, self.image = picture.sheet, pixels(picture)
        self.height, self.width = self.image.shape[:2]

    def near(self, point):
        """The colours of the dots at a point of the sheet and beside it."""
        across, down = (point[0] - self.sheet.left) / self.sheet.width, (
            point[1] - self.sheet.top
        ) / self.sheet.height
        column, row = int(across * self.width), int(down * self.height)
        return {
            tuple(self.image[y, x])
            for y in range(max(row - 1, 0), min(row + 2, self.height))
            for x in range(max(column - 1, 0), min(column + 2, self.width))
        }

    def test_it_has_two_dots_for_each_pixel_of_the_sheet(self):
        self.assertAlmostEqual(self.height, 2 * self.sheet.height, delta=1)
        self.assertAlmostEqual(self.width, 2 * self.sheet.width, delta=1)

    def test_corners_are_white(self):
        for row, column in ((0, 0), (0, -1), (-1, 0), (-1, -1)):
            self.assertEqual(tuple(self.image[row, column]), (255, 255, 255))

    def test_nodes_have_their_colour(self):
        discs = [shape for shape in self.sheet.shapes if hasattr(shape, "radius")]
        self.assertEqual(len({disc.centre for disc in discs}), 4)
        for centre in {disc.centre for disc in discs}:
            top = [disc for disc in discs if disc.centre == centre][-1]
            self.assertEqual(self.near(centre), {colour(top.fill)})

    def test_edges_have_their_colours_where_they_run_and_used_ones_another(self):
        curves = [shape for shape in self.sheet.shapes if hasattr(shape, "control")]
        self.assertEqual(len(curves), 4)
        bold = max(curve.width for curve in curves)
        self.assertEqual(sum(curve.width == bold for curve in curves), 2)
        for curve in curves:
            middle = tuple(
                (start + 2 * control + end) / 4
                for start, control, end in zip(curve.start, curve.control, curve.end)
            )
            self.assertIn(colour(curve.colour), self.near(middle))
        self.assertEqual(len({(curve.colour, curve.width == bold) for curve in curves}), 2)


class Processes(unittest.TestCase):
    def test_a_cluster_of_two_processes_answers_a_thousand_graphs(self):
        distributed = wanted("distributed")
        made = list(graphs(1000))
        with distributed.LocalCluster(
            n_workers=2, threads_per_worker=1, processes=True, dashboard_address=None
        ) as cluster, distributed.Client(cluster) as client:
            self.assertEqual(len(set(client.run(os.getpid).values()) - {os.getpid()}), 2)
            answers = blossom.solve_many(
                "perfect", [edges for edges, _ in made], executor=client.get_executor()
            )
        self.assertEqual([answer.weight for answer in answers], [weight for _, weight in made])


class Arrays(unittest.TestCase):
    def test_graphs_are_arrays_and_so_are_predictions(self):
        numpy = wanted("numpy")
        for edges, weight in graphs(20):
            nodes = numpy.array([["abcd".index(end) for end in edge[:2]] for edge in edges])
            answer = blossom.min_weight_perfect_matching(
                (nodes[:, 0], nodes[:, 1], numpy.array([edge[2] for edge in edges]))
            )
            self.assertEqual(answer.weight, weight)
        decoder = blossom.Decoder.from_check_matrix(
            numpy.array([[1, 1, 0, 0], [0, 1, 1, 0], [0, 0, 1, 1]])
        )
        answer = decoder.decode(numpy.array([0, 1, 1], dtype=numpy.uint8))
        self.assertIsInstance(answer, numpy.ndarray)
        self.assertEqual(answer.tolist(), [0, 0, 0, 1] if answer.tolist()[3] else [0, 0, 1, 0])
        many = decoder.decode_batch(numpy.array([[0, 0, 0], [1, 0, 0]], dtype=numpy.uint8))
        self.assertEqual((type(many), many.shape), (numpy.ndarray, (2, 4)))


class Chance(unittest.TestCase):
    def test_graphs_by_hypothesis_get_what_networkx_finds(self):
        wanted("networkx")
        wanted("hypothesis")
        words = [sys.executable, os.path.join(HERE, "by_hand.py"), "25"]
        with tempfile.TemporaryDirectory() as room:  # where hypothesis may keep what it finds
            done = subprocess.run(words, capture_output=True, text=True, cwd=room)
        self.assertEqual((done.returncode, done.stderr), (0, ""), done.stdout)
