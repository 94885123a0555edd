#!/usr/bin/env python3
"""Makes the pictures of docs/PYTHON.md by the Python package, over the built program.

Usage: pictures.py [FOLDER] [--png], or pictures.py --gallery. Writes SVG files into the folder (docs/pictures without one); with --png also
PNG files, which needs matplotlib. With --gallery the scripts of examples/gallery write theirs into its folder of pictures."""
import argparse
import glob
import itertools
import math
import os
import random
import subprocess
import sys

TOP = os.path.dirname(os.path.dirname(os.path.abspath(__file__)))
sys.path.insert(0, os.path.join(TOP, "python"))

import blossom  # noqa: E402

#: Where the places of examples/streets.csv lie, in metres.
PLACES = {"Mill": (0, 300), "Church": (210, 330), "Market": (390, 320), "Bridge": (610, 300), "Station": (-60, 0), "School": (160, 80),
          "Park": (370, 60), "Harbour": (640, 30)}


def matching():
    """Points of the plane in pairs of least length, where only points that are near each other can be paired: some heaps of points are odd. The
    discs are the duals to scale, and the hulls of odd sets are as much wider as theirs say."""
    chance, points = random.Random(18), {}
    for across, up, number in ((14, 38, 3), (40, 48, 3), (68, 40, 5), (98, 48, 3), (30, 12, 4), (62, 10, 3), (92, 14, 3)):
        for _ in range(number):
            points[len(points)] = (across + chance.uniform(-10, 10), up + chance.uniform(-8, 8))
    edges = [(a, b, round(10 * math.dist(points[a], points[b]))) for a, b in itertools.combinations(points, 2)]
    answer = blossom.min_weight_perfect_matching([edge for edge in edges if edge[2] < 260], nodes=points)
    return blossom.draw(answer, points, labels=False, weights=False, dual_length=0.1, width=720)


def duals():
    """Points of the plane in pairs of least length, with discs and moats that show that no pairs are shorter: they are found by themselves, since
    all pairs weigh as their distances."""
    chance = random.Random(21)
    heaps = ((14, 40, 3), (44, 50, 3), (78, 44, 5), (26, 10, 4), (64, 12, 3))
    points = [(across + chance.uniform(-11, 11), up + chance.uniform(-9, 9)) for across, up, number in heaps for _ in range(number)]
    pairs = [(a, b, round(100 * math.dist(points[a], points[b]))) for a, b in itertools.combinations(range(len(points)), 2)]
    return blossom.min_weight_perfect_matching(pairs).draw(dict(enumerate(points)), labels=False, width=720)


def tour():
    """The tour along all streets of the example."""
    answer = blossom.chinese_postman(blossom.read(os.path.join(TOP, "examples", "streets.csv")))
    return blossom.draw(answer, PLACES, duals=False, odd_sets=False, width=720)


def decoding():
    """A least set of errors for the detectors that fired (dark) in a patch of a surface code with a boundary at its left."""
    decoder, places, rows, columns = blossom.Decoder(), {}, 6, 9
    for row, column in itertools.product(range(rows), range(columns)):
        here = row * columns + column
        places[here] = (column, row)
        if column == 0:
            decoder.add_boundary_edge(here, fault_ids=0)
        if column + 1 < columns:
            decoder.add_edge(here, here + 1)
        if row + 1 < rows:
            decoder.add_edge(here, here + columns)
    answer = decoder.answer({1, 12, 13, 22, 25, 33, 37, 38, 51})
    places[decoder.num_nodes] = (-1.8, (rows - 1) / 2)
    return blossom.draw(answer, places, duals=False, odd_sets=False, weights=False, labels={decoder.num_nodes: "boundary"}, width=720)


def barrier():
    """A graph without a perfect matching: without the two red nodes there are four odd components, which two nodes can't serve."""
    edges = [("a", "h"), ("c", "h"), ("h", "i"), ("c", "i"), ("d", "i"), ("e", "i"), ("c", "p"), ("p", "q"), ("q", "c"), ("e", "r"), ("r", "s"), ("s", "e")]
    places = {"a": (0, 1.6), "h": (1.3, 1), "c": (2.5, 2), "i": (3.7, 1), "d": (3.1, -0.1), "e": (5, 1.2), "p": (2, 3), "q": (3, 3), "r": (6, 1.8), "s": (6, 0.6)}
    try:
        blossom.min_weight_perfect_matching(edges)
    except blossom.Infeasible as told:
        return blossom.draw(told, places, weights=False)
    raise SystemExit("the graph has a perfect matching")


PICTURES = {"matching": matching, "duals": duals, "tour": tour, "decoding": decoding, "barrier": barrier}


def gallery():
    """Runs the scripts of the gallery beside its pictures."""
    folder = os.path.join(TOP, "examples", "gallery")
    os.makedirs(os.path.join(folder, "pictures"), exist_ok=True)
    environment = dict(os.environ, PYTHONPATH=os.path.join(TOP, "python"))
    for script in sorted(glob.glob(os.path.join(folder, "*.py"))):
        print(os.path.basename(script), flush=True)
        subprocess.run([sys.executable, script], cwd=os.path.join(folder, "pictures"), env=environment, check=True)


def main():
    parser = argparse.ArgumentParser(description=__doc__, formatter_class=argparse.RawDescriptionHelpFormatter)
    parser.add_argument("folder", nargs="?", default=os.path.join(TOP, "docs", "pictures"))
    parser.add_argument("--png", action="store_true")
    parser.add_argument("--gallery", action="store_true")
    given = parser.parse_args()
    if given.gallery:
        return gallery()
    os.makedirs(given.folder, exist_ok=True)
    for name, make in PICTURES.items():
        picture = make()
        for ending in [".svg"] + ([".png"] if given.png else []):
            picture.save(os.path.join(given.folder, name + ending))


if __name__ == "__main__":
    main()
