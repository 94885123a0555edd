"""The gallery: its scripts are short, print what docs/GALLERY.md shows, and draw the pictures that it
shows."""
import glob
import os
import re
import subprocess
import sys
import tempfile
import unittest
from xml.etree import ElementTree

from support import TOP, library_or_skip, wanted

FOLDER = os.path.join(TOP, "examples", "gallery")
NAMES = ("tour", "pairing", "drilling", "surface_code", "rota", "groups")
#: Those that need numpy, and the library, by which dense graphs are solved in a second.
DENSE = ("pairing", "drilling")
LONGEST = 25


def sections():
    """For each script what the page says that it prints."""
    with open(os.path.join(TOP, "docs", "GALLERY.md"), encoding="utf-8") as file:
        parts = file.read().split("\n## ")[1:]
    found = {}
    for part in parts:
        name = re.search(r"\(\.\./examples/gallery/(\w+)\.py\)", part).group(1)
        lines = re.findall(r"^    (.*)\n", part, re.M)
        found[name] = "".join(line + "\n" for line in lines)
        picture = "(../examples/gallery/pictures/%s.svg)" % name
        assert picture in part, picture
    return found


def caption(path):
    """What a picture says that it is, without the duals, which differ from build to build."""
    elements = list(ElementTree.parse(path).iter())
    assert len(elements) > 20, path
    title = next(one.text for one in elements if one.tag.endswith("}title"))
    return re.match("[^:]*: [0-9.]+", title).group()


class Gallery(unittest.TestCase):
    def test_the_page_shows_all_scripts(self):
        scripts = {os.path.basename(path)[:-3] for path in glob.glob(os.path.join(FOLDER, "*.py"))}
        self.assertEqual((set(sections()), scripts), (set(NAMES), set(NAMES)))
        for name in NAMES:
            with open(os.path.join(FOLDER, name + ".py"), encoding="utf-8") as file:
                self.assertLessEqual(len(file.read().splitlines()), LONGEST, name)

    def run_script(self, name):
        """A script prints what the page says, and draws the picture."""
        with tempfile.TemporaryDirectory() as room:
            done = subprocess.run(
                [sys.executable, os.path.join(FOLDER, name + ".py")],
                cwd=room,
                capture_output=True,
                text=True,
            )
            self.assertEqual((done.returncode, done.stderr), (0, ""))
            self.assertEqual(done.stdout, sections()[name])
            self.assertEqual(os.listdir(room), [name + ".svg"])
            drawn = caption(os.path.join(room, name + ".svg"))
        self.assertEqual(drawn, caption(os.path.join(FOLDER, "pictures", name + ".svg")))

    def test_scripts(self):
        for name in NAMES:
            if name not in DENSE:
                with self.subTest(name):
                    self.run_script(name)

    def test_scripts_of_dense_graphs(self):
        wanted("numpy")
        library_or_skip()
        for name in DENSE:
            with self.subTest(name):
                self.run_script(name)
