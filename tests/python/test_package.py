"""The package as such: what it needs, how it is installed, and the pages that show it."""
import ast
import glob
import os
import re
import subprocess
import sys
import tempfile
import unittest
from xml.etree import ElementTree

from support import HERE, TOP, library_or_skip, wanted

PYTHON = os.path.join(TOP, "python")
OTHERS = ("networkx", "matplotlib", "numpy", "tqdm", "pandas", "scipy", "hypothesis", "pytest")
COMPLETE = ("README.md", "docs/PYTHON.md", "docs/TUTORIAL.md", "docs/HOWTO.md")


def code_of(page):
    """The pieces of Python on a page: indented lines that begin with an import, and what follows
    them."""
    with open(os.path.join(TOP, page), encoding="utf-8") as file:
        pieces = re.findall(r"(?:^    .*\n|^\n(?=    ))+", file.read(), re.M)
    codes = [re.sub(r"^    ", "", piece, flags=re.M).strip("\n") + "\n" for piece in pieces]
    return [code for code in codes if re.match(r"(?:import|from) ", code)]


class Package(unittest.TestCase):
    def test_the_syntax_is_that_of_python_3_9(self):
        paths = glob.glob(os.path.join(PYTHON, "**", "*.py"), recursive=True) + glob.glob(
            os.path.join(HERE, "*.py")
        )
        self.assertGreater(len(paths), 30)
        for path in paths:
            with open(path, encoding="utf-8") as file:
                ast.parse(file.read(), path, feature_version=(3, 9))

    def test_the_core_needs_the_standard_library_alone(self):
        code = (
            "import sys\nfor name in %r: sys.modules[name] = None\nimport blossom\n"
            "answer = blossom.min_weight_perfect_matching([('a', 'b', 1)])\nanswer.draw().svg()\nprint(bool(answer.check()), answer.weight)\n"
        )
        done = subprocess.run(
            [sys.executable, "-c", code % (OTHERS,)], capture_output=True, text=True
        )
        self.assertEqual((done.stdout, done.stderr), ("True 1\n", ""))

    def test_every_public_name_is_documented(self):
        import blossom

        for name in blossom.__all__:
            self.assertTrue(name == "KINDS" or getattr(blossom, name).__doc__, name)

    def test_it_is_installed_by_pip_and_finds_the_checkout(self):
        wanted("pip")
        with tempfile.TemporaryDirectory() as room:
            words = [
                sys.executable,
                "-m",
                "pip",
                "install",
                "--quiet",
                "--no-index",
                "--no-deps",
                "--target",
                room,
                PYTHON,
            ]
            done = subprocess.run(
                words,
                capture_output=True,
                text=True,
                env=dict(os.environ, PIP_DISABLE_PIP_VERSION_CHECK="1"),
            )
            self.assertEqual(done.returncode, 0, done.stderr)
            code = "import blossom, blossom.checkout as c; print(blossom.__file__); print(c.checkout())"
            done = subprocess.run(
                [sys.executable, "-c", code],
                capture_output=True,
                text=True,
                cwd=room,
                env=dict(os.environ, PYTHONPATH=room),
            )
        where, top = done.stdout.splitlines()
        self.assertTrue(
            os.path.samefile(top, TOP)
            and os.path.realpath(where).startswith(os.path.realpath(room)),
            done.stdout,
        )


class Pages(unittest.TestCase):
    def test_the_pieces_on_the_pages_run_as_they_stand(self):
        pieces = [(page, code) for page in COMPLETE for code in code_of(page)]
        self.assertGreaterEqual(len([page for page, _ in pieces if page == "docs/PYTHON.md"]), 3)
        self.assertEqual(len([page for page, _ in pieces if page == "README.md"]), 1)
        for page, code in pieces:
            if 'engine="library"' in code and not has_library():
                continue
            with self.subTest(page=page, code=code), tempfile.TemporaryDirectory() as room:
                with open(os.path.join(room, "piece.py"), "w", encoding="utf-8") as file:
                    file.write(code)
                os.symlink(os.path.join(TOP, "examples"), os.path.join(room, "examples"))
                done = subprocess.run(
                    [sys.executable, "piece.py"], cwd=room, capture_output=True, text=True
                )
                self.assertEqual((done.returncode, done.stderr), (0, ""))
                self.assertEqual(done.stdout, expected(code))

    def test_the_pictures_are_there_and_can_be_made(self):
        with open(os.path.join(TOP, "docs", "PYTHON.md"), encoding="utf-8") as file:
            shown = re.findall(r"!\[.*?\]\(pictures/(\w+)\.svg\)", file.read())
        self.assertEqual(len(shown), 5)
        with tempfile.TemporaryDirectory() as room:
            done = subprocess.run(
                [sys.executable, os.path.join(TOP, "scripts", "pictures.py"), room],
                capture_output=True,
                text=True,
            )
            self.assertEqual(
                (done.returncode, sorted(os.listdir(room))),
                (0, sorted(name + ".svg" for name in shown)),
                done.stderr,
            )
            for folder in (room, os.path.join(TOP, "docs", "pictures")):
                self.assertTrue(
                    all(ElementTree.parse(os.path.join(folder, name + ".svg")) for name in shown)
                )


def has_library():
    """Whether the library is there."""
    try:
        return bool(library_or_skip())
    except unittest.SkipTest:
        return False


def expected(code):
    """What a piece prints: it stands behind `# ` at the end of each line that prints."""
    printed = [
        line.partition("  # ")[2]
        for line in code.splitlines()
        if line.lstrip().startswith("print(")
    ]
    return "".join(line + "\n" for line in printed)
