"""Docstrings: the examples run as they are written, and every public name has a docstring that
names its parameters."""
import ast
import doctest
import functools
import glob
import inspect
import os
import re
import types
import unittest

import blossom
from support import TOP, wanted

PACKAGE = os.path.join(TOP, "python", "blossom")
#: What members of a class are, apart from the fields of tuples and data classes.
MEMBERS = (property, functools.cached_property, classmethod, staticmethod, types.FunctionType)
WITH_DOCSTRINGS = (ast.Module, ast.ClassDef, ast.FunctionDef)


def docstrings():
    """Path, name, line and docstring of each module, class and function of the package: as the
    source has them, since doctest's own search passes over decorated functions."""
    for path in sorted(glob.glob(os.path.join(PACKAGE, "**", "*.py"), recursive=True)):
        with open(path, encoding="utf-8") as file:
            tree = ast.parse(file.read())
        for node in ast.walk(tree):
            text = isinstance(node, WITH_DOCSTRINGS) and ast.get_docstring(node)
            if text:
                name = getattr(node, "name", "the module")
                yield os.path.relpath(path, TOP), name, node.body[0].lineno - 1, text


def public():
    """Each public name and each public member of a class, with its name."""
    for name in sorted(set(blossom.__all__) - {"KINDS"}):
        thing = getattr(blossom, name)
        yield name, thing
        own = vars(thing) if inspect.isclass(thing) else {}
        for member, value in own.items():
            if not member.startswith("_") and isinstance(value, MEMBERS):
                yield "%s.%s" % (name, member), value


def parameters(call):
    """The names of the parameters of a call."""
    call = getattr(call, "__func__", call)
    if not isinstance(call, types.FunctionType):
        return set()
    return set(inspect.signature(call).parameters) - {"self", "cls"}


class Examples(unittest.TestCase):
    maxDiff = None

    def run_examples(self, needs):
        """Runs the examples that need numpy, or those that don't. Returns how many there were."""
        parser, runner, said = doctest.DocTestParser(), doctest.DocTestRunner(verbose=False), []
        for path, name, line, text in docstrings():
            test = parser.get_doctest(text, {"blossom": blossom}, name, path, line)
            if test.examples and needs_numpy(test) == needs:
                runner.run(test, out=said.append)
        self.assertEqual("", "".join(said))
        return runner.tries

    def test_examples_run_as_they_are_written(self):
        self.assertGreater(self.run_examples(False), 60)

    def test_examples_with_arrays_run_as_they_are_written(self):
        wanted("numpy")
        self.assertGreater(self.run_examples(True), 1)


class Documented(unittest.TestCase):
    def test_every_public_name_has_a_docstring_with_a_summary_of_one_line(self):
        for name, thing in public():
            with self.subTest(name):
                first, *rest = (inspect.getdoc(thing) or "").split("\n")
                self.assertRegex(first, r"\w.*[.:]$")
                self.assertEqual("", "".join(rest[:1]), "the summary has a second line")

    def test_every_parameter_is_named(self):
        for name, thing in public():
            text = inspect.getdoc(thing) or ""
            entries = re.findall(r"^[*\w]+(?:, ?\n?[*\w]+)*", text, re.M)
            named = {word.lstrip("*") for one in entries for word in re.split(r",\s*", one)}
            with self.subTest(name):
                self.assertEqual(set(), set(parameters(thing)) - named)


def needs_numpy(test):
    """Whether an example makes or returns an array."""
    return any("numpy" in one.source or "tolist()" in one.source for one in test.examples)


if __name__ == "__main__":
    unittest.main()
