"""What is said of wrong uses: never an error of Python itself, and in the same form everywhere."""
import ast
import glob
import importlib
import os
import pkgutil
import re
import unittest
import warnings

import blossom
from support import TOP
from wrong_uses import USES

#: Words that no message has, since they say what is the case only by what isn't.
REFUSED_WORDS = (" and not ", "is one of", "those of ", "is no ", " none of", "has to be")


class WrongUses(unittest.TestCase):
    def test_each_is_refused_with_what_to_do(self):
        self.assertGreaterEqual(len(USES), 200)
        for number, (call, words, how, error, said) in enumerate(USES):
            with self.subTest(number=number, said=said), warnings.catch_warnings():
                warnings.simplefilter("ignore", DeprecationWarning)
                with self.assertRaisesRegex(error, said) as told:
                    call(*words, **how)
                self.assertIsInstance(told.exception, (blossom.BlossomError, TypeError))

    def test_a_default_can_be_passed_with_an_instance(self):
        of = blossom.Instance.from_graph([(1, 2, 3)], "match")
        answer = blossom.max_weight_matching(of, scale=1, nodes=(), rounding=None)
        self.assertEqual(answer.weight, 3)

    def test_what_is_raised(self):
        inner = [
            (os.path.basename(path), name)
            for path, name in raised()
            if not (name == "TypeError" or issubclass(exception(name), blossom.BlossomError))
        ]
        self.assertEqual(set(inner), CAUGHT_WITHIN | OF_PYTHON)

    def test_the_form_of_messages(self):
        for path, text in messages():
            with self.subTest(os.path.basename(path), text=text):
                self.assertFalse(text.endswith("."), text)
                self.assertFalse(text[:1].isupper() and text[1:2].islower(), text)
                for word in REFUSED_WORDS:
                    self.assertNotIn(word, text)


#: What other functions of the package catch, to raise an error of their own.
CAUGHT_WITHIN = {(name + ".py", "ValueError") for name in ("documents", "weights", "wording")}
#: What Python itself raises: for an attribute, a library or a file that isn't there.
OF_PYTHON = {
    ("__init__.py", "AttributeError"),
    ("wording.py", "ImportError"),
    ("html.py", "FileNotFoundError"),
}


def exception(name):
    """The exception of this name, of the package or of Python."""
    for module in pkgutil.walk_packages(blossom.__path__, "blossom."):
        if not module.name.endswith("__main__"):
            importlib.import_module(module.name)
    return next(one for one in subclasses(BaseException) if one.__name__ == name)


def subclasses(of):
    """The class and all classes below it."""
    return [of, *(one for below in of.__subclasses__() for one in subclasses(below))]


def raised():
    """The names of exceptions that stand at a `raise`, each with its file."""
    for path, what in raises():
        name = getattr(what, "func", what)
        if isinstance(name, ast.Name) and name.id[:1].isupper():
            yield path, name.id


def raises():
    """What stands at a `raise` in the package, each with its file."""
    for path in glob.glob(os.path.join(TOP, "python", "blossom", "**", "*.py"), recursive=True):
        with open(path, encoding="utf-8") as file:
            tree = ast.parse(file.read())
        for node in ast.walk(tree):
            if isinstance(node, ast.Raise) and node.exc is not None:
                yield path, node.exc


def messages():
    """The texts that the package raises, as far as they stand at a `raise`."""
    for path, what in raises():
        texts = [
            one.value
            for one in ast.walk(what)
            if isinstance(one, ast.Constant) and isinstance(one.value, str)
        ]
        if texts and re.search(r"\w \w", texts[0]):
            yield path, texts[0]


if __name__ == "__main__":
    unittest.main()
