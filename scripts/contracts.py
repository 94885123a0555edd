#!/usr/bin/env python3
"""Writes the page CONTRACTS.md of a release: the contracts of the program's call `run`, of the
checker `judge` and of the library's `blossom_solve_arrays` and `blossom_join_arrays`, with every
definition, type and constant of this repository that they reach.

Usage: contracts.py [FILE]. Without a file it prints the page. A clause cites a definition, and that
one others, as `scripts/uncited_definitions.py` reads them. Names of the toolchain's libraries
(`Rattle.std` and so on) are left to their pages."""
import glob
import os
import re
import sys

from sources import TOP, crates_below
from uncited_definitions import Definitions, bare, imports

CALLS = (
    (
        "run",
        "match_cli",
        "src/program.rt",
        "What the program does, from its arguments to its status.",
    ),
    ("judge", "cert_check", "src/judging.rt", "What `check` decides about a document."),
    (
        "blossom_solve_arrays",
        "blossom_c",
        "src/array_border.rt",
        "What a C program gets for an instance in arrays.",
    ),
    (
        "blossom_join_arrays",
        "blossom_c",
        "src/join_border.rt",
        "What a C program gets for many sets of terminals in one graph.",
    ),
)
TYPE = re.compile(r"^pub (?:struct|enum|trait|const) (\w+)", re.M)
FRONT = """# Contracts

The contracts of four calls, and every definition of this repository that they reach: %(count)d
definitions and %(types)d types and constants on %(lines)s lines. This page is generated from the
sources. What is proved is what it says: to judge that, you need to read no body and no proof.

A clause behind `requires` binds the caller, and one behind `ensures` the call. In a clause, `.old`
and `.new` are the states before and after the call, and `result` is what it returns. Definitions are
in Rattle's logic: `≡` is equality, `×` is 'and', `→` is 'implies' or 'for each', and `(x : A) × B`
is 'there is an x of A such that B'. Names that no definition here explains are those of the
toolchain's libraries: lists, options, integers, bytes.

"""


def text_of(path):
    with open(os.path.join(TOP, "crates", path), encoding="utf-8") as file:
        return file.read()


def front_of(text, place):
    """Where the comments and attributes in front of a place begin."""
    lines = text[:place].split("\n")
    while len(lines) > 1 and re.match(r"///|#\[|--", lines[-2]):
        del lines[-2]
    return len("\n".join(lines))


def contract(text, name):
    """A function without its body, with the comments in front of it."""
    start = re.search(r"^pub (?:extern \"C\" )?fn %s\b" % name, text, re.M).start()
    end = text.index("\n{", start)
    return text[front_of(text, start) : end]


def block(text, start):
    """An item of Rattle from a place: to the brace that closes it, or to its semicolon."""
    end = re.compile(r"^\}|;$", re.M).search(text, start)
    return text[front_of(text, start) : end.end()]


class Types:
    """The types and constants of crates, and how their values look in the logic."""

    def __init__(self):
        self.texts, self.files, self.models = {}, {}, {}
        crates = os.path.join(TOP, "crates")
        for path in sorted(glob.glob(crates + "/*/src/**/*.rt", recursive=True)):
            path = os.path.relpath(path, crates)
            self.read(path, text_of(path))

    def read(self, path, text):
        crate = path.split("/")[0]
        for start in TYPE.finditer(text):
            self.texts[crate, start[1]] = block(text, start.start())
            self.files[crate, start[1]] = path
        for start in re.finditer(r"^impl(?:<.*>)? Model for (\w+)", text, re.M):
            self.models[crate, start[1]] = block(text, start.start())

    def whole(self, key):
        """The text of a type, with that of its values."""
        texts = [self.texts[key], self.models.get(key)]
        return "\n\n".join(text for text in texts if text)

    def cited(self, text, path):
        """The types and constants that a text of a file cites."""
        crate, found = path.split("/")[0], set()
        words = set(re.findall(r"\w+", bare(text, "//")))
        of = {name: (crate, name) for name in words}
        for use in re.finditer(r"^use (\w+)::\{?([^;]*?)\}?;", text_of(path), re.M):
            if use[1] != "crate":
                of.update({name: (use[1], name) for name in re.findall(r"\w+", use[2])})
        for name in words:
            if of[name] in self.texts:
                found.add(of[name])
        return found


class Reached:
    """What the contracts reach."""

    def __init__(self):
        self.definitions, self.types = Definitions(TOP), Types()
        self.keys, self.declared, self.left = set(), set(), []

    def take(self, text, path):
        """Takes what a text of a source of Rattle reaches."""
        names = imports(bare(text_of(path), "//"))
        names.update(imports(bare(text, "//")))
        self.add_keys(self.definitions.cited(bare(text, "//"), names))
        self.add_types(self.types.cited(text, path))

    def add_keys(self, keys):
        for key in self.definitions.reached(keys) - self.keys:
            self.keys.add(key)
            self.add_types(self.declared_by(key))

    def declared_by(self, key):
        """The types and constants of Rattle that a definition cites."""
        words = set(re.split(r"[\s(){}\[\];,.]+", self.definitions.bodies[key]))
        found = set()
        for name, (module, own) in self.definitions.imports[key[0]].items():
            if ".specs.declared." in module and name in words:
                _, crate, *_, above, last = module.split(".")
                found.add((crate, {"TheConstants": own, "TheVariants": above}.get(last, last)))
        return found & self.types.texts.keys()

    def add_types(self, types):
        for key in types - self.declared:
            self.declared.add(key)
            self.take(self.types.whole(key), self.types.files[key])


def definition(lines, number, starts):
    """The text of a definition that begins at a line, with the comments in front of it."""
    front, end = number - 1, min([at for at in starts if at > number], default=len(lines) + 1)
    while front > 0 and lines[front - 1].startswith("--"):
        front -= 1
    found = lines[front : end - 1]
    while found and (not found[-1].strip() or found[-1].startswith("--")):
        found.pop()
    return "\n".join(found)


def module(definitions, path, keys):
    """The definitions of a module that are reached, in their order."""
    lines = text_of(path).split("\n")
    starts = sorted(number for at, number in definitions.lines.values() if at == path)
    numbers = sorted(definitions.lines[key][1] for key in keys)
    return "\n\n".join(definition(lines, number, starts) for number in numbers)


def places(reached):
    """What is reached, by crates in the order of crates.txt and by files: lists of texts."""
    found = {}
    for key in sorted(reached.keys):
        path = reached.definitions.lines[key][0]
        found.setdefault(path, set()).add(key)
    texts = {path: module(reached.definitions, path, keys) for path, keys in found.items()}
    for key in sorted(reached.declared):
        path, text = reached.types.files[key], reached.types.whole(key)
        texts[path] = "\n\n".join(filter(None, [texts.get(path), text]))
    order = list(crates_below(*(crate for _, crate, _, _ in CALLS)))
    return sorted(texts.items(), key=lambda pair: (order.index(pair[0].split("/")[0]), pair[0]))


def code(text):
    return "```\n%s\n```\n" % text.strip("\n")


def page():
    """The whole page."""
    reached, parts = Reached(), []
    for name, crate, path, told in CALLS:
        text = contract(text_of(crate + "/" + path), name)
        reached.take(text, crate + "/" + path)
        parts.append("## `%s` (`%s`)\n\n%s\n\n%s" % (name, crate, told, code(text)))
    parts.append("## Definitions\n")
    for path, text in places(reached):
        parts.append("### crates/%s\n\n%s" % (path, code(text)))
    body = "\n".join(parts)
    told = {"count": len(reached.keys), "types": len(reached.declared)}
    return FRONT % dict(told, lines="{:,}".format(body.count("\n"))) + body


def main(words):
    if len(words) > 1 or words[:1] in (["-h"], ["--help"]):
        print(__doc__)
        return 2
    if words:
        with open(words[0], "w", encoding="utf-8") as file:
            file.write(page())
    else:
        print(page(), end="")
    return 0


if __name__ == "__main__":
    sys.exit(main(sys.argv[1:]))
