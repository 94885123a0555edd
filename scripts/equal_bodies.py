#!/usr/bin/env python3
"""Lists the functions of src/ and the definitions of specs/ and proofs/ whose bodies are equal up
to the names that they bind: write each once, in the lowest crate that can hold it. Lemmas are the
part of equal_statements.py, and a table of tests is a constant, which this leaves out.

Usage: equal_bodies.py [TOP] [--lines N]. It compares bodies of at least N lines, by default 3. For
each body it prints the places, and then how many lines it has and how it begins. The last line
counts the bodies and their spare copies."""
import argparse
import collections
import glob
import os
import re

#: What is read, and what a comment begins with.
FILES = ("/*/src/**/*.rt", "/*/specs/**/*.antt", "/*/proofs/**/*.antt")
COMMENT = {"rt": "//", "antt": "--"}
FUNCTION = re.compile(r"^[ \t]*(?:pub(?:\([\w ]+\))? )?(?:const )?(?:extern \"C\" )?fn (\w+)", re.M)
#: The first line of a definition, and that of a lemma or of a clause.
DEFINITION = re.compile(r"(?:pub )?(?:abbrev|record|data) (?:pub )?([^\s:(){}]+)")
HEAD = re.compile(r"(?:pub )?([^\s:(){}]+)")
#: What a block in braces follows if it is a clause.
CLAUSE = re.compile(r"\b(?:requires|ensures)\b[^{};]*$")
QUOTED = re.compile(r"\"(?:[^\"\\]|\\.)*\"|'(?:[^'\\]|\\.)'")
#: What binds names in a function: parameters, `let`, `for`, closures and the arms of a `match`.
PATTERNS = (
    r"[(,]\s*(?:mut )?(\w+)\s*:(?!:)",
    r"\blet ([^=;]+?)\s*=(?!=)",
    r"\bfor (.+?) in\b",
    r"\|([^|\n]*)\|",
    r"^\s*([^=\n]+?) =>",
)
#: The same in a definition: brackets with a type, functions, `let`, arms, the heads of clauses.
BINDERS = (
    r"[({]([^(){}:=]+?) : ",
    r"λ \(?([^.():]+?)(?: :[^.]*?)?\)?\. ",
    r"\blet ([^\s:=]+)",
    r"\|\s*([^↦]+?) ↦",
    r"^§([^=\n]*?) =(?:\s|$)",
)
IMPORTS = re.compile(r"^(?:pub )?(?:ghost )?use [^;\n]*$", re.M)
LOCAL = re.compile(r"[a-z_]\w*(?:[-'][\w']+)*")
TOKEN = re.compile(r"\"(?:[^\"\\]|\\.)*\"|\w+(?:[-'][\w']+)*|::|[^\w\s]")
SHOWN = 90


def bare(text, comment):
    """The text without comments."""
    return re.sub(r"(^|[ \t])%s.*$" % comment, "", text, flags=re.M)


def bound(text, patterns, others=()):
    """The names that a text binds."""
    found = [part for pattern in patterns for part in re.findall(pattern, text, re.M)]
    return {name for part in found for name in LOCAL.findall(part)} - set(others)


def without_names(text, names):
    """The words of a text, with numbers in place of these names, unless they are of a field or of
    a path."""
    words, known = TOKEN.findall(text), {}
    for place, word in enumerate(words):
        if word in names and (not place or words[place - 1] not in (".", "::")):
            words[place] = "§%d" % known.setdefault(word, len(known))
    return " ".join(words)


def closed(text, start):
    """Where the block that begins at a brace ends."""
    depth = 0
    for place in range(start, len(text)):
        depth += (text[place] == "{") - (text[place] == "}")
        if depth == 0:
            return place + 1
    return len(text)


def block(text, start):
    """Where the body of a function begins and ends whose head begins here, if it has one: the
    first block but those of clauses."""
    place = start
    while place < len(text) and text[place] != ";":
        if text[place] == "{" and not CLAUSE.search(text, start, place):
            return place, closed(text, place)
        place = closed(text, place) if text[place] == "{" else place + 1
    return None


def functions(text):
    """The functions of a file: of each the name, the body, and the body without names."""
    flat = QUOTED.sub(lambda quoted: re.sub(r"[{};]", "_", quoted[0]), text)
    for head in FUNCTION.finditer(flat):
        found = block(flat, head.end())
        if found:
            body = text[found[0] + 1 : found[1] - 1].strip("\n")
            names = bound(flat[head.end() : found[0]] + body, PATTERNS)
            yield head[1], body, without_names(body, names)


def own_body(name, lines):
    """The lines of a definition behind its type, with a sign in place of its name: its clauses, or
    the fields of a record."""
    word = re.compile(r"(?<![\w.\-])%s(?![\w\-'])" % re.escape(name))
    marked = [word.sub("§", line) for line in lines]
    clauses = [k for k, line in enumerate(marked) if re.match("§(?! :)", line)]
    return "\n".join(marked[clauses[0] if clauses else 1 :])


def definitions(text):
    """The same of the definitions of a file: the body is what follows the type, in lines that are
    indented or begin with the name."""
    lists = [line.rpartition(".")[2] for line in IMPORTS.findall(text)]
    imported = {name for names in lists for name in LOCAL.findall(names)}
    bodies, name = collections.defaultdict(list), None
    for line in IMPORTS.sub("", text).split("\n"):
        start, head = DEFINITION.match(line), HEAD.match(line)
        if start or head and head[1] not in bodies:
            name = start and start[1]
        if name and line.strip():
            bodies[name].append(line)
    for name, lines in bodies.items():
        body = own_body(name, lines)
        names = bound("\n".join([lines[0], body]), BINDERS, imported)
        yield name, body, without_names(body, names)


def bodies_of(top):
    """All functions and definitions: of each the place, the body, and the body without names."""
    crates = os.path.join(top, "crates")
    for path in sorted(path for kind in FILES for path in glob.glob(crates + kind, recursive=True)):
        ending = path.rpartition(".")[2]
        with open(path, encoding="utf-8") as file:
            text = bare(file.read(), COMMENT[ending])
        for name, body, plain in (functions if ending == "rt" else definitions)(text):
            yield "%s:%s" % (os.path.relpath(path, crates), name), body, plain


def equal_ones(top, least):
    """Bodies of so many lines that stand more than once: their lines, places and words."""
    found, size = collections.defaultdict(list), {}
    for place, body, plain in bodies_of(top):
        size[plain] = sum(1 for line in body.split("\n") if line.strip())
        found[plain].append(place)
    for plain, places in sorted(found.items(), key=lambda item: item[1]):
        if len(places) > 1 and size[plain] >= least:
            yield size[plain], places, plain


def main():
    parser = argparse.ArgumentParser(description=__doc__)
    parser.add_argument("top", nargs="?", default=".")
    parser.add_argument("--lines", type=int, default=3)
    words = parser.parse_args()
    copies = []
    for size, places, plain in equal_ones(words.top, words.lines):
        print("; ".join(places))
        print("      %d lines: %s" % (size, plain[:SHOWN]))
        copies.append(len(places) - 1)
    print("%d bodies, %d spare copies" % (len(copies), sum(copies)))


if __name__ == "__main__":
    main()
