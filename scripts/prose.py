#!/usr/bin/env python3
"""Checks the prose of README.md, docs/, python/ and capi/, and of the comments of sources and
definitions in crates/: words that the field doesn't use, sentences over 35 words, and messages in
forms that CONTRIBUTING.md rules out.

Usage: prose.py [FILE ..]. Without files it checks all of them. It prints a line for each finding
and ends with status 1 if there are any."""
import ast
import glob
import os
import re
import sys

TOP = os.path.join(os.path.dirname(os.path.abspath(__file__)), "..")
PAGES = ("README.md", "CONTRIBUTING.md", "CHANGELOG.md", "docs/*.md", "capi/*.md", "python/*.md")
CODE = ("python/blossom/**/*.py", "capi/*.h", "capi/*.hpp", "capi/*.c", "scripts/*.py", "blossom")
CRATES = ("crates/*/src/**/*.rt", "crates/*/specs/**/*.antt", "crates/*/README.md")
#: Lines of a crate that are comments, by the ending of the file.
COMMENTS = {".rt": re.compile(r"\s*//"), ".antt": re.compile(r"\s*--")}
LONGEST = 35
#: What is refused, and what to write in its place.
WORDS = {
    r"wants? of memory|memory is wanting": "out of memory",
    r"\bspeaks? of\b": "refers to",
    r"\bstands? on\b": "depends on",
    r"\bhangs? together\b": "connected",
    r"\bfrom 0 on\b": "nonnegative",
    r"\bbelow 0\b": "negative",
    r"(?<!there )\bis no (?!longer|more\b|better)": "isn't a",
    r"\bas can be\b": "minimum or maximum",
    r"\bof the most edges\b": "maximum",
    r"\bwhole (number|weight)s?\b": "integer",
    r"\bthe gate\b": "CI",
    r"\bthe kit\b": "the Rattle toolchain",
}
MESSAGE = re.compile(r"\band not\b|\bis one of\b|\bare those of\b")


def paragraphs(text):
    """The prose of a Markdown page: line number and text of each paragraph or list item, without
    code, tables, headings, pictures and link targets."""
    found, fenced = [], False
    for number, line in enumerate(text.split("\n"), 1):
        if line.startswith("```"):
            fenced = not fenced
        bare = line.strip()
        marked = line.startswith(("    ", "\t", "```", "#", "!", "<")) or bare.startswith("|")
        if fenced or marked or not bare:
            found.append((number, ""))
        elif re.match(r"([-*>]|\d+\.) ", bare):
            found.append((number, re.sub(r"^([-*>]|\d+\.) ", "", bare)))
        elif found and found[-1][1]:
            found[-1] = (found[-1][0], found[-1][1] + " " + bare)
        else:
            found.append((number, bare))
    return [(number, text) for number, text in found if text]


def long_sentences(text):
    for number, paragraph in paragraphs(text):
        plain = re.sub(r"\]\([^)]*\)", "]", paragraph)
        plain = re.sub(r"`[^`]*`", "Code", plain)
        for sentence in re.split(r"(?<=[.!?:])[)\"*]*\s+(?=[A-Z(`*\"\[])", plain):
            words = re.findall(r"[A-Za-z0-9][\w'-]*", sentence)
            if len(words) > LONGEST:
                yield number, "a sentence of %d words: %s .." % (len(words), sentence[:60])


def comments(text, ending):
    """The text with empty lines in place of what isn't a comment."""
    comment = COMMENTS[ending]
    return "\n".join(line if comment.match(line) else "" for line in text.split("\n"))


def unwanted_words(text):
    before = ""
    for number, line in enumerate(text.split("\n"), 1):
        if before.endswith("there"):  # 'there is no' over two lines
            line = re.sub(r"^(\W*)is no\b", r"\1", line)
        before = line
        for pattern, better in WORDS.items():
            for found in re.finditer(pattern, line, re.I):
                yield number, "%r: write %s" % (found[0], better)


def messages(text):
    """Texts in raise statements that name what was got by 'and not', or choices by 'is one of'."""
    for node in ast.walk(ast.parse(text)):
        if isinstance(node, ast.Raise) and node.exc is not None:
            for part in ast.walk(node.exc):
                if isinstance(part, ast.Constant) and isinstance(part.value, str):
                    found = MESSAGE.search(part.value)
                    if found:
                        yield part.lineno, "a message with %r: %r" % (found[0], part.value[:60])


def findings(path):
    with open(path, encoding="utf-8") as file:
        text = file.read()
    ending = os.path.splitext(path)[1]
    found = list(unwanted_words(comments(text, ending) if ending in COMMENTS else text))
    if path.endswith(".md"):
        found += long_sentences(text)
    if path.endswith(".py"):
        found += messages(text)
    return sorted(found)


def files():
    for pattern in PAGES + CODE + CRATES:
        yield from sorted(glob.glob(os.path.join(TOP, pattern), recursive=True))


def main():
    here = os.path.abspath(__file__)
    count = 0
    for path in sys.argv[1:] or files():
        if os.path.abspath(path) == here:
            continue
        for number, said in findings(path):
            print("%s:%d: %s" % (os.path.relpath(path, TOP), number, said))
            count += 1
    print("%d findings" % count)
    sys.exit(1 if count else 0)


if __name__ == "__main__":
    main()
