#!/usr/bin/env python3
"""Lists the definitions of specs/ that no clause reaches, by names: a clause cites a definition,
and that one others. What stands in braces behind `requires`, `ensures` or a `ghost` member of a .rt
file is a clause.

Usage: uncited_definitions.py [TOP] [--private]. With --private also those that only clauses of
private calls reach. A line has the file, the line and the name, and how many files of proofs/ name
it; the last line has the counts."""
import argparse
import collections
import glob
import os
import re

DEFINITION = re.compile(r"(?:abbrev pub|abbrev|pub record|record|pub data|data|pub)\s+(\S+)")
USE = re.compile(r"(?:pub )?(?:ghost )?use (Rattle[\w.]*?)(?:\.\{([^}]*)\})?;?\s*$")
CLAUSE = re.compile(r"\b(?:requires|ensures)\b[^{};]*\{|\bghost (?!use\b)\w+\b[^;{=]*=?\s*\{")
FUNCTION = re.compile(
    r"^([ \t]*)(pub )?(?:pub\(crate\) )?(?:extern \"C\" )?fn \w+"
    r"|^(?:impl|pub trait|trait)\b[^\n]*",
    re.M,
)


def files(top, pattern):
    for path in sorted(glob.glob(os.path.join(top, "crates", pattern), recursive=True)):
        if "/out/" not in path:
            with open(path, encoding="utf-8") as file:
                yield os.path.relpath(path, os.path.join(top, "crates")), file.read()


def bare(text, comment):
    """The text without comments."""
    return re.sub(r"(^|[ \t])%s.*$" % comment, "", text, flags=re.M)


def imports(text):
    """What each name that the text imports stands for: a module and a name."""
    found = {}
    for line in text.splitlines():
        use = USE.match(line.strip())
        if use and use[2] is None:
            module, _, name = use[1].rpartition(".")
            found[name] = module, name
        elif use:
            for item in filter(None, map(str.strip, use[2].split(","))):
                names = item.split(" as ")
                found[names[-1].strip()] = use[1], names[0].strip()
    return found


class Definitions:
    def __init__(self, top):
        self.lines, self.bodies = {}, collections.defaultdict(str)
        self.imports, self.passed_on, self.named = {}, {}, collections.defaultdict(list)
        for path, text in files(top, "*/specs/**/*.antt"):
            self.read(path, bare(text, "--"))

    def read(self, path, text):
        module = "Rattle." + path[: -len(".antt")].replace("/", ".")
        self.imports[module] = imports(text)
        passed_on = imports("\n".join(re.findall("^pub use.*", text, re.M)))
        self.passed_on.update({(module, name): of for name, of in passed_on.items()})
        key = None
        for number, line in enumerate(text.splitlines(), 1):
            start = DEFINITION.match(line)
            if re.match(r"(pub )?(use|mod)\b", line):
                key = None
            elif start:
                key = module, start[1]
                self.lines[key] = path, number
                self.named[module].append(start[1])
            elif line[:1].strip() and (module, line.split()[0]) in self.lines:
                key = module, line.split()[0]
            if key:
                self.bodies[key] += line[start.end() :] + "\n" if start else line + "\n"

    def cited(self, text, names):
        """The definitions that a text cites by these names. A name like ◌≡◌ is cited by its
        parts."""
        words, found = set(re.split(r"[\s(){}\[\];,.]+", text)), set()
        for name, of in names.items():
            if all(part in words for part in filter(None, name.split("◌"))):
                while of not in self.lines and of in self.passed_on:
                    of = self.passed_on[of]
                found.add(of)
        return found & self.lines.keys()

    def below(self, key):
        module = key[0]
        own = {name: (module, name) for name in self.named[module]}
        return self.cited(self.bodies[key], {**self.imports[module], **own})

    def reached(self, keys):
        done, left = set(keys), list(keys)
        while left:
            more = self.below(left.pop()) - done
            done |= more
            left += more
        return done


def in_braces(text, start):
    depth = 0
    for place in range(start, len(text)):
        depth += (text[place] == "{") - (text[place] == "}")
        if depth == 0:
            return text[start:place]
    return text[start:]


def is_public(text, place):
    """Whether the clause at this place is of a public call, or of one of a trait."""
    function = block = None
    for head in FUNCTION.finditer(text, 0, place):
        if re.match(r"impl|pub trait|trait", head[0]):
            block = head[0]
        else:
            function = head
    if function is None or function[2]:
        return True
    return bool(function[1] and block) and ("trait" in block or " for " in block)


def clauses(top, definitions):
    """The definitions that clauses of public calls cite, and those that clauses of private ones
    do."""
    public, private = set(), set()
    for _, text in files(top, "*/src/**/*.rt"):
        text = bare(text, "//")
        names = imports(text)
        for clause in CLAUSE.finditer(text):
            member = clause[0].startswith("ghost")
            cited = definitions.cited(in_braces(text, clause.end() - 1), names)
            (public if member or is_public(text, clause.start()) else private).update(cited)
    return public, private


def main():
    parser = argparse.ArgumentParser(description=__doc__)
    parser.add_argument("top", nargs="?", default=".")
    parser.add_argument("--private", action="store_true")
    words = parser.parse_args()
    definitions = Definitions(words.top)
    public, private = clauses(words.top, definitions)
    by_public = definitions.reached(public)
    by_any = definitions.reached(public | private)
    by_none = definitions.lines.keys() - by_any
    proofs = collections.Counter()
    for _, text in files(words.top, "*/proofs/**/*.antt"):
        text = bare(text, "--")
        names = imports(text)
        proofs.update(definitions.cited(re.sub("^(pub )?use .*$", "", text, flags=re.M), names))
    lists = [("no clause", by_none)]
    if words.private:
        lists.append(("private clauses alone", by_any - by_public))
    for which, keys in lists:
        for key in sorted(keys, key=definitions.lines.get):
            path, line = definitions.lines[key]
            print(
                "%s:%d: %s: %s; named in %d of proofs/" % (path, line, key[1], which, proofs[key])
            )
    print(
        "%d definitions, %d that clauses of public calls reach, %d that others do, %d that none do"
        % (len(definitions.lines), len(by_public), len(by_any - by_public), len(by_none))
    )


if __name__ == "__main__":
    main()
