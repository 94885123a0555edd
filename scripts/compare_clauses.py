#!/usr/bin/env python3
"""Compares the clauses of public calls with those of an earlier commit, and lists what went or
changed: calls, clauses, and definitions that the clauses of public calls reach.

Usage: compare_clauses.py REVISION [TOP]. A difference is allowed if scripts/clause_changes.txt
explains it, in lines of these forms (`#` starts a comment):

    rename OLD NEW [CRATE ..]   a word of code or clauses: crate, type, call or definition
    clause OLD NEW [CRATE ..]   a clause or a field of a record; it may have several new names
    phrase OLD -> NEW           a part of the text of clauses or definitions
    moved CRATE::CALL CRATE::CALL           a call that stands elsewhere now
    stronger CRATE::CALL CLAUSE REASON      why a clause that changed promises no less
    gone CRATE::CALL REASON                 why a call went
    definition CRATE.NAME REASON            why a definition that changed promises no less

CRATE is a crate as it was named, where a word is renamed in some crates alone. A clause without a
name has the name `-`. `requires` that came or changed count too, since callers
have to meet them: CLAUSE is then `requires:NAME`. An explanation that no difference needs is
listed as well. The last line counts what is left, and the status is 1 if that isn't 0."""
import argparse
import collections
import os
import re
import subprocess
import sys
import tempfile

from uncited_definitions import Definitions, bare, clauses, files, in_braces

HEAD = re.compile(
    r"^(?P<indent>[ \t]*)(?P<public>pub )?(?:extern \"C\" )?fn (?P<call>\w+)"
    r"|^(?P<block>(?:pub )?(?:impl|trait)\b[^\n{;]*)",
    re.M,
)
KEYWORD = re.compile(r"\b(requires|ensures)\s*(\w*)\s*\{|[{;]")
TABLE = os.path.join(os.path.dirname(os.path.abspath(__file__)), "clause_changes.txt")


def block_name(head):
    """The type that a block of methods is of, with the trait if it is a trait's."""
    head = re.sub(r"^(pub )?(impl|trait)\b", "", head)
    while re.search(r"<[^<>]*>", head):
        head = re.sub(r"<[^<>]*>", "", head)
    parts = [part.split("::")[-1].strip() for part in head.split("where")[0].split(" for ")]
    return " for ".join(parts)


def call_clauses(text, start):
    """The clauses between a call's head and its body, as a map of name to text."""
    found = collections.Counter()
    named = {}
    while True:
        keyword = KEYWORD.search(text, start)
        if keyword is None or keyword[1] is None:
            return named
        body = in_braces(text, keyword.end() - 1)
        name = keyword[2] or "-"
        name = name if keyword[1] == "ensures" else "requires:" + name
        found[name] += 1
        key = name if found[name] == 1 else "%s%d" % (name, found[name])
        named[key] = " ".join(body.strip("{} \n").split())
        start = keyword.end() - 1 + len(body)


def public_calls(top):
    """Each public call of the crates, by crate, type and name, with its clauses."""
    calls = {}
    for path, text in files(top, "*/src/**/*.rt"):
        crate = path.split("/")[0]
        text = bare(text, "//")
        block = ""
        for head in HEAD.finditer(text):
            if head["block"]:
                block = head["block"]
                continue
            inside = block if head["indent"] else ""
            of_trait = bool(re.search(r"\btrait\b| for ", inside))
            if head["public"] or of_trait:
                names = [crate, block_name(inside), head["call"]]
                calls["::".join(filter(None, names))] = call_clauses(text, head.end())
    return calls


def reached_definitions(top):
    """The text of each definition that clauses of public calls reach, by crate and name."""
    definitions = Definitions(top)
    public, _ = clauses(top, definitions)
    texts = collections.defaultdict(list)
    for module, name in definitions.reached(public):
        crate = module.split(".")[1]
        texts["%s.%s" % (crate, name)].append(" ".join(definitions.bodies[module, name].split()))
    return {key: " | ".join(sorted(text)) for key, text in texts.items()}


WORD = re.compile(r"[\w'◌]+")
#: What stands before the name of a field: a record, another field, or the record's declaration.
FIELD_BEFORE = re.compile(r"[\w')\]]\.$|[{;] $|\bpub $|\bwhere $")
FIELD_AFTER = re.compile(r" [:=] ")


def is_field(text, word):
    """Whether a word of a clause or a definition is the name of a field."""
    before = FIELD_BEFORE.search(text, max(0, word.start() - 6), word.start())
    return bool(before) and (text[word.start() - 1] == "." or FIELD_AFTER.match(text, word.end()))


class Table:
    """The explanations of scripts/clause_changes.txt, and which of them were needed."""

    def __init__(self, path):
        self.words, self.clauses = collections.defaultdict(dict), collections.defaultdict(dict)
        self.phrases, self.moved, self.reasons, self.needed = {}, {}, {}, set()
        if not os.path.exists(path):
            return
        with open(path, encoding="utf-8") as file:
            for line in file:
                self.read(line.split("#")[0].split())

    def read(self, fields):
        if not fields:
            return
        if fields[0] == "rename":
            for crate in fields[3:] or [None]:
                self.words[crate][fields[1]] = fields[2]
        elif fields[0] == "clause":
            for crate in fields[3:] or [None]:
                self.clauses[crate].setdefault(fields[1], []).append(fields[2])
        elif fields[0] == "phrase":
            old, _, new = " ".join(fields[1:]).partition(" -> ")
            self.phrases[old] = new
        elif fields[0] == "moved":
            self.moved[fields[1]] = fields[2]
        else:
            keys = 3 if fields[0] == "stronger" else 2
            self.reasons[tuple(fields[:keys])] = " ".join(fields[keys:])

    def word(self, crate, word):
        """A word of a crate as it is named now."""
        return self.words[crate].get(word, self.words[None].get(word, word))

    def clause(self, crate, name, now):
        """A clause's name as it is now: of several new names the one that a call has."""
        kind, _, bare_name = name.rpartition(":")
        news = [*self.clauses[crate].get(bare_name, []), *self.clauses[None].get(bare_name, [])]
        named = [new if not kind else kind + ":" + new for new in [*news, bare_name]]
        return next((new for new in named if new in now), name)

    def fields(self, crate):
        """Of each field of a crate that was renamed, by its new names and its own, the old one."""
        found = {}
        for renamed in (self.clauses[None], self.clauses[crate]):
            for old, news in renamed.items():
                found.update(dict.fromkeys([old, *news], old))
        return found

    def text(self, crate, text, was):
        """A text of a crate to compare: as it is named now, but with fields as they were."""
        if was:
            for old, new in self.phrases.items():
                text = text.replace(old, new)
        fields = self.fields(crate)

        def named(word):
            if is_field(text, word) and word[0] in fields:
                return fields[word[0]]
            return self.word(crate, word[0]) if was else word[0]

        return WORD.sub(named, text)

    def renamed(self, name):
        """The name of a call or a definition, which begins with its crate."""
        crate = WORD.match(name)[0]
        return WORD.sub(lambda word: self.word(crate, word[0]), name)

    def place(self, call):
        return self.moved.get(call, self.renamed(call))

    def explains(self, *key):
        if self.reasons.get(key):
            self.needed.add(key)
            return True
        return False


def differences(table, before, after):
    """What went or changed among calls and their clauses, as lines."""
    for call in sorted(before):
        now = after.get(table.place(call))
        if now is None:
            if not table.explains("gone", call):
                yield "%s: the call is gone" % call
            continue
        crate = call.split("::")[0]
        old = {
            table.clause(crate, name, now): table.text(crate, text, True)
            for name, text in before[call].items()
        }
        now = {name: table.text(crate, text, False) for name, text in now.items()}
        for name in sorted(old.keys() | now.keys()):
            came = name not in old
            if old.get(name) == now.get(name) or came and not name.startswith("requires:"):
                continue
            if not came and name not in now and name.startswith("requires:"):
                continue
            if not table.explains("stronger", call, name):
                how = "came" if came else "changed" if name in now else "is gone"
                yield "%s: %s %s" % (call, name, how)


def definition_differences(table, before, after):
    for key in sorted(before):
        now = after.get(table.renamed(key))
        if now is None:
            named = table.renamed(key).split(".")[1]
            same = [name for name in after if name.split(".")[1] == named]
            now = after[same[0]] if len(same) == 1 else None
        crate = key.split(".")[0]
        was = table.text(crate, before[key], True)
        if now is not None:
            now = table.text(crate, now, False)
        if now != was and not table.explains("definition", key):
            yield "%s: the definition %s" % (key, "is gone" if now is None else "changed")


def main():
    parser = argparse.ArgumentParser(description=__doc__.split("\n")[0])
    parser.add_argument("revision")
    parser.add_argument("top", nargs="?", default=".")
    words = parser.parse_args()
    table = Table(TABLE)
    with tempfile.TemporaryDirectory() as folder:
        archive = subprocess.run(
            ["git", "-C", words.top, "archive", words.revision, "crates"],
            check=True,
            capture_output=True,
        )
        subprocess.run(["tar", "-x", "-C", folder], input=archive.stdout, check=True)
        before, after = public_calls(folder), public_calls(words.top)
        found = list(differences(table, before, after))
        older, newer = reached_definitions(folder), reached_definitions(words.top)
        found += definition_differences(table, older, newer)
    found += ["not needed: " + " ".join(key) for key in table.reasons if key not in table.needed]
    print("\n".join(found) if found else "no clause went or got weaker")
    print(
        "%d public calls with %d clauses, %d definitions; %d explained, %d left"
        % (
            len(before),
            sum(map(len, before.values())),
            len(older),
            len(table.needed),
            len(found),
        )
    )
    sys.exit(1 if found else 0)


if __name__ == "__main__":
    main()
