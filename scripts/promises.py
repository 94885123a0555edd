"""The promises of the crates: a sentence stands as a comment above a clause, and with the clauses
below it, up to a blank line or the next comment, it makes a row of docs/PROMISES.md."""
import collections
import functools
import re

from crate_groups import TOP, read, sources
from uncited_definitions import Definitions, imports

#: A call, the clauses of a sentence (None for one without a name), the sentence, and the
#: definitions that these clauses name, each a module and a name.
Promise = collections.namedtuple("Promise", "call clauses sentence definitions")
OWNER = re.compile(r"(?:pub )?(?:impl|trait)\b(?:<.*?>)? (?:\w+(?:<.*?>)? for )?(\w+)")
CALL = re.compile(r"\s*(?:pub(?:\(\w+\))? )?(?:unsafe )?(?:extern \"C\" )?fn (\w+)")
CLAUSE = re.compile(r"\s+(ensures|requires)\b ?(\w*) ?\{(.*)")
SENTENCE = re.compile(r"\s+// ?(?!/)(.*)")


@functools.lru_cache(maxsize=None)
def all_definitions():
    """The definitions of all crates, read once."""
    return Definitions(TOP)


class Source:
    """A source while it is read: the call, and the sentence and clauses that are open."""

    def __init__(self, text, definitions):
        self.definitions, self.names = definitions, imports(text)
        self.owner, self.call = None, None
        self.sentence, self.clauses, self.words = [], [], []
        self.found = []

    def close(self):
        """Ends what is open; a sentence with a clause is a promise."""
        if self.sentence and self.clauses:
            named = self.definitions.cited("\n".join(self.words), self.names)
            sentence = " ".join(self.sentence)
            self.found.append(Promise(self.call, tuple(self.clauses), sentence, sorted(named)))
        self.sentence, self.clauses, self.words = [], [], []

    def head(self, line):
        """Takes a line that begins a trait, its implementation or a call, if it does."""
        owner, call = OWNER.match(line), CALL.match(line)
        if owner or line == "}":
            self.owner = owner and owner[1]
        if call:
            self.call = "%s::%s" % (self.owner, call[1]) if self.owner else call[1]
        return bool(owner or call)

    def take(self, line):
        """Takes the next line."""
        said, clause = SENTENCE.match(line), CLAUSE.match(line)
        if self.head(line) or line.strip() in ("", "{", "}"):
            self.close()
        elif said:
            if self.clauses:
                self.close()
            self.sentence.append(said[1])
        elif clause and clause[1] == "ensures" and self.sentence:
            self.clauses.append(clause[2] or None)
            self.words.append(clause[3])
        elif clause:
            self.close()
        elif self.clauses:
            self.words.append(line)
        else:
            self.sentence = []


def promises_of(text, definitions):
    """The promises of a source, which ends with a closed block, in their order."""
    source = Source(text, definitions)
    for line in text.split("\n"):
        source.take(line)
    return source.found


def promises(crate, definitions):
    """The promises of a crate, by source."""
    return [one for path in sources(crate) for one in promises_of(read(path), definitions)]


def contracts(text):
    """The calls of a source by name, with what their contracts ensure."""
    found, owner, call = collections.defaultdict(set), None, None
    for line in text.split("\n"):
        block, head, clause = OWNER.match(line), CALL.match(line), CLAUSE.match(line)
        if block or line == "}":
            owner = block and block[1]
        if head:
            call = "%s::%s" % (owner, head[1]) if owner else head[1]
            found[call] |= set()
        elif clause and clause[1] == "ensures" and call:
            found[call].add(clause[2])
    return found


@functools.lru_cache(maxsize=None)
def contracts_of(crate):
    """The calls of a crate, with what their contracts ensure. Of two calls of a name, both."""
    found = collections.defaultdict(set)
    for path in sources(crate):
        for call, clauses in contracts(read(path)).items():
            found[call] |= clauses
    return dict(found)
