"""What a dummy line type of documents touches, for scripts/dry_run.py: like `q` it has a set of
vertices on one line, and its line comes after that one."""
import re
import sys

from planting import clause_rows, code_rows, imported, with_own

#: What differs in a copy of a row of `q`: words, and then texts. The dummy excludes nothing.
WORDS = {
    "Split": "Dummy",
    "split": "dummy",
    "put_split": "put_dummy",
    "first_split": "first_dummy",
    "split_ascends": "dummy_ascends",
}
WORD = re.compile(r"\b(%s)\b" % "|".join(WORDS))
TEXTS = (
    ("b'q'", "b'v'"),
    ("obstruction == Obstruction::SplitPart", "false"),
    ("= is_split_part e", "= false"),
)
ENUMS = ("Letter", "Split", "Dummy"), ("Part", "Split", "Dummy")
#: Where the letter itself is planted. The compiler names this file and then the others that lack a
#: row: src/part.rt and src/document.rt beside it.
FIRST = "doc_format/src/letter.rt"
#: The files that the list in docs/EXTENDING.md has besides.
LISTED = (
    "doc_format/specs/Parts.antt",
    "doc_format/specs/Reading.antt",
    "doc_format/proofs/PartLaws.antt",
    "doc_format/proofs/document/Document/add/Answers.antt",
    "cert_check/src/ranges.rt",
    "certificates/specs/Claims.antt",
    "certificates/proofs/WithinLemmas.antt",
)
#: Those of them with definitions by letter.
BY_LETTER = "Parts.antt", "PartLaws.antt"

#: What isn't a copy of a row: the file, a text, and what takes its place.
OWN_ROWS = (
    ("letter.rt", "    Split,\n", "    Split,\n    /// `v`\n    Dummy,\n"),
    (
        "letter.rt",
        "            return Some(Letter::Split);\n        }\n",
        "            return Some(Letter::Split);\n        }\n"
        "        if is_byte(word, b'v') {\n            return Some(Letter::Dummy);\n        }\n",
    ),
    (
        "letter.rt",
        "            Letter::Even => 9,\n",
        "            Letter::Dummy => 9,\n            Letter::Even => 10,\n",
    ),
    (
        "part.rt",
        "    Split(MemberLine),\n",
        "    Split(MemberLine),\n    /// A `v` line.\n    Dummy(MemberLine),\n",
    ),
    ("part.rt", "{ rank letter ≤ 8 }", "{ rank letter ≤ 9 }"),
    ("document.rt", "true, OnOk, OnErr};", "true, OnOk, OnErr, map};"),
    # The last lines are a function of their own: the prover doesn't follow eight calls in one.
    (
        "document.rt",
        "        self.put_split(out)?;\n",
        "        self.put_last(out)\n"
        "    }\n"
        "\n"
        "    /// The lines behind that of an odd part.\n"
        "    fn put_last(&self, out: &mut Vec<u8>) -> Result<(), OutOfMemory>\n"
        "        ensures { OnOk result (out.new.items ≡ out.old.items\n"
        "            ++ parts_text (at_most_one Part.Split self.now.split\n"
        "            ++ (at_most_one Part.Dummy self.now.dummy"
        " ++ map Part.Even self.now.paths))) }\n"
        "    {\n"
        "        self.put_split(out)?;\n"
        "        self.put_dummy(out)?;\n",
    ),
    (
        "Parts.antt",
        'letter_text letter.Split = codes "q"\n',
        'letter_text letter.Split = codes "q"\nletter_text letter.Dummy = codes "v"\n',
    ),
    (
        "Parts.antt",
        "then Some letter.Split else\n",
        "then Some letter.Split else\n"
        "    (if bytes_eq word (letter_text letter.Dummy) then Some letter.Dummy else\n",
    ),
    ("Parts.antt", "Some letter.Even else None))))))))", "Some letter.Even else None)))))))))"),
    ("Parts.antt", "rank letter.Even = 9", "rank letter.Dummy = 9\nrank letter.Even = 10"),
    (
        "Parts.antt",
        "(at_most_one Split b.split ++ map Even b.paths)",
        "(at_most_one Split b.split\n"
        "    ++ (at_most_one Dummy b.dummy ++ map Even b.paths))",
    ),
    (
        "PartLaws.antt",
        "at_most_one Split b.split ∷ map Even",
        "at_most_one Split b.split ∷ at_most_one Dummy b.dummy ∷ map Even",
    ),
    (
        "PartLaws.antt",
        "(split, (paths, none))))))))) =",
        "(split, (dummy, (paths, none)))))))))) =",
    ),
    ("PartLaws.antt", "split = split; paths", "split = split; dummy = dummy; paths"),
    (
        "PartLaws.antt",
        "(no_sets Even (λ r. refl) b.paths, tt)",
        "(no_set Dummy (λ v. refl) b.dummy, (no_sets Even (λ r. refl) b.paths, tt))",
    ),
    ("PartLaws.antt", "pub dummy : nat_lt r 8", "pub dummy : nat_lt r 9"),
    ("PartLaws.antt", "pub paths : nat_lt r 9", "pub paths : nat_lt r 10"),
    (
        "PartLaws.antt",
        "to_odd { split = c.split } in\n",
        "to_odd { split = c.split } in\n"
        "    let to_dummy : Body = record to_split { dummy = c.dummy } in\n",
    ),
    (
        "PartLaws.antt",
        "(λ q. refl) b.split _\n",
        "(λ q. refl) b.split _\n"
        "    ∙ built_one Dummy (λ (v : MemberLine). record v { line = 0 })"
        " (λ o. record to_split { dummy = o }) (λ v. refl) b.dummy _\n",
    ),
    ("PartLaws.antt", "with_parts to_split", "with_parts to_dummy"),
    ("PartLaws.antt", "to_split { paths = rs }", "to_dummy { paths = rs }"),
    (
        "ranges.rt",
        "first_split(&document.split, extent).or(path);",
        "first_split(&document.split, extent).or(dummy);",
    ),
    (
        "ranges.rt",
        "    let split = first_split",
        "    let dummy = first_dummy(&document.dummy, extent).or(path);\n"
        "    let split = first_split",
    ),
    (
        "Claims.antt",
        "members_of (Some u) = numbers u.members\n",
        "members_of (Some u) = numbers u.members\n\n-- the vertices of the dummy\n"
        "abbrev pub dummy_of : Document → List ℕ\ndummy_of d = members_of d.dummy\n",
    ),
)
#: A part before the dummy comes last if there is no dummy.
NO_DUMMY = (
    ("n.split refl, n.paths refl", "n.split refl, n.dummy refl, n.paths refl"),
    (").split, n.paths refl", ").split, n.dummy refl, n.paths refl"),
)
#: A field, an item of a record, or a clause in a module, on a line of its own.
LINE = re.compile(r"^ +(?:(?:pub )?split(?: :| =|:)|kept_where \(Split) .*[^{]\n", re.M)
#: A function, or a fact with its proof, without a blank line.
HEAD = re.compile(r"\bfn (put|first)_split\b|^ *pub (\S+-in-Split|split-in|split_ascends) :", re.M)


def renamed(text):
    """What a text of `q` is for the dummy."""
    text = WORD.sub(lambda it: WORDS[it[0]], text)
    for old, new in TEXTS:
        text = text.replace(old, new)
    return text


def with_arms(text):
    """Code with an arm of the dummy for each of the variant's."""
    for enum in ENUMS:
        text = code_rows(text, *enum, renamed)
    return text


def with_clauses(text):
    """Definitions with a clause of the dummy for each of the variant's."""
    text = clause_rows(text, "Split", "Dummy", renamed)
    for old, new in NO_DUMMY:
        text = text.replace(old, new)
    return text


def with_lines(text):
    """A text with a line of the dummy after each of the variant's."""
    return LINE.sub(lambda it: it[0] + renamed(it[0]), text)


def with_blocks(text):
    """A text with a function or a fact of the dummy after each of the variant's."""
    blocks = text.rstrip("\n").split("\n\n")
    made = [one + "\n\n" + renamed(one) if HEAD.search(one) else one for one in blocks]
    return "\n\n".join(made) + "\n"


def with_rows(path, text):
    """The text of a file with all rows of the dummy."""
    if path.endswith(BY_LETTER):
        text = with_clauses(text)
    if path.endswith(".antt"):
        text = imported(text, "Split", "Dummy")
    return with_own(path, with_blocks(with_lines(with_arms(text))), OWN_ROWS)


def plant(copy):
    """Plants the rows of the dummy in a copy of the crates."""
    copy.change(FIRST, lambda text: with_own(FIRST, text, OWN_ROWS))
    while (path := copy.lacking()) is not None:
        print("the compiler names", path, flush=True)
        rows = with_arms if path == FIRST else lambda text: with_rows(path, text)
        if not copy.change(path, rows):
            sys.exit(f"{path}: no row to copy")
    for path in LISTED:
        if not copy.change(path, lambda text: with_rows(path, text)):
            sys.exit(f"{path}: no row to copy")
