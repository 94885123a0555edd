"""Pages and what is generated: tables of kinds and pages of the crates are those of the crates, every
rule, letter, status and clause is still told, what docs/PROOF.md names exists, prose keeps the rules
of CONTRIBUTING.md, and man page and completions are well-formed. And the scripts that check this
find what is planted."""
import os
import re
import shutil
import subprocess
import sys
import tempfile

TOP = os.path.join(os.path.dirname(os.path.abspath(__file__)), "..")
sys.path.append(os.path.join(TOP, "scripts"))
import docs  # noqa: E402
import must_fail_page  # noqa: E402
import promises  # noqa: E402
import proof_names  # noqa: E402
import prose  # noqa: E402
import wrong_bodies_page  # noqa: E402

COMPLETED = """source packaging/blossom.bash
COMP_WORDS=(blossom %s)
COMP_CWORD=$((${#COMP_WORDS[@]} - 1))
_blossom
echo "${COMPREPLY[@]}\""""
#: Scripts that check pages: what each finds it prints, and it ends with 1.
CHECKS = (
    "kinds.py --check",
    "docs.py --check",
    "docs.py --lengths",
    "figures.py",
    "prose.py",
    "names.py",
    "proof_names.py --check",
)
#: What is planted behind docs/PROOF.md, and what is said of it.
WRONG_NAMES = (
    ("`cert_check::jugde`: `sound`", "no crate has the call cert_check::jugde"),
    ("`cert_check::judge`: `accepted`, `soundly`", "no clause soundly"),
    ("`cert_check::judge`: `limits`", "no clause limits"),
    ("`mwpm_engine::laws`: `berge`", "no clause berge"),
    ("[`IsFeasible`](../crates/mb_problem/specs/Size.antt)", "doesn't define IsFeasible"),
    ("`IsFeasibel`", "no crate, definition or path is IsFeasibel"),
    ("`mwpm_engines`", "no crate, definition or path is mwpm_engines"),
    ("`scripts/no_such.py`", "no crate, definition or path is scripts/no_such.py"),
    ("[page](NO_SUCH.md)", "no page is at NO_SUCH.md"),
)
#: A source with old names, and what is said of them.
OLD_NAMES = """/// A seed, and `seed`.
pub struct Hop {}

fn count(x: u32) -> bool
    requires few { x < 5 }
    ensures { x < 6 }
{}
"""
FOUND_NAMES = (
    "edge_queue: the crate edge_queue: write search_heap",
    "edge_queue/src/top.rt: the module top: write program",
    "edge_queue/src/top.rt:2: the type Hop: write GrandparentLink",
    "edge_queue/src/top.rt:5: the clause few: write size_limit",
    "edge_queue/src/top.rt:1: 'seed': write tree id",
)
#: A source with promises, and what is read of it: call, clauses, sentence.
SOURCE = """
impl<T> Table<T> {
    /// Puts an item there.
    pub fn put(&mut self, item: T)
        // It has to be small.
        requires small { self.old.count < 2 }

        // The item is last,
        // and the others stay.
        ensures last { self.new ≡ record self.old {
          items = self.old.items ++ item ∷ [];
        } }
        ensures count { self.new.count ≡ self.old.count + 1 }

        ensures untold { self.new.room ≡ self.old.room }
    {
        // A comment of the body.
        self.items.push(item);
    }
}

pub trait Sink {
    fn write(&mut self) -> bool
        // It always works.
        ensures { result ≡ true };
}
"""
PROMISED = [
    ("Table::put", ("last", "count"), "The item is last, and the others stay."),
    ("Sink::write", (None,), "It always works."),
]
#: Pages with generated parts, and how many lines of each are by hand and generated.
PARTED = (
    ("a\n\nb\n", (3, 0)),
    ("a\n<!-- generated: rows -->\n\nx\ny\n\n<!-- end -->\nb\n", (4, 4)),
)
#: Texts with what is wrong in them, and what prose.py says of it.
WRONG_PROSE = (
    ("page.md", "It stands on a table.", "depends on"),
    ("page.md", "A word " + "and a word " * 12 + "end.", "a sentence of"),
    ("script.py", 'raise ValueError("kinds are a, and not b")', "a message with"),
    ("source.rt", "    // Want of memory leaves it.", "out of memory"),
    ("source.rt", 'let text = "no weight below 0";', None),
    ("specs.antt", "-- what a document speaks of", "refers to"),
)
#: What is typed, and what bash offers.
TYPED = (
    ("s", "solve"),
    ("solve b", "bmatch bottleneck"),
    ("solve --", "--brief"),
    ("solve path --b", "--brief"),
    ("check g", "gallai"),
    ("trial p", "perfect postman path"),
    ("trial i", ""),
)


def run(words):
    done = subprocess.run(words, cwd=TOP, capture_output=True, text=True)
    return done.returncode, done.stdout + done.stderr


def generated(tests):
    for words in CHECKS:
        script, *options = words.split()
        status, said = run([sys.executable, os.path.join("scripts", script), *options])
        tests.compare("scripts/" + words, said.encode(), 0, status)


def planted_names(tests):
    """Each wrong name behind docs/PROOF.md is found, and nothing else."""
    with open(os.path.join(TOP, "docs", "PROOF.md"), encoding="utf-8") as file:
        page = file.read()
    for wrong, said in WRONG_NAMES:
        found = list(proof_names.findings(page + "\n" + wrong + "\n"))
        tests.compare("planted in PROOF.md: " + wrong, b"", [True], [said in one for one in found])


def planted_promises(tests):
    """Promises are read as they stand, and a name that isn't told any more is found."""
    definitions = promises.all_definitions()
    read = [tuple(one[:3]) for one in promises.promises_of(SOURCE, definitions)]
    tests.compare("promises of a source", SOURCE.encode(), PROMISED, read)
    told = ["# names", "a.md judge", "a.md old -> new", "a.md Range"]
    for page, missing in (
        ("`a::judge`, `new`; `s Range`", []),
        ("`judges` `news` `InRange`", told[1:]),
        ("judge `other` new `third` Range", told[1:]),
    ):
        found = list(docs.untold(told, lambda name: page))
        names = [line.split()[-1] for line in missing]
        wanted = ["a.md: %s isn't told any more" % name for name in names]
        tests.compare("untold names of %r" % page, b"", wanted, found)


def planted_lengths(tests):
    """Lines by hand and generated ones are counted apart, and what is past a limit is said."""
    for page, lengths in PARTED:
        tests.compare("lengths of %r" % page, page.encode(), lengths, docs.lengths_of(page))
    most = docs.MOST_BY_HAND
    for pages, said in (
        ([("a.md", (most, 9000))], 0),
        ([("a.md", (most, 0)), ("b.md", (1, 0))], 1),
        ([("README.md", (100, 20))], 0),
        ([("README.md", (100, 21)), ("docs/PROOF.md", (201, 0))], 2),
    ):
        tests.compare("past limits: %r" % (pages,), b"", said, len(list(docs.past_limits(pages))))
    made = docs.with_parts(PARTED[1][0], {"rows": lambda: ["z"]})
    tests.compare("a part made anew", b"", PARTED[1][0].replace("x\ny", "z"), made)


def is_refused(call, *words):
    """Whether a call refuses its arguments by a ValueError."""
    try:
        call(*words)
    except ValueError:
        return True
    return False


def planted_refusals(tests):
    """A list of what refuses must-fail edits names each edit, calls and clauses that exist."""
    for refused, wrong in (
        ("judge: verdict, sound", False),
        ("judge: verdict; judge", False),
        ("jugde: verdict", True),
        ("judge: verdict, soundly", True),
        ("judge: verdict; bound", True),
    ):
        found = is_refused(must_fail_page.checked, "cert_check", refused)
        tests.compare("refused by " + refused, b"", wrong, found)
    known = must_fail_page.refusals()
    more = {**known, ("cert_check", "no_such_edit"): "judge: verdict"}
    fewer = dict(list(known.items())[1:])
    for name, listed, wrong in (("all", known, False), ("more", more, True), ("less", fewer, True)):
        found = is_refused(must_fail_page.must_fail_part, listed)
        tests.compare("must-fail edits, %s listed" % name, b"", wrong, found)


def planted_verdicts(tests):
    """The table of wrong bodies adds up, and has no verdict that scripts/mutants.py doesn't give."""
    row = wrong_bodies_page.wrong_bodies_part("# told\nc 1a2b 2026-12-01 79 noticed=3 same=1\n")[-1]
    wanted = "| c | `1a2b` | 2026-12-01 | 79 | 4 | 0 | 0 | 3 | 1 | 0 | 0 |"
    tests.compare("a row of wrong bodies", b"", wanted, row)
    found = is_refused(wrong_bodies_page.wrong_bodies_part, "c 1a2b 2026-12-01 79 noticd=3\n")
    tests.compare("a verdict that nobody gives", b"", True, found)


def planted_parts(tests):
    """A page without a row of its generated part is found, and so is a part that no script makes."""
    for path in sorted(docs.PARTS):

        def page_of(name):
            page = docs.read(name)
            last = page[: page.rindex("\n\n<!-- end -->")].rindex("\n")
            return page[:last] + page[page.index("\n", last + 1) :] if name == path else page

        found = list(docs.differing(page_of))
        tests.compare("a row less: " + path, b"", ["%s: run scripts/docs.py" % path], found)
    for name, count in (("problems", 0), ("bench/solve.py", 0), ("rows", 1), ("bench/no.py", 1)):
        page = PARTED[1][0].replace("rows", name)
        tests.compare("made by: " + name, b"", count, len(list(docs.unmade("a.md", page))))


def planted_prose(tests):
    with tempfile.TemporaryDirectory() as room:
        for name, text, said in WRONG_PROSE:
            path = os.path.join(room, name)
            with open(path, "w", encoding="utf-8") as file:
                file.write(text + "\n")
            found = [told for _, told in prose.findings(path)]
            wanted = [True] if said else []
            tests.compare("prose of %r" % text, b"", wanted, [said in told for told in found])


def planted_old_names(tests):
    """Old names of a crate, a module, a type and a clause are found, and an old word."""
    with tempfile.TemporaryDirectory() as room:
        os.makedirs(os.path.join(room, "crates", "edge_queue", "src"))
        with open(os.path.join(room, "crates/edge_queue/src/top.rt"), "w") as file:
            file.write(OLD_NAMES)
        done = subprocess.run(
            [sys.executable, os.path.join(TOP, "scripts", "names.py"), room],
            capture_output=True,
            text=True,
        )
        found = [line for line in done.stdout.splitlines() if line.startswith("edge_queue")]
        tests.compare("old names", b"", (1, list(FOUND_NAMES)), (done.returncode, found))


def manual(tests):
    """The man pages: no warning, and each kind is told."""
    if shutil.which("man") is None:
        tests.skip("pages.manual", "man isn't installed")
        return
    for name in ("blossom.1", "blossom-verify.1", "blossom-check-plain.1"):
        path = os.path.join("packaging", name)
        status, said = run(["man", "--warnings", "-E", "UTF-8", "-l", "-Tutf8", "-Z", path])
        warned = [line for line in said.splitlines() if re.search(r"\bwarning\b", line)]
        tests.compare("man --warnings of " + name, b"", (0, []), (status, warned))


def completions(tests):
    for typed, offered in TYPED:
        answer = run(["bash", "-c", COMPLETED % typed])
        tests.compare("completion of 'blossom %s'" % typed, b"", (0, offered + "\n"), answer)
    for shell, name in (("zsh", "blossom.zsh"), ("fish", "blossom.fish")):
        if shutil.which(shell) is None:
            tests.skip("pages.completions", "%s isn't installed" % shell)
        else:
            status, said = run([shell, "-n", os.path.join("packaging", name)])
            tests.compare("syntax of " + name, said.encode(), 0, status)


def check(tests):
    """All of it, as a part of the whole run of tests."""
    generated(tests)
    planted_names(tests)
    planted_promises(tests)
    planted_lengths(tests)
    planted_refusals(tests)
    planted_verdicts(tests)
    planted_parts(tests)
    planted_prose(tests)
    planted_old_names(tests)
    manual(tests)
    completions(tests)
