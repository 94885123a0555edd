"""Tests of the scripts that read clauses and proofs: in a small made repository they find which
calls, clauses and definitions went or changed, what is explained, which definitions no clause
cites, and which statements and bodies stand twice."""
import os
import subprocess
import sys
import tempfile

TOP = os.path.join(os.path.dirname(os.path.abspath(__file__)), "..")
SCRIPTS = os.path.join(TOP, "scripts")
SOURCE = """ghost use Rattle.low.specs.Laws.{IsSmall, IsHidden, ◌~◌};

/// A call. // ensures comment { IsLost x }
pub fn small(x: u32) -> bool
    requires room { x < 5 }
    ensures { result ≡ true }
    ensures { x ~ x }
    ensures bound { IsSmall x { x } }
{
    inner(x)
}

fn inner(x: u32) -> bool
    ensures hidden { IsHidden x }
{
    true
}

impl<'a, T: Ord> Iterator for Thing<'a, T> {
    fn next(&mut self) -> u32
        ensures next { result ≡ 1 }
    {
        1
    }
}

impl Thing {
    pub fn get(&self) -> u32
        ensures value { result ≡ 1 }
    {
        1
    }
}
"""
LAWS = """-- IsSmall lost
use Rattle.low.specs.Other.{helper}

abbrev pub IsSmall : ℕ → Type
IsSmall x = helper x ≡ true

record IsHidden (x : ℕ) : Type where
  deep : IsDeep x

abbrev pub IsDeep : ℕ → Type
IsDeep x = x ≡ x

abbrev pub ◌~◌ : ℕ → ℕ → Type
a ~ b = a ≡ b

abbrev pub IsLost : ℕ → Type
IsLost x = IsDeep x
"""
OTHER = """pub use Rattle.low.specs.Deeper.{helper}
"""
DEEPER = """abbrev pub helper : ℕ → Bool
helper x = x < 9
"""
PROOF = """use Rattle.low.specs.Laws.{IsLost}
lost : IsLost 1
lost = ?
"""
IS_GONE = "low.%s: the definition is gone"
#: The definitions that the clauses of `small` alone reach.
OF_SMALL = [IS_GONE % "IsSmall", IS_GONE % "helper", IS_GONE % "◌~◌"]
#: What is changed in the second state, and what is found then.
CHANGES = (
    ("pub fn small", "pub fn tiny", ["low::small: the call is gone"]),
    ("result ≡ true", "result ≡ false", ["low::small: - changed"]),
    ("    ensures { x ~ x }\n", "", ["low::small: -2 is gone", OF_SMALL[2]]),
    ("ensures bound", "ensures limit", ["low::small: bound is gone"]),
    ("requires room { x < 5 }", "requires room { x < 4 }", ["low::small: requires:room changed"]),
    ("    requires room { x < 5 }\n", "", []),
    ("x < 5 }\n", "x < 5 }\n    requires more { x ≡ 1 }\n", ["low::small: requires:more came"]),
    ("x < 5 }\n", "x < 5 }\n    ensures more { x ≡ 1 }\n", []),
    ("ensures hidden { IsHidden x }", "ensures hidden { IsHidden 1 }", []),
    ("ensures next { result ≡ 1 }", "", ["low::Iterator for Thing::next: next is gone"]),
    ("value { result ≡ 1 }", "value { result ≡ 2 }", ["low::Thing::get: value changed"]),
    ("x < 9", "x < 8", ["low.helper: the definition changed"]),
    ("x = helper x", "x = other x", ["low.IsSmall: the definition changed", OF_SMALL[1]]),
    ("IsDeep x = x ≡ x", "IsDeep x = x ≡ 1", []),
)
#: The table's line, a change, and what is left of it.
EXPLAINED = (
    ("rename small tiny", "pub fn small", "pub fn tiny", []),
    ("gone low::small it went", "pub fn small", "fn small", OF_SMALL),
    ("moved low::small low::tiny", "pub fn small", "pub fn tiny", []),
    ("stronger low::small bound it holds", "IsSmall x {", "IsSmall 1 {", []),
    ("stronger low::small - it holds", "IsSmall x {", "IsSmall 1 {", ["low::small: bound changed"]),
    ("definition low.helper it is less", "x < 9", "x < 8", []),
    ("# gone low::small", "pub fn small", "fn small", ["low::small: the call is gone", *OF_SMALL]),
)
UNCITED = """low/specs/Laws.antt:16: IsLost: no clause; named in 1 of proofs/
low/specs/Laws.antt:7: IsHidden: private clauses alone; named in 0 of proofs/
low/specs/Laws.antt:10: IsDeep: private clauses alone; named in 0 of proofs/
6 definitions, 3 that clauses of public calls reach, 2 that others do, 1 that none do
"""


#: Files of proofs, and what is said of the statements in them.
PROOFS = (
    ("a/proofs/One.antt", "few : (n : ℕ) → n < 9\n\npub wide : {a b : ℕ} →\n  a < b → a ≤ b\n"),
    ("a/proofs/inner/Two.antt", "less : {m k : ℕ} → m < k →\n    m ≤ k\nless lt = ?\nnone : ℕ\n"),
    ("b/proofs/Two.antt", "-- few\nsome : (k : ℕ) → k < 9\nother : (k : ℕ) → k < 8\nnone : ℕ\n"),
    ("b/proofs/Three.antt", "pub abbrev more : (x : ℕ) → x < 9\nmore = ?\n"),
    ("b/proofs/Four.antt", "f : Same (λ x. x) → ℕ\nf = ?\nf2 : Same (λ y. x) → ℕ\n"),
    ("b/proofs/Five.antt", "g : Same (λ y. y) → ℕ\nuse A.{wide : ℕ → ℕ}\n"),
    ("b/specs/Five.antt", "few : (n : ℕ) → n < 9\n"),
)
EQUAL = """a/proofs/One.antt:few; b/proofs/Three.antt:more; b/proofs/Two.antt:some
      (§0 : ℕ) → §0 < 9
b/proofs/Five.antt:g; b/proofs/Four.antt:f
      Same (λ §0. §0) → ℕ
a/proofs/One.antt:wide; a/proofs/inner/Two.antt:less
      {§0 §1 : ℕ} → §0 < §1 → §0 ≤ §1
3 statements, 4 spare copies
"""
#: Files of sources and definitions, and what is said of the bodies in them.
BODIES = (
    (
        "a/src/one.rt",
        """/// Adds up.
pub fn total(items: &[u32]) -> u32
    requires small { All (λ x. x < 9) items.now }
    ensures { result ≡ sum items.now }
{
    let mut sum = 0; // of none
    for item in items {
        sum += item.size(item);
    }
    sum
}

fn short(x: u32) -> char {
    x.add('}')
}
""",
    ),
    (
        "b/src/two.rt",
        """trait Adds {
    fn all(&self) -> u32;
}

impl Adds for Some {
    fn all(&self, size: &[u32]) -> u32
        ensures other { result ≡ 1 }
    {
        let mut n = 0;

        for each in size {
            n += each.size(each);
        }
        n
    }

    fn weighs(size: &[u32]) -> u32 {
        let mut n = 0;
        for each in size {
            n += each.weight(each);
        }
        n
    }
}
""",
    ),
    (
        "b/specs/Two.antt",
        """use Rattle.a.specs.One.{few}

pub record IsIn (n : ℕ) (a : A) : Type 0 where
  pub low : few n ≤ a.n
  -- and the other end
  pub high : a.n ≤ n
  pub size : n < 9

abbrev pub short : ℕ → ℕ
short n = n
""",
    ),
    (
        "b/proofs/Two.antt",
        """abbrev sums : (ℕ → ℕ) → List ℕ → ℕ
sums f [] = 0
sums f (x ∷ xs) =
    f x + sums f xs

added : (n : ℕ) → n ≡ n
added n =
  let m = n in
    refl
""",
    ),
    (
        "c/proofs/Three.antt",
        """use Rattle.a.specs.One.{few, other}

abbrev pub total :
    (ℕ → ℕ) → List ℕ → ℕ
total g [] = 0
total g (y ∷ ys) =
    g y + total g ys

pub record Within (k : ℕ) (b : A) : Type 0 where
  pub low : few k ≤ b.n
  pub high : b.n ≤ k
  pub size : k < 9

record Beyond (k : ℕ) (b : A) : Type 0 where
  pub low : other k ≤ b.n
  pub high : b.n ≤ k
  pub size : k < 9

less : (n : ℕ) → n ≤ n
less n =
  let m = n in
    refl
""",
    ),
)
EQUAL_BODIES = """a/src/one.rt:total; b/src/two.rt:all
      5 lines: let §0 §1 = 0 ; for §2 in §3 { §1 + = §2 . size ( §2 ) ; } §1
b/proofs/Two.antt:sums; c/proofs/Three.antt:total
      3 lines: § §0 [ ] = 0 § §0 ( §1 ∷ §2 ) = §0 §1 + § §0 §2
b/specs/Two.antt:IsIn; c/proofs/Three.antt:Within
      3 lines: pub low : few §0 ≤ §1 . n pub high : §1 . n ≤ §0 pub size : §0 < 9
3 bodies, 3 spare copies
"""


def laid_out(folder, old="", new=""):
    """The made repository in a folder, with one change."""
    for path, text in (
        ("src/lib.rt", SOURCE),
        ("specs/Laws.antt", LAWS),
        ("specs/Other.antt", OTHER),
        ("specs/Deeper.antt", DEEPER),
        ("proofs/Lost.antt", PROOF),
        ("out/src/lib.rt", "pub fn built() ensures built { IsLost 1 } {}"),
    ):
        path = os.path.join(folder, "crates", "low", path)
        os.makedirs(os.path.dirname(path), exist_ok=True)
        with open(path, "w", encoding="utf-8") as file:
            file.write(text.replace(old, new) if old else text)


def found(line, old, new):
    """What differs after a change, with a table of this one line."""
    import compare_clauses as script

    with tempfile.TemporaryDirectory() as before, tempfile.TemporaryDirectory() as after:
        laid_out(before)
        laid_out(after, old, new)
        path = os.path.join(before, "table")
        with open(path, "w", encoding="utf-8") as file:
            file.write(line + "\n")
        table = script.Table(path)
        calls = [script.public_calls(folder) for folder in (before, after)]
        reached = [script.reached_definitions(folder) for folder in (before, after)]
        return [
            *script.differences(table, *calls),
            *script.definition_differences(table, *reached),
        ]


def clauses(tests):
    sys.path.insert(0, SCRIPTS)
    for old, new, wanted in CHANGES:
        tests.compare("clauses after %r" % new, old, wanted, found("", old, new))
    for line, old, new, wanted in EXPLAINED:
        tests.compare("clauses by %r" % line, old, wanted, found(line, old, new))
    sys.path.remove(SCRIPTS)


def revisions(tests):
    """The script itself, over two states of a checkout."""
    git = ["git", "-c", "user.name=test", "-c", "user.email=test@example.org"]
    with tempfile.TemporaryDirectory() as room:
        laid_out(room)
        for words in (["init", "-q"], ["add", "crates"], ["commit", "-q", "-m", "first"]):
            subprocess.run([*git, *words], cwd=room, check=True)
        laid_out(room, "value { result ≡ 1 }", "value { result ≡ 2 }")
        words = [sys.executable, os.path.join(SCRIPTS, "compare_clauses.py"), "HEAD", room]
        done = subprocess.run(words, capture_output=True, text=True)
        lines = [line for line in done.stdout.splitlines() if not line.startswith("not needed: ")]
        needless = len(done.stdout.splitlines()) - len(lines)
        last = "3 public calls with 6 clauses, 3 definitions; 0 explained, %d left" % (needless + 1)
        wanted = (1, ["low::Thing::get: value changed", last])
        tests.compare("clauses of two revisions", "", wanted, (done.returncode, lines))


def public(tests):
    """Clauses of public calls and of implementations of a trait are public."""
    sys.path.insert(0, SCRIPTS)
    import uncited_definitions as script

    for clause, wanted in (
        ("requires room", True),
        ("ensures hidden", False),
        ("ensures next", True),
        ("ensures value", True),
    ):
        got = script.is_public(SOURCE, SOURCE.index(clause))
        tests.compare("whether a clause is public: " + clause, SOURCE, wanted, got)
    sys.path.remove(SCRIPTS)


def uncited(tests):
    with tempfile.TemporaryDirectory() as room:
        laid_out(room)
        words = [sys.executable, os.path.join(SCRIPTS, "uncited_definitions.py"), room]
        done = subprocess.run([*words, "--private"], capture_output=True, text=True)
        tests.compare("definitions that no clause cites", "", UNCITED, done.stdout)
        alone = subprocess.run(words, capture_output=True, text=True).stdout
        short = UNCITED.splitlines()
        tests.compare("the same, of all", "", [short[0], short[3]], alone.splitlines())


def lay_crates(room, files):
    """Lays these files into the crates of a folder."""
    for path, text in files:
        path = os.path.join(room, "crates", path)
        os.makedirs(os.path.dirname(path), exist_ok=True)
        with open(path, "w", encoding="utf-8") as file:
            file.write(text)


def equal(tests):
    with tempfile.TemporaryDirectory() as room:
        lay_crates(room, PROOFS)
        words = [sys.executable, os.path.join(SCRIPTS, "equal_statements.py"), room]
        done = subprocess.run(words, capture_output=True, text=True)
        tests.compare("statements that stand twice", "", EQUAL, done.stdout)
        done = subprocess.run(words[:2], cwd=room, capture_output=True, text=True)
        tests.compare("the same, of this folder", "", EQUAL, done.stdout)


def equal_bodies(tests):
    with tempfile.TemporaryDirectory() as room:
        lay_crates(room, BODIES)
        words = [sys.executable, os.path.join(SCRIPTS, "equal_bodies.py"), room]
        done = subprocess.run(words, capture_output=True, text=True)
        tests.compare("bodies that stand twice", "", EQUAL_BODIES, done.stdout)
        done = subprocess.run([*words, "--lines", "4"], capture_output=True, text=True)
        long = [*EQUAL_BODIES.splitlines()[:2], "1 bodies, 1 spare copies"]
        tests.compare("the same, of four lines", "", long, done.stdout.splitlines())


def check(tests):
    for part in (clauses, revisions, public, uncited, equal, equal_bodies):
        part(tests)
