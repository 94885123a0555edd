"""A copy of the crates in which scripts/dry_run.py plants rows: in code copies of another variant's
arms, in definitions and proofs copies of its clauses."""
import os
import re
import shutil
import subprocess
import sys

TOP = os.path.dirname(os.path.dirname(os.path.abspath(__file__)))
ERROR = re.compile(r"^(\S+?\.rt):(\d+):\d+: error\[non-exhaustive-match\]", re.M)
# Lines of a definition that aren't rows to copy.
OTHER_LINES = (
    "pub abbrev use record like_first first_with kind_text kind_number letter_text rank".split()
)


def read(path):
    with open(path, encoding="utf-8") as file:
        return file.read()


def write(path, text):
    with open(path, "w", encoding="utf-8") as file:
        file.write(text)


def code_rows(text, enum, variant, dummy, renamed=None):
    """The code with an arm of the dummy for each of the variant's, but for names and numbers; what
    else differs in a copy, `renamed` changes."""
    name, other = f"{enum}::{variant}", f"{enum}::{dummy}"
    left = r"%s(?:\(\w+\) => | => (?!b\"|\d))" % name
    arm = re.compile(r"^( *)%s(?:.*,|\{\n(?:\1 .*\n)*\1\})\n" % left, re.M)
    renamed = renamed or (lambda row: row.replace(name, other))
    text = arm.sub(lambda it: it[0] + renamed(it[0]), text)
    listed = r"(?<=\| )%s(?= *\n| =>| \|)|^( +)%s(?=\n +\|| \|)" % (name, name)
    return re.sub(listed, lambda it: f"{it[0]} | {other}", text, flags=re.M)


def is_row(clause, pattern):
    """Whether a clause of a definition has the variant as a pattern."""
    left = clause.split(" = ")[0]
    if not clause[:1].isalpha() or " : " in left or clause.split(" ")[0] in OTHER_LINES:
        return False
    return pattern.search(left) is not None


def clause_rows(text, variant, dummy, renamed=None):
    """The definitions with a clause of the dummy for each of the variant's; what else differs in a
    copy, `renamed` changes."""
    pattern = re.compile(r"\b%s\b" % variant)
    renamed = renamed or (lambda line: pattern.sub(dummy, line))
    made, lines, place = [], text.split("\n"), 0
    while place < len(lines):
        end = place + 1
        while end < len(lines) and re.match(r"[ }]", lines[end]):
            end += 1
        clause = lines[place:end]
        made += clause
        if is_row(clause[0], pattern):
            made += [renamed(line) for line in clause]
        place = end
    return "\n".join(made)


def imported(text, variant, dummy):
    """The imports with the dummy beside the variant."""
    return re.sub(r"(TheVariants\.\{[^}]*\b%s\b)" % variant, r"\1, " + dummy, text)


def with_own(path, text, rows):
    """The text of a file with the rows that aren't copies: the end of a path, a text that has to be
    there, and what takes its place."""
    for ending, old, new in rows:
        if path.endswith("/" + ending):
            if old not in text:
                sys.exit(f"{path}: {old!r} isn't there")
            text = text.replace(old, new, 1)
    return text


class Copy:
    def __init__(self, top):
        self.top, self.changed = top, []

    def change(self, path, change):
        full = os.path.join(self.top, "crates", path)
        old = read(full)
        new = change(old)
        if new != old:
            write(full, new)
            if path not in self.changed:
                self.changed.append(path)
        return new != old

    def replace(self, path, old, new):
        ending = os.path.basename(path)
        self.change(path, lambda text: with_own(path, text, [(ending, old, new)]))

    def lacking(self):
        """The file that the compiler says lacks a row, if one does."""
        done = subprocess.run(
            ["rt", "try", "--", "--help"],
            cwd=os.path.join(self.top, "crates", "blossom"),
            stdin=subprocess.DEVNULL,
            stdout=subprocess.PIPE,
            stderr=subprocess.STDOUT,
            text=True,
        )
        found = ERROR.search(done.stdout)
        if found:
            return os.path.relpath(found[1], os.path.join(self.top, "crates"))
        if "error[" in done.stdout:
            sys.exit(done.stdout)
        return None

    def plant_clauses(self, folder, enums):
        for root, _, names in os.walk(os.path.join(self.top, "crates", folder)):
            for name in sorted(names):
                path = os.path.relpath(os.path.join(root, name), os.path.join(self.top, "crates"))
                for _, variant, dummy in enums if name.endswith(".antt") else ():
                    if self.change(path, lambda text: clause_rows(text, variant, dummy)):
                        self.change(path, lambda text: imported(text, variant, dummy))


def copied(folder):
    listed = ["git", "ls-files", "-z", "crates", "crates.txt", "HANDLES"]
    for name in subprocess.check_output(listed, cwd=TOP, text=True).split("\0"):
        source = os.path.join(TOP, name)
        if name and os.path.exists(source):
            target = os.path.join(folder, name)
            os.makedirs(os.path.dirname(target), exist_ok=True)
            shutil.copy(source, target)
    return Copy(folder)


def prove(copy, crates):
    for crate in crates:
        folder = os.path.join(copy.top, "crates", crate)
        if subprocess.run(["rt", "check"], cwd=folder).returncode:
            sys.exit(f"{crate}: not proved")
