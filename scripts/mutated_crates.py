"""Wrong bodies of the crates' functions, tried by the prover over the libraries that `rt ci` left.

A proof of a function cites the contracts of the functions that it calls, and not their bodies. So
many functions of a crate get a wrong body at once, and one check of the crate judges them: it names
each function that isn't proved. A function that calls one of them waits for the next check."""
import collections
import os
import re
import shutil
import subprocess
import tempfile

import mutations
from compare_clauses import block_name
from compiling import die_with_parent, kit
from sources import TOP

#: A function of a crate: its path as the prover prints it, its file, and its body in that.
Function = collections.namedtuple("Function", "path file start end")

HEAD = re.compile(r"^[ \t]*(?:pub(?:\(\w+\))? )?(?:extern \"C\" |const )*fn (\w+)", re.M)
BLOCK = re.compile(r"^(?:pub )?(?:impl|trait)\b[^\n{;]*", re.M)
CLAUSE = re.compile(r"\b(?:requires|ensures|ghost)\*?\s*[\w: ]*$")
NOT_READ = re.compile(r"^(\./)?src/([\w/]+\.rt):(\d+):\d+: error", re.M)
VERDICT = re.compile(r"^fn (\S+): (.*)$", re.M)
WRONG = re.compile(r"^(?:\./)?proofs/([\w/+-]+)/\w+\.antt:\d+:\d+: error: (.*)$", re.M)
#: What the prover says of a proof file that names a step that the wrong body lacks.
NO_NAME = re.compile(r"has no field|is not in scope|has no `|was not admitted")
SECONDS = 7200


def crates(top=TOP, tests=True):
    """The crates of crates.txt in its order: for each the libraries on its line."""
    found = {}
    with open(os.path.join(top, "crates.txt"), encoding="utf-8") as file:
        for line in file:
            if line.startswith("# tests:") and not tests:
                break
            name, colon, rest = line.split("#")[0].partition(":")
            if colon:
                found[name.split()[0]] = rest.split()
    return found


def below(crate, lines):
    """The repository's crates that a crate depends on."""
    found, left = [], list(lines[crate])
    while left:
        name = left.pop()
        if name in lines and name not in found:
            found.append(name)
            left += lines[name]
    return found


def library(name, top=TOP):
    return os.path.join(top, "crates", name, "out", "rlib", name + ".rlib")


def are_below(crate, lines):
    """Whether the libraries below a crate are there."""
    return all(os.path.isdir(library(name)) for name in below(crate, lines))


def words(crate, top=TOP):
    """The words of `rattle check` for a crate, in a folder with its sources."""
    lines, home = crates(top), kit()
    folder = os.path.join(top, "crates", crate)
    is_program = os.path.exists(os.path.join(folder, "src", "main.rt"))
    found = ["nice", "-n", "19", os.path.join(home, "bin", "rattle"), "check"]
    found += ["--crate-name", crate, "src/main.rt" if is_program else "src/lib.rt"]
    found += ["--links", crate + "="]
    found += ["--crate-type", "staticlib"] if crate == "blossom_c" else []
    for name in ["std", *lines[crate]]:
        of_kit = os.path.join(home, "rlibs", name + ".rlib")
        found += ["--extern", "%s=%s" % (name, library(name, top) if name in lines else of_kit)]
    for name in below(crate, lines):
        found += ["-L", "dependency=" + os.path.dirname(library(name, top))]
    found += ["-L", "dependency=%s/rlibs" % home, "--logic-built", "%s/logic_built" % home]
    return found + ["--antt-project", "%s/rattle/logic/antt-project.json" % home, "--jobs", "1"]


def body(code, start):
    """Where the body of the function opens whose name ends here, or None if it has none."""
    at = clause = start
    while at < len(code) and code[at] != ";":
        if code[at] == "{" and not CLAUSE.search(code, clause, at):
            return at
        if code[at] in mutations.PAIRS:
            at = mutations.closing(code, at)
            clause = at + 1
        at += 1
    return None


def type_of(code, start):
    """The name of the type whose method starts here, as the prover prints it, or None."""
    blocks = [found for found in BLOCK.finditer(code, 0, start)]
    if not blocks or mutations.closing(code, code.index("{", blocks[-1].end())) < start:
        return None
    return "".join(reversed(block_name(blocks[-1][0]).split(" for ")))


def module(crate, file):
    """The path of a file's module."""
    parts = file[: -len(".rt")].split(os.sep)
    return [crate, *(parts[:-1] if parts[-1] in ("lib", "main", "mod") else parts)]


def homes(crate, texts):
    """For each type of a crate, the path of the module that declares it."""
    return {
        name: module(crate, file)
        for file, text in texts.items()
        for name in re.findall(r"^(?:pub(?:\(\w+\))? )?(?:struct|enum) (\w+)", text, re.M)
    }


def functions_of_file(crate, file, texts):
    """The functions of a file, without tests."""
    code, types = mutations.masked(texts[file], "rattle"), homes(crate, texts)
    tests = code.find("#[cfg(test)]")
    for head in HEAD.finditer(code):
        start = body(code, head.end())
        is_test = code[: head.start()].rstrip().endswith("#[test]") or 0 <= tests < head.start()
        # (a conversion's name has the type that it converts)
        if start is not None and not is_test and head[1] != "from":
            own = type_of(code, head.start())
            parts = [*types.get(own, module(crate, file)), own, head[1]]
            path = "::".join(part for part in parts if part)
            yield Function(path, file, start, mutations.closing(code, start))


def functions(crate, top=TOP):
    """The functions of a crate, with the texts of their files."""
    folder, found, texts = os.path.join(top, "crates", crate, "src"), [], {}
    for at, _, names in sorted(os.walk(folder)):
        for name in sorted(names):
            path = os.path.join(at, name)
            file = os.path.relpath(path, folder)
            if name.endswith(".rt") and "test" not in name:
                with open(path, encoding="utf-8") as opened:
                    texts[file] = opened.read()
    for file in texts:
        found += functions_of_file(crate, file, texts)
    return found, texts


def able(crate, top=TOP):
    """The functions of a crate whose bodies can be changed."""
    found, texts = functions(crate, top)
    codes = {file: mutations.masked(text, "rattle") for file, text in texts.items()}
    return [
        one
        for one in found
        if any(
            mutations.changes(texts[one.file], codes[one.file], "rattle", one.start + 1, one.end)
        )
    ]


class Trial:
    """Wrong bodies of one crate, in a folder with a copy of its sources."""

    def __init__(self, crate, room, top=TOP):
        self.crate, self.room, self.words = crate, room, words(crate, top)
        self.functions, self.texts = functions(crate, top)
        for part in ("src", "specs", "proofs"):
            source = os.path.join(top, "crates", crate, part)
            if os.path.isdir(source):
                shutil.copytree(source, os.path.join(room, part))

    def changes(self, function):
        """All changes of the function's body."""
        text = self.texts[function.file]
        code = mutations.masked(text, "rattle")
        return list(mutations.changes(text, code, "rattle", function.start + 1, function.end))

    def write(self, made):
        """Writes the sources with these changes, one for each of some functions."""
        for file, text in self.texts.items():
            own = [change for function, change in made.items() if function.file == file]
            with open(os.path.join(self.room, "src", file), "w", encoding="utf-8") as opened:
                opened.write(mutations.changed(text, own))

    def check(self, *more):
        """What the prover says of the folder."""
        done = subprocess.run(
            [*self.words, "--incremental", os.path.join(self.room, "kept"), *more],
            cwd=self.room,
            stdin=subprocess.DEVNULL,
            stdout=subprocess.PIPE,
            stderr=subprocess.STDOUT,
            text=True,
            errors="replace",
            timeout=SECONDS,
            preexec_fn=die_with_parent,
        )
        return done.stdout

    def not_read(self, made):
        """Those of the functions whose changed bodies don't compile."""
        self.write(made)
        said = self.check("--only", "")
        lines = {(file, int(line)) for _, file, line in NOT_READ.findall(said)}
        found = set()
        for function in made:
            text = self.texts[function.file]
            first = text.count("\n", 0, function.start) + 1
            last = text.count("\n", 0, function.end) + 1
            if any(file == function.file and first <= at <= last for file, at in lines):
                found.add(function)
        return found if found or "only=0" in said else set(made)

    def readable(self, chance, wanted):
        """A change for each of the functions, of those that compile; some may be left out."""
        made, left, draws = {}, list(wanted), 2
        while left:
            for function in left:
                made.pop(function, None)
                found = self.changes(function) if draws > 0 else []
                if found:
                    made[function] = mutations.drawn(chance, found)
            # (the errors of one step of the compiler hide those of the next)
            left, draws = sorted(self.not_read(made)) if made else [], draws - 1
        return made


def verdict(function, said):
    """What the prover says of a function with a wrong body: 'refused', 'proved', 'waits' for the
    function that it calls, or another word if nothing is known."""
    told = dict(VERDICT.findall(said)).get(function.path, "")
    own = function.path.split("::", 1)[1].replace("::", "/")
    errors = [text for place, text in WRONG.findall(said) if place == own]
    if told in ("proved", ""):
        return told or "not named"
    if "did not prove" in told or not all(NO_NAME.search(text) for text in errors):
        return "refused"
    if "which is not proved" in told or "which are not proved" in told:
        return "waits"
    if told.startswith("could not tell"):
        return "limit"
    return "names" if errors else "refused"


def only(found):
    """The words that have the prover check these functions, and those that they call, alone."""
    return [word for one in found for word in ("--only", one.path.split("::", 1)[1])]


def judge(trial, made, tell=lambda said: None):
    """The verdict on each changed function."""
    left, verdicts = dict(made), {}
    while left:
        trial.write(left)
        try:
            said = trial.check(*only(left))
        except subprocess.TimeoutExpired:
            return {**dict.fromkeys(left, "limit"), **verdicts}
        tell(said)
        found = {function: verdict(function, said) for function in left}
        done = {function: word for function, word in found.items() if word != "waits"}
        verdicts.update(done or dict.fromkeys(found, "not judged"))
        left = {function: left[function] for function in left if done and function not in done}
    return verdicts


def tried(crate, chance, count, tell=lambda said: None):
    """Wrong bodies of so many functions of a crate: for each the file, the function, the change,
    the lines before and after it, and the verdict."""
    with tempfile.TemporaryDirectory(prefix="blossom-mutants-") as room:
        trial = Trial(crate, room)
        found = able(crate)
        wanted = chance.sample(found, min(count, len(found)))
        made = trial.readable(chance, wanted)
        verdicts = judge(trial, made, tell)
        return [
            (
                "crates/%s/src/%s" % (crate, one.file),
                one.path.split("::", 1)[1],
                change.what,
                *mutations.lines_of(trial.texts[one.file], change),
                verdicts[one],
            )
            for one, change in made.items()
        ]
