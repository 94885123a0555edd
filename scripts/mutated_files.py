"""Wrong bodies of the Python package, of scripts and of the C edge, tried by the tests of the file
that they are in, in a copy of the checkout. A body is noticed if one of these tests fails or takes
too long; tests that fail without it are left out."""
import ast
import collections
import contextlib
import glob
import itertools
import json
import os
import shutil
import subprocess
import tempfile
import time

import mutated_tests
import mutations
import targets
from sources import TOP

#: Where a body is: its file, its name, the place of its head, and the places between which it is.
Body = collections.namedtuple("Body", "file name first start end")
#: The seconds that a test may take, or four times as many as it takes without a change.
SECONDS = 240
#: Libraries that tests of the Python package find before those that are installed.
LIBRARIES = "out/libraries/usr/lib/python3/dist-packages"


def functions(path, text):
    """The functions of a Python file, by their names with those of their classes."""
    lines = [0]
    for line in text.splitlines(True):
        lines.append(lines[-1] + len(line))
    left = [(ast.parse(text), "")]
    while left:
        node, name = left.pop()
        for inner in ast.iter_child_nodes(node):
            if isinstance(inner, (ast.FunctionDef, ast.AsyncFunctionDef)):
                start, end = lines[inner.body[0].lineno - 1], lines[inner.end_lineno]
                heads = [one.lineno for one in [inner, *inner.decorator_list]]
                yield Body(path, name + inner.name, lines[min(heads) - 1], start, end)
            elif isinstance(inner, ast.ClassDef):
                left.append((inner, name + inner.name + "."))


def files(where, top=TOP):
    """The files of a part of the repository."""
    patterns = {
        "python": ("python/blossom/**/*.py",),
        "scripts": ("scripts/*.py",),
        "c": ("capi/*.h", "capi/*.hpp", "capi/*.c", "tests/c_sources/*.c*"),
    }[where]
    for pattern in patterns:
        for path in sorted(glob.glob(os.path.join(top, pattern), recursive=True)):
            if not os.path.basename(path).startswith(("muta", "many_runs", "stand_in")):
                yield os.path.relpath(path, top)


def language(path):
    return "python" if path.endswith(".py") else "c"


def bodies(where, top=TOP):
    """What can be changed there: functions of Python, and whole files of C."""
    for path in files(where, top):
        with open(os.path.join(top, path), encoding="utf-8") as file:
            text = file.read()
        if language(path) == "python":
            yield from functions(path, text)
        else:
            yield Body(path, "", 0, 0, len(text))


def changes(body, text):
    """All changes of a body."""
    code = mutations.masked(text, language(body.file))
    return list(mutations.changes(text, code, language(body.file), body.start, body.end))


def drawn(chance, where, count, top=TOP):
    """So many changes: of different functions as long as there are some, of C of each file by its
    length. For each the body and the file's text."""
    found, texts = [], {}
    for body in bodies(where, top):
        with open(os.path.join(top, body.file), encoding="utf-8") as file:
            texts[body.file] = file.read()
        own = changes(body, texts[body.file])
        if own:
            found.append((body, own))
    weights = [len(own) if where == "c" else 1 for _, own in found]
    order = sorted(range(len(found)), key=lambda at: chance.random() ** (1 / weights[at]))
    seen = set()
    while len(seen) < count and found:
        if where == "c":
            at = chance.choices(order, [weights[at] for at in order])[0]
        else:
            at = order.pop()
        body, own = found[at]
        change = mutations.drawn(chance, own)
        if (body, change) not in seen:
            seen.add((body, change))
            yield body, change, texts[body.file]
        if not order:
            return


def readable(path, text):
    """Whether a changed text compiles, as far as that is quick to see."""
    if language(path) == "python":
        try:
            ast.parse(text)
        except SyntaxError:
            return False
        return True
    ending = os.path.splitext(path)[1]
    with tempfile.TemporaryDirectory() as room:
        made = os.path.join(room, "changed" + {".h": ".c", ".hpp": ".cpp"}.get(ending, ending))
        with open(made, "w", encoding="utf-8") as file:
            file.write(text)
        compiler = ["c++", "-std=c++17"] if made.endswith(".cpp") else ["cc", "-std=c99"]
        words = [*compiler, "-w", "-DWHOLE_LENGTH=16", "-fsyntax-only", "-Icapi", made]
        return subprocess.run(words, cwd=TOP, stderr=subprocess.DEVNULL).returncode == 0


def reached(copy, test):
    """The functions of the package that a test module calls: files and first lines, and the time
    that it takes. None if a test fails."""
    told = os.path.join(copy.room, "out", "reached")
    os.makedirs(os.path.dirname(told), exist_ok=True)
    begun = time.monotonic()
    if not copy.run([mutated_tests.PYTHON, "-c", mutated_tests.REACHED, told, test], 8 * SECONDS):
        return None
    with open(told, encoding="utf-8") as file:
        return time.monotonic() - begun, {tuple(one) for one in json.load(file)}


def all_reached(copy, kept):
    """The same for each test module, as a map; what is known is kept in a file."""
    if kept and os.path.exists(kept):
        with open(kept, encoding="utf-8") as file:
            found = json.load(file)
        return {test: (time, {tuple(one) for one in own}) for test, time, own in found}
    found = {}
    for path in sorted(glob.glob(os.path.join(copy.room, "tests/python/test_*.py"))):
        test = os.path.basename(path)[: -len(".py")]
        found[test] = reached(copy, test)
        if found[test] is None:
            print("left out: %s (it fails without a change)" % test, flush=True)
            del found[test]
    if kept:
        with open(kept, "w", encoding="utf-8") as file:
            json.dump([(test, time, sorted(own)) for test, (time, own) in found.items()], file)
    return found


def built():
    """The paths of the program and the library for C, and of their stamps."""
    for target in targets.TARGETS.values():
        yield target.stamp
        yield from (os.path.join(target.folder, name) for name in target.names)


class Copy:
    """A copy of the checkout, as a repository of its own, in which tests run over a program. What a
    test leaves goes with it."""

    def __init__(self, room, program, top=TOP):
        self.room, self.program, self.times = os.path.join(room, "copy"), program, {}
        self.reached = {}
        shutil.copytree(
            top, self.room, symlinks=True, ignore=lambda at, names: left_out(top, at, names)
        )
        for path in built():
            place = os.path.join(self.room, os.path.relpath(path, top))
            if os.path.exists(path) and not os.path.exists(place):
                os.makedirs(os.path.dirname(place), exist_ok=True)
                shutil.copy(path, place)
        for words in ("init", "add -A", "commit -m all"):
            self.git(words)

    def git(self, words):
        names = ["-c", "user.name=nobody", "-c", "user.email=nobody@localhost"]
        how = {"stdout": subprocess.DEVNULL, "cwd": self.room, "check": True}
        subprocess.run(["git", *names, *words.split()], **how)

    def run(self, words, seconds):
        """Whether a test passes."""
        environment = dict(os.environ, BLOSSOM=self.program, PYTHONDONTWRITEBYTECODE="1")
        environment["BLOSSOM_TEST_LIBRARIES"] = os.path.join(self.room, LIBRARIES)
        with tempfile.TemporaryDirectory(prefix="run", ignore_cleanup_errors=True) as left:
            environment["TMPDIR"] = left
            how = {"stdin": subprocess.DEVNULL, "stdout": subprocess.DEVNULL}
            how.update(stderr=subprocess.DEVNULL, start_new_session=True, env=environment)
            group = subprocess.Popen(words, cwd=self.room, **how)
            try:
                return group.wait(seconds) == 0
            except subprocess.TimeoutExpired:
                return False
            finally:
                with contextlib.suppress(ProcessLookupError):
                    os.killpg(group.pid, 9)
                group.wait()

    def passes(self, name, words):
        """Whether a test passes without a change. It may take long then."""
        if name not in self.times:
            begun = time.monotonic()
            passed = self.run(words, 8 * SECONDS)
            self.times[name] = time.monotonic() - begun if passed else None
            if not passed:
                print("left out: %s (it fails without a change)" % name, flush=True)
        return self.times[name] is not None

    def noticed(self, where, body, change, text):
        """The test that notices a change, or None."""
        path = os.path.join(self.room, body.file)
        for name, words in mutated_tests.commands(where, body, text, self):
            if not self.passes(name, words):
                continue
            with open(path, "w", encoding="utf-8") as file:
                file.write(mutations.changed(text, [change]))
            passed = self.run(words, max(SECONDS, 4 * self.times[name]))
            self.git("reset -q --hard")
            self.git("clean -q -f -d")
            if not passed:
                return name
        return None


def left_out(top, at, names):
    """What a copy of the checkout doesn't have: what was built of crates."""
    inner = os.path.relpath(at, top).split(os.sep)
    if inner[0] == "crates" and len(inner) == 2:
        return [name for name in names if name == "out"]
    return [name for name in names if name in (".git", "__pycache__")]


def readable_ones(where, chance, count, only):
    """So many changes that compile."""
    for body, change, text in drawn(chance, where, 2 * count):
        is_wanted = not only or body.file in only
        if count > 0 and is_wanted and readable(body.file, mutations.changed(text, [change])):
            count -= 1
            yield body, change, text


def tried(where, chance, count, program, only=(), done=0, kept=None):
    """Wrong bodies of a part of the repository after the first `done`, as `mutated_crates.tried`
    has them, with the test that notices each before the verdict. `kept` is a file for what the
    test modules call."""
    with tempfile.TemporaryDirectory(prefix="blossom-mutants-") as room:
        copy = Copy(room, os.path.abspath(program))
        copy.reached = all_reached(copy, kept) if where == "python" else {}
        copy.times = {"python." + test: time for test, (time, _) in copy.reached.items()}
        found = readable_ones(where, chance, count, only)
        for body, change, text in itertools.islice(found, done, None):
            test = copy.noticed(where, body, change, text)
            lines = mutations.lines_of(text, change)
            verdict = "noticed" if test else "proved"
            yield body.file, body.name, change.what, *lines, test or "", verdict
