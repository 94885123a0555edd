"""Tests of the scripts that write and check pages, in copies of what they read: generated parts
that differ are listed, and written anew; lengths, figures that differ, prose and names are told of
made pages as they stand there."""
import os
import re
import shutil
import subprocess
import sys
import tempfile

TOP = os.path.join(os.path.dirname(os.path.abspath(__file__)), "..")
sys.path.append(os.path.join(TOP, "scripts"))
import crate_groups  # noqa: E402
import docs  # noqa: E402
import figures  # noqa: E402
import proof_page  # noqa: E402
import promises  # noqa: E402
from made_release import script as script_of  # noqa: E402

#: What the scripts read: copied, since they write it, or linked.
COPIED = "README.md CHANGELOG.md CONTRIBUTING.md docs capi packaging python scripts".split()
LINKED = "crates.txt VERSION crates examples bench".split()
#: Made pages, and what is told of their lengths.
PAGES = {
    "README.md": "a\n" * 119 + "b\n",
    "docs/A.md": "a\n<!-- generated: rows -->\n\nx\ny\n\n<!-- end -->\nb\n",
    "crates/low/README.md": "a\nb\n",
    "crates/high/README.md": "a\n<!-- generated: rows -->\n\nx\n\n<!-- end -->\n",
}
LENGTHS = """  120 by hand,     0 generated: README.md
    4 by hand,     4 generated: docs/A.md
    5 by hand,     3 generated: crates/*/README.md
  129 by hand,     7 generated: in all
%s
"""
RIGHT = "the pages are as they should be"
#: A list of crates, and what is read of it.
CRATES = """# base: what is below
low:
both: low

# no head
# top: above
high: low both # last
"""
GROUPS = [
    ("base", "what is below", [("low", []), ("both", ["low"])]),
    ("top", "above", [("high", ["low", "both"])]),
]
#: Files with something wrong in a line, and the line; and files that no one reads.
WRONG = {
    "README.md": ("It depends.\n\nIt stands on it.\n", 3),
    "docs/A.md": ("# It hangs together\n", 1),
    "capi/README.md": ("- one\n- it stands on\n  two\n", 2),
    "capi/a.h": ("/* It\n * stands on it. */\n", 2),
    "capi/a.hpp": ("// it stands on it\n", 1),
    "python/README.md": ("- a\n- b it stands on it\n", 2),
    "python/blossom/a.py": ('"""It stands on it."""\n', 1),
    "python/blossom/inner/a.py": ('"""\nIt stands on it."""\n', 2),
    "scripts/a.py": ("\n# it stands on it\n", 2),
    "crates/low/README.md": ("It stands on it.\n", 1),
    "crates/low/src/a.rt": ("stands_on();\n// It stands on it.\n", 2),
    "crates/low/src/inner/a.rt": ("// It stands on it.\n", 1),
    "crates/low/specs/inner/A.antt": ("-- It stands on it.\n", 1),
}
UNREAD = {
    "docs/a.txt": "It stands on it.\n",
    "docs/B.md": "Here there\nis no way.\n",
    "crates/low/proofs/A.antt": "-- It stands on it.\n",
    "crates/low/src/b.rt": 'say("It stands on it.");\n',
}


def put(room, files):
    """Writes files by their paths below a folder."""
    for path, text in files.items():
        os.makedirs(os.path.dirname(os.path.join(room, path)), exist_ok=True)
        with open(os.path.join(room, path), "w", encoding="utf-8") as file:
            file.write(text)


def text_of(room, path):
    with open(os.path.join(room, path), encoding="utf-8") as file:
        return file.read()


def put_scripts(room):
    left_out = shutil.ignore_patterns("__pycache__")
    shutil.copytree(os.path.join(TOP, "scripts"), os.path.join(room, "scripts"), ignore=left_out)


def says(room, script, *words):
    """The status of a script in a folder, and the lines that it prints."""
    path = os.path.join(room, "scripts", script)
    done = subprocess.run([sys.executable, path, *words], capture_output=True, text=True)
    return done.returncode, done.stdout.splitlines()


def copied(room):
    """Puts a copy there of what the scripts read."""
    for name in COPIED:
        path, place = os.path.join(TOP, name), os.path.join(room, name)
        if os.path.isdir(path):
            shutil.copytree(path, place, ignore=shutil.ignore_patterns("out", "__pycache__"))
        else:
            shutil.copy(path, place)
    for name in LINKED:
        os.symlink(os.path.abspath(os.path.join(TOP, name)), os.path.join(room, name))
    os.mkdir(os.path.join(room, "tests"))
    shutil.copy(os.path.join(TOP, "tests", "kinds.py"), os.path.join(room, "tests"))


def generated_parts():
    """The pages with generated parts, by the script that makes these: the lines before them."""
    heads = {"kinds.py": {}, "docs.py": {}}
    for path, head, _, _ in script_of("kinds").PARTS:
        heads["kinds.py"].setdefault(path, []).append(head)
    for path, makers in docs.PARTS.items():
        heads["docs.py"][path] = ["<!-- generated: %s -->" % name for name in makers]
    return heads


def with_more(text, heads):
    """A page with a line more in each of its parts."""
    for head in heads:
        text = text.replace(head + "\n", head + "\nmore\n")
    return text


def written(tests):
    """A line more in each generated part is found, and gone once the parts are written anew."""
    with tempfile.TemporaryDirectory() as room:
        copied(room)
        for script, parts in generated_parts().items():
            said = "differs from crates: " if script == "kinds.py" else ""
            right = {path: text_of(room, path) for path in parts}
            wrong = {path: with_more(right[path], heads) for path, heads in parts.items()}
            put(room, wrong)
            wanted = ["%s: %srun scripts/%s" % (path, said, script) for path in parts]
            status, lines = says(room, script, "--check")
            got = status, sorted(set(lines))
            tests.compare("scripts/%s --check" % script, b"", (1, sorted(wanted)), got)
            tests.compare("what --check writes", b"", wrong, {p: text_of(room, p) for p in parts})
            tests.compare("scripts/" + script, b"", (0, []), says(room, script))
            tests.compare("what it writes", b"", right, {p: text_of(room, p) for p in parts})


def checked(tests):
    """A name that a page doesn't have, and a part of it that no script makes, are listed."""
    with tempfile.TemporaryDirectory() as room:
        copied(room)
        tests.compare("docs.py --check", b"", (0, [RIGHT]), says(room, "docs.py", "--check"))
        part = "<!-- generated: rows -->\n\nmore\n\n<!-- end -->\n"
        put(room, {"docs/C.md": text_of(room, "docs/C.md") + part})
        path = "scripts/told.txt"
        put(room, {path: text_of(room, path) + "README.md no_such_name\n"})
        wanted = [
            "README.md: no_such_name isn't told any more",
            "docs/C.md: no script makes the part 'rows'",
        ]
        tests.compare("docs.py --check", b"", (1, wanted), says(room, "docs.py", "--check"))


def lengths(tests):
    """The lengths of made pages, and a page that is too long."""
    with tempfile.TemporaryDirectory() as room:
        put_scripts(room)
        put(room, PAGES)
        for more, status, told in (
            ("", 0, RIGHT),
            ("c\n", 1, "README.md has 121 lines: at most 120"),
        ):
            put(room, {"README.md": PAGES["README.md"] + more})
            text = LENGTHS % told
            if more:
                text = text.replace("120 by", "121 by").replace("129 by", "130 by")
            wanted = status, text.splitlines()
            tests.compare("lengths: " + told, b"", wanted, says(room, "docs.py", "--lengths"))


def wrong_figures(room):
    """The last place of each figure with another digit, and without it: path, page then, and
    what is said."""
    for figure, places in figures.FIGURES.items():
        path, pattern = places[-1]
        text = text_of(room, path)
        found = re.search(pattern, text)
        start, last = found.start(1), found.end(1) - 1
        other = str((int(text[last]) + 1) % 10)
        yield path, text[:last] + other + text[last + 1 :], "%s differs: " % figure
        said = "%s: %s doesn't tell it as " % (figure, path)
        yield path, text[:start] + "x" + text[start + 1 :], said


def figures_that_differ(tests):
    """Each figure that another place has otherwise, or doesn't have, is told."""
    with tempfile.TemporaryDirectory() as room:
        copied(room)
        count = len(figures.FIGURES)
        last = "%d figures, 0 faults" % count
        tests.compare("figures", b"", (0, [last]), says(room, "figures.py"))
        os.remove(os.path.join(room, "crates"))
        paths = {path for places in figures.FIGURES.values() for path, _ in places}
        put(room, {path: text_of(TOP, path) for path in paths})
        for path, wrong, said in wrong_figures(room):
            right = text_of(room, path)
            put(room, {path: wrong})
            status, lines = says(room, "figures.py")
            got = status, any(line.startswith(said) for line in lines), lines[-1]
            wanted = 1, True, "%d figures, %d faults" % (count, len(lines) - 1)
            tests.compare("figures, %s in %s" % (said, path), b"", wanted, got)
            put(room, {path: right})


def prose_of_files(tests):
    """What is wrong in any file that is read is found, at its line, and nothing in others."""
    with tempfile.TemporaryDirectory() as room:
        put_scripts(room)
        for name in os.listdir(os.path.join(room, "scripts")):
            if name != "prose.py":
                os.remove(os.path.join(room, "scripts", name))
        put(room, {path: text for path, (text, _) in WRONG.items()})
        put(room, UNREAD)
        status, lines = says(room, "prose.py")
        found = sorted(line.rsplit(": ", 2)[0] for line in lines[:-1])
        wanted = sorted("%s:%d" % (path, line) for path, (_, line) in WRONG.items())
        tests.compare("prose of all files", b"", (1, wanted), (status, found))
        tests.compare("the last line of it", b"", ["%d findings" % len(WRONG)], lines[-1:])
        wanted = 0, ["0 findings"]
        path = os.path.join(room, "docs", "B.md")
        tests.compare("prose of one file", b"", wanted, says(room, "prose.py", path))


def names_of_pages(tests):
    """What is said of a page with a name that doesn't exist, and of one without; and statements
    that name no definition are refused."""
    with tempfile.TemporaryDirectory() as room:
        for text, wanted in (
            ("`mb_problem`", (0, ["all names exist"])),
            ("`mb_problems`", (1, ["no crate, definition or path is mb_problems"])),
        ):
            put(room, {"page.md": text + "\n"})
            got = says(TOP, "proof_names.py", os.path.join(room, "page.md"))
            tests.compare("names of " + text, b"", wanted, got)
    definitions = promises.all_definitions()
    for statement, is_known in (
        (("mb_problem", "Feasible", "IsFeasible"), True),
        (("mb_problem", "Feasible", "IsFeasible IsFeasibel"), False),
        (("cert_check/src/judging.rt", "judge"), True),
        (("cert_check/src/judging.rt", "jugde"), False),
    ):
        try:
            known = bool(proof_page.named(definitions, statement))
        except ValueError:
            known = False
        tests.compare("definitions of %s" % (statement,), b"", is_known, known)


def groups_of_crates(tests):
    """The groups and crates of a made list."""
    top = crate_groups.TOP
    with tempfile.TemporaryDirectory() as room:
        put(room, {"crates.txt": CRATES})
        crate_groups.TOP = room
        try:
            got = crate_groups.groups(), crate_groups.crates()
        finally:
            crate_groups.TOP = top
        tests.compare("groups of crates", CRATES, (GROUPS, ["low", "both", "high"]), got)


def check(tests):
    """All of it, as a part of the whole run of tests."""
    groups_of_crates(tests)
    for part in (written, checked, lengths, figures_that_differ, prose_of_files, names_of_pages):
        part(tests)
