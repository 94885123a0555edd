"""Tests of the pages of a release: each link leads to a file of the release, each page that another
one names is there, wheel and Debian package have the same, and the contracts have every clause of
the calls that they are about."""
import os
import re
import subprocess
import sys
import tempfile
import zipfile

from made_release import TOP, bytes_of, script

HOME = "share/doc/blossom/"
CALLS = {
    "run": "crates/match_cli/src/program.rt",
    "judge": "crates/cert_check/src/judging.rt",
    "blossom_solve_arrays": "crates/blossom_c/src/array_border.rt",
}
# What a reader looks for among them, at least.
DEFINED = (
    "IsFeasible",
    "StatesTruth",
    "IsBest",
    "Completes",
    "TellsSolving",
    "pub trait Source",
    "pub enum Kind",
    "pub const VERTEX_LIMIT",
)

#: A file on the page of contracts, with what it shows of it; and what that page counts.
SECTION = re.compile(r"^### (crates/\S+)\n\n```\n(.*?)\n```\n", re.M | re.S)
COUNTS = re.compile(r"(\d+)\s+definitions and (\d+) types and constants")
#: A page, the files that it links, and the pages that it names.
PAGE = """[a](FORMAT.md#top), [b](https://example.org/A.md), [c](../README.md), [d](#here)
![e](pictures/tour.svg), `FORMAT.md`, docs/C.md, NO_SUCH.md and `CHANGELOG.md`.
"""
LINKED = ["docs/FORMAT.md", "README.md", "docs/pictures/tour.svg"]
NAMED = {"docs/FORMAT.md", "README.md", "docs/C.md", "CHANGELOG.md"}


def pages(folder):
    """The pages below a folder, by their paths."""
    found = (os.path.join(at, name) for at, _, names in os.walk(folder) for name in names)
    return {os.path.relpath(path, folder): bytes_of(path) for path in found}


def broken(folder, path, text):
    """The links of a page that lead to no file, and the pages that it names in vain."""
    of = script("release_pages")
    at = os.path.relpath(path, folder)
    for target in of.links(at, text):
        if not os.path.exists(os.path.join(folder, target)):
            yield target
    for name in re.findall(r"\bdocs/[A-Z_]+\.md", text):
        if not os.path.exists(os.path.join(folder, name)):
            yield name


def referred_files(tests):
    """What a page refers to, by links and by names, and what scripts/release_pages.py lists."""
    of = script("release_pages")
    got = list(of.links("docs/A.md", PAGE)), set(of.named("docs/A.md", PAGE))
    tests.compare("what a page links and names", PAGE, (LINKED, NAMED), got)
    beside = list(of.named("capi/A.md", "README.md"))
    tests.compare("a page beside one of its name", b"", ["capi/README.md"], beside)
    of.read = lambda path: PAGE.encode()
    tests.compare("what a page refers to", PAGE, NAMED | set(LINKED), of.referred("docs/A.md"))
    words = [sys.executable, os.path.join(TOP, "scripts", "release_pages.py")]
    done = subprocess.run(words, capture_output=True, text=True)
    listed = done.returncode, set(LINKED) <= set(done.stdout.splitlines())
    tests.compare("the pages of a release are listed", b"", (0, True), listed)
    done = subprocess.run([*words, "docs"], capture_output=True)
    tests.compare("an argument of release_pages.py", b"", 2, done.returncode)


def contracts(text, tests):
    """The page of contracts has the head of each call, each clause and what a reader looks for."""
    for name, path in CALLS.items():
        source = bytes_of(os.path.join(TOP, path)).decode()
        start = re.search(r'^pub (?:extern "C" )?fn %s\b' % name, source, re.M).start()
        head = source[start : source.index("\n{", start)]
        tests.compare("the contract of %s on its page" % name, head, 1, text.count(head))
    missing = [name for name in DEFINED if not re.search(r"\b%s\b" % name, text)]
    tests.compare("definitions that the contracts lack", b"", [], missing)


def definitions(text, tests):
    """Each piece of a file on the page stands so in the file, and there are as many definitions and
    types as the page says."""
    starts = {".antt": script("uncited_definitions").DEFINITION, ".rt": script("contracts").TYPE}
    heads, strange = dict.fromkeys(starts, 0), []
    for path, shown in SECTION.findall(text):
        source, ending = bytes_of(os.path.join(TOP, path)).decode(), os.path.splitext(path)[1]
        strange += [piece for piece in shown.split("\n\n") if piece not in source]
        found = [line for line in shown.split("\n") if starts[ending].match(line)]
        heads[ending] += len(found)
        fronts = [r"(?:^--.*\n)+(?=%s$)" % re.escape(line) for line in found]
        comments = [re.search(front, source, re.M) for front in fronts]
        strange += [one[0] for one in comments if one and one[0] not in shown]
    told = COUNTS.search(text)
    tests.compare("pieces of contracts that no file has", b"", [], strange)
    wanted = {".antt": int(told[1]), ".rt": int(told[2])}
    tests.compare("definitions and types of the contracts", b"", wanted, heads)


def shipped_pages(program, release, tests):
    """All of it."""
    referred_files(tests)
    with tempfile.TemporaryDirectory() as room:
        home = os.path.join(release.unpacked(room), HOME)
        found = pages(home)
        tests.compare("pages of a release", b"", True, {"README.md", "docs/C.md"} <= found.keys())
        for path, content in sorted(found.items()):
            if path.endswith(".md"):
                faults = sorted(set(broken(home, os.path.join(home, path), content.decode())))
                tests.compare("links of %s in a release" % path, b"", [], faults)
        front = bytes_of(os.path.join(home, "../../../README.md")).decode()
        named = set(re.findall(r"`((?:docs/)?[A-Z]+\.md)`", front))
        tests.compare("pages that the tarball's page names in vain", b"", set(), named - set(found))
        contracts(found["CONTRACTS.md"].decode(), tests)
        definitions(found["CONTRACTS.md"].decode(), tests)
        with zipfile.ZipFile(release.wheel) as wheel:
            inside = {
                name.partition(HOME)[2]: wheel.read(name)
                for name in wheel.namelist()
                if HOME in name
            }
        tests.compare("the pages of the wheel", b"", True, inside == found)
