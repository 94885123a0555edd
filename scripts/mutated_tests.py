"""Which tests try a wrong body of a file, and how these are run: test modules of the Python package
and parts of the end-to-end tests, the quickest first."""
import os
import sys

#: The Python that has the libraries of tests, and the test modules that start it.
PYTHON = "/usr/bin/python3" if os.path.exists("/usr/bin/python3") else sys.executable
PROCESSES = (
    "test_commands test_process test_users test_convert test_gallery test_package test_batch"
).split()
#: Runs a test module, and notes the functions of the package that are called in its process.
REACHED = """
import json, os, runpy, sys, threading
told, test = sys.argv[1:]
folder, codes, status = os.path.abspath("python/blossom") + os.sep, set(), 1
def hook(frame, event, argument):
    if event == "call":
        codes.add(frame.f_code)
sys.argv = ["run.py", test]
threading.setprofile(hook)
sys.setprofile(hook)
try:
    runpy.run_path("tests/python/run.py", run_name="__main__")
except SystemExit as ended:
    status = ended.code
sys.setprofile(None)
with open(told, "w", encoding="utf-8") as file:
    found = {(code.co_filename, code.co_firstlineno) for code in codes}
    json.dump(sorted((os.path.relpath(path), line) for path, line in found
                     if path.startswith(folder)), file)
sys.exit(status)
"""
#: Runs some parts of the end-to-end tests; the status is 1 if a test fails. A part gets what its
#: parameters name: the program, the library for C whatever sources capi/out is of, or a release.
PARTS = """
import importlib, os, signal, sys, tempfile
sys.path.insert(0, "tests")
signal.signal(signal.SIGINT, signal.default_int_handler)
signal.signal(signal.SIGHUP, signal.SIG_DFL)
class Tests:
    passed = failed = skipped = 0
    def skip(self, name, reason):
        self.skipped += 1
    def compare(self, name, given, wanted, got):
        if wanted != got:
            print("FAILED", name, repr(wanted)[:300], repr(got)[:300], flush=True)
            os._exit(1)
        self.passed += 1
tests, room = Tests(), tempfile.TemporaryDirectory()
GIVEN = {
    "program": lambda: os.path.abspath(sys.argv[1]),
    "tests": lambda: tests,
    "library": lambda: importlib.import_module("c_parts").Library(),
    "release": lambda: importlib.import_module("made_release").Release(room.name),
}
for name in sys.argv[2:]:
    module, _, part = name.partition(".")
    call = getattr(importlib.import_module(module), part)
    names = call.__code__.co_varnames[: call.__code__.co_argcount]
    call(*[GIVEN[name]() for name in names])
print(tests.passed, "passed")
sys.exit(0 if tests.passed else 1)
"""
BUILDS = (
    "launcher.order builds.words builds.folder launcher.at_once launcher.stops_compiling"
    " builds.goes_on launcher.time_limit launcher.without_kit library_builds.after_gate"
    " launcher.builds launcher.stops launcher.looks library_builds.changes"
    " library_builds.failures"
)
TAKEN = (
    "dist_program.built_of_others dist_program.built_instead dist_program.damaged"
    " dist_program.taken dist_program.other_sources dist_program.package"
)
PAGES = (
    "pages.planted_lengths pages.planted_refusals pages.planted_prose pages.planted_promises"
    " pages.planted_names written_pages.lengths written_pages.prose_of_files"
    " written_pages.groups_of_crates written_pages.names_of_pages pages.planted_parts"
    " written_pages.figures_that_differ written_pages.checked written_pages.written"
    " pages.generated"
)
CLAUSES = (
    "clause_tools.clauses clause_tools.public clause_tools.uncited clause_tools.revisions"
    " clause_tools.equal clause_tools.equal_bodies"
)
RELEASES = (
    "release.contents release.shipped_pages release.same_bytes release.binaries release.stamps"
    " release.refusals dist.stand_in release.c_library_alone release.this_python release.lintian"
    " release.debian_root"
)
#: Which parts are for which scripts. What the library for C is built by isn't tried by parts that
#: want one of the present sources.
OF_SCRIPTS = (
    ("build compiling link_library link_program sources targets", BUILDS),
    ("dist_program sources targets", TAKEN),
    ("dist_program", "dist_program.clone dist.stand_in"),
    ("docs figures kinds prose proof_names promises must_fail_page crate_groups", PAGES),
    ("crate_pages gallery_page header_page proof_page python_page wrong_bodies_page", PAGES),
    ("compare_clauses uncited_definitions equal_statements equal_bodies", CLAUSES),
    ("uncited_definitions", PAGES + " release.shipped_pages"),
    ("pictures", "python.test_package"),
    ("release blossom_verify debian_package", RELEASES),
    ("contracts release_pages", "release.shipped_pages release.same_bytes"),
    ("gate_stamp", "release.stamps release.refusals release.contents dist.stand_in"),
    ("dist", "dist.stand_in"),
)
#: Which parts of the tests of the library for C are for which files; for the header all are, and
#: others.
OF_C = {
    "parts.c": ["c_structs.parts_of_answers"],
    "refused.c": ["c_structs.buffers_without_an_answer"],
    "answers.cpp": ["c_structs.c_plus_plus"],
    "temporaries.cpp": ["c_structs.temporaries"],
    "joins.c": ["c_joins.structs"],
    "joins.cpp": ["c_joins.c_plus_plus"],
    "example_joins.c": ["c_joins.example", "c_compilers.failing_examples"],
    "example_arrays.c": ["c_structs.example", "c_compilers.failing_examples"],
    "example.c": ["c_compilers.example", "c_compilers.failing_examples"],
    "blossom.hpp": ["c_structs.c_plus_plus", "c_structs.temporaries", "c_joins.c_plus_plus"],
}
OF_HEADER = (
    "c_compilers.numbers_and_types c_compilers.header_in_c_plus_plus c_arrays.faults c_joins.faults"
    " c_edge.statuses c_edge.no_such_call c_edge.python_numbers c_edge.longest_answer"
    " c_edge.version"
).split()


def test_modules(body, text, found):
    """The test modules that can notice a change of a function, the quickest first: those that call
    it, and then those that start processes."""
    first = text.count("\n", 0, body.first) + 1
    calls = sorted((time, test) for test, (time, own) in found.items() if (body.file, first) in own)
    others = [test for test in PROCESSES if test in found and (found[test][0], test) not in calls]
    return [test for _, test in calls] + others


def words_of(part, program):
    """How a part is run: of the end-to-end tests, or a test module of the Python package."""
    module, _, name = part.partition(".")
    if module == "python":
        return [PYTHON, "tests/python/run.py", "--failfast", name]
    return [sys.executable, "-c", PARTS, program, part]


def parts_of(where, file):
    """The parts that try a body of a script or of the C edge."""
    name = os.path.basename(file)
    if where == "scripts":
        script = os.path.splitext(name)[0]
        parts = [part for names, part in OF_SCRIPTS if script in names.split()]
        return list(dict.fromkeys(" ".join(parts).split()))
    every = list(dict.fromkeys(sum(OF_C.values(), []))) + OF_HEADER
    return OF_C.get(name, every)


def commands(where, body, text, copy):
    """The tests of a body, in the order in which they are tried: the words of each."""
    if where == "python":
        parts = ["python." + test for test in test_modules(body, text, copy.reached)]
    else:
        parts = parts_of(where, body.file)
    for part in parts:
        yield part, words_of(part, copy.program)
