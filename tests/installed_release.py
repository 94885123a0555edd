"""What a release does in empty roots, where there is neither kit nor checkout nor network: the
tarball with the C library alone, the wheel with this Python and with the oldest that is
promised."""
import contextlib
import importlib.util
import os
import re
import shlex
import shutil
import subprocess
import sys
import tempfile
import time

from bare_root import Root, entry_words
from c_library import Skipped
from made_release import SCRIPTS, STAMP, TOP, bytes_of, stand_in_checkout, write

# The release of Debian that has the oldest Python which the package promises to run by, and the
# packages of it and of its pip.
OLDEST, SUITE = (3, 9), "bullseye"
PACKAGES = (
    "python3.9-minimal libpython3.9-minimal libpython3.9-stdlib python3-distutils python3-lib2to3 "
    "python3-pip python-pip-whl python3-setuptools python3-pkg-resources python3-wheel zlib1g "
    "libexpat1 libssl1.1 libffi7 libbz2-1.0 liblzma5 libmpdec3 libuuid1 libcrypt1"
).split()
A_MINUTE = 60
CMAKE = """cmake_minimum_required(VERSION 3.10)
project(example C)
find_package(blossom 1.0 REQUIRED CONFIG)
foreach(kind blossom static)
  add_executable(by-cmake-${kind} "%s")
  target_link_libraries(by-cmake-${kind} blossom::${kind})
  set_target_properties(by-cmake-${kind} PROPERTIES BUILD_RPATH /usr/local/lib)
endforeach()
"""
PATIENT = """import blossom, os, shutil, sys
answer = blossom.min_weight_perfect_matching([("a", "b", 3), ("b", "c", 1), ("c", "d", 3), ("d", "a", 1)])
library = blossom.min_weight_perfect_matching([("a", "b", 3)], engine="library")
from blossom.process import find_program
from blossom.library import find_library
print(sys.version_info[:2], blossom.__version__, answer.weight, bool(answer.check()))
print(library.weight, bool(library.check(engine="library")))
release = os.path.join(os.path.dirname(blossom.__file__), "release")
print(os.path.dirname(find_library()) == release, os.listdir(release).count("blossom"))
print(os.path.realpath(shutil.which("blossom")) == find_program())
"""


def readme():
    """The text of README.md."""
    with open(os.path.join(TOP, "README.md"), encoding="utf-8") as file:
        return file.read()


def pieces(text):
    """The indented pieces of a page."""
    return [
        re.sub(r"^    ", "", piece, flags=re.M).strip("\n") + "\n"
        for piece in re.findall(r"(?:^    .*\n|^\n(?=    ))+", text, re.M)
    ]


def commands(text):
    """The commands that a page shows behind `$ ` and what they print: their words, the file that
    they read, and lines, of which `...` stands for any that follow."""
    for command, printed in re.findall(
        r"^\$ (.*)\n((?:(?!\$ ).+\n)*)", "\n".join(pieces(text)), re.M
    ):
        words, _, given = command.partition("  #")[0].partition("<")
        yield shlex.split(words), given.strip(), printed.splitlines()


def pythons(text):
    """The pieces of Python on a page, and what they print: it stands behind each `print`."""
    for piece in pieces(text):
        if re.match(r"(?:import|from) ", piece):
            yield piece, "".join(
                line.partition("  # ")[2] + "\n"
                for line in piece.splitlines()
                if line.lstrip().startswith("print(")
            )


def is_as_shown(shown, printed):
    """Whether lines are those that are shown."""
    front = shown[: shown.index("...")] if "..." in shown else shown
    return printed[: len(front)] == front and ("..." in shown or len(printed) == len(front))


@contextlib.contextmanager
def bare_root():
    """An empty root."""
    entry = entry_words()
    if entry is None:
        raise Skipped("no root can be entered here (chroot, unshare)")
    with tempfile.TemporaryDirectory() as folder:
        yield Root(folder, entry)


def run_shown(root, text, name, tests):
    """Runs the commands and the pieces of Python of a page in a root, beside the examples."""
    shutil.copytree(os.path.join(TOP, "examples"), root.place("examples"), dirs_exist_ok=True)
    count = 0
    for words, given, shown in commands(text):
        if words[0] != "blossom":
            continue
        count += 1
        status, printed = root.run(words, bytes_of(os.path.join(TOP, given)) if given else b"")
        tests.compare(
            "%s: %s" % (name, " ".join(words)),
            given,
            (0, True),
            (status, is_as_shown(shown, printed.splitlines())),
        )
    tests.compare(name + ": commands that README.md shows", b"", True, count >= 2)


def c_library_alone(program, release, tests):
    """The tarball in a root with the C library and nothing else: the program, and the example as
    pkg-config and CMake have it compiled."""
    with bare_root() as root:
        root.put(program)
        os.remove(root.place(program))
        tests.compare(
            "a root with the C library alone",
            b"",
            True,
            all(
                re.match(r"(?:ld-linux|libc|libm|libgcc_s)\b", name)
                for _, _, names in os.walk(root.folder)
                for name in names
                if name != "null"
            ),
        )
        release.install(root.place("/usr/local"))
        run_shown(root, readme(), "the tarball in a bare root", tests)
        compiled(root, program, tests)
        status, printed = root.run(["/usr/local/bin/blossom-verify"])
        tests.compare("there is no Python in it", b"", True, status != 0)
        verified(root.place("/usr/local/bin/blossom-verify"), root.place("/usr/local"), tests)
        verified_sources(root.place("/usr/local/bin/blossom-verify"), tests)


def expected_of_example(program):
    given = b"p edge 6 7\ne 1 2 1\ne 2 3 1\ne 1 3 1\ne 4 5 1\ne 5 6 1\ne 4 6 1\ne 3 4 10\n"
    solved = subprocess.run(
        [program, "solve", "perfect"], input=given, capture_output=True
    ).stdout.decode()
    return 0, "16 bytes are too few for %d\n" % len(solved.encode()) + solved + "s ACCEPTED\n"


def compiled(root, program, tests):
    """The example, compiled by what the tarball tells pkg-config and CMake, runs in the root."""
    compiler, example = shutil.which(os.environ.get("CC", "cc")), root.place(
        "/usr/local/share/blossom/examples/example.c"
    )
    for name, words in (("pkg-config", by_pkg_config), ("cmake", by_cmake)):
        if compiler is None or shutil.which(name) is None:
            tests.skip(
                "release, the example by " + name,
                "there is no C compiler" if compiler is None else "there is no " + name,
            )
            continue
        for made in words(root, compiler, example):
            tests.compare(
                "the example by %s, %s" % (name, made),
                b"",
                expected_of_example(program),
                root.run(["/usr/local/bin/" + made]),
            )


def by_pkg_config(root, compiler, example):
    """Compiles it by what pkg-config says. Answers the programs' names."""
    environment = dict(os.environ, PKG_CONFIG_PATH=root.place("/usr/local/lib/pkgconfig"))
    flags = subprocess.run(
        ["pkg-config", "--cflags", "--libs", "blossom >= 1.0"],
        env=environment,
        capture_output=True,
        text=True,
    ).stdout.split()
    subprocess.run(
        [
            compiler,
            "-std=c99",
            "-Wall",
            "-Werror",
            example,
            *flags,
            "-Wl,-rpath,/usr/local/lib",
            "-o",
            root.place("/usr/local/bin/by-pkg-config"),
        ],
        check=True,
    )
    return ["by-pkg-config"]


def by_cmake(root, compiler, example):
    """Compiles it by find_package, with either library. Answers the programs' names."""
    names = ["by-cmake-blossom", "by-cmake-static"]
    with tempfile.TemporaryDirectory() as folder:
        write(os.path.join(folder, "CMakeLists.txt"), CMAKE % example)
        for words in (
            [
                "-S",
                folder,
                "-B",
                folder + "/made",
                "-DCMAKE_PREFIX_PATH=" + root.place("/usr/local"),
                "-DCMAKE_C_COMPILER=" + compiler,
            ],
            ["--build", folder + "/made"],
        ):
            subprocess.run(["cmake", *words], check=True, capture_output=True)
        for name in names:
            shutil.copy(os.path.join(folder, "made", name), root.place("/usr/local/bin"))
    return names


def says(verify, *words):
    """The status of blossom-verify, and what it prints."""
    done = subprocess.run(
        [sys.executable, verify, *words],
        capture_output=True,
        text=True,
        env=dict(os.environ, PYTHONPATH=""),
    )
    return done.returncode, done.stdout + done.stderr


def verified_sources(verify, tests):
    """blossom-verify says yes of these sources, and names what isn't theirs."""
    with tempfile.TemporaryDirectory() as folder:
        stand_in_checkout(folder, tests)
        status, said = says(verify, folder)
        right = STAMP["line"] in said and "sources are those of blossom" in said
        tests.compare("blossom-verify of these sources", b"", (0, True), (status, right))
        write(os.path.join(folder, "crates", "mb_base", "src", "lib.rt"), "// more\n", "a")
        write(os.path.join(folder, "crates", "mb_base", "src", "one_more.rt"), "// more\n")
        os.remove(os.path.join(folder, "HANDLES"))
        wanted = {
            "crates/mb_base/src/lib.rt differs",
            "crates/mb_base/src/one_more.rt was added",
            "HANDLES is missing",
        }
        status, said = says(verify, folder)
        got = status, set(said.splitlines())
        tests.compare("blossom-verify of other sources", b"", (1, wanted), got)
    status, said = says(verify, "/nowhere/at/all")
    got = status, len(said.splitlines())
    tests.compare("blossom-verify of no checkout", b"", (2, 1), got)


def verified(verify, prefix, tests):
    """blossom-verify says yes of the release, and names each file that was changed, removed or
    added. It prints its help, and ends without a traceback if nobody reads what it prints."""
    for path, text in (
        ("bin/blossom", "more"),
        ("bin/blossom-verify", "# more\n"),
        ("include/blossom.h", "/* more */\n"),
        ("lib/libblossom.a", "more"),
        ("share/blossom/PROVED.md", "more\n"),
        ("share/man/man1/blossom.1", "more\n"),
        ("share/doc/blossom/docs/FORMAT.md", "more\n"),
    ):
        place = os.path.join(prefix, path)
        before = bytes_of(place)
        write(place, text, "a")
        got = says(verify)
        tests.compare("blossom-verify: " + path, b"", (1, place + " differs\n"), got)
        os.remove(place)
        if path != "bin/blossom-verify":
            got = says(verify)
            tests.compare("without " + path, b"", (1, place + " is missing\n"), got)
        with open(place, "wb") as file:
            file.write(before)
    for path in ("share/blossom/more.txt", "share/doc/blossom/docs/MORE.md"):
        added = os.path.join(prefix, path)
        write(added, "more")
        wanted = 1, added + " was added\n"
        tests.compare("blossom-verify, added: " + path, b"", wanted, says(verify))
        os.remove(added)
    tests.compare("blossom-verify of what is installed", b"", 0, says(verify)[0])
    tests.compare("blossom-verify --help", b"", 0, says(verify, "--help")[0])
    piped = "set -o pipefail; %s %s --help | true" % (sys.executable, verify)
    done = subprocess.run(["bash", "-c", piped], capture_output=True, text=True)
    tests.compare("blossom-verify into a closed pipe", b"", "", done.stderr)


def installed_wheel(root, python, release, version, tests):
    """Installs the wheel by pip and asks for a first answer, both in less than a minute; then what
    README.md shows runs."""
    name = "the wheel by Python %d.%d in a bare root" % version
    shutil.copy(release.wheel, root.place("/tmp"))
    start = time.monotonic()
    status, said = root.run(
        [python, "-m", "pip", "install", "--no-index", "/tmp/" + os.path.basename(release.wheel)]
    )
    tests.compare(name + ": pip install", b"", (0, ""), (status, said if status else ""))
    if status:
        return
    answer = root.run([python, "-c", PATIENT])
    took = time.monotonic() - start
    tests.compare(
        name + ": the first answers",
        b"",
        (0, "%r %s 2 True\n3 True\nTrue 0\nTrue\n" % (version, release.version)),
        answer,
    )
    tests.compare(
        name + ": seconds until then (%.1f), under a minute" % took, b"", True, took < A_MINUTE
    )
    print("%s: installed, and the first answer given, in %.1f seconds" % (name, took))
    text = readme()
    run_shown(root, text, name, tests)
    shown = list(pythons(text))
    tests.compare(name + ": pieces of Python that README.md shows", b"", True, len(shown) >= 1)
    for piece, printed in shown:
        tests.compare(
            name + ": " + piece.splitlines()[-1],
            piece,
            (0, printed),
            root.run([python, "-c", piece]),
        )
    tests.compare(
        name + ": blossom-verify",
        b"",
        True,
        re.match(
            r"\d\d+ files are those of blossom %s;" % re.escape(release.version),
            root.run(["blossom-verify"])[1],
        )
        is not None,
    )


def this_python(program, release, tests):
    """The wheel in a root with the C library and the Python that runs this."""
    if importlib.util.find_spec("pip") is None:
        raise Skipped("there is no pip")
    with bare_root() as root:
        root.put(program)
        os.remove(root.place(program))
        root.put_python()
        installed_wheel(root, "python3", release, sys.version_info[:2], tests)


def oldest_python(program, release, tests):
    """The wheel in a root with the oldest Python that is promised, as Debian has it, over this
    machine's C library: that of its own time is older than the program wants."""
    with bare_root() as root:
        if subprocess.run(
            [os.path.join(SCRIPTS, "debian.sh"), SUITE, root.folder, *PACKAGES], capture_output=True
        ).returncode:
            raise Skipped("Python %d.%d of Debian can't be had here" % OLDEST)
        for name in (
            "bin",
            "sbin",
            "lib",
            "lib64",
        ):  # as Debian has them now, so that both place libraries in one folder
            merge(root, name)
        root.put(program)
        os.remove(root.place(program))
        for name in ("libm.so.6", "libdl.so.2", "libpthread.so.0", "libutil.so.1", "librt.so.1"):
            root.put(os.path.join("/lib/x86_64-linux-gnu", name))
        os.symlink("python3.9", root.place("/usr/bin/python3"))
        installed_wheel(root, "python3", release, OLDEST, tests)


def merge(root, name):
    """Has a folder at the top of a root be the one below usr."""
    at, into = root.place(name), root.place("usr/" + name)
    os.makedirs(into, exist_ok=True)
    if os.path.isdir(at) and not os.path.islink(at):
        shutil.copytree(at, into, symlinks=True, dirs_exist_ok=True)
        shutil.rmtree(at)
    if not os.path.islink(at):
        os.symlink("usr/" + name, at)
