"""Tests of a release: that equal sources give equal bytes, what it is refused for, what its
programs want of a system, and that it is installed and answers in empty roots
(`installed_release.py`). A part that wants what isn't there is shown as skipped, and counted."""
import email
import json
import os
import re
import shutil
import subprocess
import sys
import tarfile
import tempfile
import zipfile

from c_library import Skipped
from debian_root import debian_root, lintian
from installed_release import c_library_alone, oldest_python, this_python
from made_release import (
    STAMP,
    TOP,
    Release,
    bytes_of,
    commit,
    git,
    is_built,
    stand_in_checkout,
    write,
)
from shipped_pages import shipped_pages


def same_bytes(program, release, tests):
    """A second run gives the same bytes, and nothing in them names this machine."""
    with tempfile.TemporaryDirectory() as folder:
        again = Release(folder)
        for one, other in (
            (release.wheel, again.wheel),
            (release.tarball, again.tarball),
            (release.debian, again.debian),
        ):
            tests.compare(
                "a second release, " + os.path.basename(one),
                b"",
                True,
                bytes_of(one) == bytes_of(other)
                and os.path.basename(one) == os.path.basename(other),
            )
        inside = release.unpacked(os.path.join(folder, "unpacked"))
        with zipfile.ZipFile(release.wheel) as wheel:
            wheel.extractall(os.path.join(inside, "wheel"))
        found = [os.path.join(at, name) for at, _, names in os.walk(inside) for name in names]
        named = [
            path
            for path in found
            if TOP.encode() in bytes_of(path)
            or not path.endswith((".py", ".md"))
            and (tempfile.gettempdir() + "/").encode() in bytes_of(path)
        ]
        tests.compare("files of a release that name a folder of this machine", b"", [], named)
    with zipfile.ZipFile(release.wheel) as wheel:
        tests.compare(
            "the times in the wheel",
            b"",
            {(1980, 1, 1, 0, 0, 0)},
            {entry.date_time for entry in wheel.infolist()},
        )
    with tarfile.open(release.tarball) as archive:
        tests.compare(
            "the times and owners in the tarball",
            b"",
            {(0, 0, 0, "", "")},
            {(entry.mtime, entry.uid, entry.gid, entry.uname, entry.gname) for entry in archive},
        )
    tests.compare(
        "the time and the name in its envelope", b"", b"\0\0\0\0\0", bytes_of(release.tarball)[3:8]
    )


def contents(program, release, tests):
    """The names of both, and what stands in them is what was built."""
    number = release.version
    tests.compare(
        "the number of the release", b"", True, re.fullmatch(r"\d+\.\d+\.\d+", number) is not None
    )
    tests.compare(
        "the name of the wheel",
        b"",
        "blossom-%s-py3-none-manylinux_2_34_x86_64.whl" % number,
        os.path.basename(release.wheel),
    )
    with zipfile.ZipFile(release.wheel) as wheel:
        told = json.loads(wheel.read("blossom/release/PROVED.json"))
        path = "blossom-%s.data/scripts/blossom" % number
        same = [name for name in wheel.namelist() if wheel.read(name) == bytes_of(program)]
        tests.compare("the wheel has the program once", b"", [path], same)
        mode = (wheel.getinfo(path).external_attr >> 16) & 0o777
        tests.compare("the wheel's program may be run", b"", 0o755, mode)
        metadata(wheel.read("blossom-%s.dist-info/METADATA" % number), number, tests)
    tests.compare(
        "what the note says of the gate",
        b"",
        (
            {key: STAMP[key] for key in ("line", "crates", "edits", "functions")},
            STAMP["kit"],
            number,
        ),
        (told["gate"], told["kit"], told["version"]),
    )
    with tempfile.TemporaryDirectory() as folder:
        inside = release.unpacked(folder)
        header = bytes_of(os.path.join(inside, "include", "blossom.h")).decode()
        tests.compare(
            "the number in the header",
            b"",
            1,
            header.count('#define BLOSSOM_VERSION "%s"\n' % number),
        )
        page = bytes_of(os.path.join(inside, "share", "blossom", "PROVED.md")).decode()
        tests.compare(
            "the page says what the note says",
            b"",
            [],
            [
                said
                for said in (
                    STAMP["line"],
                    told["sources"]["sha256"],
                    told["trusted"],
                    told["kit"],
                    *told["made"].values(),
                )
                if said not in page
            ],
        )


#: What METADATA says of the package, but for a licence.
FIELDS = (
    "Name Version Summary Keywords Author Classifier Requires-Python Provides-Extra Requires-Dist"
    " Description-Content-Type"
).split()


#: What README.md and METADATA say of what there isn't.
NOT_YET = ("has no licence yet", "no builds for other systems or processors")


def metadata(text, number, tests):
    """METADATA has each field, with the number of the release and the page of the package."""
    told = email.message_from_bytes(text)
    missing = [field for field in FIELDS if not told.get_all(field)]
    tests.compare("the fields of METADATA that are missing", b"", [], missing)
    tests.compare("the number in METADATA", b"", number, told["Version"])
    page = bytes_of(os.path.join(TOP, "python", "README.md")).decode()
    tests.compare("the page in METADATA", b"", page, told.get_payload())
    for name in ("README.md", "python/README.md"):
        words = " ".join(bytes_of(os.path.join(TOP, name)).decode().split())
        missing = [said for said in NOT_YET if said not in words]
        tests.compare("what %s says of licence and systems" % name, b"", [], missing)


def asked(folder):
    """What scripts/release.py says in a checkout: its status and what it wrote to standard
    error."""
    done = subprocess.run(
        [
            sys.executable,
            os.path.join(folder, "scripts", "release.py"),
            os.path.join(folder, "out", "made"),
        ],
        capture_output=True,
        text=True,
    )
    return done.returncode, done.stderr


def refusals(program, release, tests):
    """Nothing is made of uncommitted changes, without the gate, of another gate's sources, or of
    what it hasn't tried."""
    with tempfile.TemporaryDirectory() as folder:
        stand_in_checkout(folder, tests)
        tests.compare("a release of what the gate has passed", b"", (0, ""), asked(folder))
        made = {
            name: bytes_of(os.path.join(folder, "out", "made", name))
            for name in os.listdir(os.path.join(folder, "out", "made"))
        }
        tests.compare(
            "and another run's bytes",
            b"",
            (0, True),
            (
                asked(folder)[0],
                made
                == {name: bytes_of(os.path.join(folder, "out", "made", name)) for name in made},
            ),
        )

        def refused(what, says):
            status, said = asked(folder)
            tests.compare(
                "a release of %s is refused" % what, b"", (1, True), (status, says in said)
            )

        write(os.path.join(folder, "new.txt"), "new")
        refused("uncommitted changes", "uncommitted changes")
        commit(folder)
        refused("sources that CI hasn't seen", "hasn't passed with the present sources")
        git(folder, "reset", "-q", "--hard", "HEAD~1")
        for path, says in (
            ("crates/blossom/out/blossom", "isn't the one that CI has tried"),
            ("capi/out/libblossom.a", "isn't the one that CI has tried"),
            ("capi/out/blossom.sources", "isn't built of the present sources"),
            ("crates/blossom/out/blossom.sources", "isn't built of the present sources"),
        ):
            before = bytes_of(os.path.join(folder, path))
            write(os.path.join(folder, path), "\n0", "a")
            refused("%s with bytes more" % path, says)
            with open(os.path.join(folder, path), "wb") as file:
                file.write(before)
        os.remove(os.path.join(folder, "out", "gate.json"))
        refused("what CI has not passed", "CI hasn't passed here")


def stamps(program, release, tests):
    """The gate's stamp is of its first sources alone, and says what its log says."""
    with tempfile.TemporaryDirectory() as folder:
        stand_in_checkout(folder, tests)
        words = [sys.executable, os.path.join(folder, "scripts", "gate_stamp.py")]
        write(
            os.path.join(folder, "log"),
            "rt: ok; handles allowed: none; must-fail edits: 17 refused\n60 passed, 0 failed\n",
        )
        first = subprocess.run([*words, "sources"], capture_output=True, text=True).stdout.strip()
        os.remove(os.path.join(folder, "out", "gate.json"))
        kit = dict(os.environ, PATH=folder + ":" + os.environ["PATH"])
        write(os.path.join(folder, "rt"), "#!/bin/sh\necho the kit $1\n")
        os.chmod(os.path.join(folder, "rt"), 0o755)
        done = subprocess.run(
            [*words, "note", first, os.path.join(folder, "log"), "9 passed, 0 failed, 0 skipped"],
            env=kit,
            capture_output=True,
            text=True,
        )
        with open(os.path.join(folder, "out", "gate.json"), encoding="utf-8") as file:
            told = json.load(file)
        tests.compare(
            "the stamp of a gate",
            b"",
            (0, first, "9 passed, 0 failed, 0 skipped", 17, "the kit version"),
            (done.returncode, told["sources"], told["line"], told["edits"], told["kit"]),
        )
        os.remove(os.path.join(folder, "out", "gate.json"))
        write(os.path.join(folder, "README.md"), "more", "a")
        done = subprocess.run(
            [*words, "note", first, os.path.join(folder, "log"), "9 passed, 0 failed, 0 skipped"],
            env=kit,
            capture_output=True,
            text=True,
        )
        tests.compare(
            "no stamp where files have changed",
            b"",
            (1, False),
            (done.returncode, os.path.exists(os.path.join(folder, "out", "gate.json"))),
        )


def elf(*words):
    """What readelf says: that of the machine, or else of the kit."""
    if shutil.which("readelf"):
        return subprocess.run(
            ["readelf", "-W", *words], capture_output=True, text=True, check=True
        ).stdout
    if shutil.which("rt"):
        clang = os.path.join(
            os.path.dirname(
                subprocess.run(["rt", "doc"], capture_output=True, text=True).stdout.strip()
            ),
            "toolchain",
            "bin",
            "clang",
        )
        return subprocess.run(
            ["readelf", "-W", *words], executable=clang, capture_output=True, text=True, check=True
        ).stdout
    raise Skipped("there is no readelf")


def binaries(program, release, tests):
    """The lowest C library is the one that is stated; no text is relocated when it is loaded; no
    stack can be executed."""
    wanted = release.maker.C_LIBRARY
    for path, most in (
        (program, wanted["program"]),
        (release.maker.built()["libblossom.so"], wanted["libraries"]),
    ):
        name = os.path.basename(path)
        versions = {
            tuple(map(int, found.split(".")))
            for found in re.findall(r"\bGLIBC_(\d+(?:\.\d+)+)", elf("--version-info", path))
        }
        tests.compare(
            "the C library that %s wants" % name,
            b"",
            tuple(map(int, most.split("."))),
            max(versions, default=None),
        )
        tests.compare(
            "relocations of text in " + name,
            b"",
            0,
            len(re.findall(r"TEXTREL", elf("--dynamic", path))),
        )
        stacks = re.findall(
            r"GNU_STACK\s+\S+ \S+ \S+ \S+ \S+ (\S+(?: \S+)*?)\s+\S+$",
            elf("--program-headers", path),
            re.M,
        )
        tests.compare("the stack of " + name, b"", ["RW"], stacks)
        tests.compare(
            "what may be written and executed in " + name,
            b"",
            0,
            len(re.findall(r"\bRWE\b", elf("--program-headers", path))),
        )
    for page in ("README.md", "capi/README.md", "docs/C.md", "CHANGELOG.md"):
        with open(os.path.join(TOP, page), encoding="utf-8") as file:
            told = set(re.findall(r"version\s+(\d+\.\d+)\b", file.read()))
        tests.compare(
            "the C libraries that %s states" % page,
            b"",
            True,
            told <= set(wanted.values()) and (page == "CHANGELOG.md" or told != set()),
        )
    sections = elf("--sections", release.maker.built()["libblossom.a"])
    tests.compare(
        "the stack of what libblossom.a is linked to",
        b"",
        (True, False),
        (
            ".note.GNU-stack" in sections,
            re.search(r"\.note\.GNU-stack.*\bX\b", sections) is not None,
        ),
    )


PARTS = (
    same_bytes,
    contents,
    shipped_pages,
    refusals,
    stamps,
    binaries,
    c_library_alone,
    this_python,
    oldest_python,
    lintian,
    debian_root,
)


def check(program, tests):
    """Adds these tests to `tests`. Prints the parts that were skipped, with the reason."""
    passed, failed, skipped = tests.passed, tests.failed, tests.skipped
    with tempfile.TemporaryDirectory() as folder:
        release, reason = (
            None,
            "the program and the library for C aren't both built of the present sources",
        )
        if is_built():
            release = Release(folder)
        for part in PARTS:
            try:
                if release is None:
                    raise Skipped(reason)
                part(program, release, tests)
            except Skipped as told:
                tests.skip("release." + part.__name__, told)
            except (OSError, ValueError, KeyError, subprocess.SubprocessError) as fault:
                tests.compare("release.%s runs to its end" % part.__name__, b"", None, fault)
    print(
        "the release: %d passed, %d failed, %d skipped"
        % (tests.passed - passed, tests.failed - failed, tests.skipped - skipped)
    )
