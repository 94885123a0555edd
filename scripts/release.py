#!/usr/bin/env python3
"""Makes a release, which needs no Rattle toolchain: a wheel for Python, a tarball for C with the
program and the libraries, and a Debian package.

Usage: release.py [FOLDER] (without a word: out/release). It is made of what CI has built and
tried here, and of nothing else. Uncommitted changes, sources that CI hasn't passed with, and a
program or a library other than CI tried are refused, with status 1. The files of dist/ are no
sources: scripts/dist.py makes them by this.

Each has a proof note: PROVED.json and the page PROVED.md (what was proved and tried, what is
trusted, how to do it again) and SOURCES.sha256 (each source); `blossom-verify` compares them with
what is installed and with a checkout. Equal sources and an equal run of CI give equal bytes, if
the same tools pack them."""
import gzip
import hashlib
import io
import json
import os
import re
import subprocess
import sys
import tarfile
import zlib

import debian_package
import gate_stamp
import release_pages
from sources import TOP, digest
from targets import SONAME, TARGETS, released_sources

sys.path.append(os.path.join(TOP, "python"))
import build_backend  # noqa: E402

# The lowest version of the C library that has all symbols which the program, and the libraries,
# want. tests/release.py compares it with what they want.
C_LIBRARY = {"program": "2.34", "libraries": "2.14"}
TAG = "py3-none-manylinux_%s_x86_64" % C_LIBRARY["program"].replace(".", "_")
COMPLETIONS = {
    "blossom.bash": "bash-completion/completions/blossom",
    "blossom.zsh": "zsh/site-functions/_blossom",
    "blossom.fish": "fish/vendor_completions.d/blossom.fish",
}
MANUAL = ("blossom.1", "blossom-verify.1", "blossom-check-plain.1")
PLAIN = ("plain_checker.py", "plain_instances.py")
EXAMPLES = (
    "capi/example.c",
    "capi/example_arrays.c",
    "capi/example_joins.c",
    "examples/two-triangles.dimacs",
    "examples/perfect-two-triangles.checked",
    "examples/streets.csv",
)


class Refused(Exception):
    """There is nothing that a release can be made of; the text says why."""


def read(path):
    with open(os.path.join(TOP, path), "rb") as file:
        return file.read()


def text_of(path):
    return read(path).decode("utf-8")


def section(page, title):
    """The text below a heading of a page, up to the next one."""
    return re.search(
        r"^## %s\n+(.*?)\n*(?=^## |\Z)" % re.escape(title), text_of(page), re.M | re.S
    )[1]


def git(*words):
    """What git says of the sources: of all files but those of the release in the repository."""
    words = ["git", *words, "--", ".", ":(exclude)" + gate_stamp.RELEASE]
    return subprocess.run(words, cwd=TOP, capture_output=True, text=True, check=True).stdout


def refuse_changes():
    """Refused: there are uncommitted changes."""
    told = git("status", "--porcelain")
    if told:
        raise Refused("there are uncommitted changes:\n" + told.rstrip("\n"))


def packed_by():
    """The versions of what packs a release: other ones may give other bytes."""
    debian = subprocess.run(["dpkg-deb", "--version"], capture_output=True, text=True, check=True)
    return {
        "Python": "%d.%d" % sys.version_info[:2],
        "dpkg-deb": re.search(r"version (\S+)", debian.stdout)[1],
        "zlib": zlib.ZLIB_RUNTIME_VERSION,
    }


def refuse_unbuilt():
    """Refused: the program or the library isn't built of the present sources."""
    for target in TARGETS.values():
        if not target.is_built(target.sources()):
            raise Refused(
                "%s isn't built of the present sources: .ci/run"
                % os.path.relpath(target.folder, TOP)
            )


def passed():
    """What CI has noted. Refused: it hasn't passed with the present sources, or what stands
    here isn't what it built of them."""
    stamp = gate_stamp.read()
    if stamp is None:
        raise Refused("CI hasn't passed here: .ci/run")
    if stamp["sources"] != gate_stamp.checksum():
        raise Refused("CI hasn't passed with the present sources: .ci/run")
    refuse_unbuilt()
    for name, path in built().items():
        if stamp["made"][name] != digest(path):
            raise Refused(
                "%s isn't the one that CI has tried: .ci/run" % os.path.relpath(path, TOP)
            )
    return dict(stamp, commit=git("log", "-1", "--format=%H").strip())


def built():
    """The files that were built, by their names."""
    return {
        name: os.path.join(target.folder, name)
        for target in TARGETS.values()
        for name in target.names
    }


def proof_note(stamp):
    """What PROVED.json says."""
    sources = gate_stamp.source_list()
    return {
        "name": "blossom",
        "version": build_backend.version(),
        "commit": stamp["commit"],
        "sources": {
            "files": sources.count("\n"),
            "sha256": hashlib.sha256(sources.encode("utf-8", "surrogateescape")).hexdigest(),
        },
        "kit": stamp["kit"],
        "gate": {key: stamp[key] for key in ("line", "crates", "edits", "functions")},
        "made": {name: digest(path) for name, path in sorted(built().items())},
        "made of": released_sources(),
        "packed by": packed_by(),
        "wants": {"system": "Linux", "processor": "x86-64-v2", "C library": C_LIBRARY},
        "trusted": section("docs/TESTING.md", "What is trusted"),
        "again": [
            "check out the commit that is named here, or the sources whose checksums "
            "SOURCES.sha256 lists; blossom-verify CHECKOUT compares them",
            "install the Rattle toolchain that is named here",
            ".ci/run, which closes with CI's line",
            "scripts/release.py, which makes these files",
        ],
    }


def without_links(text):
    """A text with the words of its links alone: it stands in several folders."""
    return re.sub(r"\[([^\]]*)\]\([^)]*\)", r"\1", text)


def made_part(note):
    """The front of the page: of what the files were made, by what, and what CI ended with."""
    gate, rows = note["gate"], ["    %s  %s" % (told, name) for name, told in note["made"].items()]
    return [
        "CI of the repository passed over the sources that this release was made of, and",
        "the files below are those that it built and tried. It ended with",
        "",
        "    " + gate["line"],
        "",
        "%d functions in %d crates are proved, each with its contracts, and %d wrong bodies were"
        % (gate["functions"], gate["crates"], gate["edits"]),
        "tried and refused by the prover. The rest of what it counts are tests.",
        "",
        "Made of the %d files of the commit" % note["sources"]["files"],
        "",
        "    " + note["commit"],
        "",
        "SOURCES.sha256 lists them, as `sha256sum -c` reads them; its SHA-256 is",
        "",
        "    " + note["sources"]["sha256"],
        "",
        "The Rattle toolchain was `%s`. What it made:" % note["kit"],
        "",
        *rows,
    ]


def proof_page(note):
    """The same as a page."""
    contracts = "CONTRACTS.md in share/doc/blossom has the contracts, with each definition."
    parts = {
        "# What was proved of blossom %s" % note["version"]: made_part(note),
        "## What the proof says": [contracts, "", section("README.md", "What is proved")],
        "## What only tests show": [section("docs/TESTING.md", "What only tests show")],
        "## What nothing shows": [section("docs/TESTING.md", "What nothing shows")],
        "## What is trusted": [note["trusted"]],
        "## To do it again": ["%d. %s" % pair for pair in enumerate(note["again"], 1)],
    }
    text = ["\n".join([title, "", *lines, ""]) for title, lines in parts.items()]
    return without_links("\n".join(text))


def note_files(stamp):
    """The three files of a proof note, by their names. PROVED.json has the checksum of each file of
    the wheel and of the tarball but itself."""
    note = proof_note(stamp)
    pages = {
        "PROVED.md": proof_page(note).encode("utf-8"),
        "SOURCES.sha256": gate_stamp.source_list().encode("utf-8", "surrogateescape"),
    }
    scripts, data = data_folder("scripts"), data_folder("data")
    note["files"] = {
        "tarball": checksums(
            {path: text for path, text in tarball_files(pages)[0].items() if "/" in path}
        ),
        "deb": {
            path: told
            for path, told in checksums(debian_files(pages)[0]).items()
            if path != debian_package.PACKAGES + build_backend.information() + "/RECORD"
        },
        "wheel": {
            path.replace(scripts, "scripts/", 1).replace(data, "data/", 1): told
            for path, told in checksums(wheel_files(pages)).items()
        },
    }
    text = json.dumps(note, indent=1, sort_keys=True) + "\n"
    return {**pages, "PROVED.json": text.encode("utf-8")}


def checksums(files):
    """The SHA-256 of each file, of a script without the line that names its interpreter."""
    return {
        path: hashlib.sha256(
            content.partition(b"\n")[2]
            if os.path.basename(path).startswith("blossom-") and content.startswith(b"#!")
            else content
        ).hexdigest()
        for path, content in files.items()
    }


def data_folder(part):
    """The folder of a wheel whose files an installer puts elsewhere."""
    return "blossom-%s.data/%s/" % (build_backend.version(), part)


def shared_files():
    """Files of every release below share/: man pages, completions, examples, the second checker to
    read, and pages."""
    files = {"man/man1/" + name: read("packaging/" + name) for name in MANUAL}
    for name, path in COMPLETIONS.items():
        files[path] = read("packaging/" + name)
    for path in EXAMPLES:
        files["blossom/examples/" + os.path.basename(path)] = read(path)
    for name in PLAIN:
        files["blossom/plain/" + name] = read("tests/" + name)
    files.update({"doc/blossom/" + path: text for path, text in release_pages.pages().items()})
    return {"share/" + path: content for path, content in files.items()}


def commands():
    """The commands of a release, by their names."""
    return {
        "blossom": read(built()["blossom"]),
        "blossom-verify": read("scripts/blossom_verify.py"),
        "blossom-check-plain": read("packaging/blossom_check_plain.py"),
    }


def wheel_files(notes):
    """The files of the wheel by their paths."""
    files = {
        **build_backend.package_files(),
        "blossom/installed_from.py": build_backend.installed_from(None),
        "blossom/release/libblossom.so": read(built()["libblossom.so"]),
    }
    files.update({"blossom/release/" + name: content for name, content in notes.items()})
    for name, content in commands().items():
        content = content.replace(b"#!/usr/bin/env python3\n", b"#!python\n", 1)
        files[data_folder("scripts") + name] = content
    files.update({data_folder("data") + path: text for path, text in shared_files().items()})
    return files


def wheel(folder, notes):
    """Writes the wheel. The program is a command of it: the package finds it where the installer
    has recorded it. Answers its name."""
    programs = [data_folder("scripts") + name for name in commands()]
    programs.append("blossom/release/libblossom.so")
    return build_backend.write_wheel(folder, wheel_files(notes), TAG, tuple(programs))


def header():
    """The header, with the number of the release."""
    text, line = text_of("capi/blossom.h"), "#define BLOSSOM_ABI 5\n"
    if text.count(line) != 1:
        raise Refused(
            "capi/blossom.h hasn't the one line %r, below which the number of the release stands"
            % line
        )
    return text.replace(
        line,
        line
        + "\n/* The number of the release that this header is of. */\n"
        + '#define BLOSSOM_VERSION "%s"\n' % build_backend.version(),
    ).encode("utf-8")


def tarball_files(notes):
    """The files of the tarball by their paths, and those of them that may be run. Its folders are
    those of a prefix."""
    made, number = built(), build_backend.version().encode("ascii")
    files = {"lib/libblossom.a": read(made["libblossom.a"])}
    files["lib/" + SONAME] = read(made["libblossom.so"])
    for name, content in commands().items():
        files["bin/" + name] = content.replace(b"#!python\n", b"#!/usr/bin/env python3\n", 1)
    files["include/blossom.h"] = header()
    files["include/blossom.hpp"] = read("capi/blossom.hpp")
    files["install.sh"] = read("capi/install.sh")
    files["README.md"] = read("capi/README.md")
    for path, name in (
        ("lib/pkgconfig/", "blossom.pc"),
        ("lib/cmake/blossom/", "blossom-config.cmake"),
        ("lib/cmake/blossom/", "blossom-config-version.cmake"),
    ):
        text = read("capi/%s.in" % name).replace(b"@VERSION@", number)
        files[path + name] = text.replace(b"@SONAME@", SONAME.encode("ascii"))
    files.update(shared_files())
    files.update({"share/blossom/" + name: content for name, content in notes.items()})
    programs = ["bin/" + name for name in commands()] + ["install.sh", "lib/" + SONAME]
    return files, tuple(programs)


def tarball(folder, notes):
    """Writes the tarball. Answers its name."""
    files, programs = tarball_files(notes)
    name = "blossom-%s-linux-x86_64" % build_backend.version()
    packed = io.BytesIO()
    with tarfile.open(fileobj=packed, mode="w", format=tarfile.USTAR_FORMAT) as archive:
        for path in sorted(files):
            entry = tarfile.TarInfo("%s/%s" % (name, path))
            entry.size, entry.mode = len(files[path]), 0o755 if path in programs else 0o644
            archive.addfile(entry, io.BytesIO(files[path]))
        link = tarfile.TarInfo("%s/lib/libblossom.so" % name)
        link.type, link.linkname = tarfile.SYMTYPE, SONAME
        archive.addfile(link)
    with open(os.path.join(folder, name + ".tar.gz"), "wb") as file:
        with gzip.GzipFile(filename="", fileobj=file, mode="wb", mtime=0) as zipped:
            zipped.write(packed.getvalue())
    return name + ".tar.gz"


def debian_files(notes):
    """The files of the Debian package by their paths from the root, and its links."""
    python = {
        path: content
        for path, content in wheel_files(notes).items()
        if path.startswith("blossom/") and not path.startswith("blossom/release/")
    }
    information, command = build_backend.information(), "../../../bin/blossom"
    python[information + "/METADATA"] = build_backend.metadata().encode("utf-8")
    python[information + "/entry_points.txt"] = build_backend.entry_points().encode("utf-8")
    python[information + "/INSTALLER"] = b"dpkg\n"
    size = os.path.getsize(built()["blossom"])
    python[information + "/RECORD"] = ("%s,,%d\n" % (command, size)).encode("ascii")
    files = tarball_files(notes)[0]
    return debian_package.placed(files, python, build_backend.version(), SONAME.split(".")[-1])


def debian(folder, notes):
    """Writes the Debian package. Answers its name."""
    files, links = debian_files(notes)
    version = build_backend.version()
    control = debian_package.control_files(
        files, version, C_LIBRARY["program"], SONAME.split(".")[-1]
    )
    return debian_package.write(folder, files, links, control, version)


def make(folder, stamp):
    """Writes the files of a release, with a note that says of CI what the stamp does, and their
    checksums. Answers their paths."""
    os.makedirs(folder, exist_ok=True)
    notes = note_files(stamp)
    names = [one(folder, notes) for one in (wheel, tarball, debian)]
    for name in ("PROVED.md", "PROVED.json"):
        with open(os.path.join(folder, name), "wb") as file:
            file.write(notes[name])
        names.append(name)
    with open(os.path.join(folder, "SHA256SUMS"), "w", encoding="ascii") as file:
        file.write("".join("%s  %s\n" % (digest(os.path.join(folder, n)), n) for n in names))
    return [os.path.join(folder, name) for name in [*names, "SHA256SUMS"]]


def main(words):
    if len(words) > 1 or words[:1] in (["-h"], ["--help"]):
        print(__doc__)
        return 2
    try:
        refuse_changes()
        paths = make(words[0] if words else os.path.join(TOP, "out", "release"), passed())
    except Refused as why:
        print("release: %s" % why, file=sys.stderr)
        return 1
    for path in paths:
        print("%s  %s" % (digest(path), path))
    return 0


if __name__ == "__main__":
    sys.exit(main(sys.argv[1:]))
