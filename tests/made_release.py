"""A release for tests: of what has just been built here, with a stand-in for the stamp that the
gate leaves once it has passed."""
import importlib.util
import json
import os
import shutil
import subprocess
import sys
import tarfile
import tempfile

HERE = os.path.dirname(os.path.abspath(__file__))
TOP = os.path.dirname(HERE)
SCRIPTS = os.path.join(TOP, "scripts")
STAMP = {
    "line": "3 passed, 0 failed, 0 skipped",
    "kit": "a kit",
    "crates": 1,
    "edits": 2,
    "functions": 3,
    "commit": "0123456789abcdef0123456789abcdef01234567",
}


def script(name):
    """A module of scripts/."""
    if SCRIPTS not in sys.path:
        sys.path.append(SCRIPTS)
    found = importlib.util.spec_from_file_location(
        "scripts_" + name, os.path.join(SCRIPTS, name + ".py")
    )
    module = importlib.util.module_from_spec(found)
    found.loader.exec_module(module)
    return module


def bytes_of(path):
    with open(path, "rb") as file:
        return file.read()


def write(path, text, mode="w"):
    with open(path, mode, encoding="utf-8") as file:
        file.write(text)


def is_built():
    """Whether the program and the libraries are built of the present sources."""
    script_path = os.path.join(SCRIPTS, "build.py")
    return all(
        subprocess.run([sys.executable, script_path, target, "--is-built"]).returncode == 0
        for target in ("program", "library")
    )


class Release:
    """The two files of a release, in a folder."""

    def __init__(self, folder):
        self.maker = script("release")
        self.wheel, self.tarball, self.debian = self.maker.make(folder, STAMP)[:3]
        self.version = self.maker.build_backend.version()

    def unpacked(self, folder):
        """The folder in which the tarball is unpacked there."""
        with tarfile.open(self.tarball) as archive:
            archive.extractall(folder)
        return os.path.join(folder, os.listdir(folder)[0])

    def install(self, prefix):
        """Installs the tarball as its own script does."""
        with tempfile.TemporaryDirectory() as folder:
            subprocess.run(
                [os.path.join(self.unpacked(folder), "install.sh"), prefix],
                check=True,
                capture_output=True,
            )


def git(folder, *words):
    subprocess.run(
        ["git", "-c", "user.name=nobody", "-c", "user.email=nobody@localhost", *words],
        cwd=folder,
        check=True,
        capture_output=True,
    )


def commit(folder):
    git(folder, "add", "-A")
    git(folder, "commit", "-qm", "all")


def stand_in_checkout(folder, tests):
    """A repository of these files, but for those of dist/, committed, with what was built here and
    a stamp that says that its gate has passed."""
    words = ["git", "ls-files", "-z", "--", ".", ":(exclude)dist"]
    listed = subprocess.run(words, cwd=TOP, capture_output=True, check=True).stdout.split(b"\0")
    for path in filter(None, map(os.fsdecode, listed)):
        os.makedirs(os.path.dirname(os.path.join(folder, path)), exist_ok=True)
        shutil.copy(os.path.join(TOP, path), os.path.join(folder, path))
    for path in ("crates/blossom/out", "capi/out"):
        os.makedirs(os.path.join(folder, path))
        for name in ("blossom", "libblossom.a", "libblossom.so", "blossom.sources"):
            if os.path.exists(os.path.join(TOP, path, name)):
                shutil.copy(os.path.join(TOP, path, name), os.path.join(folder, path))
    git(folder, "init", "-q")
    commit(folder)
    stamp = subprocess.run(
        [
            sys.executable,
            "-c",
            "import gate_stamp as of, json; print(json.dumps([of.checksum(), of.made()]))",
        ],
        cwd=os.path.join(folder, "scripts"),
        capture_output=True,
        text=True,
    )
    sources, made = json.loads(stamp.stdout)
    os.makedirs(os.path.join(folder, "out"))
    write(
        os.path.join(folder, "out", "gate.json"),
        json.dumps(dict(STAMP, sources=sources, made=made)),
    )
