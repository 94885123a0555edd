"""Empty roots, in which what is installed finds nothing but what was put there: no kit, no
checkout, no network."""
import glob
import importlib.util
import os
import re
import shutil
import stat
import subprocess
import sys
import sysconfig

# What of Python's library no installation wants.
LEFT_OUT = (
    "__pycache__",
    "test",
    "tests",
    "idlelib",
    "tkinter",
    "turtledemo",
    "site-packages",
    "dist-packages",
    "ensurepip",
    "lib2to3",
)
SEARCHED = os.pathsep.join((os.environ.get("PATH", ""), "/usr/sbin", "/sbin"))


def entry_words():
    """The words before a root that enter it: without a network where that can be; None where no
    root can be entered."""
    unshare, chroot = (shutil.which(name, path=SEARCHED) for name in ("unshare", "chroot"))
    if chroot is None:
        return None
    kinds = (
        [
            [unshare, "--net"],
            [unshare, "--user", "--map-root-user", "--net"],
            [unshare, "--user", "--map-root-user"],
        ]
        if unshare
        else []
    )
    for words in [*kinds, []]:
        if subprocess.run([*words, chroot, "/", "true"], capture_output=True).returncode == 0:
            return [*words, chroot]
    return None


def libraries_of(path):
    """The shared objects that a program or a shared object wants, and the loader."""
    done = subprocess.run(["ldd", path], capture_output=True, text=True)
    return (
        [name for name in re.findall(r"(/\S+) \(0x", done.stdout)] if done.returncode == 0 else []
    )


class Root:
    """A root in a folder that is there and empty. path: where commands in it are looked for."""

    def __init__(self, folder, entry):
        self.folder, self.entry = folder, entry
        self.environment = {
            "PATH": "/usr/local/bin:/usr/bin:/bin",
            "HOME": "/tmp",
            "LC_ALL": "C.UTF-8",
            "PIP_BREAK_SYSTEM_PACKAGES": "1",
            "PIP_DISABLE_PIP_VERSION_CHECK": "1",
            "PIP_ROOT_USER_ACTION": "ignore",
        }
        for name in ("tmp", "dev", "usr/bin"):
            os.makedirs(self.place(name), exist_ok=True)
        try:
            os.mknod(self.place("dev/null"), stat.S_IFCHR | 0o666, os.makedev(1, 3))
        except OSError:
            open(self.place("dev/null"), "w", encoding="ascii").close()

    def place(self, path):
        """Where a path of the root is outside of it."""
        return os.path.join(self.folder, path.lstrip("/"))

    def put(self, path):
        """Puts a file of this machine at its own place, and the shared objects that it wants at
        theirs."""
        for one in [path, *libraries_of(path)]:
            if not os.path.exists(self.place(one)):
                os.makedirs(os.path.dirname(self.place(one)), exist_ok=True)
                shutil.copy(os.path.realpath(one), self.place(one))

    def put_tree(self, folder, left_out=()):
        """Puts a folder of this machine at its own place."""
        shutil.copytree(
            folder,
            self.place(folder),
            ignore=shutil.ignore_patterns(*left_out),
            dirs_exist_ok=True,
            symlinks=False,
            ignore_dangling_symlinks=True,
        )

    def put_python(self):
        """Puts the Python that runs this there, with pip and nothing else that is installed for
        it."""
        program = os.path.realpath(sys.executable)
        self.put(program)
        os.symlink(program, self.place("/usr/bin/python3"))
        library = sysconfig.get_path("stdlib")
        self.put_tree(library, (*LEFT_OUT, "config-*", "libpython*.a"))
        for path in glob.glob(os.path.join(library, "lib-dynload", "*.so")):
            for one in libraries_of(path):
                self.put(one)
        self.put_tree(os.path.dirname(importlib.util.find_spec("pip").origin), ("__pycache__",))
        self.environment["PATH"] = os.path.dirname(program) + ":" + self.environment["PATH"]

    def run(self, words, given=b"", timeout=120):
        """Runs a command in the root. Answers its status and what it wrote; standard error is put
        behind standard output where the status isn't 0."""
        done = subprocess.run(
            [*self.entry, self.folder, *words],
            input=given,
            capture_output=True,
            env=self.environment,
            timeout=timeout,
        )
        return done.returncode, done.stdout.decode("latin-1") + (
            done.stderr.decode("latin-1") if done.returncode else ""
        )
