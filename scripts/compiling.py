"""The toolchain's compiler, over crates that `rt ci` has proved: it proves one crate more and
compiles it."""
import ctypes
import os
import signal
import subprocess
import sys

# How much of what the compiler says is shown where it fails.
LAST_BYTES = 4000
PROCESS = ctypes.CDLL(None)
DIE_WITH_PARENT = 1


def die_with_parent():
    """Has the system tell this process to end when the one that started it has ended, however that
    was."""
    PROCESS.prctl(DIE_WITH_PARENT, signal.SIGTERM, 0, 0, 0)


def kit():
    """The folder of the Rattle toolchain."""
    page = subprocess.run(["rt", "doc"], capture_output=True, text=True, check=True).stdout.strip()
    return os.path.dirname(page)


def compiled(folder, crate, below, words):
    """Compiles a crate in this repository by LLVM, with these words, over the libraries that a run
    of `rt ci` left in it; the last word is what is made. Answers its path. CalledProcessError: the
    crate isn't proved, or can't be compiled; what was said then ends on standard error.

    `rt lib` and `rt run` would do it over libraries alone that hold all proofs, and make these
    first, in a quarter of an hour."""
    at, home = os.path.join(folder, "crates", crate), kit()
    os.makedirs(os.path.join(at, "out"), exist_ok=True)
    over = ["--extern", "std=%s/rlibs/std.rlib" % home, "-L", "dependency=%s/rlibs" % home]
    for name in below:
        over += ["--extern", "%s=../%s/out/rlib/%s.rlib" % (name, name, name)]
        over += ["-L", "dependency=../%s/out/rlib" % name]
    over += ["--antt-project", "%s/rattle/logic/antt-project.json" % home]
    over += ["--logic-built", "%s/logic_built" % home, "--toolchain", "%s/toolchain" % home]
    over += ["--links", crate + "=", "--backend", "llvm", "--jobs", str(os.cpu_count() or 1)]
    rattle = [os.path.join(home, "bin", "rattle"), "build", "--crate-name", crate]
    done = subprocess.run(
        [*rattle, *over, *words],
        cwd=at,
        stdout=subprocess.PIPE,
        stderr=subprocess.STDOUT,
        preexec_fn=die_with_parent,
    )
    if done.returncode:
        sys.stderr.write(done.stdout.decode(errors="replace")[-LAST_BYTES:])
        raise subprocess.CalledProcessError(done.returncode, "rattle build --crate-name " + crate)
    return os.path.join(at, words[-1])
