"""The program as a process: a call can be stopped, and nothing that happens to it happens to the
caller."""
from __future__ import annotations

import collections
import contextlib
import os
import shutil
import subprocess
import sys
import threading
from dataclasses import dataclass
from typing import IO, Deque, Optional, Set, Tuple

from .checkout import checkout, is_present, released_command, unpacked
from .errors import SolverError, TimeLimit

WORDS = {"solve": ["solve"], "brief": ["solve", "--brief"], "check": ["check"]}
#: What the program and the launcher, which builds it, end with. Of the launcher other statuses say
#: that it was not built, as does one without an answer.
STATUSES = range(9)
#: So many lines of what the launcher said end an error.
LAST_LINES = 5


def find_program(program: Optional[str] = None) -> str:
    """The path of the program: the argument; the environment variable BLOSSOM; that of the release
    that this package is; in the checkout that it lies in or was installed from, what was built
    there of the present sources, or that of the release in dist/ if that is of these, or else the
    launcher, which builds it first; the first `blossom` in PATH. SolverError: there is none."""
    named = program or os.environ.get("BLOSSOM") or released_command("blossom")
    if named:
        return os.fspath(named)
    top = checkout()
    if top is not None:
        folder = os.path.join(top, "crates", "blossom", "out")
        built = os.path.join(folder, "blossom")
        if os.path.exists(built) and is_present(top, folder, "program"):
            return built
        return unpacked(top, "blossom") or os.path.join(top, "blossom")
    found = shutil.which("blossom")
    if found is None:
        raise SolverError("program 'blossom' not found: pass program=, or set $BLOSSOM")
    return found


class Running:
    """The processes that run now, so that all of them can be stopped at once, by whatever thread
    they were started."""

    def __init__(self) -> None:
        self.children: Set[subprocess.Popen[bytes]] = set()
        self.lock = threading.Lock()
        self.stopped = False

    def add(self, child: subprocess.Popen[bytes]) -> None:
        with self.lock:
            self.children.add(child)
            if self.stopped:
                child.kill()

    def remove(self, child: subprocess.Popen[bytes]) -> None:
        with self.lock:
            self.children.discard(child)

    def stop(self) -> None:
        """Ends all processes that run, and each that is added later."""
        with self.lock:
            self.stopped = True
            for child in self.children:
                child.kill()


def is_launcher(path: str) -> bool:
    """Whether this is the launcher of the checkout, which builds the program before it runs it."""
    top = checkout()
    return top is not None and path == os.path.join(top, "blossom")


class Said:
    """What a process says on its standard error: each line is passed on as it comes, since a build
    takes minutes, and the last ones are kept."""

    def __init__(self, source: IO[bytes]) -> None:
        self.lines: Deque[str] = collections.deque(maxlen=LAST_LINES)
        self.reader = threading.Thread(target=self.read, args=(source,), daemon=True)
        self.reader.start()

    def read(self, source: IO[bytes]) -> None:
        """Passes lines on until there are no more."""
        with source:
            for line in source:
                text = line.decode("utf-8", "replace")
                self.lines.append(text.rstrip("\n"))
                if sys.stderr is not None:
                    sys.stderr.write(text)

    def refuse(self, status: int) -> None:
        """SolverError: it ended with this status and said something."""
        self.reader.join()
        if self.lines:
            raise SolverError("the program isn't built (status %d): %s"
                                % (status, "\n".join(self.lines)))


@dataclass(frozen=True)
class Process:
    """Runs the program in a process, which a timeout and Ctrl-C end.

    Parameters
    ----------
    program : str
        The path of the program. By default it is looked for at each call: the environment variable
        BLOSSOM, the release or checkout that the package belongs to, then PATH.
    """

    program: Optional[str] = None

    def run(self, task: str, kind: str, text: bytes, timeout: Optional[float] = None,
            running: Optional[Running] = None) -> Tuple[int, bytes]:
        """Run the program once.

        Whatever ends the call early, such as Ctrl-C, ends the process too.

        Parameters
        ----------
        task : "solve", "brief" or "check"
            "brief" solves without a certificate.
        kind : str
            One of `blossom.KINDS`.
        text : bytes
            The input of the program.
        timeout : float
            Seconds after which the process is stopped.
        running : Running
            The processes that are stopped together.

        Returns
        -------
        tuple of int and bytes
            The exit status and the output.

        Raises
        ------
        TimeLimit
            If the process took longer than `timeout`.
        SolverError
            If it can't be started.
        """
        words = [find_program(self.program), *WORDS[task], kind]
        builds = self.program is None and is_launcher(words[0])
        try:
            child = subprocess.Popen(words, stdin=subprocess.PIPE, stdout=subprocess.PIPE,
                                     stderr=subprocess.PIPE if builds else None)
        except OSError as error:
            raise SolverError("the program %s can't be started: %s" % (words[0], error)) from None
        running = running or Running()
        running.add(child)
        said = Said(child.stderr) if child.stderr is not None else None
        child.stderr = None  # (which `communicate` would read too)
        try:
            output, _ = child.communicate(text, timeout=timeout)
            if said is not None and (child.returncode not in STATUSES or not output):
                said.refuse(child.returncode)
            return child.returncode, output
        except subprocess.TimeoutExpired:
            raise TimeLimit("the program was stopped after %s seconds" % timeout) from None
        finally:
            running.remove(child)
            end(child)


def end(child: subprocess.Popen[bytes]) -> None:
    """Ends a process that still runs, and lets its pipes go."""
    if child.poll() is None:
        child.kill()
    for pipe in filter(None, (child.stdin, child.stdout)):
        with contextlib.suppress(OSError):
            pipe.close()
    child.wait()
