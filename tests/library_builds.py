"""What `capi/build.sh` does about builds, with a stand-in for the kit: a library of older
sources is never taken for one of the present ones."""
import os
import shutil
import subprocess
import tempfile

import launcher

TOP = launcher.TOP
CRATES = "blossom_c staticlib: low\nlow: left\nleft:\nother: low\n"
NAMES = ("libblossom.a", "libblossom.so")
# Stand-ins for the kit: the command, which fails on a crate that has a file `broken`; the compiler,
# whose archive is what the sources hold; and the linker and its kin, which copy that.
KIT = {
    "bin/rt": """#!/bin/sh
if [ "$1" = doc ]; then echo "$(dirname "$(dirname "$0")")/kit/page"; exit 0; fi
for name in $(cut -d: -f1 crates.txt | cut -d' ' -f1); do
  if [ -e crates/$name/src/broken ]; then echo "the proof of $name failed"; exit 3; fi
  echo "rt: $name proved"
  mkdir -p crates/$name/out/rlib
  touch crates/$name/out/rlib/$name.rlib
done
echo "$1" >>"$CALLS"
""",
    "kit/bin/rattle": """#!/bin/sh
for word; do made=$word; done
[ -e src/unfit ] && exit 5
cat ../blossom_c/src/lib.rt ../left/src/lib.rt ../low/src/lib.rt >"$made"
""",
    "kit/toolchain/bin/clang": """#!/bin/sh
for word; do
  case "$before" in
    -o) made=$word ;;
    --whole-archive) from=$word ;;
  esac
  before=$word
done
if [ "$1" = rcsD ]; then cp "$3" "$2"; elif [ -n "$made" ]; then cp "$from" "$made"; fi
""",
}


def written(path, text, how="w"):
    os.makedirs(os.path.dirname(path), exist_ok=True)
    with open(path, how, encoding="utf-8") as file:
        file.write(text)


def repository(room):
    """A small repository with the build of the library."""
    launcher.repository(room, CRATES.replace(" staticlib", ""))
    written(os.path.join(room, "crates.txt"), CRATES)
    for path, text in KIT.items():
        written(os.path.join(room, path), text)
        os.chmod(os.path.join(room, path), 0o755)
    os.makedirs(os.path.join(room, "capi"))
    shutil.copy(os.path.join(TOP, "capi", "build.sh"), os.path.join(room, "capi"))


def build(room, *words):
    """A call of the build: its status, and how many runs of proofs it made."""
    calls = os.path.join(room, "calls")
    open(calls, "w", encoding="utf-8").close()
    command = [os.path.join(room, "capi", "build.sh"), *words]
    done = subprocess.run(command, capture_output=True, env=launcher.environment(room))
    with open(calls, encoding="utf-8") as file:
        return done.returncode, len(file.readlines())


def there(room):
    """What the library's files hold, by their names; no entry where there is none."""
    found = {}
    for name in NAMES:
        path = os.path.join(room, "capi", "out", name)
        if os.path.exists(path):
            with open(path, encoding="utf-8") as file:
                found[name] = file.read()
    return found


def present(room):
    """What the library's files hold where they are of the present sources."""
    text = ""
    for name in ("blossom_c", "left", "low"):
        with open(os.path.join(room, "crates", name, "src", "lib.rt"), encoding="utf-8") as file:
            text += file.read()
    return dict.fromkeys(NAMES, text)


#: What a library is made of: a file, what is written to it, and how.
CHANGES = (
    ("crates/low/src/lib.rt", "// more", "a"),
    ("crates/left/proofs/inner/Some.antt", "-- more", "w"),
    ("HANDLES", "more", "w"),
    ("crates.txt", CRATES.replace("low: left", "low:  left"), "w"),
    ("scripts/link_library.py", "\n# more\n", "a"),
    ("scripts/compiling.py", "\n# more\n", "a"),
)


def changes(tests):
    """After each change there is no library of the present sources, until one is built."""
    with tempfile.TemporaryDirectory() as room:
        repository(room)
        tests.compare("before the first build of a library", "", 1, build(room, "--is-built")[0])
        status, runs = build(room)
        tests.compare(
            "the first one", "", (0, True, present(room)), (status, runs > 0, there(room))
        )
        tests.compare("after it", "", [(0, 0), (0, 0)], [build(room, "--is-built"), build(room)])
        for path, text, how in CHANGES:
            written(os.path.join(room, path), text, how)
            tests.compare("after a change of " + path, "", (1, 0), build(room, "--is-built"))
            status, runs = build(room)
            wanted = (0, True, present(room))
            tests.compare("and then", "", wanted, (status, runs > 0, there(room)))
        written(os.path.join(room, "crates", "other", "src", "lib.rt"), "// more")
        tests.compare("what it doesn't stand on", "", (0, 0), build(room, "--is-built"))


def failures(tests):
    """A build that fails leaves no library; one without a file or its stamp is none."""
    for path in ("crates/low/src/broken", "crates/blossom_c/src/unfit"):
        with tempfile.TemporaryDirectory() as room:
            repository(room)
            build(room)
            written(os.path.join(room, path), "")
            written(os.path.join(room, "crates", "low", "src", "lib.rt"), "// more", "a")
            got = (build(room)[0] > 0, there(room), build(room, "--is-built")[0])
            tests.compare("a build of a library that fails, " + path, "", (True, {}, 1), got)
            os.remove(os.path.join(room, path))
            tests.compare("and is mended", "", (0, present(room)), (build(room)[0], there(room)))
    for name in (*NAMES, "blossom.sources"):
        with tempfile.TemporaryDirectory() as room:
            repository(room)
            build(room)
            os.remove(os.path.join(room, "capi", "out", name))
            tests.compare("a library without " + name, "", 1, build(room, "--is-built")[0])
            status, runs = build(room)
            wanted = (0, True, present(room))
            tests.compare("it is built", "", wanted, (status, runs > 0, there(room)))


def after_gate(tests):
    """Over what the gate has left it is linked; where that isn't whole, it is built."""
    with tempfile.TemporaryDirectory() as room:
        repository(room)
        for name in ("low", "left"):
            tests.compare(
                "where %s isn't left" % name, "", True, build(room, "--after-gate")[1] > 0
            )
            written(os.path.join(room, "crates", name, "out", "rlib", name + ".rlib"), "")
            written(os.path.join(room, "crates", "low", "src", "lib.rt"), "// more", "a")
        status = build(room, "--after-gate")
        tests.compare("after the gate", "", ((0, 0), present(room)), (status, there(room)))


def check(tests):
    for part in (changes, failures, after_gate):
        part(tests)
