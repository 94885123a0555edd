"""The tests over the release in dist/, for a machine without the toolchain: `run.py --dist` unpacks
its tarball, and runs all tests with the program and the libraries in that. Tests of building are
skipped and counted, except those with a stand-in for the toolchain."""
import glob
import os
import subprocess
import sys
import tarfile
import tempfile

HERE = os.path.dirname(os.path.abspath(__file__))
DIST = os.path.join(os.path.dirname(HERE), "dist")


def unpacked(folder, dist=DIST):
    """Unpacks the tarball into a folder. Answers the folder of the release, or None if there is no
    tarball."""
    found = glob.glob(os.path.join(dist, "blossom-*-linux-x86_64.tar.gz"))
    if len(found) != 1:
        return None
    with tarfile.open(found[0]) as archive:
        archive.extractall(folder)
    return os.path.join(folder, os.path.basename(found[0])[: -len(".tar.gz")])


def is_of_these_sources():
    """Whether dist/ was made of the sources here."""
    words = [sys.executable, os.path.join(HERE, "..", "scripts", "dist.py"), "--sources"]
    return subprocess.run(words).returncode == 0


def run():
    """Runs the tests. Answers their status."""
    with tempfile.TemporaryDirectory() as folder:
        release = unpacked(folder)
        if release is None:
            print("there is no release in dist/: scripts/dist.py makes it of what CI has passed")
            return 1
        libraries = os.path.join(release, "lib")
        environment = dict(
            os.environ,
            BLOSSOM_TEST_RELEASE=libraries,
            BLOSSOM_LIBRARY=os.path.join(libraries, "libblossom.so"),
        )
        if not is_of_these_sources():
            print("dist/ is of other sources than these: tests of what changed since then fail")
        program = os.path.join(release, "bin", "blossom")
        words = [sys.executable, os.path.join(HERE, "run.py"), program]
        return subprocess.run(words, env=environment).returncode
