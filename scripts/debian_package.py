"""A Debian package of a release, by dpkg-deb: one binary package with the command, both libraries,
headers, the Python package, man pages, completions, examples and pages."""
import gzip
import hashlib
import io
import os
import re
import subprocess
import tempfile

LIBRARIES = "usr/lib/x86_64-linux-gnu/"
PACKAGES = "usr/lib/python3/dist-packages/"
# The time of each file, the first second of 2026.
EPOCH = 1767225600
CONTROL = """Package: blossom
Version: %(version)s
Architecture: amd64
Maintainer: Juzbrela maintainers <maintainers@users.noreply.juzbrela.example>
Installed-Size: %(size)d
Depends: libc6 (>= %(libc)s), python3 (>= 3.9)
Suggests: python3-numpy, python3-networkx, python3-matplotlib, python3-scipy
Section: science
Priority: optional
Description: exact matchings with certificates, by a proved program
 Finds minimum-weight perfect matchings, maximum-weight matchings, b-matchings,
 f-factors, T-joins, postman tours, shortest paths and degree-constrained
 subgraphs of undirected graphs with integer weights. Each result comes with a
 certificate that a separate command checks. Solver and checker are formally
 proved. The package has the commands blossom and blossom-verify, the C library
 with its headers, and the Python package blossom.
"""
CHANGELOG = """blossom (%(version)s) unstable; urgency=medium

  * See CHANGELOG.md.

 -- Juzbrela maintainers <maintainers@users.noreply.juzbrela.example>  Thu, 01 Jan 2026 00:00:00 +0000
"""
# The files are those that CI has tested, byte for byte, so they keep their symbols.
OVERRIDES = """# These are the files that CI built and tested, byte for byte.
blossom: unstripped-binary-or-object [usr/bin/blossom]
blossom: unstripped-binary-or-object [usr/lib/x86_64-linux-gnu/%(shared)s]
"""
COPYRIGHT = """blossom, by the Juzbrela maintainers.

No licence has been given yet: all rights are reserved.
"""


def packed(content):
    """The content compressed by gzip, without a name and a time."""
    made = io.BytesIO()
    with gzip.GzipFile(filename="", fileobj=made, mode="wb", compresslevel=9, mtime=0) as file:
        file.write(content)
    return made.getvalue()


def placed(files, python_files, version, abi):
    """The files of the package by their paths from the root, of those of the tarball and of the
    Python package, and its links: each with what it leads to."""
    shared = "libblossom.so.%s" % abi
    found, links = {}, {LIBRARIES + "libblossom.so": shared}
    for path, content in files.items():
        if path.startswith("bin/"):
            content = content.replace(b"#!/usr/bin/env python3\n", b"#!/usr/bin/python3\n", 1)
        if path.startswith("share/man/"):
            found["usr/%s.gz" % path] = packed(content)
        elif path == "lib/libblossom.so":
            found[LIBRARIES + shared] = content
        elif path.startswith("lib/"):
            found[LIBRARIES + path[4:]] = content
        elif path.startswith("share/zsh/site-functions/"):
            found["usr/share/zsh/vendor-completions/_blossom"] = content
        elif path.startswith("share/fish/"):
            found["usr/share/fish/vendor_completions.d/blossom.fish"] = content
        elif "/" in path:
            found["usr/" + path] = content
    for path, content in python_files.items():
        found[PACKAGES + path] = content
    above = "../../../../x86_64-linux-gnu/"
    links[PACKAGES + "blossom/release/libblossom.so"] = above + shared
    told = {"version": version, "shared": shared}
    found["usr/share/doc/blossom/copyright"] = COPYRIGHT.encode("ascii")
    found["usr/share/doc/blossom/changelog.gz"] = packed((CHANGELOG % told).encode("ascii"))
    found["usr/share/lintian/overrides/blossom"] = (OVERRIDES % told).encode("ascii")
    for name in ("lib/pkgconfig/blossom.pc", "lib/cmake/blossom/blossom-config.cmake"):
        path = LIBRARIES + name[4:]
        found[path] = multiarch(found[path].decode("utf-8"), shared).encode("utf-8")
    return found, links


def multiarch(text, shared):
    """What pkg-config and CMake read, for libraries in the folder of their architecture."""
    text = text.replace("prefix=${pcfiledir}/../..", "prefix=/usr")
    text = text.replace("libdir=${prefix}/lib\n", "libdir=/%s\n" % LIBRARIES.rstrip("/"))
    text = text.replace("/../../..", "/../../../..")
    text = text.replace("/lib/libblossom", "/lib/x86_64-linux-gnu/libblossom")
    return re.sub(r"libblossom\.so(?=\")", shared, text)


def control_files(files, version, libc, abi):
    """The files of the control archive."""
    size = sum(len(content) for content in files.values()) // 1024 + 1
    sums = "".join(
        "%s  %s\n" % (hashlib.md5(content).hexdigest(), path)
        for path, content in sorted(files.items())
    )
    return {
        "control": CONTROL % {"version": version, "size": size, "libc": libc},
        "md5sums": sums,
        "shlibs": "libblossom %s blossom (>= %s)\n" % (abi, version),
        "triggers": "activate-noawait ldconfig\n",
    }


def write(folder, files, links, control, version):
    """Writes the package. Answers its name."""
    name = "blossom_%s_amd64.deb" % version
    with tempfile.TemporaryDirectory() as room:
        for path, content in files.items():
            mode = 0o755 if path.startswith("usr/bin/") else 0o644
            put(os.path.join(room, path), content, mode)
        for path, target in links.items():
            os.makedirs(os.path.dirname(os.path.join(room, path)), exist_ok=True)
            os.symlink(target, os.path.join(room, path))
        for path, text in control.items():
            put(os.path.join(room, "DEBIAN", path), text.encode("utf-8"), 0o644)
        for at, _, _ in os.walk(room):
            os.chmod(at, 0o755)
        subprocess.run(
            ["dpkg-deb", "--build", "--root-owner-group", "-Zxz", room, os.path.join(folder, name)],
            check=True,
            stdout=subprocess.DEVNULL,
            # (blocks of several threads would give other bytes on another machine)
            env=dict(os.environ, SOURCE_DATE_EPOCH=str(EPOCH), DPKG_DEB_THREADS_MAX="1"),
        )
    return name


def put(path, content, mode):
    os.makedirs(os.path.dirname(path), exist_ok=True)
    with open(path, "wb") as file:
        file.write(content)
    os.chmod(path, mode)
    os.utime(path, (EPOCH, EPOCH))
