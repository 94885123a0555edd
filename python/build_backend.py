"""Builds the wheel of the package for pip, with the standard library alone.

The wheel has the package's files and one more, `installed_from.py`, which names the checkout that it was built in: that is where an installed
package looks for the program, unless it is told otherwise. A wheel of a release (`scripts/release.py`) holds the program itself instead.

Equal files give equal bytes: entries have no time of their own."""
import base64
import hashlib
import io
import os
import re
import tarfile
import zipfile

HERE = os.path.dirname(os.path.abspath(__file__))
CHECKOUT = os.path.dirname(HERE)
PACKAGE = "blossom"
ANYWHERE = "py3-none-any"
# The time of every entry, the first that an archive can state, and the two kinds of files.
NO_TIME = (1980, 1, 1, 0, 0, 0)
PLAIN, PROGRAM = 0o100644, 0o100755


def project():
    """The text of pyproject.toml. (Python 3.9 has no reader of it; what is looked for stands on lines of its own.)"""
    with open(os.path.join(HERE, "pyproject.toml"), encoding="utf-8") as file:
        return file.read()


def field(name):
    """The text of a field of the project."""
    return re.search(r'^%s = "(.*)"$' % re.escape(name), project(), re.M).group(1)


def version():
    """The number of the release: the file VERSION, in the checkout or in an archive of the package's sources."""
    for folder in (HERE, CHECKOUT):
        if os.path.exists(os.path.join(folder, "VERSION")):
            with open(os.path.join(folder, "VERSION"), encoding="ascii") as file:
                return file.read().strip()
    raise FileNotFoundError("there is no file VERSION in %s" % CHECKOUT)


def entries(name):
    """The texts of a field that is an array."""
    whole = re.search(r"^%s = \[(.*?)\]$" % re.escape(name), project(), re.M | re.S).group(1)
    return re.findall(r'"(.*?)"', whole)


def table(name):
    """The entries of a table, in order."""
    whole = re.search(r"^\[%s\]\n((?:[^\[\n].*\n)*)" % re.escape(name), project(), re.M).group(1)
    return re.findall(r"^([\w-]+) = (.*)$", whole, re.M)


def metadata():
    """What METADATA says of the package."""
    lines = ["Metadata-Version: 2.1", "Name: " + field("name"), "Version: " + version(), "Summary: " + field("description"),
             "Keywords: " + ",".join(entries("keywords")), *("Author: " + name for name in entries("authors")),
             *("Classifier: " + text for text in entries("classifiers")), "Requires-Python: " + field("requires-python")]
    for extra, wanted in table("project.optional-dependencies"):
        lines.append("Provides-Extra: " + extra)
        lines += ['Requires-Dist: %s; extra == "%s"' % (one, extra) for one in re.findall(r'"(.*?)"', wanted)]
    with open(os.path.join(HERE, field("readme")), encoding="utf-8") as page:
        return "\n".join([*lines, "Description-Content-Type: text/markdown", "", page.read()])


def entry_points():
    """What entry_points.txt says: where networkx finds its backend."""
    groups = re.findall(r'^\[project\.entry-points\."(.*)"\]$', project(), re.M)
    parts = [[group] + ["%s = %s" % (name, text.strip('"')) for name, text in table('project.entry-points."%s"' % group)] for group in groups]
    return "\n".join("[%s]\n%s\n" % (part[0], "\n".join(part[1:])) for part in parts)


def package_files():
    """The files of the package: their names in the wheel and their bytes."""
    found = {}
    for folder, _, names in sorted(os.walk(os.path.join(HERE, PACKAGE))):
        for name in sorted(name for name in names if name.endswith((".py", ".css", ".js")) or name == "py.typed"):
            path = os.path.join(folder, name)
            with open(path, "rb") as file:
                found[os.path.relpath(path, HERE).replace(os.sep, "/")] = file.read()
    return found


def installed_from(checkout=CHECKOUT):
    """The module that names the checkout, if there is one, and the version."""
    text = '"""Where this package was installed from: a checkout, or a release (None); and its version."""\nCHECKOUT = %s\nVERSION = %s\n'
    return (text % (ascii(checkout), ascii(version()))).encode("ascii")


def information():
    return "%s-%s.dist-info" % (field("name"), version())


def add(archive, path, content, mode):
    """Writes an entry. A file that may be run is one where it is installed too."""
    entry = zipfile.ZipInfo(path, NO_TIME)
    entry.compress_type, entry.external_attr, entry.create_system = zipfile.ZIP_DEFLATED, mode << 16, 3
    archive.writestr(entry, content)


def write_wheel(folder, files, tag=ANYWHERE, programs=()):
    """Writes a wheel of these files, and what every wheel has besides. programs: those of the files that may be run. Answers its name."""
    name = "%s-%s-%s.whl" % (field("name"), version(), tag)
    wheel = "Wheel-Version: 1.0\nGenerator: blossom\nRoot-Is-Purelib: %s\nTag: %s\n" % ("true" if tag == ANYWHERE else "false", tag)
    own = {"METADATA": metadata(), "WHEEL": wheel, "entry_points.txt": entry_points()}
    files = {**files, **{information() + "/" + part: text.encode("utf-8") for part, text in own.items()}}
    with zipfile.ZipFile(os.path.join(folder, name), "w") as archive:
        record = []
        for path, content in files.items():
            add(archive, path, content, PROGRAM if path in programs else PLAIN)
            digest = base64.urlsafe_b64encode(hashlib.sha256(content).digest()).rstrip(b"=").decode("ascii")
            record.append("%s,sha256=%s,%d\n" % (path, digest, len(content)))
        record_path = information() + "/RECORD"
        add(archive, record_path, "".join(record) + record_path + ",,\n", PLAIN)
    return name


def build_wheel(wheel_directory, config_settings=None, metadata_directory=None):
    """The wheel for `pip install`."""
    return write_wheel(wheel_directory, {**package_files(), PACKAGE + "/installed_from.py": installed_from()})


def build_editable(wheel_directory, config_settings=None, metadata_directory=None):
    """The wheel for `pip install -e`: a path to this folder."""
    return write_wheel(wheel_directory, {"__editable__%s.pth" % PACKAGE: (HERE + "\n").encode("utf-8")})


def build_sdist(sdist_directory, config_settings=None):
    """An archive of the sources."""
    name = "%s-%s" % (field("name"), version())
    with tarfile.open(os.path.join(sdist_directory, name + ".tar.gz"), "w:gz", format=tarfile.PAX_FORMAT) as archive:
        for path in ["pyproject.toml", "README.md", "build_backend.py", *package_files()]:
            archive.add(os.path.join(HERE, path), name + "/" + path)
        number = tarfile.TarInfo(name + "/VERSION")
        number.size = len(version()) + 1
        archive.addfile(number, io.BytesIO((version() + "\n").encode("ascii")))
    return name + ".tar.gz"


def get_requires_for_build_wheel(config_settings=None):
    return []


get_requires_for_build_editable = get_requires_for_build_sdist = get_requires_for_build_wheel
