"""What docs/GALLERY.md shows: for each script of examples/gallery its text file, which has a
title, what the script does, what it prints (indented), and what the picture shows."""
import glob
import os
import re

from crate_groups import TOP, read

FOLDER = "examples/gallery"
#: The scripts in the order of the page; any other comes after them.
ORDER = ("tour", "pairing", "drilling", "surface_code", "rota", "groups")
TEXT = re.compile(
    r"(?P<title>.+)\n\n(?P<said>(?:\S.*\n)+)\n(?P<prints>(?:    .*\n)+)\n(?P<alt>.+)\n"
)


def names():
    found = {os.path.basename(path)[:-3] for path in glob.glob(os.path.join(TOP, FOLDER, "*.py"))}
    return [name for name in ORDER if name in found] + sorted(found - set(ORDER))


def section(name):
    """The section of a script."""
    path = "%s/%s.txt" % (FOLDER, name)
    text = TEXT.fullmatch(read(path))
    if text is None:
        raise ValueError("%s isn't a title, a paragraph, indented lines and a line" % path)
    script, picture = "../%s/%s.py" % (FOLDER, name), "../%s/pictures/%s.svg" % (FOLDER, name)
    return [
        "## %s" % text["title"],
        "",
        *text["said"].splitlines(),
        "[%s.py](%s) prints:" % (name, script),
        "",
        *text["prints"].splitlines(),
        "",
        "![%s](%s)" % (text["alt"], picture),
        "",
    ]


def gallery_part():
    return [line for name in names() for line in section(name)]
