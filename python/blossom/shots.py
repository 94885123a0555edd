"""Shots and predictions in the forms of Stim: arrays whose bits are packed into bytes, the lowest
bit first, and files of shots.

A file of the format "01" has a line of 0 and 1 for each shot. One of the format "b8" has as many
bytes for each shot as its bits need."""
from __future__ import annotations

import os
from typing import Any, Literal, Union

from .errors import ArgumentError
from .wording import wanted

Format = Literal["01", "b8"]
FORMATS = ("01", "b8")
WHAT = "packed shots and files of shots"
Path = Union[str, "os.PathLike[str]"]


def unpacked(packed: Any, bits: int) -> Any:
    """The rows of an array of bytes as rows of so many entries 0 and 1.

    Raises
    ------
    ValueError
        If the array has another shape or type, or if a bit after the last entry is 1.
    """
    numpy = wanted("numpy", WHAT)
    array, width = numpy.asarray(packed), (bits + 7) // 8
    if array.dtype != numpy.uint8 or array.ndim != 2 or array.shape[1] != width:
        raise ArgumentError("invalid packed shots: expected an array of uint8 of shape (shots, %d)"
                            " for %d detectors, got one of %s of shape %r"
                            % (width, bits, array.dtype, array.shape))
    entries = numpy.unpackbits(array, axis=1, bitorder="little")
    if entries[:, bits:].any():
        shot = int(entries[:, bits:].any(axis=1).argmax())
        raise ArgumentError("invalid packed shot %d: a bit after the last of %d detectors is 1"
                            % (shot, bits))
    return entries[:, :bits]


def packed(entries: Any) -> Any:
    """The rows of an array of 0 and 1 with their bits packed into bytes."""
    return wanted("numpy", WHAT).packbits(entries, axis=1, bitorder="little")


def format_of(path: Path, chosen: Any) -> Format:
    """The format of a file: the one that is passed, or the ending of the path.

    Raises
    ------
    ValueError
        If neither is a format.
    """
    ending = os.path.splitext(os.fspath(path))[1][1:]
    found = chosen if chosen is not None else ending
    if found == "01":
        return "01"
    if found == "b8":
        return "b8"
    raise ArgumentError("unknown format %r of shots: choose from %s" % (found, ", ".join(FORMATS)))


def read_shots(path: Path, bits: int, chosen: Any = None) -> Any:
    """Reads a file of shots: an array of 0 and 1 with a row for each shot.

    Raises
    ------
    ValueError
        If the file doesn't have so many bits a shot.
    """
    numpy = wanted("numpy", WHAT)
    form = format_of(path, chosen)
    with open(path, "rb") as opened:
        content = opened.read()
    return lines_in(numpy, path, content, bits) if form == "01" else bytes_in(
        numpy, path, content, bits)


def lines_in(numpy: Any, path: Path, content: bytes, bits: int) -> Any:
    """The shots of a file of the format "01"."""
    lines = content.split(b"\n")
    rest = lines.pop()
    if rest:
        lines.append(rest)
    lines = [line[:-1] if line.endswith(b"\r") else line for line in lines]
    wrong = next((number for number, line in enumerate(lines)
                  if len(line) != bits or line.strip(b"01")), None)
    if wrong is not None:
        raise ArgumentError("line %d of %s: expected %d times 0 or 1, got %d characters %r"
                            % (wrong + 1, os.fspath(path), bits, len(lines[wrong]),
                               lines[wrong][:20].decode("latin-1")))
    entries = numpy.frombuffer(b"".join(lines), dtype=numpy.uint8) - 48
    return entries.reshape(len(lines), bits)


def bytes_in(numpy: Any, path: Path, content: bytes, bits: int) -> Any:
    """The shots of a file of the format "b8"."""
    width = (bits + 7) // 8
    if width == 0 or len(content) % width:
        raise ArgumentError("%s has %d bytes: expected a multiple of %d for %d detectors a shot"
                            % (os.fspath(path), len(content), width, bits))
    return unpacked(numpy.frombuffer(content, dtype=numpy.uint8).reshape(-1, width), bits)


def write_predictions(path: Path, predictions: Any, chosen: Any = None) -> None:
    """Writes an array of 0 and 1 with a row for each shot."""
    if format_of(path, chosen) == "b8":
        content = packed(predictions).tobytes()
    else:
        content = b"".join(bytes(row + 48) + b"\n" for row in predictions)
    with open(path, "wb") as opened:
        opened.write(content)
