"""Detector error models in the text format of Stim: for each error how likely it is, and which
detectors and observables it flips.

`Decoder.from_detector_error_model` reads the text of a model, a file, or an object of Stim:

    import blossom

    model = '''
        error(0.1) D0 L0
        repeat 3 {
            error(0.05) D0 D1 ^ D2
            detector(1, 0) D0
            shift_detectors(0, 1) 3
        }
        error(0.1) D0 ^ D1
    '''
    decoder = blossom.Decoder.from_detector_error_model(model)
    print(decoder)  # <decoder of 11 detectors, 0 boundary nodes, 9 edges, 1 observables>
    print(decoder.decode({0}), decoder.detector_coordinates()[3])  # [1] (1.0, 1.0)

- Each part of an error that flips one detector or two is an edge. `^` separates the parts.
- Errors of the same detectors are independent. They are merged into one that occurs if an odd
  number of them does. It flips the observables of the first, as in PyMatching. `add_edge` merges in
  this way too, by `merge_strategy="independent"`.
- A part that flips more than two detectors is a `GraphError` that names the line. Stim makes no
  such parts with `decompose_errors=True`. A part that flips no detector can't be seen and is left
  out.
- An error of probability 1 is a `GraphError` too.

`decode_batch(shots, bit_packed_shots=True, bit_packed_predictions=True)` takes and returns arrays
of bytes that hold eight bits each. `decode_shots_bit_packed` is the same call with the signature of
sinter's compiled decoders. `decode_file("shots.b8", "predictions.b8")` reads a file of shots and
writes one of predictions, in the formats `01` and `b8`. All of them need numpy.

A model that is too large is refused when it is read, and the `LimitExceeded` names the limit. For
rotated surface codes of distance d in d rounds these fit:

| Noise | Largest distance | Detectors | Edges |
|---|--:|--:|--:|
| data qubits and measurements | 17 | 5,184 | 14,724 |
| the same, with diagonal errors as in a circuit | 13 | 2,352 | 10,298 |

`answer(syndrome)` is a certificate for the whole graph, so it needs all of it within the limits:
the largest distances are 13 and 11 then.
"""
# A model is read in two passes. `parsed` turns lines into instructions and repeat blocks.
# `read_model` then walks through these, each block as often as it says, and collects the parts of
# errors: an error that is decomposed by `^` has a part for each piece, and each part becomes an
# edge of a decoder.
from __future__ import annotations

import os
import re
from dataclasses import dataclass, field
from typing import (Dict, FrozenSet, Iterable, Iterator, List, NamedTuple, Optional, Sequence, Set,
                    Tuple, Union)

from .errors import GraphError, LimitExceeded

#: A line of a model: a name, a tag, numbers in parentheses, targets, the start of a block and a
#: comment.
LINE = re.compile(r"\s*([A-Za-z_][A-Za-z0-9_]*)\s*(?:\[[^\]]*\])?\s*(?:\(([^)]*)\))?"
                  r"([^#{}()\[\]]*)(\{)?\s*(?:#.*)?")
#: A line that only ends a block, or that says nothing.
BLOCK_END, NOTHING = re.compile(r"\s*\}\s*(?:#.*)?"), re.compile(r"\s*(?:#.*)?")
TARGET = {"D": re.compile("D([0-9]+)", re.IGNORECASE), "L": re.compile("L([0-9]+)", re.IGNORECASE)}
#: How many instructions a model has at most, those of a repeat block counted each time.
MOST_INSTRUCTIONS = 1 << 22
INSTRUCTIONS = ("error", "detector", "logical_observable", "shift_detectors", "repeat")


class Part(NamedTuple):
    """What one piece of an error flips."""

    detectors: Tuple[int, ...]
    observables: FrozenSet[int]


class Instruction(NamedTuple):
    """An instruction that isn't a repeat block. Its detectors are counted from the offset of the
    place where it stands. shift: what `shift_detectors` adds to that offset."""

    line: int
    name: str
    arguments: Tuple[float, ...]
    parts: Tuple[Part, ...]
    shift: int = 0


@dataclass
class Block:
    """A repeat block, or with `times` 1 the whole model. size: how many instructions it stands
    for."""

    line: int
    times: int
    body: List[Union[Instruction, Block]] = field(default_factory=list)
    size: int = 0


class ErrorPart(NamedTuple):
    """A part of an error with the line that it comes from and its probability."""

    line: int
    probability: float
    detectors: Tuple[int, ...]
    observables: FrozenSet[int]


@dataclass
class DetectorErrorModel:
    """What a decoder needs of a model.

    parts: those that flip a detector, in the order of the model. detectors, observables: how many
    there are. coordinates: of the detectors that have some."""

    parts: List[ErrorPart] = field(default_factory=list)
    detectors: int = 0
    observables: int = 0
    coordinates: Dict[int, Tuple[float, ...]] = field(default_factory=dict)


def wrong(line: int, what: str) -> GraphError:
    """The error for a line."""
    return GraphError("line %d of the detector error model: %s" % (line, what))


def text_of(model: object) -> str:
    """The text of a model: of a path or a name of a file what is in it, of a text itself, of an
    object of Stim what it prints. A text has several lines or begins with an instruction.

    Raises
    ------
    GraphError
        If it is something else.
    """
    if isinstance(model, str):
        start = re.match(r"\s*(\w*)", model)
        is_text = start is not None and start.group(1).lower() in INSTRUCTIONS
        if is_text or not model.strip() or "\n" in model or model.lstrip().startswith("#"):
            return model
    if isinstance(model, (str, os.PathLike)):
        with open(model, encoding="utf-8") as opened:
            return opened.read()
    if hasattr(model, "num_detectors") and hasattr(model, "num_observables"):
        return str(model)
    raise GraphError("unknown detector error model: got a %s; pass a text, a path or a"
                     " stim.DetectorErrorModel" % type(model).__name__)


def parsed(text: str) -> Block:
    """Reads the lines of a model into blocks.

    Raises
    ------
    GraphError
        If a line breaks the format; the message names it.
    """
    whole = Block(0, 1)
    open_blocks = [whole]
    for number, line in enumerate(text.splitlines(), 1):
        if BLOCK_END.fullmatch(line):
            close_block(open_blocks, number)
        elif not NOTHING.fullmatch(line):
            add_line(open_blocks, number, line)
    if len(open_blocks) > 1:
        raise wrong(open_blocks[-1].line, "the repeat block has no end: add a line with }")
    return whole


def close_block(open_blocks: List[Block], number: int) -> None:
    """Ends the innermost block."""
    if len(open_blocks) == 1:
        raise wrong(number, "} without a repeat block: remove it")
    closed = open_blocks.pop()
    open_blocks[-1].size += closed.times * closed.size


def add_line(open_blocks: List[Block], number: int, line: str) -> None:
    """Adds the instruction of a line to the innermost block, or begins a block."""
    found = LINE.fullmatch(line)
    if found is None:
        raise wrong(number, "invalid instruction %r: expected a name, numbers in parentheses and"
                    " targets" % line.strip())
    name, arguments, targets, opens = found.groups()
    name = name.lower()
    if name not in INSTRUCTIONS:
        raise wrong(number, "unknown instruction %r: choose from %s"
                    % (name, ", ".join(INSTRUCTIONS)))
    if (opens is not None) != (name == "repeat"):
        raise wrong(number, "invalid use of {: a block begins with 'repeat COUNT {'")
    if name == "repeat":
        open_blocks.append(Block(number, count_in(number, name, targets.split())))
        open_blocks[-2].body.append(open_blocks[-1])
        return
    open_blocks[-1].body.append(instruction(number, name, arguments, targets.split()))
    open_blocks[-1].size += 1


def instruction(number: int, name: str, arguments: Optional[str],
                targets: Sequence[str]) -> Instruction:
    """The instruction of a line."""
    numbers = numbers_in(number, arguments)
    if name == "shift_detectors":
        return Instruction(number, name, numbers, (), count_in(number, name, targets))
    if name == "error" and (len(numbers) != 1 or not 0 <= numbers[0] <= 1):
        raise wrong(number, "invalid probability (%s): an error has one, between 0 and 1"
                    % (arguments or ""))
    allowed = {"error": "DL^", "detector": "D", "logical_observable": "L"}[name]
    parts = parts_of(number, targets, allowed)
    return Instruction(number, name, numbers, parts)


def numbers_in(number: int, arguments: Optional[str]) -> Tuple[float, ...]:
    """The numbers in parentheses."""
    if arguments is None or not arguments.strip():
        return ()
    try:
        return tuple(map(float, arguments.split(",")))
    except ValueError:
        raise wrong(number, "invalid numbers (%s): separate them by commas" % arguments) from None


def count_in(number: int, name: str, targets: Sequence[str]) -> int:
    """The integer that is the only target of an instruction."""
    if len(targets) != 1 or not re.fullmatch("[0-9]+", targets[0]):
        raise wrong(number, "invalid target %r of %s: expected one nonnegative integer"
                    % (" ".join(targets), name))
    return int(targets[0])


def parts_of(number: int, targets: Sequence[str], allowed: str) -> Tuple[Part, ...]:
    """The parts that `^` separates. What a part of an error names twice it doesn't flip."""
    detectors: Set[int] = set()
    observables: Set[int] = set()
    flipped = {"D": detectors, "L": observables}
    parts: List[Part] = []
    for target in targets:
        form = target[:1].upper()
        if form not in allowed:
            raise wrong(number, "invalid target %r: choose from %s"
                        % (target, ", ".join({"D": "D0, D1, ..", "L": "L0, L1, ..", "^": "^"}[one]
                                             for one in allowed)))
        if target == "^":
            parts.append(Part(tuple(sorted(detectors)), frozenset(observables)))
            detectors.clear()
            observables.clear()
            continue
        found = TARGET[form].fullmatch(target)
        if found is None:
            raise wrong(number, "invalid target %r: expected a number after %s" % (target, form))
        one = {int(found.group(1))}
        if "^" in allowed:
            flipped[form] ^= one
        else:
            flipped[form] |= one
    return (*parts, Part(tuple(sorted(detectors)), frozenset(observables)))


def steps(whole: Block) -> Iterator[Instruction]:
    """The instructions of a model in their order, those of a block as often as it says."""
    open_blocks: List[Tuple[Iterator[Union[Instruction, Block]], Block, int]] = [
        (iter(whole.body), whole, whole.times - 1)]
    while open_blocks:
        items, block, left = open_blocks[-1]
        item = next(items, None)
        if isinstance(item, Instruction):
            yield item
        elif item is not None:
            if item.size and item.times:
                open_blocks.append((iter(item.body), item, item.times - 1))
        else:
            open_blocks.pop()
            if left:
                open_blocks.append((iter(block.body), block, left - 1))


def read_model(model: object) -> DetectorErrorModel:
    """Reads a model: a text, a path, or an object of Stim.

    Raises
    ------
    GraphError
        If a line breaks the format, or a part of an error flips more than two detectors.
    LimitExceeded
        If it has too many instructions.
    """
    whole = parsed(text_of(model))
    if whole.size > MOST_INSTRUCTIONS:
        raise LimitExceeded("the detector error model has %d instructions, repeat blocks"
                            " counted each time: the limit is %d"
                            % (whole.size, MOST_INSTRUCTIONS))
    found, offset = DetectorErrorModel(), 0
    moved: Tuple[float, ...] = ()
    for step in steps(whole):
        if step.name == "shift_detectors":
            offset, moved = offset + step.shift, added(moved, step.arguments)
        elif step.name == "detector":
            declare(found, step, offset, moved)
        else:
            take(found, step, offset)
    return found


def added(moved: Tuple[float, ...], by: Sequence[float]) -> Tuple[float, ...]:
    """A shift of coordinates after one more."""
    length = max(len(moved), len(by))
    first, second = (tuple(one) + (0.0,) * (length - len(one)) for one in (moved, by))
    return tuple(one + other for one, other in zip(first, second))


def declare(found: DetectorErrorModel, step: Instruction, offset: int,
            moved: Tuple[float, ...]) -> None:
    """Takes in a line `detector`: it says that detectors are there, and where."""
    place = added(step.arguments, moved[:len(step.arguments)])
    for detector in step.parts[0].detectors:
        found.detectors = max(found.detectors, 1 + detector + offset)
        if place:
            found.coordinates[detector + offset] = place


def take(found: DetectorErrorModel, step: Instruction, offset: int) -> None:
    """Takes in a line `error` or `logical_observable`."""
    for part in step.parts:
        detectors = tuple(detector + offset for detector in part.detectors)
        found.detectors = max(found.detectors, 1 + max(detectors, default=-1))
        found.observables = max(found.observables, 1 + max(part.observables, default=-1))
        if len(detectors) > 2 and step.arguments[0] > 0:
            raise wrong(step.line, "an error flips %d detectors (%s): separate it by ^ into parts"
                        " of at most two, as decompose_errors=True of Stim does"
                        % (len(detectors), named(detectors)))
        if step.name == "error" and detectors and step.arguments[0] > 0:
            found.parts.append(ErrorPart(step.line, step.arguments[0], detectors, part.observables))


def named(detectors: Iterable[int]) -> str:
    """Some detectors, as a model writes them."""
    names = ["D%d" % detector for detector in detectors]
    return ", ".join(names[:8]) + (", .." if len(names) > 8 else "")


def edges_in(model: DetectorErrorModel) -> Iterator[Tuple[Tuple[int, ...], FrozenSet[int], float]]:
    """The edges of a model as (detectors, observables, probability).

    Raises
    ------
    GraphError
        If an error is certain.
    """
    for part in model.parts:
        if part.probability == 1:
            raise wrong(part.line, "an error has the probability 1, so its weight isn't finite:"
                        " flip its detectors in the shots instead")
        yield part.detectors, part.observables, part.probability
