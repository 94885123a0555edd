"""Tests of the calls over arrays of the library for C: that they answer as the call over texts does
on all stored inputs, what they leave in buffers of each length, which fault of wrong arrays they
tell, and equal calls in several threads."""
import concurrent.futures
import ctypes

import plain_instances
from c_parts import KINDS, made_rows, made_text
from plain_checker import fields_of

WALKS = ("postman", "path", "oddpath", "evenpath")
OBSTRUCTIONS = {"tjoin": "t", "path": "t", "postman": "q"}
OUTCOMES = {1: "OPTIMAL", 2: "INFEASIBLE", 3: "NONCONSERVATIVE"}
TASKS = {"SOLVE": False, "SOLVE_WITHOUT_PROOF": True}
#: The room that an answer has at first: most want less.
ROOM = 512
#: Two triangles with an edge between them: what capi/example_arrays.c solves.
EXAMPLE = (6, [1, 2, 1, 4, 5, 4, 3], [2, 3, 3, 5, 6, 6, 4], [1, 1, 1, 1, 1, 1, 10], [], [])


def arrays_of(text):
    """What the text of an instance in order says: the number of vertices, the ends of edges with
    weights and capacities where they have some, and the numbers that vertices are given."""
    vertices, edges, values = 0, [], {}
    for fields in map(fields_of, text.split("\n")):
        if fields and fields[0] == "p":
            vertices = int(fields[2])
        elif fields and fields[0] == "e":
            edges.append([int(field) for field in fields[1:]])
        elif fields and fields[0] == "n":
            values[int(fields[1])] = tuple(map(int, fields[2:]))
    return vertices, edges, values


def default_of(kind):
    """What a vertex has without a line."""
    if kind == "interval":
        return 0, 1
    return (1 if kind in ("bmatch", "capmatch", "ffactor") else 0,)


def rows(kind, vertices, edges, values):
    """The same as the calls take them."""
    of_each = [values.get(v, default_of(kind)) for v in range(1, vertices + 1)] if values else []
    weights = [edge[2] if len(edge) > 2 else 1 for edge in edges]
    capacities = [edge[3] if len(edge) > 3 else -1 for edge in edges]
    return (
        vertices,
        [edge[0] for edge in edges],
        [edge[1] for edge in edges],
        weights if any(len(edge) > 2 for edge in edges) else [],
        capacities if max(capacities, default=-1) >= 0 else [],
        [number for given in of_each for number in given],
    )


def array(kind, numbers):
    """Numbers in memory, and how many they are; there is an address where there are none."""
    return (kind * max(1, len(numbers)))(*numbers), len(numbers)


class Arrays:
    """The calls over arrays."""

    def __init__(self, library):
        self.library = library

    def call(self, name, numbers, given, room, answer=None):
        """The status, how many numbers there are, and the whole buffer, which is one number longer
        than is said and full of sevens before."""
        vertices, *parts = given
        kinds = [ctypes.c_uint32] * 2 + [ctypes.c_int64] * 2 + [ctypes.c_uint32]
        held = [array(kind, part) for kind, part in zip(kinds, parts)]
        if answer is not None:
            held.append(array(ctypes.c_int64, answer))
        output, used = (ctypes.c_int64 * (room + 1))(*[7] * (room + 1)), ctypes.c_size_t(
            2**64 - 1
        )
        words = [word for memory, length in held for word in (memory, length)]
        status = getattr(self.library.object, name)(
            *numbers, vertices, *words, output, room, ctypes.byref(used)
        )
        return status, used.value, list(output)

    def solve(self, task, kind, given, room=ROOM):
        return self.call("blossom_solve_arrays", self.library.numbers(task, kind), given, room)

    def answer(self, task, kind, given):
        status, used, output = self.solve(task, kind, given)
        if status == self.library.header.statuses["BUFFER_TOO_SMALL"]:
            status, used, output = self.solve(task, kind, given, used)
        return status, output[:used]

    def check(self, kind, given, numbers):
        """The verdict on the numbers of an answer."""
        number = self.library.numbers("CHECK", kind)[1]
        status, used, output = self.call("blossom_check_arrays", (number,), given, 2, numbers)
        return status, output[:used]

    def size(self, kind, given):
        number = self.library.numbers("SOLVE", kind)[1]
        status, used, output = self.call("blossom_certificate_size", (number,), given, 2)
        return status, output[:used]


def line(*words):
    return " ".join(map(str, words)) + "\n"


def paths_text(starts, offsets, edges, border):
    """The lines of the vertices that paths begin at, of their neighbours, and of the paths."""
    lines = line("d", len(starts), *starts) + line("u", len(border), *border)
    for j, start in enumerate(starts):
        path = edges[offsets[j] : offsets[j + 1]]
        lines += line("r", start, len(path), *path)
    return lines


def without_sets(answer):
    """A brief answer of `gallai` as it is over arrays: without the lines of the two sets."""
    status, text = answer
    lines = text.splitlines(keepends=True)
    return status, b"".join(one for one in lines if not one.startswith((b"d ", b"u ")))


def text_of(kind, brief, numbers):
    """The text of the document that the numbers are."""
    outcome, weight, start, a, p, k, t, b = numbers[:8]
    places = [8, 8 + a, 8 + a + p, 8 + a + p + k, 9 + a + p + 2 * k, 9 + a + p + 2 * k + t]
    answer, duals, set_duals, offsets, members = (
        numbers[first:last] for first, last in zip(places, places[1:])
    )
    obstruction = numbers[places[-1] :]
    lines = line("s", OUTCOMES[outcome], kind, *([weight] if outcome == 1 else []))
    if kind not in WALKS:
        lines += "".join(line("x", e, count) for e, count in enumerate(answer, 1) if count)
    elif answer and not (brief and outcome == 3):
        lines += line("w", start, a, *answer)
    lines += "".join(line("y", v, dual) for v, dual in enumerate(duals, 1))
    if kind == "gallai":
        return (
            lines + ("" if brief else paths_text(set_duals, offsets, members, obstruction))
        ).encode()
    for j, dual in enumerate(set_duals):
        of_set = members[offsets[j] : offsets[j + 1]]
        items = ["@%d" % -item if item < 0 else item for item in of_set]
        lines += line("z", dual, len(items), *items)
    if (outcome == 2 or kind == "bottleneck" and any(answer)) and not brief:
        lines += line(OBSTRUCTIONS.get(kind, "u"), b, *obstruction)
    return lines.encode()


def agrees(arrays, library, tests, name, task, kind, given):
    """Both calls answer the same to an instance that breaks no rule."""
    refused, size = plain_instances.refusal("solve", kind, given.decode("latin-1"))
    if size is None:
        return
    here = rows(kind, *arrays_of(given.decode("latin-1")))
    status, answer = arrays.answer(task, kind, here)
    told = (
        text_of(kind, TASKS[task], answer)
        if status == 0
        else b"s TOOLARGE %d %d\n" % tuple(answer)
        if status == 4
        else answer
    )
    wanted = library.answer(task, kind, given)
    if kind == "gallai" and TASKS[task]:
        wanted = without_sets(wanted)
    tests.compare("over arrays, " + name, given, wanted, (status, told))
    if status == 0 and task == "SOLVE":
        verdict = arrays.check(kind, here, answer)
        tests.compare("checked over arrays, " + name, given, (0, []), verdict)
    tests.compare("the size over arrays, " + name, given, (0, list(size)), arrays.size(kind, here))


def same_answers(program, library, tests):
    """On all stored inputs that hold an instance, and on made ones, both calls say the same."""
    import c_library

    arrays = Arrays(library)
    for name, task, kind, given in c_library.inputs():
        if task in TASKS:
            agrees(arrays, library, tests, name, task, kind, given)
    for start, kind in enumerate(KINDS * 4):
        given = made_text(kind, start, 12, 26)
        for task in TASKS:
            agrees(arrays, library, tests, "made %d" % start, task, kind, given)


def buffers(program, library, tests):
    """An answer stands at the front of a buffer with room for it, and nothing else is written; a
    shorter buffer is left as it was, and how many numbers are wanted is told."""
    arrays, short = Arrays(library), library.header.statuses["BUFFER_TOO_SMALL"]
    for task, kind, given in (
        ("SOLVE", "perfect", EXAMPLE),
        ("SOLVE_WITHOUT_PROOF", "postman", EXAMPLE),
        ("SOLVE", "perfect", (1, [], [], [], [], [])),
        ("SOLVE", "perfect", (1, [1], [2], [], [], [])),
        ("SOLVE", "bmatch", (5, [], [], [], [], [4096, 4096, 4096, 4096, 1])),
    ):
        status, answer = arrays.answer(task, kind, given)
        for room in range(len(answer) + 3):
            wanted = (
                (short, len(answer), [7] * (room + 1))
                if room < len(answer)
                else (status, len(answer), answer + [7] * (room + 1 - len(answer)))
            )
            tests.compare(
                "over arrays, room for %d of %d" % (room, len(answer)),
                b"",
                wanted,
                arrays.solve(task, kind, given, room),
            )


#: For each rule arrays that break it first, and where.
FAULTS = (
    ("LENGTHS", 0, "perfect", (2, [1], [], [], [], [])),
    ("LENGTHS", 0, "perfect", (2, [1], [2], [1, 1], [], [])),
    ("LENGTHS", 0, "perfect", (2, [1, 1], [2, 2], [], [1], [])),
    ("LENGTHS", 0, "bmatch", (2, [1], [2], [], [], [1])),
    ("LENGTHS", 0, "bmatch", (1, [], [], [], [], [0, 1])),
    ("LENGTHS", 0, "interval", (2, [1], [2], [], [], [1, 1])),
    ("LENGTHS", 0, "interval", (2, [1], [2], [], [], [0, 1, 0, 1, 0])),
    ("LENGTHS", 0, "interval", (2**32 - 1, [], [], [], [], [0] * (2**16 - 2))),
    ("LENGTHS", 0, "perfect", (4097, [0], [], [], [], [])),
    ("VERTICES", 0, "match", (4097, [0], [0], [], [], [])),
    ("VERTICES", 0, "match", (2**32 - 1, [], [], [], [], [])),
    ("EDGES", 0, "match", (2, [0] * 65537, [1] * 65537, [], [], [])),
    ("ENDPOINT", 1, "perfect", (2, [0], [1], [], [], [])),
    ("ENDPOINT", 2, "perfect", (2, [1, 1], [2, 3], [], [], [])),
    ("ENDPOINT", 1, "perfect", (2, [3], [3], [10**13], [-2], [])),
    ("WEIGHT", 1, "perfect", (2, [1, 1], [1, 2], [10**12 + 1, 0], [-2, 1], [])),
    ("WEIGHT", 2, "perfect", (2, [1, 1], [2, 2], [10**12, -(10**12) - 1], [], [])),
    ("WEIGHT", 1, "perfect", (2, [1], [2], [-(2**63)], [], [])),
    ("CAPACITY", 1, "capmatch", (2, [1], [1], [], [-2], [])),
    ("CAPACITY", 2, "match", (2, [1, 1], [2, 2], [], [-1, 4097], [])),
    ("ENDPOINT", 3, "perfect", (2, [1, 2, 0], [2, 2, 0], [], [], [])),
    ("VALUE", 2, "perfect", (2, [1], [2], [], [], [4096, 4097])),
    ("VALUE", 1, "path", (2, [1], [2], [], [], [2**32 - 1, 0])),
    ("VALUE", 2, "interval", (2, [1], [2], [], [], [0, 1, 2, 1])),
    ("VALUE", 1, "interval", (2, [1], [2], [], [], [0, 4097, 1, 0])),
    ("VALUE", 2, "interval", (2, [1], [2], [], [], [4096, 4096, 4097, 4097])),
    ("VALUE", 1, "interval", (1, [], [], [], [], [2**32 - 1, 0])),
    ("NEGATIVE", 2, "postman", (3, [1, 1, 2], [2, 3, 3], [0, -1, -1], [], [])),
    ("NEGATIVE", 1, "oddpath", (3, [1], [2], [-1], [], [1, 1, 1])),
    ("NEGATIVE", 2, "evenpath", (3, [1, 2], [2, 2], [1, -1], [], [1, 0, 1])),
    ("PATH_ENDS", 0, "oddpath", (3, [1], [2], [], [], [1, 1, 1])),
    ("PATH_ENDS", 0, "evenpath", (3, [1], [2], [], [], [])),
    ("PATH_ENDS", 0, "path", (3, [1], [2], [-1], [], [1, 1, 1])),
    ("PATH_ENDS", 0, "path", (3, [1], [2], [], [], [])),
)


def faults(program, library, tests):
    """Wrong arrays are told by their first fault; what lies at the limits isn't one."""
    arrays, header = Arrays(library), library.header
    for rule, place, kind, given in FAULTS:
        wanted = (header.statuses["MALFORMED"], [header.input_errors[rule], place])
        name = "over arrays, %s at %d" % (rule, place)
        tests.compare(name, b"", wanted, arrays.answer("SOLVE", kind, given))
        tests.compare(name + ", size", b"", wanted, arrays.size(kind, given))
    most = (4096, [1] * 65536, [4096] * 65536, [10**12] * 65536, [4096] * 65536)
    for kind, values in (("bmatch", [0] * 4096), ("interval", [0] * 8192)):
        status = arrays.answer("SOLVE_WITHOUT_PROOF", kind, (*most, values))[0]
        tests.compare("over arrays, the greatest of all, " + kind, b"", 0, status)
    outcomes = {number: name for name, number in header.outcomes.items()}
    tests.compare("over arrays, the numbers of outcomes", b"", OUTCOMES, outcomes)
    unused = 7 not in header.input_errors.values()
    tests.compare("over arrays, no rule has number 7", b"", True, unused)
    untouched = (header.statuses["INVALID_ARGUMENT"], 0, [7] * 21)
    for task, kind in ((0, 1), (3, 1), (257, 1), (1, 0), (2, 14), (1, 2**32 - 1)):
        tests.compare(
            "over arrays, task %d and kind %d" % (task, kind),
            b"",
            untouched,
            arrays.call("blossom_solve_arrays", (task, kind), EXAMPLE, 20),
        )
    tests.compare(
        "the size over arrays of no kind",
        b"",
        untouched,
        arrays.call("blossom_certificate_size", (14,), EXAMPLE, 20),
    )


#: The rules of documents in the order of their numbers.
DOCUMENT_RULES = (
    "DocForm KindDiffers DocRange NotFeasible WeightDiffers DualMissing SetForm Slack ValueDiffers"
    " NotBarrier NotClosed NotCircuit PathForm PathMissing"
).split()


def verdict_of(answer):
    """A verdict over texts, as one over arrays: without the line."""
    status, text = answer
    words = text.decode().split()
    return status, [DOCUMENT_RULES.index(words[2]) + 1, 0] if words[1] == "REJECTED" else []


#: Instances of each kind, some without an answer.
JUDGED = (
    ("perfect", EXAMPLE),
    ("perfect", (3, [1, 2, 1], [2, 3, 3], [1, 1, 1], [], [])),
    ("match", (3, [1, 2, 1], [2, 3, 3], [4, 5, 6], [], [])),
    ("bmatch", (3, [1, 2, 1], [2, 3, 3], [4, 5, 6], [], [2, 2, 2])),
    ("capmatch", (2, [1, 1], [2, 2], [4, 5], [1, 2], [3, 3])),
    ("ffactor", (3, [1, 2, 1], [2, 3, 3], [4, 5, 6], [], [2, 2, 2])),
    ("tjoin", (4, [1, 2, 3], [2, 3, 4], [1, 2, 3], [], [1, 0, 0, 1])),
    ("tjoin", (3, [1], [2], [1], [], [0, 0, 1])),
    ("postman", (3, [1, 2, 1], [2, 3, 3], [4, 5, 6], [], [])),
    ("path", (3, [1, 2, 1], [2, 3, 3], [4, 5, 60], [], [1, 0, 1])),
    ("path", (3, [1, 2, 1], [2, 3, 3], [1, -5, 1], [], [1, 0, 1])),
    ("perfect", (2, [1, 1], [1, 2], [-9, 5], [], [])),
    ("bmatch", (2, [1, 1], [1, 2], [2, 5], [], [3, 1])),
    ("capmatch", (1, [1, 1], [1, 1], [3, 5], [1, -1], [4])),
    ("tjoin", (2, [1, 2], [1, 1], [-4, 3], [], [1, 1])),
    ("postman", (2, [1, 2], [2, 2], [3, 4], [], [])),
    ("path", (2, [1, 1], [2, 1], [1, -1], [], [1, 1])),
    ("interval", (3, [1, 2, 1], [2, 3, 3], [4, 5, 6], [], [])),
    ("interval", (3, [1, 2, 1], [2, 3, 3], [4, 5, 6], [], [1, 2, 0, 1, 1, 1])),
    ("interval", (2, [1, 1], [2, 2], [-4, 5], [2, -1], [1, 3, 2, 4])),
    ("interval", (1, [1], [1], [3], [], [2, 2])),
    ("interval", (1, [1], [1], [3], [], [1, 1])),
    ("interval", (3, [1], [2], [1], [], [0, 0, 1, 2, 0, 0])),
    ("oddpath", (4, [1, 3, 3], [2, 4, 4], [7, 2, 0], [], [1, 1, 0, 0])),
    ("oddpath", (3, [1, 2, 1], [2, 3, 3], [1, 1, 60], [], [1, 0, 1])),
    ("oddpath", (3, [1, 2], [2, 3], [1, 1], [], [1, 0, 1])),
    ("evenpath", (3, [1, 2, 1], [2, 3, 3], [4, 5, 6], [], [1, 0, 1])),
    ("evenpath", (2, [1, 2], [2, 2], [3, 0], [], [1, 1])),
    ("gallai", (2, [1], [2], [1], [], [])),
    ("gallai", (3, [], [], [], [], [])),
    ("gallai", (5, [3, 2, 3, 5], [1, 3, 4, 3], [7, -1, 0, 3], [], [])),
    ("gallai", (6, [2, 1, 2, 3, 4, 5, 1, 6], [2, 2, 3, 4, 5, 1, 6, 4], [1] * 8, [], [])),
)


def instance_text(kind, given):
    """The text of an instance given as arrays."""
    vertices, ends, others, weights, capacities, values = given
    text = line("p", "edge", vertices, len(ends))
    width = len(default_of(kind))
    of_each = [values[at : at + width] for at in range(0, len(values), width)]
    text += "".join(line("n", v, *given) for v, given in enumerate(of_each, 1))
    marks = capacities or [-1] * len(ends)
    for u, v, w, c in zip(ends, others, weights, marks):
        text += line("e", u, v, w, *([] if c < 0 else [c]))
    return text.encode()


def verdicts(program, library, tests):
    """An answer that was changed in one number gets the verdict that its text gets, and numbers
    that are laid out otherwise are no document's. Of `gallai` another path may be one too."""
    arrays, rejected = Arrays(library), library.header.statuses["REJECTED"]
    no_document = (rejected, [library.header.violations["DOC_FORM"], 0])
    for kind, given in JUDGED:
        instance = instance_text(kind, given)
        _, numbers = arrays.answer("SOLVE", kind, given)
        behind = 8 + sum(numbers[3:5]) + numbers[5]
        places = [1, 2, *range(8, behind), *range(behind + numbers[5] + 1, len(numbers))]
        for place in places:
            changed = numbers[:place] + [numbers[place] + 1] + numbers[place + 1 :]
            text = text_of(kind, False, changed)
            here = arrays.check(kind, given, changed)
            told = verdict_of(library.answer("CHECK", kind, instance + text))
            name = "%s over arrays, changed at %d" % (kind, place)
            if kind == "gallai" and told == here == (0, []):
                other = text != text_of(kind, False, numbers)
                tests.compare(name + ", another path", text, True, other)
            elif told[0] == 0 or here == no_document:
                same = text == text_of(kind, False, numbers) or told[0] == rejected
                tests.compare(name, text, (no_document, True), (here, same))
            else:
                tests.compare(name, text, told, here)
        for other in (numbers[:-1], numbers + [0], numbers[:7], [], [9] + numbers[1:]):
            told = arrays.check(kind, given, other)
            tests.compare("%s over arrays, no document" % kind, b"", no_document, told)
        for place in range(3, 8):
            for length in (numbers[place] + 1, -1, 2**62, 2**63 - 1, -(2**63)):
                changed = numbers[:place] + [length] + numbers[place + 1 :]
                told = arrays.check(kind, given, changed)
                tests.compare("%s over arrays, a length" % kind, b"", rejected, told[0])


def negative_answers(program, library, tests):
    """A negative edge of a walk is a number of a document, so it gets the verdict that its text
    gets; a negative count is a number of none."""
    arrays, rejected = Arrays(library), library.header.statuses["REJECTED"]
    no_document = (rejected, [library.header.violations["DOC_FORM"], 0])
    for kind, given in JUDGED:
        instance = instance_text(kind, given)
        _, numbers = arrays.answer("SOLVE", kind, given)
        for place in range(8, 8 + numbers[3]):
            changed = numbers[:place] + [-1] + numbers[place + 1 :]
            text, told = text_of(kind, False, changed), no_document
            if kind in WALKS:
                told = verdict_of(library.answer("CHECK", kind, instance + text))
            name = "%s over arrays, negative at %d" % (kind, place)
            tests.compare(name, text, told, arrays.check(kind, given, changed))


def equal_calls(program, library, tests):
    """Calls in several threads answer as one after another."""
    arrays, all_rows = Arrays(library), []
    for start, kind in enumerate(KINDS * 3):
        edges, values = made_rows(kind, start, 30, 70)
        edges = [[u, v, w] + ([] if c is None else [c]) for u, v, w, c in edges]
        given = rows(kind, len(values), edges, dict(enumerate(values, 1)))
        all_rows += [("SOLVE", kind, given), ("SOLVE_WITHOUT_PROOF", kind, given)]
    first = [arrays.answer(*row) for row in all_rows]
    with concurrent.futures.ThreadPoolExecutor(2) as executor:
        at_once = list(executor.map(lambda row: arrays.answer(*row), all_rows * 2))
    for row, one, two, three in zip(all_rows, first, at_once, at_once[len(all_rows) :]):
        tests.compare("over arrays, equal calls, %s %s" % row[:2], b"", one, two)
        tests.compare("over arrays, equal calls, %s %s" % row[:2], b"", one, three)


PARTS = (same_answers, buffers, faults, verdicts, negative_answers, equal_calls)
