"""Detector error models made by rule: memories of repetition codes and rotated surface codes, in
the forms that circuits have. Layers are repeat blocks with shifted detectors, and errors of two
kinds at once are decomposed by `^`."""


def repetition_code(distance, rounds, chance):
    """A memory of a repetition code: a bit flip between neighbouring checks, and a wrong
    measurement between a check and itself one round later. Observable 0 is the first bit."""
    checks = distance - 1
    bits = ["error(%g) D0 L0" % chance]
    bits += ["error(%g) D%d D%d" % (chance, check, check + 1) for check in range(checks - 1)]
    bits.append("error(%g) D%d" % (chance, checks - 1))
    measured = ["error(%g) D%d D%d" % (chance, check, check + checks) for check in range(checks)]
    places = ["detector(%d, 0) D%d" % (2 * check + 1, check) for check in range(checks)]
    return layered([*bits, *measured, *places], [*bits, *places], rounds, checks)


def layered(layer, last, rounds, detectors):
    """A layer for each round, as a repeat block, and one that ends the memory."""
    lines = ["repeat %d {" % rounds, *("    " + line for line in layer)]
    lines += ["    shift_detectors(0, 1) %d" % detectors, "}", *last]
    return "\n".join(lines) + "\n"


def checks_of(distance):
    """The checks of a rotated surface code: (x, y) by type, "Z" or "X", at even places; data qubits
    are at odd ones. Checks of type Z reach the left and right sides, those of type X the others."""
    found = {"Z": [], "X": []}
    for x in range(0, 2 * distance + 1, 2):
        for y in range(0, 2 * distance + 1, 2):
            kind = "ZX"[(x + y) // 2 % 2]
            inside = 0 < x < 2 * distance and 0 < y < 2 * distance
            beside = (x in (0, 2 * distance)) if kind == "Z" else (y in (0, 2 * distance))
            corner = x in (0, 2 * distance) and y in (0, 2 * distance)
            if inside or beside and not corner:
                found[kind].append((x, y))
    return found


def surface_code(distance, rounds, chance, decomposed=True, diagonal=False):
    """A memory of a rotated surface code with noise at data qubits and measurements. Errors at a
    data qubit flip checks of one type or, decomposed, of both. Observable 0 is the row of qubits
    that checks of type Z guard. diagonal: there are errors between a check and its neighbours one
    round later too, as in a circuit."""
    checks = checks_of(distance)
    number = {}
    for kind in "ZX":
        for place in checks[kind]:
            number[place] = len(number)
    layer, last = [], []
    for x in range(1, 2 * distance, 2):
        for y in range(1, 2 * distance, 2):
            parts = {kind: parts_at(number, checks[kind], x, y) for kind in "ZX"}
            parts["Z"] += " L0" * (y == 1)
            both = "%s ^ %s" % (parts["Z"], parts["X"])
            lines = ["error(%g) %s" % (chance, part) for part in (parts["Z"], parts["X"])]
            lines += ["error(%g) %s" % (chance, both)] * decomposed
            layer += lines
            last += lines
    times = ["error(%g) D%d D%d" % (chance, one, one + len(number)) for one in number.values()]
    if diagonal:
        times += diagonals(number, checks, chance)
    places = ["detector(%d, %d, 0) D%d" % (*place, one) for place, one in number.items()]
    text = layered([*layer, *times, *places], [*last, *places], rounds, len(number))
    return text.replace("shift_detectors(0, 1)", "shift_detectors(0, 0, 1)")


def parts_at(number, checks, x, y):
    """The checks of one type beside a data qubit, as a model writes them."""
    beside = [place for place in checks if abs(place[0] - x) == 1 and abs(place[1] - y) == 1]
    return " ".join("D%d" % number[place] for place in sorted(beside))


def diagonals(number, checks, chance):
    """Errors between a check and two neighbours of its type in the next round."""
    lines = []
    for kind in "ZX":
        for x, y in checks[kind]:
            for place in ((x + 2, y + 2), (x + 2, y - 2)):
                if place in checks[kind]:
                    pair = number[(x, y)], number[place] + len(number)
                    lines.append("error(%g) D%d D%d" % (chance, *pair))
    return lines
