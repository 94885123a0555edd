"""Input that no tool writes, as the benches take it: lines that are empty, blanks, one endless
comment or field, fields at their longest, documents of many small sets, of one set, of references
to nothing. Each case has a name, the words of the command, the number of bytes that it is about,
and what makes so many bytes and the answer.

Sets that refer to others come in three shapes: a chain, where each set holds the one before; a
comb, where every second set is a set of three that the next one takes in; and many sets of three
of which one more set holds all."""

MIB = 2**20


def filled(head, piece, tail, size):
    """So many bytes at most: the piece as often as it fits between a head and a tail."""
    return head + piece * ((size - len(head) - len(tail)) // len(piece)) + tail


def lines_before(piece, answer):
    """Lines of this kind before the instance. The document is missing."""

    def made(size):
        text = filled(b"", piece, b"p edge 0 0\n", size)
        return text, answer % (text.count(b"\n") + 1)

    return made


def lines_between(piece):
    """Lines between an instance and its document."""

    def made(size):
        return filled(b"p edge 0 0\n", piece, b"s OPTIMAL perfect 0\n", size), b"s ACCEPTED\n"

    return made


def lines_after(piece):
    """Lines behind a document."""

    def made(size):
        return filled(b"p edge 0 0\ns OPTIMAL perfect 0\n", piece, b"", size), b"s ACCEPTED\n"

    return made


def one_line(head, piece, tail, answer):
    """One endless line, or what ends in one."""
    return lambda size: (filled(head, piece, tail, size), answer)


def longest_fields(zeros):
    """65,536 edges, each field as long as it can be, with so many zeros before it."""

    def made(size):
        count = 65536 * size // zeros[1]
        fields = (4095, 4096, -(10**12), 4096)
        edge = (
            "e "
            + " ".join(("-" if f < 0 else "") + "0" * zeros[0] + str(abs(f)) for f in fields)
            + "\n"
        )
        return ("p edge 4096 %d\n" % count + edge * count).encode(), b"s REJECTED DocForm %d\n" % (
            count + 2
        )

    return made


SMALL = (
    b"p edge 4 2\ne 1 2 1\ne 3 4 1\ns OPTIMAL perfect 2\nx 1 1\nx 2 1\ny 1 0\ny 2 1\ny 3 1\ny 4 0\n"
)
PARALLEL = (
    b"p edge 4 65536\n"
    + b"e 1 2 1\n" * 65535
    + b"e 3 4 1\ns OPTIMAL perfect 2\nx 1 1\nx 65536 1\ny 1 0\ny 2 1\ny 3 1\ny 4 0\n"
)


def sets(head, piece, answer):
    """Sets of the same few members behind a document."""
    return lambda size: (filled(head, piece, b"", size), answer)


def one_set(size):
    """One set of all members that fit, in order and then the last again and again: it lacks
    form."""
    count = (size - len(SMALL) - 30) // 2
    return SMALL + b"z 1 %d" % count + b" 4" * count + b"\n", b"s REJECTED SetForm 11\n"


def one_walk(size):
    """One walk there and back along an edge."""
    count = (size - 100) // 4 * 2
    head = b"p edge 2 1\ne 1 2 0\ns OPTIMAL postman 0\nw 1 %d" % count
    return head + b" 1" * count + b"\ny 1 0\ny 2 0\n", b"s ACCEPTED\n"


def nothing(letter, answer):
    """References to edges and vertices that aren't there, ascending."""

    def made(size):
        head = b"p edge 2 1\ne 1 2 5\ns OPTIMAL perfect 5\n"
        count = (size - len(head)) // 13
        return (
            head + b"".join(b"%s %08d 1\n" % (letter, k + 1_000_000) for k in range(count)),
            answer,
        )

    return made


def chain(first):
    """Each set holds two more vertices and the set before."""
    lines = [b"z 1 3 1 2 3\n"]
    return lines + [
        b"z 1 3 %d %d @%d\n" % (v, v + 1, first + k) for k, v in enumerate(range(4, 4096, 2))
    ]


def comb(first):
    """A set of three, which the next set takes in with a vertex and the set before, and so on."""
    lines = [b"z 1 3 1 2 3\n"]
    for v in range(4, 4093, 4):
        lines.append(b"z 1 3 %d %d %d\n" % (v, v + 1, v + 2))
        lines.append(
            b"z 1 3 %d @%d @%d\n" % (v + 3, first + len(lines) - 2, first + len(lines) - 1)
        )
    return lines


def one_of_all(first):
    """Sets of three, and one that holds them all."""
    lines = [b"z 1 3 %d %d %d\n" % (v, v + 1, v + 2) for v in range(1, 4096, 3)]
    return lines + [
        b"z 1 %d %s\n" % (len(lines), b" ".join(b"@%d" % (first + k) for k in range(len(lines))))
    ]


def references(shape):
    """Trees of sets of one shape over the same 4,096 vertices, one behind the other. Their duals
    are too small for a slack below 0, and add up to something else than the weight asks."""

    def made(size):
        edges = [b"e %d %d 1000000\n" % (v, v + 1) for v in range(1, 4096)]
        head = b"p edge 4096 4095\n" + b"".join(edges) + b"s OPTIMAL perfect 2048000000\n"
        parts = [
            head,
            *(b"x %d 1\n" % e for e in range(1, 4096, 2)),
            *(b"y %d 0\n" % v for v in range(1, 4097)),
        ]
        length, count = sum(map(len, parts)), 0
        while length < size:
            lines = shape(count + 1)
            count += len(lines)
            length += sum(map(len, lines))
            parts += lines
        return b"".join(parts), b"s REJECTED ValueDiffers 4097\n"

    return made


FORM = b"s REJECTED DocForm %d\n"
CHECK, POSTMAN = ["check", "perfect"], ["check", "postman"]
CASES = [
    ("empty lines before the instance", CHECK, 16 * MIB, lines_before(b"\n", FORM)),
    (
        "empty lines before the instance, solve",
        ["solve", "perfect", "--brief"],
        16 * MIB,
        lambda size: (filled(b"", b"\n", b"p edge 0 0\n", size), b"s OPTIMAL perfect 0\n"),
    ),
    ("empty lines before the document", CHECK, 16 * MIB, lines_between(b"\n")),
    ("empty lines after the document", CHECK, 16 * MIB, lines_after(b"\n")),
    ("CR LF before the instance", CHECK, 16 * MIB, lines_before(b"\r\n", FORM)),
    ("CR LF after the document", CHECK, 16 * MIB, lines_after(b"\r\n")),
    ("lines of a blank before the instance", CHECK, 16 * MIB, lines_before(b" \n", FORM)),
    ("lines of a blank after the document", CHECK, 16 * MIB, lines_after(b"\t\n")),
    ("short comments before the instance", CHECK, 16 * MIB, lines_before(b"c\n", FORM)),
    ("short comments after the document", CHECK, 16 * MIB, lines_after(b"c\n")),
    ("blanks before a header", CHECK, 16 * MIB, one_line(b"", b" ", b"p edge 0 0\n", FORM % 2)),
    ("blanks within a header", CHECK, 16 * MIB, one_line(b"p edge 0", b" \t", b" 0\n", FORM % 2)),
    (
        "blanks within a document",
        CHECK,
        16 * MIB,
        one_line(b"p edge 0 0\ns OPTIMAL perfect", b" \t", b" 0\n", b"s ACCEPTED\n"),
    ),
    (
        "one comment before the instance",
        CHECK,
        16 * MIB,
        one_line(b"c", b"x", b"\np edge 0 0\n", FORM % 3),
    ),
    (
        "one comment of many fields",
        CHECK,
        16 * MIB,
        one_line(b"c", b" x", b"\np edge 0 0\n", FORM % 3),
    ),
    (
        "one comment after the document",
        CHECK,
        16 * MIB,
        one_line(b"p edge 0 0\ns OPTIMAL perfect 0\nc", b"x", b"\n", b"s ACCEPTED\n"),
    ),
    (
        "one field of letters",
        CHECK,
        16 * MIB,
        one_line(b"", b"x", b"\n", b"s MALFORMED UnknownLine 1\n"),
    ),
    (
        "one line of letters",
        CHECK,
        16 * MIB,
        one_line(b"", b"x ", b"\n", b"s MALFORMED UnknownLine 1\n"),
    ),
    ("one field of zeros", CHECK, 16 * MIB, one_line(b"p edge ", b"0", b" 0\n", FORM % 2)),
    (
        "one field of nines",
        CHECK,
        16 * MIB,
        one_line(b"p edge -", b"9", b" 0\n", b"s MALFORMED Range 1\n"),
    ),
    (
        "one field of a document",
        CHECK,
        16 * MIB,
        one_line(b"p edge 0 0\ns OPTIMAL perfect ", b"9", b"\n", b"s REJECTED DocRange 2\n"),
    ),
    (
        "one field of CR",
        CHECK,
        16 * MIB,
        one_line(b"", b"\r", b"\n", b"s MALFORMED UnknownLine 1\n"),
    ),
    ("65,536 edges, longest fields", CHECK, 65536 * 31, longest_fields((0, 65536 * 31))),
    ("65,536 edges, 58 zeros before each", CHECK, 16 * MIB, longest_fields((58, 16 * MIB))),
    ("sets of three", CHECK, 512 * MIB, sets(SMALL, b"z 1 3 1 2 3\n", b"s REJECTED Slack 4\n")),
    (
        "sets of three at parallel edges",
        CHECK,
        512 * MIB,
        sets(PARALLEL, b"z 1 3 1 2 3\n", b"s REJECTED Slack 65538\n"),
    ),
    ("sets of one", CHECK, 512 * MIB, sets(SMALL, b"z 1 1 1\n", b"s REJECTED SetForm 11\n")),
    ("sets of none", CHECK, 512 * MIB, sets(SMALL, b"z 1 0\n", b"s REJECTED SetForm 11\n")),
    ("one set", CHECK, 512 * MIB, one_set),
    ("chains of sets by reference", CHECK, 8 * MIB, references(chain)),
    ("combs of sets by reference", CHECK, 8 * MIB, references(comb)),
    ("one set of all by reference", CHECK, 8 * MIB, references(one_of_all)),
    ("one walk", POSTMAN, 512 * MIB, one_walk),
    ("edges that aren't there", CHECK, 512 * MIB, nothing(b"x", b"s REJECTED DocRange 4\n")),
    ("vertices that aren't there", CHECK, 512 * MIB, nothing(b"y", b"s REJECTED DocRange 4\n")),
    (
        "members that aren't there",
        CHECK,
        512 * MIB,
        sets(SMALL, b"z 1 3 5 6 7\n", b"s REJECTED DocRange 11\n"),
    ),
]
