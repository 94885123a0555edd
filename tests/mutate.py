"""Small changes of a document, for the comparison with the plain checker."""

NUMBERS = [
    "0",
    "1",
    "2",
    "-1",
    "7",
    "99",
    "x",
    "match",
    "tjoin",
    "1000000000000000001",
    "@1",
    "@2",
    "@0",
    "@",
]


def changed_field(random, line):
    """The line with one field after the first changed."""
    fields = line.split(" ")
    at = random.randrange(1, len(fields))
    mark = "@" if fields[at].startswith("@") else ""
    number = fields[at].removeprefix(mark)
    if random.randrange(3) > 0 and number.removeprefix("-").isdecimal():
        fields[at] = mark + str(int(number) + random.choice([-2, -1, 1, 2]))
    else:
        fields[at] = random.choice(NUMBERS)
    return " ".join(fields)


def changed(random, document):
    """The document's lines with one change; its first line, the s line, stays the first."""
    lines = list(document)
    choice = random.randrange(6)
    if len(lines) == 1 or choice > 2:
        place = random.randrange(len(lines))
        lines[place] = changed_field(random, lines[place])
        return lines
    place, other = random.randrange(1, len(lines)), random.randrange(1, len(lines))
    if choice == 0:
        del lines[place]
    elif choice == 1:
        lines.insert(other, lines[place])
    else:
        lines[place], lines[other] = lines[other], lines[place]
    return lines
