"""The tables of tests/cases: a case has a name, the words, the input, and either the output and
status or `"checked": true`, which asks that what `solve` writes is accepted behind its input.

An input is a text, or a list of parts: a line, `{"text": ..}`, `{"repeat": text, "times": n}`, or
`{"count": text, "from": a, "to": b}`, the text once for each number in place of its `#`. An output
is a text, or `{"begins": [..]}` with the beginning of each line."""
import glob
import json
import os

HERE = os.path.dirname(os.path.abspath(__file__))


def part(item):
    if isinstance(item, str):
        return item + "\n"
    if "text" in item:
        return item["text"]
    if "repeat" in item:
        return item["repeat"] * item["times"]
    numbers = range(item["from"], item["to"] + 1)
    return "".join(item["count"].replace("#", str(number)) for number in numbers)


def given(case):
    """The bytes of a case's input."""
    items = case["input"]
    text = items if isinstance(items, str) else "".join(map(part, items))
    return text.encode("latin-1")


def cases():
    """Each case, with the name of its table before its own."""
    for path in sorted(glob.glob(os.path.join(HERE, "cases", "*.json"))):
        with open(path, encoding="utf-8") as file:
            for case in json.load(file):
                yield {**case, "name": "%s: %s" % (os.path.basename(path), case["name"])}


def is_as_wanted(wanted, printed):
    """Whether an output is the wanted text, or has lines that begin as it says."""
    if isinstance(wanted, str):
        return printed == wanted
    lines = printed.splitlines(keepends=True)
    begun = [line.startswith(begin) for line, begin in zip(lines, wanted["begins"])]
    return len(lines) == len(wanted["begins"]) and all(begun) and printed.endswith("\n")
