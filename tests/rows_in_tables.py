#!/usr/bin/env python3
"""Lists the rows of a file of acceptance rows that stand in no table of tests/cases.

Usage: rows_in_tables.py ROWS STAGE. The file is JSON: rows with `id`, `since` and `until` (the
stages in which they hold), `words` or `words_kind`, and `input`, a text, a generator (`repeat` and
`count`, or `count_up`, `from` and `to`), or a list of these. The status is 1 if a row is missing."""
import json
import sys

import tables


def text(part):
    if isinstance(part, list):
        return "".join(map(text, part))
    if isinstance(part, str):
        return part
    if "repeat" in part:
        return text(part["repeat"]) * part["count"]
    numbers = range(part["from"], part["to"] + 1)
    return "".join(part["count_up"].replace("#", str(number)) for number in numbers)


def row_key(row):
    """What a row and a case have in common: words, input, and what is expected."""
    given = text(row["input"]).encode("utf-8")
    if row.get("type") == "solve_then_check":
        return ("solve", row["words_kind"]), given, "checked"
    output = row["output"]
    expected = tuple(output["prefixes"]) if isinstance(output, dict) else output
    return tuple(row["words"]), given, expected, row["status"]


def case_key(case):
    words, given = tuple(case["words"]), tables.given(case)
    if case.get("checked"):
        return words, given, "checked"
    output = case["output"]
    expected = tuple(output["begins"]) if isinstance(output, dict) else output
    return words, given, expected, case["status"]


def main():
    with open(sys.argv[1], encoding="utf-8") as file:
        rows = json.load(file)
    stage = int(sys.argv[2])
    held = [r for r in rows if r["since"] <= stage and (r["until"] is None or stage < r["until"])]
    have = {case_key(case) for case in tables.cases()}
    missing = [row["id"] for row in held if row_key(row) not in have]
    print("\n".join(missing + ["%d rows, %d missing" % (len(held), len(missing))]))
    sys.exit(1 if missing or not held else 0)


if __name__ == "__main__":
    main()
