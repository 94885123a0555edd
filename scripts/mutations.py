"""Small changes of a program's text that make a wrong body: another operator or constant, a branch
that is always or never taken, a statement that is gone, two arguments that change places. The text
is Rattle, Python, C or C++ (languages "rattle", "python", "c"), and is read by its tokens alone."""
import collections
import re

#: One change: the text from `start` to before `end` becomes `new`.
Change = collections.namedtuple("Change", "start end new what")

#: Comments and literals: of Python, and of the languages with braces.
UNREAD_PYTHON = re.compile(
    r"#[^\n]*|\"\"\".*?\"\"\"|'''.*?'''|\"(?:\\.|[^\"\\\n])*\"|'(?:\\.|[^'\\\n])*'", re.S
)
UNREAD = re.compile(
    r"//[^\n]*|/\*.*?\*/|\"(?:\\.|[^\"\\\n])*\"|'(?:\\[^'\n]*|[^'\\\n])'"
    r"|^[ \t]*#(?:[^\n\\]|\\.)*",
    re.S | re.M,
)
OPERATORS = {
    "+": "-",
    "-": "+",
    "*": "+",
    "/": "*",
    "//": "*",
    "%": "/",
    "<": "<=",
    "<=": "<",
    ">": ">=",
    ">=": ">",
    "==": "!=",
    "!=": "==",
    "&&": "||",
    "||": "&&",
    "and": "or",
    "or": "and",
    "is not": "is",
    "not in": "in",
    "+=": "-=",
    "-=": "+=",
    "<<": ">>",
    ">>": "<<",
}
OPERATOR = re.compile(
    r"(?<=\s)(%s)(?=\s)" % "|".join(map(re.escape, sorted(OPERATORS, key=len, reverse=True)))
)
NUMBER = re.compile(
    r"(?<!\w)(?<!(?<!\.)\.)\d[\d_]*(?=(?:[iu](?:8|16|32|64|128|size)|[uUlL]{1,3})?(?!\w|\.\d))"
)
WORDS = {"true": "false", "false": "true", "True": "False", "False": "True"}
WORD = re.compile(r"\b(true|false|True|False)\b")
NEGATION = re.compile(r"(?<![\w\])])!(?=[\w(*])|\bnot (?!in\b)")
BRANCH = re.compile(r"\b(?:if|elif|while) (?!let\b)")
CALL = re.compile(r"\((?=[^)])")
#: An argument that no other can stand for, and what an argument may begin with.
ALONE, SIGN = re.compile(r"alloc$|_*$"), re.compile(r"&mut |[&*!]?")
#: How a statement of Python starts that can be gone.
STARTED = re.compile(r"(return|raise|continue|break|del)\b|[\w.]+(\[.*\])?( [-+*/]=|\()")
#: What opens and closes, without `<` and `>`.
PAIRS = {"(": ")", "[": "]", "{": "}"}


def masked(text, language):
    """The text with its comments and literals as blanks and underscores, of the same length."""

    def blank(found):
        word = found[0]
        if word[0] in "/#" or word.lstrip()[:1] == "#":
            return re.sub(r"[^\n]", " ", word)
        return re.sub(r"[^\n]", "_", word)

    return (UNREAD_PYTHON if language == "python" else UNREAD).sub(blank, text)


def closing(code, start):
    """Where the bracket at `start` closes."""
    depth = 0
    for at in range(start, len(code)):
        depth += (code[at] in PAIRS) - (code[at] in PAIRS.values())
        if depth == 0:
            return at
    return len(code)


def words_changed(code):
    """Operators, constants and negations of masked code."""
    for found in OPERATOR.finditer(code):
        yield Change(*found.span(), OPERATORS[found[0]], "operator")
    for found in WORD.finditer(code):
        yield Change(*found.span(), WORDS[found[0]], "constant")
    for found in NEGATION.finditer(code):
        yield Change(*found.span(), "", "operator")


def numbers_changed(code):
    """Constants, one more and one less."""
    for found in NUMBER.finditer(code):
        number = int(found[0].replace("_", ""))
        yield Change(*found.span(), str(number + 1), "constant")
        if number > 0:
            yield Change(*found.span(), str(number - 1), "constant")


def condition_end(code, start, language):
    """Where a condition that starts here ends: at its colon, its block, or its bracket."""
    if language == "python":
        ends = code.find(":\n", start)
        return None if ends < 0 or "\n" in code[start:ends] else ends
    if code[start] == "(":
        return closing(code, start) + 1
    while start < len(code) and code[start] != "{":
        start = closing(code, start) + 1 if code[start] in "([" else start + 1
    return start - 1


def branches_changed(code, language):
    """Conditions that are always or never met."""
    values = {"python": ("False", "True"), "rattle": ("false", "true"), "c": ("0", "1")}[language]
    for found in BRANCH.finditer(code):
        ends = condition_end(code, found.end(), language)
        if ends is None:
            continue
        for value in values[: 1 if found[0].startswith("while") else 2]:
            whole = "(%s)" % value if code[found.end()] == "(" else value
            yield Change(found.end(), ends, whole, "branch")


def arguments(code, start):
    """The arguments of the call whose bracket opens here, as places: without outer blanks."""
    ends, at, first, found = closing(code, start), start + 1, start + 1, []
    while at <= ends:
        if at == ends or code[at] == ",":
            part = code[first:at]
            left = first + len(part) - len(part.lstrip())
            found.append((left, left + len(part.strip())))
            first = at + 1
        at = closing(code, at) + 1 if code[at] in PAIRS and at < ends else at + 1
    return [(left, right) for left, right in found if left < right]


def arguments_changed(text, code, language):
    """Two arguments of a call, one after the other, that change places."""
    for found in CALL.finditer(code):
        places = arguments(code, found.start())
        for (left, middle), (after, right) in zip(places, places[1:]):
            one, two = text[left:middle], text[after:right]
            named = language == "python" and ("=" in code[left:middle] or "=" in code[after:right])
            alone = ALONE.match(one) or ALONE.match(two) or SIGN.match(one)[0] != SIGN.match(two)[0]
            if one != two and not named and not alone:
                yield Change(left, right, two + text[middle:after] + one, "arguments")


def statements_changed(code, language):
    """Statements of one line that are gone."""
    before, place = "{", 0
    for line in code.splitlines(True):
        bare = line.strip()
        whole = all(bare.count(one) == bare.count(two) for one, two in PAIRS.items())
        left = place + len(line) - len(line.lstrip())
        if language != "python" and bare.endswith(";") and before[-1:] in "{};" and whole:
            if not re.match(r"(let|const|static|use|ghost|typedef|struct)\b", bare):
                yield Change(left, left + len(bare), "", "statement")
        started = STARTED.match(bare)
        if language == "python" and whole and started and before[-1:] not in "([{,\\":
            yield Change(left, left + len(bare), "pass", "statement")
        place, before = place + len(line), bare or before


def changes(text, code, language, start, end):
    """All changes of the text between two places, `code` being the masked text."""
    part, own = code[start:end], text[start:end]
    found = [
        *words_changed(part),
        *numbers_changed(part),
        *branches_changed(part, language),
        *arguments_changed(own, part, language),
        *statements_changed(part, language),
    ]
    unread = re.compile(r"\bghost\b|\bprove!")
    for change in found:
        line = part.rfind("\n", 0, change.start) + 1, part.find("\n", change.end)
        if not unread.search(part[line[0] : line[1]]):
            yield change._replace(start=change.start + start, end=change.end + start)


def drawn(chance, found):
    """One of these changes: each sort of them is as likely as another, but that of statements."""
    sorts = sorted({change.what for change in found})
    weights = [1 if sort == "statement" else 3 for sort in sorts]
    sort = chance.choices(sorts, weights)[0]
    return chance.choice([change for change in found if change.what == sort])


def lines_of(text, change):
    """The lines that a change is in, before and after it, as one line each."""
    start = text.rfind("\n", 0, change.start) + 1
    end = (text + "\n").find("\n", change.end)
    after = text[start : change.start] + change.new + text[change.end : end]
    return " ".join(text[start:end].split()), " ".join(after.split())


def changed(text, made):
    """The text with these changes, of which none overlap."""
    for change in sorted(made, reverse=True):
        text = text[: change.start] + change.new + text[change.end :]
    return text
