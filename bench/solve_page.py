"""The tables of docs/PERFORMANCE.md about the solver, as text, from what solve.py has measured."""
import collections

# A graph that was measured: its family, kind and size, and seconds, ours first and LEMON's last.
Row = collections.namedtuple("Row", "family kind n m times")

NAMES = {
    "oddpaths": "odd paths",
    "evenpaths": "even paths",
    "bottlenecks": "bottlenecks, against 17 searches of LEMON",
}


def duration(seconds):
    """Two or three digits, as the page has them: 4.6 ms, 620 ms, 3.2 s."""
    milliseconds = seconds * 1000
    if milliseconds < 9.95:
        return "%.1f ms" % milliseconds
    return "%.0f ms" % milliseconds if milliseconds < 999.5 else "%.1f s" % seconds


def last_of_each(rows, apart):
    """The last graph of each family, those of the families `apart` at the end."""
    last = {row.family: row for row in rows}
    return sorted(last.values(), key=lambda row: row.family in apart)


def family_table(rows, apart):
    """A row for the last graph of each family."""
    yield "| Family | Kind | n | m | `solve --brief` | LEMON | Ratio |"
    yield "|---|---|--:|--:|--:|--:|--:|"
    for row in last_of_each(rows, apart):
        yield "| %s | `%s` | %s | %s | %s | %s | %.2f |" % (
            NAMES.get(row.family, row.family),
            row.kind,
            format(row.n, ","),
            format(row.m, ","),
            duration(row.times[0]),
            duration(row.times[-1]),
            row.times[0] / row.times[-1],
        )


def growth_table(rows, families):
    """For each of the families how many times the first graph's time the last one takes."""
    yield "| Family | `solve` | LEMON |"
    yield "|---|--:|--:|"
    for family in families:
        times = [row.times for row in rows if row.family == family]
        if len(times) > 1:
            yield "| %s | %.1f | %.1f |" % (
                family,
                times[-1][0] / times[0][0],
                times[-1][-1] / times[0][-1],
            )


def headline(rows, apart, runs, mean):
    """The sentence with the mean of the graphs whose family isn't `apart`."""
    counted = [row for row in rows if row.family not in apart]
    return (
        "**Over %d graphs of %d families `solve --brief` takes %.2f of LEMON's time** "
        "(geometric mean, least of %d runs each); all weights agree."
        % (
            len(counted),
            len({row.family for row in counted}),
            mean([row.times[0] / row.times[-1] for row in counted]),
            runs,
        )
    )


def page(rows, apart, growing, runs, mean):
    """The lines of the page that a run gives."""
    yield headline(rows, apart, runs, mean)
    yield ""
    yield from family_table(rows, apart)
    yield ""
    yield from growth_table(rows, growing)
