"""A page that shows what was covered: one HTML file, with no script, and no file or address from elsewhere."""

import html

from tlxtools.coverage_text import ACCESSES, AFTER, CAUSES, EDGES, ERROR, MOST_IN_FLIGHT, NAMES, SENT, SHAPES, SIZES, SOURCES_APART, WHERE, WIDEST_BUS
from tlxtools.partial_memory import ranges_of

STYLE = """
body { font: 14px/1.4 sans-serif; margin: 2em; max-width: 72em }
h2 { margin-top: 2em }
table { border-collapse: collapse; margin: .5em 0 1.5em }
caption { text-align: left; padding: .3em 0; white-space: nowrap }
th, td { border: 1px solid #ccc; padding: .15em .5em; text-align: right }
th { background: #f3f3f3; font-weight: normal }
td.none { color: #ccc }
td.never { background: #f6b6ae }
.bar { background: #ddd; width: 20em; height: .8em }
.bar i { display: block; height: 100%; background: #3a8 }
"""


def color_of(count):
    """The more often, the darker: a step for each power of four."""
    return f"background:hsl(150,55%,{max(92 - 4 * (count.bit_length() // 2), 60)}%)"


def cell(goals, counts, bin):
    """A cell: the count of a bin; red if the bin is a goal that was never hit; empty if it is no goal and was not hit."""
    count = counts.get(bin, 0)
    if count:
        return f'<td style="{color_of(count)}">{count}</td>'
    return '<td class="never">0</td>' if bin in goals else '<td class="none">&middot;</td>'


def table(caption, heads, rows):
    named_columns = "".join(f"<th>{html.escape(str(head))}</th>" for head in heads)
    body = "".join(f"<tr><th>{html.escape(str(name))}</th>{''.join(cells)}</tr>" for name, cells in rows)
    return f"<table><caption>{html.escape(caption)}</caption><tr><th></th>{named_columns}</tr>{body}</table>"


def named(table_of_system, letter, number):
    return table_of_system.get("name", f"{letter}{number}")


def steps():
    return [f"{after} and more" if after == AFTER[-1] else after for after in AFTER]


def rows_by_operation(goals, counts, masters, kind, place, word):
    """The rows of the bins of a kind at a port that end in a word: one for each master and operation of which one is a goal or was hit."""
    for number, master in masters:
        for name in NAMES:
            bins = [(kind, number, place, name, size, word) for size in SIZES]
            if any(bin in goals or counts.get(bin) for bin in bins):
                yield f"{named(master, 'm', number)} {name}", [cell(goals, counts, bin) for bin in bins]


def tables_by_operation(goals, counts, masters, place):
    tables = [(f"replies that were {answer}", "answered", answer) for answer in ("given", "denied")]
    tables += [(f"corrupt beats of {message}", "corrupt", sent) for message, sent in zip(("requests", "replies"), SENT)]
    for caption, kind, word in tables:
        rows = list(rows_by_operation(goals, counts, masters, kind, place, word))
        if rows:
            yield table(f"{caption}, by operation and bytes", [1 << size for size in SIZES], rows)


def tables_of_port(system, goals, counts, place, port):
    masters = list(enumerate(system["master"]))
    yield from tables_by_operation(goals, counts, masters, place)
    rows = []
    for number, master in masters:
        for size in SIZES:
            bins = [("mask", number, place, size, shape) for shape in SHAPES]
            if any(bin in goals or counts.get(bin) for bin in bins):
                rows.append((f"{named(master, 'm', number)} {1 << size}", [cell(goals, counts, bin) for bin in bins]))
    if rows:
        yield table("partial puts by their bytes, and by those of them that they give", SHAPES, rows)
    rows = [(named(master, "m", number), [cell(goals, counts, ("overtook", number, place, where)) for where in WHERE]) for number, master in masters]
    yield table("replies that overtook one of an older request of their master, by the port of that one", [f"{where} port" for where in WHERE], rows)
    if any(("refused", place, cause) in goals or counts.get(("refused", place, cause)) for cause in CAUSES):
        yield table("denied replies, by the cause", CAUSES, [("", [cell(goals, counts, ("refused", place, cause)) for cause in CAUSES])])
    rows = []
    for number, master in masters:
        for channel in ("A", "D"):
            bins = [("gap", number, place, channel, after) for after in AFTER]
            if any(bin in goals or counts.get(bin) for bin in bins):
                rows.append((f"{named(master, 'm', number)} {channel}", [cell(goals, counts, bin) for bin in bins]))
    if rows:
        yield table("beats of a message, by the clocks since the beat before", steps(), rows)
    if place != ERROR:
        cells = [cell(goals, counts, ("latency", place, after)) for after in AFTER]
        yield table("replies, by the clocks from the request's first beat to theirs", steps(), [("", cells)])
        counted = [count for count in range(1, MOST_IN_FLIGHT + 1) if ("at_port", place, count) in goals]
        cells = [cell(goals, counts, ("at_port", place, count)) for count in counted]
        yield table("requests in flight at once at this port", counted, [("", cells)])
        rows = []
        for number, (base, length) in enumerate(ranges_of(port)):
            bins = [("range", place, number), *(("edge", place, number, edge) for edge in EDGES)]
            rows.append((f"{base:#x} and {length} bytes", [cell(goals, counts, bin) for bin in bins]))
        yield table("requests by the range that has them", ["all", *(f"with the {edge} byte" for edge in EDGES)], rows)
        rows = [(f"after {one}", [cell(goals, counts, ("after", place, one, other)) for other in ACCESSES]) for one in ACCESSES]
        yield table("requests that share a byte with the one before them at the port, by what both do", ACCESSES, rows)
        cells = [cell(goals, counts, ("contested", place))]
        yield table("requests that met another one in a byte that one of them writes", [""], [("", cells)])


def tables_of_master(goals, counts, number):
    counted = [count for count in range(1, MOST_IN_FLIGHT + 1) if ("in_flight", number, count) in goals]
    yield table("requests in flight at once", counted, [("", [cell(goals, counts, ("in_flight", number, count)) for count in counted])])
    sources = [source for source in range(SOURCES_APART + 1) if ("source", number, source) in goals or counts.get(("source", number, source))]
    heads = [f"{source} and more" if source == SOURCES_APART else source for source in sources]
    yield table("requests by their source", heads, [("", [cell(goals, counts, ("source", number, source)) for source in sources])])
    lanes = [offset for offset in range(WIDEST_BUS) if any(("lane", number, size, offset) in goals or counts.get(("lane", number, size, offset))
                                                           for size in SIZES)]
    if lanes:
        rows = [(1 << size, [cell(goals, counts, ("lane", number, size, offset)) for offset in lanes]) for size in SIZES
                if any(("lane", number, size, offset) in goals for offset in lanes)]
        yield table("requests narrower than the bus, by their bytes and the place of their address in a word of the bus", lanes, rows)
    cells = [cell(goals, counts, ("again", number, after)) for after in AFTER]
    yield table("a source used again, by the time after its last reply", steps(), [("", cells)])


def page_of(system, goals, counts):
    goals = set(goals)
    hit = sum(1 for bin in goals if counts.get(bin))
    share = 100 * hit // len(goals)
    parts = [f"<p>{hit} of {len(goals)} bins, {share} %</p><div class=\"bar\"><i style=\"width:{share}%\"></i></div>",
             "<p>Red: never seen, and the system can do it. Green: how often; darker is more. White: the system cannot do it.</p>"]
    ports = [*enumerate(system.get("port", [])), (ERROR, {"name": "the error port"})]
    for place, port in ports:
        parts.append(f"<h2>{html.escape(named(port, 'p', place))}</h2>")
        parts += tables_of_port(system, goals, counts, place, port)
    for number, master in enumerate(system["master"]):
        parts.append(f"<h2>{html.escape(named(master, 'm', number))}</h2>")
        parts += tables_of_master(goals, counts, number)
    head = f'<meta charset="utf-8"><title>Coverage</title><style>{STYLE}</style>'
    return f'<!DOCTYPE html><html lang="en">{head}<h1>Coverage</h1>{"".join(parts)}</html>\n'
