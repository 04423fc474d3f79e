"""A page that shows what links carried over time: one HTML file, with no script, and no file or address from elsewhere. For tools/latency."""

import html
import itertools

from tlxtools.latency_model import SPREAD, ranked
from tlxtools.plots import plot

STEPS = 200
STYLE = """
body { font: 14px/1.4 sans-serif; margin: 2em }
h2 { margin-top: 2em }
table { border-collapse: collapse; margin: .5em 0 1em }
th, td { border: 1px solid #ccc; padding: .15em .5em; text-align: right }
th { background: #f3f3f3; font-weight: normal }
svg.plot { margin: 0 1em .5em 0; font: 11px sans-serif }
"""
HEADS = ("operation", "requests", "unanswered", "denied", "bytes", "bytes a clock", *(f"to the first beat: {word}" for word in SPREAD),
         *(f"to the last beat: {word}" for word in SPREAD), "most in flight", "busy", "busy on A", "busy on D")


class Steps:
    """Equal parts of the time of a capture: 200, or one for each clock if it has fewer."""

    def __init__(self, meter):
        self.first, self.span, self.period = meter.first, meter.span(), meter.period
        self.count = max(1, min(STEPS, self.span // self.period))

    def of(self, time):
        """The step of a time."""
        return (time - self.first) * self.count // self.span

    def clocks(self):
        """How many clocks a step has."""
        return self.span / self.period / self.count

    def sums(self, times, values=None):
        """What was counted in each step, or the sum of these values."""
        found, first, count, span = [0] * self.count, self.first, self.count, self.span
        for time, value in zip(times, values or itertools.repeat(1)):
            found[(time - first) * count // span] += value
        return found

    def gathered(self, times, values):
        """The values of each step, by rising order."""
        found = [[] for _ in range(self.count)]
        for time, value in zip(times, values):
            found[self.of(time)].append(value)
        return [sorted(values) for values in found]


def most_in_flight(steps, begun, ended):
    """The most requests in flight at once in each step. Within a time a request comes before a reply."""
    found, flying, over = [0] * steps.count, 0, 0
    events = sorted([*((time, 0) for time in begun), *((time, 1) for time in ended)])
    for time, is_end in events:
        here = steps.of(time)
        # from the step of the event before, this many stayed in flight
        found[over:here + 1] = [max(most, flying) for most in found[over:here + 1]]
        over = here
        flying += -1 if is_end else 1
        found[here] = max(found[here], flying)
    found[over:] = [max(most, flying) for most in found[over:]]
    return found


def plots_of(link, steps, meter):
    """The four plots of a link."""
    clocks, ends = steps.clocks(), (meter.first, meter.last)
    latencies = steps.gathered(link.ended, link.whole.to_last)
    median = [ranked(values, 50) / meter.period if values else None for values in latencies]
    most = [values[-1] / meter.period if values else None for values in latencies]
    yield plot("bytes a clock", *ends, [("moved", [moved / clocks for moved in steps.sums(link.ended, link.moved)])])
    yield plot("clocks to the last beat", *ends, [("median", median), ("most", most)])
    yield plot("requests", *ends, [("in flight", most_in_flight(steps, link.begun, link.ended))])
    busy = [(channel, [min(1, beats / clocks) for beats in steps.sums(link.beats[channel])]) for channel in "AD"]
    yield plot("share of clocks with a beat", *ends, busy, 1)


def table_of(measures):
    heads = "".join(f"<th>{html.escape(head)}</th>" for head in HEADS)
    rows = "".join("<tr>" + "".join(f"<td>{'-' if value is None else html.escape(str(value))}</td>" for value in list(measure.values())[2:])
                   + "</tr>" for measure in measures)
    return f"<table><tr>{heads}</tr>{rows}</table>"


def page_of(system, meter, whole, measures):
    """The page: for each link that had a request a table and four plots."""
    steps = Steps(meter)
    parts = [f"<p>{html.escape(whole['verdict'])}</p>",
             f"<p>{whole['rows']} rows, {whole['clocks']} clocks of {whole['period']}, from time {whole['first']} to {whole['last']}.</p>"]
    for name, link in meter.links.items():
        if link.whole.requests:
            parts.append(f"<h2>{html.escape(system.names[name])}</h2>")
            parts.append(table_of([measure for measure in measures if measure["link"] == name]))
            parts += plots_of(link, steps, meter)
    head = f'<meta charset="utf-8"><title>Latency</title><style>{STYLE}</style>'
    return f'<!DOCTYPE html><html lang="en">{head}<h1>Latency</h1>{"".join(parts)}</html>\n'
