"""Measures what the links of a capture carried, and how long replies took (docs/guide/regression.md, "How fast it is").

    tools/latency [--period N] [--links LINKS] [--order ORDER] [--csv FILE] [--json] [--html PAGE] SYSTEM [CAPTURE]

CAPTURE is a file, or standard input if it is left out or `-`. A value change dump goes through tlvcd. N says how many units of the
capture's time one clock has. Without it `period` of SYSTEM does; else, of a dump, how far the first two edges of the clock are from each other,
where of several clocks the fastest counts; else it is 1. LINKS and ORDER are those of tlcheck, `each` and `any` if nobody says: so nothing that is
lawful in another view is unlawful here. Of an unlawful capture the beats before the unlawful one are measured, and its line stands on
standard error.

Statuses: 0; 1, what can't be read, or is no system, no capture or no dump; 2, the command line; 3, the capture is unlawful. It needs the
built programs. TLCHECK=path and TLVCD=path take others.
"""

import argparse
import gc
import json
import sys

from tlxtools.capture_input import Mistake, capture_of, said_by, write
from tlxtools.clock_period import period_of
from tlxtools.common import ORDER_WORDS, TLCHECK
from tlxtools.explanation import VERDICT
from tlxtools.latency_model import SIDES, SPREAD, all_figures, measured, plain, too_near
from tlxtools.latency_page import page_of
from tlxtools.story import System

USAGE, UNLAWFUL = 2, 3
COLUMNS = ("link", "name", "operation", "requests", "unanswered", "denied", "bytes", "bytes_a_clock",
           *(f"first_{word}" for word in SPREAD), *(f"last_{word}" for word in SPREAD), "most_in_flight", "busy", "busy_A", "busy_D")
# The heads of the table's columns, from the operation on, in two lines. Latencies are in clocks.
WORDS = ("least", "median", "90 %", "99 %", "most")
HEADS = (("", "operation"), ("", "requests"), ("", "unanswered"), ("", "denied"), ("", "bytes"), ("bytes", "a clock"),
         *(("to first", word) for word in WORDS), *(("to last", word) for word in WORDS),
         ("most in", "flight"), ("", "busy"), ("busy", "on A"), ("busy", "on D"))


def units_of(word):
    """The value of --period."""
    if not word.isascii() or not word.isdigit() or not 0 < int(word) < 1 << 64:
        raise argparse.ArgumentTypeError(f"{word}: a whole number from 1 on is wanted")
    return int(word)


def judged(words, path):
    """The line of tlcheck, and the place of the unlawful beat: its time, its link and its channel. What tlcheck refuses is refused."""
    run = said_by(TLCHECK, ["--quiet", f"--links={words.links}", f"--order={words.order}", words.system, path], stdout=-1)
    verdict = run.stdout.decode(errors="replace").strip()
    if run.returncode not in (0, UNLAWFUL):
        raise Mistake(run.stderr.decode(errors="replace").strip() or f"tlcheck ended with status {run.returncode}")
    found = VERDICT.fullmatch(verdict)
    return verdict, (int(found[2]), found[3], found[4]) if found else None


def cell(column, value):
    """A figure as the table shows it."""
    if value is None:
        return "-"
    return f"{100 * value:.1f} %" if column.startswith("busy") else str(value)


def table_of(measures):
    """The lines of a table: a column is as wide as its longest cell."""
    lines = [["", *(head for head, _ in HEADS)], ["link", *(head for _, head in HEADS)]]
    lines += [[measure["name"], *(cell(column, measure[column]) for column in COLUMNS[2:])] for measure in measures]
    wide = [max(len(line[place]) for line in lines) for place in range(len(lines[0]))]
    for line in lines:
        # names stand at the left, numbers at the right
        yield "  ".join(word.ljust(width) if place < 2 else word.rjust(width)
                        for place, (word, width) in enumerate(zip(line, wide))).rstrip()


def csv_of(measures):
    """The figures as CSV, with a line of heads."""
    lines = [COLUMNS, *(["" if measure[column] is None else measure[column] for column in COLUMNS] for measure in measures)]
    for line in lines:
        yield ",".join(f'"{word}"' if "," in str(word) else str(word) for word in line)


def told_period(words, table, dump):
    """How many units of time a clock has, and who says so."""
    if words.period:
        return words.period, f"--period {words.period}"
    if "period" in table:
        return table["period"], f"period = {table['period']} of SYSTEM"
    found = period_of(table, dump) if dump else None
    return found or 1, f"the first period of the clock, {found},"


def run(words):
    """Measures, and writes what is asked for: the status."""
    with capture_of(words.system, words.capture) as (path, dump):
        verdict, stop = judged(words, path)
        system = System(words.system)
        period, teller = told_period(words, system.table, dump)
        meter = measured(system, path, words.links, period, stop)
    near = too_near(meter) if period > 1 else None
    if near:
        link, channel, one, other = near
        raise Mistake(f"{teller} is longer than a clock: {system.names[link]} {channel} has beats at times {one} and {other}", USAGE)
    measures = list(all_figures(system, meter))
    whole = {"verdict": verdict, "rows": meter.rows, "period": period, "first": meter.first, "last": meter.last,
             "clocks": plain(meter.clocks())}
    if words.csv:
        write(words.csv, "".join(f"{line}\n" for line in csv_of(measures)))
    if words.html:
        write(words.html, page_of(system, meter, whole, measures))
    if words.json:
        print(json.dumps({**whole, "measures": measures}, indent=2))
    else:
        of_units = f" of {period}" if period > 1 else ""
        print(f"{whole['rows']} rows, {whole['clocks']} clocks{of_units} from time {meter.first} to {meter.last}")
        print("".join(f"{line}\n" for line in table_of(measures)), end="")
    if stop:
        print(f"latency: measured up to the unlawful beat: {verdict}", file=sys.stderr)
    return UNLAWFUL if stop else 0


def parsed():
    """The words of the command line."""
    parser = argparse.ArgumentParser(description="Measures what the links of a capture carried, and how long replies took.")
    parser.add_argument("system", metavar="SYSTEM")
    parser.add_argument("capture", metavar="CAPTURE", nargs="?", default="-", help="a capture, or a dump, which begins with $; - is standard input")
    parser.add_argument("--period", type=units_of, metavar="N", help="units of the capture's time that a clock has (that of SYSTEM or of the dump, "
                        "else 1). Two beats of a channel that are nearer are a mistake")
    parser.add_argument("--links", choices=sorted(SIDES), default="each", help="the links that were watched, as tlcheck has them (each). "
                        "Others are not measured")
    parser.add_argument("--order", choices=ORDER_WORDS, default="any", metavar="ORDER", help="when requests take effect, as tlcheck has it (any)")
    parser.add_argument("--csv", metavar="FILE", help="also the figures, with a line of heads")
    parser.add_argument("--json", action="store_true", help="one object in place of the table: verdict, rows, period, first, "
                        "last, clocks and measures")
    parser.add_argument("--html", metavar="PAGE", help="also one page with no script: for each link the table, and plots over time "
                        "in 200 steps of bytes a clock, latency, requests in flight and busy clocks")
    return parser.parse_args()


def main():
    words = parsed()
    # nothing here makes cycles, and looking for them costs a fifth of the time
    gc.disable()
    try:
        return run(words)
    except Mistake as mistake:
        print(f"latency: {mistake}", file=sys.stderr)
        return mistake.status
