"""Counts what captures have covered, adds that up, and says what is left (docs/guide/regression.md, "What was covered").

    tools/coverage count SYSTEM CAPTURE [--links LINKS] [--order ORDER] [--within N]
                                                        what a capture covers, on standard output
    tools/coverage merge FILE..                         the sum of these
    tools/coverage report SYSTEM FILE.. [--unreachable BINS] [--html PAGE]
                                                        how much of the system they cover, the bins that none has, and those that no run can
                                                        hit, with the reason

FILE is what count and merge print. LINKS, ORDER and N are those of tlcheck. PAGE is one HTML file with a table for each port. BINS is a file
with the bins that this design can't hit, in lines `BINS: REASON` (docs/guide/regression.md, "What was covered"): they are no goals. Status 1 if a
file can't be read, or is no system, no capture or no coverage, if BINS names none of the system's bins, or if one of them was hit; 2 if the
command line is wrong.
"""

import argparse
import collections
import os
import sys
import tomllib

from tlxtools.common import LONGEST_WAIT, ORDER_WORDS
from tlxtools.coverage_goals import beyond, goals_of
from tlxtools.coverage_model import covered
from tlxtools.coverage_page import page_of
from tlxtools.coverage_reach import NoReach, parted, patterns_of
from tlxtools.coverage_text import KINDS, NoCoverage, place_of, read, spelled, text_of

MODULUS = 1 << 64
# The words of --links, as tlcheck has them.
VIEWS = ("both", "masters", "ports", "each")


class Mistake(Exception):
    """Why nothing is answered."""


def limit_of(word):
    """The value of --within."""
    if not word.isascii() or not word.isdigit() or not 0 < int(word) <= LONGEST_WAIT:
        raise argparse.ArgumentTypeError(f"{word}: a number from 1 to {LONGEST_WAIT} is wanted")
    return int(word)


def sum_of(files):
    """The sum of the counts of these files."""
    counts = collections.Counter()
    for name in files:
        try:
            with open(name, encoding="ascii") as file:
                counts.update(read(file.read()))
        except (OSError, UnicodeDecodeError) as error:
            raise Mistake(f"{name}: can't be read: {error}") from None
        except NoCoverage as fault:
            raise Mistake(f"{name}: {fault}") from None
    return {bin: count % MODULUS for bin, count in counts.items()}


def line_of(bin, ports):
    return " ".join([bin[0], *(spelled(table, word, ports) for table, word in zip(KINDS[bin[0]], bin[1:]))])


def report_of(system, goals, counts, unreachable):
    """A line for each kind with how many of its bins are hit, one for all, one for each bin that is not hit, and for those that can't be."""
    ports = len(system.get("port", []))
    hit = {bin for bin in goals if counts.get(bin)}
    for kind in KINDS:
        bins = [bin for bin in goals if bin[0] == kind]
        if bins:
            part = sum(bin in hit for bin in bins)
            yield f"{kind}: {part} of {len(bins)}, {100 * part // len(bins)} %"
    yield f"all: {len(hit)} of {len(goals)}, {100 * len(hit) // len(goals)} %"
    for bin in sorted(set(goals) - hit, key=place_of):
        yield f"never: {line_of(bin, ports)}"
    for bin, reason in sorted(beyond(system), key=lambda pair: place_of(pair[0])):
        yield f"impossible: {line_of(bin, ports)}: {reason}"
    for pattern, bins in unreachable:
        yield f"unreachable: {pattern.text}: {len(bins)}: {pattern.reason}"
    for pattern, bins in unreachable:
        yield from (f"reached: {line_of(bin, ports)}: unreachable by {pattern.text}" for bin in bins if counts.get(bin))


def system_of(name):
    """A system file, and its images by their ports."""
    try:
        with open(name, "rb") as file:
            system = tomllib.load(file)
        if not system["master"] or not isinstance(system.get("port", []), list):
            raise KeyError("master or port")
        images = {}
        for number, port in enumerate(system.get("port", [])):
            if "image" in port:
                with open(os.path.join(os.path.dirname(name), port["image"]), "rb") as image:
                    images[number] = image.read()
    except (OSError, tomllib.TOMLDecodeError, KeyError, TypeError) as error:
        raise Mistake(f"{name}: no system: {error}") from None
    return system, images


def count(words):
    system, images = system_of(words.system)
    try:
        with open(words.capture, encoding="ascii") as file:
            text = covered(system, images, file.read(), words.links, words.order, words.within)
    except (OSError, UnicodeDecodeError) as error:
        raise Mistake(f"{words.capture}: can't be read: {error}") from None
    if text is None:
        raise Mistake(f"{words.capture}: no capture; ./tlcheck names its fault")
    print(text, end="")


def patterns_in(path):
    """The bins that a design can't hit, by a file; none without one."""
    if path is None:
        return []
    try:
        with open(path, encoding="utf-8") as file:
            return list(patterns_of(file.read()))
    except (OSError, UnicodeDecodeError, NoReach) as error:
        raise Mistake(f"{path}: {error}") from None


def report(words):
    system, _ = system_of(words.system)
    goals, counts = list(goals_of(system)), sum_of(words.files)
    goals, unreachable = parted(goals, patterns_in(words.unreachable), len(system.get("port", [])))
    if words.html:
        with open(words.html, "w", encoding="utf-8") as page:
            page.write(page_of(system, goals, counts))
    print("\n".join(report_of(system, goals, counts, unreachable)))
    reached = sum(bool(counts.get(bin)) for _, bins in unreachable for bin in bins)
    if reached:
        raise Mistake(f"{words.unreachable}: {reached} of these bins were reached")


def main():
    parser = argparse.ArgumentParser(description="Counts what captures have covered, adds that up, and says what is left.")
    commands = parser.add_subparsers(dest="command", required=True)
    counting = commands.add_parser("count", help="what a capture covers")
    merging = commands.add_parser("merge", help="the sum of coverages")
    reporting = commands.add_parser("report", help="how much of a system is covered, and what is not")
    for command in (counting, reporting):
        command.add_argument("system", metavar="SYSTEM")
    counting.add_argument("capture", metavar="CAPTURE")
    counting.add_argument("--links", choices=VIEWS, default="both")
    counting.add_argument("--order", choices=ORDER_WORDS, default="accept", metavar="ORDER")
    counting.add_argument("--within", type=limit_of, metavar="N", help="the longest time from a request's first beat to that of its reply")
    for command in (merging, reporting):
        command.add_argument("files", metavar="FILE", nargs="+")
    reporting.add_argument("--unreachable", metavar="BINS", help="the bins that the design can't hit, with the reasons")
    reporting.add_argument("--html", metavar="PAGE", help="also one HTML page")
    words = parser.parse_args()
    try:
        if words.command == "count":
            count(words)
        elif words.command == "merge":
            print(text_of(sum_of(words.files)), end="")
        else:
            report(words)
    except (Mistake, NoReach) as mistake:
        print(f"coverage: {mistake}", file=sys.stderr)
        return 1
    return 0
