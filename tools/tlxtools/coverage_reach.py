"""The bins of a system that one design can't hit, by a file that says why (docs/guide/regression.md, "What was covered"). For tools/coverage."""

import re

from tlxtools.coverage_text import KINDS, spelled

LINE = re.compile(r"([^:]*[^:\s])\s*: (.*\S)")
NUMBERS = re.compile(r"([0-9]+)-([0-9]+)")


class NoReach(Exception):
    """What is wrong with a file."""


class Pattern:
    """Bins that are named together: the kind, and for each word `*`, a word, words between `|`, or numbers from one to another (`3-8`)."""

    def __init__(self, text, reason):
        self.text, self.reason = " ".join(text.split()), reason
        kind, *words = text.split()
        if kind not in KINDS or len(words) != len(KINDS[kind]):
            raise NoReach(f"no such bins: {text}")
        self.kind, self.words = kind, [None if word == "*" else choices(word) for word in words]

    def has(self, bin, ports):
        """Whether a bin is among these."""
        return bin[0] == self.kind and all(those is None or spelled(table, word, ports) in those
                                           for those, table, word in zip(self.words, KINDS[self.kind], bin[1:]))


def choices(word):
    """The words that a pattern's word stands for."""
    found = set()
    for part in word.split("|"):
        span = NUMBERS.fullmatch(part)
        found |= {str(number) for number in range(int(span[1]), int(span[2]) + 1)} if span else {part}
    return found


def patterns_of(text):
    """The lines of a file: empty ones and those that begin with `#` say nothing."""
    for number, line in enumerate(text.splitlines(), 1):
        if line.strip() and not line.startswith("#"):
            found = LINE.fullmatch(line)
            if not found:
                raise NoReach(f"line {number}: not `BINS: REASON`")
            try:
                yield Pattern(*found.groups())
            except NoReach as why:
                raise NoReach(f"line {number}: {why}") from None


def parted(goals, patterns, ports):
    """The goals that are left, and for each pattern its bins among them, the first that fits. A pattern has one at least."""
    left, of_patterns = [], [[] for _ in patterns]
    by_kind = {}
    for place, pattern in enumerate(patterns):
        by_kind.setdefault(pattern.kind, []).append(place)
    for bin in goals:
        place = next((place for place in by_kind.get(bin[0], ()) if patterns[place].has(bin, ports)), None)
        (left if place is None else of_patterns[place]).append(bin)
    for pattern, bins in zip(patterns, of_patterns):
        if not bins:
            raise NoReach(f"no bin of the system is left for: {pattern.text}")
    return left, list(zip(patterns, of_patterns))
