"""The text of a capture's coverage: its first line, its kinds of lines, and their order (docs/guide/regression.md, "What was covered")."""

import re

from tlxtools.common import MAX_SIZE, OPERATIONS

FIRST = "coverage 2"
# The first line of the version before this one, whose lines said less.
OLDER = "coverage 1"
SHAPES = ("none", "all", "one", "hole", "low", "high", "even", "odd", "other")
# The least of each step of clocks between two beats.
AFTER = (0, 1, 2, 3, 4, 8, 16)
# So many requests in flight, or more, are counted as one.
MOST_IN_FLIGHT = 64
# The sources of a master that are told apart are those below this; it stands for itself and those above.
SOURCES_APART = 64
# The most bytes of a bus.
WIDEST_BUS = 64
# A port has at most so many ranges.
MOST_RANGES = 16
EDGES = ("first", "last")
# What a request does to its bytes; a hint is a prefetch.
ACCESSES = ("read", "write", "atomic", "hint")
# Why a reply is denied.
CAUSES = ("nowhere", "no_path", "unaligned", "beyond", "unserved")
# Whether a reply overtakes an older one of the same port, or of another.
WHERE = ("same", "other")
# Whether a corrupt beat is one of a request or of its reply.
SENT = ("asked", "answered")
BEATS = tuple(1 << power for power in range(9))
SIZES = range(MAX_SIZE + 1)
NAMES = tuple(OPERATIONS)
# The words of each kind of line before its count. A word is a choice of a table, or of a master or a port.
MASTER, PORT = "master", "port"
KINDS = {
    "asked": (MASTER, PORT, NAMES, SIZES, ("aligned", "unaligned")),
    "answered": (MASTER, PORT, NAMES, SIZES, ("given", "denied")),
    "beats": (MASTER, PORT, ("A", "D"), BEATS),
    "mask": (MASTER, PORT, SIZES, SHAPES),
    "in_flight": (MASTER, range(1, MOST_IN_FLIGHT + 1)),
    "at_port": (PORT, range(1, MOST_IN_FLIGHT + 1)),
    "overtook": (MASTER, PORT, WHERE),
    "again": (MASTER, AFTER),
    "contested": (PORT,),
    "source": (MASTER, range(SOURCES_APART + 1)),
    "range": (PORT, range(MOST_RANGES)),
    "edge": (PORT, range(MOST_RANGES), EDGES),
    "latency": (PORT, AFTER),
    "gap": (MASTER, PORT, ("A", "D"), AFTER),
    "refused": (PORT, CAUSES),
    "lane": (MASTER, SIZES, range(WIDEST_BUS)),
    "after": (PORT, ACCESSES, ACCESSES),
    "corrupt": (MASTER, PORT, NAMES, SIZES, SENT),
}
# A port's number that stands for the error port: it comes after all others.
ERROR = 1 << 16


class NoCoverage(Exception):
    """Why a text is no coverage."""


def place_of(bin):
    """Where a bin stands among all."""
    kind, *words = bin
    return list(KINDS).index(kind), [word if table in (MASTER, PORT) else list(table).index(word) for table, word in zip(KINDS[kind], words)]


def spelled(table, word, ports):
    if table == MASTER:
        return f"m{word}"
    if table == PORT:
        return "error" if word >= ports else f"p{word}"
    return str(word)


def text_of(counts, ports=ERROR):
    """The text of counts by bins, of a system of so many ports."""
    lines = [" ".join([kind, *(spelled(table, word, ports) for table, word in zip(KINDS[kind], words)), str(counts[kind, *words])])
             for kind, *words in sorted((bin for bin in counts if counts[bin]), key=place_of)]
    return "".join(line + "\n" for line in [FIRST, *lines])


def read_word(table, word):
    """What a word of a line says; None if it says nothing."""
    if table == PORT and word == "error":
        return ERROR
    if table in (MASTER, PORT):
        named = re.fullmatch(table[0] + "(0|[1-9][0-9]*)", word)
        return int(named[1]) if named else None
    return next((choice for choice in table if str(choice) == word), None)


def read(text):
    """The counts of a text by their bins."""
    lines = text.split("\n")
    if lines[0] == OLDER:
        raise NoCoverage(f"line 1: `{OLDER}` is of an older version, whose lines say less than those of `{FIRST}`: judge the captures again")
    if lines[0] != FIRST or lines.pop():
        raise NoCoverage(f"line 1: not `{FIRST}`" if lines[0] != FIRST else "the last line has no end")
    counts = {}
    for number, line in enumerate(lines[1:], 2):
        kind, *words = line.split(" ")
        tables = KINDS.get(kind)
        if tables is None or len(words) != len(tables) + 1 or not re.fullmatch("[0-9]+", words[-1]):
            raise NoCoverage(f"line {number}: no such line")
        bin = (kind, *(read_word(table, word) for table, word in zip(tables, words)))
        if None in bin or bin in counts:
            raise NoCoverage(f"line {number}: no such bin" if None in bin else f"line {number}: a bin that stood before")
        counts[bin] = int(words[-1])
    return counts
