"""The runs of tlx: the first example, and scripts that are too long or as long as may be."""

from streams import FAULT, MOST_CALLS, READ_FAILED, STREAM, WHOLE, WRITE_FAILED, Flow, Run, by_bytes, ends
from tlxtools.common import LONGEST_SCRIPT, TLX

FIRST = b"""slots = 4
[[port]]
kind = "ram"
base = 0x1000
length = 64
[[master]]
sources = 16
ops = ["0 putfull 0x1000 2 11223344", "0 get 0x1000 2"]
"""
# What it prints on one thread, and by threads.
TRACE = b"m0 s0 putfull 0x1000 2 11223344 -> AccessAck p0 #0\nm0 s0 get 0x1000 2 -> AccessAckData 11223344 p0 #1\n"
OUTPUT = TRACE + b"free 4 held 0\n"
# On one thread, and by threads with one a port: since each run that comes to its text starts all its threads.
ENGINES = ((["--serial"], TRACE), ([], OUTPUT))
NOTHING = Flow(WHOLE, "never", 0)


def run(name, words, reading, writing, end, script=FIRST):
    """A run of a script."""
    return Run(f"tlx {' '.join(words)}: {name}", [TLX, *words], {}, script, {"0": reading, "1": writing}, end)


def slow():
    """Pieces of one byte, with interruptions between them, change nothing."""
    for words, text in ENGINES:
        for flow in (by_bytes(), by_bytes("between", 2), by_bytes("between", 3)):
            yield run("slow", words, flow, flow, ends(0, text))


def failed_reads():
    """Each read of the first example fails once, and is then the last; or all are interrupted."""
    for words, _ in ENGINES:
        for at in range(len(FIRST) + 1):
            end = ends(STREAM, b"", READ_FAILED, calls={"0": at + 1})
            yield run(f"read {at} fails", words, by_bytes("fails", at), NOTHING, end)
        end = ends(STREAM, b"", READ_FAILED, calls={"0": MOST_CALLS})
        yield run("no read ends", words, by_bytes("forever"), NOTHING, end)


def failed_writes():
    """Each write of the output, in pieces, fails once or takes nothing; or all are interrupted."""
    # the output by threads has some bytes more than seven pieces of 16
    for (words, text), step, pieces in zip(ENGINES, (1, 16), (len(TRACE), 8)):
        for at in range(pieces):
            for trouble in ("fails", "full"):
                end = ends(STREAM, text[:at * step], WRITE_FAILED)
                yield run(f"write {at} {trouble}", words, NOTHING, Flow(step, trouble, at), end)
        end = ends(STREAM, b"", WRITE_FAILED, calls={"1": MOST_CALLS + 1})
        yield run("no write ends", words, NOTHING, Flow(step, "forever", 0), end)


def last_reads():
    """The signs of a script come one by one, with an interruption before each and before the end: the last read tells what was read."""
    for length, line in ((LONGEST_SCRIPT + 1, b"script: longer than 1048576 bytes\n"), (LONGEST_SCRIPT, b"script: missing slots\n")):
        end = ends(FAULT, b"", line, calls={"0": MOST_CALLS})
        yield run(f"{length} signs", ["--serial"], by_bytes("before"), NOTHING, end, b"#" * length)


def runs():
    # the longest first
    yield from last_reads()
    yield from slow()
    yield from failed_reads()
    yield from failed_writes()
