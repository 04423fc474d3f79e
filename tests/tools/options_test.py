"""Tests what the words of tlcheck's command line ask for, row by row. The last line is 'N passed, M failed'.

Some short captures have other verdicts by other links, orders and limits of time, with a trace or without, and if all is to be answered. A row is
right if each of them is judged by its words as by words that spell all options out; what `--links ports` and the like mean, is shown by
tests/captures.
That the captures tell the options apart, is tested too. Of `--quiet`, which changes nothing here, tests/tools/progress_test shows what it does. It
needs the built program (./tlcheck builds it; TLCHECK=path takes another).
"""

import collections
import itertools
import os
import subprocess
import tempfile

from harness import need, run_test, tell_cases
from tlxtools.common import HEADER, LONGEST_WAIT, SECONDS, TLCHECK

LINKS, ORDERS = ("both", "masters", "ports", "each"), ("accept", "reply", "any")
# The orders of the masters' side and of the ports'.
PAIRS = tuple(itertools.product(ORDERS, ORDERS))
# What a command line asks for; two orders, where one word names both. There is no limit of time if nobody asks for one. The file of the capture is
# none if that comes on standard input.
Options = collections.namedtuple("Options", ["links", "orders", "within", "trace", "complete", "coverage", "capture"])
PLAIN = Options("both", ("accept", "accept"), None, False, False, None, None)

# One master with two sources, and 16 bytes of memory.
SYSTEM = b"port = [{ kind = 'ram', base = 0x1000, length = 16 }]\nmaster = [{ sources = 2 }]\n"
GET, PUT, ANSWER, ACK = "A,4,0,0,{},1000,01,,,", "A,0,0,0,{},1000,01,0000000000000005,,", "D,1,,0,{},,,{},0,0", "D,0,,0,{},,,,0,0"
ZERO, FIVE = "0" * 16, "0" * 15 + "5"


def rows(*beats):
    """Rows of these beats, each with its link."""
    return "".join(f"{time},{link},{beat}\n" for time, (link, beat) in enumerate(beats, 1))


def crossed(*beats):
    """Beats that cross at both links: a request at the master's first, and a reply at the port's."""
    order = {"A": ("m0", "p0"), "D": ("p0", "m0")}
    return rows(*((link, beat) for beat in beats for link in order[beat[0]]))


def read(at_port, at_master):
    """A byte is read, with one value at the port and one at the master."""
    return rows(("m0", GET.format(0)), ("p0", GET.format(0)), ("p0", ANSWER.format(0, at_port)), ("m0", ANSWER.format(0, at_master)))


def overtaken(at_port, at_master):
    """A put is accepted before a get that is answered before it, with one value at the port and one at the master: the byte is that before the
    put, or the one behind it."""
    asked = [(link, beat) for beat in (PUT.format(0), GET.format(1)) for link in ("m0", "p0")]
    answered = [("p0", ANSWER.format(1, at_port)), ("m0", ANSWER.format(1, at_master)), ("p0", ACK.format(0)), ("m0", ACK.format(0))]
    return rows(*asked, *answered)


PROBES = (
    # the masters' link alone, and the port's
    rows(("m0", GET.format(0)), ("m0", ANSWER.format(0, ZERO))),
    rows(("p0", GET.format(0)), ("p0", ANSWER.format(0, ZERO))),
    # a wrong byte at one of them
    read(ZERO, FIVE), read(FIVE, ZERO),
    # the same value on both sides, and one on each
    overtaken(ZERO, ZERO), overtaken(FIVE, FIVE), overtaken(ZERO, FIVE), overtaken(FIVE, ZERO),
    # a request without a reply
    crossed(GET.format(0)),
)

# The words of a command line behind the program's name, and the options that they ask for.
LINES = (
    (["s"], PLAIN),
    (["s", "c"], PLAIN._replace(capture="c")),
    (["s", "-"], PLAIN),
    (["--links", "masters", "s"], PLAIN._replace(links="masters")),
    (["s", "--links=ports", "--order=reply", "c"], PLAIN._replace(links="ports", orders=("reply", "reply"), capture="c")),
    (["--order=any", "s"], PLAIN._replace(orders=("any", "any"))),
    (["--links=each", "--order=any/accept", "s"], PLAIN._replace(links="each", orders=("any", "accept"))),
    (["s", "--links", "each", "--order", "reply/reply"], PLAIN._replace(links="each", orders=("reply", "reply"))),
    (["--within", "1", "s", "c"], PLAIN._replace(within=1, capture="c")),
    (["s", "--within=2"], PLAIN._replace(within=2)),
    (["s", "c", "--within", "3"], PLAIN._replace(within=3, capture="c")),
    (["--complete", "--within=3", "--order", "any", "s", "--links=each"], PLAIN._replace(links="each", orders=("any", "any"), within=3, complete=True)),
    # a plus and zeros in front of a number say nothing
    (["--within", "+2", "s"], PLAIN._replace(within=2)),
    (["--within=0003", "s"], PLAIN._replace(within=3)),
    # the greatest that there is, which no reply here takes
    (["s", f"--within={LONGEST_WAIT}"], PLAIN),
    (["--within", str(LONGEST_WAIT), "s", "--trace"], PLAIN._replace(trace=True)),
    (["--trace", "s", "c"], PLAIN._replace(trace=True, capture="c")),
    (["--order", "accept", "--", "s", "--links"], PLAIN._replace(capture="--links")),
    (["--complete", "s", "c"], PLAIN._replace(complete=True, capture="c")),
    (["--trace", "s", "--complete", "--links", "each"], PLAIN._replace(links="each", trace=True, complete=True)),
    (["s", "--quiet", "c", "--trace"], PLAIN._replace(trace=True, capture="c")),
    (["--coverage", "f", "s", "c"], PLAIN._replace(coverage="f", capture="c")),
    (["s", "--coverage=f", "--complete", "-"], PLAIN._replace(complete=True, coverage="f")),
    # a hyphen is a name like others here
    (["s", "c", "--coverage", "-"], PLAIN._replace(coverage="-", capture="c")),
)
# Words that are refused, or that ask for a text in place of a run.
REFUSED = (
    [], ["s", "c", "stray"], ["--links", "all", "s"], ["--links", "Both", "s"], ["--order", "reply", "--order", "reply", "s"], ["s", "--order"],
    ["--order", "accept/", "s"], ["--order=/any", "s"], ["--order=any/any/any", "s"], ["--order", "any/all", "s"],
    ["--within", "0", "s"], ["--within=00", "s"], [f"--within={LONGEST_WAIT + 1}", "s"], [f"--within={(1 << 64) - 1}", "s"],
    [f"--within={1 << 64}", "s"], [f"--within={(1 << 64) + 1}", "s"], ["--within=", "s"], ["--within=-1", "s"], ["--within", "1.5", "s"],
    ["--within", "1ns", "s"], ["--within", "0x10", "s"], ["--within", "any", "s"], ["--within", " 1", "s"], ["--within=1_000", "s"],
    ["s", "--within"], ["--within", "s"], ["--within", "1", "s", "--within", "1"], ["--within", "1", "s", "--within=2"],
    ["--trace=yes", "s"], ["--trace", "--trace", "s"], ["--complete=yes", "s"], ["--complete", "s", "--complete"], ["--quiet=yes", "s"],
    ["s", "--coverage"], ["--coverage", "f", "s", "--coverage=g"], ["--coverage", "f"], ["--verbose", "s"],
)
TEXTS = (["--version"], ["--help"])


def spelled(options):
    """The words that spell all options out."""
    flags = [f"--{name}" for name in ("trace", "complete") if getattr(options, name)]
    file = ["--coverage", options.coverage] if options.coverage else []
    limit = ["--within", str(options.within)] if options.within else []
    return ["--links", options.links, "--order", "/".join(options.orders), *limit, *flags, *file, "--", "s", options.capture or "-"]


def content(path):
    """What a file holds."""
    with open(path, "rb") as file:
        return file.read()


def run(words, options, probe):
    """What becomes of a capture: the status, both outputs, and the file of what was covered. No other file is a capture."""
    capture = f"{HEADER}\n{probe}".encode()
    with tempfile.TemporaryDirectory() as folder:
        for name, text in {"s": SYSTEM, "c": b"", "--links": b"", **({options.capture: capture} if options.capture else {})}.items():
            with open(os.path.join(folder, name), "wb") as file:
                file.write(text)
        ran = subprocess.run([TLCHECK, *words], input=b"" if options.capture else capture, cwd=folder, capture_output=True, timeout=SECONDS,
                             check=False)
        covered = {name: content(os.path.join(folder, name)) for name in set(os.listdir(folder)) - {"s", "c", "--links"}}
        return ran.returncode, ran.stdout, ran.stderr, covered


def answers(words, options):
    """What becomes of each capture."""
    return [run(words, options, probe) for probe in PROBES]


def is_line(line):
    """Whether the words of a line ask for these options."""
    words, options = line
    return answers(words, options) == answers(spelled(options), options)


def is_refused(words):
    """Whether words are refused, on standard error alone."""
    status, out, err, covered = run(words, PLAIN, PROBES[0])
    return status == 2 and not out and bool(err) and not covered


def is_text(words):
    """Whether words ask for a text on standard output alone."""
    status, out, err, covered = run(words, PLAIN, PROBES[0])
    return status == 0 and bool(out) and not err and not covered


def are_told_apart():
    """Whether no two options have the same answers."""
    several = [PLAIN._replace(links=links, orders=(order, order)) for links, order in itertools.product(LINKS, ORDERS)]
    several += [PLAIN._replace(links="each", orders=pair) for pair in PAIRS if pair[0] != pair[1]]
    # a byte that is read has its reply 3 units after its request, and a row is seen at each time before
    several += [PLAIN._replace(within=limit) for limit in (1, 2, 3)]
    several += [PLAIN._replace(trace=True), PLAIN._replace(complete=True), PLAIN._replace(coverage="f")]
    found = [answers(spelled(options), options) for options in several]
    return all(one != other for one, other in itertools.combinations(found, 2))


def main():
    need(TLCHECK)
    tests = [(is_line, line) for line in LINES] + [(is_refused, words) for words in REFUSED] + [(is_text, words) for words in TEXTS]
    tell_cases([(are_told_apart, ()), *((test, (row,)) for test, row in tests)])


if __name__ == "__main__":
    run_test(main)
