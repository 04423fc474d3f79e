"""Tests tools/latency: on captures whose figures were worked out by hand, on a dump, and on input that it has to refuse. The last line is
'N passed, M failed'. It needs the built programs; TLCHECK=path and TLVCD=path take others.
"""

import json
import os
import subprocess
import tempfile

from harness import run_test, side_by_side, tell
from tlxtools.common import HEADER, TOP

LATENCY = os.path.join(TOP, "tools", "latency")
EXAMPLES = os.path.join(TOP, "examples")
WAVES = [os.path.join(EXAMPLES, "waves", name) for name in ("system.toml", "get.vcd")]
LOST = [os.path.join(EXAMPLES, "captures", name) for name in ("system.toml", "lost_write.csv")]
# A RAM of zeros on a bus of 8 bytes, and two masters: the wide sources of the first are 0 to 3, those of the second 4 to 7.
SYSTEM = "[[port]]\nkind = 'ram'\nbase = 0x1000\nlength = 256\n[[master]]\nsources = 4\n[[master]]\nname = 'dma'\nsources = 4\n"
# The same with a clock of ten units of time.
TIMED = "period = 10\n" + SYSTEM
# Two links of masters, of which one has a clock of its own: what says the clocks, and constants but for the valid of the first one's requests.
WIRES = "".join(f"{signal} = {json.dumps(value)}\n" for signal, value in {
    "a_ready": "1", "a_opcode": ["1", "0", "0"], "a_param": "0", "a_size": "0", "a_source": "0", "a_address": "0", "a_mask": ["0"] * 7 + ["1"],
    "a_data": "0", "d_valid": "0", "d_ready": "0", "d_opcode": "0", "d_size": "0", "d_source": "0", "d_data": "0", "d_denied": "0",
    "d_corrupt": "0"}.items())
CLOCKED = f"""clock = "c"
%s
[[master]]
sources = 1
[master.wires]
a_valid = "v"
{WIRES}
[[master]]
sources = 1
clock = "%s"
edge = "rising"
[master.wires]
a_valid = "0"
{WIRES}"""
# The clock c rises at 10 and 20, and falls at 15 and 22; k rises at 4, 10 and 16. A request stands there up to 15.
CHANGES = {0: "0c 0k 1v", 4: "1k", 7: "0k", 10: "1c 1k", 13: "0k", 15: "0c 0v", 16: "1k", 20: "1c", 22: "0c"}
CLOCKED_DUMP = ("".join(f"$var wire 1 {name} {name} $end\n" for name in "ckv") + "$enddefinitions $end\n"
                + "".join(f"#{time} {changed}\n" for time, changed in CHANGES.items()))
# What SYSTEM says at the top, the second clock, and how many units a clock has.
PERIODS = (("", "c", 10), ('edge = "falling"', "c", 7), ("", "k", 6), ("period = 4", "c", 4))
ZEROS = "0" * 16
# Latencies of ten gets, by rising order 1 to 10: the 5th is the median, the 9th is the 90th percentile, and the 10th the 99th.
DISTANCES = (7, 1, 10, 4, 2, 9, 3, 8, 6, 5)


def get(time, link, source, size=2, address=0x1000):
    """The row of a get of 2^size bytes; a mask has the bytes from the first one on."""
    return f"{time},{link},A,4,0,{size},{source},{address:x},{(1 << min(8, 1 << size)) - 1:02x},,,"


def put(time, source, size=3, mask="ff", opcode=0, param=0):
    """The row of a beat of a put or an atomic of m0 at 0x1000, whose bytes are zero."""
    return f"{time},m0,A,{opcode},{param},{size},{source},1000,{mask},{ZEROS},,"


def data(time, link, source, size=2, flags="0,0"):
    """The row of a beat of a reply with data, which are zeros."""
    return f"{time},{link},D,1,,{size},{source},,,{ZEROS},{flags}"


def done(time, link, source, size=3, opcode=0):
    """The row of a reply without data."""
    return f"{time},{link},D,{opcode},,{size},{source},,,,0,0"


def spread(front, *values):
    """The five figures of a latency."""
    return {f"{front}_{word}": value for word, value in zip(("least", "median", "90", "99", "most"), values)}


def same(value):
    """Both latencies of one request whose reply has one beat."""
    return {**spread("first", *[value] * 5), **spread("last", *[value] * 5)}


TEN = [row for turn, distance in enumerate(DISTANCES) for row in (get(100 * turn, "m0", 0), data(100 * turn + distance, "m0", 0))]
NONE = {**spread("first", *[None] * 5), **spread("last", *[None] * 5)}
# What each capture is named for, its options, its rows, its clocks, and figures by link and operation.
CASES = (
    # from time 0 to 905 there are 906 clocks; 40 bytes / 906, 10 beats / 906 and 20 beats / 906
    ("percentiles", [], TEN, 906,
     {("m0", "all"): {"requests": 10, "unanswered": 0, "denied": 0, "bytes": 40, "bytes_a_clock": 0.0442, **spread("first", 1, 5, 9, 10, 10),
                      **spread("last", 1, 5, 9, 10, 10), "most_in_flight": 1, "busy": 0.0221, "busy_A": 0.011, "busy_D": 0.011}}),
    # a put of four beats at 10, 11, 13 and 14 is answered at 16; a get at 20 by four beats at 23, 24, 26 and 29
    ("bursts", [], [*(put(time, 0, 5) for time in (10, 11, 13, 14)), done(16, "m0", 0, 5), get(20, "m0", 1, 5),
                    *(data(time, "m0", 1, 5) for time in (23, 24, 26, 29))], 20,
     {("m0", "all"): {"requests": 2, "bytes": 64, "bytes_a_clock": 3.2, "busy": 0.5, "busy_A": 0.25, "busy_D": 0.25, "most_in_flight": 1,
                      **spread("first", 3, 3, 6, 6, 6), **spread("last", 6, 6, 9, 9, 9)},
      ("m0", "putfull"): {"requests": 1, "bytes": 32, "busy": 0.25, "busy_A": 0.2, "busy_D": 0.05, **same(6)},
      ("m0", "get"): {"requests": 1, "bytes": 32, "busy": 0.25, "busy_A": 0.05, "busy_D": 0.2, **spread("first", *[3] * 5),
                      **spread("last", *[9] * 5)}}),
    # m0 is answered in the clock of its request, whose row stands second; the two of dma are in flight from 6 to 8
    ("masters", [], [data(5, "m0", 0), get(5, "m0", 0), get(5, "m1", 0), get(6, "m1", 1), data(8, "m1", 1), data(9, "m1", 0)], 5,
     {("m0", "get"): {"requests": 1, "most_in_flight": 1, "bytes_a_clock": 0.8, "busy": 0.2, "busy_A": 0.2, "busy_D": 0.2, **same(0)},
      ("m1", "get"): {"name": "dma", "requests": 2, "bytes": 8, "most_in_flight": 2, "busy": 0.8, "busy_A": 0.4,
                      **spread("first", 2, 2, 4, 4, 4), **spread("last", 2, 2, 4, 4, 4)}}),
    # a source that a reply frees at 5 has its next request at 6: never two at once
    ("turns", [], [get(1, "m0", 0), data(5, "m0", 0), get(6, "m0", 0), data(7, "m0", 0)], 7,
     {("m0", "all"): {"most_in_flight": 1, "requests": 2, **spread("last", 1, 1, 4, 4, 4)}}),
    # another source's request in the clock of a reply comes before it: two at once
    ("overlap", [], [get(1, "m0", 0), get(5, "m0", 1), data(5, "m0", 0), data(6, "m0", 1)], 6,
     {("m0", "all"): {"most_in_flight": 2, "busy": 0.5, "busy_A": 0.3333, "busy_D": 0.3333}}),
    # neither request is answered whole: the second gets one beat of two
    ("unanswered", [], [get(1, "m0", 0), get(2, "m0", 1, 4), data(4, "m0", 1, 4)], 4,
     {("m0", "all"): {"requests": 2, "unanswered": 2, "bytes": 0, "most_in_flight": 2, "busy_D": 0.25, **NONE}}),
    ("one unanswered", [], [get(1, "m0", 0), get(2, "m0", 1), data(4, "m0", 1)], 4,
     {("m0", "get"): {"requests": 2, "unanswered": 1, "bytes": 4, "bytes_a_clock": 1, **same(2)}}),
    # the port's link alone: source 5 is source 1 of dma
    ("port", ["--links", "ports"], [get(3, "p0", 5), data(7, "p0", 5)], 5,
     {("p0", "all"): {"requests": 1, "bytes": 4, "bytes_a_clock": 0.8, **same(4)}, ("p0", "get"): {"requests": 1}}),
    ("port as it is", [], [get(3, "p0", 5), data(7, "p0", 5)], 5, {("p0", "all"): {"requests": 1, **same(4)}, ("p0", "get"): {}}),
    ("both sides", ["--links", "both"], [get(10, "m0", 2), get(11, "p0", 2), data(14, "p0", 2), data(15, "m0", 2)], 6,
     {("m0", "all"): same(5), ("p0", "all"): same(3), ("m0", "get"): same(5), ("p0", "get"): same(3)}),
    ("one side of two", ["--links", "masters"], [get(10, "m0", 2), get(11, "p0", 2), data(14, "p0", 2), data(15, "m0", 2)], 6,
     {("m0", "all"): same(5), ("m0", "get"): same(5)}),
    # from 15 to 45 there are three clocks of 10, and the one of the last row
    ("period", ["--period", "10"], [get(15, "m0", 0), data(45, "m0", 0)], 4, {("m0", "all"): {"bytes_a_clock": 1, "busy": 0.5, **same(3)}}),
    ("half a clock", ["--period=4"], [get(0, "m0", 0), data(6, "m0", 0)], 2.5, {("m0", "all"): {"bytes_a_clock": 1.6, **same(1.5)}}),
    # of 8 bytes a partial put sets two, those of lanes 0 and 2; a prefetch moves none, and an add four
    ("bytes", [], [put(1, 0, 3, "05", 1), done(2, "m0", 0), "3,m0,A,5,0,3,0,1000,ff,,,", done(4, "m0", 0, 3, 2),
                   put(5, 0, 2, "0f", 2, 4), data(6, "m0", 0), get(7, "m0", 0, 2, 0x9000), data(8, "m0", 0, 2, "1,1")], 8,
     {("m0", "all"): {"bytes": 6, "requests": 4, "denied": 1, "bytes_a_clock": 0.75}, ("m0", "putpart"): {"bytes": 2},
      ("m0", "prefetchr"): {"bytes": 0, "requests": 1, "unanswered": 0}, ("m0", "add"): {"bytes": 4, "denied": 0},
      ("m0", "get"): {"bytes": 0, "requests": 1, "denied": 1, **same(1)}}),
    ("nothing", [], [], 0, {}),
)
BOTH = (("m0", "all"), ("m0", "get"), ("p0", "all"), ("p0", "get"))
# Names, words of the command line, with S for the system and C for a capture of TEN, and what is said of it with which status.
BROKEN = TEN[:2] + ["300,m0,A,4,0,2,0,1000,0f,,"]
REFUSED = (
    ("no such system", ["no.toml", "C"], None, 1, "latency: no.toml: can't be read: No such file or directory\n"),
    ("no system", ["C", "C"], None, 1, "system: "),
    ("no such capture", ["S", "no.csv"], None, 1, "no.csv: can't be read: "),
    ("a wrong row", ["S", "C"], BROKEN, 1, "latency: capture: line 4: wrong count of columns\n"),
    ("a fall of time", ["S", "C"], TEN[:2] + TEN[:1], 1, "latency: capture: line 4: time falls\n"),
    ("a dump of no signals", ["S", "D"], None, 1, "latency: system: "),
    ("no period", ["--period", "0", "S", "C"], None, 2, "a whole number from 1 on is wanted"),
    ("a period below", ["--period=-1", "S", "C"], None, 2, "a whole number from 1 on is wanted"),
    ("a word for a period", ["--period", "fast", "S", "C"], None, 2, "a whole number from 1 on is wanted"),
    ("a period too long", ["--period", "50", "S", "C"], [get(0, "m0", 0), get(20, "m0", 1)], 2,
     "latency: --period 50 is longer than a clock: m0 A has beats at times 0 and 20\n"),
    ("a period of SYSTEM too long", ["P", "C"], [get(0, "m0", 0), get(9, "m0", 1)], 2,
     "latency: period = 10 of SYSTEM is longer than a clock: m0 A has beats at times 0 and 9\n"),
    ("no words", [], None, 2, "usage: "),
    ("no such view", ["--links", "all", "S", "C"], None, 2, "invalid choice"),
    ("no folder", ["--csv", "no/file.csv", "S", "C"], None, 1, "latency: no/file.csv: can't be written: "),
    ("no folder for a page", ["--html", "no/page.html", "S", "C"], None, 1, "latency: no/page.html: can't be written: "),
)


def ran(words, folder=None, given=b"", **others):
    """What tools/latency writes, what it says, and its status."""
    run = subprocess.run([LATENCY, *words], input=given, capture_output=True, cwd=folder, check=False, env={**os.environ, **others})
    return run.stdout.decode(), run.stderr.decode(), run.returncode


def content(path):
    with open(path, "rb") as file:
        return file.read()


def laid(folder, rows, system=SYSTEM):
    """Writes the system and a capture of these rows into a folder: their paths."""
    paths = [os.path.join(folder, name) for name in ("system.toml", "capture.csv")]
    for path, text in zip(paths, (system, "".join(f"{row}\n" for row in [HEADER, *rows]))):
        with open(path, "w", encoding="utf-8") as file:
            file.write(text)
    return paths


def agrees(told, clocks, figures):
    """Whether what is told has these clocks, and these figures of these links; a case that names each operation names all."""
    found = {(measure["link"], measure["operation"]): measure for measure in told["measures"]}
    return told["clocks"] == clocks and all(key in found and found[key].items() >= wanted.items() for key, wanted in figures.items())


def is_measured(_, options, rows, clocks, figures):
    with tempfile.TemporaryDirectory() as folder:
        text, said, status = ran([*options, "--json", *laid(folder, rows)])
    links = {link for link, _ in figures}
    return (status, said) == (0, "") and agrees(json.loads(text), clocks, figures) and (
        {measure["link"] for measure in json.loads(text)["measures"]} == links)


def is_measured_apart():
    """With both sides watched, a port's link that is judged by itself is measured too: its sources are its own, and its reply may come when the
    master has had one long before."""
    rows = [get(10, "m0", 2), data(12, "m0", 2), get(20, "p0", 300), data(25, "p0", 300)]
    with tempfile.TemporaryDirectory() as folder:
        system, capture = laid(folder, rows)
        with open(system, "w", encoding="utf-8") as file:
            file.write(SYSTEM.replace("length = 256\n", "length = 256\ncrossing = 'none'\n"))
        text, said, status = ran(["--links", "both", "--json", system, capture])
    figures = {(link, "all"): {"requests": 1, "unanswered": 0, **same(clocks)} for link, clocks in (("m0", 2), ("p0", 5))}
    return (status, said) == (0, "") and agrees(json.loads(text), 16, figures)


def is_refused(_, words, rows, status, text):
    with tempfile.TemporaryDirectory() as folder:
        system, capture = laid(folder, TEN if rows is None else rows)
        timed = os.path.join(folder, "timed.toml")
        with open(timed, "w", encoding="utf-8") as file:
            file.write(TIMED)
        places = {"S": system, "C": capture, "D": WAVES[1], "P": timed}
        written, said, ended = ran([places.get(word, word) for word in words], folder)
    return ended == status and text in said and not written and "Traceback" not in said


def is_no_program():
    """Without tlcheck the error names it, and how to get it."""
    _, said, status = ran(LOST, TLCHECK="/no/tlcheck")
    return (status, said) == (1, "latency: /no/tlcheck can't be run: No such file or directory; ./tlcheck builds it, "
                                 "and TLCHECK=path takes another\n")


def has_period(text, period, clocks):
    """Whether what is told has this period, and so many clocks."""
    told = json.loads(text)
    return (told["period"], told["clocks"]) == (period, clocks)


def is_timed_by_system():
    """`period` of SYSTEM says how many units a clock has, and --period goes before it: a get from 0 to 30 takes three clocks of 10, and six of 5."""
    with tempfile.TemporaryDirectory() as folder:
        words = laid(folder, [get(0, "m0", 0), data(30, "m0", 0)], TIMED)
        told = [ran(["--json", *options, *words])[0] for options in ([], ["--period", "5"])]
        table = ran(words)[0].splitlines()[0]
    return has_period(told[0], 10, 4) and has_period(told[1], 5, 7) and table == "2 rows, 4 clocks of 10 from time 0 to 30"


def is_timed_by_dump(said_at_top, other, period):
    """Of a dump the first two edges of the fastest clock say it, at which beats cross; `period` of SYSTEM goes before them."""
    with tempfile.TemporaryDirectory() as folder:
        system, dump = os.path.join(folder, "system.toml"), os.path.join(folder, "dump.vcd")
        for path, text in ((system, CLOCKED % (said_at_top, other)), (dump, CLOCKED_DUMP)):
            with open(path, "w", encoding="utf-8") as file:
                file.write(text)
        text, said, status = ran(["--json", "--links", "masters", system, dump])
    return (status, said) == (0, "") and json.loads(text)["rows"] == 1 and has_period(text, period, 1)


def is_dump(*words, given=b""):
    """The get of the dump is asked at 15 and answered at 25, at both links: one clock of 10; it moves a byte in two clocks."""
    options = ["--period", "10"] if words and words[0].endswith("csv") else []
    text, said, status = ran([*options, "--json", WAVES[0], *words], given=given)
    return (status, said) == (0, "") and agrees(json.loads(text), 2, {key: {"bytes_a_clock": 0.5, "busy": 1, **same(1)} for key in BOTH})


def is_cut():
    """Of the lost write the rows before the unlawful one count: the put of m0 is answered in two clocks and at p0 in one, and the get is not
    answered at either."""
    text, said, status = ran(["--json", *LOST])
    figures = {(link, "all"): {"requests": 2, "unanswered": 1, "bytes": 1, **same(clocks)} for link, clocks in (("m0", 2), ("p0", 1))}
    return status == 3 and agrees(json.loads(text), 4, figures) and said == (
        "latency: measured up to the unlawful beat: unlawful: line 8, time 14, p0 D: wrong reply: expected AccessAckData aa, "
        "captured AccessAckData 00\n")


def is_spelled_otherwise():
    """Quotes, zeros that lead, ends of lines of Windows, empty lines and a byte order mark change nothing."""
    rows = [get(10, "m0", 0), data(12, "m0", 0)]
    with tempfile.TemporaryDirectory() as folder:
        system, capture = laid(folder, [])
        with open(capture, "wb") as file:
            file.write(b"\xef\xbb\xbf" + "\r\n".join([HEADER, "", *rows]).replace("10,m0,A", '"010","m00",A').encode() + b"\r\n\r\n")
        text, said, status = ran(["--json", system, capture])
    return (status, said) == (0, "") and agrees(json.loads(text), 3, {("m0", "get"): {"requests": 1, **same(2)}})


def is_table():
    """The table and the CSV of one get: six figures in the table's lines, all of them in the CSV."""
    with tempfile.TemporaryDirectory() as folder:
        path = os.path.join(folder, "figures.csv")
        text, _, status = ran(["--csv", path, *laid(folder, [get(1, "m1", 0), data(4, "m1", 0)])])
        lines = content(path).decode().splitlines()
    row = "1,0,0,4,1,3,3,3,3,3,3,3,3,3,3,1,0.5,0.25,0.25"
    table = text.splitlines()
    words = "1 0 0 4 1 3 3 3 3 3 3 3 3 3 3 1 50.0 % 25.0 % 25.0 %".split()
    return status == 0 and lines[1:] == [f"m1,dma,all,{row}", f"m1,dma,get,{row}"] and lines[0].startswith("link,name,operation,requests,") and (
        table[0] == "2 rows, 4 clocks from time 1 to 4" and [line.split() for line in table[3:]] == [["dma", "all", *words], ["dma", "get", *words]])


def is_page():
    """A page has four plots of each link, in 200 steps, and nothing from elsewhere."""
    with tempfile.TemporaryDirectory() as folder:
        path = os.path.join(folder, "page.html")
        _, said, status = ran(["--html", path, *laid(folder, TEN)])
        page = content(path).decode()
    moved = page.partition("bytes a clock:")[2].partition("stroke=\"#2868b0\"")[0].rpartition("d=\"")[2]
    return (status, said) == (0, "") and page.count("<svg") == 4 and moved.count("H") == 200 and not (
        any(word in page for word in ("<script", "http", "src=")))


def is_well(test, words, others=None):
    """Whether a test passes, and why not; one that ends by an error does not."""
    try:
        return test(*words, **(others or {})), ""
    except (OSError, ValueError, KeyError) as error:
        return False, repr(error)


def main():
    cases = [*((is_measured, case) for case in CASES), *((is_refused, case) for case in REFUSED), (is_no_program, ()), (is_cut, ()),
             (is_dump, (WAVES[1],)), (is_dump, ("-",), {"given": content(WAVES[1])}), (is_dump, (), {"given": content(WAVES[1])}),
             (is_dump, (WAVES[1].removesuffix("vcd") + "csv",)), (is_spelled_otherwise, ()), (is_measured_apart, ()),
             (is_timed_by_system, ()), *((is_timed_by_dump, case) for case in PERIODS), (is_table, ()), (is_page, ())]
    for (test, words, *_), (holds, why) in zip(cases, side_by_side(is_well, cases)):
        tell(f"{test.__name__} {words[:1]}", holds, why)


if __name__ == "__main__":
    run_test(main)
