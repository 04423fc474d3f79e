"""Tests tools/explain: on the captures of the examples, of which those that are not lawful have facts worked out by hand, and on 200 random captures with
one wrong reply each, whose wrong byte and whose writers are noted as the capture is made. Then on a dump, on standard input, and on words that
it has to refuse; pages and save files of GTKWave are compared with what was worked out by hand. The last line is 'N passed, M failed'.
"""

import glob
import json
import os
import random
import re
import subprocess
import sys
import tempfile

from explain_cases import APART, APART_CASES, CASES, CORRUPT, CORRUPT_CASES, QUEUED, QUEUED_CASES, RESETTING, SOCKET_CASES, SOCKETS
from explain_cases import SYSTEM as OF_CASES, TIMED_APART_CASES, TIMED_CASES, UNCORRUPT_CASES
from explained import fault_of_explanation
from harness import run_test, tell_cases
from tlxtools import causes
from tlxtools.bus import Bus
from tlxtools.causes import ADAPTED, CAUSES, DENIED, SHIFTED
from tlxtools.common import HEADER, TLCHECK, TOP, system_of
from tlxtools.explanation import explained, shown

EXPLAIN = os.path.join(TOP, "tools", "explain")
CAPTURES, SYSTEMS = os.path.join(TOP, "examples", "captures"), os.path.join(TOP, "examples", "systems", "*")
SEEDS = 200
SYSTEM = "[[port]]\nkind = 'ram'\nbase = 0x1000\nlength = 32\n" + "[[master]]\nsources = 4\n" * 2
# Captures of the examples, and lines that are printed below the verdict: by the captures themselves.
FACTS = (
    ("field_changed", "address: 1000 in the first beat, 1008 here"),
    ("narrow_wrong_mask", "the mask of 2 bytes at 0x1002 on a bus of 4 bytes is c; captured 3"),
    ("narrow_wrong_port", "4 bytes at 0x1000: the address of p0"),
    ("narrow_not_sent", "bytes: a0a1a2a3a4a5a6a7 at the master's link, a0a1a2a3a5a5a6a7 here"),
    ("narrow_source_in_flight", "the source is in flight: m0, source 2: putfull 0x1000 of 8 bytes a0a1a2a3a4a5a6a7, "
                                "lines 2 to 3, times 10 to 11; not answered yet"),
    ("narrow_reply_without_request", "the last request of this source: p0, source 0 (source 0 of m0): get 0x1000 of 8 bytes, "
                                     "line 3, time 11; answered at lines 4 to 5, times 12 to 13"),
    ("narrow_wrong_opcode", "get is answered by AccessAckData, captured AccessAck"),
    ("narrow_wrong_size", "the request has 8 bytes, the reply 4"),
    ("narrow_not_given", "p0 gave AccessAckData 0011223344556677, lines 4 to 5, times 12 to 13"),
    ("lost_write", "aa: p0, source 0 (source 0 of m0): putfull 0x1000 of 1 byte aa, line 3, time 11; answered at line 4, time 12"),
    ("lost_write", "00: it stood there before: the key reset"),
    ("left_at_the_master", "m1, source 0: get 0x2000 of 4 bytes, line 5, time 12; not answered yet"),
)


LOST = [os.path.join(CAPTURES, name) for name in ("system.toml", "lost_write.csv")]
EXCHANGED = [os.path.join(CAPTURES, name) for name in ("adapter.toml", "adapter_words_exchanged.csv")]
# the lines of its explanation that say where the fault lies
WHERE = slice(10, 13)
WAVES = [os.path.join(TOP, "examples", "waves", name) for name in ("system.toml", "get.vcd")]
# The lines of the dump's fault, if the port holds the byte 11 at reset: the get is asked at 15 and answered at 25 by the byte 00.
DUMPED = ("unlawful: line 4, time 25, p0 D: wrong reply: expected AccessAckData 11, captured AccessAckData 00",
          "the request: p0, source 0 (source 0 of m0): get 0x1000 of 1 byte, line 3, time 15", "wrong at 0x1000: expected 11, captured 00",
          "11: the key reset")
# The signals of a save file for faults at the port's link and at the master's, by the system file and the declarations of the dump. The bits
# of a vector are shown with it.
DUT = "tb.dut.ram_"
OF_PORT = ["@28", "tb.clock", "tb.reset", f"{DUT}a_valid", f"{DUT}a_ready", "@22", f"{DUT}a_opcode[2:0]", f"{DUT}a_size[3:0]", "@28",
           f"{DUT}a_source", "@22", f"{DUT}a_address[15:0]", f"{DUT}a_mask[7:0]", f"{DUT}a_data[63:0]", "@28", f"{DUT}d_valid",
           f"{DUT}d_ready", "@22", f"{DUT}d_opcode[2:0]", f"{DUT}d_size[3:0]", "@28", f"{DUT}d_source", f"{DUT}d_denied", "@22",
           f"{DUT}d_data[63:0]"]
OF_MASTER = ["@28", "tb.clock", "tb.reset", "@22", "tb.dut.host[108:0]", "tb.dut.ready[1:0]", f"{DUT}d_data[63:0]"]
# Those of a fault between the port and the master, with the data of replies once.
OF_BOTH = [*OF_MASTER, "@28", *OF_PORT[3:-2]]
USAGE = "usage: tools/explain [--json] [--html PAGE] [--gtkw FILE] [OPTIONS of tlcheck] SYSTEM [CAPTURE]"
# Words of the command line, what is said on standard error, and the status.
REFUSED = (
    ([], f"explain: {USAGE}", 2),
    ([*LOST, "more"], f"explain: {USAGE}", 2),
    (["--html"], "explain: --html wants a value", 2),
    (["--gtkw", "no/save.gtkw", *LOST], "explain: --gtkw needs a dump (VCD) in a file", 2),
    (["--html", "no/page.html", *LOST], "explain: no/page.html: can't be written: No such file or directory", 1),
    (["no.toml", LOST[1]], "explain: no.toml: can't be read: No such file or directory", 1),
    ([LOST[0], "no.csv"], "explain: no.csv: can't be read: No such file or directory", 1),
    ([LOST[0], WAVES[1]], "explain: system: no signals", 1),
)


def ran(program, words, given=None, folder=None):
    """What a program prints, and its status."""
    run = subprocess.run([program, *words], capture_output=True, encoding="utf-8", check=False, input=given, cwd=folder)
    return run.stdout, run.returncode


def content(path):
    with open(path, encoding="utf-8") as file:
        return file.read()


def dumped(folder):
    """A system whose port holds the byte 11 at reset, and the dump in which it answers another one."""
    path = os.path.join(folder, "system.toml")
    with open(path, "w", encoding="utf-8") as file:
        file.write(content(WAVES[0]).replace("length = 16\n", 'length = 16\nreset = "11"\n'))
    return [path, WAVES[1]]


def words_of(front):
    """The words with which tlcheck judges a capture of the examples."""
    options = []
    if os.path.exists(front + ".args"):
        with open(front + ".args", encoding="utf-8") as file:
            options = file.read().split()
    return [*options, system_of(front), front + ".csv"]


def is_below(front):
    """Whether what is explained of a capture begins with what tlcheck prints, and has its status."""
    words = words_of(front)
    (verdict, status), (text, ended) = ran(TLCHECK, words), ran(EXPLAIN, words)
    return text.startswith(verdict) and ended == status and (status != 3 or len(text) > len(verdict))


def is_named(front):
    """Whether the object for programs names the fault of a capture, its row and its request."""
    words = words_of(front)
    fault = fault_of_explanation(words, ran(TLCHECK, words)[0], front + ".csv")
    if fault:
        print(f"tests/tools/explain_test: {front}: {fault}", file=sys.stderr)
    return not fault


def explanation_of(words):
    """The explanation of what tlcheck says."""
    return explained(words, ran(TLCHECK, words)[0].rstrip("\n").rpartition("\n")[2])


def has_fact(name, fact):
    """Whether a line is printed of a capture of the examples."""
    return fact in (line.strip() for line in shown(explanation_of(words_of(os.path.join(CAPTURES, name)))))


def has_lines(options, rows, lines, system=OF_CASES):
    """Whether these lines are printed of a capture that was worked out by hand, but for those behind `!`, and stand in the object for programs
    too."""
    with tempfile.TemporaryDirectory() as folder:
        words = [*options, *(os.path.join(folder, name) for name in ("system.toml", "capture.csv"))]
        for path, text in zip(words[-2:], (system, f"{HEADER}\n{rows}")):
            with open(path, "w", encoding="utf-8") as file:
                file.write(text)
        (text, status), (given, _) = ran(EXPLAIN, words), ran(EXPLAIN, ["--json", *words])
    told = json.loads(given)
    told.pop("verdict")
    printed = [line.strip() for line in text.splitlines()]
    missing = [line for line in lines if (line.lstrip("!") in printed) != (line[0] != "!")]
    for line in missing:
        print(f"tests/tools/explain_test: not as it has to be: {line}", file=sys.stderr)
    return status == 3 and not missing and [*shown(told)] == text.splitlines()[1:]


class Maker:
    """Makes a capture of requests one after the other, with a wrong byte in the last reply."""

    def __init__(self, seed):
        self.dice, self.bus, self.rows = random.Random(seed), Bus(8), [HEADER]
        # of each byte what it held, with the line of the request that wrote it; None at reset
        self.held = {at: [(0, None)] for at in range(0x1000, 0x1020)}

    def say(self, link, channel, columns):
        self.rows.append(f"{len(self.rows)},{link},{channel},{columns}")
        return len(self.rows)

    def cross(self, name, address, size, data, answer):
        """A request and its reply cross: the line of the request at the port, and that of the port's reply."""
        master, source = self.dice.randrange(2), self.dice.randrange(4)
        links = (f"m{master}", source), ("p0", 4 * master + source)
        for link, source in links:
            line = [self.say(link, "A", row) for row in self.bus.asks(name, size, source, address, data)][0]
        reply = "AccessAckData" if answer else "AccessAck"
        lines = [self.say(link, "D", row) for link, source in reversed(links)
                 for row in self.bus.replies(reply, size, source, address, answer, False)]
        return line, lines[0]

    def put(self):
        size = self.dice.randrange(4)
        address = 0x1000 + (self.dice.randrange(32) >> size << size)
        name = self.dice.choice(("putfull", "putpart"))
        data = [None if name == "putpart" and self.dice.random() < 0.3 else self.dice.randrange(4) for _ in range(1 << size)]
        line, _ = self.cross(name, address, size, data, None)
        for at, byte in enumerate(data, address):
            if byte is not None:
                self.held[at].append((byte, line))

    def spoil(self):
        """A get whose reply has one wrong byte: the line of the reply, the byte's address, the right byte and the wrong one, who wrote the right
        one, and who the wrong one if it stood there."""
        size = self.dice.randrange(4)
        address = 0x1000 + (self.dice.randrange(32) >> size << size)
        answer = [self.held[at][-1][0] for at in range(address, address + (1 << size))]
        place = self.dice.randrange(1 << size)
        history = self.held[address + place]
        right, writer = history[-1]
        wrong = self.dice.choice([byte for byte in range(6) if byte != right])
        answer[place] = wrong
        _, line = self.cross("get", address, size, [], answer)
        older = [writer for byte, writer in history[:-1] if byte == wrong]
        return line, address + place, right, wrong, writer, older[-1:]


def is_explained(seed):
    """Whether the writers of a wrong byte are those that were noted."""
    maker = Maker(seed)
    for _ in range(maker.dice.randrange(40)):
        maker.put()
    line, at, right, wrong, writer, older = maker.spoil()
    with tempfile.TemporaryDirectory() as folder:
        words = [os.path.join(folder, name) for name in ("system.toml", "capture.csv")]
        for path, text in zip(words, (SYSTEM, "\n".join(maker.rows) + "\n")):
            with open(path, "w", encoding="utf-8") as file:
                file.write(text)
        told = explanation_of(words)
    found, = told["bytes"]
    stood = found["captured_from"]["text"].startswith("it stood there before")
    return ((told["line"], found["first"], found["last"]) == (line, at, at)
            and (found["expected"], found["captured"]) == (f"{right:02x}", f"{wrong:02x}")
            and found["expected_from"].get("asked", [None])[0] == writer
            and stood == bool(older) and (not older or found["captured_from"].get("asked", [None])[0] == older[0]))


def is_refused(words, said, status):
    """Whether words are refused with one line."""
    with tempfile.TemporaryDirectory() as folder:
        run = subprocess.run([EXPLAIN, *words], capture_output=True, encoding="utf-8", check=False, cwd=folder)
    return (run.stdout, run.stderr, run.returncode) == ("", said + "\n", status)


def is_helped():
    """Whether --help says what the tool does."""
    text, status = ran(EXPLAIN, ["--help"])
    return status == 0 and USAGE.removeprefix("usage: ") in text and "docs/guide/unlawful.md" in text


def is_same_from_input(*words):
    """Whether standard input is explained as a file is: a capture, and a dump."""
    with tempfile.TemporaryDirectory() as folder:
        files = LOST, dumped(folder)
        return all(ran(EXPLAIN, [system, *words], content(given)) == ran(EXPLAIN, [system, given]) for system, given in files)


def denied_between(folder):
    """A system whose master gets each reply denied, and the dump in which the port denies none."""
    path = os.path.join(folder, "system.toml")
    with open(path, "w", encoding="utf-8") as file:
        file.write(content(WAVES[0]).replace('d_denied = "0"', 'd_denied = "1"'))
    return [path, WAVES[1]]


def given(_):
    """The system and the dump as they are, whose get is answered 10 units of time after it was asked."""
    return WAVES


def is_dump_explained():
    with tempfile.TemporaryDirectory() as folder:
        text, status = ran(EXPLAIN, dumped(folder))
    lines = [line.strip() for line in text.splitlines()]
    return status == 3 and lines[0] == DUMPED[0] and all(line in lines for line in DUMPED)


def is_saved(options, signals, made=dumped):
    """Whether the save file has the dump, the cursor at the fault's time 25, the marker A at the request's 15, and the links' signals. 16 units
    of time fill 500 pixels: log2(16 * 200 / 500) is 2.678072."""
    with tempfile.TemporaryDirectory() as folder:
        path = os.path.join(folder, "fault.gtkw")
        _, status = ran(EXPLAIN, [f"--gtkw={path}", *options, *made(folder)])
        lines = content(path).splitlines()
    words = lines[3].split()
    return (status, lines[1], lines[4:]) == (3, f'[dumpfile] "{WAVES[1]}"', signals) and (
        words == ["*-2.678072", "25", "15"] + ["-1"] * 25)


def kinds_of(page):
    """The beats of a picture by their lines, each with what its color says."""
    return sorted((int(line), kind) for line, kind in re.findall(r'<title>line (\d+),[^<]*</title><rect class="(\w+)"', page))


def is_page_of_wait():
    """Whether the page of a request that waits for too long has its beat once, and those up to the time at which that is seen."""
    with tempfile.TemporaryDirectory() as folder:
        path = os.path.join(folder, "page.html")
        _, status = ran(EXPLAIN, ["--html", path, *words_of(os.path.join(CAPTURES, "no_reply_in_time"))])
        return status == 3 and kinds_of(content(path)) == [(2, "fault"), *((line, "other") for line in range(3, 8))]


def is_page():
    """Whether the page has the verdict, the sections, and a picture of the seven beats: the put of line 3 wrote the byte that was expected, and
    the get of line 7 is answered wrongly at line 8."""
    with tempfile.TemporaryDirectory() as folder:
        path = os.path.join(folder, "page.html")
        _, status = ran(EXPLAIN, ["--html", path, *LOST])
        page = content(path)
    return status == 3 and kinds_of(page) == [(2, "other"), (3, "writer"), (4, "other"), (5, "other"), (6, "other"), (7, "request"), (8, "fault")] and (
        all(text in page for text in ("unlawful: line 8, time 14, p0 D: wrong reply", "<h2>why</h2>", "<h2>in flight</h2>", "<h2>look at</h2>"))
        and not any(word in page for word in ("<script", "http", "src=")))


def is_plain_page():
    """Whether the page of a lawful capture has its verdict and no picture, and that of requests that are left has the requests."""
    with tempfile.TemporaryDirectory() as folder:
        paths = [os.path.join(folder, name) for name in ("lawful.html", "left.html")]
        capture = os.path.join(folder, "capture.csv")
        with open(capture, "w", encoding="utf-8") as file:
            file.write("".join(content(LOST[1]).splitlines(True)[:7]))
        ended = [ran(EXPLAIN, ["--html", path, *options, LOST[0], capture])[1] for path, options in zip(paths, ([], ["--complete"]))]
        lawful, left = map(content, paths)
    return ended == [0, 3] and "lawful: 6 rows" in lawful and not any(word in lawful for word in ("<svg", "<h2>")) and (
        "m0, source 0: get 0x1000 of 1 byte, line 6, time 13; not answered yet" in left)


def rows_of_table(page, head):
    """The cells of a table of a document, below its head."""
    lines = content(os.path.join(TOP, "docs", page)).partition(f"\n{head}\n")[2].splitlines()[1:]
    end = next((place for place, line in enumerate(lines) if not line.startswith("|")), len(lines))
    return [[cell.strip() for cell in line.strip("|").split("|")] for line in lines[:end]]


def has_causes():
    """Whether docs/reference/causes.md has the causes of tools/tlxtools/causes.py, and these are of the faults of beats in docs/reference/faults.md."""
    table = {fault.strip("`"): said.split("<br>") for fault, said in rows_of_table("reference/causes.md", "| Fault | Look at |")}
    faults = {row[0].split("`")[1].partition(":")[0] for row in rows_of_table("reference/faults.md", "| Text | When | Capture |")}
    page = " ".join(content(os.path.join(TOP, "docs", "reference", "causes.md")).split())
    return table == CAUSES and faults == set(CAUSES) and f"in their place: {'; '.join(DENIED)}." in page and (
        all(f"stands before them: {'; '.join(said)}." in page for said in (causes.EXCHANGED, SHIFTED)) and f"at its port: {'; '.join(ADAPTED)}." in page)


def is_shown(page, files, part=slice(1, None)):
    """Whether a document shows what is printed of a capture of the examples, or these lines of it."""
    text, _ = ran(EXPLAIN, [os.path.relpath(path, TOP) for path in files], folder=TOP)
    block = "".join(f"    {line}".rstrip() + "\n" for line in text.splitlines()[part]).strip("\n")
    return len(block) > 100 and block in content(os.path.join(TOP, "docs", page))


def main():
    fronts = sorted(path.removesuffix(".verdict") for folder in (CAPTURES, SYSTEMS) for path in glob.glob(os.path.join(folder, "*.verdict")))
    cases = [*((is_below, (front,)) for front in fronts), *((is_named, (front,)) for front in fronts),
             *((has_fact, fact) for fact in FACTS), *((has_lines, case) for case in CASES),
             *((has_lines, (*case, SOCKETS)) for case in SOCKET_CASES), *((has_lines, (*case, APART)) for case in APART_CASES),
             *((has_lines, (*case, QUEUED)) for case in QUEUED_CASES), *((has_lines, (*case, RESETTING)) for case in TIMED_CASES),
             *((has_lines, (*case, APART)) for case in TIMED_APART_CASES),
             *((has_lines, (*case, CORRUPT)) for case in CORRUPT_CASES), *((has_lines, case) for case in UNCORRUPT_CASES),
             *((is_explained, (seed,)) for seed in range(SEEDS)), *((is_refused, case) for case in REFUSED),
             (is_helped, ()), (is_same_from_input, ()), (is_same_from_input, ("-",)), (is_dump_explained, ()), (is_saved, ([], OF_PORT)),
             (is_saved, (["--links", "masters"], OF_MASTER)),
             (is_saved, ([], OF_BOTH, denied_between)), (is_saved, (["--within=5"], OF_BOTH, given)), (is_page, ()), (is_page_of_wait, ()),
             (is_plain_page, ()), (has_causes, ()),
             (is_shown, ("guide/unlawful.md", LOST)), (is_shown, ("guide/unlawful.md", EXCHANGED, WHERE))]
    tell_cases(cases)


if __name__ == "__main__":
    run_test(main)
