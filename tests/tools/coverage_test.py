"""Tests tools/coverage and tlcheck --coverage: a capture whose coverage was worked out by hand, sums, a report and its page, and files that are
none. The counts of the examples' captures are those of their verdicts, and both programs count the same. tlcheck writes no coverage without a
verdict, and a file that can't be written is its fault. The last line is 'N passed, M failed'. It needs the built program (./tlcheck builds it;
TLCHECK=path takes another).
"""

import glob
import html.parser
import os
import re
import subprocess
import tempfile

from coverage_captures import COVERED, FURTHER, LISTED, LISTED_COVERED, LISTED_ROWS, MIRRORED, MIRRORED_COVERED, MIRRORED_ROWS, ROWS, SYSTEM, ZEROS
from harness import need, run_test, tell
from tlxtools.common import HEADER, LONGEST_WAIT, SECONDS, TLCHECK, TOP, system_of

COVERAGE = os.path.join(TOP, "tools", "coverage")

# The second get's reply has another byte, so the last beat of that reply is unlawful.
SPOILED = ROWS.replace(f"9,m0,D,1,,4,1,,,{ZEROS},0,0", f"9,m0,D,1,,4,1,,,{ZEROS[:-2]}01,0,0")
GONE = ("asked m1 p1 putfull 0 aligned 1", "answered m0 p0 get 4 given 1", "answered m1 p1 putfull 0 denied 1", "beats m0 p0 D 2 1",
        "beats m1 p1 A 1 1", "beats m1 p1 D 1 1", "at_port p1 1 1", "again m1 16 1",
        "range p1 0 1", "edge p1 0 first 1", "latency p1 1 1", "gap m0 p0 D 1 1", "refused p1 unserved 1",
        "lane m1 0 0 1")
BAD = {
    "": "line 1",
    "coverage 1\n": "older version",
    "coverage 3\n": "line 1",
    "coverage 2\nasked m0 p0 get 2 aligned": "the last line has no end",
    "coverage 2\nseen m0 1\n": "no such line",
    "coverage 2\nagain m0 5 1\n": "no such bin",
    "coverage 2\nagain m0 4 x\n": "no such line",
    "coverage 2\ncontested p0 1\ncontested p0 1\n": "stood before",
}
# The capture that tools/coverage can't read, which takes no quotes and no byte order mark, with its coverage, worked out by hand.
UNREAD = {"quotes_and_blank_lines": """coverage 2
asked m0 p0 get 2 aligned 1
beats m0 p0 A 1 1
in_flight m0 1 1
at_port p0 1 1
source m0 3 1
range p0 0 1
edge p0 0 first 1
lane m0 2 0 1
"""}
# Bins that the first capture hits, that it does not hit, and that are no goals of its system.
SEEN = ("mask m0 p0 2 hole", "again m0 3", "source m1 0", "edge p1 0 first", "latency p0 4", "gap m0 p0 D 1", "refused p0 unaligned", "lane m0 2 0",
        "after p0 write read")
UNSEEN = ("mask m0 p0 2 all", "mask m0 p0 3 hole", "again m0 16", "contested p1", "overtook m0 p0 other", "overtook m0 p1 same", "edge p1 0 last",
          "latency p0 0", "gap m0 p0 A 1", "gap m1 p1 D 1", "lane m0 2 4", "after p0 read write")
BEYOND = ("again m0 0", "gap m0 p0 D 0", "gap m1 p1 A 1", "overtook m1 p0 same", "mask m0 p0 1 low", "source m1 1", "range p0 1", "lane m0 2 1",
          "lane m0 3 0")
VERDICT = "lawful: 11 rows, 5 requests, 5 answered\n"
LAWFUL = re.compile(r"lawful: \d+ rows, (\d+) requests, (\d+) answered\n")


def run(*words):
    done = subprocess.run([COVERAGE, *words], capture_output=True, text=True, timeout=120, check=False)
    return done.returncode, done.stdout, done.stderr


def check(folder, *words):
    """The status of tlcheck, what it writes, and the coverage; None if it writes none."""
    path = os.path.join(folder, "by_tlcheck.cov")
    done = subprocess.run([TLCHECK, "--coverage", path, *words], capture_output=True, text=True, timeout=SECONDS, check=False)
    text = None
    if os.path.exists(path):
        with open(path, encoding="ascii") as file:
            text = file.read()
        os.remove(path)
    return done.returncode, done.stdout, done.stderr, text


def write(folder, name, text):
    path = os.path.join(folder, name)
    with open(path, "w", encoding="ascii") as file:
        file.write(text)
    return path


class Page(html.parser.HTMLParser):
    """The tags of a page, and what they point to."""

    def __init__(self, text):
        super().__init__()
        self.tags, self.outside = [], "http" in text
        self.feed(text)

    def handle_starttag(self, tag, attributes):
        self.tags.append(tag)
        self.outside |= any(name in ("src", "href") for name, _ in attributes)


def check_capture(folder, system):
    capture = write(folder, "one.csv", HEADER + ROWS)
    status, said, _ = run("count", system, capture, "--links", "masters")
    tell("the capture is covered as worked out by hand", (status, said) == (0, COVERED))
    status, _, _, text = check(folder, "--links", "masters", system, capture)
    tell("tlcheck has the same coverage of it", (status, text) == (0, COVERED))
    one = write(folder, "one.cov", said)
    _, said, _ = run("merge", one, one, one)
    first, _, lines = COVERED.partition("\n")
    thrice = re.sub(r" (\d+)\n", lambda count: f" {3 * int(count[1])}\n", lines)
    tell("a sum is three times as much", said == f"{first}\n{thrice}")
    spoiled = write(folder, "spoiled.csv", HEADER + SPOILED)
    _, said, _ = run("count", system, spoiled, "--links", "masters")
    expected = [line for line in COVERED.splitlines() if line not in GONE]
    for twice in ("in_flight m1 1 2", "source m1 0 2"):
        expected[expected.index(twice)] = twice[:-1] + "1"
    tell("of an unlawful capture the rows before the fault count", said.splitlines() == expected)
    status, _, _, text = check(folder, "--links", "masters", system, spoiled)
    tell("tlcheck has the same of an unlawful capture", (status, text) == (3, said))
    return one


def check_mirror(folder):
    """Requests at two ranges of one memory share a byte if they do in the memory."""
    system, capture = write(folder, "mirrored.toml", MIRRORED), write(folder, "mirrored.csv", HEADER + MIRRORED_ROWS)
    status, said, _ = run("count", system, capture, "--links", "masters")
    tell("requests of a mirror are compared by places", (status, said) == (0, MIRRORED_COVERED))
    status, _, _, text = check(folder, "--links", "masters", system, capture)
    tell("tlcheck has the same coverage of a mirror", (status, text) == (0, MIRRORED_COVERED))


def check_further(folder):
    for what, (system, rows, covered) in FURTHER.items():
        paths = write(folder, "further.toml", system), write(folder, "further.csv", HEADER + rows)
        status, said, _ = run("count", *paths, "--links", "masters")
        tell(what, (status, said) == (0, covered))
        status, _, _, text = check(folder, "--links", "masters", *paths)
        tell(f"{what}: tlcheck has the same coverage", (status, text) == (0, covered))


def check_lists(folder):
    """The masters of requests at ports' links are those that a port lists, and a master that it does not list has no goal there."""
    system, capture = write(folder, "listed.toml", LISTED), write(folder, "listed.csv", HEADER + LISTED_ROWS)
    status, said, _ = run("count", system, capture, "--links", "ports")
    tell("requests are those of listed masters", (status, said) == (0, LISTED_COVERED))
    status, _, _, text = check(folder, "--links", "ports", system, capture)
    tell("tlcheck has the same coverage of listed masters", (status, text) == (0, LISTED_COVERED))
    status, said, _ = run("report", system, write(folder, "listed.cov", LISTED_COVERED))
    lines = said.splitlines()
    tell("a master that is not listed has no goal at the port", status == 0 and " m1 p1 " not in said and "never: asked m0 p1 get 3 aligned" in lines)
    tell("so many sources reach a port", [f"never: at_port {bin}" in lines for bin in ("p0 3", "p0 4", "p1 2", "p1 3")] == [True, False, True, False])


def check_apart(folder):
    """With both sides watched, requests to ports that are judged by themselves count at the masters' links, whether they crossed at the ports' or
    not."""
    system = write(folder, "apart.toml", SYSTEM.replace("[[port]]\n", '[[port]]\ncrossing = "none"\n'))
    capture = write(folder, "apart.csv", f"{HEADER}{ROWS}32,p0,A,4,0,2,9,1000,0f,,,\n")
    status, said, _ = run("count", system, capture)
    tell("requests to ports that are judged by themselves count", (status, said) == (0, COVERED))
    status, _, _, text = check(folder, system, capture)
    tell("tlcheck has the same coverage of these", (status, text) == (0, COVERED))


def check_report(folder, system, one):
    page = os.path.join(folder, "one.html")
    status, said, _ = run("report", system, one, "--html", page)
    lines = said.splitlines()
    tell("a report ends well", status == 0)
    # no master lacks a path, decoders look at whole requests, and the ROM denies a put
    tell("causes are named", "never: refused p1 unaligned" in lines and "never: refused p0 unserved" in lines and
         "impossible: refused error no_path: each master has a path to each port" in lines and
         "impossible: refused p0 beyond: decoders look at the whole request" in lines)
    # each master has none and all of 1 byte at the RAM, none, all and one of 2, and none, all, one, hole, low, high, even, odd and other of each
    # of 4, 8, 16, 32 and 64; one of 100 was seen
    tell("masks are counted", "mask: 1 of 100, 1 %" in lines)
    tell("what was seen is not named", not any(f"never: {bin}" in lines for bin in SEEN))
    tell("what was not seen is named", all(f"never: {bin}" in lines for bin in UNSEEN))
    tell("what no run can hit is no goal", not any(f"never: {bin}" in lines for bin in BEYOND) and
         "impossible: again m0 0: a source is free from the time after its last reply on" in lines and
         any(line.startswith("impossible: overtook m1 p0 same: the master has one source") for line in lines))
    # a ROM gives gets and prefetches alone, so a put there can only be denied
    tell("a range of 16 bytes gives no 32", "never: answered m0 p1 get 4 given" in lines and not any(" p1 get 5 " in line for line in lines))
    tell("the ROM gives no put", "never: answered m0 p1 putfull 0 denied" in lines and not any("p1 putfull 0 given" in line for line in lines))
    with open(page, encoding="utf-8") as file:
        text = file.read()
    shown = Page(text)
    tell("the page has no script and nothing from elsewhere", "script" not in shown.tags and "link" not in shown.tags and not shown.outside)
    tell("the page has a table for what each port gave", shown.tags.count("h2") == 5 and "<h2>ram</h2>" in text and shown.tags.count("table") >= 8)


def check_reach(folder, system, one):
    """Bins that a file says can't be hit are no goals, and each of its lines has some. One that was hit is named."""
    def report(text):
        return run("report", system, one, "--unreachable", write(folder, "bins.txt", text))
    _, said, _ = run("report", system, one)
    bins = {line.removeprefix("never: ") for line in said.splitlines() if line.startswith("never: ")}
    gone = {bin for bin in bins if bin.startswith("mask m0 p0 ") and bin.split()[3] in "345" or bin.startswith("after p1 ")}
    status, told, _ = report("# a comment\n\nmask m0 * 3-5 *: no such put\nafter p1 * *  : a ROM\n")
    left = {line.removeprefix("never: ") for line in told.splitlines() if line.startswith("never: ")}
    tell("unreachable bins are no goals", status == 0 and left == bins - gone and len(gone) == 27 + 16)
    tell("unreachable bins are counted", "unreachable: mask m0 * 3-5 *: 27: no such put" in told and "unreachable: after p1 * *: 16: a ROM" in told)
    before, after = (int(re.search(r"^all: \d+ of (\d+),", text, re.M)[1]) for text in (said, told))
    tell("so many goals are left", before - after == len(gone))
    status, told, _ = report("edge p1 0 last|first: never asked\nlatency p1 2|3: two or three\n")
    tell("words between bars", "unreachable: edge p1 0 last|first: 2: never asked" in told and "unreachable: latency p1 2|3: 2: two or three" in told)
    seen = SEEN[0].split()
    status, told, why = report(f"{' '.join(seen)}: it was seen\n")
    tell("a bin that was hit is named", status == 1 and f"reached: {SEEN[0]}: unreachable by {SEEN[0]}" in told and "1 of these bins were reached" in why)
    for text, why in (("mask m0 p0 3 all\n", "line 1: not `BINS: REASON`"), ("masks m0 p0 3 all: no\n", "line 1: no such bins: masks"),
                      ("\nmask m0 p0: no\n", "line 2: no such bins: mask m0 p0"), ("mask m9 * * *: no\n", "no bin of the system is left for: mask m9")):
        status, _, said = report(text)
        tell(f"{text!r} is refused", status == 1 and why in said and said.count("\n") == 1)
    status, _, said = run("report", system, one, "--unreachable", os.path.join(folder, "none"))
    tell("a file that is not there", status == 1 and "can't be read" in said or "No such file" in said)


def check_order(folder):
    """No reply overtakes at a master whose replies come in order. The order at a port says nothing of the masters' links."""
    text = SYSTEM.replace("sources = 1\n", "sources = 2\n").replace("[[master]]", "[[master]]\nfifo = true", 1).replace('"rom"', '"rom"\nfifo = true')
    status, said, _ = run("report", write(folder, "fifo.toml", text), write(folder, "none.cov", "coverage 2\n"))
    lines = said.splitlines()
    tell("a report of links with an order ends well", status == 0)
    for place in ("p0", "p1"):
        for where in ("same", "other"):
            bin, why = f"overtook m0 {place} {where}", "replies at the master's link come in the order of its requests"
            tell(f"{bin} is no goal", f"impossible: {bin}: {why}" in lines and f"never: {bin}" not in lines)
            tell(f"at m1 {place} {where} is one", f"never: overtook m1 {place} {where}" in lines)


def check_faults(folder, system):
    for text, why in BAD.items():
        status, said, told = run("merge", write(folder, "bad.cov", text))
        tell(f"{text!r} is no coverage", status == 1 and said == "" and why in told)
    one = write(folder, "bad.csv", "no capture\n")
    none = os.path.join(folder, "none")
    for words in (("merge", none), ("count", one, one), ("count", system, one), ("report", one, one), ("count", system, folder)):
        status, said, told = run(*words)
        tell(f"{words} ends with status 1", status == 1 and said == "" and told.startswith("coverage: ") and told.count("\n") == 1)
    tell("a wrong command line ends with status 2", run("count", system)[0] == 2)
    for word in ("0", str(LONGEST_WAIT + 1), "1.5", "x", ""):
        tell(f"--within {word} is refused", run("count", system, one, "--within", word)[0] == 2)


def check_files(folder, system):
    """tlcheck leaves the file alone if there is no verdict, and names a file that it can't write after the verdict."""
    capture = write(folder, "one.csv", HEADER + ROWS)
    kept = write(folder, "kept.cov", "kept")
    # a capture that is none after a lawful row, one that is not there, and no system
    none = write(folder, "none.csv", f"{HEADER}\n1,m0,A,4,0,2,1,1000,0f,,,\n0,m0,A,4,0,2,1,1000,0f,,,\n")
    for words, status in (([system, none], 1), ([system, os.path.join(folder, "nowhere.csv")], 5), ([none, capture], 1)):
        command = [TLCHECK, "--links", "masters", "--coverage", kept, *words]
        done = subprocess.run(command, capture_output=True, text=True, timeout=SECONDS, check=False)
        with open(kept, encoding="ascii") as file:
            tell(f"{words}: no verdict, so no coverage", done.returncode == status and file.read() == "kept")
    # a file that can't be made, and one that takes nothing
    for path in (os.path.join(folder, "nowhere", "one.cov"), *(["/dev/full"] if os.path.exists("/dev/full") else [])):
        command = [TLCHECK, "--links", "masters", "--coverage", path, system, capture]
        done = subprocess.run(command, capture_output=True, text=True, timeout=SECONDS, check=False)
        tell(f"{path} can't be written", (done.returncode, done.stdout, done.stderr) == (5, VERDICT, "write failed\n"))
    status, said, _, text = check(folder, "--links", "masters", system, capture)
    tell("the verdict is what it is without a coverage", (status, said, text) == (0, VERDICT, COVERED))


def check_examples(folder):
    """The requests and replies that are counted are those of the verdict, and tlcheck has the same coverage as tools/coverage, or none."""
    for verdict in sorted(glob.glob(os.path.join(TOP, "examples", "captures", "*.verdict"))):
        front = verdict.removesuffix(".verdict")
        with open(verdict, encoding="ascii") as file:
            wanted = file.read()
        words = []
        if os.path.exists(front + ".args"):
            with open(front + ".args", encoding="ascii") as file:
                words = file.read().split()
        name, paths = os.path.basename(front), (system_of(front), front + ".csv")
        status, said, _ = run("count", *paths, *(word for word in words if word not in ("--complete", "--trace")))
        _, printed, told, text = check(folder, *words, *paths)
        tell(f"{name}: tlcheck says what it says without a coverage", printed + told == wanted)
        tell(f"{name}: tlcheck has the same coverage", text == (said if status == 0 else UNREAD.get(name)))
        lawful = LAWFUL.fullmatch(wanted)
        if lawful:
            sums = [sum(int(line.split()[-1]) for line in said.splitlines() if line.startswith(kind)) for kind in ("asked ", "answered ")]
            tell(f"{name}: the counts of its verdict", status == 0 and sums == [int(lawful[1]), int(lawful[2])])


def check_closed(folder, system):
    """Each command ends without a word if nobody reads what it prints."""
    counts, capture = write(folder, "closed.cov", COVERED), write(folder, "closed.csv", HEADER + ROWS)
    for words in (("report", system, counts), ("merge", counts), ("count", "--links", "masters", system, capture)):
        ends = os.pipe()
        os.close(ends[0])
        with os.fdopen(ends[1], "wb") as closed:
            done = subprocess.run([COVERAGE, *words], stdout=closed, stderr=subprocess.PIPE, timeout=SECONDS, check=False)
        tell(f"{words[0]}: nobody reads it", (done.returncode, done.stderr) == (141, b""))


def main():
    need(TLCHECK)
    with tempfile.TemporaryDirectory() as folder:
        system = write(folder, "system.toml", SYSTEM)
        one = check_capture(folder, system)
        check_report(folder, system, one)
        check_reach(folder, system, one)
        check_order(folder)
        check_mirror(folder)
        check_further(folder)
        check_lists(folder)
        check_apart(folder)
        check_faults(folder, system)
        check_files(folder, system)
        check_closed(folder, system)
        check_examples(folder)


if __name__ == "__main__":
    run_test(main)
