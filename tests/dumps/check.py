"""Runs tlvcd on the dumps of this folder and of examples/waves, and compares what it writes with what was worked out by hand. tlcheck
judges the two captures of examples/waves.

Each file of this folder has dumps with their rows or their fault:

    system       the system file
    head         what stands before each body
    [[dump]]
    system, head in place of those of the file
    body         what stands behind the head
    rows         what is written behind the header of a capture, but for the line `fault` before a fault; not there if nothing at all is
                 written
    says         the line on standard error
    fronts       the dump is also cut behind each byte. A front of the header is a fault. Else the front has all rows of the times that it
                 ends, and in their order some of the time in which it is cut, with no fault but those of a dump's end
    judged       the line that tlcheck writes of the dump, if it is given here
    refused      or the one that it writes on standard error

tlcheck judges each dump too, at the links that have signals. It says of a dump what it says of the rows that were worked out, or else
`dump: ` and the fault that tlvcd told. What does not begin as a dump is no capture either.

TLVCD and TLCHECK are the paths of other programs. The last line is 'N passed, M failed'.
"""

import os
import re
import subprocess
import tempfile
import tomllib

from harness import run_test, side_by_side, tell
from tlxtools import common
from tlxtools.common import TLCHECK, TLVCD, TOP

HERE = os.path.dirname(os.path.abspath(__file__))
WAVES = os.path.join(TOP, "examples", "waves")
HEADER = common.HEADER + "\n"
# The faults of a front of a dump: those of its header, and those that are told at its end.
CUT_HEADER = re.compile(r"tlvcd: line \d+: cut in its header\n")
ENDED = re.compile(r"tlvcd: (\S+|the clock) never (rises|falls)\n|tlvcd: [^\n]+ is active at every (edge|beat)[^\n]*\n")
TIME = re.compile(r"(?<!\S)#(\d+)(?=\s)")
# of what does not begin as a dump
NO_CAPTURE = "capture: line 1: wrong header\n"
CUT = "fault\n"
# A system, a dump, its rows, and what tlcheck says of them.
CAPTURES = (("system.toml", "get.vcd", "get.csv", "lawful: 4 rows, 1 requests, 1 answered\n"),
            ("widths.toml", "widths.vcd", "widths.csv", "lawful: 12 rows, 2 requests, 2 answered\n"))


def ran(*words, given=None, folder=WAVES):
    """What a program writes and reports, and its status."""
    run = subprocess.run(words, input=given, cwd=folder, capture_output=True, encoding="utf-8", check=False)
    return run.stdout, run.stderr, run.returncode


def content(name):
    with open(os.path.join(WAVES, name), encoding="utf-8") as file:
        return file.read()


def captures():
    """What was found of each capture of examples/waves, and what was wanted."""
    for system, dump, rows, verdict in CAPTURES:
        yield dump, ran(TLVCD, system, dump), (content(rows), "", 0)
        piped = ran(TLVCD, system, given=content(dump))[0]
        yield rows, ran(TLCHECK, system, given=piped), (verdict, "", 0)


def written(system, dump):
    """What tlvcd writes of the text of a dump."""
    with tempfile.TemporaryDirectory() as folder:
        with open(os.path.join(folder, "system.toml"), "w", encoding="utf-8", newline="") as file:
            file.write(system)
        return ran(TLVCD, "system.toml", given=dump, folder=folder)


def wanted(dump):
    """The same as it was worked out."""
    rows, says = dump.get("rows"), dump.get("says", "")
    return "" if rows is None else HEADER + rows + (CUT if says else ""), says and says + "\n", 1 if says else 0


def time_of(row):
    return int(row.split(",")[0])


def is_some_of(rows, others):
    """Whether rows are some of others, in their order."""
    left = iter(others)
    return all(row in left for row in rows)


def is_front(front, answer, whole):
    """Whether an answer is that of a front of a dump, whose rows stand in `whole`."""
    rows, said, status = answer
    if not re.search(r"\$enddefinitions\s+\$end\s", front):
        return rows == "" and status == 1 and bool(CUT_HEADER.fullmatch(said))
    if ENDED.fullmatch(said) and status == 1 and rows.endswith(CUT):
        rows = rows.removesuffix(CUT)
    elif (said, status) != ("", 0):
        return False
    now = int(([0] + TIME.findall(front))[-1])
    found, lines = rows.removeprefix(HEADER).splitlines(), whole.splitlines()
    ended = [row for row in lines if time_of(row) < now]
    return rows.startswith(HEADER) and found[:len(ended)] == ended and is_some_of(found[len(ended):], [row for row in lines if time_of(row) == now])


def fronts(dump):
    """The fronts of a dump that is cut behind each byte, and what tlvcd writes of them."""
    text = dump.get("head", "") + dump["body"]
    for end in range(len(text)) if dump.get("fronts") else ():
        yield text[:end], written(dump["system"], text[:end])


def differs(dump):
    """What was found of a dump, if it is not what was wanted."""
    system, head, body = dump["system"], dump.get("head", ""), dump["body"]
    answer, right = written(system, head + body), wanted(dump)
    if answer != right:
        return answer
    return next((other for front, other in fronts(dump) if not is_front(front, other, dump["rows"])), None)


def views(system):
    """The words for the links that have signals, and whether these are all masters' or all ports' links."""
    try:
        table = tomllib.loads(system)
        masters, ports = (all("signals" in link or "wires" in link for link in table.get(kind, [])) for kind in ("master", "port"))
    except (tomllib.TOMLDecodeError, AttributeError, TypeError):
        return ["--links", "both"], True
    view = {(True, True): "both", (True, False): "masters", (False, True): "ports"}.get((masters, ports), "both")
    return ["--links", view], masters or ports


def times_before(rows, says):
    """The rows of earlier times than a fault: only a beat with an unknown bit has a time."""
    found = re.match(r"tlvcd: time (\d+), ", says)
    return "".join(row for row in rows.splitlines(keepends=True) if not found or time_of(row) < int(found[1]))


def verdict_over(text, rows, says, words, folder):
    """What tlcheck has to say of a text, by the rows of tlvcd, or None, and by its fault."""
    if not text.lstrip().startswith("$"):
        return "", NO_CAPTURE, 1
    fault = ("", says.replace("tlvcd: ", "dump: ", 1).removesuffix("\n") + "\n", 1)
    if rows is None:
        return fault
    judged = ran(TLCHECK, *words, "system.toml", given=HEADER + times_before(rows, says), folder=folder)
    return fault if says and judged[2] != 3 else judged


def wanted_verdict(dump, words, folder):
    """What tlcheck has to say of a dump, by what was worked out."""
    if "judged" in dump:
        return dump["judged"] + "\n", "", 3 if dump["judged"].startswith("un") else 0
    if "refused" in dump:
        return "", dump["refused"] + "\n", 1
    return verdict_over(dump.get("head", "") + dump["body"], dump.get("rows"), dump.get("says", ""), words, folder)


def judges_wrongly(dump):
    """What tlcheck says of a dump or of a front of it, if it is not what it has to say."""
    words, is_named = views(dump["system"])
    with tempfile.TemporaryDirectory() as folder:
        with open(os.path.join(folder, "system.toml"), "w", encoding="utf-8", newline="") as file:
            file.write(dump["system"])
        answer = ran(TLCHECK, *words, "system.toml", given=dump.get("head", "") + dump["body"], folder=folder)
        if not is_named and answer[1].endswith(": no signals\n"):
            return None
        if answer != wanted_verdict(dump, words, folder):
            return answer
        for front, (rows, said, _) in fronts(dump):
            answer = ran(TLCHECK, *words, "system.toml", given=front, folder=folder)
            rows = rows.removeprefix(HEADER).removesuffix(CUT) if rows else None
            if answer != verdict_over(front, rows, said, words, folder):
                return answer
        return None


def dumps():
    """Each dump with the file that it stands in."""
    for name in sorted(name for name in os.listdir(HERE) if name.endswith(".toml")):
        with open(os.path.join(HERE, name), "rb") as file:
            group = tomllib.load(file)
        yield from ((name, group | dump) for dump in group.pop("dump"))


def main():
    for name, found, right in captures():
        tell(name, found == right, f"found {found}, wanted {right}")
    cases = list(dumps())
    for said, call in (("found", differs), ("judged", judges_wrongly)):
        for (name, dump), answer in zip(cases, side_by_side(call, [(dump,) for _, dump in cases])):
            tell(f"{name}, {said}: {dump}", answer is None, f"\n  {said} {answer}")


if __name__ == "__main__":
    run_test(main)
