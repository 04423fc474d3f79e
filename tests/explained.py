"""Whether tools/explain names the fault, the row and the request of a verdict: for its own test, and for the checks of designs."""

import json
import os
import re
import subprocess

TOP = os.path.dirname(os.path.dirname(os.path.abspath(__file__)))
EXPLAIN = os.path.join(TOP, "tools", "explain")
UNLAWFUL = re.compile(r"unlawful: line (\d+), time (\d+), (\S+) ([AD]): (.*)")
LEFT = re.compile(r"incomplete: (\d+) requests without reply, the first: line (\d+), ")
# Replies that belong to no request, as a part of such a fault's words.
OF_NONE = ("reply without request", "no such source")


def cells_of(line):
    """The columns of a row, without quotes."""
    return [cell.strip('"') for cell in line.rstrip("\r\n").split(",")]


def fault_of_unlawful(told, named, lines):
    """What is wrong with the explanation of an unlawful beat."""
    line, time, link, channel, fault = named.groups()
    if (told["line"], told["time"], told["link"], told["channel"]) != (int(line), int(time), link, channel):
        return "another row"
    if told["why"][:1] != [f"the beat: {','.join(cells_of(lines[int(line) - 1])[2:])}"]:
        return "not the beat"
    if channel == "D" and fault not in OF_NONE:
        request = told["request"]
        # a reply's request crossed before it, with its source
        first = request and cells_of(lines[request["asked"][0] - 1])
        # a beat of another source within a reply belongs to the reply, whose request is named too
        if fault != "field changed" and (not request or request["source"] != int(cells_of(lines[int(line) - 1])[6])):
            return "not the request"
        if request and (first[2] != "A" or int(first[6]) != request["source"] or int(first[7], 16) != request["address"]):
            return "not the row of the request"
    return "" if told["look_at"] else "nothing to look at"


def fault_of_explanation(words, verdict, capture):
    """What is wrong with the explanation of a capture by these words of tlcheck, or nothing."""
    done = subprocess.run([EXPLAIN, "--json", *words], capture_output=True, encoding="utf-8", check=False)
    # what tlcheck reports of a fault of the capture stands on standard error
    if done.returncode not in (0, 1, 3) or done.stderr.count("\n") != (done.returncode == 1):
        return f"status {done.returncode}: {done.stderr}"
    if done.returncode == 1:
        return ""
    told = json.loads(done.stdout)
    last = verdict.rstrip("\n").rpartition("\n")[2]
    if told["verdict"] != last:
        return f"another verdict: {told['verdict']}"
    with open(capture, encoding="utf-8", newline="") as file:
        lines = file.read().replace("\r\n", "\n").split("\n")
    named, left = UNLAWFUL.fullmatch(last), LEFT.match(last)
    if named:
        return fault_of_unlawful(told, named, lines)
    if left:
        # requests are counted on one side
        first = [request["asked"][0] for request in told["in_flight"]]
        side = cells_of(lines[int(left[2]) - 1])[1][0]
        first = [line for line in first if cells_of(lines[line - 1])[1][0] == side]
        return "" if (len(first), first[0]) == (int(left[1]), int(left[2])) else "not what is left"
    return "" if len(told) == 1 else "an explanation of what is lawful"
