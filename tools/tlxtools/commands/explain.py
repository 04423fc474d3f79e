"""Judges a capture by tlcheck, and explains its fault below its line.

    tools/explain [--json] [--html PAGE] [--gtkw FILE] [OPTIONS of tlcheck] SYSTEM [CAPTURE]

If the capture is unlawful: the beat, the request that it belongs to, and what should stand where something else stands. Of a wrong reply,
for each wrong byte: which request wrote what was expected, and where the captured byte comes from. Of a request that has waited for too long:
for how long, and where. Then on which side the fault lies, what was in flight, and what to look at. If requests are left: all of them, and how
far each has come. The status is that of tlcheck. With --json the same stands in one object:
verdict, line, time, seen, link, channel, why, where, request, other_side, bytes (first, last, expected, captured, expected_from, captured_from,
writer), orders, in_flight and look_at. `seen` is the time at which the fault shows: that of the beat, and of a request that waits the first
one after the limit.

CAPTURE is a file, or standard input if it is left out or `-`. A value change dump goes through tlvcd. --html writes one page with a picture
of the beats before the fault. --gtkw writes a save file of GTKWave for a fault in a dump.

The capture is read up to the fault; for `field changed` the next 256 rows are looked at too. A dump that tlvcd refuses has status 1.

docs/guide/unlawful.md leads through an explanation. Nothing of it is proved. TLCHECK=path and TLVCD=path take other programs.
"""

import gc
import json
import subprocess
import sys
import tomllib

from tlxtools.capture_input import Mistake, capture_of, said_by, write
from tlxtools.common import TLCHECK
from tlxtools.explain_page import page_of
from tlxtools.explanation import shown, told_of
from tlxtools.gtkwave_save import save_of

USAGE = 2
# The options that have a value: those of tlcheck, and those of this tool.
VALUED, OWN = ("--links", "--order", "--within", "--coverage"), ("--html", "--gtkw")


def parsed(words):
    """The values of this tool's options, the options of tlcheck, and the files."""
    own, options, files, words = {}, [], [], list(words)
    while words:
        word = words.pop(0)
        name, mark, value = word.partition("=")
        if name in (*VALUED, *OWN) and not mark:
            if not words:
                raise Mistake(f"{name} wants a value", USAGE)
            value = words.pop(0)
        if name in OWN:
            own[name] = value
        elif word == "--json":
            own[word] = True
        elif name in VALUED:
            options += [name, value]
        elif word.startswith("-") and word != "-":
            options.append(word)
        else:
            files.append(word)
    if len(files) not in (1, 2):
        raise Mistake("usage: tools/explain [--json] [--html PAGE] [--gtkw FILE] [OPTIONS of tlcheck] SYSTEM [CAPTURE]", USAGE)
    return own, options, files[0], files[1] if len(files) == 2 else "-"


def write_save(path, words, dump, explainer, explanation):
    """Writes a save file, if there is a fault. The dump has to be a file that stays."""
    if explainer and "time" in explanation:
        with open(words[-2], "rb") as file:
            table = tomllib.load(file)
        write(path, save_of(dump, table, explainer.links(), explanation))


def run(own, options, system, given):
    """Explains, and writes what is asked for: the status."""
    with capture_of(system, given) as (path, dump):
        if "--gtkw" in own and (not dump or given == "-"):
            raise Mistake("--gtkw needs a dump (VCD) in a file", USAGE)
        words = [*options, system, path]
        said = said_by(TLCHECK, words, stderr=None, stdout=subprocess.PIPE)
        text = said.stdout.decode(errors="replace")
        verdict = text.rstrip("\n").rpartition("\n")[2]
        explanation, explainer = told_of(words, verdict)
        if "--gtkw" in own:
            write_save(own["--gtkw"], words, dump, explainer, explanation)
    if "--html" in own and said.returncode in (0, 3):
        write(own["--html"], page_of(verdict, explanation, explainer))
    if "--json" in own:
        print(json.dumps({"verdict": verdict, **explanation}, indent=2))
    else:
        print(text, end="")
        print("".join(f"{line}\n" for line in shown(explanation)), end="")
    return said.returncode


def main():
    # messages are kept to the end, so looking for unused ones takes time alone
    gc.disable()
    if "--help" in sys.argv[1:]:
        print(__doc__.strip())
        return 0
    try:
        return run(*parsed(sys.argv[1:]))
    except Mistake as mistake:
        print(f"explain: {mistake}", file=sys.stderr)
        return mistake.status
