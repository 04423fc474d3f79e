#!/usr/bin/env python3
"""Judges the captures of examples/captures and examples/systems by calls: captures.py FOLDER of the examples.

Each must have its verdict, beat by beat and as one array. The system file of a capture NAME.csv is NAME.toml beside it, or that of the first word
of its name (narrow.toml), or else system.toml. One whose verdict is about its text, which has no beats, is left out; so is one with a limit of
time, which calls don't have.
"""

import csv
import itertools
import pathlib
import sys

import tlx
from harness import run_test
from tally import Tally

ALL_KNOWN = (1 << 64) - 1
RESET = "reset"
CROSSING = {("A", "m"): 0, ("A", "p"): 1, ("D", "p"): 2, ("D", "m"): 3}


def lanes_of(word):
    """The data and the known lanes that digits spell, two for a lane; no digits are known zeros."""
    pairs = [word[at:at + 2].lower() for at in range(0, len(word), 2)]
    is_known = [not set(pair) & set("xz") for pair in pairs]
    data = int("".join(pair if known else "00" for pair, known in zip(pairs, is_known)) or "0", 16)
    return data, sum(known << lane for lane, known in enumerate(reversed(is_known))) if word else ALL_KNOWN


def rows_of(path):
    """The beats and resets of a capture in the order in which they cross, each beat with its line."""
    with open(path, encoding="utf-8-sig", newline="") as file:
        reader = csv.reader(file)
        next(reader)
        rows = []
        # lines end in LF, CR LF or CR here, and no field of these captures has a line end
        for row in reader:
            if row:
                rows.append((reader.line_num, row))
    rows.sort(key=lambda found: turn_of(found[1]))
    return [RESET if row[1] == RESET else beat_of(line, row) for line, row in rows]


def turn_of(row):
    """Where a row stands in the order in which beats and resets cross."""
    time, link, channel = row[:3]
    return (int(time), -1, 0) if link == RESET else (int(time), CROSSING[channel, link[0]], int(link[1:]))


def beat_of(line, row):
    time, link, channel, opcode, param, size, source, address, mask, data, denied, corrupt = row
    number, known = lanes_of(data)
    side, link_number = tlx.link_of(link)
    # an empty flag is the one that the message must have: of a denied AccessAckData 1
    marked = corrupt or str(int((channel, opcode, denied) == ("D", "1", "1")))
    return tlx.Beat(side, link_number, tlx.Channel[channel], int(opcode), int(size), int(source), int(address or "0", 16), int(mask or "0", 16),
                    number, int(param or 0), denied == "1", marked == "1", known, line, int(time))


def hand_in(judge, beats, is_array):
    """Gives the judge these beats and resets: the beats between two resets one by one, or as one array."""
    for is_reset, part in itertools.groupby(beats, lambda beat: beat is RESET):
        if is_reset:
            for _ in part:
                judge.reset()
        elif is_array:
            judge.steps(tlx.Beats(list(part)))
        else:
            for beat in part:
                judge.step(beat)


def is_watched(judge, beat):
    return beat is RESET or judge.links in ("both", "each") or (judge.links == "masters") == (beat.side == tlx.Side.MASTER)


def verdict_of(judge, beats, is_array, is_complete):
    """The line that tlcheck prints of these beats; those of links that are not watched are counted alone."""
    try:
        hand_in(judge, [beat for beat in beats if is_watched(judge, beat)], is_array)
        if is_complete:
            judge.end()
    except tlx.Unlawful as found:
        is_beat = (found.line, found.time) in {(beat.line, beat.time) for beat in beats if beat is not RESET}
        return (found.text if is_beat else f"of another beat: {found.text}"), found
    except tlx.Incomplete as left:
        return left.text, None
    if is_complete and not judge.requests:
        return "empty: no request", None
    return f"lawful: {len(beats)} rows, {judge.requests} requests, {judge.answered} answered", None


def option(words, name, default):
    return words[words.index(name) + 1] if name in words else default


def main():
    tally, met = Tally("captures"), set()
    folder = pathlib.Path(sys.argv[1])
    for path in sorted([*folder.glob("captures/*.verdict"), *folder.glob("systems/*/*.verdict")]):
        wanted = path.read_text().splitlines()[-1]
        if wanted.startswith("capture:"):
            continue
        words = path.with_suffix(".args").read_text().split() if path.with_suffix(".args").exists() else []
        if "--within" in words:
            continue
        # its own, that of all captures whose names begin with its first word, or that of its folder
        names = (f"{path.stem}.toml", f"{path.stem.split('_')[0]}.toml", "system.toml")
        system = tlx.System.read(next(path.with_name(name) for name in names if path.with_name(name).exists()))
        beats = rows_of(path.with_suffix(".csv"))
        for is_array in (False, True):
            with tlx.Judge(system, option(words, "--links", "both"), option(words, "--order", "accept")) as judge:
                verdict, found = verdict_of(judge, beats, is_array, "--complete" in words)
            tally.tell(f"{path.stem}{' as an array' if is_array else ''}", verdict == wanted, f"{verdict!r}, and not {wanted!r}")
            if found:
                met.add(found.fault)
                tally.tell(f"the words of {found.fault.name}", f": {found.fault.words}" in found.text)
    of_beats = {fault for fault in tlx.Fault if tlx.Fault.NO_LINK < fault < tlx.Fault.INCOMPLETE} | {tlx.Fault.OUT_OF_ORDER}
    tally.tell("each fault of a beat", met == of_beats)


if __name__ == "__main__":
    run_test(main)
