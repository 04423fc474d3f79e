#!/usr/bin/env python3
"""Compares the model with traces: traces.py FOLDER [COUNT], of the examples of a folder and of the serial runs of random scripts.

Each line of a trace is a request and its answer: the model is asked the one, and must give the other. A script with an odd seed is one of
tests/hostile/random_captures, one with an even seed is of tests/hostile/hostile: what tlx refuses since it is no TOML, and nothing else, the package
must refuse so too. It needs the built program (./tlx builds it; TLX=path takes another).
"""

import concurrent.futures
import pathlib
import random
import re
import subprocess
import sys

import hostile
import random_captures
import tlx
from harness import run_test
from tally import Tally
from tlxtools.common import OPERATIONS, REPLIES, SECONDS, TLX

LINE = re.compile(r"m(\d+) s(\d+) (\w+) 0x([0-9a-f]+) (\d)(?: ([0-9a-f-]+))? -> (\w+)( denied)?(?: ([0-9a-f]+))? p(\d+) #(\d+)")


def asked(line):
    """The master, the request and the answer of a line of a trace."""
    master, source, name, address, size, word, reply, denied, answer, port, place = LINE.fullmatch(line).groups()
    opcode, param = OPERATIONS[name]
    pairs = [word[at:at + 2] for at in range(0, len(word or ""), 2)]
    data = bytes(0 if pair == "--" else int(pair, 16) for pair in pairs)
    mask = sum((pair != "--") << k for k, pair in enumerate(pairs)) if name == "putpart" else None
    request = tlx.Request(opcode, int(address, 16), int(size), int(source), data, param, mask)
    wanted = tlx.Answer(tlx.Reply(REPLIES[reply]), int(size), int(source), bool(denied), bytes.fromhex(answer or ""), int(port), int(place),
                        (1 << len(answer or "") // 2) - 1)
    return int(master), request, wanted


def differs(script, lines):
    """The first line of a trace that the model of the script answers otherwise, with its answer; None if there is none."""
    with tlx.Model(tlx.System(script)) as model:
        for line in lines:
            master, request, wanted = asked(line)
            answer = model.serve(master, request)
            if answer != wanted:
                return line, answer
    return None


def refusal_of(script):
    """The line of the fault that the package finds in the system of a script; none if it finds none."""
    try:
        tlx.System(script)
    except tlx.InvalidSystem as found:
        return str(found)
    return None


def try_script(script):
    """What went wrong with a script, if anything did, and whether tlx ran it."""
    run = subprocess.run([TLX, "--serial"], input=script, capture_output=True, timeout=SECONDS, check=False)
    if run.returncode == 0:
        return differs(script, run.stdout.decode().splitlines()), True
    if run.returncode != 1:
        return f"tlx ended with status {run.returncode}", False
    # slots and operations are nothing to a system, and its limits are wider
    found, line = refusal_of(script), run.stderr.decode().strip()
    is_same = (found == "system: not TOML") == (line == "script: not TOML")
    return None if is_same else f"{found!r} beside {line!r}", False


def try_seed(seed):
    if seed % 2:
        script = random_captures.script_of(random.Random(seed)).encode()
    else:
        script = hostile.script_of(seed, hostile.examples())
    return seed, *try_script(script)


def main():
    tally, folder = Tally("traces"), pathlib.Path(sys.argv[1])
    for path in sorted(folder.glob("*.trace")):
        found = differs(path.with_suffix(".toml").read_bytes(), path.read_text().splitlines())
        tally.tell(path.stem, found is None, f"{found}")
    count, ran = int(sys.argv[2]) if sys.argv[2:] else 1000, 0
    with concurrent.futures.ProcessPoolExecutor() as pool:
        for seed, found, is_good in pool.map(try_seed, range(count), chunksize=16):
            tally.tell(f"seed {seed}", found is None, f"{found}")
            ran += is_good
    print(f"{ran} of {count} random scripts ran")


if __name__ == "__main__":
    run_test(main)
