"""Runs the built programs with streams that are slow, are interrupted, or fail at each place in turn: tests/hostile/disturb_streams/run, from anywhere.

A small library that is preloaded (disturb.c; the compiler `cc` builds it) stands between a program and its reads and writes. Each run is
compared as a whole with what was worked out by hand: the status, standard output, the line on standard error, and the files that are left;
in some also how often a stream was called. The runs of tlcheck stand in check_runs.py, those of tlvcd in dump_runs.py and those of tlx in
script_runs.py. It needs the built programs (./tlx, ./tlcheck and ./tlvcd build them; TLX=path, TLCHECK=path and TLVCD=path take others). The
last line is 'N passed, M failed'.
"""

import os
import subprocess
import tempfile

import check_runs
import dump_runs
import script_runs
from harness import need, run_test, side_by_side, tell
from tlxtools.common import SECONDS, TLCHECK, TLVCD, TLX

HERE = os.path.dirname(os.path.realpath(__file__))


def put_files(folder, files):
    """Puts the files of a run into its folder. A file of nothing is not there; FOLDER is the path of the folder."""
    for name, content in files.items():
        if content is not None:
            with open(os.path.join(folder, name), "wb") as file:
                file.write(content.replace(b"FOLDER", folder.encode()))


def content_of(path):
    """What a file holds, or None if it is not there."""
    try:
        with open(path, "rb") as file:
            return file.read()
    except FileNotFoundError:
        return None


def calls_of(path):
    """How often each stream was called."""
    lines = [line.split() for line in (content_of(path) or b"").decode().splitlines()]
    return {name: int(calls) for name, calls in lines}


def end_of(shim, it):
    """How a run ends, with the files and the calls that its wanted end names."""
    with tempfile.TemporaryDirectory() as folder:
        put_files(folder, it.files)
        streams = "\n".join(f"{name} {flow.step} {flow.trouble} {flow.number}" for name, flow in it.flows.items())
        ran = subprocess.run(it.command, input=it.given, cwd=folder, capture_output=True, timeout=SECONDS, check=False,
                             env={"LD_PRELOAD": shim, "STREAMS": streams, "CALLS": os.path.join(folder, "calls.txt")})
        calls = calls_of(os.path.join(folder, "calls.txt"))
        return it.end._replace(status=ran.returncode, out=ran.stdout, err=ran.stderr,
                               files={name: content_of(os.path.join(folder, name)) for name in it.end.files},
                               calls={name: calls.get(name) for name in it.end.calls})


def judge(shim, it):
    """What a run lacks, or an empty text."""
    try:
        found = end_of(shim, it)
    except subprocess.TimeoutExpired:
        return "it had not ended"
    return "" if found == it.end else f"wanted {it.end}\n  found {found}"


def main():
    need(TLX, TLCHECK, TLVCD)
    runs = [*script_runs.runs(), *check_runs.runs(), *dump_runs.runs()]
    with tempfile.TemporaryDirectory() as folder:
        shim = os.path.join(folder, "disturb.so")
        subprocess.run(["cc", "-O1", "-shared", "-fPIC", "-o", shim, os.path.join(HERE, "disturb.c")], check=True)
        for it, lack in zip(runs, side_by_side(judge, [(shim, it) for it in runs])):
            tell(it.name, not lack, lack)


if __name__ == "__main__":
    run_test(main)
