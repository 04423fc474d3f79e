"""Prints what a request of a run by threads costs, beside one round trip over bounded channels between two sleeping
threads of a plain Rust program, measured by turns in the same run; and the processor time of both.

Four masters send to four ports of their own: with one source out a master (a wait after each request), and with sixteen
out over 64 slots. A request's time is the wall time of the run, less that of the same script by `--serial` (reading and
printing), for each request of a master: the masters run at once. It needs python3, rustc and the built program (./tlx
builds it; TLX=path takes another).
"""
import os
import resource
import subprocess
import sys
import tempfile
import time

from tlxtools.common import TLX

HERE = os.path.dirname(os.path.realpath(__file__))
MASTERS, REQUESTS, ROUNDS = 4, 2000, 5


def script(sources):
    """A script whose masters have this many sources, and send from each in turn; with one, a wait follows each request."""
    ports = ", ".join(
        f"{{ kind = 'ram', base = {0x1000 * (p + 1):#x}, length = 64 }}" for p in range(MASTERS))
    masters = []
    for m in range(MASTERS):
        ops = []
        for k in range(REQUESTS):
            ops.append(f"'{k % sources} add {0x1000 * (m + 1):#x} 2 01000000'")
            if sources == 1:
                ops.append("'wait'")
        masters.append(f"{{ sources = {sources}, ops = [{', '.join(ops)}] }}")
    slots = 4 if sources == 1 else 64
    return f"slots = {slots}\nport = [{ports}]\nmaster = [{', '.join(masters)}]\n".encode()


def timed(words, text=None):
    """The wall time and the processor time of one run, in seconds, and its output."""
    before = resource.getrusage(resource.RUSAGE_CHILDREN)
    start = time.perf_counter()
    done = subprocess.run(words, input=text, stdout=subprocess.PIPE, check=True)
    wall = time.perf_counter() - start
    after = resource.getrusage(resource.RUSAGE_CHILDREN)
    cpu = after.ru_utime + after.ru_stime - before.ru_utime - before.ru_stime
    return wall, cpu, done.stdout


def main():
    if not os.access(TLX, os.X_OK):
        sys.exit(f"{TLX} is not built: run ./tlx < examples/first.toml")
    with tempfile.TemporaryDirectory() as folder:
        peer = os.path.join(folder, "round_trip")
        subprocess.run(["rustc", "-O", "-o", peer, os.path.join(HERE, "round_trip.rs")], check=True)
        for sources, aim in ((1, 1.5), (16, 0.5)):
            text = script(sources)
            trips, threaded, serial, cpu = [], [], [], []
            for _ in range(ROUNDS):
                trips.append(float(timed([peer, str(MASTERS)])[2]))
                wall, used, out = timed([TLX], text)
                assert out.endswith(f"free {4 if sources == 1 else 64} held 0\n".encode())
                threaded.append(wall)
                cpu.append(used)
                serial.append(timed([TLX, "--serial"], text)[0])
            trip = min(trips)
            each = (min(threaded) - min(serial)) / REQUESTS * 1e9
            print(f"{sources:2} out a master: {each:8.0f} ns a request, a round trip {trip:8.0f} ns, "
                  f"{each / trip:5.2f} round trips (aim {aim}); processor time "
                  f"{min(cpu) / REQUESTS / MASTERS * 1e9:8.0f} ns a request")


main()
