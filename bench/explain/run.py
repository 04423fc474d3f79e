"""Measures tools/explain on a capture of 1,000,000 rows whose last reply but one has a wrong byte: the time and the peak of memory, also of the
programs that it runs. The capture is that of bench/check, of two masters that write and read words at two ports. Build tlcheck first (./tlcheck on
any capture), or name one by TLCHECK. `run ROUNDS` sets how many rounds there are (5).
"""

import os
import resource
import subprocess
import sys
import tempfile
import time

from maker import SYSTEM, make

HERE = os.path.dirname(os.path.realpath(__file__))
TOP = os.path.dirname(os.path.dirname(HERE))
EXPLAIN = os.path.join(TOP, "tools", "explain")
ROWS = 1_000_000


def spoiled(path):
    """Changes the highest byte of the last reply at a port, which is zero."""
    with open(path, encoding="ascii") as file:
        rows = file.readlines()
    cells = rows[-2].split(",")
    cells[9] = "ff" + cells[9][2:]
    rows[-2] = ",".join(cells)
    with open(path, "w", encoding="ascii") as file:
        file.writelines(rows)


def main():
    rounds = int(sys.argv[1]) if sys.argv[1:] else 5
    with tempfile.TemporaryDirectory() as folder:
        system, capture = os.path.join(folder, "system.toml"), make(folder, ROWS)
        with open(system, "w", encoding="ascii") as file:
            file.write(SYSTEM)
        spoiled(capture)
        took = []
        for _ in range(rounds):
            began = time.monotonic()
            done = subprocess.run([EXPLAIN, system, capture], capture_output=True, text=True, check=False)
            took.append(time.monotonic() - began)
            if done.returncode != 3 or f"line {ROWS}, " not in done.stdout:
                sys.exit(f"status {done.returncode}: {done.stdout}{done.stderr}")
        most = resource.getrusage(resource.RUSAGE_CHILDREN).ru_maxrss
        print(f"{ROWS:,} rows: {min(took):.1f} s at least, {sorted(took)[rounds // 2]:.1f} s in the middle; {most / 1024:.0f} MiB at most")
    return 0


if __name__ == "__main__":
    sys.exit(main())
