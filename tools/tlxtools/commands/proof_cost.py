"""What the proof of a crate costs, function by function: tools/proof_cost NAME [--test] [--all], from anywhere.

Checks the crate from nothing on one processor, as `rt ci` does, and leaves out/ as it was. The crates below it have to be
built (`rt check` in the crate's folder builds them). Prints the processor seconds of each function, the dearest first: those
above one second, with --all each. With --test the tests are checked too. The first function of a module or a library also
pays for what is read then. A busy machine adds up to a half to all times. The last line has how many nodes the prover
made: that number does not depend on how busy the machine is. The status is that of the check.
"""
import os
import resource
import subprocess
import sys
import tempfile

from tlxtools.kit import kit_crate, rattle

TICKS = os.sysconf("SC_CLK_TCK")
# Functions below this number of seconds are left out of the table.
LEAST = 1.0
USAGE = 64


def seconds_of(pid):
    """The processor seconds of a process and of its children that have ended, or none if it has ended."""
    try:
        with open(f"/proc/{pid}/stat") as it:
            fields = it.read().rpartition(")")[2].split()
        return sum(map(int, fields[11:15])) / TICKS
    except (OSError, IndexError):
        return None


def check(crate, tests, stages):
    """Checks the crate from nothing. The answer is the seconds of each function in order, what was said, and the status."""
    words = crate.words(["--jobs", "1"], tests=tests, keeps=False) + ["--progress", "--stage-times", stages]
    functions, said, last = [], [], 0.0
    with subprocess.Popen([rattle(), "check", *words], cwd=crate.folder, stdin=subprocess.DEVNULL,
                          stdout=subprocess.PIPE, stderr=subprocess.STDOUT, text=True, errors="replace") as run:
        for line in run.stdout:
            now = seconds_of(run.pid) or last
            if line.startswith("checked "):
                functions.append((now - last, line.split()[1].rstrip(",")))
            else:
                said.append(line)
            last = now
    return functions, said, run.returncode


def main():
    names = [word for word in sys.argv[1:] if not word.startswith("--")]
    if len(names) != 1 or set(sys.argv[1:]) - {*names, "--test", "--all"}:
        print(__doc__, end="", file=sys.stderr)
        return USAGE
    crate = kit_crate(names[0])
    if crate is None:
        print(f"proof_cost: there is no crate {names[0]}", file=sys.stderr)
        return USAGE
    with tempfile.NamedTemporaryFile("r", prefix="proof-cost-") as stages:
        functions, said, status = check(crate, "--test" in sys.argv, stages.name)
        lines = [line.split() for line in stages]
    if status:
        print("".join(said), end="", file=sys.stderr)
    for seconds, name in sorted(functions, reverse=True):
        if seconds >= LEAST or "--all" in sys.argv:
            print(f"{seconds:8.1f} {name}")
    used = resource.getrusage(resource.RUSAGE_CHILDREN)
    nodes = next((words[2] for words in lines if words[:2] == ["arena", "nodes"]), "?")
    print(f"{used.ru_utime + used.ru_stime:8.1f} in all: {len(functions)} functions, {nodes} nodes, status {status}")
    return status
