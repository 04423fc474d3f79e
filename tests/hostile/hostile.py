"""Runs hostile scripts, system files, captures and dumps, and judges what the programs make of each: tests/hostile/hostile [COUNT [FIRST_SEED]].

The script of a seed is random bytes, random words of scripts, an example with bytes or lines changed, or a script of random
values, lawful ones up to each limit or also some beyond. It runs on one thread and by threads, with histories and a random number
of threads a port. The program must end within a minute in one of two ways. With status 0 there is nothing on standard error, and
lines of the formats that agree in both runs. With status 1 there is nothing on standard output, and one line of docs/reference/faults.md,
the same in both runs. Each seed is also one of a system file and a capture (tests/hostile/hostile_systems.py), and of three dumps
(tests/hostile/hostile_dumps.py).
The gate runs seeds 0 to 999; tests/hostile/hostile 100000 takes some minutes more. It needs the built programs (./tlx, ./tlcheck and ./tlvcd build them;
TLX=path, TLCHECK=path and TLVCD=path take others).
"""

import collections
import concurrent.futures
import os
import random
import re
import subprocess
import sys
import tempfile

import hostile_dumps
import hostile_systems
from harness import need, run_test, tell
from tlxtools.common import KEYS, LONGEST_SCRIPT, OPERATIONS, REPLIES, SECONDS, TLCHECK, TLVCD, TLX, TOP, carries_data

KEY = "|".join(key for keys in KEYS.values() for key in keys)
FAULT = re.compile(
    rf"script: (longer than {LONGEST_SCRIPT} bytes|not TOML|missing ({KEY})|wrong type of ({KEY})|({KEY}) out of range"
    r"|master \d+ operation \d+: bad operation|too many ports|port \d+: empty range|port \d+: past the end"
    r"|ports \d+ and \d+ overlap|too many masters or sources|master \d+: no source)\n")
MESSAGE = (rf"(?P<ask>({'|'.join(OPERATIONS)}) 0x(0|[1-9a-f][0-9a-f]*) [0-9]( ([0-9a-f]{{2}}|--)+)?)"
           rf" -> (?P<reply>({'|'.join(REPLIES)})( denied)?( ([0-9a-f]{{2}})+)?)")
TRACE = re.compile(rf"m(?P<master>\d+) s(?P<source>\d+) {MESSAGE} (?P<at>p\d+ #\d+)")
HISTORY = re.compile(rf"(?P<at>p\d+ #\d+) w\d+ {MESSAGE}")
ACCOUNT = re.compile(r"free (\d+) held 0")

WORDS = ["slots", "port", "master", "kind", "base", "length", "reset", "sources", "ops", "=", "=", "[[port]]", "[[master]]",
         "[", "]", "{", "}", ",", "\n", "\n", " ", "0", "1", "4", "-1", "257", "65537", "0x1000", "1.5", "true", "1979-05-27",
         "'ram'", '"rom"', "'regs'", "'w1c'", "'00ff'", "'0 get 0x1000 2'", "['wait']", "'''", '"""', "#", "\\", "\0", "é"]


def examples():
    folder = os.path.join(TOP, "examples")
    scripts = []
    for name in sorted(os.listdir(folder)):
        if name.endswith(".toml"):
            with open(os.path.join(folder, name), "rb") as script:
                scripts.append(script.read())
    return scripts


def changed(rng, script):
    """A script with bytes changed, left out or put in, and lines dropped, doubled or exchanged."""
    for _ in range(rng.randint(0, 2)):
        lines = script.splitlines(keepends=True)
        at, other = rng.randrange(len(lines)), rng.randrange(len(lines))
        lines[at:at + 1] = rng.choice([[], [lines[at]] * 2, [lines[other]]])
        script = b"".join(lines) or b"\n"
    changed_script = bytearray(script)
    for _ in range(rng.randint(0, 4)):
        at = rng.randrange(len(changed_script) + 1)
        changed_script[at:at + rng.randint(0, 2)] = rng.choice([b"", bytes([rng.randrange(256)]), b"0", b"9", b"-", b"'", b"[", b"="])
    return bytes(changed_script)


def operation(rng, wild):
    """A line of an operation of a master with two sources: lawful, or else with values beyond their limits."""
    if rng.random() < 0.1:
        return rng.choice(["wait", "waits", "", " ", "0", "0 get", "0 got 0x1000 2", "0 get 0x1000 2 00"] if wild else ["wait", " wait\t"])
    name = rng.choice(list(OPERATIONS))
    size = rng.choice([0, 1, 2, 2, 3, 3, 4, 5, 6, 7, 8] + [9] * wild)
    address = rng.choice([0x1000, 0x1004, 0x1001, 0x103f, 0x1008, 0x2000, 0x3000, 0x4000, 0, 2 ** 64 - 1, 2 ** 64 - 8] + [2 ** 64, 2 ** 70] * wild)
    words = [str(rng.choice([0, 1] + [2, 300, -1] * wild)), name, rng.choice([str(address), hex(address)]), str(size)]
    if carries_data(name):
        count = rng.randrange(300) if wild and rng.random() < 0.2 else 2 ** size
        holes = 0.3 if name == "putpart" or (wild and rng.random() < 0.2) else 0
        words.append("".join("--" if rng.random() < holes else f"{rng.randrange(256):02x}" for _ in range(count)))
    return rng.choice([" ", " ", " ", "  ", "\t"]).join(words)


def valued(rng, wild):
    """A script whose keys have random values, many of them at a limit: lawful, or else some of them beyond."""
    text = [f"slots = {rng.choice([1, 1, 2, 4, 256] + [0, 257, -1] * (wild and rng.random() < 0.1))}"]
    for place in range(rng.choice([0, 1, 2, 3, 3, 15] + [16, 18] * (wild and rng.random() < 0.2))):
        odd = wild and rng.random() < 0.1
        kind = rng.choice(["RAM", "none"] if odd and rng.random() < 0.3 else ["ram", "ram", "rom", "regs", "w1c"])
        base = rng.choice([0x1000, 0x1020, 2 ** 63 - 1, 2 ** 63, -1] if odd else [0x1000 * (place + 1)])
        length = rng.choice([0, 65536, 65537] if odd and rng.random() < 0.5 else [64, 64, 64, 16, 4096, 1])
        text.append(f"[[port]]\nkind = '{kind}'\nbase = {base}\nlength = {length}")
        if rng.random() < 0.2:
            text.append(f"reset = '{rng.choice(['0', '0g', 'FF' * 5000] if odd else ['', 'fF'])}'")
    for _ in range(rng.choice([1, 1, 2, 4, 16] + [0, 17] * (wild and rng.random() < 0.2))):
        sources = rng.choice([0, 1, 257, 65536] if wild and rng.random() < 0.1 else [2, 16, 256])
        lines = ", ".join(f"'{operation(rng, wild and rng.random() < 0.1)}'" for _ in range(rng.choice([0, 1, 5, 40])))
        text.append(f"[[master]]\nsources = {sources}\nops = [{lines}]")
    return "\n".join(text).encode()


def script_of(seed, scripts):
    rng = random.Random(seed)
    kind = seed % 5
    if kind == 0:
        return rng.randbytes(rng.randrange(400))
    if kind == 1:
        return " ".join(rng.choice(WORDS) for _ in range(rng.randrange(60))).encode()
    if kind == 2:
        return changed(rng, rng.choice(scripts))
    return valued(rng, kind == 3)


def run(words, script):
    try:
        done = subprocess.run([TLX, *words], input=script, capture_output=True, timeout=SECONDS, check=False)
    except subprocess.TimeoutExpired:
        return "it had not ended", "", ""
    return done.returncode, done.stdout.decode("utf-8", "replace"), done.stderr.decode("utf-8", "replace")


def parsed(out, threaded):
    """The entries of a trace by master and source, or none if a line has no form or an entry is not in its history."""
    lines = out.split("\n")
    if lines.pop() != "" or (threaded and (not lines or not ACCOUNT.fullmatch(lines.pop()))):
        return None
    entries, traced, served = collections.defaultdict(list), [], []
    for line in lines:
        entry = None if served else TRACE.fullmatch(line)
        place = HISTORY.fullmatch(line)
        if entry:
            entries[int(entry["master"]), int(entry["source"])].append(entry["ask"])
            traced.append((entry["at"], entry["ask"], entry["reply"]))
        elif place:
            served.append((place["at"], place["ask"], place["reply"]))
        else:
            return None
    return entries if sorted(traced) == sorted(served) else None


def judge(seed, scripts):
    """What is wrong with the runs of a seed's script, and the status that they ended with."""
    script = script_of(seed, scripts)
    serial = run(["--serial", "--history"], script)
    threads = run(["--history", "--workers", str(seed % 4 + 1)], script)
    if serial[0] != threads[0] or serial[2] != threads[2]:
        return f"on one thread {serial}, by threads {threads}", serial[0]
    if serial[0] == 1:
        well = serial[1] == threads[1] == "" and FAULT.fullmatch(serial[2])
    elif serial[0] == 0:
        entries = parsed(serial[1], False)
        well = serial[2] == "" and entries is not None and entries == parsed(threads[1], True)
    else:
        well = False
    return ("" if well else f"on one thread {serial}, by threads {threads}"), serial[0]


def main():
    count, first = (int(word) for word in (sys.argv[1:] + ["1000", "0"][len(sys.argv) - 1:]))
    need(TLX, TLCHECK, TLVCD)
    once, thrice = range(first, first + count), range(3 * first, 3 * (first + count))
    with concurrent.futures.ThreadPoolExecutor(os.cpu_count()) as pool, tempfile.TemporaryDirectory() as folder:
        hostile_systems.put_images(folder)
        scripts, systems, dumps = examples(), hostile_systems.examples(), hostile_dumps.examples()
        for name, seeds, program, files_of in (
                ("scripts", once, lambda seed: judge(seed, scripts), lambda seed: script_of(seed, scripts)),
                ("systems", once, lambda seed: hostile_systems.judge(seed, systems, folder), lambda seed: hostile_systems.files_of(seed, systems)),
                ("dumps", thrice, lambda seed: hostile_dumps.judge(seed, dumps, folder), lambda seed: hostile_dumps.files_of(seed, dumps))):
            statuses = collections.Counter()
            for seed, (wrong, status) in zip(seeds, pool.map(program, seeds)):
                statuses[status] += 1
                tell(f"{name}, seed {seed}", not wrong, wrong and f"{files_of(seed)!r}\n  {wrong}")
            print(f"{name}: {', '.join(f'{number} ended with status {status}' for status, number in sorted(statuses.items(), key=str))}")


if __name__ == "__main__":
    run_test(main)
