"""Tests tools/stimulate: the same words give the same script, tlx runs each script, and all that a mix asks for is there.

The sums of scripts are stored here, so that a script that another machine or version of Python makes otherwise is found. The last line is
'N passed, M failed'. It needs the built programs (./tlx and ./tlcheck build them; TLX=path and TLCHECK=path take others).
"""

import hashlib
import os
import re
import shutil
import subprocess
import tempfile
import tomllib

from harness import run_test, tell
from tlxtools import capture
from tlxtools.common import HEADER, OPERATIONS, SECONDS, TLCHECK, TLX, TOP, carries_data

STIMULATE = os.path.join(TOP, "tools", "stimulate")
COVERAGE = os.path.join(TOP, "tools", "coverage")
# The kinds of bins that a run of one request after the other can hit.
SERIAL = ("asked", "answered", "beats", "mask", "source", "range", "edge", "refused", "lane", "after")
RTL = os.path.join(TOP, "examples", "rtl", "system.toml")
CONTROLLER = os.path.join(TOP, "examples", "systems", "microcontroller", "system.toml")
# What the SHA-256 of a script begins with, by the words that it was made with.
SUMS = {(RTL, 1, 400, "tlx"): "d74fd2205178d63f", (RTL, 18446744073709551615, 50, "tlx"): "4eba361ae57be1e9", (CONTROLLER, 7, 300, "judge"): "06babf5012cefd0f"}
SEEDS = range(20)
OPERATIONS_A_SEED = 400


def run(*words):
    return subprocess.run([STIMULATE, *map(str, words)], capture_output=True, text=True, timeout=SECONDS, check=False)


def script(system, seed, count, *words):
    return run(system, "--seed", seed, "--ops", count, *words).stdout


def lines_of(text):
    """The operations of a script, with their masters."""
    return [(number, line) for number, master in enumerate(tomllib.loads(text)["master"]) for line in master["ops"]]


def mixed(folder, text, count=300):
    """The operations of a script with a mix, without waits."""
    path = os.path.join(folder, "mix.toml")
    with open(path, "w", encoding="utf-8") as file:
        file.write(text)
    return [line.split() for _, line in lines_of(script(RTL, 3, count, "--mix", path)) if line != "wait"]


def check_sums():
    for (system, seed, count, limits), wanted in SUMS.items():
        text = script(system, seed, count, "--limits", limits)
        tell(f"the script of seed {seed} is the stored one", hashlib.sha256(text.encode()).hexdigest().startswith(wanted))
        tell(f"seed {seed}: the same twice", text and text == script(system, seed, count, "--limits", limits))
        tell(f"seed {seed}: so many operations", sum(line != "wait" for _, line in lines_of(text)) == count)


def shape_of(data):
    """The shape of a partial put's mask, if it is a plain one."""
    is_set = [data[at:at + 2] != "--" for at in range(0, len(data), 2)]
    count, half = len(is_set), len(is_set) // 2
    shapes = {"all": all(is_set), "none": not any(is_set), "one": sum(is_set) == 1, "hole": sum(is_set) == count - 1,
              "low": is_set == [k < half for k in range(count)], "high": is_set == [k >= half for k in range(count)],
              "even": is_set == [k % 2 == 0 for k in range(count)], "odd": is_set == [k % 2 == 1 for k in range(count)]}
    return {name for name, is_so in shapes.items() if is_so} if count >= 4 else set()


def place_of(address, size):
    """Where a request of the system of examples/rtl lies."""
    reach, found = 1 << size, set()
    for low, high in ((0x1000, 0x1100), (0x2000, 0x2080)):
        if low <= address and address + reach <= high:
            found |= {"inside"} | ({"edge"} if address == low or address + reach == high else set())
        elif address < high and address + reach > low:
            found.add("straddle")
    return (found or {"unmapped"}) | ({"unaligned"} if address % reach else set())


def check_kinds():
    """Twenty scripts together have each operation at each master, each size, place and shape, waits, and sources again and next."""
    texts = [script(RTL, seed, OPERATIONS_A_SEED) for seed in SEEDS]
    tell("no two seeds have one script", len(set(texts)) == len(SEEDS))
    found = [(master, line.split()) for text in texts for master, line in lines_of(text)]
    asks = [(master, words) for master, words in found if words != ["wait"]]
    tell("each operation at each master", {(master, words[1]) for master, words in asks} == {(m, name) for m in (0, 1) for name in OPERATIONS})
    for carries in (True, False):
        sizes = {words[3] for _, words in asks if carries_data(words[1]) == carries}
        tell(f"each size, {'with' if carries else 'without'} data", sizes == set("012345678"))
    places = set().union(*(place_of(int(words[2], 0), int(words[3])) for _, words in asks))
    tell("each place", places == {"inside", "edge", "straddle", "unmapped", "unaligned"})
    shapes = set().union(*(shape_of(words[4]) for _, words in asks if words[1] == "putpart"))
    tell("each shape of a mask", shapes == {"all", "none", "one", "hole", "low", "high", "even", "odd"})
    tell("atomics that are not served", any(words[1] == "add" and words[3] not in "23" for _, words in asks))
    tell("waits", 0.05 < 1 - len(asks) / len(found) < 0.15)
    moves = {(master, (int(words[0]) - int(last[0])) % (12, 5)[master]) for (master, words), (other, last) in zip(asks[1:], asks) if master == other}
    tell("sources again and next", {(0, 0), (0, 1), (1, 0), (1, 1)} <= moves)
    hot = {(words[2], words[1] in ("add", "swap")) for _, words in asks}
    tell("words of puts that atomics have too", len({address for address, _ in hot}) < len(hot))
    for seed, text in zip(SEEDS, texts):
        done = subprocess.run([TLX, "--serial"], input=text, capture_output=True, text=True, timeout=SECONDS, check=False)
        tell(f"tlx runs the script of seed {seed}", done.returncode == 0 and len(done.stdout.splitlines()) == OPERATIONS_A_SEED, done.stderr)


def check_mixes():
    with tempfile.TemporaryDirectory() as folder:
        for name in OPERATIONS:
            others = ", ".join(f"{other} = {int(other == name)}" for other in OPERATIONS)
            tell(f"a mix of {name} alone", {words[1] for words in mixed(folder, f"operations = {{{others}}}", 30)} == {name})
        weights = "places = {hot = 0, anywhere = 0, edge = 0, straddle = 0, unaligned = 0, unmapped = 1}\natomic_places = {hot = 0, anywhere = 0, " \
                  "edge = 0, straddle = 0, unaligned = 0, unmapped = 1}"
        tell("a mix of unmapped alone", {place for words in mixed(folder, weights) for place in place_of(int(words[2], 0), int(words[3]))} ==
             {"unmapped"})
        tell("a mix of what is served", all(words[3] in "23" for words in mixed(folder, "supported = 100") if words[1] in ("add", "swap", "min")))
        sizes = "".join(f"{k} = {int(k == 5)}\n" for k in range(9))
        tell("a mix of one size", {words[3] for words in mixed(folder, 'supported = 0\n[sizes]\n' + sizes)} == {"5"})
        tell("a mix without waits", len(mixed(folder, "wait = 0")) == 300)
        for text, why in (("waits = 1", "there is no waits"), ("[sizes]\n9 = 1", "there is no sizes.9"), ("wait = -1", "wait is a whole number"),
                          ("wait = 1.5", "wait is a whole number"), ("wait = true", "wait is a whole number"), ("sizes = 3", "sizes is a table"),
                          ("wait", "mix.toml: ")):
            mixed_path = os.path.join(folder, "mix.toml")
            with open(mixed_path, "w", encoding="utf-8") as file:
                file.write(text)
            done = run(RTL, "--seed", 1, "--ops", 1, "--mix", mixed_path)
            tell(f"a mix {text!r} is refused", done.returncode == 2 and why in done.stderr and not done.stdout, done.stderr)


def check_words():
    """What is refused, and by which status; and what only a judge takes."""
    for words, status, why in (
            ((RTL, "--ops", 1), 2, "--seed"), ((RTL, "--seed", 1), 2, "--ops"), ((RTL, "--seed", -1, "--ops", 1), 2, "seed"),
            ((RTL, "--seed", "x", "--ops", 1), 2, "no whole number"), ((RTL, "--seed", 1 << 64, "--ops", 1), 2, "no whole number"),
            ((RTL, "--seed", 1, "--ops", 1, "--limits", "both"), 2, "--limits"), (("/no/such", "--seed", 1, "--ops", 1), 1, "No such file"),
            ((os.path.join(TOP, "README.md"), "--seed", 1, "--ops", 1), 1, "is no system file"), ((RTL, "--seed", 1, "--ops", 9000), 1, "4096 at most"),
            ((CONTROLLER, "--seed", 1, "--ops", 1), 1, "15 at most"), ((RTL, "--seed", 1, "--ops", 1, "--mix", "/no/such"), 2, "No such file")):
        done = run(*words)
        tell(f"{words} are refused", done.returncode == status and why in done.stderr and not done.stdout, f"{done.returncode} {done.stderr}")
    text = script(CONTROLLER, 1, 500, "--limits", "judge")
    with tempfile.TemporaryDirectory() as folder:
        # beside the images that it names
        path = shutil.copytree(os.path.dirname(CONTROLLER), os.path.join(folder, "system")) + "/script.toml"
        with open(path, "w", encoding="ascii") as file:
            file.write(text)
        done = subprocess.run([TLCHECK, path], input=HEADER + "\n", capture_output=True, text=True, timeout=SECONDS, check=False)
    tell("a script for a judge is a system file", done.stdout == "lawful: 0 rows, 0 requests, 0 answered\n")
    with open(CONTROLLER, "rb") as file:
        before, after = tomllib.load(file), tomllib.loads(text)
    tell("the same bus", before["bus"] == after["bus"])
    tell("the same ports", before["port"] == after["port"])
    tell("the same masters", before["master"] == [{key: value for key, value in master.items() if key != "ops"} for master in after["master"]])
    tell("a port's second range", re.search(r"0x412[0-9a-f]{5} ", text))


def check_tables():
    """A mix of what is served keeps to the sizes of a slave's table; and what tlx does not know is refused for it."""
    port, master = '[[port]]\nkind = "{}"\nbase = 0x1000\nlength = 4096\n', "[[master]]\nsources = 2\n"
    with tempfile.TemporaryDirectory() as folder:
        system, mix = os.path.join(folder, "system.toml"), os.path.join(folder, "mix.toml")

        def words(text, limits):
            for path, content in ((system, text + master), (mix, "supported = 100\nwait = 0\n")):
                with open(path, "w", encoding="utf-8") as file:
                    file.write(content)
            return system, "--seed", 1, "--ops", 300, "--mix", mix, "--limits", limits

        text = port.format("ram") + "sizes = { get = [1, 2], putpart = [4, 4], logical = [3, 3] }\n"
        asks = [line.split() for _, line in lines_of(run(*words(text, "judge")).stdout)]
        sizes = {name: {int(ask[3]) for ask in asks if ask[1] == name} for name in OPERATIONS}
        tell("sizes of a table", (sizes["get"], sizes["putpart"], sizes["swap"]) == ({1, 2}, {4}, {3}), f"{sizes}")
        for why, text in (("sizes", text), ("image", port.format("rom") + 'image = "boot.bin"\n'), ("unknown", port.format("ram") + "unknown = true\n"),
                          ("mirror", port.format("ram") + "mirror = true\n"),
                          ("volatile", port.format("ram") + "volatile = [[0, 4]]\n"),
                          ("device", port.format("device"))):
            done = run(*words(text, "tlx"))
            tell(f"{why} is refused", done.returncode == 1 and f"port 0 has `{why}`" in done.stderr and not done.stdout, done.stderr)
            tell(f"{why} for a judge", run(*words(text, "judge")).returncode == 0)


def ports_with(*lines):
    """The tables of ports of one length, each with a line."""
    return "".join(f'[[port]]\nname = "port{number}"\nkind = "ram"\nbase = {0x1000 * (number + 1)}\nlength = 4096\n{line}'
                   for number, line in enumerate(lines))


def check_paths():
    """A master's operations are at the ports that it reaches, unless the mix asks for others."""
    masters = ('reach = ["port2", 0]\n', "reach = []\n", "")
    with tempfile.TemporaryDirectory() as folder:
        system, mix = os.path.join(folder, "system.toml"), os.path.join(folder, "mix.toml")

        def ports_of(text, weights):
            """The ports at which each master's operations are."""
            for path, content in ((system, text), (mix, weights)):
                with open(path, "w", encoding="utf-8") as file:
                    file.write(content)
            found = [set() for _ in masters]
            for master, line in lines_of(script(system, 1, 300, "--mix", mix)):
                if line != "wait":
                    found[master].add((int(line.split()[2], 0) >> 12) - 1)
            return found

        text = ports_with("", "", "") + "".join(f"[[master]]\nsources = 2\n{reach}" for reach in masters)
        weights = "".join(f"[{table}]\nstraddle = 0\nunmapped = 0\n" for table in ("places", "atomic_places"))
        inside = [{0, 2}, set(), {0, 1, 2}]
        tell("ports that are reached", [found & {0, 1, 2} for found in ports_of(text, weights)] == inside)
        alone = "".join(f"[{table}]\nhot = 0\nanywhere = 0\nedge = 0\nstraddle = 0\nunaligned = 0\nunmapped = 0\nunreached = 1\n"
                        for table in ("places", "atomic_places"))
        tell("ports that are not reached", [found & {0, 1, 2} for found in ports_of(text, alone)] == [{1}, {0, 1, 2}, set()])
        text = ports_with('hosts = ["b", 0]\n', 'sources = [{ master = "a", first = 0 }, { master = 2, first = 4, stride = 2 }]\n',
                          'crossing = "none"\n')
        text += "".join(f'[[master]]\nname = "{name}"\nsources = 2\n{reach}' for name, reach in zip("abc", ("", "", "reach = [1]\n")))
        tell("ports that list masters", [found & {0, 1, 2} for found in ports_of(text, weights)] == [{0, 1, 2}, {0, 2}, {1}])
        tell("ports that list others", [found & {0, 1, 2} for found in ports_of(text, alone)] == [set(), {1}, {0, 2}])
        tell("lists of masters and what crosses are kept", tomllib.loads(script(system, 1, 5))["port"] == tomllib.loads(text)["port"])


def check_no_paths():
    """Paths to ports that are not there, or of masters that are not, are refused."""
    one = "[[master]]\nsources = 1\n"
    with tempfile.TemporaryDirectory() as folder:
        system = os.path.join(folder, "system.toml")
        for said in (*(f"{one}reach = {reach}" for reach in ('["port3"]', "[3]", "[-1]", "1")),
                     *(f"{line}\n{one}" for line in ("hosts = ['host']", "hosts = [1]", "hosts = [-1]", "hosts = []", "hosts = 0", "sources = 1",
                                                     "sources = [{ master = 0 }]", "sources = [{ first = 0 }]"))):
            with open(system, "w", encoding="utf-8") as file:
                file.write(f'{ports_with("", "", "")}{said}\n')
            done = run(system, "--seed", 1, "--ops", 1)
            tell(f"{said} is refused", done.returncode == 1 and "is no system file" in done.stderr and not done.stdout, done.stderr)


def check_widths():
    """Sizes and addresses keep the widths that are asked for; without them some do not."""
    def reached(*words):
        asks = [line.split() for _, line in lines_of(script(RTL, 5, 600, "--limits", "judge", *words)) if line != "wait"]
        return max(int(ask[3]) for ask in asks), max(int(ask[2], 0) for ask in asks)

    size, address = reached()
    tell("all sizes and addresses", size == 8 and address >= 1 << 32)
    for most in (0, 3, 7):
        tell(f"sizes up to {most}", reached("--max-size", most)[0] == most)
    tell("addresses of 32 bits", reached("--address-bits", 32)[1] < 1 << 32)
    tell("the widths of all", reached("--max-size", 8, "--address-bits", 64) == (size, address))
    for words in (("--max-size", 9), ("--address-bits", 65)):
        tell(f"{words} is refused", run(RTL, "--seed", 1, "--ops", 1, *words).returncode == 2)


def report_of(folder, script_text=None):
    """What tools/coverage says of the serial run of a script, or of no run."""
    counts = os.path.join(folder, "counts")
    paths = [os.path.join(folder, name) for name in ("script.toml", "capture.csv")]
    with open(counts, "w", encoding="ascii") as file:
        if script_text is None:
            file.write("coverage 2\n")
        else:
            for path, text in zip(paths, (script_text, "\n".join([HEADER, *capture.capture_of(script_text)[0]]) + "\n")):
                with open(path, "w", encoding="ascii") as other:
                    other.write(text)
            subprocess.run([COVERAGE, "count", *paths], stdout=file, timeout=SECONDS, check=True)
    return subprocess.run([COVERAGE, "report", RTL, counts], capture_output=True, text=True, timeout=SECONDS, check=True).stdout.splitlines()


def check_aims():
    """A script that aims at bins hits them: each that a run of one request after the other can hit. Other bins have operations too."""
    with tempfile.TemporaryDirectory() as folder:
        report, aim = report_of(folder), os.path.join(folder, "report")

        def aimed(lines, count):
            with open(aim, "w", encoding="ascii") as file:
                file.writelines(line + "\n" for line in lines)
            return script(RTL, 1, count, "--aim", aim)
        for kind in SERIAL:
            never = [line for line in report if line.startswith(f"never: {kind} ")]
            for part in (never[at:at + 100] for at in range(0, len(never), 100)):
                left = set(report_of(folder, aimed(part, 12 * len(part) + 20))) & set(part)
                tell(f"aimed at {kind}: {sorted(left)[:3]}", not left)
        for kind in ("in_flight", "at_port", "overtook", "again", "contested", "latency", "gap"):
            never = [line for line in report if line.startswith(f"never: {kind} ")]
            tell(f"operations for {kind}", never and len(lines_of(aimed(never, 200))) >= 200)
        tell("nothing is left: random operations", aimed(["all: 5 of 5, 100 %"], 50) == script(RTL, 1, 50))
        tell("the same words give the same script", aimed(report, 300) == aimed(report, 300))
        for text in ("never: asked m0 p0 got 2 aligned\n", "never: asked m0\n", "never: none m0\n"):
            with open(aim, "w", encoding="ascii") as file:
                file.write(text)
            done = run(RTL, "--seed", 1, "--ops", 1, "--aim", aim)
            tell(f"{text!r} is refused", done.returncode == 2 and "no such bin" in done.stderr and not done.stdout)
        tell("a report that is not there", run(RTL, "--seed", 1, "--ops", 1, "--aim", os.path.join(folder, "none")).returncode == 2)


def main():
    for check in (check_sums, check_kinds, check_mixes, check_words, check_tables, check_paths, check_no_paths, check_widths, check_aims):
        check()


if __name__ == "__main__":
    run_test(main)
