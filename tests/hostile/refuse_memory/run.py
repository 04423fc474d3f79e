"""Refuses each request for memory of the programs in turn, and judges what becomes of the run.

It runs the first example and a script of 1,000 operations, on one thread and by threads, each with and without histories. It also runs
captures of the examples, lawful and unlawful, some with their replies traced, with images and with memories that are not cleared, and one whose
coverage is counted; one that writes to page after page of such a memory; the captures of tests/captures and the dump of tests/dumps whose
files have the name memory_is_refused; and a dump of examples/waves. For each N the N-th request is refused, by a small library that is
preloaded (refuse.c; the compiler `cc` builds it). A run must end in one of three ways. It prints `memory refused`, with status 4 and nothing
written but a prefix of traced replies or rows. By threads it may print `thread refused`, with status 4 and nothing written. Or it has the
whole right output and its status, if the refused request was made again for less. Anything else is a failure. It needs the built programs
(./tlx, ./tlcheck and ./tlvcd build them; TLX=path, TLCHECK=path and TLVCD=path take others).

It does the same with the tests of crates whose names end in `memory_is_refused`: of calls that no program makes, or makes last. Such a test
passes whether its requests are granted or not. The gate has built them; by hand `rt test` builds those of a crate, and
`tests/hostile/refuse_memory/run CRATE..` runs those of these crates alone.
"""

import collections
import concurrent.futures
import os
import re
import subprocess
import sys
import tempfile
import tomllib

from harness import need, run_test, tell
from tlxtools.common import HEADER, SECONDS, TLCHECK, TLVCD, TLX, TOP, system_of

HERE = os.path.dirname(os.path.realpath(__file__))
EXAMPLES = os.path.join(TOP, "examples")
WAVES = os.path.join(EXAMPLES, "waves")
CAPTURES = os.path.join(TOP, "tests", "captures")
# A program with its words and input, and what it writes with what status if nothing is refused, or its line on standard error. If it traces
# replies, a run that is refused memory may have written a front of that; if it counts a coverage, the verdict.
Case = collections.namedtuple("Case", ["name", "command", "given", "whole", "status", "tells", "said"], defaults=[b""])
# The last words of the name of a test that passes whether memory is refused or not, and what it writes last if it passes.
REFUSED = "memory_is_refused"
PASSED = b"\ntest result: ok\n"
# The last line of a capture of which rows are missing.
CUT = b"fault\n"


def first():
    """The first example, and what it must print on one thread."""
    with open(os.path.join(TOP, "examples", "first.toml"), "rb") as script:
        with open(os.path.join(TOP, "examples", "first.trace"), "rb") as trace:
            return script.read(), trace.read(), b"free 4 held 0\n"


def thousand():
    """A script of 1,000 additions to one word, and what it must print on one thread."""
    lines = [f"m0 s0 add 0x1000 2 01000000 -> AccessAckData {k.to_bytes(4, 'little').hex()} p0 #{k}\n" for k in range(1000)]
    operations = ", ".join(["'0 add 0x1000 2 01000000'"] * 1000)
    script = f"slots = 2\n[[port]]\nkind = 'ram'\nbase = 0x1000\nlength = 8\n[[master]]\nsources = 1\nops = [{operations}]\n"
    return script.encode(), "".join(lines).encode(), b"free 2 held 0\n"


def histories(trace):
    """The histories of one port that a trace of one master with one source is of."""
    return re.sub(rb"m0 s0 (.*) (p0 #\d+)\n", rb"\2 w0 \1\n", trace)


def script_cases():
    """The two scripts, each in four ways."""
    for name, (script, trace, account) in (("first.toml", first()), ("1,000 operations", thousand())):
        for words, whole, how in ((["--serial"], trace, "one thread"),
                                  (["--serial", "--history"], trace + histories(trace), "one thread with histories"),
                                  ([], trace + account, "threads"),
                                  (["--history"], trace + histories(trace) + account, "threads with histories")):
            yield Case(f"{name}, {how}", [TLX, *words], script, whole, 0, False)


def capture_cases():
    """Captures with the verdicts that were worked out by hand, from a file or from standard input."""
    for name, words, status in (("captures/read", [], 0), ("captures/lost_write", [], 3), ("captures/burst", ["--trace"], 0),
                                ("captures/complete", ["--complete", "--coverage", "/dev/null"], 0),
                                ("captures/renumbered", ["--links", "each"], 0), ("captures/wrong_at_a_port_alone", ["--links", "each"], 3),
                                ("captures/uncleared", ["--trace"], 0), ("captures/uncleared_lost_put", [], 3), ("captures/bus64", ["--trace"], 0),
                                ("systems/application_processor/boot", ["--trace"], 0), ("systems/microcontroller/other_image", [], 3)):
        path = os.path.join(EXAMPLES, *name.split("/"))
        with open(f"{path}.csv", "rb") as capture, open(f"{path}.verdict", "rb") as verdict:
            command = [TLCHECK, *words, system_of(path), "-" if words else f"{path}.csv"]
            yield Case(f"{name}.csv", command, capture.read(), verdict.read(), status, bool(words))


def page_case(folder):
    """A capture that writes a byte to each of 40 pages of a memory that is not cleared, and reads them back: each page is asked for in its turn."""
    system = os.path.join(folder, "pages.toml")
    with open(system, "w", encoding="ascii") as file:
        file.write("bus = 4\n[[port]]\nkind = 'ram'\nbase = 0x80000000\nlength = 0x40000000\nunknown = true\n[[master]]\nsources = 1\n")
    rows, lines = [], []
    for number in range(80):
        address, byte = 0x80000000 + 0x100000 * (number % 40), f"{number % 40:02x}"
        if number < 40:
            rows += [f"m0,A,0,0,0,0,{address:x},1,000000{byte},,", "m0,D,0,,0,0,,,,0,0"]
            lines.append(f"m0 s0 putfull {address:#x} 0 {byte} -> AccessAck p0 #{number}\n")
        else:
            rows += [f"m0,A,4,0,0,0,{address:x},1,,,", f"m0,D,1,,0,0,,,xxxxxx{byte},0,0"]
            lines.append(f"m0 s0 get {address:#x} 0 -> AccessAckData {byte} p0 #{number}\n")
    capture = "\n".join([HEADER, *(f"{time},{row}" for time, row in enumerate(rows))]) + "\n"
    whole = "".join(lines) + "lawful: 160 rows, 80 requests, 80 answered\n"
    command = [TLCHECK, "--links", "masters", "--trace", system, "-"]
    return Case("40 pages", command, capture.encode(), whole.encode(), 0, True)


def put(folder, name, content):
    """Makes a file in a folder of its own, and answers its path."""
    path = os.path.join(tempfile.mkdtemp(dir=folder), name)
    with open(path, "wb") as file:
        file.write(content)
    return path


def system_with_images(folder, group):
    """The system file of captures, with its images beside it."""
    path = put(folder, "system.toml", group["system"].encode())
    for name, digits in group.get("images", {}).items():
        with open(os.path.join(os.path.dirname(path), name), "wb") as file:
            file.write(bytes.fromhex(digits))
    return path


def verdict_case(name, words, system, capture):
    """A capture of tests/captures, with what it covers behind its verdict."""
    rows, says = f"{HEADER}\n{capture['rows']}".encode(), capture["says"].encode()
    covers = capture.get("covers", "")
    command = [TLCHECK, *words, *(["--coverage", "/dev/stdout"] if covers else []), system, "-"]
    last = says.splitlines()[-1].split(b":")[0]
    if last == b"capture":
        return Case(name, command, rows, b"", 1, True, says)
    return Case(name, command, rows, says + covers.encode(), 0 if last == b"lawful" else 3, True)


def verdict_cases(folder):
    """The captures of tests/captures that are judged here. Where requests come one at a time, any order is that of acceptance."""
    for number in range(1, 8):
        name = f"memory_is_refused_{number}.toml"
        with open(os.path.join(CAPTURES, name), "rb") as file:
            group = tomllib.load(file)
        system = system_with_images(folder, group)
        for words in (group["options"].split(), *([["--trace", "--complete", "--order", "any"]] if number == 1 else [])):
            for place, capture in enumerate(group["capture"]):
                yield verdict_case(" ".join([f"{name}, capture {place}", *words]), words, system, capture)


def dump_cases(folder):
    """A dump with its capture and its verdict, from a file and from standard input; and one whose signals have names of all kinds."""
    with open(os.path.join(WAVES, "get.vcd"), "rb") as dump, open(os.path.join(WAVES, "get.csv"), "rb") as capture:
        given, whole = dump.read(), capture.read()
    for name, words in (("get.vcd", [os.path.join(WAVES, "get.vcd")]), ("get.vcd on standard input", [])):
        yield Case(name, [TLVCD, os.path.join(WAVES, "system.toml"), *words], given, whole, 0, True)
        command = [TLCHECK, os.path.join(WAVES, "system.toml"), *words]
        yield Case(f"{name}, judged", command, given, b"lawful: 4 rows, 1 requests, 1 answered\n", 0, False)
    with open(os.path.join(TOP, "tests", "dumps", "memory_is_refused.toml"), "rb") as file:
        group = tomllib.load(file)
    system, dump = put(folder, "system.toml", group["system"].encode()), group["dump"][0]
    whole = f"{HEADER}\n{dump['rows']}".encode()
    yield Case("memory_is_refused.toml", [TLVCD, system], (group["head"] + dump["body"]).encode(), whole, 0, True)


def crates_of_tests():
    """The crates with tests of refused memory."""
    for crate in sorted(os.listdir(os.path.join(TOP, "crates"))):
        for at, _, names in os.walk(os.path.join(TOP, "crates", crate, "src")):
            for name in names:
                with open(os.path.join(at, name), encoding="utf-8") as file:
                    if re.search(rf"#\[test\]\nfn \w*{REFUSED}\(", file.read()):
                        yield crate
                        break
            else:
                continue
            break


def test_cases(crate):
    """The tests of refused memory of a crate, as it names them."""
    program = os.path.join(TOP, "crates", crate, "out", f"{crate}_tests")
    if not os.access(program, os.X_OK):
        sys.exit(f"{program} is not built: run rt test in crates/{crate}")
    listed = subprocess.run([program, "--list"], stdout=subprocess.PIPE, check=True).stdout.decode()
    for name in re.findall(rf"^(\S*{REFUSED}): test$", listed, re.MULTILINE):
        yield Case(f"{crate}, {name}", [program, name], b"", None, 0, False)


def run(shim, case, number):
    """A run with one request refused: its status, its output, its line on standard error, and how many requests it made."""
    reading, writing = os.pipe()
    environment = {"LD_PRELOAD": shim, "REFUSE": str(number), "COUNT": str(writing)}
    child = subprocess.Popen(case.command, stdin=subprocess.PIPE, stdout=subprocess.PIPE, stderr=subprocess.PIPE,
                             env=environment, pass_fds=(writing,))
    os.close(writing)
    try:
        out, err = child.communicate(case.given, timeout=SECONDS)
    except subprocess.TimeoutExpired:
        child.kill()
        child.communicate()
        return None, b"", b"it had not ended", 0
    finally:
        with os.fdopen(reading) as count:
            counted = count.read().strip()
    return child.returncode, out, err, int(counted or 0)


def judge(case, status, out, err):
    """What a run came to, or none if it is not one of the lawful ends."""
    if case.whole is None:
        return "passed" if status == 0 and out.endswith(PASSED) else None
    if (status, out, err) == (case.status, case.whole, case.said):
        return "the whole output"
    told = out.removesuffix(CUT) if case.command[0] == TLVCD else out
    if status == 4 and err == b"memory refused\n" and (not out or case.tells and case.whole.startswith(told)):
        return "memory refused"
    if status == 4 and not out and err == b"thread refused\n" and case.command[0] == TLX and "--serial" not in case.command:
        return "thread refused"
    return None


def measure(shim, pool, case):
    """Refuses each request of one run in turn, and prints the counts. Answers whether all ends were lawful, and why not."""
    status, out, err, requests = run(shim, case, 0)
    if judge(case, status, out, err) not in ("the whole output", "passed"):
        return False, f"the run with nothing refused is not right: status {status}, {err!r}"
    outcomes = collections.Counter()
    numbers = range(1, requests + 1)
    for number, (status, out, err, _) in zip(numbers, pool.map(lambda n: run(shim, case, n), numbers)):
        outcome = judge(case, status, out, err)
        if outcome is None:
            return False, f"request {number} refused: status {status}, {len(out)} bytes written, {err!r}"
        outcomes[outcome] += 1
    told = ", ".join(f"{count} times {outcome}" for outcome, count in sorted(outcomes.items()))
    print(f"{case.name}: {requests} requests, each refused in turn: {told}")
    return True, ""


def program_cases(folder):
    """The runs of the programs."""
    need(TLX, TLCHECK, TLVCD)
    return [*script_cases(), *capture_cases(), page_case(folder), *verdict_cases(folder), *dump_cases(folder)]


def main():
    asked = sys.argv[1:]
    with tempfile.TemporaryDirectory() as folder, concurrent.futures.ThreadPoolExecutor(os.cpu_count()) as pool:
        shim = os.path.join(folder, "refuse.so")
        subprocess.run(["cc", "-O1", "-shared", "-fPIC", "-o", shim, os.path.join(HERE, "refuse.c")], check=True)
        cases = [] if asked else program_cases(folder)
        for crate in asked or crates_of_tests():
            cases += test_cases(crate)
        for case in cases:
            tell(case.name, *measure(shim, pool, case))


if __name__ == "__main__":
    run_test(main)
