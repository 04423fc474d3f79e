"""Tests tools/shrink with commands whose smallest scripts were worked out by hand. The last line is 'N passed, M failed'.

The commands are small programs in Python. A script of 400 operations of tools/stimulate stands for one that failed in a simulation;
examples/regression/check shrinks such scripts with a simulator.
"""

import os
import stat
import subprocess
import sys
import tempfile
import tomllib

from harness import run_test, tell
from tlxtools.common import TOP

SHRINK = os.path.join(TOP, "tools", "shrink")
RTL = os.path.join(TOP, "examples", "rtl", "system.toml")
SECONDS = 120
# What a command begins with: the system, and each operation's words with its master.
FRONT = f"""#!{sys.executable}
import sys, tomllib
with open(sys.argv[1], "rb") as file:
    system = tomllib.load(file)
asks = [(number, *line.split()) for number, master in enumerate(system["master"]) for line in master["ops"] if line != "wait"]
"""
# What fails, with status 3; and the smallest script.
ONE = 'slots = 1\n\n[[master]]\nsources = 1\nops = [\n  "0 {}",\n]\n'
CASES = {
    "an operation": ("any(ask[2] == 'swap' for ask in asks)", ONE.format("swap 0x{address:x} 0 00")),
    "a size": ("any(ask[2] == 'get' and int(ask[4]) >= 5 for ask in asks)", ONE.format("get 0x{address:x} 5")),
    "two masters": ("{0, 1} == {ask[0] for ask in asks if ask[2] == 'get'}",
                    'slots = 1\n\n[[master]]\nsources = 1\nops = [\n  "0 get 0x{address:x} 0",\n]\n\n'
                    '[[master]]\nsources = 1\nops = [\n  "0 get 0x{other:x} 0",\n]\n'),
    "a port": ("len(system.get('port', [])) and any(ask[2:4] == ('get', '0x1000') for ask in asks)",
               'slots = 1\n\n[[port]]\nkind = "ram"\nbase = 0x1000\nlength = 256\n\n[[master]]\nsources = 1\nops = [\n  "0 get 0x1000 0",\n]\n'),
    "a byte": ("any(ask[2] == 'putfull' and 'ff' in [ask[5][k:k + 2] for k in range(0, len(ask[5]), 2)] for ask in asks)",
               ONE.format("putfull 0x{address:x} 0 ff")),
    "nothing": ("True", "slots = 1\n\n[[master]]\nsources = 1\nops = [\n]\n"),
}


def program(folder, text):
    """The path of a program with this text."""
    path = os.path.join(folder, "command")
    with open(path, "w", encoding="utf-8") as file:
        file.write(text)
    os.chmod(path, stat.S_IRWXU)
    return path


def shrink(*words):
    return subprocess.run([SHRINK, *words], capture_output=True, text=True, timeout=SECONDS, check=False)


def stimulated(folder, seed, count=400):
    """The path of a script of random operations."""
    path = os.path.join(folder, f"{seed}.toml")
    with open(path, "w", encoding="utf-8") as file:
        subprocess.run([os.path.join(TOP, "tools", "stimulate"), RTL, "--seed", str(seed), "--ops", str(count)], stdout=file, check=True)
    return path


def lines_of(text):
    return [line for master in tomllib.loads(text)["master"] for line in master["ops"]]


def fits(text, wanted):
    """Whether a script is the one that is wanted, whose addresses are any."""
    addresses = [int(line.split()[2], 0) for line in lines_of(text)]
    return text == wanted.replace("{address:x}", f"{addresses[0]:x}" if addresses else "").replace("{other:x}", f"{addresses[-1]:x}" if addresses else "")


def check_cases(folder):
    for seed, (name, (condition, wanted)) in enumerate(CASES.items()):
        script = stimulated(folder, seed)
        command = program(folder, f"{FRONT}sys.exit(3 if {condition} else 0)\n")
        done = shrink(script, "--", command)
        tell(name, done.returncode == 0 and fits(done.stdout, wanted), done.stdout + done.stderr[-300:])
        tell(f"{name}: its progress is shown", "shrink: " in done.stderr and done.stderr.splitlines()[-1].split(" after")[0] !=
             done.stderr.splitlines()[0].split(" after")[0])
        again = shrink("--quiet", script, "--", command, "{}")
        tell(f"{name}: the same script the second time", (again.stdout, again.stderr) == (done.stdout, ""))
        with open(os.path.join(folder, "smallest.toml"), "w", encoding="utf-8") as file:
            file.write(done.stdout)
        tell(f"{name}: the command fails with it", subprocess.run([command, file.name], check=False).returncode == 3)


def check_order(folder):
    """Operations that fail together alone, in the order in which they stand: three of them in two masters."""
    condition = "[ask[2] for ask in asks if ask[0] == 0].count('add') > 1 and any(ask[2] == 'xor' for ask in asks if ask[0] == 1)"
    done = shrink("--quiet", stimulated(folder, 11), "--", program(folder, f"{FRONT}sys.exit(3 if {condition} else 0)\n"))
    masters = tomllib.loads(done.stdout)["master"]
    tell("three operations", [[line.split()[1] for line in master["ops"]] for master in masters] == [["add", "add"], ["xor"]], done.stdout)


def check_status(folder):
    """Another status than the first is no failure: of a command that ends with 3 or 4, the one that it had is kept."""
    text = f"{FRONT}names = [ask[2] for ask in asks]\nsys.exit(3 if 'swap' in names and 'min' in names else 4 if 'swap' in names else 0)\n"
    done = shrink("--quiet", stimulated(folder, 12), "--", program(folder, text))
    tell("a status of its own", sorted(line.split()[1] for line in lines_of(done.stdout)) == ["min", "swap"], done.stdout)


def check_images(folder):
    """A command finds an image beside the script, wherever the script stands; what a port need not have is left out."""
    with open(os.path.join(folder, "boot.bin"), "wb") as image:
        image.write(b"\x97")
    script = os.path.join(folder, "images.toml")
    with open(script, "w", encoding="utf-8") as file:
        file.write('bus = 4\n[[port]]\nkind = "rom"\nbase = 0x1000\nlength = 256\nreset = "00"\nimage = "boot.bin"\nunknown = true\n'
                   'sizes = { get = [0, 2] }\nbus = 8\nmirror = true\nvolatile = [[4, 8], [16, 1]]\n'
                   '[[master]]\nsources = 4\nops = ["1 get 0x1000 0", "wait"]\n')
    text = f"{FRONT}images = [port['image'] for port in system['port'] if 'image' in port]\n" \
           "sys.exit(3 if any(open(image, 'rb').read() == b'\\x97' for image in images) else 0)\n"
    done = shrink("--quiet", script, "--", program(folder, text))
    tell("an image", done.stdout == (
        '[[port]]\nkind = "rom"\nbase = 0x1000\nlength = 256\nimage = "boot.bin"\n\n[[master]]\nsources = 1\nops = [\n]\n'), done.stdout + done.stderr)


def check_lists(folder):
    """Of ports that list masters a list keeps the right ones, by numbers and by names, and a list that is not needed goes with its master."""
    script = os.path.join(folder, "lists.toml")
    with open(script, "w", encoding="utf-8") as file:
        file.write('[[port]]\nkind = "ram"\nbase = 0x1000\nlength = 256\nhosts = [0, "dma", "gpu"]\n'
                   '[[port]]\nkind = "rom"\nbase = 0x2000\nlength = 256\n'
                   'sources = [{ master = "gpu", first = 1, stride = 2 }, { master = 2, first = 0, stride = 2 }]\n'
                   '[[port]]\nkind = "ram"\nbase = 0x3000\nlength = 256\nhosts = ["cpu"]\n'
                   '[[master]]\nname = "cpu"\nsources = 2\nops = ["1 get 0x1000 0"]\n[[master]]\nname = "gpu"\nsources = 1\nops = []\n'
                   '[[master]]\nname = "dma"\nsources = 3\nreach = [1, 0]\nops = ["2 get 0x1000 0", "wait", "0 get 0x2000 0"]\n')
    front = f"{FRONT}names, ports = [master.get('name') for master in system['master']], system.get('port', [])\n" \
            "called = lambda said: said if isinstance(said, str) else names[said]\n"
    master = '[[master]]\nname = "dma"\nsources = 1\nops = [\n]\n'
    for text, wanted in (("any('dma' in map(called, port.get('hosts', [])) for port in ports)",
                          f'[[port]]\nkind = "ram"\nbase = 0x1000\nlength = 256\nhosts = ["dma"]\n\n{master}'),
                         ("any(called(table['master']) == 'dma' for port in ports for table in port.get('sources', []))",
                          f'[[port]]\nkind = "rom"\nbase = 0x2000\nlength = 256\nsources = [{{ master = 0, first = 0, stride = 2 }}]\n\n{master}'),
                         ("len(ports) == 3 and 'dma' in names", "".join(f'[[port]]\nkind = "{kind}"\nbase = {base}\nlength = 256\n\n' for kind, base in (
                             ("ram", "0x1000"), ("rom", "0x2000"), ("ram", "0x3000"))) + master)):
        done = shrink("--quiet", script, "--", program(folder, f"{front}sys.exit(3 if {text} else 0)\n"))
        tell("lists of masters", done.stdout == wanted, done.stdout + done.stderr)


def check_crossing(folder):
    """A port stays one that is judged by itself if the command fails with no other, and else is one like all."""
    script = os.path.join(folder, "crossing.toml")
    front, master = '[[port]]\nkind = "ram"\nbase = {}\nlength = 256\n', "[[master]]\nsources = 1\nops = [\n]\n"
    with open(script, "w", encoding="utf-8") as file:
        file.write("".join(f'{front.format(base)}crossing = "{word}"\n' for base, word in (("0x1000", "none"), ("0x2000", "same"), ("0x3000", "none")))
                   + '[[master]]\nsources = 2\nops = ["1 get 0x1000 0", "0 get 0x3000 0"]\n')
    for text, wanted in (("any(port['base'] == 0x3000 and port.get('crossing') == 'none' for port in ports)",
                          f'{front.format("0x3000")}crossing = "none"\n\n{master}'),
                         ("0x1000 in [port['base'] for port in ports]", f"{front.format('0x1000')}\n{master}"),
                         ("sum(port.get('crossing') == 'none' for port in ports) == 2",
                          "".join(f'{front.format(base)}crossing = "none"\n\n' for base in ("0x1000", "0x3000")) + master)):
        done = shrink("--quiet", script, "--", program(folder, f"{FRONT}ports = system.get('port', [])\nsys.exit(3 if {text} else 0)\n"))
        tell("crossing", done.stdout == wanted, done.stdout + done.stderr)


def check_fifo(folder):
    """Replies of a link stay in order if the command fails no more without that."""
    script = os.path.join(folder, "fifo.toml")
    port, master = '[[port]]\nkind = "ram"\nbase = 0x1000\nlength = 256\n', "[[master]]\nsources = 1\n"
    with open(script, "w", encoding="utf-8") as file:
        file.write(f'{port}fifo = true\n{master}fifo = true\nops = ["0 get 0x1000 0"]\n')
    for text, wanted in (("ports and ports[0].get('fifo')", f"{port}fifo = true\n\n{master}ops = [\n]\n"),
                         ("system['master'][0].get('fifo')", f"{master}fifo = true\nops = [\n]\n"),
                         ("ports", f"{port}\n{master}ops = [\n]\n")):
        done = shrink("--quiet", script, "--", program(folder, f"{FRONT}ports = system.get('port', [])\nsys.exit(3 if {text} else 0)\n"))
        tell("fifo", done.stdout == wanted, done.stdout + done.stderr)


def check_unaligned(folder):
    """Unaligned requests stay lawful while there is one."""
    script = os.path.join(folder, "unaligned.toml")
    master = '[[master]]\nsources = 1\nops = [\n  "0 get {}",\n]\n'
    with open(script, "w", encoding="utf-8") as file:
        file.write('unaligned = true\n[[master]]\nsources = 1\nops = ["0 get 0x1001 1", "0 get 0x1000 0"]\n')
    for text, wanted in (("any(int(ask[3], 0) % (1 << int(ask[4])) for ask in asks)", f"unaligned = true\n\n{master.format('0x1001 1')}"),
                         ("asks", master.format("0x1000 0"))):
        done = shrink("--quiet", script, "--", program(folder, f"{FRONT}sys.exit(3 if {text} else 0)\n"))
        tell("unaligned", done.stdout == wanted, done.stdout + done.stderr)


def check_refusals(folder):
    script, command = stimulated(folder, 13, 5), program(folder, FRONT)
    for name, status, why, words in (
            ("no failure", 1, "does not fail", (script, "--", command)), ("no script", 1, "No such file", ("/no/such", "--", command)),
            ("a text that is none", 1, "is no script", (SHRINK, "--", command)), ("a system file", 1, "does not fail", (RTL, "--", command)),
            ("no command", 2, "COMMAND is missing", (script,)), ("no word of it", 2, "COMMAND is missing", (script, "--")),
            ("a command that there is not", 1, "No such file", (script, "--", "/no/such")), ("nothing", 2, "SCRIPT", ())):
        done = shrink(*words)
        tell(name, done.returncode == status and why in done.stderr and not done.stdout, f"{done.returncode} {done.stderr}")


def main():
    with tempfile.TemporaryDirectory() as folder:
        for check in (check_cases, check_order, check_status, check_images, check_lists, check_crossing, check_fifo, check_unaligned,
                      check_refusals):
            check(folder)


if __name__ == "__main__":
    run_test(main)
