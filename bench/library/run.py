"""Measures the library of C: judging a beat beside the plain Rust program of bench/check, and serving a request beside the plain memory of
bench/serve. Each takes turns; a row has the least and the middle nanoseconds of all turns. It needs rustc and a C compiler (CC), and takes the
library by tools/library.sh. `run ROUNDS` sets how many rounds there are.
"""

import os
import subprocess
import sys
import tempfile

import maker

HERE = os.path.dirname(os.path.abspath(__file__))
TOP = os.path.dirname(os.path.dirname(HERE))
ROWS = 200_000


def read(*path):
    with open(os.path.join(TOP, *path), encoding="utf-8") as file:
        return file.read()


def write(text, *path):
    os.makedirs(os.path.dirname(os.path.join(*path)), exist_ok=True)
    with open(os.path.join(*path), "w", encoding="utf-8") as file:
        file.write(text)


def build(folder):
    """The programs that are timed: the plain judge, the plain memory, and both by the library."""
    peer = read("bench", "check", "peer.rs").replace("fn main() -> ExitCode {", "#[allow(dead_code)]\nfn program() -> ExitCode {")
    write(peer + read("bench", "library", "judge.rs"), folder, "check", "judge.rs")
    write(read("bench", "check", "rows.rs"), folder, "check", "rows.rs")
    write(read("bench", "given.rs"), folder, "given.rs")
    write(read("bench", "serial", "peer.rs"), folder, "serial", "peer.rs")
    judge, plain, library = (os.path.join(folder, name) for name in ("judge", "plain", "library"))
    subprocess.run(["rustc", "--edition", "2021", "-O", "-o", judge, os.path.join(folder, "check", "judge.rs")], check=True)
    subprocess.run(["rustc", "--edition", "2021", "-O", "-o", plain, os.path.join(TOP, "bench", "serve", "plain.rs")], check=True)
    command = '. "$0" && ${CC:-cc} -O2 -Wall -Wextra "${TLX_CFLAGS[@]}" "$1" "${TLX_LIBS[@]}" -o "$2"'
    subprocess.run(["bash", "-c", command, os.path.join(TOP, "tools", "library.sh"), os.path.join(HERE, "library.c"), library], check=True)
    return judge, plain, library


def rows(*command):
    """The rows that a program prints: what is timed, by which program, of which size, and the nanoseconds."""
    printed = subprocess.run(command, capture_output=True, text=True, check=True).stdout
    for line in printed.splitlines():
        name, program, size, took, _ = line.split()
        # the plain memory prints the nanoseconds of all its four million requests
        yield (name, size), program, float(took) / (4_000_000 if program == "plain" and name != "judge" else 1)


def main():
    rounds = int(sys.argv[1]) if sys.argv[1:] else 5
    times = {}
    with tempfile.TemporaryDirectory() as folder:
        judge, plain, library = build(folder)
        system, beats = os.path.join(folder, "system.toml"), os.path.join(folder, "beats")
        write(maker.SYSTEM, system)
        capture = maker.make(folder, ROWS)
        for _ in range(rounds):
            for command in ((judge, system, capture, beats, "3"), (plain,), (library, system, beats, "1")):
                for what, program, took in rows(*command):
                    times.setdefault((what, program), []).append(took)
    for name, size in sorted({what for what, _ in times}):
        plain, ours = (sorted(times[(name, size), program]) for program in ("plain", "library"))
        pairs = [(kind, ours[place], plain[place]) for kind, place in (("least", 0), ("middle", rounds // 2))]
        told = "; ".join(f"{kind} library {one:.1f} ns, plain {other:.1f}: {one / other:.2f}" for kind, one, other in pairs)
        print(f"{name} {size}: {told}")


if __name__ == "__main__":
    sys.exit(main())
