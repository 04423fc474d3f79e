"""Tests when tlcheck shows how far a capture is read: on a terminal that is standard error, after a second, and not with --quiet; and that
nothing of the line is left there when something else is written. The last line is 'N passed, M failed'. It takes fifteen seconds, since a
capture has to take more than one. It needs the built program (./tlcheck builds it; TLCHECK=path takes another).
"""

import os
import pty
import subprocess
import time

from harness import run_test, tell
from tlxtools.common import HEADER, TLCHECK, TOP

CAPTURES = os.path.join(TOP, "examples", "captures")
VERDICT = b"lawful: 4 rows, 1 requests, 1 answered\n"
# How long a capture stops: longer each time, since the program may begin late on a busy machine.
PAUSES = (1.5, 5, 20)


def read_whole(name):
    """The bytes of a file of the examples."""
    with open(os.path.join(CAPTURES, name), "rb") as file:
        return file.read()


def cut(capture):
    """A capture in two parts, after its second row."""
    lines = capture.splitlines(keepends=True)
    return b"".join(lines[:3]), b"".join(lines[3:])


def run(words, parts, pause, is_terminal=True, is_one=False):
    """The verdict on a capture whose parts come slowly, and what came to standard error; if that is the terminal of both, all of it."""
    ours, theirs = pty.openpty() if is_terminal else os.pipe()
    command = [TLCHECK, *words, os.path.join(CAPTURES, "system.toml")]
    with subprocess.Popen(command, stdin=subprocess.PIPE, stdout=theirs if is_one else subprocess.PIPE, stderr=theirs) as check:
        for part in parts[:-1]:
            check.stdin.write(part)
            check.stdin.flush()
            time.sleep(pause)
        verdict, _ = check.communicate(parts[-1], timeout=60)
    # a mark of our own, so that there is something to read
    os.write(theirs, b".")
    said = b""
    while not said.endswith(b"."):
        said += os.read(ours, 4096)
    os.close(theirs)
    os.close(ours)
    return verdict, said[:-1]


def screens(said):
    """What stands on a terminal after each piece that ends in a return of the carriage or in a line feed, and at last."""
    lines, at = [""], 0
    text = said.decode("ascii")
    while text:
        if text.startswith("\x1b[K"):
            lines[-1], text = lines[-1][:at], text[3:]
            continue
        first, text = text[0], text[1:]
        if first in "\r\n":
            yield [line.rstrip() for line in lines]
            at = 0
            if first == "\n":
                lines.append("")
        else:
            lines[-1], at = lines[-1][:at] + first + lines[-1][at + 1:], at + 1
    yield lines


def shown(words, parts):
    """What a run with lines of progress writes to a terminal, all in all; nothing if no line came however slow the capture was."""
    for pause in PAUSES:
        _, said = run(words, parts, pause, is_one=True)
        if b" a second" in said:
            return said
    return b""


def stands_alone(words, parts, last):
    """Whether a line of progress came, and at the end just these lines stand on the terminal."""
    said = shown(words, parts)
    return bool(said) and list(screens(said))[-1] == [*last, ""]


def slower(rows):
    """A capture whose first part has so many rows, and whose second and third have one each: its rate falls."""
    lines = []
    for number in range(rows + 2):
        beat = "A,4,0,0,0,1000,01,,," if number % 2 == 0 else "D,1,,0,0,,,xxxxxxxxxxxxxx00,0,0"
        lines.append(f"{number},m0,{beat}\n".encode())
    return [HEADER.encode() + b"\n" + b"".join(lines[:rows]), lines[rows], lines[rows + 1]]


def is_replaced():
    """Whether of two lines of which the second is shorter only the second stands."""
    for pause in PAUSES:
        _, said = run(["--links", "masters"], slower(2 * int(60 * pause)), pause, is_one=True)
        lines = [line for screen in screens(said) for line in screen if line.endswith("a second")]
        told = [piece.removesuffix("\x1b[K").split("\x1b[K")[-1] for piece in said.decode("ascii").split("\r")]
        told = [piece for piece in told if piece.endswith("a second")]
        if any(len(after) < len(before) for before, after in zip(told, told[1:])):
            return lines == told
    return False


def has_terminals():
    """Whether this machine gives pseudo-terminals."""
    try:
        for end in pty.openpty():
            os.close(end)
    except OSError:
        return False
    return True


def main():
    complete, lost = cut(read_whole("complete.csv")), cut(read_whole("lost_write.csv"))
    unlawful = read_whole("lost_write.verdict").decode().splitlines()
    traced = ["m0 s3 get 0x1000 2 -> AccessAckData 00112233 p0 #0"]
    checks = {"none is shown without a terminal": run([], complete, PAUSES[0], is_terminal=False) == (VERDICT, b"")}
    if has_terminals():
        verdict, said = next((found for found in (run([], complete, pause) for pause in PAUSES) if found[1]), (b"", b""))
        checks["a line is shown and erased"] = verdict == VERDICT and said.startswith(b"4 rows, ") and said.endswith(b"\x1b[K\r\x1b[K")
        checks["the verdict of a capture that ends early stands alone"] = stands_alone([], lost, unlawful)
        checks["the line of a fault stands alone"] = stands_alone([], (complete[0], b"x\n"), ["capture: line 4: wrong count of columns"])
        checks["a traced line stands alone"] = stands_alone(["--trace"], complete, [*traced, VERDICT.decode().strip()])
        checks["a shorter line leaves nothing of the one before it"] = is_replaced()
        checks["--quiet shows none"] = run(["--quiet"], complete, PAUSES[0]) == (VERDICT, b"")
    else:
        print("no pseudo-terminal here: what a terminal shows was not tested")
    for what, is_right in checks.items():
        tell(what, is_right)


if __name__ == "__main__":
    run_test(main)
