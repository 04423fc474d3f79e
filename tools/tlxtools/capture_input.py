"""Where a tool finds its capture: a file, standard input, or a value change dump that tlvcd makes a capture of. For tools/latency and
tools/explain."""

import contextlib
import os
import shutil
import subprocess
import sys
import tempfile

from tlxtools.common import TLVCD

BLANKS = b" \t\r\n\v\f"


class Mistake(Exception):
    """Why nothing can be read: what is said of it, and the status of the tool."""

    def __init__(self, text, status=1):
        super().__init__(text)
        self.status = status


def said_by(program, words, stderr=subprocess.PIPE, **how):
    """Runs a program of this repository: what it writes, and its status."""
    try:
        return subprocess.run([program, *words], stderr=stderr, check=False, **how)
    except OSError as error:
        name = os.path.basename(program)
        raise Mistake(f"{program} can't be run: {error.strerror}; ./{name} builds it, and {name.upper()}=path takes another") from None


def is_dump(path):
    """Whether a file is a value change dump: the first byte that is no blank is `$`."""
    with open(path, "rb") as file:
        while block := file.read(4096):
            if block := block.lstrip(BLANKS):
                return block[:1] == b"$"
    return False


def write(path, text):
    """Writes a file that the command line names."""
    try:
        with open(path, "w", encoding="utf-8", newline="") as file:
            file.write(text)
    except OSError as error:
        raise Mistake(f"{path}: can't be written: {error.strerror}") from None


def readable(path):
    """Refuses a file that can't be opened, with its name: the programs say `read failed` alone."""
    try:
        with open(path, "rb"):
            pass
    except OSError as error:
        raise Mistake(f"{path}: can't be read: {error.strerror}") from None


def rows_from(system, dump, path):
    """Writes the rows of a dump to a file. A dump that tlvcd refuses is refused with its line."""
    with open(path, "wb") as file:
        run = said_by(TLVCD, [system, dump], stdout=file)
    if run.returncode:
        raise Mistake(run.stderr.decode(errors="replace").strip() or f"tlvcd ended with status {run.returncode}")


@contextlib.contextmanager
def capture_of(system, word):
    """The path of a capture, and that of the dump that it was made of, or None. Standard input (`-`) and the rows of a dump are kept in a
    file while they are used, so that memory stays bounded."""
    with tempfile.TemporaryDirectory(prefix="tlx-capture-") as folder:
        given = word
        readable(system)
        try:
            if word == "-":
                given = os.path.join(folder, "input")
                with open(given, "wb") as file:
                    shutil.copyfileobj(sys.stdin.buffer, file)
            dump = given if is_dump(given) else None
        except OSError as error:
            raise Mistake(f"{word}: can't be read: {error.strerror}") from None
        if dump:
            given = os.path.join(folder, "rows.csv")
            rows_from(system, dump, given)
        yield given, dump
