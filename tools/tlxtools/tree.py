"""The files of the repository, without what is built."""

import os
import re

# the pages of docs/reference that are written by hand; tools/reference makes the others
BY_HAND = ("formats", "captures", "faults")
# what is built or kept, and no part of the repository
LEFT_OUT = re.compile(r"^(\.git|\.gate|bench/out)(/|$)|(^|/)(out|__pycache__|build\.log|libtlx\.so)(/|$)")


def files(top, ending=""):
    """The path of each file below a folder whose name has this ending, from that folder, in the order of bytes."""
    found = []
    for folder, folders, names in os.walk(top):
        inside = os.path.relpath(folder, top)
        folders[:] = [name for name in folders if not LEFT_OUT.search(os.path.normpath(os.path.join(inside, name)))]
        paths = (os.path.normpath(os.path.join(inside, name)) for name in names if name.endswith(ending))
        found += [path for path in paths if not LEFT_OUT.search(path)]
    return sorted(found)


def is_made(path):
    """Whether a page is one that tools/reference makes."""
    folder, _, name = path.rpartition("/")
    return folder == "docs/reference" and name.removesuffix(".md") not in BY_HAND


def read(top, path):
    """The text of a file; what is no UTF-8 in it is replaced."""
    with open(os.path.join(top, path), encoding="utf-8", errors="replace") as file:
        return file.read()


def shell_of(top, path):
    """The word behind the last slash or blank of the first line, if that says what runs the file, as bash; else nothing."""
    with open(os.path.join(top, path), "rb") as file:
        front = file.readline(80)
    return re.split(rb"[/ ]", front.strip())[-1].decode("ascii", "replace") if front.startswith(b"#!") else ""
