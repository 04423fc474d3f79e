"""What the runs share: how a stream is disturbed, and what a run has and how it has to end."""

import collections

# How many bytes a call gives or takes at most, its trouble, and the number that the trouble needs:
#   never        none
#   fails        the call of this number fails; the calls of a stream are counted from 0
#   full         the write of this number takes nothing
#   broken       each call fails
#   before       the first call is interrupted, and every second one after it
#   both         the same, and the call of this number fails
#   between      each call is interrupted whose number is no multiple of this one
#   forever      each call is interrupted
Flow = collections.namedtuple("Flow", ["step", "trouble", "number"])
# A run: what it shows, its command, the files of its folder, its standard input, and the flow of each of its streams: a file by its name,
# standard input and output by 0 and 1.
Run = collections.namedtuple("Run", ["name", "command", "files", "given", "flows", "end"])
# How it has to end: its status, what it writes, its line on standard error, what some files hold then (None: the file is not there), and
# how often some streams were called.
End = collections.namedtuple("End", ["status", "out", "err", "files", "calls"])

# As much as there is at a call.
WHOLE = 1 << 30
READ_FAILED = b"read failed\n"
WRITE_FAILED = b"write failed\n"
# The status of a stream that fails, and of a file with a fault.
STREAM, FAULT = 5, 1
# How often a stream is called at most: twice for each byte that a script may have, and for the one that makes it too long.
MOST_CALLS = 2_097_154


def by_bytes(trouble="never", number=0):
    """One byte at a time."""
    return Flow(1, trouble, number)


def ends(status, out=b"", err=b"", files=None, calls=None):
    """An end, of which files and calls are compared if they are given."""
    return End(status, out, err, files or {}, calls or {})
