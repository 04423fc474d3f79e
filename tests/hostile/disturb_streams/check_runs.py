"""The runs of tlcheck: a lawful and an unlawful capture, a dump, images, and the file of what was covered."""

import dump_runs
from streams import FAULT, MOST_CALLS, READ_FAILED, STREAM, WRITE_FAILED, Run, by_bytes, ends
from tlxtools.common import HEADER, TLCHECK

# The status of a capture that is not lawful.
UNLAWFUL_STATUS = 3
# One master with one source, and 16 bytes of memory.
SYSTEM = b"slots = 1\nport = [{ kind = 'ram', base = 0x1000, length = 16 }]\nmaster = [{ sources = 1, ops = [] }]\n"


def capture(rows):
    """A capture of these rows."""
    return f"{HEADER}\n{rows}".encode()


# A byte is read, and is zero.
LAWFUL = capture("1,m0,A,4,0,0,0,1000,01,,,\n2,p0,A,4,0,0,0,1000,01,,,\n3,p0,D,1,,0,0,,,,0,0\n4,m0,D,1,,0,0,,,,0,0\n")
LAWFUL_LINE = b"lawful: 4 rows, 1 requests, 1 answered\n"
# Its one reply, which has 45 bytes, and the verdict.
TOLD_AND_LAWFUL = b"m0 s0 get 0x1000 0 -> AccessAckData 00 p0 #0\n" + LAWFUL_LINE
# The same, and the port answers that it is one.
UNLAWFUL = capture("1,m0,A,4,0,0,0,1000,01,,,\n2,p0,A,4,0,0,0,1000,01,,,\n3,p0,D,1,,0,0,,,0000000000000001,0,0\n")
UNLAWFUL_LINE = b"unlawful: line 4, time 3, p0 D: wrong reply: expected AccessAckData 00, captured AccessAckData 01\n"


def run(name, end, system=SYSTEM, rows=LAWFUL, words=(), files=None, **flows):
    """A run whose streams give and take one byte at a time. A flow of its own has the system, the capture, what is written, or the image."""
    names = {"system_flow": "system.toml", "capture": "capture.csv", "written": "1", "image": "rom.bin", "covered": "c.cov"}
    streams = {stream: flows.get(flow, by_bytes()) for flow, stream in names.items()}
    command = [TLCHECK, *words, "system.toml", "capture.csv"]
    return Run(f"tlcheck: {name}", command, {"system.toml": system, "capture.csv": rows, **(files or {})}, b"", streams, end)


def from_input(it):
    """The same run, with its capture on standard input."""
    flows = {"0" if name == "capture.csv" else name: flow for name, flow in it.flows.items()}
    return it._replace(name=f"{it.name}, on standard input", command=[*it.command[:-1], "-"], given=it.files["capture.csv"], flows=flows)


def verdicts():
    """A lawful and an unlawful capture, by streams without trouble and by those that are interrupted again and again."""
    before = by_bytes("before")
    for rows, end in ((LAWFUL, ends(0, LAWFUL_LINE)), (UNLAWFUL, ends(UNLAWFUL_STATUS, UNLAWFUL_LINE))):
        for it in (run("a verdict", end, rows=rows), run("interrupted", end, rows=rows, system_flow=before, capture=before, written=before)):
            yield it
            yield from_input(it)


def told():
    """Replies are told before the verdict, and what was written before a write failed stands."""
    for rows, written, end in ((LAWFUL, by_bytes(), ends(0, TOLD_AND_LAWFUL)),
                               (UNLAWFUL, by_bytes(), ends(UNLAWFUL_STATUS, UNLAWFUL_LINE)),
                               (LAWFUL, by_bytes("fails", 5), ends(STREAM, b"m0 s0", WRITE_FAILED)),
                               (LAWFUL, by_bytes("fails", 52), ends(STREAM, TOLD_AND_LAWFUL[:45] + b"lawful:", WRITE_FAILED))):
        yield run("replies are told", end, rows=rows, words=["--trace"], written=written)


def eight_ports(port):
    """A system of eight ports, of which the last has these keys."""
    devices = "".join(f"[[port]]\nkind = 'device'\nbase = {0x8000 + at}\nlength = 1\n" for at in range(7))
    return f"{devices}[[port]]\n{port}\n[[master]]\nsources = 1\n".encode()


# Systems and captures, and the line of their fault.
REFUSED = (
    (b"slots", LAWFUL, b"system: not TOML\n"),
    # the system is judged first
    (b"slots = 1", b"no header", b"system: missing master\n"),
    (SYSTEM, b"", b"capture: line 1: wrong header\n"),
    (SYSTEM, b"\n\ntime\n", b"capture: line 3: wrong header\n"),
    (SYSTEM, capture("1,m1,A,4,0,0,0,1000,01,,,\n"), b"capture: line 2: no such link\n"),
    (SYSTEM, capture("\n\n\n\n\n" + 4097 * "1"), b"capture: line 7: row too long\n"),
    (SYSTEM, capture("1,m0,A,4,0,0,0,1000,01,,,\n\n\n\n\n\n\n0,p0,A,4,0,0,0,1000,01,,,\n"), b"capture: line 9: time falls\n"),
    (b"#" * 1_048_577, LAWFUL, b"system: longer than 1048576 bytes\n"),
    (b"#" * 1_048_576, LAWFUL, b"system: missing master\n"),
    (b"\xff", LAWFUL, b"system: not TOML\n"),
)


def refused():
    """No system and no capture: nothing is written but the line of the fault."""
    for system, rows, line in REFUSED:
        yield run("a fault", ends(FAULT, b"", line), system=system, rows=rows)


def failed_reads():
    """Each read of both files fails once; or all are interrupted. The system is read to its end before the capture is touched."""
    end, untouched = ends(STREAM, b"", READ_FAILED), ends(STREAM, b"", READ_FAILED, calls={"capture.csv": 0})
    for at in range(len(SYSTEM) + 1):
        yield run(f"read {at} of the system fails", untouched, system_flow=by_bytes("fails", at))
    for at in range(len(LAWFUL) + 1):
        yield run(f"read {at} of the capture fails", end, capture=by_bytes("fails", at))
    yield run("no read of the system ends", ends(STREAM, b"", READ_FAILED, calls={"system.toml": MOST_CALLS}), system_flow=by_bytes("forever"))
    yield run("no read of the capture ends", end, capture=by_bytes("forever"))
    fault = ends(FAULT, b"", b"system: not TOML\n", calls={"capture.csv": 0})
    yield run("the system comes first", fault, system=b"slots", capture=by_bytes("broken"))


def failed_writes():
    """Each write of a verdict fails once, after so many bytes, or takes nothing; or all are interrupted."""
    for at in range(len(UNLAWFUL_LINE)):
        for trouble in ("fails", "full"):
            end = ends(STREAM, UNLAWFUL_LINE[:at], WRITE_FAILED)
            yield run(f"write {at} {trouble}", end, rows=UNLAWFUL, written=by_bytes(trouble, at))
    end = ends(STREAM, b"", WRITE_FAILED, calls={"1": MOST_CALLS + 1})
    yield run("no write ends", end, rows=UNLAWFUL, written=by_bytes("forever"))


# A ROM of two bytes at port 7 with an image, and nothing known beside it.
ROM = eight_ports("kind = 'rom'\nbase = 0x1000\nlength = 2\nunknown = true\nimage = 'rom.bin'")
# Both of its bytes are read as ff.
READ_ROM = capture("1,m0,A,4,0,1,0,1000,03,,,\n2,p7,A,4,0,1,0,1000,03,,,\n3,p7,D,1,,1,0,,,000000000000ffff,0,0\n")
# Files, and what is expected of the ROM, if anything is.
IMAGES = ((b"", None), (b"\x11", b"11xx"), (b"\x11\x22", b"1122"))
# Files with their trouble, and the end of the line by which they are refused.
NO_IMAGES = (
    (b"\x11\x22\x33", by_bytes(), b"image is longer than its range"),
    (b"\x11\x22", by_bytes("fails", 0), b"image can't be read"),
    (b"\x11\x22", by_bytes("fails", 1), b"image can't be read"),
    (b"\x11\x22", by_bytes("fails", 2), b"image can't be read"),
    (b"", by_bytes("forever"), b"image can't be read"),
    (None, by_bytes(), b"image can't be read"),
)


def rom_end(expected):
    """The verdict over the reading of the ROM."""
    if expected is None:
        return ends(0, b"lawful: 3 rows, 1 requests, 0 answered\n")
    line = b"unlawful: line 4, time 3, p7 D: wrong reply: expected AccessAckData " + expected + b", captured AccessAckData ffff\n"
    return ends(UNLAWFUL_STATUS, line)


def images():
    """An image is read whole, with interruptions too, or refused."""
    for image, expected in IMAGES:
        for flow in (by_bytes(), by_bytes("before")):
            yield run("an image", rom_end(expected), system=ROM, rows=READ_ROM, files={"rom.bin": image}, image=flow)
    for image, flow, why in NO_IMAGES:
        end = ends(FAULT, b"", b"system: port 7: " + why + b"\n", calls={"capture.csv": 0})
        yield run("no image", end, system=ROM, rows=READ_ROM, files={"rom.bin": image}, image=flow)


# A port with an image, one with none, and one that names the same file from the root; nothing is known beside the image.
NAMED = b"""[[port]]
kind = 'rom'
base = 0
length = 8
unknown = true
image = 'rom.bin'
[[port]]
kind = 'ram'
base = 8
length = 8
unknown = true
[[port]]
kind = 'rom'
base = 16
length = 8
unknown = true
image = 'FOLDER/rom.bin'
[[master]]
sources = 1
"""


def named():
    """Each port has the bytes of its file: eight bytes of each are read as unknown ones."""
    for port, line in ((0, b"unlawful: line 3, time 2, p0 D: wrong reply: expected AccessAckData 626f6f74xxxxxxxx, "
                           b"captured AccessAckData xxxxxxxxxxxxxxxx\n"),
                       (1, b"lawful: 2 rows, 1 requests, 1 answered\n"),
                       (2, b"unlawful: line 3, time 2, p2 D: wrong reply: expected AccessAckData 626f6f74xxxxxxxx, "
                           b"captured AccessAckData xxxxxxxxxxxxxxxx\n")):
        rows = capture(f"1,p{port},A,4,0,3,0,{8 * port:x},ff,,,\n2,p{port},D,1,,3,0,,,xxxxxxxxxxxxxxxx,0,0\n")
        end = ends(0 if port == 1 else UNLAWFUL_STATUS, line)
        yield run("images by name", end, system=NAMED, rows=rows, words=["--links", "ports"], files={"rom.bin": b"boot"})


# One master with two sources, and 16 bytes of memory. A put of four bytes is under way when a get of one of them begins, and the get is
# answered first. Then the source of the get asks for another byte, 6 after its reply.
TWO_SOURCES = b"port = [{ kind = 'ram', base = 0x1000, length = 16 }]\nmaster = [{ sources = 2 }]\n"
# Two ports with a byte in common: no system.
OVERLAP = (b"port = [{ kind = 'ram', base = 0, length = 16 }, { kind = 'ram', base = 15, length = 16 }]\n"
           b"master = [{ sources = 1 }]\n")
# The rows but the last reply; that reply, the same with a wrong byte, and the same before the row that it follows.
COVERING = ("1,m0,A,0,0,2,0,1000,0f,00000000ddccbbaa,,\n2,m0,A,4,0,0,1,1001,02,,,\n3,m0,D,1,,0,1,,,000000000000bb00,0,0\n"
            "4,m0,D,0,,2,0,,,,0,0\n9,m0,A,4,0,0,1,1000,01,,,\n")
REPLY = COVERING + "10,m0,D,1,,0,1,,,00000000000000aa,0,0\n"
WRONG = COVERING + "10,m0,D,1,,0,1,,,00000000000000ab,0,0\n"
EARLY = COVERING + "8,m0,D,1,,0,1,,,00000000000000aa,0,0\n"
COVERED = b"""coverage 2
asked m0 p0 putfull 2 aligned 1
asked m0 p0 get 0 aligned 2
answered m0 p0 putfull 2 given 1
answered m0 p0 get 0 given 2
beats m0 p0 A 1 3
beats m0 p0 D 1 3
in_flight m0 1 2
in_flight m0 2 1
at_port p0 1 2
at_port p0 2 1
overtook m0 p0 same 1
again m0 4 1
contested p0 1
source m0 0 1
source m0 1 2
range p0 0 3
edge p0 0 first 2
latency p0 1 2
latency p0 3 1
lane m0 0 0 1
lane m0 0 1 1
lane m0 2 0 1
after p0 write read 1
"""
# What the rows cover without the last reply.
UNANSWERED = COVERED.replace(b"get 0 given 2", b"get 0 given 1").replace(b"D 1 3", b"D 1 2").replace(b"latency p0 1 2", b"latency p0 1 1")
ALL = b"lawful: 6 rows, 3 requests, 3 answered\n"
LEFT = b"lawful: 5 rows, 3 requests, 2 answered\n"
INCOMPLETE = b"incomplete: 1 requests without reply, the first: line 6, time 9, m0 s1 get 0x1000 0\n"
WRONG_LINE = b"unlawful: line 7, time 10, m0 D: wrong reply: expected AccessAckData aa, captured AccessAckData ab\n"
ASKED = ["--links", "masters"]
TO_FILE = [*ASKED, "--coverage", "c.cov"]
# The system, the rows, the words, the status, what is written and said, and what the file holds then, which held something before.
JUDGED = (
    (TWO_SOURCES, REPLY, TO_FILE, 0, ALL, b"", COVERED),
    (TWO_SOURCES, WRONG, TO_FILE, UNLAWFUL_STATUS, WRONG_LINE, b"", UNANSWERED),
    # lawful as far as it goes, and incomplete if all is to be answered
    (TWO_SOURCES, COVERING, TO_FILE, 0, LEFT, b"", UNANSWERED),
    (TWO_SOURCES, COVERING, [*TO_FILE, "--complete"], UNLAWFUL_STATUS, INCOMPLETE, b"", UNANSWERED),
    # not asked for
    (TWO_SOURCES, REPLY, ASKED, 0, ALL, b"", b"held\n"),
    # a time that falls, and no system
    (TWO_SOURCES, EARLY, TO_FILE, FAULT, b"", b"capture: line 7: time falls\n", b"held\n"),
    (OVERLAP, REPLY, TO_FILE, FAULT, b"", b"system: ports 0 and 1 overlap\n", b"held\n"),
)
# The name of the file and its trouble, and what it holds then, if all of it was written or a part.
WRITTEN = (
    ("c.cov", by_bytes(), COVERED, True),
    ("c.cov", by_bytes("before"), COVERED, True),
    # no file of this name can be made
    ("no/c.cov", by_bytes(), None, False),
    ("c.cov", by_bytes("fails", 0), b"", False),
    ("c.cov", by_bytes("fails", 200), COVERED[:200], False),
    ("c.cov", by_bytes("forever"), b"", False),
)


def coverage():
    """What was covered is written after a verdict, and the file is left alone if there is none; or the write fails, and the verdict stands."""
    for system, rows, words, status, out, err, file in JUDGED:
        end = ends(status, out, err, files={"c.cov": file})
        yield run("what was covered", end, system=system, rows=capture(rows), words=words, files={"c.cov": b"held\n"})
    for name, flow, file, whole in WRITTEN:
        end = ends(0 if whole else STREAM, ALL, b"" if whole else WRITE_FAILED, files={"c.cov": file})
        yield run("what was covered is written", end, system=TWO_SOURCES, rows=capture(REPLY), words=[*ASKED, "--coverage", name], covered=flow)
    end = ends(0, b"lawful: 0 rows, 0 requests, 0 answered\n", files={"c.cov": b"coverage 2\n"})
    yield run("nothing is covered", end, system=TWO_SOURCES, rows=capture(""), words=TO_FILE)


# A master that puts no byte with `v`, which is answered with `w`; the header of a dump, and the dump: the beats cross at 5 and at 7.
DUMPED = dump_runs.SYSTEM.replace(b"a_mask = '1'", b"a_mask = '0'").replace(b"d_valid = '0', d_ready = '0'", b"d_valid = 'w', d_ready = '1'")
HEAD = b'$var wire 1 ! c $end $var wire 1 " v $end $var wire 1 # w $end $enddefinitions $end\n'
DUMP = HEAD + b'0! 1" 0# #5 1! #6 0! 0" 1# #7 1! #8 0! #9\n'
DUMP_LINE = b"lawful: 2 rows, 1 requests, 1 answered\n"
AT_MASTERS = ["--links", "masters"]
# Dumps, their words, and the line of their fault.
NO_DUMPS = (
    (b"$", AT_MASTERS, b"dump: line 1: cut in its header\n"),
    (b" \n$upscope $end ", AT_MASTERS, b"dump: line 2: not a dump\n"),
    (HEAD + b"b2 !\n", AT_MASTERS, b"dump: line 2: bad value\n"),
    (HEAD + b"0! #5 0!\n", AT_MASTERS, b"dump: the clock never rises\n"),
    (DUMP, [], b"system: port 0: no signals\n"),
)


def dumps():
    """A dump is judged however its bytes come, or has its fault; each read of it fails once, and each write of its verdict."""
    for flow in (by_bytes(), by_bytes("before")):
        for front in (b"", b"\n\t "):
            it = run("a dump", ends(0, DUMP_LINE), system=DUMPED, rows=front + DUMP, words=AT_MASTERS, capture=flow, written=flow)
            yield it
            yield from_input(it)
    for rows, words, line in NO_DUMPS:
        yield run("no dump", ends(FAULT, b"", line), system=DUMPED, rows=rows, words=words)
    for at in range(len(DUMP) + 1):
        end = ends(STREAM, b"", READ_FAILED)
        yield run(f"read {at} of a dump fails", end, system=DUMPED, rows=DUMP, words=AT_MASTERS, capture=by_bytes("fails", at))
    yield run("no read of a dump ends", ends(STREAM, b"", READ_FAILED), system=DUMPED, rows=DUMP, words=AT_MASTERS, capture=by_bytes("forever"))
    for at in range(len(DUMP_LINE)):
        end = ends(STREAM, DUMP_LINE[:at], WRITE_FAILED)
        yield run(f"write {at} fails", end, system=DUMPED, rows=DUMP, words=AT_MASTERS, written=by_bytes("fails", at))


def runs():
    for of in (failed_reads, failed_writes, verdicts, told, refused, dumps, images, named, coverage):
        yield from of()
