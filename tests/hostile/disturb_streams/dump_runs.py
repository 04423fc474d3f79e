"""The runs of tlvcd: dumps whose bytes come slowly, or not at all, and captures that can't be written."""

from streams import FAULT, MOST_CALLS, READ_FAILED, STREAM, WRITE_FAILED, Flow, Run, by_bytes, ends
from tlxtools.common import HEADER, TLVCD

# One master, whose requests are valid with `v`; most of its signals are constants.
WIRES = ("a_valid = 'v', a_ready = '1', a_opcode = '1', a_param = '0', a_size = '0', a_source = '0', a_address = '0', a_mask = '1', a_data = '0', "
         "d_valid = '0', d_ready = '0', d_opcode = '0', d_size = '0', d_source = '0', d_data = '0', d_denied = '0', d_corrupt = '0'")
RAM = "{ kind = 'ram', base = 0, length = 16 }"
SYSTEM = f"slots = 1\nclock = 'c'\nport = [{RAM}]\nmaster = [{{ sources = 1, ops = [], wires = {{ {WIRES} }} }}]\n".encode()
# The header of a dump, and the dump: two beats cross, at 5 and at 7.
HEAD = b'$var wire 1 ! c $end $var wire 1 " v $end $enddefinitions $end\n'
DUMP = HEAD + b'0! 1" #5 1! #6 0! #7 1! 0" #8 0! #9 1!\n'
FIRST_LINE = f"{HEADER}\n".encode()
CAPTURE = FIRST_LINE + b"5,m0,A,1,0,0,0,0,ff,0000000000000000,,\n7,m0,A,1,0,0,0,0,ff,0000000000000000,,\n"
# The last line of a capture of which rows are missing.
CUT = b"fault\n"
NEVER = b"tlvcd: the clock never rises\n"

# A master at 16 bytes and a port at 4, the file of whose image is not there, and a dump in which a beat crosses at each link at 5.
LANES = WIRES.replace("a_mask = '1'", "a_mask = 'm{bytes}'").replace("a_data = '0'", "a_data = 'd{bytes}'")
MIXED = ("bus = 4\nclock = 'c'\nport = [{ kind = 'rom', base = 0, length = 16, image = 'nowhere.bin', wires = { "
         + LANES.replace("{bytes}", "4") + " } }]\nmaster = [{ sources = 1, bus = 16, wires = { " + LANES.replace("{bytes}", "16")
         + " } }]\n").encode()
MIXED_DUMP = (b'$var wire 1 ! c $end $var wire 1 " v $end $var wire 16 # m16 $end $var wire 128 $ d16 $end $var wire 4 % m4 $end '
              b'$var wire 32 & d4 $end $enddefinitions $end\n0! 1" b10000 # b1010 $ b1 % bx & #5 1!\n')
MIXED_CAPTURE = FIRST_LINE + (b"5,m0,A,1,0,0,0,0,0010,0000000000000000000000000000000a,,\n"
                              b"5,p0,A,1,0,0,0,0,1,xxxxxxxx,,\n")
# A header in which the mask of the port at 4 bytes has the bits of one at 8.
NARROW = b'$var wire 1 ! c $end $var wire 1 " v $end $var wire 8 % m4 $end $enddefinitions $end\n'


def run(name, end, system=SYSTEM, dump=DUMP, **flows):
    """A run whose streams give and take one byte at a time. A flow of its own has the system, the dump, or what is written."""
    names = {"system_flow": "system.toml", "dump_flow": "dump.vcd", "written": "1"}
    streams = {stream: flows.get(flow, by_bytes()) for flow, stream in names.items()}
    return Run(f"tlvcd: {name}", [TLVCD, "system.toml", "dump.vcd"], {"system.toml": system, "dump.vcd": dump}, b"", streams, end)


def from_input(it):
    """The same run, with its dump on standard input."""
    flows = {"0" if name == "dump.vcd" else name: flow for name, flow in it.flows.items()}
    return it._replace(name=f"{it.name}, on standard input", command=it.command[:-1], given=it.files["dump.vcd"], flows=flows)


def slow():
    """Streams that are slow change nothing, and rows have the widths of their links."""
    for flow in (by_bytes(), by_bytes("before")):
        it = run("slow", ends(0, CAPTURE), system_flow=flow, dump_flow=flow, written=flow)
        yield it
        yield from_input(it)
    yield run("widths", ends(0, MIXED_CAPTURE), system=MIXED, dump=MIXED_DUMP)


# The first system with no signals, and with no clock.
NO_SIGNALS = f"slots = 1\nport = [{RAM}]\nmaster = [{{ sources = 1, ops = [] }}]\n".encode()
NO_CLOCK = f"slots = 1\nport = [{RAM}]\nmaster = [{{ sources = 1, ops = [], signals = 'm_' }}]\n".encode()
# Systems and dumps, and the line of their fault: the system comes before the header, and that before its signals.
REFUSED = (
    (b"slots", b"", b"system: not TOML\n"),
    (b"slots = 1", b"", b"system: missing master\n"),
    (b"bus = 3", b"", b"system: bus out of range\n"),
    # two masters of one name, and two ports with a byte in common
    (b"master = [{ name = 'core', sources = 1 }, { name = 'core', sources = 1 }]\n", b"", b"system: two are called core\n"),
    (f"port = [{RAM}, {RAM.replace('base = 0', 'base = 15')}]\nmaster = [{{ sources = 1 }}]\n".encode(), b"",
     b"system: ports 0 and 1 overlap\n"),
    (NO_SIGNALS, b"", b"system: no signals\n"),
    (NO_CLOCK, b"", b"system: missing clock\n"),
    (SYSTEM, b"", b"tlvcd: line 1: cut in its header\n"),
    (SYSTEM, b"\n$upscope $end ", b"tlvcd: line 2: not a dump\n"),
    (SYSTEM, b"$enddefinitions $end ", b"tlvcd: no signal c\n"),
    (MIXED, NARROW, b"tlvcd: port 0: m4 has 8 bits, 4 wanted\n"),
    (b"#" * 1_048_577, b"", b"system: longer than 1048576 bytes\n"),
    (b"master = [{ sources = 1, wires = 1 }]\n", b"", b"system: wrong type of wires\n"),
)
# A dump whose clock does not rise.
NO_EDGE = HEAD + b'0! 1" #5 #6 0!\n'
# The first system, whose opcode is a signal; and four ports, of which the last has replies whose size is one.
OPCODE = SYSTEM.replace(b"a_opcode = '1'", b"a_opcode = 'o'")
SIZE = ("clock = 'c'\n" + "".join(f"[[port]]\nkind = 'ram'\nbase = {at}\nlength = 1\n" for at in range(4)) + "wires = { "
        + WIRES.replace("a_valid = 'v'", "a_valid = '0'").replace("d_valid = '0', d_ready = '0'", "d_valid = 'v', d_ready = '1'").replace(
            "d_size = '0'", "d_size = 'o'") + " }\n[[master]]\nsources = 1\n").encode()
WITH_O = HEAD.replace(b"$enddefinitions", b"$var wire 4 # o $end $enddefinitions")
# Systems and dumps, whose faults are found behind the header of the dump.
BROKEN = (
    (SYSTEM, NO_EDGE, NEVER),
    (SYSTEM, HEAD + 10 * b"\n" + b"b2 !\n", b"tlvcd: line 12: bad value\n"),
    (OPCODE, WITH_O + b'0! 1" bx # #35 1! #36\n', b"tlvcd: time 35, m0 A: a_opcode is unknown\n"),
    (SIZE, WITH_O + b'0! 1" bx # #9 1! #10\n', b"tlvcd: time 9, p3 D: d_size is unknown\n"),
)


def refused():
    """Faults have their lines. Behind the header of the dump its line is written, and then that rows are missing."""
    for system, dump, line in REFUSED:
        yield run("a fault", ends(FAULT, b"", line), system=system, dump=dump)
    for system, dump, line in BROKEN:
        yield run("a broken dump", ends(FAULT, FIRST_LINE + CUT, line), system=system, dump=dump)
    end = ends(FAULT, b"", b"system: not TOML\n", calls={"dump.vcd": 0})
    yield run("the system comes first", end, system=b"slots", dump_flow=by_bytes("broken"))


def failed_reads():
    """Each read of the system and of the header of the dump fails once, and later ones; or all are interrupted."""
    none = ends(STREAM, b"", READ_FAILED)
    for at in range(len(SYSTEM) + 1):
        yield run(f"read {at} of the system fails", ends(STREAM, b"", READ_FAILED, calls={"dump.vcd": 0}), system_flow=by_bytes("fails", at))
    for at in range(len(HEAD)):
        yield run(f"read {at} of the dump fails", none, dump_flow=by_bytes("fails", at))
    # behind the header its line is written; at the end all rows are there
    yield run("the first read of the body fails", ends(STREAM, FIRST_LINE + CUT, READ_FAILED), dump_flow=by_bytes("fails", len(HEAD)))
    yield run("the last read fails", ends(STREAM, CAPTURE + CUT, READ_FAILED), dump_flow=by_bytes("fails", len(DUMP)))
    yield run("no read of the system ends", ends(STREAM, b"", READ_FAILED, calls={"system.toml": MOST_CALLS}), system_flow=by_bytes("forever"))
    yield run("no read of the dump ends", none, dump_flow=by_bytes("forever"))


def failed_writes():
    """Each write of a capture fails once, after so many bytes, or takes nothing; or all are interrupted."""
    for at in range(len(CAPTURE)):
        for trouble in ("fails", "full"):
            yield run(f"write {at} {trouble}", ends(STREAM, CAPTURE[:at], WRITE_FAILED), written=by_bytes(trouble, at))
    yield run("no write ends", ends(STREAM, b"", WRITE_FAILED), written=by_bytes("forever"))


# A clock, a reset that is active at 0, and the link of a master with constants for most signals.
TREE = b"""clock = 'c'
reset = 'r'
reset_active = 'low'
[[master]]
sources = 4
wires = { a_valid = 's.v[0]', a_ready = 's.g[1].rdy', a_opcode = '1', a_param = '0', a_size = 's.n[2:1]', a_source = 's.\\esc+', a_address = '0', \
a_mask = '1', a_data = '0', d_valid = '0', d_ready = '0', d_opcode = '0', d_size = '0', d_source = '0', d_data = '0', d_denied = '0', d_corrupt = '0' }
"""
# The header of its dumps: scopes of generated blocks, a name with brackets, an escaped one, and two names of one signal.
TREE_HEAD = b"""$comment a $var is no
 declaration here $end $timescale 1 ns $end
$var wire 1 ! c $end $var wire 1 " r $end
$scope module s $end $var reg 4 # n [3:0] $end $var wire 1 $ v[0] $end
$var wire 4 # again [3:0] $end $var real 64 % q $end $var wire 1 & \\esc+ $end
$scope begin g[1] $end $var wire 1 ' rdy $end $upscope $end $upscope $end
$enddefinitions $end
"""
# The row of the one beat at a time, with this size and source.
ROW_AT_5 = b"5,m0,A,1,0,2,1,0,ff,0000000000000000,,\n"
# Bodies, and how they end. Of a last word that no blank ends nothing comes.
BODIES = (
    (b"0! 1\" b101 # 1$ 1' 1& #5 1!\n", ends(0, FIRST_LINE + ROW_AT_5)),
    (b"$dumpvars 0! 1\" b0101 # 1$ 1' 1& $end\n#5 0$ b0 # 1! 0& 0' #6\n", ends(0, FIRST_LINE + ROW_AT_5)),
    (b"0! 1\" b101 # 1$ 1' 1& #5 1!", ends(FAULT, FIRST_LINE + CUT, NEVER)),
)
# A body whose clock rises.
RISES = b"0! #5 1!\n"


def steps():
    """Rows come however the bytes do: one at a time, each after an interruption, a few, or all."""
    for body, end in BODIES:
        for flow in (by_bytes("before"), Flow(2, "never", 0), Flow(7, "never", 0), Flow(100_000, "never", 0)):
            yield run("steps", end, system=TREE, dump=TREE_HEAD + body, dump_flow=flow)


def failed_after_interruptions():
    """A read fails, byte by byte, each after an interruption, and then the end. Nothing is written before the header's end."""
    whole = TREE_HEAD + RISES
    for at in range(2 * (len(whole) + 1)):
        out = b"" if at < 2 * len(TREE_HEAD) else FIRST_LINE + CUT
        yield run(f"call {at} fails", ends(STREAM, out, READ_FAILED), system=TREE, dump=whole, dump_flow=by_bytes("both", at))


def runs():
    for of in (failed_reads, failed_writes, slow, refused, steps, failed_after_interruptions):
        yield from of()
