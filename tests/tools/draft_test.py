"""Tests tools/draft: on dumps written here, with the text that was worked out by hand from the rules at the top of
tools/draft; on the dumps of examples/waves, whose drafts agree with their system files; and by the rows that tlvcd writes with a draft that is
filled in, which are those with a system file written by hand, or were worked out by hand. Rows are skipped if no tlvcd is built. The last
line is 'N passed, M failed'.
"""

import os
import subprocess
import sys
import tempfile
import tomllib

from harness import run_test, tell_cases
from tlxtools.bus import bus_of
from tlxtools.common import TLVCD, TOP

DRAFT = os.path.join(TOP, "tools", "draft")
WAVES = os.path.join(TOP, "examples", "waves")
DUMPS = os.path.join(TOP, "tests", "dumps")
HEAD = """\
# Drafted by tools/draft from the names of a dump. Fill in what begins with "# TODO" (docs/guide/your_rtl.md, "Fill in what is left").
"""
NO_RESET = "# TODO reset: no signal is called reset, rst, rst_n, rst_ni, resetn, reset_n, aresetn; a design without one needs no line\n"
# The signals of a link with a bus of 4 bytes, and their bits. A signal's identifier is the link's mark and its name.
BITS = {"a_valid": 1, "a_ready": 1, "a_opcode": 3, "a_param": 3, "a_size": 2, "a_source": 4, "a_address": 32, "a_mask": 4, "a_data": 32,
        "d_valid": 1, "d_ready": 1, "d_opcode": 3, "d_size": 2, "d_source": 4, "d_denied": 1, "d_corrupt": 1, "d_data": 32}
# Those that most designs have not.
EXTRAS = {"a_corrupt": 1, "d_param": 2}


def variables(mark, prefix="", leave=(), bits=None, spell=lambda signal: signal, only=None):
    """The declarations of a link's signals: without those to leave, or with those of `only` alone."""
    return "".join(f"$var wire {width} {mark}{signal} {prefix}{spell(signal)} $end\n" for signal, width in {**BITS, **(bits or {})}.items()
                   if signal not in leave and (only is None or signal in only))


def scope(name, *inside):
    return f"$scope module {name} $end\n{''.join(inside)}$upscope $end\n"


def dump(*declared, body=""):
    return f"$timescale 1ns $end\n{''.join(declared)}$enddefinitions $end\n{body}"


def chisel(signal):
    """Chisel's name: all but valid and ready are members of bits."""
    return signal if signal.endswith(("valid", "ready")) else f"{signal[:2]}bits_{signal[2:]}"


def ranged(signal):
    """A name with its range, which is no part of it."""
    return f"{signal}[{BITS[signal] - 1}:0]"


def error(signal):
    return "d_error" if signal == "d_denied" else signal


def get(mark, address, source=None, size=2, param="0"):
    """The values of a get that stands at channel A of a link, and of no reply. A link without a source or a param has none."""
    values = {"a_opcode": "100", "a_param": param, "a_size": f"{size:b}", "a_source": source if source is None else f"{source:b}",
              "a_address": f"{address:b}", "a_mask": "1111", "a_data": "0"}
    words = (f"b{value} {mark}{signal} " for signal, value in values.items() if value is not None)
    return f"1{mark}a_valid 1{mark}a_ready 0{mark}d_valid 0{mark}d_ready {''.join(words)}\n"


CLOCK, HIGH = "$var wire 1 clk clk $end\n", "$var wire 1 rst reset $end\n"
PORT = """
[[port]]
name = "{name}"
# TODO kind: ram, rom, regs, w1c or device
kind = "device"
# TODO base, length: {told}
base = 0x????
length = 0x????
bus = 4
"""
# One port with the standard's names and a reset that is active at 0 up to the time 10. In reset a get of 0x4000 stands at the edge; then
# gets of 4 bytes at 0x1004 and at 0x1010 cross, at 15 and 25. Before the edge at 35 valid falls.
STANDARD = dump(scope("tb", CLOCK, "$var wire 1 rst rst_ni $end\n", scope("dut", variables("R", "ram_", spell=ranged))),
                body="#0 0clk 0rst " + get("R", 0x4000, 1) + "#5 1clk #10 0clk 1rst " + get("R", 0x1004, 1) + "#15 1clk #20 0clk "
                + get("R", 0x1010, 5) + "#25 1clk " + "#30 0clk 0Ra_valid #35 1clk #40\n")
STANDARD_TEXT = HEAD + """\
clock = "tb.clk"
period = 10
reset = "tb.rst_ni"
reset_active = "low"
""" + PORT.format(name="ram", told="0x1004 to 0x1013 crossed; base = 0x1000 and length = 0x20 hold them") + """\
signals = "tb.dut.ram_"

# TODO master: no link of a master was found, and a system has at least one
# [[master]]
# sources = 1
"""
# Chisel's names: a client without a_bits_param, d_bits_corrupt and what most designs have not, whose source 2 asks for 4 bytes at 0x2000;
# and a memory that nobody asks, which has all signals, with an output that is no link.
CHISEL = dump(scope("TOP", "$var wire 1 clk clock $end\n", HIGH, "$var wire 1 v other_a_valid $end\n", scope(
    "xbar", variables("I", "auto_in_", leave=("a_param", "d_corrupt"), spell=chisel), variables("O", "auto_out_1_", bits=EXTRAS, spell=chisel))),
    body="#0 0clk 1rst 0Oa_valid 0Od_valid " + get("I", 0x2000, 2, param=None) + "#5 1clk #10 0clk 0rst #15 1clk #20\n")
CHISEL_TEXT = HEAD + """\
clock = "TOP.clock"
period = 10
reset = "TOP.reset"
""" + PORT.format(name="auto_out_1", told="no request crossed") + """\
signals = "TOP.xbar.auto_out_1_"
bits = true

[[master]]
name = "auto_in"
# a_source has 4 bits, at most 16 sources; the greatest that crossed is 2
sources = 3
bus = 4
signals = "TOP.xbar.auto_in_"
bits = true

[master.wires]
a_param = "0"  # the dump has no such signal
d_corrupt = "-"  # the dump has no such signal
"""
# Two structs of a link, whose name does not tell which side it is on. Its source 3 asks for one byte at 0x30.
REQUESTS = [signal for signal in BITS if signal == "d_ready" or signal.startswith("a_") and signal != "a_ready"]
REPLIES = [signal for signal in BITS if signal not in REQUESTS and signal != "d_corrupt"]
STRUCTS = dump(scope("tb", CLOCK, scope("tl_h_i", variables("S", only=REQUESTS)),
                     scope("tl_h_o", variables("S", only=REPLIES, spell=error))),
               body="#0 0clk " + get("S", 0x30, 3, 0) + "#5 1clk #10\n")
STRUCT_WIRES = """\
signals = ["tb.tl_h_i.", "tb.tl_h_o."]

[{role}.wires]
d_denied = "tb.tl_h_o.d_error"
d_corrupt = "-"  # the dump has no such signal
"""
STRUCT_MASTER = """\
[[master]]
name = "tl_h"
# a_source has 4 bits, at most 16 sources; the greatest that crossed is 3
sources = 4
bus = 4
""" + STRUCT_WIRES.format(role="master")
STRUCT_RANGE = "0x30 to 0x30 crossed; base = 0x30 and length = 0x1 hold them"
STRUCT_PORT = PORT.format(name="tl_h", told=STRUCT_RANGE)[1:] + STRUCT_WIRES.format(role="port")


def commented(text):
    return "".join(f"# {line}".rstrip() + "\n" for line in text.splitlines())


STRUCTS_TEXT = HEAD + 'clock = "tb.clk"\n' + NO_RESET + """
# TODO tb.tl_h_i.: a master's link or a port's? Uncomment one of the tables
""" + commented(STRUCT_MASTER) + commented(STRUCT_PORT)
# The link of a RAM is seen in three scopes with the same nets, and in one with fewer of them; the clock is seen twice, and so is the data, once
# as a part. No cycle passes.
SEEN = scope("tb", CLOCK, "$var wire 8 Ra_data ram_a_data [7:0] $end\n", variables("R", "ram_"), scope(
    "dut", "$var wire 1 clk clk_i $end\n", variables("R", "ram_"), scope("monitor", variables("R", leave=("d_data",)))))
ALIASES_TEXT = HEAD + 'clock = "tb.clk"\n' + NO_RESET + PORT.format(name="ram", told="no request crossed") + """\
# the same nets: tb.dut.ram_
# the same nets: tb.dut.monitor.
signals = "tb.ram_"

# TODO master: no link of a master was found, and a system has at least one
# [[master]]
# sources = 1
"""
# The same with --top tb.dut, where the clock of the outer scope is still the one.
INNER_TEXT = ALIASES_TEXT.replace("# the same nets: tb.dut.ram_\n", "").replace('"tb.ram_"', '"tb.dut.ram_"')
# Two masters and two ports, with two names of the clock and another clock inside; master 1 has a bus of 8 bytes, port 1 no sources. The
# reset is active up to 10. Master 0 has a_corrupt and d_param too. At 15 the masters ask: source 1 for 4 bytes at 0x100, source 7 for 8 at
# 0x8f8. At 25 this is seen at the ports.
WIDE = {"a_mask": 8, "a_data": 64, "d_data": 64}
TWO = dump(scope("soc", CLOCK, "$var wire 1 clk aclk $end\n", HIGH, scope("host0", variables("M", bits=EXTRAS)),
                 scope("host1", variables("N", bits=WIDE)),
                 scope("x", "$var wire 1 gated clk_i $end\n", variables("P", "device_0_"),
                       variables("Q", "device_1_", leave=("a_source", "d_source")))),
           body="#0 0clk 1rst 0Pa_valid 0Qa_valid 0Pd_valid 0Qd_valid 0Ma_corrupt " + get("M", 0x100, 1) + get("N", 0x8f8, 7, 3)
           + "#5 1clk #10 0clk 0rst #15 1clk #20 0clk 0Ma_valid 0Na_valid " + get("P", 0x100, 1) + get("Q", 0x8f8, size=3)
           + "#25 1clk #30\n")
TWO_TEXT = HEAD + 'clock = "soc.clk"\nperiod = 10\nreset = "soc.reset"\n' + PORT.format(
    name="device_0", told="0x100 to 0x103 crossed; base = 0x100 and length = 0x4 hold them") + """\
signals = "soc.x.device_0_"
""" + PORT.format(name="device_1", told="0x8f8 to 0x8ff crossed; base = 0x8f8 and length = 0x8 hold them") + """\
signals = "soc.x.device_1_"

[port.wires]
a_source = "0"  # the dump has no such signal
d_source = "0"  # the dump has no such signal

[[master]]
name = "host0"
# a_source has 4 bits, at most 16 sources; the greatest that crossed is 1
sources = 2
bus = 4
signals = "soc.host0."

[[master]]
name = "host1"
# a_source has 4 bits, at most 16 sources; the greatest that crossed is 7
sources = 8
bus = 8
signals = "soc.host1."
"""
# Two clocks beside a third name that two signals have, two resets, no mask, data of 24 bits, and a source and a parameter of replies that
# are too wide. What crosses is not known without a clock.
CLOCKS = "$var wire 1 ck aclk $end\n$var wire 1 c1 clock $end\n$var wire 1 c2 clock $end\n"
DOUBT = dump(scope("tb", CLOCK, CLOCKS, HIGH, "$var wire 1 rn resetn $end\n",
                   variables("C", "cpu_", leave=("a_mask",), bits={"a_data": 24, "d_data": 24, "a_source": 20, "d_param": 9})),
             body="0clk 1rst #5 1clk\n")
DOUBT_TEXT = HEAD + """\
# TODO clock: choose one of these
# clock = "tb.clk"
# clock = "tb.aclk"
# TODO reset: choose one of these, with reset_active = "low" if it is active at 0
# reset = "tb.reset"
# reset = "tb.resetn"

[[master]]
name = "cpu"
# TODO sources: no request crossed; a_source has 20 bits, at most 65536 sources
sources = 1
# TODO bus: 1, 2, 4, 8, 16, 32 or 64 bytes; the width of the data does not tell
# TODO a_source: tb.cpu_a_source has 20 bits, and tlvcd takes 16: name bits of it in wires
# TODO d_param: tb.cpu_d_param has 9 bits, and tlvcd takes 8: name bits of it in wires
signals = "tb.cpu_"

[master.wires]
# TODO a_mask = "..": the dump has no such signal
"""
# The name says that the reset is active at 1; it falls never, and rises: by this it is active at 0. It is outside of the scope of the link,
# as the clock is, and a mask has two signals.
POLARITY = dump(scope("tb", scope("clocks", CLOCK, HIGH), scope("slave", variables("R"), "$var wire 4 x a_mask $end\n")),
                body="0rst #5 1rst #10\n")
POLARITY_TEXT = HEAD + """\
clock = "tb.clocks.clk"
# TODO reset: tb.clocks.reset is active at 0 by its changes, at 1 by its name: choose the polarity
# reset = "tb.clocks.reset"
# reset_active = "low"
""" + PORT.format(name="slave", told="no request crossed") + """\
# TODO tb.slave.a_mask: two signals are called so, and tlvcd takes neither
signals = "tb.slave."

# TODO master: no link of a master was found, and a system has at least one
# [[master]]
# sources = 1
"""
# The clock rises from x at 5, from 0 at 15, and within the time 20, in which it has fallen; only at 15 is an edge. What changes at 15 comes
# too late, though a second line names that time: of the gets only that of 0x1000 crosses. Of two values at 10 the last one counts.
EDGES = dump(scope("tb", CLOCK, variables("R", "ram_")),
             body=get("R", 0x9000, 1) + "#5 1clk #10 0clk $comment x$end hello $end 0Ra_valid " + get("R", 0x1000, 1)
             + "#15 " + get("R", 0x1008, 1) + "#15 1clk #20 0clk #20 1clk #25 0clk 0Ra_valid #30\n")
EDGES_TEXT = STANDARD_TEXT.replace("tb.dut.", "tb.").replace('period = 10\nreset = "tb.rst_ni"\nreset_active = "low"\n', NO_RESET).replace(
    "0x1004 to 0x1013 crossed; base = 0x1000 and length = 0x20", "0x1000 to 0x1003 crossed; base = 0x1000 and length = 0x4")
# A link whose scope has a clock of its own, that rises at other times, and a reset that is active at 0 up to 10. In reset a get of 0x4000 stands
# at the edge at 7, and at 17 one of 0x1004 crosses. The clock of the other link is one more net that rises with that at the top.
OWN = dump(scope("tb", CLOCK, HIGH, "$var wire 1 p clk_peri $end\n",
                 scope("slow", "$var wire 1 k clk $end\n$var wire 1 n rst_n $end\n", variables("R", "ram_")),
                 scope("quick", "$var wire 1 c clk_i $end\n", variables("S", "dram_"))),
           body="#0 0clk 0k 0c 1rst 0n 0Sa_valid " + get("R", 0x4000, 1) + "#5 1clk 1c #7 1k #10 0clk 0k 0c 0rst 1n " + get("R", 0x1004, 3)
           + get("S", 0x20, 1) + "#15 1clk 1c #17 1k #18 0Ra_valid #20 0clk 0k 0c 0Sa_valid #25 1clk 1c #27 1k #30\n")
OWN_TEXT = HEAD + """\
clock = "tb.clk"
period = 10
# TODO tb.clk_peri: another clock? A link that has it needs `clock` and `link_reset`
reset = "tb.reset"
""" + PORT.format(
    name="ram", told="0x1004 to 0x1007 crossed; base = 0x1004 and length = 0x4 hold them") + """\
clock = "tb.slow.clk"
link_reset = "tb.slow.rst_n"
reset_active = "low"
signals = "tb.slow.ram_"
""" + PORT.format(name="dram", told="0x20 to 0x23 crossed; base = 0x20 and length = 0x4 hold them") + """\
signals = "tb.quick.dram_"

# TODO master: no link of a master was found, and a system has at least one
# [[master]]
# sources = 1
"""
# A design that leaves a_corrupt open: it is z when the get crosses. The parameter of replies is known at the one beat of a reply.
OPEN = dump(scope("tb", CLOCK, variables("H", "host_", bits=EXTRAS)),
            body="#0 0clk zHa_corrupt bx Hd_param " + get("H", 0x40, 1) + "#5 1clk #10 0clk 0Ha_valid 1Hd_valid 1Hd_ready b0 Hd_param b1 Hd_opcode "
            "b10 Hd_size b1 Hd_source 0Hd_denied 0Hd_corrupt b0 Hd_data #15 1clk #16\n")
OPEN_TEXT = HEAD + 'clock = "tb.clk"\nperiod = 10\n' + NO_RESET + """
[[master]]
name = "host"
# a_source has 4 bits, at most 16 sources; the greatest that crossed is 1
sources = 2
bus = 4
signals = "tb.host_"

[master.wires]
a_corrupt = "-"  # it is unknown
"""
# A link whose handshakes stand elsewhere.
PARTIAL = dump(scope("tb", CLOCK, variables("R", "ram_", leave=("a_valid", "a_ready", "d_valid", "d_ready"))))
PARTIAL_TEXT = HEAD + 'clock = "tb.clk"\n' + NO_RESET + PORT.format(name="ram", told="no request crossed") + """\
signals = "tb.ram_"

[port.wires]
""" + "".join(f'# TODO {signal} = "..": the dump has no such signal\n' for signal in ("a_valid", "a_ready", "d_valid", "d_ready")) + """
# TODO master: no link of a master was found, and a system has at least one
# [[master]]
# sources = 1
"""
# Two structs in two vectors, the highest member first: a get of 4 bytes at 0x40 by source 5 waits, and the port is ready. The dump leaves the
# leading zeros of the replies out. Two other vectors are called so, and have other widths.
H2D = "1" "100" "000" "10" "00000101" f"{0x40:032b}" "1111" f"{0:032b}" "0"
PACKED = dump(scope("tb", CLOCK, "$var wire 120 x tl_h2d [119:0] $end\n$var wire 79 y tl_d2h [78:0] $end\n", scope(
    "soc", "$var wire 86 h ram_h2d [85:0] $end\n$var wire 52 d ram_d2h [51:0] $end\n")), body=f"#0 0clk b{H2D} h b1 d #5 1clk #10\n")
PACKED_TEXT = HEAD + 'clock = "tb.clk"\n' + NO_RESET + """\
# TODO tb.tl_h2d, tb.tl_d2h: two packed structs of a link, of 120 and 79 bits? If so, name bits of them in wires
""" + PORT.format(
    name="ram", told="0x40 to 0x43 crossed; base = 0x40 and length = 0x4 hold them") + """
[port.wires]
a_valid = "tb.soc.ram_h2d[85]"
a_ready = "tb.soc.ram_d2h[0]"
a_opcode = "tb.soc.ram_h2d[84:82]"
a_param = "tb.soc.ram_h2d[81:79]"
a_size = "tb.soc.ram_h2d[78:77]"
a_source = "tb.soc.ram_h2d[76:69]"
a_address = "tb.soc.ram_h2d[68:37]"
a_mask = "tb.soc.ram_h2d[36:33]"
a_data = "tb.soc.ram_h2d[32:1]"
d_valid = "tb.soc.ram_d2h[51]"
d_ready = "tb.soc.ram_h2d[0]"
d_opcode = "tb.soc.ram_d2h[50:48]"
d_param = "tb.soc.ram_d2h[47:45]"
d_size = "tb.soc.ram_d2h[44:43]"
d_source = "tb.soc.ram_d2h[42:35]"
d_denied = "tb.soc.ram_d2h[1]"
d_data = "tb.soc.ram_d2h[33:2]"
a_corrupt = "-"  # the dump has no such signal
d_corrupt = "-"  # the dump has no such signal

# TODO master: no link of a master was found, and a system has at least one
# [[master]]
# sources = 1
"""
# A source that is declared bit by bit, in some order: 5 asks for 4 bytes at 0x40. Without one of its bits there is a gap.
SOURCE = "$var wire 1 s2 host_a_source [2] $end\n$var wire 1 s0 host_a_source[0] $end\n$var wire 1 s3 host_a_source [3] $end\n"
SPLIT_BODY = "#0 0clk " + get("H", 0x40) + "1s0 0s1 1s2 0s3 #5 1clk #10\n"
SPLIT = dump(scope("tb", CLOCK, variables("H", "host_", leave=("a_source",)), SOURCE, "$var wire 1 s1 host_a_source [1] $end\n"), body=SPLIT_BODY)
SPLIT_TEXT = HEAD + 'clock = "tb.clk"\n' + NO_RESET + """
[[master]]
name = "host"
# a_source has 4 bits, at most 16 sources; the greatest that crossed is 5
sources = 6
bus = 4
signals = "tb.host_"
"""
GAP = dump(scope("tb", CLOCK, variables("H", "host_", leave=("a_source",)), SOURCE))
GAP_TEXT = HEAD + 'clock = "tb.clk"\n' + NO_RESET + """
[[master]]
name = "host"
# TODO sources: no request crossed; a_source has 1 bits, at most 2 sources
sources = 1
bus = 4
# TODO tb.host_a_source: two signals are called so, and tlvcd takes neither
signals = "tb.host_"
"""


# The data and the mask of a port in arrays, whose elements are signals of their own: as Verilator declares them, and after a backslash, as
# Icarus does. The indices of one begin at 2. Without the element between two others there is no array.
def array(name, bits, *indices):
    """The declarations of an array's elements, each of which has its name as its identifier."""
    return "".join(f"$var wire {bits} {name}:{index} {name}[{index}] [{bits - 1}:0] $end\n" for index in indices)


IN_ARRAYS = ("a_mask", "a_data", "d_data")
PLAIN_ARRAYS = array("ram_a_mask", 4, 0, 1) + array("ram_a_data", 32, 1, 0) + array("ram_d_data", 16, 2, 3, 4, 5)
ARRAYS_BODY = "#0 0clk " + get("R", 0x1000, 1).replace("b1111 Ra_mask", "b1111 {0}ram_a_mask:0 b0 {0}ram_a_mask:1").replace(
    "b0 Ra_data", "b1111 {0}ram_a_data:0 b1010 {0}ram_a_data:1") + "#5 1clk #10\n"
ARRAYS = dump(scope("tb", CLOCK, variables("R", "ram_", leave=IN_ARRAYS), PLAIN_ARRAYS), body=ARRAYS_BODY.format(""))
ESCAPED_ARRAYS = dump(scope("tb", CLOCK, variables("R", "ram_", leave=IN_ARRAYS), PLAIN_ARRAYS.replace("ram_", "\\ram_")),
                      body=ARRAYS_BODY.format("\\"))
ARRAYS_TEXT = HEAD + 'clock = "tb.clk"\n' + NO_RESET + PORT.replace("bus = 4", "bus = 8").format(
    name="ram", told="0x1000 to 0x1003 crossed; base = 0x1000 and length = 0x4 hold them") + """\
signals = "tb.ram_"

[port.wires]
a_mask = ["tb.ram_a_mask[1]", "tb.ram_a_mask[0]"]
a_data = ["tb.ram_a_data[1]", "tb.ram_a_data[0]"]
d_data = ["tb.ram_d_data[5]", "tb.ram_d_data[4]", "tb.ram_d_data[3]", "tb.ram_d_data[2]"]

# TODO master: no link of a master was found, and a system has at least one
# [[master]]
# sources = 1
"""
ESCAPED_ARRAYS_TEXT = ARRAYS_TEXT.replace('["tb.ram', '["tb.\\\\ram').replace(', "tb.ram', ', "tb.\\\\ram')
ARRAY_GAP = dump(scope("tb", CLOCK, variables("R", "ram_", leave=("a_data",)), array("ram_a_data", 16, 0, 2)))
ARRAY_GAP_TEXT = INNER_TEXT.replace("tb.dut.ram_", "tb.ram_").replace("# the same nets: tb.dut.monitor.\n", "").replace(
    'signals = "tb.ram_"\n', 'signals = "tb.ram_"\n\n[port.wires]\n# TODO a_data = "..": the dump has no such signal\n')
# A source that a netlist has bit by bit, whose names Icarus writes after a backslash.
BITS_OF_GATES = "".join(f"$var wire 1 s{index} \\host_a_source[{index}] $end\n" for index in range(4))
GATES = dump(scope("tb", CLOCK, variables("H", "host_", leave=("a_source",)), BITS_OF_GATES), body=SPLIT_BODY)
GATES_TEXT = SPLIT_TEXT.replace('signals = "tb.host_"\n', "\n[master.wires]\n" + "".join(
    f'{signal} = "tb.{chr(92) * 2 if signal == "a_source" else ""}host_{signal}"\n' for signal in
    [*(signal for signal in BITS if signal != "d_data"), "d_data"]) + "".join(
    f'{signal} = "-"  # the dump has no such signal\n' for signal in EXTRAS))
# What GHDL writes: a scope with parentheses, ranges at names, and values that Verilog has not. The clock rises from L to H. The reset is
# unknown at 5, and source 3 asks for 4 bytes at 0x20 at 15.
VHDL = dump(scope("tb", CLOCK, "$var wire 1 rst rst_n $end\n", scope("ram(0)", variables("R", spell=ranged))),
            body="#0 Lclk Urst URa_valid WRd_valid -Rd_ready bUU-- Ra_source #5 Hclk 0rst #10 Lclk Hrst "
            + get("R", 0x20, 3).replace("1R", "HR").replace("b11 Ra_source", "bLLHH Ra_source") + "#15 Hclk #20 Lclk\n")
VHDL_TEXT = HEAD + 'clock = "tb.clk"\nperiod = 10\nreset = "tb.rst_n"\nreset_active = "low"\n' + PORT.format(
    name="ram_0", told="0x20 to 0x23 crossed; base = 0x20 and length = 0x4 hold them") + """\
signals = "tb.ram(0)."

# TODO master: no link of a master was found, and a system has at least one
# [[master]]
# sources = 1
"""
TEXTS = ((STANDARD, [], STANDARD_TEXT), (CHISEL, [], CHISEL_TEXT), (STRUCTS, [], STRUCTS_TEXT), (dump(SEEN), [], ALIASES_TEXT),
         (dump(SEEN), ["--top", "tb.dut"], INNER_TEXT), (dump(SEEN), ["--top=tb.dut"], INNER_TEXT), (TWO, [], TWO_TEXT),
         (DOUBT, [], DOUBT_TEXT), (POLARITY, [], POLARITY_TEXT), (EDGES, [], EDGES_TEXT), (SPLIT, [], SPLIT_TEXT), (GAP, [], GAP_TEXT),
         (ARRAYS, [], ARRAYS_TEXT), (ESCAPED_ARRAYS, [], ESCAPED_ARRAYS_TEXT), (ARRAY_GAP, [], ARRAY_GAP_TEXT), (GATES, [], GATES_TEXT),
         (VHDL, [], VHDL_TEXT), (OWN, [], OWN_TEXT), (PACKED, [], PACKED_TEXT), (OPEN, [], OPEN_TEXT), (PARTIAL, [], PARTIAL_TEXT),
         (STANDARD[:-3], [], STANDARD_TEXT))
# Which side a prefix is on, by the rules of tools/draft; none is told by the other words.
SIDES = (("tb.cpu.", "master"), ("tb.HOST2_", "master"), ("tb.client[1].", "master"), ("tb.dram_", "port"), ("tb.master_port_", None),
         ("tb.x_in_", "master"), ("tb.out.", "port"), ("ram.auto_in_", "port"), ("cpu.auto_out_", "master"), ("host.inner.links.", None),
         ("tb.main_", None), ("tb.program_", None), ("tb.in_out_", None))
# Prefixes, and the names of their ports: p0 alone may be none, and what two links have does not tell.
CALLED = ((["tb.ram.p0_"], ["ram.p0"]), (["tb.a.ram_", "tb.b.ram_", "tb.b.rom.port_"], ["a.ram", "b.ram", "port"]),
          (["tb.ram[3].link."], ["link"]), (["tb.ram[3].link.", "tb.ram[4].link."], ["ram_3.link", "ram_4.link"]))
NO_LINKS = "no prefix has a_valid, a_opcode, a_address, d_valid and d_opcode"
USAGE = "draft: usage: tools/draft [--top SCOPE] DUMP"
# Words, what is given on standard input, the line on standard error and the status.
REFUSED = (
    (["-"], "", "draft: -: cut in its header", 1),
    (["-"], STANDARD[:200], "draft: -: cut in its header", 1),
    (["-"], "time,link,channel\n", "draft: -: not a dump", 1),
    (["-"], "$upscope $end ", "draft: -: not a dump", 1),
    (["-"], "$var wire x ! c $end ", "draft: -: not a dump", 1),
    (["-"], dump(scope("tb", CLOCK, "$var wire 1 d data_valid $end\n")), f"draft: -: no links: {NO_LINKS}", 1),
    (["-"], dump(scope("tb", CLOCK, variables("R", "x"))), f"draft: -: no links: {NO_LINKS}", 1),
    (["--top", "tb.other", "-"], dump(SEEN), f"draft: -: no links in the scope tb.other: {NO_LINKS}", 1),
    (["-"], dump(SEEN, body="#5 #4\n"), "draft: -: time falls: #4", 1),
    (["-"], dump(SEEN, body="#x\n"), "draft: -: no time: #x", 1),
    (["-"], dump(SEEN, body="quite so\n"), "draft: -: no change of a value: quite", 1),
    (["no.vcd"], "", "draft: no.vcd: can't be read: No such file or directory", 1),
    ([TOP], "", f"draft: {TOP}: can't be read: Is a directory", 1),
    ([], "", USAGE, 2), (["--top"], "", USAGE, 2), (["--top", "tb"], "", USAGE, 2), (["--other", "-"], "", USAGE, 2),
    (["a", "b"], "", USAGE, 2),
)
# Why the drafts of these dumps can't agree with their system files: they have no link by its names.
UNNAMED = {
    "a_clock_has_to_rise": "bits of a vector and constants", "a_name_is_that_of_one_signal": "no link", "bodies_have_faults": "constants",
    "an_alias_has_its_widest_declaration": "constants", "channels_have_bundles": "a prefix that ends in a letter",
    "clocks_have_falling_edges": "constants", "clocks_of_links_are_asked": "constants", "constants_have_all_bits": "constants",
    "designs_may_lack_signals": "a prefix that ends in a letter",
    "dumps_are_judged": "constants", "dumps_have_no_gap": "constants",
    "each_bus_has_its_digits": "masks and data alone", "edges_have_their_rows": "bits of a vector and constants",
    "edges_lie_outside_of_reset": "constants", "handshakes_are_known": "constants",
    "headers_have_faults": "no header", "links_have_buses_of_their_own": "masks and data alone",
    "links_have_clocks_of_their_own": "constants", "links_name_their_clocks": "constants",
    "memory_is_refused": "bits of a vector and constants", "names_stand_behind_prefixes": "prefixes that end in letters",
    "nets_are_declared_bit_by_bit": "constants", "prefixes_are_tried_in_order": "prefixes that end in letters",
    "resets_of_the_system_have_rows": "constants", "signals_are_found_by_their_names": "no link", "systems_have_signals": "no link",
    "values_of_vhdl_are_read": "constants", "wires_join_signals": "constants",
}
# The range of a port in a draft.
RANGES = "base = {}\nlength = {}\n"


def ran(program, words, given=None):
    """What a program writes and reports, and its status."""
    run = subprocess.run([program, *words], input=given, capture_output=True, encoding="utf-8", check=False, cwd=TOP)
    return run.stdout, run.stderr, run.returncode


def content(path):
    with open(path, encoding="utf-8") as file:
        return file.read()


def is_drafted(given, words, text):
    return ran(DRAFT, [*words, "-"], given) == (text, "", 0)


def is_refused(words, given, line, status):
    return ran(DRAFT, words, given) == ("", line + "\n", status)


def of_prefix(mark, prefix):
    """The declarations of a link with this prefix."""
    *scopes, last = prefix.split(".")
    declared = variables(mark, last)
    for name in reversed(scopes):
        declared = scope(name, declared)
    return declared


def is_on(prefix, side):
    """Whether the table of a link with this prefix is that of a master or a port, or both as comments."""
    lines = ran(DRAFT, ["-"], dump(of_prefix("R", prefix)))[0].splitlines()
    tables = [role for role in ("master", "port") if f"[[{role}]]" in lines]
    both = "# [[master]]" in lines and "# [[port]]" in lines
    return tables == [side] if side else not tables and both


def is_called(prefixes, names):
    """Whether the ports of these prefixes have these names."""
    lines = ran(DRAFT, ["-"], dump(*(of_prefix(f"{mark}:", prefix) for mark, prefix in enumerate(prefixes))))[0].splitlines()
    return [line for line in lines if line.startswith("name = ")] == [f'name = "{name}"' for name in names]


def filled(text, ranges):
    """A draft whose ranges are filled in, port by port."""
    for base, length in ranges:
        text = text.replace(RANGES.format("0x????", "0x????"), RANGES.format(hex(base), length), 1)
    return text


def uncommented(text, role):
    """A draft with the tables of this role of links that may be either."""
    front, mark, rest = text.partition(f"# [[{role}]]\n")
    table = (mark + rest).partition("# [[port]]\n")[0] if role == "master" else mark + rest
    return front + "".join(line[2:] if line.startswith("# ") else "\n" for line in table.splitlines(True))


def waves(name, system):
    """The path of a dump of examples/waves, its draft filled in from its system file, and this system file."""
    path, text = os.path.join(WAVES, name), content(os.path.join(WAVES, system))
    table = tomllib.loads(text)
    draft = filled(ran(DRAFT, [path])[0], [(port["base"], port["length"]) for port in table["port"]])
    # the master of get.vcd is bits of vectors, which no name tells: it is taken over
    draft = uncommented(draft, "master") if "# name = " in draft else draft + text[text.index("[[master]]"):]
    return path, draft, text


def of_signals(table):
    """What a system says of signals."""
    links = [[(bus_of(table, link), link.get("signals"), link.get("wires", {})) for link in table[kind]] for kind in ("port", "master")]
    return [table.get(key) for key in ("clock", "reset", "reset_active")], links


def agrees(name, system):
    _, draft, text = waves(name, system)
    return of_signals(tomllib.loads(draft)) == of_signals(tomllib.loads(text))


def has_no_link(name, index):
    """Whether a dump of tests/dumps is refused, as one without links or without a header."""
    group = tomllib.loads(content(os.path.join(DUMPS, name + ".toml")))
    case = {**group, **group["dump"][index]}
    text, said, status = ran(DRAFT, ["-"], case.get("head", "") + case["body"])
    faults = ("not a dump", "cut in its header") if name == "headers_have_faults" else (NO_LINKS,)
    return not text and status == 1 and said.startswith("draft: -: ") and said.rstrip().endswith(faults)


def is_listed():
    """Whether each file of dumps is among those whose dumps have no links."""
    return {name.removesuffix(".toml") for name in os.listdir(DUMPS) if name.endswith(".toml")} == set(UNNAMED)


def rows(system, path):
    """What tlvcd writes with a system, given as a text."""
    with tempfile.NamedTemporaryFile("w", suffix=".toml", encoding="utf-8") as file:
        file.write(system)
        file.flush()
        return ran(TLVCD, [file.name, path])


def has_rows_of(name, system):
    """Whether a draft of examples/waves has the rows of its system file."""
    path, draft, text = waves(name, system)
    found = rows(draft, path)
    return found == rows(text, path) and found[2] == 0 and found[0].count("\n") > 4


def has_rows(given, ranges, wanted, role=None, lists=("", "")):
    """Whether tlvcd writes these rows with the draft of a dump, whose ranges are filled in, and the lists of masters of ports if there are some."""
    draft = ran(DRAFT, ["-"], given)[0]
    draft = filled(uncommented(draft, role) if role else draft, ranges)
    for said in lists:
        draft = draft.replace("# TODO kind: ram, rom, regs, w1c or device\n", said, 1)
    with tempfile.NamedTemporaryFile("w", suffix=".vcd", encoding="utf-8") as file:
        file.write(given)
        file.flush()
        text, said, status = rows(draft, file.name)
    return (text.partition("\n")[2], said, status) == (wanted, "", 0)


# By the dumps above: what stands at channel A before each edge without reset.
ROWS = (
    (CHISEL, [(0x2000, 64)], "15,m0,A,4,0,2,2,2000,f,00000000,,\n"),
    (EDGES, [(0x1000, 64)], "15,p0,A,4,0,2,1,1000,f,00000000,,\n", "master"),
    (STRUCTS, [], "5,m0,A,4,0,0,3,30,f,00000000,,\n", "master"),
    (SPLIT, [], "5,m0,A,4,0,2,5,40,f,00000000,,\n"),
    (GATES, [], "5,m0,A,4,0,2,5,40,f,00000000,,\n"),
    (ARRAYS, [(0x1000, 64)], "5,p0,A,4,0,2,1,1000,0f,0000000a0000000f,,\n", "master"),
    (ESCAPED_ARRAYS, [(0x1000, 64)], "5,p0,A,4,0,2,1,1000,0f,0000000a0000000f,,\n", "master"),
    (VHDL, [(0x20, 4)], "15,p0,A,4,0,2,3,20,f,00000000,,\n", "master"),
    (OWN, [(0x1000, 64), (0x20, 4)], "15,p1,A,4,0,2,1,20,f,00000000,,\n17,p0,A,4,0,2,3,1004,f,00000000,,\n", "master"),
    (OPEN, [], "5,m0,A,4,0,2,1,40,f,00000000,,\n15,m0,D,1,0,2,1,,,00000000,0,0\n"),
    (PACKED, [(0x40, 4)], "5,p0,A,4,0,2,5,40,f,00000000,,\n", "master"),
    *((TWO, [(0x100, 64), (0x800, 256)], "15,m0,A,4,0,2,1,100,f,00000000,,0\n15,m1,A,4,0,3,7,8f8,0f,0000000000000000,,\n"
       "25,p0,A,4,0,2,1,100,f,00000000,,\n25,p1,A,4,0,3,0,8f8,f,00000000,,\n", None, lists)
      for lists in (("", ""), ("hosts = [\"host1\", 0]\n", "sources = [{ master = 1, first = 0, stride = 2 }]\n"))),
)


def main():
    systems = (("get.vcd", "system.toml"), ("widths.vcd", "widths.toml"))
    counts = {name: len(tomllib.loads(content(os.path.join(DUMPS, name + ".toml")))["dump"]) for name in UNNAMED}
    cases = [*((is_drafted, case) for case in TEXTS), *((is_refused, case) for case in REFUSED), *((is_on, case) for case in SIDES),
             *((is_called, case) for case in CALLED),
             *((agrees, case) for case in systems), (is_listed, ()),
             *((has_no_link, (name, index)) for name, count in counts.items() for index in range(count))]
    if os.path.exists(TLVCD):
        cases += [*((has_rows_of, case) for case in systems), *((has_rows, case) for case in ROWS)]
    else:
        print(f"tests/tools/draft_test: {TLVCD} is not built: the rows of {len(systems) + len(ROWS)} drafts are skipped", file=sys.stderr)
    tell_cases(cases)


if __name__ == "__main__":
    run_test(main)
