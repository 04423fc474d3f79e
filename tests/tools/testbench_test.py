"""Tests tools/testbench by its text: on system files written here, with the lines that follow from hdl/README.md ("A testbench around your
crossbar") and docs/reference/formats.md by hand. What simulators make of testbenches is tested by examples/testbench/check. The last line is
'N passed, M failed'. It needs no program.
"""

import os
import re
import subprocess
import tempfile

from harness import run_test, tell_cases
from tlxtools.common import TOP

TESTBENCH = os.path.join(TOP, "tools", "testbench")
PORT = '[[port]]\nname = "ram"\nkind = "ram"\nbase = 0x1000\nlength = 64\n'
ROM, REGS, LAST = (PORT.replace("ram", kind).replace("0x1", base) for kind, base in (("rom", "0x2"), ("regs", "0x3"), ("w1c", "0x4")))
MASTER = '[[master]]\nname = "host"\nsources = 4\n'
SIGNALS = ("a_valid", "a_ready", "a_opcode", "a_param", "a_size", "a_source", "a_address", "a_mask", "a_data", "d_valid", "d_ready", "d_opcode",
           "d_size", "d_source", "d_data", "d_denied", "d_corrupt")
HANDSHAKES = ("a_valid", "a_ready", "d_valid", "d_ready")


def chisel(signal):
    return signal if signal in HANDSHAKES else f"{signal[0]}_bits_{signal[2:]}"


def wires(role, *lines):
    return f"[{role}.wires]\n" + "".join(line + "\n" for line in lines)


def vectors_of(name, **others):
    """The wires of a link in two vectors, as a system file has them, on a bus of four bytes: the sources have two bits, the sizes two."""
    table = {"a_valid": f"{name}_q[80]", "a_ready": f"{name}_r[0]", "a_opcode": f"{name}_q[79:77]", "a_param": f"{name}_q[76:74]",
             "a_size": f"{name}_q[73:72]", "a_source": f"{name}_q[71:70]", "a_address": f"{name}_q[69:38]", "a_mask": f"{name}_q[37:34]",
             "a_data": f"{name}_q[33:2]", "d_valid": f"{name}_r[50]", "d_ready": f"{name}_q[0]", "d_opcode": f"{name}_r[49:47]",
             "d_size": f"{name}_r[46:45]", "d_source": f"{name}_r[44:43]", "d_data": f"{name}_r[42:11]", "d_denied": f"{name}_r[1]", "d_corrupt": "-"}
    return [f'{signal} = "{"" if said in ("-", "0", "1") else "tb.dut."}{said}"' for signal, said in {**table, **others}.items()]


SMALL = "sizes = { get = [0, 2], putfull = [0, 2] }\n"
VECTORS = f'bus = 4\n{PORT}{SMALL}{wires("port", *vectors_of("ram"))}{MASTER}{wires("master", *vectors_of("host", a_param="0"))}'
# What is asked, the words, and the lines that must stand in the testbench; of a line with "!" in front none.
TEXTS = (
    # names behind the name of the link, or p0 and m0; clk and reset
    (PORT + MASTER, (), [*(f".host_{signal}(m0_{signal})" for signal in SIGNALS), *(f".ram_{signal}(p0_{signal})" for signal in SIGNALS),
                         "xbar dut (.clk(clk), .reset(reset),", "!.host_a_corrupt", "!.host_d_param", "!.host_d_sink"]),
    (PORT.replace('name = "ram"\n', "") + MASTER.replace('name = "host"\n', ""), (), [".p0_a_valid(p0_a_valid)", ".m0_d_data(m0_d_data)"]),
    (PORT.replace("ram", "ram.0-x", 1) + MASTER, (), [".ram_0_x_a_valid(p0_a_valid)"]),
    # signals that are asked for
    (PORT + MASTER, ("--also", "a_corrupt,d_sink"),
     [".host_a_corrupt(m0_a_corrupt)", ".ram_a_corrupt(p0_a_corrupt)", ".host_d_sink(m0_d_sink)", ".ram_d_sink(p0_d_sink)", "!.ram_d_param",
      ".HAS_A_CORRUPT(1)", "!.D_PARAM_BITS", ".a_corrupt(p0_a_corrupt), .d_param(1'b0)"]),
    # prefixes: what stands behind the last point, or the scope in front of it
    (PORT + 'signals = "tb.soc.dut.x_"\n' + MASTER + 'signals = "tb.y."\n', (), [".x_a_valid(p0_a_valid)", ".y_a_valid(m0_a_valid)"]),
    (f'names = {{ d_denied = "d_error", d_corrupt = "-" }}\n{PORT}signals = "x_"\n{MASTER}', (),
     [".x_d_error(p0_d_denied)", "!.x_d_corrupt", ".host_d_denied(m0_d_denied)", ".host_d_corrupt(m0_d_corrupt)"]),
    # Chisel's names, by the style or by the file
    (PORT + MASTER, ("--style", "chisel"), [*(f".host_{chisel(signal)}(m0_{signal})" for signal in SIGNALS), "xbar dut (.clock(clk), .reset(reset),"]),
    (PORT + 'signals = "x_"\nbits = true\n' + MASTER, (), [".x_a_bits_opcode(p0_a_opcode)", ".x_a_valid(p0_a_valid)", ".host_a_opcode(m0_a_opcode)"]),
    # structs: those of requests and of replies of each side, and members that are not named
    (PORT + MASTER, ("--style", "structs", "--types", "p::q_t,p::r_t"),
     ["p::q_t m0_request;", "p::r_t m0_reply;", ".host_i(m0_request), .host_o(m0_reply)", ".ram_o(p0_request), .ram_i(p0_reply)",
      "m0_request = '0;", "m0_request.a_opcode = m0_a_opcode;", "m0_request.d_ready = m0_d_ready;", "assign m0_a_ready = m0_reply.a_ready;",
      "p0_reply = '0;", "p0_reply.a_ready = p0_a_ready;", "assign p0_a_data = p0_request.a_data;"]),
    (PORT + 'signals = ["tb.dut.t_d2h.", "tb.dut.t_h2d."]\n' + MASTER, ("--style", "structs"),
     [".t_h2d(p0_request), .t_d2h(p0_reply)", "tl_h2d_t p0_request;", "tl_d2h_t p0_reply;"]),
    # clock and reset by their names in the file
    (f'clock = "tb.dut.clk_i"\nreset = "tb.dut.rst_ni"\nreset_active = "low"\n{PORT}{MASTER}', (), ["xbar dut (.clk_i(clk), .rst_ni(!reset),"]),
    # bits of vectors: each is one port; bits that no wire has are 0 if the testbench drives the vector. A constant is what is watched
    (VECTORS, (), ["wire [80:0] of_host_q;", "assign of_host_q[79:77] = m0_a_opcode;", "assign of_host_q[80] = m0_a_valid;", "assign of_host_q[76] = 0;",
                   "assign of_host_q[74] = 0;", "assign of_host_q[1] = 0;", "!assign of_ram_q[1] = 0;", "assign p0_a_opcode = of_ram_q[79:77];",
                   "assign of_ram_r[0] = p0_a_ready;", "assign of_ram_r[2] = 0;", "assign m0_d_denied = of_host_r[1];",
                   ".host_q(of_host_q), .host_r(of_host_r)", ".a_param(3'd0)", ".HAS_PARAM(0)", ".HAS_CORRUPT(0)", "assign m0_d_corrupt = 0;"]),
    # the parameter of replies has two bits, or as many as its wire
    (PORT + MASTER, ("--also", "d_param"), [".ram_d_param(p0_d_param)", ".host_d_param(m0_d_param)", "!.p0_a_corrupt", ".D_PARAM_BITS(2)",
                                            "assign p0_d_param = 0;", "!.HAS_A_CORRUPT", ".a_corrupt(1'b0), .d_param(m0_d_param)"]),
    (PORT + MASTER + "extra = { d_param_bits = 1 }\n", ("--also", "d_param", "--d-param-bits", "3"),
     [".D_PARAM_BITS(1)", ".D_PARAM_BITS(3)", "wire [2:0] p0_a_opcode, p0_a_param, p0_d_opcode, p0_d_param;"]),
    (VECTORS.replace("d_corrupt", 'd_param = "tb.dut.ram_r[10:8]"\nd_corrupt', 1), (), ["assign of_ram_r[10:8] = p0_d_param;", ".D_PARAM_BITS(3)"]),
    (VECTORS.replace('"tb.dut.ram_r[1]"', '"1"'), (), [".d_denied({1{1'b1}})", "assign of_ram_r[1] = 0;"]),
    # widths: as few as the system needs, by the wires, by the command line, by `extra`. Wide sources of 4 and 3 go to 3 and 6; messages have 256
    # bytes, so sizes have 4 bits
    (PORT + MASTER + MASTER.replace("host", "other").replace("4", "3"), (),
     [".SOURCES(4), .DATA_BITS(64), .ADDRESS_BITS(32), .SOURCE_BITS(2), .SIZE_BITS(4)", ".SOURCES(3), .DATA_BITS(64), .ADDRESS_BITS(32), .SOURCE_BITS(2)",
      '.KIND("ram"), .DATA_BITS(64), .ADDRESS_BITS(32), .SOURCE_BITS(3), .SIZE_BITS(4)', "wire [31:0] m0_a_address;", "wire [7:0] p0_a_mask;",
      "wire [63:0] p0_a_data, p0_d_data;"]),
    (PORT.replace("0x1000", "0x1_0000_0000") + MASTER, (), [".ADDRESS_BITS(64)", "!.ADDRESS_BITS(32)"]),
    (PORT + SMALL + MASTER, (), [".SIZE_BITS(2)", "!.SIZE_BITS(4)"]),
    (PORT + MASTER + "extra = { source_bits = 7 }\n", ("--source-bits", "5", "--address-bits", "40", "--size-bits", "3"),
     [".SOURCE_BITS(7)", "wire [4:0] p0_a_source, p0_d_source;", "wire [39:0] m0_a_address;", ".MAX_SIZE(7)", "48'h08_08_08_23_23_08"]),
    (VECTORS, (), [".ADDRESS_BITS(32), .SOURCE_BITS(2), .SIZE_BITS(2)"]),
    (f"bus = 4\n{PORT}bus = 16\n{MASTER}", (),
     [".SOURCES(4), .DATA_BITS(32)", '.KIND("ram"), .DATA_BITS(128)', "wire [15:0] p0_a_mask;", "wire [127:0] p0_a_data, p0_d_data;"]),
    # the sources of a port that lists masters go to 2 + 4 * 3 by `hosts`, 32 + 8 * 3 by `sources`, and 3 of one host; by the masters' own to 8
    (PORT + 'hosts = ["third", "other", "host"]\n' + ROM + 'sources = [{ master = 0, first = 32, stride = 8 }]\n' + REGS + 'hosts = ["host"]\n' + LAST
     + MASTER + MASTER.replace("host", "other").replace("4", "3") + MASTER.replace("host", "third").replace("4", "1"), (),
     [f'.KIND("{kind}"), .DATA_BITS(64), .ADDRESS_BITS(32), .SOURCE_BITS({bits})' for kind, bits in (("ram", 4), ("rom", 6), ("regs", 2), ("w1c", 4))]
     + ['.NAME("m0"), .NUMBER(0), .SOURCES(4), .DATA_BITS(64), .ADDRESS_BITS(32), .SOURCE_BITS(2)', "wire [5:0] p1_a_source, p1_d_source;"]),
    # a port that is judged by itself has sources of its own, of which nothing but their width is known
    (PORT + 'crossing = "none"\nextra = { source_bits = 1 }\n' + ROM + 'crossing = "none"\n' + MASTER, (),
     [f'.KIND("{kind}"), .DATA_BITS(64), .ADDRESS_BITS(32), .SOURCE_BITS({bits})' for kind, bits in (("ram", 1), ("rom", 2))]
     + ['.SOURCES(4), .DATA_BITS(64), .ADDRESS_BITS(32), .SOURCE_BITS(2)', "wire [1:0] p1_a_source, p1_d_source, p1_d_param;"]),
    # a port that lists others is none for a master
    (PORT + "hosts = [1]\n" + MASTER + MASTER.replace("host", "other"), (),
     [f'.NAME("m{number}"), .NUMBER({number}), .SOURCES(4), .DATA_BITS(64), .ADDRESS_BITS(32), .SOURCE_BITS(2), .SIZE_BITS(4), .RANGES(2), .MAX_SIZE(8), '
      f".MAP({{64'h1040, 64'h100, 48'hf0_f0_f0_f0_f0_f0, 64'h1000, 64'h40, {sizes}}}))"
      for number, sizes in enumerate(("48'hf0_f0_f0_f0_f0_f0", "48'h08_08_08_23_23_08"))]),
    # what masters ask for: each range with its sizes, and behind the ports' ranges 256 addresses of no port. By `reach` a port is none
    (PORT + SMALL + MASTER, (), ["64'h1040, 64'h100, 48'hf0_f0_f0_f0_f0_f0", "64'h1000, 64'h40, 48'h02_02_f0_f0_f0_f0", ".RANGES(2), .MAX_SIZE(2)"]),
    (PORT + PORT.replace("ram", "rom").replace("0x1000", "0x1050") + MASTER, (),
     ["64'h1040, 64'h10, 48'hf0_f0_f0_f0_f0_f0", "64'h1050, 64'h40, 48'h08_f0_f0_f0_f0_08", "64'h1090, 64'h100, 48'hf0_f0_f0_f0_f0_f0"]),
    (PORT + MASTER + "reach = []\n", (), ["64'h1000, 64'h40, 48'hf0_f0_f0_f0_f0_f0"]),
    (PORT.replace('"ram"\nbase', '"regs"\nbase') + MASTER, (), ["48'h23_23_f0_f0_f0_f0", ".LOADS(1)", ".MAX_SIZE(3)"]),
    # a device without sizes serves gets and puts, up to the greatest size of other slaves
    (PORT + SMALL + PORT.replace('"ram"\nbase', '"device"\nbase').replace('"ram"', '"uart"').replace("0x1000", "0x2000") + MASTER, (),
     ["64'h2000, 64'h40, 48'h02_02_02_f0_f0_f0", '.KIND("device")']),
    # what a slave holds, and when requests take effect
    (PORT + 'reset = "0a0b"\nunknown = true\nmirror = true\n' + MASTER, (),
     [".RESET_BYTES(2), .RESET(16'h0b0a)", ".UNKNOWN(1)", ".MIRROR(1)", "!.WHEN_ANSWERED", "!.LOADS"]),
    (PORT + 'order = "reply"\n' + MASTER, (), [".WHEN_ANSWERED(1)", "!.FIFO"]),
    # the order of a master's replies is the crossbar's affair
    (PORT + 'fifo = true\n' + MASTER, (), [".FIFO(1)"]),
    (PORT + 'fifo = false\n' + MASTER + 'fifo = true\n', (), ["!.FIFO"]),
    (PORT + 'order = { masters = "any", ports = "reply" }\non_reset = "load"\n' + MASTER, (), [".WHEN_ANSWERED(1)", ".LOADS(1)"]),
    (PORT.replace("base = 0x1000\nlength = 64", "ranges = [[0x1000, 64], [0x2000, 32]]") + MASTER, (),
     [".MAP({64'h2000, 64'h20,", "64'h1000, 64'h40}))", ".RANGES(2)"]),
    (PORT + 'image = "boot.bin"\n' + MASTER, (), ['.IMAGE("boot.bin"), .IMAGE_BYTES(5)']),
    # resets in mid-run: one link tells them
    ("resets = true\n" + PORT + MASTER, (), ["//   +reset=TIME", ".RESETS(1)", '$value$plusargs("reset=%d", again)']),
    (PORT + MASTER, (), ["!+reset=TIME", "!.RESETS("]),
    # data are corrupt where the system allows it
    ("corrupt = true\n" + PORT + MASTER, (), [".RANGES(1), .CORRUPTS(5),", "!.MAX_SIZE(8), .CORRUPTS(5)"]),
    ("corrupt = false\n" + PORT + MASTER, ("--also", "a_corrupt"), ["!.CORRUPTS("]),
    # of requests they are if the crossbar has the flag at each link
    ("corrupt = true\n" + PORT + MASTER, ("--also", "a_corrupt"), [".RANGES(1), .CORRUPTS(5),", ".MAX_SIZE(8), .CORRUPTS(5)"]),
    ("corrupt = true\n" + PORT + 'wires = { a_corrupt = "-" }\nsignals = "tb.dut.ram_"\n' + MASTER, ("--also", "a_corrupt"),
     ["!.MAX_SIZE(8), .CORRUPTS(5)"]),
    # no port at all
    (MASTER, (), ["wire crosses = m0_a_valid && m0_a_ready ||", "64'h0, 64'h100, 48'hf0_f0_f0_f0_f0_f0"]),
)
NO_SYSTEM = "tools/testbench: {0} is no system file: ./tlcheck --lint {0} says why"
# What is asked, the words, the line on standard error, and the status.
REFUSED = (
    ("port", (), NO_SYSTEM, 1), ("port = 1\n", (), NO_SYSTEM, 1), (PORT, (), "tools/testbench: {0}: it has no master", 1),
    *((text + MASTER, (), "tools/testbench: port 0: base, length, ranges, sizes or reset is missing or wrong: ./tlcheck --lint says which", 1)
      for text in (PORT.replace("64", "0"), PORT.replace("base = 0x1000\n", ""))),
    (PORT.replace('kind = "ram"', 'kind = "flash"') + MASTER, (), "tools/testbench: port 0: kind has to be one of ram, rom, regs, w1c, device", 1),
    (PORT + MASTER.replace("4", "0"), (), "tools/testbench: master 0: sources has to be 1 to 65536", 1),
    (PORT + MASTER + 'reach = ["rom"]\n', (), "tools/testbench: {0}: reach names a port that is not there", 1),
    *((PORT + f"{said}\n" + MASTER, (), "tools/testbench: {0}: hosts or sources of a port are wrong: ./tlcheck --lint {0} says why", 1)
      for said in ('hosts = ["cpu"]', "hosts = [1]", "hosts = [-1]", "hosts = []", "hosts = 0", "sources = 1", "sources = [{ master = 0 }]", "sources = [0]",
                   "sources = [{ first = 0 }]", 'sources = [{ master = 0, first = "0" }]')),
    (PORT + "hosts = [0, 1]\nextra = { source_bits = 2 }\n" + MASTER + MASTER.replace("host", "other"), (),
     "tools/testbench: port 0: a_source has 2 bits, and its sources go to 7", 1),
    (PORT + 'crossing = "same"\nextra = { source_bits = 1 }\n' + MASTER, (),
     "tools/testbench: port 0: a_source has 1 bits, and its sources go to 3", 1),
    (PORT + 'crossing = "none"\n' + MASTER, ("--source-bits", "1"), "tools/testbench: master 0: a_source has 1 bits, and its sources go to 3", 1),
    ("bus = 3\n" + PORT + MASTER, (), "tools/testbench: master 0: bus has to be one of 1, 2, 4, 8, 16, 32, 64", 1),
    ('edge = "falling"\n' + PORT + MASTER, (), "tools/testbench: {0}: beats cross at falling edges, and a testbench has rising ones", 1),
    (PORT + 'clock = "tb.c"\n' + MASTER, (), "tools/testbench: port 0: it has its own clock, and a testbench has one clock and one reset", 1),
    (PORT + f'reset = "{"00" * 4097}"\n'.replace("64", "8192") + MASTER, (),
     "tools/testbench: port 0: reset has 4097 bytes, and a testbench takes 4096: put them into an image", 1),
    (PORT + 'image = "none.bin"\n' + MASTER, (), "tools/testbench: port 0: none.bin: No such file or directory", 1),
    (PORT + 'image = "/boot.bin"\n' + MASTER, (), "tools/testbench: port 0: the image has to be named from the folder of {0}", 1),
    (VECTORS.replace("ram_q[79:77]", "ram_q[79:78]"), (), "tools/testbench: port 0: a_opcode: tb.dut.ram_q[79:78] has 2 bits, 3 wanted", 1),
    (VECTORS.replace('"tb.dut.ram_q[33:2]"', '["tb.d[1]", "tb.d[0]"]'), (),
     "tools/testbench: port 0: a_data is an array of wires, and a testbench takes one port or bits of one", 1),
    (VECTORS.replace('"tb.dut.ram_q[79:77]"', '"0"'), (), "tools/testbench: port 0: a_opcode is no port of the crossbar", 1),
    (PORT + MASTER, ("--source-bits", "1"), "tools/testbench: master 0: a_source has 1 bits, and its sources go to 3", 1),
    (PORT + MASTER + "extra = { size_bits = 5 }\n", (), "tools/testbench: master 0: size_bits out of range", 1),
    (PORT + 'signals = ["a.", "b.", "c."]\n' + MASTER, ("--style", "structs"), "tools/testbench: port 0: its signals are no two structs", 1),
    (PORT + "signals = 1\n" + MASTER, (), "tools/testbench: port 0: signals is no string and no array of strings", 1),
)
# Words whose command line is refused with status 2: a part of the last line.
LINES = ((("--top", "tb"), "'tb' is no name of a module, since the testbench has it"), (("--top", "a-b"), "'a-b' is no name of a module"), ((), "--top"),
         (("--top", "x", "--style", "other"), "other"), (("--top", "x", "--types", "one"), "'one' is no two types with a comma between them"),
         (("--top", "x", "--also", "a_user"), "'a_user' has to be of a_corrupt, d_param, d_sink"),
         (("--top", "x", "--size-bits", "5"), "'5' is no number from 1 to 4"),
         (("--top", "x", "--operations", "f"), "not allowed"))
# The lines of operations of a master on a bus of four bytes, by docs of the form: kind, opcode, param, size, source, address, mask, data.
SCRIPT = f'bus = 4\n{PORT}{MASTER}ops = ["1 putfull 0x1002 1 aabb", "wait", "2 get 0x1004 3", "3 swap 0x1000 3 0102030405060708", "0 prefetchw 0x1000 0"]\n'
OPERATIONS = ("00" "00" "00" "01" "0001" "0000000000001002" + "c".rjust(64, "0") + "bbaa0000".rjust(512, "0"), "01" + "0" * 602,
              "00" "04" "00" "03" "0002" "0000000000001004" + "ff".rjust(64, "0") + "0" * 512,
              "00" "03" "03" "03" "0003" "0000000000001000" + "ff".rjust(64, "0") + "0807060504030201".rjust(512, "0"),
              "00" "05" "01" "00" "0000" "0000000000001000" + "1".rjust(64, "0") + "0" * 512, "02" + "0" * 602)


# Operations that do not fit, the words, and what is said of each.
UNFIT = (("0 get 0x1000 4", ("--size-bits", "2"), "size 4 does not fit a_size, which has 2 bits (--size-bits)"),
         ("0 get 0x100000000 2", (), "address 0x100000000 does not fit a_address, which has 32 bits (--address-bits)"),
         ("4 get 0x1000 2", (), "source 4, and the master has 4"), ("0 get 0x1000 9", (), "bad operation"))


def ran(text, words, *more):
    """What the tool writes and reports for a system file, its status, and the path of the file."""
    with tempfile.TemporaryDirectory() as folder:
        path = os.path.join(folder, "system.toml")
        with open(path, "w", encoding="utf-8") as file:
            file.write(text)
        with open(os.path.join(folder, "boot.bin"), "wb") as file:
            file.write(bytes(5))
        done = subprocess.run([TESTBENCH, path, *words, *(word.format(folder) for word in more)], capture_output=True, encoding="utf-8", check=False)
        files = {}
        for name in ("made/tb.sv", "made/Makefile", "made/operations_0.hex"):
            if os.path.exists(os.path.join(folder, name)):
                with open(os.path.join(folder, name), encoding="utf-8") as file:
                    files[name] = file.read()
        return done.stdout, done.stderr, done.returncode, path, files


def has_lines(text, words, lines):
    out, said, status, _, _ = ran(text, ("--top", "xbar", *words))
    flat = re.sub(r"\s+", " ", out)
    return status == 0 and not said and all(re.sub(r"\s+", " ", line.lstrip("!")) in flat if line[0] != "!" else line[1:] not in flat for line in lines)


def is_refused(text, words, line, status):
    out, said, found, path, _ = ran(text, ("--top", "xbar", *words))
    return (out, said, found) == ("", line.format(path) + "\n", status)


def is_wrong_line(words, part):
    out, said, status, _, _ = ran(PORT + MASTER, words)
    return not out and status == 2 and part in said.splitlines()[-1]


def has_no_file():
    done = subprocess.run([TESTBENCH, "/no/such", "--top", "xbar"], capture_output=True, encoding="utf-8", check=False)
    return (done.stdout, done.stderr, done.returncode) == ("", "tools/testbench: /no/such: No such file or directory\n", 1)


def makes_files():
    """With --make both files are written, and the testbench is the one of standard output but for the path of the system file."""
    out = ran(PORT + MASTER, ("--top", "xbar"))[0]
    printed, said, status, path, files = ran(PORT + MASTER, ("--top", "xbar"), "--make", "{}/made")
    make = files["made/Makefile"]
    same = re.sub(r'SYSTEM\(".*?"\)', "", out) == re.sub(r'SYSTEM\(".*?"\)', "", files["made/tb.sv"])
    hint = f"A period of the testbench's clock has 10 units of time: with `period = 10` in {path} --coverage counts clocks.\n"
    quiet = ran("period = 10\n" + PORT + MASTER, ("--top", "xbar"), "--make", "{}/made")
    is_named = "\nSYSTEM = ../system.toml\n" in make and '.SYSTEM("../system.toml")' in files["made/tb.sv"]
    return (printed, said, status) == (hint, "", 0) and quiet[:3] == ("", "", 0) and same and is_named


def names_parts():
    """The Makefile names the folder of the parts and tlcheck, from its own folder."""
    with tempfile.TemporaryDirectory() as folder:
        path = os.path.join(folder, "made")
        system = os.path.join(TOP, "examples", "testbench", "system.toml")
        subprocess.run([TESTBENCH, system, "--top", "xbar", "--make", path], check=True, stdout=subprocess.DEVNULL)
        with open(os.path.join(path, "Makefile"), encoding="utf-8") as file:
            said = dict(re.findall(r"^(HDL|TLCHECK) = (.*)$", file.read(), re.M))
        return all(os.path.samefile(os.path.join(path, said[word]), os.path.join(TOP, name)) for word, name in (("HDL", "hdl"), ("TLCHECK", "tlcheck")))


def names_vectors():
    """The Makefile names the ports of which the system file names bits: these may be wider."""
    makes = [ran(text, ("--top", "xbar"), "--make", "{}/made")[4]["made/Makefile"] for text in (VECTORS, PORT + MASTER)]
    return "\nBITS = host_q|host_r|ram_q|ram_r\n" in makes[0] and "\nBITS = -\n" in makes[1]


def is_not_written():
    """A folder that can't be made is named."""
    _, said, status, path, _ = ran(PORT + MASTER, ("--top", "xbar"), "--make", "{}/boot.bin")
    return status == 1 and said == f"tools/testbench: {os.path.dirname(path)}/boot.bin: File exists\n"


def has_operations():
    out, said, status, _, files = ran(SCRIPT, (), "--operations", "{}/made")
    return (out, said, status) == ("", "", 0) and tuple(files["made/operations_0.hex"].splitlines()) == OPERATIONS


def has_bad_operation(line):
    _, said, status, path, _ = ran(SCRIPT.replace('"wait"', f'"{line}"'), (), "--operations", "{}/made")
    return (said, status) == (f"tools/testbench: {path}: master 0 operation 1: bad operation\n", 1)


def is_unfit(operation, words, said):
    """An operation that the signals of a master have no room for is refused before anything is written."""
    out, found, status, path, files = ran(SCRIPT.replace('"wait"', f'"{operation}"'), words, "--operations", "{}/made")
    return (out, found, status, files) == ("", f"tools/testbench: {path}: master 0 operation 1: {said}\n", 1, {})


def main():
    cases = [*((has_lines, case) for case in TEXTS), *((is_refused, case) for case in REFUSED), *((is_wrong_line, case) for case in LINES),
             *((has_bad_operation, (line,)) for line in ("", "0 read 0x1000 2", "0 get 0x1000", "0 putfull 0x1000 2 aa", "x get 0x1000 2")),
             *((is_unfit, case) for case in UNFIT),
             *((test, ()) for test in (has_no_file, makes_files, names_parts, names_vectors, is_not_written, has_operations))]
    tell_cases(cases)


if __name__ == "__main__":
    run_test(main)
