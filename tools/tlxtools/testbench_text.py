"""The text of a testbench for tools/testbench: masters, slaves, the crossbar, the judge or monitors, and the end of the simulation."""

import os

from tlxtools.common import GROUPS, order_at
from tlxtools.testbench_links import BY_MASTERS, master_map, own_name, ranges_of, sizes_of

# The signals of the parts in hdl, and what is declared for them.
A_SIGNALS = ("a_valid", "a_ready", "a_opcode", "a_param", "a_size", "a_source", "a_address", "a_mask", "a_data")
D_SIGNALS = ("d_valid", "d_ready", "d_opcode", "d_size", "d_source", "d_denied", "d_data")
WATCHED = (*A_SIGNALS, *D_SIGNALS, "d_corrupt")
# Those that are watched if the crossbar has them.
OPTIONAL = ("a_corrupt", "d_param")
# Where data may be corrupt: so many of 100 beats of a master and of a slave are.
CORRUPTS = 5
# What stands at their ports if it has not.
NOTHING = "1'b0"
DECLARED = (*WATCHED, *OPTIONAL, "d_sink")

HEAD = """\
// Made by tools/testbench from {system}, around the crossbar {top}: a master at each master's link, a slave at each port's, and the judge of
// all links (with TL_JUDGE, by DPI), or a monitor on each, which write a capture for tlcheck. hdl/README.md has the parts and their plusargs.
// A request of a master has {most} bytes at most, unless a script has greater ones. A period of the clock has 10 units of time.
//
//   +seed=S           what random choices begin with (1)
//   +random=N         each master sends N requests (200)
//   +operations=FOLDER  the masters send the requests of its files, and no random ones
//   +dump=FILE        where the links and the crossbar are dumped (VCD); without it nothing is
//   +images=FOLDER    where the images of the system file lie (the current folder)
//   +capture=FILE     where the monitors write (capture.csv)
{reset}//   +clocks=N         after how many clocks the simulation ends, if it did not end before (1000000)
//
// If it ends so, or since nothing has crossed at a master's link for 10000 clocks, a line that begins with `tb:` says it.
`timescale 1ns / 1ns
module tb;
  reg clk = 0, reset = 1;
  always #5 clk = !clk;
"""
RESET_PLUSARG = "//   +reset=TIME       when all is reset in mid-run, for four clocks; 0, never, if it is not given\n"
START = """
  reg [8*256-1:0] dump;
{again}  initial begin
    if ($value$plusargs("dump=%s", dump)) begin
      $dumpfile(dump);
      $dumpvars(1, tb);
      $dumpvars(0, tb.dut);
    end
    #22 reset = 0;
{mid}  end

"""
MID_RUN = """\
    if (!$value$plusargs("reset=%d", again)) again = 0;
    if (again > 22) begin
      #(again - 22) reset = 1;
      #40 reset = 0;
    end
"""
END = """
  // the end: all masters have all their replies, and nothing is on its way; or nothing has crossed at their links for long
  wire [{last}:0] finished = {{{finished}}};
  wire crosses = {crosses};
  integer idle = 0, clocks = 0, most;
  initial if (!$value$plusargs("clocks=%d", most)) most = 1000000;
  always @(posedge clk) begin
    idle <= reset || crosses === 1'b1 ? 0 : idle + 1;
    clocks <= clocks + 1;
    if (!reset && &finished && idle == 20) $finish;
    else if (idle == 10000 || clocks == most) begin
      if (clocks == most) $display("tb: not all is answered after %0d clocks; +clocks=N gives more", clocks);
      else $display("tb: nothing has crossed at a master's link for 10000 clocks, and not all is answered");
      $finish;
    end
  end

"""
JUDGE = """\
`ifdef TL_JUDGE
  int judge;
  tl_judge #(.SYSTEM("{system}"), .COMPLETE(1), .EXITS(1)) judging (.clk(clk), .judge(judge));
`else
  reg [8*256-1:0] capture;
  integer file;
  initial begin
    if (!$value$plusargs("capture=%s", capture)) capture = "capture.csv";
    file = $fopen(capture, "w");
    $fwrite(file, "time,link,channel,opcode,param,size,source,address,mask,data,denied,corrupt\\n");
  end
`endif
"""
WATCH = """\
`ifdef TL_JUDGE
  tl_judge_link {parameters}
    judge_{called} (.clk(clk), .reset(reset), .judge(judge),
`else
  tl_monitor {parameters}
    watch_{called} (.clk(clk), .reset(reset), .file(file),
`endif
    {signals});
"""


def wrapped(parts, indent, width=140):
    """Parts with commas between them, in lines of at most this length."""
    lines, line = [], ""
    for part in parts:
        if line and len(indent) + len(line) + len(part) + 2 > width:
            lines.append(line.rstrip())
            line = ""
        line += part + ", "
    lines.append(line.rstrip(", "))
    return ("\n" + indent).join(lines)


def parameters_of(pairs, indent="    "):
    return "#(" + wrapped([f".{name}({value})" for name, value in pairs], indent) + ")"


def digits_of(sizes):
    """The sizes of six groups as the parameters of masters and slaves have them."""
    return "48'h" + "_".join("f0" if group not in sizes else f"{sizes[group][0]:x}{sizes[group][1]:x}" for group in GROUPS)


def widths_of(link):
    return [("DATA_BITS", 8 * link.bus), *((f"{kind.upper()}_BITS", link.widths[kind]) for kind in ("address", "source", "size"))]


def net(link, signal):
    return f"{link.called}_{signal}"


def is_shown(link, signal):
    """What watches a link: the net, or the constant that stands in the system file."""
    place = link.places.get(signal)
    return net(link, signal) if not isinstance(place, str) else f"{link.bits(signal)}'d0" if place == "0" else f"{{{link.bits(signal)}{{1'b1}}}}"


def declarations(link):
    """The nets of a link, and what stands on those that the crossbar should drive and has not."""
    groups = {}
    for signal in DECLARED:
        groups.setdefault(link.bits(signal), []).append(net(link, signal))
    yield f"  // {link.called}: {link.name}"
    for bits, names in groups.items():
        vector = f"[{bits - 1}:0] " if bits > 1 else ""
        yield f"  wire {vector}" + wrapped(names, "    ") + ";"
    for signal in DECLARED:
        place = link.places.get(signal)
        if not isinstance(place, tuple) and not link.is_driven(signal):
            yield f"  assign {net(link, signal)} = {is_shown(link, signal) if isinstance(place, str) else 0};"
    if link.side == "p":
        yield from (f"  assign {net(link, signal)} = 0;" for signal in ("d_param", "d_sink"))


def connected(signals, link):
    return [f".{signal}({net(link, signal)})" for signal in signals]


def have_marks(links):
    """Whether requests may be marked corrupt on their whole way: the crossbar has the flag at each link."""
    return all(isinstance(link.places.get("a_corrupt"), tuple) for link in links)


def master_lines(link, system, most, is_marking):
    ranges = master_map(system, link.number, most, link.widths["address"])
    entries = [f"64'h{base:x}, 64'h{length:x}, {digits_of(sizes)}" for base, length, sizes in reversed(ranges)]
    has_param = isinstance(link.places.get("a_param"), tuple)
    pairs = [("NAME", f'"{link.called}"'), ("NUMBER", link.number), ("SOURCES", link.table["sources"]), *widths_of(link),
             ("RANGES", len(ranges)), ("MAX_SIZE", min(most, (1 << link.widths["size"]) - 1)), *([("HAS_PARAM", 0)] * (not has_param)),
             *([("CORRUPTS", CORRUPTS)] * is_marking)]
    fixed = parameters_of(pairs)[:-1] + ",\n    .MAP({" + ",\n      ".join(entries) + "}))"
    signals = [*A_SIGNALS, "a_corrupt", *(signal for signal in D_SIGNALS)]
    yield f"  tl_master {fixed}"
    yield f"    {link.called} (.clk(clk), .reset(reset), .finished({link.called}_finished),"
    yield "    " + wrapped(connected(signals, link), "    ") + ");"


def slave_lines(link, system, most, images):
    port, ranges = link.table, ranges_of(link.table)
    reset = bytes.fromhex(port.get("reset", ""))
    loads = port.get("on_reset", "load" if port["kind"] in ("regs", "w1c") else "keep") == "load"
    pairs = [("NAME", f'"{link.called}"'), ("NUMBER", link.number), ("KIND", f'"{port["kind"]}"'), *widths_of(link),
             ("SIZES", digits_of(sizes_of(port, most))), ("RANGES", len(ranges))]
    pairs += [(key, 1) for key, given in (("MIRROR", port.get("mirror")), ("UNKNOWN", port.get("unknown")), ("LOADS", loads),
                                          ("WHEN_ANSWERED", order_at(port, "p", "accept") == "reply"), ("FIFO", port.get("fifo"))) if given]
    if system.get("corrupt") and link.has("d_corrupt"):
        pairs.append(("CORRUPTS", CORRUPTS))
    if "image" in port:
        pairs += [("IMAGE", f'"{port["image"]}"'), ("IMAGE_BYTES", images[link.number])]
    if reset:
        pairs += [("RESET_BYTES", len(reset)), ("RESET", f"{8 * len(reset)}'h{reset[::-1].hex()}")]
    entries = [f"64'h{base:x}, 64'h{length:x}" for base, length in reversed(ranges)]
    fixed = parameters_of(pairs)[:-1] + ",\n    .MAP({" + ",\n      ".join(entries) + "}))"
    yield f"  tl_slave {fixed}"
    signals = [*A_SIGNALS, *D_SIGNALS, "d_corrupt"]
    yield f"    {link.called} (.clk(clk), .reset(reset),"
    yield "    " + wrapped([*connected(signals, link), ".d_param()"], "    ") + ");"


def watch_lines(link, system):
    pairs = [("NAME", f'"{link.called}"'), *widths_of(link)]
    pairs += [(name, value) for name, value, is_said in (
        ("HAS_CORRUPT", 0, not link.has("d_corrupt")), ("HAS_A_CORRUPT", 1, link.has("a_corrupt")),
        ("D_PARAM_BITS", link.widths["d_param"], link.has("d_param")),
        ("RESETS", 1, link.called == "m0" and system.get("resets", False))) if is_said]
    signals = [f".{signal}({is_shown(link, signal)})" for signal in WATCHED]
    signals += [f".{signal}({is_shown(link, signal) if link.has(signal) else NOTHING})" for signal in OPTIONAL]
    return WATCH.format(parameters=parameters_of(pairs), called=link.called, signals=wrapped(signals, "    ")).rstrip("\n")


def vector_lines(links):
    """Ports of the crossbar of which links have bits: a net for each, with what drives its bits."""
    bits, drivers = {}, {}
    for link in links:
        for signal, place in link.places.items():
            if isinstance(place, tuple) and place[1] and not link.structs:
                (high, low), port = place[1], place[0]
                bits[port] = max(bits.get(port, 0), high + 1)
                drivers.setdefault(port, []).append((link, signal, high, low))
    for port, width in bits.items():
        yield f"  wire [{width - 1}:0] of_{port};"
        free = set(range(width)) if any(link.is_driven(signal) for link, signal, *_ in drivers[port]) else set()
        for link, signal, high, low in drivers[port]:
            there, here = f"of_{port}[{high}:{low}]" if high > low else f"of_{port}[{high}]", net(link, signal)
            yield f"  assign {there} = {here};" if link.is_driven(signal) else f"  assign {here} = {there};"
            free -= set(range(low, high + 1))
        yield from (f"  assign of_{port}[{bit}] = 0;" for bit in sorted(free))


def struct_lines(link, types):
    """The structs of a link: members that are not named are 0."""
    request, reply = f"{link.called}_request", f"{link.called}_reply"
    yield f"  {types[0]} {request};"
    yield f"  {types[1]} {reply};"
    driven = request if link.side == "m" else reply
    yield "  always_comb begin"
    yield f"    {driven} = '0;"
    rest = []
    for signal, place in link.places.items():
        if isinstance(place, tuple):
            of_requests = signal in BY_MASTERS
            struct = request if of_requests else reply
            if struct == driven:
                yield f"    {struct}.{place[0]} = {net(link, signal)};"
            else:
                rest.append(f"  assign {net(link, signal)} = {struct}.{place[0]};")
    yield "  end"
    yield from rest


def crossbar_lines(links, system, top, style):
    """The instance of the crossbar."""
    clock = own_name(system.get("clock", "clock" if style == "chisel" else "clk"))
    reset = own_name(system.get("reset", "reset"))
    is_low = system.get("reset_active") == "low"
    ports = [f".{clock}(clk)", f".{reset}({'!' * is_low}reset)"]
    for link in links:
        if link.structs:
            ports += [f".{link.structs[0]}({link.called}_request)", f".{link.structs[1]}({link.called}_reply)"]
            continue
        for signal, place in link.places.items():
            if isinstance(place, tuple):
                port = f".{place[0]}({net(link, signal)})" if not place[1] else f".{place[0]}(of_{place[0]})"
                if port not in ports:
                    ports.append(port)
    yield f"  {top} dut (" + wrapped(ports, "    ") + ");"


def testbench_text(links, system, words):
    """The testbench. `words` has the path of the system file, the crossbar's module, the style, the types of structs and the sizes of images."""
    most = words["most"]
    masters = [link for link in links if link.side == "m"]
    resets, is_marking = system.get("resets", False), system.get("corrupt", False) and have_marks(links)
    name = os.path.basename(words["path"])
    lines = [HEAD.format(system=name, top=words["top"], most=1 << most, reset=RESET_PLUSARG * bool(resets))
             + START.format(again="  integer again;\n" * bool(resets), mid=MID_RUN * bool(resets)).rstrip("\n"), ""]
    for link in links:
        lines += declarations(link)
        lines += [f"  wire {link.called}_finished;"] * (link.side == "m")
        lines += master_lines(link, system, most, is_marking) if link.side == "m" else slave_lines(link, system, most, words["images"])
        lines.append("")
    lines += vector_lines(links)
    for link in links:
        lines += struct_lines(link, words["types"]) if link.structs else []
    lines += crossbar_lines(links, system, words["top"], words["style"])
    crosses = [f"{net(link, front + 'valid')} && {net(link, front + 'ready')}" for link in masters for front in ("a_", "d_")]
    lines.append(END.format(last=len(masters) - 1, finished=", ".join(f"{link.called}_finished" for link in reversed(masters)),
                            crosses=" ||\n    ".join(crosses)).rstrip("\n") + "\n")
    lines.append(JUDGE.format(system=words["path"]).rstrip("\n"))
    lines += (watch_lines(link, system) for link in links)
    return "\n".join(lines) + "\nendmodule\n"
