"""System files with their first fault, worked out by hand from docs/reference/faults.md: for each table a head, and parts with the line that a file of
the head and the part has. An empty line is that of a file without fault."""

import os

# One byte of a port and one master, if a row is about something else.
MASTER = "[[master]]\nsources = 1\n"
PORT = "[[port]]\nkind = 'ram'\nbase = 0\nlength = 2\n"
# As many ports as a system may have.
DEVICES = ", ".join(f"{{ kind = 'device', base = {at}, length = 1 }}" for at in range(255))


def roms(count):
    """So many ports of a byte each."""
    return ", ".join(f"{{ kind = 'rom', base = {at}, length = 1 }}" for at in range(count))


DOCUMENTS = ("", {
    "": "missing master",
    "port": "not TOML",
    "x = 1\nx = 1": "not TOML",
    "port = 1": "wrong type of port",
    "port = {}": "wrong type of port",
    "port = [{}, 1]": "wrong type of port",
    "port = []": "missing master",
    "master = {}": "wrong type of master",
    "master = [{}, 1]": "wrong type of master",
    "master = []": "master out of range",
    # keys of tlx are nothing to a system
    "slots = 'x'\nmaster = []": "master out of range",
    # of two faults the first is answered
    "port = 1\nmaster = []": "wrong type of port",
    "port = [{}]\nmaster = 1": "missing kind",
    "port = [{ kind = 'ram' }]": "missing base",
    # the bus of the file comes before all else
    "bus = '8'\nport = 1": "wrong type of bus",
    "bus = 3\nport = 1": "bus out of range",
    "bus = 16": "missing master",
    "bus = true": "wrong type of bus",
    "bus = 8.0": "wrong type of bus",
    "bus = '4'": "wrong type of bus",
    "bus = 128": "bus out of range",
    "bus = 64": "missing master",
    # then what the links may do
    "bus = 3\nunaligned = 1": "bus out of range",
    # replies are in order at a link, and not in the file
    "fifo = true": "unknown key fifo (near: bits)",
    "unaligned = 1\nport = 1": "wrong type of unaligned",
    "unaligned = 'true'": "wrong type of unaligned",
    "unaligned = []": "wrong type of unaligned",
    "unaligned = false": "missing master",
    "unaligned = true\nport = 1": "wrong type of port",
    "unaligned = 1\ndecode = 1": "wrong type of unaligned",
    "unaligned = 1\ncorrupt = 1": "wrong type of unaligned",
    "corrupt = 1\ndecode = 1": "wrong type of corrupt",
    "corrupt = 'true'": "wrong type of corrupt",
    "corrupt = []": "wrong type of corrupt",
    "corrupt = false": "missing master",
    "corrupt = true\nport = 1": "wrong type of port",
    "corupt = true": "unknown key corupt (near: corrupt)",
    "decode = 1\nport = 1": "wrong type of decode",
    "decode = true": "wrong type of decode",
    "decode = ''": "decode out of range",
    "decode = 'Address'\nport = 1": "decode out of range",
    "decode = 'bytes'": "missing master",
    "decode = ''\nperiod = 0": "decode out of range",
    "resets = 1": "wrong type of resets",
    "resets = 'true'": "wrong type of resets",
    "resets = []": "wrong type of resets",
    "resets = false": "missing master",
    "resets = true": "missing master",
    "resets = true\nport = 1": "wrong type of port",
    # after what decoders look at, and before the period
    "resets = 1\ndecode = 1": "wrong type of decode",
    "resets = 1\ndecode = ''": "decode out of range",
    "resets = 1\ndecode = 'bytes'\nperiod = 0": "wrong type of resets",
    "resets = 1\nport = 1": "wrong type of resets",
    "resets = true\nperiod = 0": "period out of range",
    "period = '1'\nport = 1": "wrong type of period",
    "period = 1.0": "wrong type of period",
    "period = 0": "period out of range",
    "period = -1": "period out of range",
    "period = 1": "missing master",
    "period = 9_223_372_036_854_775_807": "missing master",
    "period = 0\nport = 1": "period out of range",
    "decode = 'address'\nport = 1": "wrong type of port",
    # a port that is written in one line
    "port = [{}]": "missing kind",
    "port = [{ name = 1 }]": "wrong type of name",
    "port = [{ name = 'p0' }]": "name out of range",
    "port = [{ kind = 1 }]": "wrong type of kind",
    "port = [{ kind = 'Device' }]": "kind out of range",
})
# A key that no table of its kind may have comes before all other faults of a table: of the top, then port by port, then master by master.
UNKNOWN_KEYS = ("", {
    "x = 1": "unknown key x (near: bus)",
    "prot = []": "unknown key prot (near: port)",
    "unalined = true\nunaligned = 1": "unknown key unalined (near: unaligned)",
    "[[port]]\nunaligned = true": "unknown key unaligned (near: name)",
    "rests = true\nresets = 1": "unknown key rests (near: resets)",
    "[[port]]\non_rest = 'keep'\non_reset = 1": "unknown key on_rest (near: on_reset)",
    "signals = 'x'\nbus = 3": "unknown key signals (near: bits)",
    "reset_activ = 'low'\nmaster = 1": "unknown key reset_activ (near: reset_active)",
    "ops = []": "unknown key ops (near: bus)",
    # of several the first in the order of bytes
    "b = 1\na = 1\nB = 1": "unknown key B (near: bus)",
    "'' = 1": 'unknown key "" (near: bus)',
    "'my key' = 1": 'unknown key "my key" (near: master)',
    '"a\\nb" = 1': 'unknown key "a\\nb" (near: bus)',
    "extra = { any = [1, 'x'] }\nslots = 'x'": "missing master",
    # after the keys of the top those of its names of signals, whose values say nothing to a judge; no link has such a table
    "names = { a_vald = 'x' }\n[[port]]\nx = 1": "unknown key a_vald (near: a_valid)",
    "names = { a_vald = 'x' }\nx = 1": "unknown key x (near: bus)",
    "name = { a_vald = 'x' }": "unknown key name (near: names)",
    "names = { extra = 1, d_corrupt = 1, a_valid = '-' }": "missing master",
    "names = [{ x = 1 }]": "missing master",
    "[[port]]\nnames = {}": "unknown key names (near: name)",
    "[[master]]\nnames = {}": "unknown key names (near: name)",
    # a port's own keys, then those of its sizes, then those of its wires
    "[[port]]\nsignal = 'dut.p0_'": "unknown key signal (near: signals)",
    "[[port]]\nsizes = { put = [0, 3] }\nwires = { a = 'x' }\nlenght = 1": "unknown key lenght (near: length)",
    "[[port]]\nsizes = { put = [0, 3] }\nwires = { a = 'x' }": "unknown key put (near: get)",
    "[[port]]\nsizes = { extra = 1 }\nwires = { a_vald = 'x', extra = 1 }": "unknown key a_vald (near: a_valid)",
    "[[port]]\nops = []\nextra = 1": "unknown key ops (near: bus)",
    "[[port]]\nextra = 1": "missing kind",
    "[[port]]\nstride = 1\n[[master]]\nsource = 1": "unknown key stride (near: sizes)",
    "[[port]]\nkind = 1\n[[master]]\nsource = 1": "unknown key source (near: sources)",
    "[[master]]\nsizes = {}": "unknown key sizes (near: wires)",
    "[[master]]\nops = 1\nextra = 1": "missing sources",
    # a link may have a clock and a reset of its own, which say nothing to a judge of captures
    "[[port]]\nclock = 1\nlink_reset = 1\nreset_active = 1\nedge = 1": "missing kind",
    "[[master]]\nclock = 1\nlink_reset = 1\nreset_active = 1\nedge = 1": "missing sources",
    "[[port]]\nlink_rest = 'x'": "unknown key link_rest (near: link_reset)",
    "[[master]]\nreset = 'x'": "unknown key reset (near: reach)",
    "link_reset = 'x'": "unknown key link_reset (near: reset)",
    # what is no array or no table is passed over
    "port = { x = 1 }\nmaster = [1, { x = 1 }]": "unknown key x (near: bus)",
    "port = [1, { kinds = 'ram' }]": "unknown key kinds (near: kind)",
    "port = [{ sizes = [{ x = 1 }], wires = 1 }]": "missing kind",
})
NAMES = ("[[port]]\n", {
    "name = 1": "wrong type of name",
    "name = 1\nkind = 1": "wrong type of name",
    "name = ''": "name out of range",
    "name = 'a b'": "name out of range",
    "name = 'a/b'": "name out of range",
    "name = 'é'": "name out of range",
    "name = 'm0'": "name out of range",
    "name = 'p12'": "name out of range",
    f"name = '{'a' * 33}'": "name out of range",
    # without digits, with others after them, and in capitals these are names
    **{f"name = '{name}'": "missing kind" for name in ("m", "p", "p1x", "M0", "s0", "Uart_0.rx-9", "a" * 32)},
})
PLAIN_PORTS = ("[[port]]\n", {
    "base = 0\nlength = 1": "missing kind",
    "kind = 1": "wrong type of kind",
    "kind = 'RAM'": "kind out of range",
    "kind = 'Device'": "kind out of range",
    "kind = 'device'": "missing base",
    "kind = 'ram'\nlength = 0": "missing base",
    "kind = 'ram'\nbase = '0'": "wrong type of base",
    "kind = 'ram'\nbase = -1\nlength = 0": "base out of range",
    "kind = 'ram'\nbase = 0\nreset = 1": "missing length",
    "kind = 'ram'\nbase = 0\nlength = true": "wrong type of length",
    "kind = 'ram'\nbase = 0\nlength = 0\nreset = 1": "length out of range",
    "kind = 'ram'\nbase = 0\nlength = -1": "length out of range",
    # the last base and the greatest length
    "kind = 'ram'\nbase = 9223372036854775807\nlength = 9223372036854775807": "missing master",
    # the first port's last key comes before the second port's first
    "kind = 'ram'\nbase = 0\nlength = 1\nbus = 3\n[[port]]": "bus out of range",
    "kind = 'ram'\nbase = 0\nlength = 1\norder = 1\n[[port]]": "wrong type of order",
    "kind = 'ram'\nbase = 0\nlength = 1\n[[port]]": "missing kind",
})
RANGES = ("[[port]]\nkind = 'ram'\n", {
    "ranges = 1": "wrong type of ranges",
    "ranges = [1]": "wrong type of ranges",
    "ranges = [[]]": "wrong type of ranges",
    "ranges = [[0]]": "wrong type of ranges",
    "ranges = [[0, 1, 2]]": "wrong type of ranges",
    "ranges = [['0', 1]]": "wrong type of ranges",
    "ranges = [[0, 1.0]]": "wrong type of ranges",
    # a wrong type comes before a range, whichever stands first
    "ranges = [[-1, 1], 1]": "wrong type of ranges",
    "ranges = 1\nbase = 0": "wrong type of ranges",
    "ranges = []": "ranges out of range",
    f"ranges = {[[8 * at, 1] for at in range(17)]}": "ranges out of range",
    f"ranges = {[[8 * at, 1] for at in range(16)]}": "missing master",
    "ranges = [[-1, 1]]": "ranges out of range",
    "ranges = [[0, 0]]": "ranges out of range",
    "ranges = [[0, 1], [8, -1]]": "ranges out of range",
    # beside a base or a length, which are looked at before
    "ranges = [[0, 1]]\nbase = 0": "ranges out of range",
    "ranges = [[0, 1]]\nlength = 1": "ranges out of range",
    "ranges = 1\nbase = 'x'": "wrong type of base",
    "ranges = 1\nlength = 0": "length out of range",
    "ranges = [[0, 1], [8, 8]]": "missing master",
    # ranges that are one memory are as long
    "ranges = [[0, 1], [8, 8]]\nmirror = true": "mirror out of range",
    "ranges = [[0, 8], [8, 8], [16, 7]]\nmirror = true\nvolatile = 1": "mirror out of range",
    "ranges = [[0, 8], [8, 8], [16, 9]]\nmirror = true\nbus = 3": "bus out of range",
    "ranges = [[0, 1], [8, 8]]\nmirror = false": "missing master",
    "ranges = [[0, 8], [9, 8], [32, 8]]\nmirror = true": "missing master",
    # two that have a byte in common are a fault of the map, also if they are one memory
    "ranges = [[0, 8], [4, 8]]\nmirror = true\n[[master]]\nsources = 1": "ports 0 and 0 overlap",
})
# A device has ranges as a memory has.
DEVICE_RANGES = ("[[port]]\nkind = 'device'\n", {
    "": "missing base",
    "base = '0'": "wrong type of base",
    "base = -1": "base out of range",
    "base = 0": "missing length",
    "base = 0\nlength = 0": "length out of range",
    "base = 0\nlength = 1": "missing master",
    "base = 9223372036854775807\nlength = 9223372036854775807": "missing master",
    "ranges = 1": "wrong type of ranges",
    "ranges = [[-1, 1], [0]]": "wrong type of ranges",
    "ranges = [[0, 1, 2]]": "wrong type of ranges",
    "ranges = []": "ranges out of range",
    "ranges = [[0, 1], [8, 0]]": "ranges out of range",
    "ranges = [[0, 1]]\nbase = 0": "ranges out of range",
    "ranges = 1\nbase = 'x'": "wrong type of base",
})
CONTENTS = ("[[port]]\nkind = 'ram'\nranges = [[0, 2], [8, 8]]\n", {
    "reset = 1": "wrong type of reset",
    "reset = '0'": "reset out of range",
    "reset = '0g'": "reset out of range",
    "reset = '--'": "reset out of range",
    # the first range has two bytes, the second more
    "reset = '000000'": "reset out of range",
    "reset = 'aBcD'": "missing master",
    "image = 1": "wrong type of image",
    "image = ['a']": "wrong type of image",
    # a file is looked for when the keys have no fault
    "image = 'none.bin'": "missing master",
    "unknown = 1": "wrong type of unknown",
    "unknown = 'true'": "wrong type of unknown",
    "unknown = true": "missing master",
    # of two faults that of the earlier key is reported
    "image = 1\nreset = 1": "wrong type of reset",
    "unknown = 1\nimage = 1": "wrong type of image",
    "sizes = 1\nunknown = 1": "wrong type of unknown",
    "order = 1\nsizes = 1": "wrong type of sizes",
    "bus = 3\norder = 1": "wrong type of order",
    "reset = ''\norder = 1": "wrong type of order",
    "order = 'Reply'": "order out of range",
    "reset = '0'\norder = 1": "reset out of range",
    "order = 'reply'": "missing master",
})
# The same keys of a port with one range.
ONE_RANGE = (PORT, {
    "reset = 1": "wrong type of reset",
    "reset = '0'": "reset out of range",
    "reset = '0g'": "reset out of range",
    "reset = '010203'": "reset out of range",
    "reset = '0102'": "missing master",
    "image = 1": "wrong type of image",
    "image = 'boot.bin'": "missing master",
    "unknown = 1": "wrong type of unknown",
    "unknown = 'true'": "wrong type of unknown",
    "unknown = true": "missing master",
    "image = 1\nreset = 1": "wrong type of reset",
    "unknown = 1\nimage = 1": "wrong type of image",
    "sizes = 1\nunknown = 1": "wrong type of unknown",
    "order = 1\nsizes = 1": "wrong type of sizes",
    "bus = 3\norder = 1": "wrong type of order",
    "bus = 3\n[[port]]": "bus out of range",
})
SIZES = (PORT, {
    "sizes = {}": "missing master",
    "sizes = []": "wrong type of sizes",
    "sizes = { get = 1 }": "wrong type of sizes",
    "sizes = { get = [0] }": "wrong type of sizes",
    "sizes = { get = [0, 1, 2] }": "wrong type of sizes",
    "sizes = { intent = [0, '1'] }": "wrong type of sizes",
    "sizes = { get = [0, 9] }": "sizes out of range",
    "sizes = { get = [0, 8] }": "missing master",
    "sizes = { get = [8, 8] }": "missing master",
    "sizes = { get = [-1, 8] }": "sizes out of range",
    "sizes = { putfull = [3, 2] }": "sizes out of range",
    "sizes = { putpart = [8, 8] }": "missing master",
    "sizes = { putpart = [9, 8] }": "sizes out of range",
    "sizes = { arithmetic = [2, 3] }": "missing master",
    "sizes = { arithmetic = [0, 8] }": "missing master",
    "sizes = { arithmetic = [-1, 3] }": "sizes out of range",
    "sizes = { arithmetic = [2, 9] }": "sizes out of range",
    "sizes = { logical = [0, 8] }": "missing master",
    "sizes = { logical = [-1, 3] }": "sizes out of range",
    "sizes = { logical = [2, 9] }": "sizes out of range",
    "sizes = { logical = [3, 2] }": "sizes out of range",
    "sizes = { logical = [3, 3] }": "missing master",
    "sizes = { intent = [0, 8] }": "missing master",
    "sizes = { intent = [0, 255] }": "sizes out of range",
    # a wrong type of any operation comes before a range of any
    "sizes = { get = [0, 9], intent = 1 }": "wrong type of sizes",
    # names of no operation
    "sizes = { acquire = 1, Get = 1, atomics = [0, 9] }": "unknown key Get (near: get)",
    "sizes = { acquire = 1 }": "unknown key acquire (near: putpart)",
    "sizes = { Get = 1 }": "unknown key Get (near: get)",
    "sizes = { atomics = [0, 9] }": "unknown key atomics (near: logical)",
})
ORDERS_AND_BUSES = (PORT, {
    "order = 1": "wrong type of order",
    "order = 'Reply'": "order out of range",
    "order = 'all'": "order out of range",
    "order = 'accept'": "missing master",
    "order = 'reply'": "missing master",
    "order = 'any/accept'": "order out of range",
    "order = ['any', 'accept']": "wrong type of order",
    "order = {}": "missing master",
    "order = { masters = 'any' }": "missing master",
    "order = { ports = 'accept' }": "missing master",
    "order = { masters = 'any', ports = 'reply', extra = 1 }": "missing master",
    "order = { masters = 1, ports = 'all' }": "wrong type of order",
    "order = { masters = 'all', ports = 1 }": "wrong type of order",
    "order = { masters = 'all' }": "order out of range",
    "order = { ports = '' }": "order out of range",
    "order = { port = 'any' }": "unknown key port (near: ports)",
    "sizes = { put = 1 }\norder = { port = 'any' }": "unknown key put (near: get)",
    "order = { port = 'any' }\nwires = { a = 'x' }": "unknown key port (near: ports)",
    "bus = '8'": "wrong type of bus",
    **{f"bus = {width}": "bus out of range" for width in (0, -8, 3, 128, 2**40)},
    **{f"bus = {width}": "missing master" for width in (1, 2, 4, 8, 16, 32, 64)},
})
# The bytes that change by themselves, in a first range of two bytes.
VOLATILE = (PORT, {
    "mirror = 1\nvolatile = 1": "wrong type of mirror",
    "mirror = 'true'": "wrong type of mirror",
    "mirror = [true]": "wrong type of mirror",
    "mirror = 1\nbus = 3": "bus out of range",
    "mirror = 1\n[[port]]": "wrong type of mirror",
    # one range is as long as itself
    "mirror = true": "missing master",
    "mirror = false": "missing master",
    "mirror = true\nvolatile = 1": "wrong type of volatile",
    "volatile = 1": "wrong type of volatile",
    "volatile = true": "wrong type of volatile",
    "volatile = '0 1'": "wrong type of volatile",
    "volatile = { offset = 0, length = 1 }": "wrong type of volatile",
    "volatile = [0, 1]": "wrong type of volatile",
    "volatile = [{}]": "wrong type of volatile",
    "volatile = [[]]": "wrong type of volatile",
    "volatile = [[0]]": "wrong type of volatile",
    "volatile = [[0, 1, 1]]": "wrong type of volatile",
    "volatile = [[0, '1']]": "wrong type of volatile",
    "volatile = [[0.0, 1]]": "wrong type of volatile",
    "volatile = [[0, 1], 1]": "wrong type of volatile",
    # a wrong type comes before all that is out of range
    "volatile = [[-1, 1], [0]]": "wrong type of volatile",
    f"volatile = {[[0, 1]] * 64 + [[0]]}": "wrong type of volatile",
    "volatile = []": "volatile out of range",
    "volatile = [[0, 0]]": "volatile out of range",
    "volatile = [[0, -1]]": "volatile out of range",
    "volatile = [[-1, 1]]": "volatile out of range",
    "volatile = [[-1, 3]]": "volatile out of range",
    "volatile = [[0, 3]]": "volatile out of range",
    "volatile = [[1, 2]]": "volatile out of range",
    "volatile = [[2, 1]]": "volatile out of range",
    "volatile = [[2, 0]]": "volatile out of range",
    "volatile = [[9223372036854775807, 1]]": "volatile out of range",
    "volatile = [[1, 9223372036854775807]]": "volatile out of range",
    "volatile = [[9223372036854775807, 9223372036854775807]]": "volatile out of range",
    "volatile = [[0, 1], [0, 3]]": "volatile out of range",
    f"volatile = {[[0, 1]] * 65}": "volatile out of range",
    f"volatile = {[[0, 1]] * 64}": "missing master",
    "volatile = [[0, 2]]": "missing master",
    "volatile = [[1, 1]]": "missing master",
    # pairs may overlap
    "volatile = [[1, 1], [0, 2], [0, 1]]": "missing master",
    # after the bus, and before the next port
    "volatile = 1\nbus = 3": "bus out of range",
    "volatile = 1\norder = 1": "wrong type of order",
    "volatile = 1\n[[port]]": "wrong type of volatile",
    "volatile = [[0, 2]]\n[[port]]": "missing kind",
    # of several ranges the first counts, and a device is read as a memory is
    "volatile = [[1, 1]]\n[[port]]\nkind = 'ram'\nranges = [[8, 2], [16, 8]]\nvolatile = [[2, 1]]": "volatile out of range",
    "volatile = [[1, 1]]\n[[port]]\nkind = 'ram'\nranges = [[8, 8], [16, 2]]\nvolatile = [[7, 1]]": "missing master",
    "volatile = [[1, 1]]\n[[port]]\nkind = 'device'\nbase = 8\nlength = 8\nvolatile = [[8, 1]]": "volatile out of range",
    "[[port]]\nkind = 'ram'\nbase = 9223372036854775807\nlength = 9223372036854775807\nvolatile = [[9223372036854775806, 1]]": "missing master",
    "[[port]]\nkind = 'ram'\nbase = 9223372036854775807\nlength = 9223372036854775807\nvolatile = [[9223372036854775806, 2]]":
        "volatile out of range",
    # the key has no other name
    "volatiles = [[0, 1]]": "unknown key volatiles (near: volatile)",
})
# What a reset of the whole system does to a port's bytes: the word is looked at also where there is no reset.
ON_RESET = (PORT, {
    "on_reset = 1": "wrong type of on_reset",
    "on_reset = true": "wrong type of on_reset",
    "on_reset = ['keep']": "wrong type of on_reset",
    "on_reset = { word = 'keep' }": "wrong type of on_reset",
    "on_reset = ''": "on_reset out of range",
    "on_reset = 'Keep'": "on_reset out of range",
    "on_reset = 'keeps'": "on_reset out of range",
    "on_reset = 'load '": "on_reset out of range",
    "on_reset = 'never'": "on_reset out of range",
    "on_reset = 'keep'": "missing master",
    "on_reset = 'load'": "missing master",
    # after the bytes that change by themselves, and before the next port
    "on_reset = 1\nvolatile = 1": "wrong type of volatile",
    "on_reset = 1\nvolatile = []": "volatile out of range",
    "on_reset = 1\nvolatile = [[0, 2]]": "wrong type of on_reset",
    "on_reset = ''\nmirror = 1": "wrong type of mirror",
    "on_reset = ''\nbus = 3": "bus out of range",
    "on_reset = 1\n[[port]]": "wrong type of on_reset",
    "on_reset = ''\n[[port]]": "on_reset out of range",
    "on_reset = 'load'\n[[port]]": "missing kind",
    "on_reset = 'keep'\n[[port]]\nkind = 'w1c'\nbase = 8\nlength = 8\non_reset = 'Load'": "on_reset out of range",
    # of a device it means nothing, and is looked at
    "[[port]]\nkind = 'device'\nbase = 8\nlength = 8\non_reset = 1": "wrong type of on_reset",
    "[[port]]\nkind = 'device'\nbase = 8\nlength = 8\non_reset = 'Load'": "on_reset out of range",
    "[[port]]\nkind = 'device'\nbase = 8\nlength = 8\non_reset = 'load'": "missing master",
    # no other table has the key, and the top has another
    "[[master]]\non_reset = 'keep'": "unknown key on_reset (near: link_reset)",
    "resets = true": "unknown key resets (near: reset)",
})
# The same in a system that has resets, and in one that says that it has none.
RESETS = ("resets = true\n" + PORT, {
    "on_reset = 1": "wrong type of on_reset",
    "on_reset = 'Keep'": "on_reset out of range",
    "on_reset = 'keep'": "missing master",
    "on_reset = 'load'": "missing master",
    "": "missing master",
    "[[master]]\nsources = 1": "",
    "on_reset = 'load'\n[[master]]\nsources = 1": "",
})
NO_RESETS = ("resets = false\n" + PORT, {
    "on_reset = 1": "wrong type of on_reset",
    "on_reset = 'Keep'": "on_reset out of range",
    "on_reset = 'keep'": "missing master",
    "on_reset = 'load'\n[[master]]\nsources = 1": "",
})
# What is compared of a port's messages between both sides: the word is looked at whichever links are judged.
CROSSING = (PORT, {
    "crossing = 1": "wrong type of crossing",
    "crossing = false": "wrong type of crossing",
    "crossing = ['none']": "wrong type of crossing",
    "crossing = { word = 'none' }": "wrong type of crossing",
    "crossing = ''": "crossing out of range",
    "crossing = 'None'": "crossing out of range",
    "crossing = 'none '": "crossing out of range",
    "crossing = 'some'": "crossing out of range",
    "crossing = 'parts'": "crossing out of range",
    "crossing = 'each'": "crossing out of range",
    "crossing = 'none'": "missing master",
    "crossing = 'same'": "missing master",
    "crossing = 'none'\n[[master]]\nsources = 1": "",
    "crossing = 'same'\n[[master]]\nsources = 1": "",
    # after what a reset does, and before the next port
    "crossing = 1\non_reset = 1": "wrong type of on_reset",
    "crossing = 1\non_reset = ''": "on_reset out of range",
    "crossing = 1\non_reset = 'keep'": "wrong type of crossing",
    "crossing = ''\nvolatile = []": "volatile out of range",
    "crossing = ''\norder = 1": "wrong type of order",
    "crossing = 1\n[[port]]": "wrong type of crossing",
    "crossing = ''\n[[port]]": "crossing out of range",
    "crossing = 'none'\n[[port]]": "missing kind",
    "crossing = 'none'\n[[port]]\nkind = 'w1c'\nbase = 8\nlength = 8\ncrossing = 'Same'": "crossing out of range",
    "crossing = ''\n[[master]]\nsources = 0": "crossing out of range",
    # of a device too
    "[[port]]\nkind = 'device'\nbase = 8\nlength = 8\ncrossing = 1": "wrong type of crossing",
    "[[port]]\nkind = 'device'\nbase = 8\nlength = 8\ncrossing = 'none'": "missing master",
    # no other table has the key, and it has no other name
    "[[master]]\ncrossing = 'none'": "unknown key crossing (near: clock)",
    "order = { crossing = 'none' }": "unknown key crossing (near: masters)",
    "crosing = 'none'\ncrossing = 1": "unknown key crosing (near: crossing)",
    "crossings = 'none'": "unknown key crossings (near: crossing)",
    "Crossing = 'none'": "unknown key Crossing (near: crossing)",
    # hosts stands before crossing, and is as near
    "cross = 'none'": "unknown key cross (near: hosts)",
})
# Whether replies at a port's link come in order.
FIFO = (PORT, {
    "fifo = 1": "wrong type of fifo",
    "fifo = 'true'": "wrong type of fifo",
    "fifo = [true]": "wrong type of fifo",
    "fifo = {}": "wrong type of fifo",
    "fifo = true": "missing master",
    "fifo = false": "missing master",
    "fifo = true\n[[master]]\nsources = 1": "",
    "fifo = false\n[[master]]\nsources = 1": "",
    # after what is compared, and before the next port and the masters
    "fifo = 1\ncrossing = 1": "wrong type of crossing",
    "fifo = 1\ncrossing = ''": "crossing out of range",
    "fifo = 1\ncrossing = 'none'": "wrong type of fifo",
    "fifo = 1\non_reset = ''": "on_reset out of range",
    "fifo = 1\nhosts = []": "hosts out of range",
    "fifo = 1\nsources = 1": "wrong type of sources",
    "hosts = [7]\nfifo = 1": "wrong type of fifo",
    "fifo = 1\n[[port]]": "wrong type of fifo",
    "fifo = true\n[[port]]": "missing kind",
    "fifo = 1\n[[master]]\nsources = 0": "wrong type of fifo",
    "fifo = true\n[[port]]\nkind = 'w1c'\nbase = 8\nlength = 8\nfifo = 'false'": "wrong type of fifo",
    # of a device too
    "[[port]]\nkind = 'device'\nbase = 8\nlength = 8\nfifo = 1": "wrong type of fifo",
    "[[port]]\nkind = 'device'\nbase = 8\nlength = 8\nfifo = true": "missing master",
    # it has no other name, and no table but a port's and a master's has it
    "fifos = true": "unknown key fifos (near: fifo)",
    "Fifo = true": "unknown key Fifo (near: fifo)",
    "fif0 = true\nfifo = 1": "unknown key fif0 (near: fifo)",
    "order = { fifo = true }": "unknown key fifo (near: ports)",
    "sources = [{ master = 0, first = 0, fifo = true }]": "unknown key fifo (near: first)",
})
# The same at a master's link, where it stands behind the paths.
MASTER_FIFO = (PORT + "[[master]]\n", {
    "sources = 1\nfifo = 1": "wrong type of fifo",
    "sources = 1\nfifo = 'false'": "wrong type of fifo",
    "sources = 1\nfifo = [false]": "wrong type of fifo",
    "sources = 1\nfifo = true": "",
    "sources = 1\nfifo = false": "",
    "sources = 0\nfifo = 1": "sources out of range",
    "sources = 1\nfifo = 1\nbus = 12": "bus out of range",
    "sources = 1\nfifo = 1\nstride = 0": "stride out of range",
    "sources = 1\nfifo = 1\nreach = 0": "wrong type of reach",
    "sources = 1\nfifo = 1\nreach = [1]": "reach out of range",
    "sources = 1\nfifo = 1\nreach = [0]": "wrong type of fifo",
    "sources = 1\nfifo = 1\n[[master]]\nsources = 0": "wrong type of fifo",
    "sources = 1\nfifo = true\n[[master]]\nsources = 0": "sources out of range",
    "sources = 257\nfifo = 1": "wrong type of fifo",
    "sources = 257\nfifo = true": "too many masters or sources",
    "sources = 1\nfifos = true": "unknown key fifos (near: fifo)",
})
MASTERS = ("[[master]]\n", {
    "name = 1\nsources = 0": "wrong type of name",
    "name = 'm7'": "name out of range",
    "first = 'x'": "missing sources",
    "sources = 'x'\nfirst = 'x'": "wrong type of sources",
    "sources = 0": "sources out of range",
    "sources = 65537": "sources out of range",
    "sources = 1\nfirst = 'x'\nstride = 0": "wrong type of first",
    "sources = 1\nfirst = -1": "first out of range",
    "sources = 1\nfirst = 65536": "first out of range",
    "sources = 1\nfirst = 0\nstride = 'x'": "wrong type of stride",
    "sources = 1\nfirst = 0\nstride = 0": "stride out of range",
    "sources = 1\nfirst = 0\nstride = 65536": "stride out of range",
    # without a first the stride is looked at too
    "sources = 1\nstride = 0": "stride out of range",
    "sources = 1\nbus = '4'": "wrong type of bus",
    "sources = 1\nbus = 12": "bus out of range",
    "sources = 1\nstride = 0\nbus = 12": "stride out of range",
    "sources = 1\nbus = 64": "",
    "sources = 1\nbus = 'x'": "wrong type of bus",
    "sources = 1\nbus = 5": "bus out of range",
    "sources = 1\nstride = 0\nbus = 5": "stride out of range",
    f"sources = 1\nname = '{'n' * 32}'": "",
    f"sources = 1\nname = '{'n' * 33}'": "name out of range",
})
# The ports to which a master has a path: port 0 is called `a`, port 1 is called `b`, and port 2, which is called `0`, is the last.
REACH = ("port = [{ name = 'a', kind = 'ram', base = 0, length = 1 }, { name = 'b', kind = 'ram', base = 1, length = 1 }, "
         "{ name = '0', kind = 'ram', base = 2, length = 1 }]\n[[master]]\nname = 'host'\nsources = 1\n", {
    "reach = 1": "wrong type of reach",
    "reach = 'a'": "wrong type of reach",
    "reach = { a = 1 }": "wrong type of reach",
    "reach = [true]": "wrong type of reach",
    "reach = [1.0]": "wrong type of reach",
    "reach = [[0]]": "wrong type of reach",
    # a wrong type comes before all that is out of range
    "reach = [-1, 'x', 0, 0, 1.0]": "wrong type of reach",
    f"reach = {[0] * 256 + [[]]}": "wrong type of reach",
    "reach = []": "",
    "reach = [0]": "",
    "reach = ['b', 0]": "",
    "reach = [2, 'a', 'b']": "",
    # a text is a name, and no number
    "reach = ['0', 0, 1]": "",
    "reach = ['0', 2]": "reach out of range",
    "reach = ['1']": "reach out of range",
    "reach = ['']": "reach out of range",
    "reach = ['A']": "reach out of range",
    "reach = ['host']": "reach out of range",
    "reach = [-1]": "reach out of range",
    # the error port
    "reach = [3]": "reach out of range",
    "reach = [9223372036854775807]": "reach out of range",
    "reach = [1, 1]": "reach out of range",
    "reach = ['a', 'b', 'a']": "reach out of range",
    "reach = [0, 'a']": "reach out of range",
    f"reach = {[0] * 256}": "reach out of range",
    # after the bus, and before the next master
    "reach = 1\nbus = 3": "bus out of range",
    "reach = [9]\n[[master]]": "reach out of range",
    "reach = [1]\n[[master]]": "missing sources",
})
# If one of two masters has a first wide source, the other has to have one.
TWO_MASTERS = (MASTER, {
    "[[master]]": "missing sources",
    "[[master]]\nsources = 1\nfirst = 1": "missing first",
    # it is missing at the first master, before any fault of the second one
    "[[master]]\nfirst = 'x'": "missing first",
    "stride = 0\n[[master]]\nsources = 1\nfirst = 0": "missing first",
    "first = 0\n[[master]]\nsources = 1\nstride = 0": "missing first",
    "stride = 7\n[[master]]\nsources = 1\nstride = 'x'": "wrong type of stride",
})
# Tables that have no fault each: two names, two ranges or two masters' sources do not go together.
PARTS = ("", {
    "master = [{ name = 'x', sources = 1 }, { name = 'x', sources = 1 }]": "two are called x",
    # the first name that stood before, not the first that comes again
    "master = [{ name = 'x', sources = 1 }, { name = 'y', sources = 1 }, { name = 'y', sources = 1 }, { name = 'x', sources = 1 }]":
        "two are called y",
    "master = [{ name = 'dma', sources = 1 }]\nport = [{ name = 'dma', kind = 'ram', base = 0, length = 1 }]": "two are called dma",
    "master = [{ name = 'x', sources = 1 }, { name = 'X', sources = 1 }]": "",
    # names come before ranges, and ranges before sources
    "master = [{ sources = 1 }]\nport = [{ name = 'a', kind = 'ram', base = 0, length = 1 }, { name = 'a', kind = 'ram', base = 0, length = 1 }]":
        "two are called a",
    "master = [{ sources = 257 }]\nport = [{ kind = 'ram', base = 0, length = 2 }, { kind = 'ram', base = 1, length = 1 }]":
        "ports 0 and 1 overlap",
    "master = [{ sources = 1 }]\nport = [{ kind = 'ram', base = 0, length = 2 }, { kind = 'ram', base = 2, length = 1 }]": "",
    "master = [{ sources = 1 }]\nport = [{ kind = 'ram', ranges = [[0, 8], [4, 8]] }]": "ports 0 and 0 overlap",
    "master = [{ sources = 1 }]\nport = [{ kind = 'ram', base = 9, length = 1 }, { kind = 'ram', ranges = [[0, 8], [9, 1]] }]":
        "ports 0 and 1 overlap",
    # ranges of any length, and up to the greatest address that a file can name
    "master = [{ sources = 1 }]\nport = [{ kind = 'ram', base = 0, length = 65537 }]": "",
    "master = [{ sources = 1 }]\nport = [{ kind = 'ram', base = 0x80000000, length = 0x400000000, unknown = true }]": "",
    "master = [{ sources = 1 }]\nport = [{ kind = 'ram', base = 9223372036854775807, length = 9223372036854775807 }]": "",
    "master = [{ sources = 1 }]\nport = [{ kind = 'ram', base = 0, length = 9223372036854775807 }, "
    "{ kind = 'device', base = 9223372036854775806, length = 1 }]": "ports 0 and 1 overlap",
    # blocks of at most 256 sources
    "master = [{ sources = 256 }]": "",
    "master = [{ sources = 257 }]": "too many masters or sources",
    # the last wide source is 65,535
    "master = [{ sources = 65536, first = 0 }]": "",
    "master = [{ sources = 65536, first = 1 }]": "too many masters or sources",
    "master = [{ sources = 4, first = 0, stride = 2 }, { sources = 4, first = 1, stride = 2 }]": "",
    "master = [{ sources = 4, first = 0 }, { sources = 4, first = 3 }]": "masters 0 and 1 share source 3",
    # too many is tried over all masters first
    "master = [{ sources = 1, first = 0 }, { sources = 1, first = 0 }, { sources = 2, first = 65535 }]": "too many masters or sources",
    f"master = [{', '.join(['{ sources = 1 }'] * 64)}]": "",
    f"master = [{', '.join(['{ sources = 1 }'] * 65)}]": "master out of range",
    f"master = [{', '.join(['{ sources = 256 }'] * 64)}]": "",
    f"master = [{', '.join(['{ sources = 256 }'] * 65)}]": "master out of range",
    f"master = [{{ sources = 1 }}]\nport = [{DEVICES}]": "",
    f"master = [{{ sources = 1 }}]\nport = [{', '.join(['{}'] * 256)}]": "port out of range",
    f"master = [{{ sources = 1 }}]\nport = [{roms(255)}]": "",
    f"master = [{{ sources = 1 }}]\nport = [{roms(256)}]": "port out of range",
    f"master = [{{ sources = 1 }}]\nport = [{{ kind = 'ram', ranges = {[[at, 1] for at in range(16)]} }}]": "",
    f"master = [{{ sources = 1 }}]\nport = [{{ kind = 'ram', ranges = {[[at, 1] for at in range(17)]} }}]": "ranges out of range",
})
# The images that stand in the folder, and how many bytes each has.
FILES = {"two.bin": 2, "three.bin": 3, "empty.bin": 0}
FOLDER = "folder"
IMAGES = (f"{MASTER}{PORT}", {
    "image = 'two.bin'": "",
    "image = 'empty.bin'": "",
    "image = './folder/../two.bin'": "",
    "image = 'three.bin'": "port 0: image is longer than its range",
    "image = 'none.bin'": "port 0: image can't be read",
    "image = 'folder'": "port 0: image can't be read",
    "image = ''": "port 0: image can't be read",
    "image = 'two.bin/'": "port 0: image can't be read",
    "image = 'two.bin\\u0000'": "port 0: image can't be read",
    'image = "two.bin\\u0000"': "port 0: image can't be read",
    f"image = '{'a' * 5000}'": "port 0: image can't be read",
    # they are read port by port, after names and before ranges and sources; for devices too
    "image = 'three.bin'\n[[port]]\nkind = 'ram'\nbase = 0\nlength = 1\nimage = 'none.bin'": "port 0: image is longer than its range",
    "[[port]]\nkind = 'device'\nbase = 0\nlength = 1\nimage = 'none.bin'": "port 1: image can't be read",
    "[[port]]\nkind = 'device'\nranges = [[0, 1], [8, 8]]\nimage = 'two.bin'": "port 1: image is longer than its range",
    "[[port]]\nkind = 'device'\nbase = 8\nlength = 2\nimage = 'two.bin'": "",
    "[[port]]\nkind = 'device'\nbase = 8\nlength = 2\nimage = 'three.bin'": "port 1: image is longer than its range",
    "name = 'x'\nimage = 'none.bin'\n[[port]]\nname = 'x'\nkind = 'ram'\nbase = 8\nlength = 1": "two are called x",
    "image = 'two.bin'\n[[port]]\nkind = 'ram'\nbase = 0\nlength = 1": "ports 0 and 1 overlap",
    "image = 'none.bin'\n[[master]]\nsources = 257": "port 0: image can't be read",
})


def ports_at(*ports):
    """RAMs, each with a list of ranges, and one master."""
    return "master = [{ sources = 1 }]\nport = [" + ", ".join(f"{{ kind = 'ram', ranges = {list(map(list, ranges))} }}" for ranges in ports) + "]"


def masters_at(*firsts):
    """Masters of one source, which is the first one."""
    return "master = [" + ", ".join(f"{{ sources = 1, first = {first} }}" for first in firsts) + "]"


RAM, LAST, NEXT, FAR, ALL = (0x1000, 64), (0x103f, 1), (0x1040, 1), (0x8000, 1), (0, 9223372036854775807)
# Ranges with a byte in common, and the two ports that are told; and two masters with a source in common.
SHARED = ("", {
    ports_at([RAM], [LAST]): "ports 0 and 1 overlap",
    ports_at([LAST], [RAM]): "ports 0 and 1 overlap",
    ports_at([RAM, LAST]): "ports 0 and 0 overlap",
    ports_at([FAR], [RAM, LAST], [FAR]): "ports 1 and 1 overlap",
    ports_at([FAR], [NEXT, FAR, NEXT]): "ports 0 and 1 overlap",
    ports_at([FAR], [RAM], [NEXT, LAST, FAR]): "ports 1 and 2 overlap",
    # of the ranges that one meets the first decides, whatever its base
    ports_at([FAR], [RAM], [ALL]): "ports 0 and 2 overlap",
    ports_at([RAM], [FAR], [ALL]): "ports 0 and 2 overlap",
    ports_at([NEXT], [FAR], [LAST, ALL], [FAR]): "ports 0 and 2 overlap",
    ports_at([RAM], [NEXT], [FAR]): "",
    ports_at(*([(at % 254, 1)] for at in range(255))): "ports 0 and 254 overlap",
    masters_at(*(65535 if at in (2, 11) else at for at in range(12))): "masters 2 and 11 share source 65535",
})
TABLES = (DOCUMENTS, UNKNOWN_KEYS, NAMES, PLAIN_PORTS, RANGES, DEVICE_RANGES, CONTENTS, ONE_RANGE, SIZES, ORDERS_AND_BUSES, VOLATILE, ON_RESET, RESETS,
          NO_RESETS, CROSSING, FIFO, MASTER_FIFO, MASTERS, REACH, TWO_MASTERS, PARTS, SHARED, IMAGES)


def rows(given=TABLES):
    """Each file of these tables with the line that a program prints for it."""
    for head, parts in given:
        for part, line in parts.items():
            yield f"{head}{part}\n".encode(), line and f"system: {line}"


def put_images(folder):
    """Makes what the rows of images find in their folder."""
    os.mkdir(os.path.join(folder, FOLDER))
    for name, count in FILES.items():
        with open(os.path.join(folder, name), "wb") as image:
            image.write(bytes(count))
