"""System files whose ports list masters, by `hosts` or `sources`, with their first fault, worked out by hand from docs/reference/faults.md. The tables are
those of tests/tools/system_faults.py: a head, and parts with the line that a file of the head and the part has."""

# Two masters, and a port whose table goes on: master 0 has 4 sources, and master 1 has 2.
PORT = """[[master]]
name = 'cpu'
sources = 4
[[master]]
name = 'dma'
sources = 2
[[port]]
name = 'ram'
kind = 'ram'
base = 0
length = 2
"""
# A whole port, and a list of so many times master 0 by a table.
OTHER = "[[port]]\nkind = 'rom'\nbase = 8\nlength = 2\n"


def tables(count):
    return ", ".join(["{ master = 0, first = 0 }"] * count)


HOSTS = (PORT, {
    "hosts = ['cpu']": "",
    "hosts = ['dma', 'cpu']": "",
    "hosts = [1, 0]": "",
    "hosts = ['cpu', 1]": "",
    "hosts = 0": "wrong type of hosts",
    "hosts = 'cpu'": "wrong type of hosts",
    "hosts = {}": "wrong type of hosts",
    "hosts = [0.0]": "wrong type of hosts",
    "hosts = [true]": "wrong type of hosts",
    "hosts = [[0]]": "wrong type of hosts",
    "hosts = [{ master = 0, first = 0 }]": "wrong type of hosts",
    # a wrong type comes before all that is out of range
    "hosts = [-1, 'gpu', 0, 0, 1.0]": "wrong type of hosts",
    f"hosts = {[0] * 64 + [[]]}": "wrong type of hosts",
    "hosts = []": "hosts out of range",
    f"hosts = {[0] * 65}": "hosts out of range",
    "hosts = [2]": "hosts out of range",
    "hosts = [0, -1]": "hosts out of range",
    "hosts = [9223372036854775807]": "hosts out of range",
    # a text is a name of a master, and no number
    "hosts = ['gpu']": "hosts out of range",
    "hosts = ['CPU']": "hosts out of range",
    "hosts = ['']": "hosts out of range",
    "hosts = ['0']": "hosts out of range",
    "hosts = ['m0']": "hosts out of range",
    "hosts = ['ram']": "hosts out of range",
    "hosts = [0, 0]": "hosts out of range",
    "hosts = ['cpu', 'dma', 'cpu']": "hosts out of range",
    "hosts = ['cpu', 0]": "hosts out of range",
})
SOURCES = (PORT, {
    "sources = [{ master = 'cpu', first = 0 }]": "",
    "sources = [{ master = 1, first = 9, stride = 3 }]": "",
    "sources = [{ master = 1, first = 0, stride = 2, extra = 'x' }, { master = 'cpu', first = 1, stride = 2 }]": "",
    # the count of a master's sources is no table
    "sources = 4": "wrong type of sources",
    "sources = {}": "wrong type of sources",
    "sources = { master = 0, first = 0 }": "wrong type of sources",
    "sources = [0]": "wrong type of sources",
    "sources = ['cpu']": "wrong type of sources",
    "sources = [[]]": "wrong type of sources",
    "sources = [{}]": "wrong type of sources",
    "sources = [{ master = 0 }]": "wrong type of sources",
    "sources = [{ first = 0 }]": "wrong type of sources",
    "sources = [{ stride = 1 }]": "wrong type of sources",
    "sources = [{ master = 0.0, first = 0 }]": "wrong type of sources",
    "sources = [{ master = true, first = 0 }]": "wrong type of sources",
    "sources = [{ master = ['cpu'], first = 0 }]": "wrong type of sources",
    "sources = [{ master = 0, first = '0' }]": "wrong type of sources",
    "sources = [{ master = 0, first = 0.0 }]": "wrong type of sources",
    "sources = [{ master = 0, first = [0] }]": "wrong type of sources",
    "sources = [{ master = 0, first = 0, stride = '1' }]": "wrong type of sources",
    "sources = [{ master = 0, first = 0, stride = true }]": "wrong type of sources",
    # types come before counts and numbers
    f"sources = [{tables(65)}, {{}}]": "wrong type of sources",
    "sources = [{ master = 'gpu', first = 65536 }, { master = 1, first = 1, stride = 1.0 }]": "wrong type of sources",
    "sources = []": "sources out of range",
    f"sources = [{tables(65)}]": "sources out of range",
    "sources = [{ master = 0, first = -1 }]": "sources out of range",
    "sources = [{ master = 0, first = 65536 }]": "sources out of range",
    "sources = [{ master = 0, first = 0 }, { master = 1, first = 9223372036854775807 }]": "sources out of range",
    "sources = [{ master = 0, first = 0, stride = 0 }]": "sources out of range",
    "sources = [{ master = 0, first = 0, stride = -1 }]": "sources out of range",
    "sources = [{ master = 0, first = 0, stride = 65536 }]": "sources out of range",
    "sources = [{ master = 2, first = 0 }]": "sources out of range",
    "sources = [{ master = -1, first = 0 }]": "sources out of range",
    "sources = [{ master = 'gpu', first = 0 }]": "sources out of range",
    "sources = [{ master = '0', first = 0 }]": "sources out of range",
    "sources = [{ master = 'ram', first = 0 }]": "sources out of range",
    # twice, also if it has other sources there
    "sources = [{ master = 0, first = 0 }, { master = 0, first = 8 }]": "sources out of range",
    "sources = [{ master = 1, first = 0 }, { master = 0, first = 8 }, { master = 'dma', first = 16 }]": "sources out of range",
    # beside hosts, whose faults come first; types of both come before that
    "sources = [{ master = 0, first = 0 }]\nhosts = [0]": "sources out of range",
    "hosts = [0]\nsources = []": "sources out of range",
    "hosts = [0]\nsources = 1": "wrong type of sources",
    "hosts = [0]\nsources = [{ master = 0, first = 0, stride = '1' }]": "wrong type of sources",
    "hosts = 1\nsources = 1": "wrong type of hosts",
    "hosts = []\nsources = 1": "hosts out of range",
    "hosts = ['gpu']\nsources = [{ master = 0, first = 0 }]": "sources out of range",
})
# Where these faults stand among others. The next tables of a file have keys of their own.
ORDER = (PORT, {
    # types and counts: behind on_reset, before the next port and all masters
    "hosts = 1\non_reset = 1": "wrong type of on_reset",
    "hosts = 1\non_reset = 'x'": "on_reset out of range",
    "sources = 1\nvolatile = []": "volatile out of range",
    "hosts = []\nbus = 3": "bus out of range",
    "hosts = 1\n[[port]]": "wrong type of hosts",
    "sources = []\n[[port]]": "sources out of range",
    "hosts = []\n[[master]]": "hosts out of range",
    f"sources = [{{ master = 0, first = 65536 }}]\n{OTHER}hosts = 1": "sources out of range",
    f"hosts = [7]\n{OTHER}hosts = 1": "wrong type of hosts",
    # and before crossing, of which a port with a list is asked too
    "crossing = 1\nhosts = 1": "wrong type of hosts",
    "crossing = ''\nsources = []": "sources out of range",
    "crossing = ''\nhosts = [0]\nsources = [{ master = 0, first = 0 }]": "sources out of range",
    "hosts = ['cpu']\ncrossing = 1": "wrong type of crossing",
    "hosts = ['gpu']\ncrossing = ''": "crossing out of range",
    f"sources = [{{ master = 7, first = 0 }}]\n{OTHER}crossing = 'parts'": "crossing out of range",
    "hosts = ['cpu']\ncrossing = 'none'": "",
    # the list of a port that is judged by itself is looked at all the same
    "hosts = ['gpu']\ncrossing = 'none'": "hosts out of range",
    "hosts = [1]\ncrossing = 'none'\n[[master]]\nname = 'gpu'\nsources = 1\nreach = ['ram']": "reach out of range",
    "sources = [{ master = 0, first = 0 }, { master = 1, first = 3 }]\ncrossing = 'none'": "port 0: masters 0 and 1 share source 3",
    "sources = [{ master = 0, first = 65533 }]\ncrossing = 'none'": "port 0: too many masters or sources",
    # which masters: behind all keys of masters, port by port
    "hosts = ['gpu']\n[[port]]": "missing kind",
    "hosts = ['gpu']\n[[master]]": "missing sources",
    "hosts = ['gpu']\n[[master]]\nsources = 1\nstride = 0": "stride out of range",
    "hosts = ['gpu']\n[[master]]\nsources = 1\nreach = 1": "wrong type of reach",
    "hosts = ['gpu']\n[[master]]\nsources = 1\nreach = [7]": "reach out of range",
    "hosts = ['gpu']\n[[master]]\nname = 'gpu'\nsources = 1": "",
    "hosts = [2]\n[[master]]\nsources = 1": "",
    f"hosts = [0, 0]\n{OTHER}sources = [{{ master = 7, first = 0 }}]": "hosts out of range",
    f"sources = [{{ master = 7, first = 0 }}]\n{OTHER}hosts = [0, 0]": "sources out of range",
    # then what masters reach, then names: of two of one name the first is meant
    "hosts = ['gpu']\n[[master]]\nsources = 1\nreach = ['ram']": "hosts out of range",
    "hosts = ['gpu']\n[[master]]\nname = 'cpu'\nsources = 1": "hosts out of range",
    "hosts = ['cpu', 0]\n[[master]]\nname = 'cpu'\nsources = 1": "hosts out of range",
    "hosts = ['cpu', 2]\n[[master]]\nname = 'cpu'\nsources = 1": "two are called cpu",
    "hosts = [0]\n[[master]]\nname = 'cpu'\nsources = 1\nreach = [0]": "reach out of range",
    # then images, ranges and sources
    "hosts = [0, 0]\nimage = 'none.bin'": "hosts out of range",
    "hosts = [0]\nimage = 'none.bin'": "port 0: image can't be read",
    "hosts = [0, 1, 0]\n[[port]]\nkind = 'ram'\nbase = 1\nlength = 1": "hosts out of range",
    "hosts = [2]\n[[master]]\nsources = 257": "too many masters or sources",
    "sources = [{ master = 0, first = 0 }, { master = 1, first = 0 }]\n[[port]]\nkind = 'ram'\nbase = 1\nlength = 1": "ports 0 and 1 overlap",
    "sources = [{ master = 0, first = 0 }, { master = 1, first = 0 }]\nimage = 'none.bin'": "port 0: image can't be read",
    "sources = [{ master = 0, first = 0 }, { master = 1, first = 0 }]\n[[master]]\nname = 'ram'\nsources = 1": "two are called ram",
    "sources = [{ master = 0, first = 0 }, { master = 1, first = 0 }]\n[[master]]\nsources = 257": "too many masters or sources",
})
# Keys of the tables of `sources` stand behind those of `sizes` and `order`, and before those of `wires`.
UNKNOWN_KEYS = ("", {
    "[[port]]\nhost = ['cpu']": "unknown key host (near: hosts)",
    "[[port]]\nsource = []": "unknown key source (near: sources)",
    "[[port]]\nsources = [{ mater = 1 }]": "unknown key mater (near: master)",
    "[[port]]\nsources = [{}, { master = 0, first = 0, strid = 1 }]": "unknown key strid (near: stride)",
    "[[port]]\nsources = [{ z = 1, fist = 1 }]": "unknown key fist (near: first)",
    "[[port]]\nsources = [{ strides = 1 }, { fist = 1 }]": "unknown key strides (near: stride)",
    "[[port]]\nsizes = { put = 1 }\nsources = [{ fist = 1 }]": "unknown key put (near: get)",
    "[[port]]\norder = { port = 1 }\nsources = [{ fist = 1 }]": "unknown key port (near: ports)",
    "[[port]]\nsources = [{ fist = 1 }]\nwires = { a_vald = 1 }": "unknown key fist (near: first)",
    "[[port]]\nsources = [{ fist = 1 }]\nlenght = 1": "unknown key lenght (near: length)",
    "[[port]]\n[[port.sources]]\nfist = 1": "unknown key fist (near: first)",
    "[[port]]\nsources = [{ fist = 1 }]\n[[port]]\nx = 1": "unknown key fist (near: first)",
    # what is no array or no table is passed over
    "[[port]]\nkind = 'ram'\nbase = 0\nlength = 1\nsources = { fist = 1 }": "wrong type of sources",
    "[[port]]\nsources = [1, [{ z = 1 }], { fist = 1 }]": "unknown key fist (near: first)",
    "[[port]]\nkind = 'ram'\nbase = 0\nlength = 1\nhosts = [{ fist = 1 }]": "wrong type of hosts",
    "[[port]]\nextra = { hosts = 1 }\nsources = [{ extra = { fist = 1 } }]": "missing kind",
})
# A master's `reach` and the ports that list masters: port 0 lists master 0, and port 1 lists none.
REACH = ("[[port]]\nname = 'ram'\nkind = 'ram'\nbase = 0\nlength = 2\n{}\n[[port]]\nname = 'rom'\nkind = 'rom'\nbase = 8\nlength = 2\n"
         "[[master]]\nname = 'cpu'\nsources = 1\n", {
    "": "",
    "reach = ['ram']": "",
    "reach = [1, 0]": "",
    "reach = ['rom']": "reach out of range",
    "reach = []": "reach out of range",
    "[[master]]\nsources = 1": "",
    "[[master]]\nsources = 1\nreach = []": "",
    "[[master]]\nsources = 1\nreach = ['rom']": "",
    "[[master]]\nsources = 1\nreach = ['ram']": "reach out of range",
    "[[master]]\nsources = 1\nreach = [1, 0]": "reach out of range",
    "reach = [0]\n[[master]]\nsources = 1\nreach = [0]": "reach out of range",
    "reach = [0]\n[[master]]\nsources = 1\nreach = [1]": "",
    # before names
    "reach = []\n[[master]]\nname = 'cpu'\nsources = 1": "reach out of range",
})


def at_ports(masters, *lists):
    """A file with masters, each a count of sources or its table, and a port with a line for each list."""
    made = ", ".join(f"{{ sources = {said} }}" if isinstance(said, int) else said for said in masters)
    ports = "".join(f"[[port]]\nkind = 'ram'\nbase = {at}\nlength = 1\n{line}\n" for at, line in enumerate(lists))
    return f"master = [{made}]\n{ports}"


def sources(*places):
    """The line of a port's `sources` of masters, each with its first source and its stride."""
    return "sources = [" + ", ".join(f"{{ master = {master}, first = {first}, stride = {stride} }}" for master, first, stride in places) + "]"


def low(count, number, stride):
    """The table of a master with so many sources by their low bits."""
    return f"{{ sources = {count}, first = {number}, stride = {stride} }}"


def in_turn(masters, count):
    """The tables of so many masters whose sources, so many of each, stand one after the other."""
    return [low(count, master * count, 1) for master in range(masters)]


# Which sources masters have at one port.
SHARED = ("", {
    at_ports([], "hosts = [0]"): "master out of range",
    at_ports([], "hosts = 1"): "wrong type of hosts",
    at_ports([4, 2], sources((0, 0, 1), (1, 4, 1))): "",
    at_ports([4, 2], sources((0, 0, 1), (1, 3, 1))): "port 0: masters 0 and 1 share source 3",
    # of two masters the one that stands in front comes first
    at_ports([4, 2], sources((1, 3, 1), (0, 0, 1))): "port 0: masters 1 and 0 share source 3",
    at_ports([4, 2], sources((0, 0, 2), (1, 3, 2))): "",
    at_ports([4, 2], sources((0, 0, 2), (1, 3, 3))): "port 0: masters 0 and 1 share source 6",
    at_ports([4, 2, 1], sources((0, 0, 1), (1, 9, 1), (2, 10, 1))): "port 0: masters 1 and 2 share source 10",
    at_ports([4, 2, 1], sources((2, 9, 1), (1, 9, 1), (0, 9, 1))): "port 0: masters 2 and 1 share source 9",
    at_ports([4, 2], sources((0, 65532, 1))): "",
    at_ports([4, 2], sources((1, 0, 65535))): "",
    at_ports([4, 2], sources((0, 65533, 1))): "port 0: too many masters or sources",
    at_ports([4, 2], sources((0, 0, 21845))): "",
    at_ports([4, 2], sources((0, 1, 21845))): "port 0: too many masters or sources",
    # of a port the greatest source comes before shared ones, and one port before the next
    at_ports([4, 2, 2], sources((0, 0, 1), (1, 0, 1), (2, 65535, 1))): "port 0: too many masters or sources",
    at_ports([4, 2], sources((0, 0, 1), (1, 0, 1)), sources((0, 65533, 1))): "port 0: masters 0 and 1 share source 0",
    at_ports([4, 2], "", "hosts = [1, 0]", sources((0, 65533, 1))): "port 2: too many masters or sources",
    # at two ports masters may have the same sources, and those that other masters have of their own
    at_ports([4, 2], sources((0, 0, 1)), sources((1, 0, 1)), "hosts = [1]", "hosts = [0, 1]", ""): "",
    # hosts share none
    at_ports([4, 2, 1], "hosts = [2, 0, 1]"): "",
    # a source with the bit of two hosts goes to 1 + 2 * 32767, and with the two bits of three to 2 + 4 * 16383
    at_ports([low(32768, 0, 1), 1], "hosts = [1, 0]"): "missing first",
    at_ports([low(32768, 0, 1), low(1, 40000, 1)], "hosts = [1, 0]"): "",
    at_ports([low(32769, 0, 1), low(1, 40000, 1)], "hosts = [1, 0]"): "port 0: too many masters or sources",
    at_ports([low(32769, 0, 1), low(1, 40000, 1)], "hosts = [0]"): "",
    at_ports(in_turn(3, 16384), "hosts = [0, 1, 2]"): "",
    at_ports(in_turn(3, 16385), "hosts = [0, 1, 2]"): "port 0: too many masters or sources",
    at_ports(in_turn(3, 16385), "hosts = [0, 2]"): "",
    at_ports(in_turn(4, 16383), "hosts = [0, 1, 2, 3]"): "",
    at_ports(in_turn(5, 8193), "hosts = [0, 1, 2, 3, 4]"): "port 0: too many masters or sources",
    at_ports(in_turn(5, 8193), "hosts = [0, 1, 2, 3]"): "",
    at_ports(in_turn(33, 1025), f"hosts = {[*range(33)]}"): "port 0: too many masters or sources",
    at_ports(in_turn(33, 1025), f"hosts = {[*range(32)]}"): "",
    at_ports(in_turn(64, 1023), f"hosts = {[*range(64)]}"): "",
    # the masters' own sources are judged as ever, and first, also if no port has them
    at_ports([257, 1], "hosts = [0, 1]"): "too many masters or sources",
    at_ports([low(1, 0, 1), low(1, 0, 1)], "hosts = [0, 1]"): "masters 0 and 1 share source 0",
    at_ports([low(4, 0, 1), low(4, 3, 1)], sources((0, 0, 1), (1, 0, 1))): "masters 0 and 1 share source 3",
    at_ports([low(2, 65535, 1)], "hosts = [0]"): "too many masters or sources",
    # one of all sources is nobody's if a port lists masters
    at_ports([low(65536, 0, 1)], ""): "",
    at_ports([low(65536, 0, 1)], "hosts = [0]"): "port 0: too many masters or sources",
    at_ports([low(65535, 0, 1)], "hosts = [0]"): "",
    at_ports([low(65535, 1, 1)], "", sources((0, 0, 1))): "",
    at_ports([low(32768, 1, 2), low(32768, 0, 2)], "", "hosts = [0]"): "port 1: too many masters or sources",
    at_ports([low(32768, 1, 2), low(32768, 0, 2)], "", sources((0, 0, 1), (1, 0, 1))): "port 1: too many masters or sources",
    at_ports([low(32768, 1, 2), low(32767, 0, 2)], "", "hosts = [0]"): "",
})
TABLES = (HOSTS, SOURCES, ORDER, UNKNOWN_KEYS, *((REACH[0].replace("{}", said), REACH[1]) for said in ("hosts = ['cpu']", sources((0, 0, 1)))), SHARED)
