"""The keys of a system file: a row for each, with the table that may have it, what it may say, and what it means. The limits of their values stand
here too. The lists of keys of the other tools, docs/system.schema.json and the table of docs/reference/keys.md come of these
rows; tests/tools/schema_test compares them with the sources of the programs."""

from typing import NamedTuple

from tlxtools.common import BUS, BUSES, GROUPS, MAX_SIZE, ORDERS, SIDE_KEYS, SIGNALS, SYSTEM_KINDS

# The greatest integer of TOML.
GREATEST = 2**63 - 1
MAX_PORTS, MAX_MASTERS, MAX_RANGES, MAX_VOLATILE, MAX_SOURCES, MAX_WIDE = 255, 64, 16, 64, 65_536, 65_535
# How many sources a master has at most if the judge lays out the blocks.
MAX_BLOCK = 256
MAX_NAME, MAX_PREFIXES, MAX_PARTS = 32, 64, 512
DECODES, ON_RESETS, CROSSINGS = ("bytes", "address"), ("keep", "load"), ("same", "none")
EDGES, LEVELS = ("rising", "falling"), ("high", "low")
# The form of a name, and that of the bytes of a `reset`.
NAME = f"^(?![mp][0-9]+$)[A-Za-z0-9_.-]{{1,{MAX_NAME}}}$"
BYTES = "^([0-9a-fA-F]{2})*$"
# The signals that a design may have none of: their name may be `-`.
MAY_BE_LEFT_OUT = ("a_corrupt", "d_param", "d_corrupt")
# What a key is about: the system, where its signals are (docs/reference/formats.md, "Dumps"), a run of tlx, or nothing.
SYSTEM, PLACES, RUN, NOTHING = "system", "places", "run", "nothing"


class Value(NamedTuple):
    """What a key may say: its type and its range in words, and both as JSON Schema has them."""

    type: str
    range: str
    schema: dict


class Key(NamedTuple):
    """A key of a table, which is `port`, `sources` or another one by its name; that of the file itself has none."""

    table: str
    name: str
    value: Value
    meaning: str
    # What a missing key means, if that is a value, or else in words; a key of `needed` has to be there.
    default: object = None
    absent: str = ""
    needed: bool = False
    # The key that may stand in its place, those beside which it may not stand, and whether all tables of an array have it if one has.
    instead: str = ""
    apart: tuple = ()
    together: bool = False
    about: str = SYSTEM


def integer(low, high):
    return Value("integer", f"{low:,} to {high:,}", {"type": "integer", "minimum": low, "maximum": high})


def flag(said=""):
    return Value("boolean", said, {"type": "boolean"})


def text(said="", **schema):
    return Value("string", said, {"type": "string", **schema})


def quoted(words):
    """Words between backticks, with commas."""
    return ", ".join(f"`{word}`" for word in words)


def one_of(words):
    return text(quoted(words), enum=[*words])


def array(items, low, high):
    """The schema of an array."""
    return {"type": "array", "items": items, **({"minItems": low} if low else {}), "maxItems": high}


def pair(first, second):
    """The schema of an array of two integers, of the least and the greatest value of each."""
    return {"type": "array", "prefixItems": [integer(*first).schema, integer(*second).schema], "minItems": 2, "maxItems": 2}


def table_of(name):
    return {"$ref": f"#/$defs/{name}"}


def tables(name, low, high, said=""):
    return Value("array of tables", f"{low} to {high}{said}" if low else f"at most {high}", array(table_of(name), low, high))


def numbered(said, low, high, greatest):
    """An array of names and numbers, no number greater than this."""
    items = {"type": ["string", "integer"], "pattern": NAME, "minimum": 0, "maximum": greatest}
    return Value("array of strings and integers", said, {**array(items, low, high), "uniqueItems": True})


def ranges_of(said, count, first):
    """An array of pairs: an integer in these limits, and a length."""
    return Value("array of arrays of two integers", said, array(pair(first, (1, GREATEST)), 1, count))


def named(table, signal):
    """What `names` or `wires` says of a signal: a text, and in `wires` an array of texts too."""
    refused = {} if signal in MAY_BE_LEFT_OUT else {"not": {"const": "-"}}
    if table == "names":
        return text("", **refused)
    parts = array({"type": "string", "not": {"const": "-"}}, 1, MAX_PARTS)
    return Value("string, or array of strings", f"an array has 1 to {MAX_PARTS}", {**parts, "type": ["string", "array"], **refused})


BUS_OF = Value("integer", ", ".join(map(str, BUSES)), {"type": "integer", "enum": [*BUSES]})
BUS_OF_LINK = BUS_OF._replace(range="as `bus`")
NAME_OF = text(f"1 to {MAX_NAME} of `A-Z a-z 0-9 _ . -`, and not `m` or `p` with digits alone", pattern=NAME)
RANGES = ranges_of(f"1 to {MAX_RANGES} pairs of base and length, each in the ranges above; not beside `base` or `length`", MAX_RANGES, (0, GREATEST))
SIZES = Value("table", f"{quoted(GROUPS)}, each an array of the least and the greatest size, 0 to {MAX_SIZE}", table_of("sizes"))
SIZE_PAIR = Value("array of two integers", f"0 to {MAX_SIZE}", pair((0, MAX_SIZE), (0, MAX_SIZE)))
ORDER = Value("string, or table of two strings", f"{quoted(ORDERS)}; a table has them at {' and at '.join(f'`{side}`' for side in SIDE_KEYS.values())}",
              {"anyOf": [one_of(ORDERS).schema, table_of("order")]})
VOLATILE = ranges_of(f"1 to {MAX_VOLATILE} pairs of offset and length, each within the first range, the offset from 0 on and the length from 1 on; "
                     "they may overlap", MAX_VOLATILE, (0, GREATEST))
HOSTS = numbered(f"names and numbers of masters, 1 to {MAX_MASTERS}, no master twice", 1, MAX_MASTERS, MAX_MASTERS - 1)
REACH = numbered(f"names and numbers of ports, at most {MAX_PORTS}, no port twice; of a port that lists masters it says what the list says",
                 0, MAX_PORTS, MAX_PORTS - 1)
MASTER = Value("string or integer", "the name or the number of a master", HOSTS.schema["items"])
PREFIXES = Value("string, or array of strings", f"an array has 1 to {MAX_PREFIXES}",
                 {**array({"type": "string"}, 1, MAX_PREFIXES), "type": ["string", "array"]})
ANYTHING = Value("any", "", {})

SYSTEM_ROWS = (
    Key("", "bus", BUS_OF, "how many bytes the data buses of links have", BUS),
    Key("", "unaligned", flag(), "with `true` the address of a request may be no multiple of its size, and its slave denies it", False),
    Key("", "corrupt", flag(), "with `true` beats of puts, atomics and replies with data may be marked corrupt, and their bytes promise nothing", False),
    Key("", "decode", one_of(DECODES), "a request goes to the port one of whose ranges has all its bytes; with `address`, its first byte", "bytes"),
    Key("", "resets", flag(), "with `true` a capture may have rows of resets of the whole system (captures.md, \"Resets\"), and dumps give them", False),
    Key("", "period", integer(1, GREATEST),
        "how many units of the capture's time a clock has. What was covered counts clocks (regression.md, \"What was covered\")", 1),
    Key("", "port", tables("port", 0, MAX_PORTS), "the slave ports, numbered from 0; after the last comes the error port, which has no link",
        absent="no ports"),
    Key("port", "name", NAME_OF, "verdicts name the link by it; captures and traces keep `p0`. No two ports or masters have the same", absent="none"),
    Key("port", "kind", one_of(SYSTEM_KINDS),
        "what the slave serves: the table of kinds in formats.md, \"What is answered\". A `device` decides for itself", needed=True),
    Key("port", "base", integer(0, GREATEST), "the first address of its one range", needed=True, instead="ranges"),
    Key("port", "length", integer(1, GREATEST), "how many bytes the range has", needed=True, instead="ranges"),
    Key("port", "ranges", RANGES, "all ranges at which the slave answers; its memory is one memory with all these addresses. With `mirror` it is the "
        "first range alone", absent="one range", apart=("base", "length")),
    Key("port", "reset", text("pairs of hexadecimal digits, at most one for each byte of the first range", pattern=BYTES),
        "the first bytes of the first range, put over those of `image`", absent="none"),
    Key("port", "image", text("the name of a file, from the folder of SYSTEM; an absolute name is taken as it is. The file has at most as many bytes as "
                              "the first range"), "the first bytes of the first range", absent="none"),
    Key("port", "unknown", flag(), "the bytes that neither `image` nor `reset` gives: zero with `false`, unknown with `true`", False),
    Key("port", "sizes", SIZES, "the sizes that the slave supports. It supports no operation that the table leaves out",
        absent="the row of its kind in formats.md, \"What is answered\""),
    Key("port", "order", ORDER, "when requests of this port take effect: with their last beat, with their reply's first beat, or at some moment between "
        "these. A string says it for both sides, a table for each (captures.md, \"The command\")", absent="that of the command line for the side"),
    Key("port", "bus", BUS_OF_LINK, "the data bus of this port's link", absent="`bus`"),
    Key("port", "mirror", flag("with `true` all ranges have one length"),
        "with `true` the ranges are one memory: byte k of each range is byte k of the first", False),
    Key("port", "volatile", VOLATILE, "these bytes of the first range change by themselves, so they are never known (captures.md, \"What a slave may "
        "answer\"). With `mirror` these are the bytes at the same offsets of each range", absent="none"),
    Key("port", "on_reset", one_of(ON_RESETS), "what a reset of the whole system does to the memory: it keeps its bytes, or is as at the beginning",
        absent="`keep` of `ram` and `rom`, `load` of `regs` and `w1c`"),
    Key("port", "hosts", HOSTS, "the masters that reach this port. The k-th, counted from 0, has at this port's link the wide source `k + 2^b * s` for its "
        "own source s. 2^b is the least power of two that is at least their count (captures.md, \"Sockets\")",
        absent="the masters' own wide sources, and their `reach`"),
    Key("port", "sources", tables("sources", 1, MAX_MASTERS, ", no master twice; not beside `hosts`"),
        "the masters that reach this port, each with its wide sources at this port's link", absent="as of `hosts`", apart=("hosts",)),
    Key("sources", "master", MASTER, "the master of this table", absent="a fault: `wrong type`", needed=True),
    Key("sources", "first", integer(0, MAX_WIDE), "the wide source of its source 0 at this port's link", absent="a fault: `wrong type`", needed=True),
    Key("sources", "stride", integer(1, MAX_WIDE), "there its source s has the wide source `first + stride * s`", 1),
    Key("port", "crossing", one_of(CROSSINGS), "with `--links both`, what is compared between the masters' links and this port's: each message, or "
        "nothing. With `none` this port's link is judged by itself (captures.md, \"A crossbar with adapters\")", "same"),
    Key("port", "fifo", flag(), "with `true` replies at this port's link begin in the order in which their requests began there (captures.md, \"Replies in "
        "order\")", False),
    Key("", "master", tables("master", 1, MAX_MASTERS), "the masters, numbered from 0", needed=True),
    Key("master", "name", NAME_OF._replace(range="as `port.name`"), "as `port.name`", absent="none"),
    Key("master", "sources", integer(1, MAX_SOURCES), "how many sources it has; they are numbered from 0", needed=True),
    Key("master", "first", integer(0, MAX_WIDE), "the wide source of its source 0 at each port that lists no masters",
        absent="if no master has it, all have blocks (below); else `missing first`", together=True),
    Key("master", "stride", integer(1, MAX_WIDE), "there its source s has the wide source `first + stride * s`", 1),
    Key("master", "bus", BUS_OF_LINK, "the data bus of this master's link", absent="`bus`"),
    Key("master", "reach", REACH, "the ports to which this master has a path", absent="the ports that list it, and all that list none"),
    Key("master", "fifo", flag(), "the same at this master's link, whichever ports its requests go to, and of the error port too", False),
    *(Key("sizes", group, SIZE_PAIR, f"the least and the greatest size of {quoted(names)}", absent="the slave supports no such operation")
      for group, names in GROUPS.items()),
    *(Key("order", side, one_of(ORDERS), f"when requests take effect, as the links of {side} are judged", absent="that of the command line for the side")
      for side in SIDE_KEYS.values()))


def key_of_link(name, value, meaning, absent):
    """The same key of a port and of a master, which says where the link's signals are."""
    return [Key(table, name, value, meaning, absent=absent, about=PLACES) for table in ("port", "master")]


PLACES_ROWS = (
    Key("", "clock", text(), "the hierarchical name of the clock", absent="each link that has signals has its own", about=PLACES),
    Key("", "reset", text(), "the name of the reset, if there is one", absent="no reset", about=PLACES),
    Key("", "reset_active", one_of(LEVELS), "the value at which the reset is active", "high", about=PLACES),
    Key("", "edge", one_of(EDGES), "the edges of the clock at which beats cross", "rising", about=PLACES),
    Key("", "bits", flag(), "`true` if all signals of a channel but valid and ready stand in its bundle `bits`, as Chisel names them", False,
        about=PLACES),
    Key("", "names", Value("table", "", table_of("names")), "It says of single signals what stands behind the prefix in place of the specification's name",
        absent="the specification's names", about=PLACES),
    *key_of_link("signals", PREFIXES, "a prefix, with which the specification's names are looked for", "the names of `wires`; without both no rows"),
    *key_of_link("wires", Value("table", "", table_of("wires")), "a table that names single signals, and overrides the prefixes",
                 "the names behind the prefixes"),
    *key_of_link("bits", flag(), "`true` if all signals of a channel but valid and ready stand in its bundle `bits`, as Chisel names them",
                 "`bits` at the top"),
    *key_of_link("clock", text(), "the name of the link's own clock", "that at the top"),
    *key_of_link("link_reset", text(), "the name of the link's own reset, beside either clock", "that at the top, if the link has no clock of its own"),
    *key_of_link("reset_active", one_of(LEVELS), "the same as at the top, for the link's reset and clock", "that at the top"),
    *key_of_link("edge", one_of(EDGES), "the same as at the top, for the link's reset and clock", "that at the top"),
    *(Key("names", signal, named("names", signal), f"what stands behind the prefixes in place of `{signal}`", absent=f"`{signal}`", about=PLACES)
      for signal in SIGNALS),
    *(Key("wires", signal, named("wires", signal), f"the name of the signal `{signal}`, or `0` or `1`, or an array of its parts, the highest bits first",
          absent="the name behind the prefixes", about=PLACES) for signal in SIGNALS))

RUN_ROWS = (Key("", "slots", ANYTHING, "it is a script's, and is ignored", absent="nothing", about=RUN),
            Key("master", "ops", ANYTHING, "it is a script's, and is ignored", absent="nothing", about=RUN))
TABLES = ("", "names", "port", "master", "sizes", "order", "sources", "wires")
KEYS = (*SYSTEM_ROWS, *PLACES_ROWS, *RUN_ROWS,
        *(Key(table, "extra", ANYTHING, "it may have any value, and it is ignored", absent="nothing", about=NOTHING) for table in TABLES))
# The tables whose keys have rows of their own in docs/reference/keys.md, with what stands there before their names.
PATHS = {"": "", "port": "port.", "sources": "port.sources.", "master": "master."}


def rows_of(table):
    """The rows of a table, in the order in which the program has its keys."""
    return [row for row in KEYS if row.table == table]


def described(table):
    """The keys of a table that describe the system, in their order."""
    return tuple(row.name for row in rows_of(table) if row.about == SYSTEM)


SYSTEM_KEYS = {table: tuple(row.name for row in rows_of(table)) for table in TABLES}


def shown(value):
    """A value as pages have it: a number by itself, and a word or a flag between backticks."""
    if isinstance(value, bool):
        return f"`{str(value).lower()}`"
    return str(value) if isinstance(value, int) else f"`{value}`"


def absent_of(row):
    """What it means that a key is missing, in words."""
    if row.absent:
        return row.absent
    if row.needed:
        return f"a fault, except beside `{row.instead}`" if row.instead else "a fault"
    return shown(row.default)


def page_rows():
    """The table of docs/reference/keys.md: the cells of each row."""
    return [(f"`{PATHS[row.table]}{row.name}`", row.value.type, row.value.range, absent_of(row), row.meaning)
            for row in SYSTEM_ROWS if row.table in PATHS]
