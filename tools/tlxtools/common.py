"""What the tools share: the paths of the programs, the limits and words of scripts, the codes of messages, and the columns of a capture."""

import os
import sys

TOP = os.path.dirname(os.path.dirname(os.path.dirname(os.path.abspath(__file__))))
# The built programs; the environment names others.
TLX = os.environ.get("TLX", os.path.join(TOP, "crates", "tlx", "out", "tlx"))
TLCHECK = os.environ.get("TLCHECK", os.path.join(TOP, "crates", "tlcheck", "out", "tlcheck"))
TLVCD = os.environ.get("TLVCD", os.path.join(TOP, "crates", "tlvcd", "out", "tlvcd"))
# How long a run of a program may take.
SECONDS = 60

LONGEST_SCRIPT = 1_048_576
MAX_SIZE = 8
KINDS = ("ram", "rom", "regs", "w1c")
# What a system file may have in place of a kind of slave: a device keeps nothing, and answers what it likes.
SYSTEM_KINDS = (*KINDS, "device")
# How many bytes a data bus may have, and how many it has if nobody says.
BUSES = (1, 2, 4, 8, 16, 32, 64)
BUS = 8
# When a request may take effect at its port: with its last beat, with its reply's first beat, or at some moment between these.
ORDERS = ("accept", "reply", "any")
# The words of `--order`: one for both sides, or that of the masters' side and that of the ports'.
ORDER_WORDS = (*ORDERS, *(f"{masters}/{ports}" for masters in ORDERS for ports in ORDERS))
# The greatest number that `--within` takes.
LONGEST_WAIT = (1 << 63) - 1
# The keys of a port's `order`, by the side.
SIDE_KEYS = {"m": "masters", "p": "ports"}
# The keys of a script: of the document, of a port and of a master.
KEYS = {"": ("slots", "port", "master"), "port": ("kind", "base", "length", "reset"), "master": ("sources", "ops")}
# The signals of a link.
SIGNALS = ("a_valid", "a_ready", "a_opcode", "a_param", "a_size", "a_source", "a_address", "a_mask", "a_data", "a_corrupt", "d_valid", "d_ready",
           "d_opcode", "d_param", "d_size", "d_source", "d_data", "d_denied", "d_corrupt")
# The signals of a handshake, which stand outside of the bundle `bits` of their channel.
HANDSHAKES = ("a_valid", "a_ready", "d_valid", "d_ready")

# The opcode and the parameter of each operation on channel A, and the opcode of each reply on channel D.
OPERATIONS = {"putfull": (0, 0), "putpart": (1, 0), "min": (2, 0), "max": (2, 1), "minu": (2, 2), "maxu": (2, 3), "add": (2, 4),
              "xor": (3, 0), "or": (3, 1), "and": (3, 2), "swap": (3, 3), "get": (4, 0), "prefetchr": (5, 0), "prefetchw": (5, 1)}
REPLIES = {"AccessAck": 0, "AccessAckData": 1, "HintAck": 2}
# The names of the table of sizes, and the operations of each.
GROUPS = {"get": ("get",), "putfull": ("putfull",), "putpart": ("putpart",), "arithmetic": ("min", "max", "minu", "maxu", "add"),
          "logical": ("xor", "or", "and", "swap"), "intent": ("prefetchr", "prefetchw")}
GROUP_OF = {name: group for group, names in GROUPS.items() for name in names}

# The columns of a capture.
HEADER = "time,link,channel,opcode,param,size,source,address,mask,data,denied,corrupt"


def order_at(port, side, word):
    """When the requests of a port take effect, as a side judges it: by the port's own order, or else by the word of the command line."""
    own, words = port.get("order", {}), word.split("/")
    given = own.get(SIDE_KEYS[side]) if isinstance(own, dict) else own
    return given or words[0 if side == "m" else -1]


def system_of(front):
    """The system file of an example's capture FRONT.csv: its own, that of all captures whose names begin with its first word, or its folder's."""
    folder, name = os.path.split(front)
    for path in (front + ".toml", os.path.join(folder, name.split("_")[0] + ".toml")):
        if os.path.exists(path):
            return path
    return os.path.join(folder, "system.toml")


def with_bits(signal):
    """The name of a signal in the bundle `bits` of its channel, as Chisel has it: all but those of a handshake stand there."""
    return signal if signal in HANDSHAKES else f"{signal[:2]}bits_{signal[2:]}"


def carries_data(name):
    """Whether requests of this operation carry bytes: the two puts and the atomics do."""
    return OPERATIONS[name][0] < 4


def ended(main, *given):
    """The status of a tool. If nobody reads its output any more, as behind `head`, it ends without a word, with the status of SIGPIPE."""
    try:
        status = main(*given)
        sys.stdout.flush()
        return status
    except BrokenPipeError:
        os.dup2(os.open(os.devnull, os.O_WRONLY), sys.stdout.fileno())
        return 141
