"""Requests and answers of a model, and beats of a judge: the values that the calls take and give.

All numbers are the ones of the TileLink specification. A value is checked by the call that takes it: one that is no integer is a
TypeError there, one that its field has no room for is an OverflowError, and one that has no meaning is a ValueError.
"""

import enum
import operator
import re
import struct
from collections.abc import Iterable, Iterator
from dataclasses import dataclass

from ._library import BEAT, LANES


class Side(enum.IntEnum):
    """Whose link to the crossbar it is."""

    MASTER = 0
    PORT = 1


class Channel(enum.IntEnum):
    """The channel of a beat: A carries requests, D replies."""

    A = 0
    D = 1


class Ask(enum.IntEnum):
    """The opcodes of channel A."""

    PUT_FULL = 0
    PUT_PARTIAL = 1
    ARITHMETIC = 2
    LOGICAL = 3
    GET = 4
    INTENT = 5


class Reply(enum.IntEnum):
    """The opcodes of channel D."""

    ACCESS_ACK = 0
    ACCESS_ACK_DATA = 1
    HINT_ACK = 2


@dataclass(slots=True)
class Request:
    """A request on channel A, whole.

    opcode: Ask, or its number. param: which arithmetic (0 min, 1 max, 2 minu, 3 maxu, 4 add), logical (0 xor, 1 or, 2 and, 3 swap)
    or prefetch (0 to read, 1 to write). size: log2 of the number of bytes, 0 to 8. address: of the first byte, below 2^64.
    source: the master's own. data: 2^size bytes of a put or an atomic, data[k] for address + k; empty of a get or a prefetch.
    mask: of a partial put, bit k is 1 if data[k] is written; None writes all.
    """

    opcode: int
    address: int
    size: int
    source: int = 0
    data: bytes = b""
    param: int = 0
    mask: int | None = None

    @classmethod
    def get(cls, address: int, size: int, source: int = 0) -> "Request":
        """Reads 2^size bytes."""
        return cls(Ask.GET, address, size, source)

    @classmethod
    def put(cls, address: int, data: bytes, source: int = 0) -> "Request":
        """Writes bytes, whose count is a power of two; ValueError for another count."""
        if not data or len(data) & (len(data) - 1):
            raise ValueError(f"a put has a power of two of bytes, and not {len(data)}")
        return cls(Ask.PUT_FULL, address, len(data).bit_length() - 1, source, data)


@dataclass(frozen=True, slots=True)
class Answer:
    """What a request is answered.

    opcode: Reply. size and source: the request's. denied: whether the slave or the crossbar refused it. data: the 2^size bytes of
    ACCESS_ACK_DATA, zero where one is unknown, and zeros if it is denied; empty else. port: the port that served it; the error port has
    the last number. place: how many requests that port had served before. known: bit k is 1 if data[k] is known; those of a denied
    answer are. device: whether it went to a device, whose answer is for the caller to say.
    """

    opcode: Reply
    size: int
    source: int
    denied: bool
    data: bytes
    port: int
    place: int
    known: int = 0
    device: bool = False


_LINK = re.compile(r"([mp])([0-9]+)")


def link_of(name: str) -> tuple[Side, int]:
    """The side and the number of a link by its name, m0 or p3; ValueError if it is none."""
    found = _LINK.fullmatch(name)
    if not found:
        raise ValueError(f"a link is m or p with a number, as m0, and not {name!r}")
    return (Side.MASTER if found[1] == "m" else Side.PORT), int(found[2])


@dataclass(slots=True)
class Beat:
    """A beat that crossed a link, with valid and ready both 1.

    side, number: the link, of a master or a port. channel: A or D. opcode, size: as in Request and Answer. source: at a master's link
    its own, at a port's the wide one. data: the bits of the bus as a waveform shows them, lane 0 in the low eight. known: bit k is 1 if
    lane k has no x; all are known if it is not given. What data and known have past the bus of the link is not looked at.
    address, mask (a bit a lane): of A alone. denied: of D alone. line, time: any numbers below 2^64, which stand in what is said of the
    beat; the time is of any unit.
    """

    side: int
    number: int
    channel: int
    opcode: int
    size: int
    source: int
    address: int = 0
    mask: int = 0
    data: int = 0
    param: int = 0
    denied: bool = False
    corrupt: bool = False
    known: int = (1 << LANES) - 1
    line: int = 0
    time: int = 0

    @classmethod
    def ask(cls, link: str, opcode: int, size: int, source: int, address: int, mask: int, data: int = 0, **others: int) -> "Beat":
        """A beat of channel A at a link by its name, as m0."""
        return cls(*link_of(link), Channel.A, opcode, size, source, address, mask, data, **others)

    @classmethod
    def reply(cls, link: str, opcode: int, size: int, source: int, data: int = 0, **others: int) -> "Beat":
        """A beat of channel D at a link by its name."""
        return cls(*link_of(link), Channel.D, opcode, size, source, data=data, **others)


# The fields of a beat in the order of the layout, with the bits of each.
_BITS = {"line": 64, "time": 64, "number": 64, "address": 64, "mask": LANES, "known": LANES, "source": 16, "side": 8, "channel": 8, "opcode": 8,
         "param": 8, "size": 8, "denied": 8, "corrupt": 8, "data": 8 * LANES}
_TYPES = {"side": Side, "channel": Channel, "denied": bool, "corrupt": bool, "data": lambda lanes: int.from_bytes(lanes, "little")}


def values_of(beat: Beat) -> tuple:
    """The fields of a beat in the order of the layout, its data as lanes."""
    return (beat.line, beat.time, beat.number, beat.address, beat.mask, beat.known, beat.source, beat.side, beat.channel, beat.opcode,
            beat.param, beat.size, beat.denied, beat.corrupt, operator.index(beat.data).to_bytes(LANES, "little"))


def check_number(name: str, value: object, bits: int) -> int:
    """The value of an unsigned field as a plain integer; TypeError if it is none, OverflowError if the field has no room for it."""
    try:
        number = operator.index(value)
    except TypeError:
        raise TypeError(f"{name} is an integer, and not {type(value).__name__}") from None
    if number < 0 or number >> bits:
        raise OverflowError(f"{name} is 0 to {(1 << bits) - 1}, and not {number}")
    return number


def check_beat(beat: object) -> None:
    """Raises what is wrong with the value or the type of a field, if anything is."""
    if not isinstance(beat, Beat):
        raise TypeError(f"a beat is a tlx.Beat, and not {type(beat).__name__}")
    for name, bits in _BITS.items():
        check_number(name, getattr(beat, name), bits)


class Beats:
    """An array of beats, for `Judge.steps`: made once, it is judged without a Python object for each beat.

    Its memory is `struct tlx_beat` of `include/tlx.h` once for each beat, `Beats.ITEM` bytes; `Beats.LAYOUT` is its format for the
    module struct, with the fields in the order of `Beats.FIELDS`, the data as 64 bytes with lane 0 first.
    """

    ITEM = BEAT.size
    LAYOUT = BEAT.format
    FIELDS = tuple(_BITS)

    def __init__(self, beats: Iterable[Beat] = ()) -> None:
        self.memory = bytearray()
        self.extend(beats)

    def append(self, beat: Beat) -> None:
        """Appends a beat; TypeError and OverflowError as of `Judge.step`."""
        try:
            self.memory += BEAT.pack(*values_of(beat))
        except (struct.error, AttributeError, TypeError, OverflowError):
            check_beat(beat)
            raise

    def extend(self, beats: Iterable[Beat]) -> None:
        """Appends beats one after the other."""
        for beat in beats:
            self.append(beat)

    def clear(self) -> None:
        """Drops all beats."""
        self.memory.clear()

    def __len__(self) -> int:
        return len(self.memory) // self.ITEM

    def __getitem__(self, index: int) -> Beat:
        place = range(len(self))[operator.index(index)]
        return beat_at(self.memory, place)

    def __iter__(self) -> Iterator[Beat]:
        return (beat_at(self.memory, place) for place in range(len(self)))


def beat_at(memory: bytes | bytearray | memoryview, place: int) -> Beat:
    """The beat at a place of an array's bytes."""
    values = dict(zip(_BITS, BEAT.unpack_from(memory, place * BEAT.size)))
    return Beat(**{name: _TYPES.get(name, int)(value) for name, value in values.items()})
