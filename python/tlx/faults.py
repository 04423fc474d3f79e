"""The faults of the library by their numbers, and what is raised for them."""

import enum

from ._library import words_of


class Fault(enum.IntEnum):
    """A fault by its number in `include/tlx.h`, which says of each when it is answered."""

    OK = 0
    NULL = 1
    EMPTY = 2
    FULL = 3
    MEMORY = 4
    BAD_ARGUMENT = 5
    OTHER_VERSION = 6
    NOT_TOML = 10
    MISSING = 11
    WRONG_TYPE = 12
    OUT_OF_RANGE = 13
    BAD_PORTS = 15
    BAD_SOURCES = 16
    TOO_LONG = 17
    TWO_CALLED = 18
    UNKNOWN_KEY = 19
    NO_OPERATION = 20
    SIZE = 21
    NO_MASTER = 22
    NO_SOURCE = 23
    NO_BYTE = 25
    DEVICE = 26
    NO_LINK = 30
    FIELD_CHANGED = 31
    UNKNOWN_OPCODE = 32
    WRONG_PARAM = 33
    SIZE_OUT_OF_RANGE = 34
    UNALIGNED_ADDRESS = 35
    WRONG_MASK = 36
    WRONG_CORRUPT_FLAG = 37
    UNKNOWN_LANES = 38
    NO_SUCH_SOURCE = 39
    SOURCE_IN_FLIGHT = 40
    WRONG_PORT = 41
    NO_REQUEST = 42
    EARLY_REPLY = 43
    WRONG_SIZE = 44
    WRONG_OPCODE = 45
    UNKNOWN_DATA = 46
    NOT_SENT = 47
    NOT_GIVEN = 48
    WRONG_REPLY = 49
    INCOMPLETE = 50
    OUT_OF_ORDER = 51
    NO_PORT = 60
    NO_IMAGE = 61
    LONG_IMAGE = 62
    IMAGE_UNREADABLE = 63

    @property
    def words(self) -> str:
        """The words of the fault, as `tlx` and `tlcheck` say them: `wrong mask`."""
        return words_of(self)


class Refused(ValueError):
    """A call that the library did not do, and that changed nothing: an argument has no meaning there.

    `fault` says why: a link that there is not or that is not watched, a reset of a system without resets, an opcode that names no
    operation, a master, a source or a byte that there is not, a byte of a device, a flag that is neither 0 nor 1. `index` is the place of the
    beat in the array of `Judge.steps` or `Judge.cycle`.
    """

    index = 0

    def __init__(self, fault: Fault, text: str = "") -> None:
        super().__init__(text or fault.words)
        self.fault = fault


class InvalidSystem(Refused):
    """A text that is no system file: `system: missing master`. Or an image that is not given, is too long, or is of a port that names none."""


class Unlawful(Exception):
    """The first beat that no lawful crossbar could have shown.

    `fault` is one of FIELD_CHANGED to WRONG_REPLY, or OUT_OF_ORDER. `line` and `time` are those of the beat, and `text` is the line of
    `tlcheck`, without its line end: `unlawful: line 4, time 12, p0 D: wrong reply: expected AccessAckData aa, captured AccessAckData 00`.
    `index` is the place of the beat in the array of `Judge.steps` or `Judge.cycle`, and 0 of another call. The judge stays as it was before that beat.
    """

    index = 0

    def __init__(self, fault: Fault, line: int, time: int, text: str) -> None:
        super().__init__(text)
        self.fault = fault
        self.line = line
        self.time = time
        self.text = text

    def __reduce__(self):
        return type(self), (self.fault, self.line, self.time, self.text)


class Incomplete(Exception):
    """Requests are left at the end.

    `text` is the line of `tlcheck --complete`, without its line end, which names the oldest: `incomplete: 2 requests without reply, the first:
    line 4, time 12, m0 s3 get 0x1000 2`. `requests` says how many are left.
    """

    def __init__(self, text: str) -> None:
        super().__init__(text)
        self.text = text
        self.requests = int(text.split()[1])

    def __reduce__(self):
        return type(self), (self.text,)


# read ahead: there is no memory for them if they are wanted
_MEMORY_WORDS = Fault.MEMORY.words


def fault_of(number: int, text: str = "") -> Exception:
    """The exception for a fault of a call that is neither a text's nor an unlawful beat's."""
    fault = Fault(number)
    if fault is Fault.MEMORY:
        return MemoryError(_MEMORY_WORDS)
    # a handle is null once it is closed, and nothing else is
    if fault in (Fault.NULL, Fault.EMPTY):
        return ValueError("it is closed")
    return Refused(fault, text)
