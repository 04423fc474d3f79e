"""The shared object libtlx.so and its calls, by ctypes alone. What `include/tlx.h` says of each call holds here.

The object is the file that the environment variable TLX_LIBRARY names, else libtlx.so beside this file: `tools/install` and
`tools/shared_library` put it there. A call lets other threads of the interpreter run, so each handle has a lock: whoever makes a call with a
handle holds it. It may be taken twice, since a signal's handler may come in between.
"""

import ctypes
import os
import struct
import threading

# The version of the header that the structs below are those of.
HEADER_VERSION = 8
# The room for a message's bytes, the lanes of the widest bus, and the room for the longest text.
ROOM = 256
LANES = 64
TEXT_ROOM = 2048


class _Handle:
    """A handle of the library, and its lock. The library puts it into `place`, and `close` gives it back, or whoever drops it last."""

    __slots__ = ("lock", "place")
    _free_ = None

    def __init__(self) -> None:
        self.lock = threading.RLock()
        self.place = ctypes.c_void_p()

    @property
    def at(self) -> int | None:
        """The handle as a number; None, which is null, once it is closed."""
        return self.place.value

    def close(self) -> None:
        with self.lock:
            at, self.place.value = self.place.value, None
        self._free_(at)

    # also where an exception ended the call that made the handle
    __del__ = close


class SystemHandle(_Handle):
    """`struct tlx_system *`."""

    __slots__ = ()


class ModelHandle(_Handle):
    """`struct tlx_model *`."""

    __slots__ = ()


class JudgeHandle(_Handle):
    """`struct tlx_judge *`."""

    __slots__ = ()


class RequestStruct(ctypes.Structure):
    """`struct tlx_request`."""

    _fields_ = [("address", ctypes.c_uint64), ("source", ctypes.c_uint16), ("opcode", ctypes.c_uint8), ("param", ctypes.c_uint8),
                ("size", ctypes.c_uint8), ("bytes", ctypes.c_uint8 * ROOM), ("set", ctypes.c_uint8 * ROOM)]


class AnswerStruct(ctypes.Structure):
    """`struct tlx_answer`."""

    _fields_ = [("port", ctypes.c_uint64), ("place", ctypes.c_uint64), ("count", ctypes.c_uint64), ("source", ctypes.c_uint16),
                ("opcode", ctypes.c_uint8), ("size", ctypes.c_uint8), ("denied", ctypes.c_uint8), ("bytes", ctypes.c_uint8 * ROOM),
                ("known", ctypes.c_uint8 * ROOM)]


# `struct tlx_beat`: line, time, number, address, mask, known, source, side, channel, opcode, param, size, denied and corrupt, and the lanes.
_HEAD = "<QQQQQQHBBBBBBB"
BEAT = struct.Struct(f"{_HEAD}{LANES}s7x")

# What tests/python/check compares with the header: the sizes of the structs, and where the last field of each lies.
LAYOUT = (ctypes.sizeof(RequestStruct), RequestStruct.set.offset, ctypes.sizeof(AnswerStruct), AnswerStruct.known.offset, BEAT.size,
          struct.calcsize(_HEAD))


def _open() -> ctypes.CDLL:
    """The shared object, if it is one for this package."""
    path = os.environ.get("TLX_LIBRARY") or os.path.join(os.path.dirname(os.path.abspath(__file__)), "libtlx.so")
    try:
        library = ctypes.CDLL(path)
        version = library.tlx_version()
    except (OSError, AttributeError) as error:
        raise ImportError(f"{error} (tools/shared_library builds libtlx.so, and TLX_LIBRARY names another place)") from None
    if version != HEADER_VERSION:
        raise ImportError(f"{path} was built for another version of tlx.h than this package")
    return library


_library = _open()


def _call(name: str, result, *arguments):
    """A call of the library with its types. A pointer is passed by `byref`, or as bytes, or by its number."""
    call = getattr(_library, name)
    call.restype = result
    call.argtypes = arguments
    return call


_AT, _U8, _U32, _U64, _SIZE = ctypes.c_void_p, ctypes.c_uint8, ctypes.c_uint32, ctypes.c_uint64, ctypes.c_size_t
_fault_text = _call("tlx_fault_text", _U32, _U32, _AT, _SIZE, _AT)
_system_read = _call("tlx_system_read", _U32, _AT, _SIZE, _U32, _AT, _AT, _SIZE)
_system_ports = _call("tlx_system_ports", _U32, _AT, _AT)
_system_image = _call("tlx_system_image", _U32, _AT, _U64, _AT, _SIZE, _AT, _SIZE)
_system_image_name = _call("tlx_system_image_name", _U32, _AT, _U64, _AT, _SIZE, _AT)
_judge_make = _call("tlx_judge_make", _U32, _AT, _U32, _U32, _U32, _AT, _AT, _SIZE)
_judge_text = _call("tlx_judge_text", _U32, _AT, _AT, _SIZE, _AT)
_judge_clone = _call("tlx_judge_clone", _U32, _AT, _AT)
_model_clone = _call("tlx_model_clone", _U32, _AT, _AT)
_model_make = _call("tlx_model_make", _U32, _AT, _AT, _AT, _SIZE)
model_serve = _call("tlx_model_serve", _U32, _AT, _U64, _AT, _AT)
model_peek = _call("tlx_model_peek", _U32, _AT, _U64, _AT, _AT)
model_poke = _call("tlx_model_poke", _U32, _AT, _U64, _U8, _U32)
model_reset = _call("tlx_model_reset", _U32, _AT)
model_masters = _call("tlx_model_masters", _U32, _AT, _AT)
model_ports = _call("tlx_model_ports", _U32, _AT, _AT)
judge_step = _call("tlx_judge_step", _U32, _AT, _AT)
judge_steps = _call("tlx_judge_steps", _U32, _AT, _AT, _SIZE, _AT)
judge_cycle = _call("tlx_judge_cycle", _U32, _AT, _AT, _SIZE, _AT)
judge_reset = _call("tlx_judge_reset", _U32, _AT)
judge_end = _call("tlx_judge_end", _U32, _AT)
judge_requests = _call("tlx_judge_requests", _U32, _AT, _AT)
judge_answered = _call("tlx_judge_answered", _U32, _AT, _AT)
largest_size = _call("tlx_largest_size", _U8)()
SystemHandle._free_ = _call("tlx_system_free", None, _AT)
ModelHandle._free_ = _call("tlx_model_free", None, _AT)
JudgeHandle._free_ = _call("tlx_judge_free", None, _AT)


def words_of(number: int) -> str:
    """The words of a fault's number."""
    text = ctypes.create_string_buffer(TEXT_ROOM)
    _fault_text(number, text, TEXT_ROOM, None)
    return text.value.decode()


def count_of(call, handle: _Handle) -> int:
    """A count of a handle; 0 once it is closed."""
    count = ctypes.c_uint64()
    with handle.lock:
        call(handle.at, ctypes.byref(count))
    return count.value


def read_system(text: bytes) -> tuple[SystemHandle, int, str]:
    """What a system file names; a fault, and its text."""
    handle, why = SystemHandle(), ctypes.create_string_buffer(TEXT_ROOM)
    fault = _system_read(text, len(text), HEADER_VERSION, ctypes.byref(handle.place), why, TEXT_ROOM)
    return handle, fault, why.value.decode()


def image_names(handle: SystemHandle) -> dict[int, str]:
    """The files of the ports' images, by the numbers of the ports that name one."""
    names = {port: _image_name(handle, port) for port in range(count_of(_system_ports, handle))}
    return {port: name for port, name in names.items() if name}


def _image_name(handle: SystemHandle, port: int) -> str:
    room, count = TEXT_ROOM, ctypes.c_size_t(TEXT_ROOM)
    # one that fills the room may have been cut off
    while count.value >= room - 1:
        room *= 2
        text = ctypes.create_string_buffer(room)
        with handle.lock:
            _system_image_name(handle.at, port, text, room, ctypes.byref(count))
    return text.raw[:count.value].decode()


def put_image(handle: SystemHandle, port: int, image: bytes) -> tuple[int, str]:
    """Hands in the bytes of a port's image; a fault, and its text."""
    why = ctypes.create_string_buffer(TEXT_ROOM)
    with handle.lock:
        fault = _system_image(handle.at, port, image, len(image), why, TEXT_ROOM)
    return fault, why.value.decode()


def make_model(system: SystemHandle) -> tuple[ModelHandle, int, str]:
    """The model of what a system file names; a fault, and its text."""
    handle, why = ModelHandle(), ctypes.create_string_buffer(TEXT_ROOM)
    with system.lock:
        fault = _model_make(system.at, ctypes.byref(handle.place), why, TEXT_ROOM)
    return handle, fault, why.value.decode()


def make_judge(system: SystemHandle, links: int, orders: tuple[int, int]) -> tuple[JudgeHandle, int, str]:
    """The judge of what a system file names; a fault, and its text."""
    handle, why = JudgeHandle(), ctypes.create_string_buffer(TEXT_ROOM)
    with system.lock:
        fault = _judge_make(system.at, links, *orders, ctypes.byref(handle.place), why, TEXT_ROOM)
    return handle, fault, why.value.decode()


def clone_model(handle: ModelHandle) -> tuple[ModelHandle, int]:
    """A model that goes on from where another one is; a fault."""
    made = ModelHandle()
    with handle.lock:
        return made, _model_clone(handle.at, ctypes.byref(made.place))


def clone_judge(handle: JudgeHandle) -> tuple[JudgeHandle, int]:
    """A judge that goes on from where another one is; a fault."""
    made = JudgeHandle()
    with handle.lock:
        return made, _judge_clone(handle.at, ctypes.byref(made.place))


def judge_text(handle: JudgeHandle) -> str:
    """The line of the last fault of a beat, or of the end, without its line end. The caller holds the lock."""
    text = ctypes.create_string_buffer(TEXT_ROOM)
    _judge_text(handle.at, text, TEXT_ROOM, None)
    return text.value.decode().rstrip("\n")
