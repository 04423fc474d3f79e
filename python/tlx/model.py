"""The model of a crossbar."""

import ctypes
import struct

from . import _library
from .faults import Fault, fault_of
from .messages import Answer, Ask, Reply, Request, check_number
from .system import System, check_system, make_model

_FRONT = struct.Struct("<QHBBB")
# The flags 0 and 1 as digits.
_DIGITS = b"01" + bytes(254)


class Model:
    """The model of a system, before any request: it answers each request at once. A context manager, which gives its memory back.

    system: the system, which stays as it is. Threads may share a model: a call waits for the one before it.
    """

    def __init__(self, system: System) -> None:
        self._hold(make_model(check_system(system)))

    def _hold(self, handle: _library.ModelHandle) -> None:
        self._handle = handle
        self._request, self._answer = _library.RequestStruct(), _library.AnswerStruct()
        self._request_at, self._answer_at = ctypes.byref(self._request), ctypes.byref(self._answer)

    def clone(self) -> "Model":
        """A model that goes on from where this one is. Neither changes with the other. MemoryError; ValueError after `close`."""
        handle, fault = _library.clone_model(self._handle)
        if fault:
            raise fault_of(fault)
        made = object.__new__(type(self))
        made._hold(handle)
        return made

    def serve(self, master: int, request: Request) -> Answer:
        """Serves a request of a master at once, and says what it is answered; one that is denied is served too. One that goes to a device is
        counted there, and what the device answers is for the caller to say: the answer says `device`, is not denied, and no byte is known.

        Refused, a ValueError, with the fault NO_OPERATION, SIZE, NO_MASTER or NO_SOURCE, if it is not served; ValueError if data has not
        as many bytes as the request carries, or after `close`; MemoryError if there is no memory for the bytes that are written. After
        each of them nothing was served.
        """
        number = check_number("master", master, 64)
        with self._handle.lock:
            self._fill(request)
            fault = _library.model_serve(self._handle.at, number, self._request_at, self._answer_at)
            if fault and fault != Fault.DEVICE:
                raise fault_of(fault)
            answer, count = self._answer, self._answer.count
            data = bytes(memoryview(answer.bytes)[:count])
            known = _mask(bytes(memoryview(answer.known)[:count]))
            return Answer(Reply(answer.opcode), answer.size, answer.source, bool(answer.denied), data, answer.port, answer.place, known, bool(fault))

    def _fill(self, request: Request) -> None:
        """Writes a request into the struct."""
        if not isinstance(request, Request):
            raise TypeError(f"a request is a tlx.Request, and not {type(request).__name__}")
        opcode, size = check_number("opcode", request.opcode, 8), check_number("size", request.size, 8)
        _FRONT.pack_into(self._request, 0, check_number("address", request.address, 64), check_number("source", request.source, 16), opcode,
                         check_number("param", request.param, 8), size)
        if not isinstance(request.data, (bytes, bytearray)):
            raise TypeError(f"data is bytes, and not {type(request.data).__name__}")
        # an opcode or a size that there is not is the library's to refuse
        if opcode > Ask.INTENT or size > _library.largest_size:
            return
        count = 1 << size if opcode <= Ask.LOGICAL else 0
        if len(request.data) != count:
            raise ValueError(f"data has {count} bytes, and not {len(request.data)}")
        self._request.bytes[:count] = request.data
        if opcode == Ask.PUT_PARTIAL:
            self._request.set[:count] = _flags(request.mask, count)

    def peek(self, address: int) -> int | None:
        """The byte at an address, None if it is unknown. Which master reaches it, and which sizes its port serves, is not looked at.

        Refused, a ValueError, with NO_BYTE if no port has the address, or with DEVICE if a device has it; ValueError after `close`.
        """
        place, byte, known = check_number("address", address, 64), ctypes.c_uint8(), ctypes.c_uint32()
        with self._handle.lock:
            fault = _library.model_peek(self._handle.at, place, ctypes.byref(byte), ctypes.byref(known))
        if fault:
            raise fault_of(fault)
        return byte.value if known.value else None

    def poke(self, address: int, byte: int | None) -> None:
        """Puts a byte at an address, of a ROM too; None puts an unknown one. No request is counted.

        Refused as of `peek`; MemoryError if there is no memory for it, and then the model is as it was.
        """
        place, value = check_number("address", address, 64), 0 if byte is None else check_number("byte", byte, 8)
        with self._handle.lock:
            fault = _library.model_poke(self._handle.at, place, value, byte is not None)
        if fault:
            raise fault_of(fault)

    def reset(self) -> None:
        """Resets the whole system, which must say `resets = true`. A port with `on_reset = "load"` holds what it held before any request, and
        any other keeps its bytes. The places of requests go on.

        Refused, a ValueError, with NO_LINK if the system does not say `resets = true`; MemoryError if there is no memory for what is
        loaded; ValueError after `close`. After the first two the model is as it was.
        """
        with self._handle.lock:
            fault = _library.model_reset(self._handle.at)
        if fault:
            raise fault_of(fault)

    @property
    def masters(self) -> int:
        """How many masters there are; 0 after `close`."""
        return _library.count_of(_library.model_masters, self._handle)

    @property
    def ports(self) -> int:
        """How many ports there are, the error port among them as the last; 0 after `close`."""
        return _library.count_of(_library.model_ports, self._handle)

    def close(self) -> None:
        """Gives the memory back; a second time does nothing."""
        self._handle.close()

    def __enter__(self) -> "Model":
        return self

    def __exit__(self, *_: object) -> None:
        self.close()

    def __reduce__(self):
        raise TypeError("a tlx.Model can't be copied or pickled")


def _mask(flags: bytes) -> int:
    """The number whose bit k is the flag k."""
    count = len(flags)
    return (1 << count) - 1 if flags.count(1) == count else int(flags[::-1].translate(_DIGITS), 2)


def _flags(mask: int | None, count: int) -> bytes:
    """A byte for each byte of a partial put: whether it is written."""
    if mask is None:
        return b"\1" * count
    bits = check_number("mask", mask, count)
    return bytes(bits >> k & 1 for k in range(count))
