"""The judge of what crosses the links of a crossbar."""

import ctypes
import struct
from collections.abc import Iterable

from . import _library
from .faults import Fault, Incomplete, Unlawful, fault_of
from .messages import BEAT, Beat, Beats, beat_at, check_beat, values_of
from .system import System, check_system, make_judge

LINKS = ("both", "masters", "ports", "each")
ORDERS = ("accept", "reply", "any")
# How many beats a call of the library judges, after which the interpreter looks for signals.
_TURN = 1 << 16
# bound once, since `step` is called for each beat
_pack, _step = BEAT.pack_into, _library.judge_step


def _place(name: str, word: object, words: tuple[str, ...]) -> int:
    """The number of an option's word."""
    if not isinstance(word, str):
        raise TypeError(f"{name} is a str, and not {type(word).__name__}")
    if word not in words:
        raise ValueError(f"{name} is {', '.join(words[:-1])} or {words[-1]}, and not {word!r}")
    return words.index(word)


def _orders(order: object) -> tuple[int, int]:
    """The numbers of the orders of the masters' side and of the ports'."""
    words = order.split("/", 1) if isinstance(order, str) else [order]
    numbers = [_place("order", word, ORDERS) for word in words]
    return numbers[0], numbers[-1]


class Judge:
    """The judge of a crossbar that a system describes, before any beat. A context manager, which gives its memory back.

    links: the links that are watched, "both" sides', the "masters"', the "ports"', or "each" side by itself. order: when a request
    takes effect at a port for which the system does not say it, with its last beat ("accept"), with its reply's first ("reply"), or at
    some moment between these ("any"); or two words, as "any/accept", the first for the masters' links and the second for the ports'.
    InvalidSystem as of System; TypeError and ValueError of other words. Threads may share a judge: a call waits for the one before it.
    """

    def __init__(self, system: System, links: str = "both", order: str = "accept") -> None:
        self._hold(make_judge(check_system(system), _place("links", links, LINKS), _orders(order)), links, order)

    def _hold(self, handle: _library.JudgeHandle, links: str, order: str) -> None:
        self._handle = handle
        self.links = links
        self.order = order
        # a number is the fastest pointer; what it points to lives as long as the judge
        self._beat = ctypes.create_string_buffer(BEAT.size)
        self._beat_at = ctypes.addressof(self._beat)

    def clone(self) -> "Judge":
        """A judge that goes on from where this one is. Neither changes with the other. MemoryError; ValueError after `close`."""
        handle, fault = _library.clone_judge(self._handle)
        if fault:
            raise fault_of(fault)
        made = object.__new__(type(self))
        made._hold(handle, self.links, self.order)
        return made

    def step(self, beat: Beat) -> None:
        """Judges one beat more. Of one clock cycle give the beats in the order in which they cross, or all of them to `cycle`.

        Unlawful if no lawful crossbar could have shown it; Refused, a ValueError, with NO_LINK if there is no such link or it is not
        watched; TypeError, OverflowError and ValueError of a field's value; MemoryError if there is no memory for the bytes that are
        written with a lawful beat. After each of them the judge is as it was, and after a MemoryError the same beat may be given again.
        """
        handle = self._handle
        with handle.lock:
            try:
                _pack(self._beat, 0, *values_of(beat))
            except (struct.error, AttributeError, TypeError, OverflowError):
                check_beat(beat)
                raise
            fault = _step(handle.at, self._beat_at)
            if fault:
                raise self._refusal(fault, beat)

    def steps(self, beats: Beats | bytes | bytearray | memoryview) -> None:
        """Judges the beats of an array in turn, up to the first that is refused: `index` of the exception is its place in the array.

        beats: Beats, or anything with the buffer protocol whose bytes are those of Beats. TypeError if it is neither, ValueError if its
        bytes are no whole number of beats; else as of `step`. The beats before `index` were judged.
        """
        with memoryview(beats.memory if isinstance(beats, Beats) else beats) as memory:
            if not memory.c_contiguous or memory.nbytes % BEAT.size:
                raise ValueError(f"an array of beats has {BEAT.size} bytes for each, one after the other")
            array = bytearray(memory) if memory.readonly else memory
            with self._handle.lock:
                fault, index = self._judge_array(array, memory.nbytes // BEAT.size)
                found = self._refusal(fault, beat_at(array, index), index) if fault else None
        # the array may grow again before the exception is handled
        if found:
            raise found

    def _judge_array(self, array: bytearray | memoryview, count: int) -> tuple[int, int]:
        """The fault of the first beat that is refused with its place, or no fault and the count."""
        if not count:
            return 0, 0
        # while this is alive the array keeps its place
        pinned = ctypes.c_char.from_buffer(array)
        begin, judged, fault, at = ctypes.addressof(pinned), ctypes.c_size_t(), 0, 0
        while at < count and not fault:
            fault = _library.judge_steps(self._handle.at, begin + at * BEAT.size, min(count - at, _TURN), ctypes.addressof(judged))
            at += judged.value
        return fault, at

    def cycle(self, beats: Iterable[Beat]) -> None:
        """Judges the beats of one clock cycle, which stand in any order, in the order in which they cross: channel A of the masters' links,
        then A of the ports', D of the ports', and D of the masters'. `index` of the exception is the place of the first that is refused.

        As of `step`; the beats that cross before that one were judged. Refused with BAD_ARGUMENT, before any is judged, if a beat has
        another side or channel.
        """
        given, at = list(beats), ctypes.c_size_t()
        if not given:
            return
        pinned = ctypes.c_char.from_buffer(Beats(given).memory)
        with self._handle.lock:
            fault = _library.judge_cycle(self._handle.at, ctypes.addressof(pinned), len(given), ctypes.addressof(at))
            if fault:
                raise self._refusal(fault, given[at.value], at.value)

    def _refusal(self, fault: int, beat: Beat, index: int = 0) -> Exception:
        """What is raised for a beat. The caller holds the lock."""
        if fault > Fault.NO_LINK:
            made = Unlawful(Fault(fault), beat.line, beat.time, _library.judge_text(self._handle))
        else:
            made = fault_of(fault)
        made.index = index
        return made

    def reset(self) -> None:
        """Tells the judge that the whole system is reset now: the beats after this are those after the reset. The system must say
        `resets = true`. No message is under way then, and no request is in flight. A port with `on_reset = "load"` holds what it held
        before any request. One with "keep" has its bytes, but those are unknown that a request may write which was cut short.
        `requests` and `answered` go on, so `in_flight` has the whole requests that the reset left without a whole reply.

        Refused, a ValueError, with NO_LINK if the system does not say `resets = true`; then the judge is as it was. MemoryError if there
        is no memory for it, and then too. ValueError after `close`.
        """
        with self._handle.lock:
            fault = _library.judge_reset(self._handle.at)
        if fault:
            raise fault_of(fault)

    def end(self) -> None:
        """Asks whether each request that began since the last reset has its whole reply. Incomplete, if one has not. The judge stays as
        it is and may go on. ValueError after `close`, MemoryError if there was no memory for the text.
        """
        with self._handle.lock:
            fault = _library.judge_end(self._handle.at)
            text = _library.judge_text(self._handle) if fault == Fault.INCOMPLETE else ""
        if fault == Fault.INCOMPLETE:
            raise Incomplete(text) if text else fault_of(Fault.MEMORY)
        if fault:
            raise fault_of(fault)

    @property
    def requests(self) -> int:
        """How many whole requests were seen, at the masters' links if these are watched, and else at the ports'; 0 after `close`."""
        return _library.count_of(_library.judge_requests, self._handle)

    @property
    def answered(self) -> int:
        """How many whole replies were seen, at the same links."""
        return _library.count_of(_library.judge_answered, self._handle)

    @property
    def in_flight(self) -> int:
        """How many whole requests have no whole reply yet."""
        return self.requests - self.answered

    def close(self) -> None:
        """Gives the memory back; a second time does nothing."""
        self._handle.close()

    def __enter__(self) -> "Judge":
        return self

    def __exit__(self, *_: object) -> None:
        self.close()

    def __reduce__(self):
        raise TypeError("a tlx.Judge can't be copied or pickled")
