"""Watches the links of a design, clock edge by clock edge."""

import operator
from collections.abc import Iterable, Mapping

from ._library import LANES
from .judge import Judge
from .messages import Beat, Channel, Side, link_of

_FIELDS = {Channel.A: ("opcode", "param", "size", "source", "address", "mask", "data", "corrupt"),
           Channel.D: ("opcode", "param", "size", "source", "denied", "data", "corrupt")}
_ACCESS_ACK_DATA = 1
_HANDSHAKE = ("valid", "ready")
# Within a clock cycle beats cross in this order, and of each by rising number (docs/reference/captures.md, "The order of beats").
_CROSSING = ((Channel.A, Side.MASTER), (Channel.A, Side.PORT), (Channel.D, Side.PORT), (Channel.D, Side.MASTER))


class Monitor:
    """Makes beats of the signals of a design, and hands those of each clock edge to a judge in the order in which they cross.

    judge: the judge. links: the links that are watched by their names, m0 or p3, with what stands before the specification's names
    of their signals in `sample`: {"m0": "core_"} reads core_a_valid, core_a_ready, core_a_opcode, ... absent: the
    specification's names of signals that the design does not have, as a_corrupt, d_param or d_denied; they are 0 at all links.
    Without d_corrupt a beat is marked as the standard asks: one with data is if it is denied.
    ValueError of a name that is no link's. A link that the judge does not watch is refused at its first beat.
    """

    def __init__(self, judge: Judge, links: Mapping[str, str], absent: Iterable[str] = ()) -> None:
        self.judge = judge
        # how many edges were sampled, and how many beats crossed
        self.edges = 0
        self.beats = 0
        lacks = frozenset(absent)
        places = {link_of(link): prefix for link, prefix in links.items()}
        self._channels = [_Channel(channel, side, number, places[side, number], lacks)
                          for channel, turn in _CROSSING for side, number in sorted(places) if side == turn]

    @property
    def names(self) -> tuple[str, ...]:
        """The names of all signals that `sample` asks for."""
        return tuple(name for channel in self._channels for name in channel.names())

    def sample(self, signals: Mapping[str, object], time: int | None = None) -> None:
        """Takes the values that signals had just before a rising edge of the clock, out of reset, and judges the beats that cross there.

        signals: what has a value by its name, for each of `names`: an int or a bool, or what str() spells as binary digits,
        where x, z and the like are unknown bits. Of a link without a beat only valid and ready are asked for.
        time: stands in what is said of these beats; it is the number of the edge, from 0 on, if it is not given.
        Lines are counted as in a capture of these beats: the first is on line 2.

        Raises what `Judge.step` raises, and ValueError if a beat has an unknown bit in another signal than data. The beats that
        cross later within this edge are then not judged.
        """
        now = self.edges if time is None else time
        self.edges += 1
        for channel in self._channels:
            if channel.crosses(signals):
                self.beats += 1
                self.judge.step(channel.beat(signals, self.beats + 1, now))


class _Channel:
    """A channel of a link with the names of its signals."""

    def __init__(self, channel: Channel, side: Side, number: int, prefix: str, lacks: frozenset[str]) -> None:
        front = channel.name.lower()
        self.link = (side, number, channel)
        self.handshake = tuple(f"{prefix}{front}_{field}" for field in _HANDSHAKE)
        self.signals = {field: f"{prefix}{front}_{field}" for field in _FIELDS[channel] if f"{front}_{field}" not in lacks}

    def names(self) -> tuple[str, ...]:
        return (*self.handshake, *self.signals.values())

    def crosses(self, signals: Mapping[str, object]) -> bool:
        """Whether valid and ready are both 1; one that is unknown is not."""
        return all(bits_of(signals[name]) == (1, 0) for name in self.handshake)

    def beat(self, signals: Mapping[str, object], line: int, time: int) -> Beat:
        """The beat that crosses."""
        values = {"param": 0, "denied": 0, "corrupt": 0}
        known = (1 << LANES) - 1
        for field, name in self.signals.items():
            values[field], unknown = bits_of(signals[name])
            if unknown and field != "data":
                raise ValueError(f"{name} is unknown in the beat at time {time}")
            if unknown:
                known = sum(1 << lane for lane in range(LANES) if not unknown >> 8 * lane & 0xFF)
        side, number, channel = self.link
        if channel is Channel.D and "corrupt" not in self.signals:
            values["corrupt"] = int(values["denied"] == 1 and values["opcode"] == _ACCESS_ACK_DATA)
        return Beat(side=side, number=number, channel=channel, known=known, line=line, time=time, **values)


def bits_of(value: object) -> tuple[int, int]:
    """The bits of a value as a number, with zeros where they are unknown; and a one for each bit that is unknown."""
    try:
        return operator.index(value), 0
    except (TypeError, ValueError):
        word = str(value).upper()
    if not word or word.strip("01XZUWLH-"):
        raise TypeError(f"a signal has an integer or binary digits, and not {value!r}")
    known = "".join(bit if bit in "01" else "0" for bit in word)
    return int(known, 2), int("".join("0" if bit in "01" else "1" for bit in word), 2)
