"""The beats of a message at a data bus of 1 to 64 bytes, and their columns of a capture. They are worked out from the chapters on channels A
and D of the TileLink specification and from docs/reference/captures.md, and share no code with the programs."""

from tlxtools.common import BUS, OPERATIONS, REPLIES, carries_data


def reply_of(name):
    """The reply of an operation: puts are acknowledged, prefetches are too, and all others are answered with bytes."""
    return "AccessAck" if name in ("putfull", "putpart") else "HintAck" if name.startswith("prefetch") else "AccessAckData"


def bus_of(system, table=None):
    """How many bytes the data bus of a link has: by its port's or master's own table, else by the file's."""
    return (table or {}).get("bus", system.get("bus", BUS))


class Bus:
    """A data bus of this number of bytes."""

    def __init__(self, width):
        self.width = width
        self.mask_digits = max(1, width // 4)
        self.data_digits = 2 * width

    def count(self, size, carries):
        """How many beats a message has."""
        return max(1, (1 << size) // self.width) if carries else 1

    def lanes(self, address, size, beat=0):
        """The lane of each byte that a beat carries: the bytes from `beat * span` on, from this lane on."""
        low = address >> size << size
        span = min(self.width, 1 << size)
        first = low % self.width
        return range(beat * span, (beat + 1) * span), range(first, first + span)

    def active(self, address, size):
        """The mask whose bits are the lanes that carry bytes, which is that of each beat."""
        _, lanes = self.lanes(address, size)
        return sum(1 << lane for lane in lanes)

    def spell_mask(self, mask):
        return f"{mask:0{self.mask_digits}x}"

    def spell_lanes(self, lanes):
        """The lanes as a waveform shows a word, the last one first; one that is unknown is None."""
        return "".join("xx" if lane is None else f"{lane:02x}" for lane in reversed(lanes))

    def beats(self, address, size, data, idle=lambda: 0):
        """The mask and the lanes of each beat of a message that carries these bytes, of which some may be unset; `idle` is what stands in
        a lane that carries none."""
        for beat in range(self.count(size, True)):
            places, lanes = self.lanes(address, size, beat)
            word, mask = [idle() for _ in range(self.width)], 0
            for place, lane in zip(places, lanes):
                if data[place] is not None:
                    word[lane] = data[place]
                    mask |= 1 << lane
            yield mask, word

    def asks(self, name, size, source, address, data, idle=lambda: 0):
        """The columns of a request's beats, from its opcode on. A request without bytes is one beat, whose mask has the lanes that it reads."""
        opcode, param = OPERATIONS[name]
        front = f"{opcode},{param},{size},{source},{address:x}"
        if not carries_data(name):
            return [f"{front},{self.spell_mask(self.active(address, size))},,,"]
        return [f"{front},{self.spell_mask(mask)},{self.spell_lanes(lanes)},," for mask, lanes in self.beats(address, size, data, idle)]

    def replies(self, reply, size, source, address, data, denied):
        """The columns of a reply's beats, from its opcode on; a denied one that carries bytes is corrupt."""
        words = [self.spell_lanes(lanes) for _, lanes in self.beats(address, size, data)] if reply == "AccessAckData" else [""]
        corrupt = int(denied and reply == "AccessAckData")
        return [f"{REPLIES[reply]},,{size},{source},,,{word},{int(denied)},{corrupt}" for word in words]
