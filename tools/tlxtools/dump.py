"""A value change dump (VCD, IEEE 1364), read once: its variables, and then what changes, time by time. Memory depends on the variables
that are declared, and not on the length of the dump. For tools/draft.
"""

import re
import typing

BLOCK = 1 << 16
LONGEST_WORD = 1 << 20
# What is sampled of a link at an edge. Those that many designs leave open are looked at whether they are known, by their channel.
OPEN = {"a": "a_corrupt", "d": "d_param"}
SAMPLED = ("a_valid", "a_ready", "a_address", "a_size", "a_source", "d_valid", "d_ready", *OPEN.values())
# The range behind a name, and the index of an element of an array.
RANGE = re.compile(r"\[([0-9]+)(?::([0-9]+))?\]$")
INDEX = re.compile(r"\[([0-9]+)\]$")
# The most words of a name and its range that are looked at.
NAME_WORDS = 5
# What the digits of VHDL stand for that Verilog has not: a weak 0, a weak 1, and bits of which nothing is known.
DIGITS = "01xzlhuw-"
PLAIN = str.maketrans("lhuw-", "01xxx")


class NoDump(Exception):
    """Why a text is no dump."""


class Slice(typing.NamedTuple):
    """Some bits of a vector whose lowest bit is 0: its identifier and its width, and the highest and the lowest of these bits."""
    identifier: str
    width: int
    high: int
    low: int


def words_of(file):
    """The words of a text. The last one that no blank ends is left out, since it may be cut."""
    rest = ""
    while block := file.read(BLOCK):
        text = rest + block
        words = text.split()
        rest = words.pop() if words and not text[-1].isspace() else ""
        if len(rest) > LONGEST_WORD:
            raise NoDump("not a dump")
        yield from words


def section(words):
    """The words up to $end, or None if the text ends before."""
    found = []
    for word in words:
        if word == "$end":
            return found
        found.append(word)
    return None


class Variables:
    """What a header declares: for each name with its scopes the identifier and the width, in the order of the dump. If a name stands twice
    with one identifier, it is as wide as its widest declaration. A net that is declared bit by bit has the identifiers of its bits, the
    highest first. Names that two signals have are in `twice`: tlvcd refuses them. `arrays` has the elements of arrays that are declared as
    one signal each, the highest index first. `vectors` are the names of those whose bits are declared from the highest down to 0, and `scoped`
    has the names of each scope."""

    def __init__(self):
        self.named, self.twice, self.scopes, self.arrays, self.vectors, self.scoped = {}, set(), [], {}, set(), {}
        # the identifiers of each index of the names that are declared bit by bit, and the names of other signals
        self.bits, self.whole = {}, set()

    def declare(self, fields):
        """Takes a $var: its type, width, identifier and name. A range behind the name is not part of it, if it has so many bits."""
        if len(fields) < 4 or not fields[1].isdecimal():
            raise NoDump("not a dump")
        text, net = "".join(fields[3:3 + NAME_WORDS]), (fields[2], int(fields[1]))
        span = RANGE.search(text)
        if span and abs(int(span[1]) - int(span[2] or span[1])) != net[1] - 1:
            span = None
        name = ".".join([*self.scopes, text[:span.start()] if span else text])
        if net[1] == 1 and span:
            self.bits.setdefault(name, {}).setdefault(int(span[1]), set()).add(net[0])
        else:
            self.whole.add(name)
        self.scoped.setdefault(".".join(self.scopes), []).append(name)
        if span and span[2] == "0":
            self.vectors.add(name)
        identifier, bits = self.named.setdefault(name, net)
        if identifier != net[0]:
            self.twice.add(name)
        elif bits < net[1]:
            self.named[name] = net

    def join_bits(self):
        """Puts nets together that are declared bit by bit, each index once and without a gap."""
        for name, bits in self.bits.items():
            indices = range(max(bits), min(bits) - 1, -1)
            if len(bits) == 1:
                continue
            if name in self.whole or len(indices) != len(bits) or any(len(identifiers) > 1 for identifiers in bits.values()):
                self.twice.add(name)
            else:
                self.twice.discard(name)
                self.named[name] = tuple(next(iter(bits[index])) for index in indices), len(bits)

    def find_arrays(self):
        """Finds the arrays whose elements are declared one by one, without a gap."""
        found = {}
        for name in self.named.keys() - self.twice:
            if index := INDEX.search(name):
                found.setdefault(name[:index.start()], {})[int(index[1])] = name
        self.arrays = {name: tuple(elements[index] for index in sorted(elements, reverse=True)) for name, elements in found.items()
                       if len(elements) == max(elements) - min(elements) + 1 > 1 and name not in self.named}

    def net_of(self, name):
        """The identifier and the width of a signal, or the identifiers of an array and the width of all its elements."""
        if name in self.named:
            return self.named[name]
        elements = [self.named[element] for element in self.arrays[name]]
        return tuple(identifier for identifier, _ in elements), sum(bits for _, bits in elements)

    def take(self, keyword, fields):
        """Takes a section of the header."""
        if keyword == "$scope" and len(fields) == 2:
            self.scopes.append(fields[1])
        elif keyword == "$upscope" and self.scopes:
            self.scopes.pop()
        elif keyword == "$var":
            self.declare(fields)
        elif keyword in ("$scope", "$upscope") or not keyword.startswith("$"):
            raise NoDump("not a dump")


def variables_of(words):
    """Reads the header."""
    variables = Variables()
    for word in words:
        if not word.startswith("$"):
            raise NoDump("not a dump")
        fields = section(words)
        if fields is None:
            break
        if word == "$enddefinitions":
            variables.join_bits()
            variables.find_arrays()
            return variables
        variables.take(word, fields)
    raise NoDump("cut in its header")


def time_of(word, before):
    """The time that a word names, which is not below the one before."""
    if not word[1:].isdecimal():
        raise NoDump(f"no time: {word}")
    time = int(word[1:])
    if time < before:
        raise NoDump(f"time falls: {word}")
    return time


def steps_of(words, tracked):
    """Each time with what changes then: the new values of the tracked identifiers. Of several values at one time the last one counts."""
    changed, time = {}, 0
    for word in words:
        mark, rest = word[0].lower(), word[1:]
        if mark == "#":
            moment = time_of(word, time)
            if moment > time:
                yield time, changed
                changed, time = {}, moment
        elif mark in DIGITS:
            if rest in tracked:
                changed[rest] = mark.translate(PLAIN)
        elif mark in "brs":
            identifier = next(words, None)
            if mark == "b" and identifier in tracked:
                changed[identifier] = rest.lower().translate(PLAIN)
        elif word == "$comment":
            section(words)
        elif mark != "$":
            raise NoDump(f"no change of a value: {word[:40]}")
    yield time, changed


def parts_of(identifier):
    """The identifiers of a signal: one, or those of its bits."""
    if isinstance(identifier, Slice):
        return (identifier.identifier,)
    return identifier if isinstance(identifier, tuple) else (identifier,)


def value_of(identifier, now):
    """The digits of a signal, or None if some are not told. Of a bit's identifier the lowest digit counts."""
    if isinstance(identifier, Slice):
        digits = now.get(identifier.identifier)
        if digits is None:
            return None
        # the digits that a dump leaves out are 0, or as unknown as the first
        digits = digits.rjust(identifier.width, "0" if digits[0] == "1" else digits[0])
        return digits[identifier.width - 1 - identifier.high:identifier.width - identifier.low]
    parts = [now.get(part) for part in parts_of(identifier)]
    if None in parts:
        return None
    return parts[0] if len(parts) == 1 else "".join(part[-1] for part in parts)


def number_of(bits):
    """The number that bits spell, or None if one is unknown."""
    return int(bits, 2) if bits and not set(bits) - {"0", "1"} else None


class Crossed:
    """What crossed on channel A of a link: the greatest source, and the first and the last byte of all requests."""

    def __init__(self):
        self.source = self.low = self.high = None

    def add(self, source, first, last):
        self.source = max(source, source if self.source is None else self.source)
        self.low = min(first, first if self.low is None else self.low)
        self.high = max(last, last if self.high is None else self.high)

    def join(self, other):
        """Adds what another one has seen."""
        if other.source is not None:
            self.add(other.source, other.low, other.high)


class Rises:
    """The rising edges of a clock: how many, the times of the first two, and a digest of all."""

    def __init__(self):
        self.count, self.first, self.digest = 0, [], 0

    def add(self, time):
        self.count += 1
        self.digest = hash((self.digest, time))
        if self.count <= 2:
            self.first.append(time)

    def period(self):
        """How far the first two are from each other, or None."""
        return self.first[1] - self.first[0] if self.count > 1 else None

    def is_same(self, other):
        return (self.count, self.digest) == (other.count, other.digest)


class Watch:
    """Follows the changes, and keeps what crossed at each rising edge of a clock. Which value of a reset is active is known at the end alone,
    so what crosses is kept for each of its values."""

    def __init__(self, links, pairs):
        """Each link has the identifiers of its signals by name, and the pairs of a clock and a reset that it may have; either may be None."""
        self.links, self.pairs = links, pairs
        self.at = {}
        for place, those in enumerate(pairs):
            for clock, reset in those:
                if clock is not None:
                    self.at.setdefault(clock, []).append((place, reset))
        self.rises = {clock: Rises() for clock in self.at}
        self.resets = {reset for those in pairs for _, reset in those} - {None}
        # `unknown` has the signals that were unknown at a beat, each with the place of its link
        self.seen, self.last, self.unknown = {}, {}, set()

    def tracked(self):
        """The identifiers whose values are needed."""
        identifiers = {*self.at, *self.resets, *(link.get(signal) for link in self.links for signal in SAMPLED)} - {None}
        return {part for identifier in identifiers for part in parts_of(identifier)}

    def follow(self, steps):
        """Reads to the end. An edge samples what stood before its time, as tlvcd does."""
        now = {}
        for time, changed in steps:
            for clock, links in self.at.items():
                if changed.get(clock) == "1" and now.get(clock) == "0":
                    self.rises[clock].add(time)
                    for place, reset in links:
                        self.sample(place, (clock, reset), now)
            now.update(changed)
            for reset in self.resets & changed.keys():
                if changed[reset] in ("0", "1"):
                    self.last[reset] = changed[reset]

    def sample(self, place, pair, now):
        """Keeps the request of a link, if a beat of channel A crosses. A design without a source has source 0."""
        link = self.links[place]
        crossing = {channel for channel in OPEN if all(f"{channel}_{signal}" in link and value_of(link[f"{channel}_{signal}"], now) == "1"
                                                       for signal in ("valid", "ready"))}
        for signal in (OPEN[channel] for channel in crossing if OPEN[channel] in link):
            if number_of(value_of(link[signal], now)) is None:
                self.unknown.add((place, signal))
        if "a" not in crossing:
            return
        address, size, source = (number_of(value_of(link.get(signal), now)) for signal in ("a_address", "a_size", "a_source"))
        source = source if "a_source" in link else 0
        if None not in (address, size, source):
            crossed = self.seen.setdefault((place, pair, now.get(pair[1])), Crossed())
            crossed.add(source, address, address | (1 << min(size, 8)) - 1)

    def crossed(self, place, pair, active):
        """What crossed at a link by a clock while the reset did not have its active value."""
        total = Crossed()
        for (where, which, level), crossed in self.seen.items():
            if (where, which) == (place, pair) and (active is None or level != active):
                total.join(crossed)
        return total
