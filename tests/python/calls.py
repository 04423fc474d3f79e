#!/usr/bin/env python3
"""Makes every call of the package with right and wrong arguments; what is expected was worked out by hand.

calls.py [--no-memory] HEADER: HEADER is include/tlx.h, whose faults are compared. With --no-memory nothing is asked about memory.
"""

import array
import copy
import ctypes
import gc
import os
import pickle
import random
import re
import resource
import sys
import tempfile
import threading

import tlx
from harness import run_test
from tally import Tally

SYSTEM = """
slots = 1
port = [{kind = "ram", base = 0x1000, length = 64, reset = "0011223344"}, {kind = "ram", base = 0x2000, length = 64}]
master = [{sources = 2, ops = []}]
"""
# One with images.
IMAGES = """
port = [{kind = "rom", base = 0x1000, length = 8, reset = "aa", image = "boot.bin"}, {kind = "ram", base = 0x2000, length = 4},
        {kind = "device", base = 0x3000, length = 2, image = "none"}]
master = [{sources = 1}]
"""
# A memory that keeps its bytes at a reset, and registers that hold again what `reset` says.
RESETS = """
resets = true
port = [{kind = "ram", base = 0x1000, length = 64, reset = "0011223344556677"},
        {kind = "regs", base = 0x2000, length = 16, reset = "a0a1a2a3", on_reset = "load"}]
master = [{sources = 2}]
"""
# A system file that is no script: a memory that nobody cleared, registers that are cleared by ones, a memory that is seen at two ranges with a byte
# that changes by itself, a device, and a ROM with a table of sizes that the second master does not reach.
FILE = """
resets = true
port = [{kind = "ram", base = 0x1000, length = 64, unknown = true, reset = "a0a1a2"},
        {kind = "w1c", base = 0x2000, length = 8, reset = "ff0f"},
        {kind = "ram", ranges = [[0x3000, 16], [0x4004, 16]], mirror = true, reset = "c0c1c2c3", volatile = [[3, 1]]},
        {kind = "device", base = 0x5000, length = 8},
        {kind = "rom", base = 0x6000, length = 8, reset = "0102", sizes = {get = [0, 1]}}]
master = [{sources = 2}, {sources = 1, reach = [0, 1, 2, 3]}]
"""
HUGE = 1 << 600
GET = tlx.Request.get(0x1000, 2, 1)


def get_beat(**others):
    """A lawful first beat: a get of master 0."""
    return tlx.Beat.ask("m0", tlx.Ask.GET, 2, 1, 0x1000, 0x0F, **others)


def changed(value, **others):
    """A copy of a request or a beat with other fields."""
    made = copy.copy(value)
    for name, other in others.items():
        setattr(made, name, other)
    return made


def check_faults(tally, header):
    """The numbers of the header's faults are those of the package, which has the words of each."""
    with open(header, encoding="utf-8") as file:
        block = re.search(r"enum tlx_fault \{(.*?)\};", file.read(), re.S)[1]
    numbers = {name: int(number) for name, number in re.findall(r"TLX_(\w+) = (\d+)", block)}
    tally.tell("the faults of the header", numbers == {fault.name: fault.value for fault in tlx.Fault})
    tally.tell("the words of a fault", tlx.Fault.WRONG_MASK.words == "wrong mask")
    tally.tell("words of each fault", all(fault.words and fault.words != "unknown fault" for fault in tlx.Fault))


def check_systems(tally):
    raises = tally.raises
    for name, text in {"none": None, "a number": 1, "a list": [SYSTEM], "a bytearray": bytearray(b"")}.items():
        raises(f"a system of {name}", TypeError, tlx.System, text)
    raises("a system of nothing", TypeError, tlx.System)
    raises("a system of half a character", UnicodeEncodeError, tlx.System, "\ud800")
    raises("a file that there is not", FileNotFoundError, tlx.System.read, "/no/such/file")
    for text, fault, line in (("", "MISSING", "system: missing master"), (b"\xff", "NOT_TOML", "system: not TOML"),
                              ("port = 1", "WRONG_TYPE", "system: wrong type of port"),
                              ("#" * 1048577, "TOO_LONG", "system: longer than 1048576 bytes")):
        found = raises(f"a system with {fault}", tlx.InvalidSystem, tlx.System, text)
        tally.tell(f"its line {line}", str(found) == line and found.fault is tlx.Fault[fault] and isinstance(found, ValueError))
    overlap = 'port = [{kind = "ram", base = 0, length = 2}, {kind = "ram", base = 1, length = 1}]\nmaster = [{sources = 1}]'
    found = raises("ports that overlap", tlx.InvalidSystem, tlx.System, overlap)
    tally.tell("their line", str(found) == "system: ports 0 and 1 overlap" and found.fault is tlx.Fault.BAD_PORTS)
    tally.tell("a system of bytes", tlx.System(SYSTEM.encode()).text == tlx.System(SYSTEM).text)
    check_sharing(tally, tlx.System(SYSTEM))
    again = pickle.loads(pickle.dumps(tlx.System(IMAGES, {0: b"\x11", 2: b""})))
    tally.tell("a system that was pickled", again.images == {0: b"\x11", 2: b""} and tlx.Model(again).ports == 4)
    raises("a model of a text", TypeError, tlx.Model, SYSTEM)
    raises("a model of none", TypeError, tlx.Model, None)


def check_sharing(tally, system):
    """Two models and a judge of one system, none of which changes another."""
    models, judge = [tlx.Model(system), tlx.Model(system)], tlx.Judge(system, "masters")
    models[0].serve(0, tlx.Request.put(0x1000, b"\x77"))
    judge.step(get_beat())
    third = tlx.Model(system)
    tally.tell("models of one system", [model.peek(0x1000) for model in (*models, third)] == [0x77, 0, 0])
    del system, models[1]
    tally.tell("a model after its system", models[0].serve(0, GET).place == 1 and judge.requests == 1)


def check_model(tally):
    model = tlx.Model(tlx.System(SYSTEM))
    tally.tell("masters and ports", (model.masters, model.ports) == (1, 3))
    tally.tell("a get", model.serve(0, GET) == tlx.Answer(tlx.Reply.ACCESS_ACK_DATA, 2, 1, False, b"\x00\x11\x22\x33", 0, 0, 0b1111, False))
    half = tlx.Request(tlx.Ask.PUT_PARTIAL, 0x1000, 2, data=b"\xaa\xbb\xcc\xdd", mask=0b1010)
    tally.tell("a partial put", model.serve(0, half) == tlx.Answer(tlx.Reply.ACCESS_ACK, 2, 0, False, b"", 0, 1))
    tally.tell("bytes after it", [model.peek(0x1000 + k) for k in range(5)] == [0, 0xBB, 0x22, 0xDD, 0x44])
    model.serve(0, changed(half, mask=None))
    tally.tell("a partial put of all", model.peek(0x1000) == 0xAA)
    tally.tell("a put", model.serve(0, tlx.Request.put(0x2000, b"\x5a")).port == 1 and model.peek(0x2000) == 0x5A)
    denied = tlx.Answer(tlx.Reply.ACCESS_ACK_DATA, 8, 0, True, bytes(256), 2, 0, (1 << 256) - 1)
    tally.tell("a denied get of 256 bytes", model.serve(0, tlx.Request.get(0x1000, 8)) == denied)
    swap = tlx.Request(tlx.Ask.LOGICAL, 0x2000, 2, 0, b"abcd", 3)
    tally.tell("a swap", model.serve(0, swap).data == b"\x5a\0\0\0" and model.serve(0, tlx.Request.get(0x2000, 2)).data == b"abcd")
    tally.tell("a put of 256 bytes", model.serve(0, tlx.Request.put(0x2000, bytes(256))).denied)
    check_refused_requests(tally, model)
    with model as same:
        tally.tell("a model in a with statement", same is model)
    tally.tell("a closed model", (model.masters, model.ports) == (0, 0))
    tally.raises("a request of a closed model", ValueError, model.serve, 0, GET)
    for name, call in (("a byte", lambda: model.peek(0x1000)), ("a poke", lambda: model.poke(0x1000, 1)), ("a reset", model.reset)):
        tally.raises(f"{name} of a closed model", ValueError, call)
    model.close()


def check_refused_requests(tally, model):
    """What a model refuses, and then serves the next request as if nothing had been asked."""
    before = model.serve(0, GET).place
    for name, fault, words in (("no such master", "NO_MASTER", (1, GET)), ("no such source", "NO_SOURCE", (0, changed(GET, source=2))),
                               ("a cached operation", "NO_OPERATION", (0, changed(GET, opcode=6))),
                               ("no such parameter", "NO_OPERATION", (0, changed(GET, opcode=2, param=5, data=bytes(4)))),
                               ("a size too large", "SIZE", (0, changed(GET, size=9)))):
        tally.tell(f"the fault of {name}", tally.raises(name, tlx.Refused, model.serve, *words).fault is tlx.Fault[fault])
    tally.tell("a byte that no slave has", tally.raises("no byte", tlx.Refused, model.peek, 0x9000).fault is tlx.Fault.NO_BYTE)
    tally.tell("a poke where no slave is", tally.raises("no byte there", tlx.Refused, model.poke, 0x9000, 1).fault is tlx.Fault.NO_BYTE)
    tally.tell("a reset without resets", tally.raises("no resets", tlx.Refused, model.reset).fault is tlx.Fault.NO_LINK)
    put = tlx.Request.put(0x1000, b"abcd")
    for name, kind, words in (
            ("a master by its name", TypeError, ("0", GET)), ("master -1", OverflowError, (-1, GET)), ("master 2^70", OverflowError, (HUGE, GET)),
            ("half a master", TypeError, (0.5, GET)), ("no request", TypeError, (0, None)), ("a beat", TypeError, (0, get_beat())),
            ("size 256", OverflowError, (0, changed(GET, size=256))), ("size -1", OverflowError, (0, changed(GET, size=-1))),
            ("no size", TypeError, (0, changed(GET, size=None))), ("opcode 256", OverflowError, (0, changed(GET, opcode=256))),
            ("source 65536", OverflowError, (0, changed(GET, source=65536))), ("address 2^64", OverflowError, (0, changed(GET, address=1 << 64))),
            ("address -1", OverflowError, (0, changed(GET, address=-1))), ("param 256", OverflowError, (0, changed(GET, param=256))),
            ("data of a get", ValueError, (0, changed(GET, data=b"a"))), ("data too short", ValueError, (0, changed(put, data=b"abc"))),
            ("data too long", ValueError, (0, changed(put, data=b"abcde"))), ("much data", ValueError, (0, changed(put, data=bytes(100000)))),
            ("data of text", TypeError, (0, changed(put, data="abcd"))), ("no data", TypeError, (0, changed(put, data=None))),
            ("a mask too wide", OverflowError, (0, changed(put, opcode=1, mask=16))), ("a mask of -1", OverflowError, (0, changed(put, opcode=1, mask=-1))),
            ("a mask of text", TypeError, (0, changed(put, opcode=1, mask="1111")))):
        tally.raises(name, kind, model.serve, *words)
    for address, kind in ((-1, OverflowError), (1 << 64, OverflowError), ("0x1000", TypeError), (None, TypeError)):
        tally.raises(f"the byte at {address}", kind, model.peek, address)
        tally.raises(f"a poke at {address}", kind, model.poke, address, 0)
    for byte, kind in ((-1, OverflowError), (256, OverflowError), ("0", TypeError), (b"0", TypeError), (0.5, TypeError)):
        tally.raises(f"a poke of {byte}", kind, model.poke, 0x1000, byte)
    tally.tell("the next request", model.serve(0, GET).place == before + 1)
    for data in (b"", b"abc"):
        tally.raises(f"a put of {len(data)} bytes", ValueError, tlx.Request.put, 0, data)


def answer_of(model, *words, master=0):
    """What a request is answered: the port, the place, the bytes with None for each that is unknown, and `denied` or `device`."""
    answer = model.serve(master, tlx.Request(*words))
    data = [byte if answer.known >> k & 1 else None for k, byte in enumerate(answer.data)]
    is_well = all(byte is not None or answer.data[k] == 0 for k, byte in enumerate(data)) and answer.known >> len(data) == 0
    return answer.port, answer.place, data, *["denied"] * answer.denied, *["device"] * answer.device, *["wrong"] * (not is_well)


def bytes_of(model, address, count):
    return [model.peek(at) for at in range(address, address + count)]


def check_described(tally):
    """A model of bytes that are known or not, and of a device."""
    model, ask = tlx.Model(tlx.System(FILE)), tlx.Ask
    for name, words, wanted in (
            ("bytes that nobody cleared", (ask.GET, 0x1000, 2), (0, 0, [0xA0, 0xA1, 0xA2, None])),
            ("a put of some", (ask.PUT_PARTIAL, 0x1004, 2, 0, b"abcd", 0, 0b0101), (0, 1, [])),
            ("a sum over unknown bytes", (ask.ARITHMETIC, 0x1004, 2, 0, b"\1\0\0\0", 4), (0, 2, [97, None, 99, None])),
            ("what it leaves", (ask.GET, 0x1004, 2), (0, 3, [None] * 4)),
            ("a swap", (ask.LOGICAL, 0x1004, 2, 0, b"abcd", 3), (0, 4, [None] * 4)), ("what a swap leaves", (ask.GET, 0x1004, 2), (0, 5, [*b"abcd"])),
            ("a put of ones", (ask.PUT_FULL, 0x2000, 2, 0, b"\x0f\x01\xff\0"), (1, 0, [])),
            ("what they clear", (ask.GET, 0x2000, 2), (1, 1, [0xF0, 0x0E, 0, 0])),
            ("a second range", (ask.GET, 0x4004, 2), (2, 0, [0xC0, 0xC1, 0xC2, None])), ("a put there", (ask.PUT_FULL, 0x4005, 0, 0, b"a"), (2, 1, [])),
            ("the first range", (ask.GET, 0x3000, 1), (2, 2, [0xC0, 97])), ("a device", (ask.GET, 0x5000, 1), (3, 0, [None, None], "device")),
            ("a put to a device", (ask.PUT_FULL, 0x5000, 0, 0, b"a"), (3, 1, [], "device")), ("a ROM", (ask.GET, 0x6000, 1), (4, 0, [1, 2])),
            ("a size that it has not", (ask.GET, 0x6000, 2), (4, 1, [0] * 4, "denied")), ("no port", (ask.GET, 0x9000, 0), (5, 0, [0], "denied"))):
        found = answer_of(model, *words)
        tally.tell(name, found == wanted, f"{found}, and not {wanted}")
    tally.tell("a port that is not reached", answer_of(model, ask.GET, 0x6000, 0, master=1) == (5, 1, [0], "denied"))
    check_pokes(tally, model)
    tally.tell("the next request", answer_of(model, ask.GET, 0x2000, 2) == (1, 2, [0xFF, 0x0F, 0, 0]))


def check_pokes(tally, model):
    """Bytes that are put without a request, and a reset, which loads registers and keeps a memory."""
    for address, byte in ((0x1003, 7), (0x1000, None), (0x6001, 0xEE), (0x4004, 0xDD), (0x3003, 1), (0x2000, 0x3C)):
        model.poke(address, byte)
    tally.tell("bytes that were put", [bytes_of(model, *where) for where in ((0x1000, 4), (0x6000, 2), (0x3000, 4), (0x2000, 2))] == [
        [None, 0xA1, 0xA2, 7], [1, 0xEE], [0xDD, 97, 0xC2, None], [0x3C, 0x0E]])
    for name, call in (("a look", lambda: model.peek(0x5000)), ("a byte", lambda: model.poke(0x5000, 1)), ("no byte", lambda: model.poke(0x5007, None))):
        tally.tell(f"{name} at a device", tally.raises(f"{name}, refused", tlx.Refused, call).fault is tlx.Fault.DEVICE)
    tally.tell("a reset", model.reset() is None)
    tally.tell("what it loads and keeps", (bytes_of(model, 0x2000, 2), bytes_of(model, 0x1000, 4)) == ([0xFF, 0x0F], [None, 0xA1, 0xA2, 7]))


def check_judge(tally):
    judge = tlx.Judge(tlx.System(SYSTEM), links="masters")
    check_refused_beats(tally, judge)
    judge.step(get_beat())
    tally.tell("a request", (judge.requests, judge.answered, judge.in_flight) == (1, 0, 1))
    found = tally.raises("a source in flight", tlx.Unlawful, judge.step, get_beat(line=3, time=12))
    tally.tell("what it says", (found.fault, found.line, found.time, found.text, str(found), found.index) == (
        tlx.Fault.SOURCE_IN_FLIGHT, 3, 12, *["unlawful: line 3, time 12, m0 A: source in flight"] * 2, 0))
    tally.tell("a verdict that was pickled", pickle.loads(pickle.dumps(found)).text == found.text)
    left = tally.raises("an end with a request in flight", tlx.Incomplete, judge.end)
    line = "incomplete: 1 requests without reply, the first: line 0, time 0, m0 s1 get 0x1000 2"
    tally.tell("what it says of the end", (left.requests, left.text, str(left), pickle.loads(pickle.dumps(left)).text) == (1, line, line, line))
    reply = tlx.Beat.reply("m0", tlx.Reply.ACCESS_ACK_DATA, 2, 1, 0x33221100)
    found = tally.raises("a wrong reply", tlx.Unlawful, judge.step, changed(reply, data=0, line=(1 << 64) - 1))
    tally.tell("its text", found.text == "unlawful: line 18446744073709551615, time 0, m0 D: wrong reply: expected AccessAckData 00112233, "
               "captured AccessAckData 00000000")
    unknown = tally.raises("an unknown lane", tlx.Unlawful, judge.step, changed(reply, known=0xFE))
    tally.tell("its fault", unknown.fault is tlx.Fault.UNKNOWN_DATA)
    judge.step(changed(reply, known=0x0F))
    tally.tell("the right reply after them", (judge.requests, judge.answered, judge.in_flight) == (1, 1, 0))
    tally.tell("an end with nothing left", judge.end() is None)
    tally.raises("an order by its number", TypeError, tlx.Judge, tlx.System(SYSTEM), "both", 0)
    tally.raises("no links", TypeError, tlx.Judge, tlx.System(SYSTEM), None)
    tally.raises("other links", ValueError, tlx.Judge, tlx.System(SYSTEM), "all")
    tally.raises("another order", ValueError, tlx.Judge, tlx.System(SYSTEM), "both", "random")
    tally.raises("another order of the ports' side", ValueError, tlx.Judge, tlx.System(SYSTEM), "both", "any/random")
    tally.raises("an order and a slash", ValueError, tlx.Judge, tlx.System(SYSTEM), "both", "any/")
    tally.raises("a judge of a text", TypeError, tlx.Judge, SYSTEM)
    tally.raises("a copied judge", TypeError, copy.copy, judge)
    tally.raises("a pickled model", TypeError, pickle.dumps, tlx.Model(tlx.System(SYSTEM)))
    with judge as same:
        tally.tell("a judge in a with statement", same is judge)
    tally.tell("a closed judge", (judge.requests, judge.answered, judge.in_flight) == (0, 0, 0))
    tally.raises("a beat of a closed judge", ValueError, judge.step, get_beat())
    tally.raises("beats of a closed judge", ValueError, judge.steps, tlx.Beats([get_beat()]))
    tally.raises("the end of a closed judge", ValueError, judge.end)


def check_refused_beats(tally, judge):
    """What a judge refuses, and then is as it was."""
    for name, fault, others in (("a link that there is not", "NO_LINK", {"number": 1}), ("a side that is not watched", "NO_LINK", {"side": 1}),
                                ("a side that there is not", "BAD_ARGUMENT", {"side": 2}),
                                ("a channel that there is not", "BAD_ARGUMENT", {"channel": 2}),
                                ("a flag that is none", "BAD_ARGUMENT", {"channel": 1, "denied": 2})):
        found = tally.raises(name, tlx.Refused, judge.step, changed(get_beat(), **others))
        tally.tell(f"the fault of {name}", found.fault is tlx.Fault[fault])
    for field, bits in (("line", 64), ("time", 64), ("number", 64), ("address", 64), ("source", 16), ("side", 8), ("channel", 8), ("opcode", 8),
                        ("param", 8), ("size", 8), ("mask", 64), ("denied", 8), ("corrupt", 8), ("known", 64), ("data", 512)):
        for value, kind in ((1 << bits, OverflowError), (-1, OverflowError), (HUGE, OverflowError), ("1", TypeError), (None, TypeError), (1.0, TypeError)):
            beat = changed(get_beat(), **{field: value})
            found = tally.raises(f"a beat with {field} {value!r}", kind, judge.step, beat)
            tally.tell(f"the name of {field} in it", field in str(found))
            tally.raises(f"an array with {field} {value!r}", kind, tlx.Beats().append, beat)
    for name, beat in (("none", None), ("a tuple", (1, 2)), ("a class", tlx.Beat), ("a text", "m0")):
        tally.raises(f"a step by {name}", TypeError, judge.step, beat)
        tally.raises(f"an array of {name}", TypeError, tlx.Beats, [beat])
    for link in ("x0", "m", "m-1", "0", "M0", ""):
        tally.raises(f"link {link!r}", ValueError, tlx.Beat.reply, link, 0, 0, 0)
    tally.raises("a link by its number", TypeError, tlx.link_of, 0)
    tally.tell("nothing was judged", (judge.requests, judge.answered) == (0, 0))


def gets(judge, address, data, known=0x0F):
    """A get of 4 bytes is answered so."""
    judge.step(tlx.Beat.ask("m0", tlx.Ask.GET, 2, 0, address, 0x0F))
    judge.step(tlx.Beat.reply("m0", tlx.Reply.ACCESS_ACK_DATA, 2, 0, data, known=known))


def check_resets(tally):
    judge = tlx.Judge(tlx.System(RESETS), "masters")
    acked = tlx.Beat.reply("m0", tlx.Reply.ACCESS_ACK, 2, 0)
    for address in (0x1008, 0x2000):
        judge.steps(tlx.Beats([tlx.Beat.ask("m0", tlx.Ask.PUT_FULL, 2, 0, address, 0x0F, 0x04030201), acked]))
    # 8 bytes of 16 are given before the reset, of source 1, and source 0 waits for a reply
    judge.step(tlx.Beat.ask("m0", tlx.Ask.GET, 2, 0, 0x1010, 0x0F))
    judge.step(tlx.Beat.ask("m0", tlx.Ask.PUT_FULL, 4, 1, 0x1000, 0xFF, (1 << 64) - 1))
    tally.raises("an end before a reset", tlx.Incomplete, judge.end)
    tally.tell("a reset", judge.reset() is None and judge.end() is None)
    tally.tell("the counts after it", (judge.requests, judge.answered, judge.in_flight) == (3, 2, 1))
    late = tlx.Beat.reply("m0", tlx.Reply.ACCESS_ACK_DATA, 2, 0, 0)
    found = tally.raises("a reply to a request before it", tlx.Unlawful, judge.step, late)
    tally.tell("its fault is no request", found.fault is tlx.Fault.NO_REQUEST)
    gets(judge, 0x1000, 0, known=0)
    gets(judge, 0x1000, 0xDEADBEEF)
    gets(judge, 0x1008, 0x04030201)
    gets(judge, 0x2000, 0xA3A2A1A0)
    tally.raises("what registers held before it", tlx.Unlawful, gets, judge, 0x2000, 0x04030201)
    judge.reset()
    tally.tell("a second reset", (judge.requests, judge.answered, judge.in_flight) == (8, 6, 2) and judge.end() is None)
    judge.close()
    tally.raises("a reset of a closed judge", ValueError, judge.reset)
    never = tlx.Judge(tlx.System(SYSTEM), "masters")
    never.step(get_beat())
    found = tally.raises("a reset of a system without resets", tlx.Refused, never.reset)
    tally.tell("its fault, and the judge as it was", found.fault is tlx.Fault.NO_LINK and never.in_flight == 1)
    never.step(tlx.Beat.reply("m0", tlx.Reply.ACCESS_ACK_DATA, 2, 1, 0x33221100))


def check_images(tally):
    """Images by a mapping, by a function and from a folder; a get then reads their bytes."""
    raises = tally.raises
    named = tlx.System(IMAGES, lambda name: {"boot.bin": b"\x11\x22", "none": b""}[name])
    tally.tell("images by their names", named.images == {0: b"\x11\x22", 2: b""})
    with tempfile.TemporaryDirectory() as folder:
        path = os.path.join(folder, "system.toml")
        for name, content in (("system.toml", IMAGES.encode()), ("boot.bin", b"\x11\x22")):
            with open(os.path.join(folder, name), "wb") as file:
                file.write(content)
        raises("an image that is missing", FileNotFoundError, tlx.System.read, path)
        with open(os.path.join(folder, "none"), "wb"):
            pass
        read = tlx.System.read(path)
        tally.tell("images from the folder of a file", read.images == named.images and tlx.System.read(path, {0: b"", 2: b""}).images[0] == b"")
    for name, system in (("a function", named), ("a folder", read), ("a mapping", tlx.System(IMAGES, {0: b"\x11\x22", 2: b""}))):
        with tlx.Judge(system, "masters") as judge:
            judge.step(tlx.Beat.ask("m0", tlx.Ask.GET, 2, 0, 0x1000, 0x0F))
            found = raises(f"a wrong byte of an image by {name}", tlx.Unlawful, judge.step, tlx.Beat.reply("m0", 1, 2, 0, 0x11))
            tally.tell("its text", found.text.endswith("expected AccessAckData aa220000, captured AccessAckData 11000000"))
            judge.step(tlx.Beat.reply("m0", 1, 2, 0, 0x22AA))
    for images, fault, line in ((None, "IMAGE_UNREADABLE", "system: port 0: image can't be read"),
                                ({0: b""}, "IMAGE_UNREADABLE", "system: port 2: image can't be read"),
                                ({0: bytes(9), 2: b""}, "LONG_IMAGE", "system: port 0: image is longer than its range"),
                                ({1: b""}, "NO_IMAGE", "system: port 1: no image"), ({3: b""}, "NO_PORT", "system: no port 3")):
        found = raises(f"images {images}", tlx.InvalidSystem, tlx.System, IMAGES, images)
        tally.tell(f"its line {line}", str(found) == line and found.fault is tlx.Fault[fault])
    for images in (7, "boot.bin", {0: "text", 2: b""}, {"0": b""}, {0: None}, lambda name: None):
        raises(f"images that are {images!r}", TypeError, tlx.System, IMAGES, images)
    raises("an image of a port below 0", OverflowError, tlx.System, IMAGES, {-1: b""})
    long = "n" * 5000
    tally.tell("a file with a long name", tlx.System(IMAGES.replace("boot.bin", long), {long: b"", "none": b""}.get).images == {0: b"", 2: b""})
    for name, system in (("a function", named), ("a folder", read)):
        with tlx.Model(system) as model:
            tally.tell(f"a model with images by {name}", bytes_of(model, 0x1000, 3) == [0xAA, 0x22, 0])


def check_buses(tally):
    """A get of 8 bytes at 0x1008 and its reply, whose bytes are 08 to 0f, over buses of 4, 8 and 16 bytes."""
    port = 'port = [{kind = "ram", base = 0x1000, length = 64, reset = "000102030405060708090a0b0c0d0e0f"}]\nmaster = [{sources = 1}]'
    data = 0x0F0E0D0C0B0A0908
    for bus, mask, beats in ((4, 0xF, (data & 0xFFFFFFFF, data >> 32)), (8, 0xFF, (data,)), (16, 0xFF00, (data << 64,))):
        judge = tlx.Judge(tlx.System(f"bus = {bus}\n{port}"), "masters")
        ask = tlx.Beat.ask("m0", tlx.Ask.GET, 3, 0, 0x1008, mask)
        tally.raises(f"a lane past a bus of {bus} bytes", tlx.Unlawful, judge.step, changed(ask, mask=mask | 1 << bus))
        judge.step(ask)
        array = tlx.Beats(tlx.Beat.reply("m0", 1, 3, 0, part | 0xEE << 8 * bus, known=mask) for part in beats)
        tally.tell("the beats of the array", [beat.data & (1 << 8 * bus) - 1 for beat in array] == list(beats) and array[0].known == mask)
        judge.steps(array)
        tally.tell(f"a bus of {bus} bytes", (judge.requests, judge.answered, judge.in_flight) == (1, 1, 0))
    wide = tlx.Monitor(judge, {"m0": "m0_"})
    ask = {"opcode": 4, "param": 0, "size": 3, "source": 0, "address": 0x1008, "mask": 0xFF00, "data": "x" * 128, "corrupt": 0}
    reply = {"opcode": 1, "param": 0, "size": 3, "source": 0, "denied": 0, "corrupt": 0, "data": format(data, "064b") + "x" * 64}
    wide.sample(signals_of(m0_a=ask))
    wide.sample(signals_of(m0_d=reply))
    tally.tell("signals of 128 bits", judge.answered == 2)
    wide.sample(signals_of(m0_a=ask))
    found = tally.raises("a lane of 128 bits that is unknown", tlx.Unlawful, wide.sample, signals_of(m0_d=reply | {"data": "x" + reply["data"][1:]}))
    tally.tell("its fault is unknown data", found.fault is tlx.Fault.UNKNOWN_DATA)


def check_cycles(tally, system):
    """The beats of a cycle, the last to cross first, with both sides watched."""
    got = tlx.Beat.reply("m0", tlx.Reply.ACCESS_ACK_DATA, 2, 1, 0x33221100, line=2, time=5)
    cycle = [got, changed(got, side=1), changed(get_beat(), side=1), get_beat()]
    with tlx.Judge(system) as judge:
        judge.cycle(cycle)
        judge.cycle(iter(cycle))
        judge.cycle([])
        tally.tell("cycles in any order", (judge.requests, judge.answered) == (2, 2))
        found = tally.raises("an unlawful beat of a cycle", tlx.Unlawful, judge.cycle, [changed(got, data=0), *cycle[1:]])
        tally.tell("its place in the cycle", (found.index, found.fault, judge.in_flight) == (0, tlx.Fault.NOT_GIVEN, 1))
        found = tally.raises("another side in a cycle", tlx.Refused, judge.cycle, [*cycle[:3], changed(got, side=2)])
        tally.tell("its place, before any is judged", (found.index, found.fault, judge.requests) == (3, tlx.Fault.BAD_ARGUMENT, 3))
        tally.raises("a cycle of a text", TypeError, judge.cycle, "a")
    tally.raises("a cycle of a closed judge", ValueError, judge.cycle, cycle)
    check_links_of_cycles(tally)


def check_links_of_cycles(tally):
    """Two links of one turn: that of the lower number is first, so master 0 gets the bytes from before what master 1 puts."""
    system = tlx.System("""
port = [{kind = "ram", base = 0x1000, length = 64, reset = "00112233"}, {kind = "ram", base = 0x2000, length = 64}]
master = [{sources = 1}, {sources = 1}]""")
    asks = [tlx.Beat.ask("m1", tlx.Ask.PUT_FULL, 2, 0, 0x1000, 0x0F, 0x04030201), tlx.Beat.ask("m0", tlx.Ask.GET, 2, 0, 0x1000, 0x0F)]
    replies = [tlx.Beat.reply("m1", tlx.Reply.ACCESS_ACK, 2, 0), tlx.Beat.reply("m0", tlx.Reply.ACCESS_ACK_DATA, 2, 0, 0x33221100)]
    for order in ("accept", "reply"):
        judge = tlx.Judge(system, "masters", order)
        judge.cycle(asks)
        judge.cycle(replies)
        tally.tell(f"a get and a put of one cycle by {order}", (judge.requests, judge.answered) == (2, 2))
        judge = tlx.Judge(system, "masters", order)
        judge.cycle(asks)
        found = tally.raises(f"the bytes from after it by {order}", tlx.Unlawful, judge.cycle, [replies[0], changed(replies[1], data=0x04030201)])
        tally.tell(f"its place by {order}", (found.index, found.fault, judge.answered) == (1, tlx.Fault.WRONG_REPLY, 0))
    puts = [tlx.Beat.ask(f"p{port}", tlx.Ask.PUT_FULL, 2, 0, 0x1000 * (port + 1), 0x0F, 1) for port in (1, 0)]
    judge = tlx.Judge(system, "ports")
    found = tally.raises("one source at two ports", tlx.Unlawful, judge.cycle, puts)
    tally.tell("the second of them", (found.index, found.fault, judge.requests) == (0, tlx.Fault.SOURCE_IN_FLIGHT, 1))


def check_arrays(tally):
    reply = tlx.Beat.reply("m0", tlx.Reply.ACCESS_ACK_DATA, 2, 1, 0x33221100, line=2, time=5)
    pair, system = [get_beat(), reply], tlx.System(SYSTEM)
    beats = tlx.Beats(pair * 100000)
    tally.tell("an array", len(beats) == 200000 and list(tlx.Beats(pair)) == pair and beats[-1] == reply and len(beats.memory) == 128 * len(beats))
    tally.raises("no such place", IndexError, beats.__getitem__, 200000)
    tally.raises("a place by its name", TypeError, beats.__getitem__, "0")
    for name, given in (("Beats", beats), ("bytes", bytes(beats.memory)), ("a bytearray", beats.memory), ("a memoryview", memoryview(beats.memory)),
                        ("an array of numbers", array.array("Q", bytes(beats.memory)))):
        judge = tlx.Judge(system, "masters")
        judge.steps(given)
        tally.tell(f"{name}, judged", (judge.requests, judge.answered) == (100000, 100000))
    judge = tlx.Judge(system, "masters")
    found = tally.raises("an unlawful beat of an array", tlx.Unlawful, judge.steps, tlx.Beats([*pair * 70000, reply, *pair]))
    tally.tell("its place", (found.index, found.line, found.time, found.fault, judge.answered) == (140000, 2, 5, tlx.Fault.NO_REQUEST, 70000))
    found = tally.raises("another link in an array", tlx.Refused, judge.steps, tlx.Beats([*pair, changed(reply, number=4)]))
    tally.tell("its place, too", (found.index, found.fault) == (2, tlx.Fault.NO_LINK))
    for empty in (tlx.Beats(), b"", bytearray(), memoryview(b"")):
        judge.steps(empty)
    tally.tell("arrays of nothing", judge.answered == 70001)
    for name, kind, given in (("none", TypeError, None), ("a list", TypeError, pair), ("a text", TypeError, "a" * 128), ("a number", TypeError, 128),
                              ("a byte too few", ValueError, bytes(127)), ("every other byte", ValueError, memoryview(bytes(256))[::2])):
        tally.raises(f"an array of {name}", kind, judge.steps, given)
    check_cycles(tally, system)
    grown = tlx.Beats([reply])
    try:
        judge.steps(grown)
    except tlx.Unlawful:
        grown.append(reply)
    tally.tell("an array that grows while its verdict is handled", len(grown) == 2)
    beats.clear()
    beats.append(reply)
    tally.tell("an array that grows after it was judged", len(beats) == 1)


def signals_of(**beats):
    """Signals of links without a beat but for these: m0_a=(opcode, ...), by the names of their fields."""
    signals = {f"{link}_{channel}_valid": 0 for link in ("m0", "p0") for channel in "ad"}
    for front, values in beats.items():
        signals.update({f"{front}_valid": 1, f"{front}_ready": "1", **{f"{front}_{name}": value for name, value in values.items()}})
    return signals


def check_monitor(tally):
    ask = {"opcode": 4, "param": 0, "size": 2, "source": 1, "address": 0x1000, "mask": "00001111", "data": "x" * 64, "corrupt": 0}
    reply = {"opcode": "001", "param": "0", "size": 2, "source": 1, "denied": False, "corrupt": 0, "data": "x" * 32 + format(0x33221100, "032b")}

    def fresh(links="both"):
        return tlx.Monitor(tlx.Judge(tlx.System(SYSTEM), links), {"p0": "p0_", "m0": "m0_"} if links == "both" else {"m0": "m0_"})

    monitor = fresh()
    tally.tell("names", len(monitor.names) == 38 and len(set(monitor.names)) == 38 and {"m0_a_corrupt", "p0_d_param"} <= set(monitor.names))
    monitor.sample(signals_of(p0_a=ask, m0_a=ask))
    monitor.sample(signals_of(m0_d=reply, p0_d=reply))
    tally.tell("beats that pass in one cycle", (monitor.judge.requests, monitor.judge.answered, monitor.beats, monitor.edges) == (1, 1, 4, 2))
    found = tally.raises("a reply more", tlx.Unlawful, monitor.sample, signals_of(p0_d=reply))
    tally.tell("its line and its edge", (found.line, found.time, found.fault) == (6, 2, tlx.Fault.NO_REQUEST))
    monitor = fresh()
    tally.raises("another link", tlx.Refused, tlx.Monitor(tlx.Judge(tlx.System(SYSTEM), "masters"), {"p0": "p0_"}).sample, signals_of(p0_a=ask))
    for name, others in (("a_ready unknown", {"m0_a_ready": "x"}), ("valid alone", {"m0_a_ready": 0}), ("valid unknown", {"m0_a_valid": "Z"})):
        monitor.sample({**signals_of(m0_a=ask), **others})
        tally.tell(name, monitor.beats == 0)
    for link, beat, fault in (("m0_a", {**ask, "corrupt": 1}, tlx.Fault.WRONG_CORRUPT_FLAG), ("m0_d", {**reply, "param": 1}, tlx.Fault.WRONG_PARAM)):
        marked = fresh("masters")
        if link == "m0_d":
            marked.sample(signals_of(m0_a=ask))
        found = tally.raises(f"a {fault.name} of a signal", tlx.Unlawful, marked.sample, signals_of(**{link: beat}))
        tally.tell("its fault", found.fault is fault)
    for field in ("opcode", "param", "size", "source", "address", "mask", "corrupt"):
        tally.raises(f"{field} unknown", ValueError, monitor.sample, signals_of(m0_a={**ask, field: "0x"}))
    tally.raises("a signal that is missing", KeyError, monitor.sample, {})
    tally.raises("a signal of no bits", TypeError, monitor.sample, signals_of(m0_a={**ask, "size": "two"}))
    tally.raises("a signal of none", TypeError, monitor.sample, signals_of(m0_a={**ask, "size": None}))
    tally.raises("a signal too wide", OverflowError, monitor.sample, signals_of(m0_a={**ask, "size": 256}))
    tally.raises("no signals", TypeError, monitor.sample, None)
    tally.raises("a time of text", TypeError, monitor.sample, signals_of(m0_a=ask), "12")
    tally.tell("nothing was judged", monitor.judge.requests == 0)
    tally.raises("a link that there is not", ValueError, tlx.Monitor, monitor.judge, {"x0": ""})
    lean = tlx.Monitor(monitor.judge, {"m0": "m0_"}, absent=("a_param", "a_corrupt", "d_param", "d_denied", "d_corrupt"))
    lean.sample(signals_of(m0_a={name: value for name, value in ask.items() if name not in ("param", "corrupt")}), time=70)
    tally.tell("signals that a design lacks", monitor.judge.requests == 1 and "m0_a_param" not in lean.names)


def check_wild(tally):
    """20,000 calls with arguments at random: each does what it should or raises one of Python's own exceptions."""
    rng, kinds = random.Random(1), (TypeError, ValueError, OverflowError, tlx.Unlawful)
    values = [0, 1, 2, 3, 4, 5, 7, 8, 9, 255, 256, 65535, 65536, 0x1000, 0x2000, (1 << 64) - 1, 1 << 64, -1, HUGE, None, "1", 1.5, b"", b"ab", True]
    models, judges = [tlx.Model(tlx.System(text)) for text in (SYSTEM, FILE)], [tlx.Judge(tlx.System(SYSTEM), links) for links in tlx.LINKS]

    def request():
        made = copy.copy(GET)
        for field in rng.sample(tlx.Request.__slots__, rng.randrange(4)):
            setattr(made, field, rng.choice([*values, bytes(1 << rng.randrange(12))]))
        return rng.choice([made] * 20 + values)

    def beat():
        made = get_beat()
        for field in rng.sample(tlx.Beat.__slots__, rng.randrange(6)):
            setattr(made, field, rng.choice(values if rng.random() < 0.2 else values[:12]))
        return rng.choice([made] * 20 + values)

    calls = (lambda: rng.choice(models).serve(rng.choice([0] * 100 + values), request()), lambda: rng.choice(models).peek(rng.choice(values)),
             lambda: rng.choice(models).poke(rng.choice(values), rng.choice(values)), lambda: rng.choice(models).reset(),
             lambda: rng.choice(judges).step(beat()), lambda: rng.choice(judges).step(beat()),
             lambda: rng.choice(judges).steps(rng.choice([rng.randbytes(128 * rng.randrange(4)), rng.randbytes(rng.randrange(400)), *values])))
    done = raised = 0
    for _ in range(20000):
        try:
            rng.choice(calls)()
            done += 1
        except kinds:
            raised += 1
    tally.tell(f"20,000 wild calls, of which {done} did something and {raised} raised", done + raised == 20000 and done > 1000 and raised > 1000)


def check_clones(tally):
    """A clone goes on from where the other one was, and neither changes with the other."""
    system = tlx.System(SYSTEM)
    model, judge = tlx.Model(system), tlx.Judge(system, "masters", "reply")
    model.serve(0, tlx.Request.put(0x1000, b"\x77"))
    clone = model.clone()
    clone.poke(0x1001, 0x88)
    tally.tell("a clone of a model", (clone.peek(0x1000), clone.peek(0x1001), model.peek(0x1001)) == (0x77, 0x88, 0x11))
    tally.tell("its places", [one.serve(0, GET).place for one in (clone, clone, model)] == [1, 2, 1])
    judge.step(get_beat())
    second = judge.clone()
    second.step(tlx.Beat.reply("m0", tlx.Reply.ACCESS_ACK_DATA, 2, 1, 0x33221100))
    tally.tell("a clone of a judge", (second.in_flight, judge.in_flight, second.links, second.order) == (0, 1, "masters", "reply"))
    model.close()
    judge.close()
    tally.tell("clones alone", clone.peek(0x1000) == 0x77 and second.answered == 1)
    tally.raises("a clone of a closed model", ValueError, model.clone)
    tally.raises("a clone of a closed judge", ValueError, judge.clone)


def check_threads(tally):
    """Threads that share a model and a judge: each request is served whole, and each beat is judged once. Then they are closed in use."""
    system = tlx.System('port = [{kind = "ram", base = 0x1000, length = 64}]\nmaster = [{sources = 8}]')
    model, judge, wrong, times = tlx.Model(system), tlx.Judge(system, "masters"), [], 400

    def work(number):
        address, places = 0x1000 + 8 * number, []
        for turn in range(times):
            data = bytes([number, turn & 255, 7, 9])
            places.append(model.serve(0, tlx.Request.put(address, data, number)).place)
            answer = model.serve(0, tlx.Request.get(address, 2, number))
            places.append(answer.place)
            if (answer.data, answer.source, model.peek(address)) != (data, number, number):
                wrong.append(answer)
            judge.cycle([tlx.Beat.ask("m0", tlx.Ask.GET, 2, number, address, 0xF)])
            judge.step(tlx.Beat.reply("m0", tlx.Reply.ACCESS_ACK_DATA, 2, number, 0))
        wrong.extend(place for place, next_place in zip(places, places[1:]) if place >= next_place)

    def use_until_closed():
        try:
            while True:
                model.serve(0, tlx.Request.get(0x1000, 2))
                judge.end()
        except ValueError as closed:
            ends.append(str(closed))

    run_threads([threading.Thread(target=work, args=(number,)) for number in range(8)])
    tally.tell("what threads are answered", not wrong and model.serve(0, tlx.Request.get(0x1000, 2)).place == 16 * times)
    tally.tell("what threads had judged", (judge.requests, judge.answered, judge.in_flight) == (8 * times, 8 * times, 0))
    ends = []
    run_threads([threading.Thread(target=use_until_closed) for _ in range(4)], lambda: (model.close(), judge.close()))
    tally.tell("what is closed in use", ends == ["it is closed"] * 4)


def run_threads(threads, meanwhile=lambda: None):
    """Runs threads to their end, with many changes among them."""
    interval = sys.getswitchinterval()
    sys.setswitchinterval(1e-5)
    for thread in threads:
        thread.start()
    meanwhile()
    for thread in threads:
        thread.join()
    sys.setswitchinterval(interval)


class Mallinfo(ctypes.Structure):
    """`struct mallinfo2` of the C library."""

    _fields_ = [(name, ctypes.c_size_t) for name in ("arena", "ordblks", "smblks", "hblks", "hblkhd", "usmblks", "fsmblks", "uordblks", "fordblks",
                                                     "keepcost")]


def bytes_in_use():
    """The bytes that malloc has given out."""
    call = ctypes.CDLL(None).mallinfo2
    call.restype = Mallinfo
    gc.collect()
    found = call()
    return found.uordblks + found.hblkhd


def check_memory(tally):
    """What is made 10,000 times and dropped, closed or not, and what fails on its way, leaves less than one of it behind."""
    system = tlx.System(SYSTEM)

    def failing():
        try:
            tlx.Judge(system, "masters").step(changed(get_beat(), size=9))
        except tlx.Unlawful:
            pass

    def no_system():
        try:
            tlx.System(SYSTEM.replace("0x2000", "0x1001"))
        except tlx.InvalidSystem:
            pass

    def closed():
        with tlx.Model(system) as model, tlx.Judge(system) as judge:
            model.serve(0, GET)
            judge.steps(b"")

    for name, make in (("models", lambda: tlx.Model(system)), ("judges", lambda: tlx.Judge(system)), ("judges that fail", failing),
                       ("systems that fail", no_system), ("systems", lambda: tlx.System(SYSTEM)), ("models and judges that are closed", closed)):
        for _ in range(100):
            make()
        before = bytes_in_use()
        for _ in range(10000):
            make()
        grown = bytes_in_use() - before
        tally.tell(f"10,000 {name} keep {grown} bytes", grown < 4096)
    one = bytes_in_use()
    kept = tlx.Judge(system)
    tally.tell("a judge takes memory that is seen", bytes_in_use() - one > 4096 and kept.requests == 0)


# A memory with room for more pages than there is memory for.
LARGE = 'port = [{kind = "ram", base = 0, length = 0x1000000000}]\nmaster = [{sources = 1}]'


def with_little(call):
    """Makes a call while there are only 8 MiB more of memory."""
    limits = resource.getrlimit(resource.RLIMIT_AS)
    with open("/proc/self/statm", encoding="ascii") as file:
        in_use = int(file.read().split()[0]) * resource.getpagesize()
    resource.setrlimit(resource.RLIMIT_AS, (in_use + (8 << 20), limits[1]))
    try:
        return call()
    finally:
        resource.setrlimit(resource.RLIMIT_AS, limits)


def check_want_of_model(tally):
    """A model of which each put takes a page, until there is no memory: that put is not served, and is once there is."""
    model, put = tlx.Model(tlx.System(LARGE)), tlx.Request.put(0, b"\x5a")

    def put_all():
        for page in range(160_000):
            put.address = page << 16
            model.serve(0, put)

    found = with_little(lambda: tally.raises("want of memory of a model", MemoryError, put_all))
    tally.tell("the byte of a put that is not served", str(found) == "memory refused" and model.peek(put.address) == 0)
    answer = model.serve(0, put)
    tally.tell(f"its place, {answer.place}", answer.place << 16 == put.address > 0 and model.peek(put.address) == 0x5A)


def check_want(tally):
    """A judge of which each put takes a page, until there is no memory: that beat is lawful, and is taken once there is."""
    pages = 160_000
    judge = tlx.Judge(tlx.System(LARGE), "masters")
    put, done = tlx.Beat.ask("m0", tlx.Ask.PUT_FULL, 0, 0, 0, 1, 0x5A), tlx.Beat.reply("m0", tlx.Reply.ACCESS_ACK, 0, 0)
    beats = tlx.Beats(beat for page in range(pages) for beat in (changed(put, address=page << 16), done))
    found = with_little(lambda: tally.raises("want of memory", MemoryError, judge.steps, beats))
    place = found.index
    tally.tell(f"its place, {place}", str(found) == "memory refused" and (2 * judge.requests, judge.in_flight) == (place, 0))
    judge.steps(memoryview(beats.memory)[place * beats.ITEM:])
    tally.tell("the same beat again, and those after it", (judge.requests, judge.in_flight) == (pages, 0))


def main():
    tally = Tally("calls")
    check_faults(tally, sys.argv[-1])
    for check in (check_systems, check_model, check_described, check_judge, check_resets, check_images, check_buses, check_arrays, check_monitor,
                  check_clones, check_wild):
        check(tally)
    if "--no-memory" not in sys.argv:
        check_memory(tally)
        check_want_of_model(tally)
        check_want(tally)
    # the last: each of its threads leaves an arena of the C library with free memory, from which the limit of check_want would be met
    check_threads(tally)


if __name__ == "__main__":
    run_test(main)
