"""Captures for tests/tools/explain_test whose explanation was worked out by hand: the options, the rows below the header, and lines that have to be
printed. One system has most: two masters with two sources each, a memory on their bus of 8 bytes, and one behind an adapter, with a bus of 4
bytes. At the ports, core has the sources 0 and 1, and dma 2 and 3. The memories are zero at reset, except for the first 8 bytes of `slow`.

The second system has ports that list masters. At `ram` the sources of dma are even ones, and those of core odd ones. At `slow` core has the sources
8, 12, 16 and 20, and dma none. At `last`, core has 0 to 3, and dma 4 and 5.

The third system has a port that is judged by itself, `far`, and one that is compared, `ram`, to which dma has no path.

The fourth system has links whose replies come in order, core's and `ram`'s.

Replies that are late, and requests that wait for too long, are of the first system, with resets, and of the third.

Corrupt requests are of the first system, with corrupt data.
"""

from tlxtools.causes import ADAPTED, EXCHANGED

SYSTEM = """[[port]]
name = "ram"
kind = "ram"
base = 0x1000
length = 64
[[port]]
name = "slow"
kind = "ram"
base = 0x2000
length = 64
reset = "0011223344556677"
bus = 4
[[master]]
name = "core"
sources = 2
[[master]]
name = "dma"
sources = 2
"""
LOW, HIGH = "a7a6a5a4a3a2a1a0", "b7b6b5b4b3b2b1b0"
# slow answers source 0 of core, and core gets that as the reply of source 1.
OTHER_SOURCE = """10,m0,A,4,0,3,0,2000,ff,,,
11,p1,A,4,0,3,0,2000,f,,,
12,m0,A,4,0,3,1,2008,ff,,,
13,p1,A,4,0,3,1,2008,f,,,
14,p1,D,1,,3,0,,,33221100,0,0
15,p1,D,1,,3,0,,,77665544,0,0
15,m0,D,1,,3,1,,,%s,0,0
"""
# A get of core is let in within a burst of dma.
BURST = f"""10,m1,A,0,0,4,0,1000,ff,{LOW},,
10,p0,A,0,0,4,2,1000,ff,{LOW},,
11,m0,A,4,0,0,1,1021,02,,,
11,p0,A,4,0,0,1,1021,02,,,
12,m1,A,0,0,4,0,1000,ff,{HIGH},,
12,p0,A,0,0,4,2,1000,ff,{HIGH},,
"""
# A get passes a put to the same bytes that was accepted before.
PASSED = """10,m0,A,0,0,2,0,1000,0f,00000000a3a2a1a0,,
10,p0,A,0,0,2,0,1000,0f,00000000a3a2a1a0,,
11,m1,A,4,0,2,0,1000,0f,,,
11,p0,A,4,0,2,2,1000,0f,,,
12,p0,D,1,,2,2,,,0000000000000000,0,0
13,m1,D,1,,2,0,,,0000000000000000,0,0
"""
# The adapter gives the right bytes in other lanes.
LANES = """10,m0,A,4,0,2,0,2004,f0,,,
11,p1,A,4,0,2,0,2004,f,,,
12,p1,D,1,,2,0,,,77665544,0,0
12,m0,D,1,,2,0,,,0000000077665544,0,0
"""
# A put crosses at the port beat by beat before its one beat ends at the master's link. Its reply is denied on the way.
DENIED = f"""10,p1,A,0,0,3,0,2000,f,a3a2a1a0,,
11,m0,A,0,0,3,0,2000,ff,{LOW},,
11,p1,A,0,0,3,0,2000,f,a7a6a5a4,,
12,p1,D,0,,3,0,,,,0,0
13,m0,D,0,,3,0,,,,1,0
"""
# A reply of slow is let in within one of ram.
REPLIES = """10,m0,A,4,0,4,0,1000,ff,,,
10,p0,A,4,0,4,0,1000,ff,,,
11,m0,A,4,0,3,1,2000,ff,,,
11,p1,A,4,0,3,1,2000,f,,,
12,p0,D,1,,4,0,,,0000000000000000,0,0
12,p1,D,1,,3,1,,,33221100,0,0
12,m0,D,1,,4,0,,,0000000000000000,0,0
13,p1,D,1,,3,1,,,77665544,0,0
13,m0,D,1,,3,1,,,7766554433221100,0,0
14,m0,D,1,,4,0,,,0000000000000000,0,0
"""
# Of three requests one was answered at the port, one was not, and one did not cross there.
LEFT = """10,m0,A,4,0,0,0,1000,01,,,
10,p0,A,4,0,0,0,1000,01,,,
11,m0,A,4,0,0,1,1000,01,,,
11,p0,A,4,0,0,1,1000,01,,,
12,p0,D,1,,0,0,,,0000000000000000,0,0
13,m1,A,4,0,0,0,1000,01,,,
"""
# core gets a reply that it did not ask for; then the port gets a request for another one.
STRAY = """10,m0,D,0,,0,0,,,,0,0
11,p0,A,4,0,0,0,2000,01,,,
"""
# The byte that the port has to give is 00.
ALONE = """10,m0,D,0,,0,0,,,,0,0
11,p0,A,4,0,0,0,1000,01,,,
12,p0,D,1,,0,0,,,00000000000000ff,0,0
"""
# No port has the address, and the reply is not denied.
NOBODYS = """10,m0,A,4,0,0,0,5000,01,,,
11,m0,D,1,,0,0,,,0000000000000000,0,0
"""
# The second word of a put is changed on the way.
CHANGED = f"""10,m1,A,0,0,3,1,2008,ff,{LOW},,
10,p1,A,0,0,3,3,2008,f,a3a2a1a0,,
11,p1,A,0,0,3,3,2008,f,a7a6a5ff,,
"""
# The port denies what it serves.
REFUSED = """10,p0,A,4,0,0,0,1000,01,,,
11,p0,D,1,,0,0,,,0000000000000000,1,1
"""
# core gets the four bytes that dma got just before. Source 1 of core got them too, and eight of them were read last.
TWICE = """8,m0,A,4,0,2,1,2000,0f,,,
9,m0,D,1,,2,1,,,0000000033221100,0,0
10,m1,A,4,0,2,0,2000,0f,,,
11,m1,D,1,,2,0,,,0000000033221100,0,0
11,m1,A,4,0,3,1,2000,ff,,,
12,m1,D,1,,3,1,,,7766554433221100,0,0
12,m0,A,4,0,2,0,1000,0f,,,
13,m0,D,1,,2,0,,,0000000033221100,0,0
"""
# The same, but only core has got them.
TWICE_OF_ONE = "".join(row + "\n" for row in TWICE.splitlines() if ",m1," not in row)
# Of two gets in flight at ram the first is answered by the bytes of the second, which dma has put there.
AHEAD = f"""10,m1,A,0,0,3,0,1008,ff,{LOW},,
10,p0,A,0,0,3,2,1008,ff,{LOW},,
11,p0,D,0,,3,2,,,,0,0
11,m1,D,0,,3,0,,,,0,0
12,m0,A,4,0,3,0,1000,ff,,,
12,m1,A,4,0,3,0,1008,ff,,,
12,p0,A,4,0,3,0,1000,ff,,,
13,p0,A,4,0,3,2,1008,ff,,,
14,p0,D,1,,3,0,,,{LOW},0,0
"""
# dma gets the word of a reply before, in which core read one lane alone; nothing wrote it.
WORD = """10,p0,A,4,0,0,0,1002,04,,,
11,p0,D,1,,0,0,,,8877665544002211,0,0
12,p0,A,4,0,3,2,1008,ff,,,
13,p0,D,1,,3,2,,,8877665544002211,0,0
"""
ANSWERED = "the captured bytes: another master's request has this answer: "
SAME_WORD = "the captured bytes: a reply before it has the same word: "
OF_DMA = ANSWERED + "dma, source 0: get 0x2000 of 4 bytes, line 4, time 10; answered at line 5, time 11"
BETWEEN = "all beats at the ports' links are lawful up to there, and this reply at core's link is not"
CASES = (
    ([], OTHER_SOURCE % "7766554433221100", (
        "slow has not answered it; captured AccessAckData 0011223344556677",
        "slow gave source 0 (source 0 of core) AccessAckData 0011223344556677, lines 6 to 7, times 14 to 15; no beat of it crossed at core's link; "
        "this beat fits it",
        f"between slow and core: {BETWEEN}", "the bus has 8 bytes at core's link and 4 bytes at slow's",
        "in flight at slow's link: at most 2 requests so far, first at line 5, time 13", "whole replies at core's link before: none")),
    ([], OTHER_SOURCE % "7766554433221101", (
        "slow gave source 0 (source 0 of core) AccessAckData 0011223344556677, lines 6 to 7, times 14 to 15; no beat of it crossed at core's link; "
        "this beat differs from it in data",)),
    ([], BURST, (
        "the beat goes on with: ram, source 2 (source 0 of dma): putfull 0x1000 of 16 bytes a0a1a2a3a4a5a6a7, line 3, time 10",
        "at the other side: dma, source 0: putfull 0x1000 of 16 bytes a0a1a2a3a4a5a6a7, line 2, time 10; under way, 1 beat so far",
        "address: 1000 in the first beat, 1021 here",
        "these are the fields of: core, source 1: get 0x1021 of 1 byte, line 4, time 11; not answered yet",
        "behind it a beat has the fields of the first one again: line 7, time 12",
        "between the masters and ram: all beats at the masters' links are lawful up to there, and this request at ram's link is not",
        "whole replies at ram's link before: none")),
    (["--links", "ports"], BURST, ("between the masters and ram: with --links masters all is lawful up to there",)),
    ([], PASSED, (
        "4 of its 4 bytes here are wrong; it was not answered before this request crossed",
        "with --order reply: lawful: 6 rows, 2 requests, 1 answered", "with --order any: lawful: 6 rows, 2 requests, 1 answered",
        "the order in which requests take effect: with --order reply all is lawful",
        "in ram: this reply is unlawful by what crossed at its link alone; all requests there are lawful up to there")),
    (["--links=masters"], PASSED, (
        "with --links ports an earlier row is unlawful already: line 6, time 12, ram D: wrong reply: expected AccessAckData a0a1a2a3, "
        "captured AccessAckData 00000000", "whole replies at dma's link before: none",
        "or the order of requests at ram, which --links masters does not show: with --order reply all is lawful")),
    ([], LANES, (
        "slow gave AccessAckData 44556677, line 4, time 12", "captured here AccessAckData 00000000",
        "the first difference, at 0x2004: 44 at slow's link (line 4, time 12), 00 at core's link (line 5, time 12)",
        "the bytes that slow gave stand at lane 0 of the beat in line 5, time 12; the address begins at lane 4",
        "at the other side: slow, source 0 (source 0 of core): get 0x2004 of 4 bytes, line 3, time 11; answered at line 4, time 12")),
    (["--links", "masters"], LANES, (
        "the expected bytes stand at lane 0 of the beat in line 5, time 12; the address begins at lane 4",
        "between the ports and core: with --links ports all is lawful up to there")),
    ([], DENIED, (
        "slow gave AccessAck, line 5, time 12", "captured here AccessAck denied", "not denied at slow's link, denied here",
        f"between slow and core: {BETWEEN}")),
    ([], REPLIES, (
        "the beat goes on with the reply to: core, source 0: get 0x1000 of 16 bytes, line 2, time 10; its reply has begun at line 8, time 12",
        "the request of this beat's source: core, source 1: get 0x2000 of 8 bytes, line 4, time 11; not answered yet",
        "source: 0 in the first beat, 1 here", "behind it a beat has the fields of the first one again: line 11, time 14",
        "at the other side: slow, source 1 (source 1 of core): get 0x2000 of 8 bytes, line 5, time 11; answered at lines 7 to 9, times 12 to 13",
        f"between the ports and core: {BETWEEN}")),
    (["--complete"], LEFT, (
        "core, source 0: ram answered it, line 6, time 12; the reply has not crossed whole at core's link",
        "core, source 1: it crossed at ram's link, line 5, time 11; ram has not answered it", "dma, source 0: it has not crossed at ram's link")),
    (["--links", "ports"], STRAY, (
        "1 byte at 0x2000: the address of slow",
        "with --links masters an earlier row is unlawful already: line 2, time 10, core D: reply without request")),
    (["--links", "ports"], ALONE, (
        "the request: ram, source 0 (source 0 of core): get 0x1000 of 1 byte, line 3, time 11",
        "in ram: this reply is unlawful by what crossed at its link alone; all requests there are lawful up to there")),
    (["--links", "masters"], TWICE, (OF_DMA, *EXCHANGED)),
    (["--links", "masters"], TWICE_OF_ONE, (
        f"!{ANSWERED}core, source 1: get 0x2000 of 4 bytes, line 2, time 8; answered at line 3, time 9",
        SAME_WORD + "core, source 1: get 0x2000 of 4 bytes, line 2, time 8; answered at line 3, time 9")),
    ([], AHEAD, (ANSWERED + "ram, source 2 (source 0 of dma): get 0x1008 of 8 bytes, line 9, time 13; not answered yet", *EXCHANGED)),
    (["--links", "ports"], WORD, (
        SAME_WORD + "ram, source 0 (source 0 of core): get 0x1002 of 1 byte, line 2, time 10; answered at line 3, time 11", *EXCHANGED)),
    (["--links", "ports"], WORD.replace("3,2,,,88", "3,2,,,99"), (
        f"!{SAME_WORD}ram, source 0 (source 0 of core): get 0x1002 of 1 byte, line 2, time 10; answered at line 3, time 11",
        *(f"!{cause}" for cause in EXCHANGED))),
    (["--links", "ports"], REFUSED, (
        "ram supports get of 1 byte there, so it is not denied", "`sizes`, `kind` and `ranges` of the port in the system file")),
    ([], NOBODYS, (
        "no port has 1 byte at 0x5000: the error port denies it", f"between the ports and core: {BETWEEN}",
        "the error port answers this request; it has no link")),
    (["--links", "masters"], NOBODYS, (
        "between the ports and core, or in one of these: no row of the ports' links was captured up to there",)),
    ([], CHANGED, (
        "bytes: a0a1a2a3a4a5a6a7 at the master's link, a0a1a2a3ffa5a6a7 here",
        "the first difference, at 0x200c: a4 at dma's link (line 2, time 10), ff at slow's link (line 4, time 11)",
        "the bus has 8 bytes at dma's link and 4 bytes at slow's")),
)

SOCKETS = """[[port]]
name = "ram"
kind = "ram"
base = 0x1000
length = 64
hosts = ["dma", "core"]
[[port]]
name = "slow"
kind = "ram"
base = 0x2000
length = 64
sources = [{ master = "core", first = 8, stride = 4 }]
[[port]]
name = "last"
kind = "ram"
base = 0x3000
length = 64
[[master]]
name = "core"
sources = 4
[[master]]
name = "dma"
sources = 2
"""
# Source 3 of core is 7 at ram with the shift of 1 bit, and 13 with 2 bits.
FAR_SHIFT = """10,m0,A,4,0,0,3,1000,01,,,
11,p0,A,4,0,0,13,1000,01,,,
"""
# Source 1 of core is 3 at ram, and 2 without a shift; that is source 1 of dma.
NO_SHIFT = """10,m0,A,4,0,0,1,1000,01,,,
11,p0,A,4,0,0,2,1000,01,,,
"""
# Source 2 of core has a stride of 4 at slow. With the stride of 2 it is 12, which is source 1 of core.
SHORT_STRIDE = """10,m0,A,4,0,0,2,2000,01,,,
11,p1,A,4,0,0,12,2000,01,,,
"""
# Source 2 of dma: there is none. It is no shift of a source 0.
NO_SOURCE = """10,m0,A,4,0,0,0,1000,01,,,
11,p0,A,4,0,0,4,1000,01,,,
"""
# ram answers source 13, which nobody has; that it is source 3 of core with the shift of 2 bits says nothing of a reply.
TO_NOBODY = """10,m0,A,4,0,0,3,1000,01,,,
11,p0,A,4,0,0,7,1000,01,,,
12,m0,A,4,0,0,1,1000,01,,,
13,p0,D,1,,0,13,,,0000000000000000,0,0
"""
# Source 0 of core is 1 at ram and 8 at slow.
AT_TWO_PORTS = """10,p0,A,4,0,0,1,1000,01,,,
11,p1,A,4,0,0,8,2000,01,,,
"""
# dma has no path to slow, and gets there with the source that it has at last.
NO_PATH = """10,m1,A,4,0,0,0,2000,01,,,
11,p1,A,4,0,0,4,2000,01,,,
"""
# slow answers source 0 of core, and core gets that as the reply of source 1.
OTHER_HOST = """10,m0,A,4,0,0,0,2000,01,,,
11,p1,A,4,0,0,8,2000,01,,,
12,m0,A,4,0,0,1,2000,01,,,
13,p1,A,4,0,0,12,2000,01,,,
14,p1,D,1,,0,8,,,0000000000000000,0,0
15,m0,D,1,,0,1,,,0000000000000000,0,0
"""
# dma asks at ram's link for a byte of slow.
ASTRAY = """10,p0,A,4,0,0,2,2000,01,,,
"""
# dma gets a reply of slow that is not denied.
SERVED = """10,m1,A,4,0,0,0,2000,01,,,
11,m1,D,1,,0,0,,,0000000000000000,0,0
"""
# Of two requests one has crossed at slow with the source that it has there.
HALF = """10,m0,A,4,0,0,1,2000,01,,,
11,p1,A,4,0,0,12,2000,01,,,
12,m0,A,4,0,0,0,3000,01,,,
"""
SHIFT = "how far the socket at the port shifts sources: `hosts` or `sources` of the port, `stride` of the master"
SOCKET_CASES = (
    ([], FAR_SHIFT, (
        "source 13 belongs to no master here: ram lists dma, core",
        "source 13 is 1 + 4 * 3, and 1 + 2 * 3 is wanted of: core, source 3: get 0x1000 of 1 byte, line 2, time 10; not answered yet", SHIFT,
        "between the masters and ram: all beats at the masters' links are lawful up to there, and this request at ram's link is not")),
    (["--links", "ports"], FAR_SHIFT, ("source 13 belongs to no master here: ram lists dma, core", f"!{SHIFT}")),
    ([], NO_SHIFT, (
        "nothing is in flight of source 1 of dma",
        "source 2 is 1 + 1 * 1, and 1 + 2 * 1 is wanted of: core, source 1: get 0x1000 of 1 byte, line 2, time 10; not answered yet", SHIFT)),
    ([], SHORT_STRIDE, (
        "nothing is in flight of source 1 of core",
        "source 12 is 8 + 2 * 2, and 8 + 4 * 2 is wanted of: core, source 2: get 0x2000 of 1 byte, line 2, time 10; not answered yet", SHIFT)),
    ([], NO_SOURCE, ("source 4 belongs to no master here: ram lists dma, core", f"!{SHIFT}")),
    ([], TO_NOBODY, ("source 13 belongs to no master here: ram lists dma, core", f"!{SHIFT}")),
    (["--links", "ports"], AT_TWO_PORTS, (
        "the source is in flight: ram, source 1 (source 0 of core): get 0x1000 of 1 byte, line 2, time 10; not answered yet",
        "the allocator of sources: it gives one again before its last reply has ended")),
    ([], NO_PATH, ("source 4 belongs to no master here: slow lists core", f"!{SHIFT}")),
    (["--links", "ports"], ASTRAY, ("1 byte at 0x2000: the address of slow, and dma has no path there",)),
    (["--links", "ports"], ASTRAY.replace("2000", "3000"), ("1 byte at 0x3000: the address of last",)),
    ([], OTHER_HOST, (
        "the request: core, source 1: get 0x2000 of 1 byte, line 4, time 12", "slow has not answered it; captured AccessAckData 00",
        "slow gave source 8 (source 0 of core) AccessAckData 00, line 6, time 14; no beat of it crossed at core's link; this beat fits it",
        "at the other side: slow, source 12 (source 1 of core): get 0x2000 of 1 byte, line 5, time 13; not answered yet")),
    (["--links", "masters"], SERVED, ("slow has 1 byte at 0x2000, and dma has no path there: the error port denies it",)),
    (["--complete"], HALF, (
        "core, source 1: it crossed at slow's link, line 3, time 11; slow has not answered it",
        "core, source 0: it has not crossed at last's link")),
)

APART = """[[port]]
name = "ram"
kind = "ram"
base = 0x1000
length = 64
hosts = ["core"]
[[port]]
name = "far"
kind = "ram"
base = 0x2000
length = 64
crossing = "none"
[[master]]
name = "core"
sources = 2
[[master]]
name = "dma"
sources = 2
"""
# far answers what nobody has written there. Its source 1 is far's own, and no other link's.
OWN_REPLY = """10,m0,A,4,0,0,0,2000,01,,,
11,p1,A,4,0,0,1,2000,01,,,
12,p1,D,1,,0,1,,,00000000000000ff,0,0
"""
# core gets what stood there before its put, which far has not seen.
OLD_BYTE = """10,m0,A,0,0,0,0,2000,01,00000000000000aa,,
11,m0,D,0,,0,0,,,,0,0
12,m0,A,4,0,0,0,2000,01,,,
13,m0,D,1,,0,0,,,0000000000000000,0,0
"""
# dma gets what stood there before the put of core, which is in flight.
BEFORE_PUT = """10,m0,A,0,0,0,0,2000,01,00000000000000aa,,
11,m1,A,4,0,0,0,2000,01,,,
12,m1,D,1,,0,0,,,0000000000000000,0,0
"""
# At far's link a source is not dma's.
NOT_FAR = """10,p1,A,4,0,0,2,1000,01,,,
"""
# Source 1 of far begins again. Source 1 of core, which is in flight at ram, is another one.
AGAIN = """10,m0,A,4,0,0,1,1000,01,,,
10,p0,A,4,0,0,1,1000,01,,,
11,p1,A,4,0,0,1,2000,01,,,
12,p1,A,4,0,0,1,2001,02,,,
"""
# Of a get of 8 bytes ram gets the first half, and of an atomic its get.
HALVED = """10,m0,A,4,0,3,0,1000,ff,,,
11,p0,A,4,0,2,0,1000,0f,,,
"""
BY_GET = """10,m0,A,2,4,2,0,1000,0f,0000000000000001,,
11,p0,A,4,0,2,0,1000,0f,,,
"""
# Of two gets that differ in their address alone ram gets the second one with source 9, which is 0 + 9 * 1: no shift by bits.
RENUMBERED = """10,m0,A,4,0,0,0,1000,01,,,
11,m0,A,4,0,0,1,1001,02,,,
12,p0,A,4,0,0,9,1001,02,,,
"""
# core is answered by nobody.
INVENTED = """10,m0,A,0,0,0,0,1000,01,00000000000000aa,,
11,m0,D,0,,0,0,,,,0,0
"""
# Of two requests one is for ram, and one for far, which has a request of its own.
BOTH_LEFT = """10,m0,A,4,0,0,0,1000,01,,,
11,m0,A,4,0,0,1,2000,01,,,
12,p1,A,4,0,0,7,2000,01,,,
"""
IN_FAR = "in far: this reply is unlawful by what crossed at its link alone; all requests there are lawful up to there"
OF_FAR = "between far and {}: all beats at the ports' links are lawful up to there, and this reply at {}'s link is not"
ADAPTER, = ADAPTED
APART_CASES = (
    ([], OWN_REPLY, (
        "the request: far, source 1: get 0x2000 of 1 byte, line 3, time 11", IN_FAR, "00: zero at reset",
        "core, source 0: get 0x2000 of 1 byte, line 2, time 10; not answered yet", f"!{ADAPTER}")),
    (["--links", "each"], OWN_REPLY, ("the request: far, source 1: get 0x2000 of 1 byte, line 3, time 11", IN_FAR)),
    (["--links", "ports"], OWN_REPLY, ("the request: far, source 1 (source 1 of core): get 0x2000 of 1 byte, line 3, time 11", IN_FAR)),
    ([], OLD_BYTE, (
        "aa: core, source 0: putfull 0x2000 of 1 byte aa, line 2, time 10; answered at line 3, time 11", "00: it stood there before: zero at reset",
        OF_FAR.format("core", "core"), "!at the other side: it has not crossed at far's link")),
    ([], BEFORE_PUT, (
        "with --order reply: lawful: 3 rows, 2 requests, 1 answered", OF_FAR.format("dma", "dma"),
        "or the order of requests at far, whose link is judged by itself: with --order reply all is lawful")),
    (["--links", "masters"], BEFORE_PUT, (
        "or the order of requests at far, which --links masters does not show: with --order reply all is lawful",)),
    ([], NOT_FAR, ("1 byte at 0x1000: the address of ram",)),
    (["--links", "ports"], NOT_FAR, ("1 byte at 0x1000: the address of ram, and dma has no path there",)),
    ([], AGAIN, ("the source is in flight: far, source 1: get 0x2000 of 1 byte, line 4, time 11; not answered yet",)),
    ([], HALVED, (
        "its master sent: core, source 0: get 0x1000 of 8 bytes, line 2, time 10; not answered yet", "size: 3 at the master's link, 2 here",
        "it is a part of: core, source 0: get 0x1000 of 8 bytes, line 2, time 10; not answered yet", ADAPTER)),
    ([], BY_GET, (
        "operation: add at the master's link, get here",
        "it is a part of: core, source 0: add 0x1000 of 4 bytes 01000000, line 2, time 10; not answered yet", ADAPTER)),
    ([], RENUMBERED, (
        "source 9 belongs to no master here: ram lists core",
        "but for its source it is: core, source 1: get 0x1001 of 1 byte, line 3, time 11; not answered yet",
        "!but for its source it is: core, source 0: get 0x1000 of 1 byte, line 2, time 10; not answered yet", ADAPTER)),
    (["--links", "ports"], RENUMBERED, ("source 9 belongs to no master here: ram lists core", f"!{ADAPTER}")),
    ([], INVENTED, ("ram has not answered it; captured AccessAck", "at the other side: it has not crossed at ram's link", ADAPTER)),
    (["--complete"], BOTH_LEFT, (
        "core, source 0: it has not crossed at ram's link", "!core, source 1: it has not crossed at far's link",
        "far, source 7: get 0x2000 of 1 byte, line 4, time 12; not answered yet")),
)

QUEUED = """[[port]]
name = "ram"
kind = "ram"
base = 0x1000
length = 64
fifo = true
[[port]]
name = "rom"
kind = "rom"
base = 0x2000
length = 64
[[master]]
name = "core"
sources = 4
fifo = true
[[master]]
name = "dma"
sources = 4
"""
# rom is faster than ram, and core gets its reply first. The put of source 3 has one of two beats, and is younger.
FASTER = f"""10,m0,A,4,0,0,2,1000,01,,,
11,p0,A,4,0,0,2,1000,01,,,
11,m0,A,4,0,0,0,2000,01,,,
12,p1,A,4,0,0,0,2000,01,,,
13,m0,A,0,0,4,3,1000,ff,{LOW},,
13,p1,D,1,,0,0,,,0000000000000000,0,0
14,m0,D,1,,0,0,,,0000000000000000,0,0
"""
# ram answers the third request first. The second one is the oldest without a reply.
THIRD = """10,p0,A,4,0,0,4,1000,01,,,
11,p0,A,4,0,0,2,1001,02,,,
12,p0,A,4,0,0,0,1002,04,,,
13,p0,A,4,0,0,5,1003,08,,,
14,p0,D,1,,0,4,,,0000000000000000,0,0
15,p0,D,1,,0,5,,,0000000000000000,0,0
"""
# The error port is faster than rom.
NOWHERE = """10,m0,A,4,0,0,1,2000,01,,,
11,m0,A,4,0,0,0,7000,01,,,
12,m0,D,1,,0,0,,,0000000000000000,1,1
"""
# rom is faster than the error port.
REFUSED_LATE = """10,m0,A,4,0,0,1,7000,01,,,
11,m0,A,4,0,0,0,2000,01,,,
12,m0,D,1,,0,0,,,0000000000000000,0,0
"""
QUEUED_CASES = (
    ([], FASTER, (
        "the request: core, source 0: get 0x2000 of 1 byte, line 4, time 11", "its turn is after 1 older request",
        "the next reply has to answer: core, source 2: get 0x1000 of 1 byte, line 2, time 10; not answered yet", "that request goes to ram",
        "at the other side: rom, source 0 (source 0 of core): get 0x2000 of 1 byte, line 5, time 12; answered at line 7, time 13",
        f"between rom and core: {BETWEEN}", "the arbiter of replies: it lets a faster port, or the error port, reply first")),
    (["--links", "masters"], FASTER, (
        "its turn is after 1 older request", "between the ports and core: with --links ports all is lawful up to there")),
    (["--links", "ports"], THIRD, (
        "the request: ram, source 5 (source 1 of dma): get 0x1003 of 1 byte, line 5, time 13", "its turn is after 2 older requests",
        "the next reply has to answer: ram, source 2 (source 2 of core): get 0x1001 of 1 byte, line 3, time 11; not answered yet",
        "!that request goes to ram", "!its turn is after 3 older requests",
        "the queue that keeps the order of requests at this link: its depth, and what it keeps of each request")),
    (["--links", "each"], THIRD, (
        "the next reply has to answer: ram, source 2: get 0x1001 of 1 byte, line 3, time 11; not answered yet",
        "in ram: this reply is unlawful by what crossed at its link alone; all requests there are lawful up to there")),
    (["--links", "masters"], NOWHERE, (
        "the next reply has to answer: core, source 1: get 0x2000 of 1 byte, line 2, time 10; not answered yet", "that request goes to rom")),
    (["--links", "masters"], REFUSED_LATE, (
        "the next reply has to answer: core, source 1: get 0x7000 of 1 byte, line 2, time 10; not answered yet",
        "that request goes to the error port", "`fifo` of this link in the system file, if replies may overtake there")),
)

RESETTING = f"resets = true\n{SYSTEM}"
# ram answers after 1, and the reply crosses at core's link after 5 more.
LATE_BACK = """10,m0,A,4,0,0,0,1000,01,,,
11,p0,A,4,0,0,0,1000,01,,,
12,p0,D,1,,0,0,,,0000000000000000,0,0
17,m0,D,1,,0,0,,,0000000000000000,0,0
"""
# ram answers after 6.
SLOW_PORT = """10,p0,A,4,0,0,2,1000,01,,,
16,p0,D,1,,0,2,,,0000000000000000,0,0
"""
LATE_NOWHERE = """10,m0,A,4,0,0,0,5000,01,,,
16,m0,D,1,,0,0,,,0000000000000000,1,1
"""
# The request of dma is let in before that of core, which is older. The reply of ram is the first row behind the limit. What follows is not looked at.
KEPT_OUT = """10,m0,A,4,0,0,0,1000,01,,,
11,m1,A,4,0,0,1,1000,01,,,
12,p0,A,4,0,0,3,1000,01,,,
16,p0,D,1,,0,3,,,0000000000000000,0,0
17,m1,D,1,,0,1,,,0000000000000000,0,0
18,m0,A,4,0,0,1,1001,02,,,
"""
# slow answers after 1, and another request of core is under way when the limit has passed.
ON_ITS_WAY = f"""10,m0,A,4,0,3,0,2000,ff,,,
11,p1,A,4,0,3,0,2000,f,,,
12,p1,D,1,,3,0,,,33221100,0,0
13,p1,D,1,,3,0,,,77665544,0,0
16,m0,A,0,0,4,1,1000,ff,{LOW},,
17,m0,D,1,,3,0,,,7766554433221100,0,0
"""
# The port's link has the first beat of a put before the master's link has its one beat, and does not answer.
BEFORE_ITS_MASTER = f"""10,p1,A,0,0,3,0,2000,f,a3a2a1a0,,
12,m0,A,0,0,3,0,2000,ff,{LOW},,
13,p1,A,0,0,3,0,2000,f,a7a6a5a4,,
20,m1,A,4,0,0,0,1000,01,,,
"""
# A reset drops the first request of source 0.
AFTER_A_RESET = """10,m0,A,4,0,0,0,1000,01,,,
12,reset,,,,,,,,,,
13,m0,A,4,0,0,0,1000,01,,,
19,m1,A,4,0,0,0,1000,01,,,
"""
LATE_FAR = """10,m0,A,4,0,0,0,2000,01,,,
11,p1,A,4,0,0,9,2000,01,,,
16,m0,D,1,,0,0,,,0000000000000000,0,0
"""
TIMED_CASES = (
    (["--within", "5"], LATE_BACK, (
        "the request: core, source 0: get 0x1000 of 1 byte, line 2, time 10", "at time 17 it has waited for 7 units of time, 2 more than --within 5",
        "at the other side: ram, source 0 (source 0 of core): get 0x1000 of 1 byte, line 3, time 11; answered at line 4, time 12",
        "of 7: 1 before it crossed at ram's link, 1 in ram, 5 on the way back", "whole replies at core's link before: none",
        f"!between ram and core: {BETWEEN}", "an arbiter on the way that lets others go first")),
    (["--links", "masters", "--within=6"], LATE_BACK, (
        "at time 17 it has waited for 7 units of time, 1 more than --within 6", "in ram, which --links masters does not show, or between core and it")),
    (["--links", "each", "--within", "5"], LATE_BACK, ("in ram, the link of which is judged by itself, or between core and it",)),
    (["--links", "ports", "--within", "5"], SLOW_PORT, (
        "the request: ram, source 2 (source 0 of dma): get 0x1000 of 1 byte, line 2, time 10",
        "at time 16 it has waited for 6 units of time, 1 more than --within 5", "in ram: it has the request since line 2, time 10")),
    (["--within", "5"], LATE_NOWHERE, ("in the error port, which has no link, or between core and it",)),
    (["--within", "5"], KEPT_OUT, (
        "the request: core, source 0: get 0x1000 of 1 byte, line 2, time 10; not answered yet",
        "at time 16 it has waited for 6 units of time, 1 more than --within 5", "at the other side: it has not crossed at ram's link",
        "between core and ram: it has not crossed at ram's link", "dma, source 1: get 0x1000 of 1 byte, line 3, time 11; not answered yet",
        "!core, source 1: get 0x1001 of 1 byte, line 7, time 18; not answered yet", "whole replies at core's link before: none",
        "a deadlock: each of several waits until another one goes on")),
    (["--within", "5"], ON_ITS_WAY, (
        "the request: core, source 0: get 0x2000 of 8 bytes, line 2, time 10; not answered yet",
        "at time 16 it has waited for 6 units of time, 1 more than --within 5",
        "of 6: 1 before it crossed at slow's link, 1 in slow, 4 on the way back", "the bus has 8 bytes at core's link and 4 bytes at slow's",
        "core, source 1: putfull 0x1000 of 16 bytes a0a1a2a3a4a5a6a7, line 6, time 16; under way, 1 beat so far",
        "!the beat goes on with: core, source 1: putfull 0x1000 of 16 bytes a0a1a2a3a4a5a6a7, line 6, time 16")),
    (["--within", "5"], BEFORE_ITS_MASTER, (
        "at time 20 it has waited for 8 units of time, 3 more than --within 5",
        "of 8: 0 before it crossed at slow's link, 8 in slow, which has not answered it")),
    (["--links", "ports", "--within", "3"], KEPT_OUT, (
        "the request: ram, source 3 (source 1 of dma): get 0x1000 of 1 byte, line 4, time 12",
        "at time 16 it has waited for 4 units of time, 1 more than --within 3", "in ram: it has the request since line 4, time 12")),
    (["--links", "ports", "--within", "2", "--order=any"], SLOW_PORT + "17,m0,A,4,0,0,0,1000,01,,,\n", (
        "at time 16 it has waited for 6 units of time, 4 more than --within 2",)),
    (["--within", "5"], AFTER_A_RESET, (
        "the request: core, source 0: get 0x1000 of 1 byte, line 4, time 13; not answered yet",
        "at time 19 it has waited for 6 units of time, 1 more than --within 5", "between core and ram: it has not crossed at ram's link")),
    # with another order the get is right, and then the put waits for too long
    (["--within", "2"], PASSED, (
        "with --order reply: unlawful: line 2, time 10, core A: no reply in time", "with --order any: unlawful: line 2, time 10, core A: no reply in time",
        "!the order in which requests take effect: with --order reply all is lawful")),
)
TIMED_APART_CASES = (
    (["--within", "5"], LATE_FAR, (
        "in far, the link of which is judged by itself, or between core and it", "at time 16 it has waited for 6 units of time, 1 more than --within 5")),
    (["--within", "4"], LATE_FAR, ("in far, the link of which is judged by itself, or between core and it",)),
)

CORRUPT = "corrupt = true\n" + SYSTEM
# A get is marked corrupt, and a put is.
MARKED_GET = """10,m0,A,4,0,0,0,1000,01,,,1
"""
MARKED_PUT = f"""10,m0,A,0,0,3,0,1000,ff,{LOW},,1
"""
# A corrupt put leaves four bytes unknown, and a corrupt atomic two of the next four, of which a put writes one again. Nobody wrote the last byte.
HALF_KNOWN = """10,p0,A,1,0,3,0,1000,0f,xxxxxxxxxxxxxxxx,,1
11,p0,D,0,,3,0,,,,1,0
12,p0,A,3,3,2,1,1004,f0,0000000000000000,,1
13,p0,D,1,,2,1,,,0000000000000000,0,0
14,p0,A,0,0,0,0,1005,20,0000aa0000000000,,0
15,p0,D,0,,0,0,,,,0,0
16,p0,A,4,0,4,2,1000,ff,,,
17,p0,D,1,,4,2,,,123456789abcdef0,0,0
18,p0,D,1,,4,2,,,ff00000000000000,0,0
"""
# The adapter forgets the flag.
FORGOTTEN = """10,m0,A,0,0,3,0,2000,ff,0000000000000000,,1
11,p1,A,0,0,3,0,2000,f,a3a2a1a0,,0
12,p1,A,0,0,3,0,2000,f,a7a6a5a4,,0
"""
# The flag crosses, and a byte of the second cut has changed. Then the byte that the first cut gives at its third place is not given any more.
CLEAN_CUT = f"""10,m0,A,1,0,4,0,2000,07,0000000000000000,,1
11,m0,A,1,0,4,0,2000,ff,{HIGH},,0
12,p1,A,1,0,4,0,2000,%s,00000000,,1
13,p1,A,1,0,4,0,2000,0,00000000,,0
14,p1,A,1,0,4,0,2000,f,b3b2b1b0,,0
15,p1,A,1,0,4,0,2000,f,b7b6b5%s,,0
"""
CORRUPT_CASES = (
    ([], MARKED_GET, ("get carries no bytes that may be corrupt", "a_corrupt: no get and no prefetch is marked")),
    (["--links", "ports"], HALF_KNOWN, (
        "unknown at 0x1000 to 0x1003 since a corrupt put: ram, source 0 (source 0 of core): putpart 0x1000 of 8 bytes xxxxxxxx--------, line 2, time 10",
        "unknown at 0x1004, 0x1006 to 0x1007 since a corrupt atomic: ram, source 1 (source 1 of core): swap 0x1004 of 4 bytes xxxxxxxx, line 4, time 12",
        "wrong at 0x1005: expected aa, captured 56", "wrong at 0x100f: expected 00, captured ff")),
    ([], FORGOTTEN, (
        "bytes: xxxxxxxxxxxxxxxx at the master's link, a0a1a2a3a4a5a6a7 here",
        "corrupt bytes: 0 to 7 at the master's link, none here, by beats of the wider bus")),
    ([], CLEAN_CUT % ("7", "ff"), (
        "bytes: xxxxxx----------b0b1b2b3b4b5b6b7 at the master's link, xxxxxx----------b0b1b2b3ffb5b6b7 here",
        "the first difference, at 0x200c: b4 at core's link (line 3, time 11), ff at slow's link (line 7, time 15)")),
    ([], CLEAN_CUT % ("3", "b4"), (
        "bytes: xxxxxx----------b0b1b2b3b4b5b6b7 at the master's link, xxxx------------b0b1b2b3b4b5b6b7 here",
        "the first difference, at 0x2002: xx at core's link (line 2, time 10), -- at slow's link (line 4, time 12)")),
)
# Without the key no request is marked.
UNCORRUPT_CASES = (
    ([], MARKED_PUT, ("the system file has no `corrupt = true`, so no beat of a request is marked corrupt",
                      "`corrupt = true` in the system file, if data may be corrupt, as those of a memory with error correction")),
)
