"""Captures by hand, each with its system and its coverage, for coverage_test.py."""

SYSTEM = """
unaligned = true

[[port]]
name = "ram"
kind = "ram"
base = 0x1000
length = 64

[[port]]
kind = "rom"
base = 0x2000
length = 16

[[master]]
sources = 2

[[master]]
sources = 1
"""
ZEROS = "0" * 16
# A partial put that leaves out a byte; an unaligned get that meets it; a request of nobody's address. The get's reply overtakes the put's. Then a
# get of two beats by the source that was answered 3 before, and a put to the ROM 25 after the last reply.
ROWS = f"""
1,m0,A,1,0,2,0,1000,07,00000000ffccbbaa,,
2,m0,A,4,0,2,1,1002,0f,,,
3,m1,A,4,0,3,0,3000,ff,,,
4,m0,D,1,,2,1,,,{ZEROS},1,1
5,m1,D,1,,3,0,,,{ZEROS},1,1
6,m0,D,0,,2,0,,,,0,0
7,m0,A,4,0,4,1,1010,ff,,,
8,m0,D,1,,4,1,,,{ZEROS},0,0
9,m0,D,1,,4,1,,,{ZEROS},0,0
30,m1,A,0,0,0,0,2000,01,0000000000000001,,
31,m1,D,0,,0,0,,,,1,0
"""
COVERED = """coverage 2
asked m0 p0 putpart 2 aligned 1
asked m0 p0 get 2 unaligned 1
asked m0 p0 get 4 aligned 1
asked m1 p1 putfull 0 aligned 1
asked m1 error get 3 aligned 1
answered m0 p0 putpart 2 given 1
answered m0 p0 get 2 denied 1
answered m0 p0 get 4 given 1
answered m1 p1 putfull 0 denied 1
answered m1 error get 3 denied 1
beats m0 p0 A 1 3
beats m0 p0 D 1 2
beats m0 p0 D 2 1
beats m1 p1 A 1 1
beats m1 p1 D 1 1
beats m1 error A 1 1
beats m1 error D 1 1
mask m0 p0 2 hole 1
in_flight m0 1 2
in_flight m0 2 1
in_flight m1 1 2
at_port p0 1 2
at_port p0 2 1
at_port p1 1 1
at_port error 1 1
overtook m0 p0 same 1
again m0 3 1
again m1 16 1
contested p0 1
source m0 0 1
source m0 1 2
source m1 0 2
range p0 0 3
range p1 0 1
edge p0 0 first 1
edge p1 0 first 1
latency p0 1 1
latency p0 2 1
latency p0 4 1
latency p1 1 1
latency error 2 1
gap m0 p0 D 1 1
refused p0 unaligned 1
refused p1 unserved 1
refused error nowhere 1
lane m0 2 0 1
lane m0 2 2 1
lane m1 0 0 1
after p0 write read 1
"""
# A memory that is seen at two ranges, one that has two, and a device, of which the key mirror says nothing.
MIRRORED = """
[[port]]
kind = "ram"
ranges = [[0x1000, 64], [0x5000, 64]]
mirror = true

[[port]]
kind = "ram"
ranges = [[0x2000, 64], [0x6000, 64]]

[[port]]
kind = "device"
ranges = [[0x3000, 64], [0x7000, 64]]
mirror = true

[[master]]
sources = 2
"""
# A put and a get of the same byte of the memory, at its two ranges; of two words beside each other; of two ranges that are two memories' bytes; of
# the same byte again, the put at the second range; two gets of one byte; and a put and a get at the two ranges of the device.
MIRRORED_ROWS = f"""
1,m0,A,0,0,2,0,1008,0f,00000000ddccbbaa,,
2,m0,A,4,0,2,1,5008,0f,,,
3,m0,D,0,,2,0,,,,0,0
4,m0,D,1,,2,1,,,00000000ddccbbaa,0,0
5,m0,A,0,0,2,0,1008,0f,0000000044332211,,
6,m0,A,4,0,2,1,500c,f0,,,
7,m0,D,0,,2,0,,,,0,0
8,m0,D,1,,2,1,,,{ZEROS},0,0
9,m0,A,0,0,2,0,2008,0f,00000000ddccbbaa,,
10,m0,A,4,0,2,1,6008,0f,,,
11,m0,D,0,,2,0,,,,0,0
12,m0,D,1,,2,1,,,{ZEROS},0,0
13,m0,A,0,0,2,0,5010,0f,00000000ddccbbaa,,
14,m0,A,4,0,2,1,1010,0f,,,
15,m0,D,0,,2,0,,,,0,0
16,m0,D,1,,2,1,,,00000000ddccbbaa,0,0
17,m0,A,4,0,2,0,1010,0f,,,
18,m0,A,4,0,2,1,5010,0f,,,
19,m0,D,1,,2,0,,,00000000ddccbbaa,0,0
20,m0,D,1,,2,1,,,00000000ddccbbaa,0,0
21,m0,A,0,0,2,0,3008,0f,00000000ddccbbaa,,
22,m0,A,4,0,2,1,7008,0f,,,
23,m0,D,0,,2,0,,,,0,0
24,m0,D,1,,2,1,,,{ZEROS},0,0
"""
MIRRORED_COVERED = """coverage 2
asked m0 p0 putfull 2 aligned 3
asked m0 p0 get 2 aligned 5
asked m0 p1 putfull 2 aligned 1
asked m0 p1 get 2 aligned 1
asked m0 p2 putfull 2 aligned 1
asked m0 p2 get 2 aligned 1
answered m0 p0 putfull 2 given 3
answered m0 p0 get 2 given 5
answered m0 p1 putfull 2 given 1
answered m0 p1 get 2 given 1
answered m0 p2 putfull 2 given 1
answered m0 p2 get 2 given 1
beats m0 p0 A 1 8
beats m0 p0 D 1 8
beats m0 p1 A 1 2
beats m0 p1 D 1 2
beats m0 p2 A 1 2
beats m0 p2 D 1 2
in_flight m0 1 6
in_flight m0 2 6
at_port p0 1 4
at_port p0 2 4
at_port p1 1 1
at_port p1 2 1
at_port p2 1 1
at_port p2 2 1
again m0 2 10
contested p0 2
source m0 0 6
source m0 1 6
range p0 0 4
range p0 1 4
range p1 0 1
range p1 1 1
range p2 0 1
range p2 1 1
latency p0 2 8
latency p1 2 2
latency p2 2 2
lane m0 2 0 11
lane m0 2 4 1
after p0 read read 2
after p0 read write 1
after p0 write read 2
"""
# Ports that list masters: at port 0 dma has even sources, and cpu odd ones; at port 1, cpu has the sources 8 and 12, and dma none.
LISTED = """
[[port]]
kind = "ram"
base = 0x1000
length = 64
hosts = ["dma", 0]

[[port]]
kind = "ram"
base = 0x2000
length = 64
sources = [{ master = "cpu", first = 8, stride = 4 }]

[[master]]
name = "cpu"
sources = 2

[[master]]
name = "dma"
sources = 1
"""
# Gets of dma, of cpu by its source 1 and by its source 0, whose replies come in the order 1, 0, dma; and one by source 1 at the other port, 3 after
# the reply that source had.
LISTED_ROWS = f"""
1,p0,A,4,0,2,0,1000,0f,,,
2,p0,A,4,0,2,3,1004,f0,,,
3,p1,A,4,0,2,8,2000,0f,,,
4,p0,D,1,,2,3,,,{ZEROS},0,0
5,p1,D,1,,2,8,,,{ZEROS},0,0
6,p0,D,1,,2,0,,,{ZEROS},0,0
7,p1,A,4,0,2,12,2000,0f,,,
8,p1,D,1,,2,12,,,{ZEROS},0,0
"""
LISTED_COVERED = """coverage 2
asked m0 p0 get 2 aligned 1
asked m0 p1 get 2 aligned 2
asked m1 p0 get 2 aligned 1
answered m0 p0 get 2 given 1
answered m0 p1 get 2 given 2
answered m1 p0 get 2 given 1
beats m0 p0 A 1 1
beats m0 p0 D 1 1
beats m0 p1 A 1 2
beats m0 p1 D 1 2
beats m1 p0 A 1 1
beats m1 p0 D 1 1
in_flight m0 1 2
in_flight m0 2 1
in_flight m1 1 1
at_port p0 1 1
at_port p0 2 1
at_port p1 1 2
again m0 3 1
source m0 0 1
source m0 1 2
source m1 0 1
range p0 0 2
range p1 0 2
edge p0 0 first 1
edge p1 0 first 2
latency p0 2 1
latency p0 4 1
latency p1 1 1
latency p1 2 1
lane m0 2 0 2
lane m0 2 4 1
lane m1 2 0 1
after p1 read read 1
"""
# Three gets of one master to two ports. The reply of the third one overtakes the first, which goes to the same port, and the second, which goes to
# another; then that of the second overtakes the first. Partial puts of 1, 2 and 8 bytes give all, one, and the lower half.
OVERTAKING = """
[[port]]
kind = "ram"
base = 0x1000
length = 64

[[port]]
kind = "ram"
base = 0x2000
length = 64

[[master]]
sources = 3
"""
OVERTAKING_ROWS = f"""
1,m0,A,4,0,2,0,1000,0f,,,
2,m0,A,4,0,2,1,2000,0f,,,
3,m0,A,4,0,2,2,1004,f0,,,
4,m0,D,1,,2,2,,,{ZEROS},0,0
5,m0,D,1,,2,1,,,{ZEROS},0,0
6,m0,D,1,,2,0,,,{ZEROS},0,0
7,m0,A,1,0,0,0,1000,01,00000000000000aa,,
8,m0,D,0,,0,0,,,,0,0
9,m0,A,1,0,1,1,1002,04,0000000000bb0000,,
10,m0,D,0,,1,1,,,,0,0
11,m0,A,1,0,3,2,1008,0f,00000000ddccbbaa,,
12,m0,D,0,,3,2,,,,0,0
"""
OVERTAKING_COVERED = """coverage 2
asked m0 p0 putpart 0 aligned 1
asked m0 p0 putpart 1 aligned 1
asked m0 p0 putpart 3 aligned 1
asked m0 p0 get 2 aligned 2
asked m0 p1 get 2 aligned 1
answered m0 p0 putpart 0 given 1
answered m0 p0 putpart 1 given 1
answered m0 p0 putpart 3 given 1
answered m0 p0 get 2 given 2
answered m0 p1 get 2 given 1
beats m0 p0 A 1 5
beats m0 p0 D 1 5
beats m0 p1 A 1 1
beats m0 p1 D 1 1
mask m0 p0 0 all 1
mask m0 p0 1 one 1
mask m0 p0 3 low 1
in_flight m0 1 4
in_flight m0 2 1
in_flight m0 3 1
at_port p0 1 4
at_port p0 2 1
at_port p1 1 1
overtook m0 p0 same 1
overtook m0 p0 other 1
overtook m0 p1 other 1
again m0 1 1
again m0 4 2
source m0 0 2
source m0 1 2
source m0 2 2
range p0 0 5
range p1 0 1
edge p0 0 first 2
edge p1 0 first 1
latency p0 1 4
latency p0 4 1
latency p1 3 1
lane m0 0 0 1
lane m0 1 2 1
lane m0 2 0 2
lane m0 2 4 1
"""
# A get of all bytes of the second range, one of the last bytes of the first range, and one that begins in the first range and ends beyond it: its
# decoders look at the address alone, so the memory denies it.
RANGES = """
decode = "address"

[[port]]
kind = "ram"
ranges = [[0x1000, 16], [0x3000, 8]]

[[master]]
sources = 1
"""
RANGES_ROWS = f"""
1,m0,A,4,0,3,0,3000,ff,,,
2,m0,D,1,,3,0,,,{ZEROS},0,0
3,m0,A,4,0,2,0,100c,f0,,,
4,m0,D,1,,2,0,,,{ZEROS},0,0
5,m0,A,4,0,5,0,1000,ff,,,
6,m0,D,1,,5,0,,,{ZEROS},1,1
7,m0,D,1,,5,0,,,{ZEROS},1,1
8,m0,D,1,,5,0,,,{ZEROS},1,1
9,m0,D,1,,5,0,,,{ZEROS},1,1
"""
RANGES_COVERED = """coverage 2
asked m0 p0 get 2 aligned 1
asked m0 p0 get 3 aligned 1
asked m0 p0 get 5 aligned 1
answered m0 p0 get 2 given 1
answered m0 p0 get 3 given 1
answered m0 p0 get 5 denied 1
beats m0 p0 A 1 3
beats m0 p0 D 1 2
beats m0 p0 D 4 1
in_flight m0 1 3
at_port p0 1 3
again m0 1 2
source m0 0 3
range p0 0 2
range p0 1 1
edge p0 0 first 1
edge p0 0 last 2
edge p0 1 first 1
edge p0 1 last 1
latency p0 1 3
gap m0 p0 D 1 3
refused p0 beyond 1
lane m0 2 4 1
after p0 read read 1
"""
# A put and a get of four beats each, where a clock has ten units of time. The beats of the put are 1, 4 and 1 clocks apart, and it is answered 9
# clocks after its first one. The get's reply begins at once, and its beats are 2, 17 and 1 clocks apart.
WAITS = """
period = 10

[[port]]
kind = "ram"
base = 0x1000
length = 64

[[master]]
sources = 1
"""
WAITS_ROWS = f"""
10,m0,A,0,0,5,0,1000,ff,{ZEROS},,
20,m0,A,0,0,5,0,1000,ff,{ZEROS},,
60,m0,A,0,0,5,0,1000,ff,{ZEROS},,
70,m0,A,0,0,5,0,1000,ff,{ZEROS},,
100,m0,D,0,,5,0,,,,0,0
110,m0,A,4,0,5,0,1000,ff,,,
110,m0,D,1,,5,0,,,{ZEROS},0,0
130,m0,D,1,,5,0,,,{ZEROS},0,0
300,m0,D,1,,5,0,,,{ZEROS},0,0
310,m0,D,1,,5,0,,,{ZEROS},0,0
"""
WAITS_COVERED = """coverage 2
asked m0 p0 putfull 5 aligned 1
asked m0 p0 get 5 aligned 1
answered m0 p0 putfull 5 given 1
answered m0 p0 get 5 given 1
beats m0 p0 A 1 1
beats m0 p0 A 4 1
beats m0 p0 D 1 1
beats m0 p0 D 4 1
in_flight m0 1 2
at_port p0 1 2
again m0 1 1
source m0 0 2
range p0 0 2
edge p0 0 first 2
latency p0 0 1
latency p0 8 1
gap m0 p0 A 1 2
gap m0 p0 A 4 1
gap m0 p0 D 1 1
gap m0 p0 D 2 1
gap m0 p0 D 16 1
after p0 write read 1
"""
# A get at the address of a port to which the master has no path.
PATHS = """
[[port]]
kind = "ram"
base = 0x1000
length = 64

[[port]]
kind = "ram"
base = 0x2000
length = 64

[[master]]
sources = 1
reach = [0]
"""
PATHS_ROWS = f"""
1,m0,A,4,0,2,0,2000,0f,,,
2,m0,D,1,,2,0,,,{ZEROS},1,1
"""
PATHS_COVERED = """coverage 2
asked m0 error get 2 aligned 1
answered m0 error get 2 denied 1
beats m0 error A 1 1
beats m0 error D 1 1
in_flight m0 1 1
at_port error 1 1
source m0 0 1
latency error 1 1
refused error no_path 1
lane m0 2 0 1
"""
# Two atomics of a word, a put of its last byte, a prefetch of eight bytes with it, and a get of the other half of these. Each has a byte in common
# with the one before it. The last get has none.
BESIDE = """
[[port]]
kind = "ram"
base = 0x1000
length = 64

[[master]]
sources = 1
"""
BESIDE_ROWS = f"""
1,m0,A,2,4,2,0,1000,0f,0000000000000001,,
2,m0,D,1,,2,0,,,{ZEROS},0,0
3,m0,A,3,0,2,0,1000,0f,0000000000000000,,
4,m0,D,1,,2,0,,,0000000000000001,0,0
5,m0,A,0,0,0,0,1003,08,0000000000000000,,
6,m0,D,0,,0,0,,,,0,0
7,m0,A,5,0,3,0,1000,ff,,,
8,m0,D,2,,3,0,,,,0,0
9,m0,A,4,0,2,0,1004,f0,,,
10,m0,D,1,,2,0,,,{ZEROS},0,0
11,m0,A,4,0,2,0,1000,0f,,,
12,m0,D,1,,2,0,,,0000000000000001,0,0
"""
BESIDE_COVERED = """coverage 2
asked m0 p0 putfull 0 aligned 1
asked m0 p0 add 2 aligned 1
asked m0 p0 xor 2 aligned 1
asked m0 p0 get 2 aligned 2
asked m0 p0 prefetchr 3 aligned 1
answered m0 p0 putfull 0 given 1
answered m0 p0 add 2 given 1
answered m0 p0 xor 2 given 1
answered m0 p0 get 2 given 2
answered m0 p0 prefetchr 3 given 1
beats m0 p0 A 1 6
beats m0 p0 D 1 6
in_flight m0 1 6
at_port p0 1 6
again m0 1 5
source m0 0 6
range p0 0 6
edge p0 0 first 4
latency p0 1 6
lane m0 0 3 1
lane m0 2 0 3
lane m0 2 4 1
after p0 write hint 1
after p0 atomic write 1
after p0 atomic atomic 1
after p0 hint read 1
"""
# A put of two beats, the second one corrupt; a get of both, whose reply has two corrupt beats; and a corrupt atomic that is denied. The one beat of
# that reply is marked corrupt too, as each of a denied one, and is not counted.
CORRUPT = """
corrupt = true

[[port]]
kind = "ram"
base = 0x1000
length = 64

[[master]]
sources = 1
"""
CORRUPT_ROWS = f"""
1,m0,A,0,0,4,0,1000,ff,{ZEROS},,0
2,m0,A,0,0,4,0,1000,ff,{ZEROS},,1
3,m0,D,0,,4,0,,,,0,0
4,m0,A,4,0,4,0,1000,ff,,,
5,m0,D,1,,4,0,,,{ZEROS},0,1
6,m0,D,1,,4,0,,,{ZEROS},0,1
7,m0,A,2,4,2,0,1020,0f,{ZEROS},,1
8,m0,D,1,,2,0,,,{ZEROS},1,1
"""
CORRUPT_COVERED = """coverage 2
asked m0 p0 putfull 4 aligned 1
asked m0 p0 add 2 aligned 1
asked m0 p0 get 4 aligned 1
answered m0 p0 putfull 4 given 1
answered m0 p0 add 2 denied 1
answered m0 p0 get 4 given 1
beats m0 p0 A 1 2
beats m0 p0 A 2 1
beats m0 p0 D 1 2
beats m0 p0 D 2 1
in_flight m0 1 3
at_port p0 1 3
again m0 1 2
source m0 0 3
range p0 0 3
edge p0 0 first 2
latency p0 1 2
latency p0 2 1
gap m0 p0 A 1 1
gap m0 p0 D 1 1
refused p0 unserved 1
lane m0 2 0 1
after p0 write read 1
corrupt m0 p0 putfull 4 asked 1
corrupt m0 p0 add 2 asked 1
corrupt m0 p0 get 4 answered 2
"""
# What further captures show: each with its system, its rows and its coverage.
FURTHER = {
    "replies overtake at the same port and at another": (OVERTAKING, OVERTAKING_ROWS, OVERTAKING_COVERED),
    "requests have the ends of ranges": (RANGES, RANGES_ROWS, RANGES_COVERED),
    "beats wait": (WAITS, WAITS_ROWS, WAITS_COVERED),
    "a master has no path": (PATHS, PATHS_ROWS, PATHS_COVERED),
    "requests share bytes": (BESIDE, BESIDE_ROWS, BESIDE_COVERED),
    "data are corrupt": (CORRUPT, CORRUPT_ROWS, CORRUPT_COVERED),
}
