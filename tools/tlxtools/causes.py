"""What to look at for each fault of a capture: for people, in the order of likelihood."""

CAUSES = {
    "unknown opcode": ["the encoding of the opcode or of the parameter at this link"],
    "wrong param": ["d_param: it is 0 in each reply of these operations"],
    "size out of range": ["the width of the size at this link; a message has at most 256 bytes"],
    "field changed": ["a multiplexer or an arbiter that changes its choice within a burst", "two messages of one channel that interleave"],
    "unaligned address": ["the address generator of the master: a request starts at a multiple of its size",
                          "an adapter that cuts requests", "`unaligned = true` in the system file, if slaves are to deny such requests"],
    "wrong mask": ["the mask generator: which lanes belong to the address and the size", "the width of the bus in the system file"],
    "unknown data": ["a register that nothing initializes", "a memory that the system file does not say is unknown at reset"],
    "wrong corrupt flag": ["d_corrupt: it stands with each beat of a denied reply that has data, and with no other",
                           "a_corrupt: no get and no prefetch is marked",
                           "`corrupt = true` in the system file, if data may be corrupt, as those of a memory with error correction",
                           "`d_corrupt = \"-\"` in the system file, if the design has no such signal"],
    "no such source": ["the sources of the masters in the system file (sources, first, stride), or of the port (hosts, sources)",
                       "the bits that the crossbar adds to a source"],
    "source in flight": ["the allocator of sources: it gives one again before its last reply has ended"],
    "not this port's address": ["the address decoder of the crossbar", "the ranges of the port in the system file",
                                "the ports that the master reaches, by `reach`, or by `hosts` or `sources` of the port, in the system file"],
    "no master sent this request": ["what the crossbar changes on the way: address, size, mask or data of a register stage",
                                    "a beat that was sent twice, or lost",
                                    "the number of the host that the crossbar puts into the source: `first` and `stride` of the master, or `hosts` "
                                    "or `sources` of the port"],
    "reply without request": ["a reply that was sent twice", "the source that a slave, an adapter or a bridge gives back"],
    "reply before its request ended": ["a slave that answers with the first beat of a burst"],
    "reply out of order": ["the queue that keeps the order of requests at this link: its depth, and what it keeps of each request",
                           "the arbiter of replies: it lets a faster port, or the error port, reply first",
                           "`fifo` of this link in the system file, if replies may overtake there"],
    "size of another request": ["replies that were mixed up: which request the reply's source belongs to"],
    "opcode of another operation": ["replies that were mixed up: which request the reply's source belongs to",
                                    "the slave's choice of the reply's opcode"],
    "wrong reply": ["a write that was lost, or done at another address", "byte enables and the order of bytes",
                    "a read that passes a write or an atomic to the same bytes", "the moment when requests take effect: --order reply, --order any"],
    "the port gave no such reply": ["the way of the reply through the crossbar: its multiplexer and its register stages",
                                    "an adapter on the way: the source that it gives back, and how it puts beats together"],
    "late reply": ["an arbiter on the way that lets others go first", "a slave, or a queue before it, that is slower than the limit",
                   "`--within N`: N counts units of the capture's time, and not clocks"],
    "no reply in time": ["a request or a reply that was lost on the way, or a slave that does not answer this one",
                         "a deadlock: each of several waits until another one goes on",
                         "`--within N`: N counts units of the capture's time, and not clocks"],
}
# Before these, of a wrong reply whose bytes are the answer of another master's request, or whose word is that of a reply before.
EXCHANGED = ["what keeps the data of replies apart: a register or a queue that several requests share, and when it is loaded"]
# Before these, of a request at a port whose source would be right with another shift.
SHIFTED = ["how far the socket at the port shifts sources: `hosts` or `sources` of the port, `stride` of the master"]
# Before these, of a part of a master's request at a port; behind these, of a request there that is a master's but for its source, and of a reply
# to a request that has not crossed at its port.
ADAPTED = ["an adapter before the port that renumbers sources, cuts requests, does atomics by gets and puts, or answers by itself: "
           "`crossing = \"none\"` of the port"]
# Of a wrong reply that is denied and should not be, or is not and should be.
DENIED = ["`sizes`, `kind` and `ranges` of the port in the system file", "what the slave denies, or the crossbar in its place"]
