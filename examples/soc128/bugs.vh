// Bugs of this design, for examples/soc128/check, which plants one at a time: iverilog -DBUG=MASK_DROPPED has the first. The modules of
// the design include this file, and ask `BUG == NAME where the bug is.
`ifndef BUG
`define BUG NONE
`endif
localparam NONE = 0,
  MASK_DROPPED = 1,          // the adapter's second narrow beat of a partial put has no mask
  REQUEST_LANES_SHIFTED = 2, // the adapter takes the lanes of an eight-byte request from the low half, wherever they stand
  REPLY_LANES_SHIFTED = 3,   // the adapter puts a reply of four bytes into the lowest word, wherever it belongs
  HALVES_APART = 4,          // the adapter makes two replies of the two narrow beats of eight bytes
  STALE_SOURCE = 5,          // the adapter's replies have the source of the request that it passed on last
  ADAPTER_LOSES_DENIAL = 6,  // the adapter's replies have no denied
  WIDE_TOO_HIGH = 7,         // after the crossbar the DMA engine's sources begin at 20, not at 16
  ARBITER_UNLOCKS = 8,       // two clients' bursts are mixed at a slave
  REPLIES_MIXED = 9,         // two slaves' bursts are mixed at a client
  ERROR_ONE_BEAT = 10,       // the error responder answers a burst with one beat
  DENIED_FIRST_ALONE = 11,   // the error responder denies the first beat of a burst alone
  CORRUPT_LOST = 12,         // denied replies that carry bytes are not corrupt
  HALVES_EXCHANGED = 13,     // the boot ROM's words have their halves exchanged
  ATOMIC_UNDENIED = 14,      // slaves without atomics answer one as a get
  READ_PASSES_WRITE = 15,    // at DRAM a get passes a put that waits in the write queue
  ATOMIC_LOSES_LOCK = 16,    // at DRAM other requests come between an atomic's read and its write
  OPERAND_AT_LANE_0 = 17,    // at DRAM an atomic takes its operand from the lowest lanes
  HINT_ACKED = 18,           // DRAM answers a prefetch as a put
  EARLY_ACK = 19,            // DRAM answers a put of several beats after the first
  BANK_BIT_SHORT = 20,       // DRAM has one address bit too few, and repeats after 128 MiB
  BURST_STANDS = 21;         // each beat of a put is written where the first belongs
