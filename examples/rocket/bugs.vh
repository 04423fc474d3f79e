// Bugs of this design, for examples/rocket/check: +bug=2 plants the second one when the simulation begins, and -DBUG=SOURCE_KEPT when it is
// built. The modules of the design include this file, and ask `BUG == NAME where the bug is.
`ifndef BUG
`define BUG tb.bug
`endif
localparam NONE = 0,
  ARBITER_UNLOCKS = 1,         // the crossbar's arbiter lets the other master in, in the midst of a burst
  SOURCE_KEPT = 2,             // the crossbar does not take from a reply to the DMA engine what it added to the source
  UNFAIR = 3,                  // the crossbar's arbiter always takes the core first
  BUFFER_OVERRUN = 4,          // the buffer takes a beat of a request while it is full
  LOCK_FORGOTTEN = 5,          // the automaton lets requests to the address of an atomic in, between its get and its put
  MINIMUM_UNSIGNED = 6,        // the automaton's minimum takes numbers for unsigned ones
  MASK_DROPPED = 7,            // the fragmenter sets all mask bits of a partial put, from its second fragment on
  EARLY_ACK = 8,               // the fragmenter passes on the acknowledgement of the first fragment, not that of the last
  FRAGMENT_ADDRESS_STANDS = 9, // each fragment of a get has the address of the first
  LOW_MASK = 10,               // the width widget takes the mask of the low half, whatever the address
  GIVEN_TWICE = 11,            // the shrinker takes a source for free while its reply still waits for ready
  ERROR_ONE_BEAT = 12,         // the error device answers a burst with one beat
  TIME_RUNS_BACK = 13;         // the timer counts down now and then
