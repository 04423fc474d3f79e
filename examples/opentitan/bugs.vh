// Bugs of this design, for examples/opentitan/check: +bug=2 plants the second one when the simulation begins, and -DBUG=NOT_HELD when it is
// built. The modules of the design include this file, and ask `BUG == NAME where the bug is.
`ifndef BUG
`define BUG tb.bug
`endif
localparam NONE = 0,
  SOURCE_NOT_RESTORED = 1,   // SRAM's socket gives the source back with the host's number still in its low bits
  NOT_HELD = 2,              // a host's socket lets a request go to another device while replies are under way
  ERROR_ANSWERS_ZEROS = 3,   // the error responder answers zeros in place of ones
  ERROR_NOT_FLAGGED = 4,     // the error responder answers without d_error
  REACH_TOO_WIDE = 5,        // the debugger's socket passes requests for debug memory, to which the debugger has no path, on to SRAM
  FIFO_TAKES_ONE_MORE = 6,   // the FIFO of requests between the clocks takes one more than it has places for
  POINTER_TOO_EARLY = 7,     // the slow side of that FIFO looks at the write pointer itself, before the entry is written
  USER_BITS_LOST = 8,        // the FIFO between the clocks does not carry the user bits
  BYTE_ENABLES_LOST = 9,     // a put of less than a word writes the whole word to SRAM
  READ_DATA_NOT_HELD = 10,   // SRAM's adapter answers what SRAM reads now, although the host took its time and another read came after
  HARDWARE_WINS = 11,        // in the cycle in which hardware changes the status of a register, what software writes to the register is lost
  REQUEST_REPLACED = 12;     // a socket of several hosts exchanges a request that waits for another host's
