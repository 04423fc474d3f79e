// Bugs of this design, for examples/soc32/check, which plants one at a time: iverilog -DBUG=STALE_HOST has the second. The modules of
// the design include this file, and ask `BUG == NAME where the bug is.
`ifndef BUG
`define BUG NONE
`endif
localparam NONE = 0,
  SOURCE_BIT_LOST = 1,     // a socket of several hosts loses the lowest bit of the host's source
  STALE_HOST = 2,          // a socket of several hosts routes a reply to the host that it served last, whatever the reply's source says
  HOST_NUMBER_ABOVE = 3,   // RAM's socket puts the host's number above the source, and takes it from there
  READY_TO_ALL = 4,        // of hosts that contend at a socket all are told that their request was taken
  NOT_HELD = 5,            // a host's socket lets a request go to another device while replies are under way
  LATE_ERROR = 6,          // a host's socket doesn't count what it sent to the error responder
  ERROR_WITHOUT_DATA = 7,  // the error responder answers a get as a put
  ERROR_FLAG_LOST = 8,     // the reply register before a host loses d_error
  UART_BIT_SHORT = 9,      // uart0 is selected by one address bit too few, and gets what uart1 should
  POWER_BIT_SHORT = 10,    // power is selected by one address bit too few, and gets what resets should
  SECOND_RANGE_LOST = 11,  // the decoder has forgotten the debug module's second range
  RANGES_ARE_ONE = 12,     // the debug module has one memory for both ranges
  RAM_BIT_SHORT = 13,      // RAM has one address bit too few, and repeats after 64 KiB
  BYTE_ENABLES_LOST = 14,  // a put of less than a word writes the whole word to RAM
  BYTE_IN_LANE_0 = 15,     // RAM answers a byte in the lowest lane, wherever it belongs
  STALE_READ_DATA = 16,    // a get that RAM takes right after another answers what that one did
  PUT_TO_ROM = 17,         // ROMs answer puts without d_error
  IMAGE_LATE = 18,         // from its 32nd word on a ROM answers the next one
  STATUS_WRITTEN = 19,     // wakeup status takes what is written, in place of clearing ones
  DENIED_PUT_WRITES = 20,  // registers deny a partial put, and write it
  SIZE_OF_NEXT = 21,       // a device's reply has the size of the request that it took last
  UART_POPS_TWICE = 22,    // a get of a UART pops two bytes
  REPLY_KEPT = 23,         // a reset in mid-run leaves the replies that wait in RAM
  REPLIES_DROPPED = 24,    // after a reset in mid-run a host's socket drops as many replies as it was waiting for
  COUNT_KEPT = 25,         // after a reset in mid-run a host's socket still counts the requests that were under way
  REGISTERS_KEPT = 26,     // a reset in mid-run leaves registers as they are
  RAM_CLEARED = 27,        // a reset clears RAM
  STATUS_TOO_WIDE = 28;    // the status of power also changes the word behind it
