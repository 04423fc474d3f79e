// Bugs of this design, for examples/rtl/check, which plants one at a time: iverilog -DBUG=LOST_BYTE_ENABLE has the first. The modules
// of the design include this file, and ask `BUG == NAME where the bug is.
`ifndef BUG
`define BUG NONE
`endif
localparam NONE = 0,
  LOST_BYTE_ENABLE = 1,       // a partial put writes all eight lanes of a beat
  BURST_ADDRESS_STANDS = 2,   // each beat of a put is written to the first beat's word
  SOURCE_NOT_RESTORED = 3,    // master 1 gets its replies with the wide source
  REPLY_TO_WRONG_MASTER = 4,  // where both RAMs answer at once, RAM 1's reply goes where RAM 0's goes
  ATOMIC_ANSWERS_NEW = 5,     // an atomic answers what it leaves, not what it found
  DROPPED_BEAT = 6,           // of two masters that contend both are told that their beat was taken
  STALE_READ = 7,             // the last write waits in a buffer that gets don't look into
  DECODER_SHORT = 8,          // the decoder sends the last bytes of a RAM to the error responder
  WRITTEN_TWICE = 9,          // the last beat of a put is written again when the put is answered
  DENIAL_LOST = 10,           // replies reach the masters without their denied
  ARBITER_LETS_GO = 11,       // two masters' bursts are mixed at a RAM
  REPLIES_MIXED = 12,         // two RAMs' bursts are mixed at a master
  EARLY_REPLY = 13,           // a put is answered from its first beat on
  UNSIGNED_MINIMUM = 14,      // min and max compare as minu and maxu do
  CARRY_ESCAPES = 15,         // an add of four bytes carries into the next four
  READ_WHEN_ANSWERED = 16,    // a get reads when it is answered, while puts write when they are taken
  PREFETCH_READS = 17,        // a prefetch is answered as a get
  BLOCK_TOO_LOW = 18,         // master 1's wide sources begin one too low
  MASK_FILLED = 19,           // a partial put reaches the RAM with all active lanes enabled
  CORRUPT_ALWAYS = 20,        // every reply with bytes is corrupt
  REPLIED_TWICE = 21,         // a put is answered twice
  NOT_RESET = 22,             // the RAMs are never initialized
  DENIED_PUT_WRITES = 23,     // a put that is denied as misaligned writes all the same
  LOST_REQUEST = 24;          // the error responder forgets every request of one byte
