// A link as Chisel names it. PREFIX is auto_in_, auto_out_1_, ..; BYTES is the width of its data bus, and SOURCE_BITS that of its sources.
`ifndef LINKS_VH
`define LINKS_VH

// the ports of a module at the side of its masters
`define LINK_IN(PREFIX, BYTES, SOURCE_BITS) \
  output PREFIX``a_ready, \
  input PREFIX``a_valid, \
  input [2:0] PREFIX``a_bits_opcode, \
  input [2:0] PREFIX``a_bits_param, \
  input [2:0] PREFIX``a_bits_size, \
  input [SOURCE_BITS-1:0] PREFIX``a_bits_source, \
  input [31:0] PREFIX``a_bits_address, \
  input [BYTES-1:0] PREFIX``a_bits_mask, \
  input [8*BYTES-1:0] PREFIX``a_bits_data, \
  input PREFIX``a_bits_corrupt, \
  input PREFIX``d_ready, \
  output PREFIX``d_valid, \
  output [2:0] PREFIX``d_bits_opcode, \
  output [1:0] PREFIX``d_bits_param, \
  output [2:0] PREFIX``d_bits_size, \
  output [SOURCE_BITS-1:0] PREFIX``d_bits_source, \
  output PREFIX``d_bits_sink, \
  output PREFIX``d_bits_denied, \
  output [8*BYTES-1:0] PREFIX``d_bits_data, \
  output PREFIX``d_bits_corrupt

// and at the side of its slaves
`define LINK_OUT(PREFIX, BYTES, SOURCE_BITS) \
  input PREFIX``a_ready, \
  output PREFIX``a_valid, \
  output [2:0] PREFIX``a_bits_opcode, \
  output [2:0] PREFIX``a_bits_param, \
  output [2:0] PREFIX``a_bits_size, \
  output [SOURCE_BITS-1:0] PREFIX``a_bits_source, \
  output [31:0] PREFIX``a_bits_address, \
  output [BYTES-1:0] PREFIX``a_bits_mask, \
  output [8*BYTES-1:0] PREFIX``a_bits_data, \
  output PREFIX``a_bits_corrupt, \
  output PREFIX``d_ready, \
  input PREFIX``d_valid, \
  input [2:0] PREFIX``d_bits_opcode, \
  input [1:0] PREFIX``d_bits_param, \
  input [2:0] PREFIX``d_bits_size, \
  input [SOURCE_BITS-1:0] PREFIX``d_bits_source, \
  input PREFIX``d_bits_sink, \
  input PREFIX``d_bits_denied, \
  input [8*BYTES-1:0] PREFIX``d_bits_data, \
  input PREFIX``d_bits_corrupt

// the wires between two modules
`define LINK_WIRES(PREFIX, BYTES, SOURCE_BITS) \
  wire PREFIX``a_ready, PREFIX``a_valid, PREFIX``a_bits_corrupt, PREFIX``d_ready, PREFIX``d_valid; \
  wire PREFIX``d_bits_sink, PREFIX``d_bits_denied, PREFIX``d_bits_corrupt; \
  wire [2:0] PREFIX``a_bits_opcode, PREFIX``a_bits_param, PREFIX``a_bits_size, PREFIX``d_bits_opcode, PREFIX``d_bits_size; \
  wire [1:0] PREFIX``d_bits_param; \
  wire [SOURCE_BITS-1:0] PREFIX``a_bits_source, PREFIX``d_bits_source; \
  wire [31:0] PREFIX``a_bits_address; \
  wire [BYTES-1:0] PREFIX``a_bits_mask; \
  wire [8*BYTES-1:0] PREFIX``a_bits_data, PREFIX``d_bits_data;

// a link of a module at wires
`define LINK_AT(PORT, WIRE) \
  .PORT``a_ready(WIRE``a_ready), .PORT``a_valid(WIRE``a_valid), .PORT``a_bits_opcode(WIRE``a_bits_opcode), \
  .PORT``a_bits_param(WIRE``a_bits_param), .PORT``a_bits_size(WIRE``a_bits_size), .PORT``a_bits_source(WIRE``a_bits_source), \
  .PORT``a_bits_address(WIRE``a_bits_address), .PORT``a_bits_mask(WIRE``a_bits_mask), .PORT``a_bits_data(WIRE``a_bits_data), \
  .PORT``a_bits_corrupt(WIRE``a_bits_corrupt), .PORT``d_ready(WIRE``d_ready), .PORT``d_valid(WIRE``d_valid), \
  .PORT``d_bits_opcode(WIRE``d_bits_opcode), .PORT``d_bits_param(WIRE``d_bits_param), .PORT``d_bits_size(WIRE``d_bits_size), \
  .PORT``d_bits_source(WIRE``d_bits_source), .PORT``d_bits_sink(WIRE``d_bits_sink), .PORT``d_bits_denied(WIRE``d_bits_denied), \
  .PORT``d_bits_data(WIRE``d_bits_data), .PORT``d_bits_corrupt(WIRE``d_bits_corrupt)

// the bundles of a link: 42 bits, the source, and nine bits for each byte; and 11 bits, the source, and eight bits for each byte
`define A_BITS(BYTES, SOURCE_BITS) (42 + SOURCE_BITS + 9 * BYTES)
`define D_BITS(BYTES, SOURCE_BITS) (11 + SOURCE_BITS + 8 * BYTES)
`define A_OF(PREFIX) {PREFIX``a_bits_opcode, PREFIX``a_bits_param, PREFIX``a_bits_size, PREFIX``a_bits_source, PREFIX``a_bits_address, \
  PREFIX``a_bits_mask, PREFIX``a_bits_data, PREFIX``a_bits_corrupt}
`define D_OF(PREFIX) {PREFIX``d_bits_opcode, PREFIX``d_bits_param, PREFIX``d_bits_size, PREFIX``d_bits_source, PREFIX``d_bits_sink, \
  PREFIX``d_bits_denied, PREFIX``d_bits_data, PREFIX``d_bits_corrupt}
`endif
