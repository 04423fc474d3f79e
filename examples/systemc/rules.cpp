// Each rule of TLM-2.0 that a tlx::target keeps, by payloads and what they must come to: the last line is 'N passed, M failed'. What is
// expected was worked out by hand, from the system below and the rows above it.
#include <cstdio>
#include <iostream>

#include <tlm_utils/simple_initiator_socket.h>

#include "tlx_target.h"

namespace {

using bytes = std::vector<unsigned char>;
using tlx::operation;

const char SYSTEM[] =
    "slots = 1\n"
    "[[port]]\nkind = \"ram\"\nbase = 0x1000\nlength = 64\nreset = \"00112233445566778899aabbccddeeff\"\n"
    "[[port]]\nkind = \"rom\"\nbase = 0x2000\nlength = 16\nreset = \"a0a1a2a3a4a5a6a7\"\n"
    "[[port]]\nkind = \"regs\"\nbase = 0x3000\nlength = 16\n"
    "[[port]]\nkind = \"w1c\"\nbase = 0x4000\nlength = 8\nreset = \"ffffffff\"\n"
    "[[port]]\nkind = \"ram\"\nbase = 0x5000\nlength = 24\n"
    "[[master]]\nsources = 2\nops = []\n"
    "[[master]]\nsources = 1\nops = []\n";

// Ports by number; the error port stands after those of the system.
enum { RAM, ROM, REGS, W1C, SHORT_RAM, NOBODY, PORTS, UNSERVED = -1 };

const tlm::tlm_command READ = tlm::TLM_READ_COMMAND, WRITE = tlm::TLM_WRITE_COMMAND, IGNORE = tlm::TLM_IGNORE_COMMAND;
const tlm::tlm_command UNKNOWN = static_cast<tlm::tlm_command>(3);

const tlm::tlm_response_status OK = tlm::TLM_OK_RESPONSE, GENERIC = tlm::TLM_GENERIC_ERROR_RESPONSE,
                               ADDRESS = tlm::TLM_ADDRESS_ERROR_RESPONSE, COMMAND = tlm::TLM_COMMAND_ERROR_RESPONSE,
                               BURST = tlm::TLM_BURST_ERROR_RESPONSE, ENABLE = tlm::TLM_BYTE_ENABLE_ERROR_RESPONSE;

// A payload of master 0, as many bytes as `sent` has digits for, and what it comes to: the status, the port that served it, and what the
// data array holds then. Digits are two a byte.
struct row {
  const char *name;
  tlm::tlm_command command;
  std::uint64_t address;
  const char *sent, *enables;  // no byte enables: null
  operation asked;
  const char *operand;
  tlm::tlm_response_status status;
  int port;
  const char *held;
};

const operation PLAIN = operation::plain;

const row ROWS[] = {
    {"a read", READ, 0x1000, "eeeeeeee", nullptr, PLAIN, "", OK, RAM, "00112233"},
    {"a read of one byte", READ, 0x1003, "ee", nullptr, PLAIN, "", OK, RAM, "33"},
    {"a read of two beats", READ, 0x1000, "eeeeeeeeeeeeeeeeeeeeeeeeeeeeeeee", nullptr, PLAIN, "", OK, RAM,
     "00112233445566778899aabbccddeeff"},
    {"a write", WRITE, 0x1004, "deadbeef", nullptr, PLAIN, "", OK, RAM, "deadbeef"},
    {"what it left", READ, 0x1000, "eeeeeeeeeeeeeeee", nullptr, PLAIN, "", OK, RAM, "00112233deadbeef"},
    // byte enables
    {"a write of some bytes", WRITE, 0x1000, "aabbccdd", "ff00ff00", PLAIN, "", OK, RAM, "aabbccdd"},
    {"what it left", READ, 0x1000, "eeeeeeee", nullptr, PLAIN, "", OK, RAM, "aa11cc33"},
    {"enables that repeat", WRITE, 0x1008, "0102030405060708", "00ff", PLAIN, "", OK, RAM, "0102030405060708"},
    {"what they left", READ, 0x1008, "eeeeeeeeeeeeeeee", nullptr, PLAIN, "", OK, RAM, "8802aa04cc06ee08"},
    {"more enables than bytes", WRITE, 0x1010, "0a0b", "ff0000ff", PLAIN, "", OK, RAM, "0a0b"},
    {"what they left", READ, 0x1010, "eeee", nullptr, PLAIN, "", OK, RAM, "0a00"},
    {"no byte enabled", WRITE, 0x1010, "77", "00", PLAIN, "", OK, RAM, "77"},
    {"what that left", READ, 0x1010, "ee", nullptr, PLAIN, "", OK, RAM, "0a"},
    {"a read of some bytes", READ, 0x1000, "eeeeeeee", "00ffff00", PLAIN, "", OK, RAM, "ee11ccee"},
    {"an enable that is none", WRITE, 0x1000, "0000", "ff01", PLAIN, "", ENABLE, UNSERVED, "0000"},
    {"enables of no length", READ, 0x1000, "ee", "", PLAIN, "", ENABLE, UNSERVED, "ee"},
    // lengths and addresses
    {"three bytes", READ, 0x1000, "eeeeee", nullptr, PLAIN, "", BURST, UNSERVED, "eeeeee"},
    {"no bytes", READ, 0x1000, "", nullptr, PLAIN, "", BURST, UNSERVED, ""},
    {"an address that is not aligned", WRITE, 0x1002, "00000000", nullptr, PLAIN, "", ADDRESS, UNSERVED, "00000000"},
    {"an address that no port has", READ, 0x9000, "ee", nullptr, PLAIN, "", ADDRESS, NOBODY, "ee"},
    {"the last address", READ, 0xffffffffffffffff, "ee", nullptr, PLAIN, "", ADDRESS, NOBODY, "ee"},
    {"more bytes than the port has left", READ, 0x5010, "eeeeeeeeeeeeeeeeeeeeeeeeeeeeeeee", nullptr, PLAIN, "", ADDRESS, NOBODY,
     "eeeeeeeeeeeeeeeeeeeeeeeeeeeeeeee"},
    {"the last bytes", READ, 0x5010, "eeeeeeeeeeeeeeee", nullptr, PLAIN, "", OK, SHORT_RAM, "0000000000000000"},
    // what a slave denies
    {"a read of the ROM", READ, 0x2000, "eeeeeeeeeeeeeeee", nullptr, PLAIN, "", OK, ROM, "a0a1a2a3a4a5a6a7"},
    {"a write to the ROM", WRITE, 0x2000, "00", nullptr, PLAIN, "", GENERIC, ROM, "00"},
    {"what it left", READ, 0x2000, "ee", nullptr, PLAIN, "", OK, ROM, "a0"},
    {"a register", WRITE, 0x3004, "01020304", nullptr, PLAIN, "", OK, REGS, "01020304"},
    {"what it holds", READ, 0x3000, "eeeeeeeeeeeeeeee", nullptr, PLAIN, "", OK, REGS, "0000000001020304"},
    {"a byte of a register", READ, 0x3004, "ee", nullptr, PLAIN, "", GENERIC, REGS, "ee"},
    {"a register with enables", WRITE, 0x3004, "00000000", "ff", PLAIN, "", GENERIC, REGS, "00000000"},
    {"what it still holds", READ, 0x3004, "eeeeeeee", nullptr, PLAIN, "", OK, REGS, "01020304"},
    {"ones that clear", WRITE, 0x4000, "0f000080", nullptr, PLAIN, "", OK, W1C, "0f000080"},
    {"what they left", READ, 0x4000, "eeeeeeee", nullptr, PLAIN, "", OK, W1C, "f0ffff7f"},
    // commands
    {"a payload that asks for nothing", IGNORE, 0x1000, "77", nullptr, PLAIN, "", OK, UNSERVED, "77"},
    {".. not even lawfully", IGNORE, 0x9001, "777777", nullptr, PLAIN, "", OK, UNSERVED, "777777"},
    {"a command that is none", UNKNOWN, 0x1000, "77", nullptr, PLAIN, "", COMMAND, UNSERVED, "77"},
    // atomics: the old bytes come back; 0x1020 holds 80000001, and then what each leaves
    {"the word of the atomics", WRITE, 0x1020, "01000080", nullptr, PLAIN, "", OK, RAM, "01000080"},
    {"min: signed, it is less than 5", READ, 0x1020, "eeeeeeee", nullptr, operation::min, "05000000", OK, RAM, "01000080"},
    {"max: 5 is greater", READ, 0x1020, "eeeeeeee", nullptr, operation::max, "05000000", OK, RAM, "01000080"},
    {"minu: 5 is less", READ, 0x1020, "eeeeeeee", nullptr, operation::minu, "01000080", OK, RAM, "05000000"},
    {"maxu: 5 is not greater", READ, 0x1020, "eeeeeeee", nullptr, operation::maxu, "01000080", OK, RAM, "05000000"},
    {"xor", READ, 0x1020, "eeeeeeee", nullptr, operation::xor_bits, "ff0000ff", OK, RAM, "01000080"},
    {"or", READ, 0x1020, "eeeeeeee", nullptr, operation::or_bits, "0f0f0f0f", OK, RAM, "fe00007f"},
    {"and", READ, 0x1020, "eeeeeeee", nullptr, operation::and_bits, "ff00fff0", OK, RAM, "ff0f0f7f"},
    {"swap", READ, 0x1020, "eeeeeeee", nullptr, operation::swap, "ffffffff", OK, RAM, "ff000f70"},
    {"add", READ, 0x1020, "eeeeeeee", nullptr, operation::add, "02000000", OK, RAM, "ffffffff"},
    {"what is left: no carry", READ, 0x1020, "eeeeeeeeeeeeeeee", nullptr, PLAIN, "", OK, RAM, "0100000000000000"},
    {"add of eight bytes", READ, 0x1020, "eeeeeeeeeeeeeeee", nullptr, operation::add, "ffffffff00000000", OK, RAM, "0100000000000000"},
    {"what it left: a carry", READ, 0x1020, "eeeeeeeeeeeeeeee", nullptr, PLAIN, "", OK, RAM, "0000000001000000"},
    {"an atomic of two bytes", READ, 0x1020, "eeee", nullptr, operation::add, "0100", GENERIC, RAM, "eeee"},
    {"an atomic at the ROM", READ, 0x2000, "eeeeeeee", nullptr, operation::swap, "00000000", GENERIC, ROM, "eeeeeeee"},
    {"an atomic at no port", READ, 0x9000, "eeeeeeee", nullptr, operation::swap, "00000000", ADDRESS, NOBODY, "eeeeeeee"},
    {"an operand too short", READ, 0x1020, "eeeeeeee", nullptr, operation::add, "0100", BURST, UNSERVED, "eeeeeeee"},
    {"an atomic with enables", READ, 0x1020, "eeeeeeee", "ff", operation::add, "01000000", ENABLE, UNSERVED, "eeeeeeee"},
    {"an atomic that writes", WRITE, 0x1020, "00000000", nullptr, operation::swap, "00000000", COMMAND, UNSERVED, "00000000"},
    {"an atomic that is ignored", IGNORE, 0x1020, "00000000", nullptr, operation::swap, "00000000", COMMAND, UNSERVED, "00000000"},
    // prefetches
    {"a prefetch", IGNORE, 0x1000, "77777777", nullptr, operation::prefetch_read, "", OK, RAM, "77777777"},
    {"a prefetch to write", IGNORE, 0x1000, "77777777", nullptr, operation::prefetch_write, "", OK, RAM, "77777777"},
    {"a prefetch of a register", IGNORE, 0x3000, "77777777", nullptr, operation::prefetch_read, "", GENERIC, REGS, "77777777"},
    {"a prefetch at no port", IGNORE, 0x9000, "77", nullptr, operation::prefetch_read, "", ADDRESS, NOBODY, "77"},
    {"a prefetch that reads", READ, 0x1000, "77", nullptr, operation::prefetch_read, "", COMMAND, UNSERVED, "77"},
    {"an operation that is none", IGNORE, 0x1000, "77", nullptr, static_cast<operation>(12), "", COMMAND, UNSERVED, "77"},
};

bytes bytes_of(const char *digits) {
  bytes made;
  for (const char *at = digits; at[0] && at[1]; at += 2)
    made.push_back(static_cast<unsigned char>(std::stoul(std::string(at, 2), nullptr, 16)));
  return made;
}

class bench : public sc_core::sc_module {
  SC_HAS_PROCESS(bench);

 public:
  tlm_utils::simple_initiator_socket<bench> first{"first"}, second{"second"};
  unsigned passed = 0, failed = 0;

  explicit bench(const sc_core::sc_module_name &name) : sc_core::sc_module(name) {
    SC_THREAD(run);
    first.register_nb_transport_bw(this, &bench::nb_transport_bw);
  }

 private:
  std::uint64_t served_[PORTS] = {};  // how many requests each port must have served so far
  sc_core::sc_event replied_;

  void tell(const std::string &name, bool is_so) {
    (is_so ? passed : failed)++;
    if (!is_so) std::cerr << "systemc: " << name << " is not as it was worked out\n";
  }

  void run() {
    check_idle_debug();
    for (const row &each : ROWS) check_row(each);
    check_widths();
    check_sources();
    check_masters();
    check_pointers();
    check_debug();
    check_direct_memory();
    check_non_blocking();
  }

  // A payload over arrays that outlive it; without an extension of its own.
  static void fill(tlm::tlm_generic_payload &payload, tlm::tlm_command command, std::uint64_t address, bytes &data) {
    payload.set_command(command);
    payload.set_address(address);
    payload.set_data_ptr(data.data());
    payload.set_data_length(static_cast<unsigned>(data.size()));
    payload.set_streaming_width(payload.get_data_length());
  }

  // Sends a payload by the first master; its delay must stay as it is.
  tlm::tlm_response_status send(tlm::tlm_generic_payload &payload) {
    sc_core::sc_time delay(3, sc_core::SC_NS);
    payload.set_response_status(tlm::TLM_INCOMPLETE_RESPONSE);
    payload.set_dmi_allowed(true);
    first->b_transport(payload, delay);
    if (delay != sc_core::sc_time(3, sc_core::SC_NS) || payload.is_dmi_allowed()) tell("the delay, and direct memory", false);
    return payload.get_response_status();
  }

  // A port has served a request, or none has: the extension says so, with the right place.
  bool is_served_by(const tlx::extension &rest, int port) {
    if (port == UNSERVED) return !rest.served;
    return rest.served && rest.port == static_cast<std::uint64_t>(port) && rest.place == served_[port]++;
  }

  void check_row(const row &each) {
    tlm::tlm_generic_payload payload;
    auto *rest = new tlx::extension;
    bytes data = bytes_of(each.sent), enables = bytes_of(each.enables ? each.enables : "");
    const bytes enabled = enables;
    unsigned char none = TLM_BYTE_ENABLED;
    fill(payload, each.command, each.address, data);
    if (data.empty()) payload.set_data_ptr(&none);
    payload.set_byte_enable_ptr(!each.enables ? nullptr : enables.empty() ? &none : enables.data());
    payload.set_byte_enable_length(static_cast<unsigned>(enables.size()));
    rest->asked = each.asked;
    rest->operand = bytes_of(each.operand);
    rest->served = true;
    payload.set_extension(rest);
    const bool is_status = send(payload) == each.status, is_served = is_served_by(*rest, each.port);
    tell(each.name, is_status && is_served && data == bytes_of(each.held) && enables == enabled && none == TLM_BYTE_ENABLED);
  }

  // Streaming widths, and lengths about the largest.
  void check_widths() {
    const unsigned largest = 1u << tlx_largest_size();
    bytes data(4, 0xee), most(2 * largest, 0xee);
    tlm::tlm_generic_payload payload;
    fill(payload, READ, 0x1000, data);
    payload.set_streaming_width(2);
    tell("a stream of two bytes", send(payload) == BURST && data == bytes(4, 0xee));
    payload.set_streaming_width(0);
    tell("a stream of no bytes", send(payload) == BURST && data == bytes(4, 0xee));
    payload.set_streaming_width(8);
    tell("a stream that is wider than the data", send(payload) == OK && data == bytes_of("aa11cc33"));
    served_[RAM]++;
    fill(payload, READ, 0x9000, most);
    tell("more bytes than a message has", send(payload) == BURST);
    payload.set_data_length(0x80000000u);
    payload.set_streaming_width(0x80000000u);
    tell("far more bytes", send(payload) == BURST);
    payload.set_data_length(largest);
    tell("as many as a message has, of nobody", send(payload) == ADDRESS && most == bytes(2 * largest, 0xee));
    served_[NOBODY]++;
  }

  // A master's own sources.
  void check_sources() {
    bytes data(1, 0xee);
    tlm::tlm_generic_payload payload;
    auto *rest = new tlx::extension;
    payload.set_extension(rest);
    fill(payload, READ, 0x1000, data);
    rest->source = 1;
    tell("another source", send(payload) == OK && is_served_by(*rest, RAM) && data == bytes_of("aa"));
    rest->source = 2;
    tell("a source that there is not", send(payload) == GENERIC && !rest->served);
    tlm::tlm_generic_payload copy;
    copy.deep_copy_from(payload);
    const auto *copied = copy.get_extension<tlx::extension>();
    tell("an extension that was copied", copied && copied != rest && copied->source == 2);
    rest->source = 0;
    copy.update_extensions_from(payload);
    tell("an extension that was copied anew", copied->source == 0);
  }

  // Both masters see one memory, and each has sources of its own.
  void check_masters() {
    bytes sent = bytes_of("5a5b"), got(2);
    tlm::tlm_generic_payload write, read;
    sc_core::sc_time delay = sc_core::SC_ZERO_TIME;
    fill(write, WRITE, 0x1030, sent);
    second->b_transport(write, delay);
    fill(read, READ, 0x1030, got);
    tell("what the other master wrote", write.is_response_ok() && send(read) == OK && got == sent);
    served_[RAM] += 2;
    auto *rest = new tlx::extension;
    rest->source = 1;
    read.set_extension(rest);
    second->b_transport(read, delay);
    tell("the other master's sources", read.get_response_status() == GENERIC && !rest->served);
  }

  void check_pointers() {
    bytes data(1);
    tlm::tlm_generic_payload payload;
    fill(payload, READ, 0x1000, data);
    payload.set_data_ptr(nullptr);
    tell("a read into nothing", send(payload) == GENERIC);
    payload.set_command(WRITE);
    tell("a write of nothing", send(payload) == GENERIC);
    payload.set_command(READ);
    tell("debugging into nothing", first->transport_dbg(payload) == 0);
    tlm::tlm_generic_payload prefetch;
    auto *rest = new tlx::extension;
    rest->asked = operation::prefetch_read;
    prefetch.set_extension(rest);
    fill(prefetch, IGNORE, 0x1000, data);
    prefetch.set_data_ptr(nullptr);
    tell("a prefetch wants no data", send(prefetch) == OK && is_served_by(*rest, RAM));
  }

  unsigned debug(tlm::tlm_command command, std::uint64_t address, bytes &data) {
    tlm::tlm_generic_payload payload;
    fill(payload, command, address, data);
    return first->transport_dbg(payload);
  }

  // Before any request the bytes are those of reset.
  void check_idle_debug() {
    bytes data(18, 0xee);
    tell("bytes at reset", debug(READ, 0x1000, data) == 18 && data == bytes_of("00112233445566778899aabbccddeeff0000"));
  }

  // Debugging reads and writes what lies there, of any length, and counts nothing: the next request has the place after the last one's.
  void check_debug() {
    bytes three(3, 0xee), four(4, 0xee), none;
    tell("three bytes", debug(READ, 0x1001, three) == 3 && three == bytes_of("11cc33"));
    tell("bytes up to the end of a port", debug(READ, 0x5016, four) == 2 && four == bytes_of("0000eeee"));
    tell("a byte of a register", debug(READ, 0x3005, three) == 3 && three == bytes_of("020304"));
    tell("bytes that nobody has", debug(READ, 0x9000, four) == 0 && four == bytes_of("0000eeee"));
    tell("bytes past the last address", debug(READ, 0xffffffffffffffff, four) == 0);
    tell("no bytes", debug(READ, 0x1000, none) == 0);
    tell("nothing is ignored", debug(IGNORE, 0x1000, three) == 0 && debug(READ, 0x1000, four) == 4 && four == bytes_of("aa11cc33"));
    bytes given = bytes_of("a8a9aaab");
    three = bytes_of("0b0c0d");
    tell("bytes that are written", debug(WRITE, 0x3005, three) == 3 && debug(READ, 0x3004, four) == 4 && four == bytes_of("010b0c0d"));
    tell("bytes of a ROM that are written", debug(WRITE, 0x2008, given) == 4 && debug(READ, 0x2008, four) == 4 && four == given);
    four = bytes(4, 0xee);
    tell("bytes that are written up to the end", debug(WRITE, 0x5016, given) == 2 && debug(READ, 0x5016, four) == 2 && four == bytes_of("a8a9eeee"));
    check_row({"a request after it", READ, 0x1000, "ee", nullptr, PLAIN, "", OK, RAM, "aa"});
  }

  void check_direct_memory() {
    bytes data(4);
    tlm::tlm_generic_payload payload;
    tlm::tlm_dmi memory;
    fill(payload, READ, 0x1000, data);
    tell("direct memory", !first->get_direct_mem_ptr(payload, memory));
  }

  tlm::tlm_sync_enum nb_transport_bw(tlm::tlm_generic_payload &, tlm::tlm_phase &phase, sc_core::sc_time &) {
    if (phase != tlm::BEGIN_RESP) return tlm::TLM_ACCEPTED;
    replied_.notify(sc_core::SC_ZERO_TIME);
    return tlm::TLM_COMPLETED;
  }

  // The socket turns a call that doesn't block into one that does.
  void check_non_blocking() {
    bytes data(4, 0xee);
    tlm::tlm_generic_payload payload;
    tlm::tlm_phase phase = tlm::BEGIN_REQ;
    sc_core::sc_time delay = sc_core::SC_ZERO_TIME;
    fill(payload, READ, 0x1000, data);
    if (first->nb_transport_fw(payload, phase, delay) != tlm::TLM_COMPLETED) wait(sc_core::sc_time(1, sc_core::SC_US), replied_);
    tell("a call that doesn't block", payload.is_response_ok() && data == bytes_of("aa11cc33"));
  }
};

// A text that is no system file makes no target.
bool is_refused(const char *file, tlx::Fault fault, const char *text) {
  try {
    tlx::target none("none", file);
  } catch (const tlx::Error &problem) {
    return problem.fault() == fault && std::string(problem.what()) == text;
  }
  return false;
}

}  // namespace

int sc_main(int, char **) {
  unsigned refused = is_refused("=", tlx::Fault::not_toml, "system: not TOML");
  refused += is_refused("bus = 3", tlx::Fault::out_of_range, "system: bus out of range");
  tlx::target crossbar("crossbar", SYSTEM);
  bench tests("tests");
  tests.first.bind(crossbar.masters[0]);
  tests.second.bind(crossbar.masters[1]);
  sc_core::sc_start();
  tests.passed += refused;
  tests.failed += 2 - refused;
  std::printf("%u passed, %u failed\n", tests.passed, tests.failed);
  return tests.failed > 0;
}
