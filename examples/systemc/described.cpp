// A tlx::target of a system whose bytes are not all known, with an image, a device and resets: the last line is 'N passed, M failed'. What is
// expected was worked out by hand.
#include <cstdio>
#include <iostream>

#include <tlm_utils/simple_initiator_socket.h>

#include "tlx_target.h"

namespace {

using bytes = std::vector<unsigned char>;

const char SYSTEM[] =
    "resets = true\n"
    "[[port]]\nkind = \"rom\"\nbase = 0x1000\nlength = 8\nimage = \"boot.bin\"\n"
    "[[port]]\nkind = \"ram\"\nbase = 0x80000000\nlength = 0x40000000\nunknown = true\nreset = \"a0a1\"\n"
    "[[port]]\nkind = \"device\"\nbase = 0x3000\nlength = 16\n"
    "[[port]]\nkind = \"regs\"\nbase = 0x4000\nlength = 8\nreset = \"01020304\"\n"
    "[[master]]\nsources = 1\n";

const tlm::tlm_command READ = tlm::TLM_READ_COMMAND, WRITE = tlm::TLM_WRITE_COMMAND;
const tlm::tlm_response_status OK = tlm::TLM_OK_RESPONSE, ADDRESS = tlm::TLM_ADDRESS_ERROR_RESPONSE;

std::string read_image(const std::string &name) { return name == "boot.bin" ? "\x11\x22\x33" : ""; }

class bench : public sc_core::sc_module {
  SC_HAS_PROCESS(bench);

 public:
  tlm_utils::simple_initiator_socket<bench> socket{"socket"};
  unsigned passed = 0, failed = 0;

  bench(const sc_core::sc_module_name &name, tlx::target &crossbar) : sc_core::sc_module(name), crossbar_(crossbar) { SC_THREAD(run); }

 private:
  tlx::target &crossbar_;
  tlx::extension *last_ = nullptr;  // of the payload that was sent last
  tlm::tlm_generic_payload payload_;

  void tell(const std::string &name, bool is_so) {
    (is_so ? passed : failed)++;
    if (!is_so) std::cerr << "systemc: " << name << " is not as it was worked out\n";
  }

  void fill(tlm::tlm_command command, std::uint64_t address, bytes &data) {
    if (!last_) payload_.set_extension(last_ = new tlx::extension);
    payload_.set_command(command);
    payload_.set_address(address);
    payload_.set_data_ptr(data.data());
    payload_.set_data_length(static_cast<unsigned>(data.size()));
    payload_.set_streaming_width(payload_.get_data_length());
  }

  tlm::tlm_response_status send(tlm::tlm_command command, std::uint64_t address, bytes &data) {
    sc_core::sc_time delay = sc_core::SC_ZERO_TIME;
    fill(command, address, data);
    socket->b_transport(payload_, delay);
    return payload_.get_response_status();
  }

  unsigned debug(tlm::tlm_command command, std::uint64_t address, bytes &data) {
    fill(command, address, data);
    return socket->transport_dbg(payload_);
  }

  void run() {
    check_image();
    check_unknown();
    check_device();
    check_reset();
  }

  void check_image() {
    bytes data(4, 0xee);
    tell("an image", send(READ, 0x1000, data) == OK && data == bytes({0x11, 0x22, 0x33, 0}) && last_->unknown == 0 && crossbar_.unknown == 0);
  }

  // Unknown bytes are read as 0, counted and reported; those that a put or a debugger has written are known.
  void check_unknown() {
    bytes data(4, 0xee), put{7}, poked{9};
    tell("unknown bytes", send(READ, 0x80000000, data) == OK && data == bytes({0xa0, 0xa1, 0, 0}) && last_->unknown == 2 && crossbar_.unknown == 2);
    const sc_core::sc_report *said = sc_core::sc_report_handler::get_cached_report();
    tell("what is reported", said && std::string(said->get_msg()) == "2 bytes from 0x80000000 on are not known");
    tell("a byte that is put", send(WRITE, 0x80000002, put) == OK && last_->unknown == 0 && send(READ, 0x80000000, data) == OK && data[2] == 7 &&
         last_->unknown == 1 && crossbar_.unknown == 3);
    tell("unknown bytes for a debugger", debug(READ, 0x80000000, data) == 4 && data == bytes({0xa0, 0xa1, 7, 0}) && last_->unknown == 1);
    tell("a byte of a debugger", debug(WRITE, 0xbfffffff, poked) == 1 && send(READ, 0xbffffffe, data = bytes(2)) == OK && data == bytes({0, 9}) &&
         last_->unknown == 1 && crossbar_.unknown == 5);
    // of what is not enabled nothing is said
    unsigned char enables[] = {TLM_BYTE_DISABLED, TLM_BYTE_ENABLED};
    payload_.set_byte_enable_ptr(enables);
    payload_.set_byte_enable_length(2);
    tell("a byte that is not enabled", send(READ, 0xbffffffe, data) == OK && last_->unknown == 0 && crossbar_.unknown == 5);
    payload_.set_byte_enable_ptr(nullptr);
  }

  // A device has no answer of its own; a debugger sees nothing of it.
  void check_device() {
    bytes data(4, 0xee), byte(1);
    tell("a device without an answer", send(READ, 0x3000, data) == ADDRESS && data == bytes(4, 0xee) && last_->served && last_->port == 2 && last_->place == 0);
    crossbar_.answer_device = [](std::uint64_t port, tlm::tlm_generic_payload &asked) {
      if (asked.is_write()) return tlm::TLM_GENERIC_ERROR_RESPONSE;
      std::fill_n(asked.get_data_ptr(), asked.get_data_length(), static_cast<unsigned char>(port));
      return tlm::TLM_OK_RESPONSE;
    };
    tell("the answer of a device", send(READ, 0x3004, data) == OK && data == bytes(4, 2) && last_->place == 1 && last_->unknown == 0);
    tell("what a device denies", send(WRITE, 0x3004, data) == tlm::TLM_GENERIC_ERROR_RESPONSE && last_->served && last_->place == 2);
    tell("a device for a debugger", debug(READ, 0x3000, byte) == 0 && debug(WRITE, 0x3000, byte) == 0);
  }

  void check_reset() {
    bytes put{9, 9, 9, 9}, data(4);
    tell("registers", send(WRITE, 0x4000, put) == OK && send(READ, 0x4000, data) == OK && data == put);
    crossbar_.reset();
    tell("registers after a reset", send(READ, 0x4000, data) == OK && data == bytes({1, 2, 3, 4}) && last_->place == 2);
  }
};

// What a target or a call answers with an error of this fault.
template <typename call>
bool is_refused(tlx::Fault fault, call asked) {
  try {
    asked();
  } catch (const tlx::Error &problem) {
    return problem.fault() == fault;
  }
  return false;
}

}  // namespace

int sc_main(int, char **) {
  sc_core::sc_report_handler::set_actions(tlx::target::unknown_type(), sc_core::SC_CACHE_REPORT);
  tlx::target crossbar("crossbar", SYSTEM, read_image);
  bench tests("tests", crossbar);
  tests.socket.bind(crossbar.masters[0]);
  const bool are_refused = is_refused(tlx::Fault::image_unreadable, [] { tlx::model_of(SYSTEM); }) &&
                           is_refused(tlx::Fault::long_image, [] { tlx::model_of(SYSTEM, [](const std::string &) { return std::string(9, 'a'); }); }) &&
                           is_refused(tlx::Fault::no_link, [] { tlx::model_of("[[master]]\nsources = 1\n").reset(); });
  sc_core::sc_start();
  (are_refused ? tests.passed : tests.failed)++;
  std::printf("%u passed, %u failed\n", tests.passed, tests.failed);
  return tests.failed > 0;
}
