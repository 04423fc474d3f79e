// A loosely timed run of a micro-controller, `soc32 SYSTEM`: its memories are the model's, and uart0 is a module of this file. A debugger puts a
// text into the RAM, and a program sends it, byte after byte, as fast as the UART takes it. The last line is 'N passed, M failed'. What is
// expected was worked out by hand from examples/soc32/system.toml and the UART's registers below.
#include <cstdio>
#include <fstream>
#include <iostream>
#include <iterator>

#include <systemc>
#include <tlm_utils/tlm_quantumkeeper.h>

#include "tlx_target.h"

namespace {

using bytes = std::vector<unsigned char>;
using payload = tlm::tlm_generic_payload;

const std::uint64_t BOOT_ROM = 0x8000, RAM = 0x10000000, UART0 = 0x40000000, UART1 = 0x40010000;
enum { FETCH, DATA, DEBUGGER };  // the masters
const unsigned UART0_PORT = 4;
const char MESSAGE[] = "tlx says hello\n";
const unsigned LENGTH = sizeof MESSAGE - 1;

// Sends a byte in 80 us. Words: STATUS, bit 0 while it sends; DATA, written: the next byte, refused while it sends; COUNT of the bytes so far.
class uart : public sc_core::sc_module {
 public:
  enum : std::uint64_t { STATUS = 0, DATA_WORD = 4, COUNT = 8, LENGTH_OF_WORDS = 12 };
  tlm_utils::simple_target_socket<uart> socket{"socket"};
  std::string sent;
  const sc_core::sc_time byte_time{80, sc_core::SC_US}, access_time{100, sc_core::SC_NS};

  explicit uart(const sc_core::sc_module_name &name) : sc_core::sc_module(name) {
    socket.register_b_transport(this, &uart::b_transport);
    socket.register_transport_dbg(this, &uart::transport_dbg);
  }

 private:
  sc_core::sc_time free_at_;

  void b_transport(payload &trans, sc_core::sc_time &delay) {
    delay += access_time;
    const sc_core::sc_time now = sc_core::sc_time_stamp() + delay;
    const std::uint64_t word = trans.get_address() - UART0;
    trans.set_response_status(tlm::TLM_GENERIC_ERROR_RESPONSE);
    if (trans.get_data_length() != 4 || trans.is_write() != (word == DATA_WORD) || word >= LENGTH_OF_WORDS) return;
    if (trans.is_write() && now < free_at_) return;
    trans.set_response_status(tlm::TLM_OK_RESPONSE);
    if (trans.is_write()) {
      sent += static_cast<char>(*trans.get_data_ptr());
      free_at_ = now + byte_time;
    } else {
      std::fill_n(trans.get_data_ptr(), 4, 0);
      *trans.get_data_ptr() = static_cast<unsigned char>(word == STATUS ? now < free_at_ : sent.size());
    }
  }

  // A debugger sees the count of bytes alone, and changes nothing.
  unsigned transport_dbg(payload &trans) {
    if (!trans.is_read() || trans.get_address() != UART0 + COUNT || trans.get_data_length() == 0) return 0;
    *trans.get_data_ptr() = static_cast<unsigned char>(sent.size());
    return 1;
  }
};

// A master, whose local time runs ahead of that of the simulation by a quantum at most.
class core : public sc_core::sc_module {
 public:
  tlm_utils::simple_initiator_socket<core> socket{"socket"};
  tlm_utils::tlm_quantumkeeper keeper;
  const sc_core::sc_time instruction_time{50, sc_core::SC_NS};

  explicit core(const sc_core::sc_module_name &name) : sc_core::sc_module(name) { keeper.reset(); }

  tlm::tlm_response_status send(tlm::tlm_command command, std::uint64_t address, bytes &data) {
    payload trans;
    fill(trans, command, address, data);
    sc_core::sc_time delay = keeper.get_local_time() + instruction_time;
    socket->b_transport(trans, delay);
    keeper.set(delay);
    if (keeper.need_sync()) keeper.sync();
    return trans.get_response_status();
  }

  unsigned debug(tlm::tlm_command command, std::uint64_t address, bytes &data) {
    payload trans;
    fill(trans, command, address, data);
    return socket->transport_dbg(trans);
  }

 private:
  static void fill(payload &trans, tlm::tlm_command command, std::uint64_t address, bytes &data) {
    trans.set_command(command);
    trans.set_address(address);
    trans.set_data_ptr(data.data());
    trans.set_data_length(static_cast<unsigned>(data.size()));
    trans.set_streaming_width(trans.get_data_length());
  }
};

const tlm::tlm_command READ = tlm::TLM_READ_COMMAND, WRITE = tlm::TLM_WRITE_COMMAND;
const tlm::tlm_response_status OK = tlm::TLM_OK_RESPONSE, ADDRESS = tlm::TLM_ADDRESS_ERROR_RESPONSE, GENERIC = tlm::TLM_GENERIC_ERROR_RESPONSE;

class program : public sc_core::sc_module {
  SC_HAS_PROCESS(program);
  core fetch_, data_, debugger_;
  uart &uart_;
  const tlx::target &crossbar_;
  const std::string rom_;

 public:
  unsigned passed = 0, failed = 0;

  program(const sc_core::sc_module_name &name, tlx::target &crossbar, uart &device, const std::string &rom)
      : sc_core::sc_module(name), fetch_("fetch"), data_("data"), debugger_("debugger"), uart_(device), crossbar_(crossbar), rom_(rom) {
    fetch_.socket.bind(crossbar.masters[FETCH]);
    data_.socket.bind(crossbar.masters[DATA]);
    debugger_.socket.bind(crossbar.masters[DEBUGGER]);
    SC_THREAD(run);
  }

 private:
  void tell(const std::string &name, bool is_so) {
    (is_so ? passed : failed)++;
    if (!is_so) std::cerr << "systemc: " << name << " is not as it was worked out\n";
  }

  void run() {
    check_memories();
    send_message();
    check_devices();
    check_debugger();
  }

  // The boot ROM has its image, and nobody knows what the RAM holds before the debugger puts the text there.
  void check_memories() {
    bytes word(4), text(MESSAGE, MESSAGE + LENGTH);
    bool is_well = true;
    for (unsigned k = 0; k < 64; k++)
      is_well = is_well && fetch_.send(READ, BOOT_ROM + 4 * k, word) == OK && std::equal(word.begin(), word.end(), rom_.begin() + 4 * k, [](unsigned char one, char other) {
        return one == static_cast<unsigned char>(other);
      });
    tell("the boot ROM", is_well && crossbar_.unknown == 0);
    tell("a write to the boot ROM", data_.send(WRITE, BOOT_ROM, word) == GENERIC);
    tell("the RAM before it is written", data_.send(READ, RAM, word) == OK && crossbar_.unknown == 4);
    tell("a text of the debugger", debugger_.debug(WRITE, RAM, text) == LENGTH);
  }

  // Waits until the UART is free, and sends the next byte of the RAM.
  void send_message() {
    bytes byte(1), word(4), status(4);
    bool is_well = true;
    unsigned polls = 0;
    const sc_core::sc_time start = data_.keeper.get_current_time();
    for (unsigned k = 0; k < LENGTH; k++) {
      do is_well = is_well && data_.send(READ, UART0 + uart::STATUS, status) == OK && polls++ < 100000;
      while (is_well && status[0]);
      is_well = is_well && data_.send(READ, RAM + k, byte) == OK;
      word[0] = byte[0];
      is_well = is_well && data_.send(WRITE, UART0 + uart::DATA_WORD, word) == OK;
    }
    tell("the text that was sent", is_well && uart_.sent == MESSAGE && crossbar_.unknown == 4);
    tell("a byte while another one is sent", data_.send(WRITE, UART0 + uart::DATA_WORD, word) == GENERIC && uart_.sent == MESSAGE);
    // each byte but the last was waited for, by a status every 150 ns
    const sc_core::sc_time took = data_.keeper.get_current_time() - start;
    tell("the time that it took", took > (LENGTH - 1) * uart_.byte_time && took < LENGTH * uart_.byte_time && polls > 14 * 400);
    tell("a quantum at most ahead", data_.keeper.get_local_time() < tlm::tlm_global_quantum::instance().get());
  }

  void check_devices() {
    bytes word(4), two(2);
    tell("the count of the UART", data_.send(READ, UART0 + uart::COUNT, word) == OK && word[0] == LENGTH);
    tell("what the UART refuses", data_.send(READ, UART0 + 0x20, word) == GENERIC && data_.send(READ, UART0, two) == GENERIC);
    tell("a device that is not there", data_.send(READ, UART1, word) == ADDRESS);
    tell("a device that a master does not reach", fetch_.send(READ, UART0 + uart::COUNT, word) == ADDRESS);
  }

  // A debugger sees memories and the UART through the crossbar, and uses no time.
  void check_debugger() {
    bytes text(LENGTH), count(1), word(4);
    const sc_core::sc_time before = sc_core::sc_time_stamp();
    tell("the RAM for the debugger", debugger_.debug(READ, RAM, text) == LENGTH && text == bytes(MESSAGE, MESSAGE + LENGTH));
    tell("the UART for the debugger", debugger_.debug(READ, UART0 + uart::COUNT, count) == 1 && count[0] == LENGTH && debugger_.debug(READ, UART0 + uart::COUNT, word) == 1);
    tell("what the UART does not show", debugger_.debug(WRITE, UART0 + uart::DATA_WORD, word) == 0 && debugger_.debug(READ, UART1, word) == 0);
    tell("the UART for a master that does not reach it", fetch_.debug(READ, UART0 + uart::COUNT, count) == 0);
    tell("the time of the debugger", sc_core::sc_time_stamp() == before && uart_.sent == MESSAGE);
  }
};

std::string read_file(const std::string &path) {
  std::ifstream file(path, std::ios::binary);
  return std::string(std::istreambuf_iterator<char>(file), std::istreambuf_iterator<char>());
}

}  // namespace

int sc_main(int count, char **words) {
  if (count != 2) return 2;
  const std::string path = words[1], folder = path.substr(0, path.rfind('/') + 1);
  sc_core::sc_report_handler::set_actions(tlx::target::unknown_type(), sc_core::SC_DO_NOTHING);
  tlm::tlm_global_quantum::instance().set(sc_core::sc_time(1, sc_core::SC_US));
  tlx::target crossbar("crossbar", read_file(path), [&](const std::string &name) { return read_file(folder + name); });
  uart device("uart0");
  crossbar.devices[UART0_PORT].bind(device.socket);
  program tests("program", crossbar, device, read_file(folder + "boot_rom.bin"));
  sc_core::sc_start();
  std::printf("%u passed, %u failed\n", tests.passed, tests.failed);
  return tests.failed > 0;
}
