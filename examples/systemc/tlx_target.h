// A crossbar of tlx between TLM-2.0 sockets: `tlx::target crossbar("crossbar", system)`, where `system` is the text of a system file. It is the
// target of a socket for each master, and the initiator of one for each port, of which the devices' are bound. Each payload is one request,
// answered at once by the proved model, or by the device; README.md has the table of what becomes of what.
//
// The target is untimed: it never waits, and leaves the delay to the devices. A request is served in the order of the calls.
#ifndef TLX_TARGET_H
#define TLX_TARGET_H

#include <algorithm>
#include <cstdint>
#include <functional>
#include <sstream>
#include <string>
#include <vector>

#include <systemc>
#include <tlm>
#include <tlm_utils/simple_initiator_socket.h>
#include <tlm_utils/simple_target_socket.h>
#include <tlx.hpp>

namespace tlx {

// What TileLink has and a generic payload has no command for. `plain` is what the payload's own command says.
enum class operation : std::uint8_t { plain, min, max, minu, maxu, add, xor_bits, or_bits, and_bits, swap, prefetch_read, prefetch_write };

// The rest of a request, and who served it. A payload may go without one: a plain request of the master's source 0.
struct extension : tlm::tlm_extension<extension> {
  operation asked = operation::plain;
  std::vector<unsigned char> operand;  // of an atomic: as many bytes as the payload has, little-endian
  std::uint16_t source = 0;            // which of its sources the master sends from
  bool served = false;                 // set by the target: a port served the request, even if it denied it
  std::uint64_t port = 0;              // which one, if served
  std::uint64_t place = 0;             // how many requests that port had served before
  std::uint64_t unknown = 0;           // how many of the bytes that were read of a memory nobody knows; they are read as 0

  tlm::tlm_extension_base *clone() const override { return new extension(*this); }
  void copy_from(const tlm::tlm_extension_base &other) override { *this = static_cast<const extension &>(other); }
};

// The bytes of the file of an image, by its name in the system file.
using images = std::function<std::string(const std::string &)>;

// What a device answers a payload that went to its port: it fills the data in, and says the status.
using device = std::function<tlm::tlm_response_status(std::uint64_t port, tlm::tlm_generic_payload &)>;

// The model of a system file before any request. An Error if the text is no system file, an image was not handed in, or memory is refused.
inline Model model_of(const std::string &file, const images &read_image = nullptr) {
  System system = System::read(file);
  for (std::uint64_t port = 0; port < system.ports() && read_image; port++) {
    const std::string name = system.image_name(port);
    if (!name.empty()) system.image(port, read_image(name));
  }
  return Model(system);
}

class target : public sc_core::sc_module {
  Model model_, router_;  // the second one is only asked whose an address is

 public:
  // masters[m] is where master m of the system is bound.
  sc_core::sc_vector<tlm_utils::simple_target_socket_tagged<target>> masters;
  // devices[p] is bound to what port p is, if that is a device; its payloads come as they were sent. Those of other ports stay unbound.
  sc_core::sc_vector<tlm_utils::simple_initiator_socket_tagged_optional<target>> devices;
  // Answers for the devices whose sockets are not bound. Without it what goes to them is TLM_ADDRESS_ERROR_RESPONSE.
  device answer_device;
  // How many bytes were read that nobody knows. Each such read is a warning of this type, too.
  std::uint64_t unknown = 0;
  static const char *unknown_type() { return "/tlx/unknown bytes"; }

  target(const sc_core::sc_module_name &name, const std::string &file, const images &read_image = nullptr)
      : sc_core::sc_module(name), model_(model_of(file, read_image)), router_(model_of(file, read_image)), masters("master", model_.masters()),
        devices("device", model_.ports() - 1) {
    for (unsigned m = 0; m < masters.size(); m++) {
      masters[m].register_b_transport(this, &target::b_transport, static_cast<int>(m));
      masters[m].register_transport_dbg(this, &target::transport_dbg, static_cast<int>(m));
    }
  }

  // Resets the whole system; an Error with Fault::no_link if its file does not say `resets = true`.
  void reset() { model_.reset(); }

 private:
  using payload = tlm::tlm_generic_payload;
  using status = tlm::tlm_response_status;

  void b_transport(int master, payload &trans, sc_core::sc_time &delay) {
    extension plain;
    extension *rest = trans.get_extension<extension>();
    trans.set_response_status(transport(static_cast<std::uint64_t>(master), trans, rest ? *rest : plain, delay));
    trans.set_dmi_allowed(false);
  }

  // Reads or writes bytes where they lie, of a ROM too, up to the first that neither a memory nor a device has; the model counts no request. An
  // unknown byte is read as 0.
  unsigned transport_dbg(int master, payload &trans) {
    std::uint64_t unknowns = 0;
    unsigned count = 0;
    if ((!trans.is_read() && !trans.is_write()) || !trans.get_data_ptr()) return 0;
    while (count < trans.get_data_length()) {
      const Fault fault = debug_byte(trans, count, unknowns);
      const unsigned done = fault == Fault::ok ? 1 : fault == Fault::device ? debug_device(master, trans, count) : 0;
      if (done == 0) break;
      count += done;
    }
    tell_unknown(unknowns, trans.get_address(), trans.get_extension<extension>());
    return count;
  }

  // Reads or writes a byte of a memory.
  Fault debug_byte(payload &trans, unsigned place, std::uint64_t &unknowns) {
    const std::uint64_t address = trans.get_address() + place;
    std::optional<std::uint8_t> byte = trans.get_data_ptr()[place];
    const Fault fault = trans.is_read() ? model_.try_peek(address, byte) : model_.try_poke(address, byte);
    if (fault != Fault::ok) return fault;
    if (trans.is_read()) trans.get_data_ptr()[place] = byte.value_or(0);
    unknowns += !byte;
    return fault;
  }

  // Hands the bytes from a place on to the device there, if the master has a path to it: how many it took.
  unsigned debug_device(int master, const payload &trans, unsigned place) {
    tlx_answer answer;
    const std::uint64_t address = trans.get_address() + place;
    const Fault fault = router_.try_serve(static_cast<std::uint64_t>(master), get(address, 0), answer);
    if ((fault != Fault::ok && fault != Fault::device) || !is_bound(answer.port)) return 0;
    payload rest;
    rest.set_command(trans.get_command());
    rest.set_address(address);
    rest.set_data_ptr(trans.get_data_ptr() + place);
    rest.set_data_length(trans.get_data_length() - place);
    return std::min(devices[answer.port]->transport_dbg(rest), rest.get_data_length());
  }

  bool is_bound(std::uint64_t port) const { return port < devices.size() && devices[port].size() > 0; }

  // What a device answers a payload that was sent to it.
  status ask_device(std::uint64_t port, payload &trans, sc_core::sc_time &delay) {
    if (!is_bound(port)) return answer_device ? answer_device(port, trans) : tlm::TLM_ADDRESS_ERROR_RESPONSE;
    trans.set_response_status(tlm::TLM_INCOMPLETE_RESPONSE);
    devices[port]->b_transport(trans, delay);
    return trans.get_response_status();
  }

  // Counts bytes that were read though nobody knows them, and reports them.
  void tell_unknown(std::uint64_t count, std::uint64_t address, extension *rest) {
    if (rest) rest->unknown = count;
    unknown += count;
    if (count == 0) return;
    std::ostringstream text;
    text << count << " bytes from 0x" << std::hex << address << " on are not known";
    SC_REPORT_WARNING(unknown_type(), text.str().c_str());
  }

  status transport(std::uint64_t master, payload &trans, extension &rest, sc_core::sc_time &delay) {
    rest.served = false;
    rest.unknown = 0;
    const status refused = refusal(trans, rest);
    if (refused != tlm::TLM_OK_RESPONSE || is_idle(trans, rest)) return refused;
    tlx_answer answer;
    const Fault fault = model_.try_serve(master, request_of(trans, rest), answer);
    if (fault != Fault::ok && fault != Fault::device) return tlm::TLM_GENERIC_ERROR_RESPONSE;
    rest.served = true;
    rest.port = answer.port;
    rest.place = answer.place;
    if (fault == Fault::device) return ask_device(answer.port, trans, delay);
    // the error port is the last
    if (answer.denied) return answer.port + 1 == model_.ports() ? tlm::TLM_ADDRESS_ERROR_RESPONSE : tlm::TLM_GENERIC_ERROR_RESPONSE;
    copy_bytes(trans, answer, rest);
    return tlm::TLM_OK_RESPONSE;
  }

  // Copies the bytes of an answer that the payload asks for.
  void copy_bytes(payload &trans, const tlx_answer &answer, extension &rest) {
    std::uint64_t unknowns = 0;
    for (unsigned k = 0; k < answer.count; k++) {
      if (!is_enabled(trans, k)) continue;
      trans.get_data_ptr()[k] = answer.bytes[k];
      unknowns += !answer.known[k];
    }
    tell_unknown(unknowns, trans.get_address(), &rest);
  }

  // The error of a payload that no request of TileLink can say, found before anything is asked.
  static status refusal(const payload &trans, const extension &rest) {
    if (rest.asked > operation::prefetch_write || trans.get_command() != command_of(trans, rest)) return tlm::TLM_COMMAND_ERROR_RESPONSE;
    if (is_idle(trans, rest)) return tlm::TLM_OK_RESPONSE;
    const std::uint64_t length = trans.get_data_length();
    if (length == 0 || (length & (length - 1)) != 0 || length > 1u << tlx_largest_size()) return tlm::TLM_BURST_ERROR_RESPONSE;
    if (trans.get_streaming_width() < length) return tlm::TLM_BURST_ERROR_RESPONSE;
    if (is_atomic(rest) && rest.operand.size() != length) return tlm::TLM_BURST_ERROR_RESPONSE;
    if (!are_enables_good(trans, rest)) return tlm::TLM_BYTE_ENABLE_ERROR_RESPONSE;
    if (trans.get_address() % length != 0) return tlm::TLM_ADDRESS_ERROR_RESPONSE;
    if (!trans.is_read() && !trans.is_write()) return tlm::TLM_OK_RESPONSE;
    return trans.get_data_ptr() ? tlm::TLM_OK_RESPONSE : tlm::TLM_GENERIC_ERROR_RESPONSE;
  }

  static bool is_prefetch(const extension &rest) { return rest.asked >= operation::prefetch_read; }
  static bool is_atomic(const extension &rest) { return rest.asked != operation::plain && !is_prefetch(rest); }

  // A payload that asks for nothing.
  static bool is_idle(const payload &trans, const extension &rest) {
    return trans.get_command() == tlm::TLM_IGNORE_COMMAND && rest.asked == operation::plain;
  }

  // The command that an operation goes with: an atomic gives old bytes, as a read does, and a prefetch moves none.
  static tlm::tlm_command command_of(const payload &trans, const extension &rest) {
    if (is_atomic(rest)) return tlm::TLM_READ_COMMAND;
    if (is_prefetch(rest)) return tlm::TLM_IGNORE_COMMAND;
    return trans.is_read() || trans.is_write() ? trans.get_command() : tlm::TLM_IGNORE_COMMAND;
  }

  // Each byte enable is one of the two that TLM names, and atomics and prefetches have none.
  static bool are_enables_good(const payload &trans, const extension &rest) {
    const unsigned char *enables = trans.get_byte_enable_ptr();
    if (!enables) return true;
    return trans.get_byte_enable_length() > 0 && rest.asked == operation::plain &&
           std::all_of(enables, enables + trans.get_byte_enable_length(),
                       [](unsigned char enable) { return enable == TLM_BYTE_ENABLED || enable == TLM_BYTE_DISABLED; });
  }

  // The byte enables of a payload repeat if they are fewer than its bytes.
  static bool is_enabled(const payload &trans, unsigned k) {
    const unsigned char *enables = trans.get_byte_enable_ptr();
    return !enables || enables[k % trans.get_byte_enable_length()] == TLM_BYTE_ENABLED;
  }

  static tlx_request request_of(const payload &trans, const extension &rest) {
    tlx_request request = {};
    request.address = trans.get_address();
    request.source = rest.source;
    while (1u << request.size < trans.get_data_length()) request.size++;
    set_codes(request, trans, rest);
    if (is_atomic(rest)) std::copy(rest.operand.begin(), rest.operand.end(), request.bytes);
    if (!trans.is_write()) return request;
    for (unsigned k = 0; k < trans.get_data_length(); k++) {
      request.set[k] = is_enabled(trans, k);
      request.bytes[k] = trans.get_data_ptr()[k];
    }
    return request;
  }

  // The numbers of channel A.
  static void set_codes(tlx_request &request, const payload &trans, const extension &rest) {
    enum : std::uint8_t { PUT_FULL = 0, PUT_PARTIAL = 1, ARITHMETIC = 2, LOGICAL = 3, GET = 4, INTENT = 5 };
    static const struct { std::uint8_t opcode, param; } CODES[] = {
        {GET, 0},  // plain; what a write is stands below
        {ARITHMETIC, 0}, {ARITHMETIC, 1}, {ARITHMETIC, 2}, {ARITHMETIC, 3}, {ARITHMETIC, 4},  // min, max, minu, maxu, add
        {LOGICAL, 0}, {LOGICAL, 1}, {LOGICAL, 2}, {LOGICAL, 3},                                // xor, or, and, swap
        {INTENT, 0}, {INTENT, 1},                                                              // prefetches
    };
    request.opcode = CODES[static_cast<int>(rest.asked)].opcode;
    request.param = CODES[static_cast<int>(rest.asked)].param;
    if (trans.is_write()) request.opcode = trans.get_byte_enable_ptr() ? PUT_PARTIAL : PUT_FULL;
  }
};

}  // namespace tlx

#endif
