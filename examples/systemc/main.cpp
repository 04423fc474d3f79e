// Random initiators before a tlx::target: `main SYSTEM SEED COUNT SCRIPT TRACE`. Each master of SYSTEM sends COUNT requests, one master
// after the other as `tlx --serial` does; SCRIPT is then the system with what they sent, and TRACE what they were answered, in the words
// of docs/reference/formats.md. Now and then an initiator sends what no request can say, which has to be refused and to leave no trace.
#include <cstdio>
#include <fstream>
#include <iostream>
#include <memory>
#include <random>
#include <sstream>

#include <tlm_utils/simple_initiator_socket.h>

#include "tlx_target.h"

namespace {

using bytes = std::vector<unsigned char>;

struct range {
  std::uint64_t base, length;
};

// What is random, by a generator whose numbers the standard fixes: each seed gives the same requests everywhere.
class chance {
 public:
  explicit chance(unsigned seed) : numbers_(seed) {}
  unsigned below(std::uint64_t limit) { return static_cast<unsigned>(numbers_() % limit); }
  bool one_in(unsigned count) { return below(count) == 0; }
  bytes data(std::size_t length) {
    bytes made(length);
    for (auto &byte : made) byte = static_cast<unsigned char>(below(256));
    return made;
  }

 private:
  std::mt19937 numbers_;
};

// One request: its payload with the arrays that it points at. The payload's extension is freed by the payload.
struct request {
  tlm::tlm_generic_payload payload;
  tlx::extension *rest = new tlx::extension;
  unsigned size = 0;  // log2 of its bytes
  bytes data, enables;

  request() { payload.set_extension(rest); }
  request(const request &) = delete;
  request &operator=(const request &) = delete;

  bool is_atomic() const { return rest->asked > tlx::operation::plain && rest->asked < tlx::operation::prefetch_read; }
  bool is_prefetch() const { return rest->asked >= tlx::operation::prefetch_read; }
};

// A size, mostly of a word or less, and an address of a range or near it, mostly of the first one; now and then of nobody.
void choose_place(request &made, chance &pick, const std::vector<range> &ranges) {
  const range &near = ranges[pick.one_in(2) ? 0 : pick.below(ranges.size())];
  made.size = pick.one_in(3) ? pick.below(tlx_largest_size() + 1u) : pick.one_in(3) ? pick.below(2) : 2 + pick.below(2);
  std::uint64_t address = near.base - 8 + pick.below(near.length + 16);
  if (!pick.one_in(4)) address = near.base + pick.below(32);
  if (pick.one_in(32)) address = 0xffffffffffffff00u + pick.below(256);
  made.payload.set_address(address >> made.size << made.size);
}

// Of nine three are reads, two whole writes, two writes of some bytes, and two atomics or prefetches.
void choose_operation(request &made, chance &pick) {
  const std::size_t length = std::size_t{1} << made.size;
  made.data = pick.data(length);
  const unsigned kind = pick.below(9);
  made.payload.set_command(kind < 3 ? tlm::TLM_READ_COMMAND : tlm::TLM_WRITE_COMMAND);
  if (kind == 5 || kind == 6) {
    made.enables = pick.data(1 + pick.below(length));
    for (auto &enable : made.enables) enable = enable % 2 ? TLM_BYTE_ENABLED : TLM_BYTE_DISABLED;
  }
  if (kind < 7) return;
  made.rest->asked = static_cast<tlx::operation>(1 + pick.below(11));
  made.payload.set_command(made.is_prefetch() ? tlm::TLM_IGNORE_COMMAND : tlm::TLM_READ_COMMAND);
  if (made.is_atomic()) made.rest->operand = pick.data(length);
}

void point_at_arrays(request &made) {
  made.payload.set_data_ptr(made.data.data());
  made.payload.set_data_length(static_cast<unsigned>(made.data.size()));
  made.payload.set_streaming_width(made.payload.get_data_length());
  if (made.enables.empty()) return;
  made.payload.set_byte_enable_ptr(made.enables.data());
  made.payload.set_byte_enable_length(static_cast<unsigned>(made.enables.size()));
}

// Makes of a request one that TileLink can't say; the answer that TLM has for it.
tlm::tlm_response_status spoil(request &made, chance &pick) {
  tlm::tlm_generic_payload &payload = made.payload;
  switch (pick.below(made.size > 0 ? 5 : 4)) {
    case 0:
      payload.set_command(static_cast<tlm::tlm_command>(3));
      return tlm::TLM_COMMAND_ERROR_RESPONSE;
    case 1:
      payload.set_data_length(pick.one_in(2) ? 0 : 2u << tlx_largest_size());
      return tlm::TLM_BURST_ERROR_RESPONSE;
    case 2:
      payload.set_streaming_width(payload.get_data_length() - 1);
      return tlm::TLM_BURST_ERROR_RESPONSE;
    case 3:
      made.enables = {TLM_BYTE_ENABLED & 0x7f};
      payload.set_byte_enable_ptr(made.enables.data());
      payload.set_byte_enable_length(1);
      return tlm::TLM_BYTE_ENABLE_ERROR_RESPONSE;
    default:
      payload.set_address(payload.get_address() + 1 + pick.below(payload.get_data_length() - 1));
      return tlm::TLM_ADDRESS_ERROR_RESPONSE;
  }
}

// Two digits a byte; `--` if a byte is not enabled.
std::string digits(const bytes &data, const bytes &enables = {}) {
  std::string text;
  char pair[3];
  for (std::size_t k = 0; k < data.size(); k++) {
    std::snprintf(pair, sizeof pair, "%02x", data[k]);
    text += enables.empty() || enables[k % enables.size()] == TLM_BYTE_ENABLED ? pair : "--";
  }
  return text;
}

const char *name_of(const request &sent) {
  static const char *const NAMES[] = {"get", "min", "max", "minu", "maxu", "add", "xor", "or", "and", "swap", "prefetchr", "prefetchw"};
  if (sent.payload.is_write()) return sent.enables.empty() ? "putfull" : "putpart";
  return NAMES[static_cast<int>(sent.rest->asked)];
}

// A request as a script spells it after its source.
std::string message_of(const request &sent) {
  std::ostringstream text;
  text << name_of(sent) << " 0x" << std::hex << sent.payload.get_address() << " " << sent.size;
  if (sent.payload.is_write()) text << " " << digits(sent.data, sent.enables);
  if (sent.is_atomic()) text << " " << digits(sent.rest->operand);
  return text.str();
}

// What came back, as a trace spells it: all but the port and the place is read off the payload.
std::string reply_of(const request &answered) {
  const bool is_denied = answered.payload.get_response_status() != tlm::TLM_OK_RESPONSE;
  std::string text = answered.payload.is_read() ? "AccessAckData" : answered.is_prefetch() ? "HintAck" : "AccessAck";
  if (is_denied) text += " denied";
  if (answered.payload.is_read()) text += " " + digits(is_denied ? bytes(answered.data.size()) : answered.data);
  return text + " p" + std::to_string(answered.rest->port) + " #" + std::to_string(answered.rest->place);
}

class initiator : public sc_core::sc_module {
  SC_HAS_PROCESS(initiator);

 public:
  tlm_utils::simple_initiator_socket<initiator> socket{"socket"};
  std::vector<std::string> operations, trace;
  unsigned wrong = 0;

  initiator(const sc_core::sc_module_name &name, unsigned number, unsigned count, unsigned sources, const std::vector<range> &ranges,
            chance &pick, initiator *before)
      : sc_core::sc_module(name), number_(number), count_(count), sources_(sources), ranges_(ranges), pick_(pick), before_(before) {
    SC_THREAD(run);
  }

 private:
  unsigned number_, count_, sources_;
  const std::vector<range> &ranges_;
  chance &pick_;
  initiator *before_;
  sc_core::sc_event done_;

  void run() {
    if (before_) wait(before_->done_);
    while (trace.size() < count_) {
      send();
      wait(1, sc_core::SC_NS);
    }
    done_.notify(sc_core::SC_ZERO_TIME);
  }

  void send() {
    request made;
    choose_place(made, pick_, ranges_);
    choose_operation(made, pick_);
    point_at_arrays(made);
    made.rest->source = static_cast<std::uint16_t>(pick_.below(sources_));
    if (pick_.one_in(16)) return send_spoilt(made);
    const std::string asked = message_of(made), source = std::to_string(made.rest->source);
    transport(made);
    const auto status = made.payload.get_response_status();
    const bool is_nobodys = made.rest->port == ranges_.size();
    const auto expected = is_nobodys ? tlm::TLM_ADDRESS_ERROR_RESPONSE : tlm::TLM_GENERIC_ERROR_RESPONSE;
    tell(asked, made.rest->served && (status == expected || (status == tlm::TLM_OK_RESPONSE && !is_nobodys)));
    operations.push_back(source + " " + asked);
    trace.push_back("m" + std::to_string(number_) + " s" + source + " " + asked + " -> " + reply_of(made));
  }

  void send_spoilt(request &made) {
    const auto expected = spoil(made, pick_);
    const bytes before = made.data;
    transport(made);
    tell("a request that is none", !made.rest->served && made.payload.get_response_status() == expected && made.data == before);
  }

  void transport(request &made) {
    sc_core::sc_time delay = sc_core::SC_ZERO_TIME;
    socket->b_transport(made.payload, delay);
  }

  void tell(const std::string &what, bool is_so) {
    if (is_so) return;
    wrong++;
    std::cerr << "systemc: m" << number_ << " " << what << ": not the status that it must have\n";
  }
};

std::string whole(const char *path) {
  std::ifstream file(path);
  if (!file) throw std::runtime_error(std::string(path) + ": can't be read");
  return std::string(std::istreambuf_iterator<char>(file), {});
}

// The numbers of a key, table by table.
std::vector<std::uint64_t> numbers_of(const std::string &script, const std::string &key) {
  std::vector<std::uint64_t> numbers;
  std::istringstream lines(script);
  for (std::string line; std::getline(lines, line);)
    if (line.rfind(key + " = ", 0) == 0) numbers.push_back(std::stoull(line.substr(key.size() + 3), nullptr, 0));
  return numbers;
}

// The system with each master's operations in the place of its empty ones.
std::string script_of(std::string script, const std::vector<std::unique_ptr<initiator>> &masters) {
  const std::string empty = "ops = []";
  std::size_t at = 0;
  for (const auto &master : masters) {
    std::string full = "ops = [\n";
    for (const auto &line : master->operations) full += "  \"" + line + "\",\n";
    full += "]";
    at = script.find(empty, at);
    if (at == std::string::npos) throw std::runtime_error("the system needs a line 'ops = []' for each master");
    script.replace(at, empty.size(), full);
    at += full.size();
  }
  return script;
}

unsigned run(char **words) {
  const std::string system = whole(words[1]);
  chance pick(static_cast<unsigned>(std::stoul(words[2])));
  std::vector<range> ranges;
  const auto bases = numbers_of(system, "base"), lengths = numbers_of(system, "length"), sources = numbers_of(system, "sources");
  for (std::size_t n = 0; n < bases.size(); n++) ranges.push_back({bases[n], lengths.at(n)});
  tlx::target crossbar("crossbar", system);
  std::vector<std::unique_ptr<initiator>> masters;
  for (unsigned m = 0; m < crossbar.masters.size(); m++) {
    initiator *before = m ? masters[m - 1].get() : nullptr;
    const std::string name = "initiator_" + std::to_string(m);
    masters.emplace_back(new initiator(name.c_str(), m, static_cast<unsigned>(std::stoul(words[3])), static_cast<unsigned>(sources.at(m)),
                                       ranges, pick, before));
    masters[m]->socket.bind(crossbar.masters[m]);
  }
  sc_core::sc_start();
  std::ofstream(words[4]) << script_of(system, masters);
  std::ofstream trace(words[5]);
  unsigned wrong = 0;
  for (const auto &master : masters) {
    for (const auto &line : master->trace) trace << line << "\n";
    wrong += master->wrong;
  }
  return wrong;
}

}  // namespace

int sc_main(int count, char **words) {
  if (count != 6) {
    std::cerr << "usage: main SYSTEM SEED COUNT SCRIPT TRACE\n";
    return 2;
  }
  try {
    return run(words) > 0;
  } catch (const std::exception &problem) {
    std::cerr << "systemc: " << problem.what() << "\n";
    return 1;
  }
}
