/* tlx.h for C++17: classes that own the handles of C, for harnesses of Verilator and SystemC. Header only; link with -ltlx.
 *
 * A System, a Model and a Judge is empty, or owns a handle of tlx.h. Each can be moved, which leaves the other one empty, and none can be
 * copied. The destructor gives back what is owned, in whatever order they end. What tlx.h says of a call holds here: what it does, its
 * faults and their order, threads. Of an empty object the counts are 0, the texts are empty, and the calls answer Fault::empty.
 *
 * What can fail has two forms, with the same arguments.
 * - `try_serve`, `try_read` and so on answer a Fault, and throw none. `try_read` and `try_make` fill an empty object, and answer Fault::full
 *   of another. `why`, if there is one, takes the text of the fault, an empty one if there is none.
 * - Without `try_` a fault is thrown as Error, but for what a caller expects in the course of work, which is answered:
 *   Fault::device by `serve`, a fault of an unlawful beat by `step` (is_unlawful), and Fault::incomplete by `end`. The line of the last
 *   two is then in `text`. Objects are made full by `System::read(text)`, `Model(system)`, `Judge(system)` and `Judge::read(text)`.
 *
 * Where there are no exceptions, or TLX_NO_EXCEPTIONS is defined, the first form alone is there. All files of a program agree about that.
 * What answers or fills a std::string takes memory as any std::string does. Texts of faults are cut off after 2,047 bytes; only the name of
 * an image's file can be so long. */
#ifndef TLX_HPP
#define TLX_HPP

#include <algorithm>
#include <cstddef>
#include <cstdint>
#include <cstring>
#include <memory>
#include <optional>
#include <string>
#include <type_traits>
#include <utility>

#include "tlx.h"

#if !defined(TLX_NO_EXCEPTIONS) && !defined(__cpp_exceptions)
#define TLX_NO_EXCEPTIONS
#endif

#ifndef TLX_NO_EXCEPTIONS
#include <stdexcept>
#endif

namespace tlx {

// enum tlx_fault, whose comments in tlx.h say what each is.
enum class Fault : std::uint32_t {
  ok = TLX_OK,
  null = TLX_NULL,
  empty = TLX_EMPTY,
  full = TLX_FULL,
  memory = TLX_MEMORY,
  bad_argument = TLX_BAD_ARGUMENT,
  other_version = TLX_OTHER_VERSION,
  not_toml = TLX_NOT_TOML,
  missing = TLX_MISSING,
  wrong_type = TLX_WRONG_TYPE,
  out_of_range = TLX_OUT_OF_RANGE,
  bad_ports = TLX_BAD_PORTS,
  bad_sources = TLX_BAD_SOURCES,
  too_long = TLX_TOO_LONG,
  two_called = TLX_TWO_CALLED,
  unknown_key = TLX_UNKNOWN_KEY,
  no_operation = TLX_NO_OPERATION,
  size = TLX_SIZE,
  no_master = TLX_NO_MASTER,
  no_source = TLX_NO_SOURCE,
  no_byte = TLX_NO_BYTE,
  device = TLX_DEVICE,
  no_link = TLX_NO_LINK,
  field_changed = TLX_FIELD_CHANGED,
  unknown_opcode = TLX_UNKNOWN_OPCODE,
  wrong_param = TLX_WRONG_PARAM,
  size_out_of_range = TLX_SIZE_OUT_OF_RANGE,
  unaligned_address = TLX_UNALIGNED_ADDRESS,
  wrong_mask = TLX_WRONG_MASK,
  wrong_corrupt_flag = TLX_WRONG_CORRUPT_FLAG,
  unknown_lanes = TLX_UNKNOWN_LANES,
  no_such_source = TLX_NO_SUCH_SOURCE,
  source_in_flight = TLX_SOURCE_IN_FLIGHT,
  wrong_port = TLX_WRONG_PORT,
  no_request = TLX_NO_REQUEST,
  early_reply = TLX_EARLY_REPLY,
  wrong_size = TLX_WRONG_SIZE,
  wrong_opcode = TLX_WRONG_OPCODE,
  unknown_data = TLX_UNKNOWN_DATA,
  not_sent = TLX_NOT_SENT,
  not_given = TLX_NOT_GIVEN,
  wrong_reply = TLX_WRONG_REPLY,
  incomplete = TLX_INCOMPLETE,
  out_of_order = TLX_OUT_OF_ORDER,
  no_port = TLX_NO_PORT,
  no_image = TLX_NO_IMAGE,
  long_image = TLX_LONG_IMAGE,
  image_unreadable = TLX_IMAGE_UNREADABLE,
};

// The words of a fault, as `tlx` and `tlcheck` say them.
inline std::string words(Fault fault) {
  char text[128] = "";
  tlx_fault_text(static_cast<std::uint32_t>(fault), text, sizeof text, nullptr);
  return text;
}

// Whether a fault is that of an unlawful beat, whose line Judge::text then is.
inline bool is_unlawful(Fault fault) {
  return (fault >= Fault::field_changed && fault <= Fault::wrong_reply) || fault == Fault::out_of_order;
}

// Bytes that somebody else owns: a text, or what has `data()` and `size()` over items of one byte, as std::string, std::string_view,
// std::vector<std::uint8_t> and std::array<std::byte, 4>. It is for arguments: it may not outlive what it was made of.
class Bytes {
 public:
  Bytes() = default;
  Bytes(const void *data, std::size_t size) : data_(static_cast<const std::uint8_t *>(data)), size_(size) {}
  // A text up to its zero byte.
  Bytes(const char *text) : Bytes(text, text ? std::strlen(text) : 0) {}
  template <std::size_t count>
  Bytes(const std::uint8_t (&items)[count]) : Bytes(items, count) {}
  template <typename Range, typename Item = std::remove_pointer_t<decltype(std::declval<const Range &>().data())>,
            typename = std::enable_if_t<sizeof(Item) == 1 && std::is_trivially_copyable_v<Item>>>
  Bytes(const Range &range) : Bytes(range.data(), range.size()) {}

  const std::uint8_t *data() const { return data_; }
  std::size_t size() const { return size_; }

 private:
  const std::uint8_t *data_ = nullptr;
  std::size_t size_ = 0;
};

// What the classes share.
namespace detail {

struct Release {
  void operator()(tlx_system *handle) const { tlx_system_free(handle); }
  void operator()(tlx_model *handle) const { tlx_model_free(handle); }
  void operator()(tlx_judge *handle) const { tlx_judge_free(handle); }
};

template <typename Handle>
using Owned = std::unique_ptr<Handle, Release>;

// Calls with the handle that is owned, if there is one.
template <typename Handle, typename Call>
Fault with(const Owned<Handle> &owned, Call call) {
  return owned ? static_cast<Fault>(call(owned.get())) : Fault::empty;
}

// The count of a handle, 0 if there is none.
template <typename Handle>
std::uint64_t count(const Owned<Handle> &owned, std::uint32_t (*call)(const Handle *, std::uint64_t *)) {
  std::uint64_t found = 0;
  if (owned) call(owned.get(), &found);
  return found;
}

// Calls with room for the text of a fault, which `why` takes.
template <typename Call>
Fault explain(std::string *why, Call call) {
  char text[2048] = "";
  const Fault fault = static_cast<Fault>(call(text, sizeof text));
  if (why) *why = text;
  return fault;
}

// Fills an empty owner by a call of C.
template <typename Handle, typename Call>
Fault fill(Owned<Handle> &owned, std::string *why, Call call) {
  Handle *made = nullptr;
  const Fault fault = explain(why, [&](char *text, std::size_t room) {
    return owned ? static_cast<std::uint32_t>(TLX_FULL) : call(&made, text, room);
  });
  if (fault == Fault::ok) owned.reset(made);
  return fault;
}

// The same by a call that takes the handle of a system.
template <typename Handle, typename Call>
Fault fill_of(Owned<Handle> &owned, const Owned<tlx_system> &system, std::string *why, Call call) {
  return fill(owned, why, [&](Handle **made, char *text, std::size_t room) {
    return system ? call(system.get(), made, text, room) : static_cast<std::uint32_t>(TLX_EMPTY);
  });
}

// Fills an empty owner by a copy of what another one has.
template <typename Handle>
Fault fill_clone(Owned<Handle> &clone, const Owned<Handle> &owned, std::uint32_t (*call)(const Handle *, Handle **)) {
  return fill(clone, nullptr, [&](Handle **made, char *, std::size_t) {
    return owned ? call(owned.get(), made) : static_cast<std::uint32_t>(TLX_EMPTY);
  });
}

}  // namespace detail

#ifndef TLX_NO_EXCEPTIONS
// A fault that was not expected. `what()` is its text: that of the call, which names the key, master or port, or else the fault's words.
class Error : public std::runtime_error {
 public:
  explicit Error(Fault fault, const std::string &why = {}) : std::runtime_error(why.empty() ? words(fault) : why), fault_(fault) {}
  Fault fault() const noexcept { return fault_; }

 private:
  Fault fault_;
};

namespace detail {

inline void check(Fault fault, const std::string &why = {}) {
  if (fault != Fault::ok) throw Error(fault, why);
}

}  // namespace detail
#endif

// What a system file describes. Models and judges are made of it and do not need it afterwards.
class System {
 public:
  System() = default;

  [[nodiscard]] Fault try_read(Bytes file, std::string *why = nullptr) {
    return detail::fill(handle_, why, [&](tlx_system **made, char *text, std::size_t room) {
      return tlx_system_read(file.data(), file.size(), TLX_VERSION, made, text, room);
    });
  }

  // Hands in the bytes of a port's image, which are copied.
  [[nodiscard]] Fault try_image(std::uint64_t port, Bytes bytes, std::string *why = nullptr) {
    return detail::explain(why, [&](char *text, std::size_t room) {
      return handle_ ? tlx_system_image(handle_.get(), port, bytes.data(), bytes.size(), text, room) : static_cast<std::uint32_t>(TLX_EMPTY);
    });
  }

  // The error port is none of them.
  std::uint64_t ports() const { return detail::count(handle_, tlx_system_ports); }

  // The whole name of the file of a port's image; an empty text if the system file names none.
  std::string image_name(std::uint64_t port) const {
    std::string name(256, '\0');
    for (;;) {
      std::size_t length = 0;
      if (handle_) tlx_system_image_name(handle_.get(), port, name.data(), name.size(), &length);
      const bool is_whole = length + 1 < name.size();
      name.resize(is_whole ? length : 2 * name.size());
      if (is_whole) return name;
    }
  }

#ifndef TLX_NO_EXCEPTIONS
  static System read(Bytes file) {
    System made;
    std::string why;
    const Fault fault = made.try_read(file, &why);
    detail::check(fault, why);
    return made;
  }

  void image(std::uint64_t port, Bytes bytes) {
    std::string why;
    const Fault fault = try_image(port, bytes, &why);
    detail::check(fault, why);
  }
#endif

 private:
  friend class Model;
  friend class Judge;
  detail::Owned<tlx_system> handle_;
};

// The model of a system's crossbar, which answers each request at once.
class Model {
 public:
  Model() = default;

  [[nodiscard]] Fault try_make(const System &system, std::string *why = nullptr) {
    return detail::fill_of(handle_, system.handle_, why, tlx_model_make);
  }

  // Fills an empty model, which then goes on from where this one is.
  [[nodiscard]] Fault try_clone(Model &clone) const { return detail::fill_clone(clone.handle_, handle_, tlx_model_clone); }

  [[nodiscard]] Fault try_serve(std::uint64_t master, const tlx_request &request, tlx_answer &answer) {
    return detail::with(handle_, [&](tlx_model *handle) { return tlx_model_serve(handle, master, &request, &answer); });
  }

  // The byte at an address, or nothing if nobody knows it. After a fault `byte` is as it was.
  [[nodiscard]] Fault try_peek(std::uint64_t address, std::optional<std::uint8_t> &byte) const {
    std::uint8_t value = 0;
    std::uint32_t known = 0;
    const Fault fault = detail::with(handle_, [&](const tlx_model *handle) { return tlx_model_peek(handle, address, &value, &known); });
    if (fault == Fault::ok) byte = known ? std::optional<std::uint8_t>(value) : std::nullopt;
    return fault;
  }

  // Puts a byte at an address; an unknown one if there is none.
  [[nodiscard]] Fault try_poke(std::uint64_t address, std::optional<std::uint8_t> byte) {
    return detail::with(handle_, [&](tlx_model *handle) { return tlx_model_poke(handle, address, byte.value_or(0), byte.has_value()); });
  }

  [[nodiscard]] Fault try_reset() { return detail::with(handle_, tlx_model_reset); }

  std::uint64_t masters() const { return detail::count(handle_, tlx_model_masters); }

  // The error port is the last of them.
  std::uint64_t ports() const { return detail::count(handle_, tlx_model_ports); }

#ifndef TLX_NO_EXCEPTIONS
  explicit Model(const System &system) {
    std::string why;
    const Fault fault = try_make(system, &why);
    detail::check(fault, why);
  }

  Model clone() const {
    Model made;
    detail::check(try_clone(made));
    return made;
  }

  // Answers Fault::ok, or Fault::device.
  Fault serve(std::uint64_t master, const tlx_request &request, tlx_answer &answer) {
    const Fault fault = try_serve(master, request, answer);
    if (fault != Fault::device) detail::check(fault);
    return fault;
  }

  std::optional<std::uint8_t> peek(std::uint64_t address) const {
    std::optional<std::uint8_t> byte;
    detail::check(try_peek(address, byte));
    return byte;
  }

  void poke(std::uint64_t address, std::optional<std::uint8_t> byte) { detail::check(try_poke(address, byte)); }
  void reset() { detail::check(try_reset()); }
#endif

 private:
  detail::Owned<tlx_model> handle_;
};

// The judge of the beats that cross the links of a system's crossbar.
class Judge {
 public:
  Judge() = default;

  [[nodiscard]] Fault try_make(const System &system, tlx_links links = TLX_BOTH_LINKS, tlx_order masters = TLX_ACCEPT_ORDER,
                               tlx_order ports = TLX_ACCEPT_ORDER, std::string *why = nullptr) {
    return detail::fill_of(handle_, system.handle_, why, [&](const tlx_system *of, tlx_judge **made, char *text, std::size_t room) {
      return tlx_judge_make(of, links, masters, ports, made, text, room);
    });
  }

  // The judge of a file that names no image.
  [[nodiscard]] Fault try_read(Bytes file, tlx_links links = TLX_BOTH_LINKS, tlx_order masters = TLX_ACCEPT_ORDER,
                               tlx_order ports = TLX_ACCEPT_ORDER, std::string *why = nullptr) {
    return detail::fill(handle_, why, [&](tlx_judge **made, char *text, std::size_t room) {
      return tlx_judge_read(file.data(), file.size(), TLX_VERSION, links, masters, ports, made, text, room);
    });
  }

  // Fills an empty judge, which then goes on from where this one is.
  [[nodiscard]] Fault try_clone(Judge &clone) const { return detail::fill_clone(clone.handle_, handle_, tlx_judge_clone); }

  [[nodiscard]] Fault try_step(const tlx_beat &beat) {
    return detail::with(handle_, [&](tlx_judge *handle) { return tlx_judge_step(handle, &beat); });
  }

  // Judges beats in turn; `judged` says how many before the first that is refused.
  [[nodiscard]] Fault try_steps(const tlx_beat *beats, std::size_t count, std::size_t &judged) {
    return detail::with(handle_, [&](tlx_judge *handle) { return tlx_judge_steps(handle, beats, count, &judged); });
  }

  // Judges the beats of one clock cycle, in any order; `at` is the place of the first that is refused, else their count.
  [[nodiscard]] Fault try_cycle(const tlx_beat *beats, std::size_t count, std::size_t &at) {
    return detail::with(handle_, [&](tlx_judge *handle) { return tlx_judge_cycle(handle, beats, count, &at); });
  }

  [[nodiscard]] Fault try_reset() { return detail::with(handle_, tlx_judge_reset); }
  [[nodiscard]] Fault try_end() { return detail::with(handle_, tlx_judge_end); }

  // The line of the last unlawful beat, or of the end, with its line end.
  std::string text() const {
    char line[2048] = "";
    if (handle_) tlx_judge_text(handle_.get(), line, sizeof line, nullptr);
    return line;
  }

  std::uint64_t requests() const { return detail::count(handle_, tlx_judge_requests); }
  std::uint64_t answered() const { return detail::count(handle_, tlx_judge_answered); }
  std::uint64_t in_flight() const { return detail::count(handle_, tlx_judge_in_flight); }

#ifndef TLX_NO_EXCEPTIONS
  explicit Judge(const System &system, tlx_links links = TLX_BOTH_LINKS, tlx_order masters = TLX_ACCEPT_ORDER,
                 tlx_order ports = TLX_ACCEPT_ORDER) {
    std::string why;
    const Fault fault = try_make(system, links, masters, ports, &why);
    detail::check(fault, why);
  }

  static Judge read(Bytes file, tlx_links links = TLX_BOTH_LINKS, tlx_order masters = TLX_ACCEPT_ORDER, tlx_order ports = TLX_ACCEPT_ORDER) {
    Judge made;
    std::string why;
    const Fault fault = made.try_read(file, links, masters, ports, &why);
    detail::check(fault, why);
    return made;
  }

  Judge clone() const {
    Judge made;
    detail::check(try_clone(made));
    return made;
  }

  // These three answer Fault::ok, or the fault of an unlawful beat.
  [[nodiscard]] Fault step(const tlx_beat &beat) {
    const Fault fault = try_step(beat);
    if (!is_unlawful(fault)) detail::check(fault);
    return fault;
  }

  [[nodiscard]] Fault steps(const tlx_beat *beats, std::size_t count, std::size_t &judged) {
    const Fault fault = try_steps(beats, count, judged);
    if (!is_unlawful(fault)) detail::check(fault);
    return fault;
  }

  [[nodiscard]] Fault cycle(const tlx_beat *beats, std::size_t count, std::size_t &at) {
    const Fault fault = try_cycle(beats, count, at);
    if (!is_unlawful(fault)) detail::check(fault);
    return fault;
  }

  void reset() { detail::check(try_reset()); }

  // Answers Fault::ok, or Fault::incomplete.
  [[nodiscard]] Fault end() {
    const Fault fault = try_end();
    if (fault != Fault::incomplete) detail::check(fault);
    return fault;
  }
#endif

 private:
  detail::Owned<tlx_judge> handle_;
};

namespace detail {

inline tlx_request request(std::uint8_t opcode, std::uint8_t param, std::uint64_t address, std::uint8_t size, std::uint16_t source,
                           Bytes bytes = {}) {
  tlx_request made = {};
  made.opcode = opcode;
  made.param = param;
  made.address = address;
  made.size = size;
  made.source = source;
  std::copy_n(bytes.data(), std::min<std::size_t>(bytes.size(), TLX_ROOM), made.bytes);
  return made;
}

}  // namespace detail

// Requests: `size` is log2 of the number of bytes, and `source` the master's own. Bytes that are not given are 0, and those over TLX_ROOM are
// left out.
inline tlx_request get(std::uint64_t address, std::uint8_t size, std::uint16_t source = 0) { return detail::request(4, 0, address, size, source); }

inline tlx_request put_full(std::uint64_t address, std::uint8_t size, std::uint16_t source, Bytes bytes) {
  return detail::request(0, 0, address, size, source, bytes);
}

// `set` has a byte for each byte: 0 if it is left unset. Those that are not given are left unset.
inline tlx_request put_partial(std::uint64_t address, std::uint8_t size, std::uint16_t source, Bytes bytes, Bytes set) {
  tlx_request made = detail::request(1, 0, address, size, source, bytes);
  std::copy_n(set.data(), std::min<std::size_t>(set.size(), TLX_ROOM), made.set);
  return made;
}

// Opcode 2 is arithmetic (param 0 to 4: min, max, minu, maxu, add), and 3 logical (0 to 3: xor, or, and, swap).
inline tlx_request atomic(std::uint8_t opcode, std::uint8_t param, std::uint64_t address, std::uint8_t size, std::uint16_t source, Bytes bytes) {
  return detail::request(opcode, param, address, size, source, bytes);
}

inline tlx_request prefetch(std::uint64_t address, std::uint8_t size, std::uint16_t source, bool to_write) {
  return detail::request(5, to_write, address, size, source);
}

namespace detail {

inline tlx_beat beat(tlx_side side, std::uint64_t number, tlx_channel channel, std::uint8_t opcode, std::uint8_t size, std::uint16_t source,
                     Bytes lanes) {
  tlx_beat made = {};
  made.side = static_cast<std::uint8_t>(side);
  made.number = number;
  made.channel = static_cast<std::uint8_t>(channel);
  made.opcode = opcode;
  made.size = size;
  made.source = source;
  const std::size_t count = std::min<std::size_t>(lanes.size(), TLX_LANES);
  std::copy_n(lanes.data(), count, made.lanes);
  if (count > 0) made.known = ~std::uint64_t{0} >> (TLX_LANES - count);
  return made;
}

}  // namespace detail

// Beats at a link, from lane 0 on: the lanes that are given are known, and no others. `line`, `time`, `corrupt`, and of D `denied` and `param` are
// 0 and may be set afterwards.
// A beat of channel A has the fields of a request, and not its bytes, which may fill several beats.
inline tlx_beat beat_a(tlx_side side, std::uint64_t number, const tlx_request &request, std::uint64_t mask, Bytes lanes = {}) {
  tlx_beat made = detail::beat(side, number, TLX_A, request.opcode, request.size, request.source, lanes);
  made.param = request.param;
  made.address = request.address;
  made.mask = mask;
  return made;
}

inline tlx_beat beat_d(tlx_side side, std::uint64_t number, std::uint8_t opcode, std::uint8_t size, std::uint16_t source, Bytes lanes = {}) {
  return detail::beat(side, number, TLX_D, opcode, size, source, lanes);
}

}  // namespace tlx

#endif
