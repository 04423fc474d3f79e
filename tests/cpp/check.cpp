// Walks every call of tlx.hpp, right and refused, in both forms. This file has systems, models and what becomes of objects; judges.cpp is a second
// file of the same program. What is expected was worked out by hand from tlx.h and docs/reference. It is linked with --wrap for malloc, calloc and realloc.
// The last line is 'N passed, M failed'.
#include "check.hpp"

#include <array>
#include <cstdio>
#include <cstdlib>
#include <string_view>
#include <vector>

using tlx::Fault;

static int passed, failed;

void tell(const std::string &name, bool is_so) {
  (is_so ? passed : failed)++;
  if (!is_so) std::fprintf(stderr, "tests/cpp: %s is not as it was worked out\n", name.c_str());
}

// ---- memory: the library's calls of malloc, calloc and realloc come here

bool is_library_refused;

extern "C" {
void *__real_malloc(std::size_t size);
void *__real_calloc(std::size_t count, std::size_t size);
void *__real_realloc(void *old, std::size_t size);
void *__wrap_malloc(std::size_t size) { return is_library_refused ? nullptr : __real_malloc(size); }
void *__wrap_calloc(std::size_t count, std::size_t size) { return is_library_refused ? nullptr : __real_calloc(count, size); }
void *__wrap_realloc(void *old, std::size_t size) { return is_library_refused ? nullptr : __real_realloc(old, size); }
}


// ---- systems

#define HOST "[[master]]\nsources = 2\n"
const char SYSTEM[] =
    "[[port]]\nkind = \"ram\"\nbase = 0x1000\nlength = 64\nreset = \"00112233\"\n"
    "[[port]]\nkind = \"ram\"\nbase = 0x2000\nlength = 64\nunknown = true\n"
    "[[port]]\nkind = \"device\"\nbase = 0x3000\nlength = 8\n" HOST;
const char RESETS[] =
    "resets = true\n"
    "[[port]]\nkind = \"ram\"\nbase = 0x1000\nlength = 64\nreset = \"0011223344556677\"\n"
    "[[port]]\nkind = \"regs\"\nbase = 0x2000\nlength = 16\nreset = \"a0a1a2a3\"\non_reset = \"load\"\n" HOST;
static const char IMAGES[] =
    "[[port]]\nkind = \"rom\"\nbase = 0x1000\nlength = 8\nreset = \"aa\"\nimage = \"boot.bin\"\n"
    "[[port]]\nkind = \"ram\"\nbase = 0x2000\nlength = 4\n"
    "[[port]]\nkind = \"rom\"\nbase = 0x3000\nlength = 2\nimage = \"none\"\n" HOST;

static void check_reading() {
  static const struct { const char *file; Fault fault; const char *why; } FILES[] = {
      {"port = 1\n=", Fault::not_toml, "system: not TOML"},
      {"", Fault::missing, "system: missing master"},
      {nullptr, Fault::missing, "system: missing master"},
      {"port = 1", Fault::wrong_type, "system: wrong type of port"},
      {"prot = 1\nport = 1", Fault::unknown_key, "system: unknown key prot (near: port)"},
      {"bus = 3", Fault::out_of_range, "system: bus out of range"},
      {SYSTEM, Fault::ok, ""},
  };
  for (const auto &row : FILES) {
    tlx::System system;
    std::string why = "before";
    tell(row.why, system.try_read(row.file, &why) == row.fault && why == row.why && tlx::System().try_read(row.file) == row.fault);
    if (row.fault != Fault::ok) tell(row.why, throws(row.fault, row.why, [&] { tlx::System::read(row.file); }) && system.ports() == 0);
  }
  tlx::System system = tlx::System::read(SYSTEM);
  std::string why = "before";
  tell("a second file in one system", system.try_read("", &why) == Fault::full && why.empty() && system.ports() == 3);
  tell("bytes at null", tlx::System().try_read({nullptr, 1}) == Fault::null &&
       throws(Fault::null, "", [] { tlx::System::read({nullptr, 1}); }));
  const std::string longest((1 << 20) + 1, '#');
  tell("a file too long", throws(Fault::too_long, "system: longer than 1048576 bytes", [&] { tlx::System::read(longest); }));
}

static void check_images() {
  static const struct { std::uint64_t port; std::string bytes; Fault fault; const char *why; } HANDED[] = {
      {3, "", Fault::no_port, "system: no port 3"},
      {1, "12345", Fault::no_image, "system: port 1: no image"},
      {2, "123", Fault::long_image, "system: port 2: image is longer than its range"},
      {0, "\x11\x22", Fault::ok, ""},
      {2, "", Fault::ok, ""},
  };
  tlx::System system = tlx::System::read(IMAGES);
  tell("the names of images", system.image_name(0) == "boot.bin" && system.image_name(1).empty() && system.image_name(9).empty());
  const std::string unreadable = "system: port 0: image can't be read";
  std::string why;
  tlx::Model early;
  tell("an image that is missing", early.try_make(system, &why) == Fault::image_unreadable && why == unreadable && early.ports() == 0 &&
       throws(Fault::image_unreadable, unreadable, [&] { tlx::Model model(system); }) &&
       throws(Fault::image_unreadable, unreadable, [&] { tlx::Judge judge(system); }));
  for (const auto &row : HANDED) {
    tell(row.why, system.try_image(row.port, row.bytes, &why) == row.fault && why == row.why);
    if (row.fault != Fault::ok) tell(row.why, throws(row.fault, row.why, [&] { system.image(row.port, row.bytes); }));
  }
  tell("an image at null", system.try_image(0, {nullptr, 1}) == Fault::null && system.try_image(2, {}) == Fault::ok);
  system.image(0, "\x33\x44");
  tell("the bytes of an image", tlx::Model(system).peek(0x1001) == 0x44 && early.try_make(system) == Fault::ok && early.ports() == 4);
}

// A name as long as, one shorter than and longer than the room that it is first read into.
static void check_long_names() {
  for (const std::size_t length : {254u, 255u, 256u, 257u, 3000u}) {
    const std::string name(length, 'n');
    tlx::System system = tlx::System::read("[[port]]\nkind = \"rom\"\nbase = 0\nlength = 8\nimage = \"" + name + "\"\n" HOST);
    tell("a name of " + std::to_string(length) + " bytes", system.image_name(0) == name);
  }
}

static void check_words() {
  static const struct { Fault fault; const char *words; } WORDS[] = {
      {Fault::ok, "no fault"}, {Fault::null, "null pointer"}, {Fault::empty, "empty handle"}, {Fault::full, "full handle"},
      {Fault::memory, "memory refused"}, {Fault::device, "a device"}, {Fault::unknown_lanes, "unknown data"},
      {Fault::out_of_order, "reply out of order"}, {Fault::image_unreadable, "image can't be read"}, {static_cast<Fault>(1000), "unknown fault"},
  };
  for (const auto &row : WORDS) tell(row.words, tlx::words(row.fault) == row.words);
  tell("an error of a fault alone", std::string(tlx::Error(Fault::size).what()) == "size over the limit");
  tell("an error with its text", std::string(tlx::Error(Fault::size, "why").what()) == "why");
  for (std::uint32_t number = 0; number < 100; number++) {
    const bool is_of_beat = (number >= TLX_FIELD_CHANGED && number <= TLX_WRONG_REPLY) || number == TLX_OUT_OF_ORDER;
    if (tlx::is_unlawful(static_cast<Fault>(number)) != is_of_beat) tell("a fault that is one of a beat", false);
  }
}

// ---- models

// An answer in the words of a trace; `xx` is an unknown byte, which must be 0.
static std::string spell(const tlx_answer &answer) {
  static const char *const REPLIES[] = {"AccessAck", "AccessAckData", "HintAck"};
  std::string text = REPLIES[answer.opcode % 3];
  if (answer.denied) text += " denied";
  if (answer.count) text += " ";
  for (std::uint64_t k = 0; k < answer.count; k++) {
    char digits[8];
    std::snprintf(digits, sizeof digits, "%02x", answer.bytes[k]);
    text += answer.known[k] ? digits : answer.bytes[k] ? "??" : "xx";
  }
  return text + " p" + std::to_string(answer.port) + " #" + std::to_string(answer.place);
}

struct Served {
  const char *name;
  std::uint64_t master;
  tlx_request request;
  Fault fault;
  const char *answer;
};

static std::vector<Served> served_rows() {
  static const std::uint8_t WORD[] = {0xb0, 0xb1, 0xb2, 0xb3}, SET[] = {1, 0, 0, 2}, ONE[] = {1, 0, 0, 0};
  const std::vector<std::uint8_t> a = {0xa0, 0xa1, 0xa2, 0xa3};
  return {
      {"a get", 0, tlx::get(0x1000, 2, 1), Fault::ok, "AccessAckData 00112233 p0 #0"},
      {"a full put", 0, tlx::put_full(0x1000, 2, 1, a), Fault::ok, "AccessAck p0 #1"},
      {"what it put", 0, tlx::get(0x1000, 2), Fault::ok, "AccessAckData a0a1a2a3 p0 #2"},
      {"a partial put", 0, tlx::put_partial(0x1000, 2, 0, WORD, SET), Fault::ok, "AccessAck p0 #3"},
      {"an atomic", 0, tlx::atomic(2, 4, 0x1000, 2, 1, ONE), Fault::ok, "AccessAckData b0a1a2b3 p0 #4"},
      {"a swap", 0, tlx::atomic(3, 3, 0x1000, 2, 1, WORD), Fault::ok, "AccessAckData b1a1a2b3 p0 #5"},
      {"what it swapped in", 0, tlx::get(0x1000, 2), Fault::ok, "AccessAckData b0b1b2b3 p0 #6"},
      {"a prefetch", 0, tlx::prefetch(0x1000, 2, 1, false), Fault::ok, "HintAck p0 #7"},
      {"a prefetch to write", 0, tlx::prefetch(0x1000, 2, 1, true), Fault::ok, "HintAck p0 #8"},
      {"a put of too few bytes", 0, tlx::put_full(0x1008, 2, 0, "\x07"), Fault::ok, "AccessAck p0 #9"},
      {"a partial put of few flags", 0, tlx::put_partial(0x1009, 0, 0, "\x09", {}), Fault::ok, "AccessAck p0 #10"},
      {"zeros after them", 0, tlx::get(0x1008, 2), Fault::ok, "AccessAckData 07000000 p0 #11"},
      {"an unknown byte", 0, tlx::get(0x2000, 0), Fault::ok, "AccessAckData xx p1 #0"},
      {"the error port", 0, tlx::get(0x9000, 1), Fault::ok, "AccessAckData denied 0000 p3 #0"},
      {"a device", 0, tlx::get(0x3000, 2), Fault::device, "AccessAckData xxxxxxxx p2 #0"},
      {"no operation", 1, tlx::atomic(2, 5, 0x1000, 9, 9, {}), Fault::no_operation, ""},
      {"a size over the limit", 1, tlx::get(0x1000, 9, 9), Fault::size, ""},
      {"no master", 1, tlx::get(0x1000, 2, 9), Fault::no_master, ""},
      {"no source", 0, tlx::get(0x1000, 2, 2), Fault::no_source, ""},
  };
}

// Two models of one system are asked the same, one in each form.
static void check_serving() {
  const tlx::System system = tlx::System::read(SYSTEM);
  tlx::Model answering(system), throwing(system);
  for (const Served &row : served_rows()) {
    tlx_answer first = {}, second = {};
    first.place = second.place = 77;
    tell(row.name, answering.try_serve(row.master, row.request, first) == row.fault);
    const bool is_answered = row.fault == Fault::ok || row.fault == Fault::device;
    if (is_answered) {
      tell(row.name, throwing.serve(row.master, row.request, second) == row.fault && spell(first) == row.answer && spell(second) == row.answer);
    } else {
      tell(row.name, throws(row.fault, "", [&] { throwing.serve(row.master, row.request, second); }) && first.place == 77 && second.place == 77);
    }
  }
  tell("the counts of a model", throwing.masters() == 1 && throwing.ports() == 4 && system.ports() == 3);
}

static void check_bytes_of_models() {
  tlx::Model model(tlx::System::read(SYSTEM));
  std::optional<std::uint8_t> byte = 0x5a;
  tell("a byte", model.try_peek(0x1001, byte) == Fault::ok && byte == 0x11 && model.peek(0x1002) == 0x22);
  tell("a byte that nobody knows", model.try_peek(0x2000, byte) == Fault::ok && !byte && !model.peek(0x2000));
  byte = 0x5a;
  tell("no byte", model.try_peek(0x9000, byte) == Fault::no_byte && throws(Fault::no_byte, "", [&] { model.peek(0x9000); }));
  tell("a byte of a device", model.try_peek(0x3000, byte) == Fault::device && throws(Fault::device, "", [&] { model.peek(0x3000); }) && byte == 0x5a);
  tell("a byte that is put", model.try_poke(0x1001, 0x99) == Fault::ok && model.peek(0x1001) == 0x99);
  model.poke(0x2000, 0);
  model.poke(0x1001, std::nullopt);
  tell("a zero, and an unknown one", model.peek(0x2000) == 0 && !model.peek(0x1001) && model.try_poke(0x2000, std::nullopt) == Fault::ok &&
       !model.peek(0x2000));
  tell("a byte that is put nowhere", model.try_poke(0x9000, 1) == Fault::no_byte && throws(Fault::device, "", [&] { model.poke(0x3000, 1); }));
  tell("no resets", model.try_reset() == Fault::no_link && throws(Fault::no_link, "", [&] { model.reset(); }));
  tlx::Model resets(tlx::System::read(RESETS));
  resets.poke(0x1000, 1);
  resets.poke(0x2000, 2);
  tell("a reset", resets.try_reset() == Fault::ok && resets.peek(0x1000) == 1 && resets.peek(0x2000) == 0xa0);
  resets.poke(0x2000, 2);
  resets.reset();
  tell("a reset of the other form", resets.peek(0x2000) == 0xa0);
}

// ---- what becomes of objects

template <typename Object>
constexpr bool IS_MOVE_ONLY = std::is_nothrow_move_constructible_v<Object> && std::is_nothrow_move_assignable_v<Object> &&
                              !std::is_copy_constructible_v<Object> && !std::is_copy_assignable_v<Object>;
static_assert(IS_MOVE_ONLY<tlx::System> && IS_MOVE_ONLY<tlx::Model> && IS_MOVE_ONLY<tlx::Judge>);
static_assert(!std::is_convertible_v<tlx::System, tlx::Model> && !std::is_convertible_v<tlx::System, tlx::Judge>);

static void check_empty() {
  tlx::System system;
  tlx::Model model;
  tlx_answer answer = {};
  std::optional<std::uint8_t> byte;
  tell("an empty system", system.ports() == 0 && system.image_name(0).empty() && system.try_image(0, "") == Fault::empty &&
       throws(Fault::empty, "", [&] { system.image(0, ""); }));
  tell("what is made of an empty system", model.try_make(system) == Fault::empty && throws(Fault::empty, "", [&] { tlx::Model of(system); }) &&
       throws(Fault::empty, "", [&] { tlx::Judge of(system); }));
  tell("an empty model", model.masters() == 0 && model.ports() == 0 && model.try_serve(0, tlx::get(0, 9), answer) == Fault::empty &&
       model.try_peek(0, byte) == Fault::empty && model.try_poke(0, 1) == Fault::empty && model.try_reset() == Fault::empty);
  tell("an empty model that throws", throws(Fault::empty, "", [&] { model.serve(0, tlx::get(0, 9), answer); }) &&
       throws(Fault::empty, "", [&] { model.peek(0); }) && throws(Fault::empty, "", [&] { model.poke(0, 1); }) &&
       throws(Fault::empty, "", [&] { model.reset(); }));
}

static void check_moved_systems() {
  tlx::System first = tlx::System::read(SYSTEM), second = tlx::System::read(RESETS);
  tlx::System third(std::move(first));
  tell("a system that moved", third.ports() == 3 && first.ports() == 0 && first.try_image(0, "") == Fault::empty);
  third = std::move(second);
  tell("a system that moved into a full one", third.ports() == 2 && second.ports() == 0);
  tell("an empty one that is read into", second.try_read(SYSTEM) == Fault::ok && second.ports() == 3);
  tlx::System &same = third;
  third = std::move(same);
  tell("a system that moved into itself", third.ports() == 2);
  std::swap(second, third);
  tell("systems that changed places", second.ports() == 2 && third.ports() == 3);
  third = tlx::System();
  tell("a system that is emptied", third.ports() == 0 && third.try_read(RESETS) == Fault::ok);
}

static void check_moved_models() {
  const tlx::System system = tlx::System::read(SYSTEM);
  tlx::Model first(system), second(system);
  std::string why = "before";
  tell("a second model in one object", first.try_make(system, &why) == Fault::full && why.empty());
  first.poke(0x1000, 1);
  second.poke(0x1000, 2);
  tlx::Model third(std::move(first));
  tell("a model that moved", third.peek(0x1000) == 1 && first.ports() == 0 && first.try_reset() == Fault::empty);
  third = std::move(second);
  tell("a model that moved into a full one", third.peek(0x1000) == 2 && second.ports() == 0);
  tlx::Model &same = third;
  third = std::move(same);
  tell("a model that moved into itself", third.peek(0x1000) == 2);
  first = moved_there_and_back(std::move(third));
  tell("a model that moved to another file", first.peek(0x1000) == 2 && first.peek(0x1001) == 0x77 && third.ports() == 0);
  std::vector<tlx::Model> many;
  for (std::uint8_t k = 0; k < 9; k++) many.emplace_back(system).poke(0x1000, k);
  tell("models of a vector that grows", many[0].peek(0x1000) == 0 && many[8].peek(0x1000) == 8);
}

// One system, two models and a judge end in every order; what is left goes on.
static void check_ends() {
  std::array<int, 4> order = {0, 1, 2, 3};
  do {
    std::optional<tlx::System> system(tlx::System::read(SYSTEM));
    std::optional<tlx::Model> models[2];
    for (auto &model : models) model.emplace(*system);
    std::optional<tlx::Judge> judge(std::in_place, *system);
    for (const int which : order) {
      if (which < 2) models[which].reset();
      if (which == 2) judge.reset();
      if (which == 3) system.reset();
      bool is_well = !system || system->ports() == 3;
      for (auto &model : models) is_well = is_well && (!model || model->peek(0x1001) == 0x11);
      is_well = is_well && (!judge || judge->try_end() == Fault::ok);
      if (!is_well) tell("what is left after an end", false);
    }
  } while (std::next_permutation(order.begin(), order.end()));
  tell("ends in every order", true);
}

static void check_memory() {
  tlx::System system = tlx::System::read(SYSTEM), none, images = tlx::System::read(IMAGES);
  tlx::Model model(system), other;
  is_library_refused = true;
  tell("no memory for a handle", throws(Fault::memory, "", [] { tlx::System::read(SYSTEM); }) && throws(Fault::memory, "", [&] { tlx::Model of(system); }) &&
       throws(Fault::memory, "", [&] { tlx::Judge of(system); }) && throws(Fault::memory, "", [] { tlx::Judge::read(SYSTEM); }));
  tell("no memory for what it holds", none.try_read(SYSTEM) == Fault::memory && other.try_make(system) == Fault::memory &&
       images.try_image(0, "1") == Fault::memory && throws(Fault::memory, "", [&] { images.image(0, "1"); }));
  tell("no memory for a byte", model.try_poke(0x2000, 1) == Fault::memory && throws(Fault::memory, "", [&] { model.poke(0x2000, 1); }));
  is_library_refused = false;
  tell("the same again", none.try_read(SYSTEM) == Fault::ok && other.try_make(none) == Fault::ok && !model.peek(0x2000) &&
       model.try_poke(0x2000, 1) == Fault::ok && model.peek(0x2000) == 1);
}

int main() {
  check_reading();
  check_images();
  check_long_names();
  check_words();
  check_serving();
  check_bytes_of_models();
  check_empty();
  check_moved_systems();
  check_moved_models();
  check_ends();
  check_memory();
  check_judges();
  std::printf("%d passed, %d failed\n", passed, failed);
  return failed > 0;
}
