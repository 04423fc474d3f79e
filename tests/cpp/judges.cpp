// Judges, resets, bytes and the makers of requests and beats. What is expected was worked out by hand.
#include "check.hpp"

#include <algorithm>
#include <array>
#include <string_view>
#include <vector>

using tlx::Fault;

tlx::Model moved_there_and_back(tlx::Model model) {
  model.poke(0x1001, 0x77);
  return model;
}

// ---- beats

static tlx_beat at(std::uint64_t line, std::uint64_t time, tlx_beat beat) {
  beat.line = line;
  beat.time = time;
  return beat;
}

struct Row {
  const char *name;
  tlx_beat beat;
  Fault fault;
  const char *text;  // of the judge after it
};

static const std::uint8_t RIGHT[] = {0x00, 0x11, 0x22, 0x33}, WRONG[] = {0x00, 0x11, 0x22, 0x34};
#define WRONG_REPLY "unlawful: line 4, time 12, m0 D: wrong reply: expected AccessAckData 00112233, captured AccessAckData 00112234\n"
#define NO_REQUEST "unlawful: line 7, time 16, m0 D: reply without request\n"

static std::vector<Row> rows() {
  const tlx_beat ask = tlx::beat_a(TLX_MASTER, 0, tlx::get(0x1000, 2, 1), 0x0f);
  tlx_beat side = ask, corrupt = ask, denied = tlx::beat_d(TLX_MASTER, 0, 1, 2, 1, RIGHT);
  side.side = 2;
  corrupt.corrupt = 2;
  denied.denied = 2;
  return {
      {"a request", at(2, 10, ask), Fault::ok, ""},
      {"its reply", at(3, 11, tlx::beat_d(TLX_MASTER, 0, 1, 2, 1, RIGHT)), Fault::ok, ""},
      {"a second request", at(4, 11, ask), Fault::ok, ""},
      {"a wrong reply", at(4, 12, tlx::beat_d(TLX_MASTER, 0, 1, 2, 1, WRONG)), Fault::wrong_reply, WRONG_REPLY},
      {"no such side", side, Fault::bad_argument, WRONG_REPLY},
      {"no such flag of A", corrupt, Fault::bad_argument, WRONG_REPLY},
      {"no such flag of D", denied, Fault::bad_argument, WRONG_REPLY},
      {"a link that is not watched", tlx::beat_a(TLX_PORT, 0, tlx::get(0x1000, 2, 1), 0x0f), Fault::no_link, WRONG_REPLY},
      {"no such link", tlx::beat_a(TLX_MASTER, 1, tlx::get(0x1000, 2, 1), 0x0f), Fault::no_link, WRONG_REPLY},
      {"the right reply after it", at(5, 13, tlx::beat_d(TLX_MASTER, 0, 1, 2, 1, RIGHT)), Fault::ok, WRONG_REPLY},
      {"a reply to nothing", at(7, 16, tlx::beat_d(TLX_MASTER, 0, 0, 2, 1)), Fault::no_request, NO_REQUEST},
      {"a put", at(8, 17, tlx::beat_a(TLX_MASTER, 0, tlx::put_full(0x1000, 2, 0, WRONG), 0x0f, WRONG)), Fault::ok, NO_REQUEST},
  };
}

// Two judges of one system judge the same, one in each form.
static void check_steps(const tlx::System &system) {
  tlx::Judge answering(system, TLX_MASTER_LINKS), throwing(system, TLX_MASTER_LINKS, TLX_ACCEPT_ORDER, TLX_REPLY_ORDER);
  for (const Row &row : rows()) {
    tell(row.name, answering.try_step(row.beat) == row.fault && answering.text() == row.text);
    const bool is_answered = row.fault == Fault::ok || tlx::is_unlawful(row.fault);
    if (is_answered) tell(row.name, throwing.step(row.beat) == row.fault && throwing.text() == row.text);
    if (!is_answered) tell(row.name, throws(row.fault, "", [&] { (void)throwing.step(row.beat); }) && throwing.text() == row.text);
  }
  tell("the counts of a judge", throwing.requests() == 3 && throwing.answered() == 2 && throwing.in_flight() == 1);
  static const char LEFT[] = "incomplete: 1 requests without reply, the first: line 8, time 17, m0 s0 putfull 0x1000 2\n";
  tell("a request without a reply", throwing.end() == Fault::incomplete && throwing.text() == LEFT &&
       answering.try_end() == Fault::incomplete && answering.text() == throwing.text());
  tell("the last reply", throwing.step(tlx::beat_d(TLX_MASTER, 0, 0, 2, 0)) == Fault::ok && throwing.end() == Fault::ok);
  tell("no resets of a judge", throwing.try_reset() == Fault::no_link && throws(Fault::no_link, "", [&] { throwing.reset(); }));
}

static void check_making(const tlx::System &system) {
  const auto none = static_cast<tlx_order>(3);
  tlx::Judge judge;
  std::string why = "before";
  tell("no such order", judge.try_make(system, TLX_BOTH_LINKS, none, TLX_ANY_ORDER, &why) == Fault::bad_argument && why.empty() &&
       judge.try_make(system, TLX_BOTH_LINKS, TLX_ANY_ORDER, none) == Fault::bad_argument &&
       throws(Fault::bad_argument, "", [&] { tlx::Judge of(system, TLX_EACH_LINK, none, none); }));
  tell("a judge", judge.try_make(system) == Fault::ok && judge.try_make(system) == Fault::full && judge.try_read(SYSTEM) == Fault::full);
  tlx::Judge read = tlx::Judge::read(SYSTEM, TLX_MASTER_LINKS), third_read;
  tell("a judge that is read", read.step(tlx::beat_a(TLX_MASTER, 0, tlx::get(0x1000, 2, 1), 0x0f)) == Fault::ok &&
       third_read.try_read("bus = 3", TLX_BOTH_LINKS, TLX_ACCEPT_ORDER, TLX_ACCEPT_ORDER, &why) == Fault::out_of_range && why == "system: bus out of range" &&
       third_read.try_read(SYSTEM, TLX_PORT_LINKS) == Fault::ok && third_read.requests() == 0 &&
       throws(Fault::bad_argument, "", [&] { tlx::Judge::read(SYSTEM, TLX_EACH_LINK, none); }));
  tell("a request of both sides", judge.step(tlx::beat_a(TLX_MASTER, 0, tlx::get(0x1000, 2, 1), 0x0f)) == Fault::ok);
  tlx::Judge second(std::move(judge));
  tell("a judge that moved", second.requests() == 1 && judge.requests() == 0 && judge.try_end() == Fault::empty);
  tlx::Judge third(system, TLX_PORT_LINKS);
  third = std::move(second);
  tell("a judge that moved into a full one", third.requests() == 1 && second.requests() == 0);
  tlx::Judge &same = third;
  third = std::move(same);
  tell("a judge that moved into itself", third.requests() == 1 && third.try_end() == Fault::incomplete);
}

// A get that is accepted after a put and answered before it, with the bytes from before: lawful at the masters' links by the order of replies, and
// not by that of requests.
static bool gets_old_bytes(tlx::Judge &judge) {
  return judge.step(tlx::beat_a(TLX_MASTER, 0, tlx::put_full(0x1000, 2, 0, WRONG), 0x0f, WRONG)) == Fault::ok &&
         judge.step(tlx::beat_a(TLX_MASTER, 0, tlx::get(0x1000, 2, 1), 0x0f)) == Fault::ok &&
         judge.step(tlx::beat_d(TLX_MASTER, 0, 1, 2, 1, RIGHT)) == Fault::ok;
}

static void check_orders(const tlx::System &system) {
  tlx::Judge by_replies(system, TLX_MASTER_LINKS, TLX_REPLY_ORDER, TLX_ACCEPT_ORDER);
  tlx::Judge by_requests(system, TLX_MASTER_LINKS, TLX_ACCEPT_ORDER, TLX_REPLY_ORDER);
  tell("the order of each side", gets_old_bytes(by_replies) && !gets_old_bytes(by_requests));
  tlx::Judge replies, requests;
  tell("the order of each side in the other form",
       replies.try_make(system, TLX_MASTER_LINKS, TLX_REPLY_ORDER, TLX_ACCEPT_ORDER) == Fault::ok && gets_old_bytes(replies) &&
       requests.try_make(system, TLX_MASTER_LINKS, TLX_ACCEPT_ORDER, TLX_REPLY_ORDER) == Fault::ok && !gets_old_bytes(requests));
}

static void check_empty() {
  tlx::Judge judge;
  tlx_beat beat = {};
  tell("an empty judge", judge.try_step(beat) == Fault::empty && judge.try_reset() == Fault::empty && judge.try_end() == Fault::empty &&
       judge.text().empty() && judge.requests() == 0 && judge.answered() == 0 && judge.in_flight() == 0);
  tell("an empty judge that throws", throws(Fault::empty, "", [&] { (void)judge.step(beat); }) && throws(Fault::empty, "", [&] { judge.reset(); }) &&
       throws(Fault::empty, "", [&] { (void)judge.end(); }));
  beat.side = 2;
  tell("an empty judge before another fault", judge.try_step(beat) == Fault::empty);
}

// A put that a reset cuts short: nobody knows its bytes afterwards, so the judge needs memory for them. Without it the judge is as it was.
static void check_resets() {
  const tlx::System system = tlx::System::read(RESETS);
  const tlx_beat put = tlx::beat_a(TLX_MASTER, 0, tlx::put_full(0x1000, 2, 0, RIGHT), 0x0f, RIGHT);
  const tlx_beat get = tlx::beat_a(TLX_MASTER, 0, tlx::get(0x1000, 2, 0), 0x0f), reply = tlx::beat_d(TLX_MASTER, 0, 1, 2, 0, WRONG);
  tlx::Judge judge(system, TLX_MASTER_LINKS), second(system, TLX_MASTER_LINKS);
  tell("a put before a reset", judge.step(put) == Fault::ok && second.step(put) == Fault::ok);
  judge.reset();
  tell("any bytes after it", judge.end() == Fault::ok && judge.step(get) == Fault::ok && judge.step(reply) == Fault::ok && judge.in_flight() == 1);
  is_library_refused = true;
  tell("a reset without memory", throws(Fault::memory, "", [&] { second.reset(); }));
  is_library_refused = false;
  tell("a judge that is as it was", second.try_end() == Fault::incomplete && second.requests() == 1 && second.step(put) == Fault::source_in_flight);
  second.reset();
  tell("the same reset again", second.end() == Fault::ok && second.step(get) == Fault::ok && second.step(reply) == Fault::ok);
}

// Of a lawful beat want of memory is thrown, and the beat may be given again. The judge keeps no bytes at 0x2000 before it.
static void check_memory(const tlx::System &system) {
  const tlx_beat put = tlx::beat_a(TLX_MASTER, 0, tlx::put_full(0x2000, 2, 0, RIGHT), 0x0f, RIGHT);
  tlx::Judge judge(system, TLX_MASTER_LINKS);
  is_library_refused = true;
  tell("a beat without memory", judge.try_step(put) == Fault::memory && throws(Fault::memory, "", [&] { (void)judge.step(put); }));
  is_library_refused = false;
  tell("the same beat again", judge.requests() == 0 && judge.step(put) == Fault::ok && judge.requests() == 1);
}

// Master 0 gets what master 1 puts in the same cycle: the get is served first, since its link has the lower number.
static void check_cycles() {
  const tlx::System system = tlx::System::read(
      "port = [{kind = 'ram', base = 0x1000, length = 64, reset = '00112233'}, {kind = 'ram', base = 0x2000, length = 64}]\n"
      "master = [{sources = 1}, {sources = 1}]");
  const tlx_beat put = tlx::beat_a(TLX_MASTER, 1, tlx::put_full(0x1000, 2, 0, WRONG), 0x0f, WRONG);
  const tlx_beat asks[] = {put, tlx::beat_a(TLX_MASTER, 0, tlx::get(0x1000, 2), 0x0f)};
  const tlx_beat replies[] = {tlx::beat_d(TLX_MASTER, 1, 0, 2, 0), tlx::beat_d(TLX_MASTER, 0, 1, 2, 0, WRONG)};
  tlx::Judge answering(system, TLX_MASTER_LINKS), throwing(system, TLX_MASTER_LINKS);
  std::size_t at = 9;
  tell("requests of one cycle", answering.try_cycle(asks, 2, at) == Fault::ok && at == 2 && throwing.cycle(asks, 2, at) == Fault::ok);
  tell("replies of one cycle", answering.try_cycle(replies, 2, at) == Fault::wrong_reply && at == 1 && answering.answered() == 0 &&
       throwing.cycle(replies, 2, at) == Fault::wrong_reply && at == 1);
  const tlx_beat right = tlx::beat_d(TLX_MASTER, 0, 1, 2, 0, RIGHT);
  tell("the right reply after them", throwing.cycle(&right, 1, at) == Fault::ok && at == 1);
  tell("replies in turn", answering.try_steps(replies, 2, at) == Fault::wrong_reply && at == 1 && answering.answered() == 1 &&
       throwing.steps(replies, 1, at) == Fault::ok && at == 1 && throwing.steps(&right, 1, at) == Fault::no_request && at == 0);
  tell("no beats", answering.try_cycle(nullptr, 0, at) == Fault::ok && at == 0 && throwing.steps(nullptr, 0, at) == Fault::ok && at == 0);
  tlx_beat other = put;
  other.channel = 2;
  tell("a channel that there is not", answering.try_cycle(&other, 1, at) == Fault::bad_argument && at == 0 &&
       throws(Fault::bad_argument, "", [&] { (void)throwing.cycle(&other, 1, at); }) && throws(Fault::bad_argument, "", [&] { (void)throwing.steps(&other, 1, at); }));
  tell("an empty judge", tlx::Judge().try_cycle(asks, 2, at) == Fault::empty && tlx::Judge().try_steps(asks, 2, at) == Fault::empty);
}

// A clone goes on from where the other one was, and neither changes with the other.
static void check_clones(const tlx::System &system) {
  tlx::Model model(system), empty;
  model.poke(0x1001, 0x77);
  tlx::Model clone = model.clone();
  clone.poke(0x1002, 0x88);
  tell("a clone of a model", clone.peek(0x1001) == 0x77 && clone.peek(0x1002) == 0x88 && model.peek(0x1002) == 0x22 && clone.ports() == 4);
  tell("a clone in a full object", model.try_clone(clone) == Fault::full && model.try_clone(empty) == Fault::ok && empty.peek(0x1001) == 0x77);
  const tlx_beat ask = tlx::beat_a(TLX_MASTER, 0, tlx::get(0x1000, 2, 1), 0x0f), reply = tlx::beat_d(TLX_MASTER, 0, 1, 2, 1, RIGHT);
  tlx::Judge judge(system, TLX_MASTER_LINKS), other;
  tell("a judge with a text", judge.step(ask) == Fault::ok && judge.step(ask) == Fault::source_in_flight);
  tlx::Judge second = judge.clone();
  tell("a clone of a judge", second.text() == judge.text() && second.in_flight() == 1 && second.step(reply) == Fault::ok && judge.in_flight() == 1 &&
       judge.try_clone(second) == Fault::full && judge.try_clone(other) == Fault::ok && other.end() == Fault::incomplete);
  tell("a clone of nothing", tlx::Model().try_clone(clone = tlx::Model()) == Fault::empty && tlx::Judge().try_clone(other = tlx::Judge()) == Fault::empty &&
       throws(Fault::empty, "", [] { tlx::Model().clone(); }) && throws(Fault::empty, "", [] { tlx::Judge().clone(); }));
  is_library_refused = true;
  tell("a clone without memory", model.try_clone(clone) == Fault::memory && throws(Fault::memory, "", [&] { judge.clone(); }) && clone.ports() == 0);
  is_library_refused = false;
}

// ---- bytes and makers

static std::string text_of(tlx::Bytes bytes) { return std::string(reinterpret_cast<const char *>(bytes.data()), bytes.size()); }

static void check_bytes() {
  static const std::uint8_t ARRAY[] = {'a', 0, 'b'};
  const std::string three("a\0b", 3);
  tell("no bytes", tlx::Bytes().size() == 0 && !tlx::Bytes().data() && tlx::Bytes(nullptr, 0).size() == 0);
  tell("the bytes of a literal", text_of("ab") == "ab" && text_of("a\0b") == "a" && tlx::Bytes("").size() == 0);
  tell("the bytes of null", tlx::Bytes(static_cast<const char *>(nullptr)).size() == 0);
  tell("the bytes of a text", text_of(three) == three && text_of(std::string_view(three)) == three);
  tell("the bytes of an array", text_of(ARRAY) == three && text_of(std::array<char, 2>{'x', 'y'}) == "xy");
  tell("the bytes of a vector", text_of(std::vector<std::uint8_t>{'a', 0, 'b'}) == three && text_of(std::vector<std::byte>(2)).size() == 2);
  tell("bytes at a pointer", text_of({ARRAY, 2}) == three.substr(0, 2) && tlx::Bytes(ARRAY).data() == ARRAY);
}
static_assert(!std::is_constructible_v<tlx::Bytes, std::vector<std::uint16_t>> && !std::is_constructible_v<tlx::Bytes, std::vector<bool>>);
static_assert(std::is_trivially_copyable_v<tlx::Bytes>);

static void check_requests() {
  static const struct { const char *name; tlx_request made; int opcode, param, source, first; } MADE[] = {
      {"a get that is made", tlx::get(0x1234, 2, 3), 4, 0, 3, 0},
      {"a full put that is made", tlx::put_full(0x1234, 2, 3, "abcd"), 0, 0, 3, 'a'},
      {"a partial put that is made", tlx::put_partial(0x1234, 2, 3, "abcd", "\1\1"), 1, 0, 3, 'a'},
      {"an atomic that is made", tlx::atomic(3, 2, 0x1234, 2, 65535, "abcd"), 3, 2, 65535, 'a'},
      {"a prefetch that is made", tlx::prefetch(0x1234, 2, 3, false), 5, 0, 3, 0},
      {"a prefetch to write that is made", tlx::prefetch(0x1234, 2, 3, true), 5, 1, 3, 0},
  };
  for (const auto &row : MADE) {
    const tlx_request &made = row.made;
    tell(row.name, made.opcode == row.opcode && made.param == row.param && made.source == row.source && made.address == 0x1234 && made.size == 2 &&
         made.bytes[0] == row.first && made.bytes[4] == 0 && made.set[1] == (row.opcode == 1) && made.set[2] == 0);
  }
  const std::vector<std::uint8_t> many(TLX_ROOM + 44, 5);
  const tlx_request put = tlx::put_partial(0, 8, 0, many, many);
  tell("more bytes than there is room for", std::count(put.bytes, put.bytes + TLX_ROOM, 5) == TLX_ROOM &&
       std::count(put.set, put.set + TLX_ROOM, 5) == TLX_ROOM && put.source == 0 && tlx::put_full(0, 8, 0, many).set[0] == 0);
}

static void check_beats() {
  const std::vector<std::uint8_t> bus(TLX_LANES, 5), wider(TLX_LANES + 9, 5);
  const tlx_beat ask = tlx::beat_a(TLX_PORT, 7, tlx::atomic(3, 2, 0x1234, 2, 9, "abcd"), 0xf0, "xy");
  tell("a beat of A", ask.side == TLX_PORT && ask.number == 7 && ask.channel == TLX_A && ask.opcode == 3 && ask.param == 2 && ask.address == 0x1234 &&
       ask.size == 2 && ask.source == 9 && ask.mask == 0xf0 && ask.known == 3 && ask.lanes[0] == 'x' && ask.lanes[2] == 0 && ask.corrupt == 0);
  const tlx_beat reply = tlx::beat_d(TLX_MASTER, 1, 1, 3, 9, bus);
  tell("a beat of D", reply.side == TLX_MASTER && reply.number == 1 && reply.channel == TLX_D && reply.opcode == 1 && reply.size == 3 &&
       reply.source == 9 && reply.known == UINT64_MAX && reply.lanes[63] == 5 && reply.denied == 0 && reply.line == 0 && reply.time == 0);
  tell("a beat without lanes", tlx::beat_d(TLX_MASTER, 0, 0, 2, 1).known == 0 && tlx::beat_a(TLX_MASTER, 0, tlx::get(0, 2), 1).known == 0);
  tell("more lanes than there are", tlx::beat_d(TLX_MASTER, 0, 1, 2, 1, wider).known == UINT64_MAX);
}

void check_judges() {
  const tlx::System system = tlx::System::read(SYSTEM);
  check_steps(system);
  check_making(system);
  check_orders(system);
  check_empty();
  check_resets();
  check_memory(system);
  check_cycles();
  check_clones(system);
  check_bytes();
  check_requests();
  check_beats();
}
