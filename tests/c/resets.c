/* Resets of the whole system, by calls. What is expected was worked out by hand. */
#include "check.h"

#include <string.h>

/* A memory that keeps its bytes at a reset, and registers that hold again what `reset` says. */
const char RESETS[] =
    "resets = true\n"
    "[[port]]\nkind = \"ram\"\nbase = 0x1000\nlength = 64\nreset = \"0011223344556677\"\n"
    "[[port]]\nkind = \"regs\"\nbase = 0x2000\nlength = 16\nreset = \"a0a1a2a3\"\non_reset = \"load\"\n"
    "[[master]]\nsources = 2\n";

static uint32_t read_judge(struct tlx_judge **judge, const char *file, uint8_t links) {
  return tlx_judge_read(file, strlen(file), TLX_VERSION, links, TLX_ACCEPT_ORDER, TLX_ACCEPT_ORDER, judge, 0, 0);
}

/* Beats of 4 bytes on lanes 0 to 3, at master 0 or at the port of an address. */
static struct tlx_beat ask_beat(uint8_t side, uint8_t opcode, uint64_t address, const char *bytes) {
  struct tlx_beat beat = {.side = side, .opcode = opcode, .size = 2, .address = address, .mask = 0x0f, .known = 0x0f};
  beat.number = side == TLX_PORT && address >= 0x2000;
  memcpy(beat.lanes, bytes, 4);
  return beat;
}

static struct tlx_beat reply_beat(const struct tlx_beat *ask, uint64_t known, const char *bytes) {
  struct tlx_beat beat = {.side = ask->side, .number = ask->number, .channel = TLX_D, .opcode = ask->opcode == 4, .size = 2, .known = known};
  memcpy(beat.lanes, bytes, 4);
  return beat;
}

static uint32_t ask(struct tlx_judge *judge, uint8_t side, uint8_t opcode, uint64_t address, const char *bytes) {
  struct tlx_beat beat = ask_beat(side, opcode, address, bytes);
  return tlx_judge_step(judge, &beat);
}

static uint32_t reply(struct tlx_judge *judge, uint8_t side, uint8_t opcode, uint64_t address, uint64_t known, const char *bytes) {
  struct tlx_beat asked = ask_beat(side, opcode, address, bytes), beat = reply_beat(&asked, known, bytes);
  return tlx_judge_step(judge, &beat);
}

static int puts_at(struct tlx_judge *judge, uint8_t side, uint64_t address, const char *bytes) {
  return ask(judge, side, 0, address, bytes) == TLX_OK && reply(judge, side, 0, address, 0, bytes) == TLX_OK;
}

/* A get is answered these bytes, and no others: its first reply has another last byte. */
static int gets_at(struct tlx_judge *judge, uint8_t side, uint64_t address, const char *bytes) {
  const char others[] = {bytes[0], bytes[1], bytes[2], (char)(bytes[3] ^ 1)};
  return ask(judge, side, 4, address, bytes) == TLX_OK && reply(judge, side, 4, address, 0x0f, others) == TLX_WRONG_REPLY &&
         reply(judge, side, 4, address, 0x0f, bytes) == TLX_OK;
}

/* A get is answered without any known byte, and a second one by any bytes. */
static int is_unknown(struct tlx_judge *judge, uint8_t side, uint64_t address) {
  return ask(judge, side, 4, address, "....") == TLX_OK && reply(judge, side, 4, address, 0, "....") == TLX_OK &&
         ask(judge, side, 4, address, "....") == TLX_OK && reply(judge, side, 4, address, 0x0f, "\x5a\xff\x00\x31") == TLX_OK;
}

/* ---- requests that a reset cuts short */

/* A put of 16 bytes has given 8 of them. The next beat is a first one, nobody knows these 8 bytes, and the others are as they were. */
static void check_put_under_way(void) {
  struct tlx_judge *judge = NULL;
  struct tlx_beat put = {.size = 4, .address = 0x1000, .mask = 0xff, .known = 0xff, .lanes = {9, 9, 9, 9, 9, 9, 9, 9}};
  int is_well = read_judge(&judge, RESETS, TLX_MASTER_LINKS) == TLX_OK && puts_at(judge, TLX_MASTER, 0x1008, "\1\2\3\4");
  is_well &= tlx_judge_step(judge, &put) == TLX_OK && ask(judge, TLX_MASTER, 4, 0x1000, "....") == TLX_FIELD_CHANGED;
  is_well &= tlx_judge_reset(judge) == TLX_OK && tlx_judge_end(judge) == TLX_OK;
  tell("bytes that a put gave before a reset", is_well && is_unknown(judge, TLX_MASTER, 0x1000));
  tell("bytes that it did not give", gets_at(judge, TLX_MASTER, 0x1008, "\1\2\3\4"));
  tell("bytes that are put again", puts_at(judge, TLX_MASTER, 0x1000, "\5\6\7\10") && gets_at(judge, TLX_MASTER, 0x1000, "\5\6\7\10"));
  tlx_judge_free(judge);
}

/* A whole put without a reply may have taken effect, or not. One whose reply has begun has taken effect. */
static void check_put_in_flight(void) {
  struct tlx_judge *judge = NULL;
  int is_well = read_judge(&judge, RESETS, TLX_MASTER_LINKS) == TLX_OK && puts_at(judge, TLX_MASTER, 0x1010, "\1\2\3\4");
  is_well &= ask(judge, TLX_MASTER, 0, 0x1000, "\1\2\3\4") == TLX_OK && tlx_judge_reset(judge) == TLX_OK;
  tell("bytes of a put without a reply", is_well && is_unknown(judge, TLX_MASTER, 0x1000));
  tell("bytes of a put with a reply", gets_at(judge, TLX_MASTER, 0x1010, "\1\2\3\4"));
  tlx_judge_free(judge);
}

/* ---- what a reset loads */

static void check_load(uint8_t links, uint8_t side, const char *name) {
  struct tlx_judge *judge = NULL;
  int is_well = read_judge(&judge, RESETS, links) == TLX_OK && gets_at(judge, side, 0x2000, "\xa0\xa1\xa2\xa3");
  for (int k = 0; k < 2; k++) {
    is_well &= puts_at(judge, side, 0x2000, "\1\2\3\4") && gets_at(judge, side, 0x2000, "\1\2\3\4");
    is_well &= puts_at(judge, side, 0x1000, "\5\6\7\10") && tlx_judge_reset(judge) == TLX_OK;
    is_well &= gets_at(judge, side, 0x2000, "\xa0\xa1\xa2\xa3") && gets_at(judge, side, 0x1000, "\5\6\7\10");
  }
  /* a put to registers that the reset cut short is nothing to what it loads */
  is_well &= ask(judge, side, 0, 0x2000, "\1\2\3\4") == TLX_OK && tlx_judge_reset(judge) == TLX_OK;
  tell(name, is_well && gets_at(judge, side, 0x2000, "\xa0\xa1\xa2\xa3"));
  tlx_judge_free(judge);
}

/* ---- what is in flight, and what goes on */

static void check_flight(void) {
  struct tlx_judge *judge = NULL;
  char text[256], after[256];
  int is_well = read_judge(&judge, RESETS, TLX_MASTER_LINKS) == TLX_OK && puts_at(judge, TLX_MASTER, 0x1008, "\1\2\3\4");
  is_well &= ask(judge, TLX_MASTER, 4, 0x1000, "....") == TLX_OK && tlx_judge_end(judge) == TLX_INCOMPLETE;
  is_well &= text_of(judge, text, sizeof text) > 0 && tlx_judge_reset(judge) == TLX_OK;
  tell("the counts go on", is_well && requests_of(judge) == 2 && answered_of(judge) == 1 && in_flight_of(judge) == 1);
  tell("the text stays", text_of(judge, after, sizeof after) > 0 && !strcmp(text, after));
  tell("an end after a reset", tlx_judge_end(judge) == TLX_OK);
  tell("a reply to a request before the reset", reply(judge, TLX_MASTER, 4, 0x1000, 0x0f, "\x00\x11\x22\x33") == TLX_NO_REQUEST);
  tell("its source again", gets_at(judge, TLX_MASTER, 0x1000, "\x00\x11\x22\x33") && requests_of(judge) == 3 &&
       answered_of(judge) == 2 && tlx_judge_end(judge) == TLX_OK);
  tlx_judge_free(judge);
}

static void check_refusals(void) {
  struct tlx_judge *judge = NULL;
  int is_well = read_judge(&judge, SYSTEM, TLX_MASTER_LINKS) == TLX_OK && ask(judge, TLX_MASTER, 4, 0x1000, "....") == TLX_OK;
  is_well &= tlx_judge_reset(judge) == TLX_NO_LINK && tlx_judge_end(judge) == TLX_INCOMPLETE;
  tell("a reset of a system without resets", is_well && reply(judge, TLX_MASTER, 4, 0x1000, 0x0f, "\x00\x11\x22\x33") == TLX_OK);
  tlx_judge_free(judge);
}

void check_resets(void) {
  check_put_under_way();
  check_put_in_flight();
  check_load(TLX_MASTER_LINKS, TLX_MASTER, "registers that a reset loads, at masters");
  check_load(TLX_PORT_LINKS, TLX_PORT, "registers that a reset loads, at ports");
  check_load(TLX_EACH_LINK, TLX_MASTER, "registers that a reset loads, at masters beside ports");
  check_load(TLX_EACH_LINK, TLX_PORT, "registers that a reset loads, at ports' links by themselves");
  check_flight();
  check_refusals();
}
