/* The beats of one clock cycle, and arrays of beats. What is expected was worked out by hand from docs/reference/captures.md, "The order of beats". */
#include "check.h"

#include <stdio.h>
#include <string.h>

static const struct tlx_beat GET = {.opcode = 4, .size = 2, .address = 0x1000, .mask = 0x0f};
static const struct tlx_beat GOT = {.channel = TLX_D, .opcode = 1, .size = 2, .known = 0x0f, .lanes = {0x00, 0x11, 0x22, 0x33}};
static const struct tlx_beat PUT = {.size = 2, .address = 0x1000, .mask = 0x0f, .known = 0x0f, .lanes = {1, 2, 3, 4}};
static const struct tlx_beat DONE = {.channel = TLX_D, .size = 2};

static struct tlx_beat at_link(struct tlx_beat beat, uint8_t side, uint64_t number) {
  beat.side = side;
  beat.number = number;
  return beat;
}

static uint32_t read_judge(struct tlx_judge **judge, const char *file, uint8_t links, uint8_t masters) {
  return tlx_judge_read(file, strlen(file), TLX_VERSION, links, masters, TLX_ACCEPT_ORDER, judge, 0, 0);
}

/* A cycle with a request and a reply on both sides of the crossbar, and arrays of beats. */
static void check_turns(void) {
  struct tlx_beat cycle[] = {GOT, GOT, GET, GET};
  struct tlx_judge *judge = NULL;
  size_t at = 9;
  /* what crosses last stands first */
  cycle[1].side = cycle[2].side = TLX_PORT;
  int is_well = read_judge(&judge, SYSTEM, TLX_BOTH_LINKS, TLX_ACCEPT_ORDER) == TLX_OK;
  tell("a cycle in any order", is_well && tlx_judge_cycle(judge, cycle, 4, &at) == TLX_OK && at == 4 && requests_of(judge) == 1 && answered_of(judge) == 1);
  cycle[0].lanes[0] = 1;
  tell("a cycle up to what is refused", tlx_judge_cycle(judge, cycle, 4, &at) == TLX_NOT_GIVEN && at == 0 && in_flight_of(judge) == 1);
  cycle[3].channel = 2;
  tell("a cycle with another channel", tlx_judge_cycle(judge, cycle, 4, &at) == TLX_BAD_ARGUMENT && at == 3 && in_flight_of(judge) == 1);
  cycle[2].side = 2;
  tell("a cycle with another side", tlx_judge_cycle(judge, cycle, 4, &at) == TLX_BAD_ARGUMENT && at == 2 && requests_of(judge) == 2);
  cycle[0].lanes[0] = 0;
  tell("beats in turn", tlx_judge_steps(judge, cycle, 2, &at) == TLX_NO_REQUEST && at == 1 && answered_of(judge) == 2);
  tell("no beats", tlx_judge_steps(judge, 0, 0, &at) == TLX_OK && at == 0 && tlx_judge_cycle(judge, 0, 0, &at) == TLX_OK && at == 0);
  tlx_judge_free(judge);
}

/* ---- several links of one turn: they cross by rising number */

static const char TWO[] =
    "[[port]]\nkind = \"ram\"\nbase = 0x1000\nlength = 64\nreset = \"00112233\"\n"
    "[[port]]\nkind = \"ram\"\nbase = 0x2000\nlength = 64\n"
    "[[master]]\nsources = 1\n[[master]]\nsources = 1\n";

/* Master 0 gets what master 1 puts in the same cycle. The get is served first, and by the order of replies its reply is: it gets the bytes from before. */
static void check_masters(uint8_t order, const char *name) {
  struct tlx_beat asks[] = {at_link(PUT, TLX_MASTER, 1), at_link(GET, TLX_MASTER, 0)};
  struct tlx_beat replies[] = {at_link(DONE, TLX_MASTER, 1), at_link(GOT, TLX_MASTER, 0)};
  struct tlx_judge *judge = NULL;
  size_t at = 9;
  int is_well = read_judge(&judge, TWO, TLX_MASTER_LINKS, order) == TLX_OK && tlx_judge_cycle(judge, asks, 2, &at) == TLX_OK && at == 2;
  tell(name, is_well && tlx_judge_cycle(judge, replies, 2, &at) == TLX_OK && at == 2 && answered_of(judge) == 2);
  memcpy(replies[1].lanes, PUT.lanes, 4);
  tell(name, tlx_judge_cycle(judge, asks, 2, &at) == TLX_OK && tlx_judge_cycle(judge, replies, 2, &at) == TLX_OK && answered_of(judge) == 4);
  tlx_judge_free(judge);
  is_well = read_judge(&judge, TWO, TLX_MASTER_LINKS, order) == TLX_OK && tlx_judge_cycle(judge, asks, 2, &at) == TLX_OK;
  tell(name, is_well && tlx_judge_cycle(judge, replies, 2, &at) == TLX_WRONG_REPLY && at == 1 && answered_of(judge) == 0);
  tlx_judge_free(judge);
}

/* Both ports' links carry a request of one source: that of port 0 is lawful, and the other one is not. */
static void check_ports(void) {
  struct tlx_beat asks[] = {at_link(PUT, TLX_PORT, 1), at_link(PUT, TLX_PORT, 0)};
  struct tlx_beat replies[] = {at_link(DONE, TLX_PORT, 1), at_link(DONE, TLX_PORT, 0)};
  struct tlx_judge *judge = NULL;
  char text[256];
  size_t at = 9;
  asks[0].address = 0x2000;
  int is_well = read_judge(&judge, TWO, TLX_PORT_LINKS, TLX_ACCEPT_ORDER) == TLX_OK && tlx_judge_cycle(judge, asks, 2, &at) == TLX_SOURCE_IN_FLIGHT;
  tell("requests of two ports", is_well && at == 0 && requests_of(judge) == 1);
  tell("replies of two ports", tlx_judge_cycle(judge, replies, 2, &at) == TLX_NO_REQUEST && at == 0 && answered_of(judge) == 1);
  is_well = tlx_judge_cycle(judge, replies, 2, &at) == TLX_NO_REQUEST && text_of(judge, text, sizeof text) > 0;
  tell("the first of two that are wrong", is_well && at == 1 && !strcmp(text, "unlawful: line 0, time 0, p0 D: reply without request\n"));
  tlx_judge_free(judge);
}

/* Each of many ports carries a request in one cycle, the last port's first. Those of the ports from one on are wrong: that one is the first refused. */
static void check_many(uint64_t ports, uint64_t wrong) {
  static char file[32768];
  static struct tlx_beat cycle[255];
  struct tlx_judge *judge = NULL;
  char line[128];
  size_t at = 0;
  strcpy(file, "[[master]]\nsources = 255\n");
  for (uint64_t k = 0; k < ports; k++) {
    sprintf(line, "[[port]]\nkind = \"ram\"\nbase = %d\nlength = 64\n", (int)k * 64);
    strcat(file, line);
    cycle[ports - 1 - k] = at_link(GET, TLX_PORT, k);
    cycle[ports - 1 - k].address = k * 64;
    cycle[ports - 1 - k].source = (uint16_t)k;
    cycle[ports - 1 - k].opcode = k < wrong ? 4 : 7;
  }
  sprintf(line, "%d ports, wrong from %d on", (int)ports, (int)wrong);
  int is_well = read_judge(&judge, file, TLX_PORT_LINKS, TLX_ACCEPT_ORDER) == TLX_OK;
  is_well &= tlx_judge_cycle(judge, cycle, ports, &at) == (wrong < ports ? TLX_UNKNOWN_OPCODE : TLX_OK);
  tell(line, is_well && at == (wrong < ports ? ports - 1 - wrong : ports) && requests_of(judge) == wrong);
  tlx_judge_free(judge);
}

void check_cycles(void) {
  static const uint64_t PORTS[] = {1, 63, 64, 65, 128, 129, 255};
  check_turns();
  check_masters(TLX_ACCEPT_ORDER, "a get before a put of the same cycle");
  check_masters(TLX_REPLY_ORDER, "a reply before another one of the same cycle");
  check_ports();
  for (size_t k = 0; k < sizeof PORTS / sizeof *PORTS; k++) {
    check_many(PORTS[k], PORTS[k]);
    check_many(PORTS[k], PORTS[k] - 1);
    check_many(PORTS[k], PORTS[k] / 2);
  }
}
