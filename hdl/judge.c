/* What tl_judge.sv imports: a judge for each crossbar of the simulation, with the beats of the clock cycle that is under way.
 *
 * The monitors of an edge run in any order, and the judge wants beats in the order in which they cross (docs/reference/captures.md): so they are kept
 * until the cycle ends. This file is C and C++, since Verilator compiles it as C++; a compiler that is given the header that the simulator
 * makes of the imports (-include Vtop__Dpi.h) compares them. */
#include "svdpi.h"
#include "system.h"
#include "tlx.h"

#include <inttypes.h>
#include <stdio.h>
#include <stdlib.h>
#include <string.h>

#ifdef __cplusplus
extern "C" {
#endif

#define MAX_JUDGES 16
#define MAX_BEATS 1024 /* of one cycle */
#define MAX_TEXT 2048

struct watch {
  struct tlx_judge *judge;
  int links;           /* enum tlx_links */
  uint64_t count;      /* the beats that were handed over, watched or not */
  uint64_t resets;     /* the resets of the whole system */
  int is_reset;        /* whether it is reset in the cycle that is under way, and the time */
  uint64_t reset_time;
  char text[MAX_TEXT]; /* what is wrong, or the counts at the end; empty until then */
  size_t held;
  struct tlx_beat beats[MAX_BEATS];
};

static struct watch watches[MAX_JUDGES];
static int opened;

static struct watch *watch_of(int judge) { return judge >= 0 && judge < opened ? &watches[judge] : NULL; }

/* The place of a word in a list, or that of the list's end. */
static uint32_t place_of(const char *word, const char *const *words, uint32_t count) {
  uint32_t place = 0;
  while (place < count && strcmp(word, words[place])) place++;
  return place;
}

/* The orders of the masters' side and of the ports' (enum tlx_order). */
struct orders { uint32_t masters, ports; };

/* Those that a word names: one of both sides, or two with a slash between them. */
static struct orders orders_of(const char *word) {
  static const char *const orders[] = {"accept", "reply", "any"};
  const char *slash = strchr(word, '/');
  char masters[MAX_NAME];
  snprintf(masters, sizeof masters, "%.*s", slash ? (int)(slash - word) : (int)strlen(word), word);
  return (struct orders){.masters = place_of(masters, orders, 3), .ports = place_of(slash ? slash + 1 : word, orders, 3)};
}

/* Makes the judge of a watch; what is wrong stands in its text. */
static void make(struct watch *watch, const char *path, const char *links, const char *order) {
  static const char *const views[] = {"both", "masters", "ports", "each"};
  char why[MAX_TEXT / 2];
  uint32_t view = place_of(links, views, 4);
  struct orders orders = orders_of(order);
  struct tlx_system *system = read_system(path, why, sizeof why);
  uint32_t fault = system ? tlx_judge_make(system, view, orders.masters, orders.ports, &watch->judge, why, sizeof why) : (uint32_t)TLX_EMPTY;
  tlx_system_free(system);
  if (fault == TLX_OK) {
    watch->links = (int)view;
    return;
  }
  if (!why[0]) tlx_fault_text(fault, why, sizeof why, NULL);
  snprintf(watch->text, MAX_TEXT, "judge: %s, links %s, order %s: %s\n", path, links, order, why);
}

/* A judge for the crossbar that a system file describes: its number, which the other calls take. */
int tl_judge_open(const char *path, const char *links, const char *order) {
  if (opened == MAX_JUDGES) return -1;
  make(&watches[opened], path, links, order);
  return opened++;
}

/* The lanes of a bus, of which data have eight bits each, lane 0 the low ones; four of them are a word. */
static void put_lanes(struct tlx_beat *beat, uint8_t lanes, const svBitVecVal *data, uint64_t known) {
  beat->known = known;
  for (uint8_t lane = 0; lane < lanes && lane < TLX_LANES; lane++) beat->lanes[lane] = (uint8_t)(data[lane / 4] >> 8 * (lane % 4));
}

/* Room for the beat that crosses a link, with what beats of both channels have; null where something is wrong already. */
static struct tlx_beat *next_beat(int judge, const char *link, uint64_t time, uint8_t channel, uint8_t lanes, const svBitVecVal *data,
                                  uint64_t known) {
  struct watch *watch = watch_of(judge);
  char *end;
  if (!watch || watch->text[0]) return NULL;
  if (watch->held == MAX_BEATS || (link[0] != 'm' && link[0] != 'p')) {
    snprintf(watch->text, MAX_TEXT, "judge: link %s: %s\n", link, watch->held == MAX_BEATS ? "too many beats in a cycle" : "its name is none");
    return NULL;
  }
  struct tlx_beat *beat = &watch->beats[watch->held++];
  memset(beat, 0, sizeof *beat);
  beat->time = time;
  beat->side = link[0] == 'm' ? TLX_MASTER : TLX_PORT;
  beat->number = strtoull(link + 1, &end, 10);
  if (*end || end == link + 1) beat->number = UINT64_MAX;
  beat->channel = channel;
  put_lanes(beat, lanes, data, known);
  return beat;
}

void tl_judge_request(int judge, const char *link, unsigned long long time, unsigned char opcode, unsigned char param, unsigned char size,
                      unsigned short source, unsigned long long address, unsigned long long mask, unsigned char corrupt, unsigned char lanes,
                      const svBitVecVal *data, unsigned long long known) {
  struct tlx_beat *beat = next_beat(judge, link, time, TLX_A, lanes, data, known);
  if (!beat) return;
  beat->opcode = opcode;
  beat->param = param;
  beat->size = size;
  beat->source = source;
  beat->address = address;
  beat->mask = mask;
  beat->corrupt = corrupt;
}

void tl_judge_reply(int judge, const char *link, unsigned long long time, unsigned char opcode, unsigned char param, unsigned char size,
                    unsigned short source, unsigned char denied, unsigned char corrupt, unsigned char lanes, const svBitVecVal *data,
                    unsigned long long known) {
  struct tlx_beat *beat = next_beat(judge, link, time, TLX_D, lanes, data, known);
  if (!beat) return;
  beat->opcode = opcode;
  beat->param = param;
  beat->size = size;
  beat->source = source;
  beat->denied = denied;
  beat->corrupt = corrupt;
}

/* A beat of which another field than its lanes is unknown: no beat can be made of it. */
void tl_judge_unknown(int judge, const char *link, unsigned long long time, const char *channel) {
  struct watch *watch = watch_of(judge);
  if (!watch || watch->text[0]) return;
  snprintf(watch->text, MAX_TEXT, "judge: link %s, channel %s, time %llu: a field is unknown\n", link, channel, time);
}

/* The whole system is reset at this edge. */
void tl_judge_reset(int judge, unsigned long long time) {
  struct watch *watch = watch_of(judge);
  if (!watch) return;
  watch->is_reset = 1;
  watch->reset_time = time;
}

/* A beat's turn within its cycle: A of the masters' links, A of the ports', D of the ports', D of the masters'. */
static int turn_of(const struct tlx_beat *beat) {
  if (beat->channel == TLX_A) return beat->side == TLX_MASTER ? 0 : 1;
  return beat->side == TLX_PORT ? 2 : 3;
}

static int compare(const void *one, const void *other) {
  const struct tlx_beat *a = (const struct tlx_beat *)one, *b = (const struct tlx_beat *)other;
  if (turn_of(a) != turn_of(b)) return turn_of(a) - turn_of(b);
  return a->number < b->number ? -1 : a->number > b->number;
}

/* Tells the judge of a reset, which has a row of its own in a capture. */
static void reset(struct watch *watch) {
  char why[MAX_TEXT / 2] = "the system file does not say `resets = true`";
  watch->resets++;
  uint32_t fault = tlx_judge_reset(watch->judge);
  if (fault == TLX_OK) return;
  if (fault != TLX_NO_LINK) tlx_fault_text(fault, why, sizeof why, NULL);
  snprintf(watch->text, MAX_TEXT, "judge: reset, time %" PRIu64 ": %s\n", watch->reset_time, why);
}

/* Judges a beat. Its line is the one that it has in a capture whose rows stand in the order of turns, after the header. */
static void step(struct watch *watch, struct tlx_beat *beat) {
  char why[MAX_TEXT / 2];
  beat->line = ++watch->count + watch->resets + 1;
  if (watch->links == (beat->side == TLX_MASTER ? TLX_PORT_LINKS : TLX_MASTER_LINKS)) return;
  uint32_t fault = tlx_judge_step(watch->judge, beat);
  if (fault >= TLX_FIELD_CHANGED) {
    tlx_judge_text(watch->judge, watch->text, MAX_TEXT, NULL);
  } else if (fault != TLX_OK) {
    tlx_fault_text(fault, why, sizeof why, NULL);
    snprintf(watch->text, MAX_TEXT, "judge: link %c%" PRIu64 ": %s\n", beat->side == TLX_MASTER ? 'm' : 'p', beat->number, why);
  }
}

/* Judges the beats of the cycle that ends, before which a reset crosses; 1 if something is wrong, now or before. */
int tl_judge_cycle(int judge) {
  struct watch *watch = watch_of(judge);
  if (!watch) return 1;
  if (watch->is_reset && !watch->text[0]) reset(watch);
  watch->is_reset = 0;
  qsort(watch->beats, watch->held, sizeof *watch->beats, compare);
  for (size_t k = 0; k < watch->held && !watch->text[0]; k++) step(watch, &watch->beats[k]);
  watch->held = 0;
  return watch->text[0] != 0;
}

/* The line of what is wrong; once the judge is closed, of the counts where nothing is. */
const char *tl_judge_text(int judge) {
  struct watch *watch = watch_of(judge);
  return watch ? watch->text : "judge: there is no such judge\n";
}

/* Judges what is left, and gives back what the judge holds. If `complete` is not zero, a request without its reply is wrong too. */
void tl_judge_close(int judge, unsigned char complete) {
  struct watch *watch = watch_of(judge);
  uint64_t requests = 0, answered = 0;
  if (!watch) return;
  if (!tl_judge_cycle(judge) && complete && tlx_judge_end(watch->judge) == TLX_INCOMPLETE)
    tlx_judge_text(watch->judge, watch->text, MAX_TEXT, NULL);
  tlx_judge_requests(watch->judge, &requests);
  tlx_judge_answered(watch->judge, &answered);
  if (!watch->text[0])
    snprintf(watch->text, MAX_TEXT, "lawful: %" PRIu64 " beats, %" PRIu64 " requests, %" PRIu64 " answered\n", watch->count, requests, answered);
  tlx_judge_free(watch->judge);
  watch->judge = NULL;
}

/* The status with which the program ends, and what ends it so: the simulator may still write its files before. */
static int exit_status = -1;
static void leave(void) {
  fflush(NULL);
  _Exit(exit_status);
}

/* Has the program end with the status that tlcheck has for this text; of several judges with the greatest. */
void tl_judge_exit(int judge) {
  const char *text = tl_judge_text(judge);
  int status = !strncmp(text, "lawful: ", 8) ? 0 : strncmp(text, "judge: ", 7) ? 3 : 1;
  if (exit_status < 0) atexit(leave);
  if (exit_status < status) exit_status = status;
}

#ifdef __cplusplus
}
#endif
