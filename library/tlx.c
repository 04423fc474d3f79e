/* The calls of include/tlx.h over the exports of crates/tl_c, which are proved: this file has the handles on the heap, refuses null pointers, and
 * puts the beats of a cycle into their order. All else it hands on. A query gets a copy of the handle, and reads what that points to, so two
 * threads may make queries at once. */
#include "tlx.h"

#include <stdlib.h>

/* A handle of the exports: all zero, it holds nothing. */
struct held { void *at; uint8_t live; };

struct tlx_system { struct held held; };
struct tlx_model { struct held held; };
struct tlx_judge { struct held held; };

/* ---- the exports: no pointer is null, and the fields of a handle are the library's */

uint32_t tlx_system_read_at(struct held *system, const uint8_t *file, size_t length, uint32_t version, char *why, size_t room, size_t *written);
uint64_t tlx_system_ports_at(struct held *system);
size_t tlx_system_image_name_at(struct held *system, uint64_t port, char *text, size_t room);
uint32_t tlx_system_image_at(struct held *system, uint64_t port, const uint8_t *bytes, size_t length, char *why, size_t room, size_t *written);
void tlx_system_free_at(struct held *system);
uint32_t tlx_model_make_at(struct held *model, struct held *system, char *why, size_t room, size_t *written);
uint32_t tlx_model_clone_at(struct held *model, struct held *clone);
void tlx_model_free_at(struct held *model);
uint32_t tlx_model_serve_at(struct held *model, uint64_t master, const struct tlx_request *request, struct tlx_answer *answer);
uint32_t tlx_model_peek_at(struct held *model, uint64_t address, uint8_t *byte, uint32_t *known);
uint32_t tlx_model_poke_at(struct held *model, uint64_t address, uint8_t byte, uint32_t known);
uint32_t tlx_model_reset_at(struct held *model);
uint64_t tlx_model_masters_at(struct held *model);
uint64_t tlx_model_ports_at(struct held *model);
uint32_t tlx_judge_make_at(struct held *judge, struct held *system, uint32_t links, uint32_t masters, uint32_t ports, char *why, size_t room,
                           size_t *written);
uint32_t tlx_judge_read_at(struct held *judge, const uint8_t *file, size_t length, uint32_t links, uint32_t masters, uint32_t ports,
                           uint32_t version, char *why, size_t room, size_t *written);
uint32_t tlx_judge_clone_at(struct held *judge, struct held *clone);
void tlx_judge_free_at(struct held *judge);
uint32_t tlx_judge_step_at(struct held *judge, const struct tlx_beat *beat);
uint32_t tlx_judge_reset_at(struct held *judge);
uint32_t tlx_judge_end_at(struct held *judge);
size_t tlx_judge_text_at(struct held *judge, char *text, size_t room);
uint64_t tlx_judge_requests_at(struct held *judge);
uint64_t tlx_judge_answered_at(struct held *judge);
size_t tlx_fault_text_at(uint32_t fault, char *text, size_t room);

/* ---- handles */

/* What a call has made, if it has; else its memory is given back. */
static void *keep(uint32_t fault, void *made) {
  if (fault == TLX_OK) return made;
  free(made);
  return NULL;
}

#define HELD(handle) ((handle) ? &(handle)->held : NULL)

/* What an export counts. */
static uint32_t count(uint64_t (*counts)(struct held *), const struct held *held, uint64_t *found) {
  if (!held || !found) return TLX_NULL;
  struct held copy = *held;
  *found = counts(&copy);
  return TLX_OK;
}

/* ---- texts */

/* What is read of no bytes. */
static const uint8_t NOTHING[1];

/* Where the text of a fault is written, and what it has there: a byte of its own if the caller has no room. */
struct why { char none; char *text; size_t room, written; };

/* Whether there is room, or none is asked for; then an empty text stands there. */
static int begin_text(struct why *why, char *text, size_t room) {
  why->text = room ? text : &why->none;
  why->room = room ? room : 1;
  if (why->text) *why->text = 0;
  return why->text != NULL;
}

static uint32_t tell_length(size_t length, size_t *written) {
  if (written) *written = length;
  return TLX_OK;
}

uint32_t tlx_fault_text(uint32_t fault, char *text, size_t room, size_t *written) {
  tell_length(0, written);
  if (!text && room) return TLX_NULL;
  return tell_length(room ? tlx_fault_text_at(fault, text, room) : 0, written);
}

/* ---- systems */

uint32_t tlx_system_read(const void *file, size_t length, uint32_t version, struct tlx_system **system, char *text, size_t room) {
  struct why why;
  int has_room = begin_text(&why, text, room);
  if (system) *system = NULL;
  if (!system || !has_room || (!file && length)) return TLX_NULL;
  struct tlx_system *made = calloc(1, sizeof *made);
  if (!made) return TLX_MEMORY;
  uint32_t fault = tlx_system_read_at(&made->held, length ? file : NOTHING, length, version, why.text, why.room, &why.written);
  *system = keep(fault, made);
  return fault;
}

uint32_t tlx_system_ports(const struct tlx_system *system, uint64_t *ports) { return count(tlx_system_ports_at, HELD(system), ports); }

uint32_t tlx_system_image_name(const struct tlx_system *system, uint64_t port, char *text, size_t room, size_t *written) {
  tell_length(0, written);
  if (!system || (!text && room)) return TLX_NULL;
  struct held copy = system->held;
  return tell_length(room ? tlx_system_image_name_at(&copy, port, text, room) : 0, written);
}

uint32_t tlx_system_image(struct tlx_system *system, uint64_t port, const void *bytes, size_t length, char *text, size_t room) {
  struct why why;
  int has_room = begin_text(&why, text, room);
  if (!system || !has_room || (!bytes && length)) return TLX_NULL;
  return tlx_system_image_at(&system->held, port, length ? bytes : NOTHING, length, why.text, why.room, &why.written);
}

void tlx_system_free(struct tlx_system *system) {
  if (system) tlx_system_free_at(&system->held);
  free(system);
}

/* ---- models */

uint32_t tlx_model_make(const struct tlx_system *system, struct tlx_model **model, char *text, size_t room) {
  struct why why;
  int has_room = begin_text(&why, text, room);
  if (model) *model = NULL;
  if (!system || !model || !has_room) return TLX_NULL;
  struct tlx_model *made = calloc(1, sizeof *made);
  if (!made) return TLX_MEMORY;
  struct held copy = system->held;
  uint32_t fault = tlx_model_make_at(&made->held, &copy, why.text, why.room, &why.written);
  *model = keep(fault, made);
  return fault;
}

uint32_t tlx_model_clone(const struct tlx_model *model, struct tlx_model **clone) {
  if (clone) *clone = NULL;
  if (!model || !clone) return TLX_NULL;
  struct tlx_model *made = calloc(1, sizeof *made);
  if (!made) return TLX_MEMORY;
  struct held copy = model->held;
  uint32_t fault = tlx_model_clone_at(&copy, &made->held);
  *clone = keep(fault, made);
  return fault;
}

void tlx_model_free(struct tlx_model *model) {
  if (model) tlx_model_free_at(&model->held);
  free(model);
}

uint32_t tlx_model_serve(struct tlx_model *model, uint64_t master, const struct tlx_request *request, struct tlx_answer *answer) {
  return model && request && answer ? tlx_model_serve_at(&model->held, master, request, answer) : (uint32_t)TLX_NULL;
}

uint32_t tlx_model_peek(const struct tlx_model *model, uint64_t address, uint8_t *byte, uint32_t *known) {
  if (!model || !byte || !known) return TLX_NULL;
  struct held copy = model->held;
  return tlx_model_peek_at(&copy, address, byte, known);
}

uint32_t tlx_model_poke(struct tlx_model *model, uint64_t address, uint8_t byte, uint32_t known) {
  return model ? tlx_model_poke_at(&model->held, address, byte, known) : (uint32_t)TLX_NULL;
}

uint32_t tlx_model_reset(struct tlx_model *model) { return model ? tlx_model_reset_at(&model->held) : (uint32_t)TLX_NULL; }

uint32_t tlx_model_masters(const struct tlx_model *model, uint64_t *masters) { return count(tlx_model_masters_at, HELD(model), masters); }
uint32_t tlx_model_ports(const struct tlx_model *model, uint64_t *ports) { return count(tlx_model_ports_at, HELD(model), ports); }

/* ---- judges */

uint32_t tlx_judge_make(const struct tlx_system *system, uint32_t links, uint32_t masters, uint32_t ports, struct tlx_judge **judge, char *text,
                        size_t room) {
  struct why why;
  int has_room = begin_text(&why, text, room);
  if (judge) *judge = NULL;
  if (!system || !judge || !has_room) return TLX_NULL;
  struct tlx_judge *made = calloc(1, sizeof *made);
  if (!made) return TLX_MEMORY;
  struct held copy = system->held;
  uint32_t fault = tlx_judge_make_at(&made->held, &copy, links, masters, ports, why.text, why.room, &why.written);
  *judge = keep(fault, made);
  return fault;
}

uint32_t tlx_judge_read(const void *file, size_t length, uint32_t version, uint32_t links, uint32_t masters, uint32_t ports,
                        struct tlx_judge **judge, char *text, size_t room) {
  struct why why;
  int has_room = begin_text(&why, text, room);
  if (judge) *judge = NULL;
  if (!judge || !has_room || (!file && length)) return TLX_NULL;
  struct tlx_judge *made = calloc(1, sizeof *made);
  if (!made) return TLX_MEMORY;
  uint32_t fault = tlx_judge_read_at(&made->held, length ? file : NOTHING, length, links, masters, ports, version, why.text, why.room,
                                     &why.written);
  *judge = keep(fault, made);
  return fault;
}

uint32_t tlx_judge_clone(const struct tlx_judge *judge, struct tlx_judge **clone) {
  if (clone) *clone = NULL;
  if (!judge || !clone) return TLX_NULL;
  struct tlx_judge *made = calloc(1, sizeof *made);
  if (!made) return TLX_MEMORY;
  struct held copy = judge->held;
  uint32_t fault = tlx_judge_clone_at(&copy, &made->held);
  *clone = keep(fault, made);
  return fault;
}

void tlx_judge_free(struct tlx_judge *judge) {
  if (judge) tlx_judge_free_at(&judge->held);
  free(judge);
}

uint32_t tlx_judge_step(struct tlx_judge *judge, const struct tlx_beat *beat) {
  return judge && beat ? tlx_judge_step_at(&judge->held, beat) : (uint32_t)TLX_NULL;
}

uint32_t tlx_judge_steps(struct tlx_judge *judge, const struct tlx_beat *beats, size_t count, size_t *judged) {
  uint32_t fault = TLX_OK;
  if (judged) *judged = 0;
  if (!judge || !judged || (!beats && count)) return TLX_NULL;
  while (*judged < count && (fault = tlx_judge_step_at(&judge->held, &beats[*judged])) == TLX_OK) ++*judged;
  return fault;
}

uint32_t tlx_judge_reset(struct tlx_judge *judge) { return judge ? tlx_judge_reset_at(&judge->held) : (uint32_t)TLX_NULL; }
uint32_t tlx_judge_end(struct tlx_judge *judge) { return judge ? tlx_judge_end_at(&judge->held) : (uint32_t)TLX_NULL; }

uint32_t tlx_judge_text(const struct tlx_judge *judge, char *text, size_t room, size_t *written) {
  tell_length(0, written);
  if (!judge || (!text && room)) return TLX_NULL;
  struct held copy = judge->held;
  return tell_length(room ? tlx_judge_text_at(&copy, text, room) : 0, written);
}

uint32_t tlx_judge_requests(const struct tlx_judge *judge, uint64_t *requests) { return count(tlx_judge_requests_at, HELD(judge), requests); }
uint32_t tlx_judge_answered(const struct tlx_judge *judge, uint64_t *answered) { return count(tlx_judge_answered_at, HELD(judge), answered); }

uint32_t tlx_judge_in_flight(const struct tlx_judge *judge, uint64_t *in_flight) {
  uint64_t answered;
  uint32_t fault = tlx_judge_answered(judge, &answered);
  if (fault == TLX_OK) fault = tlx_judge_requests(judge, in_flight);
  if (fault == TLX_OK) *in_flight -= answered;
  return fault;
}

/* ---- the beats of a cycle */

/* How many beats are put into their order at once. */
enum { SORTED = 64 };

/* Whether a beat crosses before another one of the same cycle: by its turn, then by the number of its link, then by its place in the array. */
static int crosses_before(const struct tlx_beat *beats, size_t one, size_t other) {
  const struct tlx_beat *a = &beats[one], *b = &beats[other];
  /* a request crosses at the master's link first, a reply at the port's */
  int turn = a->channel == TLX_A ? a->side : 3 - a->side, turns = b->channel == TLX_A ? b->side : 3 - b->side;
  if (turn != turns) return turn < turns;
  return a->number != b->number ? a->number < b->number : one < other;
}

/* The places of the beats that cross next, after the one at `last` (before any: `last` is `count`), in their order; how many there are. */
static size_t next_to_cross(const struct tlx_beat *beats, size_t count, size_t last, size_t order[SORTED]) {
  size_t held = 0;
  for (size_t next = 0; next < count; next++) {
    if (last < count && !crosses_before(beats, last, next)) continue;
    if (held == SORTED && !crosses_before(beats, next, order[SORTED - 1])) continue;
    size_t place = held < SORTED ? held++ : SORTED - 1;
    for (; place > 0 && crosses_before(beats, next, order[place - 1]); place--) order[place] = order[place - 1];
    order[place] = next;
  }
  return held;
}

uint32_t tlx_judge_cycle(struct tlx_judge *judge, const struct tlx_beat *beats, size_t count, size_t *at) {
  size_t order[SORTED], held;
  if (at) *at = 0;
  if (!judge || !at || (!beats && count)) return TLX_NULL;
  for (; *at < count; ++*at)
    if (beats[*at].side > TLX_PORT || beats[*at].channel > TLX_D) return TLX_BAD_ARGUMENT;
  for (size_t done = 0; done < count; done += held) {
    held = next_to_cross(beats, count, *at, order);
    for (size_t k = 0; k < held; k++) {
      *at = order[k];
      uint32_t fault = tlx_judge_step_at(&judge->held, &beats[*at]);
      if (fault != TLX_OK) return fault;
    }
  }
  *at = count;
  return TLX_OK;
}
