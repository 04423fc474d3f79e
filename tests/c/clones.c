/* Clones of models and judges: each goes on from where the other one was, and neither changes with the other. */
#include "check.h"

#include <string.h>

/* The byte at an address; -1 is an unknown one, and -2 none. */
static int byte_at(const struct tlx_model *model, uint64_t address) {
  uint8_t byte = 0;
  uint32_t known = 0;
  uint32_t fault = tlx_model_peek(model, address, &byte, &known);
  return fault != TLX_OK ? -2 : known ? byte : -1;
}

/* The place of the next request at port 0. */
static uint64_t next_place(struct tlx_model *model) {
  struct tlx_request get = {.opcode = 4, .size = 2, .source = 1, .address = 0x1000};
  struct tlx_answer answer;
  return tlx_model_serve(model, 0, &get, &answer) == TLX_OK ? answer.place : UINT64_MAX;
}

static void check_model_clones(void) {
  struct tlx_system *system = NULL;
  struct tlx_model *model = NULL, *clone = NULL;
  int is_well = tlx_system_read(RESETS, strlen(RESETS), TLX_VERSION, &system, 0, 0) == TLX_OK && tlx_model_make(system, &model, 0, 0) == TLX_OK;
  is_well &= tlx_model_poke(model, 0x1001, 0x77, 1) == TLX_OK && tlx_model_poke(model, 0x1002, 0, 0) == TLX_OK && next_place(model) == 0;
  is_well &= tlx_model_poke(model, 0x2000, 0x55, 1) == TLX_OK && tlx_model_clone(model, &clone) == TLX_OK;
  tell("the bytes of a clone", is_well && byte_at(clone, 0x1000) == 0 && byte_at(clone, 0x1001) == 0x77 && byte_at(clone, 0x1002) == -1 &&
       byte_at(clone, 0x2000) == 0x55 && masters_of(clone) == 1 && ports_of(clone) == 3);
  tell("the places of a clone", next_place(clone) == 1 && next_place(clone) == 2 && next_place(model) == 1);
  is_well = tlx_model_poke(clone, 0x1001, 0x88, 1) == TLX_OK && tlx_model_poke(model, 0x1003, 0x99, 1) == TLX_OK;
  tell("bytes of one alone", is_well && byte_at(model, 0x1001) == 0x77 && byte_at(clone, 0x1001) == 0x88 && byte_at(clone, 0x1003) == 0x33);
  tell("a clone that is reset", tlx_model_reset(clone) == TLX_OK && byte_at(clone, 0x2000) == 0xa0 && byte_at(model, 0x2000) == 0x55);
  tlx_system_free(system);
  tlx_model_free(model);
  tell("a clone alone", byte_at(clone, 0x1001) == 0x88 && next_place(clone) == 3);
  tlx_model_free(clone);
}

static const struct tlx_beat PUT = {.line = 7, .size = 2, .address = 0x1000, .mask = 0x0f, .known = 0x0f, .lanes = {1, 2, 3, 4}};
static const struct tlx_beat DONE = {.channel = TLX_D, .size = 2};

/* A judge with a put in flight and a text. */
static struct tlx_judge *make_judge(void) {
  struct tlx_judge *judge = NULL;
  int is_well = tlx_judge_read(RESETS, strlen(RESETS), TLX_VERSION, TLX_MASTER_LINKS, 0, 0, &judge, 0, 0) == TLX_OK;
  is_well &= tlx_judge_step(judge, &PUT) == TLX_OK && tlx_judge_step(judge, &PUT) == TLX_SOURCE_IN_FLIGHT;
  tell("a judge to be cloned", is_well);
  return judge;
}

/* A get of the bytes of the put is answered these. */
static uint32_t gets(struct tlx_judge *judge, const char *bytes) {
  struct tlx_beat get = {.opcode = 4, .size = 2, .address = 0x1000, .mask = 0x0f}, reply = {.channel = TLX_D, .opcode = 1, .size = 2, .known = 0x0f};
  memcpy(reply.lanes, bytes, 4);
  uint32_t fault = tlx_judge_step(judge, &get);
  return fault == TLX_OK ? tlx_judge_step(judge, &reply) : fault;
}

static void check_judge_clones(void) {
  struct tlx_judge *judge = make_judge(), *clone = NULL, *second = NULL;
  char text[128];
  tell("a clone of a judge", tlx_judge_clone(judge, &clone) == TLX_OK && requests_of(clone) == 1 && in_flight_of(clone) == 1 &&
       text_of(clone, text, sizeof text) > 0 && !strcmp(text, "unlawful: line 7, time 0, m0 A: source in flight\n"));
  tell("what is left of a clone", tlx_judge_end(clone) == TLX_INCOMPLETE && text_of(clone, text, sizeof text) > 0 && strstr(text, "line 7, time 0, m0 s0 putfull") &&
       text_of(judge, text, sizeof text) > 0 && strstr(text, "source in flight"));
  size_t before = requests;
  tell("a reply for one alone", tlx_judge_step(clone, &DONE) == TLX_OK && in_flight_of(clone) == 0 && in_flight_of(judge) == 1 &&
       tlx_judge_step(clone, &DONE) == TLX_NO_REQUEST && tlx_judge_step(judge, &DONE) == TLX_OK && requests == before);
  tell("the bytes of a clone", tlx_judge_clone(clone, &second) == TLX_OK && gets(second, "\1\2\3\4") == TLX_OK && gets(judge, "\1\2\3\4") == TLX_OK);
  tell("a reset of one alone", tlx_judge_step(clone, &PUT) == TLX_OK && tlx_judge_reset(clone) == TLX_OK && tlx_judge_end(clone) == TLX_OK &&
       gets(clone, "\xee\xee\xee\xee") == TLX_OK && gets(judge, "\xee\xee\xee\xee") == TLX_WRONG_REPLY);
  tlx_judge_free(judge);
  tlx_judge_free(clone);
  tell("a clone alone", gets(second, "\1\2\3\4") == TLX_OK && answered_of(second) == 3);
  tlx_judge_free(second);
}

void check_clones(void) {
  long before = blocks;
  check_model_clones();
  check_judge_clones();
  tell("the memory of clones", blocks == before);
}
