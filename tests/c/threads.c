/* Two threads make queries of one model and one judge at once, and change models of their own; for ThreadSanitizer. Each sees what was made before
 * they began. The last line is 'N passed, M failed'. */
#include "tlx.h"

#include <pthread.h>
#include <stdio.h>
#include <string.h>

#ifndef TURNS
#define TURNS 2000
#endif
enum { THREADS = 2 };

static const char FILE_TEXT[] =
    "[[port]]\nname = \"ram\"\nkind = \"ram\"\nbase = 0x1000\nlength = 64\nreset = \"0011\"\nimage = \"a\"\n[[master]]\nsources = 2\n";
static const struct tlx_beat GET = {.opcode = 4, .size = 2, .address = 0x1000, .mask = 0x0f};

static struct tlx_system *shared_system;
static struct tlx_model *shared_model;
static struct tlx_judge *shared_judge;

/* What was made before the threads began. */
static int make_shared(void) {
  char text[256];
  return tlx_system_read(FILE_TEXT, strlen(FILE_TEXT), TLX_VERSION, &shared_system, 0, 0) == TLX_OK &&
         tlx_system_image(shared_system, 0, "..ab", 4, text, sizeof text) == TLX_OK && tlx_model_make(shared_system, &shared_model, 0, 0) == TLX_OK &&
         tlx_model_poke(shared_model, 0x1008, 0x5a, 1) == TLX_OK &&
         tlx_judge_make(shared_system, TLX_MASTER_LINKS, TLX_ACCEPT_ORDER, TLX_ACCEPT_ORDER, &shared_judge, 0, 0) == TLX_OK &&
         tlx_judge_step(shared_judge, &GET) == TLX_OK && tlx_judge_step(shared_judge, &GET) == TLX_SOURCE_IN_FLIGHT;
}

static int asks_model(void) {
  uint64_t masters = 0, ports = 0;
  uint8_t byte = 0;
  uint32_t known = 0;
  return tlx_model_masters(shared_model, &masters) == TLX_OK && masters == 1 && tlx_model_ports(shared_model, &ports) == TLX_OK && ports == 2 &&
         tlx_model_peek(shared_model, 0x1008, &byte, &known) == TLX_OK && byte == 0x5a && known == 1 &&
         tlx_model_peek(shared_model, 0x1002, &byte, &known) == TLX_OK && byte == 'a' && tlx_model_peek(shared_model, 0, &byte, &known) == TLX_NO_BYTE;
}

static int asks_judge(void) {
  uint64_t requests = 0, answered = 1, in_flight = 0;
  char text[256] = "";
  return tlx_judge_requests(shared_judge, &requests) == TLX_OK && requests == 1 && tlx_judge_answered(shared_judge, &answered) == TLX_OK && answered == 0 &&
         tlx_judge_in_flight(shared_judge, &in_flight) == TLX_OK && in_flight == 1 &&
         tlx_judge_text(shared_judge, text, sizeof text, 0) == TLX_OK && !strcmp(text, "unlawful: line 0, time 0, m0 A: source in flight\n");
}

/* A system is asked, and a model and a judge are made of it, while another thread does the same. */
static int makes_own(uint8_t value) {
  struct tlx_model *model = NULL;
  struct tlx_judge *judge = NULL, *clone = NULL;
  struct tlx_request put = {.size = 0, .address = 0x1000, .bytes = {value}};
  struct tlx_answer answer;
  char name[16];
  uint8_t byte = 0;
  uint32_t known = 0;
  int is_well = tlx_system_image_name(shared_system, 0, name, sizeof name, 0) == TLX_OK && !strcmp(name, "a") &&
                (value % 2 ? tlx_model_make(shared_system, &model, 0, 0) : tlx_model_clone(shared_model, &model)) == TLX_OK &&
                tlx_judge_make(shared_system, TLX_MASTER_LINKS, 0, 0, &judge, 0, 0) == TLX_OK && tlx_judge_clone(shared_judge, &clone) == TLX_OK &&
                tlx_model_serve(model, 0, &put, &answer) == TLX_OK && tlx_model_peek(model, 0x1000, &byte, &known) == TLX_OK && byte == value &&
                tlx_judge_step(judge, &GET) == TLX_OK;
  tlx_model_free(model);
  tlx_judge_free(judge);
  tlx_judge_free(clone);
  return is_well;
}

static void *work(void *at) {
  int *count = at;
  uint8_t value = (uint8_t)*count;
  *count = 0;
  for (int turn = 0; turn < TURNS; turn++) *count += asks_model() && asks_judge() && (turn % 16 || makes_own((uint8_t)(value + turn / 16)));
  return NULL;
}

int main(void) {
  pthread_t threads[THREADS];
  int counts[THREADS], passed = make_shared();
  for (int k = 0; k < THREADS; k++) counts[k] = k + 1;
  for (int k = 0; k < THREADS; k++) pthread_create(&threads[k], NULL, work, &counts[k]);
  for (int k = 0; k < THREADS; k++) {
    pthread_join(threads[k], NULL);
    passed += counts[k] == TURNS;
  }
  tlx_judge_free(shared_judge);
  tlx_model_free(shared_model);
  tlx_system_free(shared_system);
  printf("%d passed, %d failed\n", passed, THREADS + 1 - passed);
  return passed != THREADS + 1;
}
