/* Each pointer of each call that may be null, each number out of its range, and calls with handles after refused ones. */
#include "check.h"

#include <string.h>

/* What the calls are made with, and what they must leave. */
struct made {
  struct tlx_system *system, *new_system;
  struct tlx_model *model, *new_model;
  struct tlx_judge *judge, *new_judge;
  struct tlx_request request;
  struct tlx_answer answer;
  struct tlx_beat beat;
  uint64_t count;
  size_t length;
  uint8_t byte;
  uint32_t known;
  char text[64];
};

/* ---- null pointers: each bit of `null` leaves out a pointer that a call takes */

static void *or_null(void *pointer, unsigned null, unsigned bit) { return null >> bit & 1 ? NULL : pointer; }
#define P(bit, pointer) or_null((void *)(pointer), null, bit)

static uint32_t read_system(struct made *m, unsigned null) { return tlx_system_read(P(0, SYSTEM), strlen(SYSTEM), TLX_VERSION, P(1, &m->new_system), P(2, m->text), sizeof m->text); }
static uint32_t system_ports(struct made *m, unsigned null) { return tlx_system_ports(P(0, m->system), P(1, &m->count)); }
static uint32_t image_name(struct made *m, unsigned null) { return tlx_system_image_name(P(0, m->system), 0, P(1, m->text), sizeof m->text, &m->length); }
static uint32_t put_image(struct made *m, unsigned null) { return tlx_system_image(P(0, m->system), 0, P(1, "ab"), 2, P(2, m->text), sizeof m->text); }
static uint32_t make_model(struct made *m, unsigned null) { return tlx_model_make(P(0, m->system), P(1, &m->new_model), P(2, m->text), sizeof m->text); }
static uint32_t serve(struct made *m, unsigned null) { return tlx_model_serve(P(0, m->model), 0, P(1, &m->request), P(2, &m->answer)); }
static uint32_t peek(struct made *m, unsigned null) { return tlx_model_peek(P(0, m->model), 0x1000, P(1, &m->byte), P(2, &m->known)); }
static uint32_t poke(struct made *m, unsigned null) { return tlx_model_poke(P(0, m->model), 0x1000, 1, 1); }
static uint32_t reset_model(struct made *m, unsigned null) { return tlx_model_reset(P(0, m->model)); }
static uint32_t masters(struct made *m, unsigned null) { return tlx_model_masters(P(0, m->model), P(1, &m->count)); }
static uint32_t model_ports(struct made *m, unsigned null) { return tlx_model_ports(P(0, m->model), P(1, &m->count)); }
static uint32_t clone_model(struct made *m, unsigned null) { return tlx_model_clone(P(0, m->model), P(1, &m->new_model)); }
static uint32_t clone_judge(struct made *m, unsigned null) { return tlx_judge_clone(P(0, m->judge), P(1, &m->new_judge)); }
static uint32_t make_judge(struct made *m, unsigned null) { return tlx_judge_make(P(0, m->system), 0, 0, 0, P(1, &m->new_judge), P(2, m->text), sizeof m->text); }
static uint32_t read_judge(struct made *m, unsigned null) { return tlx_judge_read(P(0, SYSTEM), strlen(SYSTEM), TLX_VERSION, 0, 0, 0, P(1, &m->new_judge), P(2, m->text), sizeof m->text); }
static uint32_t step(struct made *m, unsigned null) { return tlx_judge_step(P(0, m->judge), P(1, &m->beat)); }
static uint32_t steps(struct made *m, unsigned null) { return tlx_judge_steps(P(0, m->judge), P(1, &m->beat), 1, P(2, &m->length)); }
static uint32_t cycle(struct made *m, unsigned null) { return tlx_judge_cycle(P(0, m->judge), P(1, &m->beat), 1, P(2, &m->length)); }
static uint32_t reset_judge(struct made *m, unsigned null) { return tlx_judge_reset(P(0, m->judge)); }
static uint32_t end(struct made *m, unsigned null) { return tlx_judge_end(P(0, m->judge)); }
static uint32_t text(struct made *m, unsigned null) { return tlx_judge_text(P(0, m->judge), P(1, m->text), sizeof m->text, &m->length); }
static uint32_t count_requests(struct made *m, unsigned null) { return tlx_judge_requests(P(0, m->judge), P(1, &m->count)); }
static uint32_t count_answered(struct made *m, unsigned null) { return tlx_judge_answered(P(0, m->judge), P(1, &m->count)); }
static uint32_t count_in_flight(struct made *m, unsigned null) { return tlx_judge_in_flight(P(0, m->judge), P(1, &m->count)); }

/* The calls, how many pointers each takes, and what it answers with all of them. */
static const struct taker {
  const char *name;
  uint32_t (*call)(struct made *m, unsigned null);
  unsigned pointers;
  uint32_t fault;
} TAKERS[] = {
    {"tlx_system_read", read_system, 3, TLX_OK},
    {"tlx_system_ports", system_ports, 2, TLX_OK},
    {"tlx_system_image_name", image_name, 2, TLX_OK},
    {"tlx_system_image", put_image, 3, TLX_NO_IMAGE},
    {"tlx_model_make", make_model, 3, TLX_OK},
    {"tlx_model_serve", serve, 3, TLX_OK},
    {"tlx_model_peek", peek, 3, TLX_OK},
    {"tlx_model_poke", poke, 1, TLX_OK},
    {"tlx_model_reset", reset_model, 1, TLX_NO_LINK},
    {"tlx_model_masters", masters, 2, TLX_OK},
    {"tlx_model_ports", model_ports, 2, TLX_OK},
    {"tlx_model_clone", clone_model, 2, TLX_OK},
    {"tlx_judge_clone", clone_judge, 2, TLX_OK},
    {"tlx_judge_make", make_judge, 3, TLX_OK},
    {"tlx_judge_read", read_judge, 3, TLX_OK},
    {"tlx_judge_step", step, 2, TLX_OK},
    {"tlx_judge_steps", steps, 3, TLX_SOURCE_IN_FLIGHT},
    {"tlx_judge_cycle", cycle, 3, TLX_SOURCE_IN_FLIGHT},
    {"tlx_judge_reset", reset_judge, 1, TLX_NO_LINK},
    {"tlx_judge_end", end, 1, TLX_INCOMPLETE},
    {"tlx_judge_text", text, 2, TLX_OK},
    {"tlx_judge_requests", count_requests, 2, TLX_OK},
    {"tlx_judge_answered", count_answered, 2, TLX_OK},
    {"tlx_judge_in_flight", count_in_flight, 2, TLX_OK},
};

static void free_new(struct made *m) {
  tlx_system_free(m->new_system);
  tlx_model_free(m->new_model);
  tlx_judge_free(m->new_judge);
  m->new_system = NULL;
  m->new_model = NULL;
  m->new_judge = NULL;
}

/* Each choice of null pointers but none is TLX_NULL, makes nothing, and leaves what is not a text, a place or a handle. */
static int refuses_nulls(const struct taker *taker, struct made *m) {
  int is_well = 1;
  for (unsigned null = 1; null >> taker->pointers == 0; null++) {
    long before = blocks;
    uint8_t old[sizeof m->answer];
    memcpy(old, &m->answer, sizeof old);
    m->byte = 7, m->known = 7, m->count = 7;
    is_well &= taker->call(m, null) == TLX_NULL && blocks == before && !m->new_system && !m->new_model && !m->new_judge;
    is_well &= m->byte == 7 && m->known == 7 && m->count == 7 && !memcmp(old, &m->answer, sizeof old);
  }
  return is_well;
}

static void make_all(struct made *m) {
  memset(m, 0, sizeof *m);
  m->request = (struct tlx_request){.opcode = 4, .size = 2, .source = 1, .address = 0x1000};
  m->beat = (struct tlx_beat){.opcode = 4, .size = 2, .source = 1, .address = 0x1000, .mask = 0x0f};
  tlx_system_read(SYSTEM, strlen(SYSTEM), TLX_VERSION, &m->system, 0, 0);
  tlx_model_make(m->system, &m->model, 0, 0);
  tlx_judge_make(m->system, TLX_MASTER_LINKS, 0, 0, &m->judge, 0, 0);
}

static void free_made(struct made *m) {
  tlx_system_free(m->system);
  tlx_model_free(m->model);
  tlx_judge_free(m->judge);
}

/* The null pointers of each call, and then the call with all pointers: nothing is lost. */
static void check_nulls(struct made *m) {
  for (size_t k = 0; k < sizeof TAKERS / sizeof *TAKERS; k++) {
    int is_well = refuses_nulls(&TAKERS[k], m) && TAKERS[k].call(m, 0) == TAKERS[k].fault;
    tell(TAKERS[k].name, is_well);
    free_new(m);
  }
  tell("what is left after null pointers", requests_of(m->judge) == 1 && answered_of(m->judge) == 0 && ports_of(m->model) == 3 && system_ports_of(m->system) == 2);
  tell("the first served after null pointers", m->answer.place == 0 && m->answer.count == 4);
  tell("places that may be left out", tlx_judge_text(m->judge, m->text, sizeof m->text, 0) == TLX_OK && m->text[0] &&
       tlx_system_image_name(m->system, 0, m->text, sizeof m->text, 0) == TLX_OK && !m->text[0]);
  tlx_system_free(0);
  tlx_model_free(0);
  tlx_judge_free(0);
}

/* ---- numbers, over the whole range of their types */

static const uint32_t OVER[] = {5, 8, 9, 127, 128, 255, 256, 257, 258, 259, 512, 65535, 65536, 65537, 0x01000000, 0x01000001, 0x7fffffff, 0x80000000, 0x80000001, 0xffffff00, 0xffffffff};

/* Whether a judge is made of these words; it is freed. */
static int is_made(struct made *m, uint32_t links, uint32_t masters_order, uint32_t ports_order) {
  uint32_t read = tlx_judge_read(SYSTEM, strlen(SYSTEM), TLX_VERSION, links, masters_order, ports_order, &m->new_judge, 0, 0);
  int is_there = m->new_judge != NULL;
  free_new(m);
  uint32_t made = tlx_judge_make(m->system, links, masters_order, ports_order, &m->new_judge, m->text, sizeof m->text);
  int is_same = read == made && is_there == (m->new_judge != NULL) && is_there == (made == TLX_OK) && (made == TLX_OK || made == TLX_BAD_ARGUMENT);
  free_new(m);
  tell("both makers of a judge", is_same && !m->text[0]);
  return made == TLX_OK;
}

static void check_words_of_judges(struct made *m) {
  for (uint32_t number = 0; number < 5; number++)
    tell("small words", is_made(m, number, 0, 0) == (number < 4) && is_made(m, 0, number, 0) == (number < 3) && is_made(m, 0, 0, number) == (number < 3));
  for (size_t k = 0; k < sizeof OVER / sizeof *OVER; k++)
    tell("words out of range", !is_made(m, OVER[k], 0, 0) && !is_made(m, 0, OVER[k], 0) && !is_made(m, 0, 0, OVER[k]));
}

static void check_known(struct made *m) {
  for (size_t k = 0; k < sizeof OVER / sizeof *OVER; k++) {
    int is_well = tlx_model_poke(m->model, 0x1001, 0x77, OVER[k]) == TLX_BAD_ARGUMENT && tlx_model_poke(m->model, 0x9000, 0, OVER[k]) == TLX_BAD_ARGUMENT;
    tell("flags out of range", is_well && tlx_model_poke(m->model, 0x1001, 0x77, 2) == TLX_BAD_ARGUMENT);
  }
  tell("a byte after them", tlx_model_peek(m->model, 0x1001, &m->byte, &m->known) == TLX_OK && m->byte == 0x11 && m->known == 1);
  tell("a byte that is put unknown", tlx_model_poke(m->model, 0x1001, 0x77, 0) == TLX_OK &&
       tlx_model_peek(m->model, 0x1001, &m->byte, &m->known) == TLX_OK && m->byte == 0 && m->known == 0);
  m->byte = 7;
  tell("a byte that is none", tlx_model_peek(m->model, 0x9000, &m->byte, &m->known) == TLX_NO_BYTE && m->byte == 7 && m->known == 0);
}

/* Fields of a beat that have no meaning: the judge is as it was. */
static void check_fields(struct made *m) {
  for (uint32_t number = 2; number < 256; number++) {
    struct tlx_beat side = m->beat, channel = m->beat, corrupt = m->beat, denied = m->beat;
    side.side = channel.channel = corrupt.corrupt = denied.denied = (uint8_t)number;
    denied.channel = TLX_D;
    int is_well = tlx_judge_step(m->judge, &side) == TLX_BAD_ARGUMENT && tlx_judge_step(m->judge, &channel) == TLX_BAD_ARGUMENT &&
                  tlx_judge_step(m->judge, &corrupt) == TLX_BAD_ARGUMENT && tlx_judge_step(m->judge, &denied) == TLX_BAD_ARGUMENT;
    if (!is_well) tell("a field without a meaning", 0);
  }
  tell("fields without a meaning", requests_of(m->judge) == 1 && tlx_judge_end(m->judge) == TLX_INCOMPLETE);
}

/* Texts of no bytes, and rooms of none. */
static void check_texts(struct made *m) {
  m->text[0] = 'a';
  tell("rooms of no bytes", tlx_system_image(m->system, 9, 0, 0, m->text, 0) == TLX_NO_PORT && tlx_judge_text(m->judge, m->text, 0, &m->length) == TLX_OK &&
       m->length == 0 && m->text[0] == 'a');
  tell("texts of no bytes", tlx_system_image(m->system, 0, 0, 0, 0, 0) == TLX_NO_IMAGE && tlx_system_read(0, 0, TLX_VERSION, &m->new_system, 0, 0) == TLX_MISSING &&
       tlx_judge_read(0, 0, TLX_VERSION, 0, 0, 0, &m->new_judge, 0, 0) == TLX_MISSING && !m->new_system && !m->new_judge);
  tell("texts in one byte", tlx_system_image(m->system, 9, 0, 0, m->text, 1) == TLX_NO_PORT && !m->text[0]);
}

void check_arguments(void) {
  struct made made;
  long before = blocks;
  make_all(&made);
  check_nulls(&made);
  check_words_of_judges(&made);
  check_known(&made);
  check_fields(&made);
  check_texts(&made);
  free_made(&made);
  tell("all memory of refused calls", blocks == before);
}
