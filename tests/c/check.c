/* Walks every call of the library with right and wrong arguments, refuses each request for memory in turn, and judges the captures beside
 * by calls (captures.c). The calls of models are in models.c, those of judges in judges.c, cycles in cycles.c, resets in resets.c. Its argument is the folder of
 * the examples; it ends in 'N passed, M failed'. What it expects was worked out by hand, or is the captures' own verdict. It is linked with
 * --wrap for malloc, calloc, realloc and free. */
#include "check.h"

#include <malloc.h>
#include <stdio.h>
#include <stdlib.h>
#include <string.h>

static int passed, failed;

void tell(const char *name, int is_so) {
  if (is_so) {
    passed++;
  } else {
    failed++;
    fprintf(stderr, "tests/c: %s is not as it was worked out\n", name);
  }
}

/* ---- memory: the library's calls of malloc, realloc and free come here */

void *__real_malloc(size_t size);
void *__real_realloc(void *old, size_t size);
void __real_free(void *old);
void *__wrap_malloc(size_t size);
void *__wrap_realloc(void *old, size_t size);
void __wrap_free(void *old);

size_t requests;
size_t refused;
int asked_less;
long blocks;
static int wants; /* how often a beat was refused memory */

void *__real_calloc(size_t count, size_t size);
void *__wrap_calloc(size_t count, size_t size);

static int is_refused(int asks_less) {
  if (++requests != refused) return 0;
  asked_less = asks_less;
  return 1;
}

void *__wrap_malloc(size_t size) {
  void *made = is_refused(0) ? NULL : __real_malloc(size);
  blocks += made != NULL;
  return made;
}

void *__wrap_calloc(size_t count, size_t size) {
  void *made = is_refused(0) ? NULL : __real_calloc(count, size);
  blocks += made != NULL;
  return made;
}

void *__wrap_realloc(void *old, size_t size) {
  void *made = is_refused(old && size <= malloc_usable_size(old)) ? NULL : __real_realloc(old, size);
  blocks += !old && made;
  return made;
}

void __wrap_free(void *old) {
  blocks -= old != NULL;
  __real_free(old);
}

uint32_t step_refused(struct tlx_judge *judge, const struct tlx_beat *beat) {
  uint32_t fault = TLX_MEMORY;
  for (size_t number = 1; fault == TLX_MEMORY; number++) {
    requests = 0;
    refused = number;
    fault = tlx_judge_step(judge, beat);
    wants += fault == TLX_MEMORY;
  }
  refused = 0;
  return fault;
}

/* ---- the words of faults, those of a beat as docs/reference/faults.md has them; the compiler complains of a fault without a case */

const char *words_of(enum tlx_fault fault) {
  switch (fault) {
    case TLX_OK: return "no fault";
    case TLX_NULL: return "null pointer";
    case TLX_EMPTY: return "empty handle";
    case TLX_FULL: return "full handle";
    case TLX_MEMORY: return "memory refused";
    case TLX_BAD_ARGUMENT: return "bad argument";
    case TLX_OTHER_VERSION: return "header of another version";
    case TLX_NOT_TOML: return "not TOML";
    case TLX_MISSING: return "missing key";
    case TLX_WRONG_TYPE: return "wrong type";
    case TLX_OUT_OF_RANGE: return "out of range";
    case TLX_BAD_PORTS: return "bad ports";
    case TLX_BAD_SOURCES: return "bad sources";
    case TLX_TOO_LONG: return "longer than 1048576 bytes";
    case TLX_TWO_CALLED: return "two of one name";
    case TLX_UNKNOWN_KEY: return "unknown key";
    case TLX_NO_OPERATION: return "no such operation";
    case TLX_SIZE: return "size over the limit";
    case TLX_NO_MASTER: return "no such master";
    case TLX_NO_SOURCE: return "no such source";
    case TLX_NO_BYTE: return "no byte at this address";
    case TLX_DEVICE: return "a device";
    case TLX_NO_LINK: return "no such link";
    case TLX_FIELD_CHANGED: return "field changed";
    case TLX_UNKNOWN_OPCODE: return "unknown opcode";
    case TLX_WRONG_PARAM: return "wrong param";
    case TLX_SIZE_OUT_OF_RANGE: return "size out of range";
    case TLX_UNALIGNED_ADDRESS: return "unaligned address";
    case TLX_WRONG_MASK: return "wrong mask";
    case TLX_WRONG_CORRUPT_FLAG: return "wrong corrupt flag";
    case TLX_UNKNOWN_LANES: return "unknown data";
    case TLX_NO_SUCH_SOURCE: return "no such source";
    case TLX_SOURCE_IN_FLIGHT: return "source in flight";
    case TLX_WRONG_PORT: return "not this port's address";
    case TLX_NO_REQUEST: return "reply without request";
    case TLX_EARLY_REPLY: return "reply before its request ended";
    case TLX_WRONG_SIZE: return "size of another request";
    case TLX_WRONG_OPCODE: return "opcode of another operation";
    case TLX_UNKNOWN_DATA: return "unknown data";
    case TLX_NOT_SENT: return "no master sent this request";
    case TLX_NOT_GIVEN: return "the port gave no such reply";
    case TLX_WRONG_REPLY: return "wrong reply";
    case TLX_INCOMPLETE: return "requests without reply";
    case TLX_OUT_OF_ORDER: return "reply out of order";
    case TLX_NO_PORT: return "no such port";
    case TLX_NO_IMAGE: return "the file names no image for the port";
    case TLX_LONG_IMAGE: return "image is longer than its range";
    case TLX_IMAGE_UNREADABLE: return "image can't be read";
  }
  return "unknown fault";
}

static size_t words_length(uint32_t fault, char *text, size_t room) {
  size_t written = 77;
  return tlx_fault_text(fault, text, room, &written) == TLX_OK && tlx_fault_text(fault, text, room, 0) == TLX_OK ? written : SIZE_MAX;
}

static void check_words(void) {
  char text[128];
  size_t written = 77;
  for (uint32_t number = 0; number < 256; number++) {
    const char *words = words_of((enum tlx_fault)number);
    int is_so = words_length(number, text, sizeof text) == strlen(words) && !strcmp(text, words);
    if (strcmp(words, "unknown fault") || !is_so) tell(words, is_so);
  }
  tell("the words of no fault's number", words_length(UINT32_MAX, text, sizeof text) == 13 && !strcmp(text, "unknown fault"));
  tell("words that are cut off", words_length(TLX_EMPTY, text, 4) == 3 && !strcmp(text, "emp"));
  tell("words into one byte", words_length(TLX_EMPTY, text, 1) == 0 && !text[0]);
  tell("words into nothing", words_length(TLX_EMPTY, 0, 0) == 0 && words_length(TLX_EMPTY, text, 0) == 0);
  tell("words into null", tlx_fault_text(TLX_EMPTY, 0, 9, &written) == TLX_NULL && written == 0 && tlx_fault_text(TLX_EMPTY, 0, 1, 0) == TLX_NULL);
  tell("the largest size", tlx_largest_size() == 8);
  tell("words take no memory", requests == 0);
}

size_t read_file(const char *folder, const char *name, char *text) {
  char path[1024];
  snprintf(path, sizeof path, "%s/%s", folder, name);
  FILE *file = fopen(path, "rb");
  if (!file) return 0;
  size_t length = fread(text, 1, MAX_TEXT - 1, file);
  fclose(file);
  text[length] = 0;
  return length;
}

/* ---- counts and texts of handles */

uint64_t system_ports_of(const struct tlx_system *system) {
  uint64_t ports = 0;
  return tlx_system_ports(system, &ports) == TLX_OK ? ports : 0;
}

size_t image_name_of(const struct tlx_system *system, uint64_t port, char *text, size_t room) {
  size_t written = SIZE_MAX;
  return tlx_system_image_name(system, port, text, room, &written) == TLX_OK ? written : SIZE_MAX;
}

uint64_t masters_of(const struct tlx_model *model) {
  uint64_t masters = 0;
  return tlx_model_masters(model, &masters) == TLX_OK ? masters : 0;
}

uint64_t ports_of(const struct tlx_model *model) {
  uint64_t ports = 0;
  return tlx_model_ports(model, &ports) == TLX_OK ? ports : 0;
}

uint64_t requests_of(const struct tlx_judge *judge) {
  uint64_t count = 0;
  return tlx_judge_requests(judge, &count) == TLX_OK ? count : 0;
}

uint64_t answered_of(const struct tlx_judge *judge) {
  uint64_t count = 0;
  return tlx_judge_answered(judge, &count) == TLX_OK ? count : 0;
}

uint64_t in_flight_of(const struct tlx_judge *judge) {
  uint64_t count = 0;
  return tlx_judge_in_flight(judge, &count) == TLX_OK ? count : 0;
}

size_t text_of(const struct tlx_judge *judge, char *text, size_t room) {
  size_t written = SIZE_MAX;
  return tlx_judge_text(judge, text, room, &written) == TLX_OK ? written : SIZE_MAX;
}

/* ---- the calls */

const char SYSTEM[] =
    "slots = 1\n"
    "[[port]]\nkind = \"ram\"\nbase = 0x1000\nlength = 64\nreset = \"0011223344\"\n"
    "[[port]]\nkind = \"ram\"\nbase = 0x2000\nlength = 64\n"
    "[[master]]\nsources = 2\nops = []\n";

static void check_systems(void) {
  struct tlx_system *system = NULL;
  char text[128];
  memset(text, 'a', sizeof text);
  tell("a null system", tlx_system_read(SYSTEM, strlen(SYSTEM), TLX_VERSION, 0, text, sizeof text) == TLX_NULL && !text[0] && text[1] == 'a');
  memset(text, 'a', sizeof text);
  tell("a null file", tlx_system_read(0, 1, TLX_VERSION, &system, text, sizeof text) == TLX_NULL && !text[0] && !system);
  tell("an empty file", tlx_system_read(0, 0, TLX_VERSION, &system, text, sizeof text) == TLX_MISSING && !strcmp(text, "system: missing master"));
  memset(text, 'a', sizeof text);
  tell("no text", tlx_system_read(SYSTEM, strlen(SYSTEM), TLX_VERSION, &system, 0, 9) == TLX_NULL && !system &&
       tlx_system_read("bus = 3", 7, TLX_VERSION, &system, text, 0) == TLX_OUT_OF_RANGE && text[0] == 'a');
  system = (struct tlx_system *)text;
  tell("null after a fault", tlx_system_read("bus = 3", 7, TLX_VERSION, &system, 0, 0) == TLX_OUT_OF_RANGE && !system);
  tell("a system", tlx_system_read(SYSTEM, strlen(SYSTEM), TLX_VERSION, &system, text, sizeof text) == TLX_OK && !text[0]);
  tlx_system_free(system);
  tlx_system_free(0);
}

/* ---- calls that are refused memory */

struct handles {
  struct tlx_system *system;
  struct tlx_model *model, *first;
  struct tlx_judge *judge;
};

typedef uint32_t call(struct handles *handles, const char *file);

static uint32_t read_system(struct handles *handles, const char *file) {
  return tlx_system_read(file, strlen(file), TLX_VERSION, &handles->system, 0, 0);
}

static uint32_t read_with_image(struct handles *handles, const char *file) {
  uint32_t fault = read_system(handles, file);
  return fault == TLX_OK ? tlx_system_image(handles->system, 0, "1234", 4, 0, 0) : fault;
}

static uint32_t make_model(struct handles *handles, const char *file) {
  (void)file;
  return tlx_model_make(handles->system, &handles->model, 0, 0);
}

/* A system, and a model that is cloned. */
static uint32_t make_first(struct handles *handles, const char *file) {
  uint32_t fault = read_system(handles, file);
  return fault == TLX_OK ? tlx_model_make(handles->system, &handles->first, 0, 0) : fault;
}

static uint32_t clone_model(struct handles *handles, const char *file) {
  (void)file;
  return tlx_model_clone(handles->first, &handles->model);
}

static uint32_t read_judge(struct handles *handles, const char *file) {
  return tlx_judge_read(file, strlen(file), TLX_VERSION, TLX_BOTH_LINKS, TLX_ACCEPT_ORDER, TLX_ACCEPT_ORDER, &handles->judge, 0, 0);
}

static uint32_t make_judge(struct handles *handles, const char *file) {
  (void)file;
  return tlx_judge_make(handles->system, TLX_EACH_LINK, TLX_ACCEPT_ORDER, TLX_ACCEPT_ORDER, &handles->judge, 0, 0);
}

/* A judge with a put under way at a master's link, and one in flight at a port's. */
static uint32_t begin_puts(struct handles *handles, const char *file) {
  const struct tlx_beat puts[] = {{.size = 4, .address = 0x1000, .mask = 0xff, .known = 0xff},
                                  {.side = TLX_PORT, .size = 2, .address = 0x1000, .mask = 0x0f, .known = 0x0f}};
  uint32_t fault = tlx_judge_read(file, strlen(file), TLX_VERSION, TLX_EACH_LINK, TLX_ACCEPT_ORDER, TLX_ACCEPT_ORDER, &handles->judge, 0, 0);
  for (int k = 0; k < 2 && fault == TLX_OK; k++) fault = tlx_judge_step(handles->judge, &puts[k]);
  return fault;
}

/* There is nothing but the system that was there before. */
static int are_empty(struct handles *handles, int has_system) {
  return (handles->system != NULL) == has_system && !handles->model && !handles->judge;
}

static void free_all(struct handles *handles) {
  tlx_system_free(handles->system);
  tlx_model_free(handles->model);
  tlx_model_free(handles->first);
  tlx_judge_free(handles->judge);
}

/* The judge of begin_puts goes on as if nothing had been asked of it: its counts, its text and its requests in flight are there. */
static int goes_on(struct tlx_judge *judge) {
  struct tlx_beat reply = {.side = TLX_PORT, .channel = TLX_D, .size = 2}, other = {.size = 3, .address = 0x1000, .mask = 0xff};
  char text[128];
  return requests_of(judge) == 0 && tlx_judge_step(judge, &other) == TLX_FIELD_CHANGED && text_of(judge, text, sizeof text) > 0 &&
         !strcmp(text, "unlawful: line 0, time 0, m0 A: field changed\n") && tlx_judge_end(judge) == TLX_INCOMPLETE &&
         tlx_judge_step(judge, &reply) == TLX_OK && tlx_judge_step(judge, &reply) == TLX_NO_REQUEST;
}

/* Refuses each request of a reset, or of a clone, in turn: the judge is as it was, and nothing else is there. */
static void refuse_on_judge(const char *name, int is_clone) {
  int is_well = 1, was_refused = 1;
  size_t number = 0;
  for (long before = blocks; was_refused; is_well &= blocks == before) {
    struct handles handles = {0};
    struct tlx_judge *clone = NULL;
    is_well &= begin_puts(&handles, RESETS) == TLX_OK;
    long prepared = blocks;
    requests = 0;
    refused = ++number;
    uint32_t fault = is_clone ? tlx_judge_clone(handles.judge, &clone) : tlx_judge_reset(handles.judge);
    was_refused = requests >= number;
    refused = 0;
    is_well &= fault == (was_refused ? TLX_MEMORY : TLX_OK) && (clone != NULL) == (is_clone && !was_refused);
    if (was_refused) is_well &= blocks == prepared;
    if (was_refused || is_clone) is_well &= goes_on(handles.judge);
    if (clone) is_well &= goes_on(clone);
    tlx_judge_free(clone);
    free_all(&handles);
  }
  tell(name, is_well && number > 1);
}

/* Refuses each request of a call in turn: it must say so, make nothing, and give back all that it took. A system that was prepared for it stays, and
 * the call may be made again. A request that gives up room of a block may be refused, and the block stays as it is. */
static void refuse_each(const char *name, call *prepare, call *asked, const char *file) {
  int is_well = 1, was_refused = 1;
  size_t number = 0;
  while (was_refused) {
    struct handles handles = {0};
    long before = blocks, prepared;
    if (prepare) is_well &= prepare(&handles, file) == TLX_OK;
    int has_system = handles.system != NULL;
    prepared = has_system ? blocks : before;
    requests = 0;
    asked_less = 0;
    refused = ++number;
    uint32_t fault = asked(&handles, file);
    was_refused = requests >= number;
    refused = 0;
    is_well &= fault == (was_refused && !asked_less ? TLX_MEMORY : TLX_OK);
    if (fault == TLX_MEMORY) {
      is_well &= blocks == prepared && are_empty(&handles, has_system);
      if (has_system) is_well &= asked(&handles, file) == TLX_OK;
    }
    free_all(&handles);
    is_well &= blocks == before;
  }
  tell(name, is_well && number > 1);
}

/* ---- models that are refused memory: a call on a model answers TLX_MEMORY, has changed nothing, and may be made again */

/* A memory that nobody has written, one that is seen at two places and is unknown, and registers that a reset loads. */
static const char WRITTEN[] =
    "resets = true\n"
    "[[port]]\nkind = \"ram\"\nbase = 0x1000\nlength = 0x10000\n"
    "[[port]]\nkind = \"ram\"\nranges = [[0x200fc, 16], [0x300fc, 16]]\nmirror = true\nunknown = true\n"
    "[[port]]\nkind = \"regs\"\nbase = 0x40000\nlength = 8\nreset = \"a0a1a2a3\"\n"
    "[[master]]\nsources = 1\n";

/* Whether a byte is what it was; -1 is an unknown one. */
static int holds(struct tlx_model *model, uint64_t address, int expected) {
  uint8_t byte = 0;
  uint32_t known = 0;
  return tlx_model_peek(model, address, &byte, &known) == TLX_OK && (known ? byte : -1) == expected;
}

static uint32_t serve_put(struct tlx_model *model, uint64_t address, struct tlx_answer *answer) {
  struct tlx_request put = {.size = 2, .address = address, .bytes = {9, 9, 9, 9}};
  return tlx_model_serve(model, 0, &put, answer);
}

static uint32_t put_apart(struct tlx_model *model, struct tlx_answer *answer) { return serve_put(model, 0x1100, answer); }
static uint32_t put_mirrored(struct tlx_model *model, struct tlx_answer *answer) { return serve_put(model, 0x30100, answer); }
static uint32_t poke_known(struct tlx_model *model, struct tlx_answer *answer) {
  (void)answer;
  return tlx_model_poke(model, 0x1100, 9, 1);
}
static uint32_t poke_unknown(struct tlx_model *model, struct tlx_answer *answer) {
  (void)answer;
  return tlx_model_poke(model, 0x1100, 9, 0);
}
static uint32_t reset_model(struct tlx_model *model, struct tlx_answer *answer) {
  (void)answer;
  return tlx_model_reset(model);
}

/* The calls, each with the byte that it changes, before and after. */
static const struct written {
  const char *name;
  uint32_t (*asked)(struct tlx_model *model, struct tlx_answer *answer);
  uint64_t address;
  int before, after;
} WRITES[] = {
    {"a put that is refused memory", put_apart, 0x1101, 0, 9},
    {"a put to a mirror that is refused memory", put_mirrored, 0x20100, -1, 9},
    {"a known byte that is refused memory", poke_known, 0x1100, 0, 9},
    {"an unknown byte that is refused memory", poke_unknown, 0x1100, 0, -1},
    {"a reset of a model that is refused memory", reset_model, 0x40001, 0x7f, 0xa1},
};

/* A model in which a register has been changed. */
static int make_written(struct handles *handles) {
  return read_system(handles, WRITTEN) == TLX_OK && make_model(handles, WRITTEN) == TLX_OK &&
         tlx_model_poke(handles->model, 0x40001, 0x7f, 1) == TLX_OK;
}

/* Refuses a request of a call on a model; whether there was such a request. */
static int refuse_write(const struct written *write, size_t number, int *is_well) {
  struct handles handles = {0};
  struct tlx_answer answer, before;
  memset(&answer, 0xa5, sizeof answer);
  before = answer;
  *is_well &= make_written(&handles) && holds(handles.model, write->address, write->before);
  requests = 0;
  asked_less = 0;
  refused = number;
  uint32_t fault = write->asked(handles.model, &answer);
  int was_refused = requests >= number;
  refused = 0;
  *is_well &= fault == (was_refused && !asked_less ? TLX_MEMORY : TLX_OK);
  if (fault == TLX_MEMORY) {
    *is_well &= holds(handles.model, write->address, write->before) && !memcmp(&answer, &before, sizeof answer) &&
                holds(handles.model, 0x40001, 0x7f) && write->asked(handles.model, &answer) == TLX_OK;
  }
  *is_well &= holds(handles.model, write->address, write->after);
  /* a put that was refused has not been counted */
  if (memcmp(&answer, &before, sizeof answer)) *is_well &= answer.place == 0;
  free_all(&handles);
  return was_refused;
}

static void refuse_writes(void) {
  for (size_t k = 0; k < sizeof WRITES / sizeof *WRITES; k++) {
    long before = blocks;
    size_t number = 1;
    int is_well = 1;
    while (refuse_write(&WRITES[k], number, &is_well)) number++;
    tell(WRITES[k].name, is_well && number > 1 && blocks == before);
  }
}

/* ---- beats, images and texts that are refused memory */

/* Refuses each request of a call that reads a file with a fault: want of memory is told, or the fault, whose text is left out. */
static void refuse_text(void) {
  struct tlx_system *system = NULL;
  char text[128];
  uint32_t fault = TLX_MEMORY;
  size_t number = 0, without_text = 0;
  int is_well = 1;
  long before = blocks;
  do {
    requests = 0;
    refused = ++number;
    fault = tlx_system_read("bus = 3", 7, TLX_VERSION, &system, text, sizeof text);
    if (fault == TLX_OUT_OF_RANGE && requests >= number) without_text++;
    is_well &= fault == TLX_MEMORY || (fault == TLX_OUT_OF_RANGE && !text[0] == (requests >= number));
  } while (requests >= number);
  refused = 0;
  tell("a fault without memory for its text", is_well && without_text > 0 && number > without_text + 1 && blocks == before);
}

/* The memory for an image is refused: the one before it stays, so that a judge and a model are made of it. */
static void refuse_image(const char *file) {
  struct handles handles = {0};
  long before = blocks;
  int is_well = read_system(&handles, file) == TLX_OK;
  long without = blocks;
  refused = 1;
  requests = 0;
  is_well &= tlx_system_image(handles.system, 0, "12", 2, 0, 0) == TLX_MEMORY && blocks == without;
  refused = 0;
  is_well &= make_judge(&handles, file) == TLX_IMAGE_UNREADABLE && tlx_system_image(handles.system, 0, "12", 2, 0, 0) == TLX_OK;
  refused = 1;
  requests = 0;
  is_well &= tlx_system_image(handles.system, 0, "34", 2, 0, 0) == TLX_MEMORY;
  refused = 0;
  is_well &= make_judge(&handles, file) == TLX_OK && make_model(&handles, file) == TLX_OK && holds(handles.model, 1, '2');
  free_all(&handles);
  tell("an image that is refused memory", is_well && blocks == before);
}

/* Each request for memory of these beats is refused once; `some` says whether there must be any. */
static int steps_refused(struct tlx_judge *judge, const struct tlx_beat *beats, size_t count, int some) {
  int before = wants, is_well = 1;
  for (size_t k = 0; k < count; k++) is_well &= step_refused(judge, &beats[k]) == TLX_OK;
  return is_well && (wants > before) == some;
}

/* A put takes memory for what it writes, and the first beat of a source at a port's link that is judged by itself does. A get of bytes that nobody
 * has written takes none. */
static void refuse_steps(void) {
  const struct tlx_beat put[] = {{.size = 0, .address = 0x2000, .mask = 1, .known = 1, .lanes = {7}}, {.channel = TLX_D}};
  const struct tlx_beat got[] = {{.opcode = 4, .size = 0, .address = 0x2000, .mask = 1}, {.channel = TLX_D, .opcode = 1, .known = 1, .lanes = {7}}};
  const struct tlx_beat none[] = {{.opcode = 4, .size = 0, .address = 0x2001, .mask = 2}, {.channel = TLX_D, .opcode = 1, .known = 2}};
  const struct tlx_beat first = {.side = TLX_PORT, .opcode = 4, .size = 2, .source = 4321, .address = 0x1000, .mask = 0x0f};
  struct tlx_judge *judge = NULL;
  long before = blocks;
  int is_well = tlx_judge_read(SYSTEM, strlen(SYSTEM), TLX_VERSION, TLX_EACH_LINK, TLX_ACCEPT_ORDER, TLX_ACCEPT_ORDER, &judge, 0, 0) == TLX_OK;
  is_well &= steps_refused(judge, none, 2, 0) && steps_refused(judge, put, 2, 1) && steps_refused(judge, got, 2, 0) &&
             steps_refused(judge, &first, 1, 1) && tlx_judge_step(judge, &first) == TLX_SOURCE_IN_FLIGHT;
  is_well &= requests_of(judge) == 3 && answered_of(judge) == 3;
  tlx_judge_free(judge);
  tell("beats that are refused memory", is_well && blocks == before);
}

static void check_memory(const char *file) {
  static const char IMAGE[] = "[[port]]\nname = \"rom\"\nkind = \"rom\"\nbase = 0\nlength = 64\nimage = \"a\"\nreset = \"00\"\n[[master]]\nsources = 3\n";
  refuse_each("a system that is refused memory", NULL, read_system, file);
  refuse_each("a model that is refused memory", read_system, make_model, file);
  refuse_each("a judge that is refused memory", NULL, read_judge, file);
  refuse_each("a file with an image that is refused memory", NULL, read_system, IMAGE);
  refuse_each("a judge with an image that is refused memory", read_with_image, make_judge, IMAGE);
  refuse_each("a model with an image that is refused memory", read_with_image, make_model, IMAGE);
  refuse_each("a model with resets that is refused memory", read_system, make_model, WRITTEN);
  refuse_on_judge("a reset that is refused memory", 0);
  refuse_on_judge("a clone of a judge that is refused memory", 1);
  refuse_each("a clone of a model that is refused memory", make_first, clone_model, WRITTEN);
  refuse_writes();
  refuse_image(IMAGE);
  refuse_text();
  refuse_steps();
}

int main(int count, char **words) {
  static char file[MAX_TEXT];
  char folder[1024];
  check_words();
  check_systems();
  check_models();
  check_files();
  check_images();
  check_judges();
  check_cycles();
  check_arguments();
  check_clones();
  check_longest_line();
  check_buses();
  check_slaves();
  check_resets();
  snprintf(folder, sizeof folder, "%s/captures", count > 1 ? words[1] : "..");
  read_file(folder, "system.toml", file);
  check_captures(folder);
  check_memory(file);
  tell("beats that were refused memory", wants > 0);
  tell("all memory was given back", blocks == 0);
  printf("%d passed, %d failed\n", passed, failed);
  return failed != 0;
}
