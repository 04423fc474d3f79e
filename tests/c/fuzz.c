/* Calls of random order on random handles, for libFuzzer: each byte of the input chooses a call, its handles and its arguments. A handle is null
 * or one that is not freed; numbers are any. The library may answer what it likes, but not end the program: beside that, a call that answers
 * another fault than TLX_OK and TLX_DEVICE leaves what queries tell, and what a call makes is there exactly after TLX_OK. */
#include "tlx.h"

#include <stdlib.h>
#include <string.h>

enum { SLOTS = 3 };

static const char *const FILES[] = {
    "port = [{kind = 'ram', base = 0x1000, length = 64, reset = '00112233', unknown = true}, {kind = 'device', base = 0x2000, length = 16}]\n"
    "master = [{sources = 2}, {sources = 1}]\nresets = true\n",
    "bus = 16\nport = [{kind = 'rom', base = 0x1000, length = 8, image = 'a'}, {kind = 'w1c', base = 0x2000, length = 8, reset = 'ff'}]\n"
    "master = [{sources = 2}]\n",
    "port = [{kind = 'ram', ranges = [[0x1000, 16], [0x2004, 16]], mirror = true, volatile = [[3, 1]]}, {kind = 'rom', base = 0x6000, length = 8,\n"
    "sizes = {get = [0, 1]}}]\nmaster = [{sources = 2}, {sources = 1, reach = [0]}]\n",
    "",
};

/* What is left of an input; zeros after it. */
struct input { const uint8_t *at; size_t left; };

static uint64_t take(struct input *input, size_t bytes) {
  uint64_t value = 0;
  for (; bytes > 0; bytes--) {
    value <<= 8;
    if (input->left > 0) value |= *input->at++, input->left--;
  }
  return value;
}

/* A number that is mostly one with a meaning: below a limit, and else any. */
static uint64_t number(struct input *input, uint64_t below) {
  uint8_t how = (uint8_t)take(input, 1);
  return how < 224 ? how % below : take(input, 8);
}

static uint64_t address(struct input *input) {
  static const uint64_t BASES[] = {0x1000, 0x2000, 0x6000, 0, UINT64_MAX - 8};
  return BASES[take(input, 1) % 5] + take(input, 1) % 80;
}

struct handles {
  struct tlx_system *systems[SLOTS];
  struct tlx_model *models[SLOTS];
  struct tlx_judge *judges[SLOTS];
  char text[64];
};

/* ---- what queries tell of a handle */

struct told { uint64_t counts[3]; uint8_t byte; uint32_t known; char text[128]; };

static struct told told_of_model(const struct tlx_model *model) {
  struct told told;
  memset(&told, 0, sizeof told);
  tlx_model_masters(model, &told.counts[0]);
  tlx_model_ports(model, &told.counts[1]);
  tlx_model_peek(model, 0x1001, &told.byte, &told.known);
  return told;
}

static struct told told_of_judge(const struct tlx_judge *judge, int with_text) {
  struct told told;
  memset(&told, 0, sizeof told);
  tlx_judge_requests(judge, &told.counts[0]);
  tlx_judge_answered(judge, &told.counts[1]);
  tlx_judge_in_flight(judge, &told.counts[2]);
  if (with_text) tlx_judge_text(judge, told.text, sizeof told.text, 0);
  return told;
}

static void want(int is_so) {
  if (!is_so) abort();
}

/* ---- calls */

static void make_system(struct input *input, struct handles *handles, size_t slot) {
  struct tlx_system *made = (struct tlx_system *)handles;
  const char *file = FILES[take(input, 1) % 4];
  size_t length = strlen(file), room = take(input, 1) % sizeof handles->text;
  char changed[512];
  memcpy(changed, file, length);
  if (take(input, 1) > 200 && length > 0) changed[take(input, 2) % length] = (char)take(input, 1);
  uint32_t fault = tlx_system_read(changed, length, take(input, 1) > 250 ? 7 : TLX_VERSION, &made, handles->text, room);
  want((made != NULL) == (fault == TLX_OK));
  tlx_system_free(handles->systems[slot]);
  handles->systems[slot] = made;
}

static void make_model(struct input *input, struct handles *handles, size_t slot) {
  struct tlx_model *made = (struct tlx_model *)handles;
  uint32_t fault = tlx_model_make(handles->systems[take(input, 1) % SLOTS], &made, handles->text, take(input, 1) % sizeof handles->text);
  want((made != NULL) == (fault == TLX_OK));
  tlx_model_free(handles->models[slot]);
  handles->models[slot] = made;
}

static void make_judge(struct input *input, struct handles *handles, size_t slot) {
  struct tlx_judge *made = (struct tlx_judge *)handles;
  uint32_t links = (uint32_t)number(input, 4), masters = (uint32_t)number(input, 3), ports = (uint32_t)number(input, 3), fault;
  const char *file = FILES[take(input, 1) % 4];
  if (take(input, 1) % 2)
    fault = tlx_judge_read(file, strlen(file), TLX_VERSION, links, masters, ports, &made, handles->text, take(input, 1) % sizeof handles->text);
  else
    fault = tlx_judge_make(handles->systems[take(input, 1) % SLOTS], links, masters, ports, &made, 0, 0);
  want((made != NULL) == (fault == TLX_OK));
  tlx_judge_free(handles->judges[slot]);
  handles->judges[slot] = made;
}

static void clone_one(struct input *input, struct handles *handles, size_t slot) {
  struct tlx_model *model = (struct tlx_model *)handles;
  struct tlx_judge *judge = (struct tlx_judge *)handles;
  size_t from = take(input, 1) % SLOTS;
  struct told of_model = told_of_model(handles->models[from]), of_judge = told_of_judge(handles->judges[from], 1);
  uint32_t fault = tlx_model_clone(handles->models[from], &model), second = tlx_judge_clone(handles->judges[from], &judge);
  want((model != NULL) == (fault == TLX_OK) && (judge != NULL) == (second == TLX_OK));
  struct told to_model = told_of_model(model), to_judge = told_of_judge(judge, 1);
  want(!memcmp(&of_model, &to_model, sizeof of_model) && !memcmp(&of_judge, &to_judge, sizeof of_judge));
  tlx_model_free(handles->models[slot]);
  tlx_judge_free(handles->judges[slot]);
  handles->models[slot] = model;
  handles->judges[slot] = judge;
}

static void put_image(struct input *input, struct handles *handles, size_t slot) {
  uint8_t bytes[16];
  size_t length = take(input, 1) % sizeof bytes;
  for (size_t k = 0; k < length; k++) bytes[k] = (uint8_t)take(input, 1);
  tlx_system_image(handles->systems[slot], number(input, 3), length ? bytes : NULL, length, handles->text, take(input, 1) % sizeof handles->text);
}

static void ask_system(struct input *input, struct handles *handles, size_t slot) {
  uint64_t ports = 0;
  size_t written = 0, room = take(input, 1) % sizeof handles->text;
  tlx_system_ports(handles->systems[slot], &ports);
  tlx_system_image_name(handles->systems[slot], number(input, 3), handles->text, room, &written);
  want(room ? written < room : written == 0);
}

static void serve(struct input *input, struct handles *handles, size_t slot) {
  struct tlx_request request;
  struct tlx_answer answer, before;
  memset(&request, (int)take(input, 1), sizeof request);
  memset(&answer, 0xa5, sizeof answer);
  before = answer;
  request.opcode = (uint8_t)number(input, 6);
  request.param = (uint8_t)number(input, 5);
  request.size = (uint8_t)number(input, 9);
  request.source = (uint16_t)number(input, 2);
  request.address = address(input);
  struct told told = told_of_model(handles->models[slot]);
  uint32_t fault = tlx_model_serve(handles->models[slot], number(input, 2), &request, &answer);
  if (fault == TLX_OK || fault == TLX_DEVICE) {
    want(answer.count <= TLX_ROOM && answer.denied <= 1);
    return;
  }
  struct told after = told_of_model(handles->models[slot]);
  want(!memcmp(&answer, &before, sizeof answer) && !memcmp(&told, &after, sizeof told));
}

static void poke(struct input *input, struct handles *handles, size_t slot) {
  struct told told = told_of_model(handles->models[slot]);
  uint32_t fault = tlx_model_poke(handles->models[slot], address(input), (uint8_t)take(input, 1), (uint32_t)number(input, 2));
  struct told after = told_of_model(handles->models[slot]);
  want(fault == TLX_OK || !memcmp(&told, &after, sizeof told));
}

static void reset_model(struct input *input, struct handles *handles, size_t slot) {
  (void)input;
  tlx_model_reset(handles->models[slot]);
}

static struct tlx_beat beat_of(struct input *input) {
  struct tlx_beat beat;
  memset(&beat, (int)take(input, 1), sizeof beat);
  beat.side = (uint8_t)number(input, 2);
  beat.channel = (uint8_t)number(input, 2);
  beat.number = number(input, 3);
  beat.opcode = (uint8_t)number(input, 6);
  beat.param = (uint8_t)number(input, 2);
  beat.size = (uint8_t)number(input, 4);
  beat.source = (uint16_t)number(input, 3);
  beat.address = address(input);
  beat.mask = take(input, 1);
  beat.known = take(input, 1) % 4 ? UINT64_MAX : take(input, 1);
  beat.denied = (uint8_t)number(input, 2);
  beat.corrupt = (uint8_t)number(input, 2);
  return beat;
}

static void step(struct input *input, struct handles *handles, size_t slot) {
  struct tlx_beat beat = beat_of(input);
  struct told told = told_of_judge(handles->judges[slot], 0);
  uint32_t fault = tlx_judge_step(handles->judges[slot], &beat);
  struct told after = told_of_judge(handles->judges[slot], 0);
  want(fault == TLX_OK || !memcmp(&told, &after, sizeof told));
}

static void judge_many(struct input *input, struct handles *handles, size_t slot) {
  struct tlx_beat beats[80];
  size_t count = take(input, 1) % 81, at = 99, lawful = take(input, 1) % 2;
  for (size_t k = 0; k < count; k++) beats[k] = beat_of(input);
  uint32_t fault = (lawful ? tlx_judge_cycle : tlx_judge_steps)(handles->judges[slot], count ? beats : NULL, count, &at);
  want(fault == TLX_NULL || (fault == TLX_OK ? at == count : at < count));
}

static void end_judge(struct input *input, struct handles *handles, size_t slot) {
  struct told told = told_of_judge(handles->judges[slot], 1);
  uint32_t fault = take(input, 1) % 2 ? tlx_judge_end(handles->judges[slot]) : tlx_judge_reset(handles->judges[slot]);
  struct told after = told_of_judge(handles->judges[slot], fault != TLX_INCOMPLETE);
  if (fault == TLX_INCOMPLETE) memset(told.text, 0, sizeof told.text);
  want(!memcmp(&told, &after, sizeof told));
}

static void free_one(struct input *input, struct handles *handles, size_t slot) {
  uint8_t which = (uint8_t)take(input, 1) % 3;
  if (which == 0) tlx_system_free(handles->systems[slot]), handles->systems[slot] = NULL;
  if (which == 1) tlx_model_free(handles->models[slot]), handles->models[slot] = NULL;
  if (which == 2) tlx_judge_free(handles->judges[slot]), handles->judges[slot] = NULL;
}

int LLVMFuzzerTestOneInput(const uint8_t *data, size_t size);

int LLVMFuzzerTestOneInput(const uint8_t *data, size_t size) {
  static void (*const CALLS[])(struct input *, struct handles *, size_t) = {make_system, make_model, make_judge, clone_one, put_image, ask_system, serve,
                                                                            poke, reset_model, step, step, judge_many, end_judge, free_one};
  struct input input = {data, size};
  struct handles handles;
  memset(&handles, 0, sizeof handles);
  while (input.left > 0) {
    uint64_t call = take(&input, 1);
    CALLS[call % (sizeof CALLS / sizeof *CALLS)](&input, &handles, call / 16 % SLOTS);
  }
  for (size_t slot = 0; slot < SLOTS; slot++) {
    tlx_system_free(handles.systems[slot]);
    tlx_model_free(handles.models[slot]);
    tlx_judge_free(handles.judges[slot]);
  }
  return 0;
}
