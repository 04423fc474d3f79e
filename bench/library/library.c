/* Prints how many nanoseconds the library takes to judge a beat, and to serve a request: `library SYSTEM BEATS ROUNDS`, where BEATS has
 * structs of tlx.h one after another. The requests are those of bench/serve. */
#include <stdio.h>
#include <stdlib.h>
#include <string.h>
#include <time.h>
#include <tlx.h>

#define TURNS 1000000

static double now(void) {
  struct timespec t;
  clock_gettime(CLOCK_MONOTONIC, &t);
  return 1e9 * t.tv_sec + t.tv_nsec;
}

static void *whole(const char *path, size_t *length) {
  FILE *file = fopen(path, "rb");
  if (!file || fseek(file, 0, SEEK_END)) exit(1);
  *length = ftell(file);
  rewind(file);
  void *bytes = malloc(*length + 1);
  if (fread(bytes, 1, *length, file) != *length) exit(1);
  fclose(file);
  return bytes;
}

static void judge(const char *script, size_t length, const struct tlx_beat *beats, size_t count) {
  struct tlx_judge *judge = NULL;
  if (tlx_judge_read(script, length, TLX_VERSION, TLX_BOTH_LINKS, TLX_ACCEPT_ORDER, TLX_ACCEPT_ORDER, &judge, NULL, 0)) exit(1);
  double start = now();
  for (size_t k = 0; k < count; k++)
    if (tlx_judge_step(judge, &beats[k])) exit(1);
  double took = (now() - start) / count;
  uint64_t answered;
  tlx_judge_answered(judge, &answered);
  printf("judge library - %.1f %llu\n", took, (unsigned long long)answered);
  tlx_judge_free(judge);
}

static void serve(const char *name, int opcode, int param, int size, int holes) {
  static const char file[] = "[[port]]\nkind = \"ram\"\nbase = 0x1000\nlength = 1024\n[[master]]\nsources = 4\n";
  struct tlx_system *system = NULL;
  struct tlx_model *model = NULL;
  struct tlx_request asks[2] = {{.address = 0x1000, .source = 1}, {.address = 0x1100, .source = 2}};
  struct tlx_answer answer;
  unsigned long long seen = 0;
  for (int which = 0; which < 2; which++) {
    asks[which].opcode = opcode, asks[which].param = param, asks[which].size = size;
    memset(asks[which].bytes, 7, sizeof asks[which].bytes);
    for (size_t k = 0; k < sizeof asks[which].set; k++) asks[which].set[k] = !holes || k % 2 == 0;
  }
  if (tlx_system_read(file, sizeof file - 1, TLX_VERSION, &system, NULL, 0) || tlx_model_make(system, &model, NULL, 0)) exit(1);
  tlx_system_free(system);
  double start = now();
  for (int turn = 0; turn < TURNS; turn++)
    for (int which = 0; which < 2; which++) {
      if (tlx_model_serve(model, 0, &asks[which], &answer)) exit(1);
      seen += answer.count;
    }
  printf("%s library %d %.1f %llu\n", name, size, (now() - start) / TURNS / 2, seen);
  tlx_model_free(model);
}

int main(int argc, char **argv) {
  if (argc != 4) return 2;
  size_t length, bytes;
  char *script = whole(argv[1], &length);
  struct tlx_beat *beats = whole(argv[2], &bytes);
  static const int sizes[] = {0, 2, 3, 6, 7, 8};
  for (int round = 0; round < atoi(argv[3]); round++) {
    judge(script, length, beats, bytes / sizeof *beats);
    for (int k = 0; k < 6; k++) {
      serve("get", 4, 0, sizes[k], 0);
      serve("put", 0, 0, sizes[k], 0);
      serve("holes", 1, 0, sizes[k], 1);
    }
    for (int size = 2; size <= 3; size++) {
      serve("add", 2, 4, size, 0);
      serve("min", 2, 0, size, 0);
      serve("xor", 3, 0, size, 0);
    }
  }
  free(script);
  free(beats);
}
