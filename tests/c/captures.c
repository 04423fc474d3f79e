/* Judges the captures of a folder by calls: each must have its verdict, also if each request for memory is refused once. Those with a limit of
 * time are left out, since calls have none. */
#include "check.h"

#include <dirent.h>
#include <inttypes.h>
#include <stdio.h>
#include <stdlib.h>
#include <string.h>

#define MAX_ROWS 256

/* that of the C library, for what the library of tlx has not taken */
void __real_free(void *old);

struct row {
  struct tlx_beat beat;
  int place;
};

/* Where a row stands among those of its time: A of the masters' links, A of the ports', D of the ports', D of the masters'. */
static int place_of(const struct tlx_beat *beat) {
  int turn = beat->channel == TLX_A ? (beat->side == TLX_MASTER ? 0 : 1) : (beat->side == TLX_PORT ? 2 : 3);
  return 1024 * turn + (int)beat->number;
}

static int digit_of(char c) {
  if (c >= '0' && c <= '9') return c - '0';
  if (c >= 'a' && c <= 'f') return c - 'a' + 10;
  if (c >= 'A' && c <= 'F') return c - 'A' + 10;
  return -1;
}

/* The lanes that a word shows by two digits each, lane 0 last; a lane with an x is not known. No digits are known zeros. */
static void read_lanes(const char *word, struct tlx_beat *beat) {
  size_t lanes = strlen(word) / 2;
  beat->known = UINT64_MAX;
  if (lanes > TLX_LANES) return;
  for (size_t lane = 0; lane < lanes; lane++) {
    int high = digit_of(word[2 * (lanes - 1 - lane)]), low = digit_of(word[2 * (lanes - 1 - lane) + 1]);
    if (high < 0 || low < 0)
      beat->known &= ~(UINT64_C(1) << lane);
    else
      beat->lanes[lane] = (uint8_t)(16 * high + low);
  }
}

/* The fields of a line, without their quotes; the line is cut up. */
static int split(char *line, char *fields[12]) {
  int count = 0;
  char *to = line;
  fields[count++] = to;
  for (char *from = line; *from; from++) {
    if (*from == '"') continue;
    if (*from == ',' && count < 12) {
      *to++ = 0;
      fields[count++] = to;
    } else {
      *to++ = *from;
    }
  }
  *to = 0;
  return count;
}

static void read_row(char *fields[12], uint64_t line, struct row *row) {
  struct tlx_beat *beat = &row->beat;
  memset(row, 0, sizeof *row);
  beat->line = line;
  beat->time = strtoull(fields[0], 0, 10);
  beat->side = fields[1][0] == 'm' ? TLX_MASTER : TLX_PORT;
  beat->number = strtoull(fields[1] + 1, 0, 10);
  beat->channel = fields[2][0] == 'A' ? TLX_A : TLX_D;
  beat->opcode = (uint8_t)strtoul(fields[3], 0, 10);
  beat->param = (uint8_t)strtoul(fields[4], 0, 10);
  beat->size = (uint8_t)strtoul(fields[5], 0, 10);
  beat->source = (uint16_t)strtoul(fields[6], 0, 10);
  beat->address = strtoull(fields[7], 0, 16);
  beat->mask = strtoull(fields[8], 0, 16);
  read_lanes(fields[9], beat);
  beat->denied = (uint8_t)strtoul(fields[10], 0, 10);
  /* an empty flag is the one that the message must have: of a denied AccessAckData 1 */
  beat->corrupt = (uint8_t)(*fields[11] ? strtoul(fields[11], 0, 10) : beat->channel == TLX_D && beat->denied && beat->opcode == 1);
  row->place = place_of(beat);
}

static int compare(const void *one, const void *other) {
  const struct row *a = one, *b = other;
  if (a->beat.time != b->beat.time) return a->beat.time < b->beat.time ? -1 : 1;
  return a->place - b->place;
}

static size_t read_rows(char *text, struct row *rows) {
  size_t count = 0;
  uint64_t line = 0;
  for (char *at = text; at && *at;) {
    char *next = strchr(at, '\n'), *fields[12];
    if (next) *next++ = 0;
    line++;
    if (line > 1 && *at && split(at, fields) == 12) read_row(fields, line, &rows[count++]);
    at = next;
  }
  qsort(rows, count, sizeof *rows, compare);
  return count;
}

static uint64_t met; /* the faults of a beat that a capture had: a bit each, by its number */

/* The line of a beat's fault has the words of that fault, after the channel; unknown data is another fault on each channel. */
static int has_words(const char *line, const struct tlx_beat *beat, uint32_t fault) {
  char words[128];
  int is_request = beat->channel == TLX_A;
  snprintf(words, sizeof words, " %c: %s", is_request ? 'A' : 'D', words_of((enum tlx_fault)fault));
  met |= UINT64_C(1) << fault;
  return strstr(line, words) && fault != (is_request ? TLX_UNKNOWN_DATA : TLX_UNKNOWN_LANES);
}

typedef uint32_t judging(struct tlx_judge *judge, const struct tlx_beat *beat);

static uint32_t step(struct tlx_judge *judge, const struct tlx_beat *beat) { return tlx_judge_step(judge, beat); }

/* What a capture is judged by. */
struct asked {
  uint8_t links, masters, ports;
  int complete;
};

/* The verdict over rows that cross in this order, as tlcheck prints it. */
static void judge_rows(struct tlx_judge *judge, judging *judges, const struct row *rows, size_t count, const struct asked *asked, char *verdict,
                       size_t room) {
  uint8_t links = asked->links;
  for (size_t k = 0; k < count; k++) {
    const struct tlx_beat *beat = &rows[k].beat;
    int watched = links == TLX_BOTH_LINKS || links == TLX_EACH_LINK || (links == TLX_MASTER_LINKS) == (beat->side == TLX_MASTER);
    uint32_t fault = watched ? judges(judge, beat) : TLX_OK;
    if (fault != TLX_OK) {
      text_of(judge, verdict, room);
      if (!has_words(verdict, beat, fault)) verdict[0] = 0;
      return;
    }
  }
  if (asked->complete && tlx_judge_end(judge) == TLX_INCOMPLETE) {
    text_of(judge, verdict, room);
    return;
  }
  snprintf(verdict, room, "lawful: %zu rows, %" PRIu64 " requests, %" PRIu64 " answered\n", count, requests_of(judge),
           answered_of(judge));
}

/* Hands in the images of a system, which lie in a folder. */
static int hand_in(struct tlx_system *system, const char *folder) {
  static char bytes[MAX_TEXT];
  char name[512];
  int is_well = 1;
  for (uint64_t port = 0; port < system_ports_of(system); port++)
    if (image_name_of(system, port, name, sizeof name))
      is_well &= tlx_system_image(system, port, bytes, read_file(folder, name, bytes), 0, 0) == TLX_OK;
  return is_well;
}

/* The system file of a capture: its own, that of all captures whose names begin with its first word, or that of all captures beside it. */
static size_t read_system_file(const char *folder, const char *name, char *file) {
  const size_t fronts[] = {strlen(name), strcspn(name, "_")};
  for (int k = 0; k < 2; k++) {
    char path[512];
    snprintf(path, sizeof path, "%.*s.toml", (int)fronts[k], name);
    size_t length = read_file(folder, path, file);
    if (length) return length;
  }
  return read_file(folder, "system.toml", file);
}

/* The order that a text begins with. */
static uint8_t order_of(const char *text) {
  return !strncmp(text, "reply", 5) ? TLX_REPLY_ORDER : !strncmp(text, "any", 3) ? TLX_ANY_ORDER : TLX_ACCEPT_ORDER;
}

/* What the words beside a capture ask for. Of two orders the second, behind a slash, is the ports' side's. */
static struct asked read_words(const char *folder, const char *name) {
  static char words[MAX_TEXT];
  char path[512];
  snprintf(path, sizeof path, "%s.args", name);
  if (!read_file(folder, path, words)) words[0] = 0;
  const char *option = strstr(words, "--order ");
  const char *order = option ? option + 8 : "";
  const char *slash = strchr(order, '/');
  return (struct asked){
      .links = strstr(words, "masters") ? TLX_MASTER_LINKS : strstr(words, "ports") ? TLX_PORT_LINKS :
               strstr(words, "each") ? TLX_EACH_LINK : TLX_BOTH_LINKS,
      .masters = order_of(order),
      .ports = order_of(slash ? slash + 1 : order),
      .complete = strstr(words, "--complete") != NULL,
  };
}

/* Judges rows at the system of a capture, and compares the verdict. */
static void check_rows(const char *folder, const char *name, judging *judges, const struct row *rows, size_t count, const char *expected) {
  static char file[MAX_TEXT];
  char verdict[2048] = "";
  struct tlx_system *system = NULL;
  struct tlx_judge *judge = NULL;
  struct asked asked = read_words(folder, name);
  size_t length = read_system_file(folder, name, file);
  int made = tlx_system_read(file, length, TLX_VERSION, &system, 0, 0) == TLX_OK && hand_in(system, folder) &&
             tlx_judge_make(system, asked.links, asked.masters, asked.ports, &judge, 0, 0) == TLX_OK;
  judge_rows(judge, judges, rows, count, &asked, verdict, sizeof verdict);
  tell(name, made && !strcmp(verdict, expected));
  if (strcmp(verdict, expected)) fprintf(stderr, "  %s  %s", verdict, expected);
  tlx_system_free(system);
  tlx_judge_free(judge);
}

static void check_capture(const char *folder, const char *name) {
  static char text[MAX_TEXT], expected[MAX_TEXT];
  static struct row rows[MAX_ROWS];
  char path[512], *last = expected;
  snprintf(path, sizeof path, "%s.verdict", name);
  read_file(folder, path, expected);
  for (char *at = expected; (at = strchr(at, '\n')) && at[1];) last = ++at;
  if (!strncmp(last, "capture:", 8)) return; /* of the text of a capture, which is no beat */
  snprintf(path, sizeof path, "%s.args", name);
  if (read_file(folder, path, text) && strstr(text, "--within")) return;
  snprintf(path, sizeof path, "%s.csv", name);
  read_file(folder, path, text);
  size_t count = read_rows(text, rows);
  check_rows(folder, name, step, rows, count, last);
  check_rows(folder, name, step_refused, rows, count, last);
}

void check_captures(const char *folder) {
  struct dirent **names;
  int count = scandir(folder, &names, 0, alphasort);
  for (int k = 0; k < count; k++) {
    char *end = strstr(names[k]->d_name, ".verdict");
    if (end) {
      *end = 0;
      check_capture(folder, names[k]->d_name);
    }
    __real_free(names[k]);
  }
  if (count >= 0) __real_free(names);
  uint64_t all = ((UINT64_C(1) << (TLX_WRONG_REPLY + 1)) - (UINT64_C(1) << TLX_FIELD_CHANGED)) | UINT64_C(1) << TLX_OUT_OF_ORDER;
  tell("each fault of a beat", met == all);
}
