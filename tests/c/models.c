/* The calls of models. What each request is answered was worked out by hand from docs/reference/formats.md and docs/reference/keys.md. */
#include "check.h"

#include <stdio.h>
#include <string.h>

/* ---- requests and answers in words */

static int nibble_of(char c) { return c <= '9' ? c - '0' : c - 'a' + 10; }

/* The bytes of a request, two digits each; `--` is one that is left unset. */
static void give_bytes(struct tlx_request *ask, const char *given) {
  for (size_t k = 0; given[2 * k]; k++) {
    ask->set[k] = given[2 * k] != '-';
    ask->bytes[k] = (uint8_t)(ask->set[k] ? 16 * nibble_of(given[2 * k]) + nibble_of(given[2 * k + 1]) : 0xee);
  }
}

/* Bytes as they are known: `xx` is an unknown one, which must be zero. The flags are 0 and 1. */
static char *spell_bytes(char *text, const struct tlx_answer *answer) {
  for (uint64_t k = 0; k < answer->count; k++) {
    int is_well = answer->known[k] == 1 || (answer->known[k] == 0 && answer->bytes[k] == 0);
    text += !is_well ? sprintf(text, "??") : answer->known[k] ? sprintf(text, "%02x", answer->bytes[k]) : sprintf(text, "xx");
  }
  return text;
}

/* What a call answered, in the words of a trace: `AccessAckData denied 0000 p2 #1`, `device` after that of a device, or the words of a fault. */
static void spell(char *text, uint32_t fault, const struct tlx_request *ask, const struct tlx_answer *answer) {
  static const char *const REPLIES[] = {"AccessAck", "AccessAckData", "HintAck"};
  if (fault != TLX_OK && fault != TLX_DEVICE) {
    strcpy(text, words_of((enum tlx_fault)fault));
    return;
  }
  int echoes = answer->source == ask->source && answer->size == ask->size && answer->opcode < 3 && answer->denied < 2;
  text += sprintf(text, "%s%s%s", echoes ? REPLIES[answer->opcode] : "other fields", answer->denied ? " denied" : "", answer->count ? " " : "");
  text = spell_bytes(text, answer);
  sprintf(text, " p%d #%d%s", (int)answer->port, (int)answer->place, fault == TLX_DEVICE ? " device" : "");
}

/* A call and what it is answered: of `peek` the bytes from an address on, `xx` for an unknown one, `no` for none and `**` for a device's; of
 * `poke` the words of its fault, and given no bytes it puts an unknown one. */
enum word { GET, PUTFULL, PUTPART, ADD, MIN, XOR, SWAP, PREFETCH, PEEK, POKE, RESET };
struct row {
  enum word word;
  uint8_t size;
  uint64_t address;
  const char *given, *answer;
};

static const struct { uint8_t opcode, param; } CODES[] = {{4, 0}, {0, 0}, {1, 0}, {2, 4}, {2, 0}, {3, 0}, {3, 3}, {5, 0}};

static void peek_bytes(struct tlx_model *model, const struct row *row, char *text) {
  *text = 0;
  for (size_t k = 0; k < strlen(row->answer) / 2; k++) {
    uint8_t byte = 0x5a;
    uint32_t known = 0x5a;
    uint32_t fault = tlx_model_peek(model, row->address + k, &byte, &known);
    int is_quiet = byte == 0x5a && known == 0x5a;
    if (fault == TLX_OK && known < 2 && (known || !byte))
      text += known ? sprintf(text, "%02x", byte) : sprintf(text, "xx");
    else
      text += sprintf(text, "%s", !is_quiet ? "??" : fault == TLX_NO_BYTE ? "no" : fault == TLX_DEVICE ? "**" : "??");
  }
}

/* A request, and that nothing is written behind the bytes of its answer. */
static void serve_row(struct tlx_model *model, uint64_t master, const struct row *row, char *text) {
  struct tlx_request ask = {.opcode = CODES[row->word].opcode, .param = CODES[row->word].param, .size = row->size, .address = row->address, .source = 1};
  struct tlx_answer answer, before;
  memset(&answer, 0xa5, sizeof answer);
  before = answer;
  if (row->given) give_bytes(&ask, row->given);
  uint32_t fault = tlx_model_serve(model, master, &ask, &answer);
  spell(text, fault, &ask, &answer);
  size_t count = fault == TLX_OK || fault == TLX_DEVICE ? answer.count : 0;
  if (memcmp(answer.bytes + count, before.bytes + count, TLX_ROOM - count) || memcmp(answer.known + count, before.known + count, TLX_ROOM - count))
    strcpy(text, "bytes behind the count");
}

static void answer_row(struct tlx_model *model, uint64_t master, const struct row *row, char *text) {
  struct tlx_request bytes = {0};
  if (row->word == PEEK) {
    peek_bytes(model, row, text);
  } else if (row->word == POKE) {
    if (row->given) give_bytes(&bytes, row->given);
    strcpy(text, words_of((enum tlx_fault)tlx_model_poke(model, row->address, row->given ? bytes.bytes[0] : 0xee, row->given != NULL)));
  } else if (row->word == RESET) {
    strcpy(text, words_of((enum tlx_fault)tlx_model_reset(model)));
  } else {
    serve_row(model, master, row, text);
  }
}

/* Whether each row is answered so, in turn. */
static int are_answered(const char *name, struct tlx_model *model, uint64_t master, const struct row *rows, size_t count) {
  char text[2048];
  int is_well = 1;
  for (size_t k = 0; k < count; k++) {
    answer_row(model, master, &rows[k], text);
    if (!strcmp(text, rows[k].answer)) continue;
    fprintf(stderr, "tests/c: %s, row %zu: %s, and not %s\n", name, k, text, rows[k].answer);
    is_well = 0;
  }
  return is_well;
}

static uint32_t make_of(struct tlx_model **model, const char *file) {
  struct tlx_system *system = NULL;
  uint32_t fault = tlx_system_read(file, strlen(file), TLX_VERSION, &system, 0, 0);
  if (fault == TLX_OK) fault = tlx_model_make(system, model, 0, 0);
  tlx_system_free(system);
  return fault;
}

static void check_rows(const char *name, const char *file, const struct row *rows, size_t count) {
  struct tlx_model *model = NULL;
  tell(name, make_of(&model, file) == TLX_OK && are_answered(name, model, 0, rows, count));
  tlx_model_free(model);
}

#define CHECK(name, file, ...) \
  do { \
    static const struct row ROWS[] = {__VA_ARGS__}; \
    check_rows(name, file, ROWS, sizeof ROWS / sizeof *ROWS); \
  } while (0)

#define HOST "[[master]]\nsources = 2\n"
#define PORT(kind, base, length) "[[port]]\nkind = \"" kind "\"\nbase = " base "\nlength = " length "\n"

/* ---- bytes that are known or unknown */

static void check_unknown(void) {
  CHECK("a memory that nobody cleared", PORT("ram", "0x1000", "64") "unknown = true\nreset = \"a0a1a2\"\n" HOST,
        {GET, 2, 0x1000, 0, "AccessAckData a0a1a2xx p0 #0"}, {PUTFULL, 0, 0x1003, "b3", "AccessAck p0 #1"},
        {GET, 2, 0x1000, 0, "AccessAckData a0a1a2b3 p0 #2"}, {PUTPART, 2, 0x1004, "11--33--", "AccessAck p0 #3"},
        {GET, 3, 0x1000, 0, "AccessAckData a0a1a2b311xx33xx p0 #4"}, {PREFETCH, 2, 0x1004, 0, "HintAck p0 #5"},
        {PEEK, 0, 0x1000, 0, "a0a1a2b311xx33xxxx"}, {GET, 3, 0x1004, 0, "AccessAckData denied 0000000000000000 p0 #6"});
  CHECK("an atomic over unknown bytes", PORT("ram", "0x1000", "64") "unknown = true\n" HOST,
        {PUTPART, 2, 0x1004, "11--33--", "AccessAck p0 #0"}, {ADD, 2, 0x1004, "01000000", "AccessAckData 11xx33xx p0 #1"},
        {GET, 2, 0x1004, 0, "AccessAckData xxxxxxxx p0 #2"}, {SWAP, 2, 0x1004, "01020304", "AccessAckData xxxxxxxx p0 #3"},
        {ADD, 2, 0x1004, "ff000000", "AccessAckData 01020304 p0 #4"}, {GET, 2, 0x1004, 0, "AccessAckData 00030304 p0 #5"},
        {XOR, 3, 0x1000, "0000000000000000", "AccessAckData xxxxxxxx00030304 p0 #6"}, {GET, 3, 0x1000, 0, "AccessAckData xxxxxxxxxxxxxxxx p0 #7"},
        {ADD, 1, 0x1000, "0100", "AccessAckData denied 0000 p0 #8"});
  CHECK("bytes that change by themselves", PORT("ram", "0x1000", "16") "reset = \"0102030405060708\"\nvolatile = [[2, 2]]\n" HOST,
        {GET, 2, 0x1000, 0, "AccessAckData 0102xxxx p0 #0"}, {PUTFULL, 2, 0x1000, "aabbccdd", "AccessAck p0 #1"},
        {GET, 2, 0x1000, 0, "AccessAckData aabbxxxx p0 #2"}, {ADD, 2, 0x1004, "01000000", "AccessAckData 05060708 p0 #3"},
        {ADD, 2, 0x1000, "01000000", "AccessAckData aabbxxxx p0 #4"}, {GET, 3, 0x1000, 0, "AccessAckData xxxxxxxx06060708 p0 #5"},
        {SWAP, 2, 0x1000, "01020304", "AccessAckData xxxxxxxx p0 #6"}, {PEEK, 0, 0x1000, 0, "0102xxxx06"}, {POKE, 0, 0x1002, "77", "no fault"},
        {PEEK, 0, 0x1001, 0, "02xxxx06"});
}

static void check_registers(void) {
  CHECK("registers that are cleared by ones", PORT("w1c", "0x1000", "8") "unknown = true\nreset = \"ff0f\"\n" HOST,
        {GET, 2, 0x1000, 0, "AccessAckData ff0fxxxx p0 #0"}, {PUTFULL, 2, 0x1000, "0f0100ff", "AccessAck p0 #1"},
        {GET, 2, 0x1000, 0, "AccessAckData f00exx00 p0 #2"}, {PUTPART, 2, 0x1000, "ffffffff", "AccessAck denied p0 #3"},
        {GET, 0, 0x1000, 0, "AccessAckData denied 00 p0 #4"}, {PREFETCH, 2, 0x1000, 0, "HintAck denied p0 #5"},
        {POKE, 0, 0x1000, "3c", "no fault"}, {PEEK, 0, 0x1000, 0, "3c0exx00xxxxxxxxno"}, {GET, 3, 0x1000, 0, "AccessAckData 3c0exx00xxxxxxxx p0 #6"});
  CHECK("a device", PORT("device", "0x1000", "8") "sizes = { get = [3, 3] }\nreset = \"aa\"\n" HOST, {GET, 2, 0x1000, 0, "AccessAckData xxxxxxxx p0 #0 device"},
        {PUTFULL, 2, 0x1000, "01020304", "AccessAck p0 #1 device"}, {PREFETCH, 2, 0x1000, 0, "HintAck p0 #2 device"},
        {SWAP, 0, 0x1001, "01", "AccessAckData xx p0 #3 device"}, {GET, 2, 0x1002, 0, "AccessAckData xxxxxxxx p0 #4 device"},
        {PEEK, 0, 0x1006, 0, "****no"}, {POKE, 0, 0x1006, "01", "a device"}, {POKE, 0, 0x1006, 0, "a device"}, {POKE, 0, 0x1008, "01", "no byte at this address"},
        {GET, 4, 0x1000, 0, "AccessAckData denied 00000000000000000000000000000000 p1 #0"}, {GET, 3, 0x1000, 0, "AccessAckData xxxxxxxxxxxxxxxx p0 #5 device"});
}

/* ---- where requests go, and what is served there */

static void check_sizes(void) {
  CHECK("a table of sizes", PORT("ram", "0x1000", "64") "sizes = { get = [0, 3], putfull = [2, 2], arithmetic = [0, 4] }\n" HOST,
        {PUTFULL, 2, 0x1010, "ffffffff", "AccessAck p0 #0"}, {PUTFULL, 2, 0x1014, "ffffffff", "AccessAck p0 #1"},
        {PUTFULL, 3, 0x1010, "0000000000000000", "AccessAck denied p0 #2"}, {PUTPART, 2, 0x1010, "00000000", "AccessAck denied p0 #3"},
        {GET, 4, 0x1010, 0, "AccessAckData denied 00000000000000000000000000000000 p0 #4"},
        {ADD, 4, 0x1010, "01000000000000000000000000000000", "AccessAckData ffffffffffffffff0000000000000000 p0 #5"},
        {GET, 3, 0x1010, 0, "AccessAckData 0000000000000000 p0 #6"}, {GET, 3, 0x1018, 0, "AccessAckData 0100000000000000 p0 #7"},
        {MIN, 0, 0x1018, "80", "AccessAckData 01 p0 #8"}, {PEEK, 0, 0x1017, 0, "0080"}, {SWAP, 2, 0x1018, "00000000", "AccessAckData denied 00000000 p0 #9"},
        {PREFETCH, 0, 0x1018, 0, "HintAck denied p0 #10"}, {PEEK, 0, 0x1018, 0, "8000"});
}

static void check_ranges(void) {
  CHECK("a memory of two ranges", "[[port]]\nkind = \"ram\"\nranges = [[0x4000, 16], [0x8000, 16]]\n" HOST, {PUTFULL, 0, 0x4000, "01", "AccessAck p0 #0"},
        {PUTFULL, 0, 0x800f, "02", "AccessAck p0 #1"}, {PEEK, 0, 0x4000, 0, "0100"}, {PEEK, 0, 0x800e, 0, "0002no"}, {PEEK, 0, 0x400f, 0, "00no"},
        {GET, 0, 0x4010, 0, "AccessAckData denied 00 p1 #0"});
  CHECK("a memory that is seen at two ranges", "[[port]]\nkind = \"ram\"\nranges = [[0x5000, 16], [0x9004, 16]]\nmirror = true\nreset = \"c0c1c2c3c4\"\n" HOST,
        {GET, 2, 0x9004, 0, "AccessAckData c0c1c2c3 p0 #0"}, {PUTFULL, 0, 0x9005, "dd", "AccessAck p0 #1"}, {GET, 1, 0x5000, 0, "AccessAckData c0dd p0 #2"},
        {GET, 3, 0x9004, 0, "AccessAckData denied 0000000000000000 p0 #3"}, {GET, 3, 0x9008, 0, "AccessAckData c400000000000000 p0 #4"},
        {ADD, 2, 0x9004, "01000000", "AccessAckData c0ddc2c3 p0 #5"}, {PEEK, 0, 0x5000, 0, "c1ddc2c3c4"}, {POKE, 0, 0x500f, "ee", "no fault"},
        {PEEK, 0, 0x9013, 0, "eeno"}, {POKE, 0, 0x9006, 0, "no fault"}, {GET, 2, 0x5000, 0, "AccessAckData c1ddxxc3 p0 #6"});
  CHECK("ports beside one another", PORT("ram", "0x1000", "4") PORT("rom", "0x1004", "4") "reset = \"01020304\"\n" HOST,
        {GET, 2, 0x1004, 0, "AccessAckData 01020304 p1 #0"}, {GET, 3, 0x1000, 0, "AccessAckData denied 0000000000000000 p2 #0"},
        {PUTFULL, 2, 0x1004, "00000000", "AccessAck denied p1 #1"}, {POKE, 0, 0x1005, "99", "no fault"}, {PEEK, 0, 0x1003, 0, "000199"},
        {POKE, 0, 0x1006, 0, "no fault"}, {GET, 2, 0x1004, 0, "AccessAckData 0199xx04 p1 #2"}, {POKE, 0, 0x1008, "99", "no byte at this address"});
  CHECK("a decoder of addresses", "decode = \"address\"\n" PORT("ram", "0x1000", "4") PORT("device", "0x1004", "4") HOST,
        {GET, 3, 0x1000, 0, "AccessAckData denied 0000000000000000 p0 #0"}, {GET, 2, 0x1000, 0, "AccessAckData 00000000 p0 #1"},
        {GET, 3, 0x1004, 0, "AccessAckData xxxxxxxxxxxxxxxx p1 #0 device"}, {GET, 3, 0x0ffc, 0, "AccessAckData denied 0000000000000000 p2 #0"});
}

/* A master without a path to a port; a byte is looked at whoever reaches it. */
static void check_reach(void) {
  static const char FILE[] = "[[port]]\nname = \"a\"\nkind = \"ram\"\nbase = 0x1000\nlength = 8\nreset = \"aa\"\n"
                             "[[port]]\nname = \"b\"\nkind = \"ram\"\nbase = 0x2000\nlength = 8\nreset = \"bb\"\nhosts = [1, 0]\n"
                             "[[master]]\nsources = 2\n[[master]]\nsources = 2\nreach = [\"b\"]\n";
  static const struct row FIRST[] = {{GET, 0, 0x1000, 0, "AccessAckData aa p0 #0"}, {GET, 0, 0x2000, 0, "AccessAckData bb p1 #0"}};
  static const struct row SECOND[] = {{GET, 0, 0x1000, 0, "AccessAckData denied 00 p2 #0"}, {GET, 0, 0x2000, 0, "AccessAckData bb p1 #1"},
                                      {PUTFULL, 0, 0x1000, "01", "AccessAck denied p2 #1"}, {PEEK, 0, 0x1000, 0, "aa00"}};
  struct tlx_model *model = NULL;
  tell("a master without a path", make_of(&model, FILE) == TLX_OK && are_answered("reach", model, 0, FIRST, 2) && are_answered("reach", model, 1, SECOND, 4));
  tlx_model_free(model);
}

static void check_large(void) {
  CHECK("an address space of 2^63 - 1 bytes", PORT("ram", "0", "0x7fffffffffffffff") "unknown = true\n" HOST,
        {PUTFULL, 2, 0x123456789abc, "01020304", "AccessAck p0 #0"}, {PUTPART, 3, 0x7ffffffffffffff0, "----------0607--", "AccessAck p0 #1"},
        {GET, 3, 0x123456789ab8, 0, "AccessAckData xxxxxxxx01020304 p0 #2"}, {GET, 0, 0x7ffffffffffffffe, 0, "AccessAckData xx p0 #3"},
        {POKE, 0, 0x7ffffffffffffffe, "99", "no fault"}, {PEEK, 0, 0x7ffffffffffffff4, 0, "xx0607xxxxxxxxxxxxxx99no"},
        {GET, 3, 0x7ffffffffffffff8, 0, "AccessAckData denied 0000000000000000 p1 #0"}, {PEEK, 0, UINT64_MAX, 0, "no"}, {POKE, 0, UINT64_MAX, 0, "no byte at this address"});
}

/* A request of 256 bytes, and one of a whole source space. */
static void check_longest(void) {
  struct tlx_model *model = NULL;
  struct tlx_request put = {.size = 8, .address = 0x1100, .source = 65535}, get = {.opcode = 4, .size = 8, .address = 0x1100};
  struct tlx_answer answer;
  for (int k = 0; k < TLX_ROOM; k++) put.bytes[k] = (uint8_t)(255 - k);
  int is_well = make_of(&model, PORT("ram", "0x1000", "1024") "unknown = true\n[[master]]\nsources = 65536\nfirst = 0\n") == TLX_OK;
  is_well &= tlx_model_serve(model, 0, &put, &answer) == TLX_OK && answer.source == 65535;
  is_well &= tlx_model_serve(model, 0, &get, &answer) == TLX_OK && answer.count == TLX_ROOM && !memcmp(answer.bytes, put.bytes, TLX_ROOM);
  for (int k = 0; k < TLX_ROOM; k++) is_well &= answer.known[k] == 1;
  get.address = 0x1200;
  is_well &= tlx_model_serve(model, 0, &get, &answer) == TLX_OK && !answer.denied && answer.place == 2;
  for (int k = 0; k < TLX_ROOM; k++) is_well &= answer.known[k] == 0 && answer.bytes[k] == 0;
  tell("256 bytes", is_well);
  tlx_model_free(model);
}

/* ---- images and resets */

static const char IMAGE[] = PORT("rom", "0x1000", "8") "image = \"boot.bin\"\nunknown = true\nreset = \"aa\"\n" HOST;

/* A model has the images that were handed in when it was made. */
static void check_image(void) {
  static const struct row FIRST[] = {{GET, 3, 0x1000, 0, "AccessAckData aa2233xxxxxxxxxx p0 #0"}, {PUTFULL, 0, 0x1000, "00", "AccessAck denied p0 #1"}};
  static const struct row SECOND[] = {{GET, 2, 0x1000, 0, "AccessAckData aa778899 p0 #0"}};
  struct tlx_system *system = NULL;
  struct tlx_model *first = NULL, *second = NULL;
  char text[128];
  int is_well = tlx_system_read(IMAGE, strlen(IMAGE), TLX_VERSION, &system, 0, 0) == TLX_OK;
  tell("a model without its image", is_well && tlx_model_make(system, &first, text, sizeof text) == TLX_IMAGE_UNREADABLE &&
       !strcmp(text, "system: port 0: image can't be read") && ports_of(first) == 0 && system_ports_of(system) == 1);
  is_well = tlx_system_image(system, 0, "\x11\x22\x33", 3, 0, 0) == TLX_OK && tlx_model_make(system, &first, text, sizeof text) == TLX_OK && !text[0];
  is_well &= tlx_system_image(system, 0, "\x66\x77\x88\x99", 4, 0, 0) == TLX_OK && tlx_model_make(system, &second, 0, 0) == TLX_OK;
  tlx_system_free(system);
  tell("the image of a ROM", is_well && are_answered("image", first, 0, FIRST, 2) && are_answered("image", second, 0, SECOND, 1));
  tlx_model_free(first);
  tlx_model_free(second);
}

static void check_model_resets(void) {
  CHECK("a reset by what is not said", RESETS, {PUTFULL, 2, 0x1000, "01020304", "AccessAck p0 #0"}, {PUTFULL, 2, 0x2000, "01020304", "AccessAck p1 #0"},
        {RESET, 0, 0, 0, "no fault"}, {GET, 2, 0x1000, 0, "AccessAckData 01020304 p0 #1"}, {GET, 2, 0x2000, 0, "AccessAckData a0a1a2a3 p1 #1"},
        {POKE, 0, 0x2001, 0, "no fault"}, {PEEK, 0, 0x2000, 0, "a0xxa2"}, {RESET, 0, 0, 0, "no fault"}, {PEEK, 0, 0x2000, 0, "a0a1a2"});
  CHECK("a reset by `load` and `keep`", "resets = true\n" PORT("ram", "0x1000", "8") "unknown = true\nreset = \"aa\"\non_reset = \"load\"\n"
        PORT("regs", "0x2000", "8") "reset = \"bb\"\non_reset = \"keep\"\n" PORT("device", "0x3000", "8") HOST,
        {PUTFULL, 1, 0x1000, "0102", "AccessAck p0 #0"}, {PUTFULL, 2, 0x2000, "01020304", "AccessAck p1 #0"}, {GET, 0, 0x3000, 0, "AccessAckData xx p2 #0 device"},
        {RESET, 0, 0, 0, "no fault"}, {GET, 1, 0x1000, 0, "AccessAckData aaxx p0 #1"}, {GET, 2, 0x2000, 0, "AccessAckData 01020304 p1 #1"},
        {GET, 0, 0x3000, 0, "AccessAckData xx p2 #1 device"});
  CHECK("a system without resets", SYSTEM, {PUTFULL, 2, 0x1000, "01020304", "AccessAck p0 #0"}, {RESET, 0, 0, 0, "no such link"},
        {PEEK, 0, 0x1000, 0, "0102030444"});
}

/* ---- right and wrong arguments */

static void check_faults(struct tlx_model *model) {
  struct tlx_request ask = {.opcode = 2, .param = 5, .size = 9, .source = 2, .address = 0x1000};
  struct tlx_answer answer, before;
  memset(&answer, 0xa5, sizeof answer);
  before = answer;
  tell("no such parameter before a size", tlx_model_serve(model, 1, &ask, &answer) == TLX_NO_OPERATION);
  ask.opcode = 6;
  tell("a cached operation", tlx_model_serve(model, 1, &ask, &answer) == TLX_NO_OPERATION);
  ask.opcode = 4;
  ask.param = 0;
  tell("a size before a master", tlx_model_serve(model, 1, &ask, &answer) == TLX_SIZE);
  ask.size = 2;
  tell("a master before a source", tlx_model_serve(model, 1, &ask, &answer) == TLX_NO_MASTER && tlx_model_serve(model, UINT64_MAX, &ask, &answer) == TLX_NO_MASTER);
  tell("no such source", tlx_model_serve(model, 0, &ask, &answer) == TLX_NO_SOURCE);
  tell("an answer after a fault", !memcmp(&answer, &before, sizeof answer));
  ask.source = 1;
  tell("what is right after faults", tlx_model_serve(model, 0, &ask, &answer) == TLX_OK && answer.place == 0);
}

/* Gets take no memory, whoever has written the bytes; nor does what is written where bytes were before. */
static void check_memory_use(struct tlx_model *model) {
  static const struct row ROWS[] = {{GET, 5, 0x1000, 0, "AccessAckData 0011223344000000000000000000000000000000000000000000000000000000 p0 #0"},
                                    {GET, 2, 0x2000, 0, "AccessAckData 00000000 p1 #0"}, {PUTPART, 2, 0x1000, "aa--cc--", "AccessAck p0 #1"},
                                    {POKE, 0, 0x1001, "bb", "no fault"}, {PEEK, 0, 0x1000, 0, "aabbcc3344"}, {GET, 0, 0x9000, 0, "AccessAckData denied 00 p2 #0"}};
  size_t before = requests;
  tell("calls that take no memory", are_answered("memory", model, 0, ROWS, sizeof ROWS / sizeof *ROWS) && requests == before);
}

static void check_calls(void) {
  struct tlx_model *model = NULL;
  tell("a model", make_of(&model, SYSTEM) == TLX_OK && masters_of(model) == 1 && ports_of(model) == 3);
  check_memory_use(model);
  tlx_model_free(model);
  tell("another model", make_of(&model, SYSTEM) == TLX_OK);
  check_faults(model);
  tlx_model_free(model);
  tell("a system of masters alone", make_of(&model, "[[master]]\nsources = 1\n[[master]]\nsources = 1\n") == TLX_OK && masters_of(model) == 2 && ports_of(model) == 1);
  tlx_model_free(model);
}

/* ---- one system for several models and judges */

/* Frees what was made of a system, and the system, in the order that a number below 24 says. After each of them the others answer as before. */
static int is_free_in_order(int number) {
  struct tlx_system *system = NULL;
  struct tlx_model *models[2] = {NULL, NULL};
  struct tlx_judge *judge = NULL;
  struct tlx_beat beat = {.opcode = 4, .size = 2, .source = 1, .address = 0x1000, .mask = 0x0f};
  int left[] = {0, 1, 2, 3}, is_well = tlx_system_read(SYSTEM, strlen(SYSTEM), TLX_VERSION, &system, 0, 0) == TLX_OK;
  is_well &= tlx_model_make(system, &models[0], 0, 0) == TLX_OK && tlx_judge_make(system, TLX_MASTER_LINKS, 0, 0, &judge, 0, 0) == TLX_OK;
  is_well &= tlx_model_poke(models[0], 0x1000, 0x77, 1) == TLX_OK && tlx_model_make(system, &models[1], 0, 0) == TLX_OK;
  for (int count = 4; count > 0; number /= count--) {
    int at = number % count, freed = left[at];
    for (int k = at; k + 1 < count; k++) left[k] = left[k + 1];
    if (freed < 2) tlx_model_free(models[freed]);
    if (freed == 2) tlx_judge_free(judge);
    if (freed == 3) tlx_system_free(system);
    for (int k = 0; k + 1 < count; k++) {
      uint8_t byte = 1;
      uint32_t known = 0;
      if (left[k] < 2) is_well &= tlx_model_peek(models[left[k]], 0x1000, &byte, &known) == TLX_OK && known && byte == (left[k] ? 0 : 0x77);
      if (left[k] == 2) is_well &= tlx_judge_step(judge, &beat) == (count == 4 ? (uint32_t)TLX_OK : (uint32_t)TLX_SOURCE_IN_FLIGHT);
      if (left[k] == 3) is_well &= system_ports_of(system) == 2;
    }
  }
  return is_well;
}

static void check_sharing(void) {
  long before = blocks;
  int is_well = 1;
  for (int number = 0; number < 24; number++) is_well &= is_free_in_order(number);
  tell("two models and a judge of one system", is_well && blocks == before);
}

void check_models(void) {
  check_calls();
  check_unknown();
  check_registers();
  check_sizes();
  check_ranges();
  check_reach();
  check_large();
  check_longest();
  check_image();
  check_model_resets();
  check_sharing();
}
