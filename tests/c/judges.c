/* The calls of judges, and of the systems that they and models are made of, with right and wrong arguments. */
#include "check.h"

#include <inttypes.h>
#include <stdio.h>
#include <string.h>

/* System files with faults, most with a later one as well, which is not told. */
#define HOST(sources) "[[master]]\nsources = " sources "\n"
#define PORT(base, length) "[[port]]\nkind = \"ram\"\nbase = " base "\nlength = " length "\n"
#define TOO_MANY_SOURCES PORT("0x1000", "65537") HOST("257")
static const struct { const char *file; uint32_t fault; const char *text; } FILES[] = {
    {"port = 1\n=", TLX_NOT_TOML, "system: not TOML"},
    {"port = 1 # \xff", TLX_NOT_TOML, "system: not TOML"},
    {"slots = 257\n[[master]]\nsources = \"2\"\nops = [\"get\"]\n", TLX_WRONG_TYPE, "system: wrong type of sources"},
    {"prot = 1\nport = 1", TLX_UNKNOWN_KEY, "system: unknown key prot (near: port)"},
    {"", TLX_MISSING, "system: missing master"},
    {"port = 1", TLX_WRONG_TYPE, "system: wrong type of port"},
    {PORT("0x1000", "0"), TLX_OUT_OF_RANGE, "system: length out of range"},
    {"[[master]]\nname = \"a\"\nsources = 1\n[[master]]\nname = \"a\"\nsources = 300\n", TLX_TWO_CALLED, "system: two are called a"},
    {PORT("0x1000", "64") PORT("0x103f", "1") HOST("257"), TLX_BAD_PORTS, "system: ports 0 and 1 overlap"},
    {TOO_MANY_SOURCES, TLX_BAD_SOURCES, "system: too many masters or sources"},
    {"[[master]]\nsources = 2\nfirst = 1\n[[master]]\nsources = 1\nfirst = 2\n", TLX_BAD_SOURCES, "system: masters 0 and 1 share source 2"},
    {PORT("0x1000", "0x10000000000") "image = \"a\"\n" PORT("0x1000", "1") "image = \"b\"\n" HOST("257"), TLX_IMAGE_UNREADABLE,
     "system: port 0: image can't be read"},
};

static uint32_t read_file_of(struct tlx_judge **judge, const char *file, char *text, size_t room) {
  return tlx_judge_read(file, strlen(file), TLX_VERSION, TLX_MASTER_LINKS, TLX_ACCEPT_ORDER, TLX_ACCEPT_ORDER, judge, text, room);
}

/* The same in two calls. */
static uint32_t make_of(struct tlx_judge **judge, const char *file, char *text, size_t room) {
  struct tlx_system *system = NULL;
  uint32_t fault = tlx_system_read(file, strlen(file), TLX_VERSION, &system, text, room);
  if (fault == TLX_OK) fault = tlx_judge_make(system, TLX_MASTER_LINKS, TLX_ACCEPT_ORDER, TLX_ACCEPT_ORDER, judge, text, room);
  tlx_system_free(system);
  return fault;
}

/* A model of it, in two calls. */
static uint32_t make_model_of(const char *file, char *text, size_t room) {
  struct tlx_system *system = NULL;
  struct tlx_model *model = NULL;
  uint32_t fault = tlx_system_read(file, strlen(file), TLX_VERSION, &system, text, room);
  if (fault == TLX_OK) fault = tlx_model_make(system, &model, text, room);
  tlx_system_free(system);
  tlx_model_free(model);
  return fault;
}

static void check_lengths(void) {
  static char longest[(1 << 20) + 1];
  struct tlx_judge *judge = NULL;
  struct tlx_system *system = NULL;
  char text[128];
  memset(longest, '#', sizeof longest);
  tell("a file too long", tlx_judge_read(longest, sizeof longest, TLX_VERSION, 0, 0, 0, &judge, text, sizeof text) == TLX_TOO_LONG &&
       !strcmp(text, "system: longer than 1048576 bytes") && tlx_system_read(longest, sizeof longest, TLX_VERSION, &system, text, sizeof text) == TLX_TOO_LONG &&
       !strcmp(text, "system: longer than 1048576 bytes"));
  tell("a file as long as it may be", tlx_judge_read(longest, sizeof longest - 1, TLX_VERSION, 0, 0, 0, &judge, text, sizeof text) == TLX_MISSING &&
       tlx_system_read(longest, sizeof longest - 1, TLX_VERSION, &system, text, sizeof text) == TLX_MISSING);
  tell("a text that is cut off", tlx_system_read("bus = 3", 7, TLX_VERSION, &system, text, 8) == TLX_OUT_OF_RANGE && !strcmp(text, "system:"));
}

void check_files(void) {
  struct tlx_judge *judge = NULL;
  struct tlx_system *system = NULL;
  char text[128];
  for (size_t k = 0; k < sizeof FILES / sizeof *FILES; k++)
    tell(FILES[k].text, read_file_of(&judge, FILES[k].file, text, sizeof text) == FILES[k].fault && !strcmp(text, FILES[k].text) &&
         make_of(&judge, FILES[k].file, text, sizeof text) == FILES[k].fault && !strcmp(text, FILES[k].text) &&
         make_model_of(FILES[k].file, text, sizeof text) == FILES[k].fault && !strcmp(text, FILES[k].text));
  check_lengths();
  tell("slots and operations that are wrong",
       make_model_of("slots = 257\n[[master]]\nsources = 1\nops = [\"1 get 0x1000 2\"]\n", text, sizeof text) == TLX_OK && !text[0]);
  tell("a header of another version", tlx_version() == TLX_VERSION &&
       tlx_judge_read("", 0, TLX_VERSION + 1, 9, 9, 9, &judge, text, sizeof text) == TLX_OTHER_VERSION && !text[0] && !judge &&
       tlx_system_read("", 0, TLX_VERSION - 1, &system, text, sizeof text) == TLX_OTHER_VERSION && !system);
}

/* ---- images */

static const char IMAGES[] =
    "[[port]]\nkind = \"rom\"\nbase = 0x1000\nlength = 8\nreset = \"aa\"\nimage = \"boot.bin\"\n" PORT("0x2000", "4")
    "[[port]]\nkind = \"device\"\nbase = 0x3000\nlength = 2\nimage = \"none\"\n" HOST("1");

static void check_names(struct tlx_system *system) {
  char text[64];
  tell("ports", system_ports_of(system) == 3 && system_ports_of(0) == 0);
  tell("the file of an image", image_name_of(system, 0, text, sizeof text) == 8 && !strcmp(text, "boot.bin"));
  tell("no file", image_name_of(system, 1, text, sizeof text) == 0 && !text[0]);
  memset(text, 'a', sizeof text);
  tell("no port", image_name_of(system, 3, text, sizeof text) == 0 && !text[0]);
  tell("a file that is cut off", image_name_of(system, 0, text, 5) == 4 && !strcmp(text, "boot"));
  tell("nowhere for a file", image_name_of(system, 0, 0, 0) == 0 && image_name_of(system, 0, text, 0) == 0);
}

static void check_handing_in(struct tlx_system *system) {
  char text[128];
  tell("bytes for no port", tlx_system_image(system, 3, "", 0, text, sizeof text) == TLX_NO_PORT && !strcmp(text, "system: no port 3") &&
       tlx_system_image(system, UINT64_MAX, "", 0, 0, 0) == TLX_NO_PORT);
  tell("bytes for a port without an image", tlx_system_image(system, 1, "12345", 5, text, sizeof text) == TLX_NO_IMAGE &&
       !strcmp(text, "system: port 1: no image"));
  tell("an image too long", tlx_system_image(system, 2, "123", 3, text, sizeof text) == TLX_LONG_IMAGE &&
       !strcmp(text, "system: port 2: image is longer than its range"));
  tell("null images", tlx_system_image(0, 0, "", 0, text, sizeof text) == TLX_NULL && !text[0] &&
       tlx_system_image(system, 0, 0, 1, 0, 0) == TLX_NULL);
  tell("an image as long as its range", tlx_system_image(system, 0, "12345678", 8, text, sizeof text) == TLX_OK && !text[0]);
  tell("an image of no bytes", tlx_system_image(system, 2, 0, 0, 0, 0) == TLX_OK);
  tell("another in its place", tlx_system_image(system, 0, "\x11\x22", 2, 0, 0) == TLX_OK);
  tell("one too long after it", tlx_system_image(system, 0, "123456789", 9, 0, 0) == TLX_LONG_IMAGE);
}

static uint32_t make(struct tlx_judge **judge, struct tlx_system *system, char *text, size_t room) {
  return tlx_judge_make(system, TLX_MASTER_LINKS, TLX_ACCEPT_ORDER, TLX_ACCEPT_ORDER, judge, text, room);
}

/* A get of a word of the ROM is answered `aa`, the reset's byte, and then what is left of the last image, and zeros. */
static void check_image_read(struct tlx_judge *judge) {
  struct tlx_beat beat = {.opcode = 4, .size = 2, .address = 0x1000, .mask = 0x0f};
  char text[256];
  int is_well = tlx_judge_step(judge, &beat) == TLX_OK;
  beat = (struct tlx_beat){.channel = TLX_D, .opcode = 1, .size = 2, .known = 0x0f, .lanes = {0x11, 0x22}};
  is_well &= tlx_judge_step(judge, &beat) == TLX_WRONG_REPLY && text_of(judge, text, sizeof text) > 0 &&
             !strcmp(text, "unlawful: line 0, time 0, m0 D: wrong reply: expected AccessAckData aa220000, captured AccessAckData 11220000\n");
  beat.lanes[0] = 0xaa;
  tell("the bytes of an image", is_well && tlx_judge_step(judge, &beat) == TLX_OK);
}

/* A judge and a model are made once all images were handed in, and the system stays. */
static void check_made(struct tlx_system *system) {
  struct tlx_judge *judge = NULL, *second = NULL;
  struct tlx_model *model = NULL;
  char text[128];
  tell("wrong words", tlx_judge_make(system, 4, 0, 0, &judge, 0, 0) == TLX_BAD_ARGUMENT && tlx_judge_make(system, 0, 3, 0, &judge, 0, 0) == TLX_BAD_ARGUMENT &&
       tlx_judge_make(system, 0, 0, 3, &judge, 0, 0) == TLX_BAD_ARGUMENT &&
       tlx_judge_make(system, 0, 0, 0, 0, text, sizeof text) == TLX_NULL && tlx_judge_make(0, 0, 0, 0, &judge, 0, 0) == TLX_NULL);
  tell("a judge with images", make(&judge, system, text, sizeof text) == TLX_OK && !text[0] && system_ports_of(system) == 3);
  tell("a second judge of a system", make(&second, system, 0, 0) == TLX_OK);
  tell("a model beside them", tlx_model_make(system, &model, 0, 0) == TLX_OK && ports_of(model) == 4);
  check_image_read(judge);
  tlx_judge_free(judge);
  check_image_read(second);
  tlx_judge_free(second);
  tlx_model_free(model);
}

/* A system without images, and one of which nothing can be made. */
static void check_without_images(void) {
  struct tlx_system *script = NULL, *system = NULL;
  struct tlx_judge *judge = NULL, *second = NULL;
  struct tlx_model *model = NULL;
  char text[128];
  tlx_system_read(SYSTEM, strlen(SYSTEM), TLX_VERSION, &script, 0, 0);
  tell("a script's system", system_ports_of(script) == 2 && image_name_of(script, 0, text, sizeof text) == 0 &&
       tlx_system_image(script, 0, "", 0, 0, 0) == TLX_NO_IMAGE && make(&judge, script, 0, 0) == TLX_OK && tlx_model_make(script, &model, 0, 0) == TLX_OK);
  tlx_system_read(TOO_MANY_SOURCES, strlen(TOO_MANY_SOURCES), TLX_VERSION, &system, 0, 0);
  tell("a system that stays after a fault", make(&second, system, 0, 0) == TLX_BAD_SOURCES && make(&second, system, 0, 0) == TLX_BAD_SOURCES);
  tlx_system_free(system);
  tlx_system_free(script);
  tlx_judge_free(judge);
  tlx_model_free(model);
}

void check_images(void) {
  struct tlx_system *system = NULL;
  struct tlx_judge *judge = NULL;
  char text[128];
  tell("a file with images", tlx_system_read(IMAGES, strlen(IMAGES), TLX_VERSION, &system, text, sizeof text) == TLX_OK && !text[0]);
  check_names(system);
  tell("a judge without its first image", make(&judge, system, text, sizeof text) == TLX_IMAGE_UNREADABLE &&
       !strcmp(text, "system: port 0: image can't be read"));
  tlx_system_image(system, 0, "", 0, 0, 0);
  tell("a judge without its second image", make(&judge, system, text, sizeof text) == TLX_IMAGE_UNREADABLE &&
       !strcmp(text, "system: port 2: image can't be read"));
  check_handing_in(system);
  check_made(system);
  check_without_images();
  tlx_system_free(system);
}

/* ---- beats */

static void check_steps(struct tlx_judge *judge) {
  struct tlx_beat beat = {0};
  char text[2048];
  size_t before = requests;
  beat.opcode = 4;
  beat.size = 2;
  beat.source = 1;
  beat.address = 0x1000;
  beat.mask = 0x0f;
  beat.number = 1;
  tell("a link that there is not", tlx_judge_step(judge, &beat) == TLX_NO_LINK && text_of(judge, text, sizeof text) == 0);
  beat.number = 0;
  beat.side = 2;
  tell("a side that there is not", tlx_judge_step(judge, &beat) == TLX_BAD_ARGUMENT);
  beat.side = TLX_PORT;
  tell("a side that is not watched", tlx_judge_step(judge, &beat) == TLX_NO_LINK);
  beat.side = TLX_MASTER;
  beat.channel = 2;
  tell("a channel that there is not", tlx_judge_step(judge, &beat) == TLX_BAD_ARGUMENT);
  beat.channel = TLX_A;
  tell("a request", tlx_judge_step(judge, &beat) == TLX_OK && requests_of(judge) == 1 && in_flight_of(judge) == 1);
  beat.line = 3;
  beat.time = 12;
  tell("a source in flight", tlx_judge_step(judge, &beat) == TLX_SOURCE_IN_FLIGHT && text_of(judge, text, sizeof text) == 50 &&
       !strcmp(text, "unlawful: line 3, time 12, m0 A: source in flight\n") && in_flight_of(judge) == 1);
  tell("an end with a request left", tlx_judge_end(judge) == TLX_INCOMPLETE && text_of(judge, text, sizeof text) > 0 &&
       !strcmp(text, "incomplete: 1 requests without reply, the first: line 0, time 0, m0 s1 get 0x1000 2\n") &&
       in_flight_of(judge) == 1);
  beat.channel = TLX_D;
  beat.opcode = 1;
  beat.known = 0x0f;
  beat.denied = 2;
  tell("a flag that is none", tlx_judge_step(judge, &beat) == TLX_BAD_ARGUMENT);
  beat.denied = 0;
  tell("a wrong reply", tlx_judge_step(judge, &beat) == TLX_WRONG_REPLY && text_of(judge, text, sizeof text) > 0 &&
       !strcmp(text, "unlawful: line 3, time 12, m0 D: wrong reply: expected AccessAckData 00112233, captured AccessAckData 00000000\n"));
  memcpy(beat.lanes, "\x00\x11\x22\x33", 4);
  tell("the right reply after it", tlx_judge_step(judge, &beat) == TLX_OK && answered_of(judge) == 1 && in_flight_of(judge) == 0);
  tell("an end with nothing left", tlx_judge_end(judge) == TLX_OK);
  tell("a reply more", tlx_judge_step(judge, &beat) == TLX_NO_REQUEST);
  tell("a text into nothing", text_of(judge, 0, 0) == 0);
  tell("a judge in use takes no memory", requests == before);
}

void check_judges(void) {
  struct tlx_judge *judge = NULL;
  char text[128];
  memset(text, 'a', sizeof text);
  tell("a judge of an empty file", tlx_judge_read(0, 0, TLX_VERSION, 0, 0, 0, &judge, text, sizeof text) == TLX_MISSING && !strcmp(text, "system: missing master"));
  tell("links that there are not", tlx_judge_read(SYSTEM, strlen(SYSTEM), TLX_VERSION, 9, 0, 0, &judge, 0, 0) == TLX_BAD_ARGUMENT);
  tell("an order that there is not", tlx_judge_read(SYSTEM, strlen(SYSTEM), TLX_VERSION, 0, 9, 0, &judge, 0, 0) == TLX_BAD_ARGUMENT);
  tell("an order of the ports' side that there is not", tlx_judge_read(SYSTEM, strlen(SYSTEM), TLX_VERSION, 0, 0, 9, &judge, 0, 0) == TLX_BAD_ARGUMENT);
  tell("a judge", read_file_of(&judge, SYSTEM, text, sizeof text) == TLX_OK && !text[0]);
  check_steps(judge);
  tlx_judge_free(judge);
  tlx_judge_free(0);
}

/* A get of 256 bytes that is answered ff, where zeros must come: its fault has the longest line, for which there is room. */
void check_longest_line(void) {
  static const char LONG[] = "slots = 1\n[[port]]\nkind = \"ram\"\nbase = 0\nlength = 256\n[[master]]\nsources = 1\nops = []\n";
  struct tlx_judge *judge = NULL;
  struct tlx_beat beat = {0};
  char text[2048], expected[2048];
  int is_well = tlx_judge_read(LONG, strlen(LONG), TLX_VERSION, TLX_MASTER_LINKS, TLX_ACCEPT_ORDER, TLX_ACCEPT_ORDER, &judge, 0, 0) == TLX_OK;
  size_t before = requests;
  beat.line = beat.time = UINT64_MAX;
  beat.opcode = 4;
  beat.size = 8;
  beat.mask = 0xff;
  is_well &= tlx_judge_step(judge, &beat) == TLX_OK;
  beat.channel = TLX_D;
  beat.opcode = 1;
  beat.known = 0xff;
  memset(beat.lanes, 0xff, sizeof beat.lanes);
  for (int number = 0; number < 31; number++) is_well &= tlx_judge_step(judge, &beat) == TLX_OK;
  is_well &= tlx_judge_step(judge, &beat) == TLX_WRONG_REPLY;
  char zeros[513], ones[513];
  memset(zeros, '0', 512);
  memset(ones, 'f', 512);
  zeros[512] = ones[512] = 0;
  snprintf(expected, sizeof expected, "unlawful: line %" PRIu64 ", time %" PRIu64 ", m0 D: wrong reply: expected AccessAckData %s, captured AccessAckData %s\n",
           UINT64_MAX, UINT64_MAX, zeros, ones);
  tell("the longest line", is_well && text_of(judge, text, sizeof text) == strlen(expected) && !strcmp(text, expected) && strlen(text) < 1600 &&
       requests == before);
  tlx_judge_free(judge);
}

/* ---- buses of 4, 8 and 16 bytes */

#define MEMORY "[[port]]\nkind = \"ram\"\nbase = 0x1000\nlength = 64\nreset = \"000102030405060708090a0b0c0d0e0f\"\n"
static const struct bus { const char *name, *file; int bytes; uint64_t mask; } BUSES[] = {
    {"a bus of 4 bytes", "bus = 4\n" MEMORY HOST("1"), 4, 0xf},
    {"a bus of 8 bytes", MEMORY HOST("1"), 8, 0xff},
    {"a bus of 16 bytes", "bus = 16\n" MEMORY HOST("1"), 16, 0xff00},
    {"one of 16 at the master alone", MEMORY HOST("1") "bus = 16\n", 16, 0xff00},
};

/* How many of the 8 bytes at 0x1008 one beat carries, and the lane of the first. */
static int span_of(const struct bus *bus) { return bus->bytes < 8 ? bus->bytes : 8; }
static int lane_of(const struct bus *bus) { return bus->bytes < 16 ? 0 : 8; }

/* The beat of a message of these 8 bytes that carries them from one on, as a reply or a put; past the bus stand other bytes. */
static struct tlx_beat data_beat(const struct bus *bus, uint8_t channel, uint8_t first) {
  struct tlx_beat beat = {.channel = channel, .size = 3, .address = 0x1008, .mask = bus->mask};
  memset(beat.lanes, 0xee, sizeof beat.lanes);
  for (int k = 0; k < span_of(bus); k++) beat.lanes[lane_of(bus) + k] = (uint8_t)(first + k);
  beat.opcode = channel == TLX_D ? 1 : 0;
  beat.known = bus->mask;
  return beat;
}

static struct tlx_beat get_beat(const struct bus *bus, uint64_t more) {
  return (struct tlx_beat){.opcode = 4, .size = 3, .address = 0x1008, .mask = bus->mask | more};
}

/* A get is answered these bytes. The last beat is first given with another last byte, and with one that is not known. */
static int gets(struct tlx_judge *judge, const struct bus *bus, uint8_t first) {
  struct tlx_beat beat = get_beat(bus, 0);
  int is_well = tlx_judge_step(judge, &beat) == TLX_OK, last = 8 - span_of(bus), lane = lane_of(bus) + span_of(bus) - 1;
  for (int byte = 0; byte < last; byte += span_of(bus)) {
    beat = data_beat(bus, TLX_D, (uint8_t)(first + byte));
    is_well &= tlx_judge_step(judge, &beat) == TLX_OK;
  }
  beat = data_beat(bus, TLX_D, (uint8_t)(first + last));
  beat.lanes[lane] ^= 1;
  is_well &= tlx_judge_step(judge, &beat) == TLX_WRONG_REPLY;
  beat.lanes[lane] ^= 1;
  beat.known ^= UINT64_C(1) << lane;
  is_well &= tlx_judge_step(judge, &beat) == TLX_UNKNOWN_DATA;
  beat.known |= ~UINT64_C(0) << lane;
  return is_well && tlx_judge_step(judge, &beat) == TLX_OK;
}

static int puts_bytes(struct tlx_judge *judge, const struct bus *bus, uint8_t first) {
  struct tlx_beat done = {.channel = TLX_D, .size = 3};
  int is_well = 1;
  for (int byte = 0; byte < 8; byte += span_of(bus)) {
    struct tlx_beat beat = data_beat(bus, TLX_A, (uint8_t)(first + byte));
    is_well &= tlx_judge_step(judge, &beat) == TLX_OK;
  }
  return is_well && tlx_judge_step(judge, &done) == TLX_OK;
}

/* A lane past the bus is none: no mask has it. */
static int refuses_masks(struct tlx_judge *judge, const struct bus *bus) {
  struct tlx_beat next = get_beat(bus, UINT64_C(1) << bus->bytes), last = get_beat(bus, UINT64_C(1) << 63);
  return tlx_judge_step(judge, &next) == TLX_WRONG_MASK && tlx_judge_step(judge, &last) == TLX_WRONG_MASK;
}

void check_buses(void) {
  for (size_t k = 0; k < sizeof BUSES / sizeof *BUSES; k++) {
    struct tlx_judge *judge = NULL;
    const struct bus *bus = &BUSES[k];
    int is_well = read_file_of(&judge, bus->file, 0, 0) == TLX_OK && refuses_masks(judge, bus) && gets(judge, bus, 8) &&
                  puts_bytes(judge, bus, 0xa0) && gets(judge, bus, 0xa0);
    tell(bus->name, is_well && requests_of(judge) == 3 && answered_of(judge) == 3 && tlx_judge_end(judge) == TLX_OK);
    tlx_judge_free(judge);
  }
}

/* ---- memories that are not known, and devices */

/* A get of 4 bytes at an address is answered so. */
static uint32_t get_answered(struct tlx_judge *judge, uint64_t address, uint64_t known, uint8_t denied, const char *bytes) {
  struct tlx_beat ask = {.opcode = 4, .size = 2, .address = address, .mask = 0x0f};
  struct tlx_beat reply = {.channel = TLX_D, .opcode = 1, .size = 2, .denied = denied, .corrupt = denied, .known = known};
  memcpy(reply.lanes, bytes, 4);
  uint32_t fault = tlx_judge_step(judge, &ask);
  return fault == TLX_OK ? tlx_judge_step(judge, &reply) : fault;
}

static int judged(const char *file, uint64_t known, uint8_t denied, uint32_t expected) {
  struct tlx_judge *judge = NULL;
  int is_so = read_file_of(&judge, file, 0, 0) == TLX_OK && get_answered(judge, 0x1000, known, denied, "\x00\x5a\x5b\x5c") == expected;
  tlx_judge_free(judge);
  return is_so;
}

#define UNKNOWN PORT("0x1000", "4") "unknown = true\nreset = \"00\"\n" HOST("1")
#define DEVICE "[[port]]\nkind = \"device\"\nbase = 0x1000\nlength = 4\n" HOST("1")

/* Bytes of which nothing is known may be anything, until they are put. */
static void check_unknown(void) {
  struct tlx_judge *judge = NULL;
  struct tlx_beat put = {.size = 2, .address = 0x1000, .mask = 0x0f, .known = 0x0f, .lanes = {1, 2, 3, 4}}, done = {.channel = TLX_D, .size = 2};
  char text[256];
  tell("bytes that may be anything", judged(UNKNOWN, 0x0f, 0, TLX_OK) && judged(UNKNOWN, 0x01, 0, TLX_OK));
  tell("a byte that is known among them", judged(UNKNOWN, 0x0e, 0, TLX_WRONG_REPLY));
  tell("a memory that denies", judged(UNKNOWN, 0, 1, TLX_WRONG_REPLY));
  int is_well = read_file_of(&judge, UNKNOWN, 0, 0) == TLX_OK && tlx_judge_step(judge, &put) == TLX_OK && tlx_judge_step(judge, &done) == TLX_OK;
  is_well &= get_answered(judge, 0x1000, 0x07, 0, "\1\2\3\4") == TLX_WRONG_REPLY && text_of(judge, text, sizeof text) > 0;
  tell("bytes that were put", is_well &&
       !strcmp(text, "unlawful: line 0, time 0, m0 D: wrong reply: expected AccessAckData 01020304, captured AccessAckData 010203xx\n"));
  tlx_judge_free(judge);
}

void check_slaves(void) {
  check_unknown();
  tell("a device that answers anything", judged(DEVICE, 0x0f, 0, TLX_OK) && judged(DEVICE, 0, 0, TLX_OK) && judged(DEVICE, 0, 1, TLX_OK));
  tell("a memory whose bytes are known", judged(PORT("0x1000", "4") HOST("1"), 0x0e, 0, TLX_UNKNOWN_DATA));
}
