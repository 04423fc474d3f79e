/* tlx as a library: a system that a system file describes, the model of its crossbar, and the judge of what crosses the links.
 *
 * A script of tlx is a system file. Any number of models and judges is made of one system, which stays as it is.
 *
 * A handle is a pointer to a struct of the library: a `_read`, `_make` or `_clone` call makes it and puts it where its out parameter points,
 * and the `_free` call gives it back, once. After a fault the out parameter is null, and `_free` of null does nothing.
 *
 * Each call that can fail answers a fault, TLX_OK (0) if there is none, and gives what it makes or finds by an out parameter. Its faults are
 * listed in the order in which they are tried. After another fault nothing has changed of what a handle holds, and nothing is written but
 * null to the out parameter of a handle, the text of the fault, and what is said below. A null pointer is TLX_NULL; it is tried first, and the
 * library tries it.
 *
 * A text or an array is a pointer and a length (or its room). The pointer may be null if the length is 0.
 *
 * A call with a `const` handle reads alone: two threads may make such calls with one handle at once. Of other calls with one handle one is
 * made at a time. Several handles may be used by several threads at once. The library starts no thread, takes no lock, writes nothing to
 * files, opens none, and keeps no pointer that it is given. No call may be made from a signal handler.
 *
 * Memory is taken by malloc, calloc, realloc and free. The calls that make a handle take it, and tlx_system_image. Of the others these may:
 * tlx_model_serve and tlx_model_poke for bytes that are written; tlx_model_reset for what it loads; tlx_judge_reset for a copy of what the
 * judge keeps; and tlx_judge_step if the beat is lawful: with one by which a request takes effect, for the bytes that are written; with the
 * last beat of a request to a port of TLX_ANY_ORDER, for the request; and with TLX_EACH_LINK also with the first beat of a source at a
 * port's link. If that is refused the call answers TLX_MEMORY and has changed nothing. The same call may be made again.
 *
 * What the caller must not do: hand over a pointer that is neither null nor one to what its type says (a handle that was freed is none), two
 * pointers to memory that overlaps, or a length that is more than the memory there.
 *
 * Link with -ltlx. */
#ifndef TLX_H
#define TLX_H

#include <stddef.h>
#include <stdint.h>

#ifdef __cplusplus
extern "C" {
#endif

/* The version of this header. It rises when a struct, a number or a call changes; a call that reads a text takes it, and answers
 * TLX_OTHER_VERSION if the library was built for another one. */
#define TLX_VERSION 8

/* The room of a message's bytes in the structs below. The largest size that a call takes is the library's own: tlx_largest_size. */
#define TLX_ROOM 256

/* The lanes of the widest bus, each of one byte. */
#define TLX_LANES 64

enum tlx_fault {
  TLX_OK = 0,
  /* of any call */
  TLX_NULL = 1,           /* a pointer is null */
  TLX_EMPTY = 2,          /* an object of tlx.hpp that holds nothing; no call of C answers it */
  TLX_FULL = 3,           /* an object of tlx.hpp that holds something already; no call of C answers it */
  TLX_MEMORY = 4,         /* memory was refused */
  TLX_BAD_ARGUMENT = 5,   /* a number that has no meaning where it stands: links, order, `known`; of a beat side, channel, `denied`, `corrupt` */
  TLX_OTHER_VERSION = 6,  /* the library was built for a header of another version */
  /* of a system file (tlx_system_read, tlx_model_make, tlx_judge_make, tlx_judge_read, which have their order) */
  TLX_NOT_TOML = 10,
  TLX_MISSING = 11,       /* a key is missing */
  TLX_WRONG_TYPE = 12,    /* a value has another type than its key wants */
  TLX_OUT_OF_RANGE = 13,  /* a value is out of its key's range */
  TLX_BAD_PORTS = 15,     /* too many ports, or address ranges that are empty, too long or overlap */
  TLX_BAD_SOURCES = 16,   /* too many masters or sources, a master without one, or two masters that share one */
  TLX_TOO_LONG = 17,      /* longer than 1048576 bytes */
  TLX_TWO_CALLED = 18,    /* two masters or ports have the same name */
  TLX_UNKNOWN_KEY = 19,   /* a key that no table of its kind has */
  /* of a request or a byte (tlx_model_serve, tlx_model_peek, tlx_model_poke) */
  TLX_NO_OPERATION = 20,  /* opcode and param name no operation of TL-UL or TL-UH */
  TLX_SIZE = 21,          /* the size is above tlx_largest_size() */
  TLX_NO_MASTER = 22,     /* there is no such master */
  TLX_NO_SOURCE = 23,     /* the master has no such source */
  TLX_NO_BYTE = 25,       /* no port has this address */
  TLX_DEVICE = 26,        /* a device: what it answers, and what it holds, is for the caller to say */
  /* of a beat (tlx_judge_step), in the order in which they are tried; the first that applies is answered */
  TLX_NO_LINK = 30,       /* there is no such link, or it is not watched; of a reset: the system has no resets */
  TLX_FIELD_CHANGED = 31,
  TLX_UNKNOWN_OPCODE = 32,
  TLX_WRONG_PARAM = 33,
  TLX_SIZE_OUT_OF_RANGE = 34,
  TLX_UNALIGNED_ADDRESS = 35,
  TLX_WRONG_MASK = 36,
  TLX_WRONG_CORRUPT_FLAG = 37,
  TLX_UNKNOWN_LANES = 38, /* a byte of a request is unknown: `unknown data` */
  TLX_NO_SUCH_SOURCE = 39,
  TLX_SOURCE_IN_FLIGHT = 40,
  TLX_WRONG_PORT = 41,
  TLX_NO_REQUEST = 42,
  TLX_EARLY_REPLY = 43,
  TLX_WRONG_SIZE = 44,
  TLX_WRONG_OPCODE = 45,
  TLX_UNKNOWN_DATA = 46,
  TLX_NOT_SENT = 47,
  TLX_NOT_GIVEN = 48,
  TLX_WRONG_REPLY = 49,
  /* of the end (tlx_judge_end) */
  TLX_INCOMPLETE = 50,    /* requests are left without a whole reply */
  /* of a beat, at a link with `fifo` */
  TLX_OUT_OF_ORDER = 51,
  /* of an image (tlx_system_image; the last one of tlx_model_make, tlx_judge_make and tlx_judge_read) */
  TLX_NO_PORT = 60,       /* the file names no such port */
  TLX_NO_IMAGE = 61,      /* the file names no image for the port */
  TLX_LONG_IMAGE = 62,    /* the image is longer than the port's first range */
  TLX_IMAGE_UNREADABLE = 63 /* the file names an image that was not handed in */
};

enum tlx_side { TLX_MASTER = 0, TLX_PORT = 1 };
enum tlx_channel { TLX_A = 0, TLX_D = 1 };
enum tlx_links { TLX_BOTH_LINKS = 0, TLX_MASTER_LINKS = 1, TLX_PORT_LINKS = 2, TLX_EACH_LINK = 3 };
/* When a request takes effect: with its last beat, with its reply's first beat, or at some moment between these. */
enum tlx_order { TLX_ACCEPT_ORDER = 0, TLX_REPLY_ORDER = 1, TLX_ANY_ORDER = 2 };

/* What the handles point to. */
struct tlx_system;
struct tlx_model;
struct tlx_judge;

/* A request on channel A. `bytes[k]` goes to `address + k`, for k below 2^size; none is read of a get or a prefetch. `set[k]` is 0
 * if the byte is left unset, and any other number if it is set; it is read of a partial put (opcode 1) alone. */
struct tlx_request {
  uint64_t address;
  uint16_t source; /* the master's own */
  uint8_t opcode;  /* the numbers of channel A: 0 to 5 */
  uint8_t param;
  uint8_t size;    /* log2 of the number of bytes */
  uint8_t bytes[TLX_ROOM];
  uint8_t set[TLX_ROOM];
};

/* What a request is answered. `bytes` holds `count` bytes, and `known` as many flags: 1 if the byte is known, else 0, and then the byte is 0
 * as well. The bytes of a denied reply are known, and zero. After them both are as they were. */
struct tlx_answer {
  uint64_t port;   /* the port that served it; the error port has the number after the last */
  uint64_t place;  /* how many requests that port had served before, modulo 2^64 */
  uint64_t count;  /* 2^size of opcode 1, else 0 */
  uint16_t source; /* the request's */
  uint8_t opcode;  /* the numbers of channel D: 0 to 2 */
  uint8_t size;
  uint8_t denied;  /* 0 or 1 */
  uint8_t bytes[TLX_ROOM];
  uint8_t known[TLX_ROOM];
};

/* A beat that crossed a link, valid and ready. The bus of its link says how many lanes are read: `lanes` and `known` have the first for lane 0,
 * and what stands in them from the bus on is nothing to the judge. Bit k of `known` says that lane k was seen; what is not known of a get,
 * of a reply without bytes or of a beat that is marked corrupt does not matter. `address` and `mask` are read of channel A alone, where a
 * bit of `mask` from the bus on is TLX_WRONG_MASK; `denied` of D alone. Another number than 0 and 1 in `corrupt`, or in `denied` of D, is
 * TLX_BAD_ARGUMENT.
 * `line` and `time` are the caller's own and stand in the text of a fault. The struct has 128 bytes; no padding stands before its last 7. */
struct tlx_beat {
  uint64_t line;
  uint64_t time;
  uint64_t number;  /* of the master or port, from 0 */
  uint64_t address;
  uint64_t mask;
  uint64_t known;
  uint16_t source;  /* at a master's link the master's own, at a port's the wide one */
  uint8_t side;     /* enum tlx_side */
  uint8_t channel;  /* enum tlx_channel */
  uint8_t opcode;
  uint8_t param;
  uint8_t size;
  uint8_t denied;   /* 0 or 1 */
  uint8_t corrupt;  /* 0 or 1 */
  uint8_t lanes[TLX_LANES];
};

/* The largest size of a message, as log2 of its bytes. */
uint8_t tlx_largest_size(void);

/* The version of the header that the library was built for: TLX_VERSION of that header. */
uint32_t tlx_version(void);

/* Texts. A text call writes as much of the text as fits with a zero byte after it; `written` is the length of what it wrote without that
 * byte, and may be null. With no room it writes nothing. The longest text has under 1,600 bytes, but for the name of an image's file, which
 * may be as long as a system file. */

/* The words of a fault's number, as `tlx` and `tlcheck` say them; `unknown fault` of a number that is none.
 * Faults: TLX_NULL. */
uint32_t tlx_fault_text(uint32_t fault, char *text, size_t room, size_t *written);

/* Reads what the bytes of a system file name, and writes the text of a fault of the file (which also names the key, master or port) into
 * `why`, an empty one if there is none, or no memory for it. A script of tlx is a system file; its slots and operations are not looked at. A
 * key that no table of its kind has is a fault. `version` is TLX_VERSION.
 * Faults: TLX_NULL, TLX_OTHER_VERSION, TLX_TOO_LONG, TLX_NOT_TOML, TLX_UNKNOWN_KEY; then key by key, in the order that
 * docs/reference/faults.md has, TLX_MISSING, TLX_WRONG_TYPE, TLX_OUT_OF_RANGE; then TLX_TWO_CALLED. After TLX_NULL, TLX_MEMORY may come at any
 * point. */
uint32_t tlx_system_read(const void *file, size_t length, uint32_t version, struct tlx_system **system, char *why, size_t room);

/* How many ports a system has. The error port is none of them.
 * Faults: TLX_NULL. */
uint32_t tlx_system_ports(const struct tlx_system *system, uint64_t *ports);

/* The file of a port's image, as the system file names it (from its own folder on); an empty text if it names none for that port. A name that
 * fills the room may have been cut off.
 * Faults: TLX_NULL. */
uint32_t tlx_system_image_name(const struct tlx_system *system, uint64_t port, char *text, size_t room, size_t *written);

/* Hands in the bytes of a port's image, which are copied, in the place of those that were handed in before. There may be none. The text of a
 * fault is written as tlx_system_read does. After a fault the images are as they were.
 * Faults: TLX_NULL, TLX_NO_PORT, TLX_NO_IMAGE, TLX_LONG_IMAGE, TLX_MEMORY. */
uint32_t tlx_system_image(struct tlx_system *system, uint64_t port, const void *bytes, size_t length, char *why, size_t room);

/* Gives a system back. What was made of it stays. */
void tlx_system_free(struct tlx_system *system);

/* Makes the model of a system, before any request. The text of a fault is written as tlx_system_read does.
 * Faults: TLX_NULL, TLX_IMAGE_UNREADABLE (of the first port whose image was not handed in), TLX_BAD_PORTS, TLX_BAD_SOURCES. After TLX_NULL,
 * TLX_MEMORY may come at any point. */
uint32_t tlx_model_make(const struct tlx_system *system, struct tlx_model **model, char *why, size_t room);

/* Makes a model that goes on from where another one is: it has the same bytes, and its counts go on. Neither changes with the other.
 * Faults: TLX_NULL, TLX_MEMORY. */
uint32_t tlx_model_clone(const struct tlx_model *model, struct tlx_model **clone);

void tlx_model_free(struct tlx_model *model);

/* Serves a request of a master at once, and says what it is answered: what a judge of the masters' links expects. A request that the
 * crossbar denies is served too: its answer says `denied`. TLX_DEVICE says that the request has gone to a device, and is counted there: all of
 * the answer is written, but what the device answers is for the caller to say, so `denied` is 0 and no byte is known. After another
 * fault the answer is as it was, and nothing is served.
 * Faults: TLX_NULL, TLX_NO_OPERATION, TLX_SIZE, TLX_NO_MASTER, TLX_NO_SOURCE, TLX_MEMORY, TLX_DEVICE. */
uint32_t tlx_model_serve(struct tlx_model *model, uint64_t master, const struct tlx_request *request, struct tlx_answer *answer);

/* Looks at the byte at an address, of whatever size its port serves requests, and whichever master has a path there: `known` is 1 if it is
 * known, else 0, and then `byte` is 0. A byte that changes by itself (`volatile`) is never known. After a fault both are as they were.
 * Faults: TLX_NULL, TLX_NO_BYTE, TLX_DEVICE. */
uint32_t tlx_model_peek(const struct tlx_model *model, uint64_t address, uint8_t *byte, uint32_t *known);

/* Puts a byte at an address, at a ROM too: a known one if `known` is 1, and an unknown one if it is 0. No request is counted.
 * Faults: TLX_NULL, TLX_BAD_ARGUMENT, TLX_NO_BYTE, TLX_DEVICE, TLX_MEMORY. */
uint32_t tlx_model_poke(struct tlx_model *model, uint64_t address, uint8_t byte, uint32_t known);

/* Resets the whole system. The system file must say `resets = true`. A port with `on_reset = "load"` (registers, unless the file says
 * otherwise) holds again what it held before any request, and any other port keeps its bytes. The places of requests go on. For a model
 * as at the beginning make another one of the system.
 * Faults: TLX_NULL, TLX_NO_LINK (the system file does not say `resets = true`), TLX_MEMORY. */
uint32_t tlx_model_reset(struct tlx_model *model);

/* How many masters there are, and how many ports, the error port among them as the last.
 * Faults: TLX_NULL. */
uint32_t tlx_model_masters(const struct tlx_model *model, uint64_t *masters);
uint32_t tlx_model_ports(const struct tlx_model *model, uint64_t *ports);

/* Makes the judge of a system, before any beat: `links` are the links that are watched (enum tlx_links). `masters` and `ports` say when a
 * request takes effect at a port for which the file does not say it, as it is judged at the masters' links and at the ports' (enum
 * tlx_order): give the same twice if both sides agree. The text of a fault is written as tlx_system_read does.
 * Faults: TLX_NULL, TLX_BAD_ARGUMENT, TLX_IMAGE_UNREADABLE (of the first port whose image was not handed in), TLX_BAD_PORTS, TLX_BAD_SOURCES.
 * After TLX_NULL, TLX_MEMORY may come at any point. */
uint32_t tlx_judge_make(const struct tlx_system *system, uint32_t links, uint32_t masters, uint32_t ports, struct tlx_judge **judge, char *why,
                        size_t room);

/* Makes the judge of a file that names no image in one call, as tlx_system_read and then tlx_judge_make.
 * Faults: TLX_NULL, TLX_OTHER_VERSION, TLX_BAD_ARGUMENT, TLX_TOO_LONG, TLX_NOT_TOML, TLX_UNKNOWN_KEY; then key by key TLX_MISSING,
 * TLX_WRONG_TYPE, TLX_OUT_OF_RANGE; then TLX_TWO_CALLED, TLX_IMAGE_UNREADABLE (of the first port that names an image), TLX_BAD_PORTS,
 * TLX_BAD_SOURCES. After TLX_NULL, TLX_MEMORY may come at any point. */
uint32_t tlx_judge_read(const void *file, size_t length, uint32_t version, uint32_t links, uint32_t masters, uint32_t ports,
                        struct tlx_judge **judge, char *why, size_t room);

/* Makes a judge that goes on from where another one is, with its counts and its text. Neither changes with the other.
 * Faults: TLX_NULL, TLX_MEMORY. */
uint32_t tlx_judge_clone(const struct tlx_judge *judge, struct tlx_judge **clone);

void tlx_judge_free(struct tlx_judge *judge);

/* Judges one beat more: TLX_OK if what crossed so far is lawful with it, else the first fault that it has, which changes nothing but the
 * text. Of one clock cycle give the beats in the order in which they cross, or all of them to tlx_judge_cycle.
 * TLX_MEMORY says that the beat is lawful and nothing has changed (above): the same beat may be given again.
 * Faults: TLX_NULL, TLX_BAD_ARGUMENT, TLX_NO_LINK, TLX_MEMORY, and those of a beat. */
uint32_t tlx_judge_step(struct tlx_judge *judge, const struct tlx_beat *beat);

/* Judges the beats of an array in turn, each as tlx_judge_step does, up to the first that is refused. `judged` says how many were judged
 * before it, all after TLX_OK.
 * Faults: TLX_NULL, and those of tlx_judge_step. */
uint32_t tlx_judge_steps(struct tlx_judge *judge, const struct tlx_beat *beats, size_t count, size_t *judged);

/* Judges the beats of one clock cycle, which stand in any order, in the order in which they cross: channel A of the masters' links, then A of
 * the ports', D of the ports', and D of the masters', each by rising number of the link. `at` is the place in the array of the first that is
 * refused, and `count` if none is. The beats that cross before that one were judged, and those after it were not.
 * Faults: TLX_NULL, TLX_BAD_ARGUMENT (of the first beat in the array with another side or channel; then none was judged), and those of
 * tlx_judge_step. */
uint32_t tlx_judge_cycle(struct tlx_judge *judge, const struct tlx_beat *beats, size_t count, size_t *at);

/* Tells the judge that the whole system is reset now. The system file must say `resets = true`. The beats after this call are those after
 * the reset: no message is under way, and no request is in flight. A port with `on_reset = "load"` (registers, unless the file says
 * otherwise) holds again what it held before any request. A port with `on_reset = "keep"` (any other port) keeps its bytes. But of these
 * nobody knows the ones that a request may write which the reset cut short, so a reply may have any value there, also unknown lanes. A
 * request is cut short if it began and did not end, or if it ended and its reply did not begin.
 * The text and the counts go on. tlx_judge_requests and tlx_judge_answered have the messages before the reset too, so tlx_judge_in_flight
 * has the whole requests whose whole reply never came because of the reset. tlx_judge_end does not look at these.
 * Faults: TLX_NULL, TLX_NO_LINK (the system file does not say `resets = true`), TLX_MEMORY. */
uint32_t tlx_judge_reset(struct tlx_judge *judge);

/* Asks whether every request that began since the last reset has its whole reply, at the masters' links if these are watched and else at
 * the ports': TLX_OK, or TLX_INCOMPLETE. Then the text is the line that names the oldest request, with the `line` and the `time` of its first beat:
 * `incomplete: 2 requests without reply, the first: line 4, time 12, m0 s3 get 0x1000 2`. Nothing else changes, and more beats may be judged.
 * Faults: TLX_NULL, TLX_INCOMPLETE. */
uint32_t tlx_judge_end(struct tlx_judge *judge);

/* The line of the last fault of a beat (TLX_FIELD_CHANGED to TLX_WRONG_REPLY, TLX_OUT_OF_ORDER) or of the end, as tlcheck says it of a capture,
 * with its line end and with the `line` and the `time` of the struct: `unlawful: line 4, time 12, p0 D: wrong reply: expected .., captured ..`.
 * Empty before the first; a lawful beat leaves it as it was.
 * Faults: TLX_NULL. */
uint32_t tlx_judge_text(const struct tlx_judge *judge, char *text, size_t room, size_t *written);

/* How many whole requests and whole replies were seen, at the masters' links if these are watched and else at the ports', and how many
 * of the requests have no whole reply yet.
 * Faults: TLX_NULL. */
uint32_t tlx_judge_requests(const struct tlx_judge *judge, uint64_t *requests);
uint32_t tlx_judge_answered(const struct tlx_judge *judge, uint64_t *answered);
uint32_t tlx_judge_in_flight(const struct tlx_judge *judge, uint64_t *in_flight);

#ifdef __cplusplus
}
#endif

#endif
