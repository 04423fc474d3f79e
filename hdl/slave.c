/* What tl_slave.sv imports if TL_MODEL is defined: a model of the system for each slave, whose memory is that of its port.
 *
 * A model is handed the request of a master, and a slave knows only the source at its link. So a request is that of any master whose requests
 * at its address go to this port. A master that has no path to it is answered by the error port, which keeps nothing. This file is C and C++. */
#include "svdpi.h"
#include "system.h"
#include "tlx.h"

#ifdef __cplusplus
extern "C" {
#endif

#define MAX_SLAVES 256
#define MAX_TEXT 2048

enum { GIVEN = 0, DENIED = 1, FREE = 2, FAILED = -1 };

struct slave {
  struct tlx_model *model;
  uint64_t port, masters;
  uint64_t master; /* the one whose request was served last */
  char text[MAX_TEXT]; /* what is wrong; empty until then */
};

static struct slave slaves[MAX_SLAVES];
static int opened;

static struct slave *slave_of(int slave) { return slave >= 0 && slave < opened ? &slaves[slave] : NULL; }

/* A slave for the port of this number of a system file: its number, which the other calls take. */
int tl_slave_open(const char *path, int port) {
  if (opened == MAX_SLAVES) return FAILED;
  struct slave *slave = &slaves[opened];
  char why[MAX_TEXT / 2];
  slave->port = (uint64_t)port;
  struct tlx_system *system = read_system(path, why, sizeof why);
  uint32_t fault = system ? tlx_model_make(system, &slave->model, why, sizeof why) : (uint32_t)TLX_EMPTY;
  tlx_system_free(system);
  if (fault == TLX_OK) fault = tlx_model_masters(slave->model, &slave->masters);
  if (fault != TLX_OK) {
    if (!why[0]) tlx_fault_text(fault, why, sizeof why, NULL);
    snprintf(slave->text, MAX_TEXT, "%s: %s", path, why);
  }
  return opened++;
}

/* What is wrong with a slave. */
const char *tl_slave_text(int slave) { return slave_of(slave) ? slave_of(slave)->text : "there is no such slave"; }

/* The whole system is reset. Of a system without resets nothing changes. */
void tl_slave_reset(int slave) {
  struct slave *it = slave_of(slave);
  if (it && it->model && tlx_model_reset(it->model) == TLX_MEMORY) snprintf(it->text, MAX_TEXT, "memory was refused to a reset");
}

/* Serves a request as one of the next master that has a path to the port, the last one first. */
static uint32_t serve(struct slave *slave, const struct tlx_request *request, struct tlx_answer *answer) {
  uint32_t fault = TLX_OK;
  for (uint64_t tried = 0; tried < slave->masters; tried++) {
    uint64_t master = (slave->master + tried) % slave->masters;
    fault = tlx_model_serve(slave->model, master, request, answer);
    if ((fault != TLX_OK && fault != TLX_DEVICE) || answer->port == slave->port) {
      slave->master = master;
      return fault;
    }
  }
  /* it is the request of no master: the address is none of the port's */
  answer->denied = 1;
  answer->count = 0;
  return TLX_OK;
}

/* Serves a request, whose bytes and mask have a bit for each of up to 256 bytes: GIVEN, DENIED, FREE if a device has to answer it, or FAILED.
 * The bytes of a reply, and which of them are known, are written if there are any. */
int tl_slave_serve(int slave, unsigned char opcode, unsigned char param, unsigned char size, unsigned long long address,
                   const svBitVecVal *mask, const svBitVecVal *data, svBitVecVal *bytes, svBitVecVal *known) {
  struct slave *it = slave_of(slave);
  struct tlx_request request;
  struct tlx_answer answer;
  if (!it || it->text[0]) return FAILED;
  memset(&request, 0, sizeof request);
  request.address = address;
  request.opcode = opcode;
  request.param = param;
  request.size = size;
  for (int k = 0; k < TLX_ROOM; k++) {
    request.bytes[k] = (uint8_t)(data[k / 4] >> 8 * (k % 4));
    request.set[k] = (uint8_t)(mask[k / 32] >> k % 32 & 1);
  }
  memset(bytes, 0, TLX_ROOM);
  memset(known, 0, TLX_ROOM / 8);
  uint32_t fault = serve(it, &request, &answer);
  if (fault == TLX_DEVICE) return FREE;
  if (fault != TLX_OK) {
    tlx_fault_text(fault, it->text, MAX_TEXT, NULL);
    return FAILED;
  }
  for (uint64_t k = 0; k < answer.count; k++) {
    bytes[k / 4] |= (svBitVecVal)answer.bytes[k] << 8 * (k % 4);
    known[k / 32] |= (svBitVecVal)(answer.known[k] != 0) << k % 32;
  }
  return answer.denied ? DENIED : GIVEN;
}

#ifdef __cplusplus
}
#endif
