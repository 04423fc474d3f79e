/* Makes the streams of the program that it is preloaded into slow, and lets them fail. STREAMS has a line for each: its name (the name of
 * a file, or the descriptor 0 or 1), how many bytes a call gives or takes at most, its trouble, and a number. The calls of a stream are
 * counted from 0. The file CALLS gets a line with the name of each stream and how often it was called, when the program ends. */
#define _GNU_SOURCE
#include <errno.h>
#include <fcntl.h>
#include <stdio.h>
#include <stdlib.h>
#include <string.h>
#include <sys/syscall.h>
#include <unistd.h>

#define MOST 8
#define DESCRIPTORS 64

struct stream {
  char name[64], trouble[16];
  unsigned long step, number, calls;
};

static struct stream streams[MOST];
static int count;
/* What is known of a descriptor: its stream, none, or nothing yet. */
static struct stream *known[DESCRIPTORS];
static struct stream none;

static struct stream *named(const char *name) {
  for (int k = 0; k < count; k++)
    if (strcmp(streams[k].name, name) == 0) return &streams[k];
  return &none;
}

static struct stream *find(int descriptor) {
  char link[32], path[4096], digits[16];
  snprintf(digits, sizeof digits, "%d", descriptor);
  if (descriptor < 3) return named(digits);
  snprintf(link, sizeof link, "/proc/self/fd/%d", descriptor);
  ssize_t length = readlink(link, path, sizeof path - 1);
  if (length < 0) return &none;
  path[length] = 0;
  char *slash = strrchr(path, '/');
  return named(slash ? slash + 1 : path);
}

static struct stream *stream_of(int descriptor) {
  if (descriptor < 0 || descriptor >= DESCRIPTORS) return &none;
  if (!known[descriptor]) known[descriptor] = find(descriptor);
  return known[descriptor];
}

/* The error of a call, or 0 if it does its work. */
static int error_of(const struct stream *it, unsigned long call) {
  if (strcmp(it->trouble, "fails") == 0) return call == it->number ? EIO : 0;
  if (strcmp(it->trouble, "broken") == 0) return EIO;
  if (strcmp(it->trouble, "between") == 0) return call % it->number != 0 ? EINTR : 0;
  if (strcmp(it->trouble, "before") == 0) return call % 2 == 0 ? EINTR : 0;
  if (strcmp(it->trouble, "both") == 0) return call == it->number ? EIO : call % 2 == 0 ? EINTR : 0;
  if (strcmp(it->trouble, "forever") == 0) return EINTR;
  return 0;
}

static size_t least(size_t one, size_t other) { return one < other ? one : other; }

ssize_t read(int descriptor, void *to, size_t size) {
  struct stream *it = stream_of(descriptor);
  if (it == &none) return syscall(SYS_read, descriptor, to, size);
  int error = error_of(it, it->calls++);
  if (!error) return syscall(SYS_read, descriptor, to, least(size, it->step));
  errno = error;
  return -1;
}

ssize_t write(int descriptor, const void *from, size_t size) {
  struct stream *it = stream_of(descriptor);
  if (it == &none) return syscall(SYS_write, descriptor, from, size);
  unsigned long call = it->calls++;
  int error = error_of(it, call);
  if (strcmp(it->trouble, "full") == 0 && call == it->number) return 0;
  if (!error) return syscall(SYS_write, descriptor, from, least(size, it->step));
  errno = error;
  return -1;
}

int close(int descriptor) {
  if (descriptor >= 0 && descriptor < DESCRIPTORS) known[descriptor] = NULL;
  return syscall(SYS_close, descriptor);
}

__attribute__((constructor)) static void begin(void) {
  const char *line = getenv("STREAMS");
  while (line && *line && count < MOST) {
    struct stream *it = &streams[count];
    if (sscanf(line, "%63s %lu %15s %lu", it->name, &it->step, it->trouble, &it->number) != 4) abort();
    count++;
    line = strchr(line, '\n');
    line = line ? line + 1 : NULL;
  }
}

static void tell(void) {
  const char *to = getenv("CALLS");
  int descriptor = to ? open(to, O_WRONLY | O_CREAT | O_TRUNC, 0600) : -1;
  if (descriptor < 0) return;
  for (int k = 0; k < count; k++) dprintf(descriptor, "%s %lu\n", streams[k].name, streams[k].calls);
}

/* A program with threads ends by this call, which runs no destructor; one without returns from its main function. */
void _exit(int status) {
  tell();
  syscall(SYS_exit_group, status);
  __builtin_unreachable();
}

__attribute__((destructor)) static void end(void) { tell(); }
