/* Refuses one request for memory of the program that it is preloaded into: the one of the number in REFUSE, counted from 1.
 * The number of requests made is written to the file descriptor COUNT, if there is one, when the program ends. */
#define _GNU_SOURCE
#include <errno.h>
#include <stdatomic.h>
#include <stdio.h>
#include <stdlib.h>
#include <sys/syscall.h>
#include <unistd.h>

static atomic_long made;
static long refused;
static int is_on;

static int refuses(void) {
  if (!is_on) return 0;
  if (atomic_fetch_add(&made, 1) + 1 != refused) return 0;
  errno = ENOMEM;
  return 1;
}

extern void *__libc_malloc(size_t);
extern void *__libc_calloc(size_t, size_t);
extern void *__libc_realloc(void *, size_t);
extern void *__libc_memalign(size_t, size_t);

void *malloc(size_t size) { return refuses() ? NULL : __libc_malloc(size); }
void *calloc(size_t count, size_t size) { return refuses() ? NULL : __libc_calloc(count, size); }
void *realloc(void *old, size_t size) { return refuses() ? NULL : __libc_realloc(old, size); }
void *aligned_alloc(size_t align, size_t size) { return refuses() ? NULL : __libc_memalign(align, size); }
int posix_memalign(void **made_at, size_t align, size_t size) {
  if (refuses()) return ENOMEM;
  *made_at = __libc_memalign(align, size);
  return *made_at ? 0 : ENOMEM;
}

__attribute__((constructor)) static void begin(void) {
  const char *number = getenv("REFUSE");
  refused = number ? atol(number) : 0;
  is_on = 1;
}

static void tell(void) {
  const char *to = getenv("COUNT");
  is_on = 0;
  if (to) dprintf(atoi(to), "%ld\n", atomic_load(&made));
}

/* A program with threads ends by this call, which runs no destructor; one without returns from its main function. */
void _exit(int status) {
  tell();
  syscall(SYS_exit_group, status);
  __builtin_unreachable();
}

__attribute__((destructor)) static void end(void) { tell(); }
