"""Shows that --workers reaches the run, and that runs by threads end: tests/tools/workers_test counts the threads that the program starts.

No clause says how many threads a run starts. So a small library is preloaded, which notes each call of pthread_create (the compiler `cc`
builds it). A run starts a thread for each master. For each port, the error port among them, it starts the number that --workers gives, or
one if it is not given. With --serial it starts none. No clause can say that a run by threads ends, either: 200 random scripts of four masters
over two slots do, with one and with four threads a port, each request is answered, and all slots are free then. The last line is 'N passed,
M failed'. It needs the built program (./tlx builds it; TLX=path takes another).
"""

import os
import subprocess
import tempfile

from harness import need, run_test, tell, tell_cases
from tlxtools.common import SECONDS, TLX

# Appends a byte to the file THREADS_FILE for each thread that is started.
COUNTER = r"""
#define _GNU_SOURCE
#include <dlfcn.h>
#include <fcntl.h>
#include <pthread.h>
#include <stdlib.h>
#include <unistd.h>
int pthread_create(pthread_t *thread, const pthread_attr_t *how, void *(*body)(void *), void *given) {
  int (*real)(pthread_t *, const pthread_attr_t *, void *(*)(void *), void *) = dlsym(RTLD_NEXT, "pthread_create");
  int file = open(getenv("THREADS_FILE"), O_WRONLY | O_APPEND);
  if (file < 0 || write(file, "x", 1) != 1) abort();
  close(file);
  return real(thread, how, body, given);
}
"""
PORTS = 2
MASTERS = 3
SCRIPT = "slots = 4\n" + "".join(f"[[port]]\nkind = 'ram'\nbase = {base}\nlength = 64\n" for base in range(4096, 4096 + 64 * PORTS, 64)) + (
    "[[master]]\nsources = 2\nops = ['0 get 0x1000 2', '1 get 0x1040 2', '0 get 0x9000 2']\n" * MASTERS)


def threads_of(folder, words):
    """How many threads a run with these words starts."""
    told = os.path.join(folder, "threads")
    with open(told, "wb"):
        pass
    environment = {**os.environ, "LD_PRELOAD": os.path.join(folder, "count.so"), "THREADS_FILE": told}
    subprocess.run([TLX, *words], input=SCRIPT, stdout=subprocess.DEVNULL, env=environment, text=True, timeout=SECONDS, check=True)
    return os.path.getsize(told)


class Dice:
    """Numbers that look random, and are the same in each run."""

    def __init__(self, seed):
        self.last = seed

    def throw(self, sides):
        """A number below this one."""
        self.last = (self.last * 1_664_525 + 1_013_904_223) % (1 << 32)
        return (self.last >> 16) % sides

    def operation(self):
        """An operation from one of two sources, or a wait."""
        source = self.throw(2)
        return ("wait", f"{source} get 0x9000 0", f"{source} get 0x1004 2", f"{source} add 0x1000 2 01000000")[self.throw(4)]

    def masters(self):
        """Four masters with up to twelve operations each."""
        return [[self.operation() for _ in range(self.throw(13))] for _ in range(4)]


def is_ended(masters, workers):
    """Whether a random script ends by so many threads a port, with a line for each request and all slots free."""
    script = "slots = 2\nport = [{ kind = 'ram', base = 0x1000, length = 64 }]\n" + "".join(
        f"[[master]]\nsources = 2\nops = {operations}\n" for operations in masters)
    ran = subprocess.run([TLX, "--workers", str(workers)], input=script, capture_output=True, text=True, timeout=SECONDS, check=False)
    requests = sum(operation != "wait" for operations in masters for operation in operations)
    return (ran.stdout.count("\n"), ran.stdout.splitlines()[-1:], ran.stderr, ran.returncode) == (requests + 1, ["free 2 held 0"], "", 0)


def random_runs():
    """Whether the random scripts end as they should."""
    dice = Dice(2026)
    tell_cases([(is_ended, (dice.masters(), workers)) for _ in range(100) for workers in (1, 4)])


def main():
    need(TLX)
    cases = {(): 1, ("--serial",): 0, ("--history",): 1, ("--workers=4",): 4, ("--history", "--workers", "3"): 3}
    cases |= {("--workers", "2", "--serial"): 0, ("--serial", "--workers=4", "--history"): 0}
    cases |= {("--workers", str(number)): number for number in range(1, 5)}
    with tempfile.TemporaryDirectory() as folder:
        source = os.path.join(folder, "count.c")
        with open(source, "w", encoding="ascii") as text:
            text.write(COUNTER)
        subprocess.run(["cc", "-shared", "-fPIC", "-O1", source, "-o", os.path.join(folder, "count.so"), "-ldl"], check=True)
        for words, workers in cases.items():
            wanted = MASTERS + (PORTS + 1) * workers if workers else 0
            found = threads_of(folder, words)
            tell(f"tlx {' '.join(words)} starts {wanted} threads", found == wanted, f"it starts {found}")
    random_runs()


if __name__ == "__main__":
    run_test(main)
