"""A library that is loaded before the C library's own functions: it counts what a program asks for, allocations and starts of
threads, and can refuse one of either. It also counts the started threads that asked for an allocation, and can have each start wait until
its thread runs, so that threads have their share on a busy machine too. It can have standard input
give, and standard output take, a few bytes at a time, have one call of either fail, and interrupt each call of either some times
before it does anything. `cc` compiles it.

It ends a program with the status 99 if a thread that began wasn't joined, or hadn't ended when it was."""
import subprocess
import tempfile

from program import answer

LIBRARY = r"""
#define _GNU_SOURCE
#include <dlfcn.h>
#include <errno.h>
#include <fcntl.h>
#include <pthread.h>
#include <sched.h>
#include <stdatomic.h>
#include <stdio.h>
#include <stdlib.h>
#include <sys/syscall.h>
#include <unistd.h>

enum { UNWRITTEN = 98, UNJOINED = 99 };

extern void *__libc_malloc(size_t), *__libc_calloc(size_t, size_t), *__libc_realloc(void *, size_t);
extern void __libc_free(void *);

struct start { void *(*run)(void *); void *given; atomic_int *runs; };

static int (*create)(pthread_t *, const pthread_attr_t *, void *(*)(void *), void *);
static int (*wait_for)(pthread_t, void **);
static atomic_long allocations, starts, begun, ended, joined, working, reads, writes, interruptions;
static _Thread_local int has_asked;

__attribute__((constructor)) static void find(void) {
  create = dlsym(RTLD_NEXT, "pthread_create");
  wait_for = dlsym(RTLD_NEXT, "pthread_join");
}

static long number(const char *name) {
  const char *text = getenv(name);
  return text ? atol(text) : 0;
}

// Counts one more, and tells whether it is the one that the environment has refused.
static int refuses(atomic_long *count, const char *name) {
  return atomic_fetch_add(count, 1) + 1 == number(name);
}

static int refuses_memory(void) {
  has_asked = 1;
  if (!refuses(&allocations, "REFUSED_ALLOCATION")) return 0;
  errno = ENOMEM;
  return 1;
}

void *malloc(size_t size) { return refuses_memory() ? NULL : __libc_malloc(size); }
void *calloc(size_t count, size_t size) { return refuses_memory() ? NULL : __libc_calloc(count, size); }
void *realloc(void *block, size_t size) { return refuses_memory() ? NULL : __libc_realloc(block, size); }

static void *run(void *handed) {
  struct start start = *(struct start *)handed;
  __libc_free(handed);
  if (start.runs) atomic_store(start.runs, 1);
  void *result = start.run(start.given);
  atomic_fetch_add(&working, has_asked);
  atomic_fetch_add(&ended, 1);
  return result;
}

int pthread_create(pthread_t *thread, const pthread_attr_t *how, void *(*body)(void *), void *given) {
  struct start *start = refuses(&starts, "REFUSED_START") ? NULL : __libc_malloc(sizeof *start);
  if (!start) return EAGAIN;
  atomic_int runs = !number("WAITS");
  *start = (struct start){body, given, runs ? NULL : &runs};
  int status = create(thread, how, run, start);
  if (status) {
    __libc_free(start);
    return status;
  }
  atomic_fetch_add(&begun, 1);
  while (!atomic_load(&runs)) sched_yield();
  return 0;
}

int pthread_join(pthread_t thread, void **result) {
  int status = wait_for(thread, result);
  if (!status) atomic_fetch_add(&joined, 1);
  return status;
}

// How many bytes, of so many, a stream gives or takes at once.
static size_t some(size_t count) {
  size_t most = number("STEP");
  return most && most < count ? most : count;
}

// Whether a signal interrupts a call, as often as the environment says before each that isn't interrupted.
static int interrupts(void) {
  long times = number("INTERRUPTIONS");
  if (atomic_fetch_add(&interruptions, 1) % (times + 1) == times) return 0;
  errno = EINTR;
  return 1;
}

ssize_t read(int file, void *bytes, size_t count) {
  if (file != STDIN_FILENO) return syscall(SYS_read, file, bytes, count);
  if (interrupts()) return -1;
  if (!refuses(&reads, "REFUSED_READ")) return syscall(SYS_read, file, bytes, some(count));
  errno = EIO;
  return -1;
}

ssize_t write(int file, const void *bytes, size_t count) {
  if (file != STDOUT_FILENO) return syscall(SYS_write, file, bytes, count);
  if (interrupts()) return -1;
  if (refuses(&writes, "EMPTY_WRITE")) return 0;
  if (atomic_load(&writes) != number("REFUSED_WRITE")) return syscall(SYS_write, file, bytes, some(count));
  errno = ENOSPC;
  return -1;
}

// Writes the counts, and gives the status that a run ends with.
static int after(int status) {
  const char *path = getenv("COUNTS");
  char line[96];
  if (path) {
    int file = open(path, O_WRONLY | O_CREAT | O_TRUNC, 0600);
    int length = snprintf(line, sizeof line, "%ld %ld %ld\n", allocations, starts, working);
    if (write(file, line, length) != length || close(file)) return UNWRITTEN;
  }
  return begun == joined && ended == joined ? status : UNJOINED;
}

void _exit(int status) {
  syscall(SYS_exit_group, after(status));
  __builtin_unreachable();
}

__attribute__((destructor)) static void end(void) {
  int status = after(0);
  if (status) syscall(SYS_exit_group, status);
}
"""


def compiled(folder):
    """The library, in a folder."""
    library = f"{folder}/refusing.so"
    words = ["cc", "-shared", "-fPIC", "-O1", "-Wall", "-Wextra", "-Werror", "-x", "c", "-", "-o", library]
    subprocess.run(words, input=LIBRARY.encode(), check=True)
    return library


def refused(library, program, words, given, waits=0, **numbers):
    """What is answered if the allocation, start, read or write of this number is refused, each from 1."""
    return changed(library, program, words, given, waits=waits, **{f"refused_{name}": number for name, number in numbers.items()})


def changed(library, program, words, given, **numbers):
    """What is answered in an environment with these numbers: `step`, how many bytes a stream gives or takes at a time,
    `empty_write`, which write takes nothing, `interruptions`, how often each read and write is interrupted before, `waits`, whether a
    start waits until its thread runs, and those of `refused`."""
    around = {name.upper(): str(number) for name, number in numbers.items()}
    return answer(program, words, given, around={"LD_PRELOAD": library, **around})


def counted(library, program, words, given, **numbers):
    """What is answered in an environment with these numbers; and how many allocations and starts of threads were asked for, and in how
    many of the started threads allocations were, or nothing if the run left no counts."""
    with tempfile.NamedTemporaryFile("r") as counts:
        found = changed(library, program, words, given, counts=counts.name, **numbers)
        return found, tuple(map(int, counts.read().split()))
