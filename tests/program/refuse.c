// A library to preload. It counts the allocations of all threads of the program in their order, refuses the one whose number,
// from 1, is REFUSED_ALLOCATION, and writes the count to the file ALLOCATION_COUNT when the program ends.
#define _GNU_SOURCE
#include <dlfcn.h>
#include <errno.h>
#include <fcntl.h>
#include <stdatomic.h>
#include <stdio.h>
#include <stdlib.h>
#include <sys/syscall.h>
#include <unistd.h>

static atomic_long count;

static int is_refused(void) {
  const char *number = getenv("REFUSED_ALLOCATION");
  long mine = atomic_fetch_add(&count, 1) + 1;
  if (number == NULL || atol(number) != mine) return 0;
  errno = ENOMEM;
  return 1;
}

void *malloc(size_t size) {
  static void *(*next)(size_t);
  if (next == NULL) next = (void *(*)(size_t))dlsym(RTLD_NEXT, "malloc");
  return is_refused() ? NULL : next(size);
}

void *realloc(void *old, size_t size) {
  static void *(*next)(void *, size_t);
  if (next == NULL) next = (void *(*)(void *, size_t))dlsym(RTLD_NEXT, "realloc");
  return is_refused() ? NULL : next(old, size);
}

__attribute__((destructor)) static void write_count(void) {
  const char *path = getenv("ALLOCATION_COUNT");
  if (path == NULL) return;
  int file = open(path, O_WRONLY | O_CREAT | O_TRUNC, 0600);
  if (file < 0) return;
  dprintf(file, "%ld\n", atomic_load(&count));
  close(file);
}

// A program that ends by `_exit` runs no destructor.
void _exit(int status) {
  write_count();
  syscall(SYS_exit_group, status);
  __builtin_unreachable();
}
