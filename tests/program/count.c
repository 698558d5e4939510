// A library to preload. It counts the threads that the program starts, and notes the greatest number of bytes that it has allocated at one time.
// Both are written to the file WORK_COUNT when the program ends.
#define _GNU_SOURCE
#include <dlfcn.h>
#include <errno.h>
#include <fcntl.h>
#include <malloc.h>
#include <pthread.h>
#include <stdatomic.h>
#include <stdio.h>
#include <stdlib.h>
#include <sys/syscall.h>
#include <unistd.h>

void *__libc_malloc(size_t size);
void *__libc_calloc(size_t count, size_t size);
void *__libc_realloc(void *old, size_t size);
void *__libc_memalign(size_t alignment, size_t size);
void __libc_free(void *old);

static atomic_long threads, held, greatest;

static void *taken(void *block) {
  long size = block == NULL ? 0 : (long)malloc_usable_size(block);
  long now = atomic_fetch_add(&held, size) + size, before = atomic_load(&greatest);
  while (now > before && !atomic_compare_exchange_weak(&greatest, &before, now)) {}
  return block;
}

static void freed(void *block) {
  if (block != NULL) atomic_fetch_sub(&held, (long)malloc_usable_size(block));
}

void *malloc(size_t size) { return taken(__libc_malloc(size)); }

void *calloc(size_t count, size_t size) { return taken(__libc_calloc(count, size)); }

void *memalign(size_t alignment, size_t size) { return taken(__libc_memalign(alignment, size)); }

void *aligned_alloc(size_t alignment, size_t size) { return taken(__libc_memalign(alignment, size)); }

int posix_memalign(void **block, size_t alignment, size_t size) {
  void *found = taken(__libc_memalign(alignment, size));
  if (found == NULL) return ENOMEM;
  *block = found;
  return 0;
}

void *realloc(void *old, size_t size) {
  long before = old == NULL ? 0 : (long)malloc_usable_size(old);
  void *found = __libc_realloc(old, size);
  if (found == NULL && size != 0) return NULL;
  atomic_fetch_sub(&held, before);
  return taken(found);
}

void free(void *old) {
  freed(old);
  __libc_free(old);
}

int pthread_create(pthread_t *thread, const pthread_attr_t *attributes, void *(*start)(void *), void *argument) {
  static int (*next)(pthread_t *, const pthread_attr_t *, void *(*)(void *), void *);
  if (next == NULL) next = (int (*)(pthread_t *, const pthread_attr_t *, void *(*)(void *), void *))dlsym(RTLD_NEXT, "pthread_create");
  int status = next(thread, attributes, start, argument);
  if (status == 0) atomic_fetch_add(&threads, 1);
  return status;
}

__attribute__((destructor)) static void write_counts(void) {
  const char *path = getenv("WORK_COUNT");
  if (path == NULL) return;
  int file = open(path, O_WRONLY | O_CREAT | O_TRUNC, 0600);
  if (file < 0) return;
  dprintf(file, "%ld %ld\n", atomic_load(&threads), atomic_load(&greatest));
  close(file);
}

// A program that ends by `_exit` runs no destructor.
void _exit(int status) {
  write_counts();
  syscall(SYS_exit_group, status);
  __builtin_unreachable();
}
