/* Refuses the allocation with the number REFUSE, counted from 1 over all threads, and keeps in the file REFUSE_COUNT how many were
   asked for, and how many of them behind the first byte that was written, eight bytes each: a program that ends at once runs no
   destructor, so the counts lie there all the time. */
#define _GNU_SOURCE
#include <dlfcn.h>
#include <errno.h>
#include <fcntl.h>
#include <stdlib.h>
#include <sys/mman.h>
#include <unistd.h>

static void *(*next_malloc)(size_t);
static void *(*next_realloc)(void *, size_t);
static ssize_t (*next_write)(int, const void *, size_t);
static long refused, unkept[2];
static long *asked = unkept;
static int counting, writing;

__attribute__((constructor)) static void begin(void) {
  const char *number = getenv("REFUSE"), *name = getenv("REFUSE_COUNT");
  next_malloc = dlsym(RTLD_NEXT, "malloc");
  next_realloc = dlsym(RTLD_NEXT, "realloc");
  next_write = dlsym(RTLD_NEXT, "write");
  refused = number ? atol(number) : 0;
  int file = name ? open(name, O_RDWR | O_CREAT | O_TRUNC, 0600) : -1;
  if (file >= 0 && ftruncate(file, sizeof unkept) == 0) {
    void *kept = mmap(NULL, sizeof unkept, PROT_READ | PROT_WRITE, MAP_SHARED, file, 0);
    if (kept != MAP_FAILED)
      asked = kept;
  }
  if (file >= 0)
    close(file);
  counting = 1;
}

static int is_refused(void) {
  if (!counting)
    return 0;
  if (__atomic_load_n(&writing, __ATOMIC_SEQ_CST))
    __atomic_add_fetch(asked + 1, 1, __ATOMIC_SEQ_CST);
  if (__atomic_add_fetch(asked, 1, __ATOMIC_SEQ_CST) != refused)
    return 0;
  errno = ENOMEM;
  return 1;
}

void *malloc(size_t size) {
  if (!next_malloc)
    next_malloc = dlsym(RTLD_NEXT, "malloc");
  return is_refused() ? NULL : next_malloc(size);
}

void *realloc(void *old, size_t size) {
  if (!next_realloc)
    next_realloc = dlsym(RTLD_NEXT, "realloc");
  return is_refused() ? NULL : next_realloc(old, size);
}

ssize_t write(int file, const void *bytes, size_t size) {
  if (!next_write)
    next_write = dlsym(RTLD_NEXT, "write");
  __atomic_store_n(&writing, 1, __ATOMIC_SEQ_CST);
  return next_write(file, bytes, size);
}
