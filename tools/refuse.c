/* Refuses memory to a program that this library is loaded into (LD_PRELOAD): tools/refuse uses it.

   FAIL_AT=N refuses the Nth request for memory alone, FAIL_FROM=N the Nth and all after it. COUNT_FILE names a file
   in which the number of requests is kept, in 8 bytes, as the machine holds a long. */
#define _GNU_SOURCE
#include <dlfcn.h>
#include <errno.h>
#include <fcntl.h>
#include <stdatomic.h>
#include <stdlib.h>
#include <sys/mman.h>
#include <unistd.h>

static _Atomic long own;
static _Atomic long *count = &own;
static long at, from;

static void *real(const char *name) { return dlsym(RTLD_NEXT, name); }

static long number(const char *name) {
  const char *text = getenv(name);
  return text ? atol(text) : 0;
}

__attribute__((constructor)) static void begin(void) {
  const char *path = getenv("COUNT_FILE");
  int file = path ? open(path, O_RDWR | O_CREAT, 0644) : -1;
  if (file >= 0 && !ftruncate(file, sizeof *count)) {
    void *kept = mmap(0, sizeof *count, PROT_READ | PROT_WRITE, MAP_SHARED, file, 0);
    if (kept != MAP_FAILED) count = kept;
  }
  if (file >= 0) close(file);
  *count = 0;
  at = number("FAIL_AT");
  from = number("FAIL_FROM");
}

static int refused(void) {
  long now = atomic_fetch_add(count, 1) + 1;
  if (now != at && !(from && now >= from)) return 0;
  errno = ENOMEM;
  return 1;
}

void *malloc(size_t size) {
  static void *(*next)(size_t);
  if (!next) next = real("malloc");
  return refused() ? 0 : next(size);
}

void *realloc(void *old, size_t size) {
  static void *(*next)(void *, size_t);
  if (!next) next = real("realloc");
  return refused() ? 0 : next(old, size);
}

void *aligned_alloc(size_t alignment, size_t size) {
  static void *(*next)(size_t, size_t);
  if (!next) next = real("aligned_alloc");
  return refused() ? 0 : next(alignment, size);
}

int posix_memalign(void **place, size_t alignment, size_t size) {
  static int (*next)(void **, size_t, size_t);
  if (!next) next = real("posix_memalign");
  return refused() ? ENOMEM : next(place, alignment, size);
}
