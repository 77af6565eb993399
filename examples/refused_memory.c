/* Preloaded, refuses the allocation with the number in REFUSE, counted from 1, and all later ones where REFUSE_ON is set.
   At the end the number of allocations is written to the file named in COUNTED. */
#define _GNU_SOURCE
#include <dlfcn.h>
#include <stdio.h>
#include <stdlib.h>

static unsigned long count, refused;
static int on;
static void *(*next_malloc)(size_t);
static void *(*next_calloc)(size_t, size_t);
static void *(*next_realloc)(void *, size_t);
static void *(*next_aligned)(size_t, size_t);
static int (*next_posix)(void **, size_t, size_t);

__attribute__((constructor)) static void begin(void) {
  next_malloc = dlsym(RTLD_NEXT, "malloc");
  next_calloc = dlsym(RTLD_NEXT, "calloc");
  next_realloc = dlsym(RTLD_NEXT, "realloc");
  next_aligned = dlsym(RTLD_NEXT, "aligned_alloc");
  next_posix = dlsym(RTLD_NEXT, "posix_memalign");
  const char *word = getenv("REFUSE");
  refused = word ? strtoul(word, 0, 10) : 0;
  on = getenv("REFUSE_ON") != 0;
  count = 0;
}

static int refuses(void) {
  count++;
  return refused && (on ? count >= refused : count == refused);
}

void *malloc(size_t size) {
  if (!next_malloc) begin();
  return refuses() ? 0 : next_malloc(size);
}

void *calloc(size_t number, size_t size) {
  if (!next_calloc) begin();
  return refuses() ? 0 : next_calloc(number, size);
}

void *realloc(void *old, size_t size) {
  if (!next_realloc) begin();
  return refuses() ? 0 : next_realloc(old, size);
}

void *aligned_alloc(size_t alignment, size_t size) {
  if (!next_aligned) begin();
  return refuses() ? 0 : next_aligned(alignment, size);
}

int posix_memalign(void **place, size_t alignment, size_t size) {
  if (!next_posix) begin();
  return refuses() ? 12 : next_posix(place, alignment, size);
}

__attribute__((destructor)) static void end(void) {
  const char *name = getenv("COUNTED");
  unsigned long counted = count;
  refused = 0;
  if (name) {
    FILE *file = fopen(name, "w");
    if (file) {
      fprintf(file, "%lu\n", counted);
      fclose(file);
    }
  }
}
