#include "system.h"

#include <errno.h>
#include <malloc.h>
#include <stdbool.h>
#include <stddef.h>
#include <string.h>
#include <sys/mman.h>
#include <sys/types.h>
#include <time.h>

#include "../library.h"
#include "connection.h"

#ifndef __has_feature
#define __has_feature(it) 0
#endif
#if defined(__SANITIZE_ADDRESS__) || __has_feature(address_sanitizer)
#include <sanitizer/asan_interface.h>
#else
#define ASAN_POISON_MEMORY_REGION(at, size) ((void)(at), (void)(size))
#define ASAN_UNPOISON_MEMORY_REGION(at, size) ((void)(at), (void)(size))
#endif

enum { LARGE = 1 << 20, PAGE = 4096, GUARD = 4 << 20, MOST_MAPPINGS = 4096, MOST_UNSYNCED = 4096 };

struct refusals refusals;
unsigned mappings_standing;
static uint64_t passed;

// The mappings that stand between guards.
static struct {
  uint8_t *at;
  size_t size;
} mappings[MOST_MAPPINGS];

// What was written to the disk's file since fdatasync.
static struct {
  off_t offset, size;
} unsynced[MOST_UNSYNCED];
static unsigned unsynced_count;

// The linker makes these names of the system's and of the library's.
void *__real_mmap(void *at, size_t size, int protection, int flags, int fd, off_t offset);
int __real_munmap(void *at, size_t size);
ssize_t __real_pwrite(int fd, const void *bytes, size_t count, off_t offset);
int __real_fdatasync(int fd);
int __real_fallocate(int fd, int mode, off_t offset, off_t size);
int __real_clock_gettime(clockid_t clock, struct timespec *now);
enum vscsi_answer __real_vscsi_live_serve(struct vscsi_live *device, uint32_t queues, uint64_t most, uint64_t *steps, bool *more);
enum vscsi_answer __real_vscsi_live_create(struct vscsi_live *device, const struct vscsi_live_config *config, struct vscsi_disk *disks,
                                           struct vscsi_fault *fault);
void *__real_calloc(size_t count, size_t size);
void *__real_realloc(void *at, size_t size);
void *__real_malloc(size_t size);
void __real_free(void *at);
void *__wrap_malloc(size_t size);
void __wrap_free(void *at);
void *__wrap_calloc(size_t count, size_t size);
void *__wrap_realloc(void *at, size_t size);
void *__wrap_mmap(void *at, size_t size, int protection, int flags, int fd, off_t offset);
int __wrap_munmap(void *at, size_t size);
ssize_t __wrap_pwrite(int fd, const void *bytes, size_t count, off_t offset);
int __wrap_fdatasync(int fd);
int __wrap_fallocate(int fd, int mode, off_t offset, off_t size);
int __wrap_clock_gettime(clockid_t clock, struct timespec *now);
enum vscsi_answer __wrap_vscsi_live_serve(struct vscsi_live *device, uint32_t queues, uint64_t most, uint64_t *steps, bool *more);
enum vscsi_answer __wrap_vscsi_live_create(struct vscsi_live *device, const struct vscsi_live_config *config, struct vscsi_disk *disks,
                                           struct vscsi_fault *fault);

static size_t pages(size_t size) { return (size + PAGE - 1) / PAGE * PAGE; }

void *__wrap_mmap(void *at, size_t size, int protection, int flags, int fd, off_t offset) {
  if (fd < 0 || !(flags & MAP_SHARED) || mappings_standing == MOST_MAPPINGS) return __real_mmap(at, size, protection, flags, fd, offset);
  size_t all = pages(size) + 2 * (size_t)GUARD;
  uint8_t *guard = __real_mmap(NULL, all, PROT_NONE, MAP_PRIVATE | MAP_ANONYMOUS | MAP_NORESERVE, -1, 0), *inner = guard + GUARD;
  if (guard == MAP_FAILED) return MAP_FAILED;
  if (__real_mmap(inner, size, protection, flags | MAP_FIXED, fd, offset) == MAP_FAILED) {
    int error = errno;
    __real_munmap(guard, all);
    errno = error;
    return MAP_FAILED;
  }
  // What the last page has behind the mapping's end is no part of it.
  ASAN_POISON_MEMORY_REGION(inner + size, pages(size) - size);
  mappings[mappings_standing].at = inner;
  mappings[mappings_standing++].size = size;
  return inner;
}

int __wrap_munmap(void *at, size_t size) {
  for (unsigned i = 0; i < mappings_standing; i++) {
    if (mappings[i].at != at) continue;
    size_t mapped = mappings[i].size;
    uint8_t *inner = at;
    mappings[i] = mappings[--mappings_standing];
    ASAN_UNPOISON_MEMORY_REGION(inner + mapped, pages(mapped) - mapped);
    return __real_munmap(inner - GUARD, pages(mapped) + 2 * (size_t)GUARD);
  }
  return __real_munmap(at, size);
}

static bool is_refused(unsigned *left, int error) {
  if (!*left) return false;
  --*left;
  errno = error;
  return true;
}

static bool is_write_refused(int error) {
  if (!refusals.taken) return is_refused(&refusals.writes, error);
  refusals.taken--;
  return false;
}

static void note_write(off_t offset, off_t size) {
  if (unsynced_count == MOST_UNSYNCED) found("more writes than are noted");
  unsynced[unsynced_count].offset = offset;
  unsynced[unsynced_count++].size = size;
}

ssize_t __wrap_pwrite(int fd, const void *bytes, size_t count, off_t offset) {
  if (is_write_refused(ENOSPC)) return -1;
  note_write(offset, (off_t)count);
  return __real_pwrite(fd, bytes, count, offset);
}

int __wrap_fallocate(int fd, int mode, off_t offset, off_t size) {
  if (is_write_refused(ENOSPC)) return -1;
  note_write(offset, size);
  return __real_fallocate(fd, mode, offset, size);
}

int __wrap_fdatasync(int fd) {
  static uint8_t garbage[64 << 10];
  bool refused = is_write_refused(EIO);
  memset(garbage, 0xdd, sizeof garbage);
  // A system that couldn't write what it had may have forgotten it.
  for (unsigned i = 0; refused && i < unsynced_count; i++) {
    size_t size = (size_t)unsynced[i].size;
    if (__real_pwrite(fd, garbage, size < sizeof garbage ? size : sizeof garbage, unsynced[i].offset) < 0) found("no write");
  }
  unsynced_count = 0;
  return refused ? -1 : __real_fdatasync(fd);
}

// A device's memory that was given back is kept for the next device, and nobody may touch it meanwhile. To have it from the system each
// time would take longer than all else that an input does.
static struct {
  void *at;
  size_t size;
} spare;

static void *take_spare(void) {
  void *at = spare.at;
  spare.at = NULL;
  ASAN_UNPOISON_MEMORY_REGION(at, spare.size);
  return at;
}

void *__wrap_malloc(size_t size) { return spare.at && size == spare.size ? take_spare() : __real_malloc(size); }

void __wrap_free(void *at) {
  size_t size = at ? malloc_usable_size(at) : 0;
  if (size < LARGE) {
    __real_free(at);
    return;
  }
  if (spare.at) __real_free(take_spare());
  spare.at = at;
  spare.size = size;
  ASAN_POISON_MEMORY_REGION(at, size);
}

void *__wrap_calloc(size_t count, size_t size) { return is_refused(&refusals.allocations, ENOMEM) ? NULL : __real_calloc(count, size); }
void *__wrap_realloc(void *at, size_t size) { return is_refused(&refusals.allocations, ENOMEM) ? NULL : __real_realloc(at, size); }

enum vscsi_answer __wrap_vscsi_live_serve(struct vscsi_live *device, uint32_t queues, uint64_t most, uint64_t *steps, bool *more) {
  return is_refused(&refusals.serves, ENOMEM) ? VSCSI_NO_MEMORY : __real_vscsi_live_serve(device, queues, most, steps, more);
}

enum vscsi_answer __wrap_vscsi_live_create(struct vscsi_live *device, const struct vscsi_live_config *config, struct vscsi_disk *disks,
                                           struct vscsi_fault *fault) {
  return is_refused(&refusals.serves, ENOMEM) ? VSCSI_NO_MEMORY : __real_vscsi_live_create(device, config, disks, fault);
}

void system_begin(void) {
  refusals = (struct refusals){0};
  unsynced_count = 0;
}

void time_pass(uint64_t milliseconds) { passed += milliseconds; }

int __wrap_clock_gettime(clockid_t clock, struct timespec *now) {
  int status = __real_clock_gettime(clock, now);
  if (clock == CLOCK_MONOTONIC) now->tv_sec += (time_t)(passed / 1000);
  return status;
}
