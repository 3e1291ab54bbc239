#include "faults.h"

#include <errno.h>
#include <stdarg.h>
#include <stdio.h>
#include <string.h>
#include <sys/syscall.h>
#include <time.h>
#include <unistd.h>

#include "../library.h"
#include "../storage.h"
#include "../uring.h"

enum { MOST_WRITTEN = 4096 };

struct faults faults;
struct costs costs;

// What was written since fdatasync last went well.
static struct {
  off_t at;
  size_t count;
} written[MOST_WRITTEN];
static unsigned written_count;

// What the library takes by itself isn't the daemon's.
static bool is_serving;

void faults_clear(void) {
  faults = (struct faults){.passed = faults.passed, .storage = faults.storage};
  written_count = 0;
}

int clock_gettime(clockid_t clock, struct timespec *now) {
  int status = (int)syscall(SYS_clock_gettime, clock, now);
  if (clock != CLOCK_MONOTONIC) return status;
  now->tv_sec += (time_t)faults.passed;
  return status;
}

// Notes what was written.
static void note_written(off_t at, size_t count) {
  if (written_count == MOST_WRITTEN) return;
  written[written_count].at = at;
  written[written_count++].count = count;
}

// Has a file have something else than what was written.
static void spoil(int fd, off_t at, size_t count) {
  static char garbage[1 << 18];
  memset(garbage, 0xdd, sizeof garbage);
  syscall(SYS_pwrite64, fd, garbage, count, at);
}

ssize_t pwrite(int fd, const void *bytes, size_t count, off_t at) {
  bool fails = faults.write_error && (!faults.only || faults.only == fd);
  if (fails && !faults.writes) return errno = faults.write_error, -1;
  if (fails) faults.writes--;
  if (faults.slow) usleep(faults.slow);
  ssize_t here = (ssize_t)syscall(SYS_pwrite64, fd, bytes, count, at);
  if (here > 0) faults.bytes += (uint64_t)here;
  if (here > 0) note_written(at, (size_t)here);
  return here;
}

int fdatasync(int fd) {
  if (!faults.sync_error || !faults.bad_syncs) {
    written_count = 0;
    return (int)syscall(SYS_fdatasync, fd);
  }
  for (unsigned i = 0; i < written_count; i++) spoil(fd, written[i].at, written[i].count);
  written_count = 0;
  faults.bad_syncs--;
  return errno = faults.sync_error, -1;
}

void *__real_malloc(size_t size);
void *__real_calloc(size_t count, size_t size);
void *__real_realloc(void *at, size_t size);
void *__wrap_malloc(size_t size);
void *__wrap_calloc(size_t count, size_t size);
void *__wrap_realloc(void *at, size_t size);
int __wrap_snprintf(char *into, size_t room, const char *format, ...);

void *__wrap_malloc(size_t size) {
  costs.allocations += costs.counts && !is_serving;
  return __real_malloc(size);
}

void *__wrap_calloc(size_t count, size_t size) {
  costs.allocations += costs.counts && !is_serving;
  return __real_calloc(count, size);
}

void *__wrap_realloc(void *at, size_t size) {
  costs.allocations += costs.counts && !is_serving;
  if (faults.most && size > faults.most && !is_serving) return errno = ENOMEM, NULL;
  return __real_realloc(at, size);
}

int __wrap_snprintf(char *into, size_t room, const char *format, ...) {
  va_list list;
  costs.texts += costs.counts && !is_serving;
  va_start(list, format);
  int length = vsnprintf(into, room, format, list);
  va_end(list);
  return length;
}

enum vscsi_answer __real_vscsi_live_create(struct vscsi_live *device, const struct vscsi_live_config *config, struct vscsi_disk *disks,
                                           struct vscsi_fault *fault);
enum vscsi_answer __wrap_vscsi_live_create(struct vscsi_live *device, const struct vscsi_live_config *config, struct vscsi_disk *disks,
                                           struct vscsi_fault *fault);

enum vscsi_answer __wrap_vscsi_live_create(struct vscsi_live *device, const struct vscsi_live_config *config, struct vscsi_disk *disks,
                                           struct vscsi_fault *fault) {
  if (faults.creations) return faults.creations--, VSCSI_NO_MEMORY;
  return __real_vscsi_live_create(device, config, disks, fault);
}

enum vscsi_answer __real_vscsi_disk_load(struct vscsi_disk *disk, uint64_t first, uint32_t count, const void *bytes, size_t length);
enum vscsi_answer __wrap_vscsi_disk_load(struct vscsi_disk *disk, uint64_t first, uint32_t count, const void *bytes, size_t length);

enum vscsi_answer __wrap_vscsi_disk_load(struct vscsi_disk *disk, uint64_t first, uint32_t count, const void *bytes, size_t length) {
  if (faults.loads) return faults.loads--, VSCSI_NO_MEMORY;
  return __real_vscsi_disk_load(disk, first, count, bytes, length);
}

enum vscsi_answer __real_vscsi_live_serve(struct vscsi_live *device, uint32_t queues, uint64_t most, uint64_t *steps, bool *more);
enum vscsi_answer __wrap_vscsi_live_serve(struct vscsi_live *device, uint32_t queues, uint64_t most, uint64_t *steps, bool *more);

enum vscsi_answer __wrap_vscsi_live_serve(struct vscsi_live *device, uint32_t queues, uint64_t most, uint64_t *steps, bool *more) {
  if (faults.refusals) return faults.refusals--, VSCSI_NO_MEMORY;
  costs.calls += costs.counts;
  if (faults.comes && !faults.comes_after--) {
    void (*comes)(void) = faults.comes;
    faults.comes = NULL;
    comes();
  }
  is_serving = true;
  enum vscsi_answer answer = __real_vscsi_live_serve(device, queues, most, steps, more);
  is_serving = false;
  *more = *more || faults.endless;
  if (faults.endless) usleep(100);
  return answer;
}

enum vscsi_answer __real_vscsi_live_load(struct vscsi_live *device, uint8_t target, uint16_t lun, uint64_t page, const void *bytes);
enum vscsi_answer __wrap_vscsi_live_load(struct vscsi_live *device, uint8_t target, uint16_t lun, uint64_t page, const void *bytes);

enum vscsi_answer __wrap_vscsi_live_load(struct vscsi_live *device, uint8_t target, uint16_t lun, uint64_t page, const void *bytes) {
  if (faults.refused) return faults.refused--, VSCSI_NO_MEMORY;
  faults.handed_in++;
  return __real_vscsi_live_load(device, target, lun, page, bytes);
}

enum vscsi_answer __real_vscsi_live_give(struct vscsi_live *device, uint8_t target, uint16_t lun, uint64_t *page, void *bytes, bool *found);
enum vscsi_answer __wrap_vscsi_live_give(struct vscsi_live *device, uint8_t target, uint16_t lun, uint64_t *page, void *bytes, bool *found);

enum vscsi_answer __wrap_vscsi_live_give(struct vscsi_live *device, uint8_t target, uint16_t lun, uint64_t *page, void *bytes, bool *found) {
  if (faults.refused) return faults.refused--, VSCSI_NO_MEMORY;
  return __real_vscsi_live_give(device, target, lun, page, bytes, found);
}

enum vscsi_answer __real_vscsi_live_written(struct vscsi_live *device, uint8_t target, uint16_t lun, uint64_t page, bool kept);
enum vscsi_answer __wrap_vscsi_live_written(struct vscsi_live *device, uint8_t target, uint16_t lun, uint64_t page, bool kept);

enum vscsi_answer __wrap_vscsi_live_written(struct vscsi_live *device, uint8_t target, uint16_t lun, uint64_t page, bool kept) {
  if (faults.refused) return faults.refused--, VSCSI_NO_MEMORY;
  return __real_vscsi_live_written(device, target, lun, page, kept);
}

enum vscsi_answer __real_vscsi_live_denied(struct vscsi_live *device, uint8_t target, uint16_t lun, uint64_t page);
enum vscsi_answer __wrap_vscsi_live_denied(struct vscsi_live *device, uint8_t target, uint16_t lun, uint64_t page);

enum vscsi_answer __wrap_vscsi_live_denied(struct vscsi_live *device, uint8_t target, uint16_t lun, uint64_t page) {
  if (faults.refused) return faults.refused--, VSCSI_NO_MEMORY;
  return __real_vscsi_live_denied(device, target, lun, page);
}

bool __real_uring_next(struct uring *uring, void **what, int *result);
bool __wrap_uring_next(struct uring *uring, void **what, int *result);

// READs that are over and held back, with their results.
static struct {
  void *what;
  int result;
} held[MOST_TRANSFERS];
static unsigned held_count;

// Returns the result of a transfer of pages as the fault has it.
static int result_of(const struct transfer *transfer, int result) {
  off_t at = (off_t)(transfer->first * PAGE_BYTES);
  bool writes = transfer->kind == TRANSFER_WRITE || transfer->kind == TRANSFER_HOLE, is_its = !faults.only || faults.only == transfer->file;
  bool has_bad = !faults.bad_page || (faults.bad_page >= transfer->first && faults.bad_page - transfer->first < transfer->count);
  bool reads = transfer->kind == TRANSFER_READ || transfer->kind == TRANSFER_AHEAD;
  if (reads && faults.read_error && is_its && has_bad) return -faults.read_error;
  if (writes && faults.write_error && is_its && !faults.writes--) {
    faults.writes = 0;
    spoil(transfer->file, at, (size_t)transfer->bytes);
    return -faults.write_error;
  }
  if (writes && result > 0) faults.bytes += (uint64_t)result, note_written(at, (size_t)result);
  if (transfer->kind != TRANSFER_SYNC) return result;
  bool fails = faults.sync_error && faults.bad_syncs;
  for (unsigned i = 0; fails && i < written_count; i++) spoil(transfer->file, written[i].at, written[i].count);
  written_count = 0;
  faults.bad_syncs -= fails;
  faults.syncs++;
  return fails ? -faults.sync_error : result;
}

bool __wrap_uring_next(struct uring *uring, void **what, int *result) {
  if (!faults.held && !faults.held_ahead && held_count) {
    *what = held[--held_count].what;
    *result = held[held_count].result;
    return true;
  }
  while (__real_uring_next(uring, what, result)) {
    if (*what == faults.storage) return true;
    const struct transfer *transfer = *what;
    *result = result_of(transfer, *result);
    bool is_held = (faults.held && transfer->kind == TRANSFER_READ) || (faults.held_ahead && transfer->kind == TRANSFER_AHEAD);
    if (!is_held) return true;
    held[held_count].what = *what;
    held[held_count++].result = *result;
  }
  return false;
}
