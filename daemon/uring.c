#include "uring.h"

#ifdef DAEMON_URING
#include <errno.h>
#include <fcntl.h>
#include <liburing.h>
#include <stdlib.h>
#include <string.h>
#include <sys/eventfd.h>
#include <sys/syscall.h>
#include <unistd.h>

// How often requests are sent that the kernel doesn't take for want of memory, a millisecond each; nanoseconds of that; and of uring_wait.
enum { TRIES = 100, MILLISECOND = 1000000, MOST_OTHERS = 64 };

struct uring {
  struct io_uring ring;
  int event;
  struct __kernel_timespec passes;
};

bool uring_is_built(void) { return true; }

// Says something of a ring to the kernel, as the shared library of liburing 2.3 doesn't. Returns 0, or an error number below 0.
static int say(const struct io_uring *ring, unsigned what, const void *items, unsigned count) {
  return syscall(SYS_io_uring_register, ring->ring_fd, what, items, count) < 0 ? -errno : 0;
}

// Has a ring begin, and take these requests and no others, for good: seccomp doesn't see what goes through it.
static int limit(struct io_uring *ring) {
  static const __u8 taken[] = {IORING_OP_READV, IORING_OP_WRITEV, IORING_OP_FSYNC, IORING_OP_FALLOCATE, IORING_OP_TIMEOUT};
  struct io_uring_restriction limits[sizeof taken] = {{0}};
  for (size_t i = 0; i < sizeof taken; i++) {
    limits[i].opcode = IORING_RESTRICTION_SQE_OP;
    limits[i].sqe_op = taken[i];
  }
  int failed = say(ring, IORING_REGISTER_RESTRICTIONS, limits, sizeof taken);
  return failed ? failed : say(ring, IORING_REGISTER_ENABLE_RINGS, NULL, 0);
}

struct uring *uring_make(unsigned most) {
  struct uring *uring = calloc(1, sizeof *uring);
  if (!uring) return NULL;
  uring->event = eventfd(0, EFD_CLOEXEC | EFD_NONBLOCK);
  int failed = uring->event < 0 ? -errno : io_uring_queue_init(most, &uring->ring, IORING_SETUP_R_DISABLED);
  if (!failed) {
    failed = io_uring_register_eventfd(&uring->ring, uring->event);
    if (!failed) failed = limit(&uring->ring);
    if (!failed) return uring;
    io_uring_queue_exit(&uring->ring);
  }
  if (uring->event >= 0) close(uring->event);
  free(uring);
  errno = -failed;
  return NULL;
}

void uring_end(struct uring *uring) {
  io_uring_queue_exit(&uring->ring);
  close(uring->event);
  free(uring);
}

int uring_descriptor(const struct uring *uring) { return uring->event; }

// Returns a free place of the ring: there is one once the kernel has taken what stands there.
static struct io_uring_sqe *place_in(struct uring *uring) {
  struct io_uring_sqe *place;
  while (!(place = io_uring_get_sqe(&uring->ring))) uring_send(uring);
  return place;
}

void uring_read(struct uring *uring, int file, const struct iovec *parts, unsigned count, uint64_t at, void *what) {
  struct io_uring_sqe *place = place_in(uring);
  io_uring_prep_readv(place, file, parts, count, at);
  io_uring_sqe_set_data(place, what);
}

void uring_write(struct uring *uring, int file, const struct iovec *parts, unsigned count, uint64_t at, void *what) {
  struct io_uring_sqe *place = place_in(uring);
  io_uring_prep_writev(place, file, parts, count, at);
  io_uring_sqe_set_data(place, what);
}

void uring_sync(struct uring *uring, int file, void *what) {
  struct io_uring_sqe *place = place_in(uring);
  io_uring_prep_fsync(place, file, IORING_FSYNC_DATASYNC);
  io_uring_sqe_set_data(place, what);
}

void uring_punch(struct uring *uring, int file, uint64_t at, uint64_t count, void *what) {
  struct io_uring_sqe *place = place_in(uring);
  io_uring_prep_fallocate(place, file, FALLOC_FL_PUNCH_HOLE | FALLOC_FL_KEEP_SIZE, (off_t)at, (off_t)count);
  io_uring_sqe_set_data(place, what);
}

void uring_pass(struct uring *uring, unsigned milliseconds, void *what) {
  struct io_uring_sqe *place = place_in(uring);
  uring->passes = (struct __kernel_timespec){.tv_sec = milliseconds / 1000, .tv_nsec = (long long)(milliseconds % 1000) * MILLISECOND};
  io_uring_prep_timeout(place, &uring->passes, 0, 0);
  io_uring_sqe_set_data(place, what);
}

void uring_send(struct uring *uring) {
  for (unsigned tries = 0; io_uring_sq_ready(&uring->ring) && tries < TRIES; tries++)
    if (io_uring_submit(&uring->ring) < 0) poll(NULL, 0, 1);
}

bool uring_next(struct uring *uring, void **what, int *result) {
  struct io_uring_cqe *over;
  if (io_uring_peek_cqe(&uring->ring, &over)) return false;
  *what = io_uring_cqe_get_data(over);
  *result = over->res;
  io_uring_cqe_seen(&uring->ring, over);
  return true;
}

void uring_wait(struct uring *uring, const struct pollfd *others, unsigned count, unsigned milliseconds) {
  struct pollfd asked[1 + MOST_OTHERS] = {{.fd = uring->event, .events = POLLIN}};
  uint64_t counted;
  memcpy(asked + 1, others, count * sizeof *others);
  uring_send(uring);
  if (io_uring_cq_ready(&uring->ring)) return;
  // What was counted before is of requests that were taken, or that are looked at behind this.
  if (read(uring->event, &counted, sizeof counted) < 0 && errno != EAGAIN) return;
  if (!io_uring_cq_ready(&uring->ring)) poll(asked, 1 + count, (int)milliseconds);
}
#else
#include <errno.h>
#include <stddef.h>

bool uring_is_built(void) { return false; }

struct uring *uring_make(unsigned most) {
  (void)most;
  errno = ENOSYS;
  return NULL;
}

void uring_end(struct uring *uring) { (void)uring; }

int uring_descriptor(const struct uring *uring) {
  (void)uring;
  return -1;
}

void uring_read(struct uring *uring, int file, const struct iovec *parts, unsigned count, uint64_t at, void *what) {
  (void)uring, (void)file, (void)parts, (void)count, (void)at, (void)what;
}

void uring_write(struct uring *uring, int file, const struct iovec *parts, unsigned count, uint64_t at, void *what) {
  (void)uring, (void)file, (void)parts, (void)count, (void)at, (void)what;
}

void uring_sync(struct uring *uring, int file, void *what) { (void)uring, (void)file, (void)what; }

void uring_punch(struct uring *uring, int file, uint64_t at, uint64_t count, void *what) {
  (void)uring, (void)file, (void)at, (void)count, (void)what;
}

void uring_pass(struct uring *uring, unsigned milliseconds, void *what) { (void)uring, (void)milliseconds, (void)what; }

void uring_send(struct uring *uring) { (void)uring; }

bool uring_next(struct uring *uring, void **what, int *result) {
  (void)uring, (void)what, (void)result;
  return false;
}

void uring_wait(struct uring *uring, const struct pollfd *others, unsigned count, unsigned milliseconds) {
  (void)uring, (void)others, (void)count, (void)milliseconds;
}
#endif
