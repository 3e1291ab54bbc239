// The kernel's ring of reads and writes (io_uring), by liburing. A daemon that is built without that has none.
#ifndef DAEMON_URING_H
#define DAEMON_URING_H

#include <poll.h>
#include <stdbool.h>
#include <stdint.h>
#include <sys/uio.h>

struct uring;

// Returns whether this daemon is built with liburing.
bool uring_is_built(void);

// Makes a ring for so many requests under way, which takes none but those below (Linux 5.10). Returns NULL, with errno, where the system
// refuses it.
struct uring *uring_make(unsigned most);
void uring_end(struct uring *uring);

// Returns the eventfd to which the kernel adds behind each request that is over. It needs no reading where it is watched by edges.
int uring_descriptor(const struct uring *uring);

// Puts a request into the ring: to read or write these parts at a place of a file, to wait until what was written stands there
// (fdatasync), to make a hole of the file, or to let so many milliseconds pass. The parts stay where they are until it is over. `what` is
// told by uring_next then, and isn't NULL.
void uring_read(struct uring *uring, int file, const struct iovec *parts, unsigned count, uint64_t at, void *what);
void uring_write(struct uring *uring, int file, const struct iovec *parts, unsigned count, uint64_t at, void *what);
void uring_sync(struct uring *uring, int file, void *what);
void uring_punch(struct uring *uring, int file, uint64_t at, uint64_t count, void *what);
void uring_pass(struct uring *uring, unsigned milliseconds, void *what);

// Has the kernel begin what was put there.
void uring_send(struct uring *uring);

// Takes the next request that is over: bytes, or an error number below 0. Returns false where none is.
bool uring_next(struct uring *uring, void **what, int *result);

// Waits until a request is over, or one of at most 64 other descriptors is ready, for so many milliseconds at most.
void uring_wait(struct uring *uring, const struct pollfd *others, unsigned count, unsigned milliseconds);

#endif
