#include "descriptors.h"

#include <fcntl.h>
#include <stdio.h>
#include <sys/epoll.h>
#include <sys/eventfd.h>
#include <sys/mman.h>
#include <sys/socket.h>
#include <sys/timerfd.h>
#include <unistd.h>

static int of_file(off_t size, int seals) {
  int fd = memfd_create("file", MFD_CLOEXEC | MFD_ALLOW_SEALING);
  if (ftruncate(fd, size) || fcntl(fd, F_ADD_SEALS, seals)) found("no file");
  return fd;
}

// A pipe with 8 bytes or none, and its other end: by `end` which of both is kept.
static int of_pipe(unsigned end, bool full) {
  static const uint8_t bytes[8];
  int ends[2];
  if (pipe2(ends, O_CLOEXEC | O_NONBLOCK) || (full && write(ends[1], bytes, sizeof bytes) < 0)) found("no pipe");
  close(ends[1 - end]);
  return ends[end];
}

static int of_socket(void) {
  int pair[2];
  if (socketpair(AF_UNIX, SOCK_STREAM | SOCK_CLOEXEC, 0, pair)) found("no sockets");
  close(pair[0]);
  return pair[1];
}

// One that always has an event, and that can't be read.
static int of_epoll(const struct connection *connection) {
  struct epoll_event event = {.events = EPOLLIN};
  int fd = epoll_create1(EPOLL_CLOEXEC);
  if (eventfd_write(connection->err[0], 1) || epoll_ctl(fd, EPOLL_CTL_ADD, connection->err[0], &event)) found("no epoll");
  return fd;
}

static int of_timer(void) {
  static const struct itimerspec soon = {.it_value.tv_nsec = 1};
  int fd = timerfd_create(CLOCK_MONOTONIC, TFD_CLOEXEC);
  if (timerfd_settime(fd, 0, &soon, NULL)) found("no timer");
  return fd;
}

// The guest's memory, opened once more.
static int of_memory(int flags) {
  char path[40];
  snprintf(path, sizeof path, "/proc/self/fd/%d", guest_file());
  return open(path, flags | O_CLOEXEC);
}

int descriptor_open(const struct connection *connection, unsigned kind) {
  switch (kind % 20) {
    case 0: return eventfd(0, EFD_CLOEXEC);
    case 1: return eventfd(UINT32_MAX, EFD_CLOEXEC);
    case 2: return of_pipe(0, false);
    case 3: return of_pipe(0, true);
    case 4: return of_pipe(1, true);
    case 5: return of_epoll(connection);
    case 6: return open("/dev/null", O_RDWR | O_CLOEXEC);
    case 7: return open("/dev/zero", O_RDWR | O_CLOEXEC);
    case 8: return open("/", O_RDONLY | O_DIRECTORY | O_CLOEXEC);
    case 9: return of_file(0, 0);
    case 10: return of_file(HALF - 1, 0);
    case 11: return of_file(GUEST_BYTES, F_SEAL_SHRINK);
    case 12: return of_file(GUEST_BYTES, F_SEAL_WRITE);
    case 13: return of_file((off_t)1 << 40, 0);
    case 14: return of_memory(O_RDWR);
    case 15: return of_memory(O_RDONLY);
    case 16: return of_memory(O_PATH);
    case 17: return of_socket();
    case 18: return of_timer();
    default: return dup(connection->socket);
  }
}
