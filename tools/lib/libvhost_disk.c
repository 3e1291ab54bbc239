// A disk in memory behind QEMU's C library of rings (libvhost-user), for tools/measure/daemon: the least that a back end in C does
// over it. It takes READ (10) and WRITE (10) of one unit, and copies data once.
//
//     libvhost_disk SOCKET
#include <poll.h>
#include <stdbool.h>
#include <stdio.h>
#include <stdlib.h>
#include <string.h>
#include <sys/socket.h>
#include <sys/un.h>
#include <unistd.h>

#include "libvhost-user.h"

enum { QUEUES = 3, MOST_WATCHED = 16, DISK = 64 << 20, BLOCK = 512, HEAD = 51, RESPONSE = 108 };

static struct {
  int fd, events;
  vu_watch_cb call;
  void *data;
} watched[MOST_WATCHED];
static unsigned watches;
static unsigned char *disk;

static void set_watch(VuDev *dev, int fd, int events, vu_watch_cb call, void *data) {
  (void)dev;
  unsigned i = 0;
  // The library asks twice for a kick. To read it twice would wait for the next one.
  while (i < watches && watched[i].fd != fd) i++;
  watched[i].fd = fd;
  watched[i].events = events;
  watched[i].call = call;
  watched[i].data = data;
  if (i == watches) watches++;
}

static void remove_watch(VuDev *dev, int fd) {
  (void)dev;
  for (unsigned i = 0; i < watches; i++)
    if (watched[i].fd == fd) watched[i] = watched[--watches];
}

static void panic(VuDev *dev, const char *text) {
  (void)dev;
  if (text) fprintf(stderr, "libvhost_disk: %s\n", text);
  exit(1);
}

static uint64_t features(VuDev *dev) { return (void)dev, UINT64_C(1) << 32 | 1 << 30; }

// Copies bytes between a buffer and parts, from a place of these on.
static size_t copy(struct iovec *parts, unsigned count, size_t skip, unsigned char *bytes, size_t length, bool in) {
  size_t done = 0;
  for (unsigned i = 0; i < count && done < length; i++) {
    if (skip >= parts[i].iov_len) {
      skip -= parts[i].iov_len;
      continue;
    }
    size_t here = parts[i].iov_len - skip < length - done ? parts[i].iov_len - skip : length - done;
    unsigned char *at = (unsigned char *)parts[i].iov_base + skip;
    if (in) memcpy(at, bytes + done, here);
    else memcpy(bytes + done, at, here);
    done += here;
    skip = 0;
  }
  return done;
}

static void serve(VuDev *dev, int which) {
  VuVirtq *queue = vu_get_queue(dev, which);
  for (VuVirtqElement *it; (it = vu_queue_pop(dev, queue, sizeof *it)); free(it)) {
    unsigned char head[HEAD] = {0}, response[RESPONSE] = {0};
    copy(it->out_sg, it->out_num, 0, head, HEAD, false);
    const unsigned char *command = head + 19;
    size_t first = ((size_t)command[2] << 24 | command[3] << 16 | command[4] << 8 | command[5]) * BLOCK;
    size_t length = ((size_t)command[7] << 8 | command[8]) * BLOCK, in = 0;
    bool is_there = head[0] == 1 && head[1] == 0 && first <= DISK && length <= DISK - first;
    if (!is_there || (command[0] != 0x28 && command[0] != 0x2a)) response[10] = 2;
    else if (command[0] == 0x2a) copy(it->out_sg, it->out_num, HEAD, disk + first, length, false);
    else in = copy(it->in_sg, it->in_num, RESPONSE, disk + first, length, true);
    copy(it->in_sg, it->in_num, 0, response, RESPONSE, true);
    vu_queue_push(dev, queue, it, (unsigned)(RESPONSE + in));
  }
  vu_queue_notify(dev, queue);
}

static void started(VuDev *dev, int which, bool is_started) {
  vu_set_queue_handler(dev, vu_get_queue(dev, which), is_started ? serve : NULL);
}

static int accepted(const char *path) {
  struct sockaddr_un address = {.sun_family = AF_UNIX};
  int listener = socket(AF_UNIX, SOCK_STREAM, 0);
  strncpy(address.sun_path, path, sizeof address.sun_path - 1);
  unlink(path);
  if (bind(listener, (struct sockaddr *)&address, sizeof address) || listen(listener, 1)) return -1;
  int fd = accept(listener, NULL, NULL);
  close(listener);
  return fd;
}

int main(int count, char **words) {
  static const VuDevIface iface = {.get_features = features, .set_features = NULL, .queue_set_started = started};
  static VuDev dev;
  int fd = count == 2 ? accepted(words[1]) : -1;
  disk = calloc(1, DISK);
  if (fd < 0 || !disk || !vu_init(&dev, QUEUES, fd, panic, NULL, set_watch, remove_watch, &iface)) return 1;
  for (;;) {
    struct pollfd fds[MOST_WATCHED + 1] = {{.fd = fd, .events = POLLIN}};
    unsigned now = watches;
    for (unsigned i = 0; i < now; i++) fds[i + 1] = (struct pollfd){.fd = watched[i].fd, .events = POLLIN};
    if (poll(fds, now + 1, -1) < 0) return 1;
    for (unsigned i = 0; i < now; i++)
      if (fds[i + 1].revents) watched[i].call(&dev, fds[i + 1].revents, watched[i].data);
    if (fds[0].revents && !vu_dispatch(&dev)) return 0;
  }
}
