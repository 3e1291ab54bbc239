#include <errno.h>
#include <fcntl.h>
#include <poll.h>
#include <sys/epoll.h>
#include <sys/stat.h>
#include <sys/uio.h>
#include <unistd.h>

#include "bytes.h"
#include "rings.h"
#include "session.h"

// Flags of messages: that no descriptor comes with it, and that writes to the device area are logged.
enum { NO_DESCRIPTOR = 0x100, IS_LOGGED = 1 };

static void forget(int *fd) {
  if (*fd >= 0) close(*fd);
  *fd = -1;
}

// Stops watching a queue's kick.
static void unwatch(struct session *session, struct session_queue *queue) {
  if (queue->kick >= 0) epoll_ctl(session->epoll, EPOLL_CTL_DEL, queue->kick, NULL);
  forget(&queue->kick);
}

static void begin(struct session *session, unsigned q) {
  session->queues[q] = (struct session_queue){.kick = -1, .call = -1, .err = -1};
  session->backend.queues[q] = (struct backend_queue){0};
}

void queues_begin(struct session *session) {
  for (unsigned q = 0; q < session->backend.count; q++) begin(session, q);
}

void queues_end(struct session *session) {
  queues_reset(session);
  for (unsigned q = 0; q < session->backend.count; q++) {
    forget(&session->queues[q].call);
    forget(&session->queues[q].err);
  }
}

void queues_reset(struct session *session) {
  for (unsigned q = 0; q < session->backend.count; q++) {
    int call = session->queues[q].call, err = session->queues[q].err;
    unwatch(session, &session->queues[q]);
    begin(session, q);
    session->queues[q].call = call;
    session->queues[q].err = err;
  }
  session->is_torn = false;
}

// The queue that a message names, with a number beside it.
static bool named(const struct session *session, const struct message *message, uint32_t *q, uint32_t *number) {
  if (message->size != 8) return false;
  *q = (uint32_t)little_get(message->payload, 4);
  *number = (uint32_t)little_get(message->payload + 4, 4);
  return *q < session->backend.count;
}

// Makes a queue what the front end said of it.
static bool find(struct session *session, unsigned q) {
  const struct session_queue *queue = &session->queues[q];
  struct backend *backend = &session->backend;
  struct ring *ring = &backend->queues[q].ring;
  ring->size = queue->size;
  backend->queues[q].ready = queue->addressed && memory_guest(&backend->memory, queue->desc, &ring->desc) &&
                             memory_guest(&backend->memory, queue->driver, &ring->driver) &&
                             memory_guest(&backend->memory, queue->device, &ring->device) && ring_find(backend, q);
  return backend->queues[q].ready;
}

// Returns whether a queue's areas lie by the guest's addresses where they lay.
static bool stays(struct session *session, unsigned q) {
  const struct session_queue *queue = &session->queues[q];
  const struct ring *ring = &session->backend.queues[q].ring;
  uint64_t desc, driver, device;
  bool is_there = memory_guest(&session->backend.memory, queue->desc, &desc) &&
                  memory_guest(&session->backend.memory, queue->driver, &driver) &&
                  memory_guest(&session->backend.memory, queue->device, &device);
  return !is_there || (desc == ring->desc && driver == ring->driver && device == ring->device);
}

// Finds whether the memory of a started ring is gone, and may come again.
static void find_torn(struct session *session) {
  session->is_torn = false;
  for (unsigned q = 0; q < session->backend.count; q++) {
    const struct backend_queue *queue = &session->backend.queues[q];
    session->is_torn = session->is_torn || (session->queues[q].started && !queue->ready && !queue->fault);
  }
}

void queues_find(struct session *session, bool breaks) {
  struct backend *backend = &session->backend;
  // The device has its queues where they lay when it was made.
  for (unsigned q = 0; q < backend->count; q++)
    if (session->queues[q].started && backend->device.live && !stays(session, q)) backend_end(backend);
  for (unsigned q = 0; q < backend->count; q++) {
    struct backend_queue *queue = &backend->queues[q];
    bool is_lost = session->queues[q].started && !find(session, q) && !queue->fault;
    if (is_lost && breaks) queue->fault = FAULT_UNMAPPED;
    backend->broken = backend->broken || (is_lost && breaks);
  }
  find_torn(session);
  if (backend->device.live && !session->is_torn) backend_map(backend);
  session->more = true;
}

// Notes whether a ring goes on that another daemon served. What was noted is of rings that are started.
static void note_start(struct backend *backend, unsigned q) {
  bool is_first = true;
  for (unsigned other = 0; other < backend->count; other++) is_first = is_first && (other == q || !backend->queues[other].ready);
  bool is_strange = !backend->may_go_on && !backend->queues[q].had_begun && !ring_is_new(backend, q);
  backend->is_behind = is_strange || (backend->is_behind && !is_first);
  backend->queues[q].had_begun = true;
}

// Begins a ring where its base says.
static bool start(struct session *session, unsigned q) {
  struct backend *backend = &session->backend;
  struct session_queue *queue = &session->queues[q];
  // The device knows the queues that were there when it was made.
  if (backend->device.live) backend_end(backend);
  backend->packed = session->features & VSCSI_F_RING_PACKED;
  backend->event_index = session->features & VSCSI_F_EVENT_IDX;
  backend->indirect = session->features & VSCSI_F_INDIRECT_DESC;
  backend->change = session->features & VSCSI_F_CHANGE;
  backend->queues[q].fault = VSCSI_BROKEN_NOT;
  queue->told = false;
  bool is_found = find(session, q);
  // What is noted is newer than what the front end knows of a daemon that died.
  if (is_found) ring_recall(backend, q, &queue->base);
  queue->started = is_found && ring_set_base(backend, q, queue->base);
  backend->queues[q].ready = queue->started;
  backend->unasked |= UINT32_C(1) << q;
  if (queue->started) {
    note_start(backend, q);
    ring_note(backend, q);
  }
  session->more = true;
  return queue->started;
}

bool queue_set_size(struct session *session, const struct message *message) {
  uint32_t q, size;
  if (!named(session, message, &q, &size) || session->queues[q].started || size < 2 || size > DEVICE_MOST_SIZE) return false;
  session->queues[q].size = (uint16_t)size;
  return true;
}

bool queue_set_base(struct session *session, const struct message *message) {
  uint32_t q, base;
  if (!named(session, message, &q, &base) || session->queues[q].started) return false;
  session->queues[q].base = base;
  return true;
}

bool queue_set_addresses(struct session *session, const struct message *message) {
  if (message->size != 40) return false;
  uint64_t q = little_get(message->payload, 4);
  if (q >= session->backend.count) return false;
  struct session_queue *queue = &session->queues[q];
  uint64_t desc = little_get(message->payload + 8, 8), device = little_get(message->payload + 16, 8),
           driver = little_get(message->payload + 24, 8);
  bool stays = desc == queue->desc && driver == queue->driver && device == queue->device;
  // While it runs only its part in the log may change.
  if (queue->started && !stays) return false;
  queue->desc = desc;
  queue->driver = driver;
  queue->device = device;
  queue->addressed = true;
  bool is_logged = little_get(message->payload + 4, 4) & IS_LOGGED;
  ring_set_log(&session->backend, (unsigned)q, is_logged, little_get(message->payload + 32, 8));
  session_log(session);
  return true;
}

bool queue_set_enable(struct session *session, const struct message *message) {
  uint32_t q, enabled;
  if (!named(session, message, &q, &enabled) || enabled > 1) return false;
  session->queues[q].enabled = enabled;
  session->backend.kicked |= UINT32_C(1) << q;
  session->more = true;
  return true;
}

// Returns whether a descriptor is an eventfd or another that has no file, or a pipe. A file may be one of the front end's own
// file system, which has the daemon wait; and its own end of the connection would keep that open when the front end is gone.
bool is_event(int fd) {
  struct stat stat;
  return !fstat(fd, &stat) && (!(stat.st_mode & S_IFMT) || S_ISFIFO(stat.st_mode));
}

static bool is_pipe(int fd) {
  struct stat stat;
  return !fstat(fd, &stat) && S_ISFIFO(stat.st_mode);
}

bool kick_drain(int fd) {
  uint64_t count;
  struct iovec part = {.iov_base = &count, .iov_len = sizeof count};
  struct pollfd asked = {.fd = fd, .events = POLLIN};
  ssize_t got = preadv2(fd, &part, 1, -1, RWF_NOWAIT);
  // A system or a file that doesn't know that word. What is there now only the front end can take away before it is read.
  if (got < 0 && (errno == EOPNOTSUPP || errno == ENOSYS)) got = poll(&asked, 1, 0) == 1 ? read(fd, &count, sizeof count) : 1;
  return got > 0 || (got < 0 && (errno == EAGAIN || errno == EINTR));
}

// The queue of a message that may come with a descriptor, and the descriptor, or -1.
static bool with_descriptor(struct session *session, struct message *message, unsigned *q, int *fd) {
  if (message->size != 8) return false;
  uint64_t number = little_get(message->payload, 8);
  bool none = number & NO_DESCRIPTOR;
  *q = (unsigned)(number & 0xff);
  if (number & ~UINT64_C(0x1ff) || *q >= session->backend.count || message->fd_count != !none) return false;
  if (!none && !is_event(message->fds[0])) return false;
  *fd = message_take(message, 0);
  // The daemon waits for nothing of a front end's.
  if (*fd >= 0) fcntl(*fd, F_SETFL, O_NONBLOCK | fcntl(*fd, F_GETFL));
  return true;
}

bool queue_set_kick(struct session *session, struct message *message) {
  unsigned q;
  int fd;
  if (!with_descriptor(session, message, &q, &fd)) return false;
  struct session_queue *queue = &session->queues[q];
  // Each write to an eventfd is an event of its own (EPOLLET), so that it needs no reading. A pipe would be full some time.
  bool reads = fd >= 0 && is_pipe(fd);
  struct epoll_event event = {.events = reads ? EPOLLIN : EPOLLIN | EPOLLET, .data.u32 = q};
  unwatch(session, queue);
  if (fd >= 0 && epoll_ctl(session->epoll, EPOLL_CTL_ADD, fd, &event)) {
    close(fd);
    return false;
  }
  queue->kick = fd;
  queue->is_pipe = reads;
  // Where there is no kick, the ring is looked at from now on. The one before may have told something.
  session->backend.kicked |= UINT32_C(1) << q;
  session->more = true;
  if (!(session->features & F_PROTOCOL_FEATURES)) queue->enabled = true;
  return queue->started || start(session, q);
}

bool queue_set_call(struct session *session, struct message *message) {
  unsigned q;
  int fd;
  if (!with_descriptor(session, message, &q, &fd)) return false;
  forget(&session->queues[q].call);
  session->queues[q].call = fd;
  // Answers that were shown before told the descriptor before it, or none. With event indices those behind them may tell nobody.
  if (session->queues[q].started) signal_fd(fd);
  return true;
}

bool queue_set_err(struct session *session, struct message *message) {
  unsigned q;
  int fd;
  if (!with_descriptor(session, message, &q, &fd)) return false;
  forget(&session->queues[q].err);
  session->queues[q].err = fd;
  return true;
}

bool queue_get_base(struct session *session, const struct message *message) {
  uint32_t q, unused;
  uint8_t payload[8];
  if (!named(session, message, &q, &unused)) return false;
  struct session_queue *queue = &session->queues[q];
  struct backend *backend = &session->backend;
  if (backend->device.live) backend_end(backend);
  if (queue->started) queue->base = ring_base(backend, q);
  ring_forget(backend, q);
  // Whoever looks at it next finds no kick of this daemon's.
  if (queue->kick >= 0) kick_drain(queue->kick);
  unwatch(session, queue);
  queue->started = queue->enabled = backend->queues[q].ready = false;
  // The others may have waited for this one's memory.
  session->more = session->more || session->is_torn;
  find_torn(session);
  session_release(session);
  little_put(payload, q, 4);
  little_put(payload + 4, queue->base, 4);
  return protocol_reply(session->socket, message, payload, sizeof payload);
}
