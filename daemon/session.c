#include "session.h"

#include <poll.h>
#include <sched.h>
#include <stdio.h>
#include <string.h>
#include <sys/epoll.h>
#include <sys/mman.h>
#include <sys/timerfd.h>
#include <unistd.h>

#include "bytes.h"
#include "clock.h"
#include "guard.h"
#include "images.h"
#include "log.h"
#include "paging.h"
#include "rare.h"
#include "rings.h"
#include "space.h"

#define OFFERED (VSCSI_ACCEPTED_FEATURES | F_PROTOCOL_FEATURES | F_LOG_ALL)
// What QEMU may have a driver agree to by itself: events of disks that come or go (VIRTIO 1.2, 5.6.3). The device tells none of
// these.
#define IGNORED (UINT64_C(1) << 1)
#define OFFERED_PROTOCOL (P_MQ | P_LOG_SHMFD | P_REPLY_ACK | P_CONFIG | P_RESET_DEVICE | P_CONFIGURE_MEM_SLOTS | P_STATUS)

// How many messages of a session are taken before others of the daemon's descriptors are looked at.
enum { MOST_MESSAGES = 64, WHY = 200, REGION_BYTES = 32, LOG_BYTES = 16, SPACE_HEAD = 12, MOST_SPACE = 256 };

// Milliseconds: how often a ring is looked at that has no kick; how long a session is served before others of the daemon's
// descriptors are looked at, but for one round, where rings are looked at without a kick (POLL) and where they aren't; and how
// long a session that ends has for a round. Nanoseconds: of a millisecond, and for how long rings are looked at first, where that
// pays; and behind which others get the processor in between, the guest perhaps.
enum { POLL = 1, LONGEST = 20, LEAVING = 200, MILLISECOND = 1000000, FIRST_WINDOW = 4000, POLITE = 50000 };

// It is noted where rings stand where answers wait for files alone.
static uint64_t offered_protocol(const struct session *session) {
  return OFFERED_PROTOCOL | (session->backend.keeps ? P_INFLIGHT_SHMFD : 0);
}

static void say(const struct session *session, const char *what, const char *why) {
  if (!session->quiet) log_say(LOG_NOTE, NULL, "%s: %s", what, why);
}

static bool watch(int epoll, int fd, uint32_t what) {
  struct epoll_event event = {.events = EPOLLIN, .data.u32 = what};
  return fd >= 0 && !epoll_ctl(epoll, EPOLL_CTL_ADD, fd, &event);
}

bool session_begin(struct session *session, int socket, int epoll, struct disks *disks, unsigned request_queues,
                   struct polling polling, bool quiet) {
  memset(session, 0, sizeof *session);
  session->socket = socket;
  session->log_event = -1;
  session->epoll = epoll;
  session->request_queues = request_queues;
  session->quiet = quiet;
  session->polling = polling;
  session->window = polling.is_fixed ? polling.most : 0;
  session->backend.disks = disks;
  session->backend.keeps = blocks_are_kept(disks);
  session->backend.pages = paging_is_there(disks);
  session->backend.may_go_on = disks->is_served || disks->moves;
  session->backend.count = FIXED_QUEUES + request_queues;
  reader_begin(&session->reader);
  queues_begin(session);
  session->is_old = true;
  guard_begin(&session->backend.memory);
  session->timer = timerfd_create(CLOCK_MONOTONIC, TFD_CLOEXEC | TFD_NONBLOCK);
  if (watch(epoll, session->timer, EVENT_TIMER) && watch(epoll, socket, EVENT_SOCKET)) return true;
  if (session->timer >= 0) close(session->timer);
  close(socket);
  session->socket = session->timer = -1;
  return false;
}

static bool reply_number(const struct session *session, const struct message *message, uint64_t number) {
  uint8_t payload[8];
  little_put(payload, number, 8);
  return protocol_reply(session->socket, message, payload, sizeof payload);
}

static bool set_features(struct session *session, const struct message *message) {
  uint64_t features = little_get(message->payload, 8);
  if (message->size != 8 || features & ~(OFFERED | IGNORED)) return false;
  // A log of writes begins and ends while rings stand.
  for (unsigned q = 0; q < session->backend.count; q++)
    if (session->queues[q].started && (features ^ session->features) & ~F_LOG_ALL) return false;
  session->features = features;
  session_log(session);
  return true;
}

static bool set_protocol(struct session *session, const struct message *message) {
  uint64_t features = little_get(message->payload, 8);
  // A front end may say once more what it said to a daemon that offered it.
  if (message->size != 8 || features & ~(OFFERED_PROTOCOL | P_INFLIGHT_SHMFD)) return false;
  session->protocol = features;
  return true;
}

// Adds the region that a message describes from here on.
static bool add_region(struct memory *memory, const uint8_t *at, int fd) {
  return memory_add(memory, little_get(at, 8), little_get(at + 8, 8), little_get(at + 16, 8), little_get(at + 24, 8), fd);
}

static bool set_memory(struct session *session, const struct message *message) {
  struct memory memory = {0};
  struct backend *backend = &session->backend;
  if (message->size < 8) return false;
  uint64_t count = little_get(message->payload, 4);
  if (count > MOST_FDS || message->fd_count != count || message->size < 8 + REGION_BYTES * count) return false;
  for (size_t i = 0; i < count; i++) {
    if (add_region(&memory, message->payload + 8 + REGION_BYTES * i, message->fds[i])) continue;
    memory_clear(&memory);
    return false;
  }
  memory.places = backend->memory.places;
  memory.log = backend->memory.log;
  backend_unmap(backend);
  memory_clear(&backend->memory);
  backend->memory = memory;
  queues_find(session, true);
  return true;
}

static bool change_memory(struct session *session, const struct message *message) {
  const uint8_t *at = message->payload + 8;
  struct backend *backend = &session->backend;
  if (message->size != 8 + REGION_BYTES) return false;
  backend_unmap(backend);
  bool changed = message->request == ADD_MEM_REG
                     ? message->fd_count == 1 && add_region(&backend->memory, at, message->fds[0])
                     : memory_remove(&backend->memory, little_get(at, 8), little_get(at + 8, 8), little_get(at + 16, 8));
  if (!changed) return false;
  // A ring whose region is taken away may come with the next one.
  queues_find(session, false);
  return true;
}

// Returns whether a message is as long as one about memory that outlives the daemon. Front ends in C send the structure whole, with
// what pads it.
static bool is_of_places(const struct message *message) {
  enum { SHORT = 20, PADDED = 24 };
  return message->size == SHORT || message->size == PADDED;
}

// Takes the memory in which it is noted where rings stand: this daemon's, or one's before it.
static bool set_places(struct session *session, const struct message *message) {
  uint64_t size = little_get(message->payload, 8), offset = little_get(message->payload + 8, 8);
  if (!is_of_places(message) || message->fd_count != 1 || size != PLACES_BYTES) return false;
  return memory_set(&session->backend.memory.places, size, offset, message->fds[0]);
}

// Makes such memory, and gives it to the front end, which keeps it when the daemon dies.
static bool give_places(struct session *session, const struct message *message) {
  uint8_t payload[MOST_PAYLOAD];
  if (!is_of_places(message)) return false;
  int file = memfd_create("vscsi-places", MFD_CLOEXEC | MFD_ALLOW_SEALING);
  bool made = file >= 0 && !ftruncate(file, PLACES_BYTES) && memory_set(&session->backend.memory.places, PLACES_BYTES, 0, file);
  memcpy(payload, message->payload, message->size);
  little_put(payload, made ? PLACES_BYTES : 0, 8);
  little_put(payload + 8, 0, 8);
  bool stands = protocol_give(session->socket, message, payload, message->size, made ? file : -1);
  if (file >= 0) close(file);
  return stands;
}

void session_log(struct session *session) {
  bool logs = session->features & F_LOG_ALL;
  for (unsigned q = 0; q < session->backend.count; q++) logs = logs || session->backend.queues[q].is_logged;
  backend_log(&session->backend, logs);
}

// Takes the log, in place of the one before it, and says that it has it.
static bool set_log(struct session *session, const struct message *message) {
  struct region *log = &session->backend.memory.log;
  bool taken = message->size == LOG_BYTES && message->fd_count == 1 &&
               memory_set(log, little_get(message->payload, 8), little_get(message->payload + 8, 8), message->fds[0]);
  if (!taken) return false;
  session_log(session);
  return reply_number(session, message, 0);
}

// Takes the descriptor by which the front end is told that the log has more.
static bool set_log_event(struct session *session, struct message *message) {
  if (message->fd_count != 1 || !is_event(message->fds[0])) return false;
  if (session->log_event >= 0) close(session->log_event);
  session->log_event = message_take(message, 0);
  return true;
}

void session_release(const struct session *session) {
  bool is_started = session->backend.device.live;
  for (unsigned q = 0; q < session->backend.count; q++) is_started = is_started || session->queues[q].started;
  if (!is_started) images_release(session->backend.disks);
}

static bool reset(struct session *session) {
  backend_end(&session->backend);
  for (unsigned q = 0; q < session->backend.count; q++) ring_forget(&session->backend, q);
  queues_reset(session);
  session_log(session);
  session_release(session);
  session->status = 0;
  return true;
}

// Takes the device's status. Zero is a reset.
static bool set_status(struct session *session, const struct message *message) {
  uint64_t status = little_get(message->payload, 8);
  if (message->size != 8 || status > UINT8_MAX) return false;
  session->status = (uint8_t)status;
  return status || reset(session);
}

// Tells the device's status, and that the driver has to reset it where a ring is broken.
static bool get_status(const struct session *session, const struct message *message) {
  enum { NEEDS_RESET = 64 };
  uint64_t status = session->status;
  for (unsigned q = 0; q < session->backend.count; q++)
    if (session->queues[q].started && session->backend.queues[q].fault) status |= NEEDS_RESET;
  return reply_number(session, message, status);
}

static bool get_config(const struct session *session, const struct message *message) {
  uint8_t payload[SPACE_HEAD + MOST_SPACE] = {0}, space[MOST_SPACE] = {0};
  uint64_t offset = little_get(message->payload, 4), size = little_get(message->payload + 4, 4);
  if (message->size < SPACE_HEAD || size > MOST_SPACE || offset > MOST_SPACE - size || message->size != SPACE_HEAD + size)
    return protocol_reply(session->socket, message, payload, 0);
  space_fill(space, session->backend.disks, session->request_queues);
  memcpy(payload, message->payload, SPACE_HEAD);
  memcpy(payload + SPACE_HEAD, space + offset, size);
  return protocol_reply(session->socket, message, payload, SPACE_HEAD + size);
}

// Whether the daemon knows this message, and whether it answers it itself: then there is no acknowledgement.
static bool is_answered(uint32_t request) {
  return request == GET_FEATURES || request == GET_PROTOCOL_FEATURES || request == GET_QUEUE_NUM || request == GET_VRING_BASE ||
         request == GET_CONFIG || request == GET_MAX_MEM_SLOTS || request == GET_STATUS || request == GET_INFLIGHT_FD ||
         request == SET_LOG_BASE;
}

static bool take(struct session *session, struct message *message) {
  switch (message->request) {
    case GET_FEATURES: return reply_number(session, message, OFFERED);
    case SET_FEATURES: return set_features(session, message);
    case SET_OWNER: return true;
    case RESET_OWNER:
    case RESET_DEVICE: return reset(session);
    case SET_MEM_TABLE: return set_memory(session, message);
    case SET_LOG_BASE: return set_log(session, message);
    case SET_LOG_FD: return set_log_event(session, message);
    case GET_MAX_MEM_SLOTS: return reply_number(session, message, MOST_REGIONS);
    case ADD_MEM_REG:
    case REM_MEM_REG: return change_memory(session, message);
    case SET_VRING_NUM: return queue_set_size(session, message);
    case SET_VRING_ADDR: return queue_set_addresses(session, message);
    case SET_VRING_BASE: return queue_set_base(session, message);
    case GET_VRING_BASE: return queue_get_base(session, message);
    case SET_VRING_KICK: return queue_set_kick(session, message);
    case SET_VRING_CALL: return queue_set_call(session, message);
    case SET_VRING_ERR: return queue_set_err(session, message);
    case GET_PROTOCOL_FEATURES: return reply_number(session, message, offered_protocol(session));
    case SET_PROTOCOL_FEATURES: return set_protocol(session, message);
    case GET_QUEUE_NUM: return reply_number(session, message, session->backend.count);
    case SET_VRING_ENABLE: return queue_set_enable(session, message);
    case GET_CONFIG: return get_config(session, message);
    case GET_INFLIGHT_FD: return give_places(session, message);
    case SET_INFLIGHT_FD: return set_places(session, message);
    case SET_STATUS: return set_status(session, message);
    case GET_STATUS: return get_status(session, message);
    case SET_CONFIG: return message->size >= SPACE_HEAD;  // no field of a driver's is kept
    default: return false;
  }
}

// Does what a message says, and acknowledges it. Returns false where the connection is over.
static bool finish(struct session *session, struct message *message) {
  session->is_old = true;
  bool taken = take(session, message), stands = taken;
  message_close(message);
  bool is_acknowledged = session->protocol & P_REPLY_ACK && message->flags & NEEDS_REPLY && !is_answered(message->request);
  if (is_acknowledged) stands = reply_number(session, message, !taken);
  if (!taken) {
    char why[WHY];
    unsigned long long first = (unsigned long long)little_get(message->payload, 8);
    snprintf(why, sizeof why, "%u of %u bytes, %llx, isn't taken", message->request, message->size, first);
    say(session, "a message", why);
  }
  return stands;
}

static bool names_started(const struct session *session, const struct message *message) {
  uint64_t q = little_get(message->payload, 8) & 0xff;
  return q < session->backend.count && session->queues[q].started;
}

// Returns whether a message has to wait, since it ends the device: what that has begun is answered before. A reset forgets it.
static bool must_wait(const struct session *session, const struct message *message) {
  bool is_start = message->request == SET_VRING_KICK && !names_started(session, message);
  return (message->request == GET_VRING_BASE || is_start) && backend_is_busy(&session->backend);
}

bool session_is_owed(const struct session *session) { return !session->messages || session->reader.have; }

static bool read_on(struct session *session) {
  // A front end that sends on and on has its rings served in between.
  for (unsigned i = 0; i < MOST_MESSAGES && !session->is_waiting; i++) {
    struct message message = {0};
    enum read_answer answer = reader_next(&session->reader, session->socket, &message);
    if (answer != READ_MESSAGE) return answer == READ_WAITS;
    session->messages++;
    if (must_wait(session, &message)) {
      session->waiting = message;
      session->is_waiting = session->more = true;
      session->waiting_since = clock_now();
      // What comes behind it isn't looked at meanwhile.
      epoll_ctl(session->epoll, EPOLL_CTL_DEL, session->socket, NULL);
    } else if (!finish(session, &message)) {
      return false;
    }
  }
  return true;
}

// Returns whether a session stands behind a call that looked at the guest's memory. Where a front end took some of it away, it
// ends.
static bool is_whole(bool stands) {
  if (stands && guard_found()) return log_say(LOG_ERROR, NULL, "the session ends: the guest's memory became shorter"), false;
  return stands;
}

bool session_read(struct session *session) { return is_whole(read_on(session)); }

// A front end may have made its descriptor one that waits, so a count that is full is left alone: it hasn't looked yet. Between the two
// calls none but that front end could fill it.
void signal_fd(int fd) {
  const uint64_t one = 1;
  struct pollfd asked = {.fd = fd, .events = POLLOUT};
  if (fd < 0 || poll(&asked, 1, 0) < 1 || !(asked.revents & POLLOUT)) return;
  if (write(fd, &one, sizeof one) < 0) return;
}

// Takes the timer's event, which is over where it was set anew meanwhile.
static RARE void take_timer(const struct session *session) {
  uint64_t count;
  if (read(session->timer, &count, sizeof count) < 0) return;
}

void session_kicked(struct session *session, unsigned what) {
  session->more = true;
  if (what == EVENT_TIMER) take_timer(session);
  if (what >= session->backend.count || session->queues[what].kick < 0) return;
  session->backend.kicked |= UINT32_C(1) << what;
  const struct session_queue *queue = &session->queues[what];
  // At its end nobody writes into it any more.
  if (queue->is_pipe && !kick_drain(queue->kick)) epoll_ctl(session->epoll, EPOLL_CTL_DEL, queue->kick, NULL);
}

static void notify(struct session *session, uint32_t owed) {
  for (; owed; owed &= owed - 1) signal_fd(session->queues[__builtin_ctz(owed)].call);
}

// Tells of rings that are broken.
static void tell_broken(struct session *session) {
  session->backend.broken = false;
  session->is_old = true;
  for (unsigned q = 0; q < session->backend.count; q++) {
    struct session_queue *queue = &session->queues[q];
    uint32_t fault = session->backend.queues[q].fault;
    if (!queue->started || !fault || queue->told) continue;
    if (!session->quiet) log_say(LOG_NOTE, NULL, "queue %u is broken: %s", q, vscsi_broken_text(fault));
    signal_fd(queue->err);
    queue->told = true;
  }
}

// Sets the timer to so many milliseconds from now.
static RARE void set_timer(const struct session *session, uint64_t left) {
  const struct itimerspec when = {.it_value = {.tv_sec = (time_t)(left / 1000), .tv_nsec = (long)(left % 1000) * 1000000}};
  timerfd_settime(session->timer, 0, &when, NULL);
}

// Sets the timer to when the session is to be served again with no other cause. A ring that has no kick is looked at.
static void set_next(const struct session *session) {
  uint64_t now = clock_now(), due = session->backend.due;
  set_timer(session, session->kickless ? POLL : due > now ? due - now : 1);
}

static void tell_end(const char *why) { log_say(LOG_ERROR, NULL, "the session ends: %s", why); }

// Makes the device where something is available for it. Returns MORE where there is one then. A guest that can't go on isn't waited for.
static RARE enum served make_device(struct session *session) {
  struct backend *backend = &session->backend;
  char why[WHY] = "";
  if (!backend_is_left_behind(backend) && !backend_has(backend, session->served)) return SERVED;
  enum served begun = backend_begin(backend, why, sizeof why);
  if (begun == MORE) say(session, "a device", backend->packed ? "packed rings" : "split rings");
  if (begun == LATER && *why) log_say(LOG_ERROR, NULL, "%s; it is tried again", why);
  if (begun == FAILED) tell_end(why);
  return begun;
}

// Notes how a session that was served goes on. Returns false where it has to end.
static inline bool note_served(struct session *session, enum served served) {
  if (session->backend.keeps || session->backend.pages) blocks_tell(session->backend.disks);
  if (session->backend.pages) paging_tell(session->backend.disks);
  if (session->backend.broken) tell_broken(session);
  if (served == FAILED) return false;
  session->more = served == MORE || served == BUSY;
  if (!session->more && (served == LATER || session->kickless)) set_next(session);
  return true;
}

// Goes on until the message that waits may be taken, and takes it.
static RARE bool stop(struct session *session) {
  char why[WHY] = "";
  uint32_t owed = 0;
  struct backend *backend = &session->backend;
  struct pollfd gone = {.fd = session->socket, .events = POLLRDHUP};
  // Nobody takes the reply any more.
  if (poll(&gone, 1, 0) == 1) return false;
  if (!session->is_torn && !backend->mapped) backend_map(backend);
  enum served served = backend_stop(backend, clock_now() - session->waiting_since, &owed, why, sizeof why);
  notify(session, owed);
  // What waits for storage has all the time that it needs, and what comes behind that has its own.
  if (!backend->keeps && served == LATER && backend->waits && !backend->pause) session->waiting_since = clock_now();
  if (served == FAILED) tell_end(why);
  if (!note_served(session, served)) return false;
  if (must_wait(session, &session->waiting)) return true;
  session->more = true;
  if (!watch(session->epoll, session->socket, EVENT_SOCKET)) return false;
  session->is_waiting = false;
  return finish(session, &session->waiting) && read_on(session);
}

// Finds the queues that are served, and those of them that have no kick.
static void find_served(struct session *session) {
  uint32_t before = session->served;
  session->is_old = false;
  session->served = session->kickless = 0;
  for (unsigned q = 0; q < session->backend.count; q++) {
    const struct session_queue *queue = &session->queues[q];
    const struct backend_queue *ring = &session->backend.queues[q];
    if (!queue->started || !queue->enabled || !ring->ready || ring->fault) continue;
    session->served |= UINT32_C(1) << q;
    if (queue->kick < 0) session->kickless |= UINT32_C(1) << q;
  }
  // A driver may have notified of one that wasn't served then.
  session->backend.kicked |= session->served & ~before;
}

// Learns for how long rings are to be looked at, as QEMU's IOThreads do, from how long nothing was found there. Twice as long the
// next time where something came behind that, but soon enough; and not at all where it came too late.
static void adapt(struct session *session, uint64_t waited) {
  uint64_t most = session->polling.most, longer = session->window ? 2 * session->window : FIRST_WINDOW;
  if (session->polling.is_fixed || waited <= session->window) return;
  session->window = waited > most ? 0 : longer < most ? longer : most;
}

// Has the device serve, and notifies. `now` is the time, and the next one then.
static inline enum served serve_once(struct session *session, uint64_t *now) {
  struct backend *backend = &session->backend;
  uint64_t begun = *now;
  uint32_t owed = 0;
  backend->spins = session->window > 0;
  backend->polls = begun - session->idle_since < session->window;
  enum served served = backend_serve(backend, session->served, &owed);
  if (backend->logs && backend->took) signal_fd(session->log_event);
  notify(session, owed);
  *now = clock_nanoseconds();
  if (backend->took) {
    adapt(session, begun - session->idle_since);
    session->idle_since = *now;
  } else if (backend->polls && *now - session->idle_since > POLITE) {
    sched_yield();
  }
  return served;
}

static bool serve(struct session *session) {
  struct backend *backend = &session->backend;
  if (session->is_waiting) return stop(session);
  session->more = false;
  if (session->is_torn) return true;
  if (session->is_old) find_served(session);
  backend->kicked |= session->kickless;
  enum served served = backend->device.live ? MORE : make_device(session);
  uint64_t now = clock_nanoseconds(), until = now + (uint64_t)MILLISECOND * (session->polling.most ? POLL : LONGEST);
  while (served == MORE) {
    served = serve_once(session, &now);
    if (now >= until) break;
  }
  return note_served(session, served);
}

bool session_serve(struct session *session) { return is_whole(serve(session)); }

// Returns whether a session that ends waits for what the device began. It ends only behind pages that are under way.
static bool may_wait(const struct session *session, uint64_t passed) {
  return passed < LEAVING || (backend_waits(&session->backend) && paging_is_under_way(session->backend.disks));
}

// Answers what the device has run: a front end that comes back goes on behind it.
static void leave(struct session *session) {
  char why[WHY] = "";
  uint32_t owed = 0;
  uint64_t begun = clock_now();
  enum served served = BUSY;
  if (!session->is_torn && !session->backend.mapped) backend_map(&session->backend);
  while (served == BUSY && may_wait(session, clock_now() - begun)) {
    served = backend_stop(&session->backend, 0, &owed, why, sizeof why);
    if (served != LATER || !backend_waits(&session->backend)) continue;
    paging_wait(session->backend.disks, (unsigned)(LEAVING / 10));
    served = BUSY;
  }
  notify(session, owed);
}

void session_end(struct session *session) {
  if (backend_is_busy(&session->backend)) leave(session);
  backend_end(&session->backend);
  queues_end(session);
  session_release(session);
  memory_clear(&session->backend.memory);
  memory_set(&session->backend.memory.places, 0, 0, -1);
  memory_set(&session->backend.memory.log, 0, 0, -1);
  if (session->log_event >= 0) close(session->log_event);
  session->log_event = -1;
  guard_begin(NULL);
  reader_end(&session->reader);
  if (session->is_waiting) message_close(&session->waiting);
  session->is_waiting = false;
  if (session->socket >= 0) {
    epoll_ctl(session->epoll, EPOLL_CTL_DEL, session->socket, NULL);
    close(session->socket);
  }
  // Nobody else has a descriptor of the timer's, so epoll forgets it.
  if (session->timer >= 0) close(session->timer);
  session->socket = session->timer = -1;
}
