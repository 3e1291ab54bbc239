#include "connection.h"

#include <poll.h>
#include <signal.h>
#include <stdio.h>
#include <stdlib.h>
#include <string.h>
#include <sys/epoll.h>
#include <sys/eventfd.h>
#include <sys/mman.h>
#include <sys/socket.h>
#include <time.h>
#include <unistd.h>

#include "../bytes.h"
#include "../images.h"
#include "race.h"
#include "system.h"

// Nanoseconds, as --poll-max-ns has them where that isn't said.
enum { USUAL_POLL = 32768 };

enum { AREA = 0x8000, DRIVER_AT = 0x4000, DEVICE_AT = 0x5000, FILE_BYTES = 256 << 10, MOST_DESCRIPTORS = 256, MOST_EVENTS = 32 };

// How often a session is served in a row, and how often for nothing; a second, and the most that a turn of the loop may take of it; and
// milliseconds that no message waits longer for.
enum { MOST_TURNS = 40, MOST_IDLE = 30, NANOSECONDS = 1000000000, LONGEST_TURN = NANOSECONDS / 2, LONGEST_WAIT = 6000 };

static int memory_fd = -1;
static uint8_t *memory_at_driver;

// Before the input that runs: how many descriptors and mappings stood.
static unsigned descriptors, mappings;

void found(const char *what) {
  fprintf(stderr, "fuzz: %s\n", what);
  abort();
}

static void must(bool is_so, const char *what) {
  if (!is_so) found(what);
}

struct way way_take(struct input *input) {
  static const uint16_t split[] = {16, 2, 4, 8, 64, 256, 1024, 128}, packed[] = {16, 2, 3, 5, 100, 256, 1024, 15};
  unsigned bits = (unsigned)input_take(input, 1), size = input_below(input, 8);
  return (struct way){.packed = bits & 1,
                      .event_index = bits & 2,
                      .indirect = bits & 4,
                      .far = bits & 16,
                      .file = bits & 32,
                      .polls = !(bits & 64),
                      .size = bits & 1 ? packed[size] : split[size]};
}

uint8_t *guest_memory(void) { return memory_at_driver; }
int guest_file(void) { return memory_fd; }

uint64_t guest_of(const struct way *way, uint64_t place) { return way->far && place >= HALF ? place - HALF + FAR : place; }

uint64_t place_of(unsigned q, unsigned part) {
  static const uint64_t parts[] = {0, DRIVER_AT, DEVICE_AT};
  return (uint64_t)AREA * (q + 1) + parts[part % 3];
}

static int64_t processor_time(void) {
  struct timespec now;
  clock_gettime(CLOCK_THREAD_CPUTIME_ID, &now);
  return (int64_t)now.tv_sec * NANOSECONDS + now.tv_nsec;
}

// Counts the descriptors that are open.
static unsigned open_descriptors(void) {
  struct pollfd asked[MOST_DESCRIPTORS];
  unsigned open = 0;
  for (int i = 0; i < MOST_DESCRIPTORS; i++) asked[i] = (struct pollfd){.fd = i};
  poll(asked, MOST_DESCRIPTORS, 0);
  for (int i = 0; i < MOST_DESCRIPTORS; i++) open += !(asked[i].revents & POLLNVAL);
  return open;
}

static void make_memory(void) {
  // As the daemon has it: a pipe that nobody reads any more may be a queue's descriptor.
  signal(SIGPIPE, SIG_IGN);
  memory_fd = memfd_create("guest", MFD_CLOEXEC);
  must(memory_fd >= 0 && !ftruncate(memory_fd, GUEST_BYTES), "no memory for a guest");
  void *at = mmap(NULL, GUEST_BYTES, PROT_READ | PROT_WRITE, MAP_SHARED, memory_fd, 0);
  must(at != MAP_FAILED, "no memory for a guest");
  memory_at_driver = at;
}

static void make_disks(struct connection *connection) {
  char words[100], why[300];
  // Rings may begin anywhere.
  connection->disks = (struct disks){.is_served = true};
  connection->file = connection->way.file ? memfd_create("disk", MFD_CLOEXEC) : -1;
  if (connection->way.file) must(!ftruncate(connection->file, FILE_BYTES), "no file for a disk");
  snprintf(words, sizeof words, connection->way.file ? "0:0=256K,file=/proc/self/fd/%d" : "0:0=256K", connection->file);
  must(disks_add(&connection->disks, words, why, sizeof why), why);
  must(disks_add(&connection->disks, "0:1=4K", why, sizeof why) && disks_add(&connection->disks, "3:0=512T", why, sizeof why), why);
  must(images_open(&connection->disks, why, sizeof why), why);
}

void connection_begin(struct connection *connection, struct way way) {
  int pair[2];
  if (memory_fd < 0) make_memory();
  memset(guest_memory(), 0, HALF);
  // What a driver writes to a disk lies in the second half, and is no block of zeros.
  for (int at = HALF; at < GUEST_BYTES; at += DEVICE_BLOCK) memset(guest_memory() + at, 1 + at / DEVICE_BLOCK % 255, DEVICE_BLOCK);
  system_begin();
  descriptors = open_descriptors();
  mappings = mappings_standing;
  *connection = (struct connection){.way = way};
  make_disks(connection);
  must(!socketpair(AF_UNIX, SOCK_STREAM | SOCK_CLOEXEC, 0, pair), "no sockets");
  connection->socket = pair[0];
  connection->epoll = epoll_create1(EPOLL_CLOEXEC);
  for (unsigned q = 0; q < QUEUES; q++) {
    connection->kick[q] = eventfd(0, EFD_NONBLOCK | EFD_CLOEXEC);
    connection->call[q] = eventfd(0, EFD_NONBLOCK | EFD_CLOEXEC);
    connection->err[q] = eventfd(0, EFD_NONBLOCK | EFD_CLOEXEC);
  }
  unsigned requests = QUEUES - FIXED_QUEUES;
  const struct polling polling = {.most = way.polls ? USUAL_POLL : 0};
  connection->alive = session_begin(&connection->session, pair[1], connection->epoll, &connection->disks, requests, polling, true);
  must(connection->alive, "no session");
}

// Has the disk's file written, once its session ended, as the daemon does at its end, and compares it with the disk.
static void look_at_file(struct connection *connection) {
  static uint8_t store[FILE_BYTES], file[FILE_BYTES];
  struct vscsi_disk *disk = &connection->disks.stores[0];
  char why[300];
  unsigned tries = 0;
  // On a machine that is busy the time that it has may be too short once.
  while (!blocks_finish(&connection->disks, why, sizeof why)) must(++tries < MOST_TURNS, why);
  if (connection->file < 0 || !store_stands(disk)) return;
  enum vscsi_answer saved = vscsi_disk_save(disk, 0, FILE_BYTES / DEVICE_BLOCK, store, sizeof store);
  must(saved == VSCSI_DONE && pread(connection->file, file, sizeof file, 0) == FILE_BYTES, "a disk can't be read");
  must(!memcmp(store, file, sizeof file), "a file isn't what its disk is");
}

void connection_end(struct connection *connection) {
  // Half a message may have come with a descriptor of this end, so that to close it isn't enough. The daemon's loop waits for the rest some
  // seconds at the most.
  shutdown(connection->socket, SHUT_RDWR);
  close(connection->socket);
  connection->socket = -1;
  connection_pump(connection);
  // A message may wait for answers that are held, and no other is read meanwhile.
  if (connection->alive) connection_wait(connection, LONGEST_WAIT);
  must(!connection->alive, "a session stands without its front end");
  refusals = (struct refusals){0};
  look_at_file(connection);
  disks_close(&connection->disks);
  for (unsigned q = 0; q < QUEUES; q++) {
    close(connection->kick[q]);
    close(connection->call[q]);
    close(connection->err[q]);
  }
  close(connection->epoll);
  if (connection->file >= 0) close(connection->file);
  must(mappings_standing == mappings, "a mapping stands behind its session");
  must(open_descriptors() == descriptors, "a descriptor stands behind its session");
}

// Takes what the session sent.
static void take_replies(struct connection *connection) {
  uint8_t bytes[HEADER + MOST_PAYLOAD];
  while (recv(connection->socket, bytes, HEADER, MSG_DONTWAIT) == HEADER) {
    size_t size = (size_t)little_get(bytes + 8, 4);
    must((little_get(bytes + 4, 4) & (VERSION_MASK | IS_REPLY)) == (VERSION | IS_REPLY) && size <= MOST_PAYLOAD, "a reply isn't one");
    must(recv(connection->socket, bytes + HEADER, size, MSG_DONTWAIT) == (ssize_t)size || !size, "a reply is cut");
    if (size == 8) connection->answer = little_get(bytes + HEADER, 8);
  }
}

// Counts what a session did, for as long as it stands.
static uint64_t done(const struct session *session) {
  const struct backend *backend = &session->backend;
  const struct mark *written = &backend->disks->disks[0].backlog.written;
  uint64_t count = session->messages + session->reader.have + backend->phase + backend->all_steps + written->range + written->done;
  for (unsigned q = 0; q < backend->count; q++) {
    const struct backend_queue *queue = &backend->queues[q];
    count += queue->ring.first.available + queue->index + queue->fault + queue->ready;
  }
  return count;
}

// Does what events ask for, as the daemon's loop does, which meanwhile does nothing else.
static void take_events(struct connection *connection, const struct epoll_event *events, int count) {
  struct session *session = &connection->session;
  int64_t began = processor_time();
  for (int i = 0; i < count && connection->alive; i++) {
    if (events[i].data.u32 == EVENT_SOCKET) connection->alive = session_read(session);
    else session_kicked(session, events[i].data.u32);
  }
  if (connection->alive && session->more) connection->alive = session_serve(session);
  if (!connection->alive) session_end(session);
  must(processor_time() - began < LONGEST_TURN, "a turn of the loop took more than half a second of the processor");
}

void connection_pump(struct connection *connection) {
  struct epoll_event events[MOST_EVENTS];
  unsigned idle = 0;
  // A guest that has the device write its rings is served for as long as that goes on.
  for (unsigned turns = 0; connection->alive && (turns < MOST_TURNS || connection->socket < 0); turns++) {
    uint64_t before = done(&connection->session);
    int count = epoll_wait(connection->epoll, events, MOST_EVENTS, 0);
    bool more = connection->session.more, is_timer = count == 1 && events[0].data.u32 == EVENT_TIMER;
    if (count <= 0 && !more) break;
    take_events(connection, events, count);
    idle = connection->alive && done(&connection->session) == before ? idle + 1 : 0;
    must(idle < MOST_IDLE || race_runs(), "a session is served and does nothing");
    // The timer goes on for as long as a ring has no kick, or a file can't be written.
    if (is_timer && !more) break;
  }
  if (connection->socket >= 0) take_replies(connection);
}

void connection_wait(struct connection *connection, uint64_t milliseconds) {
  time_pass(milliseconds);
  if (connection->alive) session_kicked(&connection->session, EVENT_TIMER);
  connection_pump(connection);
}
