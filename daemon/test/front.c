#include "front.h"

#include <stdio.h>
#include <stdlib.h>
#include <string.h>
#include <sys/epoll.h>
#include <sys/eventfd.h>
#include <sys/mman.h>
#include <sys/socket.h>
#include <unistd.h>

#include "../bytes.h"
#include "../paging.h"

// As --poll-max-ns has it where that isn't said.
enum { USUAL_POLL = 32768 };

enum { AREA = 0x10000, DATA = 0x200000, TABLES = 0x180000, MOST_EVENTS = 32 };

void fail(const char *file, int line, const char *what) {
  fprintf(stderr, "%s:%d: not so: %s\n", file, line, what);
  abort();
}

struct way way_of(unsigned number) {
  return (struct way){.packed = number & 1,
                      .event_index = number & 2,
                      .indirect = number & 4,
                      .far = number & 8,
                      .polling.most = number & 4 ? 0 : USUAL_POLL};
}

uint64_t place_of(unsigned q, unsigned part) { return (uint64_t)AREA * (q + 1) + (uint64_t)0x4000 * part; }

uint64_t guest_of(const struct front *front, uint64_t place) {
  if (front->swapped) place ^= HALF;
  return front->way.far && place >= HALF ? place - HALF + (UINT64_C(1) << 32) : place;
}

void front_begin(struct front *front, struct disks *disks, struct way way) { front_begin_sized(front, disks, way, SIZE); }

void front_begin_sized(struct front *front, struct disks *disks, struct way way, uint16_t size) {
  int pair[2];
  memset(front, 0, sizeof *front);
  front->size = size;
  front->way = way;
  front->disks = disks;
  // Rings may begin anywhere.
  disks->is_served = true;
  MUST(!socketpair(AF_UNIX, SOCK_STREAM | SOCK_CLOEXEC, 0, pair));
  front->socket = pair[0];
  front->epoll = epoll_create1(EPOLL_CLOEXEC);
  front->memory_fd = memfd_create("guest", MFD_CLOEXEC | MFD_ALLOW_SEALING);
  MUST(!ftruncate(front->memory_fd, GUEST_BYTES));
  front->memory = mmap(NULL, GUEST_BYTES, PROT_READ | PROT_WRITE, MAP_SHARED, front->memory_fd, 0);
  MUST(front->memory != MAP_FAILED);
  for (unsigned q = 0; q < QUEUES; q++) {
    front->kick[q] = eventfd(0, EFD_NONBLOCK | EFD_CLOEXEC);
    front->call[q] = eventfd(0, EFD_NONBLOCK | EFD_CLOEXEC);
    front->err[q] = eventfd(0, EFD_NONBLOCK | EFD_CLOEXEC);
    front->queues[q] = (struct driver_queue){.next_wrap = true, .seen_wrap = true};
  }
  MUST(paging_watch(disks, front->epoll, EVENT_STORAGE));
  front->alive = session_begin(&front->session, pair[1], front->epoll, disks, QUEUES - FIXED_QUEUES, way.polling, true);
  MUST(front->alive);
}

void front_end(struct front *front) {
  if (front->socket >= 0) close(front->socket);
  pump(front);
  if (front->alive) session_end(&front->session);
  munmap(front->memory, GUEST_BYTES);
  close(front->memory_fd);
  for (unsigned q = 0; q < QUEUES; q++) {
    close(front->kick[q]);
    close(front->call[q]);
    close(front->err[q]);
  }
  close(front->epoll);
}

void front_again(struct front *front) {
  int pair[2];
  if (front->alive) session_end(&front->session);
  close(front->socket);
  MUST(!socketpair(AF_UNIX, SOCK_STREAM | SOCK_CLOEXEC, 0, pair));
  front->socket = pair[0];
  front->alive =
      session_begin(&front->session, pair[1], front->epoll, front->disks, QUEUES - FIXED_QUEUES, front->way.polling, true);
  MUST(front->alive);
}

static int look(struct front *front, struct epoll_event *events) { return epoll_wait(front->epoll, events, MOST_EVENTS, 0); }

static void take_events(struct front *front, const struct epoll_event *events, int count) {
  for (int i = 0; i < count && front->alive; i++) {
    if (events[i].data.u32 == EVENT_SOCKET) front->alive = session_read(&front->session);
    else session_kicked(&front->session, events[i].data.u32);
  }
  if (front->alive && front->session.more) front->alive = session_serve(&front->session);
  if (!front->alive) session_end(&front->session);
}

void turn(struct front *front) {
  struct epoll_event events[MOST_EVENTS];
  if (front->alive) take_events(front, events, look(front, events));
}

void pump(struct front *front) {
  for (unsigned turns = 0; front->alive; turns++) {
    struct epoll_event events[MOST_EVENTS];
    int count = look(front, events);
    MUST(turns < 100000);
    if (count <= 0 && !front->session.more) return;
    take_events(front, events, count);
  }
}

bool front_send(const struct front *front, const struct sent *sent, size_t from, size_t to) {
  union {
    struct cmsghdr header;
    char room[CMSG_SPACE(MOST_FDS * sizeof(int))];
  } control = {0};
  struct iovec part = {.iov_base = (uint8_t *)(uintptr_t)sent->bytes + from, .iov_len = to - from};
  struct msghdr header = {.msg_iov = &part, .msg_iovlen = 1};
  if (from == to) return true;
  if (from == 0 && sent->fd_count) {
    header.msg_control = &control;
    header.msg_controllen = CMSG_SPACE(sent->fd_count * sizeof(int));
    struct cmsghdr *it = CMSG_FIRSTHDR(&header);
    it->cmsg_level = SOL_SOCKET;
    it->cmsg_type = SCM_RIGHTS;
    it->cmsg_len = CMSG_LEN(sent->fd_count * sizeof(int));
    memcpy(CMSG_DATA(it), sent->fds, sent->fd_count * sizeof(int));
  }
  return sendmsg(front->socket, &header, MSG_NOSIGNAL) == (ssize_t)(to - from);
}

static struct sent *message(struct sent *sent, uint32_t request, size_t length) {
  *sent = (struct sent){.length = HEADER + length};
  little_put(sent->bytes, request, 4);
  little_put(sent->bytes + 4, VERSION | NEEDS_REPLY, 4);
  little_put(sent->bytes + 8, length, 4);
  return sent;
}

static void one(struct sent *sent, uint32_t request, uint64_t number) {
  little_put(message(sent, request, 8)->bytes + HEADER, number, 8);
}

void front_say(const struct front *front, uint32_t request, uint64_t number) {
  struct sent sent;
  one(&sent, request, number);
  MUST(front_send(front, &sent, 0, sent.length));
}

void front_descriptor(struct sent *sent, uint32_t request, unsigned q, int fd) {
  one(sent, request, q | (fd < 0 ? 0x100 : 0));
  sent->fds[0] = fd;
  sent->fd_count = fd >= 0;
}

bool front_ask(struct front *front, const struct sent *sent) {
  uint8_t payload[8];
  MUST(front_send(front, sent, 0, sent->length));
  pump(front);
  return front->alive && front_reply(front, payload, sizeof payload) == 8 && little_get(payload, 8) == 0;
}

static uint64_t user_of(const struct front *front, uint64_t place) {
  return front->way.far && place >= HALF ? place - HALF + FAR_USER : place + USER;
}

static void put_area(uint8_t *at, struct area area) {
  little_put(at, area.guest, 8);
  little_put(at + 8, area.size, 8);
  little_put(at + 16, area.user, 8);
  little_put(at + 24, area.place, 8);
}

void front_region(const struct front *front, struct sent *sent, uint32_t request, struct area area) {
  put_area(message(sent, request, 40)->bytes + HEADER + 8, area);
  sent->fds[0] = front->memory_fd;
  sent->fd_count = request == ADD_MEM_REG;
}

void front_table(const struct front *front, struct sent *sent, const struct area *areas, unsigned count) {
  uint8_t *at = message(sent, SET_MEM_TABLE, 8 + 32 * (size_t)count)->bytes + HEADER;
  little_put(at, count, 4);
  for (unsigned i = 0; i < count; i++) {
    put_area(at + 8 + 32 * (size_t)i, areas[i]);
    sent->fds[i] = front->memory_fd;
  }
  sent->fd_count = count;
}

struct area front_half(const struct front *front, unsigned half) {
  uint64_t place = (uint64_t)HALF * half;
  return (struct area){guest_of(front, place), HALF, user_of(front, place), place};
}

static void memory_table(const struct front *front, struct sent *sent) {
  const struct area halves[] = {front_half(front, 0), front_half(front, 1)};
  front_table(front, sent, halves, 2);
}

size_t front_set_up(const struct front *front, struct sent *sent, uint32_t base) {
  const struct way *way = &front->way;
  size_t n = 0;
  message(&sent[n++], GET_FEATURES, 0);
  message(&sent[n++], GET_PROTOCOL_FEATURES, 0);
  one(&sent[n++], SET_PROTOCOL_FEATURES, P_MQ | P_REPLY_ACK | P_CONFIG);
  message(&sent[n++], GET_QUEUE_NUM, 0);
  message(&sent[n++], SET_OWNER, 0);
  one(&sent[n++], SET_FEATURES,
      VSCSI_F_VERSION_1 | F_PROTOCOL_FEATURES | (way->packed ? VSCSI_F_RING_PACKED : 0) |
          (way->event_index ? VSCSI_F_EVENT_IDX : 0) | (way->indirect ? VSCSI_F_INDIRECT_DESC : 0));
  little_put(message(&sent[n++], GET_CONFIG, 12 + 36)->bytes + HEADER + 4, 36, 4);
  memory_table(front, &sent[n++]);
  for (unsigned q = 0; q < QUEUES; q++) {
    one(&sent[n++], SET_VRING_NUM, q | (uint64_t)front->size << 32);
    one(&sent[n++], SET_VRING_BASE, q | (uint64_t)(way->packed && !base ? 0x80008000 : base) << 32);
    uint8_t *at = message(&sent[n++], SET_VRING_ADDR, 40)->bytes + HEADER;
    little_put(at, q, 4);
    little_put(at + 8, user_of(front, place_of(q, 0)), 8);
    little_put(at + 16, user_of(front, place_of(q, 2)), 8);
    little_put(at + 24, user_of(front, place_of(q, 1)), 8);
    front_descriptor(&sent[n++], SET_VRING_KICK, q, front->kick[q]);
    front_descriptor(&sent[n++], SET_VRING_CALL, q, front->call[q]);
    front_descriptor(&sent[n++], SET_VRING_ERR, q, front->err[q]);
  }
  for (unsigned q = 0; q < QUEUES; q++) one(&sent[n++], SET_VRING_ENABLE, q | UINT64_C(1) << 32);
  return n;
}

size_t front_reply(struct front *front, uint8_t *payload, size_t room) {
  uint8_t bytes[HEADER + MOST_PAYLOAD];
  ssize_t got = recv(front->socket, bytes, HEADER, MSG_DONTWAIT);
  if (got != HEADER) return 0;
  MUST((little_get(bytes + 4, 4) & (IS_REPLY | VERSION_MASK)) == (IS_REPLY | VERSION));
  size_t length = (size_t)little_get(bytes + 8, 4);
  MUST(length <= room && length <= MOST_PAYLOAD);
  MUST(recv(front->socket, bytes, length, MSG_DONTWAIT) == (ssize_t)length || !length);
  memcpy(payload, bytes, length);
  return length;
}

// QEMU's are padded.
static size_t places_length(const struct front *front) { return front->way.event_index ? 24 : 20; }

static void places(const struct front *front, struct sent *sent, uint32_t request, int file) {
  little_put(message(sent, request, places_length(front))->bytes + HEADER, file < 0 ? 0 : 4096, 8);
  little_put(sent->bytes + HEADER + 16, QUEUES, 2);
  sent->fds[0] = file;
  sent->fd_count = file >= 0;
}

int front_places(struct front *front) {
  union {
    struct cmsghdr header;
    char room[CMSG_SPACE(sizeof(int))];
  } control = {0};
  uint8_t bytes[HEADER + 24];
  size_t length = HEADER + places_length(front);
  struct iovec part = {.iov_base = bytes, .iov_len = sizeof bytes};
  struct msghdr header = {.msg_iov = &part, .msg_iovlen = 1, .msg_control = &control, .msg_controllen = sizeof control};
  struct sent sent;
  int file;
  places(front, &sent, GET_INFLIGHT_FD, -1);
  MUST(front_send(front, &sent, 0, sent.length));
  pump(front);
  MUST(recvmsg(front->socket, &header, MSG_DONTWAIT | MSG_CMSG_CLOEXEC) == (ssize_t)length && CMSG_FIRSTHDR(&header));
  MUST(little_get(bytes + HEADER, 8) == 4096);
  memcpy(&file, CMSG_DATA(CMSG_FIRSTHDR(&header)), sizeof file);
  return file;
}

bool front_give_places(struct front *front, int file) {
  struct sent sent;
  places(front, &sent, SET_INFLIGHT_FD, file);
  return front_ask(front, &sent);
}

// Takes what a new call descriptor of a queue was told, so that what it is told then is of requests.
static void take_call(const struct front *front, unsigned q) {
  uint64_t told;
  MUST(read(front->call[q], &told, sizeof told) == sizeof told);
}

void front_agree(struct front *front) {
  static struct sent sent[64];
  uint8_t payload[MOST_PAYLOAD];
  size_t count = front_set_up(front, sent, 0);
  for (size_t i = 0; i < count; i++) {
    MUST(front_send(front, &sent[i], 0, sent[i].length));
    pump(front);
    MUST(front->alive);
    size_t length = front_reply(front, payload, sizeof payload);
    uint32_t request = (uint32_t)little_get(sent[i].bytes, 4);
    if (request == GET_FEATURES)
      MUST(little_get(payload, 8) == (VSCSI_ACCEPTED_FEATURES | F_PROTOCOL_FEATURES | F_LOG_ALL));
    else if (request == GET_QUEUE_NUM) MUST(little_get(payload, 8) == QUEUES);
    else if (request == GET_CONFIG)
      MUST(length == 48 && little_get(payload + 12, 4) == QUEUES - 2 && little_get(payload + 12 + 24, 4) == 32);
    else if (request != GET_PROTOCOL_FEATURES && i > 2) MUST(length == 8 && little_get(payload, 8) == 0);
    if (request == SET_VRING_CALL) take_call(front, (unsigned)little_get(sent[i].bytes + HEADER, 1));
  }
}

uint32_t front_stop(struct front *front, unsigned q) {
  struct sent sent;
  uint8_t payload[8];
  one(&sent, GET_VRING_BASE, q);
  MUST(front_send(front, &sent, 0, sent.length));
  pump(front);
  MUST(front->alive && front_reply(front, payload, sizeof payload) == 8 && little_get(payload, 4) == q);
  return (uint32_t)little_get(payload + 4, 4);
}

void front_start(struct front *front, unsigned q, uint32_t base) {
  static struct sent sent[64];
  size_t count = front_set_up(front, sent, 0);
  for (size_t i = 8; i < count; i++) {
    uint8_t *at = sent[i].bytes + HEADER;
    uint32_t request = (uint32_t)little_get(sent[i].bytes, 4);
    if (request == SET_VRING_BASE) little_put(at + 4, base, 4);
    if ((little_get(at, 4) & 0xff) != q) continue;
    MUST(front_ask(front, &sent[i]));
    if (request == SET_VRING_CALL) take_call(front, q);
  }
}

static void descriptor(uint8_t *at, uint64_t addr, uint32_t length, uint16_t third, uint16_t fourth) {
  little_put(at, addr, 8);
  little_put(at + 8, length, 4);
  little_put(at + 12, third, 2);
  little_put(at + 14, fourth, 2);
}

static void put_packed(struct front *front, unsigned q, const struct part *parts, unsigned count, bool table) {
  struct driver_queue *queue = &front->queues[q];
  for (unsigned i = 0; i < count; i++) {
    uint16_t flags = (uint16_t)((queue->next_wrap ? FLAG_AVAILABLE : FLAG_USED) | (i + 1 < count ? FLAG_NEXT : 0) |
                                (parts[i].writable ? FLAG_WRITE : 0) | (table ? FLAG_INDIRECT : 0));
    descriptor(front->memory + place_of(q, 0) + 16 * queue->next, guest_of(front, parts[i].place), parts[i].length,
               (uint16_t)(queue->free & (front->size / 2 - 1)), flags);
    if (++queue->next == front->size) {
      queue->next = 0;
      queue->next_wrap = !queue->next_wrap;
    }
  }
  // An id is used again only behind as many others as half the ring's size less one.
  queue->free++;
}

static void put_split(struct front *front, unsigned q, const struct part *parts, unsigned count, bool table) {
  struct driver_queue *queue = &front->queues[q];
  uint16_t head = (uint16_t)(queue->free % front->size);
  for (unsigned i = 0; i < count; i++) {
    uint16_t at = (uint16_t)(queue->free++ % front->size);
    uint16_t flags =
        (uint16_t)((i + 1 < count ? FLAG_NEXT : 0) | (parts[i].writable ? FLAG_WRITE : 0) | (table ? FLAG_INDIRECT : 0));
    descriptor(front->memory + place_of(q, 0) + 16 * at, guest_of(front, parts[i].place), parts[i].length, flags,
               (uint16_t)(queue->free % front->size));
  }
  uint8_t *ring = front->memory + place_of(q, 1);
  little_put(ring + 4 + 2 * (queue->next % front->size), head, 2);
  queue->next++;
  __atomic_store_n((uint16_t *)(void *)(ring + 2), queue->next, __ATOMIC_RELEASE);
}

static void put(struct front *front, unsigned q, const struct part *parts, unsigned count, bool table) {
  if (front->way.packed) put_packed(front, q, parts, count, table);
  else put_split(front, q, parts, count, table);
}

void driver_put_table(struct front *front, unsigned q, struct part table) { put(front, q, &table, 1, true); }

void driver_put(struct front *front, unsigned q, const struct part *parts, unsigned count) {
  struct part whole = {.place = TABLES + 0x10000 * (uint64_t)q + 0x100 * (uint64_t)(front->queues[q].free % 256),
                       .length = 16 * count};
  for (unsigned i = 0; front->way.indirect && i < count; i++) {
    uint16_t flags = (uint16_t)((parts[i].writable ? FLAG_WRITE : 0) | (i + 1 < count && !front->way.packed ? FLAG_NEXT : 0));
    uint8_t *at = front->memory + whole.place + 16 * i;
    if (front->way.packed) descriptor(at, guest_of(front, parts[i].place), parts[i].length, 0, flags);
    else descriptor(at, guest_of(front, parts[i].place), parts[i].length, flags, (uint16_t)(i + 1));
  }
  if (front->way.indirect) driver_put_table(front, q, whole);
  else put(front, q, parts, count, false);
}

void driver_kick(struct front *front, unsigned q) {
  const uint64_t once = 1;
  struct driver_queue *queue = &front->queues[q];
  uint16_t before = queue->told;
  queue->told = queue->next;
  // A driver with event indices notifies only of the chain that the device names (VIRTIO 1.2, 2.7.10).
  if (front->way.event_index && !front->way.packed) {
    uint16_t event = (uint16_t)little_get(front->memory + place_of(q, 2) + 4 + 8 * (uint64_t)front->size, 2);
    if ((uint16_t)(queue->next - event - 1) >= (uint16_t)(queue->next - before)) return;
  } else if (little_get(front->memory + place_of(q, 2) + (front->way.packed ? 2 : 0), 2) & 1) {
    return;  // the device asked for none (2.7.6 and 2.8.14)
  }
  MUST(write(front->kick[q], &once, sizeof once) == sizeof once);
}

bool driver_take(struct front *front, unsigned q, uint32_t *length) {
  struct driver_queue *queue = &front->queues[q];
  if (!front->way.packed) {
    const uint8_t *used = front->memory + place_of(q, 2);
    if (little_get(used + 2, 2) == queue->seen) return false;
    *length = (uint32_t)little_get(used + 4 + 8 * (queue->seen % front->size) + 4, 4);
    queue->seen++;
    if (front->way.event_index) little_put(front->memory + place_of(q, 1) + 4 + 2 * (uint64_t)front->size, queue->seen, 2);
    return true;
  }
  const uint8_t *at = front->memory + place_of(q, 0) + 16 * queue->seen;
  uint16_t flags = (uint16_t)little_get(at + 14, 2);
  if (!!(flags & FLAG_AVAILABLE) != queue->seen_wrap || !!(flags & FLAG_USED) != queue->seen_wrap) return false;
  *length = (uint32_t)little_get(at + 8, 4);
  return true;
}

bool driver_next(struct front *front, unsigned q, unsigned count, uint32_t *length) {
  struct driver_queue *queue = &front->queues[q];
  unsigned slots = front->way.indirect ? 1 : count;
  if (!driver_take(front, q, length)) return false;
  for (unsigned i = 0; front->way.packed && i < slots; i++) {
    if (++queue->seen < front->size) continue;
    queue->seen = 0;
    queue->seen_wrap = !queue->seen_wrap;
  }
  return true;
}

bool driver_run(struct front *front, unsigned q, const struct part *parts, unsigned count, uint32_t *length) {
  driver_put(front, q, parts, count);
  driver_kick(front, q);
  pump(front);
  return driver_next(front, q, count, length);
}

void put_request(struct front *front, uint64_t place, const uint8_t *block, size_t length) {
  uint8_t head[HEAD] = {1, 0, 0x40, 0};
  memcpy(head + 19, block, length);
  memcpy(front->memory + place, head, HEAD);
}

int command(struct front *front, unsigned q, const uint8_t *block, size_t length, const void *out, uint32_t out_length,
            void *in, uint32_t in_length) {
  // Data reach over the border of the two halves where these touch.
  uint64_t request = DATA + 0x1000 * (uint64_t)q, response = request + 0x400,
           data = front->way.far ? HALF + 0x1400 : HALF - 0x1400;
  struct part parts[4];
  unsigned count = 0;
  uint32_t used;
  uint64_t told;
  put_request(front, request, block, length);
  memset(front->memory + response, 0xee, RESPONSE);
  parts[count++] = (struct part){request, HEAD, false};
  if (out_length) parts[count++] = (struct part){data, out_length, false};
  parts[count++] = (struct part){response, RESPONSE, true};
  if (in_length) parts[count++] = (struct part){data, in_length, true};
  if (out_length) memcpy(front->memory + data, out, out_length);
  if (!driver_run(front, q, parts, count, &used)) return -1;
  MUST(read(front->call[q], &told, sizeof told) == sizeof told);
  if (in_length) memcpy(in, front->memory + data, in_length);
  MUST(used >= RESPONSE && used <= RESPONSE + in_length && front->memory[response + 11] == 0);
  return front->memory[response + 10];
}
