#include "sent.h"

#include <string.h>
#include <sys/socket.h>

#include "../bytes.h"

static uint64_t user_of(const struct way *way, uint64_t place) {
  return way->far && place >= HALF ? place - HALF + FAR_USER : place + USER;
}

void connection_send(const struct connection *connection, const struct sent *sent, size_t from, size_t to) {
  union {
    struct cmsghdr header;
    char room[CMSG_SPACE(MOST_SENT_FDS * sizeof(int))];
  } control = {0};
  struct iovec part = {.iov_base = (uint8_t *)(uintptr_t)sent->bytes + from, .iov_len = to - from};
  struct msghdr header = {.msg_iov = &part, .msg_iovlen = 1};
  if (from == to) return;
  if (from == 0 && sent->fd_count) {
    header.msg_control = &control;
    header.msg_controllen = CMSG_SPACE(sent->fd_count * sizeof(int));
    struct cmsghdr *it = CMSG_FIRSTHDR(&header);
    it->cmsg_level = SOL_SOCKET;
    it->cmsg_type = SCM_RIGHTS;
    it->cmsg_len = CMSG_LEN(sent->fd_count * sizeof(int));
    memcpy(CMSG_DATA(it), sent->fds, sent->fd_count * sizeof(int));
  }
  // A session that ended takes nothing, and one that has much to read takes no more.
  (void)!sendmsg(connection->socket, &header, MSG_NOSIGNAL | MSG_DONTWAIT);
}

struct sent *sent_begin(struct sent *sent, uint32_t request, size_t length) {
  *sent = (struct sent){.length = HEADER + length};
  little_put(sent->bytes, request, 4);
  little_put(sent->bytes + 4, VERSION | NEEDS_REPLY, 4);
  little_put(sent->bytes + 8, length, 4);
  return sent;
}

void sent_number(struct sent *sent, uint32_t request, uint64_t number) {
  little_put(sent_begin(sent, request, 8)->bytes + HEADER, number, 8);
}

static void sent_fd(struct sent *sent, uint32_t request, unsigned q, int fd) {
  sent_number(sent, request, q);
  sent->fds[0] = fd;
  sent->fd_count = 1;
}

// Describes a half of the guest's memory.
static void put_region(const struct connection *connection, uint8_t *at, unsigned half) {
  uint64_t place = (uint64_t)HALF * half;
  little_put(at, guest_of(&connection->way, place), 8);
  little_put(at + 8, HALF, 8);
  little_put(at + 16, user_of(&connection->way, place), 8);
  little_put(at + 24, place, 8);
}

void sent_memory(const struct connection *connection, struct sent *sent, bool whole) {
  const unsigned count = whole ? 2 : 1;
  uint8_t *at = sent_begin(sent, SET_MEM_TABLE, 8 + 32 * count)->bytes + HEADER;
  little_put(at, count, 4);
  for (unsigned i = 0; i < count; i++) {
    put_region(connection, at + 8 + 32 * i, i);
    sent->fds[i] = guest_file();
  }
  sent->fd_count = count;
}

void sent_region(const struct connection *connection, struct sent *sent, bool comes, unsigned half) {
  put_region(connection, sent_begin(sent, comes ? ADD_MEM_REG : REM_MEM_REG, 8 + 32)->bytes + HEADER + 8, half);
  sent->fds[0] = guest_file();
  sent->fd_count = comes;
}

void sent_queue(const struct connection *connection, struct sent *sent, unsigned q, uint32_t base) {
  const struct way *way = &connection->way;
  sent_number(sent, SET_VRING_NUM, q | (uint64_t)way->size << 32);
  sent_number(sent + 1, SET_VRING_BASE, q | (uint64_t)base << 32);
  uint8_t *at = sent_begin(sent + 2, SET_VRING_ADDR, 40)->bytes + HEADER;
  little_put(at, q, 4);
  little_put(at + 8, user_of(way, place_of(q, 0)), 8);
  little_put(at + 16, user_of(way, place_of(q, 2)), 8);
  little_put(at + 24, user_of(way, place_of(q, 1)), 8);
  sent_fd(sent + 3, SET_VRING_CALL, q, connection->call[q]);
  sent_fd(sent + 4, SET_VRING_ERR, q, connection->err[q]);
  sent_fd(sent + 5, SET_VRING_KICK, q, connection->kick[q]);
  sent_number(sent + 6, SET_VRING_ENABLE, q | UINT64_C(1) << 32);
}

size_t sent_set_up(const struct connection *connection, struct sent *sent) {
  const struct way *way = &connection->way;
  size_t n = 0;
  sent_begin(&sent[n++], GET_FEATURES, 0);
  sent_begin(&sent[n++], GET_PROTOCOL_FEATURES, 0);
  sent_number(&sent[n++], SET_PROTOCOL_FEATURES, P_MQ | P_REPLY_ACK | P_CONFIG | P_RESET_DEVICE | P_CONFIGURE_MEM_SLOTS);
  sent_begin(&sent[n++], GET_QUEUE_NUM, 0);
  sent_begin(&sent[n++], SET_OWNER, 0);
  uint64_t features = VSCSI_F_VERSION_1 | F_PROTOCOL_FEATURES | (way->packed ? VSCSI_F_RING_PACKED : 0);
  features |= (way->event_index ? VSCSI_F_EVENT_IDX : 0) | (way->indirect ? VSCSI_F_INDIRECT_DESC : 0);
  sent_number(&sent[n++], SET_FEATURES, features);
  little_put(sent_begin(&sent[n++], GET_CONFIG, 12 + 36)->bytes + HEADER + 4, 36, 4);
  sent_memory(connection, &sent[n++], true);
  for (unsigned q = 0; q < QUEUES; q++, n += QUEUE_MESSAGES) sent_queue(connection, sent + n, q, way->packed ? 0x80008000 : 0);
  return n;
}
