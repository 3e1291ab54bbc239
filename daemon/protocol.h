// Messages of the vhost-user protocol, as they come over the socket and go there.
#ifndef DAEMON_PROTOCOL_H
#define DAEMON_PROTOCOL_H

#include <stdbool.h>
#include <stddef.h>
#include <stdint.h>

enum { MOST_PAYLOAD = 512, MOST_FDS = 8, HEADER = 12 };

// Flags of a message: its version in bits 0 and 1, whether it is a reply, and whether one is wanted.
enum { VERSION = 1, VERSION_MASK = 3, IS_REPLY = 4, NEEDS_REPLY = 8 };

enum request {
  GET_FEATURES = 1,
  SET_FEATURES = 2,
  SET_OWNER = 3,
  RESET_OWNER = 4,
  SET_MEM_TABLE = 5,
  SET_LOG_BASE = 6,
  SET_LOG_FD = 7,
  SET_VRING_NUM = 8,
  SET_VRING_ADDR = 9,
  SET_VRING_BASE = 10,
  GET_VRING_BASE = 11,
  SET_VRING_KICK = 12,
  SET_VRING_CALL = 13,
  SET_VRING_ERR = 14,
  GET_PROTOCOL_FEATURES = 15,
  SET_PROTOCOL_FEATURES = 16,
  GET_QUEUE_NUM = 17,
  SET_VRING_ENABLE = 18,
  GET_CONFIG = 24,
  SET_CONFIG = 25,
  GET_INFLIGHT_FD = 31,
  SET_INFLIGHT_FD = 32,
  RESET_DEVICE = 34,
  GET_MAX_MEM_SLOTS = 36,
  ADD_MEM_REG = 37,
  REM_MEM_REG = 38,
  SET_STATUS = 39,
  GET_STATUS = 40
};

#define F_LOG_ALL (UINT64_C(1) << 26)
#define F_PROTOCOL_FEATURES (UINT64_C(1) << 30)
#define P_MQ (UINT64_C(1) << 0)
#define P_LOG_SHMFD (UINT64_C(1) << 1)
#define P_REPLY_ACK (UINT64_C(1) << 3)
#define P_CONFIG (UINT64_C(1) << 9)
#define P_INFLIGHT_SHMFD (UINT64_C(1) << 12)
#define P_RESET_DEVICE (UINT64_C(1) << 13)
#define P_CONFIGURE_MEM_SLOTS (UINT64_C(1) << 15)
#define P_STATUS (UINT64_C(1) << 16)

struct message {
  uint32_t request, flags, size;
  uint8_t payload[MOST_PAYLOAD];
  int fds[MOST_FDS];
  size_t fd_count;
};

// What came of the next message.
struct reader {
  uint8_t bytes[HEADER + MOST_PAYLOAD];
  size_t have;
  int fds[MOST_FDS];
  size_t fd_count;
};

enum read_answer { READ_MESSAGE, READ_WAITS, READ_ENDED };

void reader_begin(struct reader *reader);
void reader_end(struct reader *reader);

// Reads on, and never waits. The descriptors of a message are the caller's. READ_ENDED: the other end is gone, or what came is
// no message.
enum read_answer reader_next(struct reader *reader, int socket, struct message *message);

// Answers a message, the second also with a descriptor, or none where it is below 0. Returns false where the other end doesn't
// take it.
bool protocol_reply(int socket, const struct message *message, const uint8_t *payload, size_t size);
bool protocol_give(int socket, const struct message *message, const uint8_t *payload, size_t size, int descriptor);

// Takes a descriptor out of a message, or -1.
int message_take(struct message *message, size_t which);

// Closes the descriptors that nobody took.
void message_close(struct message *message);

#endif
