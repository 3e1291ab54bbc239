// Messages as a front end sends them.
#ifndef DAEMON_FUZZ_SENT_H
#define DAEMON_FUZZ_SENT_H

#include "connection.h"

// Room for the messages of a set-up, those of one queue, and the descriptors that a message may have here, which are more than the daemon
// takes.
enum { MOST_SENT = 64, QUEUE_MESSAGES = 7, MOST_SENT_FDS = 10 };

struct sent {
  uint8_t bytes[HEADER + MOST_PAYLOAD + 64];
  size_t length;
  int fds[MOST_SENT_FDS];
  size_t fd_count;
};

// Sends a message from one byte to another. Its descriptors go with the first one.
void connection_send(const struct connection *connection, const struct sent *sent, size_t from, size_t to);

// Makes a message of so many bytes of zeros, one of a number, and the table of the guest's memory or of its first half.
struct sent *sent_begin(struct sent *sent, uint32_t request, size_t length);
void sent_number(struct sent *sent, uint32_t request, uint64_t number);
void sent_memory(const struct connection *connection, struct sent *sent, bool whole);

// Makes the message by which a half of the guest's memory comes, or goes.
void sent_region(const struct connection *connection, struct sent *sent, bool comes, unsigned half);

// Makes the messages that set all queues up, and returns how many these are; or the QUEUE_MESSAGES of one queue that begins at a base.
size_t sent_set_up(const struct connection *connection, struct sent *sent);
void sent_queue(const struct connection *connection, struct sent *sent, unsigned q, uint32_t base);

#endif
