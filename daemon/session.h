// A front end's connection: what it said, and the rings that it gave.
#ifndef DAEMON_SESSION_H
#define DAEMON_SESSION_H

#include "backend.h"
#include "protocol.h"

// For how many nanoseconds rings are looked at behind a round that found something there, before the session waits for a kick:
// always for so long, or up to that for as long as it pays. 0: not at all.
struct polling {
  uint64_t most;
  bool is_fixed;
};

struct session_queue {
  int kick, call, err;
  bool enabled, started, addressed;
  bool is_pipe;                   // its kick is one, which is read each time
  bool told;                      // of a broken ring, by its error descriptor
  uint64_t desc, driver, device;  // by the front end's own addresses
  uint32_t base;
  uint16_t size;
};

struct session {
  int socket, epoll;
  int log_event;  // by which the front end is told that the log has more, or below 0
  unsigned request_queues;
  struct reader reader;
  struct backend backend;
  struct session_queue queues[MOST_QUEUES];
  uint64_t features, protocol;
  uint8_t status;     // of the device, as the driver has it (VIRTIO 1.2, 2.1)
  uint64_t messages;  // that came
  bool more, quiet;
  struct polling polling;
  uint64_t window;  // for how many nanoseconds rings are looked at now, and since when nothing was found there
  uint64_t idle_since;
  bool is_torn;   // a ring's memory is gone, and may come again
  bool is_old;    // something changed since these were found: the queues that are served, and those that have no kick
  uint32_t served, kickless;
  int timer;               // by which a round that has to wait is tried again
  struct message waiting;  // a message that has to wait for the requests that the device has run to be answered, and since when
  bool is_waiting;
  uint64_t waiting_since;
};

// What an epoll event of this session's is about: its socket, its timer, or a queue's kick. Or that something is over of the reads and
// writes of backed disks, whose descriptor is the daemon's.
enum { EVENT_SOCKET = 1000, EVENT_TIMER = 1001, EVENT_STORAGE = 1002 };

// Begins over a connected socket, which is the session's from then on. Returns false, without it, where epoll doesn't take it.
bool session_begin(struct session *session, int socket, int epoll, struct disks *disks, unsigned request_queues,
                   struct polling polling, bool quiet);

// Lets go of all that the front end gave. The disks stay.
void session_end(struct session *session);

// Reads and does what messages there are. Returns false where the connection is over.
bool session_read(struct session *session);

// Returns whether the front end owes a message: it has sent none yet, or a part of one.
bool session_is_owed(const struct session *session);

// Takes a queue's kick, or the timer's or the storage's event.
void session_kicked(struct session *session, unsigned what);

// Serves what the driver made available. Returns false where the connection has to end. Sets `more` where another call is
// wanted.
bool session_serve(struct session *session);

// Of queues.c: what messages of one queue do. Each returns false where the message can't be taken.
bool queue_set_size(struct session *session, const struct message *message);
bool queue_set_addresses(struct session *session, const struct message *message);
bool queue_set_base(struct session *session, const struct message *message);
bool queue_set_enable(struct session *session, const struct message *message);
bool queue_set_kick(struct session *session, struct message *message);
bool queue_set_call(struct session *session, struct message *message);
bool queue_set_err(struct session *session, struct message *message);
bool queue_get_base(struct session *session, const struct message *message);

// Returns whether a descriptor is one by which events are told.
bool is_event(int fd);

// Adds to an event's count, without waiting. Does nothing where the descriptor is below 0.
void signal_fd(int fd);

// Takes what a kick's descriptor has to say, without waiting, also where the front end made it one that waits. Returns false
// where it can't be read.
bool kick_drain(int fd);

// Lets go of the files of disks that move, where no queue is started.
void session_release(const struct session *session);

// Begins or ends to log what is written, as the front end said last.
void session_log(struct session *session);

// Looks for the areas of all started rings in the guest's memory, after it changed, and has the device work in it. Where one
// isn't there the ring breaks, or, where `breaks` is false, none is served until it is there again.
void queues_find(struct session *session, bool breaks);
void queues_begin(struct session *session);
void queues_end(struct session *session);

// Makes all queues what they were at first, but for the descriptors by which the front end is told of answers and of broken
// rings.
void queues_reset(struct session *session);

#endif
