// A front end's connection to a session of the daemon's, in one process, and the guest's memory behind it.
//
// Whatever the front end and the guest do, the process ends by abort where
// - a session is served 30 times in a row and does nothing;
// - a turn of the daemon's loop takes more than half a second of the processor;
// - a session that ended leaves a descriptor or a mapping behind, or a file that isn't what its disk is;
// - a reply isn't one.
#ifndef DAEMON_FUZZ_CONNECTION_H
#define DAEMON_FUZZ_CONNECTION_H

#include "../session.h"
#include "input.h"

// The guest's memory, of two halves, and where these lie by the front end's addresses. The second may lie far from the first.
enum { GUEST_BYTES = 1 << 20, HALF = GUEST_BYTES / 2, USER = 0x7000000, FAR_USER = 0x70000000 };
#define FAR (UINT64_C(1) << 32)

enum { QUEUES = 5 };

// How a session is: which form its rings have and how large they are, which features, how the guest's memory lies, and whether disk
// 0:0 has a file.
struct way {
  bool packed, event_index, indirect, far, file, polls;
  uint16_t size;
};

struct connection {
  struct way way;
  struct disks disks;
  struct session session;
  int socket, epoll, file;
  bool alive;
  int kick[QUEUES], call[QUEUES], err[QUEUES];
  uint64_t answer;  // the number of the last reply of 8 bytes
};

// Takes a way of a session from an input.
struct way way_take(struct input *input);

// Ends the process, and says what isn't so.
_Noreturn void found(const char *what);

// The guest's memory as its driver sees it, and the file that it is.
uint8_t *guest_memory(void);
int guest_file(void);

// Returns the guest's address of a place in its memory.
uint64_t guest_of(const struct way *way, uint64_t place);

// Returns where a part of a queue lies in the guest's memory: 0 is the descriptors, 1 the driver area, 2 the device area.
uint64_t place_of(unsigned q, unsigned part);

// Begins a session, and ends it. Between them all calls but the first find a session that may have ended.
void connection_begin(struct connection *connection, struct way way);
void connection_end(struct connection *connection);

// Runs the session until it has nothing to do, and takes its replies.
void connection_pump(struct connection *connection);

// Has so many milliseconds pass for the session, and runs it.
void connection_wait(struct connection *connection, uint64_t milliseconds);

#endif
