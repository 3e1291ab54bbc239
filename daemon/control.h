// The operator's socket: a request and its answer are a line of JSON each (docs/vscsi-ctl.1). One client is served at a time.
#ifndef DAEMON_CONTROL_H
#define DAEMON_CONTROL_H

#include "session.h"

enum { MOST_LINE = 4096 };

struct control {
  int client;               // its connection, or below 0
  char line[MOST_LINE];     // what came of the next request
  size_t have;
  int file;                 // that came with it, or below 0
  bool waits;               // the request in `line` waits for the end of a round or for what a file lacks, and since when
  uint64_t since;
};

// What requests are about. `session` is NULL where there is no front end.
struct controlled {
  struct disks *disks;
  struct session *session;
  unsigned long sessions;
};

// Returns whether this daemon is built with it.
bool control_is_built(void);

// Begins, with no client.
void control_begin(struct control *control);

// Takes a connection, which is the control's from then on.
void control_take(struct control *control, int client);

// Reads what the client sent, and answers it, or goes on with a request that waits. Returns false where the client is gone; it is closed
// then.
bool control_serve(struct control *control, const struct controlled *controlled);

void control_end(struct control *control);

#endif
