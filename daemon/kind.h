// What the kinds of servers have in common. It is for export.c, cluster.c and server.c alone.
#ifndef DAEMON_KIND_H
#define DAEMON_KIND_H

#include "server.h"
#include "storage.h"

// A request: how many parts of it aren't over yet, and by which error number one failed, or 0.
struct request {
  void *what;  // NULL: it is free
  unsigned left;
  int error;
  bool is_begun;  // all its parts were
  struct server *server;
  struct request *next;  // of those that are over
};

enum part_kind { PART_READ, PART_WRITE, PART_ZERO, PART_FLUSH };

// What a kind does in its own way. `begin` begins a part of a request and returns 0, and has request_note called once it is over, perhaps
// at once; or it returns the error number by which the part can't be begun. The others are the calls of server.h.
struct kind {
  int (*begin)(struct server *server, enum part_kind part, struct request *request, void *bytes, uint64_t count, uint64_t at);
  bool (*watch)(struct server *server);
  bool (*turn)(struct server *server);
  bool (*asks)(struct server *server, struct pollfd *asked);
  void (*close)(struct server *server);
};

enum { FAULT = 200 };

// What a server of any kind has. A kind's own value begins with it.
struct server {
  const struct kind *kind;
  bool is_there, zeroes;
  uint64_t bytes;
  int epoll;  // below 0: none watches it
  uint32_t event;
  unsigned losses, pause;  // milliseconds between two tries to connect
  char fault[FAULT];
  struct request requests[MOST_TRANSFERS], *over, **last;
};

// Begins a server that isn't there yet.
void server_begin(struct server *server, const struct kind *kind);

// Notes why a server can't be had.
void server_note_fault(struct server *server, const char *text);

// Returns why a server that has so many bytes can't have the disk, or NULL.
const char *server_length_fault(const struct server *server, uint64_t bytes);

// Notes that a part of a request is over, and the error number by which it failed, or 0.
void request_note(struct request *request, int error);

// Has all that is under way fail.
void server_fail(struct server *server, int error);

#endif
