// What has a disk's blocks in place of a file: an NBD server's export (export.h), or an image of a Ceph cluster (cluster.h). All of these
// calls are made by the daemon's own thread.
#ifndef DAEMON_SERVER_H
#define DAEMON_SERVER_H

#include <poll.h>
#include <stdbool.h>
#include <stddef.h>
#include <stdint.h>
#include <sys/uio.h>

struct server;

void server_close(struct server *server);

// Returns how many bytes it has, and whether it takes zeros that aren't sent.
uint64_t server_bytes(const struct server *server);
bool server_zeroes(const struct server *server);

// Has an epoll tell this event, by edges, when there is something for server_turn.
bool server_watch(struct server *server, int epoll, uint32_t event);

// Begins a request: to read or write these parts from a place on, to make zeros there, or to keep all that was written. The parts stay
// where they are until it is over. `what` is told by server_next then, and isn't NULL. At most MOST_TRANSFERS are under way.
void server_read(struct server *server, const struct iovec *parts, unsigned count, uint64_t at, void *what);
void server_write(struct server *server, const struct iovec *parts, unsigned count, uint64_t at, void *what);
void server_zero(struct server *server, uint64_t at, uint64_t bytes, void *what);
void server_flush(struct server *server, void *what);

// Takes what the server sent, with no waiting, and connects again where it is time for that. Returns whether the connection came or went.
bool server_turn(struct server *server);

// Takes the next request that is over, and the error number by which it failed, or 0. Returns false where none is.
bool server_next(struct server *server, void **what, int *error);
bool server_has_next(const struct server *server);

// Returns whether there is a connection; how many were lost, behind each of which nothing is kept for sure that no flush covered; and why
// the last one was, or couldn't be made.
bool server_is_there(const struct server *server);
unsigned server_losses(const struct server *server);
const char *server_fault(const struct server *server);

// Says what is to be polled until server_turn has something to do, unless server_has_next says behind this that there is something. Returns
// false where nothing is.
bool server_asks(struct server *server, struct pollfd *asked);

#endif
