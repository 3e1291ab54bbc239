#include "export.h"

#ifdef DAEMON_NBD
#include <errno.h>
#include <libnbd.h>
#include <stdio.h>
#include <stdlib.h>
#include <string.h>
#include <sys/epoll.h>
#include <sys/socket.h>

#include "clock.h"
#include "kind.h"
#include "signals.h"

// Milliseconds: for how long a connection may take to be made, and the server to keep what it has, in which portions the first one is
// looked at, and between two tries to connect again.
enum { MAKING = 10000, FLUSHING = 60000, PORTION = 50, LEAST_PAUSE = 50, MOST_PAUSE = 5000 };

struct export {
  struct server server;
  struct nbd_handle *nbd;           // NULL: there is no connection, and none is being made
  char *uri, *name;                 // the export's name
  struct sockaddr_storage address;  // the server's, where its URI has a host, since no name can be looked up later
  socklen_t length;                 // of the address, or 0
  uint64_t due;                     // when it is connected again, or has to be by
};

static const char closed[] = "the server closed the connection", silent[] = "the server doesn't answer";

static struct export *of(struct server *server) { return (struct export *)server; }

bool export_is_built(void) { return true; }

// Makes what connects, with nothing that reads a file or runs a program.
static bool make(struct export *export) {
  struct nbd_handle *nbd = export->nbd = nbd_create();
  if (!nbd) return false;
  return !nbd_set_uri_allow_transports(nbd, LIBNBD_ALLOW_TRANSPORT_TCP | LIBNBD_ALLOW_TRANSPORT_UNIX) &&
         !nbd_set_uri_allow_tls(nbd, LIBNBD_TLS_DISABLE) && !nbd_set_uri_allow_local_file(nbd, false) &&
         !nbd_set_pread_initialize(nbd, false);
}

// Finds out whether the export of a connection is what the disk wants. Returns false, and notes why, where it isn't.
static bool suits(struct export *export) {
  int64_t bytes = nbd_get_size(export->nbd), least = nbd_get_block_size(export->nbd, LIBNBD_SIZE_MINIMUM),
          most = nbd_get_block_size(export->nbd, LIBNBD_SIZE_MAXIMUM);
  const char *fault = bytes < 0 || least < 0 || most < 0 ? nbd_get_error() : server_length_fault(&export->server, (uint64_t)bytes);
  if (fault) return server_note_fault(&export->server, fault), false;
  if (nbd_is_read_only(export->nbd) != 0) fault = "the export is read-only";
  else if (nbd_can_flush(export->nbd) != 1) fault = "the server can't flush";
  else if (least > PAGE_BYTES || (least && bytes % least)) fault = "its least block is longer than 4096 bytes, or no part of the disk";
  else if (most && most < (int64_t)MOST_TRANSFERRED * PAGE_BYTES) fault = "it takes less than 1 MiB at once";
  if (fault) return server_note_fault(&export->server, fault), false;
  export->server.bytes = (uint64_t)bytes;
  export->server.zeroes = nbd_can_zero(export->nbd) == 1;
  return true;
}

static bool is_gone(const struct export *export) { return nbd_aio_is_dead(export->nbd) || nbd_aio_is_closed(export->nbd); }

// Waits a little for what the server sends. Returns false, and notes why, where nothing comes any more, or not until that time.
static bool await(struct export *export, uint64_t until) {
  if (is_gone(export)) return server_note_fault(&export->server, closed), false;
  if (signals_end_waits() || clock_now() >= until) return server_note_fault(&export->server, silent), false;
  return nbd_poll(export->nbd, PORTION) >= 0 || (server_note_fault(&export->server, nbd_get_error()), false);
}

// Waits for the first connection. Returns false, and notes why, where there is none.
static bool await_ready(struct export *export) {
  uint64_t until = clock_now() + MAKING;
  while (!nbd_aio_is_ready(export->nbd))
    if (!await(export, until)) return false;
  return true;
}

// Has the server keep what a daemon that was killed wrote: that is what is read from here on. Returns false, and notes why, where it
// doesn't.
static bool flush(struct export *export) {
  uint64_t until = clock_now() + FLUSHING;
  int64_t cookie = nbd_aio_flush(export->nbd, NBD_NULL_COMPLETION, 0);
  int over = cookie < 0 ? -1 : nbd_aio_command_completed(export->nbd, (uint64_t)cookie);
  for (; !over; over = nbd_aio_command_completed(export->nbd, (uint64_t)cookie))
    if (!await(export, until)) return false;
  return over > 0 || (server_note_fault(&export->server, nbd_get_error()), false);
}

// Keeps what connects again. A socket's path stands in the URI.
static bool keep(struct export *export) {
  export->length = sizeof export->address;
  export->name = nbd_get_export_name(export->nbd);
  if (!export->name) return server_note_fault(&export->server, nbd_get_error()), false;
  if (getpeername(nbd_aio_get_fd(export->nbd), (struct sockaddr *)&export->address, &export->length))
    return server_note_fault(&export->server, strerror(errno)), false;
  if (export->address.ss_family == AF_UNIX) export->length = 0;
  return true;
}

static void close_export(struct server *server) {
  struct export *export = of(server);
  if (export->nbd && server->is_there) nbd_aio_disconnect(export->nbd, 0);
  nbd_close(export->nbd);
  free(export->name);
  free(export->uri);
  free(export);
}

static bool add_to_epoll(struct export *export) {
  const struct server *server = &export->server;
  struct epoll_event event = {.events = EPOLLIN | EPOLLOUT | EPOLLRDHUP | EPOLLET, .data.u32 = server->event};
  int file = server->epoll < 0 ? -1 : nbd_aio_get_fd(export->nbd);
  return server->epoll < 0 || (file >= 0 && !epoll_ctl(server->epoll, EPOLL_CTL_ADD, file, &event));
}

static bool watch(struct server *server) { return !of(server)->nbd || add_to_epoll(of(server)); }

// Notes that a part of a request is over. libnbd calls it amid its own work, so it calls nothing there.
static int note_over(void *at, int *error) {
  request_note(at, *error);
  return 1;
}

// Lets go of a connection. What was asked of it fails.
static void lose(struct export *export, const char *text) {
  struct server *server = &export->server;
  if (text != server->fault) server_note_fault(server, text);
  nbd_close(export->nbd);
  export->nbd = NULL;
  server->losses += server->is_there;
  server->is_there = false;
  server->pause = !server->pause ? LEAST_PAUSE : server->pause > MOST_PAUSE / 2 ? MOST_PAUSE : 2 * server->pause;
  export->due = clock_now() + server->pause;
  server_fail(server, ENOTCONN);
}

static void connect_again(struct export *export) {
  bool begun = make(export) && !nbd_set_export_name(export->nbd, export->name);
  if (begun && export->length) begun = !nbd_aio_connect(export->nbd, (struct sockaddr *)&export->address, export->length);
  else if (begun) begun = !nbd_aio_connect_uri(export->nbd, export->uri);
  export->due = clock_now() + MAKING;
  if (!begun || !add_to_epoll(export)) lose(export, nbd_get_error());
}

static bool asks(struct server *server, struct pollfd *asked) {
  const struct export *export = of(server);
  if (!export->nbd || is_gone(export)) return false;
  unsigned direction = nbd_aio_get_direction(export->nbd);
  short events = (short)((direction & LIBNBD_AIO_DIRECTION_READ ? POLLIN : 0) | (direction & LIBNBD_AIO_DIRECTION_WRITE ? POLLOUT : 0));
  *asked = (struct pollfd){.fd = nbd_aio_get_fd(export->nbd), .events = events};
  return asked->fd >= 0;
}

// Goes on with a connection as far as that needs no waiting. Returns whether it goes on at once.
static bool go_on(struct export *export) {
  struct server *server = &export->server;
  struct pollfd asked;
  if (is_gone(export)) return lose(export, closed), false;
  if (!server->is_there && nbd_aio_is_ready(export->nbd)) {
    if (!suits(export)) return lose(export, server->fault), false;
    server->is_there = true;
  }
  if (!asks(server, &asked) || poll(&asked, 1, 0) != 1) return false;
  bool reads = asked.events & POLLIN && asked.revents & ~POLLOUT;
  int went = reads ? nbd_aio_notify_read(export->nbd) : nbd_aio_notify_write(export->nbd);
  if (went < 0) lose(export, nbd_get_error());
  return went == 0;
}

static bool turn(struct server *server) {
  struct export *export = of(server);
  bool was_there = server->is_there;
  unsigned losses = server->losses;
  uint64_t now = clock_now();
  // Also where nothing is asked of it: the edge that tells that it is lost comes once.
  if (!export->nbd && now >= export->due) connect_again(export);
  while (export->nbd && go_on(export)) continue;
  // Nothing was asked of it yet, so that nothing is done twice.
  if (export->nbd && !server->is_there && now >= export->due) lose(export, silent);
  return was_there != server->is_there || losses != server->losses;
}

static int begin(struct server *server, enum part_kind part, struct request *request, void *bytes, uint64_t count, uint64_t at) {
  struct nbd_handle *nbd = of(server)->nbd;
  nbd_completion_callback over = {.callback = note_over, .user_data = request};
  int64_t begun = part == PART_READ    ? nbd_aio_pread(nbd, bytes, count, at, over, 0)
                  : part == PART_WRITE ? nbd_aio_pwrite(nbd, bytes, count, at, over, 0)
                  : part == PART_ZERO  ? nbd_aio_zero(nbd, count, at, over, 0)
                                       : nbd_aio_flush(nbd, over, 0);
  return begun >= 0 ? 0 : nbd_get_errno() ? nbd_get_errno() : EIO;
}

static const struct kind nbd_kind = {.begin = begin, .watch = watch, .turn = turn, .asks = asks, .close = close_export};

struct server *export_open(const char *uri, char *why, size_t room) {
  struct export *export = calloc(1, sizeof *export);
  if (!export) return snprintf(why, room, "memory was refused"), NULL;
  struct server *server = &export->server;
  server_begin(server, &nbd_kind);
  export->uri = strdup(uri);
  bool begun = export->uri && make(export) && !nbd_aio_connect_uri(export->nbd, uri);
  if (!begun) server_note_fault(server, nbd_get_error());
  server->is_there = begun && await_ready(export) && suits(export) && flush(export) && keep(export);
  if (server->is_there) return server;
  snprintf(why, room, "%s: %s", uri, server->fault);
  return server_close(server), NULL;
}
#else
#include <stdio.h>

bool export_is_built(void) { return false; }

struct server *export_open(const char *uri, char *why, size_t room) {
  snprintf(why, room, "%s: this daemon is built without libnbd", uri);
  return NULL;
}
#endif
