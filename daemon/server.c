#include "server.h"

#include <errno.h>
#include <stdio.h>

#include "kind.h"

void server_begin(struct server *server, const struct kind *kind) {
  server->kind = kind;
  server->epoll = -1;
  server->last = &server->over;
}

void server_note_fault(struct server *server, const char *text) {
  snprintf(server->fault, sizeof server->fault, "%s", text ? text : "no memory");
}

const char *server_length_fault(const struct server *server, uint64_t bytes) {
  if (!bytes || bytes % DEVICE_BLOCK || bytes / DEVICE_BLOCK > VSCSI_MOST_BLOCKS) return "its length is no disk's";
  return server->bytes && bytes != server->bytes ? "it isn't as long as it was" : NULL;
}

void server_close(struct server *server) {
  if (server) server->kind->close(server);
}

uint64_t server_bytes(const struct server *server) { return server->bytes; }

bool server_zeroes(const struct server *server) { return server->zeroes; }

bool server_is_there(const struct server *server) { return server->is_there; }

unsigned server_losses(const struct server *server) { return server->losses; }

const char *server_fault(const struct server *server) { return server->fault; }

bool server_watch(struct server *server, int epoll, uint32_t event) {
  server->epoll = epoll;
  server->event = event;
  return server->kind->watch(server);
}

bool server_turn(struct server *server) { return server->kind->turn(server); }

bool server_asks(struct server *server, struct pollfd *asked) { return server->kind->asks(server, asked); }

static void end_request(struct request *request) {
  struct server *server = request->server;
  request->next = NULL;
  *server->last = request;
  server->last = &request->next;
}

void request_note(struct request *request, int error) {
  if (error) request->error = error;
  if (!--request->left && request->is_begun) end_request(request);
}

void server_fail(struct server *server, int error) {
  for (size_t i = 0; i < MOST_TRANSFERS; i++) {
    struct request *request = &server->requests[i];
    if (!request->what || !request->left) continue;
    request->error = error;
    request->left = 0;
    end_request(request);
  }
}

// Takes a free request, which is all in one hand until end_parts.
static struct request *begin_request(struct server *server, void *what) {
  struct request *request = server->requests;
  while (request->what) request++;
  *request = (struct request){.what = what, .server = server, .error = server->is_there ? 0 : ENOTCONN};
  return request;
}

// Begins a part of a request, or notes why it can't be.
static void begin_part(struct request *request, enum part_kind part, void *bytes, uint64_t count, uint64_t at) {
  if (request->error) return;
  request->left++;
  int error = request->server->kind->begin(request->server, part, request, bytes, count, at);
  if (!error) return;
  request->error = error;
  request->left--;
}

static void end_parts(struct request *request) {
  request->is_begun = true;
  if (!request->left) end_request(request);
}

static void move(struct server *server, enum part_kind part, const struct iovec *parts, unsigned count, uint64_t at, void *what) {
  struct request *request = begin_request(server, what);
  for (unsigned i = 0; i < count; at += parts[i++].iov_len)
    begin_part(request, part, parts[i].iov_base, parts[i].iov_len, at);
  end_parts(request);
}

void server_read(struct server *server, const struct iovec *parts, unsigned count, uint64_t at, void *what) {
  move(server, PART_READ, parts, count, at, what);
}

void server_write(struct server *server, const struct iovec *parts, unsigned count, uint64_t at, void *what) {
  move(server, PART_WRITE, parts, count, at, what);
}

void server_zero(struct server *server, uint64_t at, uint64_t bytes, void *what) {
  struct request *request = begin_request(server, what);
  begin_part(request, PART_ZERO, NULL, bytes, at);
  end_parts(request);
}

void server_flush(struct server *server, void *what) {
  struct request *request = begin_request(server, what);
  begin_part(request, PART_FLUSH, NULL, 0, 0);
  end_parts(request);
}

bool server_has_next(const struct server *server) { return server->over; }

bool server_next(struct server *server, void **what, int *error) {
  struct request *request = server->over;
  if (!request) return false;
  server->over = request->next;
  if (!server->over) server->last = &server->over;
  *what = request->what;
  *error = request->error;
  request->what = NULL;
  if (!*error) server->pause = 0;
  return true;
}
