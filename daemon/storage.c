#include "storage.h"

#include <errno.h>
#include <poll.h>
#include <stdio.h>
#include <stdlib.h>
#include <string.h>
#include <sys/epoll.h>
#include <sys/mman.h>

#include "uring.h"

// How many transfers READs may have, and WRITEs and holes together: what is left is for one sync of each disk. How many buffers either may
// have. And the milliseconds of storage_pass.
enum { MOST_OF_KIND = (MOST_TRANSFERS - DEVICE_MOST_UNITS) / 2, BUFFERS_OF_KIND = MOST_BUFFERS / 4 * 3, PASS = 50, BITS = 64 };

// The bytes of a huge page, and of all buffers.
static const size_t HUGE = 2 << 20, ROOM = (size_t)MOST_BUFFERS * PAGE_BYTES;

// What fills a hole that couldn't be made.
static _Alignas(PAGE_BYTES) uint8_t zeros[PAGE_BYTES];

struct storage {
  struct uring *uring;
  uint8_t *mapped, *room;                             // what has the buffers, and where they begin
  uint64_t busy[MOST_BUFFERS / BITS];                 // a bit for each that something has
  struct server *servers[DEVICE_MOST_UNITS];
  size_t server_count;
  struct transfer transfers[MOST_TRANSFERS], *idle;   // those that nothing has any more
  size_t fresh;                                       // how many were ever taken: memory of the others isn't touched
  struct transfer *under_way[TRANSFER_KINDS];
  size_t taken[TRANSFER_KINDS], buffered[TRANSFER_KINDS];
  bool passes;  // storage_pass waits
};

// Makes room for the buffers, on huge pages where the system has some: a transfer's buffers are one piece of memory then, for the kernel and
// for the device. Returns false where it is refused.
static bool make_room(struct storage *storage) {
  void *mapped = mmap(NULL, ROOM + HUGE, PROT_READ | PROT_WRITE, MAP_PRIVATE | MAP_ANONYMOUS, -1, 0);
  if (mapped == MAP_FAILED) return false;
  storage->mapped = mapped;
  storage->room = storage->mapped + (HUGE - (uintptr_t)mapped % HUGE) % HUGE;
  madvise(storage->room, ROOM, MADV_HUGEPAGE);
  return true;
}

bool storage_is_built(void) { return uring_is_built(); }

struct storage *storage_make(char *why, size_t room) {
  struct storage *storage = calloc(1, sizeof *storage);
  if (!storage) return snprintf(why, room, "memory was refused"), NULL;
  storage->uring = uring_make(2 * MOST_TRANSFERS);
  if (!storage->uring || !make_room(storage)) {
    snprintf(why, room, "write-cache=on: no io_uring: %s", strerror(errno));
    if (storage->uring) uring_end(storage->uring);
    return free(storage), NULL;
  }
  return storage;
}

void storage_end(struct storage *storage) {
  uring_end(storage->uring);
  munmap(storage->mapped, ROOM + HUGE);
  free(storage);
}

void storage_add(struct storage *storage, struct server *server) { storage->servers[storage->server_count++] = server; }

void storage_leave(struct storage *storage, const struct server *server) {
  size_t left = 0;
  for (size_t i = 0; i < storage->server_count; i++)
    if (storage->servers[i] != server) storage->servers[left++] = storage->servers[i];
  storage->server_count = left;
}

bool storage_watch(struct storage *storage, int epoll, uint32_t event) {
  struct epoll_event edges = {.events = EPOLLIN | EPOLLET, .data.u32 = event};
  bool stands = !epoll_ctl(epoll, EPOLL_CTL_ADD, uring_descriptor(storage->uring), &edges);
  for (size_t i = 0; stands && i < storage->server_count; i++) stands = server_watch(storage->servers[i], epoll, event);
  return stands;
}

// Holes count as WRITEs do, and reads ahead as READs.
static enum transfer_kind side_of(enum transfer_kind kind) {
  return kind == TRANSFER_HOLE ? TRANSFER_WRITE : kind == TRANSFER_AHEAD ? TRANSFER_READ : kind;
}

static bool is_read(const struct transfer *transfer) { return transfer->kind == TRANSFER_READ || transfer->kind == TRANSFER_AHEAD; }

// Takes a transfer that nothing has, or returns NULL.
static struct transfer *take_idle(struct storage *storage) {
  struct transfer *transfer = storage->idle;
  if (transfer) storage->idle = transfer->next;
  else if (storage->fresh < MOST_TRANSFERS) transfer = &storage->transfers[storage->fresh++];
  return transfer;
}

struct transfer *storage_take(struct storage *storage, enum transfer_kind kind) {
  enum transfer_kind side = side_of(kind);
  // Reads ahead leave half of them to READs.
  size_t most = kind == TRANSFER_AHEAD ? MOST_OF_KIND / 2 : MOST_OF_KIND;
  struct transfer *transfer = side == TRANSFER_SYNC || storage->taken[side] < most ? take_idle(storage) : NULL;
  if (!transfer) return NULL;
  storage->taken[side]++;
  transfer->kind = kind;
  transfer->count = 0;
  memset(transfer->stale, 0, sizeof transfer->stale);
  transfer->doubtful = transfer->fills = false;
  return transfer;
}

static bool is_busy(const struct storage *storage, size_t buffer) { return storage->busy[buffer / BITS] >> buffer % BITS & 1; }

// Returns the first free buffer, so that few are touched where few are under way.
static size_t first_free(const struct storage *storage) {
  size_t word = 0;
  while (word < MOST_BUFFERS / BITS && storage->busy[word] == UINT64_MAX) word++;
  return word < MOST_BUFFERS / BITS ? word * BITS + (size_t)__builtin_ctzll(~storage->busy[word]) : MOST_BUFFERS;
}

uint8_t *storage_buffer(struct storage *storage, enum transfer_kind kind, const uint8_t *other) {
  size_t behind = other ? (size_t)(other - storage->room) / PAGE_BYTES + 1 : MOST_BUFFERS;
  size_t buffer = behind < MOST_BUFFERS && !is_busy(storage, behind) ? behind : first_free(storage);
  if (storage->buffered[side_of(kind)] == BUFFERS_OF_KIND || buffer == MOST_BUFFERS) return NULL;
  storage->buffered[side_of(kind)]++;
  storage->busy[buffer / BITS] |= UINT64_C(1) << buffer % BITS;
  return storage->room + buffer * PAGE_BYTES;
}

void storage_put_buffer(struct storage *storage, uint8_t *buffer, enum transfer_kind kind) {
  size_t place = (size_t)(buffer - storage->room) / PAGE_BYTES;
  storage->buffered[side_of(kind)]--;
  storage->busy[place / BITS] &= ~(UINT64_C(1) << place % BITS);
}

void storage_put(struct storage *storage, struct transfer *transfer) {
  bool has_buffers = transfer->kind == TRANSFER_READ || transfer->kind == TRANSFER_WRITE;
  for (unsigned i = 0; has_buffers && i < transfer->count; i++) storage_put_buffer(storage, transfer->pages[i], transfer->kind);
  storage->taken[side_of(transfer->kind)]--;
  transfer->next = storage->idle;
  storage->idle = transfer;
}

// Says what is left of a transfer to be moved: buffers that follow one another are one part. Returns how many parts that has.
static unsigned find_parts(struct transfer *transfer) {
  unsigned parts = 0;
  for (uint64_t at = transfer->done; at < transfer->bytes;) {
    uint64_t end = (at / PAGE_BYTES + 1) * PAGE_BYTES, here = (end < transfer->bytes ? end : transfer->bytes) - at;
    uint8_t *from = transfer->pages[at / PAGE_BYTES] + at % PAGE_BYTES;
    struct iovec *before = parts ? &transfer->parts[parts - 1] : NULL;
    if (before && (uint8_t *)before->iov_base + before->iov_len == from) before->iov_len += (size_t)here;
    else transfer->parts[parts++] = (struct iovec){from, (size_t)here};
    at += here;
  }
  return parts;
}

// Has a server move a whole transfer.
static void ask(struct transfer *transfer) {
  struct server *server = transfer->server;
  uint64_t at = transfer->first * PAGE_BYTES;
  bool writes = transfer->kind == TRANSFER_WRITE || transfer->fills;
  if (transfer->kind == TRANSFER_SYNC) server_flush(server, transfer);
  else if (writes) server_write(server, transfer->parts, find_parts(transfer), at, transfer);
  else if (is_read(transfer)) server_read(server, transfer->parts, find_parts(transfer), at, transfer);
  else server_zero(server, at, transfer->bytes, transfer);
}

// Has what is left of a transfer moved.
static void go_on(struct storage *storage, struct transfer *transfer) {
  struct uring *uring = storage->uring;
  uint64_t at = transfer->first * PAGE_BYTES + transfer->done;
  bool writes = transfer->kind == TRANSFER_WRITE || transfer->fills;
  if (transfer->server) ask(transfer);
  else if (transfer->kind == TRANSFER_SYNC) uring_sync(uring, transfer->file, transfer);
  else if (writes) uring_write(uring, transfer->file, transfer->parts, find_parts(transfer), at, transfer);
  else if (is_read(transfer)) uring_read(uring, transfer->file, transfer->parts, find_parts(transfer), at, transfer);
  else uring_punch(uring, transfer->file, at, transfer->bytes, transfer);
}

void storage_begin(struct storage *storage, struct transfer *transfer, uint64_t end) {
  uint64_t at = transfer->first * PAGE_BYTES, bytes = (uint64_t)transfer->count * PAGE_BYTES;
  transfer->bytes = at >= end ? 0 : end - at < bytes ? end - at : bytes;
  transfer->done = 0;
  for (uint64_t i = transfer->bytes / PAGE_BYTES; transfer->kind == TRANSFER_READ && i < transfer->count; i++)
    memset(transfer->pages[i], 0, PAGE_BYTES);
  transfer->next = storage->under_way[transfer->kind];
  storage->under_way[transfer->kind] = transfer;
  go_on(storage, transfer);
}

void storage_fill(struct storage *storage, struct transfer *transfer, uint64_t end) {
  transfer->fills = true;
  for (unsigned i = 0; i < transfer->count; i++) transfer->pages[i] = zeros;
  storage_begin(storage, transfer, end);
}

void storage_send(struct storage *storage) {
  // What a server refused at once is looked at soon.
  for (size_t i = 0; i < storage->server_count; i++)
    if (server_has_next(storage->servers[i])) storage_pass(storage);
  uring_send(storage->uring);
}

struct transfer *storage_under_way(struct storage *storage, enum transfer_kind kind) { return storage->under_way[kind]; }

static void take_out(struct storage *storage, struct transfer *transfer) {
  struct transfer **at = &storage->under_way[transfer->kind];
  while (*at != transfer) at = &(*at)->next;
  *at = transfer->next;
}

// Returns whether a transfer goes on behind this result of a part of it. `error` tells else by which error it failed.
static bool is_left(struct transfer *transfer, int result, int *error) {
  bool moves = is_read(transfer) || transfer->kind == TRANSFER_WRITE || transfer->fills;
  *error = 0;
  // EAGAIN is an error, which is put off: where it would come each time, to go on at once would never end.
  if (result == -EINTR) return true;
  if (result < 0) return *error = -result, false;
  if (!moves) return false;
  transfer->done += (uint64_t)result;
  if (transfer->done >= transfer->bytes) return false;
  // The file ends before its disk, or takes no more.
  if (!result) *error = is_read(transfer) ? EIO : ENOSPC;
  return result;
}

// Takes the next transfer of a server's that is over.
static struct transfer *next_of(struct storage *storage, int *error, bool *passed) {
  void *what;
  for (size_t i = 0; i < storage->server_count; i++) {
    struct server *server = storage->servers[i];
    if (!server_has_next(server)) *passed = server_turn(server) || *passed;
    if (!server_next(server, &what, error)) continue;
    // It failed where the connection is lost, perhaps, and that is known behind this.
    if (*error) *passed = server_turn(server) || *passed;
    take_out(storage, what);
    return what;
  }
  return NULL;
}

struct transfer *storage_next(struct storage *storage, int *error, bool *passed) {
  void *what;
  int result;
  while (uring_next(storage->uring, &what, &result)) {
    struct transfer *transfer = what;
    if (what == storage) {
      storage->passes = false;
      *passed = true;
    } else if (is_left(transfer, result, error)) {
      go_on(storage, transfer);
      storage_send(storage);
    } else {
      take_out(storage, transfer);
      return transfer;
    }
  }
  return next_of(storage, error, passed);
}

void storage_pass(struct storage *storage) {
  if (storage->passes) return;
  storage->passes = true;
  uring_pass(storage->uring, PASS, storage);
}

void storage_wait(struct storage *storage, unsigned milliseconds) {
  struct pollfd asked[DEVICE_MOST_UNITS];
  unsigned count = 0;
  for (size_t i = 0; i < storage->server_count; i++) {
    count += server_asks(storage->servers[i], &asked[count]);
    if (server_has_next(storage->servers[i])) milliseconds = 0;
  }
  uring_wait(storage->uring, asked, count, milliseconds);
}
