// The storage of backed disks: pages of their files that are read and written while the device serves.
//
// A transfer moves pages that follow one another. As many are under way at once as there are transfers and buffers, all of which are there
// from the start.
#ifndef DAEMON_STORAGE_H
#define DAEMON_STORAGE_H

#include <sys/uio.h>

#include "library.h"
#include "server.h"

// The bytes of a page; the most pages of a transfer; and how many transfers there are, and buffers of a page each.
enum { PAGE_BYTES = 4096, MOST_TRANSFERRED = 256, MOST_TRANSFERS = 256, MOST_BUFFERS = 4096 };

// What a transfer does: it reads pages, writes them, makes a hole of them, waits until all that was written stands on the file, or reads
// pages ahead, into buffers that aren't the storage's.
enum transfer_kind { TRANSFER_READ, TRANSFER_WRITE, TRANSFER_HOLE, TRANSFER_SYNC, TRANSFER_AHEAD, TRANSFER_KINDS };

struct transfer {
  enum transfer_kind kind;
  size_t disk;                       // whose it is, by its index among the daemon's
  int file;
  struct server *server;             // in place of the file, or NULL
  uint64_t first;                    // page, and how many
  unsigned count;
  uint8_t *pages[MOST_TRANSFERRED];  // the buffers
  uint64_t stale[MOST_TRANSFERRED / 64];  // of a READ: a bit for each page that was written meanwhile
  bool doubtful;                     // of a WRITE or a hole: a sync failed meanwhile
  bool fills;                        // of a hole: zeros are written, since the file makes none
  uint64_t bytes, done;              // how many there are to move, and were
  struct iovec parts[MOST_TRANSFERRED];
  struct transfer *next;             // of those that aren't under way, or are of one kind
};

struct storage;

// Makes the storage. Returns NULL, and says why, where the system refuses it, or the daemon is built without it.
bool storage_is_built(void);
struct storage *storage_make(char *why, size_t room);
void storage_end(struct storage *storage);

// Has transfers go to this server, too, or no more. It stays the caller's.
void storage_add(struct storage *storage, struct server *server);
void storage_leave(struct storage *storage, const struct server *server);

// Has an epoll tell this event, by edges, when something is over.
bool storage_watch(struct storage *storage, int epoll, uint32_t event);

// Takes a transfer, and a buffer for a page of it: the one that follows another buffer, where that is free. Returns NULL where there is
// none left for this kind: READs leave some to WRITEs, and these to them.
struct transfer *storage_take(struct storage *storage, enum transfer_kind kind);
uint8_t *storage_buffer(struct storage *storage, enum transfer_kind kind, const uint8_t *other);

// Gives a transfer back, with its buffers, or a buffer alone.
void storage_put(struct storage *storage, struct transfer *transfer);
void storage_put_buffer(struct storage *storage, uint8_t *buffer, enum transfer_kind kind);

// Begins a transfer of a file that has so many bytes, with what storage_send sends. No byte behind the end is moved. What a READ has of its last
// page behind it is zeros.
void storage_begin(struct storage *storage, struct transfer *transfer, uint64_t end);

// Has zeros written in the place of a hole that couldn't be made, as storage_begin does.
void storage_fill(struct storage *storage, struct transfer *transfer, uint64_t end);

// Has the kernel begin what was begun.
void storage_send(struct storage *storage);

// Takes the next transfer that is over, and the error number by which it failed, or 0. Returns NULL where none is. `passed` is set where the
// time of storage_pass is over, or a server came or went.
struct transfer *storage_next(struct storage *storage, int *error, bool *passed);

// Returns the transfers of a kind that are under way, by `next`.
struct transfer *storage_under_way(struct storage *storage, enum transfer_kind kind);

// Has something be over in some 50 milliseconds.
void storage_pass(struct storage *storage);

// Waits until something is over, for so many milliseconds at most.
void storage_wait(struct storage *storage, unsigned milliseconds);

#endif
