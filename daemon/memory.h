// The guest's memory: regions that the front end shares by descriptors.
#ifndef DAEMON_MEMORY_H
#define DAEMON_MEMORY_H

#include <stdbool.h>
#include <stddef.h>
#include <stdint.h>

#include "library.h"

// How many regions a front end may give.
enum { MOST_REGIONS = 509 };

// Where a guest's memory ends at the latest. Behind it lies a page of the daemon's own.
#define MEMORY_END (VSCSI_MOST_ADDRESS - VSCSI_PAGE)

struct region {
  uint64_t guest, size, user;  // by the guest's addresses, and by the front end's own
  uint8_t *at;                 // the region's first byte here
  void *map;                   // what was mapped, and how long it is
  size_t mapped;
};

// The regions stand in the order of the guest's addresses. `places` and `log` are the front end's own. The first says where
// rings stand (rings.h). The second has a bit for each page of the guest, which is set behind each write into the page.
struct memory {
  struct region regions[MOST_REGIONS];
  size_t count;
  struct region places, log;
};

// Maps a region and adds it, and asks that its file isn't made shorter. Doesn't close the descriptor. Returns false where the
// region isn't aligned to pages, overlaps another, ends behind MEMORY_END, is longer than its file, or can't be mapped.
bool memory_add(struct memory *memory, uint64_t guest, uint64_t size, uint64_t user, uint64_t offset, int descriptor);

// Takes a region away. Returns false where none has these addresses and this size.
bool memory_remove(struct memory *memory, uint64_t guest, uint64_t size, uint64_t user);

void memory_clear(struct memory *memory);

// Puts zeros in the place of the region, the places or the log that has this address of the daemon's. Returns false where none
// has.
// It may be called by a signal's handler.
bool memory_blank(const struct memory *memory, const void *at);

// Maps so many bytes of a descriptor's file as the places or the log, instead of what was mapped, or none where the descriptor
// is below 0. Returns false where it can't be.
bool memory_set(struct region *region, uint64_t size, uint64_t offset, int descriptor);

// Sets the bits of the pages that these bytes of the guest's lie in, as far as the log has them. Whoever takes a bit away, and
// then copies the page, copies what was written before this call.
void memory_mark(const struct memory *memory, uint64_t guest, uint64_t count);

// Returns where so many bytes of the guest stand here, or NULL where they aren't in one region.
uint8_t *memory_at(const struct memory *memory, uint64_t guest, uint64_t count);

// Finds the guest's address of one of the front end's own.
bool memory_guest(const struct memory *memory, uint64_t user, uint64_t *guest);

#endif
