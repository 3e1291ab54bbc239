// All calls of the library that the daemon makes. Where the library's header changes, library.c changes, and the calls here that each
// round makes, and nothing else.
#ifndef DAEMON_LIBRARY_H
#define DAEMON_LIBRARY_H

#include <stdbool.h>
#include <stddef.h>
#include <stdint.h>

#include "vscsi.h"

enum { DEVICE_BLOCK = 512, DEVICE_MOST_QUEUES = 18, DEVICE_MOST_UNITS = 64, DEVICE_MOST_SIZE = 1024 };

struct device {
  struct vscsi_live vscsi;
  bool live;
};

// Where a ring goes on: of a split one the next indices, of a packed one the next slots, and whether the wrap counter of each
// side is 0.
struct position {
  uint16_t available, used;
  bool available_wrapped, used_wrapped;
};

// Where the driver put a queue, and where it goes on.
struct ring {
  uint64_t desc, driver, device;
  uint16_t size;
  struct position first;
};

// Makes a disk of zeros, puts blocks over some of its own, copies some out, lets go of it, and tells whether there is one.
bool store_make(struct vscsi_disk *store, uint64_t blocks);
bool store_load(struct vscsi_disk *store, uint64_t first, uint32_t count, const void *bytes);
bool store_save(struct vscsi_disk *store, uint64_t first, uint32_t count, void *into);
void store_drop(struct vscsi_disk *store);

// Makes a disk whose blocks are the storage's, of which at most so many pages are in memory.
bool store_make_backed(struct vscsi_disk *store, uint64_t blocks, size_t pages);
bool store_stands(const struct vscsi_disk *store);

// Makes a device of a configuration, whose rings are these, over disks, which are the device's then. Returns false where it
// can't be, and says why in `why`. Where memory was refused `starved` is true, and another try may go well.
bool device_create(struct device *device, struct vscsi_live_config config, const struct ring *rings, struct vscsi_disk *stores,
                   bool *starved, char *why, size_t room);

// Ends a device, if there is one, and takes its disks back. Returns false where memory was refused, a hundred times in as many milliseconds:
// they are lost.
bool device_end(struct device *device, struct vscsi_disk *stores, size_t count);

// Returns where the device stands in a queue: what it takes next, and what it gives back next.
struct position device_position(struct device *device, unsigned queue);

// Has the device work in these regions of memory. Returns false where it can't: then it works where it did.
bool device_map(struct device *device, const struct vscsi_region *regions, size_t count);

// Has the device set the bit of each page that it writes, in this bitmap from now on, or in none where it is NULL.
void device_log(struct device *device, uint8_t *bitmap, size_t bytes);

// Serves what is available on these queues (bit 0 is queue 0), and what was begun before, by at most so many steps. `steps` is
// how many these were, and `more` tells whether one is left. Returns false where memory was refused: what was served before
// stands, and a later call goes on.
static inline bool device_serve(struct device *device, uint32_t queues, uint64_t most, uint64_t *steps, bool *more) {
  return vscsi_live_serve(&device->vscsi, queues, most, steps, more) == VSCSI_DONE;
}

// Returns the queues whose driver is to be notified.
static inline uint32_t device_owed(struct device *device) {
  uint32_t owed = 0;
  vscsi_live_owed(&device->vscsi, &owed);
  return owed;
}

// Returns whether a guest broke any queue, and by which fault it broke this one: VSCSI_BROKEN_NOT where it didn't.
static inline bool device_is_broken(struct device *device) {
  uint8_t status = 0;
  return vscsi_live_status(&device->vscsi, &status) == VSCSI_DONE && status;
}

uint32_t device_fault(struct device *device, unsigned queue);

// Tells which blocks of a unit may have changed since a place of its history, and leaves the place that it has now. `ranges`
// has room for VSCSI_MOST_RANGES. Where `all` is true any block may have changed.
bool device_changed(struct device *device, uint8_t target, uint16_t lun, uint64_t *place, struct vscsi_range *ranges,
                    size_t *count, bool *all);

// Counts what a unit did.
bool device_counts(struct device *device, uint8_t target, uint16_t lun, struct vscsi_counts *counts);

// Has the operator reset a unit, or give it another capacity. Returns false where memory was refused.
bool device_reset(struct device *device, uint8_t target, uint16_t lun);
bool device_resize(struct device *device, uint8_t target, uint16_t lun, uint64_t blocks);

// Of a unit with a backed disk: finds the next page that is to be read; hands one in, of which `bytes` has 4,096, or says that it doesn't
// come, or can't be read. device_load returns false where memory was refused.
bool device_wanted(struct device *device, uint8_t target, uint16_t lun, uint64_t *page);
bool device_load(struct device *device, uint8_t target, uint16_t lun, uint64_t page, const void *bytes);
void device_load_failed(struct device *device, uint8_t target, uint16_t lun, uint64_t page);
void device_lost(struct device *device, uint8_t target, uint16_t lun, uint64_t page);

// Finds the next page that is to be written, and copies its bytes out, if memory isn't refused; and says whether one that was given is
// kept, or that it can't be written, which ends a flush of it. The last two return false where memory was refused.
enum given { GIVEN_NONE, GIVEN_PAGE, GIVEN_REFUSED };
enum given device_give(struct device *device, uint8_t target, uint16_t lun, uint64_t *page, void *bytes);
bool device_written(struct device *device, uint8_t target, uint16_t lun, uint64_t page, bool kept);
bool device_denied(struct device *device, uint8_t target, uint16_t lun, uint64_t page);

// Has commands that wait tried again by the next device_serve. Returns how many these are.
static inline uint64_t device_wake(struct device *device) {
  uint64_t waiting = 0;
  vscsi_live_wake(&device->vscsi, &waiting);
  return waiting;
}

// Copies blocks of a unit out. `into` has room for `count` blocks.
bool device_blocks(struct device *device, uint8_t target, uint16_t lun, uint64_t first, uint32_t count, void *into);

#endif
