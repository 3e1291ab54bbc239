// The blocks of disks, between their files and the device: loaded when a device is to be made, and written through to the
// files as the device changes them.
//
// Blocks that changed are noted in the backlog of their disk, and stay there until they stand on the file for sure. A backlog
// outlives its device: its blocks are then those of the disk's own value.
#ifndef DAEMON_BLOCKS_H
#define DAEMON_BLOCKS_H

#include "disks.h"
#include "library.h"

// Makes the blocks of each disk that has none in memory, from its file; of a backed disk none of them. Returns false, and says why, where it
// couldn't.
bool blocks_load(struct disks *disks, char *why, size_t room);

// Notes that a device couldn't give its disks back: what is in memory alone is lost.
void blocks_lose(struct disks *disks);

// Returns whether what a guest wrote to a disk may be in this daemon's memory alone.
bool blocks_are_in_memory(const struct disks *disks);

// Returns whether a disk in memory was lost for want of memory, so that it can't be made by a later call either.
bool blocks_are_lost(const struct disks *disks);

// Returns whether a disk is in memory whole, and has a file that is written.
bool blocks_are_kept(const struct disks *disks);

// Of a disk: the place of its history up to which changes were noted, and what it had counted there.
struct noted {
  uint64_t place;
  struct vscsi_counts counts;
};

// Notes the blocks that the device changed since the last call for it. `noted` has a place for each disk, zeros at first. Of blocks that an
// UNMAP changed those that are zeros become holes of the file.
void blocks_note(struct device *device, struct disks *disks, struct noted *noted);

// What came of blocks_keep: all that was noted stands on the files; or a file can't be written, as its disk's `error` says, and nothing
// is left of the others; or more is to be written.
enum kept { KEPT, STUCK, KEEPING };

// Writes what was noted to the files, for some 20 milliseconds, and waits until that stands there. It is called again while it says
// KEEPING. A file that couldn't be written is tried again once its disk's `due` has come, or `at_once`. No block of a backlog is left out
// in between, also where fdatasync fails.
enum kept blocks_keep(struct device *device, struct disks *disks, bool at_once);

// Returns whether a file couldn't be written when that was last tried.
bool blocks_are_stuck(const struct disks *disks);

// Returns whether a file lacks something that was noted, or may lack something of a backed disk.
bool blocks_are_left(const struct disks *disks);

// Says once a minute of each file that can't be written why, and once that it has all again.
void blocks_tell(struct disks *disks);

// Returns when the next file that couldn't be written is to be tried again.
uint64_t blocks_due(const struct disks *disks);

// Writes what was noted, for a second at most, as the daemon ends. Returns false, and names a disk and why, where a file lacks
// some.
bool blocks_finish(struct disks *disks, char *why, size_t room);

#endif
