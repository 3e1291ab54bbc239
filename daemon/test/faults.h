// Files that can't be written, memory that is refused, and time that passes: the tests' own pwrite, fdatasync, clock_gettime,
// vscsi_live_serve, vscsi_live_create, vscsi_disk_load, vscsi_live_load, vscsi_live_give, vscsi_live_written, vscsi_live_denied and uring_next,
// which fail where they are told to, or count. And what serving costs. Calls of the
// library's, of malloc and the like and of snprintf come here by the linker's word --wrap.
#ifndef DAEMON_TEST_FAULTS_H
#define DAEMON_TEST_FAULTS_H

#include <stdbool.h>
#include <stddef.h>
#include <stdint.h>

struct faults {
  int only;             // the descriptor whose writes fail, or 0 where all do
  const void *storage;  // of backed disks: of it no transfer is over where the time of storage_pass is
  int read_error;       // by which READs of pages fail, or 0, and of which page, or of all where it is 0
  uint64_t bad_page;
  bool held;            // no READ of a page is over
  bool held_ahead;      // nor is one of pages that are read ahead
  int write_error;      // by which pwrite, or a WRITE of pages, fails, or 0; such pages are garbage then
  unsigned writes;      // that go well before that
  int sync_error;       // by which fdatasync fails, or 0; then what was written since it last went well is garbage
  unsigned bad_syncs;   // how many fail
  unsigned refusals;    // how many calls of vscsi_live_serve are refused memory
  unsigned creations;   // and how many of vscsi_live_create
  unsigned loads;       // and how many of vscsi_disk_load
  size_t most;          // the most bytes that realloc gives the daemon, or 0 where it gives any
  bool endless;         // vscsi_live_serve says that something is left
  void (*comes)(void);  // what the guest does before one of its calls, or NULL, and how many calls there are before that
  unsigned comes_after;
  unsigned slow;        // microseconds that pwrite takes
  uint64_t bytes;       // that pwrite wrote, or WRITEs of pages
  unsigned syncs;       // of backed disks that were done, and pages that were handed in
  unsigned handed_in;
  unsigned refused;     // how many calls of vscsi_live_load, _give, _written and _denied are refused memory
  unsigned passed;      // seconds that passed besides, which faults_clear leaves alone
};

extern struct faults faults;

// What was done outside of vscsi_live_serve, for as long as `counts` is true.
struct costs {
  bool counts;
  unsigned allocations, texts, calls;  // the last of the library's
};

extern struct costs costs;

// Begins anew, with no fault.
void faults_clear(void);

#endif
