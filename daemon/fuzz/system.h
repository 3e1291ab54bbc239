// What the daemon's sources get in place of some calls of the system and of the library (the linker's --wrap): mappings of files stand
// between pages that nobody may touch; writes of disks' files, and memory for the device, may be refused; and time may pass.
#ifndef DAEMON_FUZZ_SYSTEM_H
#define DAEMON_FUZZ_SYSTEM_H

#include <stdint.h>

struct refusals {
  unsigned taken, writes;  // so many writes of files are taken, and so many behind them refused; fdatasync counts as one
  unsigned serves;         // so many calls of vscsi_live_serve or vscsi_live_create are refused memory
  unsigned allocations;    // and so many calls of calloc and realloc
};

extern struct refusals refusals;

// Refuses nothing, and forgets what was written: an input begins.
void system_begin(void);

// How many such mappings stand.
extern unsigned mappings_standing;

// Has so many milliseconds pass.
void time_pass(uint64_t milliseconds);

#endif
