// A second thread that writes the guest's memory while the daemon serves it. It runs where the environment has VSCSI_FUZZ_RACE.
#ifndef DAEMON_FUZZ_RACE_H
#define DAEMON_FUZZ_RACE_H

#include <stdbool.h>

// Returns whether there is such a thread.
bool race_runs(void);

// Has the thread write rings, tables and requests until race_end returns.
void race_begin(void);
void race_end(void);

#endif
