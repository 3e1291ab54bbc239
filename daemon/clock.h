// The time that passes, whatever the time of day is set to.
#ifndef DAEMON_CLOCK_H
#define DAEMON_CLOCK_H

#include <stdint.h>

// Returns the milliseconds since some moment before the daemon began. It isn't inline: a round that asks for no time would guard its
// stack for that.
uint64_t clock_now(void);

// Returns the nanoseconds since that moment.
uint64_t clock_nanoseconds(void);

#endif
