// Memory that may be gone: a front end can make the file of its memory shorter, and then a look at what was there is SIGBUS,
// which would end the daemon.
#ifndef DAEMON_GUARD_H
#define DAEMON_GUARD_H

#include "memory.h"

// Guards this memory, which stays where it is, or none where it is NULL. A region that is found gone has zeros from then on, so
// a call that looks at it, the library's too, goes on to its end. The daemon has one thread.
void guard_begin(const struct memory *memory);

// Returns whether a region was found gone since guard_begin.
bool guard_found(void);

#endif
