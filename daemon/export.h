// The connection to an NBD server whose export has a disk's blocks, by libnbd. Where it is lost it is made anew. A daemon that is built
// without libnbd has none.
#ifndef DAEMON_EXPORT_H
#define DAEMON_EXPORT_H

#include "server.h"

// Returns whether this daemon is built with libnbd.
bool export_is_built(void);

// Connects to the export that a URI names, and waits for it. Returns NULL, and says why, where it can't be had, is read-only, can't flush,
// or doesn't take pages.
struct server *export_open(const char *uri, char *why, size_t room);

#endif
