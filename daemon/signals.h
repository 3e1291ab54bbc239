// The signals that tell the daemon something. They stay blocked, and are read like any other event.
#ifndef DAEMON_SIGNALS_H
#define DAEMON_SIGNALS_H

#include <stdbool.h>

enum signal_read { SIGNAL_NONE, SIGNAL_END, SIGNAL_LOG };

// Blocks SIGTERM, SIGINT and SIGHUP, and ignores SIGPIPE and SIGXFSZ, which calls tell by their answers. Returns the descriptor that
// the three are read from, or -1.
int signals_begin(void);

// Takes the next signal that came: SIGNAL_END for SIGTERM or SIGINT, SIGNAL_LOG for SIGHUP.
enum signal_read signals_read(int fd);

// Returns whether SIGTERM or SIGINT waits to be read. Work that takes long asks this between its parts.
bool signals_end_waits(void);

#endif
