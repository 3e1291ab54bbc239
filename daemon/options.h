// What the command line says.
#ifndef DAEMON_OPTIONS_H
#define DAEMON_OPTIONS_H

#include "session.h"

struct options {
  const char *path;  // of the socket, or NULL
  int fd;            // of a socket that was handed in, or below 0
  int mode;          // of the socket at `path`, or below 0: as the umask leaves it
  const char *user, *group, *log, *control;
  unsigned queues;
  bool quiet;
  struct polling polling;
  bool limits;  // what the process may do
};

// What the command line wants: that the daemon runs; nothing more than what was printed; or it is wrong, and that was said.
enum wanted { WANTED_RUN, WANTED_NOTHING, WANTED_WRONG };

// Returns the daemon's version.
const char *options_version(void);

// Reads the command line. Prints on standard output what --help, --version and --print-capabilities ask for, and on standard error what
// is wrong. Opens nothing.
enum wanted options_read(struct options *options, struct disks *disks, int count, char **words);

#endif
