// The socket that front ends connect to.
#ifndef DAEMON_LISTENER_H
#define DAEMON_LISTENER_H

#include <stdbool.h>
#include <stddef.h>
#include <sys/types.h>

struct listener {
  int fd;            // below 0: none
  bool connected;    // it is no listener, but a front end's connection
  const char *path;  // that the daemon bound, or NULL
  dev_t device;      // of the socket there
  ino_t inode;
};

// Looks whether a socket can be made at a path. Makes nothing, and takes nothing away. Returns false, and says why, where something
// stands there that isn't a socket, another process listens there, or the folder can't be written.
bool listener_can_bind(const char *path, char *why, size_t room);

// Listens at a path. A socket that stands there and that nobody listens at is taken away; nothing else ever is, and no symbolic link
// is followed. The socket gets this owner (-1: as it is), and this mode where it isn't below 0. Returns false, and says why.
bool listener_bind(struct listener *listener, const char *path, int mode, uid_t user, gid_t group, char *why, size_t room);

// Takes a socket that was handed in: one that listens, or a front end's connection. Returns false, and says why, where it is neither.
bool listener_take(struct listener *listener, int fd, char *why, size_t room);

// Closes the listener. Its path goes where the socket there is still the one that the daemon bound. Returns false, with errno, where
// it should go and stays.
bool listener_close(struct listener *listener);

#endif
