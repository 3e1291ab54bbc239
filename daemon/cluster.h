// An image of a Ceph cluster that has a disk's blocks, by librbd and librados. Both are loaded as the first such disk is opened, and a
// daemon that is linked statically loads none.
//
// librbd works on threads of its own. What they are done with goes to the daemon's thread by a list and an eventfd, and nothing else of the
// daemon is touched by them.
#ifndef DAEMON_CLUSTER_H
#define DAEMON_CLUSTER_H

#include "server.h"

// What names an image: POOL/IMAGE or POOL/NAMESPACE/IMAGE, behind CLUSTER_SCHEME; the file of its cluster's configuration, and the user
// there, or NULL; and whether it is read alone.
#define CLUSTER_SCHEME "rbd:"

struct image_name {
  const char *text, *configuration, *user;
  bool is_read_only;
};

// Returns whether this daemon loads libraries.
bool cluster_is_built(void);

// Returns whether a text names an image.
bool cluster_is_name(const char *text);

// Opens an image, and takes its exclusive lock, where it has that feature and is written. Returns NULL, and says why, where it
// can't be had, or a signal ends the daemon meanwhile.
struct server *cluster_open(const struct image_name *name, char *why, size_t room);

// Returns whether a thread is still at work for an image that was given up, so that the process has to be left as it is.
bool cluster_is_busy(void);

#endif
