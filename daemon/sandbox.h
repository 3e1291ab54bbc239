// What the daemon may do beyond its work: as little as can be.
#ifndef DAEMON_SANDBOX_H
#define DAEMON_SANDBOX_H

#include <stdbool.h>
#include <stddef.h>
#include <sys/types.h>

// Whom the daemon runs as once all is open. Where nobody was named, `user` and `group` are -1.
struct owner {
  const char *name;
  uid_t user;
  gid_t group;
};

// Returns whether this daemon is built with seccomp.
bool sandbox_has_seccomp(void);

// Gives up new privileges and core files, which would have a guest's data, and limits open files to 1,024, or to 65,536 where a disk is on a
// Ceph cluster, to whose servers there is a connection each. Returns false, with errno.
bool sandbox_begin(bool has_images);

// Finds a user and a group by their names or numbers; each may be NULL. Returns false, and says why, where there are none such.
bool sandbox_find(struct owner *owner, const char *user, const char *group, char *why, size_t room);

// Becomes this owner for good. Returns false, and says why, where the system refuses that.
bool sandbox_become(const struct owner *owner, char *why, size_t room);

// Whether disks are on NBD servers, to which the daemon connects, and on images of Ceph clusters, for which librbd's threads are at work.
struct reach {
  bool connects, has_images;
};

// Limits the process for good to what serving takes, as far as the kernel and the build allow. By Landlock it opens no more files, but to
// add to those of the log's folder, and removes none, but of the folders of both sockets; each path may be NULL. By seccomp any other
// system call ends it by SIGSYS. With a reach it may make connections, and for images threads; there any other call fails with ENOSYS, in
// all threads. Landlock leaves librbd's out. Returns false, and says why, where a limit is refused.
bool sandbox_limit(const char *socket, const char *control, const char *log, struct reach reach, char *why, size_t room);

// Says which limits sandbox_limit set.
const char *sandbox_limits(void);

#endif
