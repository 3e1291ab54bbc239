#include "listener.h"

#include <errno.h>
#include <fcntl.h>
#include <stdio.h>
#include <string.h>
#include <sys/file.h>
#include <sys/socket.h>
#include <sys/stat.h>
#include <sys/un.h>
#include <time.h>
#include <unistd.h>

#include "folders.h"

// How often a folder's lock is tried, 50 ms apart, and how many connections wait to be looked at.
enum { TRIES = 20, BACKLOG = 16 };

// Says why a path can't be had, as errno has it where there is no other text.
static bool refuse(const char *path, const char *text, char *why, size_t room) {
  snprintf(why, room, "%s: %s", path, text ? text : strerror(errno));
  return false;
}

static bool address_of(const char *path, struct sockaddr_un *address, char *why, size_t room) {
  *address = (struct sockaddr_un){.sun_family = AF_UNIX};
  if (!*path || strlen(path) >= sizeof address->sun_path) return refuse(path, "no path of a socket: 1 to 107 bytes", why, room);
  strcpy(address->sun_path, path);
  return true;
}

static int make_socket(void) { return socket(AF_UNIX, SOCK_STREAM | SOCK_CLOEXEC | SOCK_NONBLOCK, 0); }

// Returns whether the socket at an address may be somebody's: only where a connection is refused nobody listens.
static bool is_used(const struct sockaddr_un *address) {
  int fd = make_socket();
  bool is_refused = fd >= 0 && connect(fd, (const struct sockaddr *)address, sizeof *address) && errno == ECONNREFUSED;
  if (fd >= 0) close(fd);
  return !is_refused;
}

// Looks at what stands at an address: nothing, or a socket that nobody listens at, which `stale` says.
static bool is_free(const struct sockaddr_un *address, bool *stale, char *why, size_t room) {
  struct stat stat;
  const char *path = address->sun_path;
  *stale = false;
  if (lstat(path, &stat)) return errno == ENOENT || refuse(path, NULL, why, room);
  if (!S_ISSOCK(stat.st_mode)) return refuse(path, "there already, and no socket: it is left alone", why, room);
  if (is_used(address)) return refuse(path, "another process listens there", why, room);
  *stale = true;
  return true;
}

// Opens the folder of a path, which has to be writable. Returns -1, with errno, where it can't be.
static int open_folder(const char *path) {
  int fd = folder_open(path, O_RDONLY);
  if (fd < 0 || !faccessat(fd, ".", W_OK | X_OK, AT_EACCESS)) return fd;
  int error = errno;
  close(fd);
  errno = error;
  return -1;
}

bool listener_can_bind(const char *path, char *why, size_t room) {
  struct sockaddr_un address;
  bool stale;
  if (!address_of(path, &address, why, room)) return false;
  int folder = open_folder(path);
  if (folder < 0) return refuse(path, NULL, why, room);
  close(folder);
  return is_free(&address, &stale, why, room);
}

// Waits a second at most for a folder's lock, which daemons have while they bind: so none takes away what another just bound.
static bool lock_folder(int folder) {
  for (int i = 0; i < TRIES; i++) {
    if (!flock(folder, LOCK_EX | LOCK_NB)) return true;
    nanosleep(&(struct timespec){.tv_nsec = 50000000}, NULL);
  }
  return false;
}

// Binds under the folder's lock. The socket never has more of a mode than it is to have.
static bool bind_locked(struct listener *listener, const struct sockaddr_un *address, int mode, uid_t user, gid_t group, char *why,
                        size_t room) {
  bool stale;
  struct stat stat;
  const char *path = address->sun_path;
  if (!is_free(address, &stale, why, room)) return false;
  if (stale && unlink(path)) return refuse(path, NULL, why, room);
  mode_t before = umask(0);
  umask(mode < 0 ? before : 0777 & ~(mode_t)mode);
  bool bound = !bind(listener->fd, (const struct sockaddr *)address, sizeof *address);
  umask(before);
  if (!bound || lstat(path, &stat)) return refuse(path, NULL, why, room);
  listener->device = stat.st_dev;
  listener->inode = stat.st_ino;
  bool owned = (user == (uid_t)-1 && group == (gid_t)-1) || !lchown(path, user, group);
  return (owned && !listen(listener->fd, BACKLOG)) || refuse(path, NULL, why, room);
}

bool listener_bind(struct listener *listener, const char *path, int mode, uid_t user, gid_t group, char *why, size_t room) {
  struct sockaddr_un address;
  *listener = (struct listener){.fd = make_socket()};
  if (!address_of(path, &address, why, room)) return false;
  int folder = open_folder(path);
  bool bound = folder >= 0 && listener->fd >= 0;
  if (!bound) refuse(path, NULL, why, room);
  else if (!lock_folder(folder)) bound = refuse(path, "another process has its folder locked", why, room);
  else bound = bind_locked(listener, &address, mode, user, group, why, room);
  listener->path = listener->inode ? path : NULL;
  if (folder >= 0) close(folder);
  return bound;
}

bool listener_take(struct listener *listener, int fd, char *why, size_t room) {
  int domain = 0, type = 0, listens = 0;
  socklen_t length = sizeof domain;
  *listener = (struct listener){.fd = fd};
  bool is_socket = !getsockopt(fd, SOL_SOCKET, SO_DOMAIN, &domain, &length) && !getsockopt(fd, SOL_SOCKET, SO_TYPE, &type, &length) &&
                   !getsockopt(fd, SOL_SOCKET, SO_ACCEPTCONN, &listens, &length);
  if (!is_socket || domain != AF_UNIX || type != SOCK_STREAM) return snprintf(why, room, "descriptor %d: no Unix stream socket", fd), false;
  struct sockaddr_un address;
  socklen_t room_there = sizeof address;
  listener->connected = !listens;
  bool is_loose = !listens && getpeername(fd, (struct sockaddr *)&address, &room_there);
  if (is_loose) return snprintf(why, room, "descriptor %d: a socket that neither listens nor is connected", fd), false;
  int flags = fcntl(fd, F_GETFL);
  bool set = flags >= 0 && !fcntl(fd, F_SETFL, flags | O_NONBLOCK) && !fcntl(fd, F_SETFD, FD_CLOEXEC);
  return set || (snprintf(why, room, "descriptor %d: %s", fd, strerror(errno)), false);
}

bool listener_close(struct listener *listener) {
  struct stat stat;
  bool gone = true;
  bool is_there = listener->path && !lstat(listener->path, &stat) && S_ISSOCK(stat.st_mode);
  if (is_there && stat.st_dev == listener->device && stat.st_ino == listener->inode) gone = !unlinkat(AT_FDCWD, listener->path, 0);
  int error = errno;
  if (listener->fd >= 0) close(listener->fd);
  *listener = (struct listener){.fd = -1};
  errno = error;
  return gone;
}
