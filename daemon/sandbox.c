#include "sandbox.h"

#include <errno.h>
#include <grp.h>
#include <limits.h>
#include <pwd.h>
#include <stdio.h>
#include <stdlib.h>
#include <string.h>
#include <sys/prctl.h>
#include <sys/resource.h>
#include <sys/syscall.h>
#include <unistd.h>

#include "folders.h"
#include "log.h"

#ifdef DAEMON_SECCOMP
#include <seccomp.h>
#include <linux/fs.h>
#include <sched.h>
#include <sys/mman.h>
#include <sys/socket.h>
#endif

// Open files: each disk's, three a queue, a region of memory's each, and what came with a message. With images a connection to each server
// of their clusters besides.
enum { MOST_OPEN = 1024, MOST_CONNECTED = 65536 };

bool sandbox_begin(bool has_images) {
  struct rlimit files;
  const rlim_t most = has_images ? MOST_CONNECTED : MOST_OPEN;
  if (prctl(PR_SET_NO_NEW_PRIVS, 1, 0, 0, 0) || setrlimit(RLIMIT_CORE, &(struct rlimit){0})) return false;
  if (getrlimit(RLIMIT_NOFILE, &files)) return false;
  files.rlim_cur = files.rlim_max < most ? files.rlim_max : most;
  return !setrlimit(RLIMIT_NOFILE, &files);
}

// Takes a whole word as the number of a user or a group. The last number means none.
static bool number(const char *word, unsigned *found) {
  char *end;
  errno = 0;
  unsigned long value = strtoul(word, &end, 10);
  if (*word < '0' || *word > '9' || *end || errno || value >= UINT_MAX) return false;
  *found = (unsigned)value;
  return true;
}

bool sandbox_find(struct owner *owner, const char *user, const char *group, char *why, size_t room) {
  *owner = (struct owner){.user = (uid_t)-1, .group = (gid_t)-1};
  struct passwd *found = user ? getpwnam(user) : NULL;
  if (user && !found && number(user, &owner->user)) found = getpwuid(owner->user);
  if (user && !found) return snprintf(why, room, "--user %s: there is no such user", user), false;
  if (found) *owner = (struct owner){.name = user, .user = found->pw_uid, .group = found->pw_gid};
  struct group *members = group ? getgrnam(group) : NULL;
  if (members) owner->group = members->gr_gid;
  else if (group && !number(group, &owner->group)) return snprintf(why, room, "--group %s: there is no such group", group), false;
  return true;
}

// Takes the groups of a user by its number, whose name is its own or not said.
static bool set_groups(const struct owner *owner) {
  struct passwd *found = owner->name ? getpwuid(owner->user) : NULL;
  return found ? !initgroups(found->pw_name, owner->group) : !setgroups(1, &owner->group);
}

bool sandbox_become(const struct owner *owner, char *why, size_t room) {
  bool stays = (owner->user == (uid_t)-1 || owner->user == geteuid()) && (owner->group == (gid_t)-1 || owner->group == getegid());
  if (stays) return true;
  bool became = set_groups(owner) && !setresgid(owner->group, owner->group, owner->group) &&
                (owner->user == (uid_t)-1 || !setresuid(owner->user, owner->user, owner->user));
  if (!became) snprintf(why, room, "the user or the group can't be taken: %s", strerror(errno));
  return became;
}

// Which limits are set.
static bool files_are_limited, calls_are_limited;

const char *sandbox_limits(void) {
  if (files_are_limited) return calls_are_limited ? "files and system calls are limited" : "files are limited, system calls aren't";
  return calls_are_limited ? "system calls are limited, files aren't" : "neither files nor system calls are limited";
}

// Programs with sanitizers read files as they end.
#if defined(SYS_landlock_create_ruleset) && !defined(__SANITIZE_ADDRESS__)
#include <linux/landlock.h>

// All that Linux 5.13 knows to be refused: what is done to files by their paths.
#define HANDLED ((__u64)LANDLOCK_ACCESS_FS_MAKE_SYM * 2 - 1)

// Allows something in the folder of a path.
static bool allow_in(int rules, const char *path, __u64 access) {
  if (!path) return true;
  struct landlock_path_beneath_attr folder = {.allowed_access = access, .parent_fd = folder_open(path, O_PATH)};
  if (folder.parent_fd < 0) return false;
  bool allowed = !syscall(SYS_landlock_add_rule, rules, LANDLOCK_RULE_PATH_BENEATH, &folder, 0);
  close(folder.parent_fd);
  return allowed;
}

static bool limit_files(const char *socket, const char *control, const char *log) {
  const struct landlock_ruleset_attr handled = {.handled_access_fs = HANDLED};
  // A kernel without Landlock, or where it is switched off.
  if (syscall(SYS_landlock_create_ruleset, NULL, 0, LANDLOCK_CREATE_RULESET_VERSION) < 1) return true;
  int rules = (int)syscall(SYS_landlock_create_ruleset, &handled, sizeof handled, 0);
  files_are_limited = rules >= 0 && allow_in(rules, socket, LANDLOCK_ACCESS_FS_REMOVE_FILE) &&
                      allow_in(rules, control, LANDLOCK_ACCESS_FS_REMOVE_FILE) &&
                      allow_in(rules, log, LANDLOCK_ACCESS_FS_WRITE_FILE | LANDLOCK_ACCESS_FS_MAKE_REG) &&
                      !syscall(SYS_landlock_restrict_self, rules, 0);
  int error = errno;
  if (rules >= 0) close(rules);
  errno = error;
  return files_are_limited;
}
#else
static bool limit_files(const char *socket, const char *control, const char *log) {
  (void)socket;
  (void)control;
  (void)log;
  return true;
}
#endif

#ifdef DAEMON_SECCOMP
bool sandbox_has_seccomp(void) { return true; }

// What serving takes: memory and time, the event loop, the socket and what front ends send by it, the images, which are open, signals,
// and the C library's own end of a process that is broken.
static const int calls[] = {
    SCMP_SYS(brk), SCMP_SYS(munmap), SCMP_SYS(mremap), SCMP_SYS(madvise), SCMP_SYS(sysinfo), SCMP_SYS(futex), SCMP_SYS(getrandom),
    SCMP_SYS(clock_gettime), SCMP_SYS(sched_yield), SCMP_SYS(gettimeofday), SCMP_SYS(clock_nanosleep), SCMP_SYS(timerfd_create), SCMP_SYS(timerfd_settime),
    SCMP_SYS(epoll_ctl), SCMP_SYS(epoll_wait), SCMP_SYS(epoll_pwait), SCMP_SYS(poll), SCMP_SYS(ppoll), SCMP_SYS(restart_syscall),
    SCMP_SYS(accept4), SCMP_SYS(recvmsg), SCMP_SYS(sendmsg), SCMP_SYS(sendto), SCMP_SYS(memfd_create), SCMP_SYS(ftruncate), SCMP_SYS(close), SCMP_SYS(read), SCMP_SYS(write), SCMP_SYS(writev),
    SCMP_SYS(pread64), SCMP_SYS(preadv2), SCMP_SYS(pwrite64), SCMP_SYS(lseek), SCMP_SYS(fcntl), SCMP_SYS(fstat), SCMP_SYS(fstatfs), SCMP_SYS(newfstatat),
    SCMP_SYS(fallocate), SCMP_SYS(fadvise64), SCMP_SYS(fdatasync), SCMP_SYS(io_uring_enter), SCMP_SYS(flock), SCMP_SYS(rt_sigaction), SCMP_SYS(rt_sigprocmask), SCMP_SYS(rt_sigpending),
    SCMP_SYS(rt_sigreturn), SCMP_SYS(getpid), SCMP_SYS(gettid), SCMP_SYS(exit), SCMP_SYS(exit_group)};

// Allows one call where an argument has these bits, of those of a mask.
static int allow(scmp_filter_ctx filter, int call, unsigned argument, scmp_datum_t mask, scmp_datum_t bits) {
  return seccomp_rule_add(filter, SCMP_ACT_ALLOW, call, 1, SCMP_CMP(argument, SCMP_CMP_MASKED_EQ, mask, bits));
}

// Allows what depends on arguments: memory that isn't run, signals to itself, and the log's file opened as the log does.
static int allow_some(scmp_filter_ctx filter, bool unlinks, bool opens) {
  const scmp_datum_t all = UINT32_MAX, flags = all & ~(scmp_datum_t)O_LARGEFILE;
  int failed = allow(filter, SCMP_SYS(mmap), 2, PROT_EXEC, 0);
  if (!failed) failed = allow(filter, SCMP_SYS(mprotect), 2, PROT_EXEC, 0);
  if (!failed) failed = allow(filter, SCMP_SYS(ioctl), 1, all, BLKGETSIZE64);
  if (!failed) failed = allow(filter, SCMP_SYS(tgkill), 0, all, (scmp_datum_t)getpid());
  if (!failed && opens) failed = allow(filter, SCMP_SYS(openat), 2, flags, LOG_FLAGS);
  if (!failed && unlinks) failed = seccomp_rule_add(filter, SCMP_ACT_ALLOW, SCMP_SYS(unlinkat), 0);
  return failed;
}

// Allows what it takes to connect to a server: by these families alone.
static int allow_connections(scmp_filter_ctx filter) {
  static const int families[] = {AF_UNIX, AF_INET, AF_INET6},
                   more[] = {SCMP_SYS(connect), SCMP_SYS(recvfrom), SCMP_SYS(getsockopt), SCMP_SYS(setsockopt), SCMP_SYS(shutdown)};
  int failed = 0;
  for (size_t i = 0; !failed && i < sizeof families / sizeof *families; i++)
    failed = allow(filter, SCMP_SYS(socket), 0, UINT32_MAX, (scmp_datum_t)families[i]);
  for (size_t i = 0; !failed && i < sizeof more / sizeof *more; i++) failed = seccomp_rule_add(filter, SCMP_ACT_ALLOW, more[i], 0);
  return failed;
}

// Allows what librbd's threads take besides: threads, their names, and connections that are looked after. clone3 fails, as nothing looks into
// what it is given, and the C library has clone in place of it then.
static int allow_threads(scmp_filter_ctx filter) {
  static const int more[] = {SCMP_SYS(set_robust_list), SCMP_SYS(rseq), SCMP_SYS(sigaltstack), SCMP_SYS(sched_getaffinity), SCMP_SYS(membarrier),
                             SCMP_SYS(nanosleep), SCMP_SYS(clock_getres), SCMP_SYS(select), SCMP_SYS(pselect6), SCMP_SYS(epoll_create), SCMP_SYS(epoll_create1),
                             SCMP_SYS(eventfd2), SCMP_SYS(pipe2), SCMP_SYS(readv), SCMP_SYS(getsockname), SCMP_SYS(getpeername),
                             SCMP_SYS(getuid), SCMP_SYS(geteuid), SCMP_SYS(getgid), SCMP_SYS(getegid), SCMP_SYS(getrusage),
                             SCMP_SYS(uname)};
  int failed = allow(filter, SCMP_SYS(clone), 0, CLONE_THREAD, CLONE_THREAD);
  if (!failed) failed = allow(filter, SCMP_SYS(prctl), 0, UINT32_MAX, PR_SET_NAME);
  for (size_t i = 0; !failed && i < sizeof more / sizeof *more; i++) failed = seccomp_rule_add(filter, SCMP_ACT_ALLOW, more[i], 0);
  return failed;
}

// Returns 0, or an error number below 0. What librbd calls depends on its version, so a call of its own that isn't known here fails, and
// doesn't end the process.
static int limit_calls(bool unlinks, bool opens, struct reach reach) {
  scmp_filter_ctx filter = seccomp_init(reach.has_images ? SCMP_ACT_ERRNO(ENOSYS) : SCMP_ACT_KILL_PROCESS);
  int failed = filter ? 0 : -ENOMEM;
  for (size_t i = 0; !failed && i < sizeof calls / sizeof *calls; i++) failed = seccomp_rule_add(filter, SCMP_ACT_ALLOW, calls[i], 0);
  if (!failed) failed = allow_some(filter, unlinks, opens);
  if (!failed && (reach.connects || reach.has_images)) failed = allow_connections(filter);
  if (!failed && reach.has_images) failed = allow_threads(filter);
  if (!failed && reach.has_images) failed = seccomp_attr_set(filter, SCMP_FLTATR_CTL_TSYNC, 1);
  if (!failed) failed = seccomp_load(filter);
  if (filter) seccomp_release(filter);
  calls_are_limited = !failed;
  return failed;
}
#else
bool sandbox_has_seccomp(void) { return false; }

static int limit_calls(bool unlinks, bool opens, struct reach reach) {
  (void)unlinks;
  (void)opens;
  (void)reach;
  return 0;
}
#endif

bool sandbox_limit(const char *socket, const char *control, const char *log, struct reach reach, char *why, size_t room) {
  const char *what = "files";
  int failed = limit_files(socket, control, log) ? 0 : -errno;
  if (!failed) {
    what = "system calls";
    failed = limit_calls(socket || control, log, reach);
  }
  if (failed) snprintf(why, room, "%s can't be limited: %s; --seccomp off leaves that out", what, strerror(-failed));
  return !failed;
}
