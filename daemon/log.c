#include "log.h"

#include <errno.h>
#include <poll.h>
#include <stdarg.h>
#include <stdint.h>
#include <stdio.h>
#include <string.h>
#include <sys/socket.h>
#include <sys/stat.h>
#include <time.h>
#include <unistd.h>

#include "disks.h"

// A line is no longer than what a pipe takes as a whole. Each level has its own allowance: so many lines at once, and so many a
// second later on. A guest that has notes said without end leaves room for errors.
enum { LINE = 1024, LEVELS = 2, BURST = 100, A_SECOND = 10 };

static struct {
  bool open, quiet, is_socket, asks_first;
  const char *path;
  int fd;
  unsigned long session, left_out;
  double allowance[LEVELS];
  struct timespec last;
} state = {.fd = -1};

static int open_file(const char *path) { return open(path, LOG_FLAGS, 0600); }

// Opens standard error. Others may share its description, so its flags stay as they are: a pipe or a terminal is opened once more.
static void open_standard(void) {
  struct stat stat;
  state.fd = STDERR_FILENO;
  if (fstat(STDERR_FILENO, &stat)) return;
  state.is_socket = S_ISSOCK(stat.st_mode);
  if (!S_ISFIFO(stat.st_mode) && !S_ISCHR(stat.st_mode)) return;
  int again = open("/proc/self/fd/2", O_WRONLY | O_NONBLOCK | O_NOCTTY | O_CLOEXEC);
  if (again >= 0) state.fd = again;
  else state.asks_first = true;
}

bool log_open(const char *path, bool quiet) {
  state.quiet = quiet;
  state.path = path;
  for (unsigned i = 0; i < LEVELS; i++) state.allowance[i] = BURST;
  clock_gettime(CLOCK_MONOTONIC, &state.last);
  tzset();  // reads its files now, while files may be opened
  if (path) state.fd = open_file(path);
  else open_standard();
  state.open = state.fd >= 0;
  return state.open;
}

void log_reopen(void) {
  if (!state.path) return;
  int fd = open_file(state.path);
  if (fd < 0) {
    log_say(LOG_ERROR, NULL, "%s: %s: the log goes on where it was", state.path, strerror(errno));
    return;
  }
  close(state.fd);
  state.fd = fd;
}

void log_session(unsigned long number) { state.session = number; }

// Puts a line out. Returns false where it isn't taken at once.
static bool put(const char *line, size_t length) {
  struct pollfd asked = {.fd = state.fd, .events = POLLOUT};
  if (state.is_socket) return send(state.fd, line, length, MSG_DONTWAIT | MSG_NOSIGNAL) == (ssize_t)length;
  if (state.asks_first && (poll(&asked, 1, 0) != 1 || !(asked.revents & POLLOUT))) return false;
  return write(state.fd, line, length) == (ssize_t)length;
}

// Returns whether a line of this level is within its allowance, and takes it off.
static bool is_allowed(enum log_level level) {
  struct timespec now;
  clock_gettime(CLOCK_MONOTONIC, &now);
  double passed = (double)(now.tv_sec - state.last.tv_sec) + (double)(now.tv_nsec - state.last.tv_nsec) / 1e9;
  state.last = now;
  for (unsigned i = 0; i < LEVELS; i++) {
    state.allowance[i] += passed * A_SECOND;
    if (state.allowance[i] > BURST) state.allowance[i] = BURST;
  }
  if (state.allowance[level] < 1) return false;
  state.allowance[level] -= 1;
  return true;
}

// Adds to a line, which is cut where it is full.
__attribute__((format(printf, 2, 0))) static void add_list(char *line, const char *format, va_list list) {
  size_t length = strlen(line);
  vsnprintf(line + length, LINE - 1 - length, format, list);
}

__attribute__((format(printf, 2, 3))) static void add(char *line, const char *format, ...) {
  va_list list;
  va_start(list, format);
  add_list(line, format, list);
  va_end(list);
}

static void begin_line(char *line) {
  struct timespec now;
  struct tm parts;
  clock_gettime(CLOCK_REALTIME, &now);
  line[0] = 0;
  if (gmtime_r(&now.tv_sec, &parts)) line[strftime(line, LINE, "%Y-%m-%dT%H:%M:%S", &parts)] = 0;
  add(line, ".%03ldZ vscsi-vhost-user: ", now.tv_nsec / 1000000);
  if (state.session) add(line, "session %lu: ", state.session);
}

// Ends a line and puts it out. No byte of a name ends it before, or moves a terminal's cursor.
static bool end_line(char *line) {
  size_t length = strlen(line);
  for (size_t i = 0; i < length; i++)
    if ((unsigned char)line[i] < ' ' || line[i] == 0x7f) line[i] = '?';
  line[length] = '\n';
  return put(line, length + 1);
}

static bool say_left_out(void) {
  char line[LINE];
  if (!state.left_out) return true;
  begin_line(line);
  add(line, "%lu lines were left out", state.left_out);
  if (!end_line(line)) return false;
  state.left_out = 0;
  return true;
}

void log_say(enum log_level level, const struct disk *disk, const char *format, ...) {
  char line[LINE];
  va_list list;
  if (!state.open || (state.quiet && level == LOG_NOTE)) return;
  if (!is_allowed(level) || !say_left_out()) {
    state.left_out++;
    return;
  }
  begin_line(line);
  if (disk) add(line, "disk %u:%u (%s): ", disk->target, disk->lun, disk->path ? disk->path : disk->uri ? disk->uri : "in memory");
  va_start(list, format);
  add_list(line, format, list);
  va_end(list);
  if (!end_line(line)) state.left_out++;
}

void log_close(void) {
  if (!state.open) return;
  say_left_out();
  if (state.fd != STDERR_FILENO) close(state.fd);
  state.open = false;
}
