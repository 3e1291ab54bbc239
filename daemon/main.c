// The daemon: one socket, one front end at a time, one thread.
#include <errno.h>
#include <fcntl.h>
#include <poll.h>
#include <stdio.h>
#include <stdlib.h>
#include <string.h>
#include <sys/epoll.h>
#include <sys/socket.h>
#include <time.h>
#include <unistd.h>

#include "cluster.h"
#include "control.h"
#include "images.h"
#include "listener.h"
#include "log.h"
#include "names.h"
#include "options.h"
#include "paging.h"
#include "sandbox.h"
#include "session.h"
#include "signals.h"

// PATIENCE: how long a front end may take for the rest of a message, in milliseconds, and for its first one where another wants its place.
// WAITING: after how many an operator's request that waits is looked at once more.
enum { EVENT_SIGNAL = 2000, EVENT_LISTENER = 2001, EVENT_CONTROL = 2002, EVENT_CLIENT = 2003, EVENTS = 32, REFUSED = 1, WRONG_WORDS = 2, WHY = 500, PATIENCE = 5000, WAITING = 50 };

#ifdef DAEMON_JEMALLOC
// What jemalloc reads as it begins: disks in memory are to stand on huge pages. MALLOC_CONF of the environment has the last word.
extern const char *malloc_conf;
const char *malloc_conf = "thp:always";
#endif

struct daemon {
  struct options options;
  struct disks disks;
  struct session session;
  struct listener listener, operators;
  struct control control;
  unsigned long sessions;
  bool connected;
  uint64_t owed_after;  // how many messages the session had read when it began to wait for one
  int64_t owed_since;   // when that was; 0: it doesn't wait
  int epoll, signals;
};

static int64_t now(void) {
  struct timespec time;
  clock_gettime(CLOCK_MONOTONIC, &time);
  return (int64_t)time.tv_sec * 1000 + time.tv_nsec / 1000000;
}

static bool watch(int epoll, int fd, uint32_t what) {
  struct epoll_event event = {.events = EPOLLIN, .data.u32 = what};
  return fd >= 0 && !epoll_ctl(epoll, EPOLL_CTL_ADD, fd, &event);
}

static void end_session(struct daemon *daemon, const char *why) {
  log_say(LOG_NOTE, NULL, "%s", why);
  session_end(&daemon->session);
  daemon->connected = false;
  log_session(0);
}

// Begins the session of a connection, which is closed where it can't be.
static void begin_session(struct daemon *daemon, int fd) {
  const struct options *options = &daemon->options;
  log_session(++daemon->sessions);
  log_say(LOG_NOTE, NULL, "a front end is there");
  daemon->connected = true;
  daemon->owed_since = 0;
  if (!session_begin(&daemon->session, fd, daemon->epoll, &daemon->disks, options->queues, options->polling, options->quiet))
    end_session(daemon, "it can't be watched");
}

// Returns whether the other end of a connection is gone. What it sent before may still be there.
static bool is_gone(int fd) {
  struct pollfd asked = {.fd = fd, .events = POLLRDHUP};
  return poll(&asked, 1, 0) == 1;
}

// Takes a connection, or refuses it: one front end is served at a time.
static void take_front_end(struct daemon *daemon) {
  struct session *session = &daemon->session;
  if (daemon->connected && is_gone(session->socket)) {
    // What a front end sent before it went is read first; the next one waits that long. But nobody takes the reply to a message that waits.
    if (!session->is_waiting) return;
    end_session(daemon, "the session is over");
  }
  int fd = accept4(daemon->listener.fd, NULL, NULL, SOCK_CLOEXEC | SOCK_NONBLOCK);
  // Where the system has no descriptor left the connection waits, and so does the daemon.
  if (fd < 0 && errno != EAGAIN && errno != EINTR) poll(NULL, 0, 10);
  if (fd < 0) return;
  bool is_silent = daemon->connected && !session->messages && daemon->owed_since && now() - daemon->owed_since >= PATIENCE;
  if (is_silent) end_session(daemon, "it said nothing, and another front end came");
  if (!daemon->connected) {
    begin_session(daemon, fd);
    return;
  }
  close(fd);
  log_say(LOG_NOTE, NULL, "another front end came, and was refused");
}

// Takes a client of the control socket. Others wait until it is gone.
static void take_client(struct daemon *daemon) {
  if (daemon->control.client >= 0) return;
  int fd = accept4(daemon->operators.fd, NULL, NULL, SOCK_CLOEXEC | SOCK_NONBLOCK);
  // As above.
  if (fd < 0 && errno != EAGAIN && errno != EINTR) poll(NULL, 0, 10);
  if (fd < 0) return;
  control_take(&daemon->control, fd);
  epoll_ctl(daemon->epoll, EPOLL_CTL_DEL, daemon->operators.fd, NULL);
  if (!watch(daemon->epoll, fd, EVENT_CLIENT)) control_end(&daemon->control);
  if (daemon->control.client < 0) watch(daemon->epoll, daemon->operators.fd, EVENT_CONTROL);
}

// Serves the client, or its request that waits. What it sends behind such a request isn't looked at meanwhile.
static void serve_client(struct daemon *daemon) {
  struct control *control = &daemon->control;
  const struct controlled controlled = {&daemon->disks, daemon->connected ? &daemon->session : NULL, daemon->sessions};
  bool waited = control->waits, stands = control_serve(control, &controlled);
  if (stands && control->waits && !waited) epoll_ctl(daemon->epoll, EPOLL_CTL_DEL, control->client, NULL);
  if (stands && waited && !control->waits && !watch(daemon->epoll, control->client, EVENT_CLIENT)) control_end(control);
  if (control->client < 0) watch(daemon->epoll, daemon->operators.fd, EVENT_CONTROL);
}

// Writes what devices that ended left to the files, while there is no device, and lets go of the files then. Returns in how many
// milliseconds it is to be called again, or -1 where nothing is left, or what is under way says by an event that it is over.
static int write_rest(struct daemon *daemon) {
  struct device none = {0};
  struct disks *disks = &daemon->disks;
  const struct backend *backend = daemon->connected ? &daemon->session.backend : NULL;
  // A device that begins waits for what is under way: nothing more is begun meanwhile.
  bool is_awaited = backend && backend->pause && paging_is_under_way(disks);
  if ((backend && backend->device.live) || is_awaited || !blocks_are_left(disks)) return -1;
  enum kept kept = blocks_keep(&none, disks, false);
  bool is_left = paging_write_rest(disks);
  blocks_tell(disks);
  if (kept == KEEPING) return 0;
  if (kept == STUCK) {
    int64_t left = (int64_t)blocks_due(disks) - now();
    return left > 0 ? (int)left : 1;
  }
  if (is_left) return -1;
  if (daemon->connected) session_release(&daemon->session);
  else images_release(disks);
  return -1;
}

// Returns how many milliseconds the front end has left for a message that it owes, or -1 where there is no such limit.
static int patience(struct daemon *daemon) {
  struct session *session = &daemon->session;
  if (!daemon->connected || !session_is_owed(session)) {
    daemon->owed_since = 0;
    return -1;
  }
  if (!daemon->owed_since || daemon->owed_after != session->messages) {
    daemon->owed_since = now();
    daemon->owed_after = session->messages;
  }
  int64_t left = daemon->owed_since + PATIENCE - now();
  // A front end that hasn't begun a message may be a machine that is still starting: it stays while no other wants its place.
  if (!session->reader.have) return -1;
  return left > 0 ? (int)left : 0;
}

// Does what a few events ask for. Returns false where the daemon is to end.
static bool take_events(struct daemon *daemon, const struct epoll_event *events, int count) {
  bool stands = true, comes = false, asks = daemon->control.waits;
  for (int i = 0; i < count; i++) {
    uint32_t what = events[i].data.u32;
    enum signal_read came = what == EVENT_SIGNAL ? signals_read(daemon->signals) : SIGNAL_NONE;
    if (came == SIGNAL_END) return false;
    if (came == SIGNAL_LOG) log_reopen();
    else if (what == EVENT_LISTENER) comes = true;
    else if (what == EVENT_CONTROL) take_client(daemon);
    else if (what == EVENT_CLIENT) asks = true;
    else if (daemon->connected && what == EVENT_SOCKET) stands = session_read(&daemon->session) && stands;
    else if (daemon->connected && what < EVENT_SIGNAL) session_kicked(&daemon->session, what);
  }
  if (daemon->connected && stands && daemon->session.more) stands = session_serve(&daemon->session);
  if (daemon->connected && !stands) end_session(daemon, "the session is over");
  if (asks && daemon->control.client >= 0) serve_client(daemon);
  if (comes) take_front_end(daemon);
  return true;
}

// Serves until a signal ends it, or the one front end that was handed in is gone. Returns false where it can't go on.
static bool serve(struct daemon *daemon) {
  struct epoll_event events[EVENTS];
  while (daemon->connected || !daemon->listener.connected) {
    int wait = patience(daemon);
    if (wait == 0) {
      end_session(daemon, "it sent half a message, and no more");
      continue;
    }
    int rest = write_rest(daemon);
    if (rest >= 0 && (wait < 0 || rest < wait)) wait = rest;
    // What the operator's request waits for may have come by that, with no event.
    if (daemon->control.waits && (wait < 0 || wait > WAITING)) wait = WAITING;
    int count = epoll_wait(daemon->epoll, events, EVENTS, daemon->connected && daemon->session.more ? 0 : wait);
    if (count < 0 && errno != EINTR) return log_say(LOG_ERROR, NULL, "no event can be waited for: %s", strerror(errno)), false;
    if (!take_events(daemon, events, count)) return true;
  }
  return true;
}

// Watches what somebody may connect to, and the storage of backed disks. A front end's own connection is its session's.
static bool watch_all(struct daemon *daemon, char *why, size_t room) {
  const struct listener *listener = &daemon->listener, *operators = &daemon->operators;
  bool watched = (listener->connected || watch(daemon->epoll, listener->fd, EVENT_LISTENER)) &&
                 (operators->fd < 0 || watch(daemon->epoll, operators->fd, EVENT_CONTROL)) &&
                 paging_watch(&daemon->disks, daemon->epoll, EVENT_STORAGE);
  if (!watched) snprintf(why, room, "the socket can't be watched: %s", strerror(errno));
  return watched;
}

// Opens all, in an order by which nothing is made or changed before whatever may be refused was tried: the socket comes last, so a front
// end never waits for disks that are still loaded.
static bool open_all(struct daemon *daemon, char *why, size_t room) {
  const struct options *options = &daemon->options;
  struct owner owner;
  bool has_path = options->path;
  const struct reach reach = {disks_connect(&daemon->disks), disks_have_images(&daemon->disks)};
  if (!sandbox_find(&owner, options->user, options->group, why, room)) return false;
  if (has_path ? !listener_can_bind(options->path, why, room) : !listener_take(&daemon->listener, options->fd, why, room)) return false;
  if (options->control && !listener_can_bind(options->control, why, room)) return false;
  if (!images_open(&daemon->disks, why, room) || !names_read(&daemon->disks, why, room)) return false;
  bool stands = images_make(&daemon->disks, owner.user, owner.group, why, room) &&
                paging_open(&daemon->disks, options->control, why, room) && (daemon->disks.moves || blocks_load(&daemon->disks, why, room)) &&
                (!has_path || listener_bind(&daemon->listener, options->path, options->mode, owner.user, owner.group, why, room)) &&
                (!options->control || listener_bind(&daemon->operators, options->control, 0600, owner.user, owner.group, why, room)) &&
                watch_all(daemon, why, room) && (names_keep(&daemon->disks, owner.user, owner.group), true) &&
                sandbox_become(&owner, why, room) &&
                (!options->limits || sandbox_limit(options->path, options->control, options->log, reach, why, room));
  if (stands) return true;
  names_undo(&daemon->disks);
  images_undo(&daemon->disks);
  return false;
}

static int refuse(const char *why) {
  log_say(LOG_ERROR, NULL, "%s", why);
  return REFUSED;
}

// Opens all and serves. Returns the status to end with.
static int run(struct daemon *daemon) {
  char why[WHY];
  daemon->signals = signals_begin();
  daemon->epoll = epoll_create1(EPOLL_CLOEXEC);
  if (!sandbox_begin(disks_have_images(&daemon->disks)) || !watch(daemon->epoll, daemon->signals, EVENT_SIGNAL)) return refuse(strerror(errno));
  if (!open_all(daemon, why, sizeof why)) {
    if (signals_end_waits()) return log_say(LOG_NOTE, NULL, "ended before it served"), 0;
    return refuse(why);
  }
  const char *place = daemon->options.path ? daemon->options.path : "a descriptor";
  log_say(LOG_NOTE, NULL, "serves %zu disks at %s; %s", daemon->disks.count, place, sandbox_limits());
  if (daemon->listener.connected) {
    begin_session(daemon, daemon->listener.fd);
    daemon->listener.fd = -1;
  }
  bool served = serve(daemon);
  control_end(&daemon->control);
  if (daemon->connected) end_session(daemon, "the daemon ends");
  // Of both kinds of disks all is tried, whatever becomes of the others.
  bool written = paging_finish(&daemon->disks, why, sizeof why);
  if (!written) log_say(LOG_ERROR, NULL, "%s", why);
  if (!blocks_finish(&daemon->disks, why, sizeof why)) return refuse(why);
  return served && written ? 0 : REFUSED;
}

// Has something stand at the standard descriptors, so none of the daemon's own files is taken for one of them.
static bool hold_standard(void) {
  int fd = open("/dev/null", O_RDWR);
  while (fd >= 0 && fd <= STDERR_FILENO) fd = open("/dev/null", O_RDWR);
  return fd >= 0 && !close(fd);
}

int main(int count, char **words) {
  struct daemon *daemon = hold_standard() ? calloc(1, sizeof *daemon) : NULL;
  if (!daemon) return REFUSED;
  *daemon = (struct daemon){.listener.fd = -1, .operators.fd = -1, .epoll = -1, .signals = -1};
  control_begin(&daemon->control);
  enum wanted wanted = options_read(&daemon->options, &daemon->disks, count, words);
  int status = wanted == WANTED_WRONG ? WRONG_WORDS : 0;
  if (wanted == WANTED_RUN && !log_open(daemon->options.log, daemon->options.quiet)) {
    fprintf(stderr, "%s: %s\n", daemon->options.log, strerror(errno));
    status = REFUSED;
  } else if (wanted == WANTED_RUN) {
    status = run(daemon);
    bool gone = listener_close(&daemon->listener);
    if (!listener_close(&daemon->operators) || !gone) log_say(LOG_ERROR, NULL, "the socket's path stays: %s", strerror(errno));
    log_close();
  }
  if (daemon->signals >= 0) close(daemon->signals);
  if (daemon->epoll >= 0) close(daemon->epoll);
  disks_close(&daemon->disks);
  free(daemon);
  // A thread that waits for a cluster calls libraries whose values an ordinary end would take away.
  if (cluster_is_busy()) _exit(status);
  return status;
}
