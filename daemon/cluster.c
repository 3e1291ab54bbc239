#include "cluster.h"

#include <string.h>

bool cluster_is_name(const char *text) {
  size_t parts = 0, length = strlen(CLUSTER_SCHEME);
  if (strncmp(text, CLUSTER_SCHEME, length)) return false;
  for (text += length; *text; text += length) {
    length = strcspn(text, "/");
    if (!length || (text[length] && !text[length + 1])) return false;
    parts++;
    length += text[length] == '/';
  }
  return parts == 2 || parts == 3;
}

#ifdef DAEMON_RBD
#include <dlfcn.h>
#include <errno.h>
#include <pthread.h>
#include <stdatomic.h>
#include <stdio.h>
#include <stdlib.h>
#include <sys/epoll.h>
#include <sys/eventfd.h>
#include <unistd.h>

#include "clock.h"
#include "kind.h"
#include "signals.h"

// Milliseconds: for how long an image may take to be opened, which waits for the lock of a client that died, or to be closed; in which
// portions that is looked at; and seconds for which the cluster's monitors are tried.
enum { OPENING = 60000, CLOSING = 5000, PORTION = 50 };
static const char mounting[] = "10";

// The feature of an image that has an exclusive lock, and how that is taken (rbd/features.h, rbd/librbd.h).
static const uint64_t exclusive_lock = UINT64_C(1) << 2;
enum { LOCK_EXCLUSIVE = 0 };

// What is called of the libraries, as rados/librados.h and rbd/librbd.h declare it. They have a cluster, a pool, an image and a completion by
// pointers.
typedef void completion_callback(void *completion, void *at);

struct calls {
  int (*rados_create)(void **cluster, const char *user);
  int (*rados_conf_read_file)(void *cluster, const char *path);
  int (*rados_conf_set)(void *cluster, const char *option, const char *value);
  int (*rados_connect)(void *cluster);
  void (*rados_shutdown)(void *cluster);
  int (*rados_ioctx_create)(void *cluster, const char *pool, void **context);
  void (*rados_ioctx_set_namespace)(void *context, const char *space);
  void (*rados_ioctx_destroy)(void *context);
  int (*rbd_open)(void *context, const char *name, void **image, const char *snapshot);
  int (*rbd_open_read_only)(void *context, const char *name, void **image, const char *snapshot);
  int (*rbd_close)(void *image);
  int (*rbd_get_size)(void *image, uint64_t *bytes);
  int (*rbd_get_features)(void *image, uint64_t *features);
  int (*rbd_lock_acquire)(void *image, int mode);
  int (*rbd_aio_create_completion)(void *at, completion_callback *over, void **completion);
  void (*rbd_aio_release)(void *completion);
  ssize_t (*rbd_aio_get_return_value)(void *completion);
  int (*rbd_aio_read)(void *image, uint64_t at, size_t count, char *into, void *completion);
  int (*rbd_aio_write)(void *image, uint64_t at, size_t count, const char *from, void *completion);
  int (*rbd_aio_flush)(void *image, void *completion);
  int (*rbd_aio_write_zeroes)(void *image, uint64_t at, size_t count, void *completion, int how, int flags);  // or NULL: before Ceph 16
};

static struct calls calls;

// Each by its name, its library and its place there.
enum library { RADOS, RBD, LIBRARIES };
static const char *const libraries[] = {"librados.so.2", "librbd.so.1"};

#define CALL(library, name) {#name, library, offsetof(struct calls, name)}
static const struct {
  const char *name;
  enum library library;
  size_t place;
} names[] = {CALL(RADOS, rados_create),
             CALL(RADOS, rados_conf_read_file),
             CALL(RADOS, rados_conf_set),
             CALL(RADOS, rados_connect),
             CALL(RADOS, rados_shutdown),
             CALL(RADOS, rados_ioctx_create),
             CALL(RADOS, rados_ioctx_set_namespace),
             CALL(RADOS, rados_ioctx_destroy),
             CALL(RBD, rbd_open),
             CALL(RBD, rbd_open_read_only),
             CALL(RBD, rbd_close),
             CALL(RBD, rbd_get_size),
             CALL(RBD, rbd_get_features),
             CALL(RBD, rbd_lock_acquire),
             CALL(RBD, rbd_aio_create_completion),
             CALL(RBD, rbd_aio_release),
             CALL(RBD, rbd_aio_get_return_value),
             CALL(RBD, rbd_aio_read),
             CALL(RBD, rbd_aio_write),
             CALL(RBD, rbd_aio_flush),
             CALL(RBD, rbd_aio_write_zeroes)};

// A part of a request. A thread of librbd's puts its result there, and puts it on the list of those that are over.
struct part {
  struct cluster *cluster;
  struct request *request;
  uint64_t count;  // bytes that are read, or 0
  ssize_t result;
  struct part *next;
};

struct cluster {
  struct server server;
  char *pool, *space, *image_name, *configuration, *user;  // `space` and what follows `image_name` may be NULL
  bool is_read_only;
  int event;                      // an eventfd: something is on the list, or a task is over
  _Atomic(struct part *) over;    // the last one first
  const char *step;               // of opening: what is done, and the error number by which it failed, or 0
  int error;
  void *cluster, *context, *image;
  void (*task)(struct cluster *);  // what `helper` does
  pthread_t helper;
  atomic_bool is_done;
};

static unsigned given_up;

static struct cluster *of(struct server *server) { return (struct cluster *)server; }

bool cluster_is_built(void) { return true; }

bool cluster_is_busy(void) { return given_up; }

// Loads both libraries, once, and finds what is called of them. They stay loaded.
static bool load(char *why, size_t room) {
  static void *handles[LIBRARIES];
  for (size_t i = 0; i < LIBRARIES; i++) {
    if (!handles[i]) handles[i] = dlopen(libraries[i], RTLD_NOW | RTLD_LOCAL);
    if (!handles[i]) return snprintf(why, room, "%s", dlerror()), false;
  }
  for (size_t i = 0; i < sizeof names / sizeof *names; i++) {
    void *found = dlsym(handles[names[i].library], names[i].name);
    bool is_needed = names[i].place != offsetof(struct calls, rbd_aio_write_zeroes);
    if (!found && is_needed) return snprintf(why, room, "%s has no %s", libraries[names[i].library], names[i].name), false;
    memcpy((char *)&calls + names[i].place, &found, sizeof found);
  }
  return true;
}

// Takes a name apart, and keeps copies.
static bool keep_name(struct cluster *cluster, const struct image_name *name) {
  char *text = strdup(name->text + strlen(CLUSTER_SCHEME));
  if (!text) return false;
  char *first = strchr(text, '/'), *last = strrchr(text, '/');
  *first = *last = 0;
  cluster->pool = text;
  cluster->space = first == last ? NULL : first + 1;
  cluster->image_name = last + 1;
  cluster->is_read_only = name->is_read_only;
  if (name->configuration) cluster->configuration = strdup(name->configuration);
  if (name->user) cluster->user = strdup(name->user);
  return !name->configuration == !cluster->configuration && !name->user == !cluster->user;
}

// Notes which step failed. Returns whether it went well.
static bool went(struct cluster *cluster, const char *step, int result) {
  cluster->step = step;
  cluster->error = result < 0 ? -result : 0;
  return result >= 0;
}

// Reads the configuration. Where none is named there may be none in the usual places.
static bool configure(struct cluster *cluster) {
  if (!went(cluster, "librados", calls.rados_create(&cluster->cluster, cluster->user))) return false;
  int read = calls.rados_conf_read_file(cluster->cluster, cluster->configuration);
  if (cluster->configuration && !went(cluster, "its configuration can't be read", read)) return false;
  // The daemon has a cache of its own.
  return went(cluster, "rbd_cache", calls.rados_conf_set(cluster->cluster, "rbd_cache", "false")) &&
         went(cluster, "client_mount_timeout", calls.rados_conf_set(cluster->cluster, "client_mount_timeout", mounting));
}

// Takes the exclusive lock of an image that has one. Until the image is closed no other client gets it.
static bool take_lock(struct cluster *cluster) {
  uint64_t features = 0;
  if (!went(cluster, "its features", calls.rbd_get_features(cluster->image, &features))) return false;
  if (!(features & exclusive_lock)) return true;
  return went(cluster, "its exclusive lock can't be had", calls.rbd_lock_acquire(cluster->image, LOCK_EXCLUSIVE));
}

// Opens an image, by a helper.
static void open_image(struct cluster *cluster) {
  if (!configure(cluster) || !went(cluster, "no connection to its cluster", calls.rados_connect(cluster->cluster))) return;
  if (!went(cluster, "no such pool", calls.rados_ioctx_create(cluster->cluster, cluster->pool, &cluster->context))) return;
  if (cluster->space) calls.rados_ioctx_set_namespace(cluster->context, cluster->space);
  void *image = NULL;
  int opened = (cluster->is_read_only ? calls.rbd_open_read_only : calls.rbd_open)(cluster->context, cluster->image_name, &image, NULL);
  if (!went(cluster, "it can't be opened", opened)) return;
  cluster->image = image;
  if (went(cluster, "its length", calls.rbd_get_size(image, &cluster->server.bytes)) && !cluster->is_read_only) take_lock(cluster);
}

// Closes an image, by a helper. No callback comes behind that.
static void close_image(struct cluster *cluster) {
  if (cluster->image) calls.rbd_close(cluster->image);
  if (cluster->context) calls.rados_ioctx_destroy(cluster->context);
  if (cluster->cluster) calls.rados_shutdown(cluster->cluster);
}

static void *help(void *at) {
  struct cluster *cluster = at;
  cluster->task(cluster);
  atomic_store(&cluster->is_done, true);
  eventfd_write(cluster->event, 1);
  return NULL;
}

// Has a helper do what may take long, for so many milliseconds at most, and until a signal ends the daemon, where it `ends`. Returns false
// where it isn't done by then: all that it has is its own from then on. It calls libraries that wait for a cluster, and can't be stopped.
static bool do_within(struct cluster *cluster, void (*task)(struct cluster *), unsigned milliseconds, bool ends) {
  uint64_t until = clock_now() + milliseconds;
  struct pollfd asked = {.fd = cluster->event, .events = POLLIN};
  eventfd_t counted;
  cluster->task = task;
  atomic_store(&cluster->is_done, false);
  if (pthread_create(&cluster->helper, NULL, help, cluster)) return task(cluster), true;
  while (!atomic_load(&cluster->is_done) && clock_now() < until && !(ends && signals_end_waits())) {
    poll(&asked, 1, PORTION);
    eventfd_read(cluster->event, &counted);
  }
  if (atomic_load(&cluster->is_done)) return !pthread_join(cluster->helper, NULL);
  pthread_detach(cluster->helper);
  given_up++;
  return false;
}

static void let_go(struct cluster *cluster) {
  if (cluster->event >= 0) close(cluster->event);
  free(cluster->pool);
  free(cluster->configuration);
  free(cluster->user);
  free(cluster);
}

static void close_cluster(struct server *server) {
  if (do_within(of(server), close_image, CLOSING, false)) let_go(of(server));
}

static bool watch(struct server *server) {
  struct epoll_event event = {.events = EPOLLIN | EPOLLET, .data.u32 = server->event};
  return !epoll_ctl(server->epoll, EPOLL_CTL_ADD, of(server)->event, &event);
}

// Notes that a part is over. librbd calls it on a thread of its own. A part on the list is the daemon's, who frees it.
static void note_over(void *completion, void *at) {
  struct part *part = at, *next;
  struct cluster *cluster = part->cluster;
  part->result = calls.rbd_aio_get_return_value(completion);
  calls.rbd_aio_release(completion);
  next = atomic_load(&cluster->over);
  do part->next = next;
  while (!atomic_compare_exchange_weak(&cluster->over, &next, part));
  // Whoever put the first one there tells of all.
  if (!next) eventfd_write(cluster->event, 1);
}

// Takes all parts that are over, in the order in which they were.
static bool turn(struct server *server) {
  struct part *over = atomic_exchange(&of(server)->over, NULL), *ordered = NULL, *next;
  for (; over; over = next) {
    next = over->next;
    over->next = ordered;
    ordered = over;
  }
  for (; ordered; ordered = next) {
    next = ordered->next;
    bool is_short = ordered->result >= 0 && (uint64_t)ordered->result < ordered->count;
    request_note(ordered->request, ordered->result < 0 ? (int)-ordered->result : is_short ? EIO : 0);
    free(ordered);
  }
  // librados connects again by itself, and what is asked meanwhile waits for it.
  return false;
}

// What was counted before is taken, so that the eventfd tells of what comes behind this.
static bool asks(struct server *server, struct pollfd *asked) {
  eventfd_t counted;
  eventfd_read(of(server)->event, &counted);
  turn(server);
  *asked = (struct pollfd){.fd = of(server)->event, .events = POLLIN};
  return true;
}

static int begin(struct server *server, enum part_kind kind, struct request *request, void *bytes, uint64_t count, uint64_t at) {
  struct cluster *cluster = of(server);
  struct part *part = malloc(sizeof *part);
  void *completion;
  if (!part) return ENOMEM;
  *part = (struct part){.cluster = cluster, .request = request, .count = kind == PART_READ ? count : 0};
  int begun = calls.rbd_aio_create_completion(part, note_over, &completion);
  if (begun < 0) return free(part), -begun;
  begun = kind == PART_READ    ? calls.rbd_aio_read(cluster->image, at, count, bytes, completion)
          : kind == PART_WRITE ? calls.rbd_aio_write(cluster->image, at, count, bytes, completion)
          : kind == PART_ZERO  ? calls.rbd_aio_write_zeroes(cluster->image, at, count, completion, 0, 0)
                               : calls.rbd_aio_flush(cluster->image, completion);
  if (begun >= 0) return 0;
  calls.rbd_aio_release(completion);
  return free(part), -begun;
}

static const struct kind rbd_kind = {.begin = begin, .watch = watch, .turn = turn, .asks = asks, .close = close_cluster};

// Finds out whether an image that was opened is what the disk wants. Returns NULL, or why it isn't.
static const char *fault_of(struct cluster *cluster) {
  uint64_t bytes = cluster->server.bytes;
  cluster->server.bytes = 0;
  const char *fault = server_length_fault(&cluster->server, bytes);
  cluster->server.bytes = bytes;
  cluster->server.zeroes = calls.rbd_aio_write_zeroes != NULL;
  return fault;
}

struct server *cluster_open(const struct image_name *name, char *why, size_t room) {
  int length = snprintf(why, room, "%s: ", name->text);
  char *text = why + (length < 0 ? 0 : (size_t)length < room ? (size_t)length : room - 1);
  size_t left = room - (size_t)(text - why);
  if (!load(text, left)) return NULL;
  struct cluster *cluster = calloc(1, sizeof *cluster);
  if (!cluster) return snprintf(text, left, "memory was refused"), NULL;
  server_begin(&cluster->server, &rbd_kind);
  cluster->event = eventfd(0, EFD_CLOEXEC | EFD_NONBLOCK);
  if (cluster->event < 0 || !keep_name(cluster, name)) return snprintf(text, left, "%s", strerror(errno)), let_go(cluster), NULL;
  if (!do_within(cluster, open_image, OPENING, true)) return snprintf(text, left, "the cluster doesn't answer"), NULL;
  const char *fault = cluster->error ? NULL : fault_of(cluster);
  cluster->server.is_there = !cluster->error && !fault;
  if (cluster->server.is_there) return &cluster->server;
  if (fault) snprintf(text, left, "%s", fault);
  else snprintf(text, left, "%s: %s", cluster->step, strerror(cluster->error));
  return server_close(&cluster->server), NULL;
}
#else
#include <stdio.h>

bool cluster_is_built(void) { return false; }

bool cluster_is_busy(void) { return false; }

struct server *cluster_open(const struct image_name *name, char *why, size_t room) {
  snprintf(why, room, "%s: this daemon loads no libraries", name->text);
  return NULL;
}
#endif
