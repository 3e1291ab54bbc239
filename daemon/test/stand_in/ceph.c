// A stand-in for librados.so.2 and librbd.so.1, of which the tests make both: the calls that the daemon makes of them, over plain files. It
// shows that the daemon does what their headers say, and nothing of a cluster.
//
// The file of the configuration has the path of a folder, where POOL or POOL/NAMESPACE is a folder and IMAGE a file. Beside it, IMAGE.faults
// says what goes wrong, at any time, and counts what was asked; and with IMAGE.lock the image has an exclusive lock. In the folder `silent`
// has the cluster not answer as long as it is there, `down` refuses connections, and `user` has the name of the user alone who may connect.
//
// Requests are done by a few threads, in any order, each after a while.
#define _GNU_SOURCE
#include <errno.h>
#include <fcntl.h>
#include <limits.h>
#include <pthread.h>
#include <stdatomic.h>
#include <stdbool.h>
#include <stdint.h>
#include <stdio.h>
#include <stdlib.h>
#include <string.h>
#include <sys/file.h>
#include <sys/mman.h>
#include <sys/stat.h>
#include <unistd.h>

enum { THREADS = 5, PAGE = 4096, MOST_JOBS = 1 << 16 };
enum job_kind { READ, WRITE, ZERO, FLUSH, KINDS };

// IMAGE.faults: by which error number each kind fails, or 0; a bit for each kind that isn't done meanwhile; how many microseconds one takes
// at most; whether what is written stands in memory alone until a flush; whether each callback comes on a thread of its own; and how many of
// each kind were asked for, and done.
struct faults {
  _Atomic uint32_t errors[KINDS], holds, delay, forgets, threads, asked[KINDS], done[KINDS];
};

typedef void completion_callback(void *completion, void *at);

struct completion {
  void *at;
  completion_callback *over;
  ssize_t result;
  atomic_uint holders;
};

struct job {
  enum job_kind kind;
  uint64_t at;
  size_t count;
  char *into;
  const char *from;
  struct completion *completion;
};

struct image {
  int file, lock;
  uint64_t bytes;
  struct faults *faults, none;
  pthread_mutex_t mutex;
  pthread_cond_t comes;
  struct job jobs[MOST_JOBS];
  size_t count;
  bool ends;
  pthread_t threads[THREADS];
  pthread_mutex_t data;  // of `pages`: what was written since a flush, where that stands in memory
  char **pages;
};

struct context {
  char path[PATH_MAX];
};

struct cluster {
  char folder[PATH_MAX], user[64];
};

#define CEPH __attribute__((visibility("default")))

static bool is_there(const char *folder, const char *name) {
  char path[PATH_MAX + 64];
  snprintf(path, sizeof path, "%s/%s", folder, name);
  return !access(path, F_OK);
}

// Reads the first line of a file. Returns false where there is none.
static bool read_line(const char *path, char *into, int room) {
  FILE *file = fopen(path, "re");
  bool has = file && fgets(into, room, file);
  if (file) fclose(file);
  if (has) into[strcspn(into, "\n")] = 0;
  return has;
}

CEPH int rados_create(void **cluster, const char *user) {
  struct cluster *made = calloc(1, sizeof *made);
  if (!made) return -ENOMEM;
  snprintf(made->user, sizeof made->user, "%s", user ? user : "admin");
  *cluster = made;
  return 0;
}

CEPH int rados_conf_read_file(void *cluster, const char *path) {
  struct cluster *its = cluster;
  if (!path) path = getenv("CEPH_CONF");
  return path && read_line(path, its->folder, sizeof its->folder) ? 0 : -ENOENT;
}

CEPH int rados_conf_set(void *cluster, const char *option, const char *value) {
  (void)cluster;
  bool is_known = (!strcmp(option, "rbd_cache") && !strcmp(value, "false")) || !strcmp(option, "client_mount_timeout");
  return is_known ? 0 : -ENOENT;
}

CEPH int rados_connect(void *cluster) {
  const struct cluster *its = cluster;
  char path[PATH_MAX + 64], user[64];
  while (*its->folder && is_there(its->folder, "silent")) usleep(10000);
  if (!*its->folder || is_there(its->folder, "down")) return -ETIMEDOUT;
  snprintf(path, sizeof path, "%s/user", its->folder);
  return read_line(path, user, sizeof user) && strcmp(user, its->user) ? -EACCES : 0;
}

CEPH void rados_shutdown(void *cluster) { free(cluster); }

static bool is_folder(const char *path) {
  struct stat stat_;
  return !stat(path, &stat_) && S_ISDIR(stat_.st_mode);
}

CEPH int rados_ioctx_create(void *cluster, const char *pool, void **context) {
  const struct cluster *its = cluster;
  struct context *made = calloc(1, sizeof *made);
  if (!made) return -ENOMEM;
  int length = snprintf(made->path, sizeof made->path, "%s/%s", its->folder, pool);
  if (length < 0 || (size_t)length >= sizeof made->path || !is_folder(made->path)) return free(made), -ENOENT;
  *context = made;
  return 0;
}

CEPH void rados_ioctx_set_namespace(void *context, const char *space) {
  struct context *its = context;
  size_t length = strlen(its->path);
  snprintf(its->path + length, sizeof its->path - length, "/%s", space);
}

CEPH void rados_ioctx_destroy(void *context) { free(context); }

// Finds a file of an image's. Returns below 0 where it isn't there.
static int open_beside(const struct context *context, const char *name, const char *ending, int how) {
  char path[2 * PATH_MAX];
  snprintf(path, sizeof path, "%s/%s%s", context->path, name, ending);
  return open(path, how | O_CLOEXEC);
}

static bool holds(const struct image *image, enum job_kind kind) { return image->faults->holds >> kind & 1; }

static bool move(const struct image *image, uint64_t at, size_t count, char *into, const char *from) {
  for (size_t done = 0; done < count;) {
    ssize_t here = into ? pread(image->file, into + done, count - done, (off_t)(at + done)) : pwrite(image->file, from + done, count - done, (off_t)(at + done));
    if (here <= 0) return false;
    done += (size_t)here;
  }
  return true;
}

static size_t page_bytes(const struct image *image, size_t page) {
  return image->bytes - page * PAGE < PAGE ? (size_t)(image->bytes - page * PAGE) : PAGE;
}

// Moves bytes of pages that stand in memory, where those that are written have to, or of the file.
static bool move_pages(struct image *image, uint64_t at, size_t count, char *into, const char *from, bool forgets) {
  for (size_t done = 0, here; done < count; done += here) {
    size_t page = (size_t)((at + done) / PAGE), in_page = (size_t)((at + done) % PAGE);
    here = PAGE - in_page < count - done ? PAGE - in_page : count - done;
    char **its = &image->pages[page];
    if (!*its && from && forgets) {
      *its = malloc(PAGE);
      if (!*its || !move(image, page * PAGE, page_bytes(image, page), *its, NULL)) return false;
    }
    if (*its && from) memcpy(*its + in_page, from + done, here);
    else if (*its) memcpy(into + done, *its + in_page, here);
    else if (!move(image, at + done, here, into ? into + done : NULL, from ? from + done : NULL)) return false;
  }
  return true;
}

// Has the file have what stands in memory, or loses that.
static bool flush(struct image *image, bool keeps) {
  bool well = true;
  for (size_t page = 0; page * PAGE < image->bytes; page++) {
    if (!image->pages[page]) continue;
    if (keeps) well = move(image, page * PAGE, page_bytes(image, page), NULL, image->pages[page]) && well;
    free(image->pages[page]);
    image->pages[page] = NULL;
  }
  return well && !fdatasync(image->file);
}

static ssize_t act(struct image *image, const struct job *job) {
  static const char zeros[1 << 20];
  int error = (int)image->faults->errors[job->kind];
  size_t left = job->at < image->bytes ? (size_t)(image->bytes - job->at) : 0, count = job->count < left ? job->count : left;
  if (job->kind == FLUSH) return flush(image, !error) && !error ? 0 : error ? -error : -EIO;
  if (job->kind == READ) return error ? -error : move_pages(image, job->at, count, job->into, NULL, false) ? (ssize_t)count : -EIO;
  if (count < job->count || count > sizeof zeros) return -EINVAL;
  // What fails may be done in part.
  if (error) count /= 2;
  bool well = move_pages(image, job->at, count, NULL, job->kind == ZERO ? zeros : job->from, image->faults->forgets);
  return error ? -error : well ? 0 : -EIO;
}

static void release(struct completion *completion) {
  if (atomic_fetch_sub(&completion->holders, 1) == 1) free(completion);
}

static void *call(void *at) {
  struct completion *completion = at;
  completion->over(completion, completion->at);
  release(completion);
  return NULL;
}

static void finish(struct image *image, const struct job *job, unsigned *seed) {
  pthread_t thread;
  uint32_t delay = image->faults->delay;
  if (delay) usleep((unsigned)rand_r(seed) % delay);
  pthread_mutex_lock(&image->data);
  job->completion->result = act(image, job);
  pthread_mutex_unlock(&image->data);
  image->faults->done[job->kind]++;
  if (!image->faults->threads || pthread_create(&thread, NULL, call, job->completion)) call(job->completion);
  else pthread_join(thread, NULL);
}

// Takes any request that isn't held. Returns false where there is none.
static bool take_any(struct image *image, struct job *job, unsigned *seed) {
  size_t first = image->count ? (size_t)rand_r(seed) % image->count : 0;
  for (size_t i = 0; i < image->count; i++) {
    size_t which = (first + i) % image->count;
    if (holds(image, image->jobs[which].kind)) continue;
    *job = image->jobs[which];
    image->jobs[which] = image->jobs[--image->count];
    return true;
  }
  return false;
}

// Waits for a request. Returns false where the image is closed and none is left.
static bool take(struct image *image, struct job *job, unsigned *seed) {
  bool taken = false;
  pthread_mutex_lock(&image->mutex);
  while (!(taken = take_any(image, job, seed)) && !(image->ends && !image->count)) {
    if (!image->count) pthread_cond_wait(&image->comes, &image->mutex);
    pthread_mutex_unlock(&image->mutex);
    usleep(500);
    pthread_mutex_lock(&image->mutex);
  }
  pthread_mutex_unlock(&image->mutex);
  return taken;
}

static void *work(void *at) {
  struct image *image = at;
  unsigned seed = (unsigned)getpid() + (unsigned)(uintptr_t)&seed;
  for (struct job job; take(image, &job, &seed);) finish(image, &job, &seed);
  return NULL;
}

static int open_image(void *context, const char *name, void **image, const char *snapshot, int how) {
  struct stat stat;
  struct image *made = calloc(1, sizeof *made);
  if (!made || snapshot) return free(made), -EINVAL;
  made->file = open_beside(context, name, "", how);
  if (made->file < 0 || fstat(made->file, &stat)) return free(made), -ENOENT;
  made->lock = open_beside(context, name, ".lock", O_RDWR);
  made->bytes = (uint64_t)stat.st_size;
  made->pages = calloc((size_t)(made->bytes / PAGE + 1), sizeof *made->pages);
  int file = open_beside(context, name, ".faults", O_RDWR);
  void *faults = file < 0 ? MAP_FAILED : mmap(NULL, sizeof *made->faults, PROT_READ | PROT_WRITE, MAP_SHARED, file, 0);
  made->faults = faults == MAP_FAILED ? &made->none : faults;
  if (file >= 0) close(file);
  pthread_mutex_init(&made->mutex, NULL);
  pthread_mutex_init(&made->data, NULL);
  pthread_cond_init(&made->comes, NULL);
  for (size_t i = 0; i < THREADS; i++) pthread_create(&made->threads[i], NULL, work, made);
  *image = made;
  return 0;
}

CEPH int rbd_open(void *context, const char *name, void **image, const char *snapshot) {
  return open_image(context, name, image, snapshot, O_RDWR);
}

CEPH int rbd_open_read_only(void *context, const char *name, void **image, const char *snapshot) {
  return open_image(context, name, image, snapshot, O_RDONLY);
}

CEPH int rbd_close(void *image) {
  struct image *its = image;
  pthread_mutex_lock(&its->mutex);
  its->ends = true;
  pthread_cond_broadcast(&its->comes);
  pthread_mutex_unlock(&its->mutex);
  for (size_t i = 0; i < THREADS; i++) pthread_join(its->threads[i], NULL);
  flush(its, true);
  close(its->file);
  if (its->lock >= 0) close(its->lock);
  if (its->faults != &its->none) munmap(its->faults, sizeof *its->faults);
  free(its->pages);
  free(its);
  return 0;
}

CEPH int rbd_get_size(void *image, uint64_t *bytes) {
  *bytes = ((struct image *)image)->bytes;
  return 0;
}

CEPH int rbd_get_features(void *image, uint64_t *features) {
  *features = ((struct image *)image)->lock < 0 ? 1 : 1 | 1 << 2;
  return 0;
}

CEPH int rbd_lock_acquire(void *image, int mode) { return mode || flock(((struct image *)image)->lock, LOCK_EX | LOCK_NB) ? -EROFS : 0; }

CEPH int rbd_aio_create_completion(void *at, completion_callback *over, void **completion) {
  struct completion *made = calloc(1, sizeof *made);
  if (!made) return -ENOMEM;
  made->at = at;
  made->over = over;
  atomic_store(&made->holders, 2);
  *completion = made;
  return 0;
}

CEPH void rbd_aio_release(void *completion) { release(completion); }

CEPH ssize_t rbd_aio_get_return_value(void *completion) { return ((struct completion *)completion)->result; }

static int ask(struct image *image, struct job job) {
  image->faults->asked[job.kind]++;
  pthread_mutex_lock(&image->mutex);
  bool is_full = image->count == MOST_JOBS;
  if (!is_full) image->jobs[image->count++] = job;
  pthread_cond_signal(&image->comes);
  pthread_mutex_unlock(&image->mutex);
  if (is_full) release(job.completion);
  return is_full ? -EBUSY : 0;
}

CEPH int rbd_aio_read(void *image, uint64_t at, size_t count, char *into, void *completion) {
  return ask(image, (struct job){.kind = READ, .at = at, .count = count, .into = into, .completion = completion});
}

CEPH int rbd_aio_write(void *image, uint64_t at, size_t count, const char *from, void *completion) {
  return ask(image, (struct job){.kind = WRITE, .at = at, .count = count, .from = from, .completion = completion});
}

CEPH int rbd_aio_write_zeroes(void *image, uint64_t at, size_t count, void *completion, int how, int flags) {
  if (how || flags) return release(completion), -EINVAL;
  return ask(image, (struct job){.kind = ZERO, .at = at, .count = count, .completion = completion});
}

CEPH int rbd_aio_flush(void *image, void *completion) { return ask(image, (struct job){.kind = FLUSH, .completion = completion}); }
