// Serves a guest over a disk that is a file. A small pool of threads reads and writes the disk's pages while the device serves.
// The first read fails here, and so does the first write, as those of any storage may: each is tried again.
#define _XOPEN_SOURCE 700

#define EXAMPLE "backed_file"
#include "backed.h"

// The first job is for writes. One batch is written at a time: fdatasync tells an error once, whosever pages it lost.
enum { THREADS = 4, JOBS = 9, MOST = 64 };

enum state { FREE, BEGUN, TAKEN, OVER };

// A page to read, or pages to write, which one fdatasync keeps. The pool has it while it is BEGUN or TAKEN.
struct job {
  enum state state;
  bool fails, done; // fails: has to fail, done: the storage did it
  bool is_stale;    // the page to read was given to write meanwhile
  unsigned count;
  uint64_t pages[MOST];
  uint8_t bytes[MOST][VSCSI_PAGE];
};

static struct job jobs[JOBS], *const writes = jobs;
static pthread_mutex_t lock = PTHREAD_MUTEX_INITIALIZER; // of the states, and of `ended`
static pthread_cond_t begun = PTHREAD_COND_INITIALIZER;
static bool ended;
static int file;

// The pool.

// Reads a page, or writes it. Returns true if all of it was moved.
static bool move_page(const struct job *job, uint64_t page, uint8_t *bytes) {
  off_t at = (off_t)(page * VSCSI_PAGE);
  ssize_t moved = job == writes ? pwrite(file, bytes, size_of(page), at) : pread(file, bytes, size_of(page), at);
  return moved == (ssize_t)size_of(page);
}

// Does a job. Returns true if each page was read, or is kept.
static bool run(struct job *job) {
  for (unsigned i = 0; i < job->count; i++)
    if (!move_page(job, job->pages[i], job->bytes[i])) return false;
  return job != writes || fdatasync(file) == 0;
}

// Returns a job in this state, if there is one. The caller has the lock.
static struct job *find(struct job *from, enum state state) {
  for (struct job *job = from; job < jobs + JOBS; job++)
    if (job->state == state) return job;
  return NULL;
}

// Does what the host begins, until it has ended: one of the pool's threads.
static void *work(void *unused) {
  pthread_mutex_lock(&lock);
  while (!ended) {
    struct job *job = find(jobs, BEGUN);
    if (!job) {
      pthread_cond_wait(&begun, &lock);
      continue;
    }
    job->state = TAKEN;
    pthread_mutex_unlock(&lock);
    job->done = !job->fails && run(job);
    // what failed is tried again at once, so some time passes before the host hears of it
    if (!job->done) pause_shortly();
    pthread_mutex_lock(&lock);
    job->state = OVER;
    ring(bell);
  }
  pthread_mutex_unlock(&lock);
  return unused;
}

// The host.

static unsigned in_flight, reads_begun, writes_begun, reads_failed, writes_failed;

// Returns a job in this state, if there is one.
static struct job *look(struct job *from, enum state state) {
  pthread_mutex_lock(&lock);
  struct job *job = find(from, state);
  pthread_mutex_unlock(&lock);
  return job;
}

// Hands a job to the pool, or takes it back.
static void set(struct job *job, enum state state) {
  pthread_mutex_lock(&lock);
  job->state = state;
  if (state == BEGUN) pthread_cond_signal(&begun);
  pthread_mutex_unlock(&lock);
  if (state == BEGUN) in_flight++;
  else in_flight--;
}

// Tells the device what is over. Returns true if anything was.
static bool tell_over(void) {
  bool any = false;
  for (struct job *job; (job = look(jobs, OVER)); any = true) {
    for (unsigned i = 0; i < job->count; i++)
      if (job == writes) must("written", vscsi_live_written(&device, 0, 0, job->pages[i], job->done));
      else if (job->done && !job->is_stale) must("load", vscsi_live_load(&device, 0, 0, job->pages[i], job->bytes[i]));
      else must("load_failed", vscsi_live_load_failed(&device, 0, 0, job->pages[i]));
    *(job == writes ? &writes_failed : &reads_failed) += !job->done;
    set(job, FREE);
  }
  return any;
}

// Notes that what is read of a page may be older than what is written now.
static void outdate(uint64_t page) {
  for (struct job *job = jobs + 1; job < jobs + JOBS; job++) job->is_stale |= job->count && job->pages[0] == page;
}

// Begins the write of what changed, unless one is on its way.
static void begin_writes(void) {
  bool found = true;
  if (look(jobs, FREE) != writes) return;
  for (writes->count = 0; found && writes->count < MOST; writes->count += found) {
    must("give", vscsi_live_give(&device, 0, 0, &writes->pages[writes->count], writes->bytes[writes->count], &found));
    if (found) outdate(writes->pages[writes->count]);
  }
  writes->fails = writes_begun == 0;
  if (writes->count) writes_begun++, set(writes, BEGUN);
}

// Begins the reads that the device wants, as many as there are jobs.
static void begin_reads(void) {
  bool found = true;
  for (struct job *job; found && (job = look(jobs + 1, FREE));) {
    must("wanted", vscsi_live_wanted(&device, 0, 0, &job->pages[0], &found));
    job->count = 1, job->is_stale = false, job->fails = reads_begun == 0;
    if (found) reads_begun++, set(job, BEGUN);
  }
}

// One turn of the host's loop: waits for a kick or for the end of a job, and does what follows.
static void turn(void) {
  uint64_t before, waiting = UINT64_MAX;
  await(bell);
  if (tell_over()) must("wake", vscsi_live_wake(&device, NULL));
  do {
    serve();
    begin_writes();
    begin_reads();
    before = waiting;
    must("wake", vscsi_live_wake(&device, &waiting));
  } while (waiting > 0 && waiting < before);
  // nothing is on its way that commands could wait for: they were refused memory
  if (waiting > 0 && in_flight == 0) pause_shortly(), ring(bell);
}

int main(int argc, char **argv) {
  pthread_t pool[THREADS];

  file = open_file(argc > 1 ? argv[1] : "/tmp");
  open_device();
  pthread_t guest = begin_guest();
  for (unsigned i = 0; i < THREADS; i++)
    if (pthread_create(&pool[i], NULL, work, NULL)) return 1;

  while (has_guest()) turn();
  pthread_join(guest, NULL);
  printf("host: %u in flight, %u reads failed, %u writes failed\n", in_flight, reads_failed, writes_failed);
  printf("file: %u of %u pages as they were flushed\n", kept(file), (unsigned)PAGES);

  // before a device is closed, what was begun ends, and what is changed is written
  while (in_flight) turn();
  must("close", vscsi_live_close(&device, &disk, 1));
  must("disk", vscsi_disk_destroy(&disk));
  pthread_mutex_lock(&lock);
  ended = true;
  pthread_cond_broadcast(&begun);
  pthread_mutex_unlock(&lock);
  for (unsigned i = 0; i < THREADS; i++) pthread_join(pool[i], NULL);
  return 0;
}
