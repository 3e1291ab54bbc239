// Serves a guest over a disk that is a file, by io_uring: one thread reads and writes the disk's pages while the device serves.
// The first read is of no file here, and so is the first write. They fail as those of any storage may, and are tried again.
#define _XOPEN_SOURCE 700
#include <errno.h>
#include <liburing.h>

#define EXAMPLE "backed_uring"
#include "backed.h"

// The first job is for writes. One batch is written at a time: an fsync tells an error once, whosever pages it lost.
enum { JOBS = 9, MOST = 64, ENTRIES = 128 };

// A page to read, or pages to write, which one fsync keeps. The ring has it while entries are left.
struct job {
  unsigned left;
  bool failed, has_paused;
  bool is_stale; // the page to read was given to write meanwhile
  unsigned count;
  uint64_t pages[MOST];
  uint8_t bytes[MOST][VSCSI_PAGE];
};

static struct job jobs[JOBS], *const writes = jobs;
static struct io_uring uring;
static int file;
static unsigned in_flight, reads_begun, writes_begun, reads_failed, writes_failed;

// Returns an entry of the ring, which has room for a page of each job, an fsync, pauses and the bell.
static struct io_uring_sqe *next_entry(void) {
  struct io_uring_sqe *entry = io_uring_get_sqe(&uring);
  if (!entry) exit(1);
  return entry;
}

// Counts an entry among those of a job.
static void add(struct job *job, struct io_uring_sqe *entry) {
  io_uring_sqe_set_data(entry, job);
  job->left++;
}

// Begins the read of a page.
static void begin_read(struct job *job) {
  struct io_uring_sqe *entry = next_entry();
  io_uring_prep_read(entry, reads_begun++ ? file : -1, job->bytes[0], (unsigned)size_of(job->pages[0]), job->pages[0] * VSCSI_PAGE);
  add(job, entry);
  in_flight++;
}

// Begins a chain of writes: one that fails or is short cancels those behind it, and the fsync.
static void begin_write(void) {
  for (unsigned i = 0; i < writes->count; i++) {
    struct io_uring_sqe *entry = next_entry();
    uint64_t page = writes->pages[i];
    io_uring_prep_write(entry, writes_begun++ ? file : -1, writes->bytes[i], (unsigned)size_of(page), page * VSCSI_PAGE);
    io_uring_sqe_set_flags(entry, IOSQE_IO_LINK);
    add(writes, entry);
  }
  struct io_uring_sqe *entry = next_entry();
  io_uring_prep_fsync(entry, file, IORING_FSYNC_DATASYNC);
  add(writes, entry);
  in_flight++;
}

// Lets some time pass before the device hears of a job that failed, since it is tried again at once.
static void pause_job(struct job *job) {
  static struct __kernel_timespec some = {.tv_nsec = 1000000};
  struct io_uring_sqe *entry = next_entry();
  io_uring_prep_timeout(entry, &some, 0, 0);
  add(job, entry);
  job->has_paused = true;
}

// Waits for the next ring of the bell.
static void hear(void) {
  static uint64_t count;
  struct io_uring_sqe *entry = next_entry();
  io_uring_prep_read(entry, bell, &count, sizeof count, 0);
  io_uring_sqe_set_data(entry, NULL);
}

// Tells the device of a job that is over.
static void tell(struct job *job) {
  for (unsigned i = 0; i < job->count; i++)
    if (job == writes) must("written", vscsi_live_written(&device, 0, 0, job->pages[i], !job->failed));
    else if (!job->failed && !job->is_stale) must("load", vscsi_live_load(&device, 0, 0, job->pages[i], job->bytes[i]));
    else must("load_failed", vscsi_live_load_failed(&device, 0, 0, job->pages[i]));
  *(job == writes ? &writes_failed : &reads_failed) += job->failed;
  in_flight--;
}

// Takes what the ring completed. Returns true if a job is over.
static bool take_completed(void) {
  struct io_uring_cqe *completed;
  bool any = false;
  for (; !io_uring_peek_cqe(&uring, &completed); io_uring_cqe_seen(&uring, completed)) {
    struct job *job = io_uring_cqe_get_data(completed);
    if (!job) {
      hear();
      continue;
    }
    job->failed |= job == writes ? completed->res < 0 : completed->res != (int)size_of(job->pages[0]);
    if (--job->left > 0) continue;
    if (job->failed && !job->has_paused) pause_job(job);
    else tell(job), any = true;
  }
  return any;
}

// Notes that what is read of a page may be older than what is written now.
static void outdate(uint64_t page) {
  for (struct job *job = jobs + 1; job < jobs + JOBS; job++) job->is_stale |= job->left && job->pages[0] == page;
}

// Begins the write of what changed, unless one is on its way.
static void begin_writes(void) {
  bool found = true;
  if (writes->left) return;
  for (writes->count = 0; found && writes->count < MOST; writes->count += found) {
    must("give", vscsi_live_give(&device, 0, 0, &writes->pages[writes->count], writes->bytes[writes->count], &found));
    if (found) outdate(writes->pages[writes->count]);
  }
  writes->failed = writes->has_paused = false;
  if (writes->count) begin_write();
}

// Begins the reads that the device wants, as many as there are jobs.
static void begin_reads(void) {
  bool found = true;
  for (struct job *job = jobs + 1; found && job < jobs + JOBS; job++) {
    if (job->left) continue;
    must("wanted", vscsi_live_wanted(&device, 0, 0, &job->pages[0], &found));
    job->count = 1, job->failed = job->has_paused = job->is_stale = false;
    if (found) begin_read(job);
  }
}

// One turn of the host's loop: waits for a kick or for the end of a job, and does what follows.
static void turn(void) {
  uint64_t before, waiting = UINT64_MAX;
  int begun = io_uring_submit_and_wait(&uring, 1);
  if (begun < 0 && begun != -EINTR) exit(1);
  if (take_completed()) must("wake", vscsi_live_wake(&device, NULL));
  do {
    serve();
    begin_writes();
    begin_reads();
    before = waiting;
    must("wake", vscsi_live_wake(&device, &waiting));
  } while (waiting > 0 && waiting < before);
  // nothing is on its way that commands could wait for: they were refused memory
  if (waiting > 0 && in_flight == 0) pause_shortly(), ring(bell);
}

int main(int argc, char **argv) {
  file = open_file(argc > 1 ? argv[1] : "/tmp");
  int refused = io_uring_queue_init(ENTRIES, &uring, 0);
  if (refused) return refused == -ENOSYS || refused == -EPERM ? 77 : 1; // 77: the kernel has no io_uring for us
  open_device();
  pthread_t guest = begin_guest();
  hear();

  while (has_guest()) turn();
  pthread_join(guest, NULL);
  printf("host: %u in flight, %u reads failed, %u writes failed\n", in_flight, reads_failed, writes_failed);
  printf("file: %u of %u pages as they were flushed\n", kept(file), (unsigned)PAGES);

  // before a device is closed, what was begun ends, and what is changed is written
  while (in_flight) turn();
  must("close", vscsi_live_close(&device, &disk, 1));
  must("disk", vscsi_disk_destroy(&disk));
  io_uring_queue_exit(&uring);
  return 0;
}
