// Serves a guest over a disk that an NBD server has, by libnbd: one thread reads and writes the disk's pages while the device serves.
// The first read counts as failed here, and so does the first batch of writes, as those of any storage may: each is tried again.
#define _XOPEN_SOURCE 700
#include <libnbd.h>
#include <poll.h>

#define EXAMPLE "backed_nbd"
#include "backed.h"

// The first job is for writes. They are one batch at a time, and a flush behind it.
enum { JOBS = 9, MOST = 64 };

// A page to read, or pages to write, which one flush keeps.
struct job {
  bool is_begun, is_flushing, failed;
  bool is_stale; // the page to read was given to write meanwhile
  unsigned left; // requests that the server didn't answer yet
  unsigned count;
  uint64_t pages[MOST];
  uint8_t bytes[MOST][VSCSI_PAGE];
};

static struct job jobs[JOBS], *const writes = jobs;
static struct nbd_handle *nbd;
static unsigned in_flight, reads_begun, writes_begun, reads_failed, writes_failed;

// Ends the example where a call of libnbd failed.
static void must_nbd(bool done) {
  if (done) return;
  fprintf(stderr, "backed_nbd: %s\n", nbd_get_error());
  exit(1);
}

// Notes that a request is over. libnbd calls it in the middle of its own work, so it calls nothing there.
static int note_over(void *at, int *error) {
  struct job *job = at;
  job->failed |= *error != 0;
  job->left--;
  return 1;
}

// Begins a job's reads, or its writes.
static void begin(struct job *job) {
  const nbd_completion_callback over = {.callback = note_over, .user_data = job};
  job->is_begun = true;
  in_flight++;
  for (unsigned i = 0; i < job->count; i++) {
    uint64_t at = job->pages[i] * VSCSI_PAGE;
    size_t size = size_of(job->pages[i]);
    job->left++;
    int64_t number = job == writes ? nbd_aio_pwrite(nbd, job->bytes[i], size, at, over, 0) : nbd_aio_pread(nbd, job->bytes[i], size, at, over, 0);
    must_nbd(number >= 0);
  }
}

// Has the server keep all writes that it answered.
static void begin_flush(void) {
  const nbd_completion_callback over = {.callback = note_over, .user_data = writes};
  writes->is_flushing = true;
  writes->left = 1;
  must_nbd(nbd_aio_flush(nbd, over, 0) >= 0);
}

// Tells the device of a job that is over.
static void tell(struct job *job) {
  // what failed is tried again at once, so some time passes before the device hears of it
  if (job->failed) pause_shortly();
  for (unsigned i = 0; i < job->count; i++)
    if (job == writes) must("written", vscsi_live_written(&device, 0, 0, job->pages[i], !job->failed));
    else if (!job->failed && !job->is_stale) must("load", vscsi_live_load(&device, 0, 0, job->pages[i], job->bytes[i]));
    else must("load_failed", vscsi_live_load_failed(&device, 0, 0, job->pages[i]));
  *(job == writes ? &writes_failed : &reads_failed) += job->failed;
  job->is_begun = job->is_flushing = false;
  in_flight--;
}

// Tells the device of the jobs that are over, once writes were flushed. Returns true if there was any.
static bool tell_over(void) {
  bool any = false;
  for (struct job *job = jobs; job < jobs + JOBS; job++) {
    if (!job->is_begun || job->left > 0) continue;
    if (job == writes && !job->failed && !job->is_flushing) begin_flush();
    else tell(job), any = true;
  }
  return any;
}

// Notes that what is read of a page may be older than what is written now.
static void outdate(uint64_t page) {
  for (struct job *job = jobs + 1; job < jobs + JOBS; job++) job->is_stale |= job->is_begun && job->pages[0] == page;
}

// Begins the write of what changed, unless one is on its way.
static void begin_writes(void) {
  bool found = true;
  if (writes->is_begun) return;
  for (writes->count = 0; found && writes->count < MOST; writes->count += found) {
    must("give", vscsi_live_give(&device, 0, 0, &writes->pages[writes->count], writes->bytes[writes->count], &found));
    if (found) outdate(writes->pages[writes->count]);
  }
  writes->failed = writes_begun == 0;
  if (writes->count) writes_begun++, begin(writes);
}

// Begins the reads that the device wants, as many as there are jobs.
static void begin_reads(void) {
  bool found = true;
  for (struct job *job = jobs + 1; found && job < jobs + JOBS; job++) {
    if (job->is_begun) continue;
    must("wanted", vscsi_live_wanted(&device, 0, 0, &job->pages[0], &found));
    job->count = 1, job->is_stale = false, job->failed = reads_begun == 0;
    if (found) reads_begun++, begin(job);
  }
}

// Waits for a kick, or for the server.
static void await_any(void) {
  unsigned direction = nbd_aio_get_direction(nbd);
  bool reads = direction & LIBNBD_AIO_DIRECTION_READ, sends = direction & LIBNBD_AIO_DIRECTION_WRITE;
  struct pollfd at[] = {{bell, POLLIN, 0}, {nbd_aio_get_fd(nbd), (short)((reads ? POLLIN : 0) | (sends ? POLLOUT : 0)), 0}};
  if (poll(at, 2, -1) < 0) exit(1);
  if (at[0].revents) await(bell);
  if (reads && at[1].revents & ~POLLOUT) must_nbd(nbd_aio_notify_read(nbd) == 0);
  else if (at[1].revents & POLLOUT) must_nbd(nbd_aio_notify_write(nbd) == 0);
}

// One turn of the host's loop: waits for a kick or for the server, and does what follows.
static void turn(void) {
  uint64_t before, waiting = UINT64_MAX;
  await_any();
  if (tell_over()) must("wake", vscsi_live_wake(&device, NULL));
  do {
    serve();
    begin_writes();
    begin_reads();
    before = waiting;
    must("wake", vscsi_live_wake(&device, &waiting));
  } while (waiting > 0 && waiting < before);
  // nothing is on its way that commands could wait for: they were refused memory
  if (waiting > 0 && in_flight == 0) pause_shortly(), ring(bell);
}

// Returns how many pages of the server's disk have what the guest flushed.
static unsigned kept_there(void) {
  uint8_t bytes[VSCSI_PAGE];
  unsigned count = 0;
  for (uint64_t page = 0; page < PAGES; page++) {
    must_nbd(nbd_pread(nbd, bytes, size_of(page), page * VSCSI_PAGE, 0) == 0);
    count += is_kept(page, bytes);
  }
  return count;
}

int main(int argc, char **argv) {
  must_nbd((nbd = nbd_create()));
  must_nbd(argc > 1 && nbd_connect_unix(nbd, argv[1]) == 0);
  if (nbd_get_size(nbd) != (int64_t)BLOCKS * VSCSI_BLOCK || nbd_can_flush(nbd) != 1) return 1;
  // what an earlier host wrote is kept from here on
  must_nbd(nbd_flush(nbd, 0) == 0);
  open_device();
  pthread_t guest = begin_guest();

  while (has_guest()) turn();
  pthread_join(guest, NULL);
  printf("host: %u in flight, %u reads failed, %u writes failed\n", in_flight, reads_failed, writes_failed);
  // before a device is closed, what was begun ends, and what is changed is written
  while (in_flight) turn();
  printf("server: %u of %u pages as they were flushed\n", kept_there(), (unsigned)PAGES);
  must("close", vscsi_live_close(&device, &disk, 1));
  must("disk", vscsi_disk_destroy(&disk));
  must_nbd(nbd_shutdown(nbd, 0) == 0);
  nbd_close(nbd);
  return 0;
}
