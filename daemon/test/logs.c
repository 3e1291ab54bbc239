#include "logs.h"

#include <errno.h>
#include <fcntl.h>
#include <pthread.h>
#include <sched.h>
#include <stdatomic.h>
#include <string.h>
#include <sys/eventfd.h>
#include <sys/mman.h>
#include <unistd.h>

#include "../bytes.h"
#include "faults.h"
#include "front.h"
#include "load.h"

static const uint8_t ready[6] = {0}, read_10[] = {0x28, 0, 0, 0, 0, 3, 0, 0, 16, 0}, write_10[] = {0x2a, 0, 0, 0, 0, 3, 0, 0, 16, 0};

// PAGE_BYTES: of the guest's pages; LOG_SIZE: the bytes of a log, which has the guest's memory and more; ELSEWHERE: an address behind the
// memory, from which the elements of a used ring lie on the next page.
enum { PAGE_BYTES = 4096, LOG_SIZE = 0x30000, BYTES = 16 * 512, TURNS = 20, REQUESTS = 0x200000, RESPONSES = 0x200400 };
#define ELSEWHERE ((UINT64_C(5) << 30) + PAGE_BYTES - 8)
static const uint64_t IS_ON = F_LOG_ALL;

struct log {
  int file, event;
  uint8_t *bits;
};

static struct log make_log(void) {
  struct log log = {.file = memfd_create("log", MFD_CLOEXEC | MFD_ALLOW_SEALING), .event = eventfd(0, EFD_NONBLOCK | EFD_CLOEXEC)};
  MUST(!ftruncate(log.file, LOG_SIZE));
  log.bits = mmap(NULL, LOG_SIZE, PROT_READ | PROT_WRITE, MAP_SHARED, log.file, 0);
  MUST(log.bits != MAP_FAILED);
  return log;
}

static void end_log(struct log *log) {
  munmap(log->bits, LOG_SIZE);
  close(log->file);
  close(log->event);
}

static struct sent made(uint32_t request, size_t length, int fd) {
  struct sent sent = {.length = HEADER + length, .fds = {fd}, .fd_count = fd >= 0};
  little_put(sent.bytes, request, 4);
  little_put(sent.bytes + 4, VERSION | NEEDS_REPLY, 4);
  little_put(sent.bytes + 8, length, 4);
  return sent;
}

// Gives the log, or another part of a file in its place.
static bool give(struct front *front, int file, uint64_t size, uint64_t offset) {
  struct sent sent = made(SET_LOG_BASE, 16, file);
  little_put(sent.bytes + HEADER, size, 8);
  little_put(sent.bytes + HEADER + 8, offset, 8);
  return front_ask(front, &sent);
}

static void set_features(struct front *front, uint64_t log) {
  static struct sent set_up[64];
  front_set_up(front, set_up, 0);
  little_put(set_up[5].bytes + HEADER, little_get(set_up[5].bytes + HEADER, 8) | log, 8);
  MUST(little_get(set_up[5].bytes, 4) == SET_FEATURES && front_ask(front, &set_up[5]));
}

// Has writes to the device area of a queue logged where it lies, or as those from another address on, or not.
static void set_ring(struct front *front, unsigned q, bool is_logged, uint64_t elsewhere) {
  static struct sent set_up[64];
  size_t count = front_set_up(front, set_up, 0);
  for (size_t i = 0; i < count; i++) {
    uint8_t *at = set_up[i].bytes + HEADER;
    if (little_get(set_up[i].bytes, 4) != SET_VRING_ADDR || little_get(at, 4) != q) continue;
    little_put(at + 4, is_logged, 4);
    little_put(at + 32, elsewhere ? elsewhere : guest_of(front, place_of(q, 2)), 8);
    MUST(front_ask(front, &set_up[i]));
  }
}

static void begin_log(struct front *front, const struct log *log) {
  struct sent event = made(SET_LOG_FD, 0, log->event);
  MUST(front_ask(front, &event) && give(front, log->file, LOG_SIZE, 0));
  set_features(front, IS_ON);
  for (unsigned q = 0; q < QUEUES; q++) set_ring(front, q, true, 0);
}

static bool has_bit(const struct log *log, uint64_t guest) {
  uint64_t page = guest / PAGE_BYTES;
  return __atomic_load_n(&log->bits[page / 8], __ATOMIC_ACQUIRE) >> page % 8 & 1;
}

static void put_bit(uint8_t *bits, uint64_t guest) { bits[guest / PAGE_BYTES / 8] |= (uint8_t)(1 << guest / PAGE_BYTES % 8); }

static uint64_t data_of(const struct front *front) { return front->way.far ? HALF + 0x1400 : HALF - 0x1400; }

// Returns whether the log has all pages that a command of a queue wrote, and none besides, and takes all bits away.
static bool is_exact(const struct front *front, struct log *log, unsigned q, uint32_t in, uint64_t elsewhere) {
  static uint8_t must[LOG_SIZE], may[LOG_SIZE];
  memset(must, 0, sizeof must);
  put_bit(must, guest_of(front, RESPONSES + 0x1000 * (uint64_t)q));
  for (uint32_t i = 0; i < in; i += 512) put_bit(must, guest_of(front, data_of(front) + i));
  if (in) put_bit(must, guest_of(front, data_of(front) + in - 1));
  put_bit(must, guest_of(front, place_of(q, front->way.packed ? 0 : 2)));
  uint64_t element = elsewhere + 4 + 8 * (uint64_t)((uint16_t)(front->queues[q].seen - 1) % front->size);
  if (elsewhere && !front->way.packed) put_bit(must, elsewhere + 2);
  if (elsewhere && !front->way.packed) put_bit(must, element + 7);
  memcpy(may, must, sizeof may);
  put_bit(may, guest_of(front, place_of(q, 2)));
  if (elsewhere) put_bit(may, elsewhere);
  if (elsewhere) put_bit(may, element);
  if (elsewhere && front->way.event_index) put_bit(may, elsewhere + 4 + 8 * (uint64_t)front->size);
  bool exact = true;
  for (size_t i = 0; i < LOG_SIZE; i++) exact = exact && !(must[i] & ~log->bits[i]) && !(log->bits[i] & ~may[i]);
  memset(log->bits, 0, LOG_SIZE);
  return exact;
}

// A thread that looks at the log as soon as it sees an answer.
struct watcher {
  struct front *front;
  struct log *log;
  atomic_uint asked, seen;
};

static bool is_answered(const struct front *front, unsigned q, uint16_t before) {
  const struct driver_queue *queue = &front->queues[q];
  const uint8_t *at = front->memory + (front->way.packed ? place_of(q, 0) + 16 * (uint64_t)before + 14 : place_of(q, 2) + 2);
  uint16_t now = __atomic_load_n((const uint16_t *)(const void *)at, __ATOMIC_ACQUIRE);
  if (!front->way.packed) return now != before;
  return !(now & FLAG_AVAILABLE) != queue->seen_wrap && !(now & FLAG_USED) != queue->seen_wrap;
}

static void *watch(void *its) {
  struct watcher *watcher = its;
  for (unsigned turn = 1; turn <= TURNS; turn++) {
    const struct front *front = watcher->front;
    while (atomic_load(&watcher->asked) < turn) sched_yield();
    uint16_t before = front->queues[2].seen;
    while (!is_answered(front, 2, before)) sched_yield();
    MUST(has_bit(watcher->log, guest_of(front, RESPONSES + 0x2000)));
    MUST(has_bit(watcher->log, guest_of(front, data_of(front))));
    MUST(has_bit(watcher->log, guest_of(front, data_of(front) + BYTES - 1)));
    atomic_store(&watcher->seen, turn);
  }
  return NULL;
}

// Reads sixteen blocks on queue 2, whose answer another thread waits for.
static void read_watched(struct front *front, struct watcher *watcher, unsigned turn) {
  const uint64_t request = REQUESTS + 0x2000, answer = RESPONSES + 0x2000;
  const struct part parts[] = {{request, HEAD, false}, {answer, RESPONSE, true}, {data_of(front), BYTES, true}};
  uint32_t used;
  put_request(front, request, read_10, sizeof read_10);
  driver_put(front, 2, parts, 3);
  atomic_store(&watcher->asked, turn);
  driver_kick(front, 2);
  pump(front);
  while (atomic_load(&watcher->seen) < turn) sched_yield();
  MUST(front->alive && driver_next(front, 2, 3, &used) && used == RESPONSE + BYTES);
}

static void watch_answers(struct front *front, struct log *log) {
  struct watcher watcher = {.front = front, .log = log};
  pthread_t thread;
  MUST(!pthread_create(&thread, NULL, watch, &watcher));
  for (unsigned turn = 1; turn <= TURNS; turn++) {
    read_watched(front, &watcher, turn);
    MUST(is_exact(front, log, 2, BYTES, 0));
  }
  MUST(!pthread_join(thread, NULL));
}

static void begin(struct front *front, struct disks *disks, unsigned number, bool on_file) {
  char why[200];
  struct way way = way_of(number);
  // Where rings are polled, when drivers are asked again depends on the time, and so do the pages that this is written to.
  way.polling.most = 0;
  memset(disks, 0, sizeof *disks);
  if (on_file) load_make(disks, "1M", "");
  else MUST(disks_add(disks, "0:0=1M", why, sizeof why));
  front_begin(front, disks, way);
  front_agree(front);
  // Behind this one drivers are asked to notify by nobody but of queues that were kicked.
  MUST(command(front, 2, ready, sizeof ready, NULL, 0, NULL, 0) == 0);
}

static void end(struct front *front, struct disks *disks, bool on_file) {
  if (on_file) {
    load_end(front, disks);
    return;
  }
  front_end(front);
  disks_close(disks);
}

void test_logged(void) {
  for (unsigned number = 0; number < 2 * WAYS; number++) {
    bool on_file = number >= WAYS;
    struct disks disks;
    struct front front;
    struct log log = make_log();
    uint8_t data[BYTES];
    uint64_t told;
    memset(data, 0x5a, sizeof data);
    begin(&front, &disks, number % WAYS, on_file);
    begin_log(&front, &log);
    MUST(command(&front, 2, ready, sizeof ready, NULL, 0, NULL, 0) == 0 && is_exact(&front, &log, 2, 0, 0));
    MUST(read(log.event, &told, sizeof told) == sizeof told);
    MUST(command(&front, 3, write_10, sizeof write_10, data, BYTES, NULL, 0) == 0 && is_exact(&front, &log, 3, 0, 0));
    MUST(command(&front, 4, read_10, sizeof read_10, NULL, 0, data, BYTES) == 0 && is_exact(&front, &log, 4, BYTES, 0));
    watch_answers(&front, &log);
    end(&front, &disks, on_file);
    end_log(&log);
  }
}

void test_logged_elsewhere(void) {
  for (unsigned number = 0; number < 2 * WAYS; number++) {
    bool on_file = number >= WAYS;
    struct disks disks;
    struct front front;
    struct log log = make_log();
    uint8_t data[BYTES];
    begin(&front, &disks, number % WAYS, on_file);
    begin_log(&front, &log);
    set_ring(&front, 3, true, ELSEWHERE);
    for (unsigned i = 0; i < 18; i++) {
      MUST(command(&front, 3, read_10, sizeof read_10, NULL, 0, data, BYTES) == 0 && is_exact(&front, &log, 3, BYTES, ELSEWHERE));
      MUST(command(&front, 2, ready, sizeof ready, NULL, 0, NULL, 0) == 0 && is_exact(&front, &log, 2, 0, 0));
    }
    // Behind the log's end, and behind the end of all addresses.
    set_ring(&front, 3, true, (uint64_t)LOG_SIZE * 8 * PAGE_BYTES);
    MUST(command(&front, 3, ready, sizeof ready, NULL, 0, NULL, 0) == 0 && is_exact(&front, &log, 3, 0, 0));
    set_ring(&front, 3, true, UINT64_MAX - PAGE_BYTES);
    MUST(command(&front, 3, ready, sizeof ready, NULL, 0, NULL, 0) == 0 && is_exact(&front, &log, 3, 0, 0));
    end(&front, &disks, on_file);
    end_log(&log);
  }
}

static bool is_blank(const struct log *log) { return !log->bits[0] && !memcmp(log->bits, log->bits + 1, LOG_SIZE - 1); }

void test_logs_change(void) {
  for (unsigned number = 0; number < 2 * WAYS; number++) {
    bool on_file = number >= WAYS;
    struct disks disks;
    struct front front;
    struct log log = make_log(), other = make_log();
    begin(&front, &disks, number % WAYS, on_file);
    begin_log(&front, &log);
    MUST(command(&front, 2, ready, sizeof ready, NULL, 0, NULL, 0) == 0 && is_exact(&front, &log, 2, 0, 0));
    MUST(give(&front, other.file, LOG_SIZE, 0));
    MUST(command(&front, 2, ready, sizeof ready, NULL, 0, NULL, 0) == 0 && is_exact(&front, &other, 2, 0, 0) && is_blank(&log));
    set_features(&front, 0);
    for (unsigned q = 0; q < QUEUES; q++) set_ring(&front, q, false, 0);
    MUST(command(&front, 2, ready, sizeof ready, NULL, 0, NULL, 0) == 0 && is_blank(&log) && is_blank(&other));
    set_features(&front, IS_ON);
    MUST(command(&front, 2, ready, sizeof ready, NULL, 0, NULL, 0) == 0 && is_exact(&front, &other, 2, 0, 0));
    // The rings go on elsewhere: the log is the session's.
    for (unsigned q = 0; q < QUEUES; q++) front_stop(&front, q);
    memset(front.memory, 0, GUEST_BYTES);
    for (unsigned q = 0; q < QUEUES; q++) front.queues[q] = (struct driver_queue){.next_wrap = true, .seen_wrap = true};
    front_agree(&front);
    set_features(&front, IS_ON);
    MUST(command(&front, 2, ready, sizeof ready, NULL, 0, NULL, 0) == 0);
    memset(other.bits, 0, LOG_SIZE);
    MUST(command(&front, 2, ready, sizeof ready, NULL, 0, NULL, 0) == 0 && is_exact(&front, &other, 2, 0, 0));
    end(&front, &disks, on_file);
    end_log(&log);
    end_log(&other);
  }
}

void test_logged_behind(void) {
  for (unsigned number = 0; number < WAYS; number++) {
    struct disks disks;
    struct front front;
    struct log log = make_log();
    load_make(&disks, "1G", "");
    load_begin(&front, &disks, number);
    put_write(&front, Q, 0, 0);
    driver_kick(&front, Q);
    MUST(await(&front, Q, 1, PATIENCE) == 1);
    begin_log(&front, &log);
    faults.write_error = ENOSPC;
    put_write(&front, Q, 1, 8);
    driver_kick(&front, Q);
    MUST(await_error(&front, Q));
    // The device has answered, and the front end has seen that. The driver hasn't.
    uint64_t place = place_of(Q, front.way.packed ? 0 : 2) + (front.way.packed ? 16 * (uint64_t)front.queues[Q].seen : 2);
    memset(log.bits, 0, LOG_SIZE);
    faults_clear();
    MUST(await(&front, Q, 1, PATIENCE) == 1 && has_bit(&log, guest_of(&front, place)));
    load_end(&front, &disks);
    end_log(&log);
  }
}

void test_wrong_logs(void) {
  static const struct {
    uint64_t size, offset;
    bool has_file;
  } tries[] = {{LOG_SIZE, 0, false}, {LOG_SIZE, 1, true}, {LOG_SIZE + 1, 0, true}, {0, 0, true},
               {LOG_SIZE, PAGE_BYTES, true}, {UINT64_MAX, PAGE_BYTES, true}, {LOG_SIZE, UINT64_MAX - 4095, true}};
  for (unsigned i = 0; i <= sizeof tries / sizeof *tries; i++) {
    struct disks disks;
    struct front front;
    struct log log = make_log();
    begin(&front, &disks, i, false);
    if (i < sizeof tries / sizeof *tries) {
      // QEMU waits for an answer, and looks at nothing that it says.
      MUST(!give(&front, tries[i].has_file ? log.file : -1, tries[i].size, tries[i].offset) && !front.alive);
    } else {
      MUST(!fcntl(log.file, F_ADD_SEALS, F_SEAL_SEAL));
      begin_log(&front, &log);
      MUST(!ftruncate(log.file, 0));
      MUST(command(&front, 2, ready, sizeof ready, NULL, 0, NULL, 0) != -1 || !front.alive);
      pump(&front);
      MUST(!front.alive && !ftruncate(log.file, LOG_SIZE));
    }
    end(&front, &disks, false);
    end_log(&log);
  }
}
