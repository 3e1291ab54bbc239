#include "backed.h"

#include <errno.h>
#include <fcntl.h>
#include <limits.h>
#include <stdio.h>
#include <stdlib.h>
#include <string.h>
#include <sys/stat.h>
#include <unistd.h>

#include "../bytes.h"
#include "../clock.h"
#include "../paging.h"
#include "../storage.h"
#include "faults.h"
#include "load.h"

// Pages of a disk, and of one that has more than may be in memory; milliseconds in which nothing comes; and how many commands of a unit
// may wait at once: with more one is answered TASK SET FULL.
enum { ALL_PAGES = 32768, MORE_PAGES = VSCSI_LEAST_PAGES + 600, NOTHING = 80, STEP = 7919, AT_ONCE = 60 };

static const uint8_t sync_10[10] = {0x35}, ready[6] = {0};
static const char cached[] = ",write-cache=on,cache-size=33M", stopping[] = ",write-cache=on,cache-size=33M,rerror=stop";
static const char reporting[] = ",write-cache=on,cache-size=33M,werror=report";

static bool is_left_out(void) {
  if (!storage_is_built()) printf("left out: no liburing-dev\n");
  return !storage_is_built();
}

// How far pages lie apart that follow one another in a test.
static unsigned step = STEP;

static uint32_t page_at(unsigned i) { return (uint32_t)((uint64_t)i * step % ALL_PAGES); }

// Fills a page so that its number and its version are known by each of its parts.
static void fill(uint8_t *at, uint32_t page, unsigned version) {
  for (size_t i = 0; i < BUFFER; i += 4) little_put(at + i, page * 0x9e3779b1u + version * 0x85ebca6bu + i, 4);
}

static bool is_filled(const uint8_t *at, uint32_t page, unsigned version) {
  uint8_t wanted[BUFFER];
  fill(wanted, page, version);
  return !memcmp(at, wanted, BUFFER);
}

static void put_page(struct front *front, unsigned q, unsigned i, uint32_t page, unsigned version) {
  put_write(front, q, i, page * 8);
  fill(buffer_of(front, i), page, version);
}

// Writes so many pages of a disk, as many at once as there may be, from one on. Returns whether each is answered GOOD.
static bool write_from(struct front *front, unsigned first, unsigned count, unsigned version) {
  bool good = true;
  for (unsigned done = first; good && done < first + count;) {
    unsigned here = first + count - done < AT_ONCE ? first + count - done : AT_ONCE;
    for (unsigned i = 0; i < here; i++) put_page(front, Q, i, page_at(done + i), version);
    driver_kick(front, Q);
    good = await(front, Q, here, PATIENCE) == here;
    for (unsigned i = 0; i < here; i++) good = good && is_good(front, i);
    done += here;
  }
  return good;
}

static bool write_pages(struct front *front, unsigned count, unsigned version) { return write_from(front, 0, count, version); }

static bool read_from(struct front *front, unsigned first, unsigned count, unsigned version) {
  bool good = true;
  for (unsigned done = first; good && done < first + count;) {
    unsigned here = first + count - done < AT_ONCE ? first + count - done : AT_ONCE;
    for (unsigned i = 0; i < here; i++) put_read_of(front, 0, Q, i, page_at(done + i) * 8);
    driver_kick(front, Q);
    good = await(front, Q, here, PATIENCE) == here;
    for (unsigned i = 0; i < here; i++) good = good && is_good(front, i) && is_filled(buffer_of(front, i), page_at(done + i), version);
    done += here;
  }
  return good;
}

static bool read_pages(struct front *front, unsigned count, unsigned version) { return read_from(front, 0, count, version); }

static void put_sync(struct front *front, unsigned q, unsigned i) {
  put(front, q, i, sync_10, sizeof sync_10, 0);
  driver_kick(front, q);
}

static bool sync_disk(struct front *front) {
  put_sync(front, Q, 0);
  return await(front, Q, 1, PATIENCE) == 1 && is_good(front, 0);
}

static bool is_ready(struct front *front, unsigned q) {
  put(front, q, MANY, ready, sizeof ready, 0);
  driver_kick(front, q);
  return await(front, q, 1, PATIENCE) == 1 && is_good(front, MANY);
}

// Returns whether a file has so many pages.
static bool file_has(unsigned lun, unsigned count, unsigned version) {
  uint8_t found[BUFFER];
  int file = open(paths[lun], O_RDONLY | O_CLOEXEC);
  bool has = file >= 0;
  for (unsigned i = 0; has && i < count; i++)
    has = pread(file, found, BUFFER, (off_t)page_at(i) * BUFFER) == BUFFER && is_filled(found, page_at(i), version);
  close(file);
  return has;
}

static void begin_as(struct front *front, struct disks *disks, unsigned number, const char *words) {
  load_make(disks, "128M", words);
  load_begin(front, disks, number);
  MUST(front->session.backend.pages && !front->session.backend.keeps);
}

static void begin(struct front *front, struct disks *disks, unsigned number) { begin_as(front, disks, number, cached); }

// Has the next device begin with no page in memory.
static void forget(struct front *front, struct disks *disks, unsigned number) {
  char why[200];
  front_end(front);
  MUST(paging_finish(disks, why, sizeof why));
  store_drop(&disks->stores[0]);
  load_begin(front, disks, number);
}

void test_backed(void) {
  if (is_left_out()) return;
  for (unsigned number = 0; number < WAYS; number += 5) {
    struct disks disks;
    struct front front;
    begin(&front, &disks, number);
    MUST(write_pages(&front, MORE_PAGES, 1) && sync_disk(&front) && file_has(0, MORE_PAGES, 1));
    const struct paging *paging = disks.disks[0].paging;
    MUST(paging->counts.written >= MORE_PAGES && read_pages(&front, MORE_PAGES, 1) && paging->counts.read);
    forget(&front, &disks, number);
    MUST(read_pages(&front, 1000, 1) && write_pages(&front, 500, 2) && sync_disk(&front) && file_has(0, 500, 2));
    // Nothing is written for what changes nothing.
    uint64_t written = paging->counts.written;
    MUST(read_pages(&front, 500, 2) && sync_disk(&front) && paging->counts.written == written);
    load_end(&front, &disks);
  }
}

void test_backed_ends(void) {
  enum { LAST_BLOCK = 2048, WHOLE = (1 << 20) + 3 * DEVICE_BLOCK };
  if (is_left_out()) return;
  for (unsigned number = 0; number < WAYS; number += 3) {
    uint8_t write_10[10] = {0x2a, 0, 0, 0, 8, 0, 0, 0, 3, 0}, read_10[10] = {0x28, 0, 0, 0, 8, 0, 0, 0, 3, 0};
    struct disks disks;
    struct front front;
    struct stat stat;
    load_make(&disks, "1050112", cached);
    load_begin(&front, &disks, number);
    put(&front, Q, 0, write_10, sizeof write_10, 3 * DEVICE_BLOCK);
    fill(buffer_of(&front, 0), LAST_BLOCK, 3);
    driver_kick(&front, Q);
    MUST(await(&front, Q, 1, PATIENCE) == 1 && is_good(&front, 0) && sync_disk(&front));
    MUST(!lstat(paths[0], &stat) && stat.st_size == WHOLE);
    forget(&front, &disks, number);
    put_read_of(&front, 0, Q, 1, LAST_BLOCK);
    put_request(&front, (uint64_t)(answer_of(&front, 1) - front.memory) - 0x80, read_10, sizeof read_10);
    driver_kick(&front, Q);
    uint8_t wanted[BUFFER];
    fill(wanted, LAST_BLOCK, 3);
    MUST(await(&front, Q, 1, PATIENCE) == 1 && is_good(&front, 1) && !memcmp(buffer_of(&front, 1), wanted, 3 * DEVICE_BLOCK));
    load_end(&front, &disks);
  }
}

void test_backed_zeros(void) {
  if (is_left_out()) return;
  for (unsigned number = 0; number < 2 * WAYS; number += 3) {
    bool punches = number >= WAYS;
    struct disks disks;
    struct front front;
    struct stat full, zeros;
    load_make(&disks, "128M", punches ? ",write-cache=on,detect-zeroes=unmap" : cached);
    load_begin(&front, &disks, number % WAYS);
    MUST(write_pages(&front, MANY, 1) && sync_disk(&front) && !lstat(paths[0], &full) && full.st_blocks);
    for (unsigned i = 0; i < MANY; i++) {
      put_page(&front, Q, i, page_at(i), 1);
      memset(buffer_of(&front, i), 0, BUFFER);
    }
    driver_kick(&front, Q);
    MUST(await(&front, Q, MANY, PATIENCE) == MANY && sync_disk(&front) && !lstat(paths[0], &zeros));
    MUST(zeros.st_blocks == (punches ? 0 : full.st_blocks));
    for (unsigned i = 0; i < MANY; i++) MUST(has(i, (uint64_t)page_at(i) * 8, true));
    MUST(write_pages(&front, MANY, 2) && sync_disk(&front) && file_has(0, MANY, 2));
    load_end(&front, &disks);
  }
}

// Has no fault be there any more, and what was held back be over.
static void clear_faults(struct front *front) {
  faults_clear();
  session_kicked(&front->session, EVENT_STORAGE);
}

// Has the session go on for so many milliseconds.
static void go_on(struct front *front, unsigned milliseconds) {
  for (uint64_t until = clock_now() + milliseconds; clock_now() < until; usleep(500)) turn(front);
}

void test_backed_unread(void) {
  if (is_left_out()) return;
  for (unsigned number = 0; number < WAYS; number++) {
    struct disks disks;
    struct front front;
    begin_as(&front, &disks, number, stopping);
    MUST(write_pages(&front, MANY, 1));
    forget(&front, &disks, number);
    faults.read_error = EIO;
    for (unsigned i = 0; i < 20; i++) put_read_of(&front, 0, Q, i, page_at(i) * 8);
    driver_kick(&front, Q);
    MUST(await(&front, Q, 1, NOTHING) == 0 && disks.disks[0].paging->reading.error == EIO && front.alive);
    // Others go on: one that needs no page, and WRITEs of whole pages.
    MUST(is_ready(&front, 3));
    for (unsigned i = 20; i < 30; i++) put_page(&front, 3, i, page_at(i + MANY), 1);
    driver_kick(&front, 3);
    MUST(await(&front, 3, 10, PATIENCE) == 10 && !disks.disks[0].error);
    faults_clear();
    MUST(await(&front, Q, 20, PATIENCE) == 20 && !disks.disks[0].paging->reading.error);
    for (unsigned i = 0; i < 20; i++) MUST(is_good(&front, i) && is_filled(buffer_of(&front, i), page_at(i), 1));
    // Beside one page that can't be read others are, though not at once, and that is said once.
    faults.read_error = EIO;
    faults.bad_page = page_at(40);
    for (unsigned i = 35; i < 45; i++) put_read_of(&front, 0, Q, i, page_at(i) * 8);
    driver_kick(&front, Q);
    MUST(await(&front, Q, 9, PATIENCE) == 9 && await(&front, Q, 1, NOTHING) == 0 && disks.disks[0].paging->reading.error);
    clear_faults(&front);
    MUST(await(&front, Q, 1, PATIENCE) == 1 && is_filled(buffer_of(&front, 40), page_at(40), 1) && !disks.disks[0].paging->reading.error);
    load_end(&front, &disks);
  }
}

// Returns whether a request ended with MEDIUM ERROR and this additional sense code, and the block that it tells.
static bool is_medium_error(const struct front *front, unsigned i, uint8_t code, uint64_t *block) {
  const uint8_t *answer = answer_of(front, i), *sense = answer + 12;
  *block = (uint64_t)sense[3] << 24 | (uint64_t)sense[4] << 16 | (uint64_t)sense[5] << 8 | sense[6];
  bool is_condition = answer[10] == 2 && answer[11] == 0 && sense[0] == 0xf0 && sense[2] == 0x03;
  return is_condition && sense[12] == code && sense[13] == 0x00;
}

// Returns whether a request ended with UNRECOVERED READ ERROR, of the first block of a page.
static bool is_unread(const struct front *front, unsigned i, uint64_t page) {
  uint64_t block;
  return is_medium_error(front, i, 0x11, &block) && block == 8 * page;
}

// Returns whether a request ended with WRITE ERROR, of the first block of one of so many pages.
static bool is_unwritten(const struct front *front, unsigned i, unsigned count) {
  uint64_t block;
  if (!is_medium_error(front, i, 0x0c, &block)) return false;
  while (count && block != UINT64_C(8) * page_at(count - 1)) count--;
  return count;
}

void test_backed_lost(void) {
  if (is_left_out()) return;
  for (unsigned number = 0; number < WAYS; number += 2) {
    struct disks disks;
    struct front front;
    begin(&front, &disks, number);
    MUST(write_pages(&front, MANY, 1));
    forget(&front, &disks, number);
    faults.read_error = EIO;
    faults.bad_page = page_at(40);
    // Twice: the page is asked for again.
    for (unsigned time = 0; time < 2; time++) {
      for (unsigned i = 35; i < 45; i++) put_read_of(&front, 0, Q, i, page_at(i) * 8);
      driver_kick(&front, Q);
      MUST(await(&front, Q, 10, PATIENCE) == 10 && front.alive);
      for (unsigned i = 35; i < 45; i++)
        MUST(i == 40 ? is_unread(&front, i, page_at(i)) : is_good(&front, i) && is_filled(buffer_of(&front, i), page_at(i), 1));
    }
    // A WRITE of all its blocks needs none of them, and behind it there is a page.
    put_page(&front, Q, 40, page_at(40), 2);
    driver_kick(&front, Q);
    MUST(await(&front, Q, 1, PATIENCE) == 1 && is_good(&front, 40) && sync_disk(&front));
    put_read_of(&front, 0, Q, 40, page_at(40) * 8);
    driver_kick(&front, Q);
    MUST(await(&front, Q, 1, PATIENCE) == 1 && is_good(&front, 40) && is_filled(buffer_of(&front, 40), page_at(40), 2));
    // An error that may pass has READs wait, as of memory that the system lacks.
    faults.read_error = ENOMEM;
    faults.bad_page = page_at(50);
    put_read_of(&front, 0, Q, 50, page_at(50) * 8);
    driver_kick(&front, Q);
    MUST(await(&front, Q, 1, NOTHING) == 0 && disks.disks[0].paging->reading.error == ENOMEM);
    clear_faults(&front);
    MUST(await(&front, Q, 1, PATIENCE) == 1 && is_good(&front, 50) && is_filled(buffer_of(&front, 50), page_at(50), 1));
    load_end(&front, &disks);
  }
}

void test_backed_unwritten(void) {
  if (is_left_out()) return;
  for (unsigned number = 0; number < WAYS; number += 3) {
    struct disks disks;
    struct front front;
    begin(&front, &disks, number);
    faults.write_error = number % 2 ? ENOSPC : EIO;
    faults.writes = 3;
    MUST(write_pages(&front, MANY, 1));
    put_sync(&front, 3, MANY);
    MUST(await(&front, 3, 1, NOTHING) == 0 && front.alive && disks.disks[0].error == faults.write_error);
    MUST(read_pages(&front, MANY, 1) && is_ready(&front, 4));
    faults_clear();
    MUST(await(&front, 3, 1, PATIENCE) == 1 && is_good(&front, MANY) && file_has(0, MANY, 1) && !disks.disks[0].error);
    // The system forgets what it had, of pages that stood there, too.
    faults.sync_error = EIO;
    faults.bad_syncs = 3;
    MUST(write_pages(&front, MANY, 2) && sync_disk(&front) && !faults.bad_syncs && file_has(0, MANY, 2));
    load_end(&front, &disks);
  }
}

// Flushes until that ends with GOOD, and in between as of pages that can't be written. Returns whether it did.
static bool flush_at_last(struct front *front, unsigned count) {
  for (unsigned time = 0; time < 10000; time++) {
    put_sync(front, 3, MANY);
    if (await(front, 3, 1, PATIENCE) != 1) return false;
    if (is_good(front, MANY)) return true;
    if (!is_unwritten(front, MANY, count)) return false;
  }
  return false;
}

void test_backed_denied(void) {
  if (is_left_out()) return;
  for (unsigned number = 0; number < WAYS; number += 3) {
    struct disks disks;
    struct front front;
    begin_as(&front, &disks, number, reporting);
    for (unsigned version = 1; version <= 2; version++) {
      // What can't be written, and then what can't be synced.
      if (version == 1) faults.write_error = number % 2 ? ENOSPC : EIO, faults.writes = 3;
      else faults.sync_error = EIO, faults.bad_syncs = UINT_MAX;
      MUST(write_pages(&front, MANY, version));
      // Some notes are refused memory.
      faults.refused = version == 1 ? 5 : 0;
      for (unsigned time = 0; time < 3; time++) {
        put_sync(&front, 3, MANY);
        MUST(await(&front, 3, 1, PATIENCE) == 1 && front.alive && is_unwritten(&front, MANY, MANY) && disks.disks[0].error);
      }
      MUST(read_pages(&front, MANY, version) && is_ready(&front, 4));
      faults_clear();
      MUST(flush_at_last(&front, MANY) && file_has(0, MANY, version) && !disks.disks[0].error);
      // None is left of a page that was kept.
      MUST(sync_disk(&front));
    }
    load_end(&front, &disks);
  }
}

void test_backed_left(void) {
  if (is_left_out()) return;
  for (unsigned number = 0; number < WAYS; number += 3) {
    struct disks disks;
    struct front front;
    char why[200] = "";
    begin(&front, &disks, number);
    MUST(write_pages(&front, MANY, 1));
    front_end(&front);
    MUST(paging_finish(&disks, why, sizeof why) && !paging_are_left(&disks) && file_has(0, MANY, 1));
    load_begin(&front, &disks, number);
    faults.write_error = EIO;
    MUST(write_pages(&front, MANY, 2));
    front_end(&front);
    MUST(!paging_finish(&disks, why, sizeof why) && strstr(why, paths[0]) && paging_are_left(&disks));
    load_begin(&front, &disks, number);
    MUST(read_pages(&front, MANY, 2) && write_pages(&front, 20, 2));
    // A reset forgets requests, and no page.
    front_say(&front, RESET_DEVICE, 0);
    pump(&front);
    front_end(&front);
    load_begin(&front, &disks, number);
    faults_clear();
    MUST(read_pages(&front, MANY, 2) && sync_disk(&front) && file_has(0, MANY, 2));
    load_end(&front, &disks);
  }
}

void test_backed_stops(void) {
  enum { HELD_READS = 5 };
  if (is_left_out()) return;
  for (unsigned number = 0; number < WAYS; number++) {
    struct disks disks;
    struct front front;
    uint8_t payload[8];
    begin(&front, &disks, number);
    MUST(write_pages(&front, MANY, 1));
    forget(&front, &disks, number);
    faults.held = true;
    for (unsigned i = 0; i < HELD_READS; i++) put_read_of(&front, 0, Q, i, page_at(i) * 8);
    driver_kick(&front, Q);
    MUST(await(&front, Q, 1, 20) == 0);
    // The driver of each queue is asked for what comes behind those that wait.
    for (unsigned i = 0; i < 10; i++) MUST(is_ready(&front, Q) && is_ready(&front, 3));
    front_say(&front, GET_VRING_BASE, Q);
    // However long they wait the front end doesn't go on behind others.
    for (unsigned second = 0; second < 12; second++) {
      MUST(!front_reply(&front, payload, sizeof payload) && front.alive);
      pass(&front, 1);
      go_on(&front, 5);
    }
    clear_faults(&front);
    MUST(await(&front, Q, HELD_READS, PATIENCE) == HELD_READS);
    go_on(&front, 20);
    MUST(front_reply(&front, payload, sizeof payload) == 8 && little_get(payload, 4) == Q);
    for (unsigned i = 0; i < HELD_READS; i++) MUST(is_good(&front, i) && is_filled(buffer_of(&front, i), page_at(i), 1));
    front_start(&front, Q, (uint32_t)little_get(payload + 4, 4));
    MUST(read_pages(&front, MANY, 1) && is_ready(&front, 3));
    load_end(&front, &disks);
  }
}

void test_backed_stale(void) {
  if (is_left_out()) return;
  for (unsigned number = 0; number < WAYS; number++) {
    struct disks disks;
    struct front front;
    begin(&front, &disks, number);
    MUST(write_pages(&front, 20, 1));
    forget(&front, &disks, number);
    faults.held = true;
    for (unsigned i = 0; i < 20; i++) put_read_of(&front, 0, Q, i, page_at(i) * 8);
    driver_kick(&front, Q);
    MUST(await(&front, Q, 1, 20) == 0);
    for (unsigned i = 0; i < 20; i++) put_page(&front, 3, i + 20, page_at(i), 2);
    driver_kick(&front, 3);
    MUST(await(&front, 3, 20, PATIENCE) == 20);
    put_sync(&front, 4, MANY);
    MUST(await(&front, 4, 1, PATIENCE) == 1 && is_good(&front, MANY) && file_has(0, 20, 2));
    // What these READs have depends on which command ran first. There are so many other pages then that these go.
    uint32_t length;
    go_on(&front, 20);
    while (driver_next(&front, Q, 3, &length)) continue;
    MUST(number % 5 || write_from(&front, 20, VSCSI_LEAST_PAGES, 1));
    // None of what was read before comes into memory.
    clear_faults(&front);
    go_on(&front, 20);
    MUST(!faults.handed_in);
    MUST(read_pages(&front, 20, 2) && write_pages(&front, 20, 3) && sync_disk(&front) && file_has(0, 20, 3));
    load_end(&front, &disks);
  }
}

// Pages in a row, of which the first ones are read; then what is read ahead is held back, and some of that is written, and others until
// these aren't in memory.
static void go_ahead(unsigned number, bool fails) {
  enum { ROW = 600, EACH = 10, FIRST = 5 * EACH, WRITTEN = 20, OTHERS = 2000 };
  struct disks disks;
  struct front front;
  begin(&front, &disks, number);
  const struct paging *paging = disks.disks[0].paging;
  MUST(write_pages(&front, ROW, 1));
  forget(&front, &disks, number);
  for (unsigned at = 0; at < ROW; at += EACH) MUST(read_from(&front, at, EACH, 1));
  MUST(paging->counts.ahead >= ROW / 3 && paging->counts.handed_in >= ROW);
  forget(&front, &disks, number);
  faults.held_ahead = true;
  for (unsigned at = 0; at < FIRST; at += EACH) MUST(!paging->ahead.under_way && read_from(&front, at, EACH, 1));
  MUST(paging->ahead.under_way);
  MUST(write_from(&front, FIRST, WRITTEN, 2) && sync_disk(&front) && write_from(&front, OTHERS, MORE_PAGES, 1));
  // A command waits for what is read ahead, whose end is told to it.
  put_read_of(&front, 0, Q, 0, page_at(FIRST + 3 * WRITTEN) * 8);
  driver_kick(&front, Q);
  MUST(await(&front, Q, 1, 20) == 0 && paging_reads(&disks));
  faults.read_error = fails ? EIO : 0;
  faults.bad_page = page_at(FIRST + 3 * WRITTEN);
  faults.held_ahead = false;
  session_kicked(&front.session, EVENT_STORAGE);
  go_on(&front, 20);
  clear_faults(&front);
  MUST(await(&front, Q, 1, PATIENCE) == 1 && is_good(&front, 0) && is_filled(buffer_of(&front, 0), page_at(FIRST + 3 * WRITTEN), 1));
  MUST(read_from(&front, FIRST, WRITTEN, 2) && read_from(&front, FIRST + WRITTEN, ROW - FIRST - WRITTEN, 1));
  // Of another size of the disk nothing that was read before comes.
  MUST(paging_settle(&disks, &front.session.backend.device, UINT64_MAX));
  MUST(!paging->ahead.seen && sync_disk(&front));
  load_end(&front, &disks);
}

void test_backed_ahead(void) {
  if (is_left_out()) return;
  step = 1;
  for (unsigned number = 0; number < WAYS; number += 3) go_ahead(number, number % 2);
  step = STEP;
}

// Returns the page up to which pages in a row stand ready from the next one on, as they were read ahead.
static uint64_t ready_until(const struct ahead *ahead) {
  uint64_t end = ahead->next;
  for (size_t i = 0; i < AHEAD_CHUNKS; i++) {
    const struct chunk *it = &ahead->chunks[i];
    if (it->state != CHUNK_READY || end < it->first || end - it->first >= it->count) continue;
    end = it->first + it->count;
    i = SIZE_MAX;
  }
  return end;
}

static unsigned stalls;

// Has two calls of the library's take longer than the device runs before others of the daemon's descriptors are looked at.
static void stall(void) {
  enum { FIRST = 1, LAST = 12, LONG = 25000 };
  if (stalls == FIRST || stalls == LAST) usleep(LONG);
  stalls++;
  faults.comes = stall;
  faults.comes_after = 0;
}

// What else would have these commands tried again is over, or doesn't come.
void test_backed_woken(void) {
  enum { ROW = 300, BATCH = 40, ENOUGH = 243 };
  struct disks disks;
  struct front front;
  unsigned at = 0;
  if (is_left_out()) return;
  load_make(&disks, "128M", ",write-cache=on,cache-size=64M");
  load_begin(&front, &disks, 0);
  const struct ahead *ahead = &disks.disks[0].paging->ahead;
  // On to where nothing more is read ahead for a while.
  while (at < ROW || ready_until(ahead) < ahead->next + ENOUGH) {
    MUST(at < 2 * ROW);
    put_read_of(&front, 0, Q, 0, at++ * 8);
    driver_kick(&front, Q);
    MUST(await(&front, Q, 1, PATIENCE) == 1 && is_good(&front, 0));
    while (at >= ROW && ahead->under_way) go_on(&front, 1);
  }
  go_on(&front, 50);
  for (unsigned i = 0; i < BATCH; i++) put_read_of(&front, 0, Q, i, (at + i) * 8);
  driver_kick(&front, Q);
  stalls = 0;
  faults.comes = stall;
  MUST(await(&front, Q, BATCH, PATIENCE) == BATCH);
  clear_faults(&front);
  load_end(&front, &disks);
}

// Writes to both disks at once, and looks at their files behind SYNCHRONIZE CACHE of the backed one.
static void work_beside(struct front *front, unsigned turn) {
  for (unsigned i = 0; i < MANY; i++) {
    put_write_to(front, i % 2, Q, i, page_at(i) * 8);
    fill(buffer_of(front, i), page_at(i), turn);
  }
  driver_kick(front, Q);
  MUST(await(front, Q, MANY, PATIENCE) == MANY);
  put_to(front, 1, Q, MANY, sync_10, sizeof sync_10, 0);
  driver_kick(front, Q);
  MUST(await(front, Q, 1, PATIENCE) == 1 && is_good(front, MANY));
  for (unsigned i = 0; i < MANY; i++) {
    uint8_t found[BUFFER];
    int file = open(paths[i % 2], O_RDONLY | O_CLOEXEC);
    MUST(is_good(front, i) && pread(file, found, BUFFER, (off_t)page_at(i) * BUFFER) == BUFFER && is_filled(found, page_at(i), turn));
    close(file);
  }
}

static void go_beside_memory(unsigned number) {
  struct disks disks;
  struct front front;
  char why[200];
  load_make(&disks, "128M", stopping);
  MUST(disks_add(&disks, "0:1=128M", why, sizeof why));
  load_begin(&front, &disks, number);
  MUST(front.session.backend.pages && !front.session.backend.keeps);
  faults.read_error = EIO;
  put_read_of(&front, 0, Q, MANY, 0);
  driver_kick(&front, Q);
  for (unsigned i = 0; i < MANY; i++) put_write_to(&front, 1, 3, i, page_at(i) * 8);
  driver_kick(&front, 3);
  MUST(await(&front, 3, MANY, PATIENCE) == MANY && await(&front, Q, 1, NOTHING) == 0);
  faults_clear();
  MUST(await(&front, Q, 1, PATIENCE) == 1 && is_good(&front, MANY));
  disks.count = 2;
  load_end(&front, &disks);
}

void test_backed_beside(void) {
  if (is_left_out()) return;
  for (unsigned number = 0; number < WAYS; number++) {
    struct disks disks;
    struct front front;
    char why[200];
    load_make_two(&disks, "128M", "", cached);
    load_begin(&front, &disks, number);
    MUST(front.session.backend.pages && front.session.backend.keeps);
    for (unsigned turn = 1; turn < 4; turn++) {
      work_beside(&front, turn);
      if (turn == 2) front_start(&front, Q, front_stop(&front, Q));
    }
    front_end(&front);
    MUST(paging_finish(&disks, why, sizeof why));
    load_begin(&front, &disks, number);
    work_beside(&front, 4);
    load_end(&front, &disks);
    go_beside_memory(number);
  }
}

// Pages that are written and read among faults, more than there is memory for; the version of each that was written last, and rounds.
enum { USED_PAGES = 12000, ROUNDS = 60, AGAIN = 6 };
static unsigned versions[USED_PAGES];

static bool is_last(const uint8_t *at, unsigned which) {
  static const uint8_t zeros[BUFFER];
  return versions[which] ? is_filled(at, page_at(which), versions[which]) : !memcmp(at, zeros, BUFFER);
}

static void set_faults(void) {
  unsigned which = (unsigned)rand() % 8;
  faults.write_error = which == 1 || which == 2 ? EIO : 0;
  faults.writes = (unsigned)rand() % 20;
  faults.sync_error = which == 2 || which == 3 ? EIO : 0;
  faults.bad_syncs = 1 + (unsigned)rand() % 2;
  faults.read_error = which == 4 ? EIO : 0;
  faults.held = faults.held_ahead = which == 5;
  faults.refused = which == 6 ? (unsigned)rand() % 10 : 0;
}

// Has pages that follow one another in this order written or read at once, and the disk flushed or not, while faults come and go.
static void do_anything(struct front *front, unsigned version) {
  static unsigned next;
  unsigned first = rand() % 3 ? next : (unsigned)rand() % USED_PAGES, count = 1 + (unsigned)rand() % AT_ONCE, writes = 0;
  bool written[AT_ONCE], flushes = rand() % 3 == 0, reads = rand() % 2;
  next = (first + count) % USED_PAGES;
  for (unsigned i = 0; i < count; i++) {
    unsigned which = (first + i) % USED_PAGES;
    written[i] = !reads && rand() % 4;
    writes += written[i];
    if (written[i]) put_page(front, Q, i, page_at(which), versions[which] = version);
    else put_read_of(front, 0, Q, i, page_at(which) * 8);
  }
  set_faults();
  driver_kick(front, Q);
  go_on(front, (unsigned)rand() % 30);
  clear_faults(front);
  MUST(await(front, Q, count, PATIENCE) == count);
  for (unsigned i = 0; i < count; i++) MUST(is_good(front, i) && (written[i] || is_last(buffer_of(front, i), (first + i) % USED_PAGES)));
  if (!flushes) return;
  set_faults();
  put_sync(front, 3, MANY);
  go_on(front, (unsigned)rand() % 30);
  clear_faults(front);
  MUST(await(front, 3, 1, PATIENCE) == 1 && is_good(front, MANY));
  int file = open(paths[0], O_RDONLY | O_CLOEXEC);
  for (unsigned i = 0; i < 4 * AT_ONCE; i++) {
    unsigned which = i < count ? (first + i) % USED_PAGES : (unsigned)rand() % USED_PAGES;
    uint8_t found[BUFFER];
    MUST(pread(file, found, BUFFER, (off_t)page_at(which) * BUFFER) == BUFFER && is_last(found, which));
  }
  close(file);
}

void test_backed_anything(void) {
  if (is_left_out()) return;
  srand(11);
  for (unsigned number = 0; number < WAYS; number += 3) {
    struct disks disks;
    struct front front;
    load_make(&disks, "128M", number % 2 ? ",write-cache=on,cache-size=33M,rerror=stop,detect-zeroes=unmap" : stopping);
    memset(versions, 0, sizeof versions);
    step = number % 4 < 2 ? STEP : 1;
    load_begin(&front, &disks, number);
    for (unsigned round = 1; round <= ROUNDS; round++) {
      do_anything(&front, round);
      if (rand() % AGAIN) continue;
      set_faults();
      faults.held = faults.held_ahead = false;
      front_end(&front);
      faults_clear();
      load_begin(&front, &disks, number);
    }
    MUST(sync_disk(&front));
    load_end(&front, &disks);
  }
  step = STEP;
}
