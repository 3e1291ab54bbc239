#include "load.h"

#include <fcntl.h>
#include <stdio.h>
#include <stdlib.h>
#include <string.h>
#include <unistd.h>

#include "../bytes.h"
#include "../clock.h"
#include "../images.h"
#include "../paging.h"
#include "faults.h"

// Where requests and their data lie in the guest's memory, and how large rings are.
enum { REQUESTS = 0x220000, EACH = 0x200, ANSWER = 0x80, BUFFERS = 0x300000, LARGE_RING = 512, LUN_RESET = 5, LUN_LOW = 3 };

char paths[2][40];

// Makes an empty file, in memory where the system has that, since a test waits for each fdatasync.
static void make_file(char *path, size_t room) {
  snprintf(path, room, "%s/vscsi-round-XXXXXX", access("/dev/shm", W_OK) ? "/tmp" : "/dev/shm");
  close(mkstemp(path));
}

static void make(struct disks *disks, unsigned count, const char *size, const char *const *more) {
  char words[120], why[200];
  memset(disks, 0, sizeof *disks);
  for (unsigned lun = 0; lun < count; lun++) {
    make_file(paths[lun], sizeof paths[lun]);
    snprintf(words, sizeof words, "0:%u=%s,file=%s,grow%s", lun, size, paths[lun], more[lun]);
    MUST(disks_add(disks, words, why, sizeof why));
  }
  MUST(images_open(disks, why, sizeof why) && images_make(disks, (uid_t)-1, (gid_t)-1, why, sizeof why));
  MUST(paging_open(disks, false, why, sizeof why));
  faults_clear();
  faults.storage = disks->storage;
}

void load_make(struct disks *disks, const char *size, const char *more) { make(disks, 1, size, &more); }

void load_make_two(struct disks *disks, const char *size, const char *first, const char *second) {
  make(disks, 2, size, (const char *const[]){first, second});
}

void load_begin(struct front *front, struct disks *disks, unsigned number) {
  front_begin_sized(front, disks, way_of(number), LARGE_RING);
  front_agree(front);
}

void load_end(struct front *front, struct disks *disks) {
  size_t count = disks->count;
  front_end(front);
  disks_close(disks);
  for (size_t i = 0; i < count; i++) unlink(paths[i]);
  faults_clear();
}

uint8_t *answer_of(const struct front *front, unsigned i) { return front->memory + REQUESTS + EACH * i + ANSWER; }
uint8_t *buffer_of(const struct front *front, unsigned i) { return front->memory + BUFFERS + BUFFER * i; }

void put_to(struct front *front, unsigned lun, unsigned q, unsigned i, const uint8_t *block, size_t length, uint32_t bytes) {
  uint64_t request = REQUESTS + EACH * (uint64_t)i;
  const struct part parts[] = {
      {request, 51, false}, {BUFFERS + BUFFER * (uint64_t)i, bytes, false}, {request + ANSWER, 108, true}};
  put_request(front, request, block, length);
  front->memory[request + LUN_LOW] = (uint8_t)lun;
  memset(answer_of(front, i), 0xee, 108);
  driver_put(front, q, parts, 3);
}

void put(struct front *front, unsigned q, unsigned i, const uint8_t *block, size_t length, uint32_t bytes) {
  put_to(front, 0, q, i, block, length, bytes);
}

void put_write_to(struct front *front, unsigned lun, unsigned q, unsigned i, uint32_t block) {
  uint8_t write_10[10] = {0x2a, 0, 0, 0, 0, 0, 0, 0, 8, 0};
  big_put(write_10 + 2, block, 4);
  memset(buffer_of(front, i), (int)(i + 1), BUFFER);
  put_to(front, lun, q, i, write_10, sizeof write_10, BUFFER);
}

void put_write(struct front *front, unsigned q, unsigned i, uint32_t block) { put_write_to(front, 0, q, i, block); }

void put_writes(struct front *front, unsigned count) {
  for (unsigned i = 0; i < count; i++) put_write(front, Q, i, i * APART);
  driver_kick(front, Q);
}

void put_read_of(struct front *front, unsigned lun, unsigned q, unsigned i, uint32_t block) {
  uint8_t read_10[10] = {0x28, 0, 0, 0, 0, 0, 0, 0, 8, 0};
  uint64_t request = REQUESTS + EACH * (uint64_t)i;
  const struct part parts[] = {{request, 51, false}, {request + ANSWER, 108, true}, {BUFFERS + BUFFER * (uint64_t)i, BUFFER, true}};
  big_put(read_10 + 2, block, 4);
  put_request(front, request, read_10, sizeof read_10);
  front->memory[request + LUN_LOW] = (uint8_t)lun;
  memset(answer_of(front, i), 0xee, 108);
  memset(buffer_of(front, i), 0xee, BUFFER);
  driver_put(front, q, parts, 3);
}

void put_unmap(struct front *front, unsigned i, unsigned first, unsigned count) {
  uint8_t unmap[10] = {0x42}, *list = buffer_of(front, i);
  uint32_t bytes = 8 + 16 * count;
  big_put(unmap + 7, bytes, 2);
  memset(list, 0, BUFFER);
  big_put(list, bytes - 2, 2);
  big_put(list + 2, bytes - 8, 2);
  for (unsigned n = 0; n < count; n++) {
    big_put(list + 8 + 16 * n, (uint64_t)(first + n) * APART, 8);
    big_put(list + 16 + 16 * n, 8, 4);
  }
  put(front, Q, i, unmap, sizeof unmap, bytes);
}

void put_reset(struct front *front, unsigned i) {
  uint64_t request = REQUESTS + EACH * (uint64_t)i;
  const struct part parts[] = {{request, 24, false}, {request + ANSWER, 1, true}};
  static const uint8_t unit[] = {1, 0, 0x40, 0, 0, 0, 0, 0};
  memset(front->memory + request, 0, 24);
  little_put(front->memory + request + 4, LUN_RESET, 4);
  memcpy(front->memory + request + 8, unit, sizeof unit);
  memset(answer_of(front, i), 0xee, 1);
  driver_put(front, 0, parts, 2);
}

unsigned await_of(struct front *front, unsigned q, unsigned parts, unsigned count, uint64_t patience) {
  uint64_t until = clock_now() + patience;
  uint32_t length;
  unsigned seen = 0;
  for (; seen < count && clock_now() < until; usleep(200)) {
    turn(front);
    while (seen < count && driver_next(front, q, parts, &length)) seen++;
  }
  return seen;
}

unsigned await(struct front *front, unsigned q, unsigned count, uint64_t patience) {
  return await_of(front, q, 3, count, patience);
}

unsigned await_failure(struct front *front, unsigned q) {
  uint64_t until = clock_now() + PATIENCE;
  uint32_t length;
  unsigned seen = 0;
  for (; !front->disks->disks[0].error && clock_now() < until; usleep(200)) turn(front);
  MUST(front->alive && front->disks->disks[0].error);
  while (driver_next(front, q, 3, &length)) seen++;
  return seen;
}

bool await_error(struct front *front, unsigned q) { return !await_failure(front, q); }

void pass(struct front *front, unsigned seconds) {
  faults.passed += seconds;
  session_kicked(&front->session, EVENT_TIMER);
}

bool is_good(const struct front *front, unsigned i) { return answer_of(front, i)[10] == 0 && answer_of(front, i)[11] == 0; }

bool has_on(unsigned lun, unsigned i, uint64_t block, bool zeros) {
  uint8_t found[BUFFER], wanted[BUFFER];
  int file = open(paths[lun], O_RDONLY | O_CLOEXEC);
  memset(wanted, zeros ? 0 : (int)(i + 1), sizeof wanted);
  bool has = pread(file, found, sizeof found, (off_t)(block * 512)) == BUFFER && !memcmp(found, wanted, sizeof wanted);
  close(file);
  return has;
}

bool has(unsigned i, uint64_t block, bool zeros) { return has_on(0, i, block, zeros); }

bool has_all(const struct front *front, unsigned count) {
  for (unsigned i = 0; i < count; i++)
    if (!is_good(front, i) || !has(i, (uint64_t)i * APART, false)) return false;
  return true;
}
