#include "rounds.h"

#include <errno.h>
#include <fcntl.h>
#include <string.h>
#include <sys/stat.h>
#include <time.h>
#include <unistd.h>

#include "../bytes.h"
#include "../clock.h"
#include "faults.h"
#include "load.h"

void test_scattered(void) {
  for (unsigned number = 0; number < WAYS; number++) {
    struct disks disks;
    struct front front;
    struct stat stat;
    clock_t begun = clock();
    load_make(&disks, "64G", "");
    load_begin(&front, &disks, number);
    put_writes(&front, MANY);
    MUST(await(&front, Q, MANY, PATIENCE) == MANY && has_all(&front, MANY));
    for (unsigned i = 0; i < 5; i++) put_unmap(&front, i, 16 * i, 16);
    driver_kick(&front, Q);
    MUST(await(&front, Q, 5, PATIENCE) == 5);
    for (unsigned i = 0; i < 5; i++) MUST(is_good(&front, i));
    for (unsigned i = 0; i < MANY; i++) MUST(has(i, (uint64_t)i * APART, i < 80));
    // UNMAPs of more descriptors than the device takes, which change nothing.
    faults.bytes = 0;
    put_unmap(&front, 0, 80, 17);
    put_unmap(&front, 1, 80, 65);
    put_unmap(&front, 2, 80, 200);
    driver_kick(&front, Q);
    MUST(await(&front, Q, 3, PATIENCE) == 3 && !faults.bytes);
    for (unsigned i = 0; i < 3; i++) MUST(answer_of(&front, i)[10] == 2);
    for (unsigned i = 80; i < MANY; i++) MUST(has(i, (uint64_t)i * APART, false));
    MUST(clock() - begun < 2 * CLOCKS_PER_SEC && !lstat(paths[0], &stat) && stat.st_blocks < 8192);
    load_end(&front, &disks);
  }
}

void test_slow(void) {
  for (unsigned number = 0; number < WAYS; number += 5) {
    struct disks disks;
    struct front front;
    uint8_t payload[8];
    load_make(&disks, "64G", "");
    load_begin(&front, &disks, number);
    faults.slow = 3000;
    put_writes(&front, 60);
    turn(&front);
    front_say(&front, GET_FEATURES, 0);
    front_say(&front, GET_VRING_BASE, 3);
    unsigned turns = 0, seen = 0, answered = 0;
    uint32_t length;
    for (uint64_t begun = clock_now(); answered < 2; turns++) {
      turn(&front);
      MUST(clock_now() - begun < PATIENCE);
      while (driver_next(&front, Q, 3, &length)) seen++;
      if (front_reply(&front, payload, sizeof payload) && answered++) MUST(little_get(payload, 4) == 3);
      MUST(seen < 60 || answered);
    }
    // On a machine that is busy a round may have fewer, which take less time. What it hadn't taken goes on.
    MUST((turns > 3 || seen < 40) && await(&front, Q, 60 - seen, PATIENCE) == 60 - seen && has_all(&front, 60));
    load_end(&front, &disks);
  }
}

void test_full(void) {
  for (unsigned number = 0; number < WAYS; number++) {
    struct disks disks;
    struct front front;
    uint8_t payload[8];
    load_make(&disks, "64G", "");
    load_begin(&front, &disks, number);
    faults.write_error = number % 2 ? ENOSPC : EIO;
    faults.writes = 3 * number;
    put_writes(&front, MANY);
    // On a machine that is busy a round may have fewer. What was answered is on the file.
    unsigned seen = await_failure(&front, Q);
    MUST(has_all(&front, seen) && seen < MANY);
    front_say(&front, GET_FEATURES, 0);
    turn(&front);
    MUST(front_reply(&front, payload, sizeof payload) == 8 && front.alive && disks.disks[0].error == faults.write_error);
    faults_clear();
    MUST(await(&front, Q, MANY - seen, PATIENCE) == MANY - seen && has_all(&front, MANY) && !disks.disks[0].error);
    load_end(&front, &disks);
  }
}

void test_crowded(void) {
  // Blocks between two WRITEs, and a byte less than room for more ranges takes.
  enum { BETWEEN = 40, MOST = 2 * FEW_RANGES * sizeof(struct vscsi_range) - 1 };
  for (unsigned number = 0; number < WAYS; number++) {
    struct disks disks;
    struct front front;
    load_make(&disks, "64G", "");
    load_begin(&front, &disks, number);
    // The device is made by the first request.
    MUST(command(&front, 4, (const uint8_t[6]){0}, 6, NULL, 0, NULL, 0) == 0);
    faults.write_error = ENOSPC;
    faults.writes = 2 * number;
    faults.most = MOST;
    for (unsigned i = 0; i < MANY; i++) put_write(&front, Q, i * 7 % MANY, i * 7 % MANY * BETWEEN);
    driver_kick(&front, Q);
    unsigned seen = await_failure(&front, Q);
    MUST(await(&front, Q, 1, 40) == 0 && !disks.disks[0].backlog.ranges && disks.disks[0].backlog.count <= FEW_RANGES);
    faults_clear();
    MUST(await(&front, Q, MANY - seen, PATIENCE) == MANY - seen);
    for (unsigned i = 0; i < MANY; i++)
      MUST(is_good(&front, i) && has(i, (uint64_t)i * BETWEEN, false) && has(0, (uint64_t)i * BETWEEN + 16, true));
    load_end(&front, &disks);
  }
}

void test_forgetful(void) {
  for (unsigned number = 0; number < WAYS; number++) {
    struct disks disks;
    struct front front;
    load_make(&disks, "64G", "");
    load_begin(&front, &disks, number);
    // What stood there for sure stays.
    put_writes(&front, 2);
    MUST(await(&front, Q, 2, PATIENCE) == 2);
    faults.sync_error = EIO;
    faults.bad_syncs = 2;
    put_writes(&front, MANY);
    MUST(await(&front, Q, MANY, PATIENCE) == MANY && faults.bad_syncs == 0 && has_all(&front, MANY));
    load_end(&front, &disks);
  }
}

void test_abandoned(void) {
  for (unsigned number = 0; number < WAYS; number++) {
    struct disks disks;
    struct front front;
    char why[200] = "";
    load_make(&disks, "64G", "");
    load_begin(&front, &disks, number);
    faults.write_error = ENOSPC;
    put_writes(&front, MANY);
    MUST(await_error(&front, Q));
    front_end(&front);
    MUST(!blocks_finish(&disks, why, sizeof why) && strstr(why, paths[0]));
    load_begin(&front, &disks, number);
    put_write(&front, 3, 0, 0);
    driver_kick(&front, 3);
    MUST(await(&front, 3, 1, 60) == 0 && front.alive);
    faults_clear();
    pass(&front, 5);
    MUST(await(&front, 3, 1, PATIENCE) == 1);
    // What the first round has taken.
    MUST(has(0, 0, false));
    MUST(blocks_finish(&disks, why, sizeof why));
    load_end(&front, &disks);
  }
}

void test_unloaded(void) {
  for (unsigned number = 0; number < WAYS; number++) {
    struct disks disks;
    struct front front;
    load_make(&disks, "64G", "");
    load_begin(&front, &disks, number);
    put_writes(&front, 1);
    MUST(await(&front, Q, 1, PATIENCE) == 1 && has(0, 0, false));
    front_end(&front);
    // As where the operator gave it another size meanwhile.
    store_drop(&disks.stores[0]);
    load_begin(&front, &disks, number);
    faults.loads = 2;
    put_write(&front, Q, 1, APART);
    driver_kick(&front, Q);
    for (unsigned i = 0; i < 3; i++) {
      pump(&front);
      pass(&front, 5);
    }
    MUST(await(&front, Q, 1, PATIENCE) == 1 && !faults.loads && is_good(&front, 1) && has(1, APART, false) && has(0, 0, false));
    load_end(&front, &disks);
  }
}

// Has the session run one request, and returns how many blocks the file system has for the file then.
static blkcnt_t room_behind(struct front *front) {
  struct stat stat;
  driver_kick(front, Q);
  MUST(await(front, Q, 1, PATIENCE) == 1 && is_good(front, 0) && !lstat(paths[0], &stat));
  return stat.st_blocks;
}

static void put_zeros(struct front *front, uint32_t block) {
  put_write(front, Q, 0, block);
  memset(buffer_of(front, 0), 0, BUFFER);
}

void test_zeros(void) {
  for (unsigned number = 0; number < 2 * WAYS; number++) {
    bool punches = number >= WAYS;
    struct disks disks;
    struct front front;
    struct stat stat;
    load_make(&disks, "1M", punches ? ",detect-zeroes=unmap" : "");
    load_begin(&front, &disks, number % WAYS);
    put_write(&front, Q, 0, 0);
    blkcnt_t full = room_behind(&front);
    put_zeros(&front, 0);
    blkcnt_t zeros = room_behind(&front);
    MUST(full && zeros == (punches ? 0 : full) && has(0, 0, true));
    put_write(&front, Q, 0, 0);
    MUST(room_behind(&front) == full && has(0, 0, false));
    put_unmap(&front, 0, 0, 1);
    MUST(room_behind(&front) == 0 && has(0, 0, true));
    // Room that was reserved stays, and takes no zeros.
    MUST(!fallocate(disks.disks[0].file, 0, 0, 1 << 20) && !lstat(paths[0], &stat));
    put_zeros(&front, 64);
    MUST(room_behind(&front) == stat.st_blocks && lseek(disks.disks[0].file, 0, SEEK_DATA) < 0);
    load_end(&front, &disks);
  }
}

void test_formatted(void) {
  static const uint8_t same_16[16] = {0x93, 1, [13] = 8}, format[6] = {4}, format_by_list[6] = {4, 0x10}, read_10[10] = {0x28, [8] = 8};
  for (unsigned number = 0; number < WAYS; number++) {
    struct disks disks;
    struct front front;
    load_make(&disks, "1M", "");
    load_begin(&front, &disks, number);
    for (unsigned i = 0; i < 3; i++) put_write(&front, Q, i, 64 * i);
    driver_kick(&front, Q);
    MUST(await(&front, Q, 3, PATIENCE) == 3 && has(0, 0, false) && has(1, 64, false) && has(2, 128, false));
    put(&front, Q, 0, same_16, sizeof same_16, 0);
    driver_kick(&front, Q);
    MUST(await(&front, Q, 1, PATIENCE) == 1 && is_good(&front, 0) && has(0, 0, true) && has(1, 64, false));
    // What changes nothing writes nothing.
    faults.bytes = 0;
    uint8_t found[BUFFER];
    MUST(command(&front, Q, read_10, sizeof read_10, NULL, 0, found, sizeof found) == 0 && !faults.bytes);
    put(&front, Q, 0, format, sizeof format, 0);
    driver_kick(&front, Q);
    MUST(await(&front, Q, 1, PATIENCE) == 1 && is_good(&front, 0) && has(1, 64, true) && has(2, 128, true));
    // With a list it makes a hole of the file.
    MUST(lseek(disks.disks[0].file, 0, SEEK_DATA) == 0);
    memset(buffer_of(&front, 0), 0, BUFFER);
    put_write(&front, Q, 1, 64);
    driver_kick(&front, Q);
    MUST(await(&front, Q, 1, PATIENCE) == 1 && has(1, 64, false));
    put(&front, Q, 0, format_by_list, sizeof format_by_list, 4);
    driver_kick(&front, Q);
    MUST(await(&front, Q, 1, PATIENCE) == 1 && is_good(&front, 0) && has(1, 64, true));
    MUST(lseek(disks.disks[0].file, 0, SEEK_DATA) < 0);
    load_end(&front, &disks);
  }
}

// Serves one round.
static void serve(struct front *front) {
  uint32_t owed = 0;
  enum served served = BUSY;
  front->session.backend.kicked = (1u << QUEUES) - 1;
  while (served == BUSY) served = backend_serve(&front->session.backend, (1u << QUEUES) - 1, &owed);
  MUST(served == SERVED || served == MORE);
}

// How many rounds the device has for all that is there. A quiet machine takes one or two.
enum { MOST_ROUNDS = 500 };

// Has a queue always have many requests of so many bytes, and another one of them, which is answered all the same.
static void take_turns(unsigned number, unsigned many, unsigned one, uint32_t bytes) {
  static const uint8_t ready[6] = {0};
  struct disks disks;
  struct front front;
  uint32_t length;
  load_make(&disks, "64G", "");
  load_begin(&front, &disks, number);
  // The device is made by the first request.
  MUST(command(&front, 4, ready, sizeof ready, NULL, 0, NULL, 0) == 0);
  for (unsigned i = 0; i < MANY; i++) put(&front, many, i, ready, sizeof ready, bytes);
  put(&front, one, MANY, ready, sizeof ready, bytes);
  unsigned rounds = 0, served = 0;
  for (; !driver_next(&front, one, 3, &length); rounds++) {
    MUST(rounds < MOST_ROUNDS);
    serve(&front);
    for (; driver_next(&front, many, 3, &length); served++) put(&front, many, served % MANY, ready, sizeof ready, bytes);
  }
  MUST((served || many > one) && is_good(&front, MANY));
  load_end(&front, &disks);
}

void test_turns(void) {
  // Where one call of the library's serves no more than one queue, another one's turn comes.
  enum { ALL_ROOM = 1 << 20 };
  for (unsigned number = 0; number < WAYS; number++) {
    take_turns(number, Q, 3, 0);
    take_turns(number, 3, Q, 0);
    take_turns(number, Q, 3, ALL_ROOM);
    take_turns(number, 3, Q, ALL_ROOM);
  }
}

void test_order_of_control(void) {
  for (unsigned number = 0; number < WAYS; number++) {
    static const uint8_t ready[6] = {0};
    struct disks disks;
    struct front front;
    uint32_t length;
    load_make(&disks, "64G", "");
    load_begin(&front, &disks, number);
    MUST(command(&front, 4, ready, sizeof ready, NULL, 0, NULL, 0) == 0);
    for (unsigned i = 0; i < MANY - 1; i++) put_write(&front, Q, i, i * APART);
    put_reset(&front, MANY);
    put_write(&front, 3, MANY - 1, (MANY - 1) * APART);
    unsigned rounds = 0, served = 0;
    for (bool reset = false; !reset; rounds++) {
      MUST(rounds < MOST_ROUNDS);
      serve(&front);
      reset = driver_next(&front, 0, 2, &length);
      while (driver_next(&front, Q, 3, &length)) served++;
      // Each WRITE that was available before ran before the reset, and knows nothing of it.
      MUST(!reset || served == MANY - 1);
    }
    MUST(answer_of(&front, MANY)[0] == 0);
    for (unsigned i = 0; i < MANY - 1; i++) MUST(is_good(&front, i));
    // The next command is told of it.
    MUST(command(&front, 4, ready, sizeof ready, NULL, 0, NULL, 0) == 2 || answer_of(&front, MANY - 1)[10] == 2);
    load_end(&front, &disks);
  }
}

void test_costs(void) {
  enum { WARM = 40, TURNS = 200, MOST_CALLS = 8 };
  for (unsigned number = 0; number < WAYS; number++) {
    static const uint8_t ready[6] = {0};
    struct disks disks;
    struct front front;
    load_make(&disks, "64G", "");
    load_begin(&front, &disks, number);
    // The first requests take room that is kept for those that come later.
    for (unsigned i = 0; i < WARM; i++) MUST(command(&front, Q, ready, sizeof ready, NULL, 0, NULL, 0) == 0);
    costs = (struct costs){.counts = true};
    for (unsigned i = 0; i < TURNS; i++) MUST(command(&front, Q, ready, sizeof ready, NULL, 0, NULL, 0) == 0);
    costs.counts = false;
    MUST(!costs.allocations && !costs.texts && costs.calls);
    // Rings that are looked at without a kick are so until some time has passed.
    MUST(front.way.polling.most || costs.calls < TURNS * MOST_CALLS);
    load_end(&front, &disks);
  }
}
