#include "holds.h"

#include <errno.h>
#include <string.h>
#include <sys/mman.h>
#include <unistd.h>

#include "../bytes.h"
#include "../clock.h"
#include "faults.h"
#include "load.h"

enum { NONE = 40, CHECK_CONDITION = 2 };

static const uint8_t compare_16[16] = {0x89, 0, 0, 0, 0, 0, 0, 0, 0, 9, 0, 0, 0, 1};

// Begins with two disks, of which 0:0 can't be written.
static void begin(struct front *front, struct disks *disks, unsigned number) {
  load_make_two(disks, "64G", "", "");
  load_begin(front, disks, number);
  faults.only = disks->disks[0].file;
  faults.write_error = ENOSPC;
}

void test_held(void) {
  for (unsigned number = 0; number < WAYS; number++) {
    struct disks disks;
    struct front front;
    uint32_t length;
    begin(&front, &disks, number);
    put_write_to(&front, 1, Q, 0, 8);
    driver_kick(&front, Q);
    MUST(await(&front, Q, 1, PATIENCE) == 1 && is_good(&front, 0) && has_on(1, 0, 8, false));
    put_write_to(&front, 0, Q, 1, 0);
    put_write_to(&front, 1, 3, 2, 16);
    put_reset(&front, MANY);
    driver_kick(&front, Q);
    driver_kick(&front, 3);
    driver_kick(&front, 0);
    MUST(await_error(&front, Q));
    put_write_to(&front, 1, 4, 3, 24);
    driver_kick(&front, 4);
    // Nothing is left to do until the next try.
    MUST(await(&front, 4, 1, NONE) == 0 && !front.session.more && front.alive && disks.disks[0].error == ENOSPC);
    MUST(!driver_next(&front, 3, 3, &length) && !driver_next(&front, 0, 2, &length) && !has(1, 0, false));
    faults_clear();
    pass(&front, 5);
    MUST(await(&front, 4, 1, PATIENCE) == 1 && answer_of(&front, 3)[11] == 0);
    MUST(driver_next(&front, Q, 3, &length) && is_good(&front, 1) && has(1, 0, false) && !disks.disks[0].error);
    MUST(driver_next(&front, 3, 3, &length) && is_good(&front, 2) && has_on(1, 2, 16, false));
    MUST(driver_next(&front, 0, 2, &length) && answer_of(&front, MANY)[0] == 0);
    load_end(&front, &disks);
  }
}

// Makes a COMPARE AND WRITE available, of zeros with bytes that tell its number.
static void put_compare(struct front *front, unsigned i) {
  memset(buffer_of(front, i), 0, 512);
  memset(buffer_of(front, i) + 512, (int)(i + 1), 512);
  put(front, Q, i, compare_16, sizeof compare_16, 1024);
  driver_kick(front, Q);
}

// Looks whether the disk has what COMPARE AND WRITE i wrote.
static bool is_written(struct front *front, unsigned i) {
  static const uint8_t read_10[] = {0x28, 0, 0, 0, 0, 9, 0, 0, 1, 0};
  uint8_t found[512], wanted[512];
  memset(wanted, (int)(i + 1), sizeof wanted);
  return command(front, 4, read_10, sizeof read_10, NULL, 0, found, sizeof found) == 0 && !memcmp(found, wanted, sizeof found);
}

// Has the session go on until a message of queue Q is answered. Returns the base.
static uint32_t await_base(struct front *front) {
  uint8_t payload[8];
  for (uint64_t begun = clock_now(); !front_reply(front, payload, sizeof payload); usleep(200)) {
    MUST(clock_now() - begun < PATIENCE && front->alive);
    turn(front);
  }
  MUST(little_get(payload, 4) == Q);
  return (uint32_t)little_get(payload + 4, 4);
}

// Stops queue Q while the file can't be written, which ends before the requests would be refused or behind that. Returns the
// base.
static uint32_t stop(struct front *front, bool ends) {
  uint8_t payload[8];
  uint32_t length;
  front_say(front, GET_VRING_BASE, Q);
  for (unsigned i = 0; i < 10; i++) turn(front);
  MUST(front->alive && !front_reply(front, payload, sizeof payload) && !driver_next(front, Q, 3, &length));
  if (ends) faults_clear();
  pass(front, ends ? 0 : 1);
  return await_base(front);
}

void test_stopped(void) {
  for (unsigned number = 0; number < 2 * WAYS; number++) {
    struct disks disks;
    struct front front;
    uint32_t length;
    bool ends = number >= WAYS;
    begin(&front, &disks, number % WAYS);
    put_compare(&front, 0);
    MUST(await_error(&front, Q));
    uint32_t base = stop(&front, ends), slots = !front.way.packed || front.way.indirect ? 1 : 3;
    // Where the file couldn't be written in time the ring goes on before the request.
    MUST(driver_next(&front, Q, 3, &length) == ends && (base & 0x7fff) == (ends ? slots : 0));
    if (ends) MUST(length == 108 && is_good(&front, 0));
    faults_clear();
    front_start(&front, Q, base);
    pass(&front, 5);
    MUST(is_written(&front, 0));
    // It ran once more, and found its own data.
    if (!ends) MUST(driver_next(&front, Q, 3, &length) && answer_of(&front, 0)[10] == CHECK_CONDITION);
    put_write(&front, Q, 1, 0);
    driver_kick(&front, Q);
    MUST(await(&front, Q, 1, PATIENCE) == 1 && is_good(&front, 1) && has(1, 0, false));
    load_end(&front, &disks);
  }
}

void test_unasked(void) {
  for (unsigned number = 0; number < WAYS; number++) {
    struct disks disks;
    struct front front;
    uint32_t length;
    begin(&front, &disks, number);
    put_write(&front, Q, 0, 0);
    driver_kick(&front, Q);
    MUST(await_error(&front, Q));
    // The queue stops before its driver was asked for the next one's notification, and finds nothing as it starts.
    uint32_t base = stop(&front, true);
    MUST(driver_next(&front, Q, 3, &length) && is_good(&front, 0));
    front_start(&front, Q, base);
    pump(&front);
    put_write(&front, Q, 1, APART);
    driver_kick(&front, Q);
    MUST(await(&front, Q, 1, NONE) == 1 && is_good(&front, 1) && has(1, APART, false));
    load_end(&front, &disks);
  }
}

// Sets all rings up once more, from their beginning, with the memory in which it is noted where they stand.
static void agree_again(struct front *front, int places) {
  static struct sent sent[64];
  front_again(front);
  size_t count = front_set_up(front, sent, 0);
  for (size_t i = 2; i < count; i++) {
    if (i == 3 || i == 6) continue;  // these have replies of their own
    MUST(front_ask(front, &sent[i]));
    if (i == 2) MUST(front_give_places(front, places));
  }
}

void test_killed(void) {
  enum { QUEUE_BYTES = 64, BEFORE = 3, PAGE = 4096 };
  for (unsigned number = 0; number < 2 * WAYS; number++) {
    struct disks disks;
    struct front front;
    uint64_t first = 0;
    load_make(&disks, "64G", "");
    load_begin(&front, &disks, number % WAYS);
    int file = front_places(&front);
    uint64_t *place = mmap(NULL, PAGE, PROT_READ | PROT_WRITE, MAP_SHARED, file, 0);
    MUST(place != MAP_FAILED);
    place += Q * QUEUE_BYTES / sizeof *place;
    for (unsigned i = 0; i < BEFORE; i++) {
      put_write(&front, Q, i, i * APART);
      driver_kick(&front, Q);
      MUST(await(&front, Q, 1, PATIENCE) == 1);
      if (i == BEFORE - 2) first = place[0];
    }
    faults.write_error = ENOSPC;
    put_write(&front, Q, BEFORE, BEFORE * APART);
    put_write(&front, Q, BEFORE + 1, (BEFORE + 1) * APART);
    driver_kick(&front, Q);
    MUST(await_error(&front, Q));
    MUST(first && place[0] == place[1] && place[0] != first);
    // It may die between what it shows and what it notes.
    if (number >= WAYS) place[0] = first;
    agree_again(&front, file);
    faults_clear();
    pass(&front, 5);
    MUST(await(&front, Q, 2, PATIENCE) == 2 && has_all(&front, BEFORE + 2));
    put_write(&front, Q, BEFORE + 2, (BEFORE + 2) * APART);
    driver_kick(&front, Q);
    MUST(await(&front, Q, 1, PATIENCE) == 1 && has_all(&front, BEFORE + 3));
    munmap(place - Q * QUEUE_BYTES / sizeof *place, PAGE);
    close(file);
    load_end(&front, &disks);
  }
}

void test_waiting(void) {
  for (unsigned number = 0; number < WAYS; number++) {
    struct disks disks;
    struct front front;
    struct sent sent;
    uint32_t length;
    uint8_t payload[8];
    begin(&front, &disks, number);
    put_compare(&front, 0);
    put_write_to(&front, 1, Q, 1, 8);
    driver_kick(&front, Q);
    MUST(await_error(&front, Q));
    // The same memory once more: it is taken at once, and the answers wait on.
    front_table(&front, &sent, (struct area[]){front_half(&front, 0), front_half(&front, 1)}, 2);
    MUST(front_send(&front, &sent, 0, sent.length));
    turn(&front);
    MUST(front.alive && front_reply(&front, payload, sizeof payload) == 8 && !driver_next(&front, Q, 3, &length));
    faults_clear();
    pass(&front, 5);
    MUST(await(&front, Q, 2, PATIENCE) == 2 && is_good(&front, 0) && is_good(&front, 1) && front.alive);
    MUST(is_written(&front, 0) && !driver_next(&front, Q, 3, &length));
    // Nothing ran twice.
    put_compare(&front, 2);
    MUST(await(&front, Q, 1, PATIENCE) == 1 && answer_of(&front, 2)[10] == CHECK_CONDITION);
    load_end(&front, &disks);
  }
}
