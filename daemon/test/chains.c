#include "chains.h"

#include <stdlib.h>
#include <string.h>

#include "../bytes.h"
#include "front.h"

static const uint8_t write_10[] = {0x2a, 0, 0, 0, 0, 3, 0, 0, 16, 0}, read_10[] = {0x28, 0, 0, 0, 0, 3, 0, 0, 16, 0},
                     ready[] = {0, 0, 0, 0, 0, 0};

// Places of the guest's memory: of a request, of its response, and of data.
enum { REQUEST = 0x202000, ANSWER = 0x202400, ROOM = 0x300000, BYTES = 16 * 512, Q = 2 };
enum { LONG_TABLE = 8250, SHARED_TABLE = 24000, TABLE_AT = 0x1a0000, QUERY_TASK_SET = 7 };

static void begin(struct front *front, struct disks *disks, unsigned number) {
  char why[200];
  memset(disks, 0, sizeof *disks);
  MUST(disks_add(disks, "0:0=1M", why, sizeof why));
  front_begin(front, disks, way_of(number));
  front_agree(front);
}

static void end(struct front *front, struct disks *disks) {
  front_end(front);
  disks_close(disks);
}

static bool is_broken(const struct front *front) { return front->alive && front->session.backend.queues[Q].fault; }

// Runs a chain of a request whose head and response are parts of it. Returns the status, or -1 where there was no answer.
static int run(struct front *front, const uint8_t *block, size_t length, const struct part *parts, unsigned count) {
  uint32_t used;
  put_request(front, REQUEST, block, length);
  memset(front->memory + ANSWER, 0xee, RESPONSE);
  if (!driver_run(front, Q, parts, count, &used)) return -1;
  MUST(used >= RESPONSE && front->memory[ANSWER + 11] == 0);
  return front->memory[ANSWER + 10];
}

void test_events(void) {
  static const struct part control[] = {{REQUEST, 24, false}, {ANSWER, 1, true}},
                           event[] = {{HALF, 1 << 20, false}, {ROOM, 16, true}};
  static const uint8_t unit[] = {1, 0, 0x40, 0, 0, 0, 0, 0};
  for (unsigned number = 0; number < WAYS; number++) {
    struct disks disks;
    struct front front;
    uint32_t length;
    begin(&front, &disks, number);
    little_put(front.memory + REQUEST + 4, QUERY_TASK_SET, 4);
    memcpy(front.memory + REQUEST + 8, unit, sizeof unit);
    memset(front.memory + ANSWER, 0xee, 1);
    memset(front.memory + HALF, 0xbb, 1 << 20);
    driver_put(&front, 0, control, 2);
    driver_put(&front, EVENT_QUEUE, event, 2);
    driver_kick(&front, 0);
    driver_kick(&front, EVENT_QUEUE);
    pump(&front);
    // No task is in the set: the function is complete.
    MUST(driver_take(&front, 0, &length) && length == 1 && front.memory[ANSWER] == 0);
    MUST(!driver_take(&front, EVENT_QUEUE, &length));
    MUST(!front.session.backend.queues[EVENT_QUEUE].fault);
    end(&front, &disks);
  }
}

// Fills the parts of a READ or a WRITE that have so many bytes in all: its data, and then the guest's memory over and over.
static unsigned fill(struct part *parts, uint64_t bytes, bool out) {
  const struct part answer = {ANSWER, RESPONSE, true};
  uint64_t left = bytes - HEAD - RESPONSE - BYTES;
  unsigned count = 0;
  parts[count++] = (struct part){REQUEST, HEAD, false};
  if (!out) parts[count++] = answer;
  parts[count++] = (struct part){ROOM, BYTES, !out};
  for (; left; left -= parts[count++].length)
    parts[count] = (struct part){0, (uint32_t)(left < GUEST_BYTES ? left : GUEST_BYTES), !out};
  if (out) parts[count++] = answer;
  return count;
}

void test_totals(void) {
  static struct part parts[(UINT64_C(1) << 32) / GUEST_BYTES + 4];
  static uint8_t data[BYTES];
  for (size_t i = 0; i < BYTES; i++) data[i] = (uint8_t)(rand() >> 7);
  for (unsigned number = 0; number < 2 * WAYS; number++) {
    bool out = number >= WAYS;
    struct disks disks;
    struct front front;
    if (!way_of(number).indirect) continue;
    begin(&front, &disks, number);
    MUST(out || command(&front, Q, write_10, sizeof write_10, data, BYTES, NULL, 0) == 0);
    if (out) memcpy(front.memory + ROOM, data, BYTES);
    int status = run(&front, out ? write_10 : read_10, sizeof read_10, parts, fill(parts, UINT64_C(1) << 32, out));
    uint8_t found[BYTES];
    MUST(front.alive && status == 0);
    if (!out) MUST(!memcmp(front.memory + ROOM, data, BYTES));
    MUST(command(&front, 3, read_10, sizeof read_10, NULL, 0, found, BYTES) == 0 && !memcmp(found, data, BYTES));
    MUST(run(&front, ready, sizeof ready, parts, fill(parts, (UINT64_C(1) << 32) + 1, out)) == -1 && is_broken(&front));
    MUST(command(&front, 4, ready, sizeof ready, NULL, 0, NULL, 0) == 0);
    end(&front, &disks);
  }
}

void test_holes(void) {
  for (unsigned number = 0; number < WAYS; number++) {
    struct disks disks;
    struct front front;
    uint8_t found[BYTES], zeros[BYTES] = {0};
    const uint64_t hole = number % 2 ? UINT64_C(1) << 45 : GUEST_BYTES + 0x100;
    const struct part in[] = {{REQUEST, HEAD, false}, {ANSWER, RESPONSE, true}, {hole, BYTES, true}};
    const struct part out[] = {{REQUEST, HEAD, false}, {hole, BYTES, false}, {ANSWER, RESPONSE, true}};
    begin(&front, &disks, number);
    memset(found, 0x5a, sizeof found);
    MUST(command(&front, Q, write_10, sizeof write_10, found, BYTES, NULL, 0) == 0);
    MUST(run(&front, read_10, sizeof read_10, in, 3) == 0 && run(&front, write_10, sizeof write_10, out, 3) == 0);
    MUST(command(&front, Q, read_10, sizeof read_10, NULL, 0, found, BYTES) == 0 && !memcmp(found, zeros, BYTES));
    end(&front, &disks);
  }
}

void test_order(void) {
  // A readable part behind a writable one, which has no bytes.
  static const struct part parts[] = {
      {REQUEST, HEAD, false}, {ANSWER, 0, true}, {ROOM, BYTES, false}, {ANSWER, RESPONSE, true}};
  for (unsigned number = 0; number < WAYS; number++) {
    struct disks disks;
    struct front front;
    begin(&front, &disks, number);
    MUST(run(&front, write_10, sizeof write_10, parts, 4) == -1 && front.alive && is_broken(&front));
    MUST(command(&front, 4, ready, sizeof ready, NULL, 0, NULL, 0) == 0);
    end(&front, &disks);
  }
}

void test_tables(void) {
  static struct part parts[LONG_TABLE];
  static uint8_t data[BYTES];
  for (size_t i = 0; i < BYTES; i++) data[i] = (uint8_t)(rand() >> 7);
  for (unsigned number = 0; number < WAYS; number++) {
    struct disks disks;
    struct front front;
    if (!way_of(number).indirect) continue;
    begin(&front, &disks, number);
    MUST(command(&front, Q, write_10, sizeof write_10, data, BYTES, NULL, 0) == 0);
    parts[0] = (struct part){REQUEST, HEAD, false};
    parts[1] = (struct part){ANSWER, RESPONSE, true};
    // A part for each byte.
    for (unsigned i = 2; i < LONG_TABLE; i++) parts[i] = (struct part){ROOM + i - 2, 1, true};
    int status = run(&front, read_10, sizeof read_10, parts, LONG_TABLE);
    MUST(front.alive && status == 0 && !memcmp(front.memory + ROOM, data, BYTES));
    MUST(command(&front, 4, ready, sizeof ready, NULL, 0, NULL, 0) == 0);
    end(&front, &disks);
  }
}

// Makes so many chains of one table available on each of three queues, and has them served.
static void share(struct front *front, unsigned each) {
  for (unsigned i = 0; i < 3 * each; i++) driver_put_table(front, Q + i % 3, (struct part){TABLE_AT, 16 * SHARED_TABLE, false});
  for (unsigned q = Q; q < QUEUES; q++) driver_kick(front, q);
  pump(front);
}

void test_shared(void) {
  static struct part parts[SHARED_TABLE];
  parts[0] = (struct part){REQUEST, HEAD, false};
  parts[1] = (struct part){ANSWER, RESPONSE, true};
  for (unsigned i = 2; i < SHARED_TABLE; i++) parts[i] = (struct part){ROOM, 1, true};
  for (unsigned number = 0; number < WAYS; number++) {
    struct disks disks;
    struct front front;
    uint32_t length;
    if (!way_of(number).indirect) continue;
    begin(&front, &disks, number);
    // This one writes the table.
    MUST(run(&front, ready, sizeof ready, parts, SHARED_TABLE) == 0);
    for (unsigned turn = 0; turn < 3; turn++) {
      share(&front, 8);
      for (unsigned i = 0; i < 24; i++) MUST(driver_next(&front, Q + i % 3, 1, &length) && length >= RESPONSE);
    }
    MUST(front.alive && !is_broken(&front));
    end(&front, &disks);
  }
}
