#include "stops.h"

#include <stdio.h>
#include <string.h>
#include <unistd.h>

#include "../bytes.h"
#include "front.h"
#include "load.h"

// A request without data and its response, and the event buffers, which are given one after the other.
enum { REQUEST = 0x220000, ANSWER = 0x220400, EVENTS = 0x300000, EVENT = 16, MOST_HELD = 3, TURNS = 12, CHECK_CONDITION = 2 };

static const uint8_t ready[6] = {0}, read_10[] = {0x28, 0, 0, 0, 0, 3, 0, 0, 1, 0};

// Returns a place of a ring as GET_VRING_BASE tells it.
static uint32_t base_of(const struct front *front, uint16_t at, bool wrap) {
  uint32_t half = (uint32_t)at | (uint32_t)wrap << 15;
  return front->way.packed ? half << 16 | half : at;
}

// Returns where a queue stands behind all that the driver made available, or behind all that was used of it.
static uint32_t next_of(const struct front *front, unsigned q) {
  return base_of(front, front->queues[q].next, front->queues[q].next_wrap);
}
static uint32_t seen_of(const struct front *front, unsigned q) {
  return base_of(front, front->queues[q].seen, front->queues[q].seen_wrap);
}

static void put_event(struct front *front, unsigned number) {
  const struct part buffer = {EVENTS + EVENT * (uint64_t)number, EVENT, true};
  memset(front->memory + buffer.place, 0xee, EVENT);
  driver_put(front, EVENT_QUEUE, &buffer, 1);
  driver_kick(front, EVENT_QUEUE);
}

// Has the operator reset the disk. Looks whether this event buffer, and none behind it, tells that.
static void reset_disk(struct front *front, unsigned number) {
  enum { TRANSPORT_RESET = 1 };
  const uint8_t *at = front->memory + EVENTS + EVENT * (uint64_t)number;
  uint32_t length;
  MUST(device_reset(&front->session.backend.device, 0, 0));
  front->session.more = true;
  pump(front);
  MUST(driver_next(front, EVENT_QUEUE, 1, &length) && length == EVENT && little_get(at, 4) == TRANSPORT_RESET && at[EVENT] == 0xee);
  MUST(command(front, 3, ready, sizeof ready, NULL, 0, NULL, 0) == CHECK_CONDITION);
}

// Stops queue 2 behind a request of which the daemon wasn't told, and has it go on.
static void stop_requests(struct front *front) {
  const struct part parts[] = {{REQUEST, HEAD, false}, {ANSWER, RESPONSE, true}};
  uint32_t base = next_of(front, 2), length;
  put_request(front, REQUEST, ready, sizeof ready);
  driver_put(front, 2, parts, 2);
  MUST(front_stop(front, 2) == base && front_stop(front, 2) == base);
  MUST(command(front, 4, ready, sizeof ready, NULL, 0, NULL, 0) == 0 && !driver_next(front, 2, 2, &length));
  front_start(front, 2, base);
  pump(front);
  MUST(driver_next(front, 2, 2, &length) && length == RESPONSE && front->memory[ANSWER + 10] == 0);
  MUST(seen_of(front, 2) == next_of(front, 2));
}

static void stop_events(struct front *front) {
  uint32_t base = seen_of(front, EVENT_QUEUE);
  MUST(front_stop(front, EVENT_QUEUE) == base);
  MUST(command(front, 3, ready, sizeof ready, NULL, 0, NULL, 0) == 0);
  front_start(front, EVENT_QUEUE, base);
}

// Breaks queue 4 behind what was served of it. Another start doesn't mend it.
static void stop_broken(struct front *front) {
  const struct part wrong[] = {{REQUEST, HEAD, true}, {ANSWER, RESPONSE, false}};
  uint32_t base = next_of(front, 4);
  driver_put(front, 4, wrong, 2);
  for (unsigned i = 0; i < 2; i++) {
    driver_kick(front, 4);
    pump(front);
    MUST(front->alive && front->session.backend.queues[4].fault && front_stop(front, 4) == base);
    if (!i) front_start(front, 4, base);
  }
  MUST(command(front, 2, ready, sizeof ready, NULL, 0, NULL, 0) == 0);
}

void test_stops(void) {
  for (unsigned number = 0; number < 2 * WAYS; number++) {
    struct disks disks = {0};
    struct front front;
    uint8_t block[512];
    char why[200];
    bool has_file = number >= WAYS;
    if (has_file) load_make(&disks, "64G", "");
    else MUST(disks_add(&disks, "0:0=1M", why, sizeof why));
    front_begin(&front, &disks, way_of(number % WAYS));
    front_agree(&front);
    for (unsigned i = 0; i < MOST_HELD; i++) put_event(&front, i);
    memset(front.memory + EVENTS + EVENT * MOST_HELD, 0xee, EVENT);
    for (unsigned turns = 0; turns < TURNS; turns++) {
      // Chains of two and three parts, and of another number each time.
      for (unsigned i = 0; i < turns; i++)
        MUST(command(&front, 2, read_10, sizeof read_10, NULL, 0, block, sizeof block) == 0 &&
             command(&front, 2, ready, sizeof ready, NULL, 0, NULL, 0) == 0);
      stop_requests(&front);
      reset_disk(&front, turns);
      stop_events(&front);
      put_event(&front, turns + MOST_HELD);
      memset(front.memory + EVENTS + EVENT * (turns + MOST_HELD + 1), 0xee, EVENT);
      pump(&front);
    }
    stop_broken(&front);
    if (has_file) load_end(&front, &disks);
    else front_end(&front), disks_close(&disks);
  }
}

void test_enabled(void) {
  for (unsigned number = 0; number < 2 * WAYS; number++) {
    static struct sent sent[64];
    struct disks disks = {0};
    struct front front;
    char why[200];
    uint32_t length;
    bool has_file = number >= WAYS;
    if (has_file) load_make(&disks, "64G", "");
    else MUST(disks_add(&disks, "0:0=1M", why, sizeof why));
    front_begin(&front, &disks, way_of(number % WAYS));
    size_t count = front_set_up(&front, sent, 0);
    for (size_t i = 2; i < count; i++) {
      uint64_t request = little_get(sent[i].bytes, 4), q = little_get(sent[i].bytes + HEADER, 4);
      const struct part parts[] = {{REQUEST, HEAD, false}, {ANSWER, RESPONSE, true}};
      if (i == 3 || i == 6) continue;  // these have replies of their own
      bool is_enabled = request == SET_VRING_ENABLE && q > EVENT_QUEUE;
      if (is_enabled) {
        put_request(&front, REQUEST, ready, sizeof ready);
        driver_put(&front, (unsigned)q, parts, 2);
        driver_kick(&front, (unsigned)q);
        pump(&front);
        MUST(!driver_next(&front, (unsigned)q, 2, &length));
      }
      MUST(front_ask(&front, &sent[i]));
      pump(&front);
      MUST(!is_enabled || driver_next(&front, (unsigned)q, 2, &length));
      for (unsigned j = 0; is_enabled && j < 3; j++) MUST(command(&front, (unsigned)q, ready, sizeof ready, NULL, 0, NULL, 0) == 0);
    }
    if (has_file) load_end(&front, &disks);
    else front_end(&front), disks_close(&disks);
  }
}
