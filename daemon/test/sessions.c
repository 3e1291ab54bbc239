#include "sessions.h"

#include <fcntl.h>
#include <poll.h>
#include <string.h>
#include <sys/epoll.h>
#include <sys/eventfd.h>
#include <sys/mman.h>
#include <unistd.h>

#include "../bytes.h"
#include "../clock.h"
#include "faults.h"
#include "front.h"

static const uint8_t ready[6] = {0}, write_10[] = {0x2a, 0, 0, 0, 0, 3, 0, 0, 1, 0},
                     read_10[] = {0x28, 0, 0, 0, 0, 3, 0, 0, 1, 0};

enum { PAGE = 4096, MOST_SENT = 64, PATIENCE = 10000, FIRST_OF_RINGS = 8 };

static void begin(struct front *front, struct disks *disks, unsigned number) {
  char why[200];
  memset(disks, 0, sizeof *disks);
  MUST(disks_add(disks, "0:0=1M", why, sizeof why));
  front_begin(front, disks, way_of(number));
}

static void end(struct front *front, struct disks *disks) {
  front_end(front);
  disks_close(disks);
}

static bool is_ready(struct front *front, unsigned q) { return command(front, q, ready, sizeof ready, NULL, 0, NULL, 0) == 0; }

// Writes a block, or looks whether it is there.
static bool write_block(struct front *front) {
  uint8_t data[512];
  memset(data, 0x5a, sizeof data);
  return command(front, 2, write_10, sizeof write_10, data, sizeof data, NULL, 0) == 0;
}

static bool has_block(struct front *front) {
  uint8_t data[512] = {0};
  return command(front, 3, read_10, sizeof read_10, NULL, 0, data, sizeof data) == 0 && data[0] == 0x5a && data[511] == 0x5a;
}

void test_moved(void) {
  for (unsigned number = 0; number < WAYS; number++) {
    struct disks disks;
    struct front front;
    struct sent sent;
    begin(&front, &disks, number);
    if (front.way.far) {
      end(&front, &disks);
      continue;
    }
    front_agree(&front);
    MUST(write_block(&front));
    // The same regions once more change nothing.
    front_table(&front, &sent, (struct area[]){front_half(&front, 1), front_half(&front, 0)}, 2);
    MUST(front_ask(&front, &sent) && is_ready(&front, 2));
    front.swapped = true;
    front_table(&front, &sent, (struct area[]){front_half(&front, 0), front_half(&front, 1)}, 2);
    MUST(front_ask(&front, &sent));
    MUST(has_block(&front) && is_ready(&front, 2) && is_ready(&front, 4));
    end(&front, &disks);
  }
}

// Sets the session up with regions that are added one by one.
static void agree(struct front *front) {
  static struct sent sent[MOST_SENT];
  struct sent one;
  uint8_t payload[64];
  size_t count = front_set_up(front, sent, 0);
  little_put(sent[2].bytes + HEADER, P_MQ | P_REPLY_ACK | P_CONFIG | P_CONFIGURE_MEM_SLOTS, 8);
  for (size_t i = 0; i < FIRST_OF_RINGS - 1; i++) {
    MUST(front_send(front, &sent[i], 0, sent[i].length));
    pump(front);
    while (front_reply(front, payload, sizeof payload)) continue;
  }
  front_say(front, GET_MAX_MEM_SLOTS, 0);
  pump(front);
  MUST(front_reply(front, payload, sizeof payload) == 8 && little_get(payload, 8) == MOST_REGIONS);
  for (unsigned half = 2; half-- > 0;) {
    front_region(front, &one, ADD_MEM_REG, front_half(front, half));
    MUST(front_ask(front, &one));
  }
  for (size_t i = FIRST_OF_RINGS; i < count; i++) MUST(front_ask(front, &sent[i]));
}

// Returns a region of one page, far from the others.
static struct area page_of(unsigned i) {
  uint64_t at = (UINT64_C(1) << 40) + 2 * PAGE * (uint64_t)i;
  return (struct area){at, PAGE, at, PAGE * (uint64_t)(i % 16)};
}

void test_slots(void) {
  for (unsigned number = 0; number < WAYS; number += 3) {
    struct disks disks;
    struct front front;
    struct sent sent;
    begin(&front, &disks, number);
    agree(&front);
    MUST(write_block(&front) && has_block(&front));
    for (unsigned i = 0; i < MOST_REGIONS - 2; i++) {
      // In an order that isn't that of the addresses.
      front_region(&front, &sent, ADD_MEM_REG, page_of(i * 100 % (MOST_REGIONS - 2)));
      MUST(front_ask(&front, &sent));
    }
    front_region(&front, &sent, ADD_MEM_REG, page_of(MOST_REGIONS));
    MUST(!front_ask(&front, &sent) && is_ready(&front, 2));
    front_region(&front, &sent, REM_MEM_REG, page_of(MOST_REGIONS));
    MUST(!front_ask(&front, &sent));
    for (unsigned i = 0; i < MOST_REGIONS - 2; i += 2) {
      front_region(&front, &sent, REM_MEM_REG, page_of(i));
      MUST(front_ask(&front, &sent));
    }
    MUST(has_block(&front) && front.session.backend.memory.count == 2 + (MOST_REGIONS - 2) / 2);
    // The rings are gone for a time.
    for (unsigned i = 0; i < 2; i++) {
      front_region(&front, &sent, i ? ADD_MEM_REG : REM_MEM_REG, front_half(&front, 0));
      MUST(front_ask(&front, &sent));
    }
    MUST(has_block(&front) && is_ready(&front, 4));
    end(&front, &disks);
  }
}

// Starts queue 4 in the second half of memory, with nothing available.
static void start_elsewhere(struct front *front) {
  static struct sent sent[MOST_SENT];
  size_t count = front_set_up(front, sent, 0);
  uint64_t half = front_half(front, 1).user;
  for (size_t i = FIRST_OF_RINGS; i < count; i++) {
    uint8_t *at = sent[i].bytes + HEADER;
    if ((little_get(at, 4) & 0xff) != 4) continue;
    for (unsigned part = 0; part < 3 && little_get(sent[i].bytes, 4) == SET_VRING_ADDR; part++)
      little_put(at + 8 + 8 * part, half + 0x1000 * part, 8);
    MUST(front_ask(front, &sent[i]));
  }
}

// Starts all rings anew, as behind a reset.
static void start_again(struct front *front) {
  static struct sent sent[MOST_SENT];
  memset(front->memory, 0, GUEST_BYTES);
  for (unsigned q = 0; q < QUEUES; q++) front->queues[q] = (struct driver_queue){.next_wrap = true, .seen_wrap = true};
  size_t count = front_set_up(front, sent, 0);
  for (size_t i = FIRST_OF_RINGS; i < count; i++) MUST(front_ask(front, &sent[i]));
}

void test_torn(void) {
  static const struct part parts[] = {{0x200000, 51, false}, {0x201000, 108, true}};
  for (unsigned number = 0; number < 2 * WAYS; number += 3) {
    struct disks disks;
    struct front front;
    struct sent sent;
    uint32_t length;
    uint8_t payload[8];
    begin(&front, &disks, number % WAYS);
    agree(&front);
    MUST(is_ready(&front, 2) && is_ready(&front, 4));
    front_stop(&front, 4);
    start_elsewhere(&front);
    MUST(is_ready(&front, 2));
    // The memory of queue 4 goes and doesn't come again.
    front_region(&front, &sent, REM_MEM_REG, front_half(&front, 1));
    MUST(front_ask(&front, &sent));
    put_request(&front, 0x200000, ready, sizeof ready);
    driver_put(&front, 2, parts, 2);
    driver_kick(&front, 2);
    pump(&front);
    MUST(front.alive && !driver_next(&front, 2, 2, &length));
    if (number < WAYS) {
      front_stop(&front, 4);
      pump(&front);
      MUST(driver_next(&front, 2, 2, &length) && front.memory[0x201000 + 10] == 0);
    } else {
      front_say(&front, RESET_DEVICE, 0);
      pump(&front);
      MUST(front_reply(&front, payload, sizeof payload) == 8);
      start_again(&front);
    }
    MUST(is_ready(&front, 2) && is_ready(&front, 3));
    end(&front, &disks);
  }
}

void test_regions(void) {
  // What is added to the first page's addresses, its size and its place, and whether it is taken then.
  static const struct {
    struct area more;
    bool taken;
  } tries[] = {{{0, 0, 0, 0}, true},          {{2048, 0, 0, 0}, false},
               {{0, 0, 8, 0}, false},         {{0, 0, 0, 512}, false},
               {{0, UINT64_MAX, 0, 0}, true}, {{0, 1, 0, 0}, true},
               {{0, 0, 0, 1 << 23}, false},   {{0, 0 - (uint64_t)PAGE, 0, 0}, false}};
  for (unsigned number = 0; number < WAYS; number += 3) {
    struct disks disks;
    struct front front;
    struct sent sent;
    struct area it;
    begin(&front, &disks, number);
    agree(&front);
    for (unsigned i = 0; i < sizeof tries / sizeof *tries; i++) {
      const struct area *more = &tries[i].more;
      it = page_of(i);
      it = (struct area){it.guest + more->guest, it.size + more->size, it.user + more->user, it.place + more->place};
      front_region(&front, &sent, ADD_MEM_REG, it);
      MUST(front_ask(&front, &sent) == tries[i].taken);
    }
    // No region ends behind the last page that a guest may have, or behind the last of the front end's own addresses.
    for (uint64_t size = PAGE; size <= 2 * PAGE; size += PAGE) {
      front_region(&front, &sent, ADD_MEM_REG, (struct area){MEMORY_END + PAGE - size, size, UINT64_C(1) << 62, 0});
      MUST(!front_ask(&front, &sent));
      front_region(&front, &sent, ADD_MEM_REG, (struct area){UINT64_C(0) - PAGE, size, UINT64_C(1) << 62, 0});
      MUST(!front_ask(&front, &sent));
      front_region(&front, &sent, ADD_MEM_REG, (struct area){UINT64_C(1) << 62, size, UINT64_C(0) - PAGE, 0});
      MUST(!front_ask(&front, &sent));
    }
    it = (struct area){MEMORY_END - PAGE, PAGE, UINT64_C(1) << 62, 0};
    front_region(&front, &sent, ADD_MEM_REG, it);
    MUST(front_ask(&front, &sent) && write_block(&front) && has_block(&front));
    end(&front, &disks);
  }
}

void test_short(void) {
  // Where the memory then ends: before a request, before the rings, and before the data of a READ.
  static const off_t ends[] = {0x100000, 0, HALF};
  for (unsigned number = 0; number < 3 * WAYS; number++) {
    struct disks disks;
    struct front front;
    uint32_t length;
    begin(&front, &disks, number % WAYS);
    MUST(!fcntl(front.memory_fd, F_ADD_SEALS, F_SEAL_SEAL));
    front_agree(&front);
    MUST(write_block(&front));
    put_request(&front, 0x200000, read_10, sizeof read_10);
    const struct part parts[] = {{0x200000, 51, false}, {0x201000, 108, true}, {HALF + 0x1000, 512, true}};
    driver_put(&front, 2, parts, 3);
    MUST(!ftruncate(front.memory_fd, ends[number / WAYS]) && write(front.kick[2], &(uint64_t){1}, 8) == 8);
    pump(&front);
    MUST(!front.alive);
    // As long as before, so that the test itself may look at it.
    MUST(!ftruncate(front.memory_fd, GUEST_BYTES) && !driver_take(&front, 3, &length));
    front_end(&front);
    front_begin(&front, &disks, way_of(number % WAYS));
    front_agree(&front);
    MUST(has_block(&front));
    // This memory the daemon keeps from that.
    MUST(ftruncate(front.memory_fd, HALF) && is_ready(&front, 2));
    end(&front, &disks);
  }
}

void test_forms(void) {
  static struct sent sent[MOST_SENT];
  static const uint32_t bases[] = {0x80008000, 0x00010000, 0x7fff8000};
  for (unsigned i = 0; i < sizeof bases / sizeof *bases; i++) {
    struct disks disks;
    struct front front;
    begin(&front, &disks, 8 * (i % 2));
    size_t count = front_set_up(&front, sent, bases[i]);
    for (size_t n = 2; n < count; n++) {
      if (n == 3 || n == 6) continue;  // these have replies of their own
      bool is_kick = little_get(sent[n].bytes, 4) == SET_VRING_KICK;
      MUST(front_ask(&front, &sent[n]) == !is_kick && front.alive);
    }
    end(&front, &disks);
  }
}

void test_stale(void) {
  static const struct part parts[] = {{0x300000, 16, true}, {0x300010, 16, true}, {0x300020, 16, true}};
  for (unsigned number = 1; number < WAYS; number += 2) {
    struct disks disks;
    struct front front;
    struct driver_queue *queue = &front.queues[EVENT_QUEUE];
    if (way_of(number).indirect) continue;
    begin(&front, &disks, number);
    front_agree(&front);
    MUST(is_ready(&front, 2));
    // All descriptors of the ring are taken, by six chains.
    for (unsigned i = 0; i < 6; i++) driver_put(&front, EVENT_QUEUE, parts, i < 5 ? 3 : 1);
    driver_kick(&front, EVENT_QUEUE);
    pump(&front);
    MUST(queue->next == 0 && !queue->next_wrap);
    // The first one is made available once more, though the device has it.
    little_put(front.memory + place_of(EVENT_QUEUE, 0) + 14, FLAG_USED | FLAG_WRITE, 2);
    driver_kick(&front, EVENT_QUEUE);
    pump(&front);
    MUST(front.alive && is_ready(&front, 2));
    end(&front, &disks);
  }
}

void test_kicks(void) {
  for (unsigned number = 0; number < WAYS; number++) {
    struct disks disks;
    struct front front;
    struct sent sent;
    struct epoll_event event = {.events = EPOLLIN};
    uint32_t length;
    begin(&front, &disks, number);
    front_agree(&front);
    MUST(is_ready(&front, 2));
    // An epoll descriptor is never read, and has something to say for ever.
    int other = epoll_create1(EPOLL_CLOEXEC);
    MUST(!epoll_ctl(other, EPOLL_CTL_ADD, front.call[0], &event) && write(front.call[0], &(uint64_t){1}, 8) == 8);
    front_descriptor(&sent, SET_VRING_KICK, 2, other);
    MUST(front_ask(&front, &sent));
    for (unsigned i = 0; i < 4; i++) turn(&front);
    // The front end's own end of the connection would keep that open.
    struct sent wrong;
    front_descriptor(&wrong, SET_VRING_CALL, 2, front.socket);
    MUST(!front_ask(&front, &wrong) && front.alive);
    // Reading a file may take as long as its file system wants.
    front_descriptor(&wrong, SET_VRING_KICK, 2, front.memory_fd);
    MUST(!front_ask(&front, &wrong) && front.alive);
    MUST(epoll_wait(front.epoll, &event, 1, 0) == 0 && !front.session.more);
    close(other);
    // Without a kick the daemon looks by itself.
    front_descriptor(&sent, SET_VRING_KICK, 3, -1);
    MUST(front_ask(&front, &sent));
    put_request(&front, 0x200000, ready, sizeof ready);
    const struct part parts[] = {{0x200000, 51, false}, {0x201000, 108, true}};
    driver_put(&front, 3, parts, 2);
    bool answered = false;
    for (uint64_t begun = clock_now(); !answered && clock_now() - begun < PATIENCE; usleep(200)) {
      turn(&front);
      answered = driver_next(&front, 3, 2, &length);
    }
    MUST(answered && front.memory[0x201000 + 10] == 0);
    // Once in a millisecond at most.
    unsigned looks = 0;
    uint64_t begun = clock_now();
    while (clock_now() - begun < 50) looks += epoll_wait(front.epoll, &event, 1, 0) > 0 ? (turn(&front), 1u) : 0u;
    MUST(looks && looks <= clock_now() - begun + 1);
    end(&front, &disks);
  }
}

static bool has_more(int fd) {
  struct pollfd asked = {.fd = fd, .events = POLLIN};
  return poll(&asked, 1, 0) == 1;
}

void test_pipes(void) {
  for (unsigned number = 0; number < WAYS; number++) {
    struct disks disks;
    struct front front;
    struct sent sent;
    int ends[2], own;
    begin(&front, &disks, number);
    front_agree(&front);
    // An eventfd is read as its queue stops, and not before.
    for (unsigned i = 0; i < 3; i++) MUST(is_ready(&front, 3));
    MUST(has_more(front.kick[3]));
    front_stop(&front, 3);
    MUST(!has_more(front.kick[3]));
    // A pipe is read at each kick, and its end is none.
    MUST(!pipe2(ends, O_CLOEXEC | O_NONBLOCK));
    front_descriptor(&sent, SET_VRING_KICK, 4, ends[0]);
    MUST(front_ask(&front, &sent));
    own = front.kick[4];
    front.kick[4] = ends[1];
    for (unsigned i = 0; i < 3; i++) MUST(is_ready(&front, 4));
    front.kick[4] = own;
    MUST(!has_more(ends[0]));
    close(ends[1]);
    pump(&front);
    MUST(front.alive && is_ready(&front, 2));
    close(ends[0]);
    end(&front, &disks);
  }
}

void test_called(void) {
  static const struct part parts[] = {{0x200000, 51, false}, {0x201000, 108, true}};
  for (unsigned number = 0; number < WAYS; number++) {
    struct disks disks;
    struct front front;
    struct sent sent;
    uint32_t length;
    int other = eventfd(0, EFD_NONBLOCK | EFD_CLOEXEC);
    begin(&front, &disks, number);
    front_agree(&front);
    MUST(is_ready(&front, 3));
    // A request is answered while there is nobody to be told.
    front_descriptor(&sent, SET_VRING_CALL, 3, -1);
    MUST(front_ask(&front, &sent));
    put_request(&front, 0x200000, ready, sizeof ready);
    driver_put(&front, 3, parts, 2);
    driver_kick(&front, 3);
    pump(&front);
    front_descriptor(&sent, SET_VRING_CALL, 3, other);
    MUST(front_ask(&front, &sent) && has_more(other) && driver_next(&front, 3, 2, &length));
    // A queue that isn't started has no answers.
    MUST(eventfd_read(other, &(eventfd_t){0}) == 0);
    front_stop(&front, 3);
    MUST(front_ask(&front, &sent) && !has_more(other));
    close(other);
    end(&front, &disks);
  }
}

// Makes a descriptor that the daemon has too one that waits.
static void make_wait(int fd) { MUST(!fcntl(fd, F_SETFL, fcntl(fd, F_GETFL) & ~O_NONBLOCK)); }

void test_waits(void) {
  for (unsigned number = 0; number < WAYS; number++) {
    struct disks disks;
    struct front front;
    int ends[2];
    struct sent sent;
    begin(&front, &disks, number);
    front_agree(&front);
    MUST(is_ready(&front, 3) && !pipe2(ends, O_CLOEXEC));
    // Whoever waits for ever is ended by this.
    alarm(20);
    make_wait(front.kick[3]);
    make_wait(front.call[3]);
    // There is nothing to be read: the front end read it first.
    session_kicked(&front.session, 3);
    front_descriptor(&sent, SET_VRING_KICK, 4, ends[0]);
    MUST(front_ask(&front, &sent));
    make_wait(ends[0]);
    session_kicked(&front.session, 4);
    // There is no room for more in this count.
    MUST(write(front.call[3], &(uint64_t){UINT64_MAX - 1}, 8) == 8);
    MUST(is_ready(&front, 3) && is_ready(&front, 2) && is_ready(&front, 3));
    alarm(0);
    close(ends[0]);
    close(ends[1]);
    end(&front, &disks);
  }
}

void test_reset(void) {
  for (unsigned number = 0; number < WAYS; number++) {
    static struct sent sent[MOST_SENT];
    struct disks disks;
    struct front front;
    uint64_t told;
    begin(&front, &disks, number);
    front_agree(&front);
    MUST(write_block(&front));
    front_say(&front, RESET_DEVICE, 0);
    pump(&front);
    memset(front.memory, 0, GUEST_BYTES);
    for (unsigned q = 0; q < QUEUES; q++) front.queues[q] = (struct driver_queue){.next_wrap = true, .seen_wrap = true};
    uint8_t payload[8];
    MUST(front_reply(&front, payload, sizeof payload) == 8 && little_get(payload, 8) == 0);
    size_t count = front_set_up(&front, sent, 0);
    for (size_t i = FIRST_OF_RINGS - 1; i < count; i++) {
      uint64_t request = little_get(sent[i].bytes, 4);
      MUST(request == SET_VRING_CALL || request == SET_VRING_ERR || front_ask(&front, &sent[i]));
    }
    MUST(has_block(&front));
    // A chain with a readable part behind a writable one.
    const struct part parts[] = {{0x200000, 51, true}, {0x201000, 108, false}};
    driver_put(&front, 4, parts, 2);
    driver_kick(&front, 4);
    pump(&front);
    MUST(front.alive && read(front.err[4], &told, sizeof told) == sizeof told);
    end(&front, &disks);
  }
}

// Has the session go on until a request of queue 3 is answered. Returns whether it was GOOD.
static bool await_ready(struct front *front) {
  uint32_t length;
  put_request(front, 0x200000, ready, sizeof ready);
  const struct part parts[] = {{0x200000, 51, false}, {0x201000, 108, true}};
  driver_put(front, 3, parts, 2);
  driver_kick(front, 3);
  for (uint64_t begun = clock_now(); clock_now() - begun < PATIENCE; usleep(200)) {
    turn(front);
    if (driver_next(front, 3, 2, &length)) return front->alive && front->memory[0x201000 + 10] == 0;
  }
  return false;
}

void test_refused(void) {
  for (unsigned number = 0; number < WAYS; number++) {
    struct disks disks;
    struct front front;
    begin(&front, &disks, number);
    front_agree(&front);
    // There is no memory for the device, and then none for what it serves.
    faults.creations = 2;
    MUST(await_ready(&front) && !faults.creations);
    MUST(write_block(&front));
    faults.refusals = 2;
    MUST(await_ready(&front) && !faults.refusals);
    MUST(has_block(&front));
    end(&front, &disks);
  }
}

void test_endless(void) {
  for (unsigned number = 0; number < WAYS; number += 5) {
    struct disks disks;
    struct front front;
    uint32_t length;
    uint8_t payload[8];
    bool stays = number >= 10;
    begin(&front, &disks, number);
    front_agree(&front);
    MUST(write_block(&front));
    put_request(&front, 0x200000, ready, sizeof ready);
    const struct part parts[] = {{0x200000, 51, false}, {0x201000, 108, true}};
    driver_put(&front, 3, parts, 2);
    driver_kick(&front, 3);
    faults.endless = true;
    turn(&front);
    front_say(&front, GET_FEATURES, 0);
    front_say(&front, GET_VRING_BASE, 4);
    turn(&front);
    // Messages are answered meanwhile, but for those that end the device.
    MUST(front.alive && front.session.more && front_reply(&front, payload, sizeof payload) == 8 &&
         !front_reply(&front, payload, sizeof payload));
    MUST(driver_next(&front, 3, 2, &length) && front.memory[0x201000 + 10] == 0);
    faults.passed++;
    turn(&front);
    MUST(front.alive && !front_reply(&front, payload, sizeof payload));
    // For so long it had time, by itself or not.
    faults.endless = stays;
    faults.passed += stays ? 4 : 0;
    turn(&front);
    // What was answered while the device was at it can't run once more, so the session ends.
    MUST(front.alive == !stays);
    if (front.alive) MUST(front_reply(&front, payload, sizeof payload) == 8 && little_get(payload, 4) == 4);
    faults.endless = false;
    MUST(!front.alive || has_block(&front));
    end(&front, &disks);
  }
}

// Makes a request of queue 3 available, with a kick or without one. Returns whether it is answered then.
static bool is_seen(struct front *front, bool kicks) {
  uint32_t length;
  put_request(front, 0x200000, ready, sizeof ready);
  const struct part parts[] = {{0x200000, 51, false}, {0x201000, 108, true}};
  driver_put(front, 3, parts, 2);
  if (kicks) driver_kick(front, 3);
  turn(front);
  return driver_next(front, 3, 2, &length) && front->memory[0x201000 + 10] == 0;
}

void test_polls(void) {
  for (unsigned number = 0; number < WAYS; number++) {
    struct way way = way_of(number);
    struct disks disks;
    struct front front;
    char why[200];
    memset(&disks, 0, sizeof disks);
    MUST(disks_add(&disks, "0:0=1M", why, sizeof why));
    way.polling = (struct polling){.most = 10000000, .is_fixed = true};
    front_begin(&front, &disks, way);
    front_agree(&front);
    for (unsigned turns = 0; turns < 3; turns++) {
      uint32_t length;
      MUST(is_seen(&front, true) && front.session.more);
      for (unsigned i = 0; i < 20; i++) MUST(is_seen(&front, false));
      // An idle one is asked for its kicks again.
      faults.passed++;
      pump(&front);
      MUST(!front.session.more && !is_seen(&front, false));
      driver_kick(&front, 3);
      turn(&front);
      MUST(driver_next(&front, 3, 2, &length));
    }
    faults.passed++;
    pump(&front);
    end(&front, &disks);
  }
}

static void begin_polled(struct front *front, struct disks *disks, unsigned number, struct polling polling) {
  struct way way = way_of(number);
  char why[200];
  memset(disks, 0, sizeof *disks);
  MUST(disks_add(disks, "0:0=1M", why, sizeof why));
  way.polling = polling;
  front_begin(front, disks, way);
  front_agree(front);
}

void test_windows(void) {
  for (unsigned number = 0; number < WAYS; number++) {
    struct disks disks;
    struct front front;
    const struct session *session = &front.session;
    // What comes soon has the session look for longer, and what comes late has it wait for a kick at once.
    begin_polled(&front, &disks, number, (struct polling){.most = UINT64_C(10000000000)});
    for (unsigned i = 0; i < 40; i++) MUST(is_seen(&front, true));
    uint64_t before = session->window;
    MUST(before >= 4000 && before <= session->polling.most);
    faults.passed += 11;
    pump(&front);
    driver_kick(&front, 3);
    pump(&front);
    MUST(!session->more && session->window == before && !session->backend.silent);
    MUST(is_seen(&front, true) && !session->window && !session->more && !session->backend.silent);
    end(&front, &disks);
    begin_polled(&front, &disks, number, (struct polling){0});
    for (unsigned i = 0; i < 40; i++) MUST(is_seen(&front, true) && !session->window && !session->more);
    end(&front, &disks);
  }
}

void test_disabled(void) {
  enum { Q = 3 };
  for (unsigned number = 0; number < WAYS; number++) {
    struct disks disks;
    struct front front;
    uint32_t length;
    begin_polled(&front, &disks, number, (struct polling){.most = 10000000, .is_fixed = true});
    MUST(is_seen(&front, true) && front.session.backend.silent >> Q & 1);
    // The driver was asked not to notify, and the others are asked for kicks while its queue isn't served.
    front_say(&front, SET_VRING_ENABLE, Q);
    turn(&front);
    if (number & 8) MUST(!is_seen(&front, true));
    faults.passed++;
    pump(&front);
    MUST(front.alive && !front.session.more);
    front_say(&front, SET_VRING_ENABLE, Q | UINT64_C(1) << 32);
    turn(&front);
    if (number & 8) MUST(driver_next(&front, Q, 2, &length));
    faults.passed++;
    pump(&front);
    MUST(!front.session.more && is_seen(&front, true));
    end(&front, &disks);
  }
}

void test_replaced(void) {
  enum { Q = 3 };
  for (unsigned number = 0; number < WAYS; number++) {
    static const struct part parts[] = {{0x200000, 51, false}, {0x201000, 108, true}};
    struct disks disks;
    struct front front;
    struct sent sent;
    uint32_t length;
    int other = eventfd(0, EFD_NONBLOCK | EFD_CLOEXEC);
    begin(&front, &disks, number);
    front_agree(&front);
    MUST(is_ready(&front, Q));
    // A kick that comes while the daemon takes another descriptor in place of the one that it came by.
    front_descriptor(&sent, SET_VRING_KICK, Q, other);
    MUST(front_send(&front, &sent, 0, sent.length));
    put_request(&front, 0x200000, ready, sizeof ready);
    driver_put(&front, Q, parts, 2);
    driver_kick(&front, Q);
    MUST(session_read(&front.session));
    pump(&front);
    MUST(driver_next(&front, Q, 2, &length) && front_reply(&front, sent.bytes, sizeof sent.bytes) == 8);
    close(front.kick[Q]);
    front.kick[Q] = other;
    for (unsigned i = 0; i < 3; i++) MUST(is_ready(&front, Q));
    end(&front, &disks);
  }
}

static struct front *late;

// A request that comes before its driver could see that it was asked to notify, while the device has more to do than it gets done.
static void come_late(void) {
  static const struct part parts[] = {{0x200000, 51, false}, {0x201000, 108, true}};
  put_request(late, 0x200000, ready, sizeof ready);
  driver_put(late, 3, parts, 2);
  late->queues[3].told = late->queues[3].next;
  faults.endless = true;
}

void test_late(void) {
  for (unsigned number = 0; number < WAYS; number++) {
    static const struct part parts[] = {{0x210000, 51, false}, {0x211000, 108, true}};
    struct disks disks;
    struct front front;
    uint32_t length;
    begin_polled(&front, &disks, number, (struct polling){0});
    MUST(is_ready(&front, 3));
    late = &front;
    put_request(&front, 0x210000, ready, sizeof ready);
    driver_put(&front, 3, parts, 2);
    driver_kick(&front, 3);
    // Behind the call that takes this one the driver is asked for the next.
    faults.comes_after = 1;
    faults.comes = come_late;
    turn(&front);
    faults.comes = NULL;
    faults.endless = false;
    pump(&front);
    MUST(driver_next(&front, 3, 2, &length));
    // Others aren't asked each time.
    MUST(driver_next(&front, 3, 2, &length) == (front.way.event_index && !front.way.packed));
    for (unsigned i = 0; i < 3; i++) MUST(is_ready(&front, 3));
    end(&front, &disks);
  }
}

static void let_pass(void) { faults.passed++; }

void test_interrupted(void) {
  for (unsigned number = 0; number < WAYS; number++) {
    static const struct part parts[3][2] = {{{0x200000, 51, false}, {0x201000, 108, true}},
                                            {{0x210000, 51, false}, {0x211000, 108, true}},
                                            {{0x220000, 51, false}, {0x221000, 108, true}}};
    for (unsigned after = 1; after < 4; after++) {
      struct disks disks;
      struct front front;
      uint32_t length;
      begin_polled(&front, &disks, number, (struct polling){0});
      MUST(is_ready(&front, 3));
      // Queues take turns, and the daemon doesn't run for a second behind the turns of some of them.
      faults.endless = true;
      MUST(is_seen(&front, true) && front.session.more);
      faults.endless = false;
      faults.comes_after = after;
      faults.comes = let_pass;
      turn(&front);
      for (unsigned i = 0; i < 3; i++) {
        put_request(&front, parts[i][0].place, ready, sizeof ready);
        driver_put(&front, 2 + i, parts[i], 2);
        driver_kick(&front, 2 + i);
      }
      pump(&front);
      for (unsigned i = 0; i < 3; i++) MUST(driver_next(&front, 2 + i, 2, &length));
      faults.comes = NULL;
      end(&front, &disks);
    }
  }
}

void test_status(void) {
  static const struct part wrong[] = {{0x200000, 51, true}, {0x201000, 108, false}};
  for (unsigned number = 0; number < WAYS; number++) {
    struct disks disks;
    struct front front;
    uint8_t payload[8];
    begin(&front, &disks, number);
    front_agree(&front);
    front_say(&front, SET_STATUS, 15);
    MUST(write_block(&front) && front_reply(&front, payload, sizeof payload) == 8);
    driver_put(&front, 4, wrong, 2);
    driver_kick(&front, 4);
    pump(&front);
    front_say(&front, GET_STATUS, 0);
    pump(&front);
    MUST(front_reply(&front, payload, sizeof payload) == 8 && little_get(payload, 8) == (15 | 64));
    // Its memory may be another's then.
    struct sent sent;
    front_table(&front, &sent, (struct area[]){front_half(&front, 0), front_half(&front, 1)}, 2);
    MUST(front_ask(&front, &sent) && is_ready(&front, 3));
    front_stop(&front, 3);
    front_say(&front, SET_STATUS, 0);
    pump(&front);
    MUST(front_reply(&front, payload, sizeof payload) == 8 && !front.session.queues[2].started);
    memset(front.memory, 0, GUEST_BYTES);
    for (unsigned q = 0; q < QUEUES; q++) front.queues[q] = (struct driver_queue){.next_wrap = true, .seen_wrap = true};
    front_agree(&front);
    MUST(has_block(&front) && is_ready(&front, 4));
    end(&front, &disks);
  }
}
