// A driver that sleeps until it is notified, of several requests at once: no notification may be lost, whenever it names the
// chain of which it wants one (VIRTIO 1.2, 2.7.10 and 2.8.10). Over split queues and packed ones, with flags and with event
// indices.
//
// First the guest's own requests name it: a READ of queue 3 lays its data over what the driver of queue 2 asks for, once the
// chain of queue 2 was used. Then the guest is a thread. A word says how many batches it sends: 2,000 without one.
#include <poll.h>
#include <pthread.h>
#include <sched.h>
#include <sys/eventfd.h>
#include <unistd.h>

#define EXAMPLE "notified"
#include "guest.h"

enum { ALL_QUEUES = 4, ASKING = 2, READING = 3, LONG_MS = 30000, ENABLE = 0, DISABLE = 1, NAMED = 2, WRAP = 1 << 15 };

// Where the requests of a queue lie, one for each descriptor, and what a READ needs no room for.
enum { REQUESTS = 0x8000, RESPONSES = 0xa000, TABLES = 0xc000, UNUSED = 0xe000, APART = 0x100 };

static _Alignas(4096) uint8_t memory[MEMORY]; // guest memory from 0 on
static const struct guest its = {.memory = memory};
static bool packed, names;                    // which form the queues have, and whether chains are named
static int kick, notice;                      // to the host, and to the guest
static unsigned made[ALL_QUEUES];             // how many chains each queue had
static struct vscsi_live device;
static bool asleep; // the host waits for a kick

static uint64_t area(unsigned q) { return 0x1000 * (q + 1); }
static uint64_t driver_at(unsigned q) { return area(q) + 0x400; }
static uint64_t device_at(unsigned q) { return area(q) + 0x800; }

// What a driver stores to be notified of one chain, or, where none are named, of each: where it stands, and what it is.
static uint64_t wish_at(unsigned q) { return packed || !names ? driver_at(q) : driver_at(q) + 4 + 2 * SIZE; }
static uint32_t wish_of(unsigned chain) {
  if (packed) return names ? chain % SIZE | (wraps(chain) ? WRAP : 0) | (uint32_t)NAMED << 16 : (uint32_t)ENABLE << 16;
  return names ? (uint16_t)chain : 0;
}
static uint32_t no_wish(void) { return packed ? (uint32_t)DISABLE << 16 : names ? wish_of(made[ASKING] + 0x8000) : 1; }
static void wish(uint32_t wanted) {
  put(&its, wish_at(ASKING), wanted & 0xffff);
  if (packed) put(&its, wish_at(ASKING) + 2, wanted >> 16);
}

// What the chain with a number has its request, its response and its table at, in the room of its queue.
static uint64_t room(uint64_t from, unsigned q, unsigned chain) { return from + 0x800 * (q - ASKING) + APART * (chain % SIZE); }

struct part {
  uint64_t addr;
  uint32_t length;
  bool is_written; // by the device
};

// Makes a request of a queue available, by a table of its own: the request, and these parts.
static void offer(unsigned q, const uint8_t *command, const struct part *parts, unsigned count) {
  unsigned n = made[q]++, slot = n % SIZE;
  uint64_t request = room(REQUESTS, q, n), table = room(TABLES, q, n);
  uint8_t bytes[REQUEST] = {1, 0, 0x40, 0};
  struct descriptor entries[4] = {entry(packed, request, REQUEST, packed ? 0 : NEXT, 1, 0)};
  for (unsigned i = 0; i < count; i++) {
    unsigned flags = (parts[i].is_written ? WRITE : 0) | (!packed && i + 1 < count ? NEXT : 0);
    entries[i + 1] = entry(packed, parts[i].addr, parts[i].length, flags, i + 2, 0);
  }
  memcpy(bytes + 19, command, 10);
  store(&its, request, bytes, sizeof bytes);
  store(&its, table, entries, ENTRY * (count + 1));
  unsigned side = !packed ? 0 : wraps(n) ? AVAILABLE : USED;
  struct descriptor chain = entry(packed, table, ENTRY * (count + 1), INDIRECT | side, 0, slot);
  store(&its, area(q) + ENTRY * slot, &chain, 14);
  put(&its, area(q) + ENTRY * slot + 14, chain.next);
  if (packed) return;
  put(&its, driver_at(q) + 4 + 2 * slot, slot);
  put(&its, driver_at(q) + 2, n + 1);
}

// Whether the device has used the chain with a number, one of the latest of its queue. Chains are used in their order.
static bool used(unsigned q, unsigned chain) {
  const unsigned both = AVAILABLE | USED;
  if (!packed) return (int16_t)(uint16_t)(get(&its, device_at(q) + 2) - (chain + 1)) >= 0;
  return (get(&its, area(q) + ENTRY * (chain % SIZE) + 14) & both) == (wraps(chain) ? both : 0);
}

static void open_device(bool asks) {
  const struct vscsi_unit unit = {.blocks = 1000, .calm = 1};
  const struct vscsi_region region = {.guest = 0, .size = MEMORY, .host = memory};
  struct vscsi_ring rings[ALL_QUEUES] = {0};
  for (unsigned q = 0; q < ALL_QUEUES; q++)
    rings[q] = (struct vscsi_ring){.desc = area(q), .driver = driver_at(q), .device = device_at(q), .size = SIZE};
  struct vscsi_live_config config = {.size = sizeof config, .rings = rings, .ring_count = ALL_QUEUES, .units = &unit, .unit_count = 1};
  config.features = VSCSI_F_VERSION_1 | VSCSI_F_INDIRECT_DESC | (packed ? VSCSI_F_RING_PACKED : 0) | (names ? VSCSI_F_EVENT_IDX : 0);
  config.asks = asks;
  memset(memory, 0, sizeof memory);
  memset(made, 0, sizeof made);
  must("create", vscsi_live_create(&device, &config, NULL, NULL));
  must("map", vscsi_map(&device, &region, 1));
}

static void fail(const char *what) {
  fprintf(stderr, EXAMPLE ": %s%s: %s\n", packed ? "packed" : "split", names ? ", names" : "", what);
  exit(1);
}

static const uint8_t test_unit_ready[10], read_10[10] = {0x28, [8] = 1}, write_10[10] = {0x2a, [8] = 1};

// Serves what is there, and tells which queues are owed a notification.
static uint32_t serve(void) {
  uint32_t owed, all = 0;
  for (bool more = true; more; all |= owed) {
    must("serve", vscsi_live_serve(&device, ~UINT32_C(0), 1000, NULL, &more));
    must("owed", vscsi_live_owed(&device, &owed));
  }
  return all;
}

static struct part response_part(unsigned q) { return (struct part){room(RESPONSES, q, made[q]), RESPONSE, true}; }

static void test(unsigned q) {
  const struct part parts[] = {response_part(q)};
  offer(q, test_unit_ready, parts, 1);
}

// Has block 0 begin with what a driver stores who wants to be notified.
static void lay_wish(uint32_t wanted) {
  const struct part parts[] = {{UNUSED + VSCSI_BLOCK, VSCSI_BLOCK, false}, response_part(READING)};
  uint8_t bytes[VSCSI_BLOCK] = {0};
  memcpy(bytes, &wanted, sizeof wanted);
  store(&its, parts[0].addr, bytes, sizeof bytes);
  offer(READING, write_10, parts, 2);
  serve();
  if (memory[parts[1].addr + 11]) fail("a WRITE isn't answered well");
}

// Has it read to where the driver of queue 2 says what it wants, and the rest to where nobody looks.
static void read_wish(void) {
  uint32_t bytes = packed ? 4 : 2;
  const struct part parts[] = {response_part(READING), {wish_at(ASKING), bytes, true}, {UNUSED, VSCSI_BLOCK - bytes, true}};
  offer(READING, read_10, parts, 3);
}

// Queue 2 has some chains, and behind them a READ of queue 3 has its driver ask. `later` is how many chains behind the first
// it names; where that isn't one of them it isn't to be notified.
static void ask_behind(unsigned chains, unsigned later) {
  unsigned first = made[ASKING];
  lay_wish(wish_of(first + later));
  wish(no_wish());
  for (unsigned i = 0; i < chains; i++) test(ASKING);
  read_wish();
  uint32_t owed = serve();
  bool is_owed = owed >> ASKING & 1, is_wanted = !names || later < chains;
  if (!used(ASKING, first + chains - 1) || !used(READING, made[READING] - 1)) fail("a request isn't answered");
  if (is_wanted && !is_owed) fail("a driver isn't owed a notification that asked behind its chains");
  if (!is_wanted && is_owed) fail("a driver is owed a notification of a chain that wasn't used");
}

static void ask_behind_each(void) {
  open_device(false);
  for (unsigned i = 0; i < 4000; i++) ask_behind(1 + i % 4, i / 4 % 6);
  must("destroy", vscsi_live_destroy(&device));
}

// The guest's thread.

// Sleeps until there is a notification, or for so long that none comes any more.
static bool sleeps(int fd) {
  struct pollfd there = {.fd = fd, .events = POLLIN};
  uint64_t count;
  return poll(&there, 1, LONG_MS) == 1 && read(fd, &count, sizeof count) == sizeof count;
}

// Forgets a notification that came behind a look: what it told of is seen by the next.
static void drain(int fd) {
  struct pollfd there = {.fd = fd, .events = POLLIN};
  uint64_t count;
  if (poll(&there, 1, 0) == 1 && read(fd, &count, sizeof count) != sizeof count) exit(1);
}

static void wake(int fd) {
  if (write(fd, &(uint64_t){1}, 8) != 8) exit(1);
}

// Whether the device asked to be notified of one of the chains from one on (2.7.10.1, 2.8.10).
static bool is_asked(unsigned from) {
  uint64_t at = device_at(ASKING) + (packed || !names ? 0 : 4 + 8 * SIZE);
  __atomic_thread_fence(__ATOMIC_SEQ_CST);
  if (!packed && !names) return !(get(&its, at) & 1);
  if (!packed) return (uint16_t)(made[ASKING] - get(&its, at) - 1) < (uint16_t)(made[ASKING] - from);
  uint32_t asked = __atomic_load_n((uint32_t *)(void *)(memory + at), __ATOMIC_ACQUIRE);
  if (asked >> 16 != NAMED) return asked >> 16 != DISABLE;
  for (unsigned n = from; n != made[ASKING]; n++)
    if ((asked & 0xffff) == (n % SIZE | (wraps(n) ? WRAP : 0))) return true;
  return false;
}

static unsigned next_of(unsigned *seed, unsigned end) {
  *seed = *seed * 1103515245 + 12345;
  return (*seed >> 8) % end;
}

struct run {
  unsigned batches;
  bool over;
};

// Has a batch of requests made available, and waits until each was used. It names one of them, and sleeps if that wasn't used.
static void send_batch(unsigned *seed) {
  unsigned from = made[ASKING], seen = from, count = 2 + next_of(seed, SIZE - 1);
  // A notification of an earlier batch would stand in for one that is lost.
  while (!__atomic_load_n(&asleep, __ATOMIC_ACQUIRE)) sched_yield();
  drain(notice);
  wish(no_wish());
  for (unsigned i = 0; i < count; i++) test(ASKING);
  if (is_asked(from)) wake(kick);
  while (seen != made[ASKING]) {
    // Mostly it asks while the chain is used, or right before, and what it looks at is in its processor's cache.
    unsigned named = names || next_of(seed, 4) == 0 ? seen + next_of(seed, made[ASKING] - seen) : made[ASKING] - 1;
    for (unsigned spins = next_of(seed, 8) ? 1 << 20 : 0; spins && named != from && !used(ASKING, named - 1); spins--) continue;
    for (unsigned spins = next_of(seed, 1u << next_of(seed, 10)); spins && !used(ASKING, named); spins--) continue;
    wish(wish_of(named));
    __atomic_thread_fence(__ATOMIC_SEQ_CST);
    while (!used(ASKING, named))
      if (!sleeps(notice)) fail(used(ASKING, named) ? "a notification is lost" : "a request isn't served: the host wasn't notified");
    wish(no_wish());
    while (seen != made[ASKING] && used(ASKING, seen)) seen++;
  }
}

static void *guest(void *given) {
  struct run *run = given;
  unsigned seed = 1;
  for (unsigned n = 0; n < run->batches; n++) send_batch(&seed);
  __atomic_store_n(&run->over, true, __ATOMIC_RELEASE);
  wake(kick);
  return NULL;
}

static void play(unsigned batches) {
  struct run run = {.batches = batches};
  uint64_t count;
  pthread_t thread;
  kick = eventfd(0, 0);
  notice = eventfd(0, 0);
  open_device(true);
  serve();
  if (kick < 0 || notice < 0 || pthread_create(&thread, NULL, guest, &run)) exit(1);
  for (;;) {
    __atomic_store_n(&asleep, true, __ATOMIC_RELEASE);
    if (read(kick, &count, sizeof count) != sizeof count) exit(1);
    __atomic_store_n(&asleep, false, __ATOMIC_RELEASE);
    if (__atomic_load_n(&run.over, __ATOMIC_ACQUIRE)) break;
    if (serve() >> ASKING & 1) wake(notice);
  }
  pthread_join(thread, NULL);
  must("destroy", vscsi_live_destroy(&device));
  close(kick);
  close(notice);
}

int main(int count, char **words) {
  unsigned batches = count > 1 ? (unsigned)strtoul(words[1], NULL, 10) : 2000;
  for (unsigned form = 0; form < 4; form++) {
    packed = form & 1;
    names = form & 2;
    ask_behind_each();
    if (batches) play(batches);
    printf("%s%s: each notification came\n", packed ? "packed" : "split", names ? ", names" : "");
    fflush(stdout);
  }
  return 0;
}
