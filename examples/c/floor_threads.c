// The least that it costs to have a device served by a thread of its own: the guest of crates/bench, on one split queue, over
// floor.c, which is served by the guest's own thread or by another. No lock is taken and no guest waits: the threads look at
// the indices of the rings. What the second way takes beside the first is what the lines of memory cost that go from one
// processor to the other and back.
//
//     floor_threads KIND DEPTH ROUNDS THREADS
//
// KIND is tur, read512, write512, read64k or write64k, DEPTH an even number up to 64, THREADS 1 or 2. Prints how many
// requests ended well, and the nanoseconds that all rounds took. The status is 2 where the words name no work.
#define _POSIX_C_SOURCE 199309L
#include <pthread.h>
#include <stdatomic.h>
#include <time.h>

#include "floor.c"

enum { MOST_DEPTH = 64, LARGE = 128, PARTS = 4, KINDS = 5 };

// Where the areas of the queue lie, those of the others, the responses, one behind the other, and the requests, each with its
// data in an area of its own.
enum { DRIVER = 0x4000, DEVICE = 0x6000, OTHER_QUEUES = 0xa000, RESPONSES = 0x20000, AREAS = 0x30000, AREA = 0x11000, DATA = 0x1000 };

static const char *const names[KINDS] = {"tur", "read512", "write512", "read64k", "write64k"};

static atomic_bool stops;

// A command of so many blocks, which reads or writes.
struct kind {
  unsigned blocks;
  bool reads, writes;
};

// Puts a request into memory, with its chain: the request with what it sends, the response, and what it gets.
static void put_request(struct kind kind, unsigned number, unsigned depth) {
  uint64_t at = AREAS + (uint64_t)number * AREA;
  uint8_t *request = memory + at;
  unsigned slot = PARTS * number, first = number * kind.blocks;
  request[0] = 1;
  request[2] = 0x40;
  memcpy(request + 8, &(uint16_t){(uint16_t)number}, 2);
  request[19] = kind.reads ? 0x28 : kind.writes ? 0x2a : 0;
  request[23] = (uint8_t)(first >> 8);
  request[24] = (uint8_t)first;
  request[27] = (uint8_t)kind.blocks;
  struct descriptor chain[] = {{at, REQUEST + (kind.writes ? kind.blocks * BLOCK : 0), NEXT, (uint16_t)(slot + 1)},
                               {RESPONSES + (uint64_t)number * RESPONSE, RESPONSE, WRITE | (kind.reads ? NEXT : 0), (uint16_t)(slot + 2)},
                               {at + DATA, kind.blocks * BLOCK, WRITE, 0}};
  memcpy(memory + ENTRY * slot, chain, sizeof chain);
  for (unsigned entry = number; entry < PARTS * depth; entry += depth) memcpy(memory + DRIVER + 4 + 2 * entry, &(uint16_t){(uint16_t)slot}, 2);
}

static void begin(struct kind kind, unsigned depth) {
  const struct vscsi_queue queues[QUEUES] = {{0}, {0}, {.desc = 0, .driver = DRIVER, .device = DEVICE, .size = (uint16_t)(PARTS * depth)}};
  const struct vscsi_unit units[UNITS] = {{.blocks = MOST_DEPTH * LARGE}, {.blocks = 1}};
  const struct vscsi_config config = {.queues = queues, .units = units, .pages = (AREAS + MOST_DEPTH * AREA) / VSCSI_PAGE};
  struct vscsi device = {0};
  if (vscsi_create(&device, &config, NULL) != VSCSI_DONE) stop("no memory");
  for (unsigned number = 0; number < depth; number++) put_request(kind, number, depth);
}

// Looks at memory anew, and lets the other thread see what was written before.
static void settle(void) {
  atomic_thread_fence(memory_order_seq_cst);
  settle_split();
}

static void *serve_alone(void *unused) {
  (void)unused;
  while (!atomic_load(&stops)) settle();
  return NULL;
}

static void make_set_available(unsigned set, unsigned of_set, uint16_t index) {
  memset(memory + RESPONSES + (size_t)set * of_set * RESPONSE, 255, (size_t)of_set * RESPONSE);
  atomic_thread_fence(memory_order_seq_cst);
  memcpy(memory + DRIVER + 2, &index, 2);
}

// Waits until so many chains are used, and counts the responses of a set that tell that it went well.
static unsigned found(unsigned set, unsigned of_set, uint16_t index, bool alone) {
  static const uint8_t good[RESPONSE];
  unsigned count = 0;
  do {
    if (!alone) settle();
    atomic_thread_fence(memory_order_seq_cst);
  } while ((int16_t)((uint16_t)little(memory + DEVICE + 2, 2) - index) < 0);
  for (unsigned number = set * of_set; number < (set + 1) * of_set; number++)
    count += memcmp(memory + RESPONSES + (size_t)number * RESPONSE, good, RESPONSE) == 0;
  return count;
}

// Has all rounds served, each in two sets, of which the device has one while the guest looks at the other.
static uint64_t serve_rounds(unsigned depth, uint64_t rounds, bool alone) {
  unsigned of_set = depth / 2;
  uint64_t good = 0;
  for (uint64_t half = 0; half < 2 * rounds + 2; half++) {
    if (half >= 2) good += found(half % 2, of_set, (uint16_t)((half - 1) * of_set), alone);
    if (half < 2 * rounds) make_set_available(half % 2, of_set, (uint16_t)((half + 1) * of_set));
  }
  return good;
}

static uint64_t now(void) {
  struct timespec time;
  clock_gettime(CLOCK_MONOTONIC, &time);
  return (uint64_t)time.tv_sec * 1000000000 + (uint64_t)time.tv_nsec;
}

int main(int count, char **words) {
  unsigned kind = 0;
  if (count != 5) return 2;
  while (kind < KINDS && strcmp(words[1], names[kind]) != 0) kind++;
  unsigned depth = (unsigned)strtoul(words[2], NULL, 10), threads = (unsigned)strtoul(words[4], NULL, 10);
  uint64_t rounds = strtoull(words[3], NULL, 10);
  if (kind == KINDS || depth == 0 || depth > MOST_DEPTH || depth % 2 || threads < 1 || threads > 2) return 2;
  begin((struct kind){kind == 0 ? 0 : kind < 3 ? 1 : LARGE, kind % 2 == 1, kind && kind % 2 == 0}, depth);
  pthread_t thread;
  uint64_t start = now();
  if (threads == 2 && pthread_create(&thread, NULL, serve_alone, NULL)) stop("no thread");
  uint64_t good = serve_rounds(depth, rounds, threads == 2);
  uint64_t took = now() - start;
  atomic_store(&stops, true);
  if (threads == 2) pthread_join(thread, NULL);
  printf("%llu requests in %llu ns\n", (unsigned long long)good, (unsigned long long)took);
  return 0;
}
