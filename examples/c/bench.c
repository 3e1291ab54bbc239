// What a request costs: a guest makes so many requests available at once on one queue, over and over, from the same places
// in guest memory, and the device serves them each time; the guest looks at every answer.
//
//     bench KIND RING DEPTH ROUNDS    prints how many requests ended well, and the nanoseconds that all rounds took
//     bench                           serves a few rounds of each kind on each ring, and prints how many ended well
//
// With -DLIVE the device works on live memory: the guest's, where it stands, which nobody copies.
//
// RING is split or packed; or split-3 or packed-3, where the data that a request gets have a descriptor of their own; or
// split-table or packed-table, where these stand in a table that one descriptor of the ring names (VIRTIO 1.2, 2.7.5.3 and
// 2.8.7). DEPTH is a power of two up to 256, and 2 or more for packed-table. The status is 1 where a request wasn't answered
// well, 2 where the words name no work, 3 for want of memory.
#define _POSIX_C_SOURCE 199309L
#include <time.h>

#define EXAMPLE "bench"
#include "guest.h"

enum { MOST_DEPTH = 256, LARGE = 128, FEW_ROUNDS = 3, FEW_REQUESTS = 4 };

// The descriptors of a request at the most.
enum { MOST_PARTS = 3 };

// The areas of the request queue; those of the other two queues lie behind them, and then the requests, each with its
// response in an area of its own.
enum { DRIVER = 0x4000, DEVICE = 0x6000, OTHER_QUEUES = 0xa000, AREAS = 0x10000, SMALL_AREA = 0x1000, LARGE_AREA = 0x11000 };

// A request's table stands so far before the end of its area.
enum { TABLE = 0x400 };

// The steps of a request that nothing blocks: it is fetched, enters, is put, taken, committed and answered, and leaves.
enum { STEPS = 7 };

// What each request does: nothing, with the guest alone; or a command of so many blocks; or READ, WRITE and TEST UNIT READY in
// turn, of all three attributes, on two units.
enum kind { NONE, TUR, READ_512, WRITE_512, READ_64K, WRITE_64K, COMPARE_AND_WRITE, MIXED, KINDS };

static const char *const names[KINDS] = {"none", "tur", "read512", "write512", "read64k", "write64k", "compare-and-write", "mixed"};

// The rings of the words, and how each has its requests.
enum ring { PLAIN, APART, TABLES, WAYS };

static const char *const rings[2][WAYS] = {{"split", "split-3", "split-table"}, {"packed", "packed-3", "packed-table"}};

struct work {
  enum kind kind;
  bool packed;
  enum ring way;
  unsigned depth;
  uint64_t rounds;
};

// A request as the guest lays it out: its bytes, and those of its data to and from the device.
struct request {
  uint8_t bytes[REQUEST];
  uint32_t sent, taken;
};

static struct descriptor even[MOST_DEPTH * MOST_PARTS], odd[MOST_DEPTH * MOST_PARTS];
static uint64_t responses[MOST_DEPTH];

static bool is_large(enum kind kind) { return kind == READ_64K || kind == WRITE_64K; }

static unsigned blocks_of(enum kind kind) { return kind <= TUR ? 0 : is_large(kind) ? LARGE : 1; }

#ifdef LIVE
static struct vscsi_live device;
static _Alignas(VSCSI_PAGE) uint8_t memory[AREAS + MOST_DEPTH * LARGE_AREA], above[VSCSI_PAGE];
static const struct guest guest = {.memory = memory};

static enum vscsi_answer destroy(void) { return vscsi_live_destroy(&device); }

// Serves all that is there. How many steps that took.
static uint64_t settle(void) {
  uint64_t steps = 0;
  bool more;
  must("serve", vscsi_live_serve(&device, ~UINT32_C(0), UINT64_MAX, &steps, &more));
  return steps;
}
#else
static struct vscsi device;
static const struct guest guest = {.device = &device};

static enum vscsi_answer destroy(void) { return vscsi_destroy(&device); }

static uint64_t settle(void) {
  uint64_t steps = 0;
  must("settle", vscsi_settle(&device, &steps));
  return steps;
}
#endif

// Numbers in a command block stand with their highest byte first.
static void big(uint8_t *into, unsigned number) {
  into[0] = (uint8_t)(number >> 8);
  into[1] = (uint8_t)number;
}

// A command on one block or on many: READ (10) and WRITE (10), or COMPARE AND WRITE, which sends its block twice.
static void command(struct request *request, uint8_t opcode, unsigned first, unsigned blocks) {
  uint8_t *block = request->bytes + 19;
  block[0] = opcode;
  big(block + (opcode == 0x89 ? 8 : 4), first);
  big(block + (opcode == 0x89 ? 12 : 7), blocks);
  request->sent = opcode == 0x28 ? 0 : 512 * blocks * (opcode == 0x89 ? 2 : 1);
  request->taken = opcode == 0x28 ? 512 * blocks : 0;
}

// The request with this number of those that are made available at once. Each has blocks of its own.
static struct request request_of(enum kind kind, unsigned number) {
  struct request request = {.bytes = {1, 0, 0x40, 0}};
  enum kind its = kind;
  memcpy(request.bytes + 8, &(uint16_t){(uint16_t)number}, 2);
  if (kind == MIXED) {
    its = number % 3 == 0 ? READ_512 : number % 3 == 1 ? WRITE_512 : TUR;
    request.bytes[3] = number % 2;
    request.bytes[16] = number / 2 % 3;
  }
  if (its == READ_512 || its == READ_64K) command(&request, 0x28, number * blocks_of(kind), blocks_of(kind));
  if (its == WRITE_512 || its == WRITE_64K) command(&request, 0x2a, number * blocks_of(kind), blocks_of(kind));
  if (its == COMPARE_AND_WRITE) command(&request, 0x89, number, 1);
  return request;
}

static uint64_t request_at(enum kind kind, unsigned number) {
  return AREAS + (uint64_t)number * (is_large(kind) ? LARGE_AREA : SMALL_AREA);
}

// The parts of a request, whose response goes right behind it, at a multiple of 64. How many there are.
static unsigned parts_of(const struct work *work, unsigned number, struct descriptor *parts) {
  const struct request request = request_of(work->kind, number);
  uint64_t at = request_at(work->kind, number);
  uint32_t sent = REQUEST + request.sent;
  bool apart = work->way != PLAIN && request.taken;
  responses[number] = at + (sent / 64 + 1) * 64;
  parts[0] = (struct descriptor){at, sent, 0, 0};
  parts[1] = (struct descriptor){responses[number], RESPONSE + (apart ? 0 : request.taken), WRITE, 0};
  parts[2] = (struct descriptor){responses[number] + RESPONSE, request.taken, WRITE, 0};
  return apart ? 3 : 2;
}

// The descriptors in a ring that a request takes, and the entries of a queue, of which a split one has more than its
// requests take.
static unsigned slots_of(const struct work *work) { return work->way == TABLES ? 1 : work->way == APART ? 3 : 2; }

static unsigned size_of(const struct work *work) { return (work->packed ? slots_of(work) : 4) * work->depth; }

// The descriptors of a request's parts: those of a table, of a split ring from a number on, or of a packed ring with an id and
// these flags.
static void chain(const struct work *work, const struct descriptor *parts, unsigned count, unsigned number, unsigned flags, struct descriptor *into) {
  for (unsigned i = 0; i < count; i++) {
    bool last = i + 1 == count;
    into[i] = entry(work->packed, parts[i].addr, parts[i].length, flags | parts[i].flags | (last ? 0 : NEXT), last ? 0 : number + i + 1, number);
  }
}

// Puts the table of a request into memory, in the place of its parts.
static void put_table(const struct work *work, unsigned number, struct descriptor *parts, unsigned count) {
  uint64_t at = request_at(work->kind, number + 1) - TABLE;
  struct descriptor entries[MOST_PARTS];
  chain(work, parts, count, 0, 0, entries);
  store(&guest, at, entries, ENTRY * count);
  parts[0] = (struct descriptor){at, ENTRY * count, 0, 0};
}

// Puts a request into memory: its bytes, and its chain into the table of a split queue and into its available ring, or into
// the descriptors of a packed queue as the driver writes them in rounds with an even and with an odd number.
static void put_request(const struct work *work, unsigned number) {
  const struct request request = request_of(work->kind, number);
  struct descriptor parts[MOST_PARTS], ring[MOST_PARTS];
  unsigned count = parts_of(work, number, parts), slots = slots_of(work), extra = 0;
  store(&guest, request_at(work->kind, number), request.bytes, REQUEST);
  if (work->way == TABLES) {
    put_table(work, number, parts, count);
    count = 1;
    extra = INDIRECT;
  }
  if (work->packed) {
    chain(work, parts, count, number, extra | AVAILABLE, even + slots * number);
    chain(work, parts, count, number, extra | USED, odd + slots * number);
    return;
  }
  chain(work, parts, count, slots * number, extra, ring);
  store(&guest, ENTRY * slots * number, ring, ENTRY * count);
  for (unsigned at = number; at < size_of(work); at += work->depth) store(&guest, DRIVER + 4 + 2 * at, &(uint16_t){(uint16_t)(slots * number)}, 2);
}

// Makes the device of a configuration. Live memory has two regions, of which the guest uses the lower one.
static void create(const struct vscsi_config *config) {
#ifdef LIVE
  const struct vscsi_region regions[2] = {{0, sizeof memory, memory}, {UINT64_C(1) << 32, sizeof above, above}};
  struct vscsi_ring its[QUEUES] = {0};
  struct vscsi_live_config live = live_config_of(config->units, config->unit_count, its, 0);
  live.features = config->features;
  for (unsigned q = 0; q < QUEUES; q++) {
    const struct vscsi_queue *queue = &config->queues[q];
    its[q] = (struct vscsi_ring){.desc = queue->desc, .driver = queue->driver, .device = queue->device, .size = queue->size};
  }
  memset(memory, 0, AREAS);
  must("create", vscsi_live_create(&device, &live, NULL, NULL));
  must("map", vscsi_map(&device, regions, 2));
#else
  must("create", vscsi_create(&device, config, NULL));
#endif
}

// Makes the device, with two calm units and one request queue, and puts all requests into its memory.
static void begin(const struct work *work) {
  const struct vscsi_queue queues[QUEUES] = {
      {.desc = OTHER_QUEUES, .driver = OTHER_QUEUES + 0x400, .device = OTHER_QUEUES + 0x800, .size = 2},
      {.desc = OTHER_QUEUES + 0x1000, .driver = OTHER_QUEUES + 0x1400, .device = OTHER_QUEUES + 0x1800, .size = 2},
      {.desc = 0, .driver = DRIVER, .device = DEVICE, .size = (uint16_t)size_of(work)}};
  const uint64_t blocks = MOST_DEPTH * (uint64_t)blocks_of(work->kind) + 1;
  const struct vscsi_unit units[2] = {{.blocks = blocks, .lun = 0, .calm = 1}, {.blocks = blocks, .lun = 1, .calm = 1}};
  struct vscsi_config config = config_of(units, 2);
  config.features |= (work->packed ? VSCSI_F_RING_PACKED : 0) | (work->way == TABLES ? VSCSI_F_INDIRECT_DESC : 0);
  config.queues = queues;
  config.pages = (uint32_t)(request_at(work->kind, work->depth) / VSCSI_PAGE + 1);
  create(&config);
  for (unsigned number = 0; number < work->depth; number++) put_request(work, number);
}

// Makes all requests available, the first time with an index of 0.
static void send(const struct work *work, uint64_t round) {
  if (work->packed) store(&guest, 0, round % 2 ? odd : even, ENTRY * slots_of(work) * work->depth);
  else store(&guest, DRIVER + 2, &(uint16_t){(uint16_t)((round + 1) * work->depth)}, 2);
}

// How many requests ended with GOOD.
static unsigned found(const struct work *work) {
  static const uint8_t good[12];
  uint8_t head[12];
  unsigned count = 0;
  for (unsigned number = 0; number < work->depth; number++) {
    load(&guest, responses[number], head, sizeof head);
    count += memcmp(head, good, sizeof head) == 0;
  }
  return count;
}

// Clears the responses, makes all requests available, lets the device serve them, and looks whether each ended with GOOD; the
// guest alone does all but have them served. How many did.
static unsigned serve_round(const struct work *work, uint64_t round) {
  uint8_t open[12];
  uint64_t steps = 0;
  memset(open, 255, sizeof open);
  for (unsigned number = 0; number < work->depth; number++) store(&guest, responses[number], open, sizeof open);
  send(work, round);
  if (work->kind != NONE) steps = settle();
  unsigned good = found(work);
  if (work->kind != NONE && (good != work->depth || steps != STEPS * good)) {
    fprintf(stderr, "bench: %u of %u requests ended well, in %llu steps\n", good, work->depth, (unsigned long long)steps);
    exit(1);
  }
  return good;
}

// Has all rounds served. How many requests ended with GOOD.
static uint64_t serve(const struct work *work) {
  uint64_t good = 0;
  for (uint64_t round = 0; round < work->rounds; round++) good += serve_round(work, round);
  return good;
}

static uint64_t now(void) {
  struct timespec time;
  clock_gettime(CLOCK_MONOTONIC, &time);
  return (uint64_t)time.tv_sec * 1000000000 + (uint64_t)time.tv_nsec;
}

// Whether a ring has such requests: a packed one is written whole in each round, so each takes all slots that it may.
static bool has(bool packed, enum ring way, enum kind kind) {
  return !packed || way != APART || kind == NONE || kind == READ_512 || kind == READ_64K;
}

// The work that the words name. Whether they name one.
static bool named(char **words, struct work *work) {
  char *end;
  unsigned kind = 0, ring = 0;
  while (kind < KINDS && strcmp(words[0], names[kind]) != 0) kind++;
  while (ring < 2 * WAYS && strcmp(words[1], rings[ring / WAYS][ring % WAYS]) != 0) ring++;
  if (kind == KINDS || ring == 2 * WAYS) return false;
  *work = (struct work){.kind = (enum kind)kind, .packed = ring / WAYS, .way = (enum ring)(ring % WAYS)};
  work->depth = (unsigned)strtoul(words[2], &end, 10);
  if (size_of(work) < 2 || !has(work->packed, work->way, work->kind)) return false;
  if (*end || work->depth == 0 || work->depth > MOST_DEPTH || (work->depth & (work->depth - 1))) return false;
  work->rounds = strtoull(words[3], &end, 10);
  return *end == 0 && words[3][0] >= '0' && words[3][0] <= '9';
}

int main(int count, char **words) {
  struct work work;
  if (count == 5 && named(words + 1, &work)) {
    begin(&work);
    uint64_t start = now();
    uint64_t good = serve(&work);
    printf("%llu requests in %llu ns\n", (unsigned long long)good, (unsigned long long)(now() - start));
    must("destroy", destroy());
    return 0;
  }
  if (count != 1) return 2;
  for (unsigned ring = 0; ring < 2 * WAYS; ring++) {
    for (unsigned kind = 0; kind < KINDS; kind++) {
      work = (struct work){(enum kind)kind, ring / WAYS, (enum ring)(ring % WAYS), FEW_REQUESTS, FEW_ROUNDS};
      if (!has(work.packed, work.way, work.kind)) continue;
      begin(&work);
      printf("%s %s: %llu\n", names[kind], rings[ring / WAYS][ring % WAYS], (unsigned long long)serve(&work));
      must("destroy", destroy());
    }
  }
  return 0;
}
