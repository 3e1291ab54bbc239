// A guest whose requests write the next request, and a host that serves it in portions. Each READ of queue 2 lays its data over
// the queue's ring, where they are the descriptor of the next READ: vscsi_settle would never return. vscsi_serve comes back
// after as many steps as it was given, and the guest's other queue is served all the same.
#define EXAMPLE "feeds_itself"
#include "guest.h"

enum { ALL_QUEUES = 4, FED = 2, PLAIN = 3, PORTION = 700, PORTIONS = 20, STEPS = 7 };

// Where the requests, their responses and tables lie, and what no READ needs. A READ of queue 2 has number 0 to 3: the slots 0 and 1 in a
// round of the ring, and in the next.
enum { READS = 4, REQUESTS_AT = 0x8000, RESPONSES_AT = 0xa000, TABLES_AT = 0xb000, UNUSED_AT = 0xd000, APART = 0x80 };

static struct vscsi device;
static struct guest guest = {.device = &device};
static unsigned plain; // how many requests queue 3 had

static uint64_t area(unsigned queue) { return 0x1000 * (queue + 1); }

// Lays out the request with a number: its command block, and the table of its parts, which are descriptors of a packed queue.
static void lay(unsigned number, const uint8_t *block, const struct descriptor *table, unsigned count) {
  uint8_t bytes[REQUEST] = {1, 0, 0x40, 0};
  memcpy(bytes + 19, block, 10);
  store(&guest, REQUESTS_AT + APART * number, bytes, sizeof bytes);
  store(&guest, TABLES_AT + APART * number, table, ENTRY * count);
}

// The descriptor that makes the READ with a number available.
static struct descriptor read_of(unsigned number) {
  return entry(true, TABLES_AT + APART * number, 4 * ENTRY, INDIRECT | (number < 2 ? AVAILABLE : USED), 0, number % 2);
}

// Has the next request of queue 3 made available: WRITE (10) of the four blocks, or TEST UNIT READY.
static void send(const uint8_t *block, uint32_t length) {
  unsigned number = READS + plain % SIZE, count = length ? 3 : 2;
  struct descriptor table[3] = {{REQUESTS_AT + APART * number, REQUEST, 0, 0}, {DATA_AT, length, 0, 0}};
  struct descriptor its = entry(true, TABLES_AT + APART * number, ENTRY * count, INDIRECT | AVAILABLE, 0, plain % SIZE);
  table[count - 1] = (struct descriptor){RESPONSES_AT + APART * number, RESPONSE, 0, WRITE};
  lay(number, block, table, count);
  store(&guest, area(PLAIN) + ENTRY * (plain++ % SIZE), &its, ENTRY);
}

// Serves some queues, and says what became of it.
static void serve(uint32_t queues, uint64_t most) {
  uint64_t steps, fed, other;
  bool more;
  must("serve", vscsi_serve(&device, queues, most, &steps, &more));
  must("progress", vscsi_progress(&device, FED, NULL, &fed));
  must("progress", vscsi_progress(&device, PLAIN, NULL, &other));
  printf("queues %x: %u steps, %s; used %u and %u\n", queues, (unsigned)steps, more ? "more" : "no more", (unsigned)fed, (unsigned)other);
}

// Writes four blocks, each of which begins with the descriptor of a READ, and lays out the READs: each of the next one's block.
static void feed(void) {
  static const uint8_t write_10[10] = {0x2a, 0, 0, 0, 0, 0, 0, 0, READS, 0};
  uint8_t blocks[READS * VSCSI_BLOCK] = {0};
  for (unsigned number = 0; number < READS; number++) {
    unsigned next = (number + 1) % READS;
    const uint8_t read_10[10] = {0x28, 0, 0, 0, 0, (uint8_t)next, 0, 0, 1, 0};
    const struct descriptor its = read_of(number), table[4] = {{REQUESTS_AT + APART * number, REQUEST, 0, 0},
                                                               {RESPONSES_AT + APART * number, RESPONSE, 0, WRITE},
                                                               {area(FED) + ENTRY * (next % 2), ENTRY, 0, WRITE},
                                                               {UNUSED_AT, VSCSI_BLOCK - ENTRY, 0, WRITE}};
    memcpy(blocks + VSCSI_BLOCK * number, &its, ENTRY);
    lay(number, read_10, table, 4);
  }
  store(&guest, DATA_AT, blocks, sizeof blocks);
  send(write_10, sizeof blocks);
}

int main(void) {
  static const uint8_t test_unit_ready[10] = {0};
  const struct vscsi_unit unit = {.blocks = READS, .calm = 1};
  const struct descriptor first = read_of(0);
  struct vscsi_queue queues[ALL_QUEUES];
  for (unsigned q = 0; q < ALL_QUEUES; q++)
    queues[q] = (struct vscsi_queue){.desc = area(q), .driver = area(q) + 0x400, .device = area(q) + 0x800, .size = q == PLAIN ? SIZE : 2};
  struct vscsi_config config = config_of(&unit, 1);
  config.features = VSCSI_FEATURES;
  config.queues = queues;
  config.queue_count = ALL_QUEUES;
  must("create", vscsi_create(&device, &config, NULL));
  feed();
  serve(1u << PLAIN, STEPS);

  // One READ, and then as many as the host has patience for.
  store(&guest, area(FED), &first, ENTRY);
  for (unsigned portion = 0; portion < PORTIONS; portion++) serve(1u << FED, PORTION);

  // The other queue meanwhile; and both at once, where the lower one is fetched first and comes to no end.
  send(test_unit_ready, 0);
  serve(1u << PLAIN, PORTION);
  send(test_unit_ready, 0);
  serve(1u << FED | 1u << PLAIN, PORTION);
  serve(1u << PLAIN, PORTION);
  must("destroy", vscsi_destroy(&device));
  return 0;
}
