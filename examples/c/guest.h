// The guest of the examples: the driver of a split queue or of a packed one, which has one request at a time on queue 2. An example
// that includes this has its name in EXAMPLE, which is said where a call fails.
#ifndef GUEST_H
#define GUEST_H
#include <stdio.h>
#include <stdlib.h>
#include <string.h>

#include "vscsi.h"

// The queues (control, event, requests), the descriptors of each, and the bytes of a request and of a response, without their data
// (VIRTIO 1.2, 5.6.6.1).
enum { QUEUES = 3, SIZE = 8, REQUEST = 51, RESPONSE = 108 };

// Where the driver lays out its queues in guest memory.
static const struct vscsi_queue layout[QUEUES] = {
    {0x1000, 0x1400, 0x1800, SIZE}, {0x2000, 0x2400, 0x2800, SIZE}, {0x3000, 0x3400, 0x3800, SIZE}};

// Where a request, its data, its response and the data that it gets lie, and where guest memory ends.
enum { REQUEST_AT = 0x8000, DATA_AT = 0x9000, RESPONSE_AT = 0xa000, IN_AT = 0xb000, MEMORY = 0x10000 };

// The flags of a descriptor (2.7.5 and 2.8.1), and its bytes.
enum { NEXT = 1, WRITE = 2, INDIRECT = 4, AVAILABLE = 1 << 7, USED = 1 << 15, ENTRY = 16 };

// A descriptor of a split queue, on a little-endian processor. Of a packed queue the last two fields are its id and its flags.
struct descriptor {
  uint64_t addr;
  uint32_t length;
  uint16_t flags, next;
};

// A descriptor of either form: `next` is that of a split one, `id` that of a packed one.
static inline struct descriptor entry(bool packed, uint64_t addr, uint32_t length, unsigned flags, unsigned next, unsigned id) {
  return (struct descriptor){addr, length, (uint16_t)(packed ? id : flags), (uint16_t)(packed ? flags : next)};
}

// The head of a response.
struct response {
  uint32_t sense, residual;
  uint16_t qualifier;
  uint8_t status, response;
};

// A guest: its memory is the device's, or its own from an address on. It counts the chains and slots that it made available.
struct guest {
  struct vscsi *device;
  uint8_t *memory;
  uint64_t base;
  bool packed;
  unsigned chains, slots, head; // head: the slot of the latest chain
};

// Ends the example where a call didn't do what it was asked for.
static inline void must(const char *call, enum vscsi_answer answer) {
  if (answer == VSCSI_DONE) return;
  fprintf(stderr, EXAMPLE ": %s answered %d: %s\n", call, answer, vscsi_answer_text(answer));
  exit(answer == VSCSI_NO_MEMORY ? 3 : 1);
}

// Stores bytes at a guest address, as the driver does.
static inline void store(const struct guest *guest, uint64_t addr, const void *bytes, size_t count) {
  if (guest->device) must("poke", vscsi_poke(guest->device, addr, bytes, count));
  else memcpy(guest->memory + (addr - guest->base), bytes, count);
}

static inline void load(const struct guest *guest, uint64_t addr, void *into, size_t count) {
  if (guest->device) must("peek", vscsi_peek(guest->device, addr, into, count));
  else memcpy(into, guest->memory + (addr - guest->base), count);
}

// Stores an index or flags, which a device in another thread sees behind all that was stored before.
static inline void put(const struct guest *guest, uint64_t addr, unsigned number) {
  uint16_t its = (uint16_t)number;
  if (guest->device) store(guest, addr, &its, 2);
  else __atomic_store_n((uint16_t *)(void *)(guest->memory + (addr - guest->base)), its, __ATOMIC_RELEASE);
}

static inline unsigned get(const struct guest *guest, uint64_t addr) {
  uint16_t its;
  if (!guest->device) return __atomic_load_n((uint16_t *)(void *)(guest->memory + (addr - guest->base)), __ATOMIC_ACQUIRE);
  load(guest, addr, &its, 2);
  return its;
}

// The driver's wrap counter where it fills its n-th slot: it is true in the rounds 0, 2, 4 of the ring (VIRTIO 1.2, 2.8.1).
static inline bool wraps(unsigned n) { return n / SIZE % 2 == 0; }

// Makes a chain of these parts available: by the next entry of the available ring, or from the next slot of a packed queue on.
static inline void make_available(struct guest *guest, const struct descriptor *parts, unsigned count) {
  uint64_t ring = guest->base + layout[2].desc, driver = guest->base + layout[2].driver;
  for (unsigned i = count; i-- > 0;) {
    unsigned slot = guest->packed ? guest->slots + i : i, mark = wraps(slot) ? AVAILABLE : USED;
    unsigned flags = parts[i].flags | (i + 1 < count ? NEXT : 0) | (guest->packed ? mark : 0);
    struct descriptor its = entry(guest->packed, parts[i].addr, parts[i].length, flags, i + 1, 0);
    store(guest, ring + ENTRY * (slot % SIZE), &its, 14);
    put(guest, ring + ENTRY * (slot % SIZE) + 14, its.next);
  }
  if (!guest->packed) put(guest, driver + 4 + 2 * (guest->chains % SIZE), 0);
  if (!guest->packed) put(guest, driver + 2, guest->chains + 1);
  guest->head = guest->slots;
  guest->slots += count;
  guest->chains++;
}

// Returns whether the device has used the latest chain.
static inline bool is_used(const struct guest *guest) {
  const unsigned both = AVAILABLE | USED;
  if (!guest->packed) return get(guest, guest->base + layout[2].device + 2) == (uint16_t)guest->chains;
  return (get(guest, guest->base + layout[2].desc + ENTRY * (guest->head % SIZE) + 14) & both) == (wraps(guest->head) ? both : 0);
}

// Makes a command of a target's LUN 0 available, with data that stand at DATA_AT and room for data at IN_AT.
static inline void request(struct guest *guest, unsigned target, const uint8_t *block, size_t length, uint32_t out, uint32_t in) {
  uint8_t bytes[REQUEST] = {1, (uint8_t)target, 0x40}, open[RESPONSE];
  struct descriptor parts[4] = {{guest->base + REQUEST_AT, REQUEST, 0, 0}};
  unsigned count = 1;
  memcpy(bytes + 19, block, length);
  memset(open, 0xee, sizeof open);
  store(guest, guest->base + REQUEST_AT, bytes, sizeof bytes);
  store(guest, guest->base + RESPONSE_AT, open, sizeof open);
  if (out) parts[count++] = (struct descriptor){guest->base + DATA_AT, out, 0, 0};
  parts[count++] = (struct descriptor){guest->base + RESPONSE_AT, RESPONSE, WRITE, 0};
  if (in) parts[count++] = (struct descriptor){guest->base + IN_AT, in, WRITE, 0};
  make_available(guest, parts, count);
}

// Makes a WRITE (10) of one block of a byte available.
static inline void write_block(struct guest *guest, unsigned target, unsigned lba, uint8_t byte) {
  const uint8_t write_10[10] = {0x2a, [4] = (uint8_t)(lba >> 8), (uint8_t)lba, [8] = 1};
  uint8_t data[VSCSI_BLOCK];
  memset(data, byte, sizeof data);
  store(guest, guest->base + DATA_AT, data, sizeof data);
  request(guest, target, write_10, sizeof write_10, sizeof data, 0);
}

static inline struct response response_of(const struct guest *guest) {
  struct response found;
  load(guest, guest->base + RESPONSE_AT, &found, sizeof found);
  return found;
}

static inline bool is_good(const struct guest *guest) {
  struct response found = response_of(guest);
  return found.status == 0 && found.response == 0;
}

// The configuration of these units over the queues of the layout.
static inline struct vscsi_config config_of(const struct vscsi_unit *units, size_t count) {
  return (struct vscsi_config){.size = sizeof(struct vscsi_config), .features = VSCSI_F_VERSION_1, .queues = layout, .queue_count = QUEUES,
                               .units = units, .unit_count = count, .pages = MEMORY / VSCSI_PAGE};
}

// The same of live memory that begins at an address; `rings` is where the queues go, and where they go on.
static inline struct vscsi_live_config live_config_of(const struct vscsi_unit *units, size_t count, struct vscsi_ring *rings, uint64_t base) {
  for (unsigned q = 0; q < QUEUES; q++) {
    rings[q].desc = base + layout[q].desc;
    rings[q].driver = base + layout[q].driver;
    rings[q].device = base + layout[q].device;
    rings[q].size = SIZE;
  }
  return (struct vscsi_live_config){.size = sizeof(struct vscsi_live_config), .features = VSCSI_F_VERSION_1, .rings = rings,
                                    .ring_count = QUEUES, .units = units, .unit_count = count};
}
#endif
