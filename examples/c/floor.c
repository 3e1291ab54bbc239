// The least that a device has to do, to hold what the library costs against: it has the calls that bench.c makes, and is linked
// with that in place of the library. Each chain is walked with its bounds tested, its request is read, its data are copied
// once, and it is used. Nothing is kept, no task waits for another, no attention is pending, memory is a plain array and so is
// each disk, and a chain or a command that bench.c never makes ends the program.
//
// With -DCOPIES it copies as often as the library does: a request's bytes before they are read, and data into room of
// their own between the disk and the guest.
#define EXAMPLE "floor"
#include "guest.h"

enum { MOST_PARTS = 8, UNITS = 2, BLOCK = 512, STEPS = 7, MOST_DATA = 1 << 17 };

struct part {
  uint8_t *at;
  uint32_t length;
  bool written;
};

static uint8_t *memory, *disks[UNITS];
static uint64_t memory_size, blocks[UNITS];
static struct vscsi_queue queue;
static bool packed, wrap_counter;
static uint16_t next_slot, used_index;
#ifdef COPIES
static uint8_t copied[MOST_DATA];
#endif

static void stop(const char *why) {
  fprintf(stderr, "floor: %s\n", why);
  exit(1);
}

static uint32_t little(const uint8_t *from, unsigned bytes) {
  uint32_t number = 0;
  memcpy(&number, from, bytes);
  return number;
}

static uint32_t big(const uint8_t *from, unsigned bytes) {
  uint32_t number = 0;
  for (unsigned i = 0; i < bytes; i++) number = number << 8 | from[i];
  return number;
}

// So many bytes of guest memory.
static uint8_t *area(uint64_t addr, uint64_t length) {
  if (addr > memory_size || length > memory_size - addr) stop("outside of memory");
  return memory + addr;
}

// Takes a descriptor's area behind the parts that were taken. How many there are then.
static unsigned take(struct part *parts, unsigned count, const uint8_t *descriptor, unsigned flags) {
  uint64_t addr;
  memcpy(&addr, descriptor, 8);
  if (count == MOST_PARTS) stop("a long chain");
  if (count && parts[count - 1].written && !(flags & WRITE)) stop("a readable part behind a writable one");
  uint32_t length = little(descriptor + 8, 4);
  parts[count] = (struct part){area(addr, length), length, flags & WRITE};
  return count + 1;
}

// Walks a table: a split one by its entries' next, a packed one from entry to entry.
static unsigned walk_table(struct part *parts, const uint8_t *descriptor) {
  uint64_t addr;
  memcpy(&addr, descriptor, 8);
  uint32_t length = little(descriptor + 8, 4), entries = length / 16, at = 0;
  const uint8_t *table = area(addr, length);
  unsigned count = 0;
  if (length % 16 || entries == 0) stop("a table of no whole entries");
  for (uint32_t seen = 0; seen < entries; seen++) {
    const uint8_t *entry = table + 16 * at;
    unsigned flags = little(entry + (packed ? 14 : 12), 2);
    count = take(parts, count, entry, flags);
    at = packed ? at + 1 : little(entry + 14, 2);
    if (packed ? at == entries : !(flags & NEXT)) return count;
    if (at >= entries) stop("an entry behind the table");
  }
  stop("a table that doesn't end");
  return 0;
}

// Walks a split chain.
static unsigned walk_split(struct part *parts, uint16_t head) {
  unsigned count = 0, at = head;
  for (unsigned seen = 0; seen < queue.size; seen++) {
    if (at >= queue.size) stop("a descriptor behind the table");
    const uint8_t *descriptor = memory + queue.desc + 16 * at;
    unsigned flags = little(descriptor + 12, 2);
    if (flags & INDIRECT) return walk_table(parts, descriptor);
    count = take(parts, count, descriptor, flags);
    if (!(flags & NEXT)) return count;
    at = little(descriptor + 14, 2);
  }
  stop("a chain that doesn't end");
  return 0;
}

// Moves bytes between a block of memory and a chain's parts of one kind, from an offset among these on.
static void move(const struct part *parts, unsigned count, bool written, uint64_t offset, uint8_t *bytes, uint64_t length) {
  for (unsigned i = 0; i < count && length; i++) {
    if (parts[i].written != written) continue;
    if (offset >= parts[i].length) {
      offset -= parts[i].length;
      continue;
    }
    uint64_t here = parts[i].length - offset < length ? parts[i].length - offset : length;
    if (written) memcpy(parts[i].at + offset, bytes, here);
    else memcpy(bytes, parts[i].at + offset, here);
    bytes += here;
    length -= here;
    offset = 0;
  }
  if (length) stop("a chain without room");
}

// Moves data between a disk and a chain.
static void transfer(const struct part *parts, unsigned count, bool written, uint64_t offset, uint8_t *bytes, uint64_t length) {
#ifdef COPIES
  if (length > MOST_DATA) stop("much data");
  if (written) memcpy(copied, bytes, length);
  move(parts, count, written, offset, copied, length);
  if (!written) memcpy(bytes, copied, length);
#else
  move(parts, count, written, offset, bytes, length);
#endif
}

// Serves a request. How many bytes were written.
static uint32_t serve(const struct part *parts, unsigned count) {
  static uint8_t good[RESPONSE];
#ifdef COPIES
  uint8_t request[REQUEST];
  move(parts, count, false, 0, request, REQUEST);
#else
  if (parts[0].written || parts[0].length < REQUEST) stop("a short request");
  const uint8_t *request = parts[0].at;
#endif
  const uint8_t *block = request + 19;
  unsigned unit = big(request + 2, 2) & 0x3fff;
  if (request[0] != 1 || request[1] != 0 || unit >= UNITS) stop("another unit");
  uint32_t moved = 0;
  if (block[0] == 0x28 || block[0] == 0x2a || block[0] == 0x89) {
    bool compares = block[0] == 0x89;
    uint64_t first = compares ? (uint64_t)big(block + 2, 4) << 32 | big(block + 6, 4) : big(block + 2, 4);
    uint32_t many = compares ? block[13] : big(block + 7, 2);
    if (first > blocks[unit] || many > blocks[unit] - first) stop("a block behind the end");
    uint8_t *at = disks[unit] + first * BLOCK;
    uint64_t length = (uint64_t)many * BLOCK;
    if (compares) {
      static uint8_t wanted[BLOCK];
      move(parts, count, false, REQUEST, wanted, BLOCK);
      if (memcmp(wanted, at, BLOCK) != 0) stop("a block that differs");
      transfer(parts, count, false, REQUEST + BLOCK, at, BLOCK);
    } else if (block[0] == 0x28) {
      transfer(parts, count, true, RESPONSE, at, length);
      moved = (uint32_t)length;
    } else {
      transfer(parts, count, false, REQUEST, at, length);
    }
  } else if (block[0] != 0) {
    stop("another command");
  }
  move(parts, count, true, 0, good, RESPONSE);
  return RESPONSE + moved;
}

// Serves what a split queue has. How many requests.
static uint64_t settle_split(void) {
  uint8_t *available = memory + queue.driver, *used = memory + queue.device;
  uint64_t served = 0;
  for (; next_slot != (uint16_t)little(available + 2, 2); next_slot++, served++) {
    struct part parts[MOST_PARTS];
    uint16_t head = (uint16_t)little(available + 4 + 2 * (next_slot % queue.size), 2);
    uint32_t length = serve(parts, walk_split(parts, head)), entry[2] = {head, length};
    memcpy(used + 4 + 8 * (used_index % queue.size), entry, 8);
    used_index++;
    memcpy(used + 2, &used_index, 2);
  }
  return served;
}

// Whether a descriptor of a packed queue is available in this round.
static bool is_available(const uint8_t *descriptor) {
  unsigned flags = little(descriptor + 14, 2);
  return !!(flags & AVAILABLE) == wrap_counter && !!(flags & USED) != wrap_counter;
}

// Serves what a packed queue has. How many requests.
static uint64_t settle_packed(void) {
  uint64_t served = 0;
  for (;; served++) {
    uint8_t *first = memory + queue.desc + 16 * next_slot, *descriptor = first;
    struct part parts[MOST_PARTS];
    unsigned count = 0, slots = 0, flags, at = next_slot;
    if (!is_available(first)) return served;
    do {
      descriptor = memory + queue.desc + 16 * at;
      flags = little(descriptor + 14, 2);
      count = flags & INDIRECT ? walk_table(parts, descriptor) : take(parts, count, descriptor, flags);
      at = at + 1 == queue.size ? 0 : at + 1;
      if (++slots > queue.size) stop("a chain that doesn't end");
    } while (flags & NEXT);
    uint32_t length = serve(parts, count);
    uint16_t marks = wrap_counter ? AVAILABLE | USED : 0;
    memcpy(first + 8, &length, 4);
    memcpy(first + 12, descriptor + 12, 2);
    memcpy(first + 14, &marks, 2);
    next_slot += (uint16_t)slots;
    if (next_slot >= queue.size) {
      next_slot -= queue.size;
      wrap_counter = !wrap_counter;
    }
  }
}

enum vscsi_answer vscsi_create(struct vscsi *device, const struct vscsi_config *config, struct vscsi_fault *fault) {
  (void)fault;
  memory_size = (uint64_t)config->pages * VSCSI_PAGE;
  memory = calloc(memory_size, 1);
  queue = config->queues[2];
  packed = config->features & VSCSI_F_RING_PACKED;
  wrap_counter = true;
  next_slot = used_index = 0;
  for (unsigned unit = 0; unit < UNITS; unit++) {
    blocks[unit] = config->units[unit].blocks;
    disks[unit] = calloc(blocks[unit], BLOCK);
  }
  device->live = true;
  return memory && disks[0] && disks[1] ? VSCSI_DONE : VSCSI_NO_MEMORY;
}

enum vscsi_answer vscsi_destroy(struct vscsi *device) {
  free(memory);
  for (unsigned unit = 0; unit < UNITS; unit++) free(disks[unit]);
  device->live = false;
  return VSCSI_DONE;
}

enum vscsi_answer vscsi_poke(struct vscsi *device, uint64_t addr, const void *bytes, size_t count) {
  if (!device->live) return VSCSI_NO_DEVICE;
  memcpy(area(addr, count), bytes, count);
  return VSCSI_DONE;
}

enum vscsi_answer vscsi_peek(struct vscsi *device, uint64_t addr, void *into, size_t count) {
  if (!device->live) return VSCSI_NO_DEVICE;
  memcpy(into, area(addr, count), count);
  return VSCSI_DONE;
}

enum vscsi_answer vscsi_settle(struct vscsi *device, uint64_t *steps) {
  if (!device->live) return VSCSI_NO_DEVICE;
  *steps = STEPS * (packed ? settle_packed() : settle_split());
  return VSCSI_DONE;
}

const char *vscsi_answer_text(enum vscsi_answer answer) { return answer == VSCSI_NO_MEMORY ? "no memory" : "a fault"; }
