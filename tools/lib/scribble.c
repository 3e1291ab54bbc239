// A device on live memory whose guest writes anything into rings, tables, requests and data while it is served: scribble SECONDS.
//
// Between two calls each block that the device doesn't tell of as changed is what it was. A device whose queues broke is closed,
// and the next one begins over its disk, with the other form of ring. No byte outside of what is mapped may be touched.
#define _GNU_SOURCE
#include <pthread.h>
#include <stdatomic.h>
#include <stdint.h>
#include <stdio.h>
#include <stdlib.h>
#include <string.h>
#include <sys/mman.h>
#include <time.h>

#include "vscsi.h"

enum { QUEUES = 4, SIZE = 16, BLOCKS = 64, BLOCK = 512, BASE = 0x100000, BYTES = 0x20000, PAGE = 4096, RANGES = VSCSI_MOST_RANGES };
enum { AREA = 0x1000, TABLES = 0x8000, REQUESTS = 0xa000, DATA = 0xc000, NEXT = 1, WRITE = 2, INDIRECT = 4 };

static unsigned char *memory; // guest memory from BASE on, between two pages that nobody may touch
static unsigned char known[BLOCKS][BLOCK];
static atomic_bool over, packed;

static void fail(const char *text) {
  fprintf(stderr, "scribble: %s\n", text);
  exit(1);
}

static void must(const char *call, enum vscsi_answer answer) {
  if (answer == VSCSI_DONE) return;
  fprintf(stderr, "scribble: %s answered %d: %s\n", call, answer, vscsi_answer_text(answer));
  exit(1);
}

// The guest.

static uint64_t next(uint64_t *seed) {
  *seed ^= *seed << 13;
  *seed ^= *seed >> 7;
  return *seed ^= *seed << 17;
}

static void put(uint64_t at, uint64_t value, size_t bytes) {
  for (size_t i = 0; i < bytes; i++) __atomic_store_n(&memory[(at + i) % BYTES], (unsigned char)(value >> 8 * i), __ATOMIC_RELAXED);
}

// A descriptor as a driver might write it, or one that lies at an end of memory, in the rings or nowhere.
static void put_descriptor(uint64_t at, uint64_t *seed) {
  static const uint64_t places[] = {0, AREA * 3, TABLES, BYTES - 64, BYTES, UINT64_MAX};
  uint64_t r = next(seed), kind = r % 64, third = r >> 8 & (SIZE - 1), flags = r >> 16 & (kind ? NEXT : 7);
  uint64_t addr = BASE + REQUESTS + 64 * (r >> 24 & 31), length = 51;

  if (r >> 32 & 1) addr = BASE + DATA + 512 * (r >> 24 & 15), length = r >> 33 & 1 ? 108 : 512 * (1 + (r >> 34 & 3)), flags |= r >> 36 & WRITE;
  if (kind == 1) addr = BASE + TABLES + 16 * (r >> 24 & 31), length = 16 * (r >> 34 & 7), flags = INDIRECT;
  if (kind == 2) addr = BASE + places[r >> 24 & 3] + (r >> 40 & 255);
  if (kind == 3) addr = places[4 + (r >> 24 & 1)];
  put(at, addr, 8);
  put(at + 8, kind == 4 ? UINT32_MAX : length, 4);
  put(at + 12, atomic_load(&packed) ? third | (flags | 0x80 << (r >> 48 & 8)) << 16 : flags | third << 16, 4);
}

// READ (10), WRITE (10), UNMAP and others, of blocks that there are and that there aren't, and now and then of another unit.
static void put_request(uint64_t at, uint64_t *seed) {
  static const unsigned char codes[] = {0x28, 0x2a, 0x2a, 0x42, 0x41, 0x00, 0x12, 0x25};
  uint64_t r = next(seed);

  put(at, 0x400001 | (r % 16 ? 0 : 0x100), 8);
  put(at + 16, r >> 8 & 3, 1);
  put(at + 19, codes[r >> 16 & 7], 1);
  put(at + 21, (r >> 24 & 127) << 24, 4);
  put(at + 26, (r >> 32 & 3) << 8, 2);
}

static void *scribbles(void *nothing) {
  uint64_t seed = UINT64_C(88172645463325252);
  uint16_t index[QUEUES] = {0};

  while (!atomic_load(&over)) {
    uint64_t r = next(&seed), queue = r >> 8 & (QUEUES - 1), area = AREA * (queue + 1);

    switch (r % 256 ? 1 + r % 6 : 0) {
    case 0: put(r >> 32, r >> 4, 1 + (r >> 16) % 4); break;
    case 1: put(area + 0x402, index[queue] = (uint16_t)(index[queue] + (r >> 16) % 2), 2); break;
    case 2: put(area + 0x404 + 2 * (r >> 16 & (SIZE - 1)), r >> 24 & (SIZE - 1), 2); break;
    case 3: put_descriptor(TABLES + 16 * (r >> 16 & 31), &seed); break;
    case 4: put_request(REQUESTS + 64 * (r >> 16 & 31), &seed); break;
    case 5: put(DATA + (r >> 16 & 0x1fff), r >> 32, 4); break;
    default: put_descriptor(area + 16 * (r >> 16 & (SIZE - 1)), &seed);
    }
    // The index of a device that is new begins at 0.
    if (r >> 40 & 1 && !memory[area + 0x802] && index[queue] > SIZE) index[queue] = 0;
  }
  return nothing;
}

// The host.

static unsigned char *fenced(size_t bytes) {
  unsigned char *all = mmap(NULL, bytes + 2 * PAGE, PROT_NONE, MAP_PRIVATE | MAP_ANONYMOUS, -1, 0);

  if (all == MAP_FAILED || mprotect(all + PAGE, bytes, PROT_READ | PROT_WRITE)) fail("no memory");
  return all + PAGE;
}

static void open_device(struct vscsi_live *device, struct vscsi_disk *disk) {
  const struct vscsi_unit unit = {.blocks = BLOCKS, .calm = 1};
  const struct vscsi_region region = {.guest = BASE, .size = BYTES, .host = memory};
  const bool form = atomic_load(&packed);
  const uint64_t features = VSCSI_F_VERSION_1 | VSCSI_F_INDIRECT_DESC | (form ? VSCSI_F_RING_PACKED : 0);
  struct vscsi_ring rings[QUEUES];

  for (unsigned q = 0; q < QUEUES; q++) {
    uint64_t at = BASE + AREA * (q + 1);

    put(AREA * (q + 1) + 0x400, 0, 4);
    put(AREA * (q + 1) + 0x800, 0, 4);
    rings[q] = (struct vscsi_ring){.desc = at, .driver = at + 0x400, .device = at + 0x800, .size = SIZE};
  }
  const struct vscsi_live_config config = {
      .size = sizeof config, .features = features, .rings = rings, .ring_count = QUEUES, .units = &unit, .unit_count = 1};
  must("create", vscsi_live_create(device, &config, disk, NULL));
  must("map", vscsi_map(device, &region, 1));
}

// Compares all blocks but those of these ranges with what is known, and takes those down. How many of them there are.
static unsigned compare(struct vscsi_live *device, const struct vscsi_range *ranges, size_t count, bool all) {
  static unsigned char now[BLOCKS][BLOCK];
  unsigned changed = 0;

  must("blocks", vscsi_live_blocks(device, 0, 0, 0, BLOCKS, now, sizeof now));
  for (uint64_t block = 0; block < BLOCKS; block++) {
    bool may = all;

    for (size_t i = 0; i < count; i++) may |= block >= ranges[i].first && block - ranges[i].first < ranges[i].count;
    if (!may && memcmp(now[block], known[block], BLOCK)) fail("a block changed of which the device didn't tell");
    changed += may;
  }
  memcpy(known, now, sizeof known);
  return changed;
}

int main(int count, char **words) {
  static struct vscsi_live device;
  static struct vscsi_range ranges[RANGES];
  const time_t end = time(NULL) + (count > 1 ? strtol(words[1], NULL, 10) : 5);
  unsigned long long steps = 0, changed = 0, devices = 0;
  struct vscsi_disk disk = {0};
  pthread_t thread;

  memory = fenced(BYTES);
  must("disk", vscsi_disk_create(&disk, BLOCKS));
  if (pthread_create(&thread, NULL, scribbles, NULL)) fail("no thread");
  while (time(NULL) < end) {
    uint64_t place = 0, taken;
    uint8_t status = 0;

    open_device(&device, &disk);
    compare(&device, ranges, 0, false);
    for (unsigned turn = 0; !status && turn < 10000 && time(NULL) < end; turn++) {
      size_t told;
      bool more, all;

      must("serve", vscsi_live_serve(&device, ~UINT32_C(0), 200, &taken, &more));
      must("changed", vscsi_live_changed(&device, 0, 0, &place, ranges, RANGES, &told, &all));
      changed += compare(&device, ranges, told, all);
      must("status", vscsi_live_status(&device, &status));
      steps += taken;
    }
    must("close", vscsi_live_close(&device, &disk, 1));
    atomic_store(&packed, !atomic_load(&packed));
    devices++;
  }
  atomic_store(&over, true);
  pthread_join(thread, NULL);
  must("destroy", vscsi_disk_destroy(&disk));
  printf("scribble: %llu devices, %llu steps, %llu blocks that may have changed\n", devices, steps, changed);
  return devices > 1 && steps && changed ? 0 : 1;
}
