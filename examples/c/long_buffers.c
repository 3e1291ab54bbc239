// A guest that gives event buffers as long as it can: each is a table of 65,536 descriptors, all of them empty but the last,
// which has the 16 bytes of an event. The device holds them until the operator resets a unit as often.
//
//     long_buffers RING COUNT    RING is split or packed, COUNT at most 1,024; prints how many were held, and then used
//     long_buffers               the same with four buffers on each ring
//
// tools/measure/memory compares how much memory few and many take. The status is 1 where a buffer wasn't held or used, 2 where
// the words name no work, 3 for want of memory.
#define EXAMPLE "long_buffers"
#include "guest.h"

enum { MOST = 1024, FEW = 4, ENTRIES = 65536, EVENT = 16, PAGES = 2048 };

// Where the event queue lies, the other two queues, the table and the event.
enum { DRIVER = 0x4000, DEVICE = 0x5000, OTHER_QUEUES = 0x10000, EVENT_AT = 0x20000, TABLE_AT = 0x100000 };

static struct vscsi device;
static struct guest guest = {.device = &device};
static struct descriptor table[ENTRIES];

static void begin(bool packed) {
  const struct vscsi_unit unit = {.blocks = 1, .calm = 1};
  const struct vscsi_queue queues[QUEUES] = {
      {.desc = OTHER_QUEUES, .driver = OTHER_QUEUES + 0x400, .device = OTHER_QUEUES + 0x800, .size = 2},
      {.desc = 0, .driver = DRIVER, .device = DEVICE, .size = MOST},
      {.desc = OTHER_QUEUES + 0x1000, .driver = OTHER_QUEUES + 0x1400, .device = OTHER_QUEUES + 0x1800, .size = 2}};
  struct vscsi_config config = config_of(&unit, 1);
  config.features |= VSCSI_F_INDIRECT_DESC | (packed ? VSCSI_F_RING_PACKED : 0);
  config.queues = queues;
  config.pages = PAGES;
  must("create", vscsi_create(&device, &config, NULL));
  for (unsigned i = 0; i < ENTRIES; i++) {
    bool last = i + 1 == ENTRIES;
    table[i] = entry(packed, EVENT_AT, last ? EVENT : 0, WRITE | (last || packed ? 0 : NEXT), last ? 0 : i + 1, 0);
  }
  store(&guest, TABLE_AT, table, sizeof table);
}

// Gives the buffers, all of them in the one table.
static void give(bool packed, unsigned count) {
  for (unsigned i = 0; i < count; i++) {
    struct descriptor head = entry(packed, TABLE_AT, sizeof table, INDIRECT | (packed ? AVAILABLE : 0), 0, i);
    store(&guest, ENTRY * i, &head, ENTRY);
    if (!packed) put(&guest, DRIVER + 4 + 2 * i, i);
  }
  if (!packed) put(&guest, DRIVER + 2, count);
}

// Has so many buffers held, and then so many events told. Whether each was.
static bool served(bool packed, unsigned count) {
  static const uint8_t told[EVENT] = {1, 0, 0, 0, 1};
  uint64_t taken, before, used;
  uint8_t event[EVENT];
  begin(packed);
  give(packed, count);
  must("settle", vscsi_settle(&device, NULL));
  must("progress", vscsi_progress(&device, 1, &taken, &before));
  for (unsigned i = 0; i < count; i++) must("reset", vscsi_reset(&device, 0, 0));
  must("settle", vscsi_settle(&device, NULL));
  must("progress", vscsi_progress(&device, 1, NULL, &used));
  load(&guest, EVENT_AT, event, EVENT);
  must("destroy", vscsi_destroy(&device));
  printf("%s: %llu held, %llu used\n", packed ? "packed" : "split", (unsigned long long)(taken - before), (unsigned long long)used);
  return taken == count && before == 0 && used == count && (count == 0 || memcmp(event, told, EVENT) == 0);
}

int main(int words, char **word) {
  if (words == 1) return served(false, FEW) && served(true, FEW) ? 0 : 1;
  if (words != 3 || (strcmp(word[1], "split") != 0 && strcmp(word[1], "packed") != 0)) return 2;
  char *end;
  unsigned long count = strtoul(word[2], &end, 10);
  if (*end || word[2][0] < '0' || word[2][0] > '9' || count > MOST) return 2;
  return served(strcmp(word[1], "packed") == 0, (unsigned)count) ? 0 : 1;
}
