// What vscsi_changed tells of. Two hosts keep a copy of the same disk, each with a place of its own, and write through what
// they are told; behind each call the copy has to be the disk. Blocks that follow one another are one range, 64 ranges are kept
// apart, and then all may have changed. What only reads isn't told.
#define EXAMPLE "changes"
#include "guest.h"

enum { BLOCKS = 256, ROOM = 300, BUSY = 8 };

static struct vscsi device;
static struct guest guest = {.device = &device};

// A host that keeps a copy of unit 0:0.
struct host {
  const char *name;
  uint64_t place;
  uint8_t copy[ROOM * VSCSI_BLOCK];
};

static struct host first = {.name = "first"}, second = {.name = "second"};

// Leaves no memory behind, wherever the example ends.
static void end(void) { vscsi_destroy(&device); }

// Serves the guest's request, a command that ends with a status.
static void serve(unsigned opcode, uint8_t wanted) {
  must("serve", vscsi_serve(&device, 1u << 2, 100, NULL, NULL));
  uint8_t status = response_of(&guest).status;
  if (status == wanted) return;
  printf("command %02x status=%02x\n", opcode, status);
  exit(status == BUSY ? 0 : 1);
}

// Sends a command of unit 0:0, with data that stand at DATA_AT and room for data at IN_AT, and has it end with a status.
static void send(const uint8_t *block, size_t length, uint32_t out, uint32_t in, uint8_t wanted) {
  request(&guest, 0, block, length, out, in);
  serve(block[0], wanted);
}

// Fills the data that go out with a byte.
static void fill(unsigned at, unsigned count, uint8_t byte) {
  uint8_t bytes[4 * VSCSI_BLOCK];
  memset(bytes, byte, sizeof bytes);
  store(&guest, DATA_AT + at, bytes, count);
}

// Writes a block, each time of another byte.
static void write_next(unsigned target, unsigned lba) {
  static uint8_t byte;
  write_block(&guest, target, lba, ++byte);
  serve(0x2a, 0);
}

// UNMAP of three blocks at each `apart`th block, so many times.
static void unmap(unsigned from, unsigned apart, unsigned times) {
  unsigned length = 8 + 16 * times;
  uint8_t list[8 + 16 * 16] = {(uint8_t)((length - 2) >> 8), (uint8_t)(length - 2), (uint8_t)((length - 8) >> 8), (uint8_t)(length - 8)};
  for (unsigned i = 0; i < times; i++) {
    list[8 + 16 * i + 7] = (uint8_t)(from + apart * i);
    list[8 + 16 * i + 11] = 3;
  }
  store(&guest, DATA_AT, list, length);
  send((uint8_t[]){0x42, 0, 0, 0, 0, 0, 0, (uint8_t)(length >> 8), (uint8_t)length, 0}, 10, length, 0, 0);
}

// COMPARE AND WRITE of one block that has a byte now.
static void compare_and_write(unsigned lba, uint8_t has, uint8_t gets, uint8_t wanted) {
  fill(0, VSCSI_BLOCK, has);
  fill(VSCSI_BLOCK, VSCSI_BLOCK, gets);
  send((uint8_t[]){0x89, 0, 0, 0, 0, 0, 0, 0, 0, (uint8_t)lba, 0, 0, 0, 1, 0, 0}, 16, 2 * VSCSI_BLOCK, 0, wanted);
}

static void print(const char *what, const struct host *host, const struct vscsi_range *ranges, size_t count, bool all) {
  printf("%s, %s host:", what, host->name);
  if (all || !count) printf(all ? " all" : " nothing");
  for (size_t i = 0; !all && i < count; i++)
    if (i < 2 || i + 1 == count) printf(" %u+%u", (unsigned)ranges[i].first, (unsigned)ranges[i].count);
  printf(!all && count > 3 ? ", %u ranges\n" : "\n", (unsigned)count);
}

// Asks what has changed, copies that, and looks whether the copy is the disk.
static void ask(const char *what, struct host *host) {
  static uint8_t disk[ROOM * VSCSI_BLOCK];
  struct vscsi_range ranges[VSCSI_MOST_RANGES];
  uint64_t blocks;
  size_t count;
  bool all;
  must("capacity", vscsi_capacity(&device, 0, 0, &blocks));
  must("blocks", vscsi_blocks(&device, 0, 0, 0, (uint32_t)blocks, disk, blocks * VSCSI_BLOCK));
  must("changed", vscsi_changed(&device, 0, 0, &host->place, ranges, VSCSI_MOST_RANGES, &count, &all));
  print(what, host, ranges, count, all);
  if (all) memcpy(host->copy, disk, sizeof disk);
  for (size_t i = 0; !all && i < count; i++)
    for (uint64_t b = ranges[i].first; b < ranges[i].first + ranges[i].count && b < blocks; b++)
      memcpy(host->copy + b * VSCSI_BLOCK, disk + b * VSCSI_BLOCK, VSCSI_BLOCK);
  if (memcmp(host->copy, disk, blocks * VSCSI_BLOCK)) printf("%s, %s host: the copy isn't the disk\n", what, host->name);
}

// One range grows with the blocks that follow it; ranges that lie apart are kept apart, and no more than 64.
static void ranges(void) {
  ask("nothing yet", &first);
  for (unsigned i = 0; i < 10; i++) write_next(0, 10 + i);
  ask("10 blocks in a row", &first);
  for (unsigned i = 0; i < 160; i++) write_next(0, i % 32);
  ask("32 blocks in a row, 5 times", &first);
  for (unsigned i = 0; i < 64; i++) write_next(0, 4 * i);
  ask("64 blocks that lie apart", &first);
  for (unsigned i = 0; i < 65; i++) write_next(0, 3 * i);
  ask("65 blocks that lie apart", &first);
  write_next(0, 7);
  ask("one block since", &first);
}

// Which commands are told of.
static void commands(void) {
  uint64_t before = first.place;
  send((uint8_t[]){0x28, 0, 0, 0, 0, 7, 0, 0, 1, 0}, 10, 0, VSCSI_BLOCK, 0);
  send((uint8_t[]){0x35, 0, 0, 0, 0, 0, 0, 0, 0, 0}, 10, 0, 0, 0);
  ask("READ and SYNCHRONIZE CACHE", &first);
  if (first.place <= before) printf("the history stands still\n");
  write_next(1, 9);
  ask("WRITE of another unit", &first);
  unmap(4, 20, 2);
  ask("UNMAP of two extents", &first);
  unmap(0, 16, 16);
  ask("UNMAP of 16 extents", &first);
  fill(0, VSCSI_BLOCK, 0x77);
  send((uint8_t[]){0x41, 0, 0, 0, 0, 100, 0, 0, 8, 0}, 10, VSCSI_BLOCK, 0, 0);
  ask("WRITE SAME", &first);
  compare_and_write(100, 0x77, 0x78, 0);
  ask("COMPARE AND WRITE", &first);
  // The second finds another byte than the first left: what is told may be as before.
  compare_and_write(102, 0x78, 0x79, 2);
  ask("COMPARE AND WRITE that finds another byte", &first);
}

// An operator gives the unit other capacities, of which its next command is told.
static void capacities(void) {
  must("resize", vscsi_resize(&device, 0, 0, BLOCKS + 4));
  send((uint8_t[6]){0}, 6, 0, 0, 2);
  ask("4 blocks more", &first);
  write_next(0, BLOCKS + 1);
  must("resize", vscsi_resize(&device, 0, 0, BLOCKS));
  send((uint8_t[6]){0}, 6, 0, 0, 2);
  ask("a block that was written and lost", &first);
  must("reset", vscsi_reset(&device, 0, 0));
  send((uint8_t[6]){0}, 6, 0, 0, 2);
  ask("a reset", &first);
}

// What one host was told of is not told again, so the other one hears that all may have changed.
static void two_hosts(void) {
  ask("from the beginning", &second);
  ask("nothing since", &second);
  write_next(0, 50);
  ask("block 50", &second);
  ask("block 50", &first);
  write_next(0, 60);
  ask("block 60", &first);
  ask("block 60", &second);
  ask("nothing since", &first);
  ask("nothing since", &second);
  ask("nothing since", &first);
  write_next(0, 70);
  ask("block 70", &first);
  write_next(0, 80);
  ask("blocks 70 and 80", &second);
  ask("block 80", &first);
}

// What a unit did in all.
static void print_counts(uint8_t target) {
  struct vscsi_counts counts;
  must("counts", vscsi_counts(&device, target, 0, &counts, sizeof counts));
  printf("unit %u:0: %u left, %u good, %u check conditions, %u busy, %u full, %u bytes out, %u bytes in\n", target, (unsigned)counts.left,
         (unsigned)counts.good, (unsigned)counts.check_conditions, (unsigned)counts.busy, (unsigned)counts.full, (unsigned)counts.data_out,
         (unsigned)counts.data_in);
}

int main(void) {
  const struct vscsi_unit units[] = {{.blocks = BLOCKS, .calm = 1}, {.blocks = BLOCKS, .target = 1, .calm = 1}};
  const struct vscsi_config config = config_of(units, 2);
  atexit(end);
  must("create", vscsi_create(&device, &config, NULL));
  ranges();
  commands();
  capacities();
  two_hosts();
  print_counts(0), print_counts(1);
  must("destroy", vscsi_destroy(&device));
  return 0;
}
