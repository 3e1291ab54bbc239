// A disk outlives its device, as when a guest's firmware hands over to its kernel: one device writes a block, the host writes
// what changed through to a file of its own (an array, here), and a second device reads the block back.
#define EXAMPLE "boots_twice"
#include "guest.h"

enum { BLOCKS = 64 };

static struct vscsi device;
static struct vscsi_disk disk;
static uint8_t file[BLOCKS * VSCSI_BLOCK];

// Leaves no memory behind, wherever the example ends.
static void end(void) {
  vscsi_destroy(&device);
  vscsi_disk_destroy(&disk);
}

// Makes a device over the disk.
static struct guest start(void) {
  const struct vscsi_unit unit = {.blocks = BLOCKS, .calm = 1};
  const struct vscsi_config config = config_of(&unit, 1);
  must("create_with", vscsi_create_with(&device, &config, &disk, NULL));
  return (struct guest){.device = &device};
}

// Serves the guest's request, and prints its status.
static void serve(const struct guest *guest, const char *name) {
  must("settle", vscsi_settle(&device, NULL));
  printf("%s status=%02x\n", name, response_of(guest).status);
}

// Copies blocks of the device's disk into the file.
static void keep(uint64_t first, uint64_t count) {
  must("blocks", vscsi_blocks(&device, 0, 0, first, (uint32_t)count, file + first * VSCSI_BLOCK, count * VSCSI_BLOCK));
}

// Writes the disk through to the file, as it has changed since a place of its history.
static void write_through(uint64_t *place) {
  struct vscsi_range ranges[VSCSI_MOST_RANGES];
  size_t count;
  bool all;
  must("changed", vscsi_changed(&device, 0, 0, place, ranges, VSCSI_MOST_RANGES, &count, &all));
  if (all) keep(0, BLOCKS);
  for (size_t i = 0; !all && i < count; i++) {
    printf("changed: %u from %u on\n", (unsigned)ranges[i].count, (unsigned)ranges[i].first);
    keep(ranges[i].first, ranges[i].count);
  }
}

int main(void) {
  static const uint8_t read_10[] = {0x28, 0, 0, 0, 0, 3, 0, 0, 1, 0};
  uint8_t data[VSCSI_BLOCK], found[VSCSI_BLOCK];
  uint64_t place = 0;

  // The disk is what the file has.
  atexit(end);
  must("disk_create", vscsi_disk_create(&disk, BLOCKS));
  must("disk_load", vscsi_disk_load(&disk, 0, BLOCKS, file, sizeof file));

  struct guest firmware = start();
  memset(data, 0xab, sizeof data);
  write_block(&firmware, 0, 3, 0xab);
  serve(&firmware, "write");
  write_through(&place);
  must("close", vscsi_close(&device, &disk, 1));
  printf("the file has %s\n", memcmp(file + 3 * VSCSI_BLOCK, data, sizeof data) ? "something else" : "what was written");

  struct guest kernel = start();
  request(&kernel, 0, read_10, sizeof read_10, 0, sizeof found);
  serve(&kernel, "read");
  load(&kernel, IN_AT, found, sizeof found);
  printf("the second device reads %s\n", memcmp(found, data, sizeof data) ? "something else" : "what was written");
  must("close", vscsi_close(&device, &disk, 1));
  memset(found, 0, sizeof found);
  must("disk_save", vscsi_disk_save(&disk, 3, 1, found, sizeof found));
  printf("the disk has %s\n", memcmp(found, data, sizeof data) ? "something else" : "what was written");
  must("disk_destroy", vscsi_disk_destroy(&disk));
  return 0;
}
