// Hands a guest from one device to the next, in the middle of its rings: each is closed, and another is made where the queues go
// on. Once over split queues, once over packed ones, whose wrap counters have turned by then.
#define EXAMPLE "goes_on"
#include "guest.h"

enum { BLOCKS = 100 };

static _Alignas(4096) uint8_t memory[MEMORY]; // guest memory from 0 on

// Makes a device over a disk whose queues go on at these positions.
static void open_device(struct vscsi_live *device, bool packed, const struct vscsi_position *first, struct vscsi_disk *disk) {
  const struct vscsi_unit unit = {.blocks = BLOCKS, .calm = 1};
  const struct vscsi_region region = {.guest = 0, .size = MEMORY, .host = memory};
  struct vscsi_ring rings[QUEUES];
  struct vscsi_live_config config = live_config_of(&unit, 1, rings, 0);

  for (unsigned q = 0; q < QUEUES; q++) rings[q].first = first[q];
  config.features |= packed ? VSCSI_F_RING_PACKED : 0;
  must("create", vscsi_live_create(device, &config, disk, NULL));
  must("map", vscsi_map(device, &region, 1));
}

// Ends a device, and tells where its queues go on.
static void close_device(struct vscsi_live *device, struct vscsi_position *at, struct vscsi_disk *disk) {
  for (unsigned q = 0; q < QUEUES; q++) must("position", vscsi_live_position(device, (uint16_t)q, &at[q]));
  must("close", vscsi_live_close(device, disk, 1));
}

// Has the guest write block n of n + 1, by its request n of three descriptors. Whether that went well.
static bool serve(struct vscsi_live *device, struct guest *guest, unsigned n) {
  write_block(guest, 0, n, (uint8_t)(n + 1));
  must("serve", vscsi_live_serve(device, ~UINT32_C(0), 1000, NULL, NULL));
  return is_used(guest) && is_good(guest);
}

static void print(const struct vscsi_position *at) {
  printf(" available=%u%s used=%u%s\n", at->available, at->available_wrapped ? " wrapped" : "", at->used, at->used_wrapped ? " wrapped" : "");
}

static void play(bool packed) {
  struct vscsi_live device = {0};
  struct vscsi_disk disk = {0};
  struct vscsi_position at[QUEUES] = {{0}};
  struct guest guest = {.memory = memory, .packed = packed};
  uint8_t block[512];
  unsigned good = 0, n = 0, kept = 0;

  memset(memory, 0, sizeof memory);
  must("disk", vscsi_disk_create(&disk, BLOCKS));
  // of the packed ring 15 slots are filled by then, 30 and 48: one round and 7, three and 6, six and none
  for (unsigned host = 0; host < 3; host++) {
    open_device(&device, packed, at, &disk);
    for (unsigned end = host == 0 ? 5 : host == 1 ? 10 : 16; n < end; n++) good += serve(&device, &guest, n);
    printf("%s, none of queue %u:", packed ? "packed" : "split", QUEUES);
    printf(" %s\n", vscsi_answer_text(vscsi_live_position(&device, QUEUES, &at[2])));
    close_device(&device, at, &disk);
    printf("%s, after %u requests, %u good:", packed ? "packed" : "split", n, good);
    print(&at[2]);
  }
  printf("the control queue:");
  print(&at[0]);
  for (unsigned lba = 0; lba < n; lba++) {
    must("save", vscsi_disk_save(&disk, lba, 1, block, sizeof block));
    kept += block[0] == lba + 1 && block[511] == lba + 1;
  }
  printf("blocks that were kept: %u\n", kept);
  must("disk", vscsi_disk_destroy(&disk));
}

int main(void) {
  play(false);
  play(true);
  return 0;
}
