// Serves a guest that runs in a thread of its own, in the memory that both share: the host is `main`, and copies nothing.
// A guest of a virtual machine is such a thread: a kick is an ioeventfd of it, a notification its irqfd.
#include <pthread.h>
#include <sys/eventfd.h>
#include <unistd.h>

#define EXAMPLE "live"
#include "guest.h"

enum { BASE = 0x100000, REQUESTS = 1000 };

static _Alignas(4096) uint8_t memory[MEMORY]; // guest memory from BASE on
static int kick, notice;                      // to the host, and to the guest

// The host.

// Makes the device of one disk over the queues that the guest set up, in its memory.
static void open_device(struct vscsi_live *device) {
  const struct vscsi_unit unit = {.blocks = 1000, .calm = 1};
  const struct vscsi_region region = {.guest = BASE, .size = MEMORY, .host = memory};
  struct vscsi_ring rings[QUEUES];

  for (unsigned q = 0; q < QUEUES; q++)
    rings[q] = (struct vscsi_ring){.desc = BASE + layout[q].desc, .driver = BASE + layout[q].driver, .device = BASE + layout[q].device, .size = SIZE};
  const struct vscsi_live_config config = {
      .size = sizeof config, .features = VSCSI_F_VERSION_1, .rings = rings, .ring_count = QUEUES, .units = &unit, .unit_count = 1};
  must("create", vscsi_live_create(device, &config, NULL, NULL));
  must("map", vscsi_map(device, &region, 1));
}

// Serves until the guest has gone: waits for a kick, serves, notifies.
static void serve(struct vscsi_live *device, const int *runs) {
  uint64_t count;

  while (__atomic_load_n(runs, __ATOMIC_ACQUIRE) && read(kick, &count, sizeof count) == sizeof count)
    for (bool more = true; more;) {
      uint32_t owed;

      must("serve", vscsi_live_serve(device, ~UINT32_C(1), 1000, NULL, &more));
      // The control queue comes last: what an abort is about was made available before it.
      if (!more) must("serve", vscsi_live_serve(device, 1, 1000, NULL, &more));
      must("owed", vscsi_live_owed(device, &owed));
      if (owed && write(notice, &(uint64_t){1}, 8) != 8) exit(1);
    }
}

static void *guest(void *runs);

int main(void) {
  static struct vscsi_live device;
  uint8_t block[512];
  int runs = 1;
  pthread_t thread;

  kick = eventfd(0, 0);
  notice = eventfd(0, 0);
  open_device(&device);
  if (kick < 0 || notice < 0 || pthread_create(&thread, NULL, guest, &runs)) return 1;
  serve(&device, &runs);
  pthread_join(thread, NULL);
  must("blocks", vscsi_live_blocks(&device, 0, 0, REQUESTS - 1, 1, block, sizeof block));
  printf("block %d: %02x\n", REQUESTS - 1, block[511]);
  must("destroy", vscsi_live_destroy(&device));
  return 0;
}

// The guest: it writes blocks, one after another, and waits for each.
static void *guest(void *runs) {
  struct guest its = {.memory = memory, .base = BASE};
  uint64_t count;
  unsigned good = 0;

  for (unsigned n = 0; n < REQUESTS; n++) {
    write_block(&its, 0, n, (uint8_t)n);
    if (write(kick, &(uint64_t){1}, 8) != 8) exit(1);
    while (!is_used(&its))
      if (read(notice, &count, sizeof count) != sizeof count) exit(1);
    good += is_good(&its);
  }
  printf("good=%u\n", good);
  __atomic_store_n((int *)runs, 0, __ATOMIC_RELEASE);
  if (write(kick, &(uint64_t){1}, 8) != 8) exit(1);
  return NULL;
}
