// Two devices in one process, each served by a thread of its own: they have nothing in common. Each guest writes blocks of a
// byte of its own and reads them back, and the blocks of the two disks are what each of them wrote.
#include <pthread.h>

#define EXAMPLE "two_devices"
#include "guest.h"

enum { DEVICES = 2, BLOCKS = 64, ROUNDS = 2000 };

// A device, the byte that its guest writes, and how often that went well.
struct host {
  struct vscsi device;
  uint8_t byte;
  unsigned good;
};

// How many blocks are the guest's byte.
static unsigned own(struct host *host) {
  uint8_t bytes[BLOCKS * VSCSI_BLOCK];
  unsigned count = 0;
  must("blocks", vscsi_blocks(&host->device, 0, 0, 0, BLOCKS, bytes, sizeof bytes));
  for (size_t i = 0; i < sizeof bytes; i++) count += bytes[i] == host->byte;
  return count / VSCSI_BLOCK;
}

static void *run(void *argument) {
  struct host *host = argument;
  struct guest guest = {.device = &host->device};
  const struct vscsi_unit unit = {.blocks = BLOCKS, .calm = 1};
  const struct vscsi_config config = config_of(&unit, 1);
  must("create", vscsi_create(&host->device, &config, NULL));
  for (unsigned number = 0; number < ROUNDS; number++) {
    write_block(&guest, 0, number % BLOCKS, host->byte);
    must("serve", vscsi_serve(&host->device, 1u << 2, UINT64_MAX, NULL, NULL));
    host->good += is_good(&guest);
  }
  return NULL;
}

int main(void) {
  static struct host hosts[DEVICES];
  pthread_t threads[DEVICES];
  for (unsigned i = 0; i < DEVICES; i++) {
    hosts[i].byte = (uint8_t)(0xa1 + i);
    if (pthread_create(&threads[i], NULL, run, &hosts[i])) return 1;
  }
  for (unsigned i = 0; i < DEVICES; i++) {
    if (pthread_join(threads[i], NULL)) return 1;
    printf("device %u: %u requests, %u blocks of %x\n", i, hosts[i].good, own(&hosts[i]), hosts[i].byte);
    must("destroy", vscsi_destroy(&hosts[i].device));
  }
  return 0;
}
