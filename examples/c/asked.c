// Serves a driver that notifies only where it was asked to: with event indices, of the one chain that the device named. The device
// asks by itself, as its configuration says, so the host just serves behind each notification. Over split queues and packed ones.
#define EXAMPLE "asked"
#include "guest.h"

enum { REQUESTS = 20 };

static _Alignas(4096) uint8_t memory[MEMORY]; // guest memory from 0 on

// Where the device asks its driver: avail_event, or the event area of a packed queue.
static uint64_t asked_at(const struct guest *guest) { return layout[2].device + (guest->packed ? 0 : 4 + 8 * SIZE); }

// Whether the driver has to notify of the latest chain (VIRTIO 1.2, 2.7.10.1 and 2.8.10): avail_event is the index of its entry; or
// the device's event area names its first slot, by the wrap counter there and RING_EVENT_FLAGS_DESC.
static bool is_asked(const struct guest *guest) {
  unsigned event = get(guest, asked_at(guest)), flags = get(guest, asked_at(guest) + 2);
  if (!guest->packed) return event == guest->chains - 1;
  return flags == 2 && event == (guest->head % SIZE | wraps(guest->head) << 15);
}

static void open_device(struct vscsi_live *device, bool packed, bool asks) {
  const struct vscsi_unit unit = {.blocks = 1000, .calm = 1};
  const struct vscsi_region region = {.guest = 0, .size = MEMORY, .host = memory};
  struct vscsi_ring rings[QUEUES] = {0};
  struct vscsi_live_config config = live_config_of(&unit, 1, rings, 0);

  config.features |= VSCSI_F_EVENT_IDX | (packed ? VSCSI_F_RING_PACKED : 0);
  config.asks = asks;
  memset(memory, 0, sizeof memory);
  must("create", vscsi_live_create(device, &config, NULL, NULL));
  must("map", vscsi_map(device, &region, 1));
}

// Plays a driver that waits for each answer, and notifies only where it was asked; the host serves behind a notification alone.
static void play(bool packed, bool asks) {
  static const uint8_t test_unit_ready[6];
  struct vscsi_live device = {0};
  struct guest guest = {.memory = memory, .packed = packed};
  unsigned answered = 0, first = 0;
  bool more = true;

  open_device(&device, packed, asks);
  // once before the driver's first chain: of a packed queue zeros ask for every notification, and avail_event 0 for the first one
  must("serve", vscsi_live_serve(&device, ~UINT32_C(0), 1000, NULL, &more));
  for (unsigned n = 0; n < REQUESTS; n++) {
    request(&guest, 0, test_unit_ready, sizeof test_unit_ready, 0, 0);
    if (!is_asked(&guest) && !(packed && get(&guest, asked_at(&guest) + 2) == 0)) break;
    first = n + 1;
    must("serve", vscsi_live_serve(&device, ~UINT32_C(0), 1000, NULL, &more));
    answered += is_good(&guest) && !more;
  }
  printf("%s, %s: notified of %u chains, %u answered; ", packed ? "packed" : "split", asks ? "asks" : "never asks", first, answered);
  printf("the event area is %u and %u\n", get(&guest, asked_at(&guest)), get(&guest, layout[2].device + (packed ? 2 : 0)));
  must("destroy", vscsi_live_destroy(&device));
}

int main(void) {
  play(false, false);
  play(false, true);
  play(true, false);
  play(true, true);
  return 0;
}
