// Serves a guest whose memory goes away and comes back. A queue that isn't mapped is left alone, and told by name; it is served on
// once it is mapped again. Then the driver is asked for notifications, and the pages that the device writes are logged.
#define EXAMPLE "remapped"
#include "guest.h"

enum { BYTES = 0x8000, RINGS = 0x100000, BUFFERS = 0x200000 }; // of both regions, and their guest addresses
enum { DATA = 0x1000, ANSWER = 0x2000 };                       // in the second one

static _Alignas(4096) uint8_t rings[BYTES], moved[BYTES], buffers[BYTES];
static struct guest guest = {.memory = rings, .base = RINGS};

// The guest writes block n, by its n-th request.
static void write_nth(unsigned n) {
  const uint8_t bytes[REQUEST] = {1, 0, 0x40, [19] = 0x2a, [24] = (uint8_t)n, [27] = 1};
  const struct descriptor parts[] = {{BUFFERS, REQUEST, 0, 0}, {BUFFERS + DATA, 512, 0, 0}, {BUFFERS + ANSWER, RESPONSE, WRITE, 0}};

  memcpy(buffers, bytes, REQUEST);
  memset(buffers + DATA, (int)n, 512);
  memset(buffers + ANSWER, 0xee, RESPONSE);
  make_available(&guest, parts, 3);
}

// Maps the buffers, and the rings where they stand in the host, if they do.
static void map(struct vscsi_live *device, uint8_t *memory) {
  const struct vscsi_region regions[] = {{.guest = BUFFERS, .size = BYTES, .host = buffers}, {.guest = RINGS, .size = BYTES, .host = memory}};
  must("map", vscsi_map(device, regions, memory ? 2 : 1));
}

// Serves, and tells what the guest sees then.
static void serve(struct vscsi_live *device, const char *when) {
  uint64_t steps;
  uint32_t fault;
  uint8_t status;
  bool more;

  must("serve", vscsi_live_serve(device, ~UINT32_C(0), 1000, &steps, &more));
  must("broken", vscsi_live_broken(device, 2, &fault));
  must("status", vscsi_live_status(device, &status));
  printf("%s: %s, status %u; steps=%d more=%d used=%u answered=%d\n", when, vscsi_broken_text(fault), status, steps > 0, more,
         get(&guest, RINGS + layout[2].device + 2), buffers[ANSWER] != 0xee);
}

static void logged(struct vscsi_live *device) {
  uint8_t bitmap[128] = {0};

  must("log", vscsi_log(device, bitmap, sizeof bitmap));
  write_nth(3);
  serve(device, "logged");
  for (unsigned page = 0; page < 8 * sizeof bitmap; page++)
    if (bitmap[page / 8] >> page % 8 & 1) printf("page %x000 was written\n", page);
  must("log", vscsi_log(device, NULL, 0));
}

int main(void) {
  static struct vscsi_live device;
  const struct vscsi_unit unit = {.blocks = 1000, .calm = 1};
  struct vscsi_ring at[QUEUES] = {0};
  struct vscsi_live_config config = live_config_of(&unit, 1, at, RINGS);
  uint32_t owed;

  config.features |= VSCSI_F_EVENT_IDX;
  must("create", vscsi_live_create(&device, &config, NULL, NULL));
  write_nth(1);
  serve(&device, "not mapped yet");
  map(&device, rings);
  serve(&device, "mapped");
  // the rings go, with a request that wasn't taken yet
  write_nth(2);
  map(&device, NULL);
  serve(&device, "unmapped");
  must("ask", vscsi_live_ask(&device, 2, true));
  // and come back at another place of the host
  memcpy(moved, rings, BYTES);
  memset(rings, 0xdd, BYTES);
  guest.memory = moved;
  map(&device, moved);
  serve(&device, "mapped again");
  must("owed", vscsi_live_owed(&device, &owed));
  printf("owed: %x; the old place is %s\n", owed, rings[layout[2].device + 2] == 0xdd ? "as it was left" : "written");
  must("ask", vscsi_live_ask(&device, 2, true));
  printf("asked for the next: avail_event=%u\n", get(&guest, RINGS + layout[2].device + 4 + 8 * SIZE));
  must("ask", vscsi_live_ask(&device, 2, false));
  printf("asked for none: avail_event=%u\n", get(&guest, RINGS + layout[2].device + 4 + 8 * SIZE));
  printf("of no queue: %s\n", vscsi_answer_text(vscsi_live_ask(&device, QUEUES, true)));
  logged(&device);
  must("destroy", vscsi_live_destroy(&device));
  printf("without a device: %s, %s, %s\n", vscsi_answer_text(vscsi_map(&device, NULL, 0)), vscsi_answer_text(vscsi_log(&device, NULL, 0)),
         vscsi_answer_text(vscsi_live_ask(&device, 2, true)));
  return 0;
}
