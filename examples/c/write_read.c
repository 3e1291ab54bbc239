// Writes a block and reads it back, as a driver with a split queue would: the device's memory is all the memory there is,
// so what a driver stores the example pokes, and what it loads the example peeks. It stands alone; the others share guest.h.
#include <stdio.h>
#include <stdlib.h>
#include <string.h>

#include "vscsi.h"

enum { QUEUES = 3, SIZE = 8, REQUEST = 51, RESPONSE = 108, NEXT = 1, WRITE = 2 };
enum { REQUEST_AT = 0x8000, DATA_AT = 0x9000, RESPONSE_AT = 0xa000, IN_AT = 0xb000 };

// Where the driver laid out its queues (control, event, requests); their rings are the last one's here.
static const struct vscsi_queue queues[QUEUES] = {
    {0x1000, 0x1400, 0x1800, SIZE}, {0x2000, 0x2400, 0x2800, SIZE}, {.desc = 0x3000, .driver = 0x3400, .device = 0x3800, .size = SIZE}};
static const struct vscsi_queue *const ring = &queues[2];

// A descriptor (VIRTIO 1.2, 2.7.5), on a little-endian processor.
struct descriptor {
  uint64_t addr;
  uint32_t length;
  uint16_t flags, next;
};

static struct vscsi device;

// Ends the example where a call didn't do what it was asked for.
static void must(const char *call, enum vscsi_answer answer) {
  if (answer == VSCSI_DONE) return;
  fprintf(stderr, "write_read: %s answered %d: %s\n", call, answer, vscsi_answer_text(answer));
  vscsi_destroy(&device);
  exit(answer == VSCSI_NO_MEMORY ? 3 : 1);
}

static void poke(uint64_t addr, const void *bytes, size_t count) { must("poke", vscsi_poke(&device, addr, bytes, count)); }

static void peek(uint64_t addr, void *into, size_t count) { must("peek", vscsi_peek(&device, addr, into, count)); }

// Sends the n-th request, a command of unit 0:0 whose chain begins with descriptor 0, has it served, and prints what came back. A
// request is 8 bytes of LUN, 8 of identifier, 3 more, and then the command block.
static void send(const char *name, uint16_t n, const uint8_t *block, const struct descriptor *chain) {
  const uint16_t head = 0;
  uint8_t request[REQUEST] = {1, 0, 0x40, 0}, response[12];
  uint16_t index;
  uint32_t owed, used[2], residual;

  memcpy(request + 19, block, 10);
  poke(REQUEST_AT, request, sizeof request);
  poke(ring->desc, chain, 3 * sizeof *chain);
  poke(ring->driver + 4 + 2 * (n - 1), &head, sizeof head);
  poke(ring->driver + 2, &n, sizeof n);
  must("settle", vscsi_settle(&device, NULL));
  must("owed", vscsi_owed(&device, &owed));
  peek(ring->device + 2, &index, sizeof index);
  if (index != n) must("used index", VSCSI_NO_DEVICE);
  peek(ring->device + 4 + 8 * (n - 1), used, sizeof used);
  peek(RESPONSE_AT, response, sizeof response);
  memcpy(&residual, response + 4, sizeof residual);
  printf("notify=%x %s used=%u response=%u status=%02x residual=%u", owed, name, used[1], response[11], response[10], residual);
}

// How many bytes are ab, before the first that isn't.
static unsigned same(const uint8_t *bytes, size_t length) {
  unsigned count = 0;
  while (count < length && bytes[count] == 0xab) count++;
  return count;
}

int main(void) {
  static const uint8_t write_10[10] = {0x2a, 0, 0, 0, 0, 3, 0, 0, 1, 0}, read_10[10] = {0x28, 0, 0, 0, 0, 3, 0, 0, 1, 0};
  static const struct descriptor out[] = {{REQUEST_AT, REQUEST, NEXT, 1}, {DATA_AT, 512, NEXT, 2}, {RESPONSE_AT, RESPONSE, WRITE, 0}};
  static const struct descriptor in[] = {{REQUEST_AT, REQUEST, NEXT, 1}, {RESPONSE_AT, RESPONSE, NEXT | WRITE, 2}, {IN_AT, 512, WRITE, 0}};
  const struct vscsi_unit unit = {.blocks = 1000, .calm = 1};
  const struct vscsi_config config = {
      .size = sizeof config, .features = VSCSI_F_VERSION_1, .queues = queues, .queue_count = QUEUES, .units = &unit, .unit_count = 1, .pages = 16};
  uint8_t data[512], found[512];

  must("create", vscsi_create(&device, &config, NULL));

  // WRITE(10) of one block at block 3: 512 bytes of ab.
  memset(data, 0xab, sizeof data);
  poke(DATA_AT, data, sizeof data);
  send("write", 1, write_10, out);
  printf("\n");

  // READ(10) of the same block, with room for 512 bytes.
  send("read", 2, read_10, in);
  peek(IN_AT, found, sizeof found);
  printf(" data=ab*%u\n", same(found, sizeof found));

  // The block itself, and what stands in it behind the queues.
  must("blocks", vscsi_blocks(&device, 0, 0, 3, 1, found, sizeof found));
  printf("block 3: ab*%u\n", same(found, sizeof found));
  must("destroy", vscsi_destroy(&device));
  return 0;
}
