#include "requests.h"

#include <string.h>

#include "../bytes.h"

// How a request's chain lies: bits of a number that the input gives.
enum { IN_TABLE = 1, CUT = 2, EMPTY_PART = 4, ELSEWHERE = 8, WRONG_ORDER = 16, SHORT_HEAD = 32, SHORT_RESPONSE = 64, LONG = 128 };

static const uint8_t commands[][16] = {
    {0x00},                                          // TEST UNIT READY
    {0x03, 0, 0, 0, 18},                             // REQUEST SENSE
    {0x12, 0, 0, 0, 96},                             // INQUIRY, and of a page
    {0x12, 1, 0xb0, 0, 64},
    {0x08, 0, 0, 3, 2},                              // READ
    {0x28, 0, 0, 0, 0, 3, 0, 0, 8},
    {0xa8, 0, 0, 0, 0, 3, 0, 0, 0, 8},
    {0x88, 0, 0, 0, 0, 0, 0, 0, 0, 3, 0, 0, 0, 8},
    {0x0a, 0, 0, 3, 2},                              // WRITE
    {0x2a, 0, 0, 0, 0, 3, 0, 0, 8},
    {0xaa, 0, 0, 0, 0, 3, 0, 0, 0, 8},
    {0x8a, 0, 0, 0, 0, 0, 0, 0, 0, 3, 0, 0, 0, 8},
    {0x41, 0, 0, 0, 0, 40, 0, 0, 5},                 // WRITE SAME
    {0x93, 8, 0, 0, 0, 0, 0, 0, 0, 40, 0, 0, 1, 0},
    {0x89, 0, 0, 0, 0, 0, 0, 0, 0, 41, 0, 0, 0, 1},  // COMPARE AND WRITE
    {0x42, 0, 0, 0, 0, 0, 0, 0, 24},                 // UNMAP
    {0x2f, 2, 0, 0, 0, 3, 0, 0, 8},                  // VERIFY
    {0x35},                                          // SYNCHRONIZE CACHE
    {0x25},                                          // READ CAPACITY
    {0x9e, 0x10, 0, 0, 0, 0, 0, 0, 0, 0, 0, 0, 0, 32},
    {0xa0, 0, 0, 0, 0, 0, 0, 0, 1, 0},               // REPORT LUNS
    {0x1a, 0, 0x3f, 0, 255},                         // MODE SENSE
    {0xa3, 0x0c, 0, 0, 0, 0, 0, 0, 1, 0},            // REPORT SUPPORTED OPERATION CODES
};

enum { COMMANDS = sizeof commands / sizeof *commands };

static uint64_t head_place(struct input *input) { return HEADS + HEAD_ROOM * (uint64_t)input_below(input, 256); }

// Takes a chain's data: a few blocks of the guest's data, or any bytes at any address.
static struct part data_part(const struct driver *driver, struct input *input, unsigned form, bool writable) {
  uint64_t addr = form & ELSEWHERE ? input_number(input) : guest_of(&driver->way, DATA + 256 * input_take(input, 2) % (GUEST_BYTES - DATA));
  uint32_t length = form & LONG ? (uint32_t)input_number(input) : 512 * (uint32_t)input_below(input, 32);
  return (struct part){addr, length, writable};
}

// Writes a request's head. The input may change some bytes of it.
static void write_head(struct input *input, uint64_t place, bool control) {
  uint8_t head[HEAD] = {1, 0, 0x40, 0};
  unsigned lun = input_below(input, 4), changes = input_below(input, 8);
  if (control) {
    // The type comes first, then of a task management function its subtype.
    memcpy(head, (uint8_t[]){0, 0, 0, 0, 0, 0, 0, 0, 1, 0, 0x40, 0}, 12);
    head[4] = (uint8_t)input_below(input, 8);
  } else {
    memcpy(head + 19, commands[input_below(input, COMMANDS)], sizeof commands[0]);
    head[8] = (uint8_t)input_take(input, 1);
    head[16] = (uint8_t)input_below(input, 5);
  }
  head[control ? 9 : 1] = lun == 3 ? 3 : 0;
  head[control ? 11 : 3] = lun == 2 ? 1 : 0;
  if (changes < 4) {
    for (unsigned i = 0; i < changes; i++) {
      unsigned at = input_below(input, HEAD);
      head[at] = (uint8_t)input_take(input, 1);
    }
  }
  memcpy(guest_memory() + place, head, sizeof head);
}

// Adds the data to a chain, whole or in two parts.
static unsigned add_data(struct part *parts, unsigned count, struct part data, unsigned form) {
  uint32_t half = form & CUT ? data.length / 2 : 0;
  if (half) parts[count++] = (struct part){data.addr, half, data.writable};
  if (data.length) parts[count++] = (struct part){data.addr + half, data.length - half, data.writable};
  return count;
}

static uint64_t table_of(const struct driver *driver, struct input *input, unsigned form) {
  bool has = driver->way.indirect ? form & IN_TABLE : (form & (IN_TABLE | LONG)) == (IN_TABLE | LONG);
  return has ? TABLES + (uint64_t)MOST_PARTS * 16 * input_below(input, 64) : 0;
}

void request_put(struct driver *driver, struct input *input) {
  struct part parts[MOST_PARTS];
  unsigned which = input_below(input, 256), q = which < 224 ? FIXED_QUEUES + which % (QUEUES - FIXED_QUEUES) : which % QUEUES, count = 0;
  unsigned form = (unsigned)input_take(input, 1), ways = (unsigned)input_take(input, 1);
  uint64_t head = head_place(input), response = guest_of(&driver->way, head + RESPONSE_AT);
  write_head(input, head, false);
  struct part out = {0}, in = {.writable = true};
  if (ways & 1) out = data_part(driver, input, form, false);
  if (ways & 2) in = data_part(driver, input, form, true);
  parts[count++] = (struct part){guest_of(&driver->way, head), form & SHORT_HEAD ? input_below(input, 64) : HEAD, false};
  if (!(form & WRONG_ORDER)) count = add_data(parts, count, out, form);
  parts[count++] = (struct part){response, form & SHORT_RESPONSE ? input_below(input, 128) : RESPONSE, true};
  if (form & EMPTY_PART) parts[count++] = (struct part){in.addr, 0, true};
  count = add_data(parts, count, in, form);
  if (form & WRONG_ORDER) count = add_data(parts, count, out, form & ~(unsigned)CUT);
  driver_put(driver, q, parts, count, table_of(driver, input, form));
}

void request_put_control(struct driver *driver, struct input *input) {
  unsigned form = (unsigned)input_take(input, 1);
  uint64_t head = head_place(input), response = guest_of(&driver->way, head + RESPONSE_AT);
  write_head(input, head, true);
  const uint32_t length = form & SHORT_HEAD ? input_below(input, 64) : 24;
  const uint32_t room = form & SHORT_RESPONSE ? input_below(input, 8) : 1 + (form & LONG) / 16;
  const struct part parts[] = {{guest_of(&driver->way, head), length, false}, {response, room, true}};
  driver_put(driver, 0, parts, 2, table_of(driver, input, form));
}

void request_put_event(struct driver *driver, struct input *input) {
  unsigned form = (unsigned)input_take(input, 1);
  const struct part readable = data_part(driver, input, form, false);
  const struct part parts[] = {readable, {readable.addr + readable.length, form & SHORT_RESPONSE ? input_below(input, 32) : 16, true}};
  unsigned first = form & CUT ? 0 : 1;
  driver_put(driver, EVENT_QUEUE, parts + first, 2 - first, table_of(driver, input, form));
}
