// One input is what a guest does with its memory while it is served: requests, any bytes anywhere in rings, tables and requests, kicks,
// and what its front end does beside: queues that stop and begin elsewhere, other memory, resets.
#include <string.h>
#include <sys/eventfd.h>
#include <unistd.h>

#include "../bytes.h"
#include "race.h"
#include "requests.h"
#include "sent.h"
#include "system.h"
#include "watch.h"

// How often a guest kicks where another thread writes its memory.
enum { RACE_KICKS = 16, LONGEST_TABLE = 10000 };

struct guest {
  struct connection connection;
  struct driver driver;
  struct input input;
};

static void kick(struct guest *guest, unsigned queues) {
  race_begin();
  for (unsigned turn = 0; turn < (race_runs() ? RACE_KICKS : 1); turn++) {
    for (unsigned q = 0; q < QUEUES; q++)
      if (queues >> q & 1) eventfd_write(guest->connection.kick[q], 1);
    connection_pump(&guest->connection);
  }
  race_end();
}

static void send_all(struct guest *guest, const struct sent *sent, size_t count) {
  for (size_t i = 0; i < count; i++) {
    connection_send(&guest->connection, &sent[i], 0, sent[i].length);
    connection_pump(&guest->connection);
  }
}

static void set_up(struct guest *guest) {
  static struct sent sent[MOST_SENT];
  send_all(guest, sent, sent_set_up(&guest->connection, sent));
  driver_begin(&guest->driver, guest->connection.way);
}

static void request(struct guest *guest) { request_put(&guest->driver, &guest->input); }
static void control(struct guest *guest) { request_put_control(&guest->driver, &guest->input); }
static void event(struct guest *guest) { request_put_event(&guest->driver, &guest->input); }
static void kick_some(struct guest *guest) { kick(guest, (unsigned)input_take(&guest->input, 1)); }
static void kick_all(struct guest *guest) { kick(guest, UINT32_MAX); }

// Chooses a place of the guest's memory with room for a number: in a ring, a table, a request, or anywhere.
static uint8_t *place(struct guest *guest) {
  unsigned area = input_below(&guest->input, 12), q = FIXED_QUEUES + area / 3;
  const uint64_t others[] = {HEADS, TABLES, place_of(0, 0)};
  uint64_t at = (area < 9 ? place_of(q, area % 3) : others[area - 9]) + input_take(&guest->input, 2) % 0x8000;
  return guest_memory() + at;
}

static void write_number(struct guest *guest) {
  static const size_t widths[] = {1, 2, 4, 8};
  uint8_t *at = place(guest);
  size_t width = widths[input_below(&guest->input, 4)];
  little_put(at, input_number(&guest->input), width);
}

// Writes a descriptor of a ring, or of a table.
static void write_descriptor(struct guest *guest) {
  unsigned which = input_below(&guest->input, 2 * QUEUES);
  uint64_t area = which < QUEUES ? place_of(which, 0) : TABLES;
  uint8_t *at = guest_memory() + area + (uint64_t)DESCRIPTOR * input_below(&guest->input, 1024);
  little_put(at, input_number(&guest->input), 8);
  little_put(at + 8, input_number(&guest->input), 4);
  little_put(at + 12, input_take(&guest->input, 2), 2);
  little_put(at + 14, input_take(&guest->input, 2), 2);
}

// Copies a few bytes from one place to another.
static void copy(struct guest *guest) {
  uint8_t *into = place(guest);
  memmove(into, place(guest), 16);
}

static void head(struct guest *guest) {
  unsigned q = input_below(&guest->input, QUEUES);
  driver_put_head(&guest->driver, q, (uint16_t)input_number(&guest->input));
}

// Makes a long table, whose entries are of one kind, and a chain of it.
static void table(struct guest *guest) {
  const struct way *way = &guest->connection.way;
  uint32_t entries = (uint32_t)input_number(&guest->input) % LONGEST_TABLE, length = (uint32_t)input_take(&guest->input, 2);
  unsigned q = input_below(&guest->input, QUEUES), readable = 1 + input_below(&guest->input, 256);
  uint64_t addr = input_number(&guest->input);
  for (uint32_t i = 0; i < entries; i++) {
    uint8_t *at = guest_memory() + TABLES + (uint64_t)DESCRIPTOR * i;
    uint16_t flags = (uint16_t)((i < readable ? 0 : FLAG_WRITE) | (i + 1 < entries && !way->packed ? FLAG_NEXT : 0));
    little_put(at, i ? addr : guest_of(way, HEADS), 8);
    little_put(at + 8, i ? length : HEAD, 4);
    little_put(at + 12, way->packed ? 0 : flags, 2);
    little_put(at + 14, way->packed ? flags : i + 1, 2);
  }
  driver_put_table(&guest->driver, q, (struct part){TABLES, DESCRIPTOR * entries, false});
}

// Names the next completion that the driver wants to be told of.
static void name_event(struct guest *guest) {
  unsigned q = input_below(&guest->input, QUEUES);
  uint8_t *driver = guest_memory() + place_of(q, 1), *used = guest_memory() + place_of(q, 2);
  if (guest->connection.way.packed) little_put(driver, input_take(&guest->input, 4), 4);
  else little_put(driver + 4 + 2 * (size_t)guest->connection.way.size, little_get(used + 2, 2), 2);
}

// Stops a queue, and begins it where it stood or elsewhere.
static void restart(struct guest *guest) {
  struct sent sent[QUEUE_MESSAGES];
  unsigned q = input_below(&guest->input, QUEUES), how = (unsigned)input_take(&guest->input, 1);
  sent_number(sent, GET_VRING_BASE, q);
  send_all(guest, sent, 1);
  uint32_t base = how & 1 ? (uint32_t)input_number(&guest->input) : (uint32_t)(guest->connection.answer >> 32);
  if (how & 2) return;
  sent_queue(&guest->connection, sent, q, base);
  send_all(guest, sent, QUEUE_MESSAGES);
  driver_start(&guest->driver, q, base);
}

// Says the guest's memory again: as it is, its first half alone, or with a field that is another.
static void memory(struct guest *guest) {
  struct sent sent;
  unsigned how = (unsigned)input_take(&guest->input, 1);
  sent_memory(&guest->connection, &sent, how % 4 != 1);
  if (how % 4 > 1) {
    uint8_t *field = sent.bytes + HEADER + 8 * (size_t)input_below(&guest->input, 9);
    little_put(field, input_number(&guest->input), how % 4 == 2 ? 4 : 8);
  }
  send_all(guest, &sent, 1);
}

static void reset(struct guest *guest) {
  struct sent sent;
  unsigned how = (unsigned)input_take(&guest->input, 1);
  sent_begin(&sent, how & 1 ? RESET_DEVICE : RESET_OWNER, 0);
  send_all(guest, &sent, 1);
  if (how & 2) memset(guest_memory(), 0, HEADS);
  set_up(guest);
}

static void enable(struct guest *guest) {
  struct sent sent;
  unsigned which = input_below(&guest->input, 2 * QUEUES);
  sent_number(&sent, SET_VRING_ENABLE, which % QUEUES | (uint64_t)(which >= QUEUES) << 32);
  send_all(guest, &sent, 1);
}

static void features(struct guest *guest) {
  struct sent sent;
  sent_number(&sent, SET_FEATURES, input_take(&guest->input, 8));
  send_all(guest, &sent, 1);
}

// Has a half of the memory go, or come again.
static void region(struct guest *guest) {
  struct sent sent;
  unsigned how = input_below(&guest->input, 4);
  sent_region(&guest->connection, &sent, how & 1, how / 2);
  send_all(guest, &sent, 1);
}

// Makes the memory's file shorter while it is served, and then as long as it was.
static void shorten(struct guest *guest) {
  off_t size = (off_t)4096 * input_below(&guest->input, GUEST_BYTES / 4096);
  if (ftruncate(guest_file(), size)) found("a file doesn't get shorter");
  if (!race_runs()) kick(guest, UINT32_MAX);
  if (ftruncate(guest_file(), GUEST_BYTES)) found("a file doesn't get longer");
}

static void refuse(struct guest *guest) {
  refusals.writes = input_below(&guest->input, 4);
  refusals.serves = input_below(&guest->input, 4);
  refusals.taken = input_below(&guest->input, 4);
  refusals.allocations = input_below(&guest->input, 4);
}

static void pass_time(struct guest *guest) { connection_wait(&guest->connection, 100 * input_below(&guest->input, 128)); }

static void (*const steps[])(struct guest *guest) = {
    request, request, request,    request,   control, event,  kick_some, kick_all,         write_number, write_number, copy,    head,
    table,   restart, name_event, memory,    reset,   enable, features,  write_descriptor, region,       refuse,       shorten, pass_time};

int LLVMFuzzerTestOneInput(const uint8_t *data, size_t size);

int LLVMFuzzerTestOneInput(const uint8_t *data, size_t size) {
  static struct guest guest;
  watch_begin(data, size);
  guest.input = (struct input){data, size};
  connection_begin(&guest.connection, way_take(&guest.input));
  set_up(&guest);
  while (guest.input.left && guest.connection.alive) steps[input_below(&guest.input, sizeof steps / sizeof *steps)](&guest);
  kick_all(&guest);
  connection_end(&guest.connection);
  watch_end();
  return 0;
}
