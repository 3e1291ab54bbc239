#include "driver.h"

#include "../bytes.h"

void driver_begin(struct driver *driver, struct way way) {
  *driver = (struct driver){.way = way};
  for (unsigned q = 0; q < QUEUES; q++) driver_start(driver, q, way.packed ? 0x80008000 : 0);
}

void driver_start(struct driver *driver, unsigned q, uint32_t base) {
  driver->queues[q].next = (uint16_t)(driver->way.packed ? (base & 0x7fff) % driver->way.size : base);
  driver->queues[q].wrap = base >> 15 & 1;
}

static void descriptor(uint64_t place, uint64_t addr, uint32_t length, uint16_t third, uint16_t fourth) {
  uint8_t *at = guest_memory() + place;
  little_put(at, addr, 8);
  little_put(at + 8, length, 4);
  little_put(at + 12, third, 2);
  little_put(at + 14, fourth, 2);
}

static uint16_t flags_of(const struct part *part, bool last) {
  return (uint16_t)((part->writable ? FLAG_WRITE : 0) | (last ? 0 : FLAG_NEXT));
}

static void put_packed(struct driver *driver, unsigned q, const struct part *parts, unsigned count, uint16_t more) {
  uint16_t size = driver->way.size, id = (uint16_t)(driver->queues[q].free++ % size);
  for (unsigned i = 0; i < count; i++) {
    uint16_t *next = &driver->queues[q].next;
    uint16_t flags = (uint16_t)(flags_of(&parts[i], i + 1 == count) | (driver->queues[q].wrap ? FLAG_AVAILABLE : FLAG_USED) | more);
    descriptor(place_of(q, 0) + (uint64_t)DESCRIPTOR * *next, parts[i].addr, parts[i].length, id, flags);
    if (++*next < size) continue;
    *next = 0;
    driver->queues[q].wrap = !driver->queues[q].wrap;
  }
}

static void put_split(struct driver *driver, unsigned q, const struct part *parts, unsigned count, uint16_t more) {
  uint16_t size = driver->way.size, head = (uint16_t)(driver->queues[q].free % size);
  for (unsigned i = 0; i < count; i++) {
    uint16_t at = (uint16_t)(driver->queues[q].free++ % size), next = (uint16_t)(driver->queues[q].free % size);
    uint16_t flags = (uint16_t)(flags_of(&parts[i], i + 1 == count) | more);
    descriptor(place_of(q, 0) + (uint64_t)DESCRIPTOR * at, parts[i].addr, parts[i].length, flags, next);
  }
  driver_put_head(driver, q, head);
}

static void put(struct driver *driver, unsigned q, const struct part *parts, unsigned count, uint16_t more) {
  if (driver->way.packed) put_packed(driver, q, parts, count, more);
  else put_split(driver, q, parts, count, more);
}

void driver_put_head(struct driver *driver, unsigned q, uint16_t head) {
  uint16_t size = driver->way.size, *next = &driver->queues[q].next;
  if (driver->way.packed) {
    uint8_t *flags = guest_memory() + place_of(q, 0) + (uint64_t)DESCRIPTOR * *next + 14;
    uint16_t kept = (uint16_t)(little_get(flags, 2) & ~(unsigned)(FLAG_AVAILABLE | FLAG_USED));
    little_put(flags, (uint64_t)kept | (driver->queues[q].wrap ? FLAG_AVAILABLE : FLAG_USED), 2);
    *next = (uint16_t)((*next + 1) % size);
    driver->queues[q].wrap ^= !*next;
    return;
  }
  uint8_t *ring = guest_memory() + place_of(q, 1);
  little_put(ring + 4 + 2 * (size_t)(*next % size), head, 2);
  little_put(ring + 2, ++*next, 2);
}

void driver_put_table(struct driver *driver, unsigned q, struct part table) { put(driver, q, &table, 1, FLAG_INDIRECT); }

void driver_put(struct driver *driver, unsigned q, const struct part *parts, unsigned count, uint64_t table) {
  if (!table) {
    put(driver, q, parts, count, 0);
    return;
  }
  for (unsigned i = 0; i < count; i++) {
    bool last = i + 1 == count;
    uint16_t flags = (uint16_t)(flags_of(&parts[i], last || driver->way.packed));
    uint16_t third = driver->way.packed ? 0 : flags, fourth = driver->way.packed ? flags : (uint16_t)(i + 1);
    descriptor(table + (uint64_t)DESCRIPTOR * i, parts[i].addr, parts[i].length, third, fourth);
  }
  driver_put_table(driver, q, (struct part){guest_of(&driver->way, table), DESCRIPTOR * count, false});
}
