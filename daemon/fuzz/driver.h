// What a guest's driver writes into the guest's memory: chains and requests, in their right form.
#ifndef DAEMON_FUZZ_DRIVER_H
#define DAEMON_FUZZ_DRIVER_H

#include "connection.h"

// Places of the guest's memory, behind the rings: heads and responses of requests, tables, and data.
enum { HEADS = 0x30000, TABLES = 0x40000, DATA = HALF, HEAD_ROOM = 0x100, RESPONSE_AT = 0x80, MOST_PARTS = 8 };

// Flags of descriptors, their bytes, and those of a request's head and of its response.
enum { FLAG_NEXT = 1, FLAG_WRITE = 2, FLAG_INDIRECT = 4, FLAG_AVAILABLE = 0x80, FLAG_USED = 0x8000, HEAD = 51, RESPONSE = 108 };

struct part {
  uint64_t addr;
  uint32_t length;
  bool writable;
};

struct driver {
  struct way way;
  struct {
    uint16_t next, free;  // where the next chain is made available, and the next descriptor or id that is free
    bool wrap;
  } queues[QUEUES];
};

void driver_begin(struct driver *driver, struct way way);

// Begins a queue where the base says.
void driver_start(struct driver *driver, unsigned q, uint32_t base);

// Makes a chain of these parts available. Where `table` isn't 0 they stand in a table at that place.
void driver_put(struct driver *driver, unsigned q, const struct part *parts, unsigned count, uint64_t table);

// Makes a chain available whose one descriptor names this table.
void driver_put_table(struct driver *driver, unsigned q, struct part table);

// Makes the descriptor with this number available as the head of a chain, or of a packed queue the next one.
void driver_put_head(struct driver *driver, unsigned q, uint16_t head);

#endif
