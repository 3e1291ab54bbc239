// Requests to disks on files, many at once: 0:0, and where it is wanted a second one, 0:1.
#ifndef DAEMON_TEST_LOAD_H
#define DAEMON_TEST_LOAD_H

#include "front.h"

// The bytes of a request's data; how many requests there are, and one more behind them; between the first blocks of two WRITEs;
// a queue; and milliseconds that nothing takes.
enum { BUFFER = 0x1000, MANY = 120, APART = 1000003, Q = 2, PATIENCE = 60000 };

// Where the files are.
extern char paths[2][40];

// Makes disk 0:0 of this size on a new file, with more words, or both disks.
void load_make(struct disks *disks, const char *size, const char *more);
void load_make_two(struct disks *disks, const char *size, const char *first, const char *second);

// Begins a session of a way, and ends it and the disks.
void load_begin(struct front *front, struct disks *disks, unsigned number);
void load_end(struct front *front, struct disks *disks);

// Where the response of request i and its data lie.
uint8_t *answer_of(const struct front *front, unsigned i);
uint8_t *buffer_of(const struct front *front, unsigned i);

// Makes request i to a disk of target 0 available, with so many bytes from its buffer; or to disk 0:0 a WRITE of 4 KiB of bytes
// that tell its number; or a READ of 4 KiB; or an UNMAP that has so many descriptors of 8 blocks each, whose first blocks are APART; or a LOGICAL
// UNIT RESET.
void put(struct front *front, unsigned q, unsigned i, const uint8_t *block, size_t length, uint32_t bytes);
void put_to(struct front *front, unsigned lun, unsigned q, unsigned i, const uint8_t *block, size_t length, uint32_t bytes);
void put_write(struct front *front, unsigned q, unsigned i, uint32_t block);
void put_write_to(struct front *front, unsigned lun, unsigned q, unsigned i, uint32_t block);
void put_read_of(struct front *front, unsigned lun, unsigned q, unsigned i, uint32_t block);
void put_writes(struct front *front, unsigned count);
void put_unmap(struct front *front, unsigned i, unsigned first, unsigned count);
void put_reset(struct front *front, unsigned i);

// Has the session go on until so many chains of these parts were used on a queue, or until `patience` milliseconds are over.
unsigned await_of(struct front *front, unsigned q, unsigned parts, unsigned count, uint64_t patience);
unsigned await(struct front *front, unsigned q, unsigned count, uint64_t patience);

// Has the session go on until a file was found not to be written. Returns how many requests of the queue were answered before,
// or whether none was.
unsigned await_failure(struct front *front, unsigned q);
bool await_error(struct front *front, unsigned q);

// Has so many seconds pass for the session.
void pass(struct front *front, unsigned seconds);

bool is_good(const struct front *front, unsigned i);

// Returns whether a disk's file has what WRITE i wrote, or zeros; and whether it has each of so many WRITEs, which all were
// GOOD.
bool has_on(unsigned lun, unsigned i, uint64_t block, bool zeros);
bool has(unsigned i, uint64_t block, bool zeros);
bool has_all(const struct front *front, unsigned count);

#endif
