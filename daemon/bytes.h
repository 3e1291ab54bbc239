// Numbers in memory that the daemon shares with others: of a guest with their lowest byte first, of a command with their highest.
#ifndef DAEMON_BYTES_H
#define DAEMON_BYTES_H

#include <endian.h>
#include <stddef.h>
#include <stdint.h>
#include <string.h>

static inline uint64_t little_get(const uint8_t *from, size_t bytes) {
  uint64_t number = 0;
  memcpy(&number, from, bytes);
  return le64toh(number);
}

static inline void little_put(uint8_t *into, uint64_t number, size_t bytes) {
  number = htole64(number);
  memcpy(into, &number, bytes);
}

static inline uint64_t big_get(const uint8_t *from, size_t bytes) {
  uint64_t number = 0;
  for (size_t i = 0; i < bytes; i++) number = number << 8 | from[i];
  return number;
}

static inline void big_put(uint8_t *into, uint64_t number, size_t bytes) {
  for (size_t i = bytes; i-- > 0; number >>= 8) into[i] = (uint8_t)number;
}

static inline size_t least(size_t a, size_t b) { return a < b ? a : b; }

#endif
