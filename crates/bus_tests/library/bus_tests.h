/* What the tests of the bus share: the exports of bus_tests, random numbers, and how a test fails. */
#ifndef BUS_TESTS_H
#define BUS_TESTS_H

#include "bus.h"

#include <stdbool.h>
#include <stdio.h>
#include <stdlib.h>

struct echoed {
	uint64_t chains;
	uint64_t notices;
	uint64_t faults;
};

void bus_load(uint64_t map, uint64_t addr, uint64_t times, uint8_t *out, size_t len);
void bus_store(uint64_t map, uint64_t addr, uint64_t times, const uint8_t *bytes, size_t len);
void bus_echo(uint64_t map, bool packed, uint64_t chains, uint64_t looks, struct echoed *echoed);

/* What the test of looking ahead is told of in the place of the compiler's prefetch. */
void note_fetch(const void *bytes);

/* What the test of barriers is told of in the place of the compiler's. */
void note_fence(int order);

/* Says what is wrong, and ends the test. */
#define FAIL(...) (fprintf(stderr, __VA_ARGS__), fputc('\n', stderr), exit(1))

static inline uint64_t handle(const struct bus_map *map)
{
	return (uint64_t)(uintptr_t)map;
}

/* A map of these regions. */
static inline struct bus_map *mapped(const struct bus_region *regions, size_t count)
{
	struct bus_map *map = bus_map();

	if (!map || bus_remap(map, regions, count) != BUS_DONE)
		FAIL("no map is made of %zu regions", count);
	return map;
}

/* The next of a row of random numbers (xorshift64). */
static inline uint64_t next(uint64_t *state)
{
	*state ^= *state << 13;
	*state ^= *state >> 7;
	return *state ^= *state << 17;
}

#endif
