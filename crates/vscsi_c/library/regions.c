/*
 * What of the guest's memory the host mapped: regions by a sorted table, and the log of pages.
 */
#include "map.h"

#include <stdlib.h>

const struct span bus_none;

static int by_address(const void *one, const void *other)
{
	const struct span *a = one, *b = other;

	return (a->from > b->from) - (a->from < b->from);
}

/* Whether regions lie below the end of what a guest can address. */
static bool are_addressed(const struct bus_region *regions, size_t count)
{
	for (size_t i = 0; i < count; i++)
		if (!regions[i].size || regions[i].guest >= BUS_END || regions[i].size > BUS_END - regions[i].guest)
			return false;
	return true;
}

/* The spans of regions, by rising address. */
static void put_spans(struct span *spans, const struct bus_region *regions, size_t count)
{
	for (size_t i = 0; i < count; i++) {
		const struct bus_region *it = &regions[i];

		spans[i] = (struct span){ it->guest, it->size, it->size < FEW ? 0 : it->size - FEW + 1, it->host };
	}
	qsort(spans, count, sizeof *spans, by_address);
}

static inline uint64_t end_of(const struct span *it)
{
	return it->from + it->size;
}

/* Whether spans by rising address lie one behind the other. */
static bool lie_apart(const struct span *spans, size_t count)
{
	for (size_t i = 1; i < count; i++)
		if (spans[i].from < end_of(&spans[i - 1]))
			return false;
	return true;
}

/* Forgets in which regions accesses lay. */
static void forget(struct bus_map *map)
{
	map->loaded = &bus_none;
	map->stored = &bus_none;
}

struct bus_map *bus_map(void)
{
	struct bus_map *map = calloc(1, sizeof *map);

	if (map) {
		forget(map);
		map->latest = map->queues;
	}
	return map;
}

enum bus_answer bus_remap(struct bus_map *map, const struct bus_region *regions, size_t count)
{
	struct span *own = NULL;

	if (count > BUS_MOST || !are_addressed(regions, count))
		return BUS_REFUSED;
	if (count) {
		own = malloc(count * sizeof *own);
		if (!own)
			return BUS_NO_MEMORY;
		put_spans(own, regions, count);
	}
	if (!lie_apart(own, count)) {
		free(own);
		return BUS_REFUSED;
	}
	free(map->spans);
	map->spans = own;
	forget(map);
	map->count = count;
	return BUS_DONE;
}

void bus_log(struct bus_map *map, uint8_t *log, size_t bytes)
{
	forget(map);
	map->log = log;
	map->log_bytes = bytes;
}

void bus_unmap(struct bus_map *map)
{
	if (map)
		free(map->spans);
	free(map);
}

unsigned char *bus_run(const struct bus_map *map, uint64_t addr, size_t len, size_t *here, const struct span **found)
{
	size_t low = 0, high = map->count; /* the first region that ends above the address is one of these, or there is none */

	while (low < high) {
		size_t middle = low + (high - low) / 2;

		if (end_of(&map->spans[middle]) > addr)
			high = middle;
		else
			low = middle + 1;
	}
	if (low == map->count) {
		*here = len;
		return NULL;
	}
	const struct span *it = &map->spans[low];
	bool hole = it->from > addr;
	uint64_t left = (hole ? it->from : end_of(it)) - addr;

	*here = left < len ? (size_t)left : len;
	if (hole)
		return NULL;
	if (found)
		__atomic_store_n(found, it, __ATOMIC_RELAXED);
	return it->host + (addr - it->from);
}
