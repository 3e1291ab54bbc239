/*
 * Looking ahead: which bytes the processor is asked for, whatever the rings hold. It is built with bus.c, in which note_fetch stands
 * in the place of the compiler's prefetch.
 */
#include "bus_tests.h"

#include <string.h>

enum { SIZE = 64, REQUESTS = SIZE / 2, QUEUES = 3, LINES = 1 << 12, DESC = 0x1000, DRIVER = 0x3000, DEVICE = 0x4000, HEADERS = 0x8000, TABLES = 0x10000 };

/* What was asked for since the last look. */
static const unsigned char *fetched[LINES];
static size_t fetches;

void note_fetch(const void *bytes)
{
	if (fetches == LINES)
		FAIL("more than %d lines are asked for at once", LINES);
	fetched[fetches++] = bytes;
}

static size_t times(const unsigned char *bytes)
{
	size_t count = 0;

	for (size_t i = 0; i < fetches; i++)
		count += fetched[i] == bytes;
	return count;
}

/* Returns whether a queue has several requests. */
static bool look(struct bus_map *map, uint32_t queues)
{
	fetches = 0;
	return bus_look_ahead(map, queues);
}

static void put(unsigned char *at, uint64_t addr, uint32_t len, uint16_t third, uint16_t fourth)
{
	memcpy(at, &addr, 8);
	memcpy(at + 8, &len, 4);
	memcpy(at + 12, &third, 2);
	memcpy(at + 14, &fourth, 2);
}

static uint64_t header(size_t request)
{
	return HEADERS + 0x80 * (uint64_t)request;
}

static uint64_t table(size_t request)
{
	return TABLES + 0x40 * (uint64_t)request;
}

/* Makes request `at` available in a split queue, as two descriptors or as a table of two. */
static void offer_split(unsigned char *memory, size_t at, bool indirect)
{
	uint16_t head = (uint16_t)(2 * (at % REQUESTS)), idx = (uint16_t)(at + 1);
	unsigned char *entry = memory + DESC + 16 * (size_t)head;

	if (indirect) {
		put(entry, table(at % REQUESTS), 32, 4, 0);
		put(memory + table(at % REQUESTS), header(at % REQUESTS), 51, 1, 1);
	} else {
		put(entry, header(at % REQUESTS), 51, 1, (uint16_t)(head + 1));
	}
	memcpy(memory + DRIVER + 4 + 2 * (at % SIZE), &head, 2);
	memcpy(memory + DRIVER + 2, &idx, 2);
}

/* The same in a packed queue, two slots each. */
static void offer_packed(unsigned char *memory, size_t at, bool indirect)
{
	size_t slot = 2 * at % SIZE;
	uint16_t flags = 2 * at / SIZE % 2 ? 1 << 15 : 1 << 7;
	unsigned char *entry = memory + DESC + 16 * slot;

	put(entry + 16, 0x100, 108, 0, flags | 2);
	if (indirect) {
		put(entry, table(at % REQUESTS), 32, 0, flags | 4);
		put(memory + table(at % REQUESTS), header(at % REQUESTS), 51, 0, 0);
	} else {
		put(entry, header(at % REQUESTS), 51, 0, flags | 1);
	}
}

/* The requests that are made available since the last look, and they alone, are looked at, where there are several. */
static void looks_at_new_requests(bool packed, bool indirect, size_t step)
{
	static unsigned char memory[0x20000];
	struct bus_region region = { 0, sizeof memory, memory };
	struct bus_map *map = mapped(&region, 1);
	struct bus_ring rings[QUEUES] = { [2] = { DESC, DRIVER, DEVICE, SIZE, 0, false } };
	size_t done = 0;

	memset(memory, 0, sizeof memory);
	bus_rings(map, packed, false, rings, QUEUES);
	look(map, UINT32_MAX);
	if (fetches)
		FAIL("an empty queue has something to be asked for");
	for (int round = 0; round < 3000; round++) {
		size_t from = done;

		for (; done < from + step; done++)
			(packed ? offer_packed : offer_split)(memory, done, indirect);
		look(map, 3);
		if (fetches)
			FAIL("a queue is looked at that isn't named");
		/* A packed table takes one of the two slots, so that the other is a chain of its own. */
		if (look(map, 4) != (step > 1 || (packed && indirect)))
			FAIL("%zu requests are said to be %s", step, step > 1 ? "one" : "several");
		for (size_t request = 0; request < REQUESTS; request++) {
			size_t behind = (request + REQUESTS - from % REQUESTS) % REQUESTS;
			bool wanted = behind < step && (packed || step > 1);

			if (times(memory + header(request)) != wanted)
				FAIL("%s: request %zu of %zu is asked for %zu times", packed ? "packed" : "split", behind, step, times(memory + header(request)));
			if (indirect && times(memory + table(request)) != wanted)
				FAIL("a table is not asked for once");
		}
		look(map, 4);
		if (fetches)
			FAIL("requests are looked at twice");
	}
	bus_unmap(map);
}

/* Whatever stands in memory, nothing beside the regions is read, and nothing is written. */
static void reads_what_is_mapped(uint64_t rounds)
{
	uint64_t seed = 88172645463325252u;

	for (uint64_t round = 0; round < rounds; round++) {
		enum { REGIONS = 4 };
		struct bus_region regions[REGIONS];
		unsigned char *copies[REGIONS];
		struct bus_ring rings[QUEUES];

		for (size_t i = 0; i < REGIONS; i++) {
			size_t size = 1 + next(&seed) % 900;

			regions[i] = (struct bus_region){ 1024 * i + next(&seed) % 100, size, malloc(size) };
			copies[i] = malloc(size);
			if (!regions[i].host || !copies[i])
				FAIL("no memory");
			for (size_t at = 0; at < size; at++)
				copies[i][at] = (unsigned char)(next(&seed) % 4 ? next(&seed) % 5 : next(&seed));
			memcpy(regions[i].host, copies[i], size);
		}
		struct bus_map *map = mapped(regions, REGIONS);

		for (size_t i = 0; i < QUEUES; i++)
			rings[i] = (struct bus_ring){ next(&seed) % 4200, next(&seed) % 4200, next(&seed) % 4200, (uint16_t)(next(&seed) % 20), (uint16_t)(next(&seed) % 8), next(&seed) % 2 };
		for (size_t i = 0; i < QUEUES; i++)
			rings[i].next = rings[i].size ? rings[i].next % rings[i].size : 0;
		bus_rings(map, next(&seed) % 2, next(&seed) % 2, rings, QUEUES);
		for (int looks = 0; looks < 4; looks++)
			look(map, (uint32_t)next(&seed));
		for (size_t i = 0; i < REGIONS; i++) {
			if (memcmp(regions[i].host, copies[i], regions[i].size))
				FAIL("memory is written");
			free(regions[i].host);
			free(copies[i]);
		}
		bus_unmap(map);
	}
}

int main(void)
{
	for (size_t step = 1; step <= 24; step++)
		for (int kind = 0; kind < 4; kind++)
			looks_at_new_requests(kind & 1, kind & 2, step);
	reads_what_is_mapped(200000);
	puts("ahead: ok");
	return 0;
}
