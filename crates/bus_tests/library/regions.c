/* Loads and stores of every length across regions and holes, beside a plain array; and the maps that are refused. */
#include "bus_tests.h"

#include <string.h>

enum { GUEST = 0x8000, MOST = 5000 };

/* Three regions: two that touch, of odd sizes, and one behind a hole; a fourth at the end of what can be addressed. */
static uint8_t memory[4][GUEST];
static const struct bus_region regions[] = {
	{ 0x5000, 0x0fff, memory[2] },
	{ 0x1001, 0x0333, memory[0] },
	{ 0x1334, 0x1000, memory[1] },
	{ BUS_END - 0x100, 0x100, memory[3] },
};

static uint8_t model[GUEST]; /* guest memory below GUEST: zeros in holes */

/* Where a guest's byte below GUEST stands, or NULL in a hole. */
static uint8_t *at(uint64_t addr)
{
	for (size_t i = 0; i < sizeof regions / sizeof *regions; i++)
		if (addr - regions[i].guest < regions[i].size)
			return (uint8_t *)regions[i].host + (addr - regions[i].guest);
	return NULL;
}

static void refused(const char *what, const struct bus_region *wrong, size_t count)
{
	struct bus_map *map = bus_map();
	uint8_t byte = 0;

	if (!map || bus_remap(map, regions, sizeof regions / sizeof *regions) != BUS_DONE)
		FAIL("no map is made");
	if (bus_remap(map, wrong, count) != BUS_REFUSED)
		FAIL("a map is made of %s", what);
	memory[0][0] = 0xcd;
	bus_load(handle(map), regions[1].guest, 1, &byte, 1);
	if (byte != 0xcd)
		FAIL("of what was mapped nothing is left behind %s", what);
	memory[0][0] = 0;
	bus_unmap(map);
}

static void refusals(void)
{
	refused("regions that overlap", (struct bus_region[]){ { 0x2000, 0x1000, model }, { 0x1000, 0x1001, model } }, 2);
	refused("a region twice", (struct bus_region[]){ { 0, 16, model }, { 0, 16, model } }, 2);
	refused("an empty region", (struct bus_region[]){ { 0x1000, 0, model } }, 1);
	refused("a region that ends above the end", (struct bus_region[]){ { BUS_END - 1, 2, model } }, 1);
	refused("a region that begins at the end", (struct bus_region[]){ { BUS_END, 1, model } }, 1);
	refused("a region whose end is past the last number", (struct bus_region[]){ { UINT64_MAX - 1, 16, model } }, 1);
	refused("a region of all numbers", (struct bus_region[]){ { 1, UINT64_MAX, model } }, 1);
	refused("too many regions", regions, BUS_MOST + 1);
}

/* What is mapped again is what is seen then, and no more of what was mapped before. */
static void mapped_again(void)
{
	static uint8_t other[16] = { 7 };
	struct bus_map *map = mapped(regions, 1);
	uint8_t bytes[2] = { 0, 0 };

	memory[2][0] = 5;
	bus_load(handle(map), 0x5000, 1, bytes, 1);
	if (bus_remap(map, &(struct bus_region){ 0x100, sizeof other, other }, 1) != BUS_DONE)
		FAIL("nothing is mapped again");
	bus_load(handle(map), 0x100, 1, bytes + 1, 1);
	if (bytes[0] != 5 || bytes[1] != 7)
		FAIL("%u and %u are read, in place of 5 and 7", bytes[0], bytes[1]);
	bus_load(handle(map), 0x5000, 1, bytes, 1);
	if (bytes[0])
		FAIL("what isn't mapped any more reads as %u", bytes[0]);
	memory[2][0] = 0;
	bus_unmap(map);
}

static void nothing_mapped(void)
{
	struct bus_map *map = bus_map();
	uint8_t bytes[64];

	if (!map)
		FAIL("no map is made");
	memset(bytes, 0xee, sizeof bytes);
	bus_store(handle(map), 0, 1, bytes, sizeof bytes);
	bus_load(handle(map), BUS_END - sizeof bytes, 1, bytes, sizeof bytes);
	for (size_t i = 0; i < sizeof bytes; i++)
		if (bytes[i])
			FAIL("a hole reads as %u", bytes[i]);
	bus_unmap(map);
}

int main(void)
{
	struct bus_map *map = mapped(regions, sizeof regions / sizeof *regions);
	static uint8_t got[MOST + 1], given[MOST];
	uint64_t seed = 88172645463325252u;

	refusals();
	nothing_mapped();
	mapped_again();
	for (int round = 0; round < 60000; round++) {
		uint64_t kind = next(&seed), addr = next(&seed) % GUEST;
		size_t len = kind % 8 == 0 ? next(&seed) % MOST : kind % 8 == 1 ? 2 : kind % 8 == 2 ? 8 : kind % 8 == 3 ? 16 : next(&seed) % 90;

		if (len > GUEST - addr)
			len = (size_t)(GUEST - addr);
		if (kind & 256) {
			for (size_t i = 0; i < len; i++) {
				given[i] = (uint8_t)next(&seed);
				if (at(addr + i))
					model[addr + i] = given[i];
			}
			bus_store(handle(map), addr, 1, given, len);
		}
		memset(got, 0xee, sizeof got);
		bus_load(handle(map), addr, 1, got, len);
		if (memcmp(got, model + addr, len) || got[len] != 0xee)
			FAIL("%zu bytes from %llx on differ", len, (unsigned long long)addr);
	}
	for (uint64_t addr = 0; addr < GUEST; addr++)
		if (at(addr) && *at(addr) != model[addr])
			FAIL("memory differs at %llx", (unsigned long long)addr);
	memset(given, 0xab, 0x200);
	bus_store(handle(map), BUS_END - 0x200, 1, given, 0x200);
	for (size_t i = 0; i < GUEST; i++)
		if (memory[3][i] != (i < 0x100 ? 0xab : 0))
			FAIL("the last region differs at %zx", i);
	bus_unmap(map);
	puts("regions: as in one array");
	return 0;
}
