/*
 * Rounds of serving: behind one, each driver is notified that wants it by a chain that was used there, as VIRTIO 1.2 says (2.7.10,
 * 2.8.10), and by no other. What is expected is found chain by chain, and slot by slot.
 */
#include "bus_tests.h"

#include <string.h>

enum { QUEUES = 3, MOST = 1024, AREA = 0x8000, DRIVER = 0x4000, DEVICE = 0x6000, SIDE = 1 << 15, EACH = 0, NONE = 1, NAMED = 2 };

static unsigned char memory[QUEUES * AREA];
static uint64_t seed = 88172645463325252u;

static uint64_t below(uint64_t end)
{
	return next(&seed) % end;
}

static void put_2(uint64_t addr, uint16_t half)
{
	memcpy(memory + addr, &half, 2);
}

/* A device's place in a queue: of a split one the index, of a packed one the slot and the side. And how far it went. */
struct at {
	uint16_t index;
	uint16_t slot;
	bool side;
	size_t passed;
};

static struct bus_ring ring_of(size_t queue, uint16_t size)
{
	uint64_t from = queue * AREA;

	return (struct bus_ring){ from, from + DRIVER, from + DEVICE, size, 0, false };
}

/* Uses a chain of a split queue. Returns whether it is the one that the driver named. */
static bool use_split(uint64_t map, const struct bus_ring *ring, struct at *at, uint16_t named)
{
	uint64_t entry = below(1u << 16);
	bool is_named = at->index == named;

	bus_store(map, ring->device + 4 + 8 * (uint64_t)(at->index % ring->size), 1, (const uint8_t *)&entry, 8);
	at->index++;
	at->passed++;
	bus_store(map, ring->device + 2, 1, (const uint8_t *)&at->index, 2);
	return is_named;
}

/* Uses a chain of some slots of a packed queue. Returns whether the slot that the driver named is one of them. */
static bool use_packed(uint64_t map, const struct bus_ring *ring, struct at *at, uint16_t named)
{
	struct {
		uint32_t len;
		uint16_t id, flags;
	} used = { 1, 2, (uint16_t)(at->side ? SIDE | 1 << 7 : 0) };
	uint16_t slots = (uint16_t)(1 + below(below(4) ? (ring->size < 4 ? ring->size : 4) : ring->size));
	bool is_named = false;

	bus_store(map, ring->desc + 16 * (uint64_t)at->slot + 8, 1, (const uint8_t *)&used, 8);
	for (uint16_t i = 0; i < slots; i++) {
		is_named = is_named || named == (at->slot | (at->side ? SIDE : 0));
		at->passed++;
		if (++at->slot == ring->size) {
			at->slot = 0;
			at->side = !at->side;
		}
	}
	return is_named;
}

/* Some queues of which chains are used in a round, in any order. */
static void play(bool packed, bool names, size_t chains)
{
	struct bus_region region = { 0, sizeof memory, memory };
	struct bus_map *made = mapped(&region, 1);
	struct bus_ring rings[QUEUES];
	struct at at[QUEUES];
	uint16_t named[QUEUES], asked[QUEUES];
	bool wanted[QUEUES] = { false }, is_used[QUEUES] = { false };

	memset(memory, 0, sizeof memory);
	for (size_t i = 0; i < QUEUES; i++) {
		uint16_t size = packed ? (uint16_t)(1 + below(below(4) ? 64 : MOST)) : (uint16_t)(1u << below(7));

		rings[i] = ring_of(i, size);
		at[i] = (struct at){ (uint16_t)next(&seed), (uint16_t)below(size), below(2), 0 };
		/* Near to where the chains are used, on either side. */
		named[i] = packed ? (uint16_t)(below(size) | (below(2) ? SIDE : 0)) : (uint16_t)(at[i].index - 5 + below(chains + 10));
		asked[i] = (uint16_t)below(packed ? 4 : 2);
		if (packed) {
			put_2(rings[i].driver, named[i]);
			put_2(rings[i].driver + 2, (uint16_t)(asked[i] | below(1u << 14) << 2));
		} else {
			put_2(rings[i].driver, asked[i] == NONE);
			put_2(rings[i].driver + 4 + 2 * (uint64_t)size, named[i]);
		}
	}
	bus_rings(made, packed, names, rings, QUEUES);
	bus_begin_round(made);
	for (size_t i = 0; i < chains; i++) {
		size_t queue = below(QUEUES);
		bool is_named = (packed ? use_packed : use_split)(handle(made), &rings[queue], &at[queue], named[queue]);
		bool by_name = names && (!packed || asked[queue] == NAMED);

		is_used[queue] = true;
		wanted[queue] = wanted[queue] || (by_name ? is_named : asked[queue] != NONE);
	}
	uint32_t used = bus_end_round(made);

	for (size_t i = 0; i < QUEUES; i++) {
		enum bus_wish wish = bus_wish(made, i);
		bool is_wanted = wish == BUS_WANTED || (wish == BUS_NAMED && bus_has_passed(made, i, at[i].slot, at[i].side));

		if ((used >> i & 1) != is_used[i])
			FAIL("a queue of which %s chain was used is said to be another", is_used[i] ? "a" : "no");
		if (!is_used[i])
			continue;
		if (wanted[i] && !is_wanted)
			FAIL("%s: a driver isn't notified that wants it", packed ? "packed" : "split");
		/* What lies a turn or more apart isn't told apart. */
		if (!wanted[i] && is_wanted && at[i].passed < (packed ? rings[i].size : 32768u))
			FAIL("%s: a driver is notified that doesn't want it", packed ? "packed" : "split");
	}
	bus_begin_round(made);
	if (bus_end_round(made))
		FAIL("chains of another round are told");
	bus_unmap(made);
}

/* What uses no chain of a known queue in a round isn't told, and stands before a barrier of its own. */
static void leaves_others(void)
{
	struct bus_region region = { 0, sizeof memory, memory };
	struct bus_map *made = mapped(&region, 1);
	struct bus_ring rings[QUEUES] = { ring_of(0, 4), ring_of(1, 4), ring_of(2, 0) };
	struct at at = { 0, 0, true, 0 };
	uint16_t half = 1;

	for (int packed = 0; packed < 2; packed++) {
		bus_rings(made, packed, true, rings, QUEUES);
		(packed ? use_packed : use_split)(handle(made), &rings[1], &at, 0);
		bus_begin_round(made);
		for (uint64_t addr = 0; addr < sizeof memory; addr += 2)
			if (packed || addr % AREA != DEVICE + 2 || addr / AREA == 2)
				bus_store(handle(made), addr, 1, (const uint8_t *)&half, 2);
		if (bus_end_round(made))
			FAIL("what asks a driver is taken for a chain");
	}
	if (bus_take_owed(made))
		FAIL("a driver is owed something that nobody said");
	bus_owe(made, 5);
	bus_owe(made, 2);
	if (bus_take_owed(made) != 7 || bus_take_owed(made))
		FAIL("drivers are owed one notification each");
	bus_unmap(made);
}

/* Uses the chain at a place of a packed queue, of one slot, counted from the first round of the ring on. */
static void use_at(struct bus_map *made, const struct bus_ring *ring, uint32_t place)
{
	bool side = place / ring->size % 2 == 0;
	struct {
		uint32_t len;
		uint16_t id, flags;
	} used = { 1, 2, (uint16_t)(side ? SIDE | 1 << 7 : 0) };

	bus_store(handle(made), ring->desc + 16 * (uint64_t)(place % ring->size) + 8, 1, (const uint8_t *)&used, 8);
}

/* Whether the driver is notified that named the chain at a place, where the device uses that at `end` next. */
static bool is_notified(struct bus_map *made, const struct bus_ring *ring, uint32_t place, uint32_t end)
{
	put_2(ring->driver, (uint16_t)(place % ring->size | (place / ring->size % 2 ? 0 : SIDE)));
	put_2(ring->driver + 2, NAMED);
	bus_end_round(made);
	enum bus_wish wish = bus_wish(made, 0);

	return wish == BUS_WANTED || (wish == BUS_NAMED && bus_has_passed(made, 0, (uint16_t)(end % ring->size), end / ring->size % 2 == 0));
}

/*
 * Uses chains of one slot each, from a place on up to another, some of them behind data in another region. A driver is notified that names
 * one of the latest, however often the round went around the ring.
 */
static void keeps_the_latest(uint16_t size, uint32_t first, uint32_t chains, uint32_t data_from, uint32_t data_end)
{
	static unsigned char beside[4096];
	struct bus_region regions[2] = { { 0, sizeof memory, memory }, { 1 << 20, sizeof beside, beside } };

	for (uint32_t latest = 1; latest <= size && latest <= chains - first; latest++) {
		struct bus_map *made = mapped(regions, 2);
		struct bus_ring ring = ring_of(0, size);
		uint8_t data[64] = { 0 };

		bus_rings(made, true, true, &ring, 1);
		bus_store(handle(made), AREA, 1, data, sizeof data);
		bus_begin_round(made);
		for (uint32_t place = first; place < chains; place++) {
			if (place >= data_from && place < data_end)
				bus_store(handle(made), 1 << 20, 1, data, sizeof data);
			else if (place == data_end)
				bus_store(handle(made), AREA, 1, data, sizeof data);
			use_at(made, &ring, place);
		}
		if (!is_notified(made, &ring, chains - latest, chains))
			FAIL("packed, size %u: places %u to %u are used, and the latest but %u isn't seen", size, first, chains, latest);
		bus_unmap(made);
	}
}

int main(void)
{
	for (uint16_t size = 1; size <= 5; size++) {
		for (uint32_t first = 0; first < size; first++)
			for (uint32_t end = first + 2; end < 5u * size; end++)
				for (uint32_t from = first + 1; from < end; from++)
					for (uint32_t more = 1; more <= size; more++)
						keeps_the_latest(size, first, end + more, from, end);
		for (uint32_t more = 0; more < 2u * size; more++)
			keeps_the_latest(size, 0, (1u << 16) * size + more, 0, 0);
	}
	for (int round = 0; round < 40000; round++)
		play(round & 1, round & 2, 1 + below(round % 8 ? 12 : 300));
	for (int round = 0; round < 6; round++)
		play(round & 1, true, 100000 + below(150000));
	leaves_others();
	puts("rounds: ok");
	return 0;
}
