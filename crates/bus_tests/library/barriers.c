/*
 * Where full barriers stand: behind each store that others have to see before the device looks on, and of a round behind the last that
 * used a chain. Built with -D__atomic_thread_fence=note_fence and -include bus_tests.h, so that each is counted.
 */
#include "bus_tests.h"

#include <string.h>

enum { DESC = 0, DRIVER = 0x400, DEVICE = 0x800, SIZE = 4, END = 0x1000 };

static unsigned char memory[END];
static unsigned fences;

void note_fence(int order)
{
	if (order != __ATOMIC_SEQ_CST)
		FAIL("a barrier that isn't full");
	fences++;
}

/* How many barriers stand behind a store. */
static unsigned behind(struct bus_map *made, uint64_t addr, size_t len)
{
	const uint8_t bytes[8] = { 0 };
	unsigned before = fences;

	bus_store(handle(made), addr, 1, bytes, len);
	return fences - before;
}

static void want(unsigned found, unsigned wanted, const char *what, bool packed)
{
	if (found != wanted)
		FAIL("%s: %u barriers in place of %u behind %s", packed ? "packed" : "split", found, wanted, what);
}

/* A chain is used in the middle of what is mapped, or at its end, where stores go the long way. */
static void look(bool packed, bool at_end)
{
	const uint64_t chain = packed ? DESC + 8 : DEVICE + 2, ask = packed ? DEVICE : DEVICE + 4 + 8 * SIZE;
	const size_t len = packed ? 8 : 2, asks = packed ? 4 : 2;
	const struct bus_region region = { 0, at_end ? chain + len : END, memory };
	struct bus_map *made = mapped(&region, 1);
	const struct bus_ring ring = { DESC, DRIVER, DEVICE, SIZE, 0, false };
	unsigned before;

	bus_rings(made, packed, true, &ring, 1);
	for (int round = 0; round < 3; round++) {
		want(behind(made, chain, len), 1, "a chain", packed);
		want(behind(made, ask, asks), 1, "what asks", packed);
		bus_begin_round(made);
		want(behind(made, ask, asks), 1, "what asks in a round", packed);
		for (int chains = 0; chains < 2; chains++)
			want(behind(made, chain, len), 0, "a chain of a round", packed);
		want(behind(made, ask, asks), 1, "what asks behind chains", packed);
		want(behind(made, chain, len), 0, "a later chain of a round", packed);
		before = fences;
		if (bus_end_round(made) != 1)
			FAIL("a chain that is used isn't told");
		want(fences - before, 1, "a round", packed);
	}
	bus_unmap(made);
}

int main(void)
{
	for (int form = 0; form < 4; form++)
		look(form & 1, form & 2);
	puts("barriers: ok");
	return 0;
}
