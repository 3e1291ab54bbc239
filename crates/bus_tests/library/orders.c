/* Two threads for each order of accesses that the bus claims: the guest writes or reads on one, the device on the other. */
#define _GNU_SOURCE
#include "bus_tests.h"

#include <pthread.h>
#include <sched.h>
#include <stdatomic.h>
#include <string.h>
#include <time.h>

static _Alignas(4096) uint8_t memory[8192];
static uint64_t map;
static atomic_bool over;
static atomic_uint gate[2];
static atomic_ullong looked; /* how often the side that looks did */
static double seconds; /* that a test goes on */

/* Waits until something holds; the other thread may have to be given the processor for that. */
#define UNTIL(holds)                                               \
	for (unsigned spins = 0; !(holds) && !atomic_load(&over);) \
		if (++spins % 256 == 0)                            \
			sched_yield()

static struct timespec began;

/* Whether the test's time is over; the clock is looked at now and then. */
static bool is_late(uint64_t round)
{
	struct timespec now;

	if (round % 64)
		return false;
	clock_gettime(CLOCK_MONOTONIC, &now);
	return (double)(now.tv_sec - began.tv_sec) + 1e-9 * (double)(now.tv_nsec - began.tv_nsec) > seconds;
}

/* What stands at an address for the guest's own loads and stores. */
#define HALF(addr) ((uint16_t *)(memory + (addr)))
#define WORD(addr) ((uint64_t *)(memory + (addr)))

static uint16_t load_2(uint64_t addr)
{
	uint16_t value;

	bus_load(map, addr, 1, (uint8_t *)&value, 2);
	return value;
}

/* Whether one of two counts of 16 bits is older than the other. */
static bool is_older(uint64_t one, uint64_t other)
{
	return (int16_t)(uint16_t)(one - other) < 0;
}

/* The side that stores waits here at its i-th time, so that 16 bits tell how far it went while the other side looked once. */
static void wait_for_looks(uint64_t i)
{
	static unsigned long long last;

	if (i % 1024)
		return;
	UNTIL(atomic_load(&looked) != last);
	last = atomic_load(&looked);
}

/* The guest fills a descriptor, and then raises the index: a device that sees the index sees the descriptor. */
static void *fills_then_raises(void *nothing)
{
	for (uint64_t i = 1; !atomic_load(&over); i++) {
		wait_for_looks(i);
		__atomic_store_n(WORD(0), i, __ATOMIC_RELAXED);
		__atomic_store_n(WORD(8), i, __ATOMIC_RELAXED);
		__atomic_store_n(HALF(4096), (uint16_t)i, __ATOMIC_RELEASE);
	}
	return nothing;
}

static void index_before_descriptor(void)
{
	for (uint64_t i = 1; !is_late(i); i++) {
		uint64_t descriptor[2];
		uint16_t index = load_2(4096);

		bus_load(map, 0, 1, (uint8_t *)descriptor, 16);
		if (is_older(descriptor[0], index) || is_older(descriptor[1], index))
			FAIL("a descriptor is older than the index");
		atomic_fetch_add(&looked, 1);
	}
}

/* The guest fills a packed descriptor, and then its flags: a device that sees the flags sees the rest. */
static void *fills_then_flags(void *nothing)
{
	for (uint64_t i = 1; !atomic_load(&over); i++) {
		wait_for_looks(i);
		__atomic_store_n(WORD(0), i, __ATOMIC_RELAXED);
		__atomic_store_n((uint32_t *)(memory + 8), (uint32_t)i, __ATOMIC_RELAXED);
		__atomic_store_n(HALF(12), (uint16_t)i, __ATOMIC_RELAXED);
		__atomic_store_n(HALF(14), (uint16_t)i, __ATOMIC_RELEASE);
	}
	return nothing;
}

static void flags_before_the_rest(void)
{
	for (uint64_t i = 1; !is_late(i); i++) {
		struct {
			uint64_t addr;
			uint32_t len;
			uint16_t id, flags;
		} it;

		bus_load(map, 0, 1, (uint8_t *)&it, 16);
		if (is_older(it.addr, it.flags) || is_older(it.len, it.flags) || is_older(it.id, it.flags))
			FAIL("a packed descriptor is older than its flags");
		atomic_fetch_add(&looked, 1);
	}
}

/* The device stores data, a used element and the index: a guest that sees the index sees both. */
static void *sees_the_index(void *nothing)
{
	while (!atomic_load(&over)) {
		uint16_t index = __atomic_load_n(HALF(4096), __ATOMIC_ACQUIRE);

		if (is_older(__atomic_load_n(WORD(8), __ATOMIC_RELAXED), index) || is_older(__atomic_load_n(WORD(256), __ATOMIC_RELAXED), index))
			FAIL("a used element or its data are older than the index");
		atomic_fetch_add(&looked, 1);
	}
	return nothing;
}

static void element_before_index(void)
{
	for (uint64_t i = 1; !is_late(i); i++) {
		uint64_t data[8] = { i, i, i, i, i, i, i, i };

		wait_for_looks(i);
		bus_store(map, 256, 1, (const uint8_t *)data, sizeof data);
		bus_store(map, 8, 1, (const uint8_t *)&i, 8);
		bus_store(map, 4096, 1, (const uint8_t *)&i, 2);
	}
}

/* The device stores a packed used descriptor: a guest that sees the flags sees length and id. */
static void *sees_the_flags(void *nothing)
{
	while (!atomic_load(&over)) {
		uint16_t flags = __atomic_load_n(HALF(14), __ATOMIC_ACQUIRE);
		uint32_t len = __atomic_load_n((uint32_t *)(memory + 8), __ATOMIC_RELAXED);

		if (is_older(len, flags) || is_older(__atomic_load_n(HALF(12), __ATOMIC_RELAXED), flags))
			FAIL("a packed used descriptor is older than its flags");
		atomic_fetch_add(&looked, 1);
	}
	return nothing;
}

static void flags_last(void)
{
	for (unsigned i = 1; !is_late(i); i++) {
		struct {
			uint32_t len;
			uint16_t id, flags;
		} used = { i, (uint16_t)i, (uint16_t)i };

		wait_for_looks(i);
		bus_store(map, 8, 1, (const uint8_t *)&used, 8);
	}
}

/* Both meet, that each round's two halves run side by side. */
static void meet(unsigned side, unsigned round)
{
	atomic_store(&gate[side], round);
	UNTIL(atomic_load(&gate[!side]) >= round);
}

static uint16_t seen_by_guest;
static unsigned published; /* 2: the index of a split ring; 4: what asks a packed driver; 8: a packed used descriptor */

/* The guest says up to where it wants no notice, and looks whether something came. */
static void *says_then_looks(void *nothing)
{
	for (unsigned i = 1; !atomic_load(&over); i++) {
		meet(1, 2 * i);
		__atomic_store_n(HALF(0), (uint16_t)i, __ATOMIC_RELAXED);
		__atomic_thread_fence(__ATOMIC_SEQ_CST);
		seen_by_guest = __atomic_load_n(HALF(4102), __ATOMIC_RELAXED);
		meet(1, 2 * i + 1);
	}
	return nothing;
}

/* The device publishes, and looks whether a notice is wanted: one of both sees what the other stored. */
static void publishes_then_looks(void)
{
	for (unsigned i = 1; !is_late(i); i++) {
		uint16_t all[4] = { (uint16_t)i, (uint16_t)i, (uint16_t)i, (uint16_t)i }, seen;

		meet(0, 2 * i);
		bus_store(map, 4104 - published, 1, (const uint8_t *)all, published);
		seen = load_2(0);
		meet(0, 2 * i + 1);
		if (seen != (uint16_t)i && seen_by_guest != (uint16_t)i)
			FAIL("a notice is lost: neither saw what the other stored");
	}
}

/* What the guest names in a round: the index before, or the one slot of a packed ring on its side. */
static uint16_t name_of(unsigned i)
{
	return (uint16_t)(published == 2 ? i - 1 : i % 2 << 15);
}

/* What is stored of a chain: an index, or flags with that side. */
static uint16_t word_of(unsigned i)
{
	return (uint16_t)(published == 2 ? i : i % 2 << 15 | (i & 0x7fff));
}

/* The guest names the chain of which it wants a notice, and looks whether it came. */
static void *names_then_looks(void *nothing)
{
	for (unsigned i = 1; !atomic_load(&over); i++) {
		meet(1, 2 * i);
		__atomic_store_n(HALF(64), name_of(i), __ATOMIC_RELAXED);
		__atomic_thread_fence(__ATOMIC_SEQ_CST);
		seen_by_guest = __atomic_load_n(HALF(4102), __ATOMIC_RELAXED);
		meet(1, 2 * i + 1);
	}
	return nothing;
}

/* The device uses it in a round, and looks at its end whether a notice is wanted. */
static void looks_behind_a_round(void)
{
	struct bus_map *its = (struct bus_map *)(uintptr_t)map;
	const struct bus_ring split = { 0, 58, 4100, 1, 0, false }, packed = { 4088, 64, 0, 1, 0, false };

	bus_rings(its, published == 8, true, published == 8 ? &packed : &split, 1);
	if (published == 8)
		*HALF(66) = 2;
	for (unsigned i = 1; !is_late(i); i++) {
		uint16_t word = word_of(i), all[4] = { word, word, word, word };

		meet(0, 2 * i);
		bus_begin_round(its);
		bus_store(map, 4104 - published, 1, (const uint8_t *)all, published);
		bool is_used = bus_end_round(its) == 1;
		enum bus_wish wish = bus_wish(its, 0);
		bool is_wanted = wish == BUS_WANTED || (wish == BUS_NAMED && bus_has_passed(its, 0, 0, !(i % 2)));

		meet(0, 2 * i + 1);
		if (!is_used)
			FAIL("a chain is used that isn't told");
		if (!is_wanted && seen_by_guest != word)
			FAIL("a notice is lost behind a round: neither saw what the other stored");
	}
}

static void beside(const char *what, void *(*guest)(void *), void (*device)(void))
{
	pthread_t thread;

	memset(memory, 0, sizeof memory);
	atomic_store(&over, false);
	atomic_store(&looked, 0);
	atomic_store(&gate[0], 0);
	atomic_store(&gate[1], 0);
	clock_gettime(CLOCK_MONOTONIC, &began);
	if (pthread_create(&thread, NULL, guest, NULL))
		FAIL("no thread");
	device();
	atomic_store(&over, true);
	pthread_join(thread, NULL);
	printf("orders: %s\n", what);
}

int main(int count, char **words)
{
	const struct bus_region all = { 0, sizeof memory, memory };
	struct bus_map *made = mapped(&all, 1);

	if (!made)
		FAIL("no map is made");
	map = handle(made);
	seconds = count > 1 ? strtod(words[1], NULL) : 0.5;
	beside("the index before a descriptor", fills_then_raises, index_before_descriptor);
	beside("the flags of a packed descriptor before the rest", fills_then_flags, flags_before_the_rest);
	beside("data and used element before the index", sees_the_index, element_before_index);
	beside("length and id before the flags", sees_the_flags, flags_last);
	published = 2;
	beside("the index before the driver's event", says_then_looks, publishes_then_looks);
	published = 8;
	beside("a packed used descriptor before the driver's event", says_then_looks, publishes_then_looks);
	published = 4;
	beside("what asks a packed driver before its chain", says_then_looks, publishes_then_looks);
	published = 2;
	beside("a round before the driver's event", names_then_looks, looks_behind_a_round);
	published = 8;
	beside("a round of a packed queue before the driver's event", names_then_looks, looks_behind_a_round);
	/* In a round what uses no chain has a barrier of its own; behind a round each chain has one again. */
	const struct bus_ring elsewhere = { 0, 58, 600, 1, 0, false };

	bus_rings(made, false, true, &elsewhere, 1);
	bus_begin_round(made);
	published = 2;
	beside("what uses no chain in a round", says_then_looks, publishes_then_looks);
	bus_end_round(made);
	bus_rings(made, false, true, &(struct bus_ring){ 0, 58, 4100, 1, 0, false }, 1);
	beside("an index behind a round", says_then_looks, publishes_then_looks);
	bus_unmap(made);

	/* The end of a region is stored to the long way. */
	const struct bus_region few = { 0, 4104, memory };

	made = mapped(&few, 1);
	map = handle(made);
	for (published = 2; published <= 8; published *= 2)
		beside("the end of a region", says_then_looks, publishes_then_looks);
	bus_unmap(made);
	return 0;
}
