/* The log of pages: which pages are logged, and whether a copy of the pages that were logged misses a store. */
#define _GNU_SOURCE
#include "bus_tests.h"

#include <limits.h>
#include <pthread.h>
#include <sched.h>
#include <stdatomic.h>
#include <string.h>
#include <time.h>

enum { PAGE = 4096, PAGES = 24, LOG = 2, GUEST = PAGES * PAGE, MOST = 3 * PAGE };

static _Alignas(PAGE) uint8_t memory[GUEST];

/* Memory with holes in the middle of pages, and of a whole page; the last pages have no bit. */
static const struct bus_region regions[] = {
	{ 0x0800, 0x1900, memory + 0x0800 },
	{ 0x2200, 0x0e00, memory + 0x2200 },
	{ 0x4000, GUEST - 0x4000, memory + 0x4000 },
};

static bool is_there(uint64_t addr)
{
	for (size_t i = 0; i < sizeof regions / sizeof *regions; i++)
		if (addr - regions[i].guest < regions[i].size)
			return true;
	return false;
}

static void pages_of_stores(void)
{
	struct bus_map *map = mapped(regions, sizeof regions / sizeof *regions);
	static uint8_t bytes[MOST];
	uint8_t log[LOG + 1], wanted[LOG + 1];
	uint64_t seed = 88172645463325252u;

	for (int round = 0; round < 20000; round++) {
		uint64_t kind = next(&seed), addr = next(&seed) % GUEST;
		size_t len = kind % 4 == 0 ? 2 : kind % 4 == 1 ? 8 : kind % 4 == 2 ? next(&seed) % 40 : next(&seed) % MOST;

		if (kind & 256)
			addr -= addr % 8;
		if (len > GUEST - addr)
			len = (size_t)(GUEST - addr);
		memset(log, 0, sizeof log);
		memset(wanted, 0, sizeof wanted);
		for (uint64_t at = addr; at < addr + len; at++)
			if (is_there(at) && at / PAGE < 8 * LOG)
				wanted[at / PAGE / 8] |= (uint8_t)(1 << at / PAGE % 8);
		bus_log(map, log, LOG);
		bus_store(handle(map), addr, 1, bytes, len);
		bus_log(map, NULL, 0);
		bus_store(handle(map), next(&seed) % (GUEST - PAGE), 1, bytes, 8);
		if (memcmp(log, wanted, sizeof log))
			FAIL("%zu bytes from %llx on: other pages are logged", len, (unsigned long long)addr);
	}
	bus_unmap(map);
}

/* A copy that is kept by the log, while the device stores. */

static uint8_t copy[PAGE];
static atomic_ulong asked, done;
static uint64_t device;

static void *stores(void *nothing)
{
	for (unsigned long round = 1; round; round++) {
		for (unsigned spins = 0; atomic_load(&asked) < round;)
			if (++spins % 256 == 0)
				sched_yield();
		uint64_t value = round;

		if (atomic_load(&asked) == ULONG_MAX)
			break;
		bus_store(device, 0x4000 + (round & 1) * 2048, 1, (uint8_t *)&value, round & 2 ? 8 : 2);
		atomic_store(&done, round);
	}
	return nothing;
}

/* Copies the page if its bit is set, which is taken away before. */
static void copy_logged(uint8_t *log)
{
	if (!(__atomic_exchange_n(log, 0, __ATOMIC_ACQUIRE) & 1 << 4))
		return;
	for (size_t i = 0; i < PAGE; i += 2048) {
		uint64_t value = __atomic_load_n((uint64_t *)(void *)(memory + 0x4000 + i), __ATOMIC_RELAXED);

		memcpy(copy + i, &value, sizeof value);
	}
}

static void copies_miss_nothing(double seconds)
{
	struct bus_map *map = mapped(regions, sizeof regions / sizeof *regions);
	struct timespec began, now;
	static uint8_t log[LOG];
	pthread_t thread;
	unsigned long round = 0;

	bus_log(map, log, LOG);
	device = handle(map);
	if (pthread_create(&thread, NULL, stores, NULL))
		FAIL("no thread");
	clock_gettime(CLOCK_MONOTONIC, &began);
	do {
		atomic_store(&asked, ++round);
		for (unsigned spins = 0; atomic_load(&done) < round;) {
			copy_logged(log);
			if (++spins % 256 == 0)
				sched_yield();
		}
		copy_logged(log);
		for (size_t i = 0; i < PAGE; i += 2048)
			if (memcmp(copy + i, memory + 0x4000 + i, 8))
				FAIL("a store is missed by a copy of the pages that were logged, in round %lu", round);
		clock_gettime(CLOCK_MONOTONIC, &now);
	} while ((double)(now.tv_sec - began.tv_sec) + 1e-9 * (double)(now.tv_nsec - began.tv_nsec) < seconds);
	atomic_store(&asked, ULONG_MAX);
	pthread_join(thread, NULL);
	bus_unmap(map);
	printf("pages: logged as they are stored into, and %lu copies miss nothing\n", round);
}

int main(int count, char **words)
{
	pages_of_stores();
	memset(memory, 0, sizeof memory);
	copies_miss_nothing(count > 1 ? strtod(words[1], NULL) : 1);
	return 0;
}
