/* A guest that writes anything into its rings and tables while a device serves them: scribble SECONDS. */
#define _GNU_SOURCE
#include "bus_tests.h"

#include <pthread.h>
#include <stdatomic.h>
#include <string.h>
#include <sys/mman.h>
#include <time.h>

enum { DESC = 0x10000, DRIVER = 0x12000, DEVICE = 0x13000, BYTES = 0x20000, PAGE = 4096 };

static uint8_t *memory;
static atomic_bool over;

/* Memory between two pages that nobody may touch. */
static uint8_t *fenced(size_t bytes)
{
	uint8_t *all = mmap(NULL, bytes + 2 * PAGE, PROT_NONE, MAP_PRIVATE | MAP_ANONYMOUS, -1, 0);

	if (all == MAP_FAILED || mprotect(all + PAGE, bytes, PROT_READ | PROT_WRITE))
		FAIL("no memory");
	return all + PAGE;
}

static void put(uint64_t addr, uint64_t value, size_t len)
{
	for (size_t i = 0; i < len; i++)
		__atomic_store_n(&memory[addr + i], (uint8_t)(value >> 8 * i), __ATOMIC_RELAXED);
}

/* Makes a descriptor that may lie anywhere, in the rings and at the ends of memory too, and may name a table. */
static void put_descriptor(uint64_t at, uint64_t *seed)
{
	static const uint64_t places[] = { 0, DESC, DRIVER, DEVICE, 0x14000, BYTES - 64, BYTES - 1, BYTES, (uint64_t)1 << 52, UINT64_MAX };
	uint64_t r = next(seed), length = r % 5 == 0 ? 16 * (r >> 8 & 63) : r >> 20 & 0x3fff;

	put(at, places[r % 10] + (r >> 40 & 0xff), 8);
	put(at + 8, r % 97 == 0 ? UINT32_MAX : length, 4);
	put(at + 12, next(seed) >> 32, 4);
}

static void *scribbles(void *nothing)
{
	uint64_t seed = 88172645463325252u;
	uint16_t index = 0;

	while (!atomic_load(&over)) {
		uint64_t r = next(&seed);

		/* Now and then anything anywhere; mostly what a driver might write. */
		switch (r % 64 ? 1 + r % 5 : 0) {
		case 0:
			put(DESC + (r >> 8) % 0x4000, r >> 32, 1 + (r >> 4) % 4);
			break;
		case 1:
			put(DRIVER + 2, index = (index + (uint16_t)(r >> 16) % 2) % 64, 2);
			break;
		case 2:
			put(DRIVER + 4 + 2 * (r >> 8 & 255), r >> 16 & 255, 2);
			break;
		case 3:
			put_descriptor(0x14000 + 16 * (r >> 8 & 63), &seed);
			break;
		default:
			put_descriptor(DESC + 16 * (r >> 8 & 255), &seed);
		}
	}
	return nothing;
}

int main(int count, char **words)
{
	time_t end = time(NULL) + (count > 1 ? strtol(words[1], NULL, 10) : 5);
	struct echoed sum = { 0, 0, 0 };
	pthread_t thread;

	memory = fenced(BYTES);
	/* In two parts with a hole between, and none of it where the guest's last page lies. */
	const struct bus_region regions[] = { { 0, 0x15000, memory }, { 0x16000, BYTES - 0x17000, memory + 0x16000 } };
	struct bus_map *map = mapped(regions, 2);

	if (!map || pthread_create(&thread, NULL, scribbles, NULL))
		FAIL("no map or no thread");
	for (unsigned turn = 0; time(NULL) < end; turn++) {
		struct echoed here = { 0, 0, 0 };

		bus_echo(handle(map), turn % 2, 2000, 2000, &here);
		sum.chains += here.chains;
		sum.notices += here.notices;
		sum.faults += here.faults;
	}
	atomic_store(&over, true);
	pthread_join(thread, NULL);
	bus_unmap(map);
	printf("scribble: %llu chains, %llu notices, %llu faults\n", (unsigned long long)sum.chains, (unsigned long long)sum.notices, (unsigned long long)sum.faults);
	return sum.chains && sum.faults ? 0 : 1;
}
