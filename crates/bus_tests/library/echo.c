/* A driver that keeps the rules, on a thread of its own, beside a device that answers each chain by what it brought. */
#include "bus_tests.h"

#include <pthread.h>
#include <string.h>

enum { SIZE = 256, AT_ONCE = 32, MOST = 4096, NEXT = 1, WRITE = 2, AVAIL = 1 << 7, USED = 1 << 15 };

/* Where the queue lies, as bus_tests has it; data stand in a region of their own. */
enum { DESC = 0x10000, DRIVER = 0x12000, DEVICE = 0x13000, RINGS_END = 0x20000, DATA = 0x100000, DATA_BYTES = 0x200000 };

static _Alignas(4096) uint8_t rings[RINGS_END], data[DATA_BYTES];
static bool packed;
static unsigned rounds;
static uint64_t seed = 88172645463325252u;

/* The place of a request's data, and of its answer's. */
static uint64_t out_of(unsigned slot)
{
	return DATA + (uint64_t)slot * MOST;
}

static uint64_t in_of(unsigned slot)
{
	return DATA + (uint64_t)(AT_ONCE + slot) * MOST;
}

static void put_descriptor(unsigned place, uint64_t addr, uint32_t len, uint16_t third, uint16_t last)
{
	uint64_t *it = (uint64_t *)(rings + DESC + 16 * place);

	/* The flags with what stands before them: the sanitizer of threads pairs accesses of one place and size alone. */
	__atomic_store_n(it, addr, __ATOMIC_RELAXED);
	__atomic_store_n(it + 1, len | (uint64_t)third << 32 | (uint64_t)last << 48, __ATOMIC_RELEASE);
}

static void fill(unsigned slot, uint32_t len)
{
	for (uint32_t i = 0; i < len; i++)
		data[out_of(slot) - DATA + i] = (uint8_t)next(&seed);
	memset(data + (in_of(slot) - DATA), 0, MOST);
}

static void check(unsigned slot, uint32_t len, uint32_t told)
{
	const uint8_t *in = data + (in_of(slot) - DATA);

	if (told != len || memcmp(in, data + (out_of(slot) - DATA), len))
		FAIL("a chain of %u bytes is answered by %u others", len, told);
	for (uint32_t i = len; i < MOST; i++)
		if (in[i])
			FAIL("a byte is written behind an answer");
}

/* 2.7: descriptors 2 * slot and the next; the index is raised for all at once. */
static void round_split(uint16_t *count)
{
	uint32_t lens[AT_ONCE];
	uint16_t *avail = (uint16_t *)(rings + DRIVER), *used = (uint16_t *)(rings + DEVICE);

	for (unsigned slot = 0; slot < AT_ONCE; slot++) {
		lens[slot] = 1 + (uint32_t)(next(&seed) % MOST);
		fill(slot, lens[slot]);
		put_descriptor(2 * slot, out_of(slot), lens[slot], NEXT, (uint16_t)(2 * slot + 1));
		put_descriptor(2 * slot + 1, in_of(slot), lens[slot], WRITE, 0);
		__atomic_store_n(&avail[2 + (uint16_t)(*count + slot) % SIZE], (uint16_t)(2 * slot), __ATOMIC_RELAXED);
	}
	__atomic_store_n(&avail[1], (uint16_t)(*count + AT_ONCE), __ATOMIC_RELEASE);
	for (unsigned i = 0; i < AT_ONCE; i++, (*count)++) {
		uint32_t element[2];

		while (__atomic_load_n(&used[1], __ATOMIC_ACQUIRE) == *count)
			;
		memcpy(element, rings + DEVICE + 4 + 8 * (*count % SIZE), 8);
		if (element[0] >= 2 * AT_ONCE || element[0] % 2)
			FAIL("used element names %u", element[0]);
		check(element[0] / 2, lens[element[0] / 2], element[1]);
	}
}

/* 2.8: two descriptors each, of which the first is made available last. */
static void round_packed(uint16_t *count)
{
	uint32_t lens[AT_ONCE];

	for (unsigned slot = 0; slot < AT_ONCE; slot++) {
		unsigned place = (*count + 2 * slot) % SIZE;
		uint16_t mine = (*count + 2 * slot) / SIZE % 2 ? USED : AVAIL;

		lens[slot] = 1 + (uint32_t)(next(&seed) % MOST);
		fill(slot, lens[slot]);
		put_descriptor(place + 1, in_of(slot), lens[slot], (uint16_t)slot, WRITE | mine);
		put_descriptor(place, out_of(slot), lens[slot], (uint16_t)slot, NEXT | mine);
	}
	for (unsigned i = 0; i < AT_ONCE; i++, *count = (uint16_t)((*count + 2) % (2 * SIZE))) {
		uint8_t *it = rings + DESC + 16 * (*count % SIZE);
		uint16_t wanted = *count / SIZE % 2 ? 0 : AVAIL | USED, id;
		uint32_t len;

		while ((__atomic_load_n((uint16_t *)(it + 14), __ATOMIC_ACQUIRE) & (AVAIL | USED)) != wanted)
			;
		len = __atomic_load_n((uint32_t *)(it + 8), __ATOMIC_RELAXED);
		id = __atomic_load_n((uint16_t *)(it + 12), __ATOMIC_RELAXED);
		if (id >= AT_ONCE)
			FAIL("a used descriptor names %u", id);
		check(id, lens[id], len);
	}
}

static void *drives(void *nothing)
{
	uint16_t count = 0;

	for (unsigned i = 0; i < rounds; i++)
		(packed ? round_packed : round_split)(&count);
	return nothing;
}

int main(int count, char **words)
{
	const struct bus_region regions[] = { { 0, sizeof rings, rings }, { DATA, sizeof data, data } };
	struct bus_map *map = mapped(regions, 2);

	if (!map)
		FAIL("no map is made");
	rounds = count > 1 ? (unsigned)strtoul(words[1], NULL, 10) : 500;
	for (int form = 0; form < 2; form++) {
		struct echoed echoed;
		pthread_t thread;

		packed = form == 1;
		memset(rings, 0, sizeof rings);
		if (pthread_create(&thread, NULL, drives, NULL))
			FAIL("no thread");
		bus_echo(handle(map), packed, (uint64_t)rounds * AT_ONCE, UINT64_MAX, &echoed);
		pthread_join(thread, NULL);
		if (echoed.chains != (uint64_t)rounds * AT_ONCE || echoed.faults)
			FAIL("%llu chains, %llu faults", (unsigned long long)echoed.chains, (unsigned long long)echoed.faults);
		printf("echo: %u chains of a %s queue\n", rounds * AT_ONCE, packed ? "packed" : "split");
	}
	bus_unmap(map);
	return 0;
}
