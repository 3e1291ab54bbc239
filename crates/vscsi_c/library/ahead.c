/*
 * Looking ahead. What a request is found by lies in lines that the guest's processor wrote last, and the device would wait for one
 * after another. So the lines of several requests are asked for together. What is read here decides what is fetched, and whether the
 * call is a round (rounds.c). The device reads each byte itself.
 */
#include "map.h"

/* The most requests of a queue, and of a packed one the most slots, that are looked at ahead. */
enum { MOST_AHEAD = 64 };

/* The flags of a descriptor (VIRTIO 1.2, 2.7.5 and 2.8.1). */
enum { DESC_NEXT = 1, DESC_INDIRECT = 4, DESC_AVAIL = 1 << 7, DESC_USED = 1 << 15 };

/* A descriptor of either form; `last` is what comes behind the length: of a split one the flags, and then the next. */
struct descriptor {
	uint64_t addr;
	uint32_t len;
	uint16_t last[2];
};

static inline struct descriptor descriptor_at(const unsigned char *bytes)
{
	struct descriptor it;

	load_16(bytes, (unsigned char *)&it);
	return it;
}

/* Fetches the first line of what a descriptor names, and the next if a request reaches there. Returns where that stands. */
static inline const unsigned char *fetch_named(const struct bus_map *map, const struct descriptor *it, size_t len)
{
	const unsigned char *bytes = bytes_of(map, it->addr, len);

	if (bytes) {
		__builtin_prefetch(bytes);
		__builtin_prefetch(bytes + len - 1);
	}
	return bytes;
}

/* The bytes of a request, and of a table's first descriptor. */
enum { REQUEST = 51, ENTRY = 16 };

/* The same for a chain's first descriptor. Returns where its table stands; NULL where it has none. */
static inline const unsigned char *fetch_first(const struct bus_map *map, const struct descriptor *it, uint16_t flags)
{
	if (!(flags & DESC_INDIRECT)) {
		fetch_named(map, it, REQUEST);
		return NULL;
	}
	const unsigned char *table = fetch_named(map, it, ENTRY);

	return table && is_aligned(table, 8) ? table : NULL;
}

/* The same for the first descriptors of tables, of which the lines were asked for. */
static void fetch_tables(const struct bus_map *map, const unsigned char *const *tables, size_t count)
{
	for (size_t i = 0; i < count; i++) {
		if (tables[i]) {
			struct descriptor first = descriptor_at(tables[i]);

			fetch_named(map, &first, REQUEST);
		}
	}
}

/* Returns how many requests there are, as far as it looks. */
static size_t ahead_in_split(struct bus_map *map, struct bus_ring *it)
{
	const unsigned char *driver = bytes_of(map, it->driver, 4 + 2 * (size_t)it->size), *desc;
	const unsigned char *chains[MOST_AHEAD], *tables[MOST_AHEAD];

	if (!driver || !is_aligned(driver, 2))
		return 0;
	uint16_t end = __atomic_load_n((const uint16_t *)(driver + 2), __ATOMIC_ACQUIRE);
	uint16_t next = it->next;
	size_t count = (uint16_t)(end - next);

	it->next = end;
	if (count > it->size) /* more no driver makes available */
		return 0;
	if (count < 2) /* one isn't waited for any shorter */
		return count;
	desc = bytes_of(map, it->desc, 16 * (size_t)it->size);
	if (!desc || !is_aligned(desc, 8))
		return 0;
	count = count < MOST_AHEAD ? count : MOST_AHEAD;
	for (size_t i = 0; i < count; i++) {
		size_t index = (uint16_t)(next + i) % it->size;
		uint16_t head = __atomic_load_n((const uint16_t *)(driver + 4 + 2 * index), __ATOMIC_RELAXED);

		chains[i] = desc + 16 * (size_t)(head % it->size);
		__builtin_prefetch(chains[i]);
	}
	for (size_t i = 0; i < count; i++) {
		struct descriptor first = descriptor_at(chains[i]);

		tables[i] = fetch_first(map, &first, first.last[0]);
	}
	fetch_tables(map, tables, count);
	return count;
}

static size_t ahead_in_packed(struct bus_map *map, struct bus_ring *it)
{
	const unsigned char *desc = bytes_of(map, it->desc, 16 * (size_t)it->size);
	const unsigned char *tables[MOST_AHEAD];
	size_t count = 0, chains = 0;

	if (!desc || !is_aligned(desc, 8))
		return 0;
	while (count < MOST_AHEAD) {
		struct descriptor slot = descriptor_at(desc + 16 * (size_t)it->next);
		bool avail = slot.last[1] & DESC_AVAIL;

		if (avail == it->wrapped) /* the driver hasn't come so far */
			break;
		tables[count++] = fetch_first(map, &slot, slot.last[1]);
		chains += !(slot.last[1] & DESC_NEXT);
		if (++it->next == it->size) {
			it->next = 0;
			it->wrapped = !it->wrapped;
		}
	}
	fetch_tables(map, tables, count);
	return chains;
}

bool bus_look_ahead(struct bus_map *map, uint32_t queues)
{
	size_t count = 0;

	for (uint32_t left = queues & map->requests; left; left &= left - 1) {
		struct bus_ring *it = &map->queues[__builtin_ctz(left)].ring;

		count += map->packed ? ahead_in_packed(map, it) : ahead_in_split(map, it);
	}
	return count > 1;
}
