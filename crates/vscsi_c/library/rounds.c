/*
 * Rounds of serving, and which drivers want to be notified behind one.
 *
 * The device looks at its driver's event suppression behind each chain that it uses. In a round no barrier stands between, since each
 * would wait until the guest's processor has let go of all lines that were stored before. So what the device sees there may be
 * older than the chain: it may take a driver that asked meanwhile, and saw no chain, for one that doesn't want to be notified. At
 * the end of the round one barrier stands behind all, and what each of these drivers asked is looked at once more, as VIRTIO 1.2
 * has it of several chains (2.7.10, 2.8.10). Who is notified without a cause looks, and finds nothing.
 */
#include "map.h"

/* What a driver of a packed queue asks for (VIRTIO 1.2, 2.8.10). */
enum { EACH = 0, NONE = 1, NAMED = 2, SUPPRESSION = 3 };

/* The flag of a used descriptor that says on which side of the ring's end it is (2.8.1), and so the highest bit of what names one. */
enum { SIDE = 1 << 15 };

void bus_rings(struct bus_map *map, bool packed, bool names, const struct bus_ring *rings, size_t count)
{
	map->packed = packed;
	map->split = !packed;
	map->names = names;
	map->latest = map->queues;
	map->requests = 0;
	map->queue_count = count < BUS_MOST_RINGS ? count : BUS_MOST_RINGS;
	for (size_t i = 0; i < map->queue_count; i++) {
		const struct bus_ring *it = &rings[i];
		uint64_t entries = 16 * (uint64_t)it->size;

		map->queues[i] = (struct queue){
			.ring = *it,
			.uses = packed ? it->desc + 8 : it->device + 2,
			.extent = !it->size ? 0 : packed ? entries - 8 : 1,
		};
		if (i > 1 && it->size)
			map->requests |= UINT32_C(1) << i;
	}
}

size_t bus_queue_at(const struct bus_map *map, uint64_t addr)
{
	for (size_t i = 0; i < map->queue_count; i++)
		if (addr - map->queues[i].uses < map->queues[i].extent)
			return i;
	return BUS_MOST_RINGS;
}

void bus_begin_round(struct bus_map *map)
{
	map->in_round = true;
	map->round++;
	map->used = 0;
}

uint32_t bus_end_round(struct bus_map *map)
{
	map->in_round = false;
	if (map->unseen)
		__atomic_thread_fence(__ATOMIC_SEQ_CST);
	map->unseen = false;
	return map->used;
}

/* Loads 2 bytes; where they aren't mapped they are zeros. */
static uint16_t half_at(const struct bus_map *map, uint64_t addr)
{
	const unsigned char *bytes = bytes_of(map, addr, 2);
	uint16_t half = 0;

	if (bytes && is_aligned(bytes, 2))
		load_2(bytes, (unsigned char *)&half);
	else if (bytes)
		load_bytes(bytes, (unsigned char *)&half, 2);
	return half;
}

/* Whether a driver of a split queue wants to be notified: of each chain, or of one of those that were used. */
static bool is_wanted_in_split(const struct bus_map *map, const struct queue *it)
{
	if (!map->names)
		return !(half_at(map, it->ring.driver) & 1);
	uint16_t named = half_at(map, it->ring.driver + 4 + 2 * (uint64_t)it->ring.size);

	/* Behind more than one turn first and last no longer tell which were used. */
	return it->turns > 1 || (uint16_t)(named - it->first + 1) <= (uint16_t)(it->last - it->first);
}

enum bus_wish bus_wish(const struct bus_map *map, size_t queue)
{
	const struct queue *it = &map->queues[queue];

	if (map->split)
		return is_wanted_in_split(map, it) ? BUS_WANTED : BUS_UNWANTED;
	uint16_t asked = half_at(map, it->ring.driver + 2) & SUPPRESSION;

	if (asked == NAMED && map->names)
		return it->turns > 1 ? BUS_WANTED : BUS_NAMED;
	return asked == NONE ? BUS_UNWANTED : BUS_WANTED;
}

/* A slot on its side of the ring's end, from 0 on to twice their number. */
static inline uint32_t turned(uint64_t slot, bool side, uint32_t size)
{
	return (uint32_t)(slot % size) + (side ? size : 0);
}

/* How many slots there are from one to another. */
static inline uint32_t between(uint32_t from, uint32_t to, uint32_t size)
{
	return (to + 2 * size - from) % (2 * size);
}

bool bus_has_passed(const struct bus_map *map, size_t queue, uint16_t slot, bool side)
{
	const struct queue *it = &map->queues[queue];
	uint32_t size = it->ring.size;
	uint16_t named = half_at(map, it->ring.driver);
	uint32_t first = turned((it->first_at - it->uses) / 16, it->first & SIDE, size);
	uint32_t last = turned((it->last_at - it->uses) / 16, it->last & SIDE, size);

	return between(first, turned(named & (SIDE - 1), named & SIDE, size), size) <
	       between(first, last, size) + between(last, turned(slot, side, size), size);
}

void bus_owe(struct bus_map *map, uint32_t queues)
{
	map->owed |= queues;
}

uint32_t bus_take_owed(struct bus_map *map)
{
	uint32_t owed = map->owed;

	map->owed = 0;
	return owed;
}
