/*
 * What the files of the bus share: what is mapped, and what is known of the queues that lie there. Of no interest to others.
 */
#ifndef VSCSI_MAP_H
#define VSCSI_MAP_H

#include "bus.h"

#include <string.h>

/* The most bytes of a short access. */
enum { FEW = 16 };

/* A region: the guest's addresses of it, and the host's of its first byte. */
struct span {
	uint64_t from;
	uint64_t size;
	uint64_t starts; /* at so many of its first bytes a short access begins that lies in it */
	unsigned char *host;
};

/* A queue, and the chains of it that were used in a round. */
struct queue {
	struct bus_ring ring; /* its `next` and `wrapped` say up to where was looked ahead */
	uint64_t uses; /* where a chain's use is stored: the used index, or the first used entry */
	uint64_t extent; /* how many bytes from there on belong to it */
	uint64_t round; /* the latest in which a chain of it was used */
	uint64_t first_at; /* where the first was stored, and the last */
	uint64_t last_at;
	uint16_t first; /* an index, or the flags of an entry: of the first, and of the last */
	uint16_t last;
	uint64_t turns; /* how often the highest bit changed between them: it never wraps around */
};

struct bus_map {
	size_t count;
	struct span *spans; /* by rising address, no two of which overlap */
	const struct span *loaded; /* one of these, in which a load lay, or `bus_none` */
	const struct span *stored; /* one in which a store lay, or `bus_none`: always where there is a log */
	uint8_t *log; /* NULL: none */
	size_t log_bytes;
	bool split; /* what is known of the queues: an entry is stored right before an index */
	bool packed;
	bool names; /* drivers may name the chain of which they want to be notified */
	bool in_round;
	uint64_t round; /* how many were begun */
	bool unseen; /* no barrier stands behind what was stored last */
	uint32_t used; /* the queues of which chains were used in this round */
	uint32_t owed; /* those whose drivers are owed a notification by rounds */
	struct queue *latest; /* the queue of which a chain was noted last */
	size_t queue_count;
	uint32_t requests; /* those with requests that are there */
	struct queue queues[BUS_MOST_RINGS];
};

extern const struct span bus_none;

/*
 * How many of len bytes from an address on lie in one region, or in one hole, and where they stand: NULL for a hole. A region is
 * remembered as the one that was found.
 */
unsigned char *bus_run(const struct bus_map *map, uint64_t addr, size_t len, size_t *here, const struct span **found);

/*
 * Whether bytes from an address on, FEW at the most, lie in the region that was found, and where they stand then. It says no to
 * some of those at the end of the region.
 */
static inline bool is_short(const struct span *const *found, uint64_t addr, unsigned char **bytes)
{
	const struct span *it = __atomic_load_n(found, __ATOMIC_RELAXED);
	uint64_t skip = addr - it->from;

	if (skip >= it->starts)
		return false;
	*bytes = it->host + skip;
	return true;
}

/* Whether len bytes from an address on lie in that region, and where they stand then. */
static inline bool is_whole(const struct span *const *found, uint64_t addr, size_t len, unsigned char **bytes)
{
	const struct span *it = __atomic_load_n(found, __ATOMIC_RELAXED);
	uint64_t skip = addr - it->from;

	if (skip >= it->size || len > it->size - skip)
		return false;
	*bytes = it->host + skip;
	return true;
}

/* Where so many bytes stand, if they lie in one region; else NULL. */
static inline const unsigned char *bytes_of(const struct bus_map *map, uint64_t addr, size_t len)
{
	unsigned char *bytes;
	size_t here;

	if (is_whole(&map->loaded, addr, len, &bytes))
		return bytes;
	bytes = bus_run(map, addr, len, &here, NULL);
	return here == len ? bytes : NULL;
}

/* The queue of which a chain is used by what is stored at an address; BUS_MOST_RINGS where there is none. */
size_t bus_queue_at(const struct bus_map *map, uint64_t addr);

/* Whether so many bytes may be accessed at once. */
static inline bool is_aligned(const unsigned char *bytes, size_t each)
{
	return __builtin_expect((uintptr_t)bytes % each == 0, 1);
}

/* A barrier for the compiler alone: behind each load of guest memory, before and behind each store (bus.c says why). */
static inline void keep_apart(void)
{
	__asm__ volatile("" ::: "memory");
}

/* Loads an index or flags. */
static inline void load_2(const unsigned char *bytes, unsigned char *out)
{
	uint16_t all = __atomic_load_n((const uint16_t *)bytes, __ATOMIC_ACQUIRE);

	keep_apart();
	memcpy(out, &all, 2);
}

/* Loads any bytes. */
static inline void load_bytes(const unsigned char *bytes, unsigned char *out, size_t len)
{
	memcpy(out, bytes, len);
	keep_apart();
}

/* Loads a descriptor: its second half has the flags, so that what the first has is as new as they are. */
static inline void load_16(const unsigned char *bytes, unsigned char *out)
{
	uint64_t second = __atomic_load_n((const uint64_t *)(bytes + 8), __ATOMIC_ACQUIRE);
	uint64_t first = __atomic_load_n((const uint64_t *)bytes, __ATOMIC_RELAXED);

	keep_apart();
	memcpy(out, &first, 8);
	memcpy(out + 8, &second, 8);
}

#endif
