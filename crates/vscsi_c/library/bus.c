/*
 * Guest memory, as the device reads and writes it; ahead.c and rounds.c read rings besides. The device (host_bus) calls `read` and
 * `write`: the library's build compiles the two calls at the end under these names, in one module with the device.
 *
 * So the compiler sees what the device does with bytes that were copied from guest memory. It takes memory to stay as it is while
 * nobody writes whom it knows of. It might load a byte again in place of its copy, after the device tested the copy and the guest
 * changed the byte; or build an answer in guest memory, and read it from there. So a barrier for the compiler stands behind each load of
 * guest memory, and before and behind each store (`keep_apart`): to the compiler any of these bytes may change there. Then no load or
 * store is moved across it, merged with another, or done again. An index, flags, a descriptor and a used entry are atomic accesses
 * besides.
 *
 * A hole between regions reads as zeros and swallows writes. Another thread, the guest, may write any byte at any moment.
 * So the order of accesses matters where VIRTIO 1.2 has the device look at one place before another (2.7.13, 2.8.21):
 * 2 bytes, which are an index or flags, are loaded by one load that acquires; of 16 bytes, which are a descriptor, the half
 * with the flags of a packed one comes first; the 2 bytes of an index, and of 8 bytes the last two, which are the flags of
 * a packed used descriptor, are stored by one store that releases, and behind it stands a full barrier, so that what the
 * device then reads of the driver's event suppression isn't older. None stands behind a used entry where all queues are split, unless
 * it is stored the long way: the device stores their index next, before it reads anything. In a round none stands behind what uses a
 * chain: the host looks once more at the end of it (rounds.c). One also stands behind 4 bytes, by which a packed queue's driver is
 * asked to notify, so that the device sees what the driver made available before it saw them.
 *
 * Where the host has a log, the bit of a page is set behind each store into the page, by an access that releases: who takes the
 * bit away, and copies the page then, sees what was stored. A bit that was set before could be taken away before the store.
 */
#include "map.h"

/* The operations of host_bus: of a read LONG and SHORT, of a write the others. SHORT and PUT stand with a count of bytes. */
enum { PLACE = 1 << 30, BYTES = PLACE + 1, LONG = PLACE + 2, SHORT = PLACE + 16, PUT = PLACE + 64 };

enum { PAGE = 4096 };

/* The bytes of a driver's, or a device's, event suppression structure (VIRTIO 1.2, 2.8.14). */
enum { WISH = 4 };

/* What was mapped, and an address there: below BUS_END, as that behind the bytes. */
struct place {
	uint64_t map;
	uint64_t addr;
};

/* By PLACE, for the BYTES that come next on this thread. It is few bytes, of which a loader keeps more than enough. */
static _Thread_local __attribute__((tls_model("initial-exec"))) struct place said;

static inline struct bus_map *map_of(struct place at)
{
	return (struct bus_map *)(uintptr_t)at.map;
}

/* What is loaded behind it isn't older than what was stored before. */
static inline void barrier(struct bus_map *map)
{
	map->unseen = false;
	__atomic_thread_fence(__ATOMIC_SEQ_CST);
}

/* Notes the first chain of a queue that is used in a round. */
static __attribute__((noinline)) void note_first(struct bus_map *map, struct queue *it, uint64_t addr, uint16_t word)
{
	map->used |= UINT32_C(1) << (it - map->queues);
	it->round = map->round;
	it->first_at = it->last_at = addr;
	it->first = it->last = word;
	it->turns = 0;
}

/* Notes that a chain of a queue was used by what was stored. The barrier behind it stands at the end of the round. */
static inline ssize_t note(struct bus_map *map, struct queue *it, uint64_t addr, uint16_t word)
{
	map->unseen = true;
	if (it->round != map->round) {
		note_first(map, it, addr, word);
		return 0;
	}
	it->turns += (unsigned)(it->last ^ word) >> 15;
	it->last = word;
	it->last_at = addr;
	return 0;
}

/* Notes a chain of a queue other than the latest. What uses no chain has a barrier behind it. */
static __attribute__((noinline)) ssize_t note_apart(struct bus_map *map, uint64_t addr, uint16_t word)
{
	size_t number = bus_queue_at(map, addr);

	if (number == BUS_MOST_RINGS) {
		barrier(map);
		return 0;
	}
	map->latest = &map->queues[number];
	return note(map, map->latest, addr, word);
}

/* What stands behind an index, or the flags of an entry, that were stored: where these use a chain in a round, a note of that. */
static inline ssize_t published(struct place at, bool uses, const unsigned char *word)
{
	struct bus_map *map = map_of(at);
	uint16_t now;

	memcpy(&now, word, 2);
	if (!map->in_round || !uses) {
		barrier(map);
		return 0;
	}
	if (at.addr - map->latest->uses >= map->latest->extent)
		return note_apart(map, at.addr, now);
	return note(map, map->latest, at.addr, now);
}

/* Loads bytes of one region. */
static inline void load_from(const unsigned char *bytes, unsigned char *out, size_t len)
{
	if (len == 2 && is_aligned(bytes, 2))
		load_2(bytes, out);
	else if (len == 16 && is_aligned(bytes, 8))
		load_16(bytes, out);
	else
		load_bytes(bytes, out, len);
}

/* Loads bytes that may lie in several regions and holes. */
static __attribute__((noinline)) ssize_t load_runs(struct place at, unsigned char *out, size_t len)
{
	while (len) {
		size_t here;
		const unsigned char *bytes = bus_run(map_of(at), at.addr, len, &here, &map_of(at)->loaded);

		if (bytes)
			load_from(bytes, out, here);
		else
			memset(out, 0, here);
		out += here;
		at.addr += here;
		len -= here;
	}
	return 0;
}

/* The two halves by a load each, as they were stored: the processor gives a load of both at once only what has left its store buffer. */
static inline struct place place_in(const void *bytes)
{
	struct place at;

	memcpy(&at.map, bytes, sizeof at.map);
	keep_apart();
	memcpy(&at.addr, (const unsigned char *)bytes + sizeof at.map, sizeof at.addr);
	return at;
}

/* How many bytes a read is for, in room for so many. */
static inline size_t wanted(int what, size_t size)
{
	return what == LONG ? size : (size_t)(what - SHORT);
}

/* Loads bytes from the place that stands in the room for them. */
static __attribute__((noinline)) ssize_t load_apart(int what, void *room, size_t size)
{
	return load_runs(place_in(room), room, wanted(what, size));
}

/* The same for bytes other than an index, flags or a descriptor. */
static __attribute__((noinline)) ssize_t load_many(int what, void *room, size_t size)
{
	size_t len = wanted(what, size);
	struct place at = place_in(room);
	unsigned char *bytes;

	if (!is_whole(&map_of(at)->loaded, at.addr, len, &bytes))
		return load_apart(what, room, size);
	load_bytes(bytes, room, len);
	return 0;
}

/* Sets the bit of each page in which bytes were stored, at least one of them. */
static __attribute__((noinline)) void log_pages(const struct bus_map *map, uint64_t addr, size_t len)
{
	uint64_t last = (addr + len - 1) / PAGE;

	for (uint64_t page = addr / PAGE; page <= last && page / 8 < map->log_bytes; page++)
		__atomic_fetch_or(&map->log[page / 8], (uint8_t)(1 << page % 8), __ATOMIC_RELEASE);
}

/* Stores any bytes. */
static inline void store_bytes(unsigned char *bytes, const unsigned char *in, size_t len)
{
	keep_apart();
	memcpy(bytes, in, len);
	keep_apart();
}

static inline void store_2(unsigned char *bytes, const unsigned char *in, int order)
{
	uint16_t all;

	memcpy(&all, in, 2);
	keep_apart();
	__atomic_store_n((uint16_t *)bytes, all, order);
	keep_apart();
}

static inline void store_4(unsigned char *bytes, const unsigned char *in, int order)
{
	uint32_t all;

	memcpy(&all, in, 4);
	keep_apart();
	__atomic_store_n((uint32_t *)bytes, all, order);
	keep_apart();
}

/* Stores a used entry: the last two bytes are the flags of a packed one. */
static inline void store_8(unsigned char *bytes, const unsigned char *in)
{
	store_4(bytes, in, __ATOMIC_RELAXED);
	store_2(bytes + 4, in + 4, __ATOMIC_RELAXED);
	store_2(bytes + 6, in + 6, __ATOMIC_RELEASE);
}

/* Stores bytes into one region, in which they stand there. */
static inline void store_into(unsigned char *bytes, const unsigned char *in, size_t len)
{
	if (len == 2 && is_aligned(bytes, 2))
		store_2(bytes, in, __ATOMIC_RELEASE);
	else if (len == 8 && is_aligned(bytes, 4))
		store_8(bytes, in);
	else
		store_bytes(bytes, in, len);
}

/* Stores bytes that may lie in several regions and holes, and logs them. */
static __attribute__((noinline)) ssize_t store_runs(struct place at, const unsigned char *in, size_t len)
{
	struct bus_map *map = map_of(at);

	while (len) {
		size_t here;
		unsigned char *bytes = bus_run(map, at.addr, len, &here, map->log ? NULL : &map->stored);

		if (bytes) {
			store_into(bytes, in, here);
			if (map->log && here)
				log_pages(map, at.addr, here);
		}
		in += here;
		at.addr += here;
		len -= here;
	}
	return 0;
}

/* The bytes that stand behind their place. */
static inline const unsigned char *behind(const void *room)
{
	return (const unsigned char *)room + sizeof said;
}

/* Stores these the long way. In a round they are noted as others are: a chain that were left out might hide a turn of its ring. */
static __attribute__((noinline)) ssize_t publish_apart(int what, const void *room)
{
	struct place at = place_in(room);
	size_t len = (size_t)(what - PUT);

	store_runs(at, behind(room), len);
	return published(at, len == 2 ? map_of(at)->split : map_of(at)->packed, behind(room) + len - 2);
}

/* Stores what asks the driver of a packed queue: what is loaded next isn't older. */
static __attribute__((noinline)) ssize_t store_wish(struct place at, const unsigned char *in)
{
	unsigned char *there;

	if (is_short(&map_of(at)->stored, at.addr, &there) && is_aligned(there, WISH))
		store_4(there, in, __ATOMIC_RELEASE);
	else
		store_runs(at, in, WISH);
	barrier(map_of(at));
	return 0;
}

/* Remembers the place of the bytes that come next, or stores these there: bytes other than an index or a used entry. */
static __attribute__((noinline)) ssize_t say_or_store(int what, const void *bytes, size_t len)
{
	if (what == PLACE) {
		said = place_in(bytes);
		return 0;
	}
	struct place at = said;
	unsigned char *there;

	if (len == WISH)
		return store_wish(at, bytes);
	if (!is_whole(&map_of(at)->stored, at.addr, len, &there))
		return store_runs(at, bytes, len);
	store_bytes(there, bytes, len);
	return 0;
}

/* Loads an index or flags. */
static inline ssize_t load_index(int what, void *room, size_t size)
{
	struct place at = place_in(room);
	unsigned char *bytes;

	if (!is_short(&map_of(at)->loaded, at.addr, &bytes) || !is_aligned(bytes, 2))
		return load_apart(what, room, size);
	load_2(bytes, room);
	return 0;
}

/* Loads a descriptor. */
static inline ssize_t load_descriptor(int what, void *room, size_t size)
{
	struct place at = place_in(room);
	unsigned char *bytes;

	if (!is_short(&map_of(at)->loaded, at.addr, &bytes) || !is_aligned(bytes, 8))
		return load_apart(what, room, size);
	load_16(bytes, room);
	return 0;
}

/* Stores an index behind its place: what is loaded next isn't older, but where an index used a chain in a round. */
static inline ssize_t publish_index(int what, const void *room)
{
	struct place at = place_in(room);
	unsigned char *bytes;

	if (!is_short(&map_of(at)->stored, at.addr, &bytes) || !is_aligned(bytes, 2))
		return publish_apart(what, room);
	store_2(bytes, behind(room), __ATOMIC_RELEASE);
	return published(at, map_of(at)->split, behind(room));
}

/* Stores a used entry: what is loaded next isn't older, unless an index is stored before, or this is a round. */
static inline ssize_t publish_entry(int what, const void *room)
{
	struct place at = place_in(room);
	unsigned char *bytes;

	if (!is_short(&map_of(at)->stored, at.addr, &bytes) || !is_aligned(bytes, 4))
		return publish_apart(what, room);
	store_8(bytes, behind(room));
	return map_of(at)->split ? 0 : published(at, true, behind(room) + 6);
}

/* Both answer 0, which ends their caller's loop at once: nothing is left to be done, and nobody looks at the answer. */
ssize_t vscsi_bus_read(int what, void *room, size_t len)
{
	if (what == SHORT + 2)
		return load_index(what, room, len);
	if (what == SHORT + 16)
		return load_descriptor(what, room, len);
	return load_many(what, room, len);
}

ssize_t vscsi_bus_write(int what, const void *bytes, size_t len)
{
	if (what < PUT)
		return say_or_store(what, bytes, len);
	return what == PUT + 8 ? publish_entry(what, bytes) : publish_index(what, bytes);
}

