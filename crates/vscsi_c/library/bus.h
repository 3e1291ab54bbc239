/*
 * Guest memory, where the host mapped it: what the device's accesses go by (host_bus). Of no interest outside the library.
 */
#ifndef VSCSI_BUS_H
#define VSCSI_BUS_H

#include <stdbool.h>
#include <stddef.h>
#include <stdint.h>
#include <sys/types.h>

/* Bytes of guest memory, from a guest's address on, and where the host has them. */
struct bus_region {
	uint64_t guest;
	uint64_t size;
	void *host;
};

/* What is mapped: regions that lie apart. It stays where it is, whatever is mapped. */
struct bus_map;

/* The end of what a guest can address: 2^52. */
#define BUS_END ((uint64_t)1 << 52)

/* The most regions of a map. */
#define BUS_MOST ((size_t)1 << 16)

enum bus_answer { BUS_DONE, BUS_NO_MEMORY, BUS_REFUSED };

/* Makes a map of nothing; all that a guest can address is one hole. NULL where there is no memory. */
struct bus_map *bus_map(void);

/*
 * Maps these regions, in any order, in place of what was mapped: between two calls of the device, never during one.
 * BUS_REFUSED where two of them overlap, one is empty or ends above BUS_END, or there are more than BUS_MOST; BUS_NO_MEMORY.
 * Then what was mapped stays. The bytes are the caller's: they must be there for as long as they are mapped and the device
 * may be served.
 */
enum bus_answer bus_remap(struct bus_map *map, const struct bus_region *regions, size_t count);

/*
 * Logs what is stored into the regions from now on: page n, of 4 KiB from guest address 4,096 * n on, has bit n % 8 of log[n / 8],
 * and pages beyond the log have none. It is the caller's, and must be there until another call, or bus_unmap. Another thread or
 * process may take bits away by atomic accesses. NULL logs nothing, as in the beginning.
 */
void bus_log(struct bus_map *map, uint8_t *log, size_t bytes);

/*
 * A queue: where its descriptors, its driver area and its device area lie, how many descriptors it has, 0 where it isn't there, and from
 * where on it is served. Of a packed queue that is a slot below their number, which a device sees to that takes the queue.
 */
struct bus_ring {
	uint64_t desc;
	uint64_t driver;
	uint64_t device;
	uint16_t size;
	uint16_t next;
	bool wrapped;
};

/* The most queues that are known. */
#define BUS_MOST_RINGS ((size_t)18)

/*
 * Says which queues there are, by their numbers, all packed or all split, and whether drivers may name the chain of which they
 * want to be notified (VIRTIO_F_EVENT_IDX). Where there are more, the others are left.
 */
void bus_rings(struct bus_map *map, bool packed, bool names, const struct bus_ring *rings, size_t count);

/*
 * Has the processor fetch what the next requests of some queues are found by, before the device serves them: the bit of queue 0 in
 * `queues` is the lowest. Nothing is written. What is read here decides what is fetched, and the answer. Queues 0 and 1 are left. Returns
 * true if there are several requests.
 */
bool bus_look_ahead(struct bus_map *map, uint32_t queues);

/* Begins a round: from now on the device may use chains, and look at what their drivers ask for before others see that. */
void bus_begin_round(struct bus_map *map);

/*
 * Ends it: what is loaded next isn't older than what was stored. Returns the queues of which chains were used
 * in it, as bus_look_ahead takes them. What their drivers ask for has to be looked at once more.
 */
uint32_t bus_end_round(struct bus_map *map);

/* What a driver asks for: a notification of what was used, none, or one of a chain that it names. */
enum bus_wish { BUS_UNWANTED, BUS_WANTED, BUS_NAMED };

/* Looks what a driver asks for whose queue bus_end_round returned. BUS_NAMED is answered of a packed queue alone. */
enum bus_wish bus_wish(const struct bus_map *map, size_t queue);

/* Whether the slot that the driver names was passed in the round, where the device uses this slot next, on this side (1 at first). */
bool bus_has_passed(const struct bus_map *map, size_t queue, uint16_t slot, bool side);

/* Owes the drivers of these queues a notification. */
void bus_owe(struct bus_map *map, uint32_t queues);

/* Returns the queues whose drivers are owed a notification so, since this was last asked. */
uint32_t bus_take_owed(struct bus_map *map);

/* Frees a map, with which no device is served any more. Nothing is done for NULL. */
void bus_unmap(struct bus_map *map);

/* What the device calls as `read` and `write`, which are their names where they are compiled with it. */
ssize_t vscsi_bus_read(int what, void *room, size_t len);
ssize_t vscsi_bus_write(int what, const void *bytes, size_t len);

#endif
