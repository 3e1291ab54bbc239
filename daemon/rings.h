// Where the driver put its queues, and the answers that wait there.
//
// A driver sees of a split ring what lies below the used index (VIRTIO 1.2, 2.7.8). So while a round's answers wait the device
// has two bytes of the daemon's in their place, and to show the answers is to store these. The device of a packed ring writes
// over descriptors (2.8.6). So it has a copy of what is available when the round begins, and what it marked as used there is
// then stored in the guest's. The library tells where a ring stands.
#ifndef DAEMON_RINGS_H
#define DAEMON_RINGS_H

#include "backend.h"

// Indices and flags of rings are loaded and stored as they lie in memory.
_Static_assert(__BYTE_ORDER__ == __ORDER_LITTLE_ENDIAN__, "rings are little-endian");

// Finds a queue's areas in the guest's memory. Returns false where one isn't there, or isn't aligned.
bool ring_find(struct backend *backend, unsigned q);

// Returns whether the driver made something available where the ring goes on.
bool ring_has(const struct backend *backend, unsigned q);

// The ring's position as vhost-user has it, and the position that a front end gives. Returns false where there is no such
// position.
uint32_t ring_base(const struct backend *backend, unsigned q);
bool ring_set_base(struct backend *backend, unsigned q, uint32_t base);

// Returns whether no device served the ring before, as its base tells, and what devices leave in a ring.
bool ring_is_new(const struct backend *backend, unsigned q);

// Returns whether this queue's answers wait: where disks are kept on files those of requests and functions, and of a packed ring
// events, too.
bool ring_waits(const struct backend *backend, unsigned q);

// Begins a round: copies what drivers of packed rings made available.
void rings_hold(struct backend *backend);

// Finds the first part of a ring from a guest's address on, below `end`, that is the daemon's own: where it begins and ends,
// and where it stands here. Returns false where there is none.
bool rings_next(struct backend *backend, uint64_t from, uint64_t end, struct vscsi_region *part);

// Shows the answers of a round. Returns the queues whose driver wants to be notified of them. The control queue comes last: a
// driver that finds its function answered finds the requests answered too.
uint32_t rings_show(struct backend *backend);

// Has writes to a queue's device area logged as those from an address of the guest's on, besides where it lies, or not.
void ring_set_log(struct backend *backend, unsigned q, bool is_logged, uint64_t at);

// Logs what the device wrote to device areas that are logged elsewhere than where they lie. It logged all else itself.
void rings_log(struct backend *backend);

// Has each ring go on where the device does, but for those whose answers wait.
void rings_end(struct backend *backend);

// Asks the driver of a queue to notify of its next chain, or of none, once the device has taken what was available.
void ring_ask(struct backend *backend, unsigned q, bool notify);

// Where each ring of disks on files stands behind what was shown is noted in memory that the front end keeps when the daemon
// dies (INFLIGHT_SHMFD), if it gave some: no request is in flight there, since those whose answers weren't shown run once more.
// ring_recall finds where a ring stood. Returns false where that isn't noted. ring_note notes where it stands, and ring_forget
// that it was told otherwise.
enum { PLACES_BYTES = 4096 };
bool ring_recall(const struct backend *backend, unsigned q, uint32_t *base);
void ring_note(struct backend *backend, unsigned q);
void ring_forget(struct backend *backend, unsigned q);

#endif
