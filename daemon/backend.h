// The device behind a front end's rings. It works in the guest's memory: the library reads and writes tables, requests, data and
// most of the rings there.
//
// Where a disk is kept on a file, no answer is shown to the guest before the file has what the answer promises. Meanwhile a
// part of each ring is the daemon's own (rings.h), so that what the device gave back isn't seen.
#ifndef DAEMON_BACKEND_H
#define DAEMON_BACKEND_H

#include "blocks.h"
#include "disks.h"
#include "library.h"
#include "memory.h"

// The guest's queues: control, event and requests.
enum {
  FIXED_QUEUES = 2,
  CONTROL_QUEUE = 0,
  EVENT_QUEUE = 1,
  MOST_QUEUES = DEVICE_MOST_QUEUES,
  MOST_REQUEST_QUEUES = MOST_QUEUES - FIXED_QUEUES
};

// The bytes of a descriptor.
enum { DESCRIPTOR = 16 };

struct backend_queue {
  struct ring ring;              // by the guest's addresses; `first` is where the next device goes on
  bool ready;                    // its areas are in the guest's memory
  bool had_begun;                // in this session: where it goes on this daemon served it
  bool is_logged;                // writes to its device area are logged from `logged_at` on, too
  uint64_t logged_at;            // by the guest's addresses
  uint16_t logged;               // the used index up to which they were
  uint32_t fault;                // by which it is broken, or VSCSI_BROKEN_NOT
  uint8_t *desc_at, *device_at;  // where these areas stand here
  // Of a queue whose answers wait, what the device has in place of its used index, or of the descriptors of a packed ring.
  uint16_t index;
  _Alignas(16) uint8_t descriptors[DESCRIPTOR * DEVICE_MOST_SIZE];
};

// The fault of a queue whose memory is gone, beside those of the library.
enum { FAULT_UNMAPPED = 11 };

// A round of answers that wait: the device runs requests, and ends what it began; then what they changed is written to the
// files, and all answers are shown. A backend whose answers don't wait is RUNNING while the device has begun requests. Where disks are backed
// commands may wait besides: a round ends once none does.
enum phase { IDLE, RUNNING, SETTLING, WRITING };

struct backend {
  struct memory memory;
  struct disks *disks;
  struct device device;
  struct noted noted[DEVICE_MOST_UNITS];  // of each unit: what is noted in its disk's backlog
  struct backend_queue queues[MOST_QUEUES];
  unsigned count;
  unsigned made;  // how many of them the device has: none behind these is ready and whole
  bool may_go_on;  // a guest that goes on as the session begins finds what it wrote, or comes from another daemon that had all written
  bool is_behind;  // a ring went on all the same
  bool packed, event_index, indirect, change;
  bool keeps;   // disks are kept on files, for which answers wait
  bool pages;   // disks are backed: pages of them come and go
  bool waits;   // commands may wait for pages, for room, or for what was written before them
  bool came;    // the device was told something of its pages outside of a round
  bool handed_in;    // pages were handed in that had been read ahead, while queues were served
  uint64_t waiting;  // how many commands waited when they were last tried again
  bool mapped;  // the device has the guest's memory as it is
  bool logs;    // each page that is written is marked in the log
  bool left;    // something was left of the queues
  enum phase phase;
  uint32_t kicked;   // queues whose driver notified, and that weren't looked at since
  uint32_t awake;    // queues that are looked at, from when they were kicked until nothing is left of them and their driver notifies
  uint32_t seen;     // those that were, and whose driver wasn't asked to do so again
  uint32_t asked;    // those that were asked behind the last call
  uint32_t unasked;  // those that whoever served them last may have left without asking for a notification
  bool took;        // the device took steps in this call
  bool polls;       // rings are looked at once more behind this call, and drivers are asked not to notify
  bool spins;       // the same where this call takes steps
  uint32_t silent;  // queues whose driver was asked that, the first of them after so many steps
  uint64_t hushed;
  bool broken;                            // a queue's fault was found, and not told yet
  uint64_t until;                         // when the device has to leave off in this call, or 0 where that isn't known yet
  uint64_t steps;                         // of request queues since the control queue was kicked
  uint64_t all_steps;                     // that a device ever took
  bool crowded;                           // request queues take turns, since one call didn't serve them all
  unsigned turn, quiet;                   // which is next then, and how many in a row had nothing left
  unsigned pause;                         // milliseconds until what is refused memory is tried again, and the time of that
  uint64_t due;                           // of that, or of the next try of a file that can't be written
  bool starved;                           // the device wasn't made for want of memory, or of its files or their blocks
  _Alignas(16) uint8_t idle[VSCSI_PAGE];  // where queues lie that the driver didn't set up
};

// What came of a call. MORE: another call is wanted. BUSY: the same, and answers wait, as the device runs or files are written.
// LATER: another call is wanted at `due`. FAILED: `why` says what ended this.
enum served { SERVED, MORE, BUSY, LATER, FAILED };

// Returns whether a guest would find older blocks than it wrote: they were in the memory of a daemon that is gone, or were lost here.
bool backend_is_left_behind(const struct backend *backend);

// Makes the device for the queues that are ready, and returns MORE; or LATER, where memory or a file is refused, and the first
// time says why; or FAILED, and says why.
enum served backend_begin(struct backend *backend, char *why, size_t room);

// Lets go of the device, and takes its disks back. Each ring goes on behind what was shown: requests whose answers weren't are
// available once more. What they changed stays in the backlogs of the disks.
void backend_end(struct backend *backend);

// Has the device work in the guest's memory as it is now, or where that can't be, not at all until the next call of
// backend_serve. backend_unmap comes before that memory changes.
void backend_map(struct backend *backend);
void backend_unmap(struct backend *backend);

// Has each page that is written marked in the log of `memory` from now on, or none. Called again where that log is another one.
void backend_log(struct backend *backend, bool logs);

// Returns whether the device has begun requests, or has answers that wait, so that letting go of it would have some run once
// more.
bool backend_is_busy(const struct backend *backend);

// Brings a device to where it isn't busy. It is called until it returns SERVED, and is told how many milliseconds have passed
// since the first call. For a second files that can't be written are tried again, and for five seconds all else goes on. Then
// the device ends, as backend_end says.
enum served backend_stop(struct backend *backend, uint64_t passed, uint32_t *owed, char *why, size_t room);

// Adds what a disk did for this device to what it had counted before.
void backend_count(struct backend *backend, size_t disk, struct vscsi_counts *counts);

// Returns whether a driver made something available on one of these queues, which have no device yet. Drivers that weren't asked to
// notify since their queues began are asked first.
bool backend_has(struct backend *backend, uint32_t queues);

// Waits until nothing of backed disks is under way, for another size of one of them. What waits goes on in the next call. Returns false where
// something is for a second.
bool backend_settle(struct backend *backend);

// Returns whether what a backend waits for may come by paging_wait.
bool backend_waits(const struct backend *backend);

// Serves these queues, which are ready and whole, for some 20 milliseconds at the most. Sets the bits of those whose driver
// wants to be notified.
enum served backend_serve(struct backend *backend, uint32_t queues, uint32_t *owed);

#endif
