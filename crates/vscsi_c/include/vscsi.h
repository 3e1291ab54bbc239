/* A virtio SCSI device (OASIS VIRTIO 1.2, 5.6) as a library.
 *
 * The device is everything behind the virtqueues. It takes requests from its queues in guest memory, runs their
 * commands on its units, whose blocks it keeps in its own memory, and writes what is answered. It has no thread, opens
 * no file and waits for nothing: a call does its work and returns.
 *
 * Who owns what. `struct vscsi` is the caller's: it begins as zeros, and stays where it is while it has a device. Only
 * this library looks at its fields. What the device needs is taken from malloc by vscsi_create, and goes back by
 * vscsi_destroy, once, or never. Whatever else is passed to a call is looked at during that call alone.
 *
 * `struct vscsi_disk` is the caller's, too. It may be moved by assignment: of its copies one alone is used from then on, and
 * the others are let go unread. A disk that is destroyed, or that a device has, is none.
 *
 * Which calls may run side by side. On one device, and on one disk, none, not even those that only look
 * (vscsi_peek, vscsi_disk_save). The caller orders them. It hands a device or a disk to another thread as it would hand over
 * any memory. Devices and disks have nothing in common. No call is made from a signal handler, or by the child of a fork of a
 * process with threads.
 *
 * What a call answers. One of `enum vscsi_answer`. Each call says below what else but VSCSI_DONE it may answer. Then it
 * changed nothing, nor the room that it would write. Exceptions are said of vscsi_settle, vscsi_serve, vscsi_disk_load,
 * vscsi_disk_save, and the fault that vscsi_create tells. No call ends the process. Each call answers VSCSI_NULL where a pointer
 * is null. A run of no bytes, queues, units, regions or disks may be null, and what is called optional below. Each answers
 * VSCSI_BAD_LENGTH where a length is more than memory can have.
 *
 * What can't be checked, and is the caller's. Anything may happen by:
 * - a `struct vscsi` or `struct vscsi_disk` that isn't zeros and that no call left;
 * - a copy of a disk that is used beside another;
 * - a pointer to room that is shorter than was said, or that another argument points into;
 * - two calls on one device or one disk at a time.
 *
 * Guest memory is one run of bytes that begins at guest address 0. A `struct vscsi` has its own: what a guest wrote is copied
 * in by vscsi_poke, what the device wrote is copied out by vscsi_peek. docs/C.md says which bytes, and when. A `struct
 * vscsi_live` works in the guest's memory itself, where the host mapped it (vscsi_map).
 *
 * A disk's blocks are in memory, all of them, or the host's storage has them: of a backed disk a bounded number of pages is
 * in memory (vscsi_disk_create_backed).
 *
 * Versions. VSCSI_VERSION is that of this header, vscsi_version() that of the library. With one major version programs
 * that were built with an older header go on working: numbers keep their meaning, and calls, numbers and fields at the end of
 * a structure whose size a call is told are only added. */
#ifndef VSCSI_H
#define VSCSI_H

#include <stdbool.h>
#include <stddef.h>
#include <stdint.h>

#ifdef __cplusplus
extern "C" {
#endif

/* The version of this header: 1.11.0. VSCSI_VERSION is major * 65,536 + minor * 256 + patch. */
#define VSCSI_VERSION_MAJOR 1
#define VSCSI_VERSION_MINOR 11
#define VSCSI_VERSION_PATCH 0
#define VSCSI_VERSION ((uint32_t)VSCSI_VERSION_MAJOR << 16 | (uint32_t)VSCSI_VERSION_MINOR << 8 | (uint32_t)VSCSI_VERSION_PATCH)

/* A device, or none. Made of zeros: `struct vscsi device = {0};`. */
struct vscsi {
  void *at;
  bool live;
};

/* A disk that no device has, or none. Made of zeros: `struct vscsi_disk disk = {0};`. Since 1.2. */
struct vscsi_disk {
  void *at;
  uint64_t blocks;
  bool live;
};

enum vscsi_answer {
  VSCSI_DONE = 0,
  VSCSI_NO_MEMORY = 1,  /* malloc refused memory, or a backed disk's page isn't in memory; the call may be made again */
  VSCSI_BAD_CONFIG = 2, /* the device doesn't take the configuration: `struct vscsi_fault` says why */
  VSCSI_NO_DEVICE = 3,  /* there is no device here: none was made, or it was destroyed */
  VSCSI_IN_USE = 4,     /* there is a device here already, or a disk */
  VSCSI_OUTSIDE = 5,    /* a byte isn't in guest memory, or a block isn't on the unit or the disk */
  VSCSI_NO_QUEUE = 6,   /* there is no such queue */
  VSCSI_NO_UNIT = 7,    /* there is no such unit */
  VSCSI_BAD_LENGTH = 8, /* the room isn't as long as what goes there, or a structure has another size */
  VSCSI_NULL = 9,       /* a pointer is null */
  VSCSI_BAD_CAPACITY = 10, /* a unit or a disk of no blocks, or of more than VSCSI_MOST_BLOCKS */
  VSCSI_NO_DISK = 11    /* there is no disk here: none was made, it was destroyed, or a device has it */
};

/* The features that the device knows (VIRTIO 1.2, 6). A driver has to agree to VSCSI_F_VERSION_1. Others choose:
 * - VSCSI_F_RING_PACKED: packed queues in place of split ones;
 * - VSCSI_F_INDIRECT_DESC: chains that end in a table of descriptors;
 * - VSCSI_F_EVENT_IDX: notifications of the completions alone that the driver names;
 * - VSCSI_F_CHANGE (5.6.3): to be told of capacities that change. */
#define VSCSI_F_CHANGE (UINT64_C(1) << 2)
#define VSCSI_F_INDIRECT_DESC (UINT64_C(1) << 28)
#define VSCSI_F_EVENT_IDX (UINT64_C(1) << 29)
#define VSCSI_F_VERSION_1 (UINT64_C(1) << 32)
#define VSCSI_F_RING_PACKED (UINT64_C(1) << 34)

/* The features that any host may offer. */
#define VSCSI_FEATURES (VSCSI_F_VERSION_1 | VSCSI_F_RING_PACKED | VSCSI_F_INDIRECT_DESC | VSCSI_F_CHANGE)

/* All features that vscsi_create and vscsi_live_create take. With VSCSI_F_EVENT_IDX the driver of a split queue notifies
 * only of the chain that `avail_event` names (VIRTIO 2.7.10). A `struct vscsi` never writes that, nor the event area of a
 * packed queue: offer the feature for packed queues alone, or write the guest's `avail_event` behind each call. Else the
 * driver stops after its first request. A `struct vscsi_live` writes both by vscsi_live_ask, or by itself where its
 * configuration's `asks` says so. */
#define VSCSI_ACCEPTED_FEATURES (VSCSI_FEATURES | VSCSI_F_EVENT_IDX)

#define VSCSI_PAGE 4096u
#define VSCSI_BLOCK 512u

/* The most blocks of a disk: 512 tebibytes. A disk takes memory for what was written to it, and none for its size. */
#define VSCSI_MOST_BLOCKS (UINT64_C(1) << 40)

/* The least number of pages, of 4 KiB, that a backed disk may have in memory: 33 MiB. The largest command needs some 8,224 at
 * once. Since 1.7. */
#define VSCSI_LEAST_PAGES 8448u

/* Where the driver put a queue: its descriptors, its driver area and its device area, by guest addresses, and how many
 * descriptors it has, 2 to 1,024. Of a split queue the driver area is the available ring, and the device area the used
 * ring (VIRTIO 1.2, 2.7); a packed queue has an event suppression structure in each (2.8). */
struct vscsi_queue {
  uint64_t desc;
  uint64_t driver;
  uint64_t device;
  uint16_t size;
};

/* The commands that a disk knows (docs/COMMANDS.md): the default ones, or these and MODE SENSE, VERIFY and others. Since 1.5. */
enum vscsi_profile {
  VSCSI_PROFILE_NARROW = 0,
  VSCSI_PROFILE_WIDE = 1
};

/* A disk: a target of 0 to 255 and a LUN of 0 to 16,383, with 1 to VSCSI_MOST_BLOCKS blocks of 512 zeros. Where `calm` is 0
 * the power on (29/00) is pending, which its first command meets that isn't INQUIRY, REPORT LUNS or REQUEST SENSE. */
struct vscsi_unit {
  uint64_t blocks;
  uint16_t lun;
  uint8_t target;
  uint8_t calm;
};

/* A rotation rate that is told as not reported (SBC-3, 6.6.2). Since 1.6. */
#define VSCSI_RATE_NOT_REPORTED 0xffffu

/* The format in which a unit of the wide profile sends sense data beside a status (SPC-4, 4.5). Since 1.6. */
enum vscsi_sense_format {
  VSCSI_SENSE_FIXED = 0,     /* 18 bytes; D_SENSE is 0 */
  VSCSI_SENSE_DESCRIPTOR = 1 /* 8 or 20 bytes; D_SENSE is 1 */
};

/* What a disk of the wide profile says of itself, by INQUIRY, READ CAPACITY (16) and MODE SENSE. Zeros leave all as it is
 * without it. Texts are printable ASCII, and end with a 0 where they are shorter than their field. Since 1.6. */
struct vscsi_identity {
  char vendor[8];            /* the T10 vendor identification; empty: VSCSI */
  char product[16];          /* the product identification; empty: TASK SET DISK */
  char revision[4];          /* the product revision level; empty: 0001 */
  char serial[20];           /* the serial number; empty: made of target and LUN */
  uint8_t naa[8];            /* an NAA designator of NAA 3h or 5h, which no other unit has; zeros: none */
  uint16_t rotation_rate;    /* 0 and 1: doesn't rotate; 0401h to FFFEh: turns a minute; or VSCSI_RATE_NOT_REPORTED */
  uint8_t physical_exponent; /* a physical block has 2 to this power blocks, 0 to 15 */
  uint8_t sense_format;      /* an `enum vscsi_sense_format` */
};

/* The device that is wanted. Guest memory has 1 to 65,536 pages of 4,096 bytes. Queue 0 is the control queue, queue 1 the
 * event queue, and the others, 1 to 16, are request queues. There are 1 to 64 units in rising order of target and LUN, each
 * target with LUN 0. All of it, with the features that the driver agreed to, is known once the driver has set DRIVER_OK.
 *
 * `size` is sizeof (struct vscsi_config), by which the library knows the fields that the caller has.
 *
 * `profiles` is optional: for each unit the number of an `enum vscsi_profile`. Without it each unit is narrow. Since 1.5.
 *
 * `identities` is optional: what each unit says of itself. A narrow unit has zeros there. Since 1.6.
 *
 * `read_only` is optional: for each unit whether its guest may only read it. Such a unit tells WP, and answers each command that
 * may change its blocks with DATA PROTECT, WRITE PROTECTED (07/27/00). A narrow unit has false there. Since 1.8.
 *
 * Firmware that sets up queue 2 alone leaves queues 0 and 1 without areas. Give the device some pages more than the guest
 * has, and let those queues lie there: an area of zeros is an empty ring, and nothing ever changes it. */
struct vscsi_config {
  size_t size;
  uint64_t features;
  const struct vscsi_queue *queues;
  size_t queue_count;
  const struct vscsi_unit *units;
  size_t unit_count;
  uint32_t pages;
  const uint8_t *profiles;
  const struct vscsi_identity *identities;
  const bool *read_only;
};

/* Why a configuration isn't taken: the first of these, in this order, that is so. But queues are looked at one after the
 * other for 4 and 5, and so are units for 9, 10 and 15. Before all else the first 65 units are looked at for 14, and then for
 * what C has of 15. Of a queue or a unit `place` says which, from 0. No cause has number 6 or 7. */
enum vscsi_cause {
  VSCSI_CAUSE_PAGES = 1,        /* no pages, or more than 65,536 */
  VSCSI_CAUSE_FEATURES = 2,     /* no VSCSI_F_VERSION_1, or one that isn't among VSCSI_ACCEPTED_FEATURES */
  VSCSI_CAUSE_QUEUE_COUNT = 3,  /* fewer than 3 queues, or more than 18 */
  VSCSI_CAUSE_QUEUE_SIZE = 4,   /* a queue of fewer than 2 descriptors, or of more than 1,024 */
  VSCSI_CAUSE_QUEUE_LAYOUT = 5, /* a queue can't lie so: `detail` is an `enum vscsi_layout` */
  VSCSI_CAUSE_UNIT_COUNT = 8,   /* no units, or more than 64 */
  VSCSI_CAUSE_UNIT_LUN = 9,     /* a LUN above 16,383 */
  VSCSI_CAUSE_UNIT_BLOCKS = 10, /* no blocks, or more than VSCSI_MOST_BLOCKS */
  VSCSI_CAUSE_UNIT_ORDER = 11,  /* a unit that doesn't stand above the one before it */
  VSCSI_CAUSE_NO_LUN_0 = 12,    /* a unit whose target has no LUN 0 */
  VSCSI_CAUSE_UNIT_DISK = 13,   /* a unit that is given no disk, or one of another capacity; a backed one where the device is
                                   none on live memory */
  VSCSI_CAUSE_UNIT_PROFILE = 14, /* a unit whose profile isn't among `enum vscsi_profile`. Since 1.5 */
  VSCSI_CAUSE_UNIT_IDENTITY = 15, /* a unit that says of itself what none may, or a narrow one that says anything or
                                     is read-only. Since 1.6 */
  VSCSI_CAUSE_UNIT_NAA = 16       /* a unit whose NAA designator another has. Since 1.6 */
};

/* Why a queue can't lie where the configuration says. */
enum vscsi_layout {
  VSCSI_LAYOUT_SIZE = 1,      /* of a split queue a size that isn't a power of two */
  VSCSI_LAYOUT_ALIGNMENT = 2, /* an area isn't aligned: a split queue's to 16, 2 and 4, a packed one's to 16, 4 and 4 */
  VSCSI_LAYOUT_AREA = 3,      /* an area isn't in guest memory */
  VSCSI_LAYOUT_START = 5      /* of a packed queue a base that is none of its slots. Since 1.4 */
};

/* What vscsi_create tells of a configuration that isn't taken: `cause` is an `enum vscsi_cause`. */
struct vscsi_fault {
  uint64_t place;
  uint32_t cause;
  uint32_t detail;
};

/* How much a unit did since its device was made. A number that passes 2^64 - 1 begins again at 0. A command counts when it
 * ran, and between two portions of vscsi_serve its answer may still be to come. Since 1.3. */
struct vscsi_counts {
  uint64_t left;             /* requests that came to the unit, were answered and left it, whatever became of them */
  uint64_t full;             /* requests that were refused with TASK SET FULL (SAM-5, 5.3.1) */
  uint64_t good;             /* commands that ran with status GOOD */
  uint64_t check_conditions; /* commands that ran with status CHECK CONDITION */
  uint64_t busy;             /* commands that were refused memory, with status BUSY */
  uint64_t data_out;         /* bytes that commands took from the driver */
  uint64_t data_in;          /* bytes that commands gave to the driver */
};

/* Blocks of a unit that follow one another. Since 1.2. */
struct vscsi_range {
  uint64_t first;
  uint64_t count;
};

/* The most ranges that vscsi_changed tells of. */
#define VSCSI_MOST_RANGES 64u

/* What a guest did that broke a queue. */
enum vscsi_broken {
  VSCSI_BROKEN_NOT = 0,                     /* nothing: the queue is whole */
  VSCSI_BROKEN_INDEX_JUMP = 1,              /* the available index ran too far ahead */
  VSCSI_BROKEN_HEAD_OUT_OF_RANGE = 2,       /* an available entry names no descriptor */
  VSCSI_BROKEN_NEXT_OUT_OF_RANGE = 3,       /* a descriptor goes on with none that there is */
  VSCSI_BROKEN_CHAIN_TOO_LONG = 4,          /* a chain goes round, or has over 2^32 bytes */
  VSCSI_BROKEN_BUFFER_OUTSIDE = 5,          /* a buffer isn't in guest memory */
  VSCSI_BROKEN_READABLE_AFTER_WRITABLE = 6, /* a readable buffer behind a writable one */
  VSCSI_BROKEN_ALREADY_OUTSTANDING = 7,     /* a head or id that the device still has */
  VSCSI_BROKEN_BAD_INDIRECT = 8,            /* an indirect table that is malformed, or wasn't agreed to */
  VSCSI_BROKEN_RING_OVERRUN = 9,            /* more descriptors than the ring has */
  VSCSI_BROKEN_UNMAPPED = 11                /* no fault of the guest: the queue isn't mapped (vscsi_map). Since 1.4 */
};

/* A device on live memory, or none. Made of zeros: `struct vscsi_live device = {0};`. What is said of `struct vscsi` holds of it.
 * Since 1.4. */
struct vscsi_live {
  void *at;
  bool live;
  bool asks;
  void *map;
};

/* Guest memory that the host has mapped: `size` bytes from the guest's address on, and where the host has them. Since 1.4. */
struct vscsi_region {
  uint64_t guest;
  uint64_t size;
  void *host;
};

/* The end of what a guest can address: 2^52. Since 1.4. */
#define VSCSI_MOST_ADDRESS (UINT64_C(1) << 52)

/* The most regions that vscsi_map takes. Since 1.4. */
#define VSCSI_MOST_REGIONS 65536u

/* Where a device goes on in a queue: zeros, for one that no device served before. Of a split queue these are the indices of
 * the next available entry and of the next used one, modulo 2^16. Of a packed queue they are slots. A side has wrapped where
 * its wrap counter is 0 (VIRTIO 1.2, 2.8.1): it went round the ring an odd number of times. Since 1.4. */
struct vscsi_position {
  uint16_t available;
  uint16_t used;
  bool available_wrapped;
  bool used_wrapped;
};

/* Where the driver put a queue, as `struct vscsi_queue`, and where the device begins there. Since 1.4. */
struct vscsi_ring {
  uint64_t desc;
  uint64_t driver;
  uint64_t device;
  uint16_t size;
  struct vscsi_position first;
};

/* The device that is wanted on live memory, as `struct vscsi_config`: the memory has no size, since any address below
 * VSCSI_MOST_ADDRESS may be mapped. `size` is sizeof (struct vscsi_live_config).
 *
 * Where `asks` is true, vscsi_live_serve asks the driver of each queue that it serves to notify of its next chain, once nothing
 * is left, and looks once more behind that (VIRTIO 1.2, 2.7.10 and 2.8.10). A host that waits for kicks then calls nothing else
 * before it sleeps. Where it is false the device writes nothing of its own: the host calls vscsi_live_ask, or polls. Since 1.4.
 *
 * `write_through` says of each unit whether it tells of no volatile write cache though its disk is backed (below); null is false
 * of each, and of a unit with another disk it says nothing. Since 1.11.
 *
 * A configuration that ends before `asks` has false there, and one that ends before `profiles`, `identities`, `read_only` or
 * `write_through` none. */
struct vscsi_live_config {
  size_t size;
  uint64_t features;
  const struct vscsi_ring *rings;
  size_t ring_count;
  const struct vscsi_unit *units;
  size_t unit_count;
  bool asks;
  const uint8_t *profiles;
  const struct vscsi_identity *identities;
  const bool *read_only;
  const bool *write_through;
};

/* Makes the device of a configuration, with zeros for guest memory, of which nothing has happened yet. A guest that had
 * written its queues already: copy guest memory in before the device first serves. `fault` is optional.
 * VSCSI_BAD_LENGTH where no header of this major version has a configuration of that size; VSCSI_IN_USE;
 * VSCSI_BAD_CONFIG, and then `fault` says why; VSCSI_NO_MEMORY, also in the place of VSCSI_BAD_CONFIG. */
enum vscsi_answer vscsi_create(struct vscsi *device, const struct vscsi_config *config, struct vscsi_fault *fault);

/* Makes a device as vscsi_create does, but over disks: unit k of the configuration has the blocks of disks[k], as many, in
 * place of zeros. There are as many disks as units. Afterwards the device has them, and none stands here; vscsi_close gives
 * them back. With any answer but VSCSI_DONE each disk is as it was. Since 1.2.
 * The answers of vscsi_create, in their order; behind the other causes of VSCSI_BAD_CONFIG also VSCSI_CAUSE_UNIT_DISK. */
enum vscsi_answer vscsi_create_with(struct vscsi *device, const struct vscsi_config *config, struct vscsi_disk *disks,
                                    struct vscsi_fault *fault);

/* Ends a device, and puts its disks into disks[0] to disks[count - 1], in the order of its units: blocks and capacities, as its
 * commands left them. Guest memory, queues and tasks are gone, and another device may be made here. With any answer but
 * VSCSI_DONE the device and each disk are as they were. Since 1.2.
 * The first of these, in this order, that is so: VSCSI_NO_DEVICE; VSCSI_BAD_LENGTH where `count` isn't how many units there
 * are; VSCSI_IN_USE where one of these places has a disk; VSCSI_NO_MEMORY. */
enum vscsi_answer vscsi_close(struct vscsi *device, struct vscsi_disk *disks, size_t count);

/* Lets go of a device and of all its memory, disks included; then there is none here, and another may be made.
 * VSCSI_NO_DEVICE. */
enum vscsi_answer vscsi_destroy(struct vscsi *device);

/* Serves all that the guest made available on all queues, until nothing is left to do, and counts the steps. Called when a
 * driver notified a queue, or whenever; where there is nothing to do it costs a look at each queue. Queue 0 comes first
 * (vscsi_serve says when that matters). The control and the request queues then have no chain outstanding. Event buffers
 * are held until an event wants them, at most as many as the
 * event queue has descriptors; one takes at most 600 bytes, however long its chain is. `steps` is optional.
 *
 * A guest can keep this call busy for ever: its own requests may make chains available, as a READ whose data the guest has
 * written into a ring. A host whose guests aren't trusted, or that wants its thread back, uses vscsi_serve.
 *
 * A unit takes pages of its disk as they are first written, and about 100 KiB for its latest steps as the first 1,400
 * requests come. While it works, the call takes room for the descriptors and the data of what it serves, and gives that
 * back; a request leaves nothing behind otherwise.
 * VSCSI_NO_DEVICE; VSCSI_NO_MEMORY where malloc refused what was next: what was served before stands, its notifications
 * are owed, and a later call goes on from there. */
enum vscsi_answer vscsi_settle(struct vscsi *device, uint64_t *steps);

/* Serves in portions: as vscsi_settle, but it takes new chains of those queues alone whose bit is set in `queues` (bit 0 is
 * queue 0), and at most `most` steps. What was begun before goes on, of whichever queue. It ends whatever the guest wrote. A
 * request takes 7 steps at most, a control request 2 and 2 more for each unit that it visits, an event buffer 1.
 *
 * `more` tells whether a step is left, of these queues or of what was begun: then `most` steps were taken, and the same call
 * goes on from there. Where it is false those queues have no chain left, unless a fault broke one. Within one call lower
 * queue numbers are fetched first, so a queue that feeds itself holds up those above it. A host that must be fair gives one
 * bit at a time, and goes round. `steps`, how many were taken, and `more` are optional.
 *
 * A driver makes a task management function available behind the requests that it is about. So a host serves queue 0 last, by a
 * call of its own, once one for the other queues left nothing (`more`). Else an abort may be answered before its request is taken,
 * which then runs, though its driver takes it for over. That leaves those that both come between the two calls.
 * VSCSI_NO_DEVICE; VSCSI_NO_MEMORY where malloc refused what was next: what was served before stands, its notifications
 * are owed, and a later call goes on from there; how many steps these were isn't told. */
enum vscsi_answer vscsi_serve(struct vscsi *device, uint32_t queues, uint64_t most, uint64_t *steps, bool *more);

/* Copies bytes into guest memory at an address.
 * VSCSI_NO_DEVICE; VSCSI_OUTSIDE where one would lie outside, and of 0 bytes where the address lies behind the end. */
enum vscsi_answer vscsi_poke(struct vscsi *device, uint64_t addr, const void *bytes, size_t count);

/* Copies bytes of guest memory out.
 * VSCSI_NO_DEVICE; VSCSI_OUTSIDE where one lies outside, and of 0 bytes where the address lies behind the end. */
enum vscsi_answer vscsi_peek(struct vscsi *device, uint64_t addr, void *into, size_t count);

/* Whose drivers are owed a notification since this was last asked: bit 0 is queue 0. Asked after each vscsi_settle and
 * vscsi_serve, also after one that answered VSCSI_NO_MEMORY; the host then notifies the driver of each of these queues
 * (VIRTIO 1.2, 2.3).
 *
 * The device decides by the driver's flag as its own copy has it, and with VSCSI_F_EVENT_IDX by `used_event` (a packed
 * queue's event area) in its place. A host that copies memory therefore looks at that once more in the guest's memory, after
 * it copied the used ring out there. It notifies where the driver has asked in the meantime (VIRTIO 1.2, 2.7.7.2, 2.8.10).
 * To notify of every queue whose count of used chains rose (vscsi_progress) is always right, too.
 * VSCSI_NO_DEVICE. */
enum vscsi_answer vscsi_owed(struct vscsi *device, uint32_t *queues);

/* The device's status: 64, DEVICE_NEEDS_RESET (VIRTIO 1.2, 2.1), where a guest broke a queue, else 0. The host sets that
 * bit in the status that the driver sees, and tells it by a configuration change notification.
 * VSCSI_NO_DEVICE. */
enum vscsi_answer vscsi_status(struct vscsi *device, uint8_t *status);

/* What broke a queue: an `enum vscsi_broken`. A broken queue takes no more chains; other queues go on. Nothing mends it
 * but a reset by the driver, for which the host destroys the device and makes another.
 * VSCSI_NO_DEVICE; VSCSI_NO_QUEUE. */
enum vscsi_answer vscsi_broken(struct vscsi *device, uint16_t queue, uint32_t *fault);

/* How many chains a queue took, and how many of them it gave back; both are optional. Modulo 2^16 these are a split queue's
 * position in the available ring and its used index.
 * VSCSI_NO_DEVICE; VSCSI_NO_QUEUE. */
enum vscsi_answer vscsi_progress(struct vscsi *device, uint16_t queue, uint64_t *accepted, uint64_t *used);

/* Tells where a queue goes on: with this as its `first` in a `struct vscsi_ring`, a device on live memory goes on where this one
 * is. It means that once no chain of the queue is outstanding: once vscsi_serve left nothing (`more`), and both numbers of
 * vscsi_progress are equal. The next device doesn't know a chain that is outstanding, and never gives it back; an event buffer
 * that this device holds is one. A queue that a guest broke goes on at what broke it. Takes no memory. Since 1.4.
 * VSCSI_NO_DEVICE; VSCSI_NO_QUEUE. */
enum vscsi_answer vscsi_position(struct vscsi *device, uint16_t queue, struct vscsi_position *position);

/* The operator's hard reset of a unit: its tasks that haven't run end with response RESET, its next command is told
 * (29/00), and an event goes to the event queue. vscsi_settle or vscsi_serve does what follows.
 * VSCSI_NO_DEVICE; VSCSI_NO_UNIT; VSCSI_NO_MEMORY. */
enum vscsi_answer vscsi_reset(struct vscsi *device, uint8_t target, uint16_t lun);

/* The operator's resize of a unit, to 1 to VSCSI_MOST_BLOCKS blocks of 512 bytes. Blocks that it loses are gone: where it
 * grows again they are zeros. Its next command is told (2A/09), and where the driver agreed to VSCSI_F_CHANGE an event goes
 * to the event queue, by the next vscsi_settle or vscsi_serve. Since 1.1.
 * The first of these, in this order, that is so: VSCSI_NO_DEVICE; VSCSI_BAD_CAPACITY; VSCSI_NO_UNIT; VSCSI_NO_MEMORY. */
enum vscsi_answer vscsi_resize(struct vscsi *device, uint8_t target, uint16_t lun, uint64_t blocks);

/* Tells how much a unit did. `left` and `full` together are the chains that were used for it. What was answered with no step
 * of the unit is counted nowhere. Such requests were malformed, or their unit isn't there, or they were answered BUSY since
 * memory was refused as they came to the unit. `size` is that of the structure. Takes no memory. Since 1.3.
 * The first of these, in this order, that is so: VSCSI_BAD_LENGTH where the size is another; VSCSI_NO_DEVICE; VSCSI_NO_UNIT. */
enum vscsi_answer vscsi_counts(struct vscsi *device, uint8_t target, uint16_t lun, struct vscsi_counts *counts, size_t size);

/* How many blocks a unit has.
 * VSCSI_NO_DEVICE; VSCSI_NO_UNIT. */
enum vscsi_answer vscsi_capacity(struct vscsi *device, uint8_t target, uint16_t lun, uint64_t *blocks);

/* Copies blocks of a unit out, as its commands left them; `length` is `count` times 512.
 * The first of these, in this order, that is so: VSCSI_NO_DEVICE; VSCSI_BAD_LENGTH; VSCSI_NO_UNIT; VSCSI_OUTSIDE;
 * VSCSI_NO_MEMORY, never where `count` is 0; else always where the unit's disk is backed, since its storage has the blocks. */
enum vscsi_answer vscsi_blocks(struct vscsi *device, uint8_t target, uint16_t lun, uint64_t first, uint32_t count, void *into,
                               size_t length);

/* Tells which blocks of a unit may have changed, for a host that writes a disk through to a file. It calls vscsi_serve, then
 * this, then vscsi_blocks of each range, and writes the file. Only then it copies the used rings out to the guest. So no
 * answer is seen before what it promises is kept. A guest writes where it likes, so the ranges may overlap, and may have
 * blocks that are as before or that the unit lost.
 *
 * `place` is a place of the unit's history, which the host keeps for each unit: 0 when its device was made, and then what the
 * last call left there. Where `all` is false, each block outside the ranges has what it had at that place. Where it is true any
 * block may have changed: VSCSI_MOST_RANGES ranges had come together and one more write came, or another call was told meanwhile. `room`
 * is how many ranges there is room for, and has to be VSCSI_MOST_RANGES or more; the first `count` are told. Takes no memory.
 * Since 1.2.
 * The first of these, in this order, that is so: VSCSI_NO_DEVICE; VSCSI_BAD_LENGTH where there is room for fewer;
 * VSCSI_NO_UNIT. */
enum vscsi_answer vscsi_changed(struct vscsi *device, uint8_t target, uint16_t lun, uint64_t *place, struct vscsi_range *ranges, size_t room,
                                size_t *count, bool *all);

/* Makes a disk of 1 to VSCSI_MOST_BLOCKS blocks of 512 zeros. It takes memory for what is written to it, and none for its size.
 * Since 1.2.
 * The first of these, in this order, that is so: VSCSI_IN_USE; VSCSI_BAD_CAPACITY; VSCSI_NO_MEMORY. */
enum vscsi_answer vscsi_disk_create(struct vscsi_disk *disk, uint64_t blocks);

/* Lets go of a disk and of all its memory. Since 1.2.
 * VSCSI_NO_DISK. */
enum vscsi_answer vscsi_disk_destroy(struct vscsi_disk *disk);

/* How many blocks a disk has. Since 1.2.
 * VSCSI_NO_DISK. */
enum vscsi_answer vscsi_disk_blocks(const struct vscsi_disk *disk, uint64_t *blocks);

/* Copies bytes over blocks of a disk; `length` is `count` times 512. Blocks that a disk never got are zeros: whoever
 * loads a sparse file leaves its holes out. Since 1.2.
 * The first of these, in this order, that is so: VSCSI_NO_DISK; VSCSI_BAD_LENGTH; VSCSI_OUTSIDE; VSCSI_NO_MEMORY, and then no block
 * has changed: also where the disk is backed, and has no room for a page of these blocks, or lacks one that they cover in part. Of
 * such a disk room may be kept then, and pages wanted, as for a command. */
enum vscsi_answer vscsi_disk_load(struct vscsi_disk *disk, uint64_t first, uint32_t count, const void *bytes, size_t length);

/* Copies blocks of a disk out; `length` is `count` times 512. Since 1.2.
 * The first of these, in this order, that is so: VSCSI_NO_DISK; VSCSI_BAD_LENGTH; VSCSI_OUTSIDE; VSCSI_NO_MEMORY, never where
 * `count` is 0; also where the disk is backed, and pages of these blocks aren't in memory, which are wanted then as for a command. */
enum vscsi_answer vscsi_disk_save(struct vscsi_disk *disk, uint64_t first, uint32_t count, void *into, size_t length);

/* Live memory: a device that serves a guest where the guest's memory is, while the guest runs. Nothing is copied in and
 * nothing out. The device reads rings, tables, requests and data at the places that the host mapped, each byte once for what
 * it decides by it. It writes data, responses and the used ring there, the used index last. A guest that writes meanwhile
 * gives it nonsense at worst, which it is proved to stand. The host's loop is: wait for a kick; vscsi_live_serve of all queues but
 * queue 0 until `more` is false, then of queue 0; vscsi_live_owed; notify.
 *
 * Makes a device of which nothing has happened yet, with no memory mapped: none of its queues is served before vscsi_map.
 * `disks` is optional: unit k has the blocks of disks[k], as vscsi_create_with says, or zeros where it is null. `fault` is
 * optional, too.
 * The answers of vscsi_create_with, in their order, but for VSCSI_CAUSE_PAGES; VSCSI_LAYOUT_START is one more of its
 * details. Since 1.4. */
enum vscsi_answer vscsi_live_create(struct vscsi_live *device, const struct vscsi_live_config *config, struct vscsi_disk *disks,
                                    struct vscsi_fault *fault);

/* Maps regions, in any order, in place of all that was mapped: after vscsi_live_create, and again between two calls whenever
 * the guest's memory changes. The bytes stay the host's: they must be mapped for as long as the device may be served with
 * them. What isn't in a region is a hole, which reads as zeros and swallows what is written there. A driver may see a
 * descriptor, a used entry or an index torn, or in another order, that lies in two regions, or at an address of the host's that is no
 * multiple of 8, 4 or 2 bytes. None does in regions of whole pages.
 *
 * A queue is mapped where each byte of its descriptors, its driver area and its device area lies in a region.
 * vscsi_live_serve takes no chain of one that isn't, and vscsi_live_ask writes nothing there; vscsi_live_broken tells it by
 * VSCSI_BROKEN_UNMAPPED. It is served on once it is mapped again. What was begun of it is answered wherever its areas are
 * then, so unmap where none of its chains is outstanding (vscsi_live_position says when). A queue that the driver never set up may
 * lie at any address that isn't mapped. Since 1.4.
 * VSCSI_NULL, also where the `host` of one is null; VSCSI_NO_DEVICE; VSCSI_OUTSIDE where two regions overlap, one is empty or ends
 * above VSCSI_MOST_ADDRESS, or there are more than VSCSI_MOST_REGIONS; VSCSI_NO_MEMORY. Then what was mapped stays. */
enum vscsi_answer vscsi_map(struct vscsi_live *device, const struct vscsi_region *regions, size_t count);

/* Logs which pages the device writes, for a guest that is migrated (vhost-user: LOG_ALL). Page n is the 4 KiB from guest
 * address 4,096 * n on, and has bit n % 8 of bitmap[n / 8]. The device sets the bit, by an atomic access, behind each store
 * into the page: data, responses, used rings and what vscsi_live_ask writes. Another thread, or process, may take bits away
 * by atomic accesses meanwhile: where it then copies the page, it copies what was stored. Pages beyond the bitmap have no
 * bit. It stays the host's, and must be there until another call, or the end of the device. Where `bitmap` is null nothing
 * is logged, as in the beginning. Since 1.4.
 * VSCSI_NO_DEVICE. */
enum vscsi_answer vscsi_log(struct vscsi_live *device, uint8_t *bitmap, size_t bytes);

/* Asks the driver of a queue to notify the device of the next chain that it makes available, or, where `notify` is false, of
 * none (VIRTIO 1.2, 2.7.10 and 2.8.10). A driver that agreed to VSCSI_F_EVENT_IDX notifies of that one chain alone, and one of a
 * split queue that is never asked stops after its first request. So a host that waits for notifications does these three in
 * turn. It serves until nothing is left; it asks for the next chain; and it serves once more, as a driver that made a chain
 * available before it saw what was asked notifies nobody. If that took no step it sleeps, else it asks again. With `asks` of the
 * configuration vscsi_live_serve does all three. A host that polls asks for none, again after 65,535 chains, and for the next
 * one before it sleeps. Nothing is written for a queue that is broken or isn't mapped. Since 1.4.
 * VSCSI_NO_DEVICE; VSCSI_NO_QUEUE. */
enum vscsi_answer vscsi_live_ask(struct vscsi_live *device, uint16_t queue, bool notify);

/* Tells where a queue goes on, as vscsi_position does: before the device is closed, and another is made in its place, in this
 * process or elsewhere. It means that once no chain of the queue is outstanding. Of the control queue and of request queues none
 * is once vscsi_live_wake told that no command waits, and then vscsi_live_serve left nothing (`more`). Of any queue none is where
 * both sides stand at the same place, as they did when the device was made. Since 1.4.
 * VSCSI_NO_DEVICE; VSCSI_NO_QUEUE. */
enum vscsi_answer vscsi_live_position(struct vscsi_live *device, uint16_t queue, struct vscsi_position *position);

/* Of a device on live memory what the call of the same name does, but for three. vscsi_live_owed decides by the driver's flag,
 * or its event index, as it stood behind a full barrier behind the used index or the used descriptor. So nothing needs to be
 * looked at once more. One barrier may stand behind several chains: then a driver that withdrew its wish meanwhile may be
 * notified all the same. vscsi_live_broken also tells a queue that isn't mapped. And while a function waits for a command that ran, and
 * waits for what it wrote to be kept, queue 0 keeps its chains though `more` is false.
 *
 * Where the configuration has `asks`, vscsi_live_serve goes on until no driver made a chain available before it could see that
 * it was asked, or `most` steps were taken: to ask is no step. Where `more` is false then, the driver of each of those queues
 * notifies of its next chain, but for queues that are broken or not mapped. Where it is true, or VSCSI_NO_MEMORY was answered,
 * the drivers may not have been asked. Since 1.4. */
enum vscsi_answer vscsi_live_serve(struct vscsi_live *device, uint32_t queues, uint64_t most, uint64_t *steps, bool *more);
enum vscsi_answer vscsi_live_owed(struct vscsi_live *device, uint32_t *queues);
enum vscsi_answer vscsi_live_status(struct vscsi_live *device, uint8_t *status);
enum vscsi_answer vscsi_live_broken(struct vscsi_live *device, uint16_t queue, uint32_t *fault);
enum vscsi_answer vscsi_live_reset(struct vscsi_live *device, uint8_t target, uint16_t lun);
enum vscsi_answer vscsi_live_resize(struct vscsi_live *device, uint8_t target, uint16_t lun, uint64_t blocks);
enum vscsi_answer vscsi_live_counts(struct vscsi_live *device, uint8_t target, uint16_t lun, struct vscsi_counts *counts, size_t size);
enum vscsi_answer vscsi_live_capacity(struct vscsi_live *device, uint8_t target, uint16_t lun, uint64_t *blocks);
enum vscsi_answer vscsi_live_blocks(struct vscsi_live *device, uint8_t target, uint16_t lun, uint64_t first, uint32_t count, void *into,
                                    size_t length);
enum vscsi_answer vscsi_live_changed(struct vscsi_live *device, uint8_t target, uint16_t lun, uint64_t *place, struct vscsi_range *ranges,
                                     size_t room, size_t *count, bool *all);
enum vscsi_answer vscsi_live_close(struct vscsi_live *device, struct vscsi_disk *disks, size_t count);
enum vscsi_answer vscsi_live_destroy(struct vscsi_live *device);

/* Backed disks: the host's storage has their blocks, and the device a bounded number of pages of 4 KiB, 8 blocks each. Page n
 * has the bytes from 4,096 * n on; what lies behind the disk's last block is zeros. The host reads and writes pages by any means,
 * as many at once as it likes and in any order, while the device serves.
 *
 * A unit of the wide profile tells its guest of a volatile write cache: WCE is 1 (docs/COMMANDS.md). A WRITE is answered as it stands
 * in memory. One of the narrow profile, or of which `write_through` is true, tells of none: a command that may change blocks is
 * answered GOOD only once the host said that it kept each page that was changed by then. With a write cache so is WRITE AND VERIFY, and
 * such a command with FUA. So waits SYNCHRONIZE CACHE for what was changed before it might run, one command of a disk at a time; a READ
 * with FUA waits until the host kept its pages as they are. A command that needs a page which isn't in memory waits, alone.
 *
 * What the host owes, and nothing checks:
 * - What it hands in by vscsi_live_load is what its storage had of the page when the disk was made, or what it last said by
 *   vscsi_live_written that it kept. All that is promised of the unit's blocks rests on that.
 * - A crash leaves of each block of 512 bytes that, or what the host was given of it since: what was there when the disk was made is
 *   synced by then, no block is torn, and no write lands once vscsi_live_written, kept or not, or vscsi_live_denied was called for it.
 *   What SYNCHRONIZE CACHE promises rests on that.
 * - Before vscsi_live_resize of such a unit it waits for its reads and writes to end, and behind it cuts its storage off at the lesser
 *   capacity: where the disk grows again, what it reads there is zeros, also behind a crash.
 *
 * The host's loop, behind each kick and each read or write of its own that is over:
 * 1. vscsi_live_load, vscsi_live_load_failed, vscsi_live_lost, vscsi_live_written or vscsi_live_denied for what is over; if there was
 *    any, vscsi_live_wake.
 * 2. vscsi_live_serve until `more` is false, of queue 0 last; vscsi_live_owed, and notify.
 * 3. vscsi_live_give of each backed disk until nothing is found: begin these writes. vscsi_live_wanted until nothing is found:
 *    begin these reads.
 * 4. If commands wait, vscsi_live_wake and vscsi_live_serve once more; and again from 2 where fewer wait than before. A command
 *    may wait for room that another had, and then no page that comes wakes it.
 * 5. If commands wait, and the host reads and writes nothing, malloc refused what they need, and no call may have answered so. After
 *    some time again from 4.
 * Before it closes a device the host waits for its reads and writes to end, and tells of each by step 1: the disk remembers what it
 * asked for and gave. Then it writes what vscsi_live_give still finds: pages that were changed stay with the disk, and are lost with it.
 *
 * Makes a backed disk of 1 to VSCSI_MOST_BLOCKS blocks, of which at most `most_pages` pages are in memory, VSCSI_LEAST_PAGES or
 * more. None is there yet. Only a `struct vscsi_live` takes such a disk. Since 1.7.
 * The first of these, in this order, that is so: VSCSI_IN_USE; VSCSI_BAD_CAPACITY; VSCSI_BAD_LENGTH where there are fewer pages;
 * VSCSI_NO_MEMORY. */
enum vscsi_answer vscsi_disk_create_backed(struct vscsi_disk *disk, uint64_t blocks, size_t most_pages);

/* Tells the next page of a unit's disk that the host is to read; `found` is false where there is none, as of a disk that isn't
 * backed. A page is told once; it is told again where a command still needs it after vscsi_live_load_failed. Takes no memory.
 * Since 1.7.
 * The first of these, in this order, that is so: VSCSI_NO_DEVICE; VSCSI_NO_UNIT. */
enum vscsi_answer vscsi_live_wanted(struct vscsi_live *device, uint8_t target, uint16_t lun, uint64_t *page, bool *found);

/* Hands in the 4,096 bytes of a page that the host was told to read. The bytes are copied. A host that was given the same page to
 * write since it was told to read it calls vscsi_live_load_failed in place of this: what it read may be older. Bytes of a page
 * that isn't wanted any more aren't looked at. Since 1.7.
 * The first of these, in this order, that is so: VSCSI_NO_DEVICE; VSCSI_NO_UNIT; VSCSI_NO_MEMORY, and then the page may be handed in
 * again. */
enum vscsi_answer vscsi_live_load(struct vscsi_live *device, uint8_t target, uint16_t lun, uint64_t page, const void *bytes);

/* Says that a page which the host was told to read doesn't come: its storage can't be had now, or was given the page meanwhile. No
 * command fails by that. Behind the next vscsi_live_wake those that need the page have it told again, so a host whose storage failed lets
 * some time pass. Takes no memory. Since 1.7.
 * The first of these, in this order, that is so: VSCSI_NO_DEVICE; VSCSI_NO_UNIT. */
enum vscsi_answer vscsi_live_load_failed(struct vscsi_live *device, uint8_t target, uint16_t lun, uint64_t page);

/* Says that the storage can't read a page which the host was told to read. Behind the next vscsi_live_wake one command that needs
 * the page ends with CHECK CONDITION, MEDIUM ERROR, UNRECOVERED READ ERROR (03/11/00), and changes no block. The page is told once more
 * then. Where the host says again that it can't be read, the next command that needs it ends so, too, also where the guest sends the
 * same again. A WRITE of all 8 blocks needs no page. 64 such pages are noted for a disk at most; for another the oldest of these is
 * told again, as behind vscsi_live_load_failed. Where malloc refuses a note, the page is told again, too. Since 1.8.
 * The first of these, in this order, that is so: VSCSI_NO_DEVICE; VSCSI_NO_UNIT. */
enum vscsi_answer vscsi_live_lost(struct vscsi_live *device, uint8_t target, uint16_t lun, uint64_t page);

/* Gives the host the next page of a unit's disk that it is to write: its number, and into `bytes` its 4,096 bytes as they are now.
 * `found` is false, and `bytes` as it was, where each changed page was given. The host answers by vscsi_live_written, or by
 * vscsi_live_denied. Until then the page isn't given again, whatever the guest writes. To call it until nothing is found also frees
 * room that was kept for pages which weren't changed then. Since 1.7.
 * The first of these, in this order, that is so: VSCSI_NO_DEVICE; VSCSI_NO_UNIT; VSCSI_NO_MEMORY. */
enum vscsi_answer vscsi_live_give(struct vscsi_live *device, uint8_t target, uint16_t lun, uint64_t *page, void *bytes, bool *found);

/* Says that the write of a page is over. Where `kept` is true, the storage gives the page back as it was given, also behind a
 * crash of the host or its machine: a host that writes a file calls fdatasync first, once for many pages. Where it is false the
 * page stays as it is in memory, and is given again. A page that the guest changed meanwhile is given again, too. Since 1.7.
 * The first of these, in this order, that is so: VSCSI_NO_DEVICE; VSCSI_NO_UNIT; VSCSI_NO_MEMORY, and then the host says it again
 * later. */
enum vscsi_answer vscsi_live_written(struct vscsi_live *device, uint8_t target, uint16_t lun, uint64_t page, bool kept);

/* Says that the write of a page is over, and that the storage can't write it. As where `kept` of vscsi_live_written is false, the page
 * stays as it is in memory, and is given again. Behind the next vscsi_live_wake one flush that waits, and flushes the page, ends with CHECK
 * CONDITION, MEDIUM ERROR, WRITE ERROR (03/0C/00): a SYNCHRONIZE CACHE, or a READ with FUA that reads a block of the page. Where none
 * waits, the next one that has to ends so. Others wait until the host kept the page, or says this again. A WRITE that waits for the storage
 * waits on: it changed its blocks. 64 such pages are noted for a disk at most; for another the oldest of these ends no flush. Nor does one
 * whose note malloc refuses. Nothing changes where no write of the page is under way. Since 1.11.
 * The first of these, in this order, that is so: VSCSI_NO_DEVICE; VSCSI_NO_UNIT; VSCSI_NO_MEMORY, and then the host says it again
 * later. */
enum vscsi_answer vscsi_live_denied(struct vscsi_live *device, uint8_t target, uint16_t lun, uint64_t page);

/* Has each command that waits for pages, for room or for what was written before it tried again, by the next vscsi_live_serve, which
 * takes two steps at most for each. `waiting` is how many these are, of all units, commands that ran and wait for what they wrote to be
 * kept among them; it is optional. Takes no memory. Since 1.7.
 * VSCSI_NO_DEVICE. */
enum vscsi_answer vscsi_live_wake(struct vscsi_live *device, uint64_t *waiting);

/* The version of the library, as VSCSI_VERSION tells that of the header. */
uint32_t vscsi_version(void);

/* The features that any host may offer with this library: the VSCSI_FEATURES of its own header. */
uint64_t vscsi_features(void);

/* The text of an answer, of an `enum vscsi_cause`, and of an `enum vscsi_broken`, in English, without an end of line. Any
 * number has one, and it stays. */
const char *vscsi_answer_text(enum vscsi_answer answer);
const char *vscsi_cause_text(uint32_t cause);
const char *vscsi_broken_text(uint32_t fault);

#ifdef __cplusplus
}
#endif

#endif
