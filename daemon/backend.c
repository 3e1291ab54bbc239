#include "backend.h"

#include <stdio.h>
#include <string.h>

#include "clock.h"
#include "images.h"
#include "paging.h"
#include "rings.h"

// The most steps of one call of the library's, where answers wait and where they don't: the ranges of so few are never more
// than the library tells apart. Of a call behind which the pages that commands want begin to be read. And of request queues before the
// control queue is served, which is more than all that rings may have.
enum { FEW_STEPS = 4, MANY_STEPS = 512, EARLY_STEPS = 16, MOST_STEPS_BEFORE = 1 << 19 };
// Milliseconds: how long the device runs before others of the daemon's descriptors are looked at, how long what can't go on
// waits, how long a device that begins waits for the one before it, and of backend_stop, how long all goes on, and how long the device
// has for what it began.
enum { PORTION = 20, LEAST_PAUSE = 50, MOST_PAUSE = 5000, BRIEF = 100, HASTE = 1000, FORCE = 5000 };
static const uint32_t CONTROL = UINT32_C(1) << CONTROL_QUEUE, EVENTS = UINT32_C(1) << EVENT_QUEUE, NO_QUEUES = 0;

// Puts what is refused memory off, each time for twice as long.
static enum served put_off(struct backend *backend) {
  backend->pause = !backend->pause ? LEAST_PAUSE : backend->pause > MOST_PAUSE / 2 ? MOST_PAUSE : 2 * backend->pause;
  backend->due = clock_now() + backend->pause;
  return LATER;
}

// Where the queues lie that the driver didn't set up: rings of zeros behind the guest's memory, which nothing ever changes.
static struct ring idle_ring(void) {
  return (struct ring){.desc = MEMORY_END, .driver = MEMORY_END + 0x100, .device = MEMORY_END + 0x200, .size = 2};
}

static size_t add(struct vscsi_region *regions, size_t count, uint64_t guest, uint64_t end, void *host) {
  if (guest == end) return count;
  regions[count] = (struct vscsi_region){.guest = guest, .size = end - guest, .host = host};
  return count + 1;
}

void backend_map(struct backend *backend) {
  struct vscsi_region regions[MOST_REGIONS + 2 * MOST_QUEUES + 1];
  size_t count = add(regions, 0, MEMORY_END, MEMORY_END + VSCSI_PAGE, backend->idle);
  for (size_t i = 0; i < backend->memory.count; i++) {
    const struct region *region = &backend->memory.regions[i];
    uint64_t at = region->guest, end = at + region->size;
    for (struct vscsi_region own; rings_next(backend, at, end, &own); at = own.guest + own.size) {
      count = add(regions, count, at, own.guest, region->at + (at - region->guest));
      regions[count++] = own;
    }
    count = add(regions, count, at, end, region->at + (at - region->guest));
  }
  backend->mapped = device_map(&backend->device, regions, count);
}

void backend_unmap(struct backend *backend) {
  if (backend->device.live && backend->mapped) rings_end(backend);
  backend->mapped = false;
}

void backend_log(struct backend *backend, bool logs) {
  const struct region *log = &backend->memory.log;
  backend->logs = logs && log->at;
  if (backend->device.live) device_log(&backend->device, backend->logs ? log->at : NULL, backend->logs ? (size_t)log->size : 0);
}

// Returns how many queues the device has: all up to the last one that the driver set up, and one of requests at the least.
static unsigned count_of(const struct backend *backend) {
  unsigned count = backend->count;
  while (count > FIXED_QUEUES + 1 && !backend->queues[count - 1].ready) count--;
  return count;
}

// Returns whether a guest goes on: a device served one of its rings before.
static bool goes_on(const struct backend *backend) {
  for (unsigned q = 0; q < backend->count; q++)
    if (backend->queues[q].ready && !ring_is_new(backend, q)) return true;
  return false;
}

bool backend_is_left_behind(const struct backend *backend) {
  const struct disks *disks = backend->disks;
  return blocks_are_in_memory(disks) && (backend->is_behind || (disks->has_lost && goes_on(backend)));
}

static bool make(struct backend *backend, char *why, size_t room) {
  struct vscsi_unit units[DEVICE_MOST_UNITS];
  uint8_t profiles[DEVICE_MOST_UNITS];
  struct vscsi_identity identities[DEVICE_MOST_UNITS];
  bool read_only[DEVICE_MOST_UNITS], write_through[DEVICE_MOST_UNITS];
  struct ring rings[DEVICE_MOST_QUEUES];
  for (size_t i = 0; i < backend->disks->count; i++) {
    const struct disk *disk = &backend->disks->disks[i];
    // Calm: the disks were on before the guest was, and nobody has to be told of that.
    units[i] = (struct vscsi_unit){.blocks = disk->blocks, .lun = disk->lun, .target = disk->target, .calm = 1};
    profiles[i] = disk->wide ? VSCSI_PROFILE_WIDE : VSCSI_PROFILE_NARROW;
    identities[i] = disk->names;
    read_only[i] = disk->is_protected;
    write_through[i] = !disk->is_cached;
  }
  backend->made = count_of(backend);
  for (unsigned q = 0; q < backend->made; q++) rings[q] = backend->queues[q].ready ? backend->queues[q].ring : idle_ring();
  const struct vscsi_live_config config = {.size = sizeof config,
                                           .features = VSCSI_F_VERSION_1 | (backend->packed ? VSCSI_F_RING_PACKED : 0) |
                                                       (backend->event_index ? VSCSI_F_EVENT_IDX : 0) |
                                                       (backend->indirect ? VSCSI_F_INDIRECT_DESC : 0) |
                                                       (backend->change ? VSCSI_F_CHANGE : 0),
                                           .ring_count = backend->made,
                                           .units = units,
                                           .unit_count = backend->disks->count,
                                           .profiles = profiles,
                                           .identities = identities,
                                           .read_only = read_only,
                                           .write_through = write_through};
  memset(backend->noted, 0, sizeof backend->noted);
  memset(backend->idle, 0, sizeof backend->idle);
  // What is under way at a disk that doesn't answer is waited for with messages and signals in between.
  bool is_free = paging_end_rest(backend->disks, clock_now() + BRIEF) || !paging_is_under_way(backend->disks);
  if (is_free && !blocks_are_lost(backend->disks) && backend_is_left_behind(backend))
    return snprintf(why, room, "the guest goes on, and what it wrote may have gone with another daemon: reset the machine"), false;
  if (!is_free) {
    snprintf(why, room, "pages of disks are under way");
    // It is tried again soon.
    backend->pause = 0;
  }
  // Another daemon may have the files still, or memory is refused, or the system can't read one now.
  bool has_blocks = is_free && images_hold(backend->disks, why, room) && blocks_load(backend->disks, why, room);
  backend->starved = !has_blocks && !(is_free && blocks_are_lost(backend->disks));
  bool is_made = has_blocks && device_create(&backend->device, config, rings, backend->disks->stores, &backend->starved, why, room);
  if (is_made) {
    backend->disks->is_served = true;
    backend->disks->has_lost = backend->disks->has_lost && goes_on(backend);
    paging_begin(backend->disks);
  }
  return is_made;
}

enum served backend_begin(struct backend *backend, char *why, size_t room) {
  bool is_first = !backend->pause;
  if (backend->pause && clock_now() < backend->due) return LATER;
  backend->starved = backend->crowded = false;
  backend->silent = 0;
  backend->phase = IDLE;
  backend->steps = 0;
  backend->kicked = UINT32_MAX;
  backend->awake = backend->seen = backend->asked = 0;
  if (make(backend, why, room)) {
    backend_map(backend);
    backend_log(backend, backend->logs);
    backend->pause = 0;
    return MORE;
  }
  if (!backend->starved) return FAILED;
  if (!is_first) *why = 0;
  return put_off(backend);
}

bool backend_has(struct backend *backend, uint32_t queues) {
  for (uint32_t left = backend->unasked & queues; left; left &= left - 1) ring_ask(backend, (unsigned)__builtin_ctz(left), true);
  backend->unasked &= ~queues;
  for (unsigned q = 0; q < backend->count; q++)
    if (queues >> q & 1 && ring_has(backend, q)) return true;
  return false;
}

// What came of having the device serve: nothing is left, something is, or memory was refused.
enum ran { RAN, RUNS, REFUSED };

// Returns whether the device has to leave off. The clock is looked at only where something is left behind a call of the
// library's.
static bool is_over(struct backend *backend) {
  uint64_t now = clock_now();
  if (!backend->until) backend->until = now + PORTION;
  return now >= backend->until;
}

// A chain may have come before its driver saw that it was asked, so that it is asked once more.
static inline void note_steps(struct backend *backend) {
  backend->took = true;
  backend->seen |= backend->asked;
  backend->asked = 0;
}

// Returns how many steps a call of the library's takes at most.
static inline uint64_t portion(const struct backend *backend, bool is_early) {
  return backend->keeps ? FEW_STEPS : is_early ? EARLY_STEPS : MANY_STEPS;
}

// Has the device serve these queues until nothing is left, it has to leave off, or so many steps were taken. While their commands want pages,
// it does so by few steps, and reads of these begin in between: a storage would have nothing to do meanwhile.
static inline enum ran run(struct backend *backend, uint32_t queues, uint64_t most) {
  bool is_early = backend->pages && queues && !backend->keeps;
  for (bool more = true; more;) {
    uint64_t steps = 0;
    bool served = device_serve(&backend->device, queues, portion(backend, is_early), &steps, &more);
    backend->steps += steps;
    backend->all_steps += steps;
    if (steps) note_steps(backend);
    if (backend->keeps && (steps || !served)) blocks_note(&backend->device, backend->disks, backend->noted);
    if (backend->logs) rings_log(backend);
    if (!served) return REFUSED;
    if (more && (backend->steps >= most || is_over(backend))) return RUNS;
    if (more && is_early) is_early = paging_read(backend->disks, &backend->device, &backend->handed_in);
  }
  return RAN;
}

// Has the request queues served: all at once, or where one call leaves something, one after the other, each for some steps.
static inline enum ran run_requests(struct backend *backend, uint32_t queues) {
  // With no queue there are no turns, but the device may have to go on with what it began.
  if (!backend->crowded || !queues) {
    enum ran ran = run(backend, queues, backend->steps + MANY_STEPS);
    backend->crowded = ran == RUNS;
    backend->quiet = 0;
    if (ran != RUNS) return ran;
  }
  while (backend->quiet < backend->count) {
    uint32_t one = queues & UINT32_C(1) << backend->turn;
    enum ran ran = one ? run(backend, one, backend->steps + MANY_STEPS) : RAN;
    if (ran == REFUSED) return REFUSED;
    backend->quiet = ran == RAN ? backend->quiet + 1 : 0;
    backend->turn = (backend->turn + 1) % backend->count;
    if (backend->quiet < backend->count && is_over(backend)) return RUNS;
  }
  backend->crowded = false;
  return RAN;
}

// Has the queues served. The control queue comes last: a driver made its functions available behind the requests that they are
// about. A guest whose requests make chains available would keep it waiting for ever, but for the bound.
static inline enum ran run_all(struct backend *backend, uint32_t queues) {
  bool has_control = queues & (backend->seen | backend->asked | backend->silent) & CONTROL;
  if (!has_control) backend->steps = 0;
  backend->until = 0;
  enum ran ran = run_requests(backend, queues & ~CONTROL);
  if (ran == REFUSED || !has_control || (ran == RUNS && backend->steps < MOST_STEPS_BEFORE)) return ran;
  backend->steps = 0;
  enum ran control = run(backend, CONTROL, MOST_STEPS_BEFORE);
  return control == RAN ? ran : control;
}

// Has the device end what it began.
static enum ran settle(struct backend *backend) {
  backend->until = 0;
  return run(backend, NO_QUEUES, UINT64_MAX);
}

// Nanoseconds: what it takes, about, to try a command once more that waits, and for how long other reads are waited for at most. And of how
// many commands one's read is enough.
enum { TRY = 300, LONGEST_GATHERING = 20000, SHARE = 4 };

// Has the device told of more reads, where few of those are over for which commands wait: each time all of these are tried again. So it
// looks for others for as long as that would take.
static void gather_reads(struct backend *backend, size_t reads) {
  uint64_t cost = backend->waiting * TRY, until = 0, now;
  enum came came = CAME_READS;
  while (came != CAME_MORE && reads * SHARE < backend->waiting && paging_reads(backend->disks)) {
    now = clock_nanoseconds();
    if (!until) until = now + (cost < LONGEST_GATHERING ? cost : LONGEST_GATHERING);
    if (now >= until) break;
    came = paging_take(backend->disks, &backend->device, &reads);
  }
}

// Has the device told of what is over of reads and writes. Returns whether there was any.
static bool take_pages(struct backend *backend) {
  size_t reads = 0;
  if (!backend->pages) return false;
  enum came came = paging_take(backend->disks, &backend->device, &reads);
  if (came == CAME_READS && !backend->came) gather_reads(backend, reads);
  if (came == CAME_NOTHING && !backend->came) return false;
  backend->waiting = device_wake(&backend->device);
  backend->came = false;
  return true;
}

bool backend_settle(struct backend *backend) {
  if (!backend->pages) return true;
  backend->came = true;
  return paging_settle(backend->disks, &backend->device, clock_now() + HASTE);
}

// Has pages read and written, and commands that wait go on as far as that helps. While reads are under way that isn't known: they are tried
// again behind each, and where pages are handed in that were read ahead. A command may wait for room that another had, so they are tried
// again while fewer wait.
static enum ran give_pages(struct backend *backend, enum ran ran) {
  struct disks *disks = backend->disks;
  bool took = backend->took, helps = true;
  bool handed_in = paging_give(disks, &backend->device, took || backend->waits ? WAITS_PERHAPS : WAITS_NOT) || backend->handed_in;
  backend->waits = true;
  backend->handed_in = false;
  for (uint64_t before = UINT64_MAX; ran == RAN && (handed_in || (helps && !paging_reads(disks)));) {
    uint64_t waiting = backend->waiting = device_wake(&backend->device);
    backend->waits = waiting;
    if (!waiting) break;
    helps = waiting < before;
    before = waiting;
    ran = run(backend, NO_QUEUES, UINT64_MAX);
    handed_in = paging_give(disks, &backend->device, WAITS_SURELY);
  }
  // What was tried in vain isn't the guest's work.
  backend->took = took;
  return ran;
}

// Has the device end what it began. Where commands wait all the same, `waits` is true.
static enum ran settle_pages(struct backend *backend) {
  take_pages(backend);
  enum ran ran = settle(backend);
  if (!backend->pages) return ran;
  ran = give_pages(backend, ran);
  if (ran == RAN) backend->waits = device_wake(&backend->device);
  return ran;
}

// Learns which queues the guest broke.
static void note_faults(struct backend *backend) {
  if (!device_is_broken(&backend->device)) return;
  for (unsigned q = 0; q < backend->count; q++) {
    struct backend_queue *queue = &backend->queues[q];
    if (!queue->ready || queue->fault) continue;
    queue->fault = device_fault(&backend->device, q);
    backend->broken = backend->broken || queue->fault;
  }
}

// Asks drivers that name the chain of which they notify for the next one, and each driver that wasn't asked yet. Returns whether another
// look is wanted, since one may have come before the driver saw that. What is found then has them asked once more.
static bool ask(struct backend *backend, uint32_t queues) {
  uint32_t asked = backend->seen & queues;
  // These have to be asked in any case: nobody did, or they were asked not to notify.
  uint32_t unasked = (backend->unasked | backend->silent) & queues;
  bool names = backend->event_index && !backend->packed;
  // Those that aren't served now, as they aren't enabled, are asked once they are.
  backend->seen &= ~queues;
  backend->unasked &= ~queues;
  backend->silent &= ~queues;
  backend->asked = (names ? asked : 0) | unasked;
  for (uint32_t left = backend->asked; left; left &= left - 1) ring_ask(backend, (unsigned)__builtin_ctz(left), true);
  return backend->asked;
}

// Asks drivers not to notify, where that isn't said yet, and once in some thousand steps: those that name a chain would come to
// it.
static bool hush(struct backend *backend, uint32_t queues) {
  enum { EVERY = 1 << 14 };
  bool is_late = backend->all_steps - backend->hushed >= EVERY;
  uint32_t left = is_late ? queues | backend->silent : queues & ~backend->silent;
  if (!backend->silent || is_late) backend->hushed = backend->all_steps;
  backend->silent |= left;
  for (; left; left &= left - 1) ring_ask(backend, (unsigned)__builtin_ctz(left), false);
  return true;
}

// Shows the answers of a round whose files have all that they promise. Returns SERVED, or LATER, where a file can't be written
// now, or BUSY.
static enum served keep(struct backend *backend, bool at_once, uint32_t *owed) {
  enum kept kept = blocks_keep(&backend->device, backend->disks, at_once);
  if (kept == KEEPING) return BUSY;
  if (kept == STUCK) {
    backend->due = blocks_due(backend->disks);
    return LATER;
  }
  backend->phase = IDLE;
  *owed |= rings_show(backend);
  return SERVED;
}

// Goes on with a round whose answers wait. Returns SERVED at its end.
static enum served wait_round(struct backend *backend, uint32_t queues, uint32_t *owed) {
  enum ran ran = RAN;
  if (backend->phase == IDLE) rings_hold(backend);
  if (backend->phase <= RUNNING) {
    backend->phase = RUNNING;
    ran = run_all(backend, queues);
    backend->left = ran == RUNS;
    if (ran != REFUSED) backend->phase = ran == RUNS || backend->pages ? SETTLING : WRITING;
  }
  if (backend->phase == SETTLING) {
    ran = settle_pages(backend);
    if (ran == RAN && !backend->waits) backend->phase = WRITING;
  }
  *owed |= device_owed(&backend->device) & (ring_waits(backend, EVENT_QUEUE) ? 0 : EVENTS);
  if (ran == REFUSED) return put_off(backend);
  backend->pause = 0;
  if (ran == RAN && backend->phase == SETTLING) return backend->due = clock_now() + HASTE, LATER;
  return backend->phase == WRITING ? keep(backend, false, owed) : BUSY;
}

// Serves queues whose answers are shown as the device gives them.
static enum served serve_at_once(struct backend *backend, uint32_t queues, uint32_t *owed) {
  // Behind a call that left off commands weren't tried again.
  bool came = take_pages(backend) || backend->left;
  enum ran ran = run_all(backend, queues);
  if (backend->pages && (came || backend->took)) ran = give_pages(backend, ran);
  backend->left = ran == RUNS;
  backend->phase = ran == RAN ? IDLE : RUNNING;
  *owed |= device_owed(&backend->device);
  if (ran == REFUSED) return put_off(backend);
  backend->pause = 0;
  return SERVED;
}

enum served backend_serve(struct backend *backend, uint32_t queues, uint32_t *owed) {
  if (backend->pause && clock_now() < backend->due) return LATER;
  if (!backend->mapped) backend_map(backend);
  if (!backend->mapped) return put_off(backend);
  if (backend->phase == IDLE || !backend->keeps) {
    // One of those that had nothing left may have something again.
    if (backend->kicked) backend->quiet = 0;
    backend->seen |= backend->kicked;
    backend->awake |= backend->kicked;
    backend->kicked = 0;
    backend->took = false;
  }
  uint32_t awake = queues & backend->awake;
  enum served served = backend->keeps ? wait_round(backend, awake, owed) : serve_at_once(backend, awake, owed);
  if (served != SERVED) return served;
  note_faults(backend);
  bool polls = backend->polls || (backend->spins && backend->took);
  bool again = !backend->left && (polls ? hush(backend, awake) : ask(backend, awake));
  if (again || backend->left) return MORE;
  backend->awake &= ~awake;
  return backend->kicked & queues ? MORE : SERVED;
}

bool backend_is_busy(const struct backend *backend) {
  return backend->device.live && (backend->phase != IDLE || backend->waits);
}

bool backend_waits(const struct backend *backend) { return backend->pages && backend_is_busy(backend); }

void backend_count(struct backend *backend, size_t disk, struct vscsi_counts *counts) {
  const struct disk *its = &backend->disks->disks[disk];
  struct vscsi_counts more = {0};
  device_counts(&backend->device, its->target, its->lun, &more);
  counts->left += more.left;
  counts->full += more.full;
  counts->good += more.good;
  counts->check_conditions += more.check_conditions;
  counts->busy += more.busy;
  counts->data_out += more.data_out;
  counts->data_in += more.data_in;
}

void backend_end(struct backend *backend) {
  for (size_t i = 0; backend->device.live && i < backend->disks->count; i++) backend_count(backend, i, &backend->disks->disks[i].counts);
  backend_unmap(backend);
  backend->unasked = UINT32_MAX;
  backend->silent = 0;
  backend->phase = IDLE;
  backend->waits = false;
  backend->pause = 0;
  if (backend->pages && backend->device.live) paging_end(backend->disks, &backend->device, UINT64_MAX);
  if (device_end(&backend->device, backend->disks->stores, backend->disks->count)) return;
  blocks_lose(backend->disks);
  backend->disks->has_lost = backend->disks->has_lost || paging_are_left(backend->disks);
  for (size_t i = 0; i < backend->disks->count; i++)
    if (backend->disks->disks[i].paging) paging_lose(&backend->disks->disks[i]);
}

// Waits for a time, or until backend_stop goes on to what it does next.
static enum served wait_for(struct backend *backend, uint64_t passed) {
  uint64_t next = clock_now() + (passed < HASTE ? HASTE - passed : passed < FORCE ? FORCE - passed : HASTE);
  if (backend->due > next) backend->due = next;
  return LATER;
}

enum served backend_stop(struct backend *backend, uint64_t passed, uint32_t *owed, char *why, size_t room) {
  bool is_stuck = passed >= HASTE && backend->phase == WRITING && blocks_are_stuck(backend->disks),
       is_late = passed >= FORCE || is_stuck;
  if (!backend_is_busy(backend)) return SERVED;
  if (backend->keeps && is_late) return backend_end(backend), SERVED;
  if (!is_late && backend->pause && clock_now() < backend->due) return wait_for(backend, passed);
  if (backend->phase != WRITING) {
    enum ran ran = backend->mapped ? settle_pages(backend) : REFUSED;
    *owed |= device_owed(&backend->device) & (!backend->keeps ? UINT32_MAX : ring_waits(backend, EVENT_QUEUE) ? 0 : EVENTS);
    bool waits = ran == RAN && backend->waits;
    // Commands that wait for storage are waited for: their front end would go on behind answers that came in another order.
    if (ran != RAN && is_late) return snprintf(why, room, "the device doesn't end what it began"), FAILED;
    if (ran == REFUSED) return put_off(backend), wait_for(backend, passed);
    if (ran == RUNS) return BUSY;
    backend->pause = 0;
    if (waits) return backend->due = UINT64_MAX, wait_for(backend, passed);
    backend->phase = backend->keeps ? WRITING : IDLE;
  }
  if (!backend->keeps) return SERVED;
  enum served served = keep(backend, passed < PORTION, owed);
  return served == LATER ? wait_for(backend, passed) : served;
}
