#include "rings.h"

#include <string.h>

#include "bytes.h"

// Descriptor flags of a packed ring (VIRTIO 1.2, 2.8.1), and where a used descriptor and its flags begin.
enum { FLAG_NEXT = 1, FLAG_AVAILABLE = 0x80, FLAG_USED = 0x8000, USED_AT = 8, FLAGS_AT = 14 };

static void store(uint8_t *at, uint16_t number) { __atomic_store_n((uint16_t *)(void *)at, number, __ATOMIC_RELEASE); }

static uint16_t load(const uint8_t *at) { return __atomic_load_n((const uint16_t *)(const void *)at, __ATOMIC_ACQUIRE); }

bool ring_find(struct backend *backend, unsigned q) {
  struct backend_queue *queue = &backend->queues[q];
  const struct ring *ring = &queue->ring;
  uint64_t size = ring->size, event = backend->event_index ? 2 : 0;
  bool packed = backend->packed, is_sized = size >= 2 && size <= DEVICE_MOST_SIZE && (packed || !(size & (size - 1)));
  if (!is_sized || ring->desc % 16 || ring->driver % (packed ? 4 : 2) || ring->device % 4) return false;
  queue->desc_at = memory_at(&backend->memory, ring->desc, DESCRIPTOR * size);
  queue->device_at = memory_at(&backend->memory, ring->device, packed ? 4 : 4 + 8 * size + event);
  return queue->desc_at && queue->device_at && memory_at(&backend->memory, ring->driver, packed ? 4 : 4 + 2 * size + event);
}

static uint8_t *slot_at(const struct backend_queue *queue, uint16_t slot) { return queue->desc_at + (size_t)slot * DESCRIPTOR; }

// Returns whether a driver made a descriptor with these flags available, or a device marked it as used, on this side of the
// wrap.
static bool is_available(uint16_t flags, bool wrapped) {
  return !(flags & FLAG_AVAILABLE) == wrapped && !(flags & FLAG_USED) != wrapped;
}
static bool is_used(uint16_t flags, bool wrapped) {
  return !(flags & FLAG_AVAILABLE) == wrapped && !(flags & FLAG_USED) == wrapped;
}

static void step(const struct backend_queue *queue, uint16_t *slot, bool *wrapped) {
  if (++*slot < queue->ring.size) return;
  *slot = 0;
  *wrapped = !*wrapped;
}

bool ring_has(const struct backend *backend, unsigned q) {
  const struct backend_queue *queue = &backend->queues[q];
  const struct position *first = &queue->ring.first;
  if (!queue->ready || queue->fault) return false;
  if (!backend->packed) return load(memory_at(&backend->memory, queue->ring.driver + 2, 2)) != first->available;
  return is_available(load(slot_at(queue, first->available) + FLAGS_AT), first->available_wrapped);
}

static uint32_t base_of(const struct backend *backend, const struct position *at) {
  if (!backend->packed) return at->available;
  return (uint32_t)at->available | (uint32_t)!at->available_wrapped << 15 | (uint32_t)at->used << 16 |
         (uint32_t)!at->used_wrapped << 31;
}

uint32_t ring_base(const struct backend *backend, unsigned q) { return base_of(backend, &backend->queues[q].ring.first); }

bool ring_set_base(struct backend *backend, unsigned q, uint32_t base) {
  struct backend_queue *queue = &backend->queues[q];
  struct position *first = &queue->ring.first;
  // Above 65,535 stand the wrap counters of a packed ring.
  if (!backend->packed && base > UINT16_MAX) return false;
  if (!backend->packed) *first = (struct position){.available = (uint16_t)base, .used = load(queue->device_at + 2)};
  else
    *first = (struct position){.available = base & 0x7fff,
                               .used = base >> 16 & 0x7fff,
                               .available_wrapped = !(base >> 15 & 1),
                               .used_wrapped = !(base >> 31)};
  queue->index = queue->logged = first->used;
  memset(queue->descriptors, 0, sizeof queue->descriptors);
  return !backend->packed || (first->available < queue->ring.size && first->used < queue->ring.size);
}

static bool is_zeros(const uint8_t *at, size_t bytes) {
  for (size_t i = 0; i < bytes; i++)
    if (at[i]) return false;
  return true;
}

// Returns whether each descriptor of a packed ring is as a driver begins with, or made available in the first round.
static bool is_unused(const struct backend_queue *queue) {
  for (uint16_t slot = 0; slot < queue->ring.size; slot++) {
    uint16_t flags = load(slot_at(queue, slot) + FLAGS_AT);
    bool is_first_round = flags & FLAG_AVAILABLE && !(flags & FLAG_USED);
    if (!is_first_round && !is_zeros(slot_at(queue, slot), DESCRIPTOR)) return false;
  }
  return true;
}

bool ring_is_new(const struct backend *backend, unsigned q) {
  const struct backend_queue *queue = &backend->queues[q];
  const struct position *first = &queue->ring.first;
  if (first->available || first->used || first->available_wrapped || first->used_wrapped) return false;
  // A front end may say a packed ring's first base once more. Each round of a split ring's leaves something in the last used element.
  return backend->packed ? is_unused(queue) : is_zeros(queue->device_at + 4 + 8 * ((size_t)queue->ring.size - 1), 8);
}

bool ring_waits(const struct backend *backend, unsigned q) {
  const struct backend_queue *queue = &backend->queues[q];
  return backend->keeps && (q != EVENT_QUEUE || backend->packed) && queue->ready && !queue->fault;
}

// Copies descriptors from the next one on, up to one that isn't available and doesn't go on a chain, of each the flags first.
static void copy(struct backend_queue *queue) {
  uint16_t slot = queue->ring.first.available;
  bool wrapped = queue->ring.first.available_wrapped, inside = false;
  for (unsigned i = 0; i < queue->ring.size; i++) {
    uint8_t *into = queue->descriptors + (size_t)slot * DESCRIPTOR;
    uint16_t flags = load(slot_at(queue, slot) + FLAGS_AT);
    memcpy(into, slot_at(queue, slot), FLAGS_AT);
    memcpy(into + FLAGS_AT, &flags, sizeof flags);
    if (!inside && !is_available(flags, wrapped)) return;
    inside = flags & FLAG_NEXT;
    step(queue, &slot, &wrapped);
  }
}

void rings_hold(struct backend *backend) {
  for (unsigned q = 0; backend->packed && q < backend->made; q++)
    if (ring_waits(backend, q)) copy(&backend->queues[q]);
}

bool rings_next(struct backend *backend, uint64_t from, uint64_t end, struct vscsi_region *part) {
  bool found = false;
  for (unsigned q = 0; q < backend->count; q++) {
    struct backend_queue *queue = &backend->queues[q];
    struct vscsi_region its =
        backend->packed ? (struct vscsi_region){queue->ring.desc, (uint64_t)DESCRIPTOR * queue->ring.size, queue->descriptors}
                        : (struct vscsi_region){queue->ring.device + 2, sizeof queue->index, &queue->index};
    if (!ring_waits(backend, q) || its.guest < from || its.guest >= end) continue;
    *part = its;
    found = true;
    end = its.guest;
  }
  return found;
}

// Returns where a ring goes on behind all that the device gave back. What the device has of events, and of requests where it
// didn't end them, is available once more: it lies behind that.
static struct position behind(struct backend *backend, unsigned q) {
  const struct position *first = &backend->queues[q].ring.first;
  struct position now = device_position(&backend->device, q);
  if (!backend->packed) {
    now.available = (uint16_t)(first->available + now.used - first->used);
  } else if (q == EVENT_QUEUE || backend_is_busy(backend)) {
    now.available = now.used;
    now.available_wrapped = now.used_wrapped;
  }
  return now;
}

// Where a ring stands, and where it stands once the descriptor is shown whose turn it is.
struct place {
  uint64_t now, next;
};

enum { QUEUE_BYTES = 64 };
#define IS_NOTED (UINT64_C(1) << 63)

// Returns where a ring's place is noted, or NULL.
static struct place *place_of(const struct backend *backend, unsigned q) {
  uint8_t *at = backend->memory.places.at;
  return at && backend->keeps ? (struct place *)(void *)(at + (size_t)q * QUEUE_BYTES) : NULL;
}

static void put(uint64_t *into, uint64_t number) { __atomic_store_n(into, number, __ATOMIC_SEQ_CST); }

bool ring_recall(const struct backend *backend, unsigned q, uint32_t *base) {
  const struct backend_queue *queue = &backend->queues[q];
  const struct place *place = place_of(backend, q);
  uint64_t noted = place ? __atomic_load_n(&place->now, __ATOMIC_ACQUIRE) : 0;
  if (!(noted & IS_NOTED)) return false;
  uint32_t now = (uint32_t)noted;
  uint16_t slot = now >> 16 & 0x7fff;
  if (!backend->packed) *base = load(queue->device_at + 2);
  // Whether the descriptor whose turn it was is still the driver's.
  else
    *base = slot < queue->ring.size && is_available(load(slot_at(queue, slot) + FLAGS_AT), !(now >> 31))
                ? now
                : (uint32_t)place->next;
  return true;
}

void ring_note(struct backend *backend, unsigned q) {
  struct place *place = place_of(backend, q);
  uint64_t now = IS_NOTED | ring_base(backend, q);
  if (!place) return;
  put(&place->next, now);
  put(&place->now, now);
}

void ring_forget(struct backend *backend, unsigned q) {
  struct place *place = place_of(backend, q);
  if (place) put(&place->now, 0);
}

// Returns whether writes to a queue's device area are logged elsewhere than where it lies.
static bool is_logged_elsewhere(const struct backend_queue *queue) {
  return queue->is_logged && queue->logged_at != queue->ring.device;
}

// Logs a write of the daemon's to a queue's device area.
static void log_device_area(const struct backend *backend, const struct backend_queue *queue, uint64_t from, uint64_t count) {
  if (!backend->logs) return;
  memory_mark(&backend->memory, queue->ring.device + from, count);
  if (is_logged_elsewhere(queue)) memory_mark(&backend->memory, queue->logged_at + from, count);
}

// Returns how many chains of a split ring were given back, modulo 65,536.
static uint16_t used_of(struct backend *backend, unsigned q) {
  return backend->device.live ? device_position(&backend->device, q).used : backend->queues[q].ring.first.used;
}

void rings_log(struct backend *backend) {
  for (unsigned q = 0; !backend->packed && q < backend->count; q++) {
    struct backend_queue *queue = &backend->queues[q];
    if (!queue->ready || !is_logged_elsewhere(queue)) continue;
    uint16_t now = used_of(backend, q);
    if (queue->logged == now) continue;
    for (; queue->logged != now; queue->logged++)
      memory_mark(&backend->memory, queue->logged_at + 4 + 8 * (uint64_t)(queue->logged % queue->ring.size), 8);
    if (!ring_waits(backend, q)) memory_mark(&backend->memory, queue->logged_at + 2, 2);
  }
}

void ring_set_log(struct backend *backend, unsigned q, bool is_logged, uint64_t at) {
  struct backend_queue *queue = &backend->queues[q];
  queue->is_logged = is_logged;
  queue->logged_at = at;
  if (queue->ready) queue->logged = used_of(backend, q);
}

// Finds the next slot from one on that the device marked as used, before the place where it stands. Returns false where there is
// none.
static bool find_used(const struct backend_queue *queue, const struct position *end, uint16_t *slot, bool *wrapped) {
  for (; *slot != end->used || *wrapped != end->used_wrapped; step(queue, slot, wrapped))
    if (is_used(load(queue->descriptors + (size_t)*slot * DESCRIPTOR + FLAGS_AT), *wrapped)) return true;
  return false;
}

// Shows the used descriptors of a packed ring. Returns whether there were any.
static bool show_packed(struct backend *backend, unsigned q) {
  struct backend_queue *queue = &backend->queues[q];
  const struct position end = behind(backend, q);
  uint16_t slot = queue->ring.first.used;
  bool wrapped = queue->ring.first.used_wrapped, shown = false;
  // Where commands wait for pages, chains end in any order, of which one place doesn't tell: there is none until all are shown.
  struct place *place = backend->pages ? NULL : place_of(backend, q);
  if (backend->pages) ring_forget(backend, q);
  for (bool more = find_used(queue, &end, &slot, &wrapped); more; shown = true) {
    uint16_t at = slot;
    step(queue, &slot, &wrapped);
    more = find_used(queue, &end, &slot, &wrapped);
    // A daemon that goes on behind this one takes what isn't shown once more.
    const struct position next = more ? (struct position){slot, slot, wrapped, wrapped} : end;
    const uint8_t *its = queue->descriptors + (size_t)at * DESCRIPTOR;
    if (place) put(&place->next, IS_NOTED | base_of(backend, &next));
    // Length, id and flags at once: a daemon that is killed leaves the driver's descriptor, or the used one.
    uint64_t used;
    memcpy(&used, its + USED_AT, sizeof used);
    __atomic_store_n((uint64_t *)(void *)(slot_at(queue, at) + USED_AT), used, __ATOMIC_RELEASE);
    if (backend->logs) memory_mark(&backend->memory, queue->ring.desc + (uint64_t)DESCRIPTOR * at, DESCRIPTOR);
    if (place) put(&place->now, IS_NOTED | base_of(backend, &next));
  }
  queue->ring.first = end;
  if (backend->pages) ring_note(backend, q);
  return shown;
}

static bool show_split(struct backend *backend, unsigned q) {
  struct backend_queue *queue = &backend->queues[q];
  if (queue->index == queue->ring.first.used) return false;
  store(queue->device_at + 2, queue->index);
  log_device_area(backend, queue, 2, 2);
  queue->ring.first = behind(backend, q);
  ring_note(backend, q);
  return true;
}

// Returns whether a driver wants to be notified of what was shown since its ring stood here (VIRTIO 1.2, 2.7.10 and 2.8.10).
// One of a packed ring that names a descriptor is notified of each.
static bool wants(const struct backend *backend, unsigned q, uint16_t before) {
  const struct backend_queue *queue = &backend->queues[q];
  uint16_t now = queue->ring.first.used;
  uint64_t driver = queue->ring.driver;
  __atomic_thread_fence(__ATOMIC_SEQ_CST);
  if (backend->packed) return (load(memory_at(&backend->memory, driver + 2, 2)) & 3) != 1;
  if (!backend->event_index) return !(load(memory_at(&backend->memory, driver, 2)) & 1);
  uint16_t event = load(memory_at(&backend->memory, driver + 4 + 2 * (uint64_t)queue->ring.size, 2));
  return (uint16_t)(now - event - 1) < (uint16_t)(now - before);
}

uint32_t rings_show(struct backend *backend) {
  uint32_t owed = 0;
  for (unsigned q = backend->made; q-- > 0;) {
    uint16_t before = backend->queues[q].ring.first.used;
    if (!ring_waits(backend, q) || !(backend->packed ? show_packed(backend, q) : show_split(backend, q))) continue;
    if (wants(backend, q, before)) owed |= UINT32_C(1) << q;
  }
  return owed;
}

void rings_end(struct backend *backend) {
  for (unsigned q = 0; q < backend->count; q++) {
    struct backend_queue *queue = &backend->queues[q];
    // A device may have been made without one that isn't mapped.
    bool is_its = queue->ready && queue->fault != FAULT_UNMAPPED;
    if (is_its && !ring_waits(backend, q)) queue->ring.first = behind(backend, q);
  }
}

void ring_ask(struct backend *backend, unsigned q, bool notify) {
  struct backend_queue *queue = &backend->queues[q];
  bool is_whole = queue->ready && !queue->fault, names = backend->event_index && !backend->packed;
  if (!is_whole) return;
  // All that it took of a queue but the events' the device gave back, unless commands may wait for pages.
  bool is_told = backend->keeps || !backend->device.live;
  bool has_more = backend->pages && backend->device.live;
  uint16_t taken = q == EVENT_QUEUE ? load(memory_at(&backend->memory, queue->ring.driver + 2, 2))
                   : has_more       ? device_position(&backend->device, q).available
                   : is_told        ? queue->ring.first.available
                                    : load(queue->device_at + 2);
  size_t at = names ? 4 + 8 * (size_t)queue->ring.size : backend->packed ? 2 : 0;
  store(queue->device_at + at, (uint16_t)(!names ? !notify : notify ? taken : taken + 0x8000));
  log_device_area(backend, queue, at, 2);
  __atomic_thread_fence(__ATOMIC_SEQ_CST);
}
