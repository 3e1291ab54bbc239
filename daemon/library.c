#include "library.h"

#include <poll.h>
#include <stdio.h>

bool store_make(struct vscsi_disk *store, uint64_t blocks) { return vscsi_disk_create(store, blocks) == VSCSI_DONE; }

bool store_make_backed(struct vscsi_disk *store, uint64_t blocks, size_t pages) {
  return vscsi_disk_create_backed(store, blocks, pages) == VSCSI_DONE;
}

bool store_load(struct vscsi_disk *store, uint64_t first, uint32_t count, const void *bytes) {
  return vscsi_disk_load(store, first, count, bytes, (size_t)count * DEVICE_BLOCK) == VSCSI_DONE;
}

bool store_save(struct vscsi_disk *store, uint64_t first, uint32_t count, void *into) {
  return vscsi_disk_save(store, first, count, into, (size_t)count * DEVICE_BLOCK) == VSCSI_DONE;
}

void store_drop(struct vscsi_disk *store) { vscsi_disk_destroy(store); }

bool store_stands(const struct vscsi_disk *store) {
  uint64_t blocks;
  return vscsi_disk_blocks(store, &blocks) == VSCSI_DONE;
}

bool device_create(struct device *device, struct vscsi_live_config config, const struct ring *rings, struct vscsi_disk *stores,
                   bool *starved, char *why, size_t room) {
  struct vscsi_fault fault = {0};
  struct vscsi_ring its[DEVICE_MOST_QUEUES];
  for (size_t q = 0; q < config.ring_count; q++) {
    const struct position *first = &rings[q].first;
    its[q] = (struct vscsi_ring){.desc = rings[q].desc,
                                 .driver = rings[q].driver,
                                 .device = rings[q].device,
                                 .size = rings[q].size,
                                 .first = {.available = first->available,
                                           .used = first->used,
                                           .available_wrapped = first->available_wrapped,
                                           .used_wrapped = first->used_wrapped}};
  }
  config.rings = its;
  enum vscsi_answer answer = vscsi_live_create(&device->vscsi, &config, stores, &fault);
  device->live = answer == VSCSI_DONE;
  *starved = answer == VSCSI_NO_MEMORY;
  if (answer == VSCSI_BAD_CONFIG)
    snprintf(why, room, "no device: %s (%llu, %u)", vscsi_cause_text(fault.cause), (unsigned long long)fault.place,
             fault.detail);
  else if (!device->live) snprintf(why, room, "no device: %s", vscsi_answer_text(answer));
  return device->live;
}

bool device_end(struct device *device, struct vscsi_disk *stores, size_t count) {
  enum { TRIES = 100 };
  bool ended = !device->live || vscsi_live_close(&device->vscsi, stores, count) == VSCSI_DONE;
  for (unsigned tries = 1; !ended && tries < TRIES; tries++) {
    poll(NULL, 0, 1);
    ended = vscsi_live_close(&device->vscsi, stores, count) == VSCSI_DONE;
  }
  if (!ended) vscsi_live_destroy(&device->vscsi);
  device->live = false;
  return ended;
}

struct position device_position(struct device *device, unsigned queue) {
  struct vscsi_position its = {0};
  vscsi_live_position(&device->vscsi, (uint16_t)queue, &its);
  return (struct position){its.available, its.used, its.available_wrapped, its.used_wrapped};
}

bool device_map(struct device *device, const struct vscsi_region *regions, size_t count) {
  return vscsi_map(&device->vscsi, regions, count) == VSCSI_DONE;
}

void device_log(struct device *device, uint8_t *bitmap, size_t bytes) { vscsi_log(&device->vscsi, bitmap, bytes); }

uint32_t device_fault(struct device *device, unsigned queue) {
  uint32_t fault = VSCSI_BROKEN_NOT;
  vscsi_live_broken(&device->vscsi, (uint16_t)queue, &fault);
  return fault;
}

bool device_changed(struct device *device, uint8_t target, uint16_t lun, uint64_t *place, struct vscsi_range *ranges,
                    size_t *count, bool *all) {
  return vscsi_live_changed(&device->vscsi, target, lun, place, ranges, VSCSI_MOST_RANGES, count, all) == VSCSI_DONE;
}

bool device_counts(struct device *device, uint8_t target, uint16_t lun, struct vscsi_counts *counts) {
  return vscsi_live_counts(&device->vscsi, target, lun, counts, sizeof *counts) == VSCSI_DONE;
}

bool device_reset(struct device *device, uint8_t target, uint16_t lun) {
  return vscsi_live_reset(&device->vscsi, target, lun) == VSCSI_DONE;
}

bool device_resize(struct device *device, uint8_t target, uint16_t lun, uint64_t blocks) {
  return vscsi_live_resize(&device->vscsi, target, lun, blocks) == VSCSI_DONE;
}

bool device_blocks(struct device *device, uint8_t target, uint16_t lun, uint64_t first, uint32_t count, void *into) {
  return vscsi_live_blocks(&device->vscsi, target, lun, first, count, into, (size_t)count * DEVICE_BLOCK) == VSCSI_DONE;
}

bool device_wanted(struct device *device, uint8_t target, uint16_t lun, uint64_t *page) {
  bool found = false;
  return vscsi_live_wanted(&device->vscsi, target, lun, page, &found) == VSCSI_DONE && found;
}

bool device_load(struct device *device, uint8_t target, uint16_t lun, uint64_t page, const void *bytes) {
  return vscsi_live_load(&device->vscsi, target, lun, page, bytes) != VSCSI_NO_MEMORY;
}

void device_load_failed(struct device *device, uint8_t target, uint16_t lun, uint64_t page) {
  vscsi_live_load_failed(&device->vscsi, target, lun, page);
}

void device_lost(struct device *device, uint8_t target, uint16_t lun, uint64_t page) {
  vscsi_live_lost(&device->vscsi, target, lun, page);
}

enum given device_give(struct device *device, uint8_t target, uint16_t lun, uint64_t *page, void *bytes) {
  bool found = false;
  enum vscsi_answer answer = vscsi_live_give(&device->vscsi, target, lun, page, bytes, &found);
  return answer == VSCSI_NO_MEMORY ? GIVEN_REFUSED : answer == VSCSI_DONE && found ? GIVEN_PAGE : GIVEN_NONE;
}

bool device_written(struct device *device, uint8_t target, uint16_t lun, uint64_t page, bool kept) {
  return vscsi_live_written(&device->vscsi, target, lun, page, kept) != VSCSI_NO_MEMORY;
}

bool device_denied(struct device *device, uint8_t target, uint16_t lun, uint64_t page) {
  return vscsi_live_denied(&device->vscsi, target, lun, page) != VSCSI_NO_MEMORY;
}
