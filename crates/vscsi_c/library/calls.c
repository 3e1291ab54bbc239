/* The calls of vscsi.h. Each tests what C alone can test, that a pointer isn't null and that a length is one, and hands the
 * rest to an export of the device. vscsi_live_serve also begins and ends rounds (rounds.c). The exports' names are hidden in
 * the finished library. */
#include "vscsi.h"

#include <string.h>

#include "bus.h"

/* What `c_calls/src/ranges.rt` tells of changes. */
struct told {
  uint64_t place;
  uint64_t count;
  bool all;
};

/* A unit as the device takes it. */
struct wanted_unit {
  uint64_t blocks;
  uint16_t lun;
  uint8_t target;
  uint8_t calm;
  uint8_t profile;
  uint8_t physical_exponent;
  uint16_t rotation_rate;
  uint8_t vendor[8], product[16], revision[4], serial[20];
  uint8_t serial_len;
  uint8_t has_naa;
  uint8_t naa[8];
  uint8_t sense_format;
  uint8_t write_cache;
  uint8_t read_only;
};

/* What the device exports (`src/exports.rt`). */
uint32_t vscsi_raw_create(struct vscsi *device, uint32_t pages, uint64_t features, const struct vscsi_queue *queues, size_t queue_count,
                          const struct wanted_unit *units, size_t unit_count, struct vscsi_fault *fault);
uint32_t vscsi_raw_destroy(struct vscsi *device);
uint32_t vscsi_raw_settle(struct vscsi *device, uint64_t *steps);
uint32_t vscsi_raw_serve(struct vscsi *device, uint32_t queues, uint64_t most, uint64_t *steps, bool *more);
uint32_t vscsi_raw_poke(struct vscsi *device, uint64_t addr, const uint8_t *bytes, size_t count);
uint32_t vscsi_raw_peek(struct vscsi *device, uint64_t addr, uint8_t *into, size_t count);
uint32_t vscsi_raw_owed(struct vscsi *device, uint32_t *queues);
uint32_t vscsi_raw_status(struct vscsi *device, uint8_t *status);
uint32_t vscsi_raw_broken(struct vscsi *device, uint16_t queue, uint32_t *fault);
uint32_t vscsi_raw_progress(struct vscsi *device, uint16_t queue, uint64_t *accepted, uint64_t *used);
uint32_t vscsi_raw_position(struct vscsi *device, uint16_t queue, struct vscsi_position *position);
uint32_t vscsi_raw_reset(struct vscsi *device, uint8_t target, uint16_t lun);
uint32_t vscsi_raw_resize(struct vscsi *device, uint8_t target, uint16_t lun, uint64_t blocks);
uint32_t vscsi_raw_counts(struct vscsi *device, uint8_t target, uint16_t lun, struct vscsi_counts *counts);
uint32_t vscsi_raw_capacity(struct vscsi *device, uint8_t target, uint16_t lun, uint64_t *blocks);
uint32_t vscsi_raw_blocks(struct vscsi *device, uint8_t target, uint16_t lun, uint64_t first, uint32_t count, uint8_t *into, size_t length);
uint32_t vscsi_raw_changed(struct vscsi *device, uint8_t target, uint16_t lun, struct told *told, struct vscsi_range *room, size_t length);
uint32_t vscsi_raw_create_with(struct vscsi *device, uint32_t pages, uint64_t features, const struct vscsi_queue *queues, size_t queue_count,
                               const struct wanted_unit *units, size_t unit_count, struct vscsi_disk *disks, size_t disk_count,
                               struct vscsi_fault *fault);
uint32_t vscsi_raw_close(struct vscsi *device, struct vscsi_disk *disks, size_t count);
uint32_t vscsi_raw_disk_create(struct vscsi_disk *disk, uint64_t blocks);
uint32_t vscsi_raw_disk_create_backed(struct vscsi_disk *disk, uint64_t blocks, size_t most_pages);
bool vscsi_raw_disk_is_backed(struct vscsi_disk *disk);
uint32_t vscsi_raw_disk_destroy(struct vscsi_disk *disk);
uint32_t vscsi_raw_disk_blocks(const struct vscsi_disk *disk, uint64_t *blocks);
uint32_t vscsi_raw_disk_load(struct vscsi_disk *disk, uint64_t first, uint32_t count, const uint8_t *bytes, size_t length);
uint32_t vscsi_raw_disk_save(struct vscsi_disk *disk, uint64_t first, uint32_t count, uint8_t *into, size_t length);

/* What it exports for a device on live memory (`src/live_exports.rt`), which has a pointer and a flag as any device. */
uint32_t vscsi_raw_live_create(struct vscsi_live *device, uint64_t map, uint64_t features, const struct vscsi_ring *rings,
                               size_t ring_count, const struct wanted_unit *units, size_t unit_count, struct vscsi_fault *fault);
uint32_t vscsi_raw_live_create_with(struct vscsi_live *device, uint64_t map, uint64_t features, const struct vscsi_ring *rings,
                                    size_t ring_count, const struct wanted_unit *units, size_t unit_count, struct vscsi_disk *disks,
                                    size_t disk_count, struct vscsi_fault *fault);
bool vscsi_raw_live_is_there(struct vscsi_live *device);
uint32_t vscsi_raw_live_map(struct vscsi_live *device, const struct vscsi_region *regions, size_t count);
uint32_t vscsi_raw_live_ask(struct vscsi_live *device, uint16_t queue, bool notify);
uint32_t vscsi_raw_live_close(struct vscsi_live *device, struct vscsi_disk *disks, size_t count);
uint32_t vscsi_raw_live_destroy(struct vscsi_live *device);
uint32_t vscsi_raw_live_serve(struct vscsi_live *device, uint32_t queues, uint64_t most, uint64_t *steps, bool *more);
uint32_t vscsi_raw_live_serve_and_ask(struct vscsi_live *device, uint32_t queues, uint64_t most, uint64_t *steps, bool *more);
uint32_t vscsi_raw_live_owed(struct vscsi_live *device, uint32_t *queues);
uint32_t vscsi_raw_live_status(struct vscsi_live *device, uint8_t *status);
uint32_t vscsi_raw_live_broken(struct vscsi_live *device, uint16_t queue, uint32_t *fault);
uint32_t vscsi_raw_live_position(struct vscsi_live *device, uint16_t queue, struct vscsi_position *position);
uint32_t vscsi_raw_live_reset(struct vscsi_live *device, uint8_t target, uint16_t lun);
uint32_t vscsi_raw_live_resize(struct vscsi_live *device, uint8_t target, uint16_t lun, uint64_t blocks);
uint32_t vscsi_raw_live_counts(struct vscsi_live *device, uint8_t target, uint16_t lun, struct vscsi_counts *counts);
uint32_t vscsi_raw_live_capacity(struct vscsi_live *device, uint8_t target, uint16_t lun, uint64_t *blocks);
uint32_t vscsi_raw_live_blocks(struct vscsi_live *device, uint8_t target, uint16_t lun, uint64_t first, uint32_t count, uint8_t *into,
                               size_t length);
uint32_t vscsi_raw_live_changed(struct vscsi_live *device, uint8_t target, uint16_t lun, struct told *told, struct vscsi_range *room,
                                size_t length);
uint32_t vscsi_raw_live_wanted(struct vscsi_live *device, uint8_t target, uint16_t lun, uint64_t *page, bool *found);
uint32_t vscsi_raw_live_load(struct vscsi_live *device, uint8_t target, uint16_t lun, uint64_t page, const uint8_t *bytes, size_t length);
uint32_t vscsi_raw_live_load_failed(struct vscsi_live *device, uint8_t target, uint16_t lun, uint64_t page);
uint32_t vscsi_raw_live_lost(struct vscsi_live *device, uint8_t target, uint16_t lun, uint64_t page);
uint32_t vscsi_raw_live_give(struct vscsi_live *device, uint8_t target, uint16_t lun, uint64_t *page, uint8_t *bytes, size_t length,
                             bool *found);
uint32_t vscsi_raw_live_written(struct vscsi_live *device, uint8_t target, uint16_t lun, uint64_t page, bool kept);
uint32_t vscsi_raw_live_denied(struct vscsi_live *device, uint8_t target, uint16_t lun, uint64_t page);
uint32_t vscsi_raw_live_wake(struct vscsi_live *device, uint64_t *waiting);

/* Returns true if so many items of a size are more than memory has room for. */
static bool is_long(size_t count, size_t size) { return count > PTRDIFF_MAX / size; }

static const struct vscsi_queue no_queue = {0, 0, 0, 0};

/* The units of a device at most, and one more: of more units the device says that they are too many, whatever they are. */
enum { MOST_UNITS = 64, UNITS_READ = MOST_UNITS + 1 };

struct wanted_units {
  size_t count;
  struct wanted_unit items[UNITS_READ];
};

/* A unit that says nothing of itself (`Identity::PLAIN`, command_model). */
static const struct wanted_unit plain = {
    .rotation_rate = 1,
    .vendor = {'V', 'S', 'C', 'S', 'I', ' ', ' ', ' '},
    .product = {'T', 'A', 'S', 'K', ' ', 'S', 'E', 'T', ' ', 'D', 'I', 'S', 'K', ' ', ' ', ' '},
    .revision = {'0', '0', '0', '1'}};

/* Returns how long a text is that ends with a 0 or with its field. */
static size_t length_of(const char *text, size_t size) {
  const char *end = memchr(text, 0, size);
  return end ? (size_t)(end - text) : size;
}

/* Fills a field of a unit with a text, if there is one, and with spaces behind it. */
static void fill(uint8_t *field, size_t size, const char *text) {
  size_t length = length_of(text, size);
  if (!length) return;
  memset(field, ' ', size);
  memcpy(field, text, length);
}

/* Takes what a unit says of itself. Returns false where there is no such format of sense data, or a narrow one says anything. */
static bool name(struct wanted_unit *unit, const struct vscsi_identity *said) {
  static const struct vscsi_identity nothing = {.sense_format = VSCSI_SENSE_FIXED};
  if (!memcmp(said, &nothing, sizeof nothing)) return true;
  if (said->sense_format > VSCSI_SENSE_DESCRIPTOR || unit->profile == VSCSI_PROFILE_NARROW) return false;
  fill(unit->vendor, sizeof unit->vendor, said->vendor);
  fill(unit->product, sizeof unit->product, said->product);
  fill(unit->revision, sizeof unit->revision, said->revision);
  unit->serial_len = (uint8_t)length_of(said->serial, sizeof said->serial);
  memcpy(unit->serial, said->serial, unit->serial_len);
  unit->has_naa = memcmp(said->naa, nothing.naa, sizeof said->naa) != 0;
  memcpy(unit->naa, said->naa, sizeof unit->naa);
  unit->physical_exponent = said->physical_exponent;
  unit->sense_format = said->sense_format;
  if (said->rotation_rate) unit->rotation_rate = said->rotation_rate == VSCSI_RATE_NOT_REPORTED ? 0 : said->rotation_rate;
  return true;
}

/* What a configuration may say of each unit beside its index, as far as its header knows: null is nothing of any. */
struct said {
  const uint8_t *profiles;
  const struct vscsi_identity *identities;
  const bool *read_only;
  const bool *write_through;
};

/* Takes whether a unit is read-only. Returns false where a narrow one is. */
static bool protect(struct wanted_unit *unit, bool read_only) {
  unit->read_only = read_only;
  return !read_only || unit->profile != VSCSI_PROFILE_NARROW;
}

/* Reads the units that are wanted, and what is said of them. Returns false where the device doesn't know the profile of one, or C alone
 * can tell that one says what it may not, and tells of the first of these. */
static bool read_units(struct wanted_units *wanted, const struct vscsi_unit *units, size_t count, struct said said,
                       struct vscsi_fault *fault) {
  wanted->count = count < UNITS_READ ? count : UNITS_READ;
  for (size_t index = 0; index < wanted->count; index++) {
    const struct vscsi_unit *unit = &units[index];
    uint8_t profile = said.profiles ? said.profiles[index] : VSCSI_PROFILE_NARROW;
    if (profile > VSCSI_PROFILE_WIDE) {
      *fault = (struct vscsi_fault){.place = index, .cause = VSCSI_CAUSE_UNIT_PROFILE, .detail = 0};
      return false;
    }
    struct wanted_unit *item = &wanted->items[index];
    *item = plain;
    item->blocks = unit->blocks;
    item->lun = unit->lun;
    item->target = unit->target;
    item->calm = unit->calm;
    item->profile = profile;
  }
  for (size_t index = 0; index < wanted->count; index++) {
    struct wanted_unit *item = &wanted->items[index];
    bool is_named = !said.identities || name(item, &said.identities[index]);
    if (is_named && (!said.read_only || protect(item, said.read_only[index]))) continue;
    *fault = (struct vscsi_fault){.place = index, .cause = VSCSI_CAUSE_UNIT_IDENTITY, .detail = 0};
    return false;
  }
  return true;
}

/* Has each unit tell of a write cache whose disk is backed, unless it is to write through. A narrow one tells of none in any case. */
static void tell_caches(struct wanted_units *wanted, struct vscsi_disk *disks, struct said said) {
  for (size_t index = 0; index < wanted->count; index++) {
    bool writes_through = said.write_through && said.write_through[index];
    wanted->items[index].write_cache = !writes_through && vscsi_raw_disk_is_backed(&disks[index]);
  }
}

/* The sizes of configurations in older headers: without `write_through`, `read_only`, `identities`, `profiles`, and without `asks`. */
static const size_t live_size_without_write_through = offsetof(struct vscsi_live_config, write_through);
static const size_t size_without_read_only = offsetof(struct vscsi_config, read_only);
static const size_t live_size_without_read_only = offsetof(struct vscsi_live_config, read_only);
static const size_t size_without_identities = offsetof(struct vscsi_config, identities);
static const size_t live_size_without_identities = offsetof(struct vscsi_live_config, identities);
static const size_t size_without_profiles = offsetof(struct vscsi_config, profiles);
static const size_t live_size_without_profiles = offsetof(struct vscsi_live_config, profiles);
static const size_t live_size_without_asks = offsetof(struct vscsi_live_config, asks);
/* A configuration of an older header isn't taken for one of this header. */
_Static_assert(sizeof(struct vscsi_config) > offsetof(struct vscsi_config, profiles), "room behind the older fields");
_Static_assert(sizeof(struct vscsi_identity) == 60, "no padding, which any bytes may fill");
_Static_assert(offsetof(struct vscsi_config, profiles) >= offsetof(struct vscsi_config, pages) + sizeof(uint64_t),
               "no field in older padding");
_Static_assert(offsetof(struct vscsi_live_config, profiles) >= offsetof(struct vscsi_live_config, asks) + sizeof(void *),
               "no field in older padding");

static struct said said_of(const struct vscsi_config *config) {
  struct said said = {NULL, NULL, NULL, NULL};
  if (config->size >= size_without_identities) said.profiles = config->profiles;
  if (config->size >= size_without_read_only) said.identities = config->identities;
  if (config->size == sizeof *config) said.read_only = config->read_only;
  return said;
}

static struct said live_said_of(const struct vscsi_live_config *config) {
  struct said said = {NULL, NULL, NULL, NULL};
  if (config->size >= live_size_without_identities) said.profiles = config->profiles;
  if (config->size >= live_size_without_read_only) said.identities = config->identities;
  if (config->size >= live_size_without_write_through) said.read_only = config->read_only;
  if (config->size == sizeof *config) said.write_through = config->write_through;
  return said;
}

/* Returns why a configuration can't be handed on, or VSCSI_DONE. */
static enum vscsi_answer unreadable(const struct vscsi_config *config) {
  if (!config) return VSCSI_NULL;
  if (config->size != sizeof *config && config->size != size_without_read_only && config->size != size_without_identities &&
      config->size != size_without_profiles)
    return VSCSI_BAD_LENGTH;
  if ((!config->queues && config->queue_count) || (!config->units && config->unit_count)) return VSCSI_NULL;
  if (is_long(config->queue_count, sizeof no_queue) || is_long(config->unit_count, sizeof *config->units)) return VSCSI_BAD_LENGTH;
  return VSCSI_DONE;
}

enum vscsi_answer vscsi_create(struct vscsi *device, const struct vscsi_config *config, struct vscsi_fault *fault) {
  struct vscsi_fault unread = {0, 0, 0};
  struct wanted_units units;
  enum vscsi_answer answer = device ? unreadable(config) : VSCSI_NULL;
  if (answer != VSCSI_DONE) return answer;
  if (device->live) return VSCSI_IN_USE;
  if (!fault) fault = &unread;
  if (!read_units(&units, config->units, config->unit_count, said_of(config), fault)) return VSCSI_BAD_CONFIG;
  return (enum vscsi_answer)vscsi_raw_create(device, config->pages, config->features, config->queues ? config->queues : &no_queue,
                                             config->queue_count, units.items, units.count, fault);
}

enum vscsi_answer vscsi_create_with(struct vscsi *device, const struct vscsi_config *config, struct vscsi_disk *disks,
                                    struct vscsi_fault *fault) {
  struct vscsi_fault unread = {0, 0, 0};
  struct vscsi_disk nothing = {0, 0, false};
  struct wanted_units units;
  enum vscsi_answer answer = device ? unreadable(config) : VSCSI_NULL;
  if (answer != VSCSI_DONE) return answer;
  if (!disks && config->unit_count) return VSCSI_NULL;
  if (is_long(config->unit_count, sizeof nothing)) return VSCSI_BAD_LENGTH;
  if (device->live) return VSCSI_IN_USE;
  if (!fault) fault = &unread;
  if (!read_units(&units, config->units, config->unit_count, said_of(config), fault)) return VSCSI_BAD_CONFIG;
  return (enum vscsi_answer)vscsi_raw_create_with(device, config->pages, config->features, config->queues ? config->queues : &no_queue,
                                                  config->queue_count, units.items, units.count, disks ? disks : &nothing, units.count,
                                                  fault);
}

enum vscsi_answer vscsi_close(struct vscsi *device, struct vscsi_disk *disks, size_t count) {
  struct vscsi_disk nothing = {0, 0, false};
  if (!device || (!disks && count)) return VSCSI_NULL;
  if (is_long(count, sizeof nothing)) return VSCSI_BAD_LENGTH;
  return (enum vscsi_answer)vscsi_raw_close(device, disks ? disks : &nothing, count);
}

enum vscsi_answer vscsi_destroy(struct vscsi *device) { return device ? (enum vscsi_answer)vscsi_raw_destroy(device) : VSCSI_NULL; }

enum vscsi_answer vscsi_settle(struct vscsi *device, uint64_t *steps) {
  uint64_t unread = 0;
  return device ? (enum vscsi_answer)vscsi_raw_settle(device, steps ? steps : &unread) : VSCSI_NULL;
}

enum vscsi_answer vscsi_serve(struct vscsi *device, uint32_t queues, uint64_t most, uint64_t *steps, bool *more) {
  uint64_t taken = 0;
  bool left = false;
  if (!device) return VSCSI_NULL;
  enum vscsi_answer answer = (enum vscsi_answer)vscsi_raw_serve(device, queues, most, &taken, &left);
  if (answer == VSCSI_DONE && steps) *steps = taken;
  if (answer == VSCSI_DONE && more) *more = left;
  return answer;
}

enum vscsi_answer vscsi_poke(struct vscsi *device, uint64_t addr, const void *bytes, size_t count) {
  static const uint8_t nothing = 0;
  if (!device || (!bytes && count)) return VSCSI_NULL;
  if (is_long(count, 1)) return VSCSI_BAD_LENGTH;
  return (enum vscsi_answer)vscsi_raw_poke(device, addr, bytes ? (const uint8_t *)bytes : &nothing, count);
}

enum vscsi_answer vscsi_peek(struct vscsi *device, uint64_t addr, void *into, size_t count) {
  uint8_t nothing = 0;
  if (!device || (!into && count)) return VSCSI_NULL;
  if (is_long(count, 1)) return VSCSI_BAD_LENGTH;
  return (enum vscsi_answer)vscsi_raw_peek(device, addr, into ? (uint8_t *)into : &nothing, count);
}

enum vscsi_answer vscsi_owed(struct vscsi *device, uint32_t *queues) {
  return device && queues ? (enum vscsi_answer)vscsi_raw_owed(device, queues) : VSCSI_NULL;
}

enum vscsi_answer vscsi_status(struct vscsi *device, uint8_t *status) {
  return device && status ? (enum vscsi_answer)vscsi_raw_status(device, status) : VSCSI_NULL;
}

enum vscsi_answer vscsi_broken(struct vscsi *device, uint16_t queue, uint32_t *fault) {
  return device && fault ? (enum vscsi_answer)vscsi_raw_broken(device, queue, fault) : VSCSI_NULL;
}

enum vscsi_answer vscsi_progress(struct vscsi *device, uint16_t queue, uint64_t *accepted, uint64_t *used) {
  uint64_t unread[2] = {0, 0};
  if (!device) return VSCSI_NULL;
  return (enum vscsi_answer)vscsi_raw_progress(device, queue, accepted ? accepted : &unread[0], used ? used : &unread[1]);
}

enum vscsi_answer vscsi_position(struct vscsi *device, uint16_t queue, struct vscsi_position *position) {
  return device && position ? (enum vscsi_answer)vscsi_raw_position(device, queue, position) : VSCSI_NULL;
}

enum vscsi_answer vscsi_reset(struct vscsi *device, uint8_t target, uint16_t lun) {
  return device ? (enum vscsi_answer)vscsi_raw_reset(device, target, lun) : VSCSI_NULL;
}

enum vscsi_answer vscsi_resize(struct vscsi *device, uint8_t target, uint16_t lun, uint64_t blocks) {
  return device ? (enum vscsi_answer)vscsi_raw_resize(device, target, lun, blocks) : VSCSI_NULL;
}

enum vscsi_answer vscsi_counts(struct vscsi *device, uint8_t target, uint16_t lun, struct vscsi_counts *counts, size_t size) {
  if (!device || !counts) return VSCSI_NULL;
  if (size != sizeof *counts) return VSCSI_BAD_LENGTH;
  return (enum vscsi_answer)vscsi_raw_counts(device, target, lun, counts);
}

enum vscsi_answer vscsi_capacity(struct vscsi *device, uint8_t target, uint16_t lun, uint64_t *blocks) {
  return device && blocks ? (enum vscsi_answer)vscsi_raw_capacity(device, target, lun, blocks) : VSCSI_NULL;
}

enum vscsi_answer vscsi_blocks(struct vscsi *device, uint8_t target, uint16_t lun, uint64_t first, uint32_t count, void *into, size_t length) {
  uint8_t nothing = 0;
  if (!device || (!into && length)) return VSCSI_NULL;
  if (is_long(length, 1)) return VSCSI_BAD_LENGTH;
  return (enum vscsi_answer)vscsi_raw_blocks(device, target, lun, first, count, into ? (uint8_t *)into : &nothing, length);
}

enum vscsi_answer vscsi_changed(struct vscsi *device, uint8_t target, uint16_t lun, uint64_t *place, struct vscsi_range *ranges, size_t room,
                                size_t *count, bool *all) {
  if (!device || !place || !ranges || !count || !all) return VSCSI_NULL;
  if (is_long(room, sizeof *ranges)) return VSCSI_BAD_LENGTH;
  struct told told = {*place, 0, false};
  enum vscsi_answer answer = (enum vscsi_answer)vscsi_raw_changed(device, target, lun, &told, ranges, room);
  if (answer != VSCSI_DONE) return answer;
  *place = told.place;
  *count = (size_t)told.count;
  *all = told.all;
  return VSCSI_DONE;
}

static const struct vscsi_ring no_ring = {0, 0, 0, 0, {0, 0, false, false}};
static const struct vscsi_region no_region = {0, 0, NULL};

/* Returns why a configuration of live memory can't be handed on, or VSCSI_DONE. */
static enum vscsi_answer live_unreadable(const struct vscsi_live_config *config) {
  if (!config) return VSCSI_NULL;
  if (config->size != sizeof *config && config->size != live_size_without_write_through && config->size != live_size_without_read_only &&
      config->size != live_size_without_identities && config->size != live_size_without_profiles && config->size != live_size_without_asks)
    return VSCSI_BAD_LENGTH;
  if ((!config->rings && config->ring_count) || (!config->units && config->unit_count)) return VSCSI_NULL;
  if (is_long(config->ring_count, sizeof no_ring) || is_long(config->unit_count, sizeof(struct vscsi_disk))) return VSCSI_BAD_LENGTH;
  return VSCSI_DONE;
}

/* Makes the device over what was mapped, which it has from then on if that is answered. */
static enum vscsi_answer create_over(struct vscsi_live *device, struct bus_map *map, const struct vscsi_live_config *config,
                                     const struct wanted_units *units, struct vscsi_disk *disks, struct vscsi_fault *fault) {
  const struct vscsi_ring *rings = config->rings ? config->rings : &no_ring;
  uint64_t number = (uint64_t)(uintptr_t)map;
  if (!disks)
    return (enum vscsi_answer)vscsi_raw_live_create(device, number, config->features, rings, config->ring_count, units->items, units->count,
                                                    fault);
  return (enum vscsi_answer)vscsi_raw_live_create_with(device, number, config->features, rings, config->ring_count, units->items,
                                                       units->count, disks, units->count, fault);
}

/* VIRTIO_F_RING_PACKED. */
#define PACKED (UINT64_C(1) << 34)

/* Tells the bus where the queues lie, so that it can look ahead and note which chains are used. */
static void tell_rings(struct bus_map *map, const struct vscsi_live_config *config) {
  struct bus_ring rings[BUS_MOST_RINGS];
  size_t count = config->ring_count < BUS_MOST_RINGS ? config->ring_count : BUS_MOST_RINGS;
  for (size_t i = 0; i < count; i++) {
    const struct vscsi_ring *it = &config->rings[i];
    rings[i] = (struct bus_ring){it->desc, it->driver, it->device, it->size, it->first.available, it->first.available_wrapped};
  }
  bus_rings(map, config->features & PACKED, config->features & VSCSI_F_EVENT_IDX, rings, count);
}

enum vscsi_answer vscsi_live_create(struct vscsi_live *device, const struct vscsi_live_config *config, struct vscsi_disk *disks,
                                    struct vscsi_fault *fault) {
  struct vscsi_fault unread = {0, 0, 0};
  struct wanted_units units;
  enum vscsi_answer answer = device ? live_unreadable(config) : VSCSI_NULL;
  if (answer != VSCSI_DONE) return answer;
  if (vscsi_raw_live_is_there(device)) return VSCSI_IN_USE;
  if (!fault) fault = &unread;
  const struct said said = live_said_of(config);
  if (!read_units(&units, config->units, config->unit_count, said, fault)) return VSCSI_BAD_CONFIG;
  if (disks) tell_caches(&units, disks, said);
  struct bus_map *map = bus_map();
  if (!map) return VSCSI_NO_MEMORY;
  answer = create_over(device, map, config, &units, disks, fault);
  if (answer != VSCSI_DONE) {
    bus_unmap(map);
    return answer;
  }
  tell_rings(map, config);
  device->map = map;
  device->asks = config->size != live_size_without_asks && config->asks;
  return VSCSI_DONE;
}

/* Lets go of what was mapped, once the device has gone. */
static enum vscsi_answer unmapped(struct vscsi_live *device, enum vscsi_answer answer) {
  if (answer == VSCSI_DONE) {
    bus_unmap(device->map);
    device->map = NULL;
    device->asks = false;
  }
  return answer;
}

enum vscsi_answer vscsi_live_close(struct vscsi_live *device, struct vscsi_disk *disks, size_t count) {
  struct vscsi_disk nothing = {0, 0, false};
  if (!device || (!disks && count)) return VSCSI_NULL;
  if (is_long(count, sizeof nothing)) return VSCSI_BAD_LENGTH;
  return unmapped(device, (enum vscsi_answer)vscsi_raw_live_close(device, disks ? disks : &nothing, count));
}

enum vscsi_answer vscsi_live_destroy(struct vscsi_live *device) {
  return device ? unmapped(device, (enum vscsi_answer)vscsi_raw_live_destroy(device)) : VSCSI_NULL;
}

_Static_assert(sizeof(struct vscsi_region) == 24 && sizeof(struct bus_region) == 24
                   && offsetof(struct vscsi_region, guest) == offsetof(struct bus_region, guest)
                   && offsetof(struct vscsi_region, size) == offsetof(struct bus_region, size)
                   && offsetof(struct vscsi_region, host) == offsetof(struct bus_region, host) && VSCSI_MOST_ADDRESS == BUS_END
                   && VSCSI_MOST_REGIONS == BUS_MOST,
               "a region of the bus, and of the device, is a region of the header");

/* Returns true if a region has no bytes of the host's. Of more regions than may be mapped it looks at as many as may. */
static bool lacks_host(const struct vscsi_region *regions, size_t count) {
  for (size_t i = 0; i < count && i < VSCSI_MOST_REGIONS; i++)
    if (!regions[i].host) return true;
  return false;
}

/* The bus has the regions, and the device is told which of its queues lie there. */
enum vscsi_answer vscsi_map(struct vscsi_live *device, const struct vscsi_region *regions, size_t count) {
  if (!device || (!regions && count)) return VSCSI_NULL;
  if (is_long(count, sizeof *regions)) return VSCSI_BAD_LENGTH;
  if (lacks_host(regions, count)) return VSCSI_NULL;
  if (!vscsi_raw_live_is_there(device)) return VSCSI_NO_DEVICE;
  enum bus_answer answer = bus_remap(device->map, (const struct bus_region *)(const void *)regions, count);
  if (answer != BUS_DONE) return answer == BUS_NO_MEMORY ? VSCSI_NO_MEMORY : VSCSI_OUTSIDE;
  return (enum vscsi_answer)vscsi_raw_live_map(device, regions ? regions : &no_region, count);
}

enum vscsi_answer vscsi_log(struct vscsi_live *device, uint8_t *bitmap, size_t bytes) {
  if (!device) return VSCSI_NULL;
  if (is_long(bytes, 1)) return VSCSI_BAD_LENGTH;
  if (!vscsi_raw_live_is_there(device)) return VSCSI_NO_DEVICE;
  bus_log(device->map, bitmap, bytes);
  return VSCSI_DONE;
}

enum vscsi_answer vscsi_live_ask(struct vscsi_live *device, uint16_t queue, bool notify) {
  return device ? (enum vscsi_answer)vscsi_raw_live_ask(device, queue, notify) : VSCSI_NULL;
}

/* Returns whether the driver of a queue, of which chains were used in the round before, wants to be notified of these. */
static bool wants(struct vscsi_live *device, uint16_t queue) {
  enum bus_wish wish = bus_wish(device->map, queue);
  struct vscsi_position next = {0};
  return wish == BUS_WANTED || (wish == BUS_NAMED && (vscsi_raw_live_position(device, queue, &next) != VSCSI_DONE ||
                                                      bus_has_passed(device->map, queue, next.used, !next.used_wrapped)));
}

/* Ends a round, behind which those drivers are owed a notification that want it by now. */
static void end_round(struct vscsi_live *device) {
  uint32_t owed = 0;
  for (uint32_t left = bus_end_round(device->map); left; left &= left - 1) {
    uint16_t queue = (uint16_t)__builtin_ctz(left);
    if (wants(device, queue)) owed |= UINT32_C(1) << queue;
  }
  bus_owe(device->map, owed);
}

enum vscsi_answer vscsi_live_serve(struct vscsi_live *device, uint32_t queues, uint64_t most, uint64_t *steps, bool *more) {
  uint64_t taken = 0;
  bool left = false;
  if (!device) return VSCSI_NULL;
  bool several = device->map && bus_look_ahead(device->map, queues);
  if (several) bus_begin_round(device->map);
  enum vscsi_answer answer = (enum vscsi_answer)(device->asks ? vscsi_raw_live_serve_and_ask(device, queues, most, &taken, &left)
                                                              : vscsi_raw_live_serve(device, queues, most, &taken, &left));
  if (several) end_round(device);
  if (answer == VSCSI_DONE && steps) *steps = taken;
  if (answer == VSCSI_DONE && more) *more = left;
  return answer;
}

enum vscsi_answer vscsi_live_owed(struct vscsi_live *device, uint32_t *queues) {
  enum vscsi_answer answer = device && queues ? (enum vscsi_answer)vscsi_raw_live_owed(device, queues) : VSCSI_NULL;
  if (answer == VSCSI_DONE) *queues |= bus_take_owed(device->map);
  return answer;
}

enum vscsi_answer vscsi_live_status(struct vscsi_live *device, uint8_t *status) {
  return device && status ? (enum vscsi_answer)vscsi_raw_live_status(device, status) : VSCSI_NULL;
}

enum vscsi_answer vscsi_live_broken(struct vscsi_live *device, uint16_t queue, uint32_t *fault) {
  return device && fault ? (enum vscsi_answer)vscsi_raw_live_broken(device, queue, fault) : VSCSI_NULL;
}

enum vscsi_answer vscsi_live_position(struct vscsi_live *device, uint16_t queue, struct vscsi_position *position) {
  return device && position ? (enum vscsi_answer)vscsi_raw_live_position(device, queue, position) : VSCSI_NULL;
}

enum vscsi_answer vscsi_live_reset(struct vscsi_live *device, uint8_t target, uint16_t lun) {
  return device ? (enum vscsi_answer)vscsi_raw_live_reset(device, target, lun) : VSCSI_NULL;
}

enum vscsi_answer vscsi_live_resize(struct vscsi_live *device, uint8_t target, uint16_t lun, uint64_t blocks) {
  return device ? (enum vscsi_answer)vscsi_raw_live_resize(device, target, lun, blocks) : VSCSI_NULL;
}

enum vscsi_answer vscsi_live_counts(struct vscsi_live *device, uint8_t target, uint16_t lun, struct vscsi_counts *counts, size_t size) {
  if (!device || !counts) return VSCSI_NULL;
  if (size != sizeof *counts) return VSCSI_BAD_LENGTH;
  return (enum vscsi_answer)vscsi_raw_live_counts(device, target, lun, counts);
}

enum vscsi_answer vscsi_live_capacity(struct vscsi_live *device, uint8_t target, uint16_t lun, uint64_t *blocks) {
  return device && blocks ? (enum vscsi_answer)vscsi_raw_live_capacity(device, target, lun, blocks) : VSCSI_NULL;
}

enum vscsi_answer vscsi_live_blocks(struct vscsi_live *device, uint8_t target, uint16_t lun, uint64_t first, uint32_t count, void *into,
                                    size_t length) {
  uint8_t nothing = 0;
  if (!device || (!into && length)) return VSCSI_NULL;
  if (is_long(length, 1)) return VSCSI_BAD_LENGTH;
  return (enum vscsi_answer)vscsi_raw_live_blocks(device, target, lun, first, count, into ? (uint8_t *)into : &nothing, length);
}

enum vscsi_answer vscsi_live_changed(struct vscsi_live *device, uint8_t target, uint16_t lun, uint64_t *place, struct vscsi_range *ranges,
                                     size_t room, size_t *count, bool *all) {
  if (!device || !place || !ranges || !count || !all) return VSCSI_NULL;
  if (is_long(room, sizeof *ranges)) return VSCSI_BAD_LENGTH;
  struct told told = {*place, 0, false};
  enum vscsi_answer answer = (enum vscsi_answer)vscsi_raw_live_changed(device, target, lun, &told, ranges, room);
  if (answer != VSCSI_DONE) return answer;
  *place = told.place;
  *count = (size_t)told.count;
  *all = told.all;
  return VSCSI_DONE;
}

enum vscsi_answer vscsi_live_wanted(struct vscsi_live *device, uint8_t target, uint16_t lun, uint64_t *page, bool *found) {
  return device && page && found ? (enum vscsi_answer)vscsi_raw_live_wanted(device, target, lun, page, found) : VSCSI_NULL;
}

enum vscsi_answer vscsi_live_load(struct vscsi_live *device, uint8_t target, uint16_t lun, uint64_t page, const void *bytes) {
  if (!device || !bytes) return VSCSI_NULL;
  return (enum vscsi_answer)vscsi_raw_live_load(device, target, lun, page, (const uint8_t *)bytes, VSCSI_PAGE);
}

enum vscsi_answer vscsi_live_load_failed(struct vscsi_live *device, uint8_t target, uint16_t lun, uint64_t page) {
  return device ? (enum vscsi_answer)vscsi_raw_live_load_failed(device, target, lun, page) : VSCSI_NULL;
}

enum vscsi_answer vscsi_live_lost(struct vscsi_live *device, uint8_t target, uint16_t lun, uint64_t page) {
  return device ? (enum vscsi_answer)vscsi_raw_live_lost(device, target, lun, page) : VSCSI_NULL;
}

enum vscsi_answer vscsi_live_give(struct vscsi_live *device, uint8_t target, uint16_t lun, uint64_t *page, void *bytes, bool *found) {
  if (!device || !page || !bytes || !found) return VSCSI_NULL;
  return (enum vscsi_answer)vscsi_raw_live_give(device, target, lun, page, (uint8_t *)bytes, VSCSI_PAGE, found);
}

enum vscsi_answer vscsi_live_written(struct vscsi_live *device, uint8_t target, uint16_t lun, uint64_t page, bool kept) {
  return device ? (enum vscsi_answer)vscsi_raw_live_written(device, target, lun, page, kept) : VSCSI_NULL;
}

enum vscsi_answer vscsi_live_denied(struct vscsi_live *device, uint8_t target, uint16_t lun, uint64_t page) {
  return device ? (enum vscsi_answer)vscsi_raw_live_denied(device, target, lun, page) : VSCSI_NULL;
}

enum vscsi_answer vscsi_live_wake(struct vscsi_live *device, uint64_t *waiting) {
  uint64_t unread = 0;
  return device ? (enum vscsi_answer)vscsi_raw_live_wake(device, waiting ? waiting : &unread) : VSCSI_NULL;
}

enum vscsi_answer vscsi_disk_create(struct vscsi_disk *disk, uint64_t blocks) {
  return disk ? (enum vscsi_answer)vscsi_raw_disk_create(disk, blocks) : VSCSI_NULL;
}

enum vscsi_answer vscsi_disk_create_backed(struct vscsi_disk *disk, uint64_t blocks, size_t most_pages) {
  return disk ? (enum vscsi_answer)vscsi_raw_disk_create_backed(disk, blocks, most_pages) : VSCSI_NULL;
}

enum vscsi_answer vscsi_disk_destroy(struct vscsi_disk *disk) { return disk ? (enum vscsi_answer)vscsi_raw_disk_destroy(disk) : VSCSI_NULL; }

enum vscsi_answer vscsi_disk_blocks(const struct vscsi_disk *disk, uint64_t *blocks) {
  return disk && blocks ? (enum vscsi_answer)vscsi_raw_disk_blocks(disk, blocks) : VSCSI_NULL;
}

enum vscsi_answer vscsi_disk_load(struct vscsi_disk *disk, uint64_t first, uint32_t count, const void *bytes, size_t length) {
  static const uint8_t nothing = 0;
  if (!disk || (!bytes && length)) return VSCSI_NULL;
  if (is_long(length, 1)) return VSCSI_BAD_LENGTH;
  return (enum vscsi_answer)vscsi_raw_disk_load(disk, first, count, bytes ? (const uint8_t *)bytes : &nothing, length);
}

enum vscsi_answer vscsi_disk_save(struct vscsi_disk *disk, uint64_t first, uint32_t count, void *into, size_t length) {
  uint8_t nothing = 0;
  if (!disk || (!into && length)) return VSCSI_NULL;
  if (is_long(length, 1)) return VSCSI_BAD_LENGTH;
  return (enum vscsi_answer)vscsi_raw_disk_save(disk, first, count, into ? (uint8_t *)into : &nothing, length);
}

uint32_t vscsi_version(void) { return VSCSI_VERSION; }

uint64_t vscsi_features(void) { return VSCSI_FEATURES; }

/* Returns the text of a number among so many, or the text for any other number. */
static const char *text_of(const char *const *texts, size_t count, uint32_t number, const char *other) {
  return number < count && texts[number] ? texts[number] : other;
}

#define TEXT_OF(texts, number, other) text_of(texts, sizeof texts / sizeof *texts, number, other)

const char *vscsi_answer_text(enum vscsi_answer answer) {
  static const char *const texts[] = {
      [VSCSI_DONE] = "done",
      [VSCSI_NO_MEMORY] = "no memory",
      [VSCSI_BAD_CONFIG] = "the device doesn't take the configuration",
      [VSCSI_NO_DEVICE] = "there is no device",
      [VSCSI_IN_USE] = "there is a device already, or a disk",
      [VSCSI_OUTSIDE] = "a byte outside guest memory, or a block outside the unit or the disk",
      [VSCSI_NO_QUEUE] = "there is no such queue",
      [VSCSI_NO_UNIT] = "there is no such unit",
      [VSCSI_BAD_LENGTH] = "a wrong length",
      [VSCSI_NULL] = "a null pointer",
      [VSCSI_BAD_CAPACITY] = "no blocks, or too many",
      [VSCSI_NO_DISK] = "there is no disk",
  };
  return TEXT_OF(texts, (uint32_t)answer, "an unknown answer");
}

const char *vscsi_cause_text(uint32_t cause) {
  static const char *const texts[] = {
      [VSCSI_CAUSE_PAGES] = "no pages of guest memory, or too many",
      [VSCSI_CAUSE_FEATURES] = "features without VIRTIO_F_VERSION_1, or with one that the device doesn't know",
      [VSCSI_CAUSE_QUEUE_COUNT] = "too few queues, or too many",
      [VSCSI_CAUSE_QUEUE_SIZE] = "a queue of too few descriptors, or of too many",
      [VSCSI_CAUSE_QUEUE_LAYOUT] = "a queue that can't lie where it should",
      [VSCSI_CAUSE_UNIT_COUNT] = "no units, or too many",
      [VSCSI_CAUSE_UNIT_LUN] = "a LUN that is too high",
      [VSCSI_CAUSE_UNIT_BLOCKS] = "a unit of no blocks, or of too many",
      [VSCSI_CAUSE_UNIT_ORDER] = "a unit that doesn't stand above the one before it",
      [VSCSI_CAUSE_NO_LUN_0] = "a unit whose target has no LUN 0",
      [VSCSI_CAUSE_UNIT_DISK] = "a unit that is given no disk, one of another capacity, or a backed one that it can't have",
      [VSCSI_CAUSE_UNIT_PROFILE] = "a unit of a profile that the device doesn't know",
      [VSCSI_CAUSE_UNIT_IDENTITY] = "a unit that says of itself what none may, or a narrow one that says anything or is read-only",
      [VSCSI_CAUSE_UNIT_NAA] = "a unit whose NAA designator another has",
  };
  return TEXT_OF(texts, cause, "an unknown cause");
}

const char *vscsi_broken_text(uint32_t fault) {
  static const char *const texts[] = {
      [VSCSI_BROKEN_NOT] = "not broken",
      [VSCSI_BROKEN_INDEX_JUMP] = "the available index ran too far ahead",
      [VSCSI_BROKEN_HEAD_OUT_OF_RANGE] = "an available entry names no descriptor",
      [VSCSI_BROKEN_NEXT_OUT_OF_RANGE] = "a descriptor goes on with none that there is",
      [VSCSI_BROKEN_CHAIN_TOO_LONG] = "a chain goes round, or is too long",
      [VSCSI_BROKEN_BUFFER_OUTSIDE] = "a buffer isn't in guest memory",
      [VSCSI_BROKEN_READABLE_AFTER_WRITABLE] = "a readable buffer behind a writable one",
      [VSCSI_BROKEN_ALREADY_OUTSTANDING] = "a head or id that the device still has",
      [VSCSI_BROKEN_BAD_INDIRECT] = "an indirect table that is malformed, or wasn't agreed to",
      [VSCSI_BROKEN_RING_OVERRUN] = "more descriptors than the ring has",
      [VSCSI_BROKEN_UNMAPPED] = "the queue isn't mapped",
  };
  return TEXT_OF(texts, fault, "an unknown fault");
}
